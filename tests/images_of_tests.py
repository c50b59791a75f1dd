"""The images that the tests of the crates build, without a proof of them.

All of these tests keep an image in a `MemNvm`. In copies of the repository that type tells its bytes, in hexadecimal digits, where a
reader begins at offset 0 and where a test asks for them; there `rt try --test` runs the tests, of some copies at a time. A test that
goes on past its seconds is stopped: what it told until then counts, and it is named. It ends the program where a text that is changed
in a copy doesn't stand there once, where a test fails otherwise, and where a copy tells fewer images than it is known to.
"""
import concurrent.futures, os, re, shutil, subprocess, sys, tempfile
from typing import NamedTuple

TOP = os.path.join(os.path.dirname(os.path.abspath(__file__)), '..')
SECONDS = 120
COMMANDS = 'crates/edr_cli_tests/src/commands.rt'
# What the tests of the top call share; their modules that let each call fail in turn, and the others.
SHARED = ('drives', 'expected')
FAILING = ('every_call', 'faults', 'formats')
OTHERS = ('cuts', 'driven', 'generated')


class Copy(NamedTuple):
    """A copy's name, its crate, the least number of different images that it must tell, and in some files the modules that it has alone."""

    name: str
    crate: str
    least: int
    has: dict = {}


COPIES = (
    Copy('edr_cli_tests', 'edr_cli_tests', 15, {COMMANDS: SHARED + OTHERS}),
    Copy('edr_cli_tests, failing calls', 'edr_cli_tests', 12, {COMMANDS: SHARED + FAILING}),
    Copy('edr_tests', 'edr_tests', 18),
)
# Tests that take long and have no other image than a new one. A copy has none of them.
LONG = {
    'faults': ('a_source_that_gives_the_most_is_read', 'a_source_that_gives_too_much_is_told'),
}
# What stands in a file once, and what a copy has in its place.
READ = '        self.reads = self.reads.saturating_add(1);\n'
LOOK = '        &self.state.image\n    }\n'
CALLS = 'impl Nvm for MemNvm {\n'
TELLING = {
    READ: '        if at == 0 {\n            tell_image(&self.state.image);\n        }\n' + READ,
    LOOK: '        tell_image(&self.state.image);\n' + LOOK,
    CALLS: 'unsafe extern "C" {\n    safe fn tell_image(bytes: &[u8]);\n}\n\n' + CALLS,
}
MOST = 16_480
TELL_IMAGE = """
#include <fcntl.h>
#include <stddef.h>
#include <unistd.h>

/* Appends a line of digits between < and > to the file FILE. No test has an image in a longer memory. */
void tell_image(const unsigned char *bytes, size_t size) {
    char line[2 * MOST + 3];
    int file;
    if (size > MOST) return;
    line[0] = '<';
    for (size_t i = 0; i < size; i++) {
        line[2 * i + 1] = "0123456789abcdef"[bytes[i] >> 4];
        line[2 * i + 2] = "0123456789abcdef"[bytes[i] & 15];
    }
    line[2 * size + 1] = '>';
    line[2 * size + 2] = '\\n';
    file = open(FILE, O_WRONLY | O_APPEND | O_CREAT, 0600);
    if (file < 0 || write(file, line, 2 * size + 3) < 0 || close(file) < 0) _exit(99);
}
"""


def patch(folder, path, changes):
    """Changes a file of the copy."""
    with open(os.path.join(folder, path), encoding='utf-8') as file:
        text = file.read()
    for old, new in changes.items():
        if text.count(old) != 1:
            sys.exit(f'{path}: {old.strip()!r} stands there {text.count(old)} times, and not once')
        text = text.replace(old, new)
    with open(os.path.join(folder, path), 'w', encoding='utf-8') as file:
        file.write(text)


def leave_out(folder, root, has):
    """Leaves these modules of tests alone in the copy, without the long tests of them."""
    own = os.path.join(folder, root.removesuffix('.rt'))
    with open(os.path.join(folder, root), encoding='utf-8') as file:
        there = re.findall(r'^mod (\w+);$', file.read(), re.M)
    if not set(has) <= set(there):
        sys.exit(f'{root}: its modules are {", ".join(there)}')
    lacks = [name for name in there if name not in has]
    patch(folder, root, {f'mod {name};\n': '' for name in lacks})
    for name in lacks:
        os.remove(os.path.join(own, f'{name}.rt'))
        shutil.rmtree(os.path.join(own, name), ignore_errors=True)
    for name, tests in LONG.items():
        path = os.path.join(own, f'{name}.rt')
        for test in tests if name in has and root == COMMANDS else ():
            with open(path, encoding='utf-8') as file:
                found = re.search(rf'#\[test\]\nfn {test}\(.*?^}}\n', file.read(), re.S | re.M)
            if found is None:
                sys.exit(f'{name}.rt: no test {test}')
            patch(folder, os.path.relpath(path, folder), {found[0]: ''})


def make_copy(copy, folder, told):
    """Copies the crates, in which a `MemNvm` then tells its bytes to the file `told`."""
    shutil.copytree(os.path.join(TOP, 'crates'), os.path.join(folder, 'crates'), ignore=shutil.ignore_patterns('out'))
    for name in ('crates.txt', 'HANDLES'):
        shutil.copy(os.path.join(TOP, name), folder)
    patch(folder, 'crates/edr_device/src/mem_nvm_calls.rt', TELLING)
    for root, has in copy.has.items():
        leave_out(folder, root, has)
    os.mkdir(os.path.join(folder, 'crates', 'edr_device', 'c'))
    with open(os.path.join(folder, 'crates', 'edr_device', 'c', 'tell_image.c'), 'w') as file:
        file.write(f'#define FILE "{told}"\n#define MOST {MOST}\n{TELL_IMAGE}')


def stopped_tests(copy, done):
    """The tests that went on past their seconds. Any other failure ends the program."""
    said = done.stdout + done.stderr
    if done.returncode == 0:
        return []
    failed = re.findall(r'^test (\S+) \.\.\. FAILED\n((?:    .*\n)*)', said, re.M)
    if not failed or not all('no-answer: the program did not end within the time limit' in why for _, why in failed):
        sys.exit(f'{copy.name}: its tests end with {done.returncode}:\n{said}')
    return [name for name, _ in failed]


def told_by(copy):
    """The different images that the tests of a copy tell."""
    folder = tempfile.mkdtemp(dir='/dev/shm')
    try:
        told = os.path.join(folder, 'told')
        make_copy(copy, folder, told)
        done = subprocess.run(
            ['rt', 'try', '--test', '--seconds', str(SECONDS)], cwd=os.path.join(folder, 'crates', copy.crate),
            stdin=subprocess.DEVNULL, env={**os.environ, 'RT_ALLOW_C': 'edr_device'}, capture_output=True, text=True)
        stopped = stopped_tests(copy, done)
        with open(told) as file:
            images = {bytes.fromhex(digits) for digits in re.findall(r'<([0-9a-f]+)>', file.read())}
    finally:
        shutil.rmtree(folder)
    print('; stopped: '.join([f'{copy.name}: {len(images)} images', *stopped]), flush=True)
    if len(images) < copy.least:
        sys.exit(f'{copy.name}: its tests tell {len(images)} images, and not {copy.least}')
    return images


def images_of_tests(jobs):
    """The different images of all these tests, in one order. So many copies are tried at a time."""
    with concurrent.futures.ThreadPoolExecutor(jobs) as pool:
        return sorted(set().union(*pool.map(told_by, COPIES)))
