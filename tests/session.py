"""The sessions of a page: commands with what they print, and how they are run.

A session is a block of lines that are indented by four spaces, the first of which is a command after a `$`. Its commands run
in one shell, which begins in an empty folder beside a link to examples/, with the programs and cases/ on the path. What a
command writes to standard output is compared with the page byte by byte. What it writes to standard error, and a status
other than 0, a page can only show by the command itself, as `2>&1` and `|| echo status $?` do. So both count as faults,
wherever in the command they come from: a function, a loop, or any part of a pipe.
"""
import dataclasses, os, pathlib, re, signal, subprocess, sys, tempfile

TOP = pathlib.Path(__file__).resolve().parent.parent
BUILT = [TOP / "crates" / name / "out" for name in ("edr", "edr_picture")]
PROGRAMS = ("edr", "edr_picture")
# A folder in memory, so that no session waits for a disk.
MEMORY = "/dev/shm"
# A session that takes longer than these seconds is stopped, and its last command gets this fault.
LONGEST = 120
ENDLESS = b"doesn't end"

BLOCK = re.compile(rb"(?:^    .*\n)+", re.M)
COMMAND = b"    $ "
# What the shell does at first, and around each command: `at` begins the names of the files that take what comes of it.
FIRST = "set -E -o pipefail\n"
AROUND = """exec > {at}.prints 2> {at}.says
trap 'echo "status $? of: $BASH_COMMAND" >> {at}.ends' ERR
{command}
echo $? > {at}.status
"""


@dataclasses.dataclass
class Step:
    """A command of a session, where it stands, and what it prints by its page."""

    line: int
    command: bytes
    prints: bytes


@dataclasses.dataclass
class Session:
    """The commands of a block, which is text[begin:end] of its page."""

    page: str
    begin: int
    end: int
    steps: list


@dataclasses.dataclass
class Came:
    """What came of a command: its output, and the lines that no page can show."""

    prints: bytes
    faults: list

    def is_as_wanted(self, step):
        return self.prints == step.prints and not self.faults


class Unreadable(Exception):
    """A block that has a command and doesn't begin with one."""


def steps_of(block, line):
    """The commands of a block that begins at this line of its page."""
    steps = []
    for at, text in enumerate(block.split(b"\n")[:-1]):
        if text.startswith(COMMAND):
            steps.append(Step(line + at, text[len(COMMAND) :], b""))
        elif steps:
            steps[-1].prints += text[4:] + b"\n"
        else:
            raise Unreadable(f"line {line + at}: a session begins with a command")
    return steps


def sessions(page, text):
    """The sessions of a page."""
    for block in BLOCK.finditer(text):
        if COMMAND in block[0]:
            line = text.count(b"\n", 0, block.start()) + 1
            yield Session(page, block.start(), block.end(), steps_of(block[0], line))


def path_of(first):
    """Where a session looks for programs: in the folders `first` before others."""
    return ":".join(map(str, (*first, TOP / "cases", pathlib.Path(sys.executable).parent, "/usr/bin", "/bin")))


def run_in(folder, steps, first, longest):
    """Runs the commands in this folder. What comes of them is in its files `came/N.*`; false where they don't come to an end."""
    own, came = os.path.join(folder, "own"), os.path.join(folder, "came")
    os.mkdir(own)
    os.mkdir(came)
    os.symlink(TOP / "examples", os.path.join(own, "examples"))
    script = FIRST + "".join(AROUND.format(at=f"{came}/{at}", command=os.fsdecode(it.command)) for at, it in enumerate(steps))
    shell = subprocess.Popen(
        ["bash", "-c", script], cwd=own, stdin=subprocess.DEVNULL, stdout=subprocess.DEVNULL, stderr=subprocess.DEVNULL,
        env={"PATH": path_of(first), "LANG": "C"}, start_new_session=True,
    )
    try:
        shell.wait(longest)
        return True
    except subprocess.TimeoutExpired:
        os.killpg(shell.pid, signal.SIGKILL)
        shell.wait()
        return False


def read(path):
    """The bytes of a file, or none where it is missing."""
    return path.read_bytes() if path.exists() else b""


def came_of(at, was_ended):
    """What came of the command whose files begin with this name. An unwritten status says that it didn't come to its end."""
    prints, says, ends, status = (read(at.with_suffix(it)) for it in (".prints", ".says", ".ends", ".status"))
    faults = [b"standard error: " + line for line in says.split(b"\n") if line]
    faults += [line for line in ends.split(b"\n") if line]
    if not status:
        faults.append(b"ends its session" if was_ended else ENDLESS)
    elif status != b"0\n" and not ends:
        faults.append(b"status " + status.strip())
    return Came(prints, faults)


def run(session, first=BUILT, longest=LONGEST):
    """What came of each command of a session, up to the one that ended it, if one did."""
    with tempfile.TemporaryDirectory(dir=MEMORY if os.path.isdir(MEMORY) else None) as folder:
        was_ended = run_in(folder, session.steps, first, longest)
        files = pathlib.Path(folder) / "came"
        count = len(list(files.glob("*.prints")))
        return [came_of(files / str(at), was_ended) for at in range(count)]
