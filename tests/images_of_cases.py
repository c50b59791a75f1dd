"""The images that the sessions of cases/ come to.

A session's `edr` is a script here, which keeps the image as it stands before a command and after it.
"""
import concurrent.futures, os, pathlib, tempfile

import session

KEEPING = """#!/bin/sh
keep() {{ [ ! -s edr.nvm ] || cp edr.nvm {kept}/$(sha256sum < edr.nvm | cut -c1-64); }}
keep
{program} "$@"
status=$?
keep
exit $status
"""


def images_of_cases(program):
    """The different images of all sessions, in one order."""
    with tempfile.TemporaryDirectory(dir='/dev/shm') as kept, tempfile.TemporaryDirectory() as first:
        script = os.path.join(first, 'edr')
        with open(script, 'w') as file:
            file.write(KEEPING.format(kept=kept, program=program))
        os.chmod(script, 0o755)
        pages = sorted(session.TOP.glob('cases/*.md'))
        every = [one for page in pages for one in session.sessions(page.name, page.read_bytes())]
        with concurrent.futures.ThreadPoolExecutor(os.cpu_count()) as pool:
            list(pool.map(lambda one: session.run(one, [first, *session.BUILT]), every))
        return sorted((pathlib.Path(kept) / name).read_bytes() for name in os.listdir(kept))
