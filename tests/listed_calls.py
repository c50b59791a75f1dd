"""Calls of the C library that are listed, or of which one fails, for `tests/edges`: without strace, so that the gate can do it.

A library that `cc` makes and LD_PRELOAD puts before the C library takes the program's calls of these names. It writes a line for each
into the file CALLS, its name and its descriptor, and fails the one that FAILS names, as `fsync:3` for the third.
"""
import contextlib
import os
import subprocess
import tempfile

SHIM = r'''
#define _GNU_SOURCE
#include <dlfcn.h>
#include <errno.h>
#include <fcntl.h>
#include <stdio.h>
#include <stdlib.h>
#include <string.h>
#include <unistd.h>

enum { READ, WRITE, PREAD, PWRITE, FSYNC };
static const char *const names[] = {"read", "write", "pread", "pwrite", "fsync"};
static void *next[5];
static unsigned long calls[5];

/* Lists this call, and says whether it is the one that fails. */
static int fails(int which, int fd) {
    const char *told = getenv("FAILS"), *list = getenv("CALLS");
    size_t length = strlen(names[which]);
    char line[64];
    int to, size;
    calls[which]++;
    if (list && (to = open(list, O_WRONLY | O_APPEND | O_CREAT | O_CLOEXEC, 0600)) >= 0) {
        ssize_t (*put)(int, const void *, size_t) = next[WRITE] ? next[WRITE] : (next[WRITE] = dlsym(RTLD_NEXT, "write"));
        size = snprintf(line, sizeof line, "%s %d\n", names[which], fd);
        put(to, line, size);
        close(to);
    }
    if (!next[which]) next[which] = dlsym(RTLD_NEXT, names[which]);
    if (!told || strncmp(told, names[which], length) || told[length] != ':') return 0;
    if (calls[which] != strtoul(told + length + 1, 0, 10)) return 0;
    errno = EIO;
    return 1;
}

ssize_t read(int fd, void *to, size_t size) {
    return fails(READ, fd) ? -1 : ((ssize_t (*)(int, void *, size_t))next[READ])(fd, to, size);
}

ssize_t write(int fd, const void *from, size_t size) {
    return fails(WRITE, fd) ? -1 : ((ssize_t (*)(int, const void *, size_t))next[WRITE])(fd, from, size);
}

ssize_t pread(int fd, void *to, size_t size, off_t at) {
    return fails(PREAD, fd) ? -1 : ((ssize_t (*)(int, void *, size_t, off_t))next[PREAD])(fd, to, size, at);
}

ssize_t pwrite(int fd, const void *from, size_t size, off_t at) {
    return fails(PWRITE, fd) ? -1 : ((ssize_t (*)(int, const void *, size_t, off_t))next[PWRITE])(fd, from, size, at);
}

int fsync(int fd) {
    return fails(FSYNC, fd) ? -1 : ((int (*)(int))next[FSYNC])(fd);
}
'''


def made_shim(folder):
    """The library, made in this folder."""
    source, shim = os.path.join(folder, 'calls.c'), os.path.join(folder, 'calls.so')
    with open(source, 'w') as out:
        out.write(SHIM)
    subprocess.run(['cc', '-shared', '-fPIC', '-O1', '-w', '-o', shim, source, '-ldl'], check=True)
    os.chmod(shim, 0o755)
    return shim


class Listed:
    """Runs of one program before which the library stands."""

    def __init__(self, trials, shim):
        self.trials, self.shim, self.list = trials, shim, os.path.join(os.path.dirname(shim), 'calls')

    def run(self, words, data, fails=None, wrap=()):
        """How the run ended, and its calls: each a name and a descriptor. The input is a file: how many reads a pipe takes is chance."""
        with contextlib.suppress(FileNotFoundError):
            os.remove(self.list)
        around = [f'LD_PRELOAD={self.shim}', f'CALLS={self.list}', *([f'FAILS={fails}'] if fails else [])]
        with tempfile.TemporaryFile() as source:
            source.write(data)
            source.seek(0)
            got = self.trials.run(words, wrap=[*wrap, 'env', *around], stdin=source)
        with open(self.list) as lines:
            return got, [(name, int(fd)) for name, fd in (line.split() for line in lines)]


def count(calls, name):
    return sum(it == name for it, _ in calls)


def last_sync(calls):
    """The number of the last sync among the syncs, if it comes after each write of the image and before the first text, and else 0."""
    text = next((at for at, it in enumerate(calls) if it == ('write', 1)), len(calls))
    changes = [name for name, _ in calls[:text] if name in ('pwrite', 'fsync')]
    return changes.count('fsync') if 'pwrite' in changes and changes[-1] == 'fsync' else 0


@contextlib.contextmanager
def listed(trials):
    with tempfile.TemporaryDirectory() as folder:
        os.chmod(folder, 0o777)
        yield Listed(trials, made_shim(folder))
