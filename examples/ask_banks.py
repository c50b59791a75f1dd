#!/usr/bin/env python3
"""Asks a dialog for an image's count and banks, and prints what `edr report csv` prints of it.

    examples/ask_banks.py [--image FILE] [--wait SECONDS] -- edr dialog   starts the program, and talks over its streams
    examples/ask_banks.py [--image FILE] [--wait SECONDS] HOST:PORT       talks to a server, as socat makes one of it
    examples/ask_banks.py [--image FILE] [--wait SECONDS] PATH            the same over a socket of this name, which has a `/`

A client of `edr dialog`, written from docs/DIALOG.md alone: it shares no code with the recorder and needs Python alone. It asks for
the count, the codes of the banks and then each bank, each once the last reply is there, and ends with a Bye. Each reply is checked.

A dialog doesn't tell whether a damaged bank is locked, so its line ends there. `--image` writes an image that has the same records
into a new file, for `edr report`; a damaged bank's bytes aren't told, so then there is none. A reply may take 30 seconds, or as many as
`--wait` says. The status is 0; 1 where the other side ended, was silent or said what no dialog says, or a file can't be written; 2 for
other words. Then nothing is printed but one line on standard error.
"""
import csv
import select
import socket
import subprocess
import sys
import time
from pathlib import Path

sys.dont_write_bytecode = True
import read_image

COUNT, LIST, BANK, BYE = 1, 2, 3, 4
REPLIED, REFUSED = 128, 255
REASONS = {1: "kind", 2: "length", 3: "bank"}
VOID, EVENT, LOCKED, DAMAGED = range(4)
# How many bytes the reply of a bank has after its code: the first part of a record, or both.
SIZES = {VOID: (0,), EVENT: (848, 1_008), LOCKED: (848, 1_008), DAMAGED: (3,)}
HEAD = 3


class Broken(Exception):
    """The other side ended, was silent, or said what no dialog says."""


class Usage(Exception):
    """The words aren't those of the first lines."""


class Streams:
    """The two streams to a dialog, by their descriptors."""

    def __init__(self, write, read, wait):
        self.write, self.read, self.wait = write, read, wait

    def take(self, size, by):
        """This many bytes, which have to be there at this time."""
        taken = b""
        while len(taken) < size:
            if not select.select([self.read], [], [], max(0, by - time.monotonic()))[0]:
                raise Broken(f"no reply in {self.wait:g} s")
            piece = self.read.recv(size - len(taken)) if isinstance(self.read, socket.socket) else self.read.read(size - len(taken))
            if not piece:
                raise Broken(f"it ended after {len(taken)} bytes of {size}")
            taken += piece
        return taken

    def send(self, frame):
        if isinstance(self.write, socket.socket):
            self.write.sendall(frame)
        else:
            self.write.write(frame)


def fault_line(streams, begun, by):
    """The rest of a line that begins so: no reply begins with a byte below 128, and a fault line does."""
    while not begun.endswith(b"\n") and len(begun) < 80:
        begun += streams.take(1, by)
    return begun.decode("ascii", "replace").strip()


def ask(streams, kind, body=b""):
    """What the reply to a request carries."""
    streams.send(bytes([kind]) + len(body).to_bytes(2, "big") + body)
    by = time.monotonic() + streams.wait
    first = streams.take(1, by)
    if first[0] < REPLIED:
        raise Broken(f"it says {fault_line(streams, first, by)!r}")
    length = int.from_bytes(streams.take(HEAD - 1, by), "big")
    carried = streams.take(length, by)
    if first[0] == REFUSED and length == 3:
        raise Broken(f"it refuses the {REASONS.get(carried[0], 'code')} {int.from_bytes(carried[1:], 'big')}")
    if first[0] != kind + REPLIED:
        raise Broken(f"a reply of kind {first[0]} to a request of kind {kind}")
    return carried


def ask_all(streams):
    """The count, and for each bank its code and what is told of it."""
    count = ask(streams, COUNT)
    codes = ask(streams, LIST)
    if len(count) != 4 or not 2 <= len(codes) <= 16 or max(codes) > DAMAGED:
        raise Broken(f"a count of {len(count)} bytes, the codes {codes.hex()}")
    banks = []
    for number, code in enumerate(codes, 1):
        told = ask(streams, BANK, bytes([number]))
        if told[:1] != bytes([code]) or len(told) - 1 not in SIZES[code]:
            raise Broken(f"bank {number} has {len(told)} bytes that begin with {told[:1].hex()}, and the code {code}")
        banks.append((code, told[1:]))
    if ask(streams, BYE):
        raise Broken("the reply to a Bye carries bytes")
    return int.from_bytes(count, "big"), banks


def image_of(count, banks):
    """An image that has these records, and void banks for the damaged ones. Its choice for new events isn't told, and is `keep`."""
    image = bytearray(read_image.FRONT + read_image.BANK * len(banks))
    image[:12] = read_image.MAGIC + bytes([0, 2, len(banks), 0])
    slot = read_image.SLOTS_OF_COUNT[0]
    image[slot] = read_image.OPEN
    image[slot + 4 : slot + 8] = count.to_bytes(4, "big")
    for number, (code, told) in enumerate(banks):
        at = read_image.FRONT + read_image.BANK * number
        if code in (EVENT, LOCKED):
            image[at] = read_image.OPEN
            image[at + 1] = read_image.OPEN if code == LOCKED else 0
            image[at + 2] = read_image.OPEN if len(told) > SIZES[code][0] else 0
            image[at + read_image.PRE : at + read_image.PRE + len(told)] = told
    return bytes(image)


def rows_of(image, banks):
    """The rows of the report, with the damaged banks as they were told."""
    rows = list(read_image.report(image))
    broken = [name for block, name, value in rows if value != "value" and str(value).startswith("damaged at ")]
    if broken:
        raise Broken(f"the record of {broken[0]} is none")
    for number, (code, told) in enumerate(banks, 1):
        if code == DAMAGED:
            rows.insert(-1, (0, f"bank {number}", f"damaged at {int.from_bytes(told[:2], 'big')} found {told[2]}"))
    return rows


def connected(where, wait):
    if "/" in where:
        link = socket.socket(socket.AF_UNIX)
        link.settimeout(wait)
        link.connect(where)
    else:
        host, _, port = where.rpartition(":")
        if not host or not port.isdigit():
            raise Usage
        link = socket.create_connection((host, int(port)), wait)
    return Streams(link, link, wait)


def started(command, wait):
    child = subprocess.Popen(command, stdin=subprocess.PIPE, stdout=subprocess.PIPE, bufsize=0)
    return Streams(child.stdin, child.stdout, wait)


def streams_by(words):
    """The streams and the file for the image, by the words of the command line."""
    image, wait = None, 30.0
    while len(words) > 1 and words[0] in ("--image", "--wait"):
        if words[0] == "--image":
            image = Path(words[1])
        else:
            wait = float(words[1]) if words[1].replace(".", "", 1).isdigit() else -1
        words = words[2:]
    if wait <= 0 or not words:
        raise Usage
    if words[0] == "--" and len(words) > 1:
        return started(words[1:], wait), image
    if len(words) == 1 and not words[0].startswith("-"):
        return connected(words[0], wait), image
    raise Usage


def run(words):
    if words in (["--help"], ["-h"]):
        print(__doc__, end="")
        return 0
    try:
        streams, file = streams_by(words)
        count, banks = ask_all(streams)
        image = image_of(count, banks)
        rows = rows_of(image, banks)
        if file and any(code == DAMAGED for code, _ in banks):
            raise Broken("a bank is damaged, so no image can be written")
        if file:
            with file.open("xb") as out:
                out.write(image)
    except Usage:
        print("usage: ask_banks.py [--image FILE] [--wait SECONDS] (HOST:PORT | PATH | -- COMMAND..); --help says more", file=sys.stderr)
        return 2
    except Broken as why:
        print(f"ask_banks.py: {why}", file=sys.stderr)
        return 1
    csv.writer(sys.stdout, lineterminator="\n").writerows(rows)
    return 0


def main():
    if sys.stdout is None:
        sys.exit("ask_banks.py: standard output is closed")
    try:
        status = run(sys.argv[1:])
        sys.stdout.flush()
        return status
    except OSError as fault:
        print(f"ask_banks.py: {fault.filename or 'the streams'}: {fault.strerror or fault}", file=sys.stderr)
        sys.stdout = None
        return 1


if __name__ == "__main__":
    sys.exit(main())
