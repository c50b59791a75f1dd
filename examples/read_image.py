#!/usr/bin/env python3
"""Prints what `edr report csv` prints of an image: a second reader, written from docs/FORMATS.md and docs/REPORT.md alone.

    examples/read_image.py edr.nvm

It shares no code with the recorder and needs Python alone. An image that is refused gets its one line of docs/FAULTS.md
and the status 7. A file that can't be read, or an output that can't be written, has the status 1, and other words 2.
"""

import csv
import sys
from pathlib import Path

MAGIC = b"EDRIMAGE"
FRONT, BANK = 96, 1_024
SLOTS_OF_COUNT = (32, 64)
PRE, CRASH = 16, 864
ROOM = 201
# The profile bytes, each with its name and how many slots a list then has.
PROFILES = {1: ("short", 11), 2: ("long", 201)}
OPEN = 0xA5
DAY, DURATION, LAST_COUNT = 86_400_000, 500, 4_294_967_295
MOST_SPEED, MOST_CHANGE, LONGEST_PAIR = 300, 3_000, 5_000
RESTRAINTS = [
    f"{seat} {what}"
    for what in ("frontal", "side", "curtain", "pretensioner")
    for seat in ("driver", "passenger")
]
SWITCH = {0: "off", 1: "on", None: "none"}


class Refused(Exception):
    """The image isn't one that the recorder reads."""


class Damaged(Exception):
    """The bytes are no part; the place is that of the first byte with which they can be none."""


class Fields:
    """Reads the fields of a part one after the other, each of which may have certain values."""

    def __init__(self, bank, at):
        self.bank, self.at = bank, at

    def take(self, width, allowed):
        """The next field: big-endian, of so many bytes; `allowed` are the ranges of its values, from low to high."""
        low, high = 0, 256**width - 1
        for place in range(self.at, self.at + width):
            # What is known of the number once this byte is read.
            step = 256 ** (self.at + width - 1 - place)
            low += self.bank[place] * step
            high = low + step - 1
            if not any(first <= high and low <= last for first, last in allowed):
                raise Damaged(place)
        self.at += width
        return low

    def optional(self, width, most):
        """A number up to `most`, or all ones for none."""
        none = 256**width - 1
        number = self.take(width, [(0, most), (none, none)])
        return None if number == none else number

    def change(self, most):
        """A whole number from -most to most."""
        number = self.take(2, [(0, most), (65_536 - most, 65_535)])
        return number - 65_536 if number > 32_767 else number

    def zeros(self, count):
        for _ in range(count):
            self.take(1, [(0, 0)])

    def slots(self, count, width, most):
        """The slots of a list, and zeros in the rest of its room."""
        slots = [self.optional(width, most) for _ in range(count)]
        self.zeros(width * (ROOM - count))
        return slots


def read_pre(bank):
    """The part of a record that stood before time zero."""
    fields = Fields(bank, PRE)
    pre = {"cycle": fields.take(4, [(1, LAST_COUNT)]), "zero": fields.take(4, [(1, DAY)])}
    pre["place"] = fields.take(1, [(1, 2)])
    pre["profile"], count = PROFILES[fields.take(1, [(1, 2)])]
    pre["after"] = fields.take(2, [(0, 0)] if pre["place"] == 1 else [(1, LONGEST_PAIR)])
    pre["speed"] = fields.slots(count, 2, MOST_SPEED)
    pre["throttle"] = fields.slots(count, 1, 100)
    pre["brake"] = fields.slots(count, 1, 1)
    pre["belt"] = fields.optional(1, 1)
    pre["lamp"] = fields.optional(1, 1)
    fields.zeros(30)
    return pre


def read_crash(bank):
    """The part of a record that came after time zero."""
    fields = Fields(bank, CRASH)
    end = fields.take(2, [(20, DURATION)])
    window = min(300, end + 30)
    points = min(250, end + 30) // 10 + 1
    crash = {"end": end, "missing": [], "axes": [], "greatest": []}
    for _ in range(2):
        crash["axes"].append([fields.change(MOST_CHANGE if 0 < k < points else 0) for k in range(26)][:points])
    for _ in range(2):
        crash["greatest"].append((fields.change(MOST_CHANGE), fields.take(2, [(0, window)])))
    crash["resultant"] = fields.take(2, [(0, window)])
    crash["missing"] = [fields.take(2, [(0, window)]) for _ in range(2)]
    crash["fired"] = [fields.optional(2, max(end, window)) for _ in range(8)]
    fields.zeros(24)
    return crash


def check_front(image):
    """Refuses a front that the recorder refuses, and answers with the number of banks."""
    if len(image) < FRONT:
        raise Refused(f"image short {len(image)} of {FRONT}")
    for at, letter in enumerate(MAGIC):
        if image[at] != letter:
            raise Refused(f"image not formatted at {at} found {image[at]}")
    version = int.from_bytes(image[8:10], "big")
    if version != 2:
        raise Refused(f"image version {version}")
    if not 2 <= image[10] <= 16:
        raise Refused(f"image banks {image[10]}")
    if image[11] > 1:
        raise Refused(f"image choice {image[11]}")
    size = FRONT + BANK * image[10]
    if len(image) < size:
        raise Refused(f"image short {len(image)} of {size}")
    return image[10]


def read_banks(image, banks):
    """The records of the image and its damaged banks, each with the number of its bank."""
    records, damaged = [], []
    for number in range(1, banks + 1):
        begin = FRONT + BANK * (number - 1)
        bank = image[begin : begin + BANK]
        if bank[0] != OPEN:
            continue
        locked = bank[1] == OPEN
        try:
            pre = read_pre(bank)
            crash = read_crash(bank) if bank[2] == OPEN else None
            records.append((number, locked, pre, crash))
        except Damaged as fault:
            damaged.append((number, locked, fault.args[0], bank[fault.args[0]]))
    return sorted(records, key=lambda r: (r[2]["cycle"], r[2]["zero"], r[0])), damaged


def count_of(image):
    """How many ignition cycles were begun: the greater number of the open slots."""
    counts = [int.from_bytes(image[at + 4 : at + 8], "big") for at in SLOTS_OF_COUNT if image[at] == OPEN]
    return max(counts, default=0)


def listed(values):
    return " ".join("none" if value is None else str(value) for value in values)


def milliseconds(value):
    return "none" if value is None else f"{value} ms"


def is_whole(pre, crash):
    slots = pre["speed"] + pre["throttle"] + pre["brake"] + [pre["belt"], pre["lamp"]]
    return crash is not None and None not in slots and crash["missing"] == [0, 0]


def lines_before(number, bank, locked, pre):
    tenths = (pre["after"] + 50) // 100
    yield "event", number
    yield "bank", bank
    yield "ignition cycle, crash", min(pre["cycle"], 60_000)
    yield "time zero", f"{pre['zero']} ms"
    yield "multi-event, number of events", pre["place"]
    yield "time from event 1 to 2", "none" if pre["place"] == 1 else f"{tenths // 10}.{tenths % 10} s"
    yield "deployment event", "yes" if locked else "no"
    yield "pre-crash profile", pre["profile"]
    yield "speed, km/h", listed(pre["speed"])
    yield "throttle, %", listed(pre["throttle"])
    yield "service brake", listed(SWITCH[value] for value in pre["brake"])
    yield "driver belt", SWITCH[pre["belt"]]
    yield "frontal air bag warning lamp", SWITCH[pre["lamp"]]


def lines_after(crash):
    axes = ("longitudinal", "lateral")
    yield "end of event", milliseconds(crash and crash["end"])
    for axis, name in enumerate(axes):
        yield f"delta-V {name}, km/h", listed(crash["axes"][axis]) if crash else "none"
    for axis, name in enumerate(axes):
        yield f"maximum delta-V {name}", "{} km/h at {} ms".format(*crash["greatest"][axis]) if crash else "none"
    yield "time of maximum resultant", milliseconds(crash and crash["resultant"])
    yield "ticks without sample", "{} longitudinal, {} lateral".format(*crash["missing"]) if crash else "none"
    for place, name in enumerate(RESTRAINTS):
        yield f"{name} deployment", milliseconds(crash and crash["fired"][place])


def report(image):
    """The lines of the report, each of a block, a name and a value."""
    records, damaged = read_banks(image, check_front(image))
    yield "block", "name", "value"
    for number, (bank, locked, pre, crash) in enumerate(records, 1):
        for name, value in lines_before(number, bank, locked, pre):
            yield number, name, value
        for name, value in lines_after(crash):
            yield number, name, value
        yield number, "complete file recorded", "yes" if is_whole(pre, crash) else "no"
    for bank, locked, at, found in damaged:
        yield 0, f"bank {bank}", f"damaged at {at} found {found} locked {'yes' if locked else 'no'}"
    yield 0, "ignition cycle, download", min(count_of(image), 60_000)


def run(words):
    if words in (["--help"], ["-h"]):
        print(__doc__, end="")
        return 0
    if len(words) != 1 or words[0].startswith("-"):
        print("usage: read_image.py IMAGE; read_image.py --help says more", file=sys.stderr)
        return 2
    try:
        rows = list(report(Path(words[0]).read_bytes()))
    except Refused as fault:
        print(f"fault: {fault}")
        return 7
    csv.writer(sys.stdout, lineterminator="\n").writerows(rows)
    return 0


def main():
    if sys.stdout is None:
        sys.exit("read_image.py: standard output is closed")
    try:
        status = run(sys.argv[1:])
        sys.stdout.flush()
        return status
    except OSError as fault:
        print(f"read_image.py: {fault.filename or 'standard output'}: {fault.strerror}", file=sys.stderr)
        sys.stdout = None
        return 1


if __name__ == "__main__":
    sys.exit(main())
