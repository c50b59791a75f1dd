#!/usr/bin/env python3
"""Makes tables with one value a cell of the table of a report, for a spreadsheet, sqlite3 or pandas.

    examples/tidy.py report.csv FOLDER     writes three tables into FOLDER, which is made if it is missing
    examples/tidy.py --json report.csv     prints all of it as JSON

    FOLDER/events.csv       a row for each event; units stand in the names of the columns
    FOLDER/pre_crash.csv    event, s (0 is time zero), speed (km/h), throttle (%), brake
    FOLDER/delta_v.csv      event, ms (from time zero), along (km/h), across (km/h)

An empty cell is a `none` of the report, and so is null in JSON. A damaged bank has no row: it is told when the tables are
written, and stands in the JSON. No file that is there is written over. It needs Python alone.

Status: 0, done; 1, a file can't be read or written; 2, the words are none of these; 3, the file is no table of a report.
"""

import csv
import hashlib
import json
import re
import sys
from pathlib import Path

# The lines of an event in their order: a list has its pattern for one value, another line that of its value and its columns.
SWITCH = "(on|off)"
RESTRAINTS = [f"{seat} {what}" for what in ("frontal", "side", "curtain", "pretensioner") for seat in ("driver", "passenger")]
LINES = {
    "event": (r"(\d+)", ["event"]),
    "bank": (r"(\d+)", ["bank"]),
    "ignition cycle, crash": (r"(\d+)", ["ignition_cycle"]),
    "time zero": (r"(\d+) ms", ["time_zero_ms"]),
    "multi-event, number of events": (r"(\d+)", ["number_of_events"]),
    "time from event 1 to 2": (r"(\d+\.\d) s", ["time_from_event_1_to_2_s"]),
    "deployment event": ("(yes|no)", ["deployment_event"]),
    "pre-crash profile": ("(long|short)", ["pre_crash_profile"]),
    "speed, km/h": (r"\d+", None),
    "throttle, %": (r"\d+", None),
    "service brake": ("on|off", None),
    "driver belt": (SWITCH, ["driver_belt"]),
    "frontal air bag warning lamp": (SWITCH, ["frontal_air_bag_warning_lamp"]),
    "end of event": (r"(\d+) ms", ["end_of_event_ms"]),
    "delta-V longitudinal, km/h": (r"-?\d+", None),
    "delta-V lateral, km/h": (r"-?\d+", None),
    "maximum delta-V longitudinal": (r"(-?\d+) km/h at (\d+) ms", ["maximum_along_kmh", "maximum_along_ms"]),
    "maximum delta-V lateral": (r"(-?\d+) km/h at (\d+) ms", ["maximum_across_kmh", "maximum_across_ms"]),
    "time of maximum resultant": (r"(\d+) ms", ["maximum_resultant_ms"]),
    "ticks without sample": (r"(\d+) longitudinal, (\d+) lateral", ["without_sample_along_ms", "without_sample_across_ms"]),
    **{f"{name} deployment": (r"(\d+) ms", [f"{name.replace(' ', '_')}_ms"]) for name in RESTRAINTS},
    "complete file recorded": ("(yes|no)", ["complete_file_recorded"]),
}
# For each profile the seconds between two slots, and how many slots stand before the one at time zero.
PROFILES = {"long": (0.1, 200), "short": (0.5, 10)}
COLUMNS = {
    "events": [column for _, columns in LINES.values() for column in columns or ()],
    "pre_crash": ["event", "s", "speed", "throttle", "brake"],
    "delta_v": ["event", "ms", "along", "across"],
}
DAMAGED = r"damaged at (\d+) found (\d+) locked (yes|no)"


class NoReport(Exception):
    """The table is none of a report, and why."""


def value_of(text):
    """A value without its unit: a number, a word, or None."""
    if re.fullmatch(r"-?\d+", text):
        return int(text)
    if re.fullmatch(r"-?\d+\.\d+", text):
        return float(text)
    return None if text == "none" else text


def line_of(row, name, value):
    """What a line of an event has: its list, or its columns."""
    pattern, columns = LINES[name]
    if columns is None:
        if not re.fullmatch(f"(?:{pattern}|none)(?: (?:{pattern}|none))*", value):
            raise NoReport(f"row {row}: {name} is no list: {value[:40]}")
        return {name: [value_of(each) for each in value.split(" ")]}
    found = re.fullmatch(pattern, value)
    if found is None and value != "none":
        raise NoReport(f"row {row}: {name} can't be {value[:40]}")
    return dict(zip(columns, map(value_of, found.groups()) if found else [None] * len(columns)))


def event_of(row, rows):
    """An event of its lines, the first of which is that row, with its two tables."""
    lines = {}
    for at, ((_, name, value), wanted) in enumerate(zip(rows, LINES), row):
        if name != wanted:
            raise NoReport(f"row {at}: {name[:40]} stands where {wanted} is next")
        lines |= line_of(at, name, value)
    before = [lines.pop(name) for name in ("speed, km/h", "throttle, %", "service brake")]
    after = [lines.pop(f"delta-V {axis}, km/h") for axis in ("longitudinal", "lateral")]
    step, count = PROFILES.get(lines["pre_crash_profile"], (0, 0))
    if {len(each) for each in before} != {count + 1} or len(after[0]) != len(after[1]):
        raise NoReport(f"row {row}: an event whose lists don't have the length of its profile, or of each other")
    if after == [[None], [None]]:
        after = [[], []]
    before = [[round((at - count) * step, 1), *values] for at, values in enumerate(zip(*before))]
    return {**lines, "pre_crash": before, "delta_v": [[10 * at, *values] for at, values in enumerate(zip(*after))]}


def rows_of(data):
    """The rows of a table, the first of which names its columns. A blank line is none."""
    try:
        rows = [row for row in csv.reader(data.decode("utf-8-sig").splitlines()) if row]
    except (UnicodeDecodeError, csv.Error):
        raise NoReport("the file is no text") from None
    if rows and rows[0][0].startswith("fault: "):
        raise NoReport(f"the file is the line of a fault: {','.join(rows[0])}")
    if not rows or rows[0] != ["block", "name", "value"]:
        raise NoReport("row 1: the first row isn't block,name,value: give what `edr report csv` prints")
    for at, row in enumerate(rows[1:], 2):
        if len(row) != 3:
            raise NoReport(f"row {at}: {len(row)} fields in place of three")
    if rows[-1][:2] != ["0", "ignition cycle, download"]:
        raise NoReport(f"row {len(rows)}: the last row isn't ignition cycle, download: the file was cut")
    return rows


def report_of(data):
    """All that a report tells."""
    rows = rows_of(data)
    report = {"table_sha256": hashlib.sha256(data).hexdigest(), "run": [], "events": [], "damaged_banks": []}
    at = 1
    while at < len(rows):
        block, name, value = rows[at]
        damaged = re.fullmatch(DAMAGED, value)
        if block != "0":
            lines = rows[at : at + len(LINES)]
            if {line[0] for line in lines} != {str(len(report["events"]) + 1)} or len(lines) < len(LINES):
                raise NoReport(f"row {at + 1}: block {block[:40]} doesn't have the lines of one event")
            report["events"].append(event_of(at + 1, lines))
            at += len(LINES) - 1
        elif name == "ignition cycle, download":
            report["ignition_cycle_download"] = value_of(value)
        elif damaged:
            found = {"at": int(damaged[1]), "found": int(damaged[2]), "locked": damaged[3]}
            report["damaged_banks"].append({"bank": value_of(name.removeprefix("bank ")), **found})
        else:
            report["run"].append({"name": name, "value": value})
        at += 1
    return report


def tables_of(report):
    """The rows of the three tables."""
    events = report["events"]
    yield "events", [[event[column] for column in COLUMNS["events"]] for event in events]
    for name in ("pre_crash", "delta_v"):
        yield name, [[event["event"], *row] for event in events for row in event[name]]


def write_tables(report, folder):
    folder.mkdir(parents=True, exist_ok=True)
    for name, rows in tables_of(report):
        with open(folder / f"{name}.csv", "x", newline="") as file:
            csv.writer(file, lineterminator="\n").writerows([COLUMNS[name], *rows])
        print(f"{folder / name}.csv, rows: {len(rows)}")
    for bank in report["damaged_banks"]:
        print("bank {bank} is damaged: at {at} found {found} locked {locked}".format(**bank))


def as_json(report):
    """The report as JSON, where each row of a table has the names of its columns."""
    for event in report["events"]:
        for name in ("pre_crash", "delta_v"):
            event[name] = [dict(zip(COLUMNS[name][1:], row)) for row in event[name]]
    return json.dumps(report, indent=1)


def run(words):
    if words in (["--help"], ["-h"]):
        print(__doc__, end="")
    elif len(words) == 2 and words[0] == "--json":
        print(as_json(report_of(Path(words[1]).read_bytes())))
    elif len(words) == 2 and not words[0].startswith("-"):
        write_tables(report_of(Path(words[0]).read_bytes()), Path(words[1]))
    else:
        print("usage: tidy.py report.csv FOLDER, or tidy.py --json report.csv; tidy.py --help says more", file=sys.stderr)
        return 2
    return 0


def main():
    if sys.stdout is None:
        sys.exit("tidy.py: standard output is closed")
    try:
        status = run(sys.argv[1:])
        sys.stdout.flush()
        return status
    except NoReport as fault:
        print(f"tidy.py: {fault}", file=sys.stderr)
        return 3
    except OSError as fault:
        print(f"tidy.py: {fault.filename or 'standard output'}: {fault.strerror}", file=sys.stderr)
        sys.stdout = None
        return 1


if __name__ == "__main__":
    sys.exit(main())
