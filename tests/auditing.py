"""Runs of the program over an image, their audits, and single changes of them, each with what an audit then has to say.

What is wanted of an audit is told without it, in the way of docs/AUDIT.md. What an image says is told by `examples/read_image.py`, which
shares no code with the program: the header, the count, and of each bank that it is void, or the bytes of its record as far as they are
read, or where it is damaged. A part of a record has one spelling, so two records are one where these bytes are the same. A report isn't
asked for this: it tells times in tenths of a second and counts up to 60000.

What a run may come to is told by `replay`. It leaves what was written up to a planned cut. The other end of that cut, if it has two, is
what the cut in the call before leaves, or in the one before that where the call was a sync. So the ends of each cycle are found in
turn, over each image that the cycles before it may have left.

Runs stand in memory (/dev/shm). What falls short is kept there too, or in the folder that the variable KEPT_IN names.
"""
import collections, csv, dataclasses, functools, importlib.util, io, os, pathlib, re, select, subprocess, sys, tempfile, threading

TOP = pathlib.Path(__file__).resolve().parent.parent
MEMORY = "/dev/shm" if os.path.isdir("/dev/shm") else None
LONGEST = 300
AGREES = "agrees"
MOST_STOPS = 8
FRONT, BANK, OPEN = 96, 1_024, 0xA5
CHOICE, COUNTS, GATES, PARTS = 11, (32, 64), 3, ((16, 848), (864, 160))
PRE, CRASH = PARTS[0][0], PARTS[1][0]
# The rows of a plain trace that plan a power cut with which a cycle may have two ends.
FORK = re.compile(rb"(?m)^(on|cut),([1-9]\d*),$")
KEPT = re.compile(rb"(?m)^cycle (\d+) take at (\d+): bank \d+\n(?:.* lock at .*\n)?cycle \d+ done at (\d+): bank")
QUIET = b"on,0,\ncut,0,\n"


def second_reader():
    sys.dont_write_bytecode = True
    spec = importlib.util.spec_from_file_location("read_image", TOP / "examples/read_image.py")
    module = importlib.util.module_from_spec(spec)
    spec.loader.exec_module(module)
    return module


READER = second_reader()


@dataclasses.dataclass
class Run:
    """An image, a trace, and the image and the report that came of them."""

    before: bytes
    trace: bytes
    after: bytes
    report: bytes
    status: int = 0
    seconds: float = 0
    # The first line of the pieces, where it isn't the one that is due.
    front: bytes = b""

    def but(self, **changes):
        return dataclasses.replace(self, **changes)


@dataclasses.dataclass
class Ended:
    """What came of the program, and the processor time that it took."""

    status: int
    said: bytes
    image: bytes
    seconds: float


# ---- runs of the program

ROOM = tempfile.TemporaryDirectory(dir=MEMORY)
OWN = threading.local()


def own_folder():
    """A folder of this thread alone."""
    if getattr(OWN, "process", None) != os.getpid():
        OWN.process, OWN.folder = os.getpid(), pathlib.Path(tempfile.mkdtemp(dir=ROOM.name))
    return OWN.folder


def waited(child):
    """The status of the program and its processor time; one that doesn't end is killed."""
    number = os.pidfd_open(child.pid)
    watch = select.poll()
    watch.register(number, select.POLLIN)
    if not watch.poll(1_000 * LONGEST):
        child.kill()
    os.close(number)
    _, status, used = os.wait4(child.pid, 0)
    child.returncode = os.waitstatus_to_exitcode(status)
    return child.returncode, used.ru_utime + used.ru_stime


def command(program, words, image, given=b""):
    """Runs the program over this image, or where there is none."""
    folder = own_folder()
    memory, source, sink = (folder / name for name in ("edr.nvm", "given", "said"))
    source.write_bytes(given)
    if image is None:
        memory.unlink(missing_ok=True)
    else:
        memory.write_bytes(image)
    with source.open("rb") as takes, sink.open("wb") as gives:
        status, seconds = waited(subprocess.Popen([program, *words], cwd=folder, stdin=takes, stdout=gives))
    return Ended(status, sink.read_bytes(), memory.read_bytes(), seconds)


def new_image(program, banks, choice):
    return command(program, ["format", str(banks), choice], None).image


def run_of(program, before, trace, words=("replay",)):
    """A run of `replay`, or of `drive`."""
    ended = command(program, words, before, trace)
    return Run(before, trace, ended.image, ended.said, ended.status, ended.seconds)


def audited(program, run):
    """What `edr audit` says of a run without its first words, `agrees` or in what the pieces differ; and the processor time."""
    front = run.front or b"%d %d\n" % (len(run.before), len(run.trace))
    ended = command(program, ["audit"], run.after, b"".join([front, run.before, run.trace, run.report]))
    return said_in(ended, run.after), ended.seconds


def said_in(ended, image):
    line = ended.said.decode(errors="backslashreplace")
    for status, front in ((0, "audit: "), (13, "audit: differs in ")):
        if ended.status == status and line.startswith(front) and line.endswith("\n") and ended.image == image:
            return line[len(front) : -1]
    return f"status {ended.status}, {line[:80]!r}, the image {'as it was' if ended.image == image else 'changed'}"


def audit(program, run):
    return audited(program, run)[0]


# ---- what an image says


def bytes_that_say(bank):
    """The bytes of a bank that are read: none where it is void, and otherwise its lock and its parts."""
    if bank[0] != OPEN:
        return None
    return bank[1] == OPEN, bank[PRE:CRASH], bank[CRASH:] if bank[2] == OPEN else None


@functools.lru_cache(maxsize=10_000)
def damage_of(bank):
    """The place and the byte of a bank's damage, and its lock; none where it is void or holds an event."""
    try:
        READER.read_pre(bank)
        if bank[2] == OPEN:
            READER.read_crash(bank)
    except READER.Damaged as fault:
        return fault.args[0], bank[fault.args[0]], bank[1] == OPEN
    return None


@dataclasses.dataclass
class Said:
    """What an image says: its choice, its count and its banks."""

    choice: int
    count: int
    banks: list

    def key(self):
        """The same for two images only if they say the same."""
        return self.choice, self.count, tuple(map(bytes_that_say, self.banks))

    def __eq__(self, other):
        if (self.choice, self.count, len(self.banks)) != (other.choice, other.count, len(other.banks)):
            return False
        others = [(one, it) for one, it in zip(self.banks, other.banks) if bytes_that_say(one) != bytes_that_say(it)]
        return all(OPEN == one[0] == it[0] and damage_of(one) and damage_of(one) == damage_of(it) for one, it in others)


def says(image):
    """What an image says, or none where it is refused."""
    try:
        count = READER.check_front(image)
    except READER.Refused:
        return None
    places = range(FRONT, FRONT + BANK * count, BANK)
    return Said(image[CHOICE], READER.count_of(image), [image[at : at + BANK] for at in places])


# ---- what a run may come to


def plain(trace):
    """A good trace with its rows in the plain form."""
    if b'"' not in trace and b"\r" not in trace and not trace.startswith(b"\xef"):
        return trace
    rows = csv.reader(io.StringIO(trace.decode("utf-8-sig"), newline=""))
    return "".join(",".join(row) + "\n" for row in rows if row).encode()


def cycles_in(trace):
    """The cycles of a plain trace."""
    begins = [it.start() for it in re.finditer(rb"(?m)^on,", trace)]
    return [trace[begin:end] for begin, end in zip(begins, [*begins[1:], len(trace)])]


def fork_of(cycle):
    """The row of a cycle with which it may have two ends, if it has one."""
    row = FORK.match(cycle, cycle.rfind(b"\n", 0, len(cycle.rstrip(b"\n"))) + 1)
    return row if row and (row[1] == b"cut" or int(row[2]) > 4) else None


def forks_in(trace):
    """How many cycles of a plain trace may have two ends."""
    return sum(fork_of(cycle) is not None for cycle in cycles_in(trace))


def stretches(trace):
    """The cycles of a plain trace, up to each that may have two ends."""
    found = []
    for cycle in cycles_in(trace):
        found.append(cycle)
        if fork_of(cycle):
            yield found
            found = []
    if found:
        yield found


def with_cut_in(cycle, call):
    """The cycle with its cut in another call; in none of them, where no command is begun."""
    row = fork_of(cycle)
    if call == 0 and row[1] == b"cut":
        return QUIET
    return cycle[: row.start()] + b"%s,%d,\n" % (row[1], call)


def lines_of_cycles(report):
    """The lines of a report that tell of the cycles, and of nothing that the image has."""
    return b"".join(line for line in report.splitlines(keepends=True) if line.startswith(b"cycle "))


def ends_of(program, image, cycles):
    """What cycles may leave of which the last alone may have two ends, the one of fewer steps first; and the lines of the cycles."""
    run = run_of(program, image, b"".join(cycles))
    lines, row = lines_of_cycles(run.report), fork_of(cycles[-1])
    reached = row and (row[1] == b"on" or b", stopped in call %s\n" % row[2] in lines[lines.rindex(b": number ") :])
    for call in (int(row[2]) - 1, int(row[2]) - 2) if reached else ():
        if call >= 0:
            other = run_of(program, image, b"".join([*cycles[:-1], with_cut_in(cycles[-1], call)]))
            if says(other.after) != says(run.after):
                return [other.after, run.after], lines
    return [run.after], lines


def outcomes(program, ran):
    """All to which a run may come, in their order: each an image and the lines of the cycles."""
    trace = plain(ran.trace)
    if not forks_in(trace):
        return [(ran.after, lines_of_cycles(ran.report))]
    found, place = [(ran.before, b"")], 0
    for stretch in stretches(trace):
        known, more = {}, []
        for image, text in found:
            said = says(image).key()
            if said not in known:
                known[said] = ends_of(program, image, stretch)
            ends, lines = known[said]
            lines = re.sub(rb"(?m)^cycle (\d+)", lambda it: b"cycle %d" % (int(it[1]) + place), lines)
            more += [(end, text + lines) for end in ends]
        found, place = more, place + len(stretch)
    return found


def report_of(program, image):
    return command(program, ["report"], image).said


def first_difference(one, other):
    return next((at for at, (a, b) in enumerate(zip(one, other)) if a != b), min(len(one), len(other)))


def wanted_of(program, run, ran=None):
    """What an audit has to say of a run's pieces. `ran` is the replay of its trace over its image before, where it was made."""
    if run.front:
        return "lengths"
    if says(run.before) is None:
        return "before"
    ran = ran or run_of(program, run.before, run.trace)
    refused = re.match(rb"fault: trace row (\d+): ", ran.report)
    if ran.status:
        return f"trace row {refused[1].decode()}" if refused else f"no status {ran.status}"
    stops = forks_in(plain(run.trace))
    if stops > MOST_STOPS:
        return f"stops {stops}"
    said = says(run.after)
    if said is None:
        return "after"
    if said == says(ran.after) and run.report == ran.report:
        return AGREES
    texts = [text for image, text in outcomes(program, ran) if says(image) == said]
    if not texts:
        return "run"
    tail = report_of(program, run.after)
    if any(text + tail == run.report for text in texts):
        return AGREES
    return f"report at {first_difference(run.report, texts[0] + tail)}"


# ---- one change


def place_of(image, at):
    """In words, where a byte of an image stands."""
    if at < FRONT:
        return f"byte {at} of the front"
    bank, within = divmod(at - FRONT, BANK)
    gates = image[FRONT + BANK * bank :][:GATES]
    state = "void" if gates[0] != OPEN else "of an event" if gates[2] == OPEN else "of an event that isn't completed"
    return f"byte {within} of bank {bank + 1}, which is {state}"


def with_byte(run, draws):
    """A byte of the image after: of a part, or of the front or a gate."""
    bank = FRONT + BANK * draws.randrange(run.after[10])
    at, size = draws.choice(PARTS)
    place = bank + at + draws.randrange(draws.choice((12, size)))
    if draws.random() > 0.6:
        place = draws.choice((draws.randrange(12), draws.choice(COUNTS) + draws.randrange(8), bank + draws.randrange(GATES)))
    changed = bytearray(run.after)
    changed[place] ^= draws.randint(1, 255)
    return place_of(run.after, place), run.but(after=bytes(changed))


def with_digit(run, draws):
    """A digit of the report."""
    at = draws.choice([it.start() for it in re.finditer(rb"\d", run.report)])
    digit = b"%d" % ((run.report[at] - ord("0") + draws.randint(1, 9)) % 10)
    return f"digit {at} of the report", run.but(report=run.report[:at] + digit + run.report[at + 1 :])


def kept_windows(report):
    """Of each cycle, by its place, the ticks from the confirmation to the close of an event that a bank took: of the last two events."""
    found = collections.defaultdict(list)
    for cycle, first, last in KEPT.findall(report)[-2:]:
        found[int(cycle)].append((int(first), int(last)))
    return found


def drawn_row(run, rows, draws):
    """The place of a row: a sample in an event that was kept, if there is one, or any row."""
    windows, near, at = kept_windows(run.report), [], 0
    for place, cycle in enumerate(cycles_in(run.trace) if windows and draws.random() < 0.7 else (), 1):
        for row in cycle.split(b"\n")[:-1] if place in windows else ():
            word, tick = row.split(b",")[:2]
            if word in (b"along", b"across", b"restraint") and any(first <= int(tick) <= last for first, last in windows[place]):
                near.append(at)
            at += 1
        at += 0 if place in windows else cycle.count(b"\n")
    return draws.choice(near) if near else draws.randrange(len(rows))


def changed_row(row, draws):
    """A sample with another value, one of which no sensor has; another row is left out, as some samples are."""
    word, *fields = row.split(b",")
    if len(fields) == 2 and word in (b"along", b"across") and fields[1] and draws.random() < 0.8:
        other = draws.choice([it for it in (0, 99_999, -99_999, 100_001) if it != int(fields[1])])
        return [b"%s,%s,%d" % (word, fields[0], other)]
    if len(fields) == 2 and word == b"restraint" and draws.random() < 0.8:
        return [b"%s,%s,%d" % (word, fields[0], draws.randint(1, 255))]
    return []


def with_row(run, draws):
    """A row of the trace."""
    rows = run.trace.split(b"\n")
    at = drawn_row(run, rows, draws)
    row = changed_row(rows[at], draws)
    what = f"row {at + 1} of the trace, {rows[at].decode(errors='backslashreplace')}: {row[0].decode() if row else 'left out'}"
    return what, run.but(trace=b"\n".join(rows[:at] + row + rows[at + 1 :]))


KINDS = {"byte": with_byte, "digit": with_digit, "row": with_row}


def kinds_of(run):
    """The kinds of change that a run can have."""
    return KINDS if b"," in run.trace else {name: kind for name, kind in KINDS.items() if name != "row"}


def wanted_of_change(program, run, changed):
    """What an audit has to say of a run with one thing changed."""
    return wanted_of(program, changed, run if changed.trace == run.trace and changed.before == run.before else None)


def keep(run, name):
    """Puts the pieces of a run into a folder of its own."""
    kept = tempfile.mkdtemp(prefix=f"{name}-", dir=os.environ.get("KEPT_IN", MEMORY))
    for piece in ("before", "trace", "after", "report"):
        pathlib.Path(kept, piece).write_bytes(getattr(run, piece))
    return kept
