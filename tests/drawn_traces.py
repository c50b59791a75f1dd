"""Drawn traces of short cycles with many events, for the auditor.

A cycle has some hundred ticks and a few events, one in thirty up to 25,000 ticks, for slots of 20 seconds and pairs of 5. Rows of an axis
stand at each tick, in strikes and after them, or only where the car is struck; slow sensors give a sample now and then, are silent, or
have no row at all; the rows of a sensor may stand far after those of others. Restraints fire,
pretensioners too, also twice and at one tick, and the values lie at the thresholds or far over them. In two traces of three no air bag
fires, so that the memory doesn't fill up with locked records.
"""
import dataclasses, operator

AXES, SLOW = ("along", "across"), {"speed": 300, "throttle": 100, "brake": 1, "belt": 1, "lamp": 1}
MOST_STOPS = 8
SHORT, LONGEST = 1_500, 25_000
# How long after a strike the rows of its window stand.
WINDOW = 340
# What a slow sensor gives: any value, but a third each 0 and the greatest; the same with silence now and then; or silence alone.
VALUES = {word: 3 * [[*range(most + 1), *most * [0, most]]] for word, most in SLOW.items()}
for some in VALUES.values():
    some += [[*some[0], *(len(some[0]) // 4 * [""])], [""]]
# The first two fields of the rows of an axis at each tick; and quiet and silent rows, with their ticks.
FRONTS = {axis: [f"{axis},{tick}" for tick in range(LONGEST + 1)] for axis in AXES}
QUIET = {axis: [(tick, f"{front},0\n") for tick, front in enumerate(fronts)] for axis, fronts in FRONTS.items()}
SILENT = {axis: [(tick, f"{front},\n") for tick, front in enumerate(fronts)] for axis, fronts in FRONTS.items()}
# Steps of a tick: so few that 20 or 150 ticks meet a threshold or miss it, and many.
SIZES = (400, 401, 533, 534, 540, 800, 1_600, 1_601, 3_000, 4_000, 5_000, 20_000, 80_000, 100_000)
# What fires: air bags too, pretensioners alone, which lock nothing, or nothing.
FIRINGS = (1, 2, 4, 8, 16, 32, 64, 64, 128, 128, 192, 65, 255), (64, 128, 192), ("",)


@dataclasses.dataclass
class Strike:
    """What happens to an axis from one tick to another."""

    axis: str
    first: int
    last: int
    size: int


def strikes_of(ticks, draws):
    """The strikes of a cycle, one after the other or over one another."""
    is_long, found = ticks > SHORT, []
    tick = draws.randint(ticks * 3 // 4, ticks) if is_long else draws.randint(1, 60)
    while tick < ticks and draws.random() < 0.9:
        size = draws.choice(SIZES) * draws.choice((1, -1))
        lasts = max(1, min(200, draws.choice((90_000, 170_000)) // abs(size) + draws.randint(0, 12)))
        found.append(Strike(draws.choice(AXES), tick, tick + lasts, size))
        tick += draws.choice((0, lasts + draws.randint(10, 90), lasts + draws.randint(60, 5_200 if is_long else 400)))
    return found


def struck_rows(axis, ticks, strikes):
    """The rows of an axis where it is struck, by their ticks."""
    found = {}
    for strike in strikes:
        if strike.axis == axis:
            end = f",{strike.size}\n"
            found.update((tick, (tick, FRONTS[axis][tick] + end)) for tick in range(strike.first, min(strike.last, ticks) + 1))
    return found


def axis_rows(axis, ticks, strikes, is_full, draws):
    """The rows of an axis: at each tick, or where the car is struck and each 500 ticks; some are left out, and some are silent."""
    rows, lost = struck_rows(axis, ticks, strikes), 0 if is_full else draws.choice((0, 0, 0, 0.02))
    if ticks <= SHORT and draws.random() < 0.3:
        every = QUIET[axis][1 : ticks + 1]
        for tick in draws.sample(range(1, ticks + 1), ticks // 20):
            every[tick - 1] = SILENT[axis][tick]
        for tick, row in rows.items():
            every[tick - 1] = row
    else:
        some, wanted = QUIET if is_full or draws.random() < 0.9 else SILENT, {*range(500, ticks, 500), ticks}
        for strike in strikes if is_full or draws.random() < 0.3 else ():
            wanted.update(range(strike.first, min(ticks, strike.last + WINDOW) + 1))
        every = sorted({**{tick: some[axis][tick] for tick in wanted}, **rows}.values())
    return [row for row in every[:-1] if draws.random() >= lost] + every[-1:] if lost else every


def slow_rows(word, ticks, is_full, draws):
    """The rows of a slow sensor: a sample each 100 ticks, or else fewer, or none but silent ones."""
    step = 100 if is_full else draws.choice((10, 100, 100, 100, 300, 1_000))
    places = sorted({*range(step, ticks, step), *range(900, ticks, 900), ticks})
    values = draws.choices(VALUES[word][0] if is_full else draws.choice(VALUES[word]), k=len(places))
    return [(tick, f"{word},{tick},{value}\n") for tick, value in zip(places, values)]


def restraint_rows(ticks, strikes, firings, draws):
    """Restraints that fire in a strike, after it, or at any tick."""
    fires = {}
    for strike in strikes:
        for _ in range(draws.choice((0, 0, 1, 1, 2, 3))):
            fires[min(ticks, strike.first + draws.randint(0, 120))] = draws.choice(firings)
    for _ in range(draws.choice((0, 0, 0, 1, 2))):
        fires[draws.randint(1, ticks)] = draws.choice(firings)
    return [(tick, f"restraint,{tick},{fires.get(tick, '')}\n") for tick in sorted({*fires, *range(1_000, ticks, 1_000), ticks})]


def sensor_rows(ticks, firings, draws):
    """The rows of each sensor of a cycle with their ticks, in their order; now and then one has none, or ends early."""
    strikes, is_full = strikes_of(ticks, draws), ticks > SHORT and draws.random() < 0.5
    rows = {axis: axis_rows(axis, ticks, strikes, is_full, draws) for axis in AXES}
    rows.update((word, slow_rows(word, ticks, is_full, draws)) for word in SLOW)
    rows["restraint"] = restraint_rows(ticks, strikes, firings, draws)
    if ticks <= 1_000 and draws.random() < 0.03:
        rows[draws.choice(list(rows))] = []
    if draws.random() < 0.1:
        word, last = draws.choice(list(rows)), max(1, ticks - draws.randint(0, 300))
        rows[word] = [row for row in rows[word] if row[0] <= last] or rows[word]
    return rows


def in_order(rows, draws):
    """The rows of all sensors: by moment, by sensor, or some sensors later than others."""
    late = {word: draws.choice((0, 0, 0, 40, 900)) if draws.random() < 0.3 else 0 for word in rows}
    placed = []
    for word, some in rows.items():
        placed += [(tick + late[word], row) for tick, row in some] if late[word] else some
    if draws.random() > 0.1:
        placed.sort(key=operator.itemgetter(0))
    return [row for _, row in placed]


def drawn_cycle(draws, stops, firings):
    """A cycle, with a planned power cut where there may be one."""
    if draws.random() < 0.12:
        call = draws.randint(1, 6) if stops else draws.randint(1, 4)
        return f"on,{call},\n"
    ticks = draws.choice((draws.randint(1, 80), draws.randint(60, 400), draws.randint(60, 400), draws.randint(400, SHORT)))
    if draws.random() < 0.03:
        ticks = draws.choice((draws.randint(SHORT, 8_000), draws.randint(21_000, LONGEST)))
    cut = draws.choice((draws.randint(1, 12), draws.randint(1, 12), draws.randint(1, 40), 4_294_967_295)) if stops and draws.random() < 0.4 else 0
    return "".join(["on,0,\n", *in_order(sensor_rows(ticks, firings, draws), draws), f"cut,{cut},\n"])


def has_two_ends(cycle):
    """Whether a cycle may have two ends."""
    return cycle.startswith(("on,5,", "on,6,")) or cycle.startswith("on,0,") and not cycle.endswith("\ncut,0,\n")


def drawn_cycles(draws, count, most_stops=MOST_STOPS):
    """So many cycles, of which at most eight may have two ends."""
    found, stops, firings = [], draws.randint(0, most_stops), draws.choice(FIRINGS)
    for _ in range(count):
        cycle = drawn_cycle(draws, stops > 0, firings)
        stops -= has_two_ends(cycle)
        found.append(cycle)
    return found
