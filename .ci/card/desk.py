"""What `trace` and `fields` print of a record, worked out from documents 01 and 02 (of its requests L2, L5 and L6) without either of the two programs:
trace(record) and field_list(record) give the lines. claims(..) are what must hold of the lines of one record among themselves, beside the sheet that was
worked out by hand, and by document 02's L11.

Nothing here is meant to be quick. A run is lists of its samples and intervals, every figure is a sum over them, and lo and hi are the least and greatest of all
grid places of the window. All numbers are whole ones or Fractions."""
import re
from fractions import Fraction
from typing import NamedTuple

# ---- the record's fields

MOST = 4_000_000  # samples offered, blocks passed over, samples of M
CHARACTERS = b"0123456789ABCDEFGHJKLMNPRSTUVWXYZ"  # digits and capitals without I, O, Q
LENGTHS = {1: [4], 2: [17], 3: range(9, 4812), 4: [6], 5: range(27, 1222, 6), 6: [9], 7: [4], 8: [6]}
# the order, in the words of the field list: a field 5 is an own block, a field 6 stands before or after
ORDER = ["mark", "vehicle", "cycle", "tolerances", "stretches", "before", "own", "after", "recharge"]
NAMES = {1: "mark", 2: "vehicle", 3: "cycle", 4: "tolerances", 5: "own", 7: "recharge", 8: "stretches"}


class Field(NamedTuple):
    """An accepted field and the byte at which it begins."""

    offset: int
    name: str  # one of ORDER, or "other" for a block passed over
    value: bytes


class Refusal(NamedTuple):
    """The byte at which the refused field begins, and its refusal."""

    offset: int
    number: int
    sample: tuple = ()  # of 5: the sample's number in the run, its speed, voltage and current


def number(value, signed=False):
    return int.from_bytes(value, "big", signed=signed)


def numbers(value):
    """Numbers of two bytes each."""
    return [number(value[i : i + 2]) for i in range(0, len(value), 2)]


def ends_of(value):
    """The phase ends in a field 3."""
    return numbers(value[1 : 1 + 2 * value[0]])


def points_of(value):
    """The points in a field 3."""
    return numbers(value[1 + 2 * value[0] :])


def stretches_of(value):
    """M's length in samples and E's set speed, in a field 8."""
    return [number(value[:4]), number(value[4:])]


def transfer_of(value):
    """The energy in a field 6, as it stands there."""
    return number(value[1:], signed=True)


def first_of(value):
    """The first sample number in a field 5."""
    return number(value[17:21])


def samples_of(value):
    """Speed, voltage and current of each sample in a field 5."""
    parts = [value[i : i + 6] for i in range(21, len(value), 6)]
    return [(number(part[:2]), number(part[2:4]), number(part[4:], signed=True)) for part in parts]


def is_vehicle(value):
    return all(character in CHARACTERS for character in value)


def is_cycle(value):
    if not 1 <= value[0] <= 4:
        return False
    ends, points = ends_of(value), points_of(value)
    rising = 1 <= ends[0] and all(a < b for a, b in zip(ends, ends[1:]))
    matching = len(value) == 1 + 2 * len(ends) + 2 * (ends[-1] + 1)
    return rising and 2 <= ends[-1] <= 2400 and matching and max(points) <= 1500


def are_tolerances(value):
    speed, time, allowance = numbers(value)
    return speed <= 100 and time <= 40 and allowance <= 1200


def are_stretches(value):
    length, speed = stretches_of(value)
    return 1 <= length <= MOST and 1 <= speed <= 1500


def is_transfer(value):
    return -(10**13) <= transfer_of(value) <= 10**13


def is_recharge(value):
    return 1 <= number(value) <= 2_000_000


def is_sample(sample):
    speed, voltage, current = sample
    return speed <= 1500 and voltage <= 15000 and -10000 <= current <= 10000


# what a field must hold, and its refusal where it does not; a field 5 has more to say (`next_block`)
CONTENTS = {
    "vehicle": (is_vehicle, 4),
    "cycle": (is_cycle, 2),
    "tolerances": (are_tolerances, 3),
    "stretches": (are_stretches, 19),
    "before": (is_transfer, 14),
    "after": (is_transfer, 14),
    "recharge": (is_recharge, 14),
}


def front_refusal(rest):
    """8 for an unknown tag, from its first byte, a length, from the third, a wrong mark and a kind above 1; 15 where the input ends inside the field."""
    if rest[0] not in LENGTHS:
        return 8
    if len(rest) < 3:
        return 15
    length, value = number(rest[1:3]), rest[3:]
    if length not in LENGTHS[rest[0]]:
        return 8
    if len(value) < length:
        return 15
    wrong_mark = rest[0] == 1 and value[:4] != b"RUN1"
    wrong_kind = rest[0] == 6 and value[0] > 1
    return 8 if wrong_mark or wrong_kind else None


def is_in_order(name, fields):
    """1, 2, 3, 4 once each; then 8, 6 before, any number of 5, 6 after and 7, each of the others at most once. A block passed over moves nothing."""
    taken = [ORDER.index(field.name) for field in fields if field.name != "other"]
    last, place = taken[-1] if taken else -1, ORDER.index(name)
    if last < ORDER.index("tolerances"):
        return place == last + 1
    return place > last or name == ORDER[last] == "own"


def next_block(fields, offset, value):
    """Field 5: 4, pass over, 6, 7, 5; a block passed over can only meet 7."""
    if not is_vehicle(value[:17]):
        return Refusal(offset, 4)
    if value[:17] != held(fields, "vehicle")[0]:
        return Refusal(offset, 7) if len(held(fields, "other")) == MOST else Field(offset, "other", value)
    offered, samples = len(offered_in(fields)), samples_of(value)
    if first_of(value) != offered:
        return Refusal(offset, 6)
    if offered + len(samples) > MOST:
        return Refusal(offset, 7)
    wrong = [(offered + i, *sample) for i, sample in enumerate(samples) if not is_sample(sample)]
    return Refusal(offset, 5, wrong[0]) if wrong else Field(offset, "own", value)


def next_field(fields, offset, rest):
    """The field with which the rest of the input begins, or its refusal: 8, 9, then its content."""
    refused = front_refusal(rest)
    if refused:
        return Refusal(offset, refused)
    value = rest[3 : 3 + number(rest[1:3])]
    name = ["before", "after"][value[0]] if rest[0] == 6 else NAMES[rest[0]]
    if not is_in_order(name, fields):
        return Refusal(offset, 9)
    if name == "own":
        return next_block(fields, offset, value)
    if name in CONTENTS:
        is_right, refused = CONTENTS[name]
        if not is_right(value):
            return Refusal(offset, refused)
    return Field(offset, name, value)


def read(record):
    """The accepted fields, those passed over among them, and the refusal behind them: None where the record is accepted."""
    fields, offset = [], 0
    while offset < len(record):
        taken = next_field(fields, offset, record[offset:])
        if isinstance(taken, Refusal):
            return fields, taken
        fields.append(taken)
        offset += 3 + len(taken.value)
    return fields, None if held(fields, "tolerances") else Refusal(offset, 15)


def held(fields, name):
    """The values of the fields of that name."""
    return [field.value for field in fields if field.name == name]


def offered_in(fields):
    """The samples of all own blocks."""
    return [sample for value in held(fields, "own") for sample in samples_of(value)]


# ---- the field list


def spaced(*words):
    return " ".join(str(word) for word in words)


def words_of(field):
    """What the field list says of an accepted field, behind its name."""
    value = field.value
    if field.name == "mark":
        return []
    if field.name in ("vehicle", "other"):
        return [value[:17].decode()]
    if field.name == "cycle":
        return [ends_of(value)[-1], "phases", *ends_of(value)]
    if field.name == "tolerances":
        return numbers(value)
    if field.name == "stretches":
        return stretches_of(value)
    if field.name == "own":
        return [first_of(value), len(samples_of(value))]
    return [number(value) if field.name == "recharge" else transfer_of(value)]


def field_list(record):
    """The lines of `fields`."""
    fields, refusal = read(record)
    lines = [spaced(k, field.offset, field.name, *words_of(field)) for k, field in enumerate(fields, 1)]
    if refusal:
        sample = ["sample", *refusal.sample] if refusal.sample else []
        lines.append(spaced(len(fields) + 1, refusal.offset, "refused", refusal.number, *sample))
    return lines


# ---- the run


class Run(NamedTuple):
    """What an accepted record holds."""

    vehicle: str
    ends: list  # the phase ends in seconds
    grid: list  # twenty times the target at each grid place
    tolerances: list  # speed, time, allowance
    stretches: list  # M's length in samples and E's set speed; empty by the regular method
    samples: list  # speed, voltage, current of each sample offered
    before: int  # transfer energies, in the run's unit
    after: int
    recharge: list  # Wh; empty where it is absent

    @property
    def positions(self):
        """The positions of a cycle."""
        return 20 * self.ends[-1]


class Stand(NamedTuple):
    """Where a sample stands."""

    part: object  # its cycle, from 1, or "M" or "E"; None behind cycle 64
    position: int  # in that cycle or stretch, from 0


class Interval(NamedTuple):
    """From a sample to the next one; it belongs where the earlier one stands."""

    at: Stand
    energy: int  # 0.25 mJ
    distance: int  # 1/1440 m


class Course(NamedTuple):
    """How a run went."""

    end: str
    counted: int
    stop: list  # where the stopping sample stands; empty without a stop
    outside: list  # where each outside sample stands, the stopping one among them
    closed: list  # the closed intervals


def grid_of(points):
    """Twenty times the target: (20-r) x point k + r x point k+1 at place 20k+r, and 20 x point T at place 20T."""
    return [(20 - r) * a + r * b for a, b in zip(points, points[1:]) for r in range(20)] + [20 * points[-1]]


def run_of(fields):
    [cycle], [tolerances] = held(fields, "cycle"), held(fields, "tolerances")
    return Run(
        vehicle=held(fields, "vehicle")[0].decode(),
        ends=ends_of(cycle),
        grid=grid_of(points_of(cycle)),
        tolerances=numbers(tolerances),
        stretches=[n for value in held(fields, "stretches") for n in stretches_of(value)],
        samples=offered_in(fields),
        # "A missing 6 is energy 0"; "Transfer energies in field 6 keep their old unit and are doubled on reading"
        before=2 * sum(transfer_of(value) for value in held(fields, "before")),
        after=2 * sum(transfer_of(value) for value in held(fields, "after")),
        recharge=[number(value) for value in held(fields, "recharge")],
    )


def stand_of(run, j):
    """Where sample j stands: in one of 64 cycles; by the shortened method in two cycles, M, two cycles, E."""
    n = run.positions
    if not run.stretches:
        return Stand(j // n + 1 if j < 64 * n else None, j % n)
    m = run.stretches[0]
    if j < 2 * n:
        return Stand(j // n + 1, j % n)
    if j < 2 * n + m:
        return Stand("M", j - 2 * n)
    if j < 4 * n + m:
        return Stand((j - m) // n + 1, (j - m) % n)
    return Stand("E", j - m - 4 * n)


def is_in_cycle(at):
    return at.part not in ("M", "E", None)


def is_outside(run, at, v):
    """Whether the band has a sample of speed v outside; only in cycles samples are judged by the band."""
    if not is_in_cycle(at):
        return False
    s, w, _ = run.tolerances
    window = run.grid[max(0, at.position - w) : min(run.positions, at.position + w) + 1]
    lo, hi = min(window), max(window)
    return not (lo <= 20 * v + 20 * s and 20 * v <= hi + 20 * s)


def stops_in_e(run, speeds):
    """Whether the last of these speeds, those of E so far, is the 80th in a row below the set speed less the tolerance, once one has reached the set speed."""
    s, u = run.tolerances[0], run.stretches[1]
    reached = [i for i, v in enumerate(speeds) if v >= u]
    last = speeds[reached[0] :][-80:] if reached else []
    return len(last) == 80 and all(v + s < u for v in last)


def is_stop(run, stands, outside, j):
    """Whether sample j stops the run, if none before it does."""
    same = [i for i in range(j + 1) if stands[i].part == stands[j].part]
    if stands[j].part == "E":
        return stops_in_e(run, [run.samples[i][0] for i in same])
    allowance = run.tolerances[2]
    return outside[j] and len([i for i in same if outside[i]]) > allowance


def interval_of(run, stands, j):
    """Interval j: the sums of both ends' products and speeds."""
    ends = run.samples[j : j + 2]
    return Interval(stands[j], sum(-(voltage * current) for _, voltage, current in ends), sum(speed for speed, _, _ in ends))


def course_of(run):
    offered = range(len(run.samples))
    stands = [stand_of(run, j) for j in offered]
    outside = [is_outside(run, stands[j], run.samples[j][0]) for j in offered]
    stop = next(([j] for j in offered if is_stop(run, stands, outside, j)), [])
    # without a stop every sample is counted that stands somewhere: the one after cycle 64 closes the last interval and brings the limit
    counted = stop[0] if stop else len([at for at in stands if at.part is not None])
    return Course(
        end="stop" if stop else "limit" if counted < len(offered) else "none",
        counted=counted,
        stop=[stands[j] for j in stop],
        outside=[stands[j] for j in offered if outside[j] and (not stop or j <= stop[0])],
        closed=[interval_of(run, stands, j) for j in offered if j < counted and j + 1 in offered],
    )


def closed_in(course, part):
    return [interval for interval in course.closed if interval.at.part == part]


def energy(intervals):
    return sum(interval.energy for interval in intervals)


def distance(intervals):
    return sum(interval.distance for interval in intervals)


def is_finished(intervals, positions):
    """Whether the interval of the last of so many positions is among the closed ones."""
    return positions - 1 in [interval.at.position for interval in intervals]


# ---- the trace


def sums(intervals):
    return f"energy {energy(intervals)} distance {distance(intervals)}"


def state(finished):
    return "finished" if finished else "open"


def phase_lines(run, course, c):
    lines = []
    for k, (start, end) in enumerate(zip([0, *run.ends], run.ends), 1):
        closed = [interval for interval in closed_in(course, c) if 20 * start <= interval.at.position < 20 * end]
        if closed:
            lines.append(f"phase {c} {k} {sums(closed)} {state(is_finished(closed, 20 * end))}")
    return lines


def cycle_lines(run, course, c):
    """The lines of the cycle's phases and its own."""
    closed, outside = closed_in(course, c), [at for at in course.outside if at.part == c]
    if not closed and not outside:
        return []
    finished = is_finished(closed, run.positions)
    has_rate = finished and energy(closed) >= 1 and distance(closed) >= 1
    rate = f" rate {100 * energy(closed) // distance(closed)}" if has_rate else ""
    return [*phase_lines(run, course, c), f"cycle {c} {sums(closed)} outside {len(outside)} {state(finished)}{rate}"]


def stretch_lines(run, course):
    """M is finished when its last interval is closed, E never."""
    lines = []
    for part in "ME":
        closed = closed_in(course, part)
        if closed:
            lines.append(f"stretch {part} {sums(closed)} {state(part == 'M' and is_finished(closed, run.stretches[0]))}")
    return lines


def stop_lines(course):
    return [f"stop cycle {at.part} position {at.position}" if is_in_cycle(at) else f"stop stretch {at.part}" for at in course.stop]


def ac_line(run, whole, metres):
    """Recharge: absent, 14, 12."""
    if not run.recharge:
        return "ac -"
    if whole + run.after < 1:
        return "refused 14"
    figure = whole * run.recharge[0] * 1_000_000 // ((whole + run.after) * metres)
    return "refused 12" if figure > 10_000_000 else f"ac {figure}"


def closing_lines(run, e, d, whole):
    """From the energies and distances of the finished cycles and E. Closing: 10, 11, 12, 13."""
    n = len(e)
    if n < (4 if run.stretches else 3):
        return ["refused 10"]
    if min(e) < 1 or whole < e[0] + e[1]:
        return ["refused 11"]
    if 0 in d:
        return ["refused 12"]
    q = [100 * e_c // d_c for e_c, d_c in zip(e, d)]
    if min(q) < 1 or max(q) > 10_000_000:
        return ["refused 12"]
    others = whole - e[0] - e[1]
    weighted = ((n - 2) * (q[0] * e[0] + q[1] * e[1]) + others * sum(q[2:])) // (whole * (n - 2))
    metres = 5 * whole // (72 * weighted)
    if metres == 0:
        return ["refused 13"]
    shares = [(n - 2) * e[0], (n - 2) * e[1], *[others] * (n - 2)]
    return [
        *[f"weight {c} {share} {whole * (n - 2)}" for c, share in enumerate(shares, 1)],
        f"weighted {weighted}",
        f"range {metres}",
        f"recharge {run.recharge[0] if run.recharge else '-'}",
        ac_line(run, whole, metres),
    ]


def trace(record):
    """The lines of `trace`."""
    fields, refusal = read(record)
    if refusal:
        return [f"refused {refusal.number} field {len(fields) + 1}"]
    run = run_of(fields)
    course = course_of(run)
    cycles = range(1, 65)
    finished = [closed_in(course, c) for c in cycles if is_finished(closed_in(course, c), run.positions)]
    drawn = energy(course.closed)
    whole = run.before + drawn
    return [
        f"run {run.vehicle}",
        spaced("method", "shortened", *run.stretches) if run.stretches else "method regular",
        spaced("cycle", run.ends[-1], "phases", *run.ends),
        spaced("tolerances", *run.tolerances),
        f"fields {len(fields)} blocks {len(held(fields, 'own'))} passed {len(held(fields, 'other'))}",
        f"offered {len(run.samples)}",
        f"end {course.end} {course.counted}",
        *stop_lines(course),
        *[line for c in cycles for line in cycle_lines(run, course, c)],
        *stretch_lines(run, course),
        f"cycles {len(finished)}",
        f"outside {len(course.outside)}",
        f"drawn {drawn}",
        f"transfer before {run.before} after {run.after}",
        f"whole {whole}",
        *closing_lines(run, [energy(closed) for closed in finished], [distance(closed) for closed in finished], whole),
    ]


# ---- claims over the lines, by the numbers that are printed

# the first words of a trace's lines
LINES = re.compile(
    "run method cycle tolerances fields offered end (stop )?((phase )*cycle )*(stretch )*cycles outside drawn transfer whole "
    "(refused|(weight )+weighted range recharge (ac|refused))"
)


def found(form, lines):
    """What stands for each # and in each bracket of the form, of every line that has it."""
    pattern = re.compile(form.replace("#", r"(-?\d+)"))
    matches = [match for match in map(pattern.fullmatch, lines) if match]
    return [tuple(int(x) if x and x.lstrip("-").isdigit() else x for x in match.groups()) for match in matches]


def list_claims(record, sheet, listed):
    """The field list beside the record's bytes and the sheet."""
    offsets = [int(line.split()[1]) for line in listed]
    ends = [offset + 3 + number(record[offset + 1 : offset + 3]) for offset in offsets]
    refused, last = found("refused # field #", sheet), found("# # refused #(?: sample (.*))?", listed)
    yield "fields are numbered from 1", [int(line.split()[0]) for line in listed] == list(range(1, len(listed) + 1))
    yield "the first field begins at byte 0, each other where the one before it ends", offsets == [0, *ends[:-1]]
    yield "the last field of an accepted record ends with it", bool(refused) or ends[-1] == len(record)
    yield "sheet and field list refuse the same field by the same number", refused == [(n, k) for k, _, n, _ in last]
    yield "what is refused is the last line", not refused or refused[0][1] == len(listed)
    yield "5, and no other, tells of a sample", all((n == 5) == (sample is not None) for _, _, n, sample in last)
    for _, offset, j, *sample in found("# # refused 5 sample # # # #", listed):
        value = record[offset + 3 :]
        yield "the sample stands in the record", samples_of(value)[j - first_of(value)] == tuple(sample)


def sheet_claims(sheet, traced):
    """The trace beside the sheet that was worked out by hand."""
    passed, rest = found("passed #", sheet), iter(traced)
    yield "the sheet's lines stand in the trace in their order", all(line in rest for line in sheet if not line.startswith("passed "))
    yield "the trace has its lines in their order", bool(LINES.fullmatch(" ".join(line.split()[0] for line in traced)))
    yield "the trace ends as the sheet does", traced[-1] == sheet[-1]
    yield "sheet and trace have passed over as many blocks", passed == [(p,) for _, _, p in found("fields # blocks # passed #", traced)]


def told_claims(traced, listed):
    """The trace beside the field list."""
    told = [" ".join(line.split()[2:]) for line in listed]
    own = found("own # #", told)
    others = [line for line in told if line.startswith("other ")]
    before, after = [2 * sum(x for x, in found(f"{side} #", told)) for side in ("before", "after")]
    yield "the vehicle is the same", traced[0] == told[1].replace("vehicle", "run")
    yield "the method is the same", found("method shortened # #", traced) == found("stretches # #", told)
    yield "cycle and tolerances are the same", traced[2:4] == told[2:4]
    yield "fields and blocks are as many", found("fields # blocks # passed #", traced) == [(len(told), len(own), len(others))]
    yield "each own block begins with the number offered before it", [first for first, _ in own] == [sum(n for _, n in own[:i]) for i in range(len(own))]
    yield "own blocks have the samples offered", found("offered #", traced) == [(sum(n for _, n in own),)]
    yield "transfer energies are twice those of the record", found("transfer before # after #", traced) == [(before, after)]
    yield "the recharge is the same", not found("weighted #", traced) or found("recharge #", traced) == found("recharge #", told)


def stop_claims(traced):
    """The stopping sample's number is the number of samples counted."""
    ended, stops = found("end stop #", traced), [line for line in traced if line.startswith("stop ")]
    yield "there is a stop exactly where the run ended by one", len(ended) == len(stops)
    for c, position in found("stop cycle # position #", stops):
        behind_m = sum(m for m, _ in found("method shortened # #", traced) if c > 2)
        yield "the stopping sample stands where its number puts it", ended == [((c - 1) * 20 * int(traced[2].split()[1]) + behind_m + position,)]


def cycle_claims(cycle, phases, count):
    """A cycle's line beside those of its phases; the cycle has so many phases."""
    c, x, y, _, word, rate = cycle
    words = [phase[4] for phase in phases]
    yield f"the phases of cycle {c} are its first", [phase[1] for phase in phases] == list(range(1, len(phases) + 1))
    yield f"the phases of cycle {c} add up to it", (x, y) == (sum(phase[2] for phase in phases), sum(phase[3] for phase in phases))
    yield f"only the last of the phases of cycle {c} may be open", "open" not in words[:-1]
    yield f"cycle {c} is finished exactly when all its phases are", (word == "finished") == (words == ["finished"] * count)
    yield f"cycle {c} has its rate", rate == (100 * x // y if word == "finished" and x >= 1 and y >= 1 else None)


def sum_claims(traced):
    """What adds up in a trace."""
    phases = found("phase # # energy # distance # (finished|open)", traced)
    cycles = found("cycle # energy # distance # outside # (finished|open)(?: rate #)?", traced)
    stretches = found("stretch (M|E) energy # distance # (finished|open)", traced)
    [(n,)], [(outside,)], [(drawn,)] = found("cycles #", traced), found("outside #", traced), found("drawn #", traced)
    [(before, _)], [(whole,)] = found("transfer before # after #", traced), found("whole #", traced)
    count = len(traced[2].split()) - len("cycle T phases".split())
    for cycle in cycles:
        yield from cycle_claims(cycle, [phase for phase in phases if phase[0] == cycle[0]], count)
    yield "every phase's cycle has a line", {phase[0] for phase in phases} <= {cycle[0] for cycle in cycles}
    yield "the finished cycles are the first n", [cycle[0] for cycle in cycles if cycle[4] == "finished"] == list(range(1, n + 1))
    yield "outside counts add up", outside == sum(cycle[3] for cycle in cycles)
    yield "cycles and stretches add up to drawn", drawn == sum(cycle[1] for cycle in cycles) + sum(stretch[1] for stretch in stretches)
    yield "before and drawn are the whole", before + drawn == whole


def closing_claims(traced):
    """Weights, W and R: documents 01 ('Closing figures') and 02 (L11)."""
    weights, cycles = found("weight # # #", traced), found("cycle # energy # distance # outside # finished rate #", traced)
    [(n,)], [(whole,)] = found("cycles #", traced), found("whole #", traced)
    [(weighted,)], [(metres,)] = found("weighted #", traced), found("range #", traced)
    k = [Fraction(share, of) for _, share, of in weights]
    q = [rate for _, _, _, _, rate in cycles]
    exact = sum(k_c * Fraction(100 * e, d) for k_c, (_, e, d, _, _) in zip(k, cycles))  # W*
    exact_metres = 5 * whole / (72 * exact)  # R*
    numbered, shares, denominators = list(range(1, n + 1)), sum(share for _, share, _ in weights), {of for _, _, of in weights}
    yield "each finished cycle has a rate and a weight", [cycle[0] for cycle in cycles] == [weight[0] for weight in weights] == numbered
    yield "the weights' denominator is E (n-2), and they add up to it", denominators == {whole * (n - 2)} == {shares}
    yield "W is the floor of the rates by their weights", weighted == sum(k_c * q_c for k_c, q_c in zip(k, q)) // 1
    yield "W is never above W* and less than 2 below it", weighted <= exact < weighted + 2
    yield "W lies between the least and the greatest rate", min(q) <= weighted <= max(q)
    yield "R is not below the whole metres of R*", metres >= exact_metres // 1
    yield "R x W < R* x (W+2)", metres * weighted < exact_metres * (weighted + 2)
    yield "where 2R <= W+2, R has the whole metres of R* or one more", 2 * metres > weighted + 2 or metres - exact_metres // 1 in (0, 1)


def claims(record, sheet, traced, listed):
    """Each claim in words, and whether it holds of the lines of this record."""
    yield from list_claims(record, sheet, listed)
    if found("refused # field #", sheet):
        yield "of a refused field the trace is the sheet's line", traced == sheet
        return
    yield from sheet_claims(sheet, traced)
    yield from told_claims(traced, listed)
    yield from stop_claims(traced)
    yield from sum_claims(traced)
    if found("weighted #", traced):
        yield from closing_claims(traced)
