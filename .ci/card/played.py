#!/usr/bin/env python3
"""played.py prints what the program `played` is to print. The figures of every run stand in RUNS as they were worked out by hand; the script works them
out a second time from the sentences of documents 01 and 02 and fails where the two differ."""

# T = 2, two phases of a second each, points of 100: 40 positions to a cycle, 20 to a phase. A sample is (100, 6000, -120), a fast one (131, 6000, -240).
POINTS, ENDS, TIME = [100, 100, 100], [1, 2], 20
T = ENDS[-1]
N = 20 * T
SLOW, FAST = (100, -(6000 * -120)), (131, -(6000 * -240))  # speed and product: 720,000 and 1,440,000


def target(place):
    """Twenty times the target at a place of the grid."""
    k, r = divmod(place, 20)
    return 20 * POINTS[k] if k == T else (20 - r) * POINTS[k] + r * POINTS[k + 1]


def is_inside(p, v, s):
    window = [target(g) for g in range(max(0, p - TIME), min(N, p + TIME) + 1)]
    return min(window) <= 20 * v + 20 * s and 20 * v <= max(window) + 20 * s


def place(j, method):
    """The row and position of sample j; None for M, E, and behind cycle 64. Document 02, L5: two cycles, M of m samples, two cycles, E."""
    if method is None:
        return divmod(j, N) if j < 64 * N else None
    if j < 2 * N:
        return divmod(j, N)
    return divmod(j - method[0], N) if 2 * N + method[0] <= j < 4 * N + method[0] else None


def stops_in_e(speeds, s, u):
    """"from there the run stops at the 80th consecutive sample below the set speed less the speed tolerance": the speeds of E up to a sample."""
    reached = [i for i, v in enumerate(speeds) if v >= u]
    return bool(reached) and len(speeds) - reached[0] > 80 and all(v < u - s for v in speeds[-80:])


def watch_of(speeds, s, u):
    """0 until a sample of E has reached the set speed; then 1 and the samples below in a row, up to the last that counts."""
    reached = [i for i, v in enumerate(speeds) if v >= u]
    if not reached:
        return 0
    not_below = [i for i, v in enumerate(speeds) if v >= u - s and i >= reached[0]]
    return 1 + len(speeds) - 1 - not_below[-1]


def judge(s, allowance, samples, method):
    """End (0 none, 1 stop, 2 limit), counted, the outside counts, the positions set, the cycle last judged, the speeds of E that count."""
    end = counted = cycle = 0
    outside, marks, in_e = [0] * 64, set(), []
    for j, (speed, _) in enumerate(samples):
        at = place(j, method)
        if at is not None:
            cycle, p = at
            if p == 0:
                marks = set()
            if not is_inside(p, speed, s):
                outside[cycle] += 1
                marks.add(p)
            if outside[cycle] > allowance:
                end = 1
                break
        elif method is None:
            end = 2  # "after cycle 64 it is not judged"
            break  # later samples raise only the number offered
        elif j >= 4 * N + method[0]:
            if stops_in_e(in_e + [speed], s, method[1]):
                end = 1
                break
            in_e.append(speed)
        counted += 1
    return end, counted, outside, marks, cycle, in_e


def play(s, allowance, offered, fast, asked, method=None):
    """End, counted, cycles finished, outside, drawn; ones in the map, outside in the cycle last judged, agree; the asked set. Then rows of the ledger: of
    each the energies and distances of the two phases, and the outside count. Of a shortened run then energy and distance of M and of E, and the watch."""
    samples = [FAST if i in fast else SLOW for i in range(offered)]
    end, counted, outside, marks, cycle, in_e = judge(s, allowance, samples, method)
    # "A sample's interval is closed by the next accepted sample and belongs to the earlier one's phase": a stopping sample begins none
    closed = [j for j in range(counted) if j + 1 < offered]
    ledger, stretches = [[0] * 9 for _ in range(64)], [0] * 4
    shares = [0] * 64
    for j in closed:
        energy, distance = samples[j][1] + samples[j + 1][1], samples[j][0] + samples[j + 1][0]
        at = place(j, method)
        if at is None:
            which = 0 if j < 2 * N + method[0] else 2
            stretches[which] += energy
            stretches[which + 1] += distance
            continue
        c, p = at
        phase = next(k for k, last in enumerate(ENDS) if p < 20 * last)
        ledger[c][phase] += energy
        ledger[c][4 + phase] += distance
        shares[c] += 1
    drawn = sum(sum(row[:4]) for row in ledger) + stretches[0] + stretches[2]
    shown = (len(marks), outside[cycle], int(len(marks) == outside[cycle]))
    figures = (end, counted, shares.count(N), sum(outside), drawn, *shown, *[int(p in marks) for p in asked])
    rows = [(*[ledger[c][k] for k in (0, 1, 4, 5)], outside[c]) for c in rows_of(offered, method)]
    return figures, *rows, *([] if method is None else [(*stretches, watch_of(in_e, s, method[1]))])


def rows_of(offered, method):
    """The rows that are printed: the first two, or the last two; of a shortened run its four."""
    if method is not None:
        return range(4)
    return (0, 1) if offered < 64 * N else (62, 63)


# Every target is 20 x 100 = 2000. At s = 30 a speed of 131 is outside: 20 x 131 = 2620 > 2000 + 20 x 30 = 2600. At s = 31 it is inside: 2620 <= 2620.
# A speed of 100 is inside. An interval has the energy 1,440,000 and the distance 200 between two slow samples, 2,160,000 and 231 between a slow one and a
# fast one, 2,880,000 and 262 between two fast ones. A phase has 20 intervals: 28,800,000 and 4,000 where all is slow, 57,600,000 and 5,240 where all is fast.
# In each row: s, allowance, samples offered, the fast ones, two positions asked, then the figures, then two rows of the ledger: the energies of two phases,
# their distances, the outside count.
NOTHING = (0, 0, 0, 0, 0)
ALL_SLOW = (28800000, 28800000, 4000, 4000, 0)
ALL_FAST = (57600000, 57600000, 5240, 5240, 40)
RUNS = [
    # samples 0, 1, 2 make a count of 3, sample 3 one of 4 > 3: stop at sample 3, which closes the third interval. Positions 0 to 3 are set.
    (30, 3, 10, range(0, 10), (3, 4), (1, 3, 0, 4, 8640000, 4, 4, 1, 1, 0), (8640000, 0, 786, 0, 4), NOTHING),
    # sample 5 makes a count of 6 > 5. Five count, five intervals are closed. Positions 0 to 5 are set.
    (30, 5, 10, range(0, 10), (5, 6), (1, 5, 0, 6, 14400000, 6, 6, 1, 1, 0), (14400000, 0, 1310, 0, 6), NOTHING),
    # all ten are inside and count; the last interval is open: nine. Nothing is set.
    (31, 3, 10, range(0, 10), (0, 9), (0, 10, 0, 0, 25920000, 0, 0, 1, 0, 0), (25920000, 0, 2358, 0, 0), NOTHING),
    # sample 39 makes a count of 40 > 39, at the cycle's last position: stop, and the cycle is unfinished. 39 intervals: 20 in the first phase, 19 in the
    # second. Positions 0 to 39 are set.
    (30, 39, 50, range(0, 50), (39, 40), (1, 39, 0, 40, 112320000, 40, 40, 1, 1, 0), (57600000, 54720000, 5240, 4978, 40), NOTHING),
    # sample 39 makes a count of 40, not above 40, and sample 40 closes the cycle. Samples 40 to 49 are positions 0 to 9 of the second cycle, counted afresh:
    # 10 of them outside, 50 in all. 40 and 9 intervals. The map is cleared by sample 40: positions 0 to 9.
    (30, 40, 50, range(0, 50), (9, 10), (0, 50, 1, 50, 141120000, 10, 10, 1, 1, 0), ALL_FAST, (25920000, 0, 2358, 0, 10)),
    # five samples in the second cycle: 40 and 4 intervals.
    (30, 40, 45, range(0, 45), (4, 5), (0, 45, 1, 45, 126720000, 5, 5, 1, 1, 0), ALL_FAST, (11520000, 0, 1048, 0, 5)),
    # sample 39 is position 39 of the first cycle, sample 40 position 0 of the second: a count of 1 in each, not above 1. The map shows the second cycle:
    # position 0 is set, and 39 is not any more. 79 intervals, so the second cycle is unfinished. The one from sample 39 to 40 is fast at both ends and of the
    # first cycle: 18 x 1,440,000 + 2,160,000 + 2,880,000 in its second phase; then 2,160,000 + 19 x 1,440,000, and 19 x 1,440,000.
    (30, 1, 80, range(39, 41), (0, 39), (0, 80, 1, 2, 116640000, 1, 1, 1, 1, 0), (28800000, 30960000, 4000, 4093, 1), (29520000, 27360000, 4031, 3800, 1)),
    # 64 cycles of 40 outside samples each: the sample after 64 x 40 = 2560 brings the limit and is not judged; the last four raise only the number offered.
    # 2560 x 2,880,000.
    (30, 40, 2565, range(0, 2565), (39, 40), (2, 2560, 64, 2560, 7372800000, 40, 40, 1, 1, 0), ALL_FAST, ALL_FAST),
    # no sample.
    (30, 3, 0, range(0, 0), (0, 39), (0, 0, 0, 0, 0, 0, 0, 1, 0, 0), NOTHING, NOTHING),
    # one sample, outside: it counts, and its interval is open.
    (30, 3, 1, range(0, 1), (0, 1), (0, 1, 0, 1, 0, 1, 1, 1, 1, 0), (0, 0, 0, 0, 1), NOTHING),
    # the first sample stops the run: no interval was open, and none is begun.
    (30, 0, 10, range(0, 1), (0, 1), (1, 0, 0, 1, 0, 1, 1, 1, 1, 0), (0, 0, 0, 0, 1), NOTHING),
    # sample 40 stops the run, at the first position of the second cycle. It closes the first cycle, whose second phase has 19 x 1,440,000 + 2,160,000. The
    # map is cleared and shows position 0.
    (30, 0, 50, range(40, 41), (0, 39), (1, 40, 1, 1, 58320000, 1, 1, 1, 1, 0), (28800000, 29520000, 4000, 4031, 0), (0, 0, 0, 0, 1)),
    # sample 39 stops the run, at the last position of the first cycle, which is unfinished: its second phase has 18 x 1,440,000 + 2,160,000.
    (30, 0, 50, range(39, 40), (0, 39), (1, 39, 0, 1, 56880000, 1, 1, 1, 0, 1), (28800000, 28080000, 4000, 3831, 1), NOTHING),
    # sample 20 stops the run, at the first position of the second phase: the first phase has 19 x 1,440,000 + 2,160,000, the second nothing.
    (30, 0, 50, range(20, 21), (19, 20), (1, 20, 0, 1, 29520000, 1, 1, 1, 0, 1), (29520000, 0, 4031, 0, 1), NOTHING),
    # the first cycle's second phase is fast. At either joint the interval is of the phase and cycle that it comes from: 19 x 1,440,000 + 2,160,000, and
    # 19 x 2,880,000 + 2,160,000. The second cycle is slow; its last interval is open.
    (31, 0, 80, range(20, 40), (20, 39), (0, 80, 1, 0, 142560000, 0, 0, 1, 0, 0), (29520000, 56880000, 4031, 5209, 0), (28800000, 27360000, 4000, 3800, 0)),
    # the same with one sample more, which closes it.
    (31, 0, 81, range(20, 40), (20, 39), (0, 81, 2, 0, 144000000, 0, 0, 1, 0, 0), (29520000, 56880000, 4031, 5209, 0), ALL_SLOW),
    # 2560 samples: all count, the run goes on, and the last interval of cycle 64 is open. 2559 x 2,880,000; in the last phase 19 x 2,880,000.
    (30, 40, 2560, range(0, 2560), (39, 40), (0, 2560, 63, 2560, 7369920000, 40, 40, 1, 1, 0), ALL_FAST, (57600000, 54720000, 5240, 4978, 40)),
    # the sample after cycle 64 is fast: it closes the cycle, 2559 x 1,440,000 + 2,160,000 in all, and is not judged, so that no allowance stops the run.
    (30, 0, 2561, range(2560, 2561), (0, 39), (2, 2560, 64, 0, 3687120000, 0, 0, 1, 0, 0), ALL_SLOW, (28800000, 29520000, 4000, 4031, 0)),
]

# The shortened method. T = 2 again, and M of 10 samples in most runs: cycles 1 and 2 have samples 0 to 79, M 80 to 89, cycle 3 90 to 129, cycle 4 130 to 169,
# and E those from 170 on. The set speed is 131 in most: a fast sample has reached it, and at s = 30 a slow one is below, since 100 + 30 < 131; at s = 31 it is
# not. In each run: s, allowance, M's length, the set speed, samples offered, the fast ones, one fast one more or 0, two positions asked; then the figures, the
# four rows of the ledger, and energy and distance of M, energy and distance of E, the watch.
SLOW_M = (14400000, 2000)  # ten intervals
ONE_FAST = (7920000, 0, 1031, 0, 1)  # five intervals of a first phase, the last closed by the fast sample that stops the run: 4 x 1,440,000 + 2,160,000
LAST_FAST = (28800000, 29520000, 4000, 4031, 0)  # a cycle whose last interval goes on to a fast sample: 19 x 1,440,000 + 2,160,000 in its second phase
THREE_SLOW = (ALL_SLOW, ALL_SLOW, ALL_SLOW)
FAST_AT_END = (28800000, 32400000, 4000, 4155, 2)  # the last two samples and the one behind are fast: 17 x 1,440,000 + 2,160,000 + 2 x 2,880,000
SHORTENED = [
    # ends inside M: 84 intervals, of which four are of M.
    (30, 0, 10, 131, 85, range(0, 0), 0, (0, 39), (0, 85, 2, 0, 120960000, 0, 0, 1, 0, 0), ALL_SLOW, ALL_SLOW, NOTHING, NOTHING, (5760000, 800, 0, 0, 0)),
    # samples 78 and 79 of cycle 2 are outside, and 80 to 83 of M are as fast and not judged: a count of 2, not above 2. The map shows cycle 2 through M.
    # M has 3 x 2,880,000 + 2,160,000 + 1,440,000.
    (
        30, 2, 10, 131, 86, range(78, 84), 0, (38, 0), (0, 86, 2, 2, 131040000, 2, 2, 1, 1, 0),
        ALL_SLOW, FAST_AT_END, NOTHING, NOTHING, (12240000, 1217, 0, 0, 0),
    ),
    # the same up to M's last sample, whose interval is open: M has nine intervals, four slow ones more.
    (
        30, 2, 10, 131, 90, range(78, 84), 0, (38, 0), (0, 90, 2, 2, 136800000, 2, 2, 1, 1, 0),
        ALL_SLOW, FAST_AT_END, NOTHING, NOTHING, (18000000, 2017, 0, 0, 0),
    ),
    # the first sample of cycle 3 closes M and clears the map.
    (
        30, 2, 10, 131, 91, range(78, 84), 0, (38, 0), (0, 91, 2, 2, 138240000, 0, 0, 1, 0, 0),
        ALL_SLOW, FAST_AT_END, NOTHING, NOTHING, (19440000, 2217, 0, 0, 0),
    ),
    # a stop in cycle 1, by sample 5; in cycle 2, by sample 45.
    (30, 0, 10, 131, 50, range(5, 6), 0, (5, 6), (1, 5, 0, 1, 7920000, 1, 1, 1, 1, 0), ONE_FAST, NOTHING, NOTHING, NOTHING, (0, 0, 0, 0, 0)),
    (30, 0, 10, 131, 50, range(45, 46), 0, (5, 39), (1, 45, 1, 1, 65520000, 1, 1, 1, 1, 0), ALL_SLOW, ONE_FAST, NOTHING, NOTHING, (0, 0, 0, 0, 0)),
    # in cycle 3, by sample 95, which is position 5 there; in cycle 4, by sample 155, which is position 25, in the second phase.
    (30, 0, 10, 131, 100, range(95, 96), 0, (5, 15), (1, 95, 2, 1, 137520000, 1, 1, 1, 1, 0), ALL_SLOW, ALL_SLOW, ONE_FAST, NOTHING, (*SLOW_M, 0, 0, 0)),
    (
        30, 0, 10, 131, 160, range(155, 156), 0, (25, 35), (1, 155, 3, 1, 223920000, 1, 1, 1, 1, 0),
        *THREE_SLOW, (28800000, 7920000, 4000, 1031, 1), (*SLOW_M, 0, 0, 0),
    ),
    # by sample 90, the first of cycle 3: it closes M, 9 x 1,440,000 + 2,160,000, and clears the map.
    (
        30, 0, 10, 131, 95, range(90, 91), 0, (0, 39), (1, 90, 2, 1, 130320000, 1, 1, 1, 1, 0),
        ALL_SLOW, ALL_SLOW, (0, 0, 0, 0, 1), NOTHING, (15120000, 2031, 0, 0, 0),
    ),
    # by sample 169, the last of cycle 4, which is unfinished: its second phase has 18 x 1,440,000 + 2,160,000.
    (
        30, 0, 10, 131, 175, range(169, 170), 0, (39, 0), (1, 169, 3, 1, 244080000, 1, 1, 1, 1, 0),
        *THREE_SLOW, (28800000, 28080000, 4000, 3831, 1), (*SLOW_M, 0, 0, 0),
    ),
    # M of one sample, which is fast and not judged: it closes cycle 2, and its own interval is M's. Sample 81 is the first of cycle 3.
    (
        30, 0, 1, 131, 83, range(80, 81), 0, (0, 39), (0, 83, 2, 0, 119520000, 0, 0, 1, 0, 0),
        ALL_SLOW, LAST_FAST, (1440000, 0, 200, 0, 0), NOTHING, (2160000, 231, 0, 0, 0),
    ),
    # the same with sample 81 fast: it stops the run.
    (
        30, 0, 1, 131, 83, range(80, 82), 0, (0, 39), (1, 81, 2, 1, 118800000, 1, 1, 1, 1, 0),
        ALL_SLOW, LAST_FAST, (0, 0, 0, 0, 1), NOTHING, (2880000, 262, 0, 0, 0),
    ),
    # 170 samples: cycle 4 lacks its last interval. One more closes it: four are finished, and none is closed in E. The set speed is not reached.
    (
        30, 0, 10, 131, 170, range(0, 0), 0, (0, 39), (0, 170, 3, 0, 243360000, 0, 0, 1, 0, 0),
        *THREE_SLOW, (28800000, 27360000, 4000, 3800, 0), (*SLOW_M, 0, 0, 0),
    ),
    (30, 0, 10, 131, 171, range(0, 0), 0, (0, 39), (0, 171, 4, 0, 244800000, 0, 0, 1, 0, 0), *THREE_SLOW, ALL_SLOW, (*SLOW_M, 0, 0, 0)),
    # E's first sample is fast: it is not outside, and has reached the set speed.
    (30, 0, 10, 131, 171, range(170, 171), 0, (0, 39), (0, 171, 4, 0, 245520000, 0, 0, 1, 0, 0), *THREE_SLOW, LAST_FAST, (*SLOW_M, 0, 0, 1)),
    # samples 171 to 249 are 79 below: no stop. E has 2,160,000 + 78 x 1,440,000.
    (30, 0, 10, 131, 250, range(170, 171), 0, (0, 39), (0, 250, 4, 0, 360000000, 0, 0, 1, 0, 0), *THREE_SLOW, LAST_FAST, (*SLOW_M, 114480000, 15831, 80)),
    # sample 250 is the 80th: it stops the run and closes the last interval, and neither counts nor is outside.
    (30, 0, 10, 131, 251, range(170, 171), 0, (0, 39), (1, 250, 4, 0, 361440000, 0, 0, 1, 0, 0), *THREE_SLOW, LAST_FAST, (*SLOW_M, 115920000, 16031, 80)),
    # nine samples more, one of them fast, change nothing.
    (30, 0, 10, 131, 260, range(170, 171), 255, (0, 39), (1, 250, 4, 0, 361440000, 0, 0, 1, 0, 0), *THREE_SLOW, LAST_FAST, (*SLOW_M, 115920000, 16031, 80)),
    # 79 below, sample 250 fast, 79 below: no stop. E has 3 x 2,160,000 + 156 x 1,440,000. One more is the 80th in a row.
    (30, 0, 10, 131, 330, range(170, 171), 250, (0, 39), (0, 330, 4, 0, 476640000, 0, 0, 1, 0, 0), *THREE_SLOW, LAST_FAST, (*SLOW_M, 231120000, 31893, 80)),
    (30, 0, 10, 131, 331, range(170, 171), 250, (0, 39), (1, 330, 4, 0, 478080000, 0, 0, 1, 0, 0), *THREE_SLOW, LAST_FAST, (*SLOW_M, 232560000, 32093, 80)),
    # a set speed of 132 is never reached, neither by ten fast samples: E has 9 x 2,880,000 + 2,160,000 + 119 x 1,440,000.
    (30, 0, 10, 132, 300, range(170, 180), 0, (0, 39), (0, 300, 4, 0, 444960000, 0, 0, 1, 0, 0), *THREE_SLOW, LAST_FAST, (*SLOW_M, 199440000, 26389, 0)),
    # at s = 31 a slow sample is not below: 129 intervals in E, 2,160,000 + 128 x 1,440,000.
    (31, 0, 10, 131, 300, range(170, 171), 0, (0, 39), (0, 300, 4, 0, 432000000, 0, 0, 1, 0, 0), *THREE_SLOW, LAST_FAST, (*SLOW_M, 186480000, 25831, 1)),
    # s = u: no speed is below. Slow samples have reached the set speed: 129 x 1,440,000 in E.
    (30, 0, 10, 30, 300, range(0, 0), 0, (0, 39), (0, 300, 4, 0, 430560000, 0, 0, 1, 0, 0), *THREE_SLOW, ALL_SLOW, (*SLOW_M, 185760000, 25800, 1)),
    # the set speed is reached in M, by all ten samples, and in cycle 4, by sample 150, which is position 20 and outside; but not in E. M has
    # 9 x 2,880,000 + 2,160,000, either phase of cycle 4 19 x 1,440,000 + 2,160,000. The map shows cycle 4 through E.
    (
        30, 1, 10, 131, 300, range(80, 90), 150, (20, 0), (0, 300, 4, 1, 446400000, 1, 1, 1, 1, 0),
        ALL_SLOW, LAST_FAST, ALL_SLOW, (29520000, 29520000, 4031, 4031, 1), (28080000, 2589, 185760000, 25800, 0),
    ),
    # samples 168 and 169 of cycle 4 are outside, and 170 to 174 of E are as fast: a count of 2, not above 2; then five below. The map shows cycle 4 through E.
    # E has 4 x 2,880,000 + 2,160,000 + 4 x 1,440,000.
    (30, 2, 10, 131, 180, range(168, 175), 0, (38, 0), (0, 180, 4, 2, 267840000, 2, 2, 1, 1, 0), *THREE_SLOW, FAST_AT_END, (*SLOW_M, 19440000, 2079, 6)),
    # 50 samples of E are below before sample 220 reaches the set speed; samples 221 to 299 are 79 below. One more is the 80th.
    (30, 0, 10, 131, 300, range(220, 221), 0, (0, 39), (0, 300, 4, 0, 432000000, 0, 0, 1, 0, 0), *THREE_SLOW, ALL_SLOW, (*SLOW_M, 187200000, 25862, 80)),
    (30, 0, 10, 131, 301, range(220, 221), 0, (0, 39), (1, 300, 4, 0, 433440000, 0, 0, 1, 0, 0), *THREE_SLOW, ALL_SLOW, (*SLOW_M, 188640000, 26062, 80)),
    # more samples than 64 cycles have: there is no end by limit. 2429 x 1,440,000 in E.
    (30, 0, 10, 132, 2600, range(0, 0), 0, (0, 39), (0, 2600, 4, 0, 3742560000, 0, 0, 1, 0, 0), *THREE_SLOW, ALL_SLOW, (*SLOW_M, 3497760000, 485800, 0)),
]

NAMES = ["end", "counted", "cycles", "outside", "drawn", "ones", "outside", "agree"]


def row_text(number, row):
    """Phases that do not exist hold 0."""
    first, second, near, far, outside = row
    return f"row {number} energies {first} {second} 0 0 distances {near} {far} 0 0 outside {outside}"


def stretched_text(numbers):
    return "M energy {} distance {}, E energy {} distance {}, watch {}".format(*numbers)


def say(method, offered, asked, worked, heading):
    figures, *rows = worked
    parts = [f"{name} {n}" for name, n in zip(NAMES, figures)] + [f"position {p} set {n}" for p, n in zip(asked, figures[8:])]
    parts += [row_text(number, row) for number, row in zip(rows_of(offered, method), rows)]
    parts += [] if method is None else [stretched_text(rows[-1])]
    for how in "samples", "blocks":
        print(f"{how}, {heading}: " + ", ".join(parts))


def main():
    for s, allowance, offered, fast, asked, *worked in RUNS:
        again = play(s, allowance, offered, fast, asked)
        assert tuple(worked) == again, (worked, again)
        say(None, offered, asked, worked, f"s {s}, allowance {allowance}, offered {offered}, fast from {fast.start} upto {fast.stop}")
    for s, allowance, length, speed, offered, fast, more, asked, *worked in SHORTENED:
        again = play(s, allowance, offered, [*fast, *[more] * (more > 0)], asked, (length, speed))
        assert tuple(worked) == again, (worked, again)
        heading = f"s {s}, allowance {allowance}, M {length}, set speed {speed}, offered {offered}, fast from {fast.start} upto {fast.stop}"
        heading += f" and {more}" if more > 0 else ""
        say((length, speed), offered, asked, worked, heading)


if __name__ == "__main__":
    main()
