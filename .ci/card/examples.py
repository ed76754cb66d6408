#!/usr/bin/env python3
"""examples.py FOLDER writes to FOLDER the example records and their README.md, and of each record what the programs print: the sheet, worked out by hand, the
trace and the field list, worked out by desk.py. It fails where the three do not agree.
examples.py refused-7 writes to standard output the record of refusal 7, which is too long to be stored."""
import sys

import desk
from rows import *

SLOW = NAMED + cycle([2], [0] * 3) + DRAFT

# A whole test by the shortened method: T = 2 and M of 20 samples, so that cycles 1 and 2 have samples 0 to 79, M 80 to 99, cycles 3 and 4 100 to 179, and E
# those from 180 on; a set speed of 140. Samples draw 720,000 in cycles 1 and 2, 1,200,000 in M, 660,000 in cycles 3 and 4, in E 1,320,000 and then 900,000
TWENTY = HEAD + stretches(20, 140)
LATER, IN_M, IN_E, FALLING = (100, 6000, -110), (140, 6000, -200), (140, 6000, -220), (100, 6000, -150)
IN_TURN = [*[GOOD] * 80, *[IN_M] * 20, *[LATER] * 80, *[IN_E] * 30, *[FALLING] * 85]

# T = 4, so that a cycle has 80 positions, in phases of 20, 20 and 40; tops at positions 20 and 60. Both kinds of samples draw 720,000
TOPS = NAMED + cycle([1, 2, 4], [0, 100, 0, 100, 0]) + tolerances(30, 5, 1)
STEADY, SLOWER = (45, 6000, -120), (44, 6000, -120)

EXAMPLES = [
    ("first", "document 01's example: of 120 samples the last interval is open, so two cycles are finished", EXAMPLE + recharge(15), told("none 120", 2, 0, 0, 171360000)),
    ("closed", "document 01's example with one sample more, which closes the third cycle", DRIVEN + recharge(15), driven("ac 937500")),
    ("empty", "no samples at all", HEAD, told("none 0")),
    ("one", "one sample: its interval is open and adds nothing", HEAD + block(0, GOOD), told("none 1")),
    ("joint", "joints of phases and of cycles, with other speeds and energies on both sides", JOINT + recharge(15), joined("ac 937500")),
    # A speed of 45 is inside at every position: lo is never above 20 x 45 + 20 x 30 = 1500, nor hi below 500, and 20 x 45 <= 500 + 600. At a top lo is 1500, five
    # places from it, and 20 x 44 + 600 = 1480: SLOWER is outside there. Such are sample 100, position 20 of cycle 2, and samples 260 and 300, positions 20 and 60
    # of cycle 4. Sample 300 brings the count to 2, above 1, and closes the 300th interval. Each has 1,440,000 and 90, or 89 where SLOWER is one of its ends.
    # e = 80 x 1,440,000 = 115,200,000 in each cycle; d_1 = d_3 = 80 x 90 = 7,200, q_1 = q_3 = 1,600,000; d_2 = 78 x 90 + 2 x 89 = 7,198, q_2 = 1,600,444 (.56)
    # E = 432,000,000; W = 1,600,000 + 444 x 115,200,000 / 432,000,000 = 1,600,118.4; 2,160,000,000 / 115,208,496 = 18.74.. metres; 15,000,000 / 18 = 833,333.33..
    ("phases", "a stop inside the third phase of the fourth cycle, by the window at a top: 45 is inside there, 44 is not", TOPS + drive(*[STEADY] * 100, SLOWER, *[STEADY] * 159, SLOWER, *[STEADY] * 39, SLOWER, FAR, FAR) + recharge(15), told("stop 300", 3, 3, 0, 432000000, ["weighted 1600118", "range 18", "ac 833333"])),
    # worked out in rows.py, `uneven` and the rows of L11: 864,000,000 / 51,710,688 = 16.70.., and 879,081,700 / 51,710,688 = 17.00..
    ("not-above", "W is rounded down, and the range has the whole metres of the unrounded one", HEAD + block(0, *UNEVEN * 3, GOOD), uneven(16)),
    ("above", "the same with energy before the test: the range is one metre above the whole metres of the unrounded one, 16.99..", HEAD + transfer(0, 1508170) + block(0, *UNEVEN * 3, GOOD), uneven(17)),
    ("stop", "every speed 131 where 130 is inside, allowance 3: the fourth sample stops the run", NAMED + LEVEL + tolerances(30, 20, 3) + block(0, *[(131, 6000, -120)] * 10), told("stop 3", 0, 4, 0, 4320000)),
    ("stop-at-once", "a stop by the first sample of the run, allowance 0: no interval was open", STRICT + block(0, STOPPING, GOOD, GOOD), told("stop 0", 0, 1)),
    # The stopping sample draws 1,440,000 at a speed of 131 and closes the third cycle: e_3 = 39 x 1,440,000 + 2,160,000 = 58,320,000, d_3 = 39 x 200 + 231 =
    # 8,031, q_3 = 726,186 (.02). W = (720,000 x 115,200,000 + 726,186 x 58,320,000) / 173,520,000 = 722,079.11..; 867,600,000 / 51,989,688 = 16.68.. metres
    ("stop-first", "a stop at the first position of a cycle, which finishes the cycle before", STRICT + block(0, *[GOOD] * 120, STOPPING, *[FAR] * 5) + recharge(15), told("stop 120", 3, 1, 0, 173520000, ["weighted 722079", "range 16", "ac 937500"])),
    # 158 x 1,440,000 + 2,160,000; the fourth cycle lacks its last interval. 1,148,400,000 / 51,840,000 = 22.15.. metres; 15,000,000 / 22 = 681,818.18..
    ("stop-last", "a stop at the last position of a cycle, which leaves the cycle unfinished", STRICT + block(0, *[GOOD] * 159, STOPPING, *[FAR] * 5) + recharge(15), told("stop 159", 3, 1, 0, 229680000, ["weighted 720000", "range 22", "ac 681818"])),
    ("limit", "64 cycles and five samples more: the first of them closes the last cycle, and none of them counts", HEAD + blocks(2565, GOOD), told("limit 2560", 64, 0, 0, 3686400000, ["weighted 720000", "range 355", "ac -"])),
    # 2558 x 1,440,000 + 150,720,000; 19,171,200,000 / 51,840,000 = 369.81.. metres. The last sample is judged
    ("limit-open", "the samples of 64 cycles, the last far outside: its interval is open, so 63 cycles are finished", HEAD + blocks(2559, GOOD) + block(2559, FAR), told("none 2560", 63, 1, 0, 3834240000, ["weighted 720000", "range 369", "ac -"])),
    # e_64 = 39 x 1,440,000 + 150,720,000 = 206,880,000, d_64 = 39 x 200 + 1,600 = 9,400, q_64 = 2,200,851 (.06); E = 63 x 57,600,000 + e_64.
    # W = [62 x 720,000 x 115,200,000 + 3,720,480,000 x (61 x 720,000 + 2,200,851)] / (62 x 3,835,680,000) = 743,167.34..;
    # 19,178,400,000 / 53,508,024 = 358.42.. metres
    ("limit-closed", "one sample more than 64 cycles have: far outside, allowance 0, but it is not judged and brings the limit", STRICT + blocks(2560, GOOD) + block(2560, FAR), told("limit 2560", 64, 0, 0, 3835680000, ["weighted 743167", "range 358", "ac -"])),
    # Sample 210 is the first below, 100 + 30 < 140, and sample 289 the 80th: it stops the run and closes the last interval.
    # e_1 = 40 x 1,440,000 = 57,600,000; d_1 = 40 x 200 = 8,000; q_1 = 720,000
    # e_2 = 39 x 1,440,000 + 1,920,000 = 58,080,000; d_2 = 39 x 200 + 240 = 8,040; q_2 = 722,388 (.05)
    # M has 19 x 2,400,000 + 1,860,000 = 47,460,000
    # e_3 = 40 x 1,320,000 = 52,800,000; d_3 = 8,000; q_3 = 660,000
    # e_4 = 39 x 1,320,000 + 1,980,000 = 53,460,000; d_4 = 8,040; q_4 = 664,925 (.37)
    # E has 29 x 2,640,000 + 2,220,000 + 79 x 1,800,000 = 220,980,000
    # drawn is the sum of the six, 490,380,000; E = 2 x 28,800,000 + 490,380,000 = 547,980,000; F = 2 x 14,400,000 = 28,800,000
    # W = [2 x (720,000 x 57,600,000 + 722,388 x 58,080,000) + (547,980,000 - 115,680,000) x (660,000 + 664,925)] / (2 x 547,980,000)
    # = (166,856,590,080,000 + 572,765,077,500,000) / 1,095,960,000 = 674,861.91..; 5 x 547,980,000 / (72 x 674,861) = 2,739,900,000 / 48,589,992 = 56.38.. metres
    # 547,980,000 x 45 x 1,000,000 / (576,780,000 x 56) = 763,447.19..
    ("shortened", "a whole test by the shortened method: the 80th sample below the set speed in E stops it", TWENTY + transfer(0, 28800000) + drive(*IN_TURN) + transfer(1, 14400000) + recharge(45), told("stop 289", 4, 0, 0, 490380000, ["weighted 674861", "range 56", "ac 763447"])),
    # e_1, e_2 and M as before. Sample 110 is position 10 of cycle 3: ten intervals are closed in it, 9 x 1,320,000 + 660,000 + 1,440,000 = 13,980,000
    ("shortened-stop", "a stop in cycle 3 of the shortened method: only cycles are judged by the band, and M before it is not", STRICT + stretches(20, 140) + drive(*IN_TURN[:110], STOPPING, *[LATER] * 5), told("stop 110", 2, 1, 0, 177120000)),
    # e_1, e_2 and 9 x 2,400,000 in M
    ("shortened-in-m", "a shortened test that ends inside M: two cycles are finished", TWENTY + drive(*IN_TURN[:90]), told("none 90", 2, 0, 0, 137280000)),
    # e_1, e_2, M, e_3 and e_4 as before, and nothing in E. E = drawn = 269,400,000;
    # W = (166,856,590,080,000 + 153,720,000 x 1,324,925) / (2 x 269,400,000) = 687,683.85..; 1,347,000,000 / 49,513,176 = 27.20.. metres;
    # 45,000,000 / 27 = 1,666,666.66..
    ("shortened-open", "four cycles of the shortened method and one sample of E, which closes the fourth: nothing is closed in E", TWENTY + drive(*IN_TURN[:181]) + recharge(45), told("none 181", 4, 0, 0, 269400000, ["weighted 687683", "range 27", "ac 1666666"])),
    ("twins", "two trucks of one model on twin rollers: the other's blocks are passed over, whatever they hold", EXAMPLE + block(7, (9000, 0, 0), number=OTHER) + block(120, *[GOOD] * 41) + block(0, GOOD, number=OTHER) + recharge(15), told("none 161", 4, 0, 2, 230400000, ["weighted 720000", "range 22", "ac 681818"])),
    # E = 2 x 10^13 + 172,800,000, and E + F = 172,800,000. 100,000,864,000,000 / 51,840,000 = 1,929,029.01.. metres;
    # 300,002,592,000,000,000,000 / (172,800,000 x 1,929,029) = 900,000.00..
    ("transfer", "transfer energies at their limit, 10^13 before and -10^13 after: doubled on reading", HEAD + transfer(0, 10**13) + block(0, *[GOOD] * 121) + transfer(1, -(10**13)) + recharge(15), closed("weighted 720000", "range 1929029", "ac 900000")),
    ("refused-2", "a cycle of 2401 seconds", NAMED + cycle([2401], [0] * 2402), refused(2, 3)),
    ("refused-3", "a time tolerance of 41 positions", NAMED + LEVEL + tolerances(30, 41, 300), refused(3, 4)),
    ("refused-4", "a vehicle number with an I", MARK + NUMBER_I, refused(4, 2)),
    ("refused-5", "a speed of 150.1 km/h, in the third sample of a block", HEAD + block(0, GOOD, GOOD, (1501, 0, 0)), refused(5, 5)),
    # Fields 5, 6 and 7 are blocks. Of the last, samples 3 to 6 of the run, the second and the fourth are wrong
    ("refused-5-late", "a current of -1000.1 A in a later block, behind another vehicle's, and a speed of 150.1 km/h behind it", HEAD + block(0, GOOD, GOOD, GOOD) + block(0, (9000, 0, 0), number=OTHER) + block(3, GOOD, (100, 6000, -10001), GOOD, (1501, 0, 0)), refused(5, 7)),
    ("refused-6", "a block that begins at sample 0 again", HEAD + block(0, GOOD) + block(0, GOOD), refused(6, 6)),
    ("refused-8", "the mark RUN2", field(1, b"RUN2"), refused(8, 1)),
    ("refused-9", "an energy before the test that stands after the first own block", HEAD + block(0, GOOD) + transfer(0, 0), refused(9, 6)),
    ("refused-9-stretches", "a field 8 that stands after an energy before the test", HEAD + transfer(0, 0) + stretches(20, 140), refused(9, 6)),
    ("refused-10", "two finished cycles only", HEAD + block(0, *[GOOD] * 81), told("none 81", 2, 0, 0, 115200000)),
    # e_1, e_2, M and e_3 as before, and 39 x 1,320,000 in cycle 4, whose last interval is open
    ("refused-10-shortened", "three finished cycles of the shortened method, which asks for four", TWENTY + drive(*IN_TURN[:180]), told("none 180", 3, 0, 0, 267420000)),
    ("refused-11", "a battery that is charged all along", HEAD + block(0, *[(100, 6000, 120)] * 121), closed("refused 11", drawn=-172800000)),
    ("refused-12", "a vehicle that stands", SLOW + block(0, *[(0, 6000, -120)] * 121), closed("refused 12")),
    # e = 57,600,000, d = 40 x 2 = 80, q = 72,000,000
    ("refused-12-rate", "a vehicle that creeps at 0.1 km/h: the rate of its cycles is above 10,000,000", SLOW + block(0, *[(1, 6000, -120)] * 121), closed("refused 12")),
    ("refused-12-late", "a recharge of 161 Wh for 16 metres: the recharge figure is above its limit", DRIVEN + recharge(161), driven("refused 12")),
    ("refused-13", "a range below one metre", SLOW + block(0, *[(1, 1, -1)] * 121), closed("refused 13", drawn=240)),
    ("refused-14", "a transfer energy beyond 10^13", HEAD + transfer(0, 10**13 + 1), refused(14, 5)),
    ("refused-14-late", "all energy given back after the test", DRIVEN + transfer(1, -86400000) + recharge(15), driven("refused 14")),
    ("refused-15", "an input that ends inside a block", HEAD + block(0, GOOD)[:-1], refused(15, 5)),
    ("refused-15-early", "an input that ends before the tolerances", NAMED + LEVEL, refused(15, 4)),
    ("refused-19", "a field 8 with an M of no samples", HEAD + stretches(0, 140), refused(19, 5)),
]


def too_long(out):
    """4,000,000 samples in blocks of 200, and one sample more: `refused 7 field 20005`."""
    out.write(HEAD)
    for first in range(0, 4_000_000, 200):
        out.write(block(first, *[GOOD] * 200))
    out.write(block(4_000_000, GOOD))


HEADING = """# Records to try

Each record is here with what the programs print of it:

| file | what it is | what prints it |
|---|---|---|
| `NAME.rec` | the record, in document 01's layout | |
| `NAME.sheet` | the sheet | `bin/paperwhelk sheet examples/NAME.rec` |
| `NAME.trace` | the trace: the lines of the sheet, and with them every number that they came from | `bin/paperwhelk trace examples/NAME.rec` |
| `NAME.fields` | the field list: each field of the record, with its number and the byte at which it begins | `bin/paperwhelk fields examples/NAME.rec` |

The sheets were worked out by hand from documents 01 and 02. The traces and field lists were worked out by `.ci/card/desk.py`, a script that was made from the papers and uses neither our programs nor `second`. `.ci/card/examples.py` makes all four files of each record, and fails where sheet, trace and field list do not agree or a trace does not add up. The gate compares what the programs print with these files.

There is a record for every refusal that a record can bring, but for 7: that takes more than 4,000,000 samples or blocks passed over. This makes such a record, of 24 megabytes, and prints `refused 7 field 20005`:

    python3 .ci/card/examples.py refused-7 | bin/paperwhelk sheet

So does `trace`. The last line of `fields` is `20005 24480048 refused 7`: four fields of 48 bytes in all, and 20,000 blocks of 3 + 21 + 200 x 6 = 1,224 bytes.

Refusal 1 is for lent memory and state, which no record reaches; the program `refusals` runs it (`crates/refusals/stdout`).

| record | what it shows |
|---|---|
"""


def main(folder):
    with open(folder + "/README.md", "w") as readme:
        readme.write(HEADING)
        for name, what, record, sheet in EXAMPLES:
            readme.write(f"| `{name}.rec` | {what} |\n")
            with open(f"{folder}/{name}.rec", "wb") as out:
                out.write(record)
            traced, listed = desk.trace(record), desk.field_list(record)
            for claim, holds in desk.claims(record, sheet, traced, listed):
                assert holds, f"{name}: {claim}: not so"
            for ending, lines in ("sheet", sheet), ("trace", traced), ("fields", listed):
                with open(f"{folder}/{name}.{ending}", "w") as out:
                    out.write("\n".join(lines) + "\n")
        readme.write("\n`bench.c` is a C caller of the bench controller's question, `sheet.c` one that prints a record's sheet.\n")


if __name__ == "__main__":
    if sys.argv[1] == "refused-7":
        too_long(sys.stdout.buffer)
    else:
        main(sys.argv[1])
