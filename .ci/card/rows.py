#!/usr/bin/env python3
"""The rows of the test card that a program runs: rows.py FOLDER writes the records to FOLDER/stdin, each behind its length (4 bytes, big-endian),
and what is to be printed to FOLDER/stdout, each with an empty line behind it. What is to be printed is worked out by hand from documents 01 and 02:

A sample GOOD draws 720,000. The interval from one GOOD to the next has the sum of both, 1,440,000, and a distance of 100 + 100 = 200. With T = 2 a cycle has
40 intervals: e = 57,600,000 and d = 8,000, so q = 100 e / d = 720,000. Without a stop n samples close n - 1 intervals: the 41st closes the first cycle, the
121st the third. A run that is stopped by sample m (from 0) has closed m. Range is 5 E / (72 W), with W = 720,000 that is E / 10,368,000.

The rows of the shortened method (document 02, L5) have a cycle of 40 positions too, and most of them an M of 10 samples: cycles 1 and 2 have samples 0 to 79,
M 80 to 89, cycle 3 90 to 129, cycle 4 130 to 169, and E the others from 170 on. So the 171st sample closes the fourth cycle."""
import sys

OWN, OTHER = b"LTESTVEH000000001", b"LTESTVEH000000002"
GOOD = (100, 6000, -120)


def field(tag, value):
    return bytes([tag]) + len(value).to_bytes(2, "big") + value


def words(*numbers):
    return b"".join(n.to_bytes(2, "big") for n in numbers)


def cycle(ends, points):
    return field(3, bytes([len(ends)]) + words(*ends, *points))


def block(first, *samples, number=OWN):
    values = b"".join(words(s, v) + (c % 65536).to_bytes(2, "big") for s, v, c in samples)
    return field(5, number + first.to_bytes(4, "big") + values)


def blocks(n, sample):
    return b"".join(block(i, *[sample] * min(200, n - i)) for i in range(0, n, 200))


def transfer(kind, energy):
    return field(6, bytes([kind]) + (energy % 2**64).to_bytes(8, "big"))


def recharge(wh):
    return field(7, wh.to_bytes(4, "big"))


def tolerances(*numbers):
    return field(4, words(*numbers))


def stretches(length, speed):
    """M's length in samples, E's set speed."""
    return field(8, length.to_bytes(4, "big") + words(speed))


def drive(*samples, first=0):
    """Samples in blocks of 200, the last with what is left."""
    return b"".join(block(first + i, *samples[i : i + 200]) for i in range(0, len(samples), 200))


MARK, NUMBER = field(1, b"RUN1"), field(2, OWN)
LEVEL = cycle([2], [100, 100, 100])
DRAFT = tolerances(30, 20, 300)
NAMED = MARK + NUMBER
HEAD = NAMED + LEVEL + DRAFT
# document 01's example has 120 samples; one more closes the third cycle
EXAMPLE = HEAD + block(0, *[GOOD] * 120)
DRIVEN = HEAD + block(0, *[GOOD] * 121)
# far outside, and as much energy as a sample can draw
FAR = (1500, 15000, -10000)
# T = 2 again, of two phases with 20 positions each, driven with three kinds of samples; three cycles, and one sample more
MIDDLE, QUICK, SLACK = [GOOD] * 20, [(120, 6000, -150)] * 20, [(80, 6000, -110)] * 20
JOINT_HEAD = NAMED + cycle([1, 2], [100] * 3) + DRAFT
JOINT_DRIVE = block(0, *MIDDLE, *QUICK, *SLACK, *MIDDLE, *QUICK, *SLACK, (100, 6000, -500))
JOINT = JOINT_HEAD + JOINT_DRIVE
NUMBER_I = field(2, b"ITESTVEH000000001")
# an allowance of 0, and a sample that stops the run then: it draws 1,440,000
STRICT = NAMED + LEVEL + tolerances(30, 20, 0)
STOPPING = (131, 6000, -240)
# a cycle of T = 2 with one sample that is quicker and draws as much as GOOD: e = 57,600,000, d = 38 x 200 + 2 x 210 = 8,020, 100 e / d = 718,204.48..
UNEVEN = [*[GOOD] * 10, (110, 6000, -120), *[GOOD] * 29]
# the shortened method: M of 10 samples, a set speed of 140. With s = 30 a speed of 109 is below, 109 + 30 < 140, and one of 110 is not
STRETCHES = stretches(10, 140)
SHORTENED = HEAD + STRETCHES
STRICT_SHORTENED = STRICT + STRETCHES
# all these draw 720,000 as GOOD does, whose speed of 100 is below: at the set speed, just not there, just not below, just below, standing
SET, UNDER, NEAR, BELOW, STANDING = [(speed, 6000, -120) for speed in (140, 139, 110, 109, 0)]
# up to the first sample of E, which is GOOD: four cycles are finished, each with q = 720,000
FOUR = [GOOD] * 171


def refused(number, at):
    return [f"refused {number} field {at}"]


def told(end="none 0", cycles=0, outside=0, passed=0, drawn=0, closing=("refused 10",)):
    return ["run " + OWN.decode(), f"end {end}", f"cycles {cycles}", f"outside {outside}", f"passed {passed}", f"drawn {drawn}", *closing]


def driven(ac, passed=0):
    """Document 01's example with one sample more, and with another last line: E = 120 x 1,440,000, and 864,000,000 / 51,840,000 = 16.66.. metres."""
    return told("none 121", 3, 0, passed, 172800000, ["weighted 720000", "range 16", ac])


def closed(*closing, drawn=172800000, outside=0):
    return told("none 121", 3, outside, 0, drawn, closing)


def joined(ac):
    """JOINT. Its kinds of samples draw 720,000, 900,000 and 660,000, its last sample 3,000,000. In a phase 19 intervals have both ends in it: 27,360,000,
    34,200,000 or 25,080,000, over 3,800, 4,560 or 3,040. The 20th goes on to the first sample behind the phase, and is of the phase and cycle that it comes from.
    e_1 = 27,360,000 + 1,620,000 + 34,200,000 + 1,560,000 = 64,740,000; d_1 = 3,800 + 220 + 4,560 + 200 = 8,780; q_1 = 737,357 (.63)
    e_2 = 25,080,000 + 1,380,000 + 27,360,000 + 1,620,000 = 55,440,000; d_2 = 3,040 + 180 + 3,800 + 220 = 7,240; q_2 = 765,745 (.85)
    e_3 = 34,200,000 + 1,560,000 + 25,080,000 + 3,660,000 = 64,500,000; d_3 = 4,560 + 200 + 3,040 + 180 = 7,980; q_3 = 808,270 (.67)
    E is their sum; W = (q_1 e_1 + q_2 e_2 + q_3 e_3) / E = 142,322,809,980,000 / 184,680,000 = 770,645.49..; 923,400,000 / 55,486,440 = 16.64.. metres."""
    return told("none 121", 3, 0, 0, 184680000, ["weighted 770645", "range 16", ac])


def uneven(metres):
    """Three cycles UNEVEN and one sample more. q = 718,204 for each, so W = 718,204 and 72 W = 51,710,688; unrounded 72 W* = 51,710,723.19.."""
    return closed("weighted 718204", f"range {metres}", "ac -")


def four(end, drawn, metres, ac="ac -", passed=0):
    """Four cycles of the shortened method, each with q = 720,000, whatever M and E have: by formula 13 W is 720,000."""
    return told(end, 4, 0, passed, drawn, ["weighted 720000", f"range {metres}", ac])


def from_number(text):
    """A record whose vehicle number is the text."""
    return MARK + field(2, text) + LEVEL + DRAFT


ROWS = [
    # document 01's example, 119 x 1,440,000 and two cycles; with one sample more; and the rows of the test card that are not marked P
    (EXAMPLE + recharge(15), told("none 120", 2, 0, 0, 171360000)),
    (DRIVEN + recharge(15), driven("ac 937500")),
    (NAMED + cycle([2401], [0] * 2402), refused(2, 3)),
    (HEAD, told()),
    (NAMED + cycle([2400], [1500] * 2401) + DRAFT, told()),
    (NAMED + cycle([1], [0, 0]), refused(8, 3)),
    (HEAD + field(5, OWN + bytes(4)), refused(8, 5)),
    (HEAD + block(0, *[GOOD] * 200), told("none 200", 4, 0, 0, 286560000, ["weighted 720000", "range 27", "ac -"])),
    (HEAD + block(0, *[GOOD] * 201), refused(8, 5)),
    (b"", refused(15, 1)),
    # 2: a cycle that breaks a rule, or whose length does not match
    (NAMED + field(3, bytes([0]) + words(2, 0, 0, 0)), refused(2, 3)),
    (NAMED + cycle([1, 2, 3, 4, 5], [0] * 6), refused(2, 3)),
    (NAMED + cycle([0, 2], [0] * 3), refused(2, 3)),
    (NAMED + cycle([2, 2], [0] * 3), refused(2, 3)),
    (NAMED + cycle([1, 2, 3, 4], [0] * 5) + DRAFT, told()),
    (NAMED + cycle([2], [0] * 4), refused(2, 3)),
    (NAMED + cycle([3], [0] * 3), refused(2, 3)),
    (NAMED + cycle([2], [0, 1501, 0]), refused(2, 3)),
    (NAMED + cycle([2], [0, 0, 1501]), refused(2, 3)),
    (NAMED + cycle([2], [1500] * 3) + DRAFT, told()),
    # 3: tolerances beyond their limits, and at them
    (NAMED + LEVEL + tolerances(101, 20, 300), refused(3, 4)),
    (NAMED + LEVEL + tolerances(30, 41, 300), refused(3, 4)),
    (NAMED + LEVEL + tolerances(30, 20, 1201), refused(3, 4)),
    (NAMED + LEVEL + tolerances(100, 40, 1200), told()),
    # 4: forbidden characters, in the number of the record and of a block, in its first place and its last
    (MARK + NUMBER_I, refused(4, 2)),
    (from_number(b"OTESTVEH000000001"), refused(4, 2)),
    (from_number(b"LTESTVEH00000000Q"), refused(4, 2)),
    (from_number(b"LTESTVEH00000000a"), refused(4, 2)),
    (from_number(b"LTESTVEH0000-0001"), refused(4, 2)),
    (HEAD + block(0, GOOD, number=b"LTESTVEH00000000I"), refused(4, 5)),
    # 5: sample values beyond their limits, and at them
    (HEAD + block(0, (1501, 0, 0)), refused(5, 5)),
    (HEAD + block(0, (0, 15001, 0)), refused(5, 5)),
    (HEAD + block(0, (0, 0, 10001)), refused(5, 5)),
    (HEAD + block(0, (0, 0, -10001)), refused(5, 5)),
    (HEAD + block(0, GOOD, GOOD, (1501, 0, 0)), refused(5, 5)),
    (HEAD + block(0, (1500, 15000, 10000), (0, 15000, -10000)), told("none 2", outside=2)),
    (HEAD + block(0, (1500, 15000, -10000), (0, 15000, -10000)), told("none 2", outside=2, drawn=300000000)),
    (HEAD + block(0, (1500, 15000, 10000), (0, 15000, 10000)), told("none 2", outside=2, drawn=-300000000)),
    # 6: the first number of a block
    (HEAD + block(1, GOOD), refused(6, 5)),
    (HEAD + block(0, GOOD) + block(0, GOOD), refused(6, 6)),
    (HEAD + block(0, GOOD) + block(1, GOOD), told("none 2", drawn=1440000)),
    # 8: unknown tags, from the first byte; lengths, from the third; the mark; the kind of a field 6
    (b"\0", refused(8, 1)),
    (b"\x09", refused(8, 1)),
    (b"\xff", refused(8, 1)),
    (HEAD + b"\x09", refused(8, 5)),
    (MARK[:2] + b"\x03", refused(8, 1)),
    (MARK[:2], refused(15, 1)),
    (field(1, b"RUN2"), refused(8, 1)),
    (field(1, b"run1"), refused(8, 1)),
    (MARK + field(2, OWN[:16]), refused(8, 2)),
    (NAMED + b"\x03\x00\x08", refused(8, 3)),
    (NAMED + b"\x03\x12\xcb", refused(15, 3)),
    (NAMED + b"\x03\x12\xcc", refused(8, 3)),
    (NAMED + LEVEL + b"\x04\x00\x05", refused(8, 4)),
    (HEAD + b"\x05\x00\x1a", refused(8, 5)),
    (HEAD + b"\x05\x00\x1b", refused(15, 5)),
    (HEAD + b"\x05\x00\x1c", refused(8, 5)),
    (HEAD + transfer(2, 0), refused(8, 5)),
    (HEAD + b"\x06\x00\x08", refused(8, 5)),
    (HEAD + b"\x07\x00\x03", refused(8, 5)),
    # 9: out of order
    (NUMBER, refused(9, 1)),
    (MARK + MARK, refused(9, 2)),
    (MARK + LEVEL, refused(9, 2)),
    (NAMED + LEVEL + LEVEL, refused(9, 4)),
    (NAMED + LEVEL + block(0, GOOD), refused(9, 4)),
    (HEAD + MARK, refused(9, 5)),
    (HEAD + DRAFT, refused(9, 5)),
    (HEAD + transfer(0, 0) + transfer(0, 0), refused(9, 6)),
    (HEAD + block(0, GOOD) + transfer(0, 0), refused(9, 6)),
    (HEAD + transfer(1, 0) + transfer(0, 0), refused(9, 6)),
    (HEAD + transfer(1, 0) + transfer(1, 0), refused(9, 6)),
    (HEAD + transfer(1, 0) + block(0, GOOD), refused(9, 6)),
    (HEAD + transfer(1, 0) + block(0, GOOD, number=OTHER), refused(9, 6)),
    (HEAD + recharge(15) + recharge(15), refused(9, 6)),
    (HEAD + recharge(15) + transfer(1, 0), refused(9, 6)),
    (HEAD + recharge(15) + block(0, GOOD), refused(9, 6)),
    # a block passed over moves nothing: a 6 before may still follow
    (HEAD + block(0, GOOD, number=OTHER) + transfer(0, 0) + block(9, GOOD, number=OTHER), told(passed=2)),
    (HEAD + block(0, GOOD, number=OTHER) + transfer(0, 0) + transfer(0, 0), refused(9, 7)),
    # 14: amounts beyond their limits, and at them
    (HEAD + transfer(0, 10**13 + 1), refused(14, 5)),
    (HEAD + transfer(0, -(10**13) - 1), refused(14, 5)),
    (HEAD + transfer(0, 10**13) + transfer(1, -(10**13)), told()),
    (HEAD + recharge(0), refused(14, 5)),
    (HEAD + recharge(2000001), refused(14, 5)),
    (HEAD + recharge(1), told()),
    # 15: the input ends inside a field, or before field 4 was accepted
    (MARK, refused(15, 2)),
    (NAMED + LEVEL, refused(15, 4)),
    (HEAD[:-1], refused(15, 4)),
    (HEAD + block(0, GOOD)[:-1], refused(15, 5)),
    (HEAD + block(0, GOOD, number=OTHER) + b"\x07", refused(15, 6)),
    # neighbours at once: 8 before 9, 9 before the content
    (MARK + field(1, b"RUN2"), refused(8, 2)),
    (HEAD + recharge(15) + transfer(2, 0), refused(8, 6)),
    (NUMBER_I, refused(9, 1)),
    (MARK + cycle([2401], [0] * 2402), refused(9, 2)),
    (HEAD + tolerances(101, 20, 300), refused(9, 5)),
    (HEAD + recharge(15) + block(1, GOOD, number=b"ITESTVEH000000001"), refused(9, 6)),
    (HEAD + recharge(15) + recharge(0), refused(9, 6)),
    (HEAD + transfer(2, 10**13 + 1), refused(8, 5)),
    # field 5: 4 before passing over, passing over before 6 and 5, 6 before 5
    (HEAD + block(1, (1501, 0, 0), number=b"ITESTVEH000000001"), refused(4, 5)),
    (HEAD + block(1, (1501, 0, 0), number=OTHER), told(passed=1)),
    (HEAD + block(1, (1501, 0, 0)), refused(6, 5)),
    (DRIVEN + block(7, (9000, 0, 0), number=OTHER) + recharge(15), driven("ac 937500", 1)),
    # stops: the card's runs of every speed 131. The stopping sample closes the last interval: 3, 5 and 39 intervals; without a stop 9, 39 and 40
    (NAMED + LEVEL + tolerances(30, 20, 3) + block(0, *[(131, 6000, -120)] * 10), told("stop 3", 0, 4, 0, 4320000)),
    (NAMED + LEVEL + tolerances(30, 20, 5) + block(0, *[(131, 6000, -120)] * 10), told("stop 5", 0, 6, 0, 7200000)),
    (NAMED + LEVEL + tolerances(31, 20, 3) + block(0, *[(131, 6000, -120)] * 10), told("none 10", 0, 0, 0, 12960000)),
    (NAMED + LEVEL + tolerances(30, 20, 39) + block(0, *[(131, 6000, -120)] * 40), told("stop 39", 0, 40, 0, 56160000)),
    (NAMED + LEVEL + tolerances(30, 20, 40) + block(0, *[(131, 6000, -120)] * 40), told("none 40", 0, 40, 0, 56160000)),
    (NAMED + LEVEL + tolerances(30, 20, 40) + block(0, *[(131, 6000, -120)] * 41), told("none 41", 1, 41, 0, 57600000)),
    # a sample behind the stopping one is still checked: the block is refused entire, and the stop with it
    (NAMED + LEVEL + tolerances(30, 20, 0) + block(0, (131, 6000, -120), (1501, 0, 0)), refused(5, 5)),
    (NAMED + LEVEL + tolerances(30, 20, 0) + block(0, (131, 6000, -120), GOOD) + block(2, GOOD), told("stop 0", 0, 1, 0, 0)),
    # open and closed intervals: one sample closes none; two samples in two blocks, with another vehicle's between them, close one: 720,000 + 0
    (HEAD + block(0, GOOD), told("none 1")),
    (HEAD + block(0, GOOD) + block(0, FAR, number=OTHER) + block(1, (100, 6000, 0)), told("none 2", 0, 0, 1, 720000)),
    # joints of phases and of cycles
    (JOINT, joined("ac -")),
    # document 02, L11: 17 x 51,710,688 = 879,081,696. With E = 172,800,000 + 2 x 1,508,170 = 175,816,340, 5E = 879,081,700 is not below it, but below
    # 17 x 51,710,723.19.. = 879,082,294.26..: the exact range has 16 whole metres. With 2 units less, 5E = 879,081,690 is below both
    (HEAD + transfer(0, 1508170) + block(0, *UNEVEN * 3, GOOD), uneven(17)),
    (HEAD + transfer(0, 1508169) + block(0, *UNEVEN * 3, GOOD), uneven(16)),
    # 5E = 879,082,300 with E = 175,816,460 is not below the unrounded one either: the exact range has 17; 879,082,290 with 2 units less is
    (HEAD + transfer(0, 1508230) + block(0, *UNEVEN * 3, GOOD), uneven(17)),
    (HEAD + transfer(0, 1508229) + block(0, *UNEVEN * 3, GOOD), uneven(17)),
    # JOINT with energy before it: E = 184,680,000 + 2 x 2,088,785 = 188,857,570; W = 145,699,414,483,900 / 188,857,570 = 771,477.75.., and W* = 771,478.47..;
    # 944,287,850 / 55,546,344 = 17.00..: R x W is above R* x (W+1). With 2 units less W is the same, and 944,287,840 is below 17 x 55,546,344 = 944,287,848
    (JOINT_HEAD + transfer(0, 2088785) + JOINT_DRIVE, told("none 121", 3, 0, 0, 184680000, ["weighted 771477", "range 17", "ac -"])),
    (JOINT_HEAD + transfer(0, 2088784) + JOINT_DRIVE, told("none 121", 3, 0, 0, 184680000, ["weighted 771477", "range 16", "ac -"])),
    # the shortened method, M of 10 GOOD: E = 244,800,000 + 2 x 1,705,652 = 248,211,304, 5E = 1,241,056,520, and 24 x 51,710,688 = 1,241,056,512;
    # the exact range has 23 whole metres, as 24 x 51,710,723.19.. = 1,241,057,356.6... With 2 units less 5E = 1,241,056,510
    (SHORTENED + transfer(0, 1705652) + drive(*UNEVEN * 2, *[GOOD] * 10, *UNEVEN * 2, GOOD), told("none 171", 4, 0, 0, 244800000, ["weighted 718204", "range 24", "ac -"])),
    (SHORTENED + transfer(0, 1705651) + drive(*UNEVEN * 2, *[GOOD] * 10, *UNEVEN * 2, GOOD), told("none 171", 4, 0, 0, 244800000, ["weighted 718204", "range 23", "ac -"])),
    # a stop by a sample that draws 1,440,000. At the first position of the second cycle: 39 x 1,440,000 + 2,160,000, and the first cycle is finished.
    # At the last position of the first: 38 x 1,440,000 + 2,160,000, and it is not. What follows changes nothing
    (NAMED + LEVEL + tolerances(30, 20, 0) + block(0, *[GOOD] * 40, (131, 6000, -240), FAR), told("stop 40", 1, 1, 0, 58320000)),
    (NAMED + LEVEL + tolerances(30, 20, 0) + block(0, *[GOOD] * 39, (131, 6000, -240), FAR), told("stop 39", 0, 1, 0, 56880000)),
    # the limit of 64 cycles, and samples after it: 2560 samples close 2559 intervals and 63 cycles; one more closes the last, and is not judged
    (HEAD + blocks(2560, GOOD), told("none 2560", 63, 0, 0, 3684960000, ["weighted 720000", "range 355", "ac -"])),
    (HEAD + blocks(2561, GOOD), told("limit 2560", 64, 0, 0, 3686400000, ["weighted 720000", "range 355", "ac -"])),
    (HEAD + blocks(2565, GOOD), told("limit 2560", 64, 0, 0, 3686400000, ["weighted 720000", "range 355", "ac -"])),
    # the sample that brings the limit meets 6 and 5 as any other
    (HEAD + blocks(2560, GOOD) + block(2559, GOOD), refused(6, 18)),
    (HEAD + blocks(2560, GOOD) + block(2560, (1501, 0, 0)), refused(5, 18)),
    # closing: 10, 11, 12, 13
    (HEAD + block(0, *[GOOD] * 80), told("none 80", 1, 0, 0, 113760000)),
    (HEAD + block(0, *[GOOD] * 81), told("none 81", 2, 0, 0, 115200000)),
    (HEAD + block(0, *[GOOD] * 120), told("none 120", 2, 0, 0, 171360000)),
    (HEAD + block(0, *[(100, 6000, 120)] * 121), closed("refused 11", drawn=-172800000)),
    # field 6 is doubled: E = 172,800,000 - 57,600,002 is below e_1 + e_2 = 115,200,000, and one unit of the field more makes it equal
    (HEAD + transfer(0, -28800001) + block(0, *[GOOD] * 121), closed("refused 11")),
    (HEAD + transfer(0, -28800000) + block(0, *[GOOD] * 121), closed("weighted 720000", "range 11", "ac -")),
    # d = 0; then d = 80 and q = 72,000,000; then e = 80, d = 80, q = 100, E = 240 and 1200 / 7200 metres
    (NAMED + cycle([2], [0] * 3) + DRAFT + block(0, *[(0, 6000, -120)] * 121), closed("refused 12")),
    (NAMED + cycle([2], [0] * 3) + DRAFT + block(0, *[(1, 6000, -120)] * 121), closed("refused 12")),
    (NAMED + cycle([2], [0] * 3) + DRAFT + block(0, *[(1, 1, -1)] * 121), closed("refused 13", drawn=240)),
    # recharge: absent, 14, 12; a figure of 0 is a figure. F is doubled too: E + F = 0, and with one unit of the field more 2
    (DRIVEN, driven("ac -")),
    (DRIVEN + transfer(1, -86400000), driven("ac -")),
    (DRIVEN + transfer(1, -86400000) + recharge(15), driven("refused 14")),
    (DRIVEN + transfer(1, -86399999) + recharge(15), driven("refused 12")),
    (DRIVEN + recharge(161), driven("refused 12")),
    (DRIVEN + recharge(160), driven("ac 10000000")),
    (DRIVEN + transfer(1, 10**13) + recharge(1), driven("ac 0")),
    # ---- the shortened method. Field 8: 19, at its limits and beyond
    (HEAD + stretches(0, 140), refused(19, 5)),
    (HEAD + stretches(1, 140), told()),
    (HEAD + stretches(4000000, 140), told()),
    (HEAD + stretches(4000001, 140), refused(19, 5)),
    (HEAD + stretches(2**32 - 1, 140), refused(19, 5)),
    (HEAD + stretches(10, 0), refused(19, 5)),
    (HEAD + stretches(10, 1), told()),
    (HEAD + stretches(10, 1500), told()),
    (HEAD + stretches(10, 1501), refused(19, 5)),
    (HEAD + stretches(10, 65535), refused(19, 5)),
    # 8 for any other length, from the third byte; 15 for a field that is not finished
    (HEAD + b"\x08\x00\x05", refused(8, 5)),
    (HEAD + b"\x08\x00\x07", refused(8, 5)),
    (HEAD + b"\x08\x01\x06", refused(8, 5)),
    (HEAD + field(8, bytes(0)), refused(8, 5)),
    (b"\x08", refused(15, 1)),
    (HEAD + b"\x08", refused(15, 5)),
    (HEAD + b"\x08\x00\x06", refused(15, 5)),
    (SHORTENED[:-1], refused(15, 5)),
    # 9 at any other place, whatever it holds: before the tolerances, behind a field 8, a 6 before, an own block, a 6 after, a 7
    (STRETCHES, refused(9, 1)),
    (MARK + STRETCHES, refused(9, 2)),
    (NAMED + STRETCHES, refused(9, 3)),
    (NAMED + LEVEL + stretches(0, 0), refused(9, 4)),
    (SHORTENED + STRETCHES, refused(9, 6)),
    (SHORTENED + stretches(0, 0), refused(9, 6)),
    (HEAD + transfer(0, 0) + STRETCHES, refused(9, 6)),
    (HEAD + block(0, GOOD) + STRETCHES, refused(9, 6)),
    (HEAD + transfer(1, 0) + stretches(0, 0), refused(9, 6)),
    (HEAD + recharge(15) + stretches(10, 1501), refused(9, 6)),
    # 8 before 9, 9 before 19: behind an own block
    (HEAD + block(0, GOOD) + b"\x08\x00\x05", refused(8, 6)),
    (HEAD + block(0, GOOD) + stretches(0, 140), refused(9, 6)),
    # what may stand behind it, and what may not; another vehicle's block before it moves nothing
    (SHORTENED + transfer(0, 0) + block(0, GOOD) + transfer(1, 0) + recharge(15), told("none 1")),
    (SHORTENED + transfer(1, 0) + recharge(15), told()),
    (SHORTENED + recharge(15), told()),
    (SHORTENED + DRAFT, refused(9, 6)),
    (SHORTENED + LEVEL, refused(9, 6)),
    (SHORTENED + transfer(0, 0) + transfer(0, 0), refused(9, 7)),
    (SHORTENED + block(0, GOOD) + transfer(0, 0), refused(9, 7)),
    (HEAD + block(7, FAR, number=OTHER) + STRETCHES + block(0, FAR, number=OTHER) + transfer(0, 0), told(passed=2)),
    (HEAD + block(0, GOOD, number=OTHER) + stretches(0, 140), refused(19, 6)),
    (HEAD + block(0, GOOD, number=OTHER) + STRETCHES + STRETCHES, refused(9, 7)),
    (HEAD + block(0, GOOD, number=OTHER) + transfer(0, 0) + STRETCHES, refused(9, 7)),
    # runs that end on each joint, before it and behind it, and inside M: n samples close n - 1 intervals of 1,440,000. A cycle's last interval is closed by the
    # first sample behind the cycle: samples 40, 80, 130, 170. Three finished cycles are 10 here
    (SHORTENED + drive(*[GOOD] * 40), told("none 40", 0, 0, 0, 56160000)),
    (SHORTENED + drive(*[GOOD] * 41), told("none 41", 1, 0, 0, 57600000)),
    (SHORTENED + drive(*[GOOD] * 80), told("none 80", 1, 0, 0, 113760000)),
    (SHORTENED + drive(*[GOOD] * 81), told("none 81", 2, 0, 0, 115200000)),
    (SHORTENED + drive(*[GOOD] * 85), told("none 85", 2, 0, 0, 120960000)),
    (SHORTENED + drive(*[GOOD] * 90), told("none 90", 2, 0, 0, 128160000)),
    (SHORTENED + drive(*[GOOD] * 91), told("none 91", 2, 0, 0, 129600000)),
    (SHORTENED + drive(*[GOOD] * 130), told("none 130", 2, 0, 0, 185760000)),
    (SHORTENED + drive(*[GOOD] * 131), told("none 131", 3, 0, 0, 187200000)),
    (SHORTENED + drive(*[GOOD] * 170), told("none 170", 3, 0, 0, 243360000)),
    # four finished and none in E: sample 170 is E's first, and its interval is open. 244,800,000 / 10,368,000 = 23.61..
    (SHORTENED + drive(*FOUR), four("none 171", 244800000, 23)),
    # M as long as it can be: sample 80 and all behind it are of M
    (HEAD + stretches(4000000, 1500) + drive(*[GOOD] * 171), told("none 171", 2, 0, 0, 244800000)),
    # a stop in each of the four cycles, at its sixth position: samples 5, 45, 95, 135. The stopping sample closes the last interval with 2,160,000
    (STRICT_SHORTENED + drive(*[GOOD] * 5, STOPPING, FAR), told("stop 5", 0, 1, 0, 7920000)),
    (STRICT_SHORTENED + drive(*[GOOD] * 45, STOPPING, FAR), told("stop 45", 1, 1, 0, 65520000)),
    (STRICT_SHORTENED + drive(*[GOOD] * 95, STOPPING, FAR), told("stop 95", 2, 1, 0, 137520000)),
    (STRICT_SHORTENED + drive(*[GOOD] * 135, STOPPING, FAR), told("stop 135", 3, 1, 0, 195120000)),
    # the same beside each joint: the last position of cycles 1, 2, 3, 4, and the first of cycles 2, 3, 4, which closes what is before it
    (STRICT_SHORTENED + drive(*[GOOD] * 39, STOPPING, FAR), told("stop 39", 0, 1, 0, 56880000)),
    (STRICT_SHORTENED + drive(*[GOOD] * 40, STOPPING, FAR), told("stop 40", 1, 1, 0, 58320000)),
    (STRICT_SHORTENED + drive(*[GOOD] * 79, STOPPING, FAR), told("stop 79", 1, 1, 0, 114480000)),
    (STRICT_SHORTENED + drive(*[GOOD] * 90, STOPPING, FAR), told("stop 90", 2, 1, 0, 130320000)),
    (STRICT_SHORTENED + drive(*[GOOD] * 129, STOPPING, FAR), told("stop 129", 2, 1, 0, 186480000)),
    (STRICT_SHORTENED + drive(*[GOOD] * 130, STOPPING, FAR), told("stop 130", 3, 1, 0, 187920000)),
    (STRICT_SHORTENED + drive(*[GOOD] * 169, STOPPING, FAR), told("stop 169", 3, 1, 0, 244080000)),
    # in M nothing is judged: not its first sample, 80, nor its last, 89. The intervals on both sides of STOPPING have 2,160,000, the second where it is closed
    (STRICT_SHORTENED + drive(*[GOOD] * 80, STOPPING), told("none 81", 2, 0, 0, 115920000)),
    (STRICT_SHORTENED + drive(*[GOOD] * 80, STOPPING, GOOD), told("none 82", 2, 0, 0, 118080000)),
    (STRICT_SHORTENED + drive(*[GOOD] * 89, STOPPING), told("none 90", 2, 0, 0, 128880000)),
    (STRICT_SHORTENED + drive(*[GOOD] * 89, STOPPING, GOOD), told("none 91", 2, 0, 0, 131040000)),
    # samples 81 to 88 are FAR, each 150,000,000: M has 150,720,000 + 7 x 300,000,000 + 150,720,000 + 1,440,000 = 2,402,880,000, the cycles 230,400,000;
    # 2,633,280,000 / 10,368,000 = 253.98..
    (STRICT_SHORTENED + drive(*[GOOD] * 81, *[FAR] * 8, *[GOOD] * 82), four("none 171", 2633280000, 253)),
    # the vehicle stands in samples 81 to 88 and draws nothing: M has 720,000 + 7 x 0 + 720,000 + 1,440,000. A distance is asked of cycles only;
    # 233,280,000 / 10,368,000 = 22.5
    (SHORTENED + drive(*[GOOD] * 81, *[(0, 0, 0)] * 8, *[GOOD] * 82), four("none 171", 233280000, 22)),
    # counted afresh in each cycle, also where M is between them: samples 79 and 90 are outside, a count of 1 each, not above 1. 87 intervals have 1,440,000,
    # three 2,160,000
    (NAMED + LEVEL + tolerances(30, 20, 1) + STRETCHES + drive(*[GOOD] * 79, STOPPING, *[GOOD] * 10, STOPPING), told("none 91", 2, 2, 0, 131760000)),
    # M of one sample: sample 80 is not judged, sample 81 is the first of cycle 3, sample 161 the first of E
    (STRICT + stretches(1, 140) + drive(*[GOOD] * 81, STOPPING, FAR), told("stop 81", 2, 1, 0, 117360000)),
    (STRICT + stretches(1, 140) + drive(*[GOOD] * 161), told("none 161", 3, 0, 0, 230400000)),
    # 231,840,000 / 10,368,000 = 22.36..
    (STRICT + stretches(1, 140) + drive(*[GOOD] * 162), four("none 162", 231840000, 22)),
    # sample 80 is STOPPING: e_2 = 39 x 1,440,000 + 2,160,000 = 58,320,000, d_2 = 39 x 200 + 231 = 8,031, q_2 = 726,186 (.02); M has 2,160,000. E = 233,280,000;
    # W = [2 x (720,000 x 57,600,000 + 726,186 x 58,320,000) + (233,280,000 - 115,920,000) x 1,440,000] / (2 x 233,280,000) = 721,546.49..;
    # 1,166,400,000 / 51,951,312 = 22.45.. metres
    (STRICT + stretches(1, 140) + drive(*[GOOD] * 80, STOPPING, *[GOOD] * 81), told("none 162", 4, 0, 0, 233280000, ["weighted 721546", "range 22", "ac -"])),
    # E: sample 171 has reached the set speed, samples 172 to 250 are 79 below: no stop. 360,000,000 / 10,368,000 = 34.72..
    (SHORTENED + drive(*FOUR, SET, *[GOOD] * 79), four("none 251", 360000000, 34)),
    # sample 251 is the 80th: it stops the run, is not counted and closes the last interval. 361,440,000 / 10,368,000 = 34.86..
    (SHORTENED + drive(*FOUR, SET, *[GOOD] * 80), four("stop 251", 361440000, 34)),
    # samples behind it change nothing, and are still checked: 5 and 6
    (SHORTENED + drive(*FOUR, SET, *[GOOD] * 80, *[FAR] * 3, SET), four("stop 251", 361440000, 34)),
    (SHORTENED + drive(*FOUR, SET, *[GOOD] * 80, (1501, 0, 0)), refused(5, 7)),
    (SHORTENED + drive(*FOUR, SET, *[GOOD] * 80) + block(251, GOOD), refused(6, 8)),
    # the stopping sample draws 1,440,000: 250 x 1,440,000 + 2,160,000. 362,160,000 / 10,368,000 = 34.93..
    (SHORTENED + drive(*FOUR, SET, *[GOOD] * 79, (100, 6000, -240)), four("stop 251", 362160000, 34)),
    # in one block of each sample, and with another vehicle's block before the 80th
    (SHORTENED + b"".join(block(i, x) for i, x in enumerate([*FOUR, SET, *[GOOD] * 80])), four("stop 251", 361440000, 34)),
    (SHORTENED + drive(*FOUR, SET, *[GOOD] * 79) + block(0, SET, number=OTHER) + block(251, GOOD), four("stop 251", 361440000, 34, passed=1)),
    # E's first sample has reached the set speed: cycle 4 ends with an interval of 240. d_4 = 39 x 200 + 240 = 8,040, q_4 = 716,417 (.91). E = 360,000,000;
    # W = [2 x 720,000 x 115,200,000 + 244,800,000 x (720,000 + 716,417)] / (2 x 360,000,000) = 718,781.78; 1,800,000,000 / 51,752,232 = 34.78.. metres
    (SHORTENED + drive(*[GOOD] * 170, SET, *[GOOD] * 80), told("stop 250", 4, 0, 0, 360000000, ["weighted 718781", "range 34", "ac -"])),
    # 79 below, one that is not, 79 below: no stop. 475,200,000 / 10,368,000 = 45.83..; with one more the 80th in a row: 476,640,000 / 10,368,000 = 45.97..
    (SHORTENED + drive(*FOUR, SET, *[GOOD] * 79, NEAR, *[GOOD] * 79), four("none 331", 475200000, 45)),
    (SHORTENED + drive(*FOUR, SET, *[GOOD] * 79, NEAR, *[GOOD] * 80), four("stop 331", 476640000, 45)),
    (SHORTENED + drive(*FOUR, SET, *[GOOD] * 79, SET, *[GOOD] * 79), four("none 331", 475200000, 45)),
    (SHORTENED + drive(*FOUR, SET, *[GOOD] * 79, SET, *[GOOD] * 80), four("stop 331", 476640000, 45)),
    # below is 109 and less: 109 + 30 < 140, and 110 + 30 is not
    (SHORTENED + drive(*FOUR, SET, *[BELOW] * 80), four("stop 251", 361440000, 34)),
    (SHORTENED + drive(*FOUR, SET, *[NEAR] * 80), four("none 252", 361440000, 34)),
    # the tolerance of the record: with s = 31 a speed of 109 is not below, with s = 0 one of 139 is
    (NAMED + LEVEL + tolerances(31, 20, 300) + STRETCHES + drive(*FOUR, SET, *[BELOW] * 80), four("none 252", 361440000, 34)),
    (NAMED + LEVEL + tolerances(0, 20, 300) + STRETCHES + drive(*FOUR, SET, *[UNDER] * 80), four("stop 251", 361440000, 34)),
    # the set speed is never reached: 139 is not enough, and no tolerance helps. 390,240,000 / 10,368,000 = 37.63..
    (SHORTENED + drive(*FOUR, UNDER, *[GOOD] * 100), four("none 272", 390240000, 37)),
    # samples below before it was reached are not among the 80: 50 of them, then SET, then 79, then one more. 432,000,000 / 10,368,000 = 41.66..,
    # 433,440,000 / 10,368,000 = 41.80..
    (SHORTENED + drive(*FOUR, *[GOOD] * 50, SET, *[GOOD] * 79), four("none 301", 432000000, 41)),
    (SHORTENED + drive(*FOUR, *[GOOD] * 50, SET, *[GOOD] * 80), four("stop 301", 433440000, 41)),
    # it is reached for good: a hundred samples at 110, then 80 below. 505,440,000 / 10,368,000 = 48.75
    (SHORTENED + drive(*FOUR, SET, *[NEAR] * 100, *[GOOD] * 80), four("stop 351", 505440000, 48)),
    # reached in M and in cycle 4, at samples 85 and 150, but not in E: no stop. Sample 150 is outside, and two intervals of cycle 4 have 240:
    # d_4 = 38 x 200 + 480 = 8,080, q_4 = 712,871 (.28).
    # E = 388,800,000; W = [2 x 720,000 x 115,200,000 + 273,600,000 x (720,000 + 712,871)] / (2 x 388,800,000) = 717,491.64..;
    # 1,944,000,000 / 51,659,352 = 37.63.. metres
    (SHORTENED + drive(*[GOOD] * 85, SET, *[GOOD] * 64, SET, *[GOOD] * 120), told("none 271", 4, 1, 0, 388800000, ["weighted 717491", "range 37", "ac -"])),
    # s >= u: v + 30 < 30 holds of no speed, so the run never stops: 388,800,000 / 10,368,000 = 37.5. With u = 31 a speed of 0 is below: sample 250 is the 80th
    (HEAD + stretches(10, 30) + drive(*FOUR, *[STANDING] * 100), four("none 271", 388800000, 37)),
    (HEAD + stretches(10, 31) + drive(*FOUR, *[STANDING] * 100), four("stop 250", 360000000, 34)),
    (HEAD + stretches(10, 1) + drive(*FOUR, *[STANDING] * 100), four("none 271", 388800000, 37)),
    # in E nothing is outside, whatever the allowance and the time tolerance: ten samples FAR, which draw 150,000,000 each.
    # 244,800,000 + 150,720,000 + 9 x 300,000,000 = 3,095,520,000; / 10,368,000 = 298.56..
    (STRICT_SHORTENED + drive(*FOUR, *[FAR] * 10), four("none 181", 3095520000, 298)),
    (NAMED + LEVEL + tolerances(30, 40, 1200) + STRETCHES + drive(*FOUR, SET, *[GOOD] * 80), four("stop 251", 361440000, 34)),
    (NAMED + LEVEL + tolerances(30, 0, 0) + STRETCHES + drive(*FOUR, SET, *[GOOD] * 80), four("stop 251", 361440000, 34)),
    # there is no end by limit: 2565 samples, of which the last 2395 stand in E. 3,692,160,000 / 10,368,000 = 356.11..
    (SHORTENED + drive(*[GOOD] * 2565), four("none 2565", 3692160000, 356)),
    # closing: 10 comes before 11
    (SHORTENED + drive(*[(100, 6000, 120)] * 170), told("none 170", 3, 0, 0, -243360000)),
    (SHORTENED + drive(*[(100, 6000, 120)] * 171), told("none 171", 4, 0, 0, -244800000, ["refused 11"])),
    # the closing's E takes in M: nine samples of M charge by 6,480,000 each, so M has 1,440,000 - 18 x 6,480,000 = -115,200,000, and E is e_1 + e_2:
    # 115,200,000 / 10,368,000 = 11.11... With 0.1 A more E is below: M has 1,440,000 - 18 x 6,486,000
    (SHORTENED + drive(*[GOOD] * 81, *[(100, 6000, 1080)] * 9, *[GOOD] * 81), four("none 171", 115200000, 11)),
    (SHORTENED + drive(*[GOOD] * 81, *[(100, 6000, 1081)] * 9, *[GOOD] * 81), told("none 171", 4, 0, 0, 115092000, ["refused 11"])),
    # and it takes in the stretch E: samples 171 and 172 charge by 43,440,000 each, so it has 720,000 - 43,440,000 - 86,880,000 = -129,600,000;
    # then by 43,446,000
    (SHORTENED + drive(*FOUR, *[(100, 6000, 7240)] * 2), four("none 173", 115200000, 11)),
    (SHORTENED + drive(*FOUR, *[(100, 6000, 7241)] * 2), told("none 173", 4, 0, 0, 115182000, ["refused 11"])),
    # transfer energies and recharge: E = 2 x 28,800,000 + 244,800,000 = 302,400,000, F = 28,800,000. 302,400,000 / 10,368,000 = 29.16.. metres;
    # 302,400,000 x 15,000,000 / (331,200,000 x 29) = 472,263.86..
    (SHORTENED + transfer(0, 28800000) + drive(*FOUR) + transfer(1, 14400000) + recharge(15), four("none 171", 244800000, 29, "ac 472263")),
]


def main(folder):
    with open(folder + "/stdin", "wb") as records, open(folder + "/stdout", "w") as printed:
        for record, lines in ROWS:
            records.write(len(record).to_bytes(4, "big") + record)
            printed.write("\n".join(lines) + "\n\n")


if __name__ == "__main__":
    main(sys.argv[1])
