"""Plans, their refusals and what they ask, by the sentences of the rules paper; and the plans that the lines are about."""
from dataclasses import dataclass

from cards import CARDS, NAMES, SIZES


def run(first, length):
    return tuple(range(first, first + length))


# The positions of each fan table in the record's order. Of chips 1, 2 and 4 that is register order. Chip 4 has critical before T1 to T4 and P1 to P4:
# T1CTFS to T4CTFS and the tables of Temp1 to Temp4 in bank 3 (source document 003, 7.4.16 and 7.4.19), T5CTFS to T10CTFS and Temp5 to Temp10 in bank 4
# (7.5.3 and 7.5.5). Chip 5 has the seven levels of TD1 to TD4, TR1 and TR2 in bank 2 (source document 001, 8.11.2.17), the critical temperature that all
# of them share in bank 0 (8.11.2.9), and the seven output levels in bank 2 (8.11.2.18).
TABLES = {
    1: (run(0x80, 9), run(0x90, 9), run(0xA0, 9)),
    2: (run(0xA0, 14), run(0xB0, 14)),
    3: (),
    4: tuple((critical,) + run(first, 8) for critical, first in (
        (0x320, 0x330), (0x321, 0x338), (0x322, 0x340), (0x323, 0x348),
        (0x410, 0x430), (0x411, 0x438), (0x412, 0x440), (0x413, 0x448), (0x414, 0x450), (0x415, 0x458),
    )),
    5: tuple(run(0x220 + 0x10 * n, 7) + (0xC5,) + run(0x228 + 0x10 * n, 7) for n in (1, 2, 3, 4, 5, 6)),
}

# "All fan table registers have mask FFh"; chip 5's have 7Fh, 7Fh and 3Fh.
MASKS = {1: (0xFF,) * 9, 2: (0xFF,) * 14, 4: (0xFF,) * 9, 5: (0x7F,) * 7 + (0x7F,) + (0x3F,) * 7}
assert all(CARDS[chip][at][:2] == (mask, 0x00) for chip in MASKS for table in TABLES[chip] for at, mask in zip(table, MASKS[chip]))

# How many points a slope has, by chip; the greatest duty; whether critical comes first in the record; and whether the record has a point count.
POINTS = {1: 4, 4: 4, 5: 7}
GREATEST = {1: 255, 4: 255, 5: 0x3F}
CRITICAL_FIRST = (4,)
COUNTED = (5,)


@dataclass
class Plan:
    """A slope's points are the first of eight; what stands behind them, and the values of the other kind of curve, are neither checked nor asked."""

    chip: int
    table: int
    points: int = 0
    temperatures: tuple = (0,) * 8
    critical: int = 0
    duties: tuple = (0,) * 8
    bounds: tuple = (0,) * 4
    counts: tuple = (0,) * 5


def eight(values):
    return tuple(values) + (0,) * (8 - len(values))


def slope(chip, table, temperatures, critical, duties, points=None):
    """With a point count where the chip's record has one."""
    points = (POINTS[chip] if chip in COUNTED else 0) if points is None else points
    return Plan(chip, table, points, eight(temperatures), critical, eight(duties))


def steps(table, bounds, counts):
    return Plan(2, table, bounds=bounds, counts=counts)


def signed(byte):
    return byte - 256 if byte >= 128 else byte


def known(plan):
    """The checks 3, 4 and 16, of which the last is of "a chip 5 plan's point count"."""
    if plan.chip not in NAMES:
        return 3
    if not 1 <= plan.table <= len(TABLES[plan.chip]):
        return 4
    if plan.chip in COUNTED and plan.points != POINTS[plan.chip]:
        return 16
    return None


def curve(plan):
    """The settings, which are the temperatures and critical or the bounds, and the speeds."""
    if plan.chip == 2:
        return plan.bounds, plan.counts
    n = POINTS[plan.chip]
    return plan.temperatures[:n] + (plan.critical,), plan.duties[:n]


def rising(values):
    return all(a < b for a, b in zip(values, values[1:]))


def refusal(plan):
    """The checks 3, 4, 16, 6 and 7, and None where all are passed. 6 and 7 "also for a value its register's writable bits can't hold"."""
    if known(plan):
        return known(plan)
    settings, speeds = curve(plan)
    if plan.chip == 2:
        ordered = rising(settings[::-1])
    else:
        ordered = rising(settings[:-1]) and settings[-2] <= settings[-1]
    fits = [byte & ~mask == 0 for byte, mask in zip(body(plan), MASKS[plan.chip])]
    if not (ordered and all(fits[: len(settings)])):
        return 6
    return None if list(speeds) == sorted(speeds) and all(fits[len(settings):]) else 7


def duty(settings, fl, t, greatest):
    """Over any number of points. "The greatest duty its registers hold stands for 255"."""
    ts, critical = settings[:-1], settings[-1]
    if t >= critical:
        return greatest
    if t <= ts[0]:
        return fl[0]
    for k in range(1, len(ts)):
        if t <= ts[k]:
            return (fl[k - 1] * (ts[k] - t) + fl[k] * (t - ts[k - 1])) // (ts[k] - ts[k - 1])
    return fl[-1]


def count(bounds, counts, t):
    for bound, asked_for in zip(bounds, counts):
        if t > bound:
            return asked_for
    return counts[4]


def speed(chip, values, t):
    """What a curve asks, as a line has it: a duty in decimal, a count in hexadecimal."""
    settings, speeds = values
    return "%04X" % count(settings, speeds, t) if chip == 2 else "%d" % duty(settings, speeds, t, GREATEST[chip])


def asked(plan, t):
    return "refused %d" % known(plan) if known(plan) else speed(plan.chip, curve(plan), t)


def body(plan):
    """The table's bytes in the record's order, counts high byte first."""
    settings, speeds = curve(plan)
    if plan.chip == 2:
        return list(settings) + [half for c in speeds for half in (c // 256, c % 256)]
    data = [value % 256 for value in settings]
    return (data[-1:] + data[:-1] if plan.chip in CRITICAL_FIRST else data) + list(speeds)


def decoded(chip, data):
    """The settings and speeds that stand in a table's bytes."""
    if chip == 2:
        return tuple(data[:4]), tuple(256 * data[k] + data[k + 1] for k in range(4, 14, 2))
    n = POINTS[chip]
    settings = data[1 : n + 1] + data[:1] if chip in CRITICAL_FIRST else data[: n + 1]
    return tuple(signed(b) for b in settings), tuple(data[n + 1 : 2 * n + 1])


def held(chip, table, image):
    """The curve in an image's fan table: "a table value is its register's writable bits, all other bits counting as zero"."""
    return decoded(chip, [image[at] & CARDS[chip][at][0] for at in TABLES[chip][table - 1]])


def asked_of_image(chip, table, image, t):
    """The checks 3, 4 and 8: an image has no point count."""
    refused = 3 if chip not in NAMES else 4 if not 1 <= table <= len(TABLES[chip]) else None if len(image) == SIZES[chip] else 8
    return "refused %d" % refused if refused else speed(chip, held(chip, table, image), t)


def pairs(data):
    """In hexadecimal, two by two, with a space before each two."""
    return "".join((" " if k % 2 == 0 else "") + "%02X" % b for k, b in enumerate(data))


def show(plan):
    """Chip, table and point count, then eight temperatures, critical, eight duties, B1 to B4 and C1 to C5."""
    temperatures, critical = [t % 256 for t in plan.temperatures], plan.critical % 256
    shown = pairs(temperatures) + pairs([critical]) + pairs(plan.duties) + pairs(plan.bounds)
    return "chip %d table %d points %d%s" % (plan.chip, plan.table, plan.points, shown) + "".join(" %04X" % c for c in plan.counts)


def paper(chip, table):
    """The values of the rules paper's plan, which is for table 3 of chip 1."""
    return slope(chip, table, (30, 40, 50, 55), 60, (140, 170, 200, 230))


def muddled(chip, table, points=0):
    """In no order, of temperatures as of duties."""
    return slope(chip, table, (40, 30, 50, 55), 60, (140, 170, 200, 199), points)


PAPER = paper(1, 3)
STEPPED = steps(1, (60, 50, 40, 30), (0x0102, 0x0304, 0x0506, 0x0708, 0x090A))

# The request's two plans of chip 4; the second may be for any of its tables.
FIRST_OF_4 = slope(4, 1, (25, 35, 45, 55), 90, (140, 170, 200, 230))


def banked(table):
    return slope(4, table, (-20, 0, 20, 50), 127, (0, 64, 128, 255))


def seven(table, temperatures=(30, 35, 40, 45, 50, 55, 60), critical=80, duties=(8, 12, 16, 24, 32, 48, 56), points=7):
    """The request's plan of chip 5, which is for table 1; its values are those of power-on, too. Some of them may be others."""
    return slope(5, table, temperatures, critical, duties, points)


def other_seven(table):
    """A plan of chip 5 whose bytes are all different, and none of them its register's at power-on."""
    return seven(table, (20, 33, 41, 47, 54, 59, 66), 75, (5, 9, 18, 27, 36, 45, 62))


# Each with the refusal that the paper gives it; those with more than one fault get the first.
REFUSED = (
    (3, paper(0, 3)),
    (3, muddled(6, 11)),
    (4, paper(1, 0)),
    (4, paper(1, 4)),
    (4, muddled(1, 4)),
    (4, steps(3, (60, 50, 40, 30), (0, 1, 2, 3, 4))),
    (4, paper(3, 1)),
    (4, paper(4, 0)),
    (4, muddled(4, 11)),
    (6, slope(1, 1, (30, 40, 40, 55), 60, (140, 170, 200, 230))),
    (6, slope(1, 2, (30, 40, 50, 55), 54, (140, 170, 200, 230))),
    (6, slope(1, 3, (30, -128, 50, 55), 60, (140, 139, 200, 230))),
    (6, steps(1, (60, 50, 50, 30), (0, 1, 2, 3, 4))),
    (6, steps(2, (60, 50, 40, 41), (0, 0x0200, 0x01FF, 3, 4))),
    (6, slope(4, 4, (30, 40, 40, 55), 60, (140, 170, 200, 230))),
    (6, slope(4, 5, (30, 40, 50, 55), 54, (140, 170, 200, 230))),
    (6, slope(4, 10, (30, -128, 50, 55), 60, (140, 139, 200, 230))),
    (7, slope(1, 3, (30, 40, 50, 55), 60, (140, 170, 200, 199))),
    (7, slope(4, 10, (30, 40, 50, 55), 60, (140, 170, 200, 199))),
    (7, steps(2, (60, 50, 40, 30), (0, 0x0200, 0x01FF, 0x0300, 0xFFFF))),
    (4, seven(0)),
    (4, seven(7, points=6)),
    (16, seven(1, points=6)),
    (16, seven(6, points=8)),
    (16, seven(2, points=0)),
    (16, muddled(5, 1, 4)),
    (6, seven(1, temperatures=(30, 35, 40, 45, 50, 55, 55))),
    (6, seven(2, critical=59)),
    (6, seven(3, temperatures=(-128, 35, 40, 45, 50, 55, 60))),
    (6, seven(4, critical=-128)),
    (6, seven(5, temperatures=(30, 35, 40, 45, 50, 55, 54), duties=(8, 12, 16, 24, 32, 48, 47))),
    (7, seven(6, duties=(8, 12, 16, 24, 32, 48, 47))),
    (7, seven(1, duties=(8, 12, 16, 24, 32, 48, 64))),
)
assert all(refusal(plan) == number for number, plan in REFUSED)
assert all(refusal(plan) is None for plan in (PAPER, STEPPED, FIRST_OF_4, banked(10), seven(1), other_seven(6)))
