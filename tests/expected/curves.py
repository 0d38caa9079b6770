"""What curves ask at a temperature."""
from cards import SELECT, reset
from images import CHIPS
from plans import PAPER, REFUSED, STEPPED, TABLES, Plan, asked, asked_of_image, banked, held, seven, show, slope, speed


def paper_at(t):
    print("plan duty at %d is %s" % (t, asked(PAPER, t)))


def steps_at(t):
    print("steps count at %d is %s" % (t, asked(STEPPED, t)))


def banked_at(t):
    print("banked duty at %d is %s" % (t, asked(banked(10), t)))


def seven_at(t):
    print("seven points duty at %d is %s" % (t, asked(seven(1), t)))


def plan_at(plan, t):
    print("asked %s at %d is %s" % (show(plan), t, asked(plan, t)))


def figures():
    """The starred figures, which the definitions must have as the paper has them."""
    for t, duty in ((30, 140), (33, 149), (45, 185), (53, 218), (58, 230), (60, 255)):
        assert asked(PAPER, t) == "%d" % duty
        paper_at(t)
    unordered = slope(1, 1, (50, 40, 60, 70), 100, (11, 22, 33, 44))
    assert asked(unordered, 45) == "11"
    plan_at(unordered, 45)
    falling = slope(1, 1, (0, 3, 60, 70), 100, (200, 100, 33, 44))
    assert asked(falling, 1) == "166"
    plan_at(falling, 1)
    for t, k in ((61, 1), (60, 2), (51, 2)):
        assert asked(STEPPED, t) == "%04X" % STEPPED.counts[k - 1]
        steps_at(t)


# The request's own figures of its plan of chip 5.
SEVEN = ((-128, 8), (-1, 8), (0, 8), (30, 8), (31, 8), (33, 10), (42, 19), (47, 27), (53, 41), (58, 52), (60, 56), (79, 56), (80, 63), (127, 63))


def seven_points():
    """Then an unordered and a falling curve of chip 5, and curves with values behind their points: none is asked."""
    for t, duty in SEVEN:
        assert asked(seven(1), t) == "%d" % duty
        seven_at(t)
    unordered = seven(2, (50, 40, 60, 70, 80, 90, 95), 100, (1, 2, 3, 4, 5, 6, 7))
    falling = seven(3, (0, 3, 60, 70, 80, 90, 95), 100, (50, 25, 3, 4, 5, 6, 7))
    low = seven(4, critical=40)
    for plan, t, duty in ((unordered, 45, 1), (unordered, 55, 2), (falling, 1, 41), (falling, 2, 33), (low, 39, 15), (low, 40, 63)):
        assert asked(plan, t) == "%d" % duty
        plan_at(plan, t)
    filled = (30, 35, 40, 45, 50, 55, 60, 70), 80, (8, 12, 16, 24, 32, 48, 56, 60)
    for chip, points, t, duty in ((5, 7, 65, 56), (5, 7, 75, 56), (1, 7, 48, 24), (4, 8, 60, 24), (5, 8, 65, None)):
        plan = Plan(chip, 1, points, *filled)
        assert asked(plan, t) == ("refused 16" if duty is None else "%d" % duty)
        plan_at(plan, t)


def image_at(chip, table, image, t):
    print("image chip %d table %d length %d at %d is %s" % (chip, table, len(image), t, asked_of_image(chip, table, image, t)))


# T is signed for chips 1, 4 and 5 and unsigned for chip 2. Chip 5's have one between each two of its points.
SIGNED = (-128, -1, 0, 25, 26, 30, 31, 45, 51, 59, 60, 61, 90, 127)
TEMPERATURES = {1: SIGNED, 2: tuple(t % 256 for t in SIGNED), 4: SIGNED, 5: (-128, -1, 30, 33, 38, 43, 48, 53, 58, 60, 79, 80, 81, 127)}


def looks(chip, table):
    """The positions of a power-on image where bit 2, turned over, changes what the table asks at one of the temperatures. Another bank is selected
    for each table. All tables of chip 5 look at 0C5."""
    image = reset(chip)
    image[SELECT[chip]] = table % 8
    found = []
    for at in range(len(image)):
        other = list(image)
        other[at] ^= 0x04
        if any(speed(chip, held(chip, table, image), t) != speed(chip, held(chip, table, other), t) for t in TEMPERATURES[chip]):
            found.append(at)
    assert found == sorted(TABLES[chip][table - 1])
    print("image chip %d table %d select %02X looks at%s" % (chip, table, table % 8, "".join(" %03X" % at for at in found)))


def unmasked(table, bits):
    """Of an image of chip 5 with bits of every byte set that a table's registers don't take: 9Eh in a T register is 1Eh, C8h in a duty's 08h. Bit 6 is a
    temperature's, so that all of them are above critical then."""
    image = [byte | bits for byte in reset(5)]
    for t in TEMPERATURES[5]:
        answer = asked_of_image(5, table, image, t)
        assert answer == (asked_of_image(5, table, reset(5), t) if bits == 0x80 else "8" if t < 80 else "63")
        print("image chip 5 table %d over %02X at %d is %s" % (table, bits, t, answer))


def curves():
    figures()
    seven_points()
    for t in range(-128, 128):
        paper_at(t)
        banked_at(t)
        seven_at(t)
    for t in (255, 61, 60, 59, 51, 50, 49, 41, 40, 39, 31, 30, 29, 0):
        steps_at(t)
    for _, plan in REFUSED:
        plan_at(plan, 45)
    for chip in TABLES:
        for table in range(1, len(TABLES[chip]) + 1):
            for t in TEMPERATURES[chip]:
                image_at(chip, table, reset(chip), t)
    for chip in SELECT:
        for table in range(1, len(TABLES[chip]) + 1):
            looks(chip, table)
    for table in range(1, 7):
        unmasked(table, 0x80)
        unmasked(table, 0xC0)
    for chip in CHIPS:
        for table in (0, 1, 2, 3, 4, 6, 7, 10, 11):
            for length in (255, 256, 257, 767, 768, 769, 1279, 1280, 1281):
                image_at(chip, table, [0x5A] * length, 91)
