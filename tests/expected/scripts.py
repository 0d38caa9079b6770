"""Scripts, plays that stop at each number of writes, and scripts that are played again after a stop."""
from cards import SELECT, SIZES, confirmed, reset, write
from images import changes
from plans import (
    CRITICAL_FIRST, FIRST_OF_4, GREATEST, PAPER, POINTS, REFUSED, STEPPED, TABLES, asked, asked_of_image, banked, body, curve, held, other_seven, pairs,
    paper, refusal, seven, show, slope, speed, steps,
)

FAN_2 = steps(2, (75, 65, 45, 35), (0x1112, 0x1314, 0x1516, 0x1718, 0x191A))


def by_request(n):
    """The script of `banked` for a table of chip 4, by the request's words on its registers."""
    bank, critical, first = (3, 0x20 + n - 1, 0x30 + 8 * (n - 1)) if n <= 4 else (4, 0x10 + n - 5, 0x30 + 8 * (n - 5))
    t1, t2, t3, t4, p1, p2, p3, p4 = range(first, first + 8)
    pairs_of_it = ((0xFF, bank), (p1, 0xFF), (p2, 0xFF), (p3, 0xFF), (p4, 0xFF), (t1, 0xEC), (t2, 0), (t3, 20), (t4, 50), (critical, 127),
                   (p1, 0), (p2, 64), (p3, 128), (p4, 255))
    return "".join("%02X%02X" % pair for pair in pairs_of_it)


def seven_by_request(n):
    """The script of `other_seven` for a table of chip 5: bank 2, seven raises to 3Fh, seven temperatures, bank 0, critical, bank 2, seven duties."""
    first, fan = 0x20 + 0x10 * n, 0x28 + 0x10 * n
    raised = "".join("%02X3F" % (fan + k) for k in range(7))
    moved = "".join("%02X%02X" % (first + k, t) for k, t in enumerate((20, 33, 41, 47, 54, 59, 66)))
    settled = "".join("%02X%02X" % (fan + k, fl) for k, fl in enumerate((5, 9, 18, 27, 36, 45, 62)))
    return "0002" + raised + moved + "0000" + "C54B" + "0002" + settled


# A plan for every table of every chip, with its script by the papers' registers. That of table 3 of chip 1 is the rules paper's own example, the first
# and the last of chip 4 and the first of chip 5 are the requests'.
LAST_OF_4 = "FF04" + "5CFF5DFF5EFF5FFF" + "58EC59005A145B32157F" + "5C005D405E805FFF"
FIRST_OF_5 = "0002" + "383F393F3A3F3B3F3C3F3D3F3E3F" + "301E31233228332D34323537363C" + "0000C5500002" + "3808390C3A103B183C203D303E38"
assert by_request(10) == LAST_OF_4
TABLE_SCRIPTS = (
    (paper(1, 1), "85FF86FF87FF88FF" + "801E812882328337843C" + "858C86AA87C888E6"),
    (paper(1, 2), "95FF96FF97FF98FF" + "901E912892329337943C" + "958C96AA97C898E6"),
    (PAPER, "A5FFA6FFA7FFA8FF" + "A01EA128A232A337A43C" + "A58CA6AAA7C8A8E6"),
    (STEPPED, "A400A500A600A700A800A900AA00AB00AC00AD00" + "A03CA132A228A31E" + "A401A502A603A704A805A906AA07AB08AC09AD0A"),
    (FAN_2, "B400B500B600B700B800B900BA00BB00BC00BD00" + "B04BB141B22DB323" + "B411B512B613B714B815B916BA17BB18BC19BD1A"),
    (FIRST_OF_4, "FF03" + "34FF35FF36FF37FF" + "30193123322D3337205A" + "348C35AA36C837E6"),
    (seven(1), FIRST_OF_5),
) + tuple((banked(n), by_request(n)) for n in range(1, 11)) + tuple((other_seven(n), seven_by_request(n)) for n in range(1, 7))


def script(plan):
    """Pairs of address and byte, in the order of the paper: full speed, settings, speeds. Those of chips 4 and 5 go as chip 1's, so critical comes behind
    the other temperatures."""
    placed = list(zip(TABLES[plan.chip][plan.table - 1], body(plan)))
    settings, full = (4, 0x00) if plan.chip == 2 else (POINTS[plan.chip] + 1, GREATEST[plan.chip])
    moved, settled = placed[:settings], placed[settings:]
    if plan.chip in CRITICAL_FIRST:
        moved = moved[1:] + moved[:1]
    writes = [(at, full) for at, _ in settled] + moved + settled
    return selecting(writes, SELECT[plan.chip]) if plan.chip in SELECT else writes


def selecting(writes, select):
    """It "selects a bank before the first write and again wherever the next register lies in another bank"."""
    made, bank = [], None
    for at, byte in writes:
        if at // 256 != bank:
            bank = at // 256
            made.append((select, bank))
        made.append((at % 256, byte))
    return made


# Also where a table changes banks in its middle.
assert selecting([(0x134, 1), (0x135, 2), (0x020, 3), (0x136, 4)], 0xFF) == [(0xFF, 1), (0x34, 1), (0x35, 2), (0xFF, 0), (0x20, 3), (0xFF, 1), (0x36, 4)]


def line(plan, room):
    """The checks 3, 4, 16, 6, 7 and then 9, on a buffer of 52 bytes of which the call gets the first."""
    buffer = [0x5A] * 52
    number = refusal(plan)
    flat = [] if number else [byte for pair in script(plan) for byte in pair]
    number = number or (9 if room < len(flat) else None)
    if not number:
        buffer[: len(flat)] = flat
    answer = "refused %d" % number if number else "writes %d" % (len(flat) // 2)
    print("script %s room %d %s out%s" % (show(plan), room, answer, pairs(buffer)))


def play(plan, image, count):
    """The checks 3, 4, 16, 6, 7, 8, 10, then the first writes; the answer as a line has it."""
    number = refusal(plan)
    if not number and len(image) != SIZES[plan.chip]:
        number = 8
    if not number and not confirmed(plan.chip, image):
        number = 10
    if number:
        return "refused %d" % number
    made = script(plan)[:count]
    for address, byte in made:
        write(plan.chip, image, address, byte)
    return "writes %d" % len(made)


def refused_play(plan, length):
    """On bytes that are all 5Ah, which is no chip's image: every play is refused."""
    image = [0x5A] * length
    answer = play(plan, image, 25)
    assert answer.startswith("refused") and image == [0x5A] * length
    print("play %s length %d %s kept" % (show(plan), length, answer))


TEMPERATURES = {1: (-20, 38, 43, 53, 60), 2: (15, 30, 50, 60, 75), 4: (-20, 38, 43, 53, 90), 5: (-20, 38, 43, 58, 78)}


def never_slower(plan, old, stop, planned):
    """More duty is faster, a smaller count is faster."""
    if plan.chip == 2:
        return int(stop, 16) <= max(int(old, 16), int(planned, 16))
    return int(stop) >= min(int(old), int(planned))


def compared(plan, old, new):
    """How many bytes differ, and for five temperatures the speeds that two images and the plan ask."""
    cells = ["changed %d" % sum(a != b for a, b in zip(old, new))]
    for t in TEMPERATURES[plan.chip]:
        before, now = (asked_of_image(plan.chip, plan.table, image, t) for image in (old, new))
        assert before == now == "refused 8" or never_slower(plan, before, now, asked(plan, t))
        cells.append("%d %s %s %s" % (t, before, now, asked(plan, t)))
    return ", ".join(cells)


def stop(plan, old, count):
    new = list(old)
    answer = play(plan, new, count)
    print("stop chip %d table %d count %d %s %s" % (plan.chip, plan.table, count, answer, compared(plan, old, new)))


def sloping(chip, table, critical):
    return slope(chip, table, (40, 44, 48, 52), critical, (150, 210, 220, 250))


def sloping_seven(table):
    return seven(table, (40, 44, 48, 52, 56, 60, 66), 75, (15, 20, 25, 35, 45, 55, 62))


SLOPE = sloping(1, 1, 65)
STEPS = steps(1, (70, 55, 45, 20), (0x00FF, 0x01FF, 0x02FF, 0x0300, 0xFFFF))
EARLIER = steps(1, (60, 50, 40, 30), (0x0100, 0x0200, 0x0300, 0x0400, 0x0500))

# Old curves that are in no order, in their records' order: critical, T1 to T4, P1 to P4 of table 7 of chip 4; T1 to T7, critical, FL1 to FL7 of table 4
# of chip 5, with bits set that the registers don't take.
UNORDERED = {
    (4, 7): (85, 30, 60, 40, 50, 200, 100, 50, 220),
    (5, 4): (0x80 + 30, 60, 40, 50, 35, 20, 0x80 + 70, 0x80 + 85, 40, 0xC0 + 20, 10, 50, 0x40 + 30, 5, 0xC0 + 63),
}
assert held(5, 4, dict(zip(TABLES[5][3], UNORDERED[5, 4]))) == ((30, 60, 40, 50, 35, 20, 70, 85), (40, 20, 10, 50, 30, 5, 63))


def stops(plan, image):
    for count in range(len(script(plan)) + 2):
        stop(plan, image, count)
    stop(plan, image, 2**64 - 1)


def too_early(plan, old):
    """With the temperatures first, and the duties as they were, 38 degrees would ask less than either curve."""
    early = curve(plan)[0], held(plan.chip, plan.table, old)[1]
    return int(speed(plan.chip, early, 38)) < min(int(asked_of_image(plan.chip, plan.table, old, 38)), int(asked(plan, 38)))


def earlier():
    """An image of chip 2 with another plan loaded."""
    image = reset(2)
    assert play(EARLIER, image, 24) == "writes 24"
    return image


def unordered(chip, table, select):
    """An unordered curve, where code 6 is selected: of chip 4 bit 5 of the select register is set, of chip 5 bits 6 to 3 are."""
    image = reset(chip)
    image[SELECT[chip]] = select
    for at, byte in zip(TABLES[chip][table - 1], UNORDERED[chip, table]):
        image[at] = byte
    return image


def banked_demand_3():
    """Of chip 4: from its power-on image; from an unordered curve; refusals."""
    first, other = sloping(4, 1, 95), sloping(4, 7, 95)
    assert too_early(first, reset(4))
    stops(first, reset(4))
    old = unordered(4, 7, 0x2E)
    stops(other, old)
    stop(first, reset(1), 14)
    stop(SLOPE, reset(4), 13)
    old[0x7C] ^= 0x10
    stop(other, old, 14)


def seven_demand_3():
    """Of chip 5 the same; and a version 12h, another version, and the vendor byte's low half."""
    first, other = sloping_seven(1), sloping_seven(4)
    assert too_early(first, reset(5))
    stops(first, reset(5))
    old = unordered(5, 4, 0x7E)
    stops(other, old)
    stop(first, reset(4), 25)
    stop(sloping(4, 1, 95), reset(5), 14)
    for at, byte, answer in ((0x0F, 0x12, "writes 25"), (0x0F, 0x13, "refused 10"), (0x0D, 0xA3, "refused 10")):
        image = list(old)
        image[at] = byte
        assert play(other, list(image), 25) == answer
        stop(other, image, 25)


def played(plan, select, left):
    """A whole play: the table's registers and the select register change, and nothing else."""
    chip, table = plan.chip, plan.table
    old = reset(chip)
    old[SELECT[chip]] = select
    new = list(old)
    answer = play(plan, new, 25)
    changed = [at for at in range(SIZES[chip]) if old[at] != new[at]]
    assert set(TABLES[chip][table - 1]) <= set(changed) <= {SELECT[chip], *TABLES[chip][table - 1]} and new[SELECT[chip]] == left
    print("played chip %d table %d select %02X %s changed%s" % (chip, table, select, answer, changes(old, new)))


def plays():
    """For every table of chips 4 and 5, from another bank each time. Bits 6 to 3 of chip 5's select register stay, and bit 7 goes to zero."""
    for n in range(1, 11):
        played(banked(n), n % 8, 3 if n <= 4 else 4)
    for n in range(1, 7):
        played(other_seven(n), 0xA8 + n, 0x2A)


def shared():
    """ "All fan full speed temperature": a play of table 1 moves the critical temperature of the other five from 80 to 75, and nothing else of theirs."""
    old = reset(5)
    new = list(old)
    assert play(other_seven(1), new, 25) == "writes 25"
    for table in range(1, 7):
        cells = ["%d %s %s" % (t, asked_of_image(5, table, old, t), asked_of_image(5, table, new, t)) for t in (53, 74, 75)]
        assert table == 1 or cells == ["53 41 41", "74 56 56", "75 56 63"]
        print("shared chip 5 table %d, %s" % (table, ", ".join(cells)))


def restarts(plan, image, counts):
    """A script "cut anywhere, any number of times, and then started afresh": compared with the very first curve, and at the end the plan's."""
    first = list(image)
    for k, count in enumerate(counts):
        answer = play(plan, image, count)
        print("restart chip %d table %d play %d count %d %s %s" % (plan.chip, plan.table, k, count, answer, compared(plan, first, image)))
    assert count >= len(script(plan)) and all(asked_of_image(plan.chip, plan.table, image, t) == asked(plan, t) for t in TEMPERATURES[plan.chip])


def restarted():
    """Cut while speeds are raised, while settings move and while speeds settle; before the first write; and at last not at all. Of chip 5 also between
    the select of bank 0 and critical."""
    restarts(SLOPE, reset(1), (6, 0, 11, 2, 13))
    restarts(STEPS, earlier(), (12, 0, 19, 3, 24))
    restarts(sloping(4, 7, 95), unordered(4, 7, 0x2E), (7, 0, 12, 1, 99))
    restarts(sloping_seven(4), unordered(5, 4, 0x7E), (16, 0, 22, 3, 99))


def demand_3():
    """Temperatures first, or the low byte of a count first, would be slower than both: the plans are chosen to show it."""
    assert too_early(SLOPE, reset(1))
    stops(SLOPE, reset(1))
    stops(STEPS, reset(2))
    assert (asked_of_image(2, 1, earlier(), 60), asked(STEPS, 60)) == ("0200", "01FF")
    stops(STEPS, earlier())
    stop(SLOPE, reset(2), 13)
    stop(STEPS, reset(1), 24)
    other = reset(1)
    other[0xFF] ^= 0x10
    stop(SLOPE, other, 13)
    banked_demand_3()
    seven_demand_3()
    plays()
    shared()
    restarted()


def scripts():
    for room in (25, 26):
        line(PAPER, room)
    for room in (47, 48):
        line(STEPPED, room)
    for room in (27, 28):
        line(FIRST_OF_4, room)
    for room in (49, 50):
        line(seven(1), room)
    for plan, pairs_of_it in TABLE_SCRIPTS:
        assert "".join("%02X%02X" % pair for pair in script(plan)) == pairs_of_it
        line(plan, 52)
    for _, plan in REFUSED:
        line(plan, 0)
        line(plan, 52)
    for _, plan in REFUSED:
        for length in (255, 256, 768, 1280):
            refused_play(plan, length)
    for plan in (PAPER, STEPPED, FIRST_OF_4, seven(1)):
        for length in (0, 255, 256, 257, 767, 768, 769, 1279, 1280, 1281):
            refused_play(plan, length)
    demand_3()
