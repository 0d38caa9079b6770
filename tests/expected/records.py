"""Plan records, read and written."""
from cards import NAMES
from plans import (
    COUNTED, FIRST_OF_4, PAPER, POINTS, REFUSED, STEPPED, TABLES, Plan, banked, body, decoded, eight, other_seven, pairs, refusal, seven, show,
)

# "43h 51h serves only chip 5", and the others have the old form.
MARKS = {1: [0x43, 0x50], 2: [0x43, 0x50], 4: [0x43, 0x50], 5: [0x43, 0x51]}
LENGTHS = {1: 13, 2: 18, 4: 13, 5: 20}
NOTHING = Plan(0, 0)


def record(plan):
    return MARKS[plan.chip] + [plan.chip, plan.table] + ([plan.points] if plan.chip in COUNTED else []) + body(plan)


def told(chip, table, data):
    """The plan that a record's bytes behind its table are. What is not the chip's is zero, and so is what lies behind its points."""
    points, data = (data[0], data[1:]) if chip in COUNTED else (0, data)
    settings, speeds = decoded(chip, data)
    if chip == 2:
        return Plan(chip, table, bounds=settings, counts=speeds)
    return Plan(chip, table, points, eight(settings[:-1]), settings[-1], eight(speeds))


def found(data):
    """The answer and the plan: the checks 1 to 4, then 16 "for a mark that doesn't go with the chip, then, if the count byte is there, for a point count
    that doesn't", then 5 to 7."""
    if len(data) < 4:
        return 1, NOTHING
    if data[:2] not in MARKS.values():
        return 2, NOTHING
    chip, table = data[2:4]
    if chip not in NAMES:
        return 3, NOTHING
    if not 1 <= table <= len(TABLES[chip]):
        return 4, NOTHING
    if data[:2] != MARKS[chip]:
        return 16, NOTHING
    if chip in COUNTED and len(data) > 4 and data[4] != POINTS[chip]:
        return 16, NOTHING
    if len(data) < LENGTHS[chip]:
        return 5, NOTHING
    plan = told(chip, table, data[4:])
    if refusal(plan):
        return refusal(plan), NOTHING
    return None, plan


def read(number, data):
    """`number` is the refusal that the data are made for, None where they are good."""
    refused, plan = found(data)
    assert refused == number
    assert refused or record(plan) == data[: LENGTHS[plan.chip]]
    answer = "refused %d" % refused if refused else "used %d" % LENGTHS[plan.chip]
    print("read%s %s %s" % (pairs(data), answer, show(plan)))
    return plan


def write(plan, room):
    """The checks 3, 4, 16, 6, 7 and then 9, on a buffer of 22 bytes of which the call gets the first."""
    buffer = [0x5A] * 22
    refused = refusal(plan) or (9 if room < LENGTHS[plan.chip] else None)
    if not refused:
        buffer[: LENGTHS[plan.chip]] = record(plan)
    answer = "refused %d" % refused if refused else "used %d" % LENGTHS[plan.chip]
    print("write %s room %d %s out%s" % (show(plan), room, answer, pairs(buffer)))


def bytes_of(text):
    return list(bytes.fromhex(text))


BODY = "1E2832373C8CAAC8E6"
STEPS = "3C32281E0102030405060708090A"

# Of the request's two records of chip 4: critical, T1 to T4, P1 to P4.
BODY_4 = "5A19232D378CAAC8E6"
COLD_4 = "7FEC001432004080FF"
assert bytes_of("43500401" + BODY_4) == record(FIRST_OF_4) and bytes_of("4350040A" + COLD_4) == record(banked(10))

# Of the request's record of chip 5: T1 to T7, critical, FL1 to FL7, behind the point count.
BODY_5 = "1E23282D32373C50080C1018203038"
assert bytes_of("4351050107" + BODY_5) == record(seven(1))

GOOD = (
    ("43500103" + BODY, 13),
    ("4350010180FF007F7F0000FFFF" + "0102", 20),
    ("43500201" + STEPS, 18),
    ("43500202FF807F00000000000001FFFFFFFF" + "4350", 20),
    ("43500401" + BODY_4, 13),
    ("4350040A" + COLD_4, 13),
    ("435004057F80FF007F0000FFFF" + "0102", 20),
    ("4351050107" + BODY_5, 20),
    ("435105060700010203047E7F7F0000003F3F3F3F" + "4351", 22),
    ("4351050307" + "1421292F363B424B0509121B242D3E", 20),
)
assert bytes_of(GOOD[-1][0]) == record(other_seven(3))

# Each with the number of its refusal. The request's own are those of chip 5 that have no body or none of seven points.
BAD = (
    (1, ""),
    (1, "435001"),
    (1, "58595A"),
    (1, "435105"),
    (2, "44500103" + BODY),
    (2, "43520103" + BODY),
    (2, "50430603" + BODY),
    (2, "43520501"),
    (2, "4250050107" + BODY_5),
    (2, "5143050107" + BODY_5),
    (3, "43500003" + BODY),
    (3, "43500601" + BODY_4),
    (3, "4350FF0B"),
    (3, "43510601"),
    (3, "4351000107" + BODY_5),
    (4, "43500100" + BODY),
    (4, "43500104" + BODY),
    (4, "43500203" + STEPS),
    (4, "43500301" + BODY),
    (4, "43500104" + BODY[:-2]),
    (4, "43500301"),
    (4, "43500400" + BODY_4),
    (4, "4350040B" + BODY_4),
    (4, "435004FF"),
    (4, "43510301"),
    (4, "43510507"),
    (4, "43500507"),
    (4, "4351050007" + BODY_5),
    (4, "4351050708"),
    (4, "43510104" + BODY),
    (16, "43500501"),
    (16, "43510101"),
    (16, "43510201"),
    (16, "43510401"),
    (16, "4351050106"),
    (16, "4351050108"),
    (16, "4350050107" + BODY_5),
    (16, "43510103" + BODY),
    (16, "4351010307" + BODY_5),
    (16, "43510201" + STEPS),
    (16, "4351040A" + COLD_4),
    (16, "4351050600" + BODY_5),
    (16, "4351050204" + BODY),
    (16, "43510503FF"),
    (16, "4351050406" + "23232323232323232323232323"),
    (5, "43500103"),
    (5, "43500103" + BODY[:-2]),
    (5, "43500201" + STEPS[:-2]),
    (5, "43500103" + "281E32373C8CAAC8"),
    (5, "43500401"),
    (5, "43500401" + BODY_4[:-2]),
    (5, "4350040A" + "5A23192D378CAAC8"),
    (5, "43510501"),
    (5, "4351050107"),
    (5, "4351050107" + BODY_5[:-2]),
    (5, "4351050607" + "231E282D32373C50080C10182030"),
    (6, "43500103" + "1E2828373C8CAAC8E6"),
    (6, "43500103" + "1E283237368CAAC8E6"),
    (6, "43500103" + "1E2832803C8CAAC8E6"),
    (6, "43500201" + "3C32321E0102030405060708090A"),
    (6, "43500103" + "281E32373C8CAAC8C7"),
    (6, "43500401" + "1E2832373C8CAAC8E6"),
    (6, "43500401" + "5A19232D238CAAC8E6"),
    (6, "43500402" + "3619232D378CAAC8E6"),
    (6, "43500409" + "FF19232D378CAAC8C7"),
    (6, "4351050107" + "1E23282D3237" + "37" + "50080C1018203038"),
    (6, "4351050107" + "1E23282D32373C" + "3B" + "080C1018203038"),
    (6, "4351050207" + "80" + "23282D32373C50080C1018203038"),
    (6, "4351050307" + "9E" + "23282D32373C50080C1018203038"),
    (6, "4351050407" + "1E23282D32373C" + "80" + "080C1018203038"),
    (6, "4351050507" + "1E23282D32373C" + "D0" + "080C1018203040"),
    (7, "43500103" + "1E2832373C8CAAC8C7"),
    (7, "43500201" + "3C32281E0102030402FF0708090A"),
    (7, "4350040A" + "5A19232D378CAAC8C7"),
    (7, "4351050107" + "1E23282D32373C50" + "080C10182030" + "2F"),
    (7, "4351050607" + "1E23282D32373C50" + "080C10182030" + "40"),
    (7, "4351050607" + "1E23282D32373C50" + "88" + "0C1018203038"),
)


def both(chip):
    """With values for both kinds of curve, eight points, and the point count of chip 5: what is not the chip's is neither checked nor written."""
    return Plan(chip, 2, 7, (1, 2, 3, 4, 5, 6, 7, 0), 8, (5, 6, 7, 7, 8, 9, 9, 1), (9, 8, 7, 6), (1, 2, 3, 3, 0xFFFF))


def records():
    for text, room in GOOD:
        write(read(None, bytes_of(text)), room)
    for number, text in BAD:
        read(number, bytes_of(text))
    for _, plan in REFUSED:
        write(plan, 0)
        write(plan, 22)
    for room in (12, 13, 14):
        write(PAPER, room)
    for room in (17, 18, 20):
        write(STEPPED, room)
    for room in (12, 13, 14):
        write(banked(10), room)
    for room in (19, 20, 22):
        write(seven(6), room)
    for chip in (1, 2, 4, 5):
        write(both(chip), 22)
