#!/usr/bin/env python3
"""Writes the plan records of this folder and the text that each must give, from the rules alone: NAME.plan and NAME.txt.

    make.py [FOLDER]        to another folder
"""
import os
import sys

FOLDER = sys.argv[1] if len(sys.argv) > 1 else os.path.dirname(os.path.abspath(__file__))

# A record's mark. Chip 5's has a point count behind the table.
MARK = [0x43, 0x50]
MARK_5 = [0x43, 0x51]

# Where the fan tables of chips 1 and 2 begin. The registers of one stand in a row, settings first.
BASES = {1: {1: 0x80, 2: 0x90, 3: 0xA0}, 2: {1: 0xA0, 2: 0xB0}}

# Where chips 4 and 5 select a bank.
SELECT = {4: 0xFF, 5: 0x00}

# What every speed byte is raised to.
FULL = {1: 0xFF, 2: 0x00, 4: 0xFF, 5: 0x3F}


def halves(counts):
    return [byte for count in counts for byte in (count >> 8, count & 0xFF)]


def record(chip, table, settings, speeds):
    """Chip 1: T1 to T4 and critical, then FL1 to FL4. Chip 2: B1 to B4, then C1 to C5, high byte first. Chip 4: critical before T1 to T4. Chip 5: the
    point count, T1 to T7 and critical, then FL1 to FL7."""
    if chip == 4:
        settings = settings[-1:] + settings[:-1]
    body = settings + (halves(speeds) if chip == 2 else speeds)
    return MARK_5 + [chip, table, len(speeds)] + body if chip == 5 else MARK + [chip, table] + body


def places(chip, table):
    """Where the settings and the speeds stand: bank and address. Chip 4: tables 1 to 4 in bank 3, 5 to 10 in bank 4, critical apart from the points.
    Chip 5: the points in bank 2, and critical, which all its tables share, in bank 0."""
    if chip == 4:
        bank, lowest, at = (3, 0x20, table - 1) if table <= 4 else (4, 0x10, table - 5)
        first = 0x30 + 8 * at
        return [(bank, first + k) for k in range(4)] + [(bank, lowest + at)], [(bank, first + 4 + k) for k in range(4)]
    if chip == 5:
        first = 0x20 + 0x10 * table
        return [(2, first + k) for k in range(7)] + [(0, 0xC5)], [(2, first + 8 + k) for k in range(7)]
    base = BASES[chip][table]
    settings, speeds = (5, 4) if chip == 1 else (4, 10)
    return [(0, base + k) for k in range(settings)], [(0, base + settings + k) for k in range(speeds)]


def text(number, chip, table, settings, speeds):
    """Raise every speed, move every setting, settle every speed; where there are banks, select one before the first and wherever the next is another."""
    moved, raised = places(chip, table)
    speeds = halves(speeds) if chip == 2 else speeds
    writes, selected = [], None
    for (bank, address), byte in [(at, FULL[chip]) for at in raised] + list(zip(moved, settings)) + list(zip(raised, speeds)):
        if chip in SELECT and bank != selected:
            selected = bank
            writes.append((SELECT[chip], bank))
        writes.append((address, byte))
    lines = ['plan %d chip %d table %d writes %d' % (number, chip, table, len(writes))]
    return lines + ['%02X %02X' % write for write in writes]


def accepted(plans):
    """The records of plans that are accepted, and their lines."""
    given = [byte for plan in plans for byte in record(*plan)]
    return given, [line for k, plan in enumerate(plans) for line in text(k + 1, *plan)]


def write(name, given, lines):
    with open(os.path.join(FOLDER, name + '.plan'), 'wb') as f:
        f.write(bytes(given))
    with open(os.path.join(FOLDER, name + '.txt'), 'w') as f:
        f.write(''.join(line + '\n' for line in lines))


def whole(name, plans):
    given, lines = accepted(plans)
    write(name, given, lines + ['end %d' % len(plans)])


def refused(name, plans, number, bad):
    given, lines = accepted(plans)
    write(name, given + bad, lines + ['plan %d refused %d' % (len(plans) + 1, number)])


# The plan of the rules paper, one for each other table of chips 1 and 2, one for each bank of chip 4 that has tables, and two for chip 5, of which the
# second goes to the ends of what its registers hold.
PAPER = (1, 3, [30, 40, 50, 55, 60], [140, 170, 200, 230])
COLD = (1, 1, [256 - 20, 256 - 5, 0, 10, 127], [0, 0, 128, 255])
MILD = (1, 2, [20, 35, 50, 65, 65], [60, 60, 60, 60])
FAN_1 = (2, 1, [60, 50, 40, 30], [0x01FF, 0x0200, 0x0300, 0x0800, 0xFFFF])
FAN_2 = (2, 2, [80, 70, 45, 0], [0, 0, 1000, 1000, 65535])
BANK_3 = (4, 1, [25, 35, 45, 55, 90], [140, 170, 200, 230])
BANK_4 = (4, 10, [256 - 20, 0, 20, 50, 127], [0, 64, 128, 255])
SEVEN = (5, 1, [30, 35, 40, 45, 50, 55, 60, 80], [8, 12, 16, 24, 32, 48, 56])
WIDE = (5, 6, [0, 20, 40, 60, 80, 100, 127, 127], [0, 0, 9, 18, 27, 63, 63])

whole('chip-1', [PAPER])
whole('chip-2', [FAN_1])
whole('chip-4', [BANK_3])
whole('chip-5', [SEVEN])
whole('banks', [BANK_4, BANK_3] + [(4, table) + MILD[2:] for table in range(2, 10)])
whole('banks-5', [WIDE, SEVEN] + [(5, table) + SEVEN[2:] for table in range(2, 6)])
whole('several', [COLD, FAN_2, MILD, WIDE, PAPER, FAN_1, BANK_4])
whole('empty', [])

refused('refused-1', [PAPER], 1, MARK + [1])
refused('refused-2', [], 2, [0x43, 0x52, 5, 1])
refused('refused-3', [], 3, MARK_5 + [6, 1])
refused('refused-4', [], 4, MARK + [3, 1])
refused('refused-5', [FAN_2], 5, record(*PAPER)[:-1])
refused('refused-5-count', [SEVEN], 5, MARK_5 + [5, 1])
refused('refused-6', [], 6, record(1, 1, [30, 40, 40, 55, 60], [140, 170, 200, 230]))
refused('refused-6-bits', [], 6, record(5, 1, [0x80, 35, 40, 45, 50, 55, 60, 80], SEVEN[3]))
refused('refused-7', [], 7, record(2, 1, [60, 50, 40, 30], [512, 511, 768, 2048, 65535]))
refused('refused-7-bits', [], 7, record(5, 1, SEVEN[2], [8, 12, 16, 24, 32, 48, 0x40]))
refused('refused-16', [], 16, MARK + record(*SEVEN)[2:])
refused('refused-16-chip', [SEVEN], 16, MARK_5 + record(*PAPER)[2:])
refused('refused-16-count', [PAPER], 16, MARK_5 + [5, 1, 6])

# 115 records of 18 bytes, 2 of 13 and 100 of 20 are 4,096 bytes; one byte more is too long.
FULLEST = [FAN_1] * 115 + [PAPER] * 2 + [SEVEN] * 100
whole('full', FULLEST)
write('too-long', accepted(FULLEST)[0] + [0x43], ['input too long'])

# The longest text of all: 226 records of 18 bytes and 2 of 13 leave 2 bytes. Of those of 13 bytes table 10 of chip 4 has the longest lines; for each of
# its bytes a record of chip 5 has fewer than one of chip 2.
refused('longest-text', [FAN_1] * 226 + [BANK_4] * 2, 1, MARK)
