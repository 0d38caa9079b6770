"""The register cards by the second reading of the data sheets, and byte writes, byte reads and identity by the papers."""
import os

HERE = os.path.dirname(os.path.abspath(__file__))
NAMES = {1: "nct7802y", 2: "f75373s", 3: "nct80", 4: "nct7904d", 5: "w83793g"}

# How many banks an image has. "An image holds all banks, one after the other": bank b's address a at 256 b + a.
BANKS = {1: 1, 2: 1, 3: 1, 4: 5, 5: 3}
SIZES = {chip: 256 * banks for chip, banks in BANKS.items()}

# The two rows that the second reading had otherwise, as settled in docs/CARDS.md: writable, clears, power-on. They override the reading.
SETTLED = {(1, 0x6D): (0x0F, 0x00, 0x00), (2, 0x32): (0xFF, 0x00, 0x00)}


def card(chip):
    rows = []
    with open(os.path.join(HERE, "second-reading", NAMES[chip] + ".tsv")) as lines:
        for line in lines:
            position, writable, clears, power_on = (int(x, 16) for x in line.split("\t")[:4])
            assert position == len(rows)
            rows.append(SETTLED.get((chip, position), (writable, clears, power_on)))
    assert len(rows) == SIZES[chip]
    return rows


CARDS = {chip: card(chip) for chip in NAMES}

# The bank select register of a chip with banks, and the registers that are seen in every bank: they stand "in bank 0's page only", and nothing reaches
# their other bytes. Of chip 5, source document 001, 8.1.1: "in all three register banks".
SELECT = {4: 0xFF, 5: 0x00}
EVERYWHERE = {4: (0x7A, 0x7B, 0x7C, 0xFF), 5: (0x00, 0x0D, 0x0E, 0x0F)}
assert all(CARDS[chip][256 * bank + at] == (0, 0, 0) for chip in EVERYWHERE for bank in range(1, BANKS[chip]) for at in EVERYWHERE[chip])

# The select registers: of chip 5 HBACS is writable beside the bank's bits, and on at power-on.
assert CARDS[4][SELECT[4]] == (0x07, 0x00, 0x00) and CARDS[5][SELECT[5]] == (0x87, 0x00, 0x80)

# A register whose write does more than its row says: where it stands, its initialization bit, and the bits that read 0 after any write to it. Source
# document 004, 00h: "Setting this bit to 1 resets the main user writeable registers to their power on default values"; "After 10 ms this bit self
# clears", of bit 5. The row itself is as it was, and no bit of that card clears on one.
INITIALIZATION = {3: (0x00, 0x80, 0x20)}
assert CARDS[3][0x00] == (0xFF, 0x00, 0x08) and all(clears == 0x00 for _, clears, _ in CARDS[3])


def reset(chip):
    """A new image with the power-on column."""
    return [row[2] for row in CARDS[chip]]


def place(chip, image, address):
    """The position that an address is: by bits 2 to 0 of the bank select register where there is one, and None in a bank that the sheet lacks."""
    if chip not in SELECT or address in EVERYWHERE[chip]:
        return address
    bank = image[SELECT[chip]] % 8
    return 256 * bank + address if bank < BANKS[chip] else None


# The registers that a read clears: of the status registers of chip 3 "reading 01h or 02h returns the byte and then clears it".
STATUS = {3: (0x01, 0x02)}


def read(chip, image, address):
    """The byte, after which a status register is cleared; every other read changes nothing. In a bank that the sheet lacks "reads give 0"."""
    at = place(chip, image, address)
    if at is None:
        return 0
    byte = image[at]
    if at in STATUS.get(chip, ()):
        image[at] = 0x00
    return byte


def write(chip, image, address, byte):
    """Writable bits replaced, clear bits cleared where a 1 is written, the others kept. In a bank that the sheet lacks "writes change nothing". "After a
    write that sets" an initialization bit "all writable bits of the card, that bit included, have power-on values; read-only bits [...] stay"."""
    at = place(chip, image, address)
    if at is None:
        return
    writable, clears, _ = CARDS[chip][at]
    bits = 0
    for k in range(8):
        bit = 1 << k
        if writable & bit:
            bits |= byte & bit
        elif not (clears & bit and byte & bit):
            bits |= image[at] & bit
    image[at] = bits
    own, initializes, zero = INITIALIZATION.get(chip, (None, 0, 0))
    if at == own:
        image[at] &= 0xFF - zero
        if byte & initializes:
            for position, (writable, _, power_on) in enumerate(CARDS[chip]):
                image[position] = image[position] & (0xFF - writable) | power_on & writable


# The bits that identity names, and what they hold, by position; where there is a choice, one of these. Chip 4: "from its vendor, chip and device
# registers", both sets; the device is 5x. Chip 5: "the vendor byte in the image is the high one", and "B Version is 11, C Version is 12".
IDENTITY = {
    1: {0x05: (0x1F, (0x00,)), 0x08: (0x3F, (0x00,)), 0xFD: (0xFF, (0x50,)), 0xFE: (0xFF, (0xC3,)), 0xFF: (0xF0, (0x20,))},
    2: {0x5A: (0xFF, (0x02,)), 0x5B: (0xFF, (0x04,)), 0x5D: (0xFF, (0x19,)), 0x5E: (0xFF, (0x34,))},
    4: {0x0D: (0xFF, (0x50,)), 0x0E: (0xFF, (0xC5,)), 0x0F: (0xF0, (0x50,)), 0x7A: (0xFF, (0x50,)), 0x7B: (0xFF, (0xC5,)), 0x7C: (0xF0, (0x50,))},
    5: {0x0D: (0xFF, (0x5C,)), 0x0E: (0xFF, (0x7B,)), 0x0F: (0xFF, (0x11, 0x12))},
}


def confirmed(chip, image):
    """ "Confirmed means all of them"; in bank 0's page, whichever bank is selected. Chip 3 has no identity rule."""
    return chip in IDENTITY and all(image[at] & bits in held for at, (bits, held) in IDENTITY[chip].items())
