"""Every row of the cards, and the calls on an image."""
from cards import BANKS, CARDS, IDENTITY, NAMES, SELECT, SIZES, confirmed, place, read, reset, write

CHIPS = (0, 1, 2, 3, 4, 5, 6, 255)
LENGTHS = (0, 255, 256, 257, 767, 768, 769, 1279, 1280, 1281)


def at_position(chip, position):
    """Two digits where an image has one bank, three where it has more."""
    return ("%02X" if SIZES[chip] == 256 else "%03X") % position


def rows():
    for chip in NAMES:
        for position, row in enumerate(CARDS[chip]):
            print("row %d %s" % (chip, at_position(chip, position)) + " %02X %02X %02X" % row)


def image_answer(call, chip, length):
    """The answer of a call on a buffer of that length, filled with 5Ah. Bank 2 of chips 4 and 5 is selected by it."""
    if chip not in NAMES:
        return "refused 3 kept"
    if length != SIZES[chip]:
        return "refused 8 kept"
    image = [0x5A] * length
    if call == "write":
        write(chip, image, 0x91, 0xFF)
        return "91 holds %02X" % read(chip, image, 0x91)
    if call == "read":
        return "byte %02X" % read(chip, image, 0x91)
    if call == "reset":
        return "sum %d" % (sum(reset(chip)) % 65536)
    return "confirmed" if confirmed(chip, image) else "refused 10 kept"


def image_calls():
    for call in ("write", "read", "reset", "identity"):
        for chip in CHIPS:
            for length in LENGTHS:
                print("%s chip %d length %d %s" % (call, chip, length, image_answer(call, chip, length)))


def stored():
    """A byte written to a register that holds 5Ah: bits 0 and 1 of 34h of chip 2 clear on one, 54h of chip 1 has six writable bits, 3Eh of chip 3 none.
    5Ah selects bank 2 of chips 4 and 5. There 00h of chip 4 has four writable bits; FFh has three and 7Ah none. 30h of chip 5 has seven there and 38h six;
    00h has bit 7 and the bank's three, and 0Dh none."""
    held = {(2, 0x34, 0x00): 0x5A, (2, 0x34, 0x01): 0x5A, (2, 0x34, 0x02): 0x58, (2, 0x34, 0xFF): 0x58,
            (1, 0x54, 0x00): 0x40, (1, 0x54, 0xFF): 0x7F, (3, 0x3E, 0x00): 0x5A, (3, 0x3E, 0xFF): 0x5A,
            (4, 0x00, 0x00): 0x58, (4, 0x00, 0xFF): 0xDF, (4, 0x7A, 0x00): 0x5A, (4, 0x7A, 0xFF): 0x5A,
            (4, 0xFF, 0x00): 0x58, (4, 0xFF, 0xFF): 0x5F,
            (5, 0x30, 0x00): 0x00, (5, 0x30, 0xFF): 0x7F, (5, 0x38, 0x00): 0x40, (5, 0x38, 0xFF): 0x7F,
            (5, 0x0D, 0x00): 0x5A, (5, 0x0D, 0xFF): 0x5A, (5, 0x00, 0x00): 0x58, (5, 0x00, 0xFF): 0xDF}
    in_bank_2 = ((4, 0x00), (5, 0x30), (5, 0x38))
    for (chip, address, byte), holds in held.items():
        image = [0x5A] * SIZES[chip]
        at = address + (512 if (chip, address) in in_bank_2 else 0)
        assert place(chip, image, address) == at
        write(chip, image, address, byte)
        assert image == [0x5A] * at + [holds] + [0x5A] * (SIZES[chip] - 1 - at)
        print("stored chip %d %02X write %02X byte %02X" % (chip, address, byte, holds))


def changes(old, new):
    """Each position whose byte has changed, and its byte now."""
    return "".join(" %03X %02X" % (at, b) for at, (a, b) in enumerate(zip(old, new)) if a != b)


# From the power-on image on: what is written, and what is then read. That of chip 4 is the request's example. Of chip 5 HBACS goes off with the first
# select, which "the vendor byte" doesn't follow; T1 of table 1 takes seven bits; code 5 has the shared registers alone; bits 6 to 3 stay zero; and 50h
# is the critical temperature, in bank 0.
EXAMPLES = {
    4: (
        ((0xFF, 0x83), {0xFF: 0x03, 0x20: 0x5A, 0x7A: 0x50}),
        ((0x20, 0x55), {0x20: 0x55}),
        ((0xFF, 0x06), {0x20: 0x00, 0x7B: 0xC5}),
        ((0x20, 0x11), {}),
        ((0xFF, 0x04), {0x10: 0x5A, 0x20: 0x53}),
    ),
    5: (
        ((0x00, 0x02), {0x00: 0x02, 0x30: 0x1E, 0xC5: 0x00, 0x0D: 0x5C}),
        ((0x30, 0xA8), {0x30: 0x28}),
        ((0x00, 0x05), {0x30: 0x00, 0xC5: 0x00, 0x0E: 0x7B}),
        ((0x30, 0x11), {}),
        ((0x00, 0xF8), {0x00: 0x80, 0x0D: 0x5C, 0x0F: 0x11, 0x30: 0x00, 0xC5: 0x50}),
    ),
}

# What the select register holds, what is written there, and what it holds then: the bits that aren't writable stay. What is seen in every bank and read
# only is so in the bank that this selects.
KEPT = {4: ((0x2C, 0x03, 0x2B), (0x7A, 0x7B, 0x7C)), 5: ((0x7A, 0x81, 0xF9), (0x0D, 0x0E, 0x0F))}


def bus_write(chip, image, address, byte):
    old = list(image)
    write(chip, image, address, byte)
    print("bus chip %d write %02X %02X changed%s" % (chip, address, byte, changes(old, image)))


def bus_reads(chip, image, then):
    for at, holds in then.items():
        assert read(chip, image, at) == holds
        print("bus chip %d read %02X byte %02X" % (chip, at, holds))


def bus(chip):
    image = reset(chip)
    for (address, byte), then in EXAMPLES[chip]:
        bus_write(chip, image, address, byte)
        bus_reads(chip, image, then)
    (before, byte, after), read_only = KEPT[chip]
    image[SELECT[chip]] = before
    bus_write(chip, image, SELECT[chip], byte)
    assert image[SELECT[chip]] == after
    for address in read_only:
        bus_write(chip, image, address, 0xFF)


def digest(data):
    h = 0
    for byte in data:
        h = (31 * h + byte) % 65536
    return h


def banks(chip):
    """Every address with every bank code, whatever the other bits of the select register hold: read, and then A5h written to all but the select register,
    of an image whose bytes are their positions modulo 251."""
    for code in range(8):
        for select in (code, 0xA8 + code):
            image = [at % 251 for at in range(SIZES[chip])]
            image[SELECT[chip]] = select
            reads = digest(read(chip, image, address) for address in range(256))
            new = list(image)
            for address in range(256):
                if address != SELECT[chip]:
                    write(chip, new, address, 0xA5)
            assert code < BANKS[chip] or new == image
            print("bank chip %d select %02X reads %04X writes %04X" % (chip, select, reads, digest(new)))


def on_the_bus():
    """Of the chips that have banks."""
    for chip in SELECT:
        bus(chip)
        banks(chip)


# What an initialization leaves in the registers of chip 3 whose eight bits are all writable. Bit 0 of 06h, bits 7 to 1 of 07h and 7 to 3 of 09h aren't.
DEFAULTS = {0x00: 0x08, 0x03: 0x00, 0x04: 0x00, 0x05: 0x14, 0x08: 0x00, **dict.fromkeys(range(0x2A, 0x38), 0x00), 0x38: 0x55, 0x39: 0x4B, 0x3A: 0x55,
            0x3B: 0x4B, 0x3C: 0xFF, 0x3D: 0xFF}


def put(image, held):
    return [held.get(at, byte) for at, byte in enumerate(image)]


def only(chip, image, address, byte, then):
    """A write after which these positions hold these bytes, and every other one what it held."""
    want = put(image, then)
    bus_write(chip, image, address, byte)
    assert image == want


def initialization():
    """The worked example, and bit 5 of 00h, which is to "read 0 after the write"; an image where bit 7 was set before; 00h with bit 7 clear, and bit 7 of
    another register. Of chips 1 and 2 bit 7 of FCh and of 00h is stored: FCh has that writable bit alone, 00h has bits 7, 6 and 0."""
    image = put([0x5A] * 256, {0x01: 0x55, 0x08: 0x7F, 0x20: 0x33, 0x2A: 0x80, 0x90: 0xAA})
    only(3, image, 0x00, 0xC1, {**DEFAULTS, 0x06: 0x00, 0x07: 0x5A, 0x09: 0x58})
    bus_reads(3, image, {0x00: 0x08, 0x01: 0x55, 0x05: 0x14, 0x06: 0x00, 0x08: 0x00, 0x20: 0x33, 0x2A: 0x00, 0x3E: 0x5A, 0x90: 0xAA})
    only(3, image, 0x00, 0x21, {0x00: 0x01})
    only(3, image, 0x00, 0x7F, {0x00: 0x5F})
    only(3, [0xFF] * 256, 0x00, 0x80, {**DEFAULTS, 0x06: 0x01, 0x07: 0xFE, 0x09: 0xF8})
    image = [0x5A] * 256
    only(3, image, 0x00, 0x7F, {0x00: 0x5F})
    only(3, image, 0x08, 0x80, {0x08: 0x80})
    only(1, [0x5A] * 256, 0xFC, 0xFF, {0xFC: 0xDA})
    only(2, [0x5A] * 256, 0x00, 0xFF, {0x00: 0xDB})


def seen(chip, image):
    """The bits that undo an identity, each turned over by itself, by position."""
    found = {}
    for at in range(len(image)):
        for bit in range(8):
            other = list(image)
            other[at] ^= 1 << bit
            if not confirmed(chip, other):
                found[at] = found.get(at, 0) | 1 << bit
    return found


def identity_bits():
    """Identity sees the bits that the paper names: 8 + 8 + 4 + 5 + 6 of chip 1, 8 + 8 + 8 + 8 of chip 2, twice 8 + 8 + 4 of chip 4, 8 + 8 + 8 of chip 5:
    no one bit makes 12h of 11h."""
    for chip, bits in ((1, 31), (2, 32), (4, 40), (5, 24)):
        assert confirmed(chip, reset(chip))
        found = seen(chip, reset(chip))
        assert found == {at: mask for at, (mask, _) in IDENTITY[chip].items()} and sum(bin(mask).count("1") for mask in found.values()) == bits
        print("identity chip %d power-on confirmed bits %d" % (chip, bits))
        print("identity chip %d sees%s" % (chip, "".join(" %03X %02X" % pair for pair in sorted(found.items()))))


def identity_in_banks():
    """In bank 0's page whichever bank is selected: the same bits. In the other pages the same addresses hold something else. Of chip 5 whatever bit 7 of
    the select register holds, too."""
    for chip, bits, others in ((4, 40, (0x00,)), (5, 24, (0x00, 0x80))):
        for code in range(8):
            for other in others:
                image = reset(chip)
                image[SELECT[chip]] = other + code
                assert confirmed(chip, image) and seen(chip, image) == seen(chip, reset(chip))
                print("identity chip %d select %02X confirmed bits %d" % (chip, other + code, bits))


def identity_takes():
    """Of chip 5 each byte with which a register of its identity is confirmed, of all 256, with bit 7 of the select register on and off."""
    for select in (0x80, 0x00):
        for at, (_, held) in IDENTITY[5].items():
            taken = []
            for byte in range(256):
                image = reset(5)
                image[SELECT[5]], image[at] = select, byte
                if confirmed(5, image):
                    taken.append(byte)
            assert tuple(taken) == held
            print("identity chip 5 select %02X at %03X takes%s" % (select, at, "".join(" %02X" % byte for byte in taken)))


def no_identity():
    """Refusal 10, "for chip 3 always", also where 3Eh holds its manufacturer's 1Ah."""
    assert reset(3)[0x3E] == 0x1A
    print("identity chip 3 power-on refused 10")
