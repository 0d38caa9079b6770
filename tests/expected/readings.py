"""Temperatures and voltages."""
WIDTHS = (8, 9, 11, 12)


def number(word):
    """A word as a 16-bit two's complement number."""
    return word - 65536 if word >= 32768 else word


def steps_of(width, word):
    """Divided by 2 to the power 16 minus the width, rounded towards minus infinity, as // rounds."""
    return number(word) // 2 ** (16 - width)


# For each width the bytes of each number of steps that fits it: the word that reads as these steps and whose ignored bits are zero.
WORDS = {width: {steps_of(width, word): word for word in range(0, 65536, 2 ** (16 - width))} for width in WIDTHS}


def from_bytes(width, word):
    answer = "steps %d" % steps_of(width, word) if width in WIDTHS else "refused 11"
    print("temperature width %d bytes %04X %s" % (width, word, answer))


def from_steps(width, steps):
    if width not in WIDTHS:
        answer = "refused 11"
    elif steps not in WORDS[width]:
        answer = "refused 12"
    else:
        word = WORDS[width][steps]
        answer = "bytes %04X steps %d" % (word, steps_of(width, word))
    print("temperature width %d steps %d %s" % (width, steps, answer))


def temperature_figures():
    """The starred figures, which the definitions above must have as the paper has them."""
    for width, word, steps in ((12, 0x7D00, 2000), (12, 0xFFF0, -1), (12, 0xC900, -880), (9, 0xC900, -110), (11, 0xE7A0, -195)):
        assert steps_of(width, word) == steps
        from_bytes(width, word)
    for steps, fits in ((32, True), (256, False), (255, True), (-256, True)):
        assert (steps in WORDS[9]) == fits
        from_steps(9, steps)


def temperature_sweep(width):
    """Bytes to steps to bytes clears the ignored bits, the lower 16 minus the width."""
    back = 0
    for word in range(65536):
        cleared = word - word % 2 ** (16 - width)
        back += WORDS[width][steps_of(width, word)] == cleared
    total = sum(steps_of(width, word) for word in range(65536)) % 65536
    print("temperature width %d words back %d sum of steps %d" % (width, back, total))


def temperatures():
    temperature_figures()
    for width in WIDTHS:
        least, greatest = min(WORDS[width]), max(WORDS[width])
        for steps in (least - 1, least, -1, 0, greatest, greatest + 1):
            from_steps(width, steps)
    for width in (0, 7, 10, 13, 255):
        from_bytes(width, 0x7D00)
        from_steps(width, 0)
        from_steps(width, 32767)
    for width in WIDTHS:
        temperature_sweep(width)


# By chip: the width, the addresses of the high bytes and that of the low byte. The rules paper has 05h, 27h and 06h; for chip 1 the sheet has
# `MNTRTD1[10:3]` at 01h, `MNTRTD2[10:3]` at 02h and `MNTRTD3[10:3]` at 03h.
SENSORS = {1: (11, (0x01, 0x02, 0x03), 0x05), 3: (12, (0x27,), 0x06)}


def held(chip, written, steps):
    """The temperatures of an image whose bytes are 5Ah but for those written: at any other address than its own, a byte would make another."""
    image = [0x5A] * 256
    for address, byte in written.items():
        image[address] = byte
    width, highs, low = SENSORS[chip]
    assert len(highs) == len(steps)
    for high, count in zip(highs, steps):
        counts = lambda h, l: steps_of(width, 256 * image[h] + image[l])
        assert counts(high, low) == count
        assert all(count not in (counts(other, low), counts(high, other)) for other in range(256) if other not in (high, low))
        print("temperature chip %d at %02X %02X bytes %02X%02X steps %d" % (chip, high, low, image[high], image[low], count))


def sensors():
    """Bits 7 to 5 of 05h and 7 to 4 of 06h count, and the others are ones: E7A0h and the sheet's +1.125 and -127.875 degrees in steps of 1/8; 7D00h, C900h, FFF0h."""
    held(1, {0x01: 0xE7, 0x02: 0x19, 0x03: 0x80, 0x05: 0xBF}, (-195, 8 * 25 + 5, 8 * -128 + 5))
    held(1, {0x01: 0x7F, 0x02: 0x01, 0x03: 0x80, 0x05: 0x3F}, (8 * 127 + 1, 1.125 * 8, -127.875 * 8))
    held(3, {0x27: 0x7D, 0x06: 0x0F}, (2000,))
    held(3, {0x27: 0xC9, 0x06: 0x0F}, (-880,))
    held(3, {0x27: 0xFF, 0x06: 0xFF}, (-1,))


def voltages():
    """Bits 15 to 6 times 2,500 microvolts."""
    for word in (0x0000, 0x003F, 0x0040, 0x7FFF, 0x8000, 0xFFC0, 0xFFFF):
        print("voltage word %04X microvolts %d" % (word, word // 64 * 2500))


def right_steps(high, low):
    """Of the NCT7904D: 8 times the signed high byte plus the low byte's bits 2 to 0; the other low bits are ignored."""
    return 8 * (high - 256 if high > 127 else high) + low % 8


# The bytes of each number of steps: those that read as these steps and whose ignored bits are zero.
RIGHT = {right_steps(high, low): (high, low) for high in range(256) for low in range(8)}


def right_from_bytes(high, low, steps):
    """The bytes with their ignored bits as zeros, and as ones."""
    for byte in (low, low | 0xF8):
        assert right_steps(high, byte) == steps
        print("temperature right-aligned bytes %02X%02X steps %d" % (high, byte, steps))


def right_from_steps(steps):
    answer = "bytes %02X%02X steps %d" % (*RIGHT[steps], right_steps(*RIGHT[steps])) if steps in RIGHT else "refused 12"
    print("temperature right-aligned steps %d %s" % (steps, answer))


def right_aligned():
    """Some figures, then section 6.3 of the sheet, in degrees, where a figure hasn't had the row."""
    for high, low, steps in ((0xE6, 0x02, -206), (0x80, 0x00, -1024), (0x7F, 0x07, 1023), (0xFF, 0x07, -1)):
        right_from_bytes(high, low, steps)
    assert right_steps(0xE6, 0x02) == -25.750 * 8 and right_steps(0x7F, 0x07) == 127.875 * 8
    for high, low, degrees in (
        (0x19, 0x06, 25.750),
        (0x02, 0x02, 2.250),
        (0x01, 0x01, 1.125),
        (0x00, 0x00, 0),
        (0xFE, 0x07, -1.125),
        (0xFD, 0x06, -2.250),
        (0x80, 0x01, -127.875),
    ):
        right_from_bytes(high, low, degrees * 8)
    least, greatest = min(RIGHT), max(RIGHT)
    for steps in (-32768, least - 1, least, -206, -1, 0, greatest, greatest + 1, 32767):
        right_from_steps(steps)
    words = [(high, low) for high in range(256) for low in range(256)]
    back = sum(RIGHT[right_steps(high, low)] == (high, low % 8) for high, low in words)
    total = sum(right_steps(high, low) for high, low in words) % 65536
    print("temperature right-aligned words back %d sum of steps %d" % (back, total))


# Section 7.1.10 of the sheet: the high bytes from 40h on, each with its low byte behind it. Section 6.4: a count is 0.002 V of VSEN1 to 14 and 0.006 V of
# 3VSB, 3VDD, VBAT and VSEN17 to 19; LTD is a temperature.
PLACES = ["VSEN%d" % n for n in range(1, 15)] + ["3VDD", "VBAT", "3VSB", "LTD", "VSEN17", "VSEN18", "VSEN19"]
WORTH = {"VSEN%d" % n: 2000 for n in range(1, 15)} | {name: 6000 for name in ("3VSB", "3VDD", "VBAT", "VSEN17", "VSEN18", "VSEN19")}
INPUTS = {0x40 + 2 * k: WORTH[name] for k, name in enumerate(PLACES) if name in WORTH}


def voltage_of(address, high, low):
    microvolts = (8 * high + low % 8) * INPUTS.get(address, 0)
    print("voltage input %02X bytes %02X%02X microvolts %d" % (address, high, low, microvolts))
    return microvolts


def inputs():
    """The request's bytes 19 06 at every address of a voltage and around them, then both scales, LTD and no input at their ends."""
    answers = {address: voltage_of(address, 0x19, 0x06) for address in range(0x3E, 0x6C)}
    assert (answers[0x40], answers[0x5C], answers[0x62]) == (412000, 1236000, 0)
    for address in (0x40, 0x5C, 0x62):
        for high, low in ((0x00, 0x00), (0x00, 0x01), (0xFF, 0xFF), (0x00, 0xF8)):
            voltage_of(address, high, low)
    for address in (0x00, 0xFF):
        voltage_of(address, 0xFF, 0xFF)
