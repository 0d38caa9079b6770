"""The state of chip 3, an image and a watch beside it: samples, reads and resets on it, and other chips' reads and resets, which carry the watch."""
import cards
from cards import NAMES, SIZES, reset
from images import changes, put
from readings import WORDS
from watch import Watch

# Source document 004: STATUSREGISTER1 and 2, CHANNEL_SELECT_REGISTER, OS_CONFIG_TEMP_RESOLUTION, and from 20h on the readings of IN0 to IN6 and Temp.
IN, TEMPERATURE = (0x01, 0x02)
RESOLUTION, CHANNELS, READINGS, TEMP_READING = 0x06, 0x08, range(0x20, 0x27), 0x27
# "IN0_HIGH_LIMIT", "IN0_LOW_LIMIT", "IN1_HIGH_LIMIT" and so on, from 2Ah in turn; HOT_TEMP_HIGH_LIMIT, HOT_TEMP_HYSTERESIS_LIMIT, OS_TEMP_HIGH_LIMIT.
HIGHS, LOWS = range(0x2A, 0x38, 2), range(0x2B, 0x38, 2)
HOT, HYSTERESIS, OS = 0x38, 0x39, 0x3A
# Bits: of 08h bit n is INn, and bit 7 the temperature; of 01h bit n is INn; of 02h "0 Temperature" and "5 OS_bit".
TEMP_CHANNEL, TEMP_BIT, OS_BIT = 0x80, 0x01, 0x20

assert cards.STATUS == {3: (IN, TEMPERATURE)} and all(cards.CARDS[3][at] == (0, 0, 0) for at in (IN, TEMPERATURE, *READINGS, TEMP_READING))
assert len(HIGHS) == len(LOWS) == len(READINGS) == 7 and HIGHS[6] == 0x36 and LOWS[6] == 0x37


def signed(byte):
    return byte - 256 if byte > 127 else byte


def out_of_limits(word, high, low):
    """Strictly above the one or strictly below the other, in tenths of a millivolt: of 2.56 V ten bits count 2.5 mV, and the eight of a limit 10 mV."""
    tenths = word // 64 * 25
    return tenths > 100 * high or tenths < 100 * low


class State:
    """Each call is printed with what it changed; it answers the byte of a read. Beginning a state prints its behaviour."""

    def __init__(self, image, behaviour="default", hot="off", pending="off"):
        self.image, self.watch = list(image), Watch(behaviour, silent=True)
        self.watch.hot, self.watch.pending = hot == "on", pending == "on"
        print("state behaviour %s" % behaviour)

    def facts(self):
        return tuple("on" if fact else "off" for fact in (self.watch.hot, self.watch.pending))

    def show(self, what, old):
        print("state %s changed%s hot %s pending %s" % (what, changes(old, self.image), *self.facts()))

    def refused(self, chip):
        """ "Byte writes, reads and resets check 3 and 8." """
        return 3 if chip not in NAMES else 8 if len(self.image) != SIZES[chip] else 0

    def write(self, chip, address, byte):
        """A write has no watch."""
        assert not self.refused(chip)
        old = list(self.image)
        cards.write(chip, self.image, address, byte)
        self.show("chip %d write %02X %02X" % (chip, address, byte), old)

    def read(self, address, chip=3):
        """ "A read of 01h or 02h gives the byte, then clears that register, and is the acknowledge (pending off, hot stays; also where the byte was
        00h). Every other read changes nothing." "A refused read clears nothing." """
        what, old, refusal = "chip %d read %02X" % (chip, address), list(self.image), self.refused(chip)
        if refusal:
            return self.show(what + " refused %d" % refusal, old)
        byte = cards.read(chip, self.image, address)
        if chip == 3 and address in (IN, TEMPERATURE):
            self.watch.pending = False
        self.show(what + " byte %02X" % byte, old)
        return byte

    def reset(self, chip=3):
        """ "Reset turns both facts off and keeps the behaviour." "Other chips carry it unchanged." """
        what, old, refusal = "chip %d reset" % chip, list(self.image), self.refused(chip)
        if refusal:
            return self.show(what + " refused %d" % refusal, old)
        self.image = reset(chip)
        if chip == 3:
            self.watch.hot = self.watch.pending = False
        self.show(what, old)

    def sample(self, steps, *words):
        """One word stands for seven. Refused "8, then 12 (also where the temperature is disabled)"."""
        words = words * 7 if len(words) == 1 else words
        assert len(words) == 7
        what, old = "sample %d words%s" % (steps, "".join(" %04X" % word for word in words)), list(self.image)
        refusal = 8 if len(self.image) != SIZES[3] else 12 if steps not in WORDS[12] else 0
        if refusal:
            return self.show(what + " refused %d" % refusal, old)
        for n, word in enumerate(words):
            self.voltage(n, word)
        self.temperature(steps)
        self.show(what, old)

    def voltage(self, n, word):
        """ "Each voltage's high byte at 20h to 26h"; disabled, it is 0 and raises nothing. """
        if self.image[CHANNELS] & 1 << n:
            self.image[READINGS[n]] = 0
            return
        self.image[READINGS[n]] = word // 256
        if out_of_limits(word, self.image[HIGHS[n]], self.image[LOWS[n]]):
            self.image[IN] |= 1 << n

    def temperature(self, steps):
        """ "The temperature at 27h and bits 7 to 4 of 06h (bits 3 to 0 of 06h stay)"; 02h bit 0 where the watch has its output on, bit 5 where it is
        strictly above 3Ah. Disabled, it stores 0 and raises nothing, and both facts stay. """
        disabled = self.image[CHANNELS] & TEMP_CHANNEL
        high, low = divmod(0 if disabled else WORDS[12][steps], 256)
        self.image[TEMP_READING] = high
        self.image[RESOLUTION] = low + self.image[RESOLUTION] % 16
        if disabled:
            return
        self.watch.take(steps, signed(self.image[HOT]), signed(self.image[HYSTERESIS]))
        if self.watch.hot if self.watch.behaviour == "comparator" else self.watch.pending:
            self.image[TEMPERATURE] |= TEMP_BIT
        if steps > 16 * signed(self.image[OS]):
            self.image[TEMPERATURE] |= OS_BIT


BEHAVIOURS = ("default", "one-time", "comparator")
ZEROS = [0x00] * 256


def limits(high=0xFF, low=0x00):
    """All seven pairs."""
    return {**dict.fromkeys(HIGHS, high), **dict.fromkeys(LOWS, low)}


# The image of the worked example: "00h 01, 06h 00, 08h 00, 38h 50, 39h 4B, 3Ah 7F, 3Bh 80, 2Ah 80, 2Bh 40, 2Dh 20, all other low limits 00 and high
# limits FF".
EXAMPLE = put(ZEROS, {**limits(), 0x00: 0x01, 0x38: 0x50, 0x39: 0x4B, 0x3A: 0x7F, 0x3B: 0x80, 0x2A: 0x80, 0x2B: 0x40, 0x2D: 0x20})
FIRST = (0x8100,) + (0x2000,) * 6
SECOND = (0x8000,) + (0x2000,) * 6


def worked_example(behaviour):
    """The request's numbers are of the default behaviour. One-time is acknowledged and stays hot, so 02h has no more to tell; comparator never pends."""
    state = State(EXAMPLE, behaviour)
    state.sample(1296, *FIRST)
    first = [state.read(address) for address in (0x01, 0x01, 0x02, 0x02)]
    assert first == [0x01, 0x00, 0x01, 0x00]
    state.sample(1248, *SECOND)
    then = [state.read(address) for address in (0x01, 0x02)]
    assert then == {"default": [0x00, 0x01], "one-time": [0x00, 0x00], "comparator": [0x00, 0x01]}[behaviour]
    assert state.facts() == ("on", "off")
    stored = [state.read(address) for address in (0x20, 0x21, 0x27, 0x06)]
    assert stored == [0x80, 0x20, 0x4E, 0x00]
    assert state.image == put(EXAMPLE, {**dict.fromkeys(READINGS, 0x20), 0x20: 0x80, 0x27: 0x4E})
    state.reset()
    assert state.facts() == ("off", "off") and state.watch.behaviour == behaviour


def one_input(n):
    """A code above its high limit and one below its low limit, and exactly at each, bits 5 to 0 as ones too."""
    state = State(put(ZEROS, {**limits(), HIGHS[n]: 0x80, LOWS[n]: 0x40, 0x38: 0x7F, 0x39: 0x80, 0x3A: 0x7F}))
    for word in (0x8000, 0x803F, 0x8040):
        state.sample(0, *put([0x8000] * 7, {n: word}))
        assert state.image[IN] == (1 << n if word == 0x8040 else 0x00)
    assert state.read(0x01) == 1 << n
    for word in (0x4000, 0x3FFF):
        state.sample(0, *put([0x8000] * 7, {n: word}))
        assert state.image[IN] == (1 << n if word == 0x3FFF else 0x00)
    assert state.read(0x01) == 1 << n and state.image[TEMPERATURE] == 0x00


def channels(disabled, steps, word):
    """All limits are 00h, and every channel that is enabled is above its own. The disabled ones read 0; only bit 7 keeps the facts."""
    state = State(put(ZEROS, {CHANNELS: disabled, **dict.fromkeys(READINGS, 0x55), TEMP_READING: 0x55, RESOLUTION: 0x5F}), "default", "on", "off")
    state.sample(steps, word)
    assert state.image[IN] == 0x7F & ~disabled
    assert [state.image[at] for at in READINGS] == [0 if disabled & 1 << n else word // 256 for n in range(7)]
    if disabled & TEMP_CHANNEL:
        assert state.facts() == ("on", "off") and [state.image[at] for at in (TEMP_READING, RESOLUTION, TEMPERATURE)] == [0x00, 0x0F, 0x00]
    else:
        assert state.facts() == ("on", "on") and state.image[TEMPERATURE] == 0x21
        assert (state.image[TEMP_READING], state.image[RESOLUTION]) == (steps // 16, steps % 16 * 16 + 0x0F)


def below_zero(behaviour):
    """Limits of -10, -15 and, for OS, -10 degrees: -160 and -240 steps."""
    state = State(put(ZEROS, {**dict.fromkeys(HIGHS, 0xFF), HOT: 0xF6, HYSTERESIS: 0xF1, OS: 0xF6}), behaviour)
    state.sample(-160, 0x0000)
    assert state.facts() == ("off", "off") and state.image[TEMPERATURE] == 0x00
    state.sample(-159, 0x0000)
    read = [state.read(0x02)]
    for steps in (-160, -240, -241):
        state.sample(steps, 0x0000)
        read.append(state.read(0x02))
    assert read == {"default": [0x21, 0x01, 0x01, 0x00], "one-time": [0x21, 0x00, 0x00, 0x00], "comparator": [0x21, 0x01, 0x01, 0x00]}[behaviour]
    assert state.facts() == ("off", "off") and state.image[IN] == 0x00


def to_the_ends():
    """Steps that don't fill a degree, and both ends, in an image whose limits are all 5Ah: 5A00h is exactly at them. Bits 3 to 0 of 06h stay."""
    state = State(put([0x5A] * 256, {CHANNELS: 0x00, IN: 0x00, TEMPERATURE: 0x00}))
    for steps, high, rest in ((-1, 0xFF, 0xFA), (2047, 0x7F, 0xFA), (-2048, 0x80, 0x0A), (15, 0x00, 0xFA), (16, 0x01, 0x0A)):
        state.sample(steps, 0x5A00)
        assert (state.image[TEMP_READING], state.image[RESOLUTION]) == (high, rest)
    assert (state.read(0x02), state.read(0x01)) == (0x21, 0x00)


def every_bit_on():
    """All bits on, and both facts. Of chips 4 and 5 FFh selects a bank that the sheets lack. Of chip 3 reads of other registers, and of each status
    register: it clears its own byte alone."""
    for chip in (1, 2, 4, 5):
        state = State([0xFF] * SIZES[chip], "default", "on", "on")
        for address in (0x01, 0x02):
            assert state.read(address, chip) == (0x00 if chip in cards.SELECT else 0xFF)
        assert state.image == [0xFF] * SIZES[chip] and state.facts() == ("on", "on")
    state = State([0xFF] * 256, "default", "on", "on")
    for address in (0x00, 0x03, 0x04, 0x06, 0x20, 0x27, 0x3E, 0xFF):
        assert state.read(address) == 0xFF
    assert state.image == [0xFF] * 256 and state.facts() == ("on", "on")
    for address in (0x01, 0x02):
        if address == 0x02:
            state = State([0xFF] * 256, "default", "on", "on")
        assert state.read(address) == 0xFF
        assert state.image == put([0xFF] * 256, {address: 0x00}) and state.facts() == ("on", "off")


# Chip, and length of the image, of a refused read or reset.
REFUSED = ((0, 256), (6, 256), (255, 256), (3, 0), (3, 255), (3, 257), (4, 256))


def refusals():
    """One line of the behaviour for all of them: the watch is the same throughout."""
    state = State([], "default", "on", "on")

    def on(image, call, *inputs):
        state.image = list(image)
        call(*inputs)
        assert state.image == image and state.facts() == ("on", "on")

    for chip, length in REFUSED:
        on([0x5A] * length, state.read, 0x01, chip)
    for chip, length in REFUSED:
        on([0x5A] * length, state.reset, chip)
    for steps, length in ((0, 0), (0, 255), (0, 257), (2048, 255)):
        on([0x5A] * length, state.sample, steps, 0xFFFF)
    for steps in (2048, -2049, 32767, -32768):
        on(put([0x5A] * 256, {CHANNELS: 0xFF}), state.sample, steps, 0xFFFF)


def resets():
    for behaviour in BEHAVIOURS:
        state = State(put(reset(3), {IN: 0x7F}), behaviour, "on", "on")
        state.reset()
        assert state.image == reset(3) and state.facts() == ("off", "off")
    for chip in (1, 2, 4, 5):
        state = State(reset(chip), "default", "on", "on")
        state.reset(chip)
        assert state.image == reset(chip) and state.facts() == ("on", "on")


def no_effect():
    """01h and 02h can't be written, and "an initialization (L6) keeps facts and status". "Masks 03h and 04h, Start and the interrupt bits of 00h have no
    effect on status bits." """
    state = State(EXAMPLE)
    state.sample(1296, *FIRST)
    for address, byte in ((0x01, 0xFF), (0x02, 0x00), (0x00, 0x80)):
        state.write(3, address, byte)
        assert (state.image[IN], state.image[TEMPERATURE]) == (0x01, 0x01) and state.facts() == ("on", "on")
    assert (state.read(0x01), state.read(0x02)) == (0x01, 0x01) and state.facts() == ("on", "off")
    state = State(put(EXAMPLE, {0x00: 0x0E, 0x03: 0xFF, 0x04: 0x3F}))
    state.sample(1296, *FIRST)
    assert (state.read(0x02), state.read(0x01)) == (0x01, 0x01)


def states():
    for behaviour in BEHAVIOURS:
        worked_example(behaviour)
    for n in range(7):
        one_input(n)
    for k in range(8):
        channels(1 << k, 1296, 0xFFC0)
    channels(0xFF, 2047, 0xFFFF)
    channels(0x00, 1, 0x0040)
    for behaviour in BEHAVIOURS:
        below_zero(behaviour)
    to_the_ends()
    every_bit_on()
    refusals()
    resets()
    no_effect()
