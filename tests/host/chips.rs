//! What the papers say of each chip, as data: card, banks, initialization, channels and status
//! registers, identity and fan tables.

use crate::cards::{Row, F75373S, NCT7802Y, NCT7904D, NCT80, W83793G};
use Held::{Is, OneOf};

pub struct Chip {
    /// A row for each byte of an image.
    pub card: &'static [Row],
    pub banks: Option<Banks>,
    pub initialization: Option<Initialization>,
    /// What a chip that takes samples has. Without it a read changes nothing and no call changes a
    /// watch.
    pub monitor: Option<&'static Monitor>,
    /// Where, which bits, and what they hold. "Confirmed means all of them"; without a list it is
    /// never confirmed.
    pub identity: Option<&'static [(usize, u8, Held)]>,
    pub form: &'static Form,
    /// A fan table: where its registers stand in the image, in the order of the record.
    pub tables: &'static [&'static [usize]],
    /// Which of these are the points' temperatures and, last, critical, or B1 to B4.
    pub temperatures: &'static [usize],
    /// Which of these are the points' duties, or C1 to C5.
    pub speeds: &'static [usize],
    pub curve: Curve,
    /// A speed byte at full speed: the greatest duty that a register holds, or either byte of count
    /// 0000h.
    pub fastest: u8,
}

/// "Several register banks behind a bank select register."
pub struct Banks {
    /// The bank select register and the bits in it that say the bank.
    pub select: u8,
    pub bits: u8,
    /// The addresses that are seen in every bank.
    pub everywhere: &'static [u8],
}

/// "The initialization bit": a register whose write does more than its row of the card says.
pub struct Initialization {
    /// Where in the image the register stands.
    pub at: usize,
    /// "After a write that sets it all writable bits of the card, that bit included, have power-on
    /// values."
    pub bit: u8,
    /// The bits that "read 0 after the write", whatever was written.
    pub zero: u8,
}

/// "Status bits live in the chip": where in the image a sample is stored, its limits, and the bits
/// that it sets.
pub struct Monitor {
    /// "Reading 01h or 02h returns the byte and then clears it, and counts as the acknowledge."
    pub status: [usize; 2],
    /// "Channels disabled at 08h": each has a bit there.
    pub channels: usize,
    /// IN0 to IN6.
    pub voltages: [Voltage; 7],
    pub temperature: Temperature,
}

/// A bit, and where in the image its register stands.
pub type Bit = (usize, u8);

pub struct Voltage {
    /// Its bit of the register of channels.
    pub channel: u8,
    /// "High bytes only."
    pub reading: usize,
    pub high: usize,
    pub low: usize,
    /// "The NCT80 sets this bit to 1 if the high or low limit has been exceeded."
    pub status: Bit,
}

pub struct Temperature {
    pub channel: u8,
    /// "27h and bits 7 to 4 of 06h"; the other bits of the second stay.
    pub reading: usize,
    pub rest: usize,
    /// The limits of the watch, and the bit of its output.
    pub high: usize,
    pub hysteresis: usize,
    pub status: Bit,
    /// The OS limit and its bit.
    pub os_high: usize,
    pub os_status: Bit,
}

/// What the bits of an identity register hold.
pub enum Held {
    Is(u8),
    OneOf(&'static [u8]),
}

impl Held {
    pub fn admits(&self, bits: u8) -> bool {
        match self {
            Is(byte) => *byte == bits,
            OneOf(bytes) => bytes.iter().any(|byte| *byte == bits),
        }
    }

    /// All that they may hold.
    pub fn bytes(&self) -> &[u8] {
        match self {
            Is(byte) => std::slice::from_ref(byte),
            OneOf(bytes) => bytes,
        }
    }
}

/// The form of a record: its mark, and whether a point count stands behind the table's number.
pub struct Form {
    pub mark: [u8; 2],
    pub counted: bool,
}

/// "A two-byte mark 43h 50h before each plan."
pub static PLAIN: Form = Form { mark: [0x43, 0x50], counted: false };
/// "A record with mark 43h 51h carries chip, table, a point count [...]."
pub static COUNTED: Form = Form { mark: [0x43, 0x51], counted: true };

#[derive(Clone, Copy, PartialEq, Eq)]
pub enum Curve {
    /// Points of a temperature and a duty, and critical: "T1, T2, T3, T4, critical (signed degrees,
    /// -128 to 127), FL1 to FL4 (0 to 255)".
    Slope,
    /// "B1 to B4 (0 to 255 degrees), counts C1 to C5 (0 to 65,535)."
    Counts,
}

impl Chip {
    /// The point count that goes with the chip, if its records carry one.
    pub fn count(&self) -> Option<u8> {
        self.form.counted.then_some(self.speeds.len() as u8)
    }

    /// The bytes of a body before its registers' values: the point count, or none.
    pub fn head(&self) -> usize {
        usize::from(self.form.counted)
    }
}

/// The chip of a number, if there is one.
pub fn chip_of(number: u8) -> Option<&'static Chip> {
    CHIPS.get(usize::from(number).wrapping_sub(1))
}

/// "Chip 1 is the Nuvoton NCT7802Y, chip 2 the Fintek F75373S, chip 3 the onsemi NCT80." "The
/// NCT7904D [...] Add it as chip 4." "Chip 5, the W83793G."
#[rustfmt::skip]
static CHIPS: [Chip; 5] = [
    Chip {
        card: &NCT7802Y,
        // "Its image is bank 0, which counts as selected whatever 00h holds."
        banks: None,
        // FCh is no such register: the request is of "NCT80 register 00h" alone.
        initialization: None,
        monitor: None,
        // "FDh holds 50h, FEh holds C3h, the upper four bits of FFh are 2, bits 4 to 0 of 05h are
        // zero, bits 5 to 0 of 08h are zero."
        identity: Some(&[
            (0xFD, 0xFF, Is(0x50)), (0xFE, 0xFF, Is(0xC3)), (0xFF, 0xF0, Is(0x20)),
            (0x05, 0x1F, Is(0)), (0x08, 0x3F, Is(0)),
        ]),
        form: &PLAIN,
        // "Table 1 has T1 to T4 at 80h to 83h, critical 84h, FL1 to FL4 85h to 88h; table 2 the
        // same from 90h, table 3 from A0h."
        tables: &[
            &[0x80, 0x81, 0x82, 0x83, 0x84, 0x85, 0x86, 0x87, 0x88],
            &[0x90, 0x91, 0x92, 0x93, 0x94, 0x95, 0x96, 0x97, 0x98],
            &[0xA0, 0xA1, 0xA2, 0xA3, 0xA4, 0xA5, 0xA6, 0xA7, 0xA8],
        ],
        temperatures: &[0, 1, 2, 3, 4],
        speeds: &[5, 6, 7, 8],
        curve: Curve::Slope,
        fastest: 0xFF,
    },
    Chip {
        card: &F75373S,
        banks: None,
        // Nor is 00h here.
        initialization: None,
        monitor: None,
        // "5Ah, 5Bh, 5Dh, 5Eh hold 02h, 04h, 19h, 34h."
        identity: Some(&[
            (0x5A, 0xFF, Is(0x02)), (0x5B, 0xFF, Is(0x04)), (0x5D, 0xFF, Is(0x19)), (0x5E, 0xFF, Is(0x34)),
        ]),
        form: &PLAIN,
        // "Fan 1 has B1 to B4 at A0h to A3h and C1 to C5 from A4h to ADh, high byte first; fan 2
        // the same from B0h."
        tables: &[
            &[0xA0, 0xA1, 0xA2, 0xA3, 0xA4, 0xA5, 0xA6, 0xA7, 0xA8, 0xA9, 0xAA, 0xAB, 0xAC, 0xAD],
            &[0xB0, 0xB1, 0xB2, 0xB3, 0xB4, 0xB5, 0xB6, 0xB7, 0xB8, 0xB9, 0xBA, 0xBB, 0xBC, 0xBD],
        ],
        temperatures: &[0, 1, 2, 3],
        speeds: &[4, 5, 6, 7, 8, 9, 10, 11, 12, 13],
        curve: Curve::Counts,
        fastest: 0x00,
    },
    Chip {
        card: &NCT80,
        banks: None,
        // "7 INITIALIZATION Setting this bit to 1 resets the main user writeable registers to their
        // power on default values." "5 Chassis_clear [...] After 10 ms this bit self clears", and
        // "since we model no time, let it read 0 after the write". Bit 4, which on a condition is
        // "cleared once the pulse is inactive", is stored.
        initialization: Some(Initialization { at: 0x00, bit: 0x80, zero: 0x20 }),
        monitor: Some(&NCT80_MONITOR),
        // "For chip 3 always: it has no identity rule here."
        identity: None,
        form: &PLAIN,
        // "Chip 3: none."
        tables: &[],
        temperatures: &[],
        speeds: &[],
        curve: Curve::Counts,
        fastest: 0x00,
    },
    Chip {
        card: &NCT7904D,
        // Section 7.1.30: "7-3 Reserved. 2-0 BANK_SEL". Sections 7.1.12 to 7.1.14: "Data at Address
        // 7Ah [7Bh, 7Ch] is available in all Bank Settings." FFh stands in "Bank 0, 1, 2, 3" there;
        // it is seen in bank 4 too, or no script could leave that bank.
        banks: Some(Banks { select: 0xFF, bits: 0x07, everywhere: &[0x7A, 0x7B, 0x7C, 0xFF] }),
        initialization: None,
        monitor: None,
        // "Identity from its vendor, chip and device registers": 7.1.3 to 7.1.5 and 7.1.12 to
        // 7.1.14, "Default Value: 50", "C5", "5x".
        identity: Some(&[
            (0x0D, 0xFF, Is(0x50)), (0x0E, 0xFF, Is(0xC5)), (0x0F, 0xF0, Is(0x50)),
            (0x7A, 0xFF, Is(0x50)), (0x7B, 0xFF, Is(0xC5)), (0x7C, 0xF0, Is(0x50)),
        ]),
        form: &PLAIN,
        // "Its own fan tables", in register order: critical, T1 to T4, P1 to P4. Tables 1 to 4 stand
        // in bank 3 (sections 7.4.16 and 7.4.19), 5 to 10 in bank 4 (7.5.3 and 7.5.5).
        tables: &[
            &[0x320, 0x330, 0x331, 0x332, 0x333, 0x334, 0x335, 0x336, 0x337],
            &[0x321, 0x338, 0x339, 0x33A, 0x33B, 0x33C, 0x33D, 0x33E, 0x33F],
            &[0x322, 0x340, 0x341, 0x342, 0x343, 0x344, 0x345, 0x346, 0x347],
            &[0x323, 0x348, 0x349, 0x34A, 0x34B, 0x34C, 0x34D, 0x34E, 0x34F],
            &[0x410, 0x430, 0x431, 0x432, 0x433, 0x434, 0x435, 0x436, 0x437],
            &[0x411, 0x438, 0x439, 0x43A, 0x43B, 0x43C, 0x43D, 0x43E, 0x43F],
            &[0x412, 0x440, 0x441, 0x442, 0x443, 0x444, 0x445, 0x446, 0x447],
            &[0x413, 0x448, 0x449, 0x44A, 0x44B, 0x44C, 0x44D, 0x44E, 0x44F],
            &[0x414, 0x450, 0x451, 0x452, 0x453, 0x454, 0x455, 0x456, 0x457],
            &[0x415, 0x458, 0x459, 0x45A, 0x45B, 0x45C, 0x45D, 0x45E, 0x45F],
        ],
        temperatures: &[1, 2, 3, 4, 0],
        speeds: &[5, 6, 7, 8],
        curve: Curve::Slope,
        fastest: 0xFF,
    },
    Chip {
        card: &W83793G,
        // Section 8.1.2.1: "6-3 Reserved. 2-0 BANK Select." Section 8.1.1: "Address 00, 0D, 0E, 0F
        // in all three register banks are reserved as ID, Bank Select registers."
        banks: Some(Banks { select: 0x00, bits: 0x07, everywhere: &[0x00, 0x0D, 0x0E, 0x0F] }),
        initialization: None,
        monitor: None,
        // "The vendor byte in the image is the high one, whatever bank select holds": of the two in
        // 8.1.2.2, 5C and A3. 8.1.2.3: "Chip ID of W83793G is 7B". 8.1.2.4: "Device ID of W83793G B
        // Version is 11, C Version is 12".
        identity: Some(&[(0x0D, 0xFF, Is(0x5C)), (0x0E, 0xFF, Is(0x7B)), (0x0F, 0xFF, OneOf(&[0x11, 0x12]))]),
        // "43h 51h serves only chip 5."
        form: &COUNTED,
        // Sections 8.11.2.17 and 8.11.2.18: "a table is consisted of 7 temperature levels and 7 fan
        // levels", TD1 to TD4, TR1 and TR2, in bank 2; 8.11.2.9: critical in bank 0, one register
        // for all six.
        tables: &[
            &[0x230, 0x231, 0x232, 0x233, 0x234, 0x235, 0x236, 0x0C5, 0x238, 0x239, 0x23A, 0x23B, 0x23C, 0x23D, 0x23E],
            &[0x240, 0x241, 0x242, 0x243, 0x244, 0x245, 0x246, 0x0C5, 0x248, 0x249, 0x24A, 0x24B, 0x24C, 0x24D, 0x24E],
            &[0x250, 0x251, 0x252, 0x253, 0x254, 0x255, 0x256, 0x0C5, 0x258, 0x259, 0x25A, 0x25B, 0x25C, 0x25D, 0x25E],
            &[0x260, 0x261, 0x262, 0x263, 0x264, 0x265, 0x266, 0x0C5, 0x268, 0x269, 0x26A, 0x26B, 0x26C, 0x26D, 0x26E],
            &[0x270, 0x271, 0x272, 0x273, 0x274, 0x275, 0x276, 0x0C5, 0x278, 0x279, 0x27A, 0x27B, 0x27C, 0x27D, 0x27E],
            &[0x280, 0x281, 0x282, 0x283, 0x284, 0x285, 0x286, 0x0C5, 0x288, 0x289, 0x28A, 0x28B, 0x28C, 0x28D, 0x28E],
        ],
        temperatures: &[0, 1, 2, 3, 4, 5, 6, 7],
        speeds: &[8, 9, 10, 11, 12, 13, 14],
        curve: Curve::Slope,
        // "The greatest duty its registers hold stands for 255": six bits.
        fastest: 0x3F,
    },
];

/// Source document 004: STATUSREGISTER1 and 2 at "Offset 0x01" and "0x02", CHANNEL_SELECT_REGISTER
/// at "0x08", IN0_READING to IN6_READING from "0x20" on, TEMP_READING at "0x27"; the limits from
/// "0x2A" on are IN0_HIGH_LIMIT, IN0_LOW_LIMIT, IN1_HIGH_LIMIT and so on, in turn. Of 01h, bit 7
/// is INT_IN, a pin; of 02h, bit 0 is "Temperature" and bit 5 "OS_bit", the others are fans and
/// pins: no sample sets them. Of 08h, bit 7 is "Temp".
#[rustfmt::skip]
static NCT80_MONITOR: Monitor = Monitor {
    status: [0x01, 0x02],
    channels: 0x08,
    voltages: [
        Voltage { channel: 0x01, reading: 0x20, high: 0x2A, low: 0x2B, status: (0x01, 0x01) },
        Voltage { channel: 0x02, reading: 0x21, high: 0x2C, low: 0x2D, status: (0x01, 0x02) },
        Voltage { channel: 0x04, reading: 0x22, high: 0x2E, low: 0x2F, status: (0x01, 0x04) },
        Voltage { channel: 0x08, reading: 0x23, high: 0x30, low: 0x31, status: (0x01, 0x08) },
        Voltage { channel: 0x10, reading: 0x24, high: 0x32, low: 0x33, status: (0x01, 0x10) },
        Voltage { channel: 0x20, reading: 0x25, high: 0x34, low: 0x35, status: (0x01, 0x20) },
        Voltage { channel: 0x40, reading: 0x26, high: 0x36, low: 0x37, status: (0x01, 0x40) },
    ],
    // HOT_TEMP_HIGH_LIMIT, HOT_TEMP_HYSTERESIS_LIMIT and OS_TEMP_HIGH_LIMIT. That of the OS
    // hysteresis, 3Bh, sets no bit.
    temperature: Temperature {
        channel: 0x80, reading: 0x27, rest: 0x06,
        high: 0x38, hysteresis: 0x39, status: (0x02, 0x01),
        os_high: 0x3A, os_status: (0x02, 0x20),
    },
};
