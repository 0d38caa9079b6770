//! A small seeded generator (xorshift) and the drafts it makes: boundary values come often.

use crate::chips::{chip_of, Chip, Curve, PLAIN};
use crate::model::{self, Plan, Watch, NEW};

const BYTES: [u8; 6] = [0, 1, 127, 128, 254, 255];
const LENGTHS: [usize; 27] = [
    0, 3, 4, 12, 13, 17, 18, 19, 20, 25, 26, 27, 28, 47, 48, 49, 50, 255, 256, 257, 300, 767, 768, 769,
    1279, 1280, 1281,
];

/// The chips that have fan tables.
pub const PLANNED: [u8; 4] = [1, 2, 4, 5];

pub struct Random(u64);

/// A plan that owns its body.
#[derive(Clone, Debug)]
pub struct Draft {
    pub chip: u8,
    pub table: u8,
    pub body: Vec<u8>,
}

impl Draft {
    pub fn plan(&self) -> Plan<'_> {
        Plan { chip: self.chip, table: self.table, body: &self.body }
    }

    /// The record of these bytes, whatever they are: the mark that goes with the chip, chip, table,
    /// body.
    pub fn record(&self) -> Vec<u8> {
        let form = chip_of(self.chip).map_or(&PLAIN, |chip| chip.form);
        [&form.mark[..], &[self.chip, self.table], &self.body].concat()
    }

    /// The bytes of the table's registers: the body behind a point count.
    pub fn values_mut(&mut self) -> &mut [u8] {
        &mut self.body[chip_of(self.chip).map_or(0, Chip::head)..]
    }
}

impl Random {
    pub fn new(seed: u64) -> Random {
        Random(seed.wrapping_mul(0x9E37_79B9_7F4A_7C15).max(1))
    }

    pub fn next(&mut self) -> u64 {
        self.0 ^= self.0 << 13;
        self.0 ^= self.0 >> 7;
        self.0 ^= self.0 << 17;
        self.0
    }

    pub fn below(&mut self, end: usize) -> usize {
        ((self.next() >> 16) % end as u64) as usize
    }

    /// Once in `times` on average.
    pub fn once_in(&mut self, times: usize) -> bool {
        self.below(times) == 0
    }

    pub fn byte(&mut self) -> u8 {
        let drawn = self.next() >> 16;
        if drawn % 3 == 0 {
            BYTES[(drawn / 3 % 6) as usize]
        } else {
            (drawn >> 16) as u8
        }
    }

    pub fn bytes(&mut self, length: usize) -> Vec<u8> {
        (0..length).map(|_| self.byte()).collect()
    }

    pub fn length(&mut self) -> usize {
        if self.once_in(2) {
            LENGTHS[self.below(LENGTHS.len())]
        } else {
            self.below(301)
        }
    }

    /// Mostly a good chip, at times any number.
    pub fn chip(&mut self) -> u8 {
        if self.once_in(8) {
            self.byte()
        } else {
            1 + self.below(5) as u8
        }
    }

    /// Mostly a table of the chip, or the number before or behind them.
    pub fn table(&mut self, chip: u8) -> u8 {
        if self.once_in(12) {
            self.byte()
        } else {
            self.below(model::tables(chip) + 2) as u8
        }
    }

    pub fn steps(&mut self) -> i16 {
        let edges = [-32768, -2049, -2048, -1025, -1024, -257, -256, -129, -128, -1, 0, 1, 127];
        let high = [128, 255, 256, 1023, 1024, 2047, 2048, 32767];
        match self.below(4) {
            0 => edges[self.below(edges.len())],
            1 => high[self.below(high.len())],
            2 => self.next() as i16,
            _ => self.below(4096) as i16 - 2048,
        }
    }

    /// A limit in steps, or a little below or above it.
    fn near(&mut self, limit: i8) -> i16 {
        let away = if self.once_in(2) { self.below(3) as i16 - 1 } else { self.below(99) as i16 - 49 };
        16 * i16::from(limit) + away
    }

    /// The high and the hysteresis limit, in both orders: mostly near each other, at times any two.
    pub fn limits(&mut self) -> (i8, i8) {
        let high = self.byte() as i8;
        let low = if self.once_in(4) { self.byte() as i8 } else { high.saturating_sub(self.below(9) as i8) };
        if self.once_in(3) {
            (low, high)
        } else {
            (high, low)
        }
    }

    /// One sample: mostly near one of the limits, at times any, and then refused at times.
    pub fn sample(&mut self, (high, low): (i8, i8)) -> i16 {
        match self.below(6) {
            0 => self.steps(),
            1..=3 => self.near(high),
            _ => self.near(low),
        }
    }

    /// Samples of a run, up to 48.
    pub fn samples(&mut self, limits: (i8, i8)) -> Vec<i16> {
        (0..self.below(49)).map(|_| self.sample(limits)).collect()
    }

    /// Any watch; the numbers of its behaviour are mostly 0, 1 and 2.
    pub fn watch(&mut self) -> Watch {
        let behaviour = if self.once_in(8) { self.byte() } else { self.below(3) as u8 };
        Watch { behaviour, hot: self.once_in(2), pending: self.once_in(2) }
    }

    /// An address: often a status register of chip 3, a register that its samples look at, or one
    /// that they fill; else any.
    pub fn address(&mut self) -> u8 {
        match self.below(6) {
            0 | 1 => 1 + self.below(2) as u8,
            2 => self.below(10) as u8,
            3 => 0x20 + self.below(0x20) as u8,
            _ => self.byte(),
        }
    }

    /// A voltage word with this code or one of its neighbours, bits 5 to 0 any.
    pub fn near_code(&mut self, code: u16) -> u16 {
        let code = (code + self.below(3) as u16).saturating_sub(1).min(1023);
        64 * code + self.below(64) as u16
    }

    /// The seven words of a sample: mostly at a limit that stands in the image or beside it, where
    /// the limits alternate from 2Ah on; at times any.
    pub fn words(&mut self, image: &[u8]) -> [u16; 7] {
        [0, 1, 2, 3, 4, 5, 6].map(|n| {
            let at = 0x2A + 2 * n + self.below(2);
            match image.get(at) {
                Some(limit) if !self.once_in(4) => self.near_code(4 * u16::from(*limit)),
                _ => self.next() as u16,
            }
        })
    }

    /// The steps of a sample: mostly near one of the three limits that stand in the image.
    pub fn image_steps(&mut self, image: &[u8]) -> i16 {
        let at = 0x38 + self.below(3);
        match image.get(at) {
            Some(limit) if !self.once_in(4) => self.near(*limit as i8),
            _ => self.steps(),
        }
    }

    /// An image: mostly of the chip's length, of any length at times; power-on bytes, power-on
    /// bytes with one bit flipped, random bytes, or random bytes with the chip's identity.
    pub fn image(&mut self, chip: u8) -> Vec<u8> {
        if self.once_in(10) {
            let length = self.length();
            return self.bytes(length);
        }
        let kind = self.below(5);
        let mut image = self.bytes(model::image_length(chip));
        if kind < 2 {
            model::reset(chip, &mut image, NEW);
        } else if kind < 4 {
            self.identify(chip, &mut image);
        }
        if kind == 1 || kind == 3 {
            let at = self.below(image.len());
            image[at] ^= 1 << self.below(8);
        }
        image
    }

    /// A random image whose identity is confirmed.
    pub fn confirmed(&mut self, chip: u8) -> Vec<u8> {
        let mut image = self.bytes(model::image_length(chip));
        self.identify(chip, &mut image);
        image
    }

    /// Makes the image one that its chip confirms.
    fn identify(&mut self, chip: u8, image: &mut [u8]) {
        for (at, mask, held) in chip_of(chip).and_then(|chip| chip.identity).unwrap_or(&[]) {
            image[*at] = image[*at] & !mask | held.bytes()[self.below(held.bytes().len())];
        }
    }

    /// Different bytes of these bits.
    fn different(&mut self, count: usize, bits: u8) -> Vec<u8> {
        let mut drawn = Vec::new();
        while drawn.len() < count {
            let byte = self.byte() & bits;
            if !drawn.contains(&byte) {
                drawn.push(byte);
            }
        }
        drawn
    }

    /// A body whose temperatures and speeds are in order and fit their registers; where the chip
    /// has no fan table, one of chip 2.
    pub fn ordered(&mut self, chip: u8) -> Vec<u8> {
        match chip_of(chip) {
            Some(chip) if chip.curve == Curve::Slope => self.slope(chip),
            _ => self.counts(),
        }
    }

    fn slope(&mut self, chip: &Chip) -> Vec<u8> {
        let bits = |k: usize| chip.card[chip.tables[0][k]].0;
        let points = chip.speeds.len();
        let mut temperatures = self.different(points, bits(chip.temperatures[0]));
        temperatures.sort_unstable_by_key(|t| *t as i8);
        let last = temperatures[points - 1] as i8;
        // The greatest temperature is 127, whether its register has seven bits or eight.
        let above = if self.once_in(4) { 0 } else { self.below((128 - i16::from(last)) as usize) };
        temperatures.push((i16::from(last) + above as i16) as u8);
        let mut duties: Vec<u8> = (0..points).map(|_| self.byte() & bits(chip.speeds[0])).collect();
        duties.sort_unstable();
        let mut body: Vec<u8> = chip.count().into_iter().collect();
        body.resize(chip.head() + chip.tables[0].len(), 0);
        let places = chip.temperatures.iter().chain(chip.speeds);
        for (k, byte) in places.zip(temperatures.into_iter().chain(duties)) {
            body[chip.head() + k] = byte;
        }
        body
    }

    fn counts(&mut self) -> Vec<u8> {
        let mut body = self.different(4, 0xFF);
        body.sort_unstable_by(|a, b| b.cmp(a));
        let near = self.once_in(3);
        let (high, low) = (self.byte(), self.byte());
        let mut counts: Vec<[u8; 2]> = (0..5)
            .map(|_| if near { [high, low ^ (self.byte() & 3)] } else { [self.byte(), self.byte()] })
            .collect();
        counts.sort_unstable();
        body.extend(counts.concat());
        body
    }

    /// An accepted plan.
    pub fn good_plan(&mut self) -> Draft {
        let chip = PLANNED[self.below(PLANNED.len())];
        self.good_plan_of(chip)
    }

    /// An accepted plan of a chip that has fan tables.
    pub fn good_plan_of(&mut self, chip: u8) -> Draft {
        let table = 1 + self.below(model::tables(chip)) as u8;
        Draft { chip, table, body: self.ordered(chip) }
    }

    /// Ordered and unordered plans, of all chips and tables, with short and long bodies, with a
    /// point count that doesn't go with the chip and with values that no register holds.
    pub fn plan(&mut self) -> Draft {
        let mut draft = self.good_plan();
        let length = draft.body.len();
        match self.below(12) {
            0 => {
                draft.chip = self.chip();
                draft.table = self.table(draft.chip);
            }
            1 => {
                let from = self.below(length - 1);
                draft.body[from + 1] = draft.body[from];
            }
            2 => {
                let from = self.below(length - 1);
                draft.body.swap(from, from + 1);
            }
            3 => {
                let at = self.below(length);
                draft.body[at] = self.byte();
            }
            4 => draft.body = self.bytes(length),
            5 => {
                let end = self.below(20);
                draft.body.resize(end, 0xA7);
            }
            6 => self.unordered(&mut draft),
            7 => draft.body[0] = self.below(10) as u8,
            _ => {}
        }
        draft
    }

    /// Any values, all of which the registers hold at times; a point count stays.
    pub fn unordered(&mut self, draft: &mut Draft) {
        let held = self.once_in(2);
        let bits = model::masks(draft.chip, draft.table).unwrap_or_default();
        for (byte, bits) in draft.values_mut().iter_mut().zip(bits) {
            *byte = self.byte() & if held { bits } else { 0xFF };
        }
    }

    /// The bytes of a record: good with or without a tail, cut short, damaged, with another mark or
    /// random.
    pub fn record(&mut self) -> Vec<u8> {
        let draft = if self.once_in(3) { self.plan() } else { self.good_plan() };
        let mut bytes = draft.record();
        match self.below(10) {
            0 => {
                let end = self.below(bytes.len() + 1);
                bytes.truncate(end);
            }
            1 => {
                let at = self.below(bytes.len());
                bytes[at] ^= 1 << self.below(8);
            }
            2 => {
                let at = self.below(4);
                bytes[at] = self.byte();
            }
            3 => {
                let length = self.length();
                bytes.resize(length, 0x43);
            }
            4 => {
                let length = self.length();
                bytes = self.bytes(length);
            }
            5 => {
                let tail = self.length();
                let tail = self.bytes(tail);
                bytes.extend(tail);
            }
            // Another mark, at times of a record that is cut short too.
            6 => {
                bytes[1] = [0x50, 0x51, 0x52][self.below(3)];
                if self.once_in(3) {
                    let end = 4 + self.below(bytes.len() - 3);
                    bytes.truncate(end);
                }
            }
            _ => {}
        }
        bytes
    }

    /// Standard input for the program: good records up to about `length` bytes, at times with
    /// one damage at any place.
    pub fn input(&mut self, length: usize) -> Vec<u8> {
        let mut bytes = Vec::new();
        loop {
            let record = self.good_plan().record();
            if bytes.len() + record.len() > length {
                break;
            }
            bytes.extend(record);
        }
        match self.below(6) {
            0 => bytes.extend(self.record()),
            1 if !bytes.is_empty() => {
                let at = self.below(bytes.len());
                bytes[at] ^= 1 << self.below(8);
            }
            2 => bytes.resize(length, 0x43),
            3 if !bytes.is_empty() => bytes.truncate(self.below(bytes.len())),
            _ => {}
        }
        bytes
    }
}
