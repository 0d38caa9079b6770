//! Every figure of the paper, asked of model and subject at once: the fixed points of the
//! cards, "Figures to check against", the example text and "Mistakes we made or nearly made"; and
//! those worked out for chips 4 and 5, for the initialization bit and for chip 3's status bits.

use crate::chips::chip_of;
use crate::driver::{hold, Driver};
use crate::model::{self, Plan, Watch, NEW};
use crate::subject::Subject;
use crate::rounds::{never_slower, put};
use crate::tests::power_on;

/// The bytes of the paper's example.
const EXAMPLE: [u8; 13] = [
    0x43, 0x50, 0x01, 0x03, 0x1E, 0x28, 0x32, 0x37, 0x3C, 0x8C, 0xAA, 0xC8, 0xE6,
];

const TEXT: &str = "plan 1 chip 1 table 3 writes 13\nA5 FF\nA6 FF\nA7 FF\nA8 FF\nA0 1E\nA1 28\n\
A2 32\nA3 37\nA4 3C\nA5 8C\nA6 AA\nA7 C8\nA8 E6\nend 1\n";

/// Two plans of chip 4, whose bodies begin with critical, and their texts.
const FOUR: [([u8; 13], &str); 2] = [
    (
        [0x43, 0x50, 0x04, 0x01, 0x5A, 0x19, 0x23, 0x2D, 0x37, 0x8C, 0xAA, 0xC8, 0xE6],
        "plan 1 chip 4 table 1 writes 14\nFF 03\n34 FF\n35 FF\n36 FF\n37 FF\n30 19\n31 23\n32 2D\n\
33 37\n20 5A\n34 8C\n35 AA\n36 C8\n37 E6\nend 1\n",
    ),
    (
        [0x43, 0x50, 0x04, 0x0A, 0x7F, 0xEC, 0x00, 0x14, 0x32, 0x00, 0x40, 0x80, 0xFF],
        "plan 1 chip 4 table 10 writes 14\nFF 04\n5C FF\n5D FF\n5E FF\n5F FF\n58 EC\n59 00\n5A 14\n\
5B 32\n15 7F\n5C 00\n5D 40\n5E 80\n5F FF\nend 1\n",
    ),
];

/// A plan of chip 5, whose record has a mark of its own and a point count, and its text: banks 2, 0
/// and 2 are selected.
const FIVE: [u8; 20] = [
    0x43, 0x51, 0x05, 0x01, 0x07, 0x1E, 0x23, 0x28, 0x2D, 0x32, 0x37, 0x3C, 0x50, 0x08, 0x0C, 0x10, 0x18,
    0x20, 0x30, 0x38,
];

const FIVE_TEXT: &str = "plan 1 chip 5 table 1 writes 25\n00 02\n38 3F\n39 3F\n3A 3F\n3B 3F\n3C 3F\n\
3D 3F\n3E 3F\n30 1E\n31 23\n32 28\n33 2D\n34 32\n35 37\n36 3C\n00 00\nC5 50\n00 02\n38 08\n\
39 0C\n3A 10\n3B 18\n3C 20\n3D 30\n3E 38\nend 1\n";

pub fn run<S: Subject>(d: &mut Driver<S>) {
    cards(d);
    banks(d);
    initialization(d);
    states(d);
    one_time_and_comparator(d);
    identities(d);
    one_of(d);
    readings(d);
    right_aligned(d);
    watches(d);
    runs(d);
    speeds(d);
    records(d);
    forms(d);
    cut_bodies(d);
    narrow_registers(d);
    shared_critical(d);
    half_loaded(d);
}

/// Mask, clear mask and power-on byte of a row, found from outside by resets and writes.
fn row<S: Subject>(d: &mut Driver<S>, chip: u8, at: usize) -> (u8, u8, u8) {
    let (bank, address) = ((at / 256) as u8, (at % 256) as u8);
    let length = model::image_length(chip);
    let mut changed = |byte: u8| {
        let mut image = vec![0xFF; length];
        match (chip, address) {
            (4, 0x00..=0xFE) => image[0xFF] = 0xF8 | bank,
            (5, 0x01..=0xFF) => image[0x00] = 0xF8 | bank,
            _ => {}
        }
        d.write(chip, &mut image, address, byte);
        !image[at]
    };
    let (mask, mut clears) = (changed(0x00), changed(0xFF));
    // FFh at 00h of chip 3 initializes: what it leaves there says nothing of clear bits.
    if (chip, at) == (3, 0x00) {
        hold(clears == !0x08, "00h after an initialization", &clears);
        clears = 0;
    }
    let mut image = vec![0x5A; length];
    d.reset(chip, &mut image, NEW);
    (mask, clears, image[at])
}

/// "Fixed points for review", then every row of every card.
fn cards<S: Subject>(d: &mut Driver<S>) {
    let mut point = |chip: u8, at: usize, want: (Option<u8>, Option<u8>, Option<u8>)| {
        let (mask, clears, power_on) = row(d, chip, at);
        let is = |want: Option<u8>, got: u8| want.map_or(true, |want| want == got);
        let good = is(want.0, mask) && is(want.1, clears) && is(want.2, power_on);
        hold(good, "fixed points for review", &(chip, at, mask, clears, power_on));
    };
    // "Chip 1, 54h and 56h mask 3Fh, power-on 3Fh; 55h and 57h mask 3Fh, power-on 00h; A3h to
    // A8h power-on 37h, 3Ch, 8Ch, AAh, C8h, E6h."
    for (address, power_on) in [(0x54, 0x3F), (0x55, 0), (0x56, 0x3F), (0x57, 0)] {
        point(1, address, (Some(0x3F), None, Some(power_on)));
    }
    for (address, power_on) in (0xA3..).zip([0x37, 0x3C, 0x8C, 0xAA, 0xC8, 0xE6]) {
        point(1, address, (None, None, Some(power_on)));
    }
    // "Chip 2, 34h bits 0 and 1 clear on one; 36h and 92h read only; 91h mask 0Fh; A0h, A1h,
    // A2h power-on 3Ch, 32h, 28h."
    point(2, 0x34, (None, Some(0x03), None));
    point(2, 0x36, (Some(0), Some(0), None));
    point(2, 0x92, (Some(0), Some(0), None));
    point(2, 0x91, (Some(0x0F), None, None));
    for (address, power_on) in (0xA0..).zip([0x3C, 0x32, 0x28]) {
        point(2, address, (None, None, Some(power_on)));
    }
    // "Chip 3, 00h mask FFh, power-on 08h; 01h read only; 09h mask 07h."
    point(3, 0x00, (Some(0xFF), None, Some(0x08)));
    point(3, 0x01, (Some(0), Some(0), None));
    point(3, 0x09, (Some(0x07), None, None));
    // Chip 4: the sheet's defaults of tables 1 to 4 in bank 3, of 5 to 10 in bank 4; the criticals
    // "5A (90 C)"; the bank select register's bits 2 to 0.
    let defaults = [0x19, 0x23, 0x2D, 0x37, 0x8C, 0xAA, 0xC8, 0xE6];
    for (at, power_on) in (0x330..0x350).chain(0x430..0x460).zip(defaults.iter().cycle()) {
        point(4, at, (None, None, Some(*power_on)));
    }
    for at in (0x320..0x324).chain(0x410..0x416) {
        point(4, at, (None, None, Some(0x5A)));
    }
    point(4, 0xFF, (Some(0x07), Some(0), Some(0)));
    // "A register seen in every bank stands in bank 0's page only."
    for at in (1..5).flat_map(|bank| [0x7A, 0x7B, 0x7C, 0xFF].map(|address| 256 * bank + address)) {
        point(4, at, (Some(0), Some(0), Some(0)));
    }
    for at in (1..3).flat_map(|bank| [0x00, 0x0D, 0x0E, 0x0F].map(|address| 256 * bank + address)) {
        point(5, at, (Some(0), Some(0), Some(0)));
    }
    // Chip 5: the bank select register; the vendor's high byte and the chip, read only; the sheet's
    // defaults of the six tables and of critical, with their bits.
    point(5, 0x00, (Some(0x87), Some(0), Some(0x80)));
    point(5, 0x0D, (Some(0), Some(0), Some(0x5C)));
    point(5, 0x0E, (Some(0), Some(0), Some(0x7B)));
    point(5, 0x0F, (Some(0), Some(0), None));
    point(5, 0xC5, (Some(0x7F), Some(0), Some(0x50)));
    for base in (0x230..0x290).step_by(0x10) {
        for (at, power_on) in (base..).zip([0x1E, 0x23, 0x28, 0x2D, 0x32, 0x37, 0x3C]) {
            point(5, at, (Some(0x7F), Some(0), Some(power_on)));
        }
        for (at, power_on) in (base + 8..).zip([0x08, 0x0C, 0x10, 0x18, 0x20, 0x30, 0x38]) {
            point(5, at, (Some(0x3F), Some(0), Some(power_on)));
        }
    }
    // "All fan table registers have mask FFh", but for those of chip 5.
    let tables = [
        (1, 0x80, 9), (1, 0x90, 9), (1, 0xA0, 9), (2, 0xA0, 14), (2, 0xB0, 14),
        (4, 0x320, 4), (4, 0x330, 32), (4, 0x410, 6), (4, 0x430, 48),
    ];
    for (chip, base, length) in tables {
        for at in base..base + length {
            point(chip, at, (Some(0xFF), Some(0), None));
        }
    }
    // The two settled rows.
    point(1, 0x6D, (Some(0x0F), Some(0), Some(0)));
    point(2, 0x32, (Some(0xFF), Some(0), Some(0)));
    // "In each row the two masks share no bit."
    for (chip, rows) in (1..).zip([256, 256, 256, 1280, 768]) {
        let card = chip_of(chip).unwrap().card;
        hold(card.len() == rows, "the rows of a card", &chip);
        for (at, (mask, clears, power_on)) in card.iter().copied().enumerate() {
            hold(mask & clears == 0, "the two masks share no bit", &(chip, at));
            point(chip, at, (Some(mask), Some(clears), Some(power_on)));
        }
    }
}

/// An address and a byte that is written there, and what is then read at addresses.
type Step = ((u8, u8), &'static [(u8, u8)]);

/// Steps on a bus after a reset: the image, and where it differs.
fn bus<S: Subject>(d: &mut Driver<S>, chip: u8, steps: &[Step]) -> (Vec<u8>, Vec<usize>) {
    let reset = power_on(d, chip);
    let mut image = reset.clone();
    for &((address, byte), reads) in steps {
        d.write(chip, &mut image, address, byte);
        for &(at, want) in reads {
            let read = d.read(chip, &mut image, NEW, at);
            hold(read == (0, want, NEW), "banks", &(chip, (address, byte), (at, want)));
        }
    }
    let changed = (0..image.len()).filter(|at| image[*at] != reset[*at]).collect();
    (image, changed)
}

/// Chips 4 and 5 on a bus: what is written, and what is read then.
fn banks<S: Subject>(d: &mut Driver<S>) {
    let steps: [Step; 5] = [
        // Bank 3, and bits 7 to 3 can't be written.
        ((0xFF, 0x83), &[(0xFF, 0x03), (0x20, 0x5A), (0x7A, 0x50)]),
        ((0x20, 0x55), &[(0x20, 0x55)]),
        // A bank the sheet lacks.
        ((0xFF, 0x06), &[(0x20, 0x00), (0x7B, 0xC5)]),
        ((0x20, 0x11), &[(0x20, 0x00)]),
        ((0xFF, 0x04), &[(0x10, 0x5A), (0x20, 0x53)]),
    ];
    let (mut image, changed) = bus(d, 4, &steps);
    hold(changed == [0xFF, 0x320], "the bytes that were written", &changed);
    // "The bank selected is what the bank bits [...] say, whatever its other bits hold"; these keep.
    image[0xFF] = 0x2C;
    hold(d.read(4, &mut image, NEW, 0x15) == (0, 0x5A, NEW), "bank 4 is selected", &0x2C);
    d.write(4, &mut image, 0xFF, 0x03);
    hold(image[0xFF] == 0x2B, "bits 7 to 3 are kept", &image[0xFF]);
    hold(d.read(4, &mut image, NEW, 0x20) == (0, 0x55, NEW), "bank 3 is selected", &0x2B);
    // Chip 5: bank 2, and of the bank select register bits 6 to 3 can't be written. The vendor's
    // byte is the high one, with bit 7 and without it.
    let steps: [Step; 8] = [
        ((0x00, 0xFA), &[(0x00, 0x82), (0x30, 0x1E), (0xC5, 0x00), (0x0D, 0x5C), (0x0E, 0x7B)]),
        ((0x30, 0x9F), &[(0x30, 0x1F)]),
        ((0x38, 0xFF), &[(0x38, 0x3F)]),
        // Banks the sheet lacks.
        ((0x00, 0x03), &[(0x00, 0x03), (0x30, 0x00), (0x0D, 0x5C), (0x0E, 0x7B)]),
        ((0x30, 0x11), &[(0x30, 0x00)]),
        ((0x00, 0x84), &[(0x00, 0x84), (0xC5, 0x00), (0x0D, 0x5C)]),
        // Bank 0; what identifies the chip can't be written, in any bank.
        ((0x00, 0x00), &[(0x00, 0x00), (0xC5, 0x50), (0x0D, 0x5C)]),
        ((0x0D, 0xA3), &[(0x0D, 0x5C)]),
    ];
    let (mut image, changed) = bus(d, 5, &steps);
    hold(changed == [0x00, 0x230, 0x238], "the bytes that were written", &changed);
    image[0x00] = 0x6A;
    hold(d.read(5, &mut image, NEW, 0x30) == (0, 0x1F, NEW), "bank 2 is selected", &0x6A);
    d.write(5, &mut image, 0x00, 0x90);
    hold(image[0x00] == 0xE8, "bits 6 to 3 are kept", &image[0x00]);
    for select in 0..=255 {
        image[0x00] = select;
        hold(d.read(5, &mut image, NEW, 0x0D) == (0, 0x5C, NEW), "the vendor's high byte", &select);
        hold(d.read(5, &mut image, NEW, 0x00) == (0, select, NEW), "the bank select register", &select);
    }
    // 3 comes before 8.
    for chip in [0, 6, 255] {
        let refused = (3, 0, NEW);
        hold(d.read(chip, &mut image, NEW, 0) == refused, "3", &chip);
        hold(d.read(chip, &mut [], NEW, 0) == refused, "3 before 8", &chip);
    }
    for chip in 1..=5 {
        for length in [0, 255, 256, 257, 767, 768, 769, 1279, 1280, 1281] {
            let mut image = vec![0; length];
            let want = if length == model::image_length(chip) { 0 } else { 8 };
            let refusals = [
                d.write(chip, &mut image, 9, 9),
                d.read(chip, &mut image, NEW, 9).0,
                d.reset(chip, &mut image, NEW).0,
            ];
            hold(refusals == [want; 3], "the length of an image", &(chip, length));
        }
    }
}

/// Where bytes stand, one after the other.
type Stretch = (usize, &'static [u8]);

/// An image of 256 bytes: one byte everywhere but in these stretches.
fn image_with(byte: u8, stretches: &[Stretch]) -> Vec<u8> {
    let mut image = vec![byte; 256];
    for &(at, bytes) in stretches {
        image[at..at + bytes.len()].copy_from_slice(bytes);
    }
    image
}

/// "The initialization bit", bit 7 of 00h of chip 3: the worked example, then an image where it was
/// set before, and one of zeros. Read only are bit 0 of 06h, which stays 0 in two of the three,
/// bits 7 to 1 of 07h and 7 to 3 of 09h.
fn initialization<S: Subject>(d: &mut Driver<S>) {
    // The byte written, that of the image, and where this is another, before and after.
    let figures: [(u8, u8, &[Stretch], &[Stretch]); 3] = [
        (
            0xC1, 0x5A,
            &[(0x01, &[0x55]), (0x08, &[0x7F]), (0x20, &[0x33]), (0x2A, &[0x80]), (0x90, &[0xAA])],
            &[
                (0x00, &[0x08, 0x55, 0x5A, 0x00, 0x00, 0x14, 0x00, 0x5A, 0x00, 0x58]),
                (0x20, &[0x33]), (0x90, &[0xAA]),
                (0x2A, &[0; 14]), (0x38, &[0x55, 0x4B, 0x55, 0x4B, 0xFF, 0xFF, 0x5A]),
            ],
        ),
        (
            0x80, 0xFF,
            &[],
            &[
                (0x00, &[0x08, 0xFF, 0xFF, 0x00, 0x00, 0x14, 0x01, 0xFE, 0x00, 0xF8]),
                (0x2A, &[0; 14]), (0x38, &[0x55, 0x4B, 0x55, 0x4B, 0xFF, 0xFF, 0xFF]),
            ],
        ),
        (
            0xFF, 0x00,
            &[],
            &[
                (0x00, &[0x08, 0x00, 0x00, 0x00, 0x00, 0x14, 0x00, 0x00, 0x00, 0x00]),
                (0x2A, &[0; 14]), (0x38, &[0x55, 0x4B, 0x55, 0x4B, 0xFF, 0xFF, 0x00]),
            ],
        ),
    ];
    for (written, byte, before, after) in figures {
        let mut image = image_with(byte, before);
        let mut want = image_with(byte, after);
        hold(d.write(3, &mut image, 0x00, written) == 0, "it is accepted", &written);
        hold(image == want, "what an initialization leaves", &(written, &image));
        // With bit 7 clear 00h alone changes: bit 5 reads 0, bit 4 is stored.
        for (written, then) in [(0x21, 0x01), (0x7F, 0x5F), (0x30, 0x10), (0x20, 0x00)] {
            d.write(3, &mut image, 0x00, written);
            want[0x00] = then;
            hold(image == want, "00h alone", &(written, &image));
        }
    }
    // "Each lent buffer holds what it held."
    for (chip, length, want) in [(3, 255, 8), (3, 257, 8), (0, 256, 3), (6, 256, 3)] {
        for written in [0xC1, 0x21] {
            let mut image = vec![0x5A; length];
            let refusal = d.write(chip, &mut image, 0x00, written);
            let kept = image.iter().all(|byte| *byte == 0x5A);
            hold(refusal == want && kept, "a refused write", &(chip, length, written));
        }
    }
}

/// The state of the worked example: "00h 01, 06h 00, 08h 00, 38h 50, 39h 4B, 3Ah 7F, 3Bh 80, 2Ah 80,
/// 2Bh 40, 2Dh 20, all other low limits 00 and high limits FF".
fn example_state() -> Vec<u8> {
    image_with(0x00, &[
        (0x00, &[0x01]),
        (0x2A, &[0x80, 0x40, 0xFF, 0x20, 0xFF, 0x00, 0xFF, 0x00, 0xFF, 0x00, 0xFF, 0x00, 0xFF, 0x00]),
        (0x38, &[0x50, 0x4B, 0x7F, 0x80]),
    ])
}

/// "8100 2000 2000 .." and the like: the first word, and six of 2000h.
fn words(first: u16) -> [u16; 7] {
    [first, 0x2000, 0x2000, 0x2000, 0x2000, 0x2000, 0x2000]
}

/// The worked example of the status bits: "default behaviour, both facts off: sample 1296 with
/// words 8100 2000 2000 .., read 01: 01, again: 00, read 02: 01, again: 00; sample 1248 with words
/// 8000 2000 ..: read 01: 00, read 02: 01 (default: still hot). Then hot on, pending off, 20h 80,
/// 21h 20, 27h 4E, 06h 00."
fn states<S: Subject>(d: &mut Driver<S>) {
    let mut image = example_state();
    let before = image.clone();
    let watch = |hot: bool, pending: bool| Watch { behaviour: 0, hot, pending };
    let (refusal, mut now) = d.sample_image(&mut image, NEW, 1296, words(0x8100));
    hold((refusal, now) == (0, watch(true, true)), "81 degrees", &now);
    let mut want = before.clone();
    (want[0x01], want[0x02], want[0x27]) = (0x01, 0x01, 0x51);
    want[0x20..0x27].copy_from_slice(&[0x81, 0x20, 0x20, 0x20, 0x20, 0x20, 0x20]);
    hold(image == want, "the image after the first sample", &image);
    for (address, byte) in [(0x01, 0x01), (0x01, 0x00), (0x02, 0x01), (0x02, 0x00)] {
        let read = d.read(3, &mut image, now, address);
        hold(read == (0, byte, watch(true, false)), "what is read", &(address, read));
        want[usize::from(address)] = 0;
        hold(image == want, "one register is cleared", &(address, &image));
        now = read.2;
    }
    let (refusal, now) = d.sample_image(&mut image, now, 1248, words(0x8000));
    hold((refusal, now) == (0, watch(true, true)), "78 degrees: still hot", &now);
    let mut now = now;
    for (address, byte) in [(0x01, 0x00), (0x02, 0x01)] {
        let read = d.read(3, &mut image, now, address);
        hold(read == (0, byte, watch(true, false)), "what is read then", &(address, read));
        now = read.2;
    }
    (want[0x20], want[0x27]) = (0x80, 0x4E);
    hold(image == want && now == watch(true, false), "the end", &(&image, now));
    // Reads of what was stored change nothing.
    for (address, byte) in [(0x20, 0x80), (0x21, 0x20), (0x27, 0x4E), (0x06, 0x00), (0x00, 0x01)] {
        hold(d.read(3, &mut image, now, address) == (0, byte, now), "a reading", &address);
    }
    hold(image == want, "every other read changes nothing", &image);
    // "Reset turns both facts off and keeps the behaviour." Of another chip the watch stays.
    for behaviour in 0..3 {
        let watch = Watch { behaviour, hot: true, pending: true };
        let reset = d.reset(3, &mut image, watch);
        hold(reset == (0, Watch { hot: false, pending: false, ..watch }), "a reset", &reset.1);
        for chip in [1, 2, 4, 5] {
            let mut other = vec![0xFF; model::image_length(chip)];
            hold(d.read(chip, &mut other, watch, 0x01).2 == watch, "another chip's 01h", &chip);
            hold(d.reset(chip, &mut other, watch) == (0, watch), "another chip's reset", &chip);
        }
    }
}

/// The same in the other behaviours: pending once, and never; 02h bit 0 follows the output.
fn one_time_and_comparator<S: Subject>(d: &mut Driver<S>) {
    // Behaviour, pending after the first sample, 02h after a read and the second sample.
    for (behaviour, pending, again) in [(0, true, 0x01), (1, true, 0x00), (2, false, 0x01), (7, false, 0x01)] {
        let mut image = example_state();
        let watch = Watch { behaviour, ..NEW };
        let (_, hot) = d.sample_image(&mut image, watch, 1296, words(0x8100));
        hold(hot == Watch { hot: true, pending, ..watch }, "81 degrees", &hot);
        let (_, byte, read) = d.read(3, &mut image, hot, 0x02);
        hold((byte, read) == (0x01, Watch { hot: true, ..watch }), "02h", &read);
        d.sample_image(&mut image, read, 1248, words(0x8000));
        hold((image[0x01], image[0x02]) == (0x01, again), "02h again", &(behaviour, image[0x02]));
    }
    // 3Ah is in whole degrees and signed, and its bit needs no watch: -10 degrees are -160 steps.
    for (steps, bit) in [(-161, 0x00), (-160, 0x00), (-159, 0x20), (0, 0x20)] {
        let mut image = example_state();
        image[0x3A] = 0xF6;
        d.sample_image(&mut image, NEW, steps, words(0x8000));
        hold(image[0x02] == bit, "the OS limit", &(steps, image[0x02]));
    }
}

fn identities<S: Subject>(d: &mut Driver<S>) {
    for (chip, want) in [(1, 0), (2, 0), (3, 10), (4, 0), (5, 0)] {
        let image = power_on(d, chip);
        hold(d.identity(chip, &image) == want, "identity at power-on", &chip);
    }
    // "Treating the fourth identity byte as optional."
    let mut image = power_on(d, 2);
    image[0x5E] = 0x35;
    hold(d.identity(2, &image) == 10, "the fourth identity byte", &image);
    // Chip 4, both sets, each bit alone, whichever bank is selected; the device's low four bits are
    // any.
    for select in 0..=255u8 {
        let mut image = power_on(d, 4);
        image[0xFF] = select;
        image[0x0F] = 0x50 | select % 16;
        image[0x7C] = 0x50 | select / 16;
        hold(d.identity(4, &image) == 0, "identity of chip 4", &select);
        for (at, named) in [(0x0D, 8), (0x0E, 8), (0x0F, 4), (0x7A, 8), (0x7B, 8), (0x7C, 4)] {
            let bit = select % 8;
            image[at] ^= 1 << bit;
            let want = if bit + named >= 8 { 10 } else { 0 };
            hold(d.identity(4, &image) == want, "one bit of it", &(at, bit));
            image[at] ^= 1 << bit;
        }
    }
}

/// Chip 5: every byte of its three registers, whichever bank is selected, of which 0Fh may hold
/// two; the same addresses of the other pages don't count.
fn one_of<S: Subject>(d: &mut Driver<S>) {
    let good: [(usize, &[u8]); 3] = [(0x0D, &[0x5C]), (0x0E, &[0x7B]), (0x0F, &[0x11, 0x12])];
    for byte in 0..=255 {
        for (at, held) in good {
            let mut image = power_on(d, 5);
            image[0x00] = byte;
            image[0x0F] = [0x11, 0x12][usize::from(byte % 2)];
            image[0x100 + at] = byte;
            image[0x200 + at] = !byte;
            hold(d.identity(5, &image) == 0, "identity of chip 5", &(at, byte));
            image[at] = byte;
            let want = if held.contains(&byte) { 0 } else { 10 };
            hold(d.identity(5, &image) == want, "one of these", &(at, byte));
            let played = d.play(Plan { chip: 5, table: 6, body: &FIVE[4..] }, &mut image, 99);
            hold(played == if want == 0 { (0, 25) } else { (10, 0) }, "a play asks it", &(at, byte));
        }
    }
}

fn readings<S: Subject>(d: &mut Driver<S>) {
    // "Width 12: 7D00h is 2000, FFF0h is -1, C900h is -880. Width 9: C900h is -110. Width 11:
    // E7A0h is -195." Then a negative that does not divide: not towards zero, not magnitude.
    let words: [(u8, u16, i16); 9] = [
        (12, 0x7D00, 2000), (12, 0xFFF0, -1), (12, 0xC900, -880), (9, 0xC900, -110),
        (11, 0xE7A0, -195), (8, 0xFFFF, -1), (8, 0xC980, -55), (12, 0x8000, -2048), (9, 0xFF81, -1),
    ];
    for (width, word, want) in words {
        let [high, low] = word.to_be_bytes();
        hold(d.steps_of(width, high, low) == (0, want), "temperature figures", &(width, word));
    }
    // "32 steps at width 9 fit; 256 is refused 12, 255 and -256 fit."
    for (steps, want) in [(32, 0), (256, 12), (255, 0), (-256, 0), (-257, 12)] {
        hold(d.bytes_of(9, steps).0 == want, "steps at width 9", &steps);
    }
    hold(d.microvolts(0xFFC0) == 1023 * 2500, "a full voltage word", &0xFFC0);
    hold(d.microvolts(0x007F) == 2500, "bits 15 to 6", &0x007F);
}

/// Readings of chip 4, "with the low three bits right-aligned in the low byte".
fn right_aligned<S: Subject>(d: &mut Driver<S>) {
    // The table of the sheet's section 6.3, with 0 and with 1 for X, then the ends.
    let words: [(u8, u8, i16); 12] = [
        (0x7F, 0x07, 1023), (0x19, 0x06, 206), (0x02, 0x02, 18), (0x01, 0x01, 9), (0x00, 0x00, 0),
        (0xFE, 0x07, -9), (0xFD, 0x06, -18), (0xE6, 0x02, -206), (0x80, 0x01, -1023),
        (0x80, 0x00, -1024), (0xFF, 0x07, -1), (0x00, 0x07, 7),
    ];
    for (high, low, steps) in words {
        hold(d.right_steps(high, low) == steps, "temperatures of chip 4", &(high, low));
        hold(d.right_steps(high, low | 0xF8) == steps, "bits 7 to 3 are ignored", &(high, low));
        hold(d.right_bytes(steps) == (0, high, low), "and written as zero", &steps);
    }
    for (steps, want) in [(1023, 0), (1024, 12), (-1024, 0), (-1025, 12), (32767, 12), (-32768, 12)] {
        hold(d.right_bytes(steps).0 == want, "steps of chip 4", &steps);
    }
    // Section 6.4, and section 7.1.10 for the addresses; at 62h stands a temperature.
    for input in 0..=255 {
        let two = (0x40..=0x5A).contains(&input) && input % 2 == 0;
        let six = [0x5C, 0x5E, 0x60, 0x64, 0x66, 0x68].contains(&input);
        let want = if two { 412_000 } else if six { 1_236_000 } else { 0 };
        hold(d.input_microvolts(input, 0x19, 0x06) == want, "voltages of chip 4", &input);
        hold(d.input_microvolts(input, 0x19, 0xFE) == want, "bits 7 to 3 are ignored", &input);
    }
    hold(d.input_microvolts(0x68, 0xFF, 0xFF) == 12_282_000, "the largest voltage", &0x68);
}

fn watches<S: Subject>(d: &mut Driver<S>) {
    // "Limits 80 and 75 degrees, samples of 81, 78, acknowledge, 78 degrees (1296, 1248, 1248
    // steps): in default and one-time pending is on, on, off, then on in default and off in
    // one-time." In comparator pending never goes on and the output is hot.
    let wanted = [[true, true, false, true], [true, true, false, false], [false; 4]];
    for (behaviour, want) in (0..).zip(wanted) {
        let first = Watch { behaviour, hot: false, pending: false };
        let a = d.sample(first, 1296, 80, 75).1;
        let b = d.sample(a, 1248, 80, 75).1;
        let c = d.acknowledge(b);
        let e = d.sample(c, 1248, 80, 75).1;
        for (watch, pending) in [a, b, c, e].iter().zip(want) {
            hold(watch.pending == pending && watch.hot, "pending in the figure", watch);
            let output = if behaviour == 2 { true } else { pending };
            hold(d.output(*watch) == output, "output in the figure", watch);
        }
        // "Exactly 80 doesn't turn hot on; exactly 75 doesn't turn it off."
        hold(!d.sample(first, 1280, 80, 75).1.hot, "exactly 80", &first);
        hold(d.sample(first, 1281, 80, 75).1.hot, "above 80", &first);
        hold(d.sample(a, 1200, 80, 75).1.hot, "exactly 75", &a);
        hold(!d.sample(a, 1199, 80, 75).1.hot, "below 75", &a);
        hold(d.sample(a, 2048, 80, 75) == (12, a), "a refused sample", &a);
    }
}

/// The samples of a run, hot after the last one, and pending in default, one-time and comparator.
type End = (&'static [i16], bool, [bool; 3]);

/// Runs at limits of 80 and 75 degrees, 1280 and 1200 steps.
fn runs<S: Subject>(d: &mut Driver<S>) {
    let (none, both) = ([false; 3], [true, true, false]);
    let from_new: [End; 13] = [
        (&[], false, none),
        // Ending above, between and below the limits.
        (&[1248, 1281], true, both),
        (&[1248], false, none),
        (&[1296, 1248], true, both),
        (&[1296, 1199], false, both),
        // "Exactly 80 doesn't turn hot on; exactly 75 doesn't turn it off."
        (&[1248, 1280], false, none),
        (&[1296, 1280], true, both),
        (&[1199, 1200], false, none),
        (&[1296, 1200], true, both),
        // "A refused sample changes neither fact", and the run goes on.
        (&[2048, -2049, 32767, -32768], false, none),
        (&[2048, 1296], true, both),
        (&[1296, -2049], true, both),
        (&[1296, 2048, 1199], false, both),
    ];
    // Hot and acknowledged, as in the paper's figure: 78 then turns pending on in default alone.
    let only_default = [true, false, false];
    let from_hot: [End; 9] = [
        (&[], true, none),
        (&[2048], true, none),
        (&[1248], true, only_default),
        (&[1280], true, only_default),
        (&[1200], true, only_default),
        (&[1199], false, none),
        (&[1199, 1280], false, none),
        (&[1199, 1281], true, both),
        (&[1199, 1281, 1199], false, both),
    ];
    // The limits the other way round: not above 75 is below 80, so nothing keeps hot.
    let turned: [End; 3] = [
        (&[1201], true, both),
        (&[1201, 1279], true, both),
        (&[1201, 1200], false, both),
    ];
    for behaviour in 0..3 {
        let mut ends = |hot: bool, (high, low): (i8, i8), figures: &[End]| {
            for &(samples, hot_then, pending) in figures {
                let after = d.run(Watch { behaviour, hot, pending: false }, samples, high, low);
                let want = Watch { behaviour, hot: hot_then, pending: pending[usize::from(behaviour)] };
                hold(after == want, "a run's end", &(behaviour, hot, samples, high, low));
            }
        };
        ends(false, (80, 75), &from_new);
        ends(true, (80, 75), &from_hot);
        ends(false, (75, 80), &turned);
    }
}

fn speeds<S: Subject>(d: &mut Driver<S>) {
    // "The plan above asks 140 at 30, 149 at 33, 185 at 45, 218 at 53, 230 at 58, 255 at 60."
    let plan = Plan { chip: 1, table: 3, body: &EXAMPLE[4..] };
    for (t, want) in [(30, 140), (33, 149), (45, 185), (53, 218), (58, 230), (60, 255)] {
        hold(d.asked_of_plan(plan, t) == (0, want), "duties of the example", &t);
    }
    // "Unordered T1 = 50, T2 = 40 and critical 100: at 45 the duty is FL1."
    let plan = Plan { chip: 1, table: 1, body: &[50, 40, 60, 70, 100, 11, 22, 33, 44] };
    hold(d.asked_of_plan(plan, 45) == (0, 11), "unordered plan", &plan);
    // "FL1 = 200, FL2 = 100, T1 = 0, T2 = 3, critical 100: at 1 the duty is 166"; not 167.
    let plan = Plan { chip: 1, table: 1, body: &[0, 3, 10, 20, 100, 200, 100, 100, 100] };
    hold(d.asked_of_plan(plan, 1) == (0, 166), "falling duty", &plan);
    // Chip 4, with critical before T1: the same curve asks the same. T comes signed.
    let plan = Plan { chip: 4, table: 3, body: &[60, 30, 40, 50, 55, 0x8C, 0xAA, 0xC8, 0xE6] };
    for (t, want) in [(128, 140), (30, 140), (33, 149), (45, 185), (53, 218), (58, 230), (60, 255), (127, 255)] {
        hold(d.asked_of_plan(plan, t) == (0, want), "duties of chip 4", &t);
    }
    let plan = Plan { chip: 4, table: 10, body: &FOUR[1].0[4..] };
    for (t, want) in [(-128, 0), (-20, 0), (-10, 32), (0, 64), (10, 96), (35, 191), (50, 255), (126, 255)] {
        hold(d.asked_of_plan(plan, t as u8) == (0, want), "signed degrees", &t);
    }
    // Chip 5: seven points, and the greatest duty is 63, at and above critical.
    let plan = Plan { chip: 5, table: 1, body: &FIVE[4..] };
    let wanted = [
        (0x80, 8), (0xFF, 8), (0x00, 8), (0x1E, 8), (0x1F, 8), (0x21, 10), (0x2A, 19), (0x2F, 27), (0x35, 41),
        (0x3A, 52), (0x3C, 56), (0x4F, 56), (0x50, 63), (0x7F, 63),
    ];
    for (t, want) in wanted {
        for table in 1..=6 {
            let plan = Plan { table, ..plan };
            hold(d.asked_of_plan(plan, t) == (0, want), "duties of chip 5", &(table, t));
        }
    }
    // What the image asks doesn't go by the bank selected. Chip 5 has the plan above at power-on,
    // in all six tables.
    for select in 0..=255 {
        let mut image = power_on(d, 4);
        image[0xFF] = select;
        image[0x415] = 0x28;
        let asked = [(1, 60), (1, 90), (10, 39), (10, 40)].map(|(table, t)| d.asked_of_image(4, table, &image, t));
        hold(asked == [(0, 230), (0, 255), (0, 182), (0, 255)], "in their own banks", &select);
        let mut image = power_on(d, 5);
        image[0x00] = select;
        for (t, want) in wanted {
            let asked = d.asked_of_image(5, 1 + select % 6, &image, t);
            hold(asked == (0, want), "in their own banks", &(select, t));
        }
    }
    // "B1 = 60, B2 = 50: 61 asks C1, 60 and 51 ask C2."
    let plan = Plan { chip: 2, table: 1, body: &[60, 50, 40, 30, 1, 2, 3, 4, 5, 6, 7, 8, 9, 10] };
    for (t, want) in [(61, 0x0102), (60, 0x0304), (51, 0x0304), (50, 0x0506), (0, 0x090A)] {
        hold(d.asked_of_plan(plan, t) == (0, want), "counts at the boundaries", &t);
    }
}

fn records<S: Subject>(d: &mut Driver<S>) {
    let (refusal, chip, table, body, used) = d.read_record(&EXAMPLE);
    hold((refusal, chip, table, used) == (0, 1, 3, 13), "the example's record", &EXAMPLE);
    let mut out = [0; 300];
    let plan = Plan { chip, table, body: &body };
    hold(d.write_record(plan, &mut out) == (0, 13), "13 bytes", &plan);
    hold(out[..13] == EXAMPLE, "the example written again", &plan);
    hold(d.script(plan, &mut out) == (0, 13), "13 writes", &plan);
    let two = Plan { chip: 2, table: 2, body: &[4, 3, 2, 1, 0, 0, 0, 1, 0, 1, 1, 0, 255, 255] };
    hold(d.write_record(two, &mut out) == (0, 18), "18 bytes", &two);
    hold(d.script(two, &mut out) == (0, 24), "24 writes", &two);
    for (record, text) in FOUR {
        let (refusal, chip, table, body, used) = d.read_record(&record);
        hold((refusal, chip, table, used) == (0, 4, record[3], 13), "a record of chip 4", &record);
        let plan = Plan { chip, table, body: &body };
        hold(d.write_record(plan, &mut out) == (0, 13) && out[..13] == record, "written again", &plan);
        hold(d.script(plan, &mut [0; 27]) == (9, 0), "27 bytes are too few", &plan);
        hold(d.script(plan, &mut [0; 28]) == (0, 14), "14 writes", &plan);
        let (refusal, length) = d.translate(&record, &mut out);
        hold(refusal == 0 && &out[..length] == text.as_bytes(), text, &record);
    }
    for (input, text) in [(&EXAMPLE[..], TEXT), (&[][..], "end 0\n"), (&[0; 4097][..], "input too long\n")] {
        let (refusal, length) = d.translate(input, &mut out);
        hold(refusal == 0 && &out[..length] == text.as_bytes(), text, &input);
    }
    let refused = [(&EXAMPLE[..3], 1), (&[0x43, 0x52, 9, 9], 2), (&[0x43, 0x50, 9, 9], 3),
        (&[0x43, 0x50, 3, 1], 4), (&EXAMPLE[..12], 5), (&[0x43, 0x50, 4, 0], 4), (&[0x43, 0x50, 4, 11], 4),
        (&[0x43, 0x50, 4, 10], 5), (&FOUR[1].0[..12], 5), (&[0x43, 0x50, 6, 1], 3)];
    for (input, refusal) in refused {
        refused_record(d, input, refusal);
    }
}

/// A record that is refused, and its text.
fn refused_record<S: Subject>(d: &mut Driver<S>, input: &[u8], refusal: u32) {
    let mut out = [0; 300];
    hold(d.read_record(input).0 == refusal, "the refusal table", &(input, refusal));
    let (_, length) = d.translate(input, &mut out);
    let text = format!("plan 1 refused {}\n", refusal);
    hold(&out[..length] == text.as_bytes(), &text, &input);
}

/// Both forms of a record: chip 5's worked out, in all six tables, and the refusals in their order.
fn forms<S: Subject>(d: &mut Driver<S>) {
    let mut out = [0; 300];
    for table in 1..=6u8 {
        let mut record = FIVE;
        record[3] = table;
        let (refusal, chip, number, body, used) = d.read_record(&record);
        hold((refusal, chip, number, used) == (0, 5, table, 20), "a record of chip 5", &record);
        hold(body == record[4..], "its point count and its values", &record);
        let plan = Plan { chip, table, body: &body };
        hold(d.write_record(plan, &mut [0; 19]) == (9, 0), "19 bytes are too few", &plan);
        hold(d.write_record(plan, &mut out) == (0, 20) && out[..20] == record, "written again", &plan);
        hold(d.script(plan, &mut [0; 49]) == (9, 0), "49 bytes are too few", &plan);
        hold(d.script(plan, &mut out) == (0, 25), "25 writes", &plan);
        // Another table has the other addresses, 10h apart, and the same selects and critical.
        for (k, pair) in out[..50].chunks(2).enumerate() {
            let address = match k {
                1..=7 => 0x28 + 0x10 * table + (k - 1) as u8,
                8..=14 => 0x20 + 0x10 * table + (k - 8) as u8,
                16 => 0xC5,
                18..=24 => 0x28 + 0x10 * table + (k - 18) as u8,
                _ => 0x00,
            };
            hold(pair[0] == address, "the addresses of a script", &(table, k));
        }
    }
    let (refusal, length) = d.translate(&FIVE, &mut out);
    hold(refusal == 0 && &out[..length] == FIVE_TEXT.as_bytes(), FIVE_TEXT, &FIVE);
    // Both marks in one input, and each record is used up to its end.
    let both = [&FIVE[..], &EXAMPLE, &FIVE, &FOUR[0].0].concat();
    let (refusal, length) = d.translate(&both, &mut [0; 2000]);
    let lines = [FIVE_TEXT, TEXT, FIVE_TEXT, FOUR[0].1].map(|text| text.len() - "end 1\n".len());
    hold((refusal, length) == (0, lines.iter().sum::<usize>() + 6), "both marks in one input", &both);
    // "43h 51h serves only chip 5", "16, straight after 4"; "if the count byte is there"; "5 if it
    // is missing or the body is cut".
    let refused: [(&[u8], u32); 27] = [
        (&[0x43, 0x51, 5], 1), (&[0x43, 0x51], 1), (&[0x43], 1),
        (&[0x43, 0x52, 5, 1], 2), (&[0x43, 0x4F, 5, 1], 2), (&[0x42, 0x51, 5, 1], 2), (&[0x51, 0x43, 5, 1], 2),
        (&[0x43, 0x51, 6, 1], 3), (&[0x43, 0x51, 0, 1], 3), (&[0x43, 0x51, 255, 1, 7], 3),
        (&[0x43, 0x51, 3, 1], 4), (&[0x43, 0x51, 5, 7], 4), (&[0x43, 0x50, 5, 7], 4),
        (&[0x43, 0x51, 5, 0], 4), (&[0x43, 0x51, 1, 4], 4), (&[0x43, 0x51, 5, 7, 8], 4),
        (&[0x43, 0x50, 5, 1], 16), (&[0x43, 0x51, 1, 1], 16), (&[0x43, 0x51, 2, 1], 16),
        (&[0x43, 0x51, 4, 1], 16), (&[0x43, 0x51, 5, 1, 6], 16), (&[0x43, 0x51, 5, 1, 8], 16),
        (&[0x43, 0x51, 5, 6, 0], 16), (&[0x43, 0x51, 1, 3, 4], 16),
        (&[0x43, 0x51, 5, 1], 5), (&[0x43, 0x51, 5, 1, 7], 5), (&FIVE[..19], 5),
    ];
    for (input, refusal) in refused {
        refused_record(d, input, refusal);
    }
    // Good records but for the mark: what stands behind the table's number is not looked at.
    for record in [&EXAMPLE[..], &FOUR[0].0, &FOUR[1].0, &FIVE] {
        let mut other = record.to_vec();
        other[1] ^= 0x01;
        refused_record(d, &other, 16);
    }
    // A whole body with each other point count, and with as many points as it says.
    for count in (0..=255).filter(|count| *count != 7) {
        let mut other = FIVE.to_vec();
        other[4] = count;
        refused_record(d, &other, 16);
    }
    for points in [2, 3, 4, 5, 6, 8] {
        let temperatures = (1..=points + 1).map(|k| 10 * k);
        let other = [0x43, 0x51, 5, 1, points].into_iter().chain(temperatures).chain(1..=points).collect::<Vec<u8>>();
        refused_record(d, &other, 16);
    }
}

/// The example, and a plan of chip 2, with the body cut anywhere: 5, between 4 and 6. If missing
/// duties counted as zero, the fan would idle up to critical.
fn cut_bodies<S: Subject>(d: &mut Driver<S>) {
    let mut refusals = |chip: u8, table: u8, body: &[u8], space: usize, image: &mut [u8]| {
        let plan = Plan { chip, table, body };
        let mut out = vec![0xEE; space];
        let asked = d.asked_of_plan(plan, 45).0;
        [d.write_record(plan, &mut out).0, d.script(plan, &mut out).0, d.play(plan, image, 99).0, asked]
    };
    let two = [60, 50, 40, 30, 1, 255, 2, 0, 3, 0, 8, 0, 255, 255];
    for (chip, body) in [(1, &EXAMPLE[4..]), (2, &two), (4, &FOUR[0].0[4..]), (5, &FIVE[4..])] {
        let image = model::image_length(chip);
        for length in 0..body.len() {
            let cut = &body[..length];
            hold(refusals(chip, 1, cut, 50, &mut vec![0; image]) == [5; 4], "a cut body", &cut);
            hold(refusals(chip, 1, cut, 0, &mut []) == [5; 4], "5 before 8, 9 and 10", &cut);
            hold(refusals(chip, 0, cut, 0, &mut []) == [4; 4], "4 before 5", &cut);
            hold(refusals(3, 1, cut, 0, &mut []) == [4; 4], "no table of chip 3", &cut);
            hold(refusals(6, 1, cut, 0, &mut []) == [3; 4], "3 before 5", &cut);
        }
        hold(refusals(chip, 1, body, 12, &mut vec![0; image - 1]) == [9, 9, 8, 0], "a whole body", &body);
        hold(refusals(chip, 1, body, 50, &mut vec![0; image]) == [0, 0, 10, 0], "a whole body", &body);
    }
    // Out of order, but 6 and 7 only when the body is whole; what is asked is refused by neither.
    let unordered = [40; 14];
    hold(refusals(1, 1, &unordered[..8], 48, &mut [0; 256]) == [5; 4], "5 before 6", &1);
    hold(refusals(1, 1, &unordered[..9], 0, &mut []) == [6, 6, 6, 0], "then 6", &1);
    hold(refusals(2, 2, &unordered[..13], 48, &mut [0; 256]) == [5; 4], "5 before 6", &2);
    hold(refusals(2, 2, &unordered, 0, &mut []) == [6, 6, 6, 0], "then 6", &2);
    let falling = [10, 20, 30, 40, 50, 4, 3, 2, 1];
    hold(refusals(1, 3, &falling[..8], 48, &mut [0; 256]) == [5; 4], "5 before 7", &1);
    hold(refusals(1, 3, &falling, 0, &mut []) == [7, 7, 7, 0], "then 7", &1);
    // The same bytes with critical first: in chip 1's order a plan of chip 4 is refused.
    hold(refusals(4, 9, &unordered[..9], 0, &mut []) == [6, 6, 6, 0], "then 6", &4);
    hold(refusals(4, 9, &falling, 0, &mut []) == [6, 6, 6, 0], "critical is below T4", &4);
    let falling = [40, 10, 20, 30, 40, 4, 3, 2, 1];
    hold(refusals(4, 10, &falling[..8], 48, &mut [0; 1280]) == [5; 4], "5 before 7", &4);
    hold(refusals(4, 10, &falling, 0, &mut []) == [7, 7, 7, 0], "then 7", &4);
    // Chip 5: 16 for the point count, between 4 and 5, whatever else is wrong.
    for count in [0, 1, 6, 8, 255] {
        let mut body = [40; 16];
        body[0] = count;
        for length in 1..=16 {
            hold(refusals(5, 6, &body[..length], 0, &mut []) == [16; 4], "16 before 5 to 10", &count);
            hold(refusals(5, 7, &body[..length], 0, &mut []) == [4; 4], "4 before 16", &count);
            hold(refusals(6, 7, &body[..length], 0, &mut []) == [3; 4], "3 before 16", &count);
        }
    }
    let mut body = [40; 16];
    body[0] = 7;
    hold(refusals(5, 6, &body[..15], 0, &mut []) == [5; 4], "5 before 6", &5);
    hold(refusals(5, 6, &body, 0, &mut []) == [6, 6, 6, 0], "then 6", &5);
    let falling = [7, 10, 20, 30, 40, 50, 60, 70, 70, 9, 8, 7, 6, 5, 4, 3];
    hold(refusals(5, 3, &falling[..15], 50, &mut [0; 768]) == [5; 4], "5 before 7", &5);
    hold(refusals(5, 3, &falling, 0, &mut []) == [7, 7, 7, 0], "then 7", &5);
}

/// Chip 5's registers have seven bits and six: "6 and 7 also for a value its register's writable
/// bits can't hold"; what an image holds in the other bits counts as zero.
fn narrow_registers<S: Subject>(d: &mut Driver<S>) {
    let mut judged = |changes: &[(usize, u8)]| {
        let mut body = FIVE[4..].to_vec();
        changes.iter().for_each(|(k, byte)| body[*k] = *byte);
        d.judge(Plan { chip: 5, table: 2, body: &body })
    };
    // The order of signed degrees, and the ends of the ranges.
    hold(judged(&[(1, 0x00), (7, 0x7F), (8, 0x7F), (9, 0x00), (15, 0x3F)]) == 0, "the ends", &5);
    hold(judged(&[(7, 0x50)]) == 0, "T7 is critical", &5);
    hold(judged(&[(7, 0x51)]) == 6, "T7 is above critical", &5);
    for k in 1..=6 {
        hold(judged(&[(k, FIVE[5 + k])]) == 6, "two temperatures are the same", &k);
    }
    for k in 9..=14 {
        hold(judged(&[(k, FIVE[5 + k])]) == 0, "two duties are the same", &k);
        hold(judged(&[(k, FIVE[5 + k] + 1)]) == 7, "a duty falls", &k);
    }
    // T1 below zero is in order and fits no register; so are temperatures and duties with bits
    // more.
    hold(judged(&[(1, 0x80)]) == 6 && judged(&[(1, 0xFF)]) == 6, "below zero", &5);
    for k in 1..=8 {
        hold(judged(&[(k, FIVE[4 + k] | 0x80)]) == 6, "bit 7 of a temperature", &k);
        hold(judged(&[(k, FIVE[4 + k] | 0x80), (15, 0x40)]) == 6, "6 before 7", &k);
    }
    hold(judged(&[(15, 0x40)]) == 7 && judged(&[(15, 0xFF)]) == 7, "a duty of seven bits", &5);
    for k in 9..=15 {
        hold(judged(&[(k, FIVE[4 + k] | 0x40)]) == 7, "bit 6 of a duty", &k);
        hold(judged(&[(k, FIVE[4 + k] | 0x80)]) == 7, "bit 7 of a duty", &k);
    }
    // The same curve with all other bits on.
    let registers = model::registers(5, 2).unwrap();
    let values: Vec<u8> = (0..15).map(|k| FIVE[5 + k] | if k < 8 { 0x80 } else { 0xC0 }).collect();
    let mut image = power_on(d, 5);
    put(&mut image, registers, &values);
    let asked = d.asked_of_image_at_all(5, 2, &image);
    let planned = d.asked_of_plan_at_all(Plan { chip: 5, table: 2, body: &FIVE[4..] });
    hold(asked == planned, "9Eh in a temperature's register is 1Eh", &image);
    // A play leaves these bits.
    hold(d.play(Plan { chip: 5, table: 2, body: &FIVE[4..] }, &mut image, 99) == (0, 25), "25 writes", &image);
    let held: Vec<u8> = registers.iter().map(|at| image[*at]).collect();
    hold(held == values && image[0x00] == 0x02, "reserved bits are kept", &held);
}

/// Critical of chip 5 is one register: a play of one table moves the other five's, and nothing else
/// of them.
fn shared_critical<S: Subject>(d: &mut Driver<S>) {
    for played in 1..=6 {
        let before = power_on(d, 5);
        let mut image = before.clone();
        let mut body = FIVE[4..].to_vec();
        body[8] = 0x46;
        hold(d.play(Plan { chip: 5, table: played, body: &body }, &mut image, 25) == (0, 25), "25 writes", &played);
        let changed: Vec<usize> = (0..768).filter(|at| image[*at] != before[*at]).collect();
        hold(changed == [0x00, 0xC5] && image[0xC5] == 0x46, "the bytes that were written", &changed);
        for table in 1..=6 {
            let asked = [0x45, 0x46, 0x4F].map(|t| d.asked_of_image(5, table, &image, t).1);
            hold(asked == [56, 63, 63], "critical of all six tables", &(played, table));
        }
    }
}

/// The two mistakes about order, and that the check for them would have found them.
fn half_loaded<S: Subject>(d: &mut Driver<S>) {
    // "Writing temperatures before the duties are raised: a half-loaded curve may ask less than
    // either."
    let old = power_on(d, 1);
    let plan = Plan { chip: 1, table: 3, body: &[35, 45, 55, 65, 75, 0x8C, 0xDC, 0xF0, 0xFA] };
    let mut out = [0; 50];
    let (_, writes) = d.script(plan, &mut out);
    hold(never_slower(d, plan, &old, &out[..2 * writes]), "the script of chip 1", &plan);
    let wrong: Vec<u8> = (0..9).flat_map(|k| [0xA0 + k, plan.body[usize::from(k)]]).collect();
    hold(!never_slower(d, plan, &old, &wrong), "temperatures first are found out", &plan);
    // "Lowering a count from its low byte with the old high byte still there: 0200h to 01FFh
    // passes 02FFh."
    let mut old = power_on(d, 2);
    let counts = [2, 0, 2, 0, 2, 0, 2, 0, 2, 0];
    old[0xA4..0xAE].copy_from_slice(&counts);
    let plan = Plan { chip: 2, table: 1, body: &[60, 50, 40, 30, 1, 255, 1, 255, 1, 255, 1, 255, 1, 255] };
    let (_, writes) = d.script(plan, &mut out);
    hold(never_slower(d, plan, &old, &out[..2 * writes]), "the script of chip 2", &plan);
    hold(!never_slower(d, plan, &old, &[0xA5, 0xFF, 0xA4, 0x01]), "low byte first is found out", &plan);
    // Chip 4 with bank 4 selected. In the body's order critical comes first: a higher one leaves what
    // was at full speed to the old duties.
    let mut old = power_on(d, 4);
    old[0xFF] = 0x04;
    let plan = Plan { chip: 4, table: 2, body: &[95, 35, 45, 55, 65, 0x8C, 0xDC, 0xF0, 0xFA] };
    let (_, writes) = d.script(plan, &mut out);
    hold(never_slower(d, plan, &old, &out[..2 * writes]), "the script of chip 4", &plan);
    let wrong: Vec<u8> = (0x38..0x40).zip(&plan.body[1..]).flat_map(|(address, byte)| [address, *byte]).collect();
    hold(never_slower(d, plan, &old, &wrong), "writes in another bank leave the curve", &plan);
    let wrong = [&[0xFF, 0x03, 0x21, 0x5F], &wrong[..]].concat();
    hold(!never_slower(d, plan, &old, &wrong), "the body's order is found out", &plan);
    // Chip 5 with bank 1 selected. Critical before the raises spares two selects, and is found out
    // where it rises; so is a select that is missing, behind critical or before it.
    let mut old = power_on(d, 5);
    old[0x00] = 0x79;
    let body = [7, 35, 40, 45, 50, 55, 60, 65, 95, 0x10, 0x18, 0x20, 0x28, 0x30, 0x38, 0x3E];
    let plan = Plan { chip: 5, table: 3, body: &body };
    let (_, writes) = d.script(plan, &mut out);
    let right = out[..2 * writes].to_vec();
    hold(never_slower(d, plan, &old, &right), "the script of chip 5", &plan);
    let wrong = [&right[30..36], &right[2..30], &right[36..]].concat();
    hold(!never_slower(d, plan, &old, &wrong), "critical first is found out", &plan);
    let wrong = [&right[..2], &right[16..30], &right[2..16], &right[30..]].concat();
    hold(!never_slower(d, plan, &old, &wrong), "temperatures first are found out", &plan);
    let mut ends = |script: &[u8]| {
        let mut image = old.clone();
        script.chunks(2).for_each(|pair| {
            d.write(5, &mut image, pair[0], pair[1]);
        });
        d.asked_of_image_at_all(5, 3, &image) == d.asked_of_plan_at_all(plan)
    };
    hold(ends(&right), "the script ends at the plan", &plan);
    for select in [0, 30, 34] {
        let wrong = [&right[..select], &right[select + 2..]].concat();
        hold(!ends(&wrong), "a select that is missing is found out", &select);
    }
}
