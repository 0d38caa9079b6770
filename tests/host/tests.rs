//! All tests, and those that are exhaustive, where the inputs are few. Laws that the paper states
//! are checked on the agreed answers.

use crate::driver::{hold, Driver, NAMES};
use crate::model::{self, Plan, Watch, NEW, SCRIPT};
use crate::random::{Draft, Random};
use crate::restarts::restarts;
use crate::rounds::{
    cut_bodies, cuts, damaged_records, images, plans, plays, records, runs, selects, texts, watches,
};
use crate::states::{
    every_channel, every_read, every_refusal, every_register, every_temperature, every_voltage, traces,
};
use crate::subject::Subject;

/// All parts; `rounds` multiplies the random ones.
pub fn run<S: Subject>(d: &mut Driver<S>, seed: u64, rounds: usize) {
    let r = &mut Random::new(seed);
    every_chip(d, r);
    every_body(d, r);
    every_count(d, r);
    every_write(d, r);
    every_initialization(d, r);
    every_select(d, r);
    every_read(d, r);
    every_voltage(d, r);
    every_temperature(d, r);
    every_channel(d, r);
    every_register(d, r);
    every_refusal(d, r);
    selects(d, r);
    every_flip(d);
    every_reading(d);
    every_right_reading(d);
    every_watch(d);
    every_run(d);
    long_runs(d);
    damaged_records(d, r, 40 * rounds);
    for _ in 0..10 * rounds {
        images(d, r, 10_000);
        watches(d, r, 2_000);
        runs(d, r, 1_000);
        plans(d, r, 600);
        cut_bodies(d, r, 100);
        records(d, r, 8_000);
        plays(d, r, 4_000);
        cuts(d, r, 1, 8);
        cuts(d, r, 2, 8);
        cuts(d, r, 4, 250);
        cuts(d, r, 5, 40);
        texts(d, r, 150);
    }
    traces(d, r, 5_000 * rounds);
    restarts(d, r, 128 * rounds);
    for (name, calls) in NAMES.iter().zip(d.calls.iter()) {
        println!("{:16} {:9}", name, calls);
    }
}

/// A power-on image.
pub fn power_on<S: Subject>(d: &mut Driver<S>, chip: u8) -> Vec<u8> {
    let mut image = vec![0xA5; model::image_length(chip)];
    hold(d.reset(chip, &mut image, NEW) == (0, NEW), "a reset is accepted", &chip);
    image
}

/// Every chip number with every table number, and with images of every length to 300, about 768 and
/// about 1,280.
fn every_chip<S: Subject>(d: &mut Driver<S>, r: &mut Random) {
    for chip in 0..=255 {
        for table in 0..=255 {
            let body = r.ordered(chip);
            let draft = Draft { chip, table, body };
            let mut image = r.image(chip);
            d.judge(draft.plan());
            d.asked_of_plan(draft.plan(), r.byte());
            d.asked_of_image(chip, table, &image, r.byte());
            d.read_record(&draft.record());
            if table < 12 || r.once_in(32) {
                let mut out = vec![0x3C; r.length()];
                d.script(draft.plan(), &mut out);
                d.write_record(draft.plan(), &mut out);
                d.play(draft.plan(), &mut image, r.below(27));
            }
        }
        for length in (0..=300).chain(767..=769).chain(1279..=1281) {
            if chip > 6 && !r.once_in(20) {
                continue;
            }
            let mut image = r.bytes(length);
            d.identity(chip, &image);
            let watch = r.watch();
            let read = d.read(chip, &mut image, watch, r.byte());
            d.write(chip, &mut image, r.byte(), r.byte());
            let reset = d.reset(chip, &mut image, watch);
            let kept = (read.1, read.2, reset.1) == (0, watch, watch);
            hold(read.0 == reset.0, "reads and resets check 3 and 8", &(chip, length));
            hold(read.0 == 0 || kept, "a refused watch comes back unchanged", &(chip, length, watch));
            let plan = r.good_plan();
            d.play(plan.plan(), &mut image, 99);
            d.asked_of_image(plan.chip, plan.table, &image, r.byte());
        }
    }
}

/// Every chip number with every table number and a body of every length to two bytes past the
/// whole one: nothing but 3, 4 and 5 refuses a good plan.
fn every_body<S: Subject>(d: &mut Driver<S>, r: &mut Random) {
    for chip in 0..=255 {
        let mut image = r.confirmed(chip);
        for table in 0..=255 {
            let mut body = r.ordered(chip);
            let whole = body.len();
            body.extend([r.byte(), r.byte()]);
            for length in 0..=body.len() {
                let plan = Plan { chip, table, body: &body[..length] };
                let want = match (chip, table) {
                    (1, 1..=3) | (2, 1..=2) | (4, 1..=10) | (5, 1..=6) if length < whole => 5,
                    (1, 1..=3) | (2, 1..=2) | (4, 1..=10) | (5, 1..=6) => 0,
                    (1..=5, _) => 4,
                    _ => 3,
                };
                let refusals = [
                    d.asked_of_plan(plan, r.byte()).0,
                    d.write_record(plan, &mut [0x3C; 20]).0,
                    d.script(plan, &mut [0x3C; SCRIPT]).0,
                    d.play(plan, &mut image, length).0,
                ];
                hold(refusals == [want; 4], "3, 4 and 5", &(plan, refusals));
            }
        }
    }
}

/// Every point count of chip 5 with every table number that there is and those beside them, bodies
/// whole and cut, values in order and not, outputs and images that could be refused too: "16,
/// straight after 4", and before 5.
fn every_count<S: Subject>(d: &mut Driver<S>, r: &mut Random) {
    for table in 0..=7 {
        for count in 0..=255 {
            for length in [1, 2, 7, 15, 16, 17] {
                let mut draft = Draft { chip: 5, table, body: r.ordered(5) };
                if r.once_in(2) {
                    r.unordered(&mut draft);
                }
                draft.body[0] = count;
                draft.body.resize(length, 0);
                let plan = draft.plan();
                let mut out = vec![0x3C; r.length()];
                let mut image = r.image(5);
                let refusals = [
                    d.asked_of_plan(plan, r.byte()).0,
                    d.read_record(&draft.record()).0,
                    d.write_record(plan, &mut out).0,
                    d.script(plan, &mut out).0,
                    d.play(plan, &mut image, r.below(27)).0,
                ];
                let want = match (table, count) {
                    (0 | 7, _) => 4,
                    (_, 7) if length < 16 => 5,
                    (_, 7) => continue,
                    _ => 16,
                };
                hold(refusals == [want; 5], "4, 16 and 5", &(&draft, refusals));
            }
        }
    }
}

/// Every address and byte of the chips without banks on random images. "Every other address keeps
/// its byte", but for 00h of chip 3 where the initialization bit is written as 1.
fn every_write<S: Subject>(d: &mut Driver<S>, r: &mut Random) {
    for chip in 1..=3 {
        for address in 0..=255 {
            let mut image = r.bytes(model::image_length(chip));
            for byte in 0..=255 {
                image[usize::from(address)] = r.byte();
                let mut before = image.clone();
                d.write(chip, &mut image, address, byte);
                before[usize::from(address)] = image[usize::from(address)];
                let initializes = (chip, address) == (3, 0x00) && byte >= 0x80;
                hold(initializes || image == before, "every other address", &(chip, address, byte));
            }
            let held = image[usize::from(address)];
            hold(d.read(chip, &mut image, NEW, address) == (0, held, NEW), "read", &(chip, address));
        }
    }
}

/// What an initialization leaves of a byte of chip 3: the sheet's default where that says "RW".
fn initialized(address: u8, held: u8) -> u8 {
    match address {
        0x00 => 0x08,
        0x03 | 0x04 | 0x08 | 0x2A..=0x37 => 0x00,
        0x05 => 0x14,
        // "0 OS_status [...] RO", "7:1 Reserved RO", "7:3 Reserved RO".
        0x06 => held & 0x01,
        0x07 => held & 0xFE,
        0x09 => held & 0xF8,
        0x38 | 0x3A => 0x55,
        0x39 | 0x3B => 0x4B,
        0x3C | 0x3D => 0xFF,
        _ => held,
    }
}

/// Every byte to 00h of chip 3, bit 7 off and on before: "after a write that sets it all writable
/// bits of the card, that bit included, have power-on values; read-only bits [...] stay", and bit 5
/// is to "read 0 after the write". To 00h of the other chips, of chip 4 in each bank, and to FCh of
/// chip 1: their writable bits are stored, and no other byte changes.
fn every_initialization<S: Subject>(d: &mut Driver<S>, r: &mut Random) {
    let mut images = vec![vec![0x5A; 256], vec![0xFF; 256], vec![0x00; 256], power_on(d, 3)];
    images.extend((0..16).map(|_| r.bytes(256)));
    for mut before in images {
        for held in [before[0x00], 0x00, 0x80, 0xFF] {
            before[0x00] = held;
            for byte in 0..=255 {
                let mut image = before.clone();
                let refusal = d.write(3, &mut image, 0x00, byte);
                let mut want = before.clone();
                if byte < 0x80 {
                    want[0x00] = byte & 0xDF;
                } else {
                    (0..=255).zip(&mut want).for_each(|(at, held)| *held = initialized(at, *held));
                }
                hold(refusal == 0 && image == want, "the initialization bit", &(byte, &before));
            }
        }
    }
    // Chip, address, where it lands, and the writable bits there.
    let others = [
        (1, 0x00, 0x000, 0x01), (1, 0xFC, 0x0FC, 0x80), (2, 0x00, 0x000, 0xC1),
        (4, 0x00, 0x000, 0xBB), (4, 0x00, 0x100, 0xFF), (4, 0x00, 0x200, 0x87),
        (4, 0x00, 0x300, 0x0F), (4, 0x00, 0x400, 0x0F), (5, 0x00, 0x000, 0x87),
    ];
    for (chip, address, at, mask) in others {
        let mut image = r.bytes(model::image_length(chip));
        for byte in 0..=255u8 {
            image[at] = r.byte();
            if chip == 4 {
                image[0xFF] = (at / 256) as u8;
            }
            let mut want = image.clone();
            want[at] = image[at] & !mask | byte & mask;
            let refusal = d.write(chip, &mut image, address, byte);
            hold(refusal == 0 && image == want, "no other chip is initialized", &(chip, at, byte));
        }
    }
}

/// Chips with banks: every byte of the bank select register with every address. Of chip 4 7Ah, 7Bh,
/// 7Ch and FFh are seen in every bank, of chip 5 00h, 0Dh, 0Eh and 0Fh; "elsewhere in a bank the
/// sheet lacks, writes change nothing and reads give 0".
fn every_select<S: Subject>(d: &mut Driver<S>, r: &mut Random) {
    for (chip, register, everywhere) in
        [(4, 0xFF, [0x7A, 0x7B, 0x7C, 0xFF]), (5, 0x00, [0x00, 0x0D, 0x0E, 0x0F])]
    {
        for select in 0..=255 {
            let mut image = r.bytes(if chip == 4 { 1280 } else { 768 });
            for address in 0..=255 {
                image[register] = select;
                let bank = if everywhere.contains(&address) { 0 } else { select % 8 };
                let at = 256 * usize::from(bank) + usize::from(address);
                let held = image.get(at).copied();
                let inputs = (chip, select, address);
                let mut before = image.clone();
                let watch = Watch { behaviour: select % 3, hot: address % 2 != 0, pending: address % 4 < 2 };
                let read = d.read(chip, &mut image, watch, address);
                hold(read == (0, held.unwrap_or(0), watch), "where a read lands", &inputs);
                hold(image == before, "a read of a chip with banks changes nothing", &inputs);
                d.write(chip, &mut image, address, r.byte());
                if held.is_some() {
                    before[at] = image[at];
                }
                hold(image == before, "where a write lands", &inputs);
            }
        }
    }
}

/// Power-on images with one bit flipped: identity, and a play that looks at it.
fn every_flip<S: Subject>(d: &mut Driver<S>) {
    for chip in 1..=5 {
        let image = power_on(d, chip);
        let body: &[u8] = match chip {
            1 => &[0, 1, 2, 3, 4, 5, 6, 7, 8],
            4 => &[4, 1, 2, 3, 4, 5, 6, 7, 8],
            5 => &[7, 1, 2, 3, 4, 5, 6, 7, 8, 9, 10, 11, 12, 13, 14, 15],
            _ => &[4, 3, 2, 1, 0, 0, 0, 0, 0, 0, 0, 0, 0, 0],
        };
        for bit in 0..8 * image.len() {
            let mut flipped = image.clone();
            flipped[bit / 8] ^= 1 << (bit % 8);
            let refusal = d.identity(chip, &flipped);
            let answer = d.play(Plan { chip, table: 1, body }, &mut flipped, bit % 27);
            let want = if chip == 3 { 4 } else { refusal };
            hold(answer.0 == want, "a play looks at the identity", &(chip, bit));
        }
    }
}

/// "Steps to bytes to steps is the identity, and bytes to steps to bytes clears the ignored
/// bits."
fn every_reading<S: Subject>(d: &mut Driver<S>) {
    for width in 0..=255u8 {
        let good = [8, 9, 11, 12].contains(&width);
        for word in (0..=65535u16).filter(|word| good || word % 4099 == 0) {
            let [high, low] = word.to_be_bytes();
            let (refusal, steps) = d.steps_of(width, high, low);
            hold((refusal == 0) == good, "the widths", &width);
            if good {
                let ignored = (1u32 << (16 - width)) - 1;
                let [high, low] = (word & !(ignored as u16)).to_be_bytes();
                let again = d.bytes_of(width, steps);
                hold(again == (0, high, low), "ignored bits are cleared", &(width, word));
            }
            let (refusal, high, low) = d.bytes_of(width, word as i16);
            if refusal == 0 {
                let again = d.steps_of(width, high, low);
                hold(again == (0, word as i16), "steps come back", &(width, word));
            }
        }
    }
    for word in 0..=65535 {
        let microvolts = d.microvolts(word);
        hold(microvolts == (u32::from(word) >> 6) * 2500, "2,500 microvolts", &word);
    }
}

/// The same of chip 4, whose eleven bits are those of width 11 in other places; every voltage of an
/// input of either kind, and every input.
fn every_right_reading<S: Subject>(d: &mut Driver<S>) {
    for word in 0..=65535u16 {
        let [high, low] = word.to_be_bytes();
        let steps = d.right_steps(high, low);
        hold(d.steps_of(11, high, low << 5) == (0, steps), "the bits of width 11", &word);
        hold(d.right_bytes(steps) == (0, high, low % 8), "ignored bits are cleared", &word);
        let (refusal, high, low) = d.right_bytes(word as i16);
        hold(refusal == d.bytes_of(11, word as i16).0, "the range of width 11", &word);
        if refusal == 0 {
            hold(d.right_steps(high, low) == word as i16, "steps come back", &word);
        }
        let [high, low] = word.to_be_bytes();
        let count = 8 * u32::from(high) + u32::from(low % 8);
        hold(d.input_microvolts(0x40, high, low) == 2000 * count, "2,000 microvolts", &word);
        hold(d.input_microvolts(0x5C, high, low) == 6000 * count, "6,000 microvolts", &word);
        d.input_microvolts((word % 257) as u8, high, low);
    }
}

const DEGREES: [i8; 15] = [-128, -127, -100, -55, -2, -1, 0, 1, 2, 75, 79, 80, 100, 126, 127];

/// Every watch with limits at the boundaries and samples at and beside the limits.
fn every_watch<S: Subject>(d: &mut Driver<S>) {
    let high_and_low: Vec<(i8, i8)> =
        DEGREES.iter().flat_map(|high| DEGREES.iter().map(move |low| (*high, *low))).collect();
    for number in 0..12 {
        let watch = Watch { behaviour: number / 4, hot: number & 1 != 0, pending: number & 2 != 0 };
        d.output(watch);
        d.acknowledge(watch);
        for &(high, low) in &high_and_low {
            for base in [16 * i16::from(high), 16 * i16::from(low), -2048, 2047, -32767, 32766] {
                for steps in [base - 1, base, base + 1] {
                    d.sample(watch, steps, high, low);
                }
            }
        }
    }
}

/// Every run of up to four samples, at the limits, beside them and refused, from every watch; the
/// limits in both orders and equal.
fn every_run<S: Subject>(d: &mut Driver<S>) {
    let samples = [1199, 1200, 1201, 1279, 1280, 1281, 2048];
    for number in 0..20 {
        let behaviour = [0, 1, 2, 3, 255][number / 4];
        let watch = Watch { behaviour, hot: number & 1 != 0, pending: number & 2 != 0 };
        for (high, low) in [(80, 75), (75, 80), (80, 80)] {
            for digits in 0..8usize.pow(4) {
                // The digit 7 is no sample.
                let digit = |k: u32| digits / 8usize.pow(k) % 8;
                let run: Vec<i16> = (0..4).filter_map(|k| samples.get(digit(k)).copied()).collect();
                d.run(watch, &run, high, low);
            }
        }
    }
}

/// The first and the last sample of a long run count.
fn long_runs<S: Subject>(d: &mut Driver<S>) {
    let watch = Watch { behaviour: 0, hot: false, pending: false };
    for length in [127, 128, 255, 256, 257, 32767, 32768, 65535, 65536, 65537] {
        for at in [0, length - 1] {
            let mut samples = vec![1248; length];
            hold(!d.run(watch, &samples, 80, 75).hot, "78 keeps hot off", &length);
            samples[at] = 1296;
            hold(d.run(watch, &samples, 80, 75).hot, "81 turns hot on", &(length, at));
        }
    }
}
