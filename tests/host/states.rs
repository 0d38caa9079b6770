//! "Status bits live in the chip": the state of chip 3 is an image and a watch beside it. Samples,
//! reads and resets of it, first exhaustive where the inputs are few, then random traces. What the
//! request states is checked on the agreed answers, in its own words and not by the model.

use crate::driver::{hold, Driver};
use crate::model::{self, Watch};
use crate::random::Random;
use crate::subject::Subject;

/// Every behaviour, three of whose numbers are comparator, with every two facts.
fn every_watch() -> impl Iterator<Item = Watch> {
    (0..20).map(|k| Watch { behaviour: [0, 1, 2, 3, 255][k / 4], hot: k & 1 != 0, pending: k & 2 != 0 })
}

/// The same with the three numbers that have a name.
fn named_watches() -> impl Iterator<Item = Watch> {
    every_watch().take(12)
}

/// Every address of every chip on random bytes, with every watch: "A read of 01h or 02h gives the
/// byte, then clears that register, and is the acknowledge (pending off, hot stays; also where the
/// byte was 00h). Every other read changes nothing." Of the other chips 01h and 02h are none such.
pub fn every_read<S: Subject>(d: &mut Driver<S>, r: &mut Random) {
    for chip in 1..=5 {
        for watch in every_watch() {
            let before = r.bytes(model::image_length(chip));
            for address in 0..=255u8 {
                let mut image = before.clone();
                let (refusal, byte, after) = d.read(chip, &mut image, watch, address);
                let inputs = (chip, watch, address);
                hold(refusal == 0, "a read is accepted", &inputs);
                hold(chip > 3 || byte == before[usize::from(address)], "the byte as it was", &inputs);
                if (chip, address) == (3, 0x01) || (chip, address) == (3, 0x02) {
                    let mut want = before.clone();
                    want[usize::from(address)] = 0;
                    hold(image == want, "a read clears its own register alone", &inputs);
                    hold(after == Watch { pending: false, ..watch }, "a read acknowledges", &inputs);
                } else {
                    hold(image == before && after == watch, "every other read changes nothing", &inputs);
                }
            }
        }
    }
    // Every byte of a status register, 00h too; again the byte is 00h.
    for watch in every_watch() {
        let mut image = r.bytes(256);
        for byte in 0..=255 {
            for (own, other) in [(0x01, 0x02), (0x02, 0x01)] {
                (image[own], image[other]) = (byte, !byte);
                let acknowledged = Watch { pending: false, ..watch };
                let inputs = (watch, own, byte);
                let first = d.read(3, &mut image, watch, own as u8);
                hold(first == (0, byte, acknowledged), "the byte before the clear", &inputs);
                hold((image[own], image[other]) == (0, !byte), "one register is cleared", &inputs);
                let again = d.read(3, &mut image, watch, own as u8);
                hold(again == (0, 0, acknowledged), "00h is read and acknowledges too", &inputs);
            }
        }
        hold(d.acknowledge(watch) == Watch { pending: false, ..watch }, "the acknowledge", &watch);
    }
}

/// An image of random bytes, all channels enabled, on which words to FF3Fh raise nothing.
fn quiet(r: &mut Random) -> Vec<u8> {
    let mut image = r.bytes(256);
    image[0x08] = 0;
    for n in 0..7 {
        (image[0x2A + 2 * n], image[0x2B + 2 * n]) = (0xFF, 0x00);
    }
    image
}

/// Each voltage with every limit as high and as low one, crossed at times, at the codes
/// 4 * limit - 1, 4 * limit and 4 * limit + 1, bits 5 to 0 of the word any, the channel enabled and
/// not: "strictly above 4 times the high limit or strictly below 4 times the low limit", and "a
/// voltage exactly at a limit raises nothing".
pub fn every_voltage<S: Subject>(d: &mut Driver<S>, r: &mut Random) {
    for n in 0..7 {
        let mut raised = 0;
        for limit in 0..=255u8 {
            let pairs = [(limit, 0), (255, limit), (limit, r.byte()), (r.byte(), limit), (limit, limit)];
            for (high, low) in pairs {
                let mut before = quiet(r);
                (before[0x2A + 2 * n], before[0x2B + 2 * n]) = (high, low);
                let codes = [high, low].map(|limit| 4 * i32::from(limit));
                for code in codes.into_iter().flat_map(|code| code - 1..=code + 1).filter(|code| *code >= 0) {
                    for disabled in [false, true] {
                        before[0x08] = u8::from(disabled) << n;
                        let mut words = [0; 7].map(|_: u16| r.below(0xFF40) as u16);
                        words[n] = 64 * code as u16 + r.below(64) as u16;
                        let mut image = before.clone();
                        let answer = d.sample_image(&mut image, r.watch(), 0, words);
                        let inputs = (n, (high, low), words, disabled);
                        hold(answer.0 == 0, "a sample is accepted", &inputs);
                        let counts = !disabled && (code > codes[0] || code < codes[1]);
                        let want = before[0x01] | u8::from(counts) << n;
                        hold(image[0x01] == want, "its own bit, set and never cleared", &inputs);
                        let stored = if disabled { 0 } else { (words[n] >> 8) as u8 };
                        hold(image[0x20 + n] == stored, "the high byte, or 0", &inputs);
                        raised += u32::from(image[0x01] != before[0x01]);
                    }
                }
            }
        }
        hold(raised > 500, "bits were raised", &(n, raised));
    }
}

/// Every step count from -2049 to 2048, against limits at the ends, crossed, equal and negative,
/// from every watch; 8-bit limits are signed.
pub fn every_temperature<S: Subject>(d: &mut Driver<S>, r: &mut Random) {
    let limits: [[i8; 3]; 6] = [
        [80, 75, 127], [75, 80, 76], [-128, -128, -128], [127, 127, 126], [-10, -15, -10], [0, -1, -1],
    ];
    for [high, hysteresis, os] in limits {
        for watch in named_watches() {
            let mut before = quiet(r);
            for (at, limit) in [(0x38, high), (0x39, hysteresis), (0x3A, os)] {
                before[at] = limit as u8;
            }
            for steps in -2049..=2048 {
                // Any bits in 06h, and status bits on or off before.
                before[0x06] = r.byte();
                before[0x02] = [0x00, r.byte()][r.below(2)];
                let mut image = before.clone();
                let (refusal, after) = d.sample_image(&mut image, watch, steps, [0x8000; 7]);
                let inputs = (watch, steps, (high, hysteresis, os), before[0x06], before[0x02]);
                if !(-2048..2048).contains(&steps) {
                    hold((refusal, after) == (12, watch) && image == before, "12", &inputs);
                    continue;
                }
                hold(refusal == 0, "a 12-bit step count", &inputs);
                let stored = 16 * i32::from(image[0x27] as i8) + i32::from(image[0x06] >> 4);
                hold(stored == i32::from(steps), "27h and bits 7 to 4 of 06h", &inputs);
                hold(image[0x06] & 0x0F == before[0x06] & 0x0F, "bits 3 to 0 of 06h stay", &inputs);
                // "The watch of the base is what a sample of this chip does to the facts."
                hold(after == d.sample(watch, steps, high, hysteresis).1, "the base's watch", &inputs);
                let on = if watch.behaviour == 2 { after.hot } else { after.pending };
                let above = i32::from(steps) > 16 * i32::from(os);
                let want = before[0x02] | u8::from(on) | u8::from(above) << 5;
                hold(image[0x02] == want, "02h bit 0 and bit 5", &inputs);
            }
        }
    }
}

/// Every byte of 08h: "Channels disabled at 08h (bits 0 to 6 the voltages, bit 7 the temperature)
/// store 0 and raise nothing; a disabled temperature does not feed the watch, and both facts stay."
/// Here every channel would raise its bit: above its high limit, below its low limit, or above and
/// below crossed ones.
pub fn every_channel<S: Subject>(d: &mut Driver<S>, r: &mut Random) {
    let raising = [(0x00, 0x00, 0xFFFF), (0xFF, 0xFF, 0x0000), (0x40, 0xC0, 0x8000), (0xFE, 0x00, 0xFE40)];
    for watch in named_watches() {
        for (high, low, word) in raising {
            for channels in 0..=255u8 {
                let mut before = r.bytes(256);
                before[0x08] = channels;
                (before[0x01], before[0x02]) = (r.byte() & 0x80, r.byte() & 0xDE);
                for n in 0..7 {
                    (before[0x2A + 2 * n], before[0x2B + 2 * n]) = (high, low);
                }
                (before[0x38], before[0x39], before[0x3A]) = (0x50, 0x4B, 0x7E);
                let mut image = before.clone();
                let steps = 2047 - r.below(30) as i16;
                let (refusal, after) = d.sample_image(&mut image, watch, steps, [word; 7]);
                let inputs = (watch, channels, (high, low, word), steps);
                hold(refusal == 0, "a sample is accepted", &inputs);
                hold(image[0x01] == before[0x01] | !channels & 0x7F, "the enabled voltages raise", &inputs);
                for n in 0..7 {
                    let stored = if channels & 1 << n != 0 { 0 } else { (word >> 8) as u8 };
                    hold(image[0x20 + n] == stored, "a voltage, or 0", &(n, inputs));
                }
                if channels & 0x80 != 0 {
                    hold(after == watch, "a disabled temperature feeds no watch", &inputs);
                    let stored = (image[0x27], image[0x06], image[0x02]);
                    hold(stored == (0, before[0x06] & 0x0F, before[0x02]), "nothing is raised", &inputs);
                } else {
                    let rest = 16 * (steps % 16) as u8 | before[0x06] & 0x0F;
                    let stored = (image[0x27], image[0x06]);
                    hold(stored == ((steps / 16) as u8, rest), "a temperature", &inputs);
                    // It is hot now; a one-time watch that was hot and acknowledged isn't pending.
                    let pending = watch.behaviour == 0 || watch.behaviour == 1 && !watch.hot;
                    let want = Watch { hot: true, pending: watch.pending || pending, ..watch };
                    hold(after == want, "it is hot", &inputs);
                    let output = if watch.behaviour == 2 { true } else { want.pending };
                    let os = steps > 16 * 126;
                    let bits = u8::from(output) | u8::from(os) << 5;
                    hold(image[0x02] == before[0x02] | bits, "its two bits", &inputs);
                }
            }
        }
    }
}

/// A register that a sample looks at or changes: status bits, the rest of the temperature, channels,
/// readings, and limits but that of the OS hysteresis.
fn concerned(at: usize) -> bool {
    matches!(at, 0x01 | 0x02 | 0x06 | 0x08 | 0x20..=0x27 | 0x2A..=0x3A)
}

/// "Masks 03h and 04h, Start and the interrupt bits of 00h have no effect on status bits", nor has
/// any byte that a sample has nothing to do with, and what 20h to 27h held before has none: another
/// byte there, and every other byte and both facts are the same after the sample.
pub fn every_register<S: Subject>(d: &mut Driver<S>, r: &mut Random) {
    for at in (0..256).filter(|at| !concerned(*at) || (0x20..0x28).contains(at)) {
        let every = matches!(at, 0x00 | 0x03 | 0x04 | 0x3B);
        for k in 0..if every { 256 } else { 12 } {
            let before = r.bytes(256);
            let (watch, steps, words) = (r.watch(), r.below(4096) as i16 - 2048, r.words(&before));
            let mut image = before.clone();
            let after = d.sample_image(&mut image, watch, steps, words);
            let mut other = before.clone();
            other[at] = if every { k as u8 } else { !before[at] };
            let kept = other[at];
            let answer = d.sample_image(&mut other, watch, steps, words);
            let inputs = (at, kept, watch, steps, words);
            hold(answer == after && after.0 == 0, "the facts have nothing to do with it", &inputs);
            if !concerned(at) {
                hold((image[at], other[at]) == (before[at], kept), "it stays", &inputs);
                other[at] = image[at];
            }
            hold(other == image, "the bytes have nothing to do with it", &inputs);
        }
    }
}

/// "A sample is refused 8, then 12 (also where the temperature is disabled)." "Refused: no byte, no
/// fact altered."
pub fn every_refusal<S: Subject>(d: &mut Driver<S>, r: &mut Random) {
    for length in (0..=300).chain(767..=769).chain(1279..=1281) {
        for steps in [-32768, -2049, -2048, -1, 0, 2047, 2048, 32767] {
            let before = r.bytes(length);
            let (mut image, watch) = (before.clone(), r.watch());
            let words = r.words(&image);
            let answer = d.sample_image(&mut image, watch, steps, words);
            let want = match (length, steps) {
                (256, -2048..=2047) => continue,
                (256, _) => 12,
                _ => 8,
            };
            hold(answer == (want, watch) && image == before, "8, then 12", &(length, steps, watch));
        }
    }
    for steps in (-32768..-2048).chain(2048..=32767).step_by(37) {
        for channels in [0x00, 0x80, 0xFF] {
            let mut before = r.bytes(256);
            before[0x08] = channels;
            let (mut image, watch) = (before.clone(), r.watch());
            let answer = d.sample_image(&mut image, watch, steps, [0xFFFF; 7]);
            hold(answer == (12, watch) && image == before, "12, disabled or not", &(channels, steps, watch));
        }
    }
    // A read or a reset that is refused, of a status register that holds something.
    let refused = [
        (0, 256, 3), (6, 256, 3), (255, 256, 3), (3, 0, 8), (3, 255, 8), (3, 257, 8), (4, 256, 8), (5, 256, 8),
        (3, 768, 8),
    ];
    for (chip, length, want) in refused {
        for watch in every_watch() {
            let before = vec![0xFF; length];
            for address in 0..=3 {
                let mut image = before.clone();
                let answer = d.read(chip, &mut image, watch, address);
                let inputs = (chip, length, address, watch);
                hold(answer == (want, 0, watch) && image == before, "a refused read clears nothing", &inputs);
            }
            let mut image = before.clone();
            let answer = d.reset(chip, &mut image, watch);
            hold(answer == (want, watch) && image == before, "a refused reset", &(chip, length, watch));
        }
    }
}

/// One step of a trace.
#[derive(Debug)]
enum Step {
    Write(u8, u8),
    Read(u8),
    Reset,
    Sample(i16, [u16; 7]),
}

/// How often something came about in a trace of chip 3, so that no law is held of nothing.
#[derive(Default, Debug)]
struct Seen {
    raised: [u64; 16],
    unraised: u64,
    read: u64,
    read_pending: u64,
    refused: u64,
    reset_facts: u64,
    disabled: u64,
}

fn draw(r: &mut Random, image: &[u8]) -> Step {
    match r.below(20) {
        0 => Step::Reset,
        1..=8 => Step::Sample(r.image_steps(image), r.words(image)),
        9..=14 => Step::Read(r.address()),
        // A byte to 00h mostly without the initialization bit.
        _ => {
            let (address, byte) = (r.address(), r.byte());
            Step::Write(address, if address == 0 && !r.once_in(4) { byte & 0x7F } else { byte })
        }
    }
}

/// Some 40 steps on a state, chip 3 mostly: a step's answer, every byte and both facts are compared
/// after each, and the laws of the request are held.
pub fn traces<S: Subject>(d: &mut Driver<S>, r: &mut Random, rounds: usize) {
    let mut seen = Seen::default();
    for _ in 0..rounds {
        let chip = if r.once_in(4) { r.chip() } else { 3 };
        let mut image = r.image(chip);
        if chip == 3 && image.len() == 256 && r.once_in(2) {
            // A state in which not everything is raised at once.
            (image[0x01], image[0x02], image[0x08]) = (0, 0, if r.once_in(3) { r.byte() } else { 0 });
            for n in 0..7 {
                let (a, b) = (r.byte(), r.byte());
                (image[0x2A + 2 * n], image[0x2B + 2 * n]) = (a.max(b), a.min(b));
            }
        }
        let mut watch = r.watch();
        for _ in 0..1 + r.below(80) {
            let step = draw(r, &image);
            let (before, old) = (image.clone(), watch);
            let refusal = take(d, chip, &mut image, &mut watch, &step);
            let inputs = (chip, &step, old, &before);
            if refusal != 0 {
                hold(image == before && watch == old, "a refused call changes nothing", &inputs);
                seen.refused += 1;
                continue;
            }
            hold(watch.behaviour == old.behaviour, "the behaviour stays", &inputs);
            match step {
                Step::Write(..) => {}
                Step::Sample(steps, _) => {
                    let off = before[0x08] & 0x80 != 0;
                    let limits = (before[0x38] as i8, before[0x39] as i8);
                    let fed = if off { old } else { d.sample(old, steps, limits.0, limits.1).1 };
                    hold(watch == fed, "the facts are those of the base's watch", &inputs);
                    sampled(&before, &image, &mut seen, &inputs);
                    seen.disabled += u64::from(off);
                }
                Step::Read(address) if chip == 3 && (address == 1 || address == 2) => {
                    hold(!watch.pending && watch.hot == old.hot, "pending off, hot as before", &inputs);
                    hold(image[usize::from(address)] == 0, "its register is cleared", &inputs);
                    let others = (0..256).filter(|at| *at != usize::from(address));
                    hold(others.into_iter().all(|at| image[at] == before[at]), "no other byte", &inputs);
                    seen.read += u64::from(before[usize::from(address)] != 0);
                    seen.read_pending += u64::from(old.pending);
                }
                Step::Read(_) => hold(image == before && watch == old, "every other read", &inputs),
                Step::Reset if chip == 3 => {
                    hold(!watch.hot && !watch.pending, "a reset turns both facts off", &inputs);
                    hold((image[0x01], image[0x02]) == (0, 0), "and every status bit", &inputs);
                    seen.reset_facts += u64::from(old.hot || old.pending);
                }
                Step::Reset => hold(watch == old, "other chips carry it unchanged", &inputs),
            }
            // "A status bit stays on until its register is read (or reset)."
            for at in [0x01, 0x02] {
                let may = match step {
                    Step::Read(address) => usize::from(address) == at,
                    Step::Reset => true,
                    _ => false,
                };
                let gone = if chip == 3 { before[at] & !image[at] } else { 0 };
                hold(may || gone == 0, "a status bit stays on", &(at, &inputs));
            }
        }
    }
    let often = [seen.unraised, seen.read, seen.read_pending, seen.refused, seen.reset_facts, seen.disabled];
    let raised = (0..16).all(|bit| (seen.raised[bit] > 0) == matches!(bit, 0..=6 | 8 | 13));
    hold(raised && often.iter().all(|times| *times > 0), "all of it came about", &seen);
    println!("traces: {:?}", seen);
}

fn take<S: Subject>(d: &mut Driver<S>, chip: u8, image: &mut [u8], watch: &mut Watch, step: &Step) -> u32 {
    let (refusal, after) = match *step {
        Step::Write(address, byte) => (d.write(chip, image, address, byte), *watch),
        Step::Read(address) => {
            let (refusal, _, after) = d.read(chip, image, *watch, address);
            (refusal, after)
        }
        Step::Reset => d.reset(chip, image, *watch),
        Step::Sample(steps, words) => d.sample_image(image, *watch, steps, words),
    };
    *watch = after;
    refusal
}

/// What a sample may change: 01h, 02h, the upper four bits of 06h and 20h to 27h; and of 01h and 02h
/// it turns on bits 0 to 6, and 0 and 5.
fn sampled(before: &[u8], image: &[u8], seen: &mut Seen, inputs: &dyn std::fmt::Debug) {
    let mut same = image.to_vec();
    for at in [0x01, 0x02].into_iter().chain(0x20..0x28) {
        same[at] = before[at];
    }
    same[0x06] = before[0x06] & 0xF0 | image[0x06] & 0x0F;
    hold(same == before, "what a sample may change", inputs);
    let on = |at: usize| image[at] & !before[at];
    hold(on(0x01) & !0x7F == 0 && on(0x02) & !0x21 == 0, "no other bit", inputs);
    for bit in 0..16 {
        seen.raised[bit] += u64::from(on(0x01 + bit / 8) >> (bit % 8) & 1);
    }
    seen.unraised += u64::from(on(0x01) == 0 && on(0x02) == 0);
}
