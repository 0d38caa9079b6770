//! What only the C boundary can get wrong: bytes beside a lent buffer, buffers that are only
//! read, and the bits of a watch's numbers.

use crate::driver::{hold, stop};
use crate::fence::{Fence, Side};
use crate::library::{raw_acknowledge, raw_read, raw_reset, raw_run, raw_sample, raw_sample_image, Library};
use crate::model::{self, Plan, Watch};
use crate::random::{Draft, Random};
use crate::subject::Subject;
use std::fmt::Debug;

struct Ground {
    read: Fence,
    written: Fence,
    calls: u64,
}

impl Ground {
    /// One call on two fenced buffers: the first is only read, the second may be written. Answer
    /// and buffers must be those of the model.
    fn call<A: PartialEq + Debug>(
        &mut self, what: &str, side: Side, read: &[u8], written: &[u8],
        model: impl Fn(&[u8], &mut [u8]) -> A, ask: impl Fn(&[u8], &mut [u8]) -> A,
    ) {
        let mut after = written.to_vec();
        let want = model(read, &mut after);
        let got = ask(self.read.lend(side, read), self.written.lend(side, written));
        self.calls += 1;
        let inputs = (read, written);
        if got != want {
            stop(what, &inputs, &want, &got);
        }
        let held = self.read.holds(side, read.len());
        hold(held == read, "a buffer that is only read holds what it held", &(what, inputs));
        let held = self.written.holds(side, written.len());
        hold(held == after, "the lent buffer afterwards", &(what, inputs));
    }
}

/// All parts; the number of calls.
pub fn run(seed: u64, rounds: usize) -> u64 {
    let r = &mut Random::new(seed ^ 0xB0);
    let mut g = Ground { read: Fence::new(), written: Fence::new(), calls: 0 };
    for round in 0..20_000 * rounds {
        let side = if round % 2 == 0 { Side::Upper } else { Side::Lower };
        images(&mut g, r, side);
        plans(&mut g, r, side);
        runs(&mut g, r, side);
        if round % 40 < 2 {
            texts(&mut g, r, side);
        }
    }
    bodies(&mut g, r);
    longest(&mut g, r);
    g.calls + watches()
}

fn images(g: &mut Ground, r: &mut Random, side: Side) {
    let (chip, address, byte) = (r.chip(), r.byte(), r.byte());
    let image = r.image(chip);
    let s = &Library;
    g.call(
        "write", side, &[], &image,
        |_, to| model::write(chip, to, address, byte),
        |_, to| s.write(chip, to, address, byte),
    );
    states(g, r, side, chip, &image);
    g.call("identity", side, &image, &[], |from, _| model::identity(chip, from), |from, _| s.identity(chip, from));
    let table = r.table(chip);
    g.call(
        "asked_of_image", side, &image, &[],
        |from, _| model::asked_of_image(chip, table, from, byte),
        |from, _| s.asked_of_image(chip, table, from, byte),
    );
}

/// The calls that take a watch beside an image, from any bits in the facts. The image of a sample is
/// one of chip 3, whatever it is to the other two.
fn states(g: &mut Ground, r: &mut Random, side: Side, chip: u8, image: &[u8]) {
    let (behaviour, facts) = (any_behaviour(r), r.byte());
    let (watch, address) = (watch_of(behaviour, facts), r.address());
    g.call(
        "reset", side, &[], image,
        |_, to| {
            let (refusal, after) = model::reset(chip, to, watch);
            packed(refusal, after)
        },
        |_, to| raw_reset(chip, to, behaviour, facts),
    );
    g.call(
        "read", side, &[], image,
        |_, to| packed_read(model::read(chip, to, watch, address)),
        |_, to| raw_read(chip, to, address, behaviour, facts),
    );
    let (steps, words) = (r.image_steps(image), r.words(image));
    g.call(
        "sample_image", side, &[], image,
        |_, to| {
            let (refusal, after) = model::sample_image(to, watch, steps, words);
            packed(refusal, after)
        },
        |_, to| raw_sample_image(to, behaviour, facts, steps, words),
    );
}

fn plans(g: &mut Ground, r: &mut Random, side: Side) {
    let record = r.record();
    g.call("read_record", side, &record, &[], |from, _| model::read_record(from), |from, _| Library.read_record(from));
    let draft = r.plan();
    with_body(g, r, side, &draft);
}

/// Bodies of every length to 20, and long ones whose length would be short in one byte or two; of
/// every table there is and of some that are none. Nothing is read past a body that is cut short.
fn bodies(g: &mut Ground, r: &mut Random) {
    for chip in 0..=6 {
        for table in 0..=model::tables(chip).max(3) as u8 + 1 {
            for length in (0..=20).chain([255, 256, 264, 265, 269, 270, 271, 272, 65535, 65536]) {
                let mut body = r.ordered(chip);
                body.resize(length, 0xA7);
                let draft = Draft { chip, table, body };
                with_body(g, r, Side::Upper, &draft);
                with_body(g, r, Side::Lower, &draft);
            }
        }
    }
}

/// Every call that takes a body.
fn with_body(g: &mut Ground, r: &mut Random, side: Side, draft: &Draft) {
    let (chip, table, t, count) = (draft.chip, draft.table, r.byte(), r.below(28));
    let s = &Library;
    g.call(
        "asked_of_plan", side, &draft.body, &[],
        |body, _| model::asked_of_plan(Plan { chip, table, body }, t),
        |body, _| s.asked_of_plan(Plan { chip, table, body }, t),
    );
    let out = vec![r.byte(); r.length()];
    g.call(
        "write_record", side, &draft.body, &out,
        |body, to| model::write_record(Plan { chip, table, body }, to),
        |body, to| s.write_record(Plan { chip, table, body }, to),
    );
    g.call(
        "script", side, &draft.body, &out,
        |body, to| model::script(Plan { chip, table, body }, to),
        |body, to| s.script(Plan { chip, table, body }, to),
    );
    let image = r.image(chip);
    g.call(
        "play", side, &draft.body, &image,
        |body, to| model::play(Plan { chip, table, body }, to, count),
        |body, to| s.play(Plan { chip, table, body }, to, count),
    );
}

/// "An output longer than the result keeps its tail": outputs that are exact, one byte short
/// and longer.
fn texts(g: &mut Ground, r: &mut Random, side: Side) {
    let length = if r.once_in(9) { 4090 + r.below(12) } else { r.length() };
    let input = r.input(length);
    let mut text = vec![0; 65536];
    let length = model::translate(&input, &mut text).1;
    for space in [length - 1, length, length + 1 + r.below(99)] {
        g.call(
            "translate", side, &input, &vec![r.byte(); space],
            |from, to| model::translate(from, to),
            |from, to| Library.translate(from, to),
        );
    }
}

/// The longest text that we know of (YK_TEXT_MAX of the header is a proved bound above it). The
/// text of a record is 78 bytes and a line for chip 1, 144 and a line for chip 2, 84 and a line for
/// chip 4, whose line is longest for table 10, 150 and a line for chip 5, whose record has two
/// bytes more than chip 2's. So most of the longest text is of chip 2: 2 records of chip 4, 226 of
/// chip 2 and two more bytes, which are refused.
fn longest(g: &mut Ground, r: &mut Random) {
    let mut input = Vec::new();
    for k in 0..228 {
        let (chip, table) = if k < 2 { (4, 10) } else { (2, 1) };
        input.extend(Draft { chip, table, body: r.ordered(chip) }.record());
    }
    input.extend([0x43, 0x50]);
    hold(input.len() == model::INPUT, "4,096 bytes", &input.len());
    let length = model::translate(&input, &mut vec![0; 65536]).1;
    hold(length == 40_377, "the longest text", &length);
    for space in [length - 1, length] {
        g.call(
            "translate", Side::Upper, &input, &vec![0xEE; space],
            |from, to| model::translate(from, to),
            |from, to| Library.translate(from, to),
        );
    }
}

/// Of the facts only bits 0 and 1 count.
fn watch_of(behaviour: u8, facts: u8) -> Watch {
    Watch { behaviour, hot: facts & 1 != 0, pending: facts & 2 != 0 }
}

/// An answer: refusal + 256 * (hot + 2 * pending + 4 * output).
fn packed(refusal: u32, watch: Watch) -> u64 {
    let value = u64::from(watch.hot) + 2 * u64::from(watch.pending) + 4 * u64::from(model::output(watch));
    u64::from(refusal) + 256 * value
}

/// A read's answer has the byte in bits 15 to 8 of its value.
fn packed_read((refusal, byte, watch): (u32, u8, Watch)) -> u64 {
    packed(refusal, watch) + 65536 * u64::from(byte)
}

fn any_behaviour(r: &mut Random) -> u8 {
    if r.once_in(6) {
        r.byte()
    } else {
        [0, 1, 2, 3, 255][r.below(5)]
    }
}

/// A run on fenced samples, from any bits in the facts, and the same samples one by one.
fn runs(g: &mut Ground, r: &mut Random, side: Side) {
    let (behaviour, facts) = (any_behaviour(r), r.byte());
    let (high, low) = r.limits();
    let samples = r.samples((high, low));
    let want = packed(0, model::run(watch_of(behaviour, facts), &samples, high, low));
    let bytes: Vec<u8> = samples.iter().flat_map(|steps| steps.to_ne_bytes()).collect();
    g.call(
        "run", side, &bytes, &[],
        |_, _| want,
        |from, _| {
            // SAFETY: any two bytes are a sample; `align_to` cuts off those that don't stand as one.
            let (before, lent, after) = unsafe { from.align_to::<i16>() };
            assert!(before.is_empty() && after.is_empty(), "a fence is at an even address");
            raw_run(behaviour, facts, lent, high, low)
        },
    );
    // The first sample, which is refused, gives the watch as it was.
    let in_turn = [2048].iter().chain(&samples).fold(256 * u64::from(facts), |answer, steps| {
        raw_sample(behaviour, (answer >> 8) as u8, *steps, high, low) & !0xFF
    });
    let inputs = (behaviour, facts, &samples, high, low);
    hold(in_turn == want, "a run is its samples in turn", &inputs);
    g.calls += 1 + samples.len() as u64;
}

/// Behaviour "0 default, 1 one-time, any other comparator"; of the facts only bits 0 and 1 count.
/// Every behaviour with every byte of facts, at samples that do all there is to do.
fn watches() -> u64 {
    let mut calls = 0;
    for behaviour in 0..=255 {
        for facts in 0..=255u8 {
            let watch = watch_of(behaviour, facts);
            let want = packed(0, model::acknowledge(watch));
            let got = raw_acknowledge(behaviour, facts);
            if got != want {
                stop("acknowledge", &(behaviour, facts), &want, &got);
            }
            for steps in [-32768, -2049, -2048, 1199, 1200, 1280, 1281, 2047, 2048, 32767] {
                let (refusal, after) = model::sample(watch, steps, 80, 75);
                let want = packed(refusal, after);
                let got = raw_sample(behaviour, facts, steps, 80, 75);
                if got != want {
                    stop("sample", &(behaviour, facts, steps), &want, &got);
                }
                calls += 1;
            }
            calls += 1 + with_image(behaviour, facts);
        }
    }
    calls
}

/// The same of the calls that take an image too: reads of a status register and of another one,
/// resets, samples that do all there is to do, and refused ones of each.
fn with_image(behaviour: u8, facts: u8) -> u64 {
    let watch = watch_of(behaviour, facts);
    let mut image = [0x5A; 257];
    (image[0x08], image[0x38], image[0x39]) = (0, 80, 75);
    let mut calls = 0;
    let mut same = |what: &str, inputs: &dyn Debug, want: (u64, [u8; 257]), got: (u64, [u8; 257])| {
        if got != want {
            stop(what, &(behaviour, facts, inputs), &want, &got);
        }
        calls += 1;
    };
    let reads = [(3, 256, 0x01), (3, 256, 0x02), (3, 256, 0x03), (3, 257, 0x01), (1, 256, 0x01), (0, 256, 0x02)];
    for (chip, length, address) in reads {
        let (mut ours, mut theirs) = (image, image);
        let want = packed_read(model::read(chip, &mut ours[..length], watch, address));
        let got = raw_read(chip, &mut theirs[..length], address, behaviour, facts);
        same("read", &(chip, length, address), (want, ours), (got, theirs));
    }
    for (chip, length) in [(3, 256), (3, 255), (2, 256), (6, 256)] {
        let (mut ours, mut theirs) = (image, image);
        let (refusal, after) = model::reset(chip, &mut ours[..length], watch);
        let got = raw_reset(chip, &mut theirs[..length], behaviour, facts);
        same("reset", &(chip, length), (packed(refusal, after), ours), (got, theirs));
    }
    let samples = [(256, 0, 1199), (256, 0, 1200), (256, 0, 1281), (256, 0x80, 1281), (256, 0, 2048), (255, 0, 1281)];
    for (length, channels, steps) in samples {
        let (mut ours, mut theirs) = (image, image);
        (ours[0x08], theirs[0x08]) = (channels, channels);
        let words = [0x5A00, 0x5A40, 0x59FF, 0x0000, 0xFFFF, 0x5A3F, 0x5A80];
        let (refusal, after) = model::sample_image(&mut ours[..length], watch, steps, words);
        let got = raw_sample_image(&mut theirs[..length], behaviour, facts, steps, words);
        same("sample_image", &(length, channels, steps), (packed(refusal, after), ours), (got, theirs));
    }
    calls
}
