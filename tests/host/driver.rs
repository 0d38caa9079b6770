//! One compared call per function: the model and the subject get the same inputs and equal
//! copies of each lent buffer; answers and buffers must be equal afterwards.

use crate::model::{self, Plan, Watch, BODY};
use crate::subject::Subject;
use std::fmt::{Debug, Formatter, Result};
use std::panic::{catch_unwind, AssertUnwindSafe};

pub const NAMES: [&str; 23] = [
    "write", "read", "reset", "identity", "steps_of", "bytes_of", "microvolts", "sample",
    "acknowledge", "output", "judge", "asked_of_plan", "asked_of_image", "read_record",
    "write_record", "script", "play", "translate", "run", "right_steps", "right_bytes",
    "input_microvolts", "sample_image",
];

pub struct Driver<'a, S: Subject> {
    subject: &'a S,
    pub calls: [u64; NAMES.len()],
}

/// Prints what is known and ends the run.
pub fn stop(what: &str, inputs: &dyn Debug, want: &dyn Debug, got: &dyn Debug) -> ! {
    println!("host: disagreement in {}", what);
    println!("inputs: {:02X?}", inputs);
    println!("model: {:?}", want);
    println!("library: {:?}", got);
    std::process::exit(1);
}

/// A fact that the paper states and that must hold of an agreed answer.
pub fn hold(fact: bool, what: &str, inputs: &dyn Debug) {
    if !fact {
        println!("host: not so: {}", what);
        println!("inputs: {:02X?}", inputs);
        std::process::exit(1);
    }
}

/// A lent buffer as it is printed: whole up to 1,280 bytes, else its length and first bytes.
struct Lent<'a>(&'a [u8]);

impl Debug for Lent<'_> {
    fn fmt(&self, f: &mut Formatter) -> Result {
        let shown = &self.0[..self.0.len().min(1280)];
        write!(f, "lent {} bytes: {:02X?}", self.0.len(), shown)
    }
}

impl<'a, S: Subject> Driver<'a, S> {
    pub fn new(subject: &'a S) -> Self {
        Driver { subject, calls: [0; NAMES.len()] }
    }

    pub fn total(&self) -> u64 {
        self.calls.iter().sum()
    }

    /// A call without a lent buffer; the subject's panic is a disagreement too.
    fn agree<A: PartialEq + Debug>(
        &mut self, which: usize, inputs: &dyn Debug, want: A, ask: impl FnOnce(&S) -> A,
    ) -> A {
        self.calls[which] += 1;
        match catch_unwind(AssertUnwindSafe(|| ask(self.subject))) {
            Err(_) => stop(NAMES[which], inputs, &want, &"no answer: it panicked"),
            Ok(got) if got != want => stop(NAMES[which], inputs, &want, &got),
            Ok(_) => want,
        }
    }

    /// The same with a refusal; `zero` is what the answer's other parts are then.
    fn plain<A: PartialEq + Debug>(
        &mut self, which: usize, inputs: &dyn Debug, zero: A, want: (u32, A),
        ask: impl FnOnce(&S) -> (u32, A),
    ) -> (u32, A) {
        let answer = self.agree(which, inputs, want, ask);
        if answer.0 != 0 && answer.1 != zero {
            stop("zero in every other part", inputs, &zero, &answer);
        }
        answer
    }

    /// A call with a lent buffer. The model works on the buffer itself; `zero` is as above.
    fn lent<A: PartialEq + Debug>(
        &mut self, which: usize, buffer: &mut [u8], inputs: &dyn Debug, zero: A,
        model: impl FnOnce(&mut [u8]) -> (u32, A),
        ask: impl FnOnce(&S, &mut [u8]) -> (u32, A),
    ) -> (u32, A) {
        let before = buffer.to_vec();
        let mut theirs = buffer.to_vec();
        let want = model(buffer);
        let all = (inputs, Lent(&before));
        let answer = self.plain(which, &all, zero, want, |subject| ask(subject, &mut theirs));
        if buffer != theirs {
            let k = buffer.iter().zip(&theirs).take_while(|(want, got)| want == got).count();
            let all = (inputs, Lent(&before), "the lent buffer afterwards, at", k);
            stop(NAMES[which], &all, &Lent(&buffer[k..]), &Lent(&theirs[k..]));
        }
        if answer.0 != 0 && before != theirs {
            stop("each lent buffer holds what it held", &all, &answer, &Lent(&theirs));
        }
        answer
    }

    pub fn write(&mut self, chip: u8, image: &mut [u8], address: u8, byte: u8) -> u32 {
        self.lent(
            0, image, &(chip, address, byte), 0,
            |lent| (model::write(chip, lent, address, byte), 0),
            |subject, lent| (subject.write(chip, lent, address, byte), 0),
        ).0
    }

    /// "A refused read clears nothing", and its watch "comes back unchanged".
    pub fn read(&mut self, chip: u8, image: &mut [u8], watch: Watch, address: u8) -> (u32, u8, Watch) {
        let zero = (0, watch, model::output(watch));
        let (refusal, (byte, after, _)) = self.lent(
            1, image, &(chip, watch, address), zero,
            |lent| {
                let (refusal, byte, after) = model::read(chip, lent, watch, address);
                (refusal, (byte, after, model::output(after)))
            },
            |subject, lent| {
                let (refusal, byte, after, output) = subject.read(chip, lent, watch, address);
                (refusal, (byte, after, output))
            },
        );
        (refusal, byte, after)
    }

    pub fn reset(&mut self, chip: u8, image: &mut [u8], watch: Watch) -> (u32, Watch) {
        let zero = (watch, model::output(watch));
        let (refusal, (after, _)) = self.lent(
            2, image, &(chip, watch), zero,
            |lent| {
                let (refusal, after) = model::reset(chip, lent, watch);
                (refusal, (after, model::output(after)))
            },
            |subject, lent| {
                let (refusal, after, output) = subject.reset(chip, lent, watch);
                (refusal, (after, output))
            },
        );
        (refusal, after)
    }

    pub fn sample_image(&mut self, image: &mut [u8], watch: Watch, steps: i16, words: [u16; 7]) -> (u32, Watch) {
        let zero = (watch, model::output(watch));
        let (refusal, (after, _)) = self.lent(
            22, image, &(watch, steps, words), zero,
            |lent| {
                let (refusal, after) = model::sample_image(lent, watch, steps, words);
                (refusal, (after, model::output(after)))
            },
            |subject, lent| {
                let (refusal, after, output) = subject.sample_image(lent, watch, steps, words);
                (refusal, (after, output))
            },
        );
        (refusal, after)
    }

    pub fn identity(&mut self, chip: u8, image: &[u8]) -> u32 {
        let want = model::identity(chip, image);
        self.agree(3, &(chip, image), want, |s| s.identity(chip, image))
    }

    pub fn steps_of(&mut self, width: u8, high: u8, low: u8) -> (u32, i16) {
        let want = model::steps_of(width, high, low);
        self.plain(4, &(width, high, low), 0, want, |s| s.steps_of(width, high, low))
    }

    pub fn bytes_of(&mut self, width: u8, steps: i16) -> (u32, u8, u8) {
        let pack = |(refusal, high, low): (u32, u8, u8)| (refusal, [high, low]);
        let want = pack(model::bytes_of(width, steps));
        let (refusal, [high, low]) =
            self.plain(5, &(width, steps), [0, 0], want, |s| pack(s.bytes_of(width, steps)));
        (refusal, high, low)
    }

    pub fn microvolts(&mut self, word: u16) -> u32 {
        self.agree(6, &word, model::microvolts(word), |s| s.microvolts(word))
    }

    pub fn right_steps(&mut self, high: u8, low: u8) -> i16 {
        let want = model::right_steps(high, low);
        self.agree(19, &(high, low), want, |s| s.right_steps(high, low))
    }

    pub fn right_bytes(&mut self, steps: i16) -> (u32, u8, u8) {
        let pack = |(refusal, high, low): (u32, u8, u8)| (refusal, [high, low]);
        let want = pack(model::right_bytes(steps));
        let (refusal, [high, low]) =
            self.plain(20, &steps, [0, 0], want, |s| pack(s.right_bytes(steps)));
        (refusal, high, low)
    }

    pub fn input_microvolts(&mut self, input: u8, high: u8, low: u8) -> u32 {
        let want = model::input_microvolts(input, high, low);
        self.agree(21, &(input, high, low), want, |s| s.input_microvolts(input, high, low))
    }

    /// "A refused sample changes neither fact."
    pub fn sample(&mut self, watch: Watch, steps: i16, high: i8, hysteresis: i8) -> (u32, Watch) {
        let (refusal, after) = model::sample(watch, steps, high, hysteresis);
        let want = (refusal, (after, model::output(after)));
        let inputs = (watch, steps, high, hysteresis);
        let answer = self.plain(7, &inputs, (watch, model::output(watch)), want, |s| {
            let (refusal, after, output) = s.sample(watch, steps, high, hysteresis);
            (refusal, (after, output))
        });
        (answer.0, answer.1 .0)
    }

    pub fn run(&mut self, watch: Watch, samples: &[i16], high: i8, hysteresis: i8) -> Watch {
        let after = model::run(watch, samples, high, hysteresis);
        let want = (after, model::output(after));
        let inputs = (watch, samples.len(), &samples[..samples.len().min(320)], high, hysteresis);
        self.agree(18, &inputs, want, |s| s.run(watch, samples, high, hysteresis)).0
    }

    pub fn acknowledge(&mut self, watch: Watch) -> Watch {
        let after = model::acknowledge(watch);
        self.agree(8, &watch, (after, model::output(after)), |s| s.acknowledge(watch)).0
    }

    pub fn output(&mut self, watch: Watch) -> bool {
        self.agree(9, &watch, model::output(watch), |s| s.output(watch))
    }

    pub fn judge(&mut self, plan: Plan) -> u32 {
        self.agree(10, &plan, model::judge(plan), |s| s.judge(plan))
    }

    pub fn asked_of_plan(&mut self, plan: Plan, t: u8) -> (u32, u16) {
        let want = model::asked_of_plan(plan, t);
        self.plain(11, &(plan, t), 0, want, |s| s.asked_of_plan(plan, t))
    }

    pub fn asked_of_image(&mut self, chip: u8, table: u8, image: &[u8], t: u8) -> (u32, u16) {
        let want = model::asked_of_image(chip, table, image, t);
        let inputs = (chip, table, image, t);
        self.plain(12, &inputs, 0, want, |s| s.asked_of_image(chip, table, image, t))
    }

    /// What is asked at every T, from 00h to FFh.
    fn at_all(
        &mut self, which: usize, inputs: &dyn Debug, want: Vec<(u32, u16)>,
        ask: impl Fn(&S, u8) -> (u32, u16),
    ) -> Vec<(u32, u16)> {
        self.calls[which] += 256;
        let all = || (0..=255).map(|t| ask(self.subject, t)).collect();
        let got: Vec<(u32, u16)> = match catch_unwind(AssertUnwindSafe(all)) {
            Err(_) => stop(NAMES[which], inputs, &want, &"no answer: it panicked"),
            Ok(got) => got,
        };
        if let Some(t) = (0..256).find(|t| want[*t] != got[*t]) {
            stop(NAMES[which], &(inputs, t), &want[t], &got[t]);
        }
        want
    }

    pub fn asked_of_plan_at_all(&mut self, plan: Plan) -> Vec<(u32, u16)> {
        let want = (0..=255).map(|t| model::asked_of_plan(plan, t)).collect();
        self.at_all(11, &plan, want, |s, t| s.asked_of_plan(plan, t))
    }

    pub fn asked_of_image_at_all(&mut self, chip: u8, table: u8, image: &[u8]) -> Vec<(u32, u16)> {
        let want = (0..=255).map(|t| model::asked_of_image(chip, table, image, t)).collect();
        self.at_all(12, &(chip, table, image), want, |s, t| s.asked_of_image(chip, table, image, t))
    }

    pub fn read_record(&mut self, bytes: &[u8]) -> (u32, u8, u8, [u8; BODY], usize) {
        let pack = |(r, chip, table, body, used): (u32, u8, u8, [u8; BODY], usize)| {
            (r, (chip, table, body, used))
        };
        let want = pack(model::read_record(bytes));
        let zero = (0, 0, [0; BODY], 0);
        let (refusal, (chip, table, body, used)) =
            self.plain(13, &bytes, zero, want, |s| pack(s.read_record(bytes)));
        (refusal, chip, table, body, used)
    }

    pub fn write_record(&mut self, plan: Plan, out: &mut [u8]) -> (u32, usize) {
        self.lent(
            14, out, &plan, 0,
            |lent| model::write_record(plan, lent),
            |subject, lent| subject.write_record(plan, lent),
        )
    }

    pub fn script(&mut self, plan: Plan, out: &mut [u8]) -> (u32, usize) {
        self.lent(
            15, out, &plan, 0,
            |lent| model::script(plan, lent),
            |subject, lent| subject.script(plan, lent),
        )
    }

    pub fn play(&mut self, plan: Plan, image: &mut [u8], count: usize) -> (u32, usize) {
        self.lent(
            16, image, &(plan, count), 0,
            |lent| model::play(plan, lent, count),
            |subject, lent| subject.play(plan, lent, count),
        )
    }

    pub fn translate(&mut self, input: &[u8], out: &mut [u8]) -> (u32, usize) {
        self.lent(
            17, out, &input, 0,
            |lent| model::translate(input, lent),
            |subject, lent| subject.translate(input, lent),
        )
    }
}
