//! The library under test: its functions as C sees them, and safe wrappers that take each
//! answer apart. An answer is "refusal + 256 * value"; a value that doesn't fit its part
//! stops the call, which the driver counts as a disagreement.

use crate::model::{Plan, Watch, BODY, SCRIPT};
use crate::subject::Subject;

// include/yerkhulbaz.h has the same declarations. A slice is a pointer and then a length.
#[rustfmt::skip]
extern "C" {
    fn yk_write(chip: u8, image: *mut u8, length: usize, address: u8, byte: u8) -> u64;
    fn yk_read(chip: u8, image: *mut u8, length: usize, address: u8, behaviour: u8, facts: u8) -> u64;
    fn yk_reset(chip: u8, image: *mut u8, length: usize, behaviour: u8, facts: u8) -> u64;
    fn yk_sample_image(image: *mut u8, length: usize, behaviour: u8, facts: u8, steps: i16,
                       in0: u16, in1: u16, in2: u16, in3: u16, in4: u16, in5: u16, in6: u16) -> u64;
    fn yk_identity(chip: u8, image: *const u8, length: usize) -> u64;
    fn yk_steps(width: u8, high: u8, low: u8) -> u64;
    fn yk_bytes(width: u8, steps: i16) -> u64;
    fn yk_microvolts(word: u16) -> u64;
    fn yk_right_steps(high: u8, low: u8) -> u64;
    fn yk_right_bytes(steps: i16) -> u64;
    fn yk_input_microvolts(input: u8, high: u8, low: u8) -> u64;
    fn yk_sample(behaviour: u8, facts: u8, steps: i16, high: i8, hysteresis: i8) -> u64;
    fn yk_run(behaviour: u8, facts: u8, samples: *const i16, length: usize, high: i8, hysteresis: i8) -> u64;
    fn yk_acknowledge(behaviour: u8, facts: u8) -> u64;
    fn yk_read_record(bytes: *const u8, length: usize) -> u64;
    fn yk_write_record(chip: u8, table: u8, body: *const u8, body_length: usize, out: *mut u8, length: usize) -> u64;
    fn yk_asked_of_plan(chip: u8, table: u8, body: *const u8, body_length: usize, t: u8) -> u64;
    fn yk_asked_of_image(chip: u8, table: u8, image: *const u8, length: usize, t: u8) -> u64;
    fn yk_script(chip: u8, table: u8, body: *const u8, body_length: usize, out: *mut u8, length: usize) -> u64;
    fn yk_play(chip: u8, table: u8, body: *const u8, body_length: usize, image: *mut u8, length: usize, count: usize) -> u64;
    fn yk_translate(input: *const u8, input_length: usize, out: *mut u8, length: usize) -> u64;
}

fn refusal(answer: u64) -> u32 {
    (answer & 0xFF) as u32
}

/// The refusal and the value.
fn parts<A: TryFrom<u64>>(answer: u64) -> (u32, A) {
    match A::try_from(answer >> 8) {
        Ok(value) => (refusal(answer), value),
        Err(_) => panic!("the answer {:X} is too large for its value", answer),
    }
}

/// The refusal of an answer that has no value.
fn alone(answer: u64) -> u32 {
    assert!(answer < 256, "the answer {:X} has a value", answer);
    refusal(answer)
}

/// The value is hot + 2 * pending + 4 * output.
fn watch_of(behaviour: u8, answer: u64) -> (u32, Watch, bool) {
    let value = answer >> 8;
    assert!(value < 8, "the answer {:X} is no watch", answer);
    let watch = Watch { behaviour, hot: value & 1 != 0, pending: value & 2 != 0 };
    (refusal(answer), watch, value & 4 != 0)
}

fn facts(watch: Watch) -> u8 {
    u8::from(watch.hot) + 2 * u8::from(watch.pending)
}

/// A sample's answer as it comes, for any behaviour and any bits in the facts.
pub fn raw_sample(behaviour: u8, facts: u8, steps: i16, high: i8, hysteresis: i8) -> u64 {
    // SAFETY: the library answers every input; no memory is lent.
    unsafe { yk_sample(behaviour, facts, steps, high, hysteresis) }
}

/// A run's answer as it comes.
pub fn raw_run(behaviour: u8, facts: u8, samples: &[i16], high: i8, hysteresis: i8) -> u64 {
    // SAFETY: pointer and length come from one slice, which is lent for the call.
    unsafe { yk_run(behaviour, facts, samples.as_ptr(), samples.len(), high, hysteresis) }
}

/// An acknowledge's answer as it comes.
pub fn raw_acknowledge(behaviour: u8, facts: u8) -> u64 {
    // SAFETY: the library answers every input; no memory is lent.
    unsafe { yk_acknowledge(behaviour, facts) }
}

/// A read's answer as it comes, for any behaviour and any bits in the facts.
pub fn raw_read(chip: u8, image: &mut [u8], address: u8, behaviour: u8, facts: u8) -> u64 {
    // SAFETY: pointer and length come from one slice, which is lent for the call.
    unsafe { yk_read(chip, image.as_mut_ptr(), image.len(), address, behaviour, facts) }
}

/// A reset's answer as it comes.
pub fn raw_reset(chip: u8, image: &mut [u8], behaviour: u8, facts: u8) -> u64 {
    // SAFETY: as of a read.
    unsafe { yk_reset(chip, image.as_mut_ptr(), image.len(), behaviour, facts) }
}

/// The answer of a sample of chip 3 as it comes.
pub fn raw_sample_image(image: &mut [u8], behaviour: u8, facts: u8, steps: i16, words: [u16; 7]) -> u64 {
    let (to, length) = (image.as_mut_ptr(), image.len());
    let [in0, in1, in2, in3, in4, in5, in6] = words;
    // SAFETY: as of a read.
    unsafe { yk_sample_image(to, length, behaviour, facts, steps, in0, in1, in2, in3, in4, in5, in6) }
}

pub struct Library;

// SAFETY, of every call below: a pointer and its length come from one slice, which is lent for
// the call; a slice that is written is lent by `&mut`, so it overlaps no other.
impl Subject for Library {
    fn write(&self, chip: u8, image: &mut [u8], address: u8, byte: u8) -> u32 {
        alone(unsafe { yk_write(chip, image.as_mut_ptr(), image.len(), address, byte) })
    }

    /// The value is that of a watch + 256 * the byte.
    fn read(&self, chip: u8, image: &mut [u8], watch: Watch, address: u8) -> (u32, u8, Watch, bool) {
        let answer = raw_read(chip, image, address, watch.behaviour, facts(watch));
        let (_, value): (u32, u16) = parts(answer);
        let [byte, _] = value.to_be_bytes();
        let (refusal, watch, output) = watch_of(watch.behaviour, answer - 65536 * u64::from(byte));
        (refusal, byte, watch, output)
    }

    fn reset(&self, chip: u8, image: &mut [u8], watch: Watch) -> (u32, Watch, bool) {
        watch_of(watch.behaviour, raw_reset(chip, image, watch.behaviour, facts(watch)))
    }

    fn sample_image(&self, image: &mut [u8], watch: Watch, steps: i16, words: [u16; 7]) -> (u32, Watch, bool) {
        watch_of(watch.behaviour, raw_sample_image(image, watch.behaviour, facts(watch), steps, words))
    }

    fn identity(&self, chip: u8, image: &[u8]) -> u32 {
        alone(unsafe { yk_identity(chip, image.as_ptr(), image.len()) })
    }

    /// The value is a 16-bit two's complement number.
    fn steps_of(&self, width: u8, high: u8, low: u8) -> (u32, i16) {
        let (refusal, word): (u32, u16) = parts(unsafe { yk_steps(width, high, low) });
        (refusal, word as i16)
    }

    fn bytes_of(&self, width: u8, steps: i16) -> (u32, u8, u8) {
        let (refusal, word): (u32, u16) = parts(unsafe { yk_bytes(width, steps) });
        let [high, low] = word.to_be_bytes();
        (refusal, high, low)
    }

    fn microvolts(&self, word: u16) -> u32 {
        let (refusal, microvolts) = parts(unsafe { yk_microvolts(word) });
        assert_eq!(refusal, 0, "a voltage is never refused");
        microvolts
    }

    /// The value is a 16-bit two's complement number.
    fn right_steps(&self, high: u8, low: u8) -> i16 {
        let (refusal, word): (u32, u16) = parts(unsafe { yk_right_steps(high, low) });
        assert_eq!(refusal, 0, "two bytes are never refused");
        word as i16
    }

    fn right_bytes(&self, steps: i16) -> (u32, u8, u8) {
        let (refusal, word): (u32, u16) = parts(unsafe { yk_right_bytes(steps) });
        let [high, low] = word.to_be_bytes();
        (refusal, high, low)
    }

    fn input_microvolts(&self, input: u8, high: u8, low: u8) -> u32 {
        let (refusal, microvolts) = parts(unsafe { yk_input_microvolts(input, high, low) });
        assert_eq!(refusal, 0, "a voltage is never refused");
        microvolts
    }

    fn sample(&self, watch: Watch, steps: i16, high: i8, hysteresis: i8) -> (u32, Watch, bool) {
        let answer = raw_sample(watch.behaviour, facts(watch), steps, high, hysteresis);
        watch_of(watch.behaviour, answer)
    }

    fn run(&self, watch: Watch, samples: &[i16], high: i8, hysteresis: i8) -> (Watch, bool) {
        let answer = raw_run(watch.behaviour, facts(watch), samples, high, hysteresis);
        let (refusal, watch, output) = watch_of(watch.behaviour, answer);
        assert_eq!(refusal, 0, "a run is never refused");
        (watch, output)
    }

    fn acknowledge(&self, watch: Watch) -> (Watch, bool) {
        let answer = raw_acknowledge(watch.behaviour, facts(watch));
        let (refusal, watch, output) = watch_of(watch.behaviour, answer);
        assert_eq!(refusal, 0, "an acknowledge is never refused");
        (watch, output)
    }

    /// "A refused sample changes neither fact": its answer has the output of the watch as it is.
    fn output(&self, watch: Watch) -> bool {
        self.sample(watch, 2048, 0, 0).2
    }

    /// Writing a script checks the plan and then 9, and 50 bytes are enough.
    fn judge(&self, plan: Plan) -> u32 {
        self.script(plan, &mut [0; SCRIPT]).0
    }

    fn asked_of_plan(&self, plan: Plan, t: u8) -> (u32, u16) {
        let Plan { chip, table, body } = plan;
        parts(unsafe { yk_asked_of_plan(chip, table, body.as_ptr(), body.len(), t) })
    }

    fn asked_of_image(&self, chip: u8, table: u8, image: &[u8], t: u8) -> (u32, u16) {
        parts(unsafe { yk_asked_of_image(chip, table, image.as_ptr(), image.len(), t) })
    }

    /// The value is used + 256 * chip + 65536 * table; the body stands in the record.
    fn read_record(&self, bytes: &[u8]) -> (u32, u8, u8, [u8; BODY], usize) {
        let (refusal, value): (u32, u32) =
            parts(unsafe { yk_read_record(bytes.as_ptr(), bytes.len()) });
        let [used, chip, table, none] = value.to_le_bytes();
        assert_eq!(none, 0, "the value {:X} is no record", value);
        let used = usize::from(used);
        let mut body = [0; BODY];
        if refusal == 0 {
            body[..used - 4].copy_from_slice(&bytes[4..used]);
        }
        (refusal, chip, table, body, used)
    }

    fn write_record(&self, plan: Plan, out: &mut [u8]) -> (u32, usize) {
        let Plan { chip, table, body } = plan;
        let (to, length) = (out.as_mut_ptr(), out.len());
        parts(unsafe { yk_write_record(chip, table, body.as_ptr(), body.len(), to, length) })
    }

    fn script(&self, plan: Plan, out: &mut [u8]) -> (u32, usize) {
        let Plan { chip, table, body } = plan;
        let (to, length) = (out.as_mut_ptr(), out.len());
        parts(unsafe { yk_script(chip, table, body.as_ptr(), body.len(), to, length) })
    }

    fn play(&self, plan: Plan, image: &mut [u8], count: usize) -> (u32, usize) {
        let Plan { chip, table, body } = plan;
        let (to, length) = (image.as_mut_ptr(), image.len());
        parts(unsafe { yk_play(chip, table, body.as_ptr(), body.len(), to, length, count) })
    }

    fn translate(&self, input: &[u8], out: &mut [u8]) -> (u32, usize) {
        let (to, length) = (out.as_mut_ptr(), out.len());
        parts(unsafe { yk_translate(input.as_ptr(), input.len(), to, length) })
    }
}
