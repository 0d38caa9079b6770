//! What is tested: one method per function of the model. A subject answers with the paper's
//! refusal numbers, 0 for accepted.

use crate::model::{self, Plan, Watch, BODY};

pub trait Subject {
    fn write(&self, chip: u8, image: &mut [u8], address: u8, byte: u8) -> u32;
    /// Refusal, the byte, the watch afterwards and its output.
    fn read(&self, chip: u8, image: &mut [u8], watch: Watch, address: u8) -> (u32, u8, Watch, bool);
    /// Refusal, the watch afterwards and its output.
    fn reset(&self, chip: u8, image: &mut [u8], watch: Watch) -> (u32, Watch, bool);
    /// The same.
    fn sample_image(&self, image: &mut [u8], watch: Watch, steps: i16, words: [u16; 7]) -> (u32, Watch, bool);
    fn identity(&self, chip: u8, image: &[u8]) -> u32;
    fn steps_of(&self, width: u8, high: u8, low: u8) -> (u32, i16);
    fn bytes_of(&self, width: u8, steps: i16) -> (u32, u8, u8);
    fn microvolts(&self, word: u16) -> u32;
    fn right_steps(&self, high: u8, low: u8) -> i16;
    fn right_bytes(&self, steps: i16) -> (u32, u8, u8);
    fn input_microvolts(&self, input: u8, high: u8, low: u8) -> u32;
    /// Refusal, the watch afterwards and its output.
    fn sample(&self, watch: Watch, steps: i16, high: i8, hysteresis: i8) -> (u32, Watch, bool);
    /// The watch after the last sample and its output.
    fn run(&self, watch: Watch, samples: &[i16], high: i8, hysteresis: i8) -> (Watch, bool);
    /// The watch afterwards and its output.
    fn acknowledge(&self, watch: Watch) -> (Watch, bool);
    fn output(&self, watch: Watch) -> bool;
    /// The body is short or long at times: a short one is refused with 5, further bytes are
    /// ignored. Chip 5's begins with its point count, and any but 7 is refused with 16. The same
    /// holds wherever a plan comes in.
    fn judge(&self, plan: Plan) -> u32;
    fn asked_of_plan(&self, plan: Plan, t: u8) -> (u32, u16);
    fn asked_of_image(&self, chip: u8, table: u8, image: &[u8], t: u8) -> (u32, u16);
    /// Refusal, chip, table, body, bytes used. Body bytes past the chip's own are zero. "If a
    /// plan has room for both chips' values, those of the other chip are zero in what is
    /// read": a subject with such room must stop here if they are not.
    fn read_record(&self, bytes: &[u8]) -> (u32, u8, u8, [u8; BODY], usize);
    fn write_record(&self, plan: Plan, out: &mut [u8]) -> (u32, usize);
    fn script(&self, plan: Plan, out: &mut [u8]) -> (u32, usize);
    fn play(&self, plan: Plan, image: &mut [u8], count: usize) -> (u32, usize);
    fn translate(&self, input: &[u8], out: &mut [u8]) -> (u32, usize);
}

/// The model as it stands: the benchmark's second column. The library is called across a boundary,
/// so none of these is taken into its caller.
pub struct Model;

#[rustfmt::skip]
impl Subject for Model {
    #[inline(never)] fn write(&self, chip: u8, image: &mut [u8], address: u8, byte: u8) -> u32 { model::write(chip, image, address, byte) }
    #[inline(never)] fn read(&self, chip: u8, image: &mut [u8], watch: Watch, address: u8) -> (u32, u8, Watch, bool) { let (refusal, byte, after) = model::read(chip, image, watch, address); (refusal, byte, after, model::output(after)) }
    #[inline(never)] fn reset(&self, chip: u8, image: &mut [u8], watch: Watch) -> (u32, Watch, bool) { let (refusal, after) = model::reset(chip, image, watch); (refusal, after, model::output(after)) }
    #[inline(never)] fn sample_image(&self, image: &mut [u8], watch: Watch, steps: i16, words: [u16; 7]) -> (u32, Watch, bool) { let (refusal, after) = model::sample_image(image, watch, steps, words); (refusal, after, model::output(after)) }
    #[inline(never)] fn identity(&self, chip: u8, image: &[u8]) -> u32 { model::identity(chip, image) }
    #[inline(never)] fn steps_of(&self, width: u8, high: u8, low: u8) -> (u32, i16) { model::steps_of(width, high, low) }
    #[inline(never)] fn bytes_of(&self, width: u8, steps: i16) -> (u32, u8, u8) { model::bytes_of(width, steps) }
    #[inline(never)] fn microvolts(&self, word: u16) -> u32 { model::microvolts(word) }
    #[inline(never)] fn right_steps(&self, high: u8, low: u8) -> i16 { model::right_steps(high, low) }
    #[inline(never)] fn right_bytes(&self, steps: i16) -> (u32, u8, u8) { model::right_bytes(steps) }
    #[inline(never)] fn input_microvolts(&self, input: u8, high: u8, low: u8) -> u32 { model::input_microvolts(input, high, low) }
    #[inline(never)] fn sample(&self, watch: Watch, steps: i16, high: i8, hysteresis: i8) -> (u32, Watch, bool) { let (refusal, after) = model::sample(watch, steps, high, hysteresis); (refusal, after, model::output(after)) }
    #[inline(never)] fn run(&self, watch: Watch, samples: &[i16], high: i8, hysteresis: i8) -> (Watch, bool) { let after = model::run(watch, samples, high, hysteresis); (after, model::output(after)) }
    #[inline(never)] fn acknowledge(&self, watch: Watch) -> (Watch, bool) { let after = model::acknowledge(watch); (after, model::output(after)) }
    #[inline(never)] fn output(&self, watch: Watch) -> bool { model::output(watch) }
    #[inline(never)] fn judge(&self, plan: Plan) -> u32 { model::judge(plan) }
    #[inline(never)] fn asked_of_plan(&self, plan: Plan, t: u8) -> (u32, u16) { model::asked_of_plan(plan, t) }
    #[inline(never)] fn asked_of_image(&self, chip: u8, table: u8, image: &[u8], t: u8) -> (u32, u16) { model::asked_of_image(chip, table, image, t) }
    #[inline(never)] fn read_record(&self, bytes: &[u8]) -> (u32, u8, u8, [u8; BODY], usize) { model::read_record(bytes) }
    #[inline(never)] fn write_record(&self, plan: Plan, out: &mut [u8]) -> (u32, usize) { model::write_record(plan, out) }
    #[inline(never)] fn script(&self, plan: Plan, out: &mut [u8]) -> (u32, usize) { model::script(plan, out) }
    #[inline(never)] fn play(&self, plan: Plan, image: &mut [u8], count: usize) -> (u32, usize) { model::play(plan, image, count) }
    #[inline(never)] fn translate(&self, input: &[u8], out: &mut [u8]) -> (u32, usize) { model::translate(input, out) }
}
