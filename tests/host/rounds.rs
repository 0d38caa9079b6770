//! The random tests, as many rounds as are asked for.

use crate::driver::{hold, Driver};
use crate::chips::{chip_of, Curve};
use crate::model::{self, Plan, Watch, INPUT, SCRIPT};
use crate::random::{Draft, Random, PLANNED};
use crate::subject::Subject;
use crate::tests::power_on;

/// No text of 4,096 bytes of input is longer.
const TEXT: usize = 65536;

/// Good records cut at every length and with every byte replaced by every other. "2 admits both
/// marks"; "16, straight after 4, for a mark that doesn't go with the chip, then, if the count byte
/// is there, for a point count that doesn't; 5 if it is missing or the body is cut".
pub fn damaged_records<S: Subject>(d: &mut Driver<S>, r: &mut Random, rounds: usize) {
    for round in 0..rounds {
        let chip = PLANNED[round % PLANNED.len()];
        let record = r.good_plan_of(chip).record();
        for end in 0..=record.len() {
            let refusal = d.read_record(&record[..end]).0;
            let want = if end < 4 { 1 } else if end < record.len() { 5 } else { 0 };
            hold(refusal == want, "a cut record", &(&record, end));
        }
        for at in 0..record.len() {
            let mut damaged = record.clone();
            for byte in (0..=255).filter(|byte| *byte != record[at]) {
                damaged[at] = byte;
                let refusal = d.read_record(&damaged).0;
                let want = match (at, byte) {
                    (1, 0x50 | 0x51) => Some(16),
                    (0 | 1, _) => Some(2),
                    (2, 0 | 6..) => Some(3),
                    (2, _) if usize::from(record[3]) > model::tables(byte) => Some(4),
                    (2, _) if chip == 5 || byte == 5 => Some(16),
                    (3, _) if usize::from(byte).wrapping_sub(1) >= model::tables(chip) => Some(4),
                    (4, _) if chip == 5 => Some(16),
                    _ => None,
                };
                hold(want.map_or(true, |want| refusal == want), "a damaged byte", &(&damaged, at));
                // A refusal of the first bytes is the same whatever stands behind them, or doesn't.
                if at < 5 && want.is_some() {
                    let end = (at + 1).max(4);
                    hold(d.read_record(&damaged[..end]).0 == refusal, "the order", &(&damaged, at));
                }
            }
        }
    }
}

/// Chains of writes, reads and resets, with a watch that each read and reset hands back.
pub fn images<S: Subject>(d: &mut Driver<S>, r: &mut Random, rounds: usize) {
    let mut chip = r.chip();
    let mut image = r.image(chip);
    let mut watch = r.watch();
    for _ in 0..rounds {
        if r.once_in(20) {
            chip = r.chip();
            image = r.image(chip);
            watch = r.watch();
            d.identity(chip, &image);
        }
        if r.once_in(50) {
            watch = d.reset(chip, &mut image, watch).1;
        }
        let address = r.byte();
        d.write(chip, &mut image, address, r.byte());
        watch = d.read(chip, &mut image, watch, address).2;
    }
}

/// Chains of samples and acknowledges from a new watch.
pub fn watches<S: Subject>(d: &mut Driver<S>, r: &mut Random, rounds: usize) {
    let mut watch = Watch { behaviour: 0, hot: false, pending: false };
    let mut limits = (80, 75);
    for round in 0..rounds {
        if round % 50 == 0 {
            watch = Watch { behaviour: r.below(3) as u8, hot: false, pending: false };
            limits = r.limits();
        }
        watch = d.sample(watch, r.sample(limits), limits.0, limits.1).1;
        if r.once_in(4) {
            watch = d.acknowledge(watch);
        }
        d.output(watch);
    }
}

/// Runs of 0 to 48 samples from any watch, beside the same samples one by one.
pub fn runs<S: Subject>(d: &mut Driver<S>, r: &mut Random, rounds: usize) {
    for round in 0..rounds {
        let behaviour = [0, 1, 2, 3, 255][round % 5];
        let watch = Watch { behaviour, hot: r.once_in(2), pending: r.once_in(2) };
        let (high, low) = r.limits();
        let samples = r.samples((high, low));
        let after = d.run(watch, &samples, high, low);
        let in_turn = samples.iter().fold(watch, |watch, steps| d.sample(watch, *steps, high, low).1);
        hold(after == in_turn, "a run is its samples in turn", &(watch, &samples, high, low));
    }
}

/// Plans, ordered or not, and the same bytes in an image: all T. A short body asks nothing. "A
/// table value is its register's writable bits, all other bits counting as zero": the image asks
/// what a plan of these asks.
pub fn plans<S: Subject>(d: &mut Driver<S>, r: &mut Random, rounds: usize) {
    for _ in 0..rounds {
        let mut draft = r.plan();
        let judged = d.judge(draft.plan());
        let planned = d.asked_of_plan_at_all(draft.plan());
        let registers = match model::registers(draft.chip, draft.table) {
            Some(registers) if judged != 5 && judged != 16 => registers,
            _ => {
                hold(planned == vec![(judged, 0); 256], "nothing is asked", &draft);
                continue;
            }
        };
        let mut image = r.bytes(model::image_length(draft.chip));
        put(&mut image, registers, draft.plan().values());
        let held = d.asked_of_image_at_all(draft.chip, draft.table, &image);
        let before = draft.body.clone();
        let bits = model::masks(draft.chip, draft.table).unwrap();
        draft.values_mut().iter_mut().zip(bits).for_each(|(byte, bits)| *byte &= bits);
        let planned = if draft.body == before { planned } else { d.asked_of_plan_at_all(draft.plan()) };
        hold(planned == held, "plan and image ask the same", &(&draft, before));
    }
    // "Asking a speed of an image checks 3, 4 and 8."
    for _ in 0..rounds {
        let chip = r.chip();
        let table = r.table(chip);
        let image = r.image(chip);
        d.asked_of_image(chip, table, &image, r.byte());
    }
}

/// Bodies in order or not, cut at every length, with outputs and images that could be refused
/// too: 5 comes before 6 to 10, and what is lent holds what it held.
pub fn cut_bodies<S: Subject>(d: &mut Driver<S>, r: &mut Random, rounds: usize) {
    for _ in 0..rounds {
        let mut draft = r.good_plan();
        if r.once_in(2) {
            r.unordered(&mut draft);
        }
        let Draft { chip, table, body } = draft;
        for end in 0..body.len() {
            let plan = Plan { chip, table, body: &body[..end] };
            let mut out = vec![r.byte(); r.length()];
            let mut image = r.image(chip);
            let answers = [
                d.write_record(plan, &mut out),
                d.script(plan, &mut out),
                d.play(plan, &mut image, r.below(28)),
            ];
            hold(answers == [(5, 0); 3], "a body that is cut short", &(plan, answers));
            hold(d.asked_of_plan(plan, r.byte()) == (5, 0), "it asks nothing", &plan);
        }
    }
}

/// Records read and written, scripts, with outputs of all lengths.
pub fn records<S: Subject>(d: &mut Driver<S>, r: &mut Random, rounds: usize) {
    for _ in 0..rounds {
        let bytes = r.record();
        let (refusal, chip, table, body, used) = d.read_record(&bytes);
        if refusal == 0 {
            let mut out = [0; 20];
            let written = d.write_record(Plan { chip, table, body: &body }, &mut out);
            hold(written == (0, used), "what is read is written", &bytes);
            hold(out[..used] == bytes[..used], "the same bytes", &bytes);
        }
        let draft = r.plan();
        let mut out = vec![r.byte(); r.length()];
        let (refusal, count) = d.write_record(draft.plan(), &mut out);
        if refusal == 0 {
            let (_, chip, table, body, used) = d.read_record(&out);
            let own = &draft.body[..count - 4];
            let equal = (chip, table, &body[..count - 4], used) == (draft.chip, draft.table, own, count);
            hold(equal, "plans come back equal from their record", &draft);
        }
        let mut out = vec![r.byte(); r.length()];
        d.script(draft.plan(), &mut out);
    }
}

/// Plays of any plan on any image with any number of writes.
pub fn plays<S: Subject>(d: &mut Driver<S>, r: &mut Random, rounds: usize) {
    for _ in 0..rounds {
        let draft = r.plan();
        let chip = if r.once_in(9) { r.chip() } else { draft.chip };
        let mut image = r.image(chip);
        let count = match r.below(8) {
            0 => [0, 1, 12, 13, 14, 15, 24, 25, 26][r.below(9)],
            1 => [255, 256, 257, 65536, 65539, usize::MAX / 2 + 1, usize::MAX - 1, usize::MAX][r.below(8)],
            _ => r.below(28),
        };
        d.play(draft.plan(), &mut image, count);
    }
}

/// What is asked at every T, as the driver answers it.
type Asked = [(u32, u16)];

/// Whether `now` is at no T slower than the slower of `before` and `planned`: "More duty is faster; a
/// smaller count is faster."
pub fn nowhere_slower(chip: u8, now: &Asked, before: &Asked, planned: &Asked) -> bool {
    let duties = chip_of(chip).unwrap().curve == Curve::Slope;
    (0..256).all(|t| match duties {
        true => now[t].1 >= before[t].1.min(planned[t].1),
        false => now[t].1 <= before[t].1.max(planned[t].1),
    })
}

/// Whether no image on the way is slower, at any T, than the slower of old and plan.
pub fn never_slower<S: Subject>(d: &mut Driver<S>, plan: Plan, old: &[u8], script: &[u8]) -> bool {
    let planned = d.asked_of_plan_at_all(plan);
    let before = d.asked_of_image_at_all(plan.chip, plan.table, old);
    let mut image = old.to_vec();
    script.chunks(2).all(|pair| {
        d.write(plan.chip, &mut image, pair[0], pair[1]);
        let now = d.asked_of_image_at_all(plan.chip, plan.table, &image);
        nowhere_slower(plan.chip, &now, &before, &planned)
    })
}

/// Puts values into registers, all bits of them.
pub fn put(image: &mut [u8], registers: &[usize], values: &[u8]) {
    registers.iter().zip(values).for_each(|(at, byte)| image[*at] = *byte);
}

/// An old image that the plan's chip confirms. Its curve is that of power-on, of another good
/// plan, or any bytes; where there are banks the bank select register holds any byte.
pub fn old<S: Subject>(d: &mut Driver<S>, r: &mut Random, plan: Plan, round: usize) -> Vec<u8> {
    let mut image = match round % 4 {
        0 => power_on(d, plan.chip),
        _ => r.confirmed(plan.chip),
    };
    if round % 4 == 1 {
        let registers = model::registers(plan.chip, plan.table).unwrap();
        put(&mut image, registers, Plan { body: &r.ordered(plan.chip), ..plan }.values());
    }
    if let Some(banks) = &chip_of(plan.chip).unwrap().banks {
        image[usize::from(banks.select)] = r.next() as u8;
    }
    image
}

/// The writes of a chip's script.
pub fn writes_of(chip: u8) -> usize {
    [13, 24, 0, 14, 25][usize::from(chip) - 1]
}

/// What the bank select register may do: where it stands, the bits that can't be written there, and
/// the bank that the script's first `cut` writes leave selected, of which there is one at least.
/// Chip 5 has critical, its 17th write, in bank 0, and the selects are its 1st, 16th and 18th.
fn selecting(draft: &Draft, cut: usize) -> Option<(usize, u8, u8)> {
    match (draft.chip, draft.table, cut) {
        (4, 1..=4, _) => Some((0xFF, 0xF8, 3)),
        (4, _, _) => Some((0xFF, 0xF8, 4)),
        (5, _, 16 | 17) => Some((0x00, 0x78, 0)),
        (5, _, _) => Some((0x00, 0x78, 2)),
        _ => None,
    }
}

/// Demand 3 by brute force at all cuts: never slower than the slower of old and plan at every T,
/// exactly the plan after the last write, every byte outside the table as before; "demand 3 lets
/// the bank select register change as well". Chip 5's "fan table is the registers the record fills,
/// in whichever bank": critical is one of them for each of its tables.
pub fn cuts<S: Subject>(d: &mut Driver<S>, r: &mut Random, chip: u8, rounds: usize) {
    for round in 0..rounds {
        let draft = r.good_plan_of(chip);
        let plan = draft.plan();
        let old = old(d, r, plan, round);
        let mut script = [0; SCRIPT];
        let (refusal, writes) = d.script(plan, &mut script);
        hold((refusal, writes) == (0, writes_of(chip)), "lengths 13, 24, 14 and 25", &draft);
        hold(never_slower(d, plan, &old, &script[..2 * writes]), "never slower", &(&draft, &old));
        let registers = model::registers(draft.chip, draft.table).unwrap();
        let bits = model::masks(draft.chip, draft.table).unwrap();
        let mut stage = old.clone();
        for cut in (0..writes + 3).chain([255, usize::MAX]) {
            let mut image = old.clone();
            let made = d.play(plan, &mut image, cut);
            hold(made == (0, cut.min(writes)), "writes made", &(&draft, cut));
            if (1..=writes).contains(&cut) {
                d.write(draft.chip, &mut stage, script[2 * cut - 2], script[2 * cut - 1]);
            }
            hold(image == stage, "the first writes of the script", &(&draft, cut));
            if cut == writes {
                let mut values = registers.iter().zip(&bits).zip(plan.values());
                let there = values.all(|((at, bits), byte)| image[*at] == old[*at] & !bits | byte);
                hold(there, "the plan's bytes", &(&draft, &image));
                let now = d.asked_of_image_at_all(draft.chip, draft.table, &image);
                hold(now == d.asked_of_plan_at_all(plan), "exactly the plan", &draft);
            }
            registers.iter().for_each(|at| image[*at] = old[*at]);
            if let Some((select, kept, bank)) = selecting(&draft, cut).filter(|_| cut > 0) {
                hold(image[select] == old[select] & kept | bank, "the bank selected", &(&draft, cut));
                image[select] = old[select];
            }
            hold(image == old, "every byte outside the table as before", &(&draft, cut));
        }
    }
}

/// Every byte of the bank select register before a play, at all cuts: "whichever bank was
/// selected", the play leaves what it leaves from power-on, but for that register itself.
pub fn selects<S: Subject>(d: &mut Driver<S>, r: &mut Random) {
    for (chip, table) in [(4, 1), (4, 5), (4, 10), (5, 1), (5, 6)] {
        let draft = Draft { chip, table, body: r.ordered(chip) };
        let reset = power_on(d, chip);
        for cut in 0..=writes_of(chip) + 1 {
            let (select, kept, bank) = selecting(&draft, cut).unwrap();
            let mut want = reset.clone();
            d.play(draft.plan(), &mut want, cut);
            for before in 0..=255 {
                let mut image = reset.clone();
                image[select] = before;
                d.play(draft.plan(), &mut image, cut);
                want[select] = if cut == 0 { before } else { before & kept | bank };
                hold(image == want, "whichever bank was selected", &(&draft, cut, before));
            }
        }
    }
}

/// The program's text, put together from single answers.
fn text_of<S: Subject>(d: &mut Driver<S>, input: &[u8]) -> String {
    if input.len() > INPUT {
        return "input too long\n".to_string();
    }
    let (mut text, mut at, mut plans) = (String::new(), 0, 0);
    while at < input.len() {
        plans += 1;
        let (refusal, chip, table, body, used) = d.read_record(&input[at..]);
        let mut out = [0; SCRIPT];
        let (other, writes) = d.script(Plan { chip, table, body: &body }, &mut out);
        let refusal = if refusal == 0 { other } else { refusal };
        if refusal != 0 {
            return text + &format!("plan {} refused {}\n", plans, refusal);
        }
        text += &format!("plan {} chip {} table {} writes {}\n", plans, chip, table, writes);
        for pair in out[..2 * writes].chunks(2) {
            text += &format!("{:02X} {:02X}\n", pair[0], pair[1]);
        }
        at += used;
    }
    text + &format!("end {}\n", plans)
}

/// Whole translations, short and long, with outputs that are exact, short and long.
pub fn texts<S: Subject>(d: &mut Driver<S>, r: &mut Random, rounds: usize) {
    let mut large = vec![0xEE; TEXT];
    for round in 0..rounds {
        let input = match (round % 30, r.below(3)) {
            (0, 0) => r.input(4096),
            (0, 1) => r.bytes(4097),
            (0, _) => r.input(5000),
            (1, _) => r.input(3000),
            (_, 0) => r.record(),
            _ => {
                let length = r.length();
                r.input(length)
            }
        };
        let want = text_of(d, &input);
        large[..].fill(0xEE);
        let (refusal, length) = d.translate(&input, &mut large);
        hold(refusal == 0 && &large[..length] == want.as_bytes(), "the text", &input);
        hold(large[length..].iter().all(|byte| *byte == 0xEE), "the tail is kept", &input);
        for space in [0, length - 1, length, length + 1, r.length()] {
            let mut out = vec![0xEE; space];
            let (refusal, _) = d.translate(&input, &mut out);
            hold((refusal == 9) == (space < length), "9 exactly when it is shorter", &(&input, space));
        }
    }
}
