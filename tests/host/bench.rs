//! The benchmark: medians over repeated runs of library and model in turn, and their ratio. Both
//! must add up to the same sums.

use crate::model::{Plan, Watch, INPUT, NEW, SCRIPT};
use crate::random::{Draft, Random, PLANNED};
use crate::subject::{Model, Subject};
use std::time::Instant;

const RUNS: usize = 41;
const WORK: usize = 64;

/// The chips whose calls are timed together.
type Chips = &'static [u8];

/// What every run works on.
struct Ground {
    chips: Chips,
    plans: Vec<Draft>,
    records: Vec<Vec<u8>>,
    images: Vec<Vec<u8>>,
    writes: Vec<(u8, u8)>,
    reads: Vec<u8>,
    samples: Vec<(i16, [u16; 7])>,
    input: Vec<u8>,
    text: Vec<u8>,
}

fn ground(seed: u64, chips: Chips) -> Ground {
    let r = &mut Random::new(seed);
    let turns = || chips.iter().copied().cycle().take(WORK);
    // Chip 3 has no fan table, and so no plan.
    let planned = turns().filter(|chip| PLANNED.contains(chip));
    let plans: Vec<Draft> = planned.map(|chip| r.good_plan_of(chip)).collect();
    // 160 records of chip 1 and 112 of chip 2 are exactly 4,096 bytes.
    let mut input = Vec::new();
    for k in 0..272 {
        let chip = if k % 17 < 10 { 1 } else { 2 };
        input.extend(Draft { chip, table: 1 + (k % 2) as u8, body: r.ordered(chip) }.record());
    }
    assert_eq!(input.len(), INPUT);
    Ground {
        chips,
        records: plans.iter().map(|plan| plan.record()).collect(),
        images: turns().map(|chip| r.confirmed(chip)).collect(),
        // Without bit 7, which at 00h of chip 3 initializes: that is timed by itself.
        writes: (0..WORK).map(|_| (r.byte(), r.byte() & 0x7F)).collect(),
        // The status registers among them.
        reads: (0..WORK).map(|_| r.address()).collect(),
        samples: (0..WORK)
            .map(|_| (r.below(4096) as i16 - 2048, [0; 7].map(|_: u16| r.next() as u16)))
            .collect(),
        plans,
        input,
        text: vec![0; 1 << 16],
    }
}

type Job<S> = fn(&S, &mut Ground) -> u64;

fn writes<S: Subject>(s: &S, g: &mut Ground) -> u64 {
    let mut sum = 0;
    for (image, chip) in g.images.iter_mut().zip(g.chips.iter().cycle()) {
        for (address, byte) in &g.writes {
            // The identity registers stay as they are: no row of theirs has a mask.
            sum += u64::from(s.write(*chip, image, *address, *byte));
            sum += u64::from(image[usize::from(*address)]);
        }
    }
    sum
}

fn initializations<S: Subject>(s: &S, g: &mut Ground) -> u64 {
    g.images.iter_mut().map(|image| u64::from(s.write(3, image, 0x00, 0x80)) + u64::from(image[0x05])).sum()
}

fn resets<S: Subject>(s: &S, g: &mut Ground) -> u64 {
    let mut sum = 0;
    for (image, chip) in g.images.iter_mut().zip(g.chips.iter().cycle()) {
        let (refusal, watch, _) = s.reset(*chip, image, NEW);
        sum += u64::from(refusal) + u64::from(watch.hot) + u64::from(image[0]);
    }
    sum
}

fn reads<S: Subject>(s: &S, g: &mut Ground) -> u64 {
    let (mut sum, mut watch) = (0, NEW);
    for (image, chip) in g.images.iter_mut().zip(g.chips.iter().cycle()) {
        for address in &g.reads {
            let (refusal, byte, after, output) = s.read(*chip, image, watch, *address);
            sum += u64::from(refusal) + u64::from(byte) + u64::from(output);
            watch = after;
        }
    }
    sum
}

fn samples<S: Subject>(s: &S, g: &mut Ground) -> u64 {
    let (mut sum, mut watch) = (0, NEW);
    for image in &mut g.images {
        for (steps, words) in &g.samples {
            let (refusal, after, output) = s.sample_image(image, watch, *steps, *words);
            sum += u64::from(refusal) + u64::from(output) + u64::from(image[0x01]) + u64::from(image[0x27]);
            watch = Watch { pending: false, ..after };
        }
    }
    sum
}

fn identities<S: Subject>(s: &S, g: &mut Ground) -> u64 {
    let mut sum = 0;
    for chip in g.chips {
        sum += g.images.iter().map(|image| u64::from(s.identity(*chip, image))).sum::<u64>();
    }
    sum
}

fn records<S: Subject>(s: &S, g: &mut Ground) -> u64 {
    let mut sum = 0;
    for record in &g.records {
        let (refusal, chip, table, body, used) = s.read_record(record);
        sum += u64::from(refusal) + u64::from(chip) + u64::from(table) + used as u64;
        sum += body.iter().map(|byte| u64::from(*byte)).sum::<u64>();
    }
    sum
}

fn scripts<S: Subject>(s: &S, g: &mut Ground) -> u64 {
    let mut sum = 0;
    let mut out = [0; SCRIPT];
    for plan in &g.plans {
        let (refusal, writes) = s.script(plan.plan(), &mut out);
        sum += u64::from(refusal) + writes as u64;
        sum += out.iter().map(|byte| u64::from(*byte)).sum::<u64>();
    }
    sum
}

fn plays<S: Subject>(s: &S, g: &mut Ground) -> u64 {
    let mut sum = 0;
    for (plan, image) in g.plans.iter().zip(g.images.iter_mut()) {
        let Draft { chip, table, body } = plan;
        let plan = Plan { chip: *chip, table: *table, body };
        let (refusal, made) = s.play(plan, image, 99);
        sum += u64::from(refusal) + made as u64 + u64::from(image[0xA5]);
    }
    sum
}

fn texts<S: Subject>(s: &S, g: &mut Ground) -> u64 {
    let (refusal, length) = s.translate(&g.input, &mut g.text);
    u64::from(refusal) + length as u64 + u64::from(g.text[length / 2])
}

/// Nanoseconds per call of one run of `times` jobs, and its sum.
fn run<S: Subject>(s: &S, job: Job<S>, mut ground: Ground, times: usize, calls: usize) -> (f64, u64) {
    // SAFETY: a volatile read of a local. It hides the job, so that no work moves out of the loop.
    let job = unsafe { std::ptr::read_volatile(&job) };
    let mut sum = job(s, &mut ground);
    let start = Instant::now();
    for _ in 0..times {
        sum = sum.wrapping_add(job(s, &mut ground));
    }
    (start.elapsed().as_nanos() as f64 / (times * calls) as f64, sum)
}

fn median(mut times: Vec<f64>) -> f64 {
    times.sort_by(|a, b| a.partial_cmp(b).unwrap());
    times[times.len() / 2]
}

fn compare<S: Subject>(
    name: &str, s: &S, jobs: (Job<S>, Job<Model>), (seed, chips): (u64, Chips), times: usize, calls: usize,
) {
    let (mut subject, mut model) = (Vec::new(), Vec::new());
    for _ in 0..RUNS {
        let ours = run(s, jobs.0, ground(seed, chips), times, calls);
        let theirs = run(&Model, jobs.1, ground(seed, chips), times, calls);
        assert_eq!(ours.1, theirs.1, "{}: library and model differ", name);
        subject.push(ours.0);
        model.push(theirs.0);
    }
    let (subject, model) = (median(subject), median(model));
    println!("{:22} {:12.1} {:12.1} {:8.2}", name, subject, model, subject / model);
}

/// Prints a line per function: library and model in nanoseconds per call, and their ratio.
pub fn all<S: Subject>(s: &S, seed: u64) {
    println!("{:22} {:>12} {:>12} {:>8}", "median ns per call", "library", "model", "ratio");
    let grounds: [(&str, Chips); 3] = [("", &[1, 2]), (", chip 4", &[4]), (", chip 5", &[5])];
    for (whose, chips) in grounds {
        let name = |what: &str| format!("{}{}", what, whose);
        let from = (seed, chips);
        compare(&name("write"), s, (writes, writes), from, 50, WORK * WORK);
        compare(&name("identity"), s, (identities, identities), from, 500, chips.len() * WORK);
        compare(&name("record read"), s, (records, records), from, 500, WORK);
        compare(&name("script"), s, (scripts, scripts), from, 500, WORK);
        compare(&name("play"), s, (plays, plays), from, 500, WORK);
    }
    compare("write, chip 3", s, (writes, writes), (seed, &[3]), 50, WORK * WORK);
    compare("initialize, chip 3", s, (initializations, initializations), (seed, &[3]), 50, WORK);
    compare("reset, chip 3", s, (resets, resets), (seed, &[3]), 50, WORK);
    compare("read, chip 3", s, (reads, reads), (seed, &[3]), 50, WORK * WORK);
    compare("sample, chip 3", s, (samples, samples), (seed, &[3]), 50, WORK * WORK);
    compare("translate 4,096 bytes", s, (texts, texts), (seed, &[1, 2]), 20, 1);
}
