//! "Restart after a hang": "Our service people simply play the script again when the bus comes
//! back." By brute force: every image that plays of one plan can leave, and every T.

use crate::chips::{chip_of, Chip};
use crate::driver::{hold, Driver};
use crate::model::{self, Plan};
use crate::random::{Draft, Random, PLANNED};
use crate::rounds::{nowhere_slower, old, put, writes_of};
use crate::subject::Subject;
use crate::tests::power_on;
use std::collections::BTreeSet;

type Images = BTreeSet<Vec<u8>>;

/// The pairs that are counted by hand, then as many drawn pairs of each chip.
pub fn restarts<S: Subject>(d: &mut Driver<S>, r: &mut Random, rounds: usize) {
    counted(d);
    for chip in PLANNED {
        let mut images = 0;
        for round in 0..rounds {
            let draft = draft(r, chip);
            let first = first(d, r, draft.plan(), round);
            images += restarted(d, draft.plan(), &first);
        }
        println!("restarts of chip {}: {} pairs, {} images", chip, rounds, images);
    }
}

/// One first image and "all plays of one plan": "a script cut anywhere, any number of times, and then
/// started afresh, never asks slower than the slower of the very first curve and the plan, and ends at
/// the plan when the last play completes". Every byte outside the table is as at first; "demand 3 lets
/// the bank select register change as well". Answers the number of images.
fn restarted<S: Subject>(d: &mut Driver<S>, plan: Plan, first: &[u8]) -> usize {
    let Plan { chip, table, .. } = plan;
    let pair = (plan, first);
    let writes = writes_of(chip);
    // The library and the model make each play and agree in it; then the model plays alone.
    let images = reached(first, writes, |image, count| d.play(plan, image, count));
    let alone = reached(first, writes, |image, count| model::play(plan, image, count));
    hold(images == alone, "the model reaches the same images", &pair);
    hold(images == foreseen(plan, first), "the images that the script's order lets through", &pair);
    let planned = d.asked_of_plan_at_all(plan);
    let before = d.asked_of_image_at_all(chip, table, first);
    let mut end = first.to_vec();
    d.play(plan, &mut end, writes);
    hold(d.asked_of_image_at_all(chip, table, &end) == planned, "an end exactly at the plan", &pair);
    let registers = model::registers(chip, table).unwrap();
    for image in &images {
        let now = d.asked_of_image_at_all(chip, table, image);
        hold(nowhere_slower(chip, &now, &before, &planned), "never slower after restarts", &(pair, image));
        let mut outside = image.clone();
        registers.iter().for_each(|at| outside[*at] = first[*at]);
        if let Some(select) = select_of(chip) {
            outside[select] = first[select];
        }
        hold(outside == first, "every byte outside the table as at first", &(pair, image));
        for count in [writes, writes + 1] {
            let mut last = image.clone();
            d.play(plan, &mut last, count);
            hold(last == end, "the same end after restarts", &(pair, image, count));
        }
    }
    images.len()
}

/// All images that any number of plays leaves, the first one too: each is played on with every number
/// of writes, from none to one above the script's length, until there is no new one. No play is refused.
fn reached(first: &[u8], writes: usize, mut play: impl FnMut(&mut [u8], usize) -> (u32, usize)) -> Images {
    let mut images = Images::from([first.to_vec()]);
    let mut left = vec![first.to_vec()];
    while let Some(image) = left.pop() {
        for count in 0..=writes + 1 {
            let mut next = image.clone();
            let made = play(&mut next, count);
            hold(made == (0, count.min(writes)), "writes made after restarts", &(&image, count, made));
            if images.insert(next.clone()) {
                left.push(next);
            }
        }
    }
    images
}

/// Where a chip's bank select register stands, if it has one.
fn select_of(chip: u8) -> Option<usize> {
    chip_of(chip)?.banks.as_ref().map(|banks| usize::from(banks.select))
}

/// The same images, worked out from the order of the script's writes. First the speeds go to full
/// speed one by one, then the temperatures to the plan's; a play started afresh up to here writes
/// again what stands there and goes on behind it. Then a play takes the speeds to the plan's from
/// the first on, and the next takes them to full speed from the first on, so that those at the
/// plan's are one stretch of neighbours. Where the next register lies in another bank, an image
/// with that bank selected comes before. A play started afresh selects the speeds' bank again, and
/// there it finds an image that it left before: critical is the last temperature, and no other
/// register lies apart from the speeds.
fn foreseen(plan: Plan, first: &[u8]) -> Images {
    let Chip { card, banks, temperatures, speeds, fastest, .. } = chip_of(plan.chip).unwrap();
    let registers = model::registers(plan.chip, plan.table).unwrap();
    let mut images = Images::from([first.to_vec()]);
    let mut move_to = |image: &mut Vec<u8>, k: usize, byte: u8| {
        let mut change = |at: usize, byte: u8| {
            image[at] = image[at] & !card[at].0 | byte;
            images.insert(image.clone());
        };
        if let Some(banks) = banks {
            change(usize::from(banks.select), (registers[k] / 256) as u8);
        }
        change(registers[k], byte);
    };
    let mut image = first.to_vec();
    speeds.iter().for_each(|k| move_to(&mut image, *k, *fastest));
    temperatures.iter().for_each(|k| move_to(&mut image, *k, plan.values()[*k]));
    for from in 0..speeds.len() {
        let mut image = image.clone();
        speeds[from..].iter().for_each(|k| move_to(&mut image, *k, plan.values()[*k]));
    }
    images
}

/// Pairs in which no speed byte, old or planned, is that of full speed and no old temperature is the
/// planned one, so that all images of `foreseen` differ. Chip 1 has the first one, 4 with one more speed
/// at full speed, 5 with one more temperature planned, and 4 + 3 + 2 + 1 stretches of speeds that are
/// planned: 20. Chip 2 has 1 + 10 + 4 + 55: 70. Chip 4 has those of chip 1 and, if the table's bank wasn't
/// selected, one in which nothing else is written: 21. Where the first curve is the plan's own, each image
/// on the way to full speed is a stretch too: 10 + 1 and 55 + 1 are left, and chip 4's one more.
///
/// Chip 5 has the first one, one with bank 2 selected if its select register held anything else, 7
/// and 7 on the way to full speed and to the temperatures, one with bank 0 selected, one with
/// critical planned too, one with bank 2 selected again, and 28 stretches, all in bank 2: 47 or 46.
/// Where the first curve is the plan's own: the first one, 28 stretches, all at full speed in bank
/// 2 and the same in bank 0: 31 or 30. Where critical alone is the planned one already, as another
/// table's plan may have left it, the image with it planned is that with bank 0 selected, and with
/// bank 2 again that of the last temperature: 45.
fn counted<S: Subject>(d: &mut Driver<S>) {
    let two = [65, 55, 45, 35, 11, 12, 13, 14, 15, 16, 17, 18, 19, 20];
    let (four, four_old) = ([65, 25, 35, 45, 55, 75, 85, 95, 105], [60, 20, 30, 40, 50, 70, 80, 90, 99]);
    let five = [7, 21, 31, 41, 51, 61, 71, 81, 91, 2, 4, 6, 8, 10, 12, 14];
    let five_old = [20, 30, 40, 50, 60, 70, 80, 90, 1, 3, 5, 7, 9, 11, 13];
    let mut five_left = five_old;
    five_left[7] = 91;
    let pairs: [(u8, u8, u8, &[u8], &[u8], [usize; 2]); 8] = [
        (1, 2, 0x00, &[20, 30, 40, 50, 60, 70, 80, 90, 99], &[25, 35, 45, 55, 65, 75, 85, 95, 105], [20, 11]),
        (2, 1, 0x00, &[60, 50, 40, 30, 1, 2, 3, 4, 5, 6, 7, 8, 9, 10], &two, [70, 56]),
        (4, 6, 0x03, &four_old, &four, [21, 12]),
        (4, 6, 0xFC, &four_old, &four, [20, 11]),
        (5, 6, 0x80, &five_old, &five, [47, 31]),
        // Bit 7 goes to zero, bits 6 to 3 stay.
        (5, 1, 0x82, &five_old, &five, [47, 31]),
        (5, 4, 0x7A, &five_old, &five, [46, 30]),
        (5, 2, 0x05, &five_left, &five, [45, 31]),
    ];
    for (chip, table, select, other, body, want) in pairs {
        let plan = Plan { chip, table, body };
        let registers = model::registers(chip, table).unwrap();
        let counts = [other, plan.values()].map(|curve| {
            let mut first = power_on(d, chip);
            put(&mut first, registers, curve);
            if let Some(at) = select_of(chip) {
                first[at] = select;
            }
            restarted(d, plan, &first)
        });
        hold(counts == want, "the number of images", &(plan, other, counts));
    }
}

/// A first image that the plan's chip confirms. Half of them are as for single cuts; in the others the
/// curve is the plan's own, the plan's with its speeds last to first, or one with all speeds 00h or FFh.
fn first<S: Subject>(d: &mut Driver<S>, r: &mut Random, plan: Plan, round: usize) -> Vec<u8> {
    let speeds = chip_of(plan.chip).unwrap().speeds;
    let registers = model::registers(plan.chip, plan.table).unwrap();
    let mut image = old(d, r, plan, round);
    let mut values = plan.values().to_vec();
    match round % 8 {
        4 => {}
        5 => speeds.iter().zip(speeds.iter().rev()).for_each(|(k, other)| values[*k] = plan.values()[*other]),
        6 | 7 => {
            values = registers.iter().map(|at| image[*at]).collect();
            speeds.iter().for_each(|k| values[*k] = [0x00, 0xFF][round % 2]);
        }
        _ => return image,
    }
    put(&mut image, registers, &values);
    image
}

/// An accepted plan, once in three with temperatures and speeds at the ends of their ranges.
fn draft(r: &mut Random, chip: u8) -> Draft {
    let mut draft = r.good_plan_of(chip);
    if r.once_in(3) {
        let Chip { temperatures, speeds, .. } = chip_of(chip).unwrap();
        let (degrees, levels) = ends(chip);
        let (degrees, levels) = (degrees[r.below(4)], levels[r.below(4)]);
        let values = draft.values_mut();
        temperatures.iter().zip(degrees).for_each(|(k, byte)| values[*k] = *byte);
        speeds.iter().zip(levels).for_each(|(k, byte)| values[*k] = *byte);
    }
    draft
}

/// Temperatures, critical last, and speeds, all of them accepted.
fn ends(chip: u8) -> ([&'static [u8]; 4], [&'static [u8]; 4]) {
    match chip {
        2 => (
            [&[3, 2, 1, 0], &[255, 2, 1, 0], &[255, 128, 127, 0], &[255, 254, 253, 252]],
            [
                &[0; 10],
                &[0, 0, 0, 0, 0, 0, 0, 0, 255, 255],
                &[0, 255, 1, 0, 1, 255, 2, 0, 2, 255],
                &[255; 10],
            ],
        ),
        5 => (
            [
                &[0, 1, 2, 3, 4, 5, 6, 6],
                &[0, 1, 2, 3, 4, 5, 6, 127],
                &[0, 1, 63, 64, 65, 126, 127, 127],
                &[121, 122, 123, 124, 125, 126, 127, 127],
            ],
            [&[0; 7], &[0, 0, 0, 0, 0, 0, 63], &[0, 63, 63, 63, 63, 63, 63], &[63; 7]],
        ),
        _ => (
            [
                &[0x80, 0x81, 0x82, 0x83, 0x83],
                &[0x80, 0x81, 0x82, 0x83, 0x7F],
                &[0x80, 0xFF, 0x00, 0x7F, 0x7F],
                &[0x7C, 0x7D, 0x7E, 0x7F, 0x7F],
            ],
            [&[0; 4], &[0, 0, 0, 255], &[0, 255, 255, 255], &[255; 4]],
        ),
    }
}
