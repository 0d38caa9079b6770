//! A plain model of the base, of chips 4 and 5 and of chip 3's initialization bit, samples and
//! status registers, written from the rules paper, the requests for these and the data sheets
//! alone. Every function answers every input. 0 means accepted; any other number is the paper's
//! refusal number. "A refusal returns its number and zero in every other part of the answer (a
//! watch comes back unchanged), and each lent buffer holds what it held."

use crate::chips::{chip_of, Chip, Curve, COUNTED, PLAIN};
use crate::images::image_of;
pub use crate::images::{identity, read, reset, sample_image, write};
pub use crate::readings::{
    acknowledge, bytes_of, input_microvolts, microvolts, output, right_bytes, right_steps, run,
    sample, steps_of, Watch, NEW,
};
pub use crate::text::{translate, INPUT};

/// The longest body: "9 bytes for chip 1, 14 for chip 2", 9 for chip 4, 16 for chip 5.
pub const BODY: usize = 16;
/// The most registers of a fan table: 15, of chip 5.
const TABLE: usize = 15;
/// The longest script: 25 writes, two bytes each, of chip 5.
pub const SCRIPT: usize = 50;

/// The bytes of a chip's image: 1,280 for chip 4, 768 for chip 5, else 256, also where there is no
/// such chip.
pub fn image_length(chip: u8) -> usize {
    chip_of(chip).map_or(256, |chip| chip.card.len())
}

/// The number of a chip's fan tables.
pub fn tables(chip: u8) -> usize {
    chip_of(chip).map_or(0, |chip| chip.tables.len())
}

// ---- Plans and what they ask

/// Chip, table and the body, which is what stands behind a record's fourth byte: 9 bytes for chip 1
/// (T1 to T4, critical, FL1 to FL4), 14 for chip 2 (B1 to B4, then C1 to C5, high byte first), 9
/// for chip 4 (critical, T1 to T4, P1 to P4), 16 for chip 5 (point count, T1 to T7, critical, FL1
/// to FL7). Fewer are refused with 5, further ones are ignored.
#[derive(Clone, Copy, Debug)]
pub struct Plan<'a> {
    pub chip: u8,
    pub table: u8,
    pub body: &'a [u8],
}

impl<'a> Plan<'a> {
    /// The bytes of the table's registers: the body behind a point count.
    pub fn values(&self) -> &'a [u8] {
        &self.body[chip_of(self.chip).map_or(0, Chip::head)..]
    }
}

/// A fan table that there is: its chip, and where its registers stand in the image, in the order
/// of the record.
#[derive(Clone, Copy)]
struct Table {
    chip: &'static Chip,
    registers: &'static [usize],
}

/// The bytes of a table's registers in that order, zeros behind them.
type Values = [u8; TABLE];

impl Table {
    /// The writable bits of register k.
    fn mask(&self, k: usize) -> u8 {
        self.chip.card[self.registers[k]].0
    }

    /// The bytes of a body that are looked at.
    fn body_length(&self) -> usize {
        self.chip.head() + self.registers.len()
    }
}

/// 3, the chip number is not 1, 2, 3, 4 or 5; 4, "the chip has no such fan table (chip 1: 1 to 3;
/// chip 2: 1 and 2; chip 3: none)", chip 4: 1 to 10, chip 5: 1 to 6.
fn table_of(chip: u8, table: u8) -> Result<Table, u32> {
    let chip = chip_of(chip).ok_or(3u32)?;
    let registers = chip.tables.get(usize::from(table).wrapping_sub(1)).ok_or(4u32)?;
    Ok(Table { chip, registers })
}

/// Where the registers of a table stand in the image, in the order of the record.
pub fn registers(chip: u8, table: u8) -> Option<&'static [usize]> {
    table_of(chip, table).ok().map(|table| table.registers)
}

/// The writable bits of these registers.
pub fn masks(chip: u8, table: u8) -> Option<Vec<u8>> {
    let table = table_of(chip, table).ok()?;
    Some((0..table.registers.len()).map(|k| table.mask(k)).collect())
}

/// The table of a plan and its registers' values. 3 and 4; then 16, "a chip 5 plan handed in that
/// carries a point count is refused 16 for it too", "if the count byte is there"; then 5, "if it is
/// missing or the body is cut": a plan comes with such a body too.
fn whole(plan: Plan) -> Result<(Table, Values), u32> {
    let table = table_of(plan.chip, plan.table)?;
    match (table.chip.count(), plan.body.first()) {
        (Some(want), Some(count)) if *count != want => return Err(16),
        _ => {}
    }
    let body = plan.body.get(..table.body_length()).ok_or(5u32)?;
    let mut values = [0; TABLE];
    values[..table.registers.len()].copy_from_slice(&body[table.chip.head()..]);
    Ok((table, values))
}

fn count(values: &Values, k: usize) -> u16 {
    u16::from_be_bytes([values[4 + 2 * k], values[5 + 2 * k]])
}

/// "Accepted if T1 < T2 < T3 < T4, T4 at most critical (else 6), and the duties never fall
/// from FL1 to FL4 (else 7)", over as many points as the table has. "Accepted if B1 > B2 > B3 > B4
/// (else 6) and counts never fall from C1 to C5 (else 7)." "6 and 7 also for a value its register's
/// writable bits can't hold."
fn order_refusal(table: Table, values: &Values) -> u32 {
    let chip = table.chip;
    let (temperatures, speeds) = match chip.curve {
        Curve::Slope => {
            let t = |k: usize| values[chip.temperatures[k]] as i8;
            let fl = |k: usize| values[chip.speeds[k]];
            let last = chip.speeds.len() - 1;
            let rising = (0..last).all(|k| t(k) < t(k + 1)) && t(last) <= t(last + 1);
            (rising, (0..last).all(|k| fl(k) <= fl(k + 1)))
        }
        Curve::Counts => {
            let falling = (0..3).all(|k| values[k] > values[k + 1]);
            (falling, (0..4).all(|k| count(values, k) <= count(values, k + 1)))
        }
    };
    let held = |k: &usize| values[*k] & !table.mask(*k) == 0;
    if !temperatures || !chip.temperatures.iter().all(held) {
        6
    } else if !speeds || !chip.speeds.iter().all(held) {
        7
    } else {
        0
    }
}

/// The checks of a plan: 3, 4, 16, 5, 6 and 7.
fn good(plan: Plan) -> Result<(Table, Values), u32> {
    let (table, values) = whole(plan)?;
    match order_refusal(table, &values) {
        0 => Ok((table, values)),
        refusal => Err(refusal),
    }
}

/// The same as a number, 0 for none.
pub fn judge(plan: Plan) -> u32 {
    good(plan).err().unwrap_or(0)
}

/// "255 if T is at least critical; else FL1 if T is at most T1; else for the first k in 2, 3,
/// 4 with T at most Tk, the floor of (FL(k-1) x (Tk - T) + FLk x (T - T(k-1))) /
/// (Tk - T(k-1)); else FL4", over as many points as the table has. Chip 5: "the greatest duty its
/// registers hold stands for 255".
fn duty(chip: &Chip, values: &Values, t: i8) -> u16 {
    let t = i32::from(t);
    let points = chip.speeds.len();
    let point = |k: usize| i32::from(values[chip.temperatures[k - 1]] as i8);
    let level = |k: usize| i32::from(values[chip.speeds[k - 1]]);
    let critical = point(points + 1);
    if t >= critical {
        return u16::from(chip.fastest);
    }
    if t <= point(1) {
        return level(1) as u16;
    }
    for k in 2..=points {
        if t <= point(k) {
            let sum = level(k - 1) * (point(k) - t) + level(k) * (t - point(k - 1));
            return sum.div_euclid(point(k) - point(k - 1)) as u16;
        }
    }
    level(points) as u16
}

/// "Ck for the first k in 1 to 4 with T above Bk, else C5."
fn asked_count(values: &Values, t: u8) -> u16 {
    for k in 0..4 {
        if t > values[k] {
            return count(values, k);
        }
    }
    count(values, 4)
}

/// "T comes as one byte, signed for chip 1 and unsigned for chip 2." Chip 4: "T comes signed, as
/// for chip 1"; chip 5: "table values and T are as there".
fn asked(chip: &Chip, values: &Values, t: u8) -> u16 {
    match chip.curve {
        Curve::Slope => duty(chip, values, t as i8),
        Curve::Counts => asked_count(values, t),
    }
}

/// "Asking a speed [...] of a plan [checks] 3 and 4, never 6 or 7"; of its body 16 and 5. A plan's
/// values are what it holds, also where no register could hold them.
pub fn asked_of_plan(plan: Plan, t: u8) -> (u32, u16) {
    match whole(plan) {
        Ok((table, values)) => (0, asked(table.chip, &values, t)),
        Err(refusal) => (refusal, 0),
    }
}

/// "Asking a speed of an image checks 3, 4 and 8." The curve is "the one its registers hold in their
/// own banks, whichever bank was selected; a table value is its register's writable bits, all
/// other bits counting as zero".
pub fn asked_of_image(chip: u8, table: u8, image: &[u8], t: u8) -> (u32, u16) {
    let table = match table_of(chip, table) {
        Ok(table) => table,
        Err(refusal) => return (refusal, 0),
    };
    if let Err(refusal) = image_of(chip, image.len()) {
        return (refusal, 0);
    }
    let mut values = [0; TABLE];
    for (k, at) in table.registers.iter().enumerate() {
        values[k] = image[*at] & table.mask(k);
    }
    (0, asked(table.chip, &values, t))
}

// ---- Plan record and script

/// "A record is a two-byte mark 43h 50h before each plan, chip, table, then the body in the
/// register order above." "A record with mark 43h 51h carries chip, table, a point count from 2 to
/// 8, that many temperatures, critical, and that many duties." The checks are 1 to 7 in the order
/// of the refusal table: the plan that the record holds is one of the reader's inputs. "2 admits
/// both marks"; "16, straight after 4, for a mark that doesn't go with the chip", then the checks
/// of its body. "The reader answers the plan and the bytes used, 13 or 18", 13 for chip 4, 20 for
/// chip 5; body bytes past the chip's own are zero.
pub fn read_record(bytes: &[u8]) -> (u32, u8, u8, [u8; BODY], usize) {
    let refused = |refusal: u32| (refusal, 0, 0, [0; BODY], 0);
    if bytes.len() < 4 {
        return refused(1);
    }
    let (mark, chip, table, rest) = ([bytes[0], bytes[1]], bytes[2], bytes[3], &bytes[4..]);
    if ![PLAIN.mark, COUNTED.mark].contains(&mark) {
        return refused(2);
    }
    match table_of(chip, table) {
        Ok(table) if table.chip.form.mark != mark => return refused(16),
        _ => {}
    }
    match good(Plan { chip, table, body: rest }) {
        Ok((place, _)) => {
            let length = place.body_length();
            let mut body = [0; BODY];
            body[..length].copy_from_slice(&rest[..length]);
            (0, chip, table, body, 4 + length)
        }
        Err(refusal) => refused(refusal),
    }
}

/// "Writing a plan record or a script checks the plan by 3, 4, 6, 7 and then 9", its body by 16 and
/// 5. "A chip 1 plan is always written in the old form, so a plan still has one encoding." "An
/// output longer than the result keeps its tail."
pub fn write_record(plan: Plan, out: &mut [u8]) -> (u32, usize) {
    let table = match good(plan) {
        Ok((table, _)) => table,
        Err(refusal) => return (refusal, 0),
    };
    let length = table.body_length();
    if out.len() < 4 + length {
        return (9, 0);
    }
    out[..2].copy_from_slice(&table.chip.form.mark);
    out[2..4].copy_from_slice(&[plan.chip, plan.table]);
    out[4..4 + length].copy_from_slice(&plan.body[..length]);
    (0, 4 + length)
}

/// The script of a good plan and its number of writes. "Chip 1: FL1 to FL4 to FFh, then T1 to T4,
/// critical, then FL1 to FL4 as planned; 13 writes. Chip 2: each high and low byte of C1 to C5 to
/// 00h in address order, then B1 to B4, then C1 to C5, high byte first; 24 writes." Chip 4: "Its
/// script goes as chip 1's, but selects a bank before the first write and again wherever the next
/// register lies in another bank"; "a script writes the bank's number there, all other bits zero".
/// Its tables lie in one bank each, so it has 14 writes. Chip 5: "critical may lie in another bank
/// than the points", so it selects before critical and again before the duties: 25 writes.
fn pairs(table: Table, values: &Values) -> ([[u8; 2]; SCRIPT / 2], usize) {
    let Table { chip, registers } = table;
    let mut script = [[0; 2]; SCRIPT / 2];
    let mut writes = 0;
    let mut put = |address: u8, byte: u8| {
        script[writes] = [address, byte];
        writes += 1;
    };
    let mut selected = None;
    for (order, byte) in [(chip.speeds, Some(chip.fastest)), (chip.temperatures, None), (chip.speeds, None)] {
        for k in order {
            let [bank, address] = (registers[*k] as u16).to_be_bytes();
            match &chip.banks {
                Some(banks) if selected != Some(bank) => put(banks.select, bank),
                _ => {}
            }
            selected = Some(bank);
            put(address, byte.unwrap_or(values[*k]));
        }
    }
    (script, writes)
}

/// "A script is pairs of address and byte." "The answer says how many writes."
pub fn script(plan: Plan, out: &mut [u8]) -> (u32, usize) {
    let (script, writes) = match good(plan) {
        Ok((table, values)) => pairs(table, &values),
        Err(refusal) => return (refusal, 0),
    };
    if out.len() < 2 * writes {
        return (9, 0);
    }
    for (out, pair) in out.chunks_exact_mut(2).zip(&script[..writes]) {
        out.copy_from_slice(pair);
    }
    (0, writes)
}

/// "Playing a script checks 3, 4, 6, 7, 8, 10 and no 9", the plan's body by 16 and 5. "Playing a
/// script looks [at the identity] once, before the first write." "A play also takes how many writes
/// to make; a number above the script's length means all. It answers how many it made."
pub fn play(plan: Plan, image: &mut [u8], count: usize) -> (u32, usize) {
    let (script, writes) = match good(plan) {
        Ok((table, values)) => pairs(table, &values),
        Err(refusal) => return (refusal, 0),
    };
    let refusal = identity(plan.chip, image);
    if refusal != 0 {
        return (refusal, 0);
    }
    let made = count.min(writes);
    for [address, byte] in &script[..made] {
        write(plan.chip, image, *address, *byte);
    }
    (0, made)
}
