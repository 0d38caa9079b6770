//! Part of the model: temperature and voltage readings, and the alarm watch of chip 3.

// ---- Readings: "temperatures 11, and towards bytes then 12."

fn good_width(width: u8) -> bool {
    matches!(width, 8 | 9 | 11 | 12)
}

/// "Two bytes, taken as a 16-bit two's complement number and divided by 2 to the power 16
/// minus w, rounded towards minus infinity."
pub fn steps_of(width: u8, high: u8, low: u8) -> (u32, i16) {
    if !good_width(width) {
        return (11, 0);
    }
    let word = i32::from(i16::from_be_bytes([high, low]));
    let divisor = 1i32 << (16 - u32::from(width));
    (0, word.div_euclid(divisor) as i16)
}

/// "The other low bits are ignored on reading and written as zero."
pub fn bytes_of(width: u8, steps: i16) -> (u32, u8, u8) {
    if !good_width(width) {
        return (11, 0, 0);
    }
    let half = 1i32 << (u32::from(width) - 1);
    let steps = i32::from(steps);
    if steps < -half || steps >= half {
        return (12, 0, 0);
    }
    let word = (steps * (1i32 << (16 - u32::from(width)))) as i16;
    let [high, low] = word.to_be_bytes();
    (0, high, low)
}

/// "An NCT80 voltage word gives its bits 15 to 6 times 2,500 microvolts."
pub fn microvolts(word: u16) -> u32 {
    u32::from(word / 64) * 2500
}

// ---- Readings of chip 4, "with the low three bits right-aligned in the low byte"

/// Data sheet, section 7.1.10: the high byte is "11-bit 2's complement bit[10:3]", the low byte's
/// bits 2 to 0 are "bit[2:0]", its others "Reserved". A step is 1/8 degree.
pub fn right_steps(high: u8, low: u8) -> i16 {
    8 * i16::from(high as i8) + i16::from(low % 8)
}

/// "Towards bytes then 12": 11 bits hold -1,024 to 1,023. "The other low bits are ignored on
/// reading and written as zero."
pub fn right_bytes(steps: i16) -> (u32, u8, u8) {
    if !(-1024..=1023).contains(&steps) {
        return (12, 0, 0);
    }
    (0, steps.div_euclid(8) as u8, steps.rem_euclid(8) as u8)
}

/// Section 6.4: "VSEN1~14 : Voltage(V) = 11bitCountValue x 0.002", "3VSB, 3VDD, VBAT,
/// VSEN17,18,19 : Voltage(V) = 11bitCountValue x 0.006". An input is the address of its high byte
/// in bank 0, section 7.1.10; where none stands the answer is 0.
pub fn input_microvolts(input: u8, high: u8, low: u8) -> u32 {
    let step = match input {
        // VSEN1_HV to VSEN14_HV; the low bytes stand between them.
        0x40..=0x5A if input % 2 == 0 => 2000,
        // 3VDD_HV, VBAT_HV, V3VSB_HV; VSEN17_HV to VSEN19_HV. At 62h LTD_HV is a temperature.
        0x5C | 0x5E | 0x60 | 0x64 | 0x66 | 0x68 => 6000,
        _ => 0,
    };
    step * (8 * u32::from(high) + u32::from(low % 8))
}

// ---- The alarm watch (chip 3)

const DEFAULT: u8 = 0;
const ONE_TIME: u8 = 1;

/// "A watch has one of them for good, and two facts, hot and pending, both off at first."
#[derive(Clone, Copy, PartialEq, Eq, Debug)]
pub struct Watch {
    /// 0 default, 1 one-time, 2 comparator (and so for any other number).
    pub behaviour: u8,
    pub hot: bool,
    pub pending: bool,
}

/// A default watch, "both off at first": of the calls that take a watch and don't use it.
pub const NEW: Watch = Watch { behaviour: DEFAULT, hot: false, pending: false };

/// "An alarm sample is a 12-bit step count and may be refused by 12 only." "If the sample is
/// above the high limit, hot goes on; otherwise, if it is below the hysteresis limit, hot
/// goes off; otherwise hot stays. Then: in default, pending goes on if hot is on; in
/// one-time, only if hot went from off to on in this sample; in comparator, never."
pub fn sample(watch: Watch, steps: i16, high: i8, hysteresis: i8) -> (u32, Watch) {
    if !(-2048..=2047).contains(&steps) {
        return (12, watch);
    }
    // "Whole degrees, -128 to 127, each compared as 16 times as many steps."
    let hot = if steps > 16 * i16::from(high) {
        true
    } else if steps < 16 * i16::from(hysteresis) {
        false
    } else {
        watch.hot
    };
    let goes_on = match watch.behaviour {
        DEFAULT => hot,
        ONE_TIME => hot && !watch.hot,
        _ => false,
    };
    let pending = watch.pending || goes_on;
    (0, Watch { hot, pending, ..watch })
}

/// Recorded samples in turn. "A refused sample changes neither fact", and the run goes on.
pub fn run(watch: Watch, samples: &[i16], high: i8, hysteresis: i8) -> Watch {
    samples.iter().fold(watch, |watch, steps| sample(watch, *steps, high, hysteresis).1)
}

/// "An acknowledge turns pending off and keeps hot."
pub fn acknowledge(watch: Watch) -> Watch {
    Watch { pending: false, ..watch }
}

/// "The output is hot in comparator, pending in the other two."
pub fn output(watch: Watch) -> bool {
    match watch.behaviour {
        DEFAULT | ONE_TIME => watch.pending,
        _ => watch.hot,
    }
}
