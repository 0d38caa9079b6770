//! Register images, a part of the model: "Byte writes, reads and resets check 3 and 8." The state
//! of chip 3 is the image and, beside it, the watch: a read, a reset and a sample take both.

use crate::chips::{chip_of, Bit, Chip, Monitor};
use crate::readings::{acknowledge, bytes_of, microvolts, output, sample, Watch};

/// The chip of an image, or 3, or 8, which "asks its own image length" of a chip with banks.
pub fn image_of(chip: u8, length: usize) -> Result<&'static Chip, u32> {
    let chip = chip_of(chip).ok_or(3u32)?;
    if length == chip.card.len() {
        Ok(chip)
    } else {
        Err(8)
    }
}

/// Where in the image an access to an address lands. "An image holds all banks, one after the
/// other; a register seen in every bank stands in bank 0's page only." "The bank selected is what
/// the bank bits of the bank select register say, whatever its other bits hold." A bank the sheet
/// lacks would stand past the image: there nothing answers.
fn place(chip: &Chip, image: &[u8], address: u8) -> Option<usize> {
    let bank = match &chip.banks {
        Some(banks) if !banks.everywhere.contains(&address) => {
            usize::from(image[usize::from(banks.select)] & banks.bits)
        }
        _ => 0,
    };
    Some(256 * bank + usize::from(address)).filter(|at| *at < image.len())
}

/// "A byte write to an address replaces the writable bits, clears those clear bits where a
/// 1 is written, and keeps the others. Every other address keeps its byte", but where a write sets
/// the initialization bit. In a bank the sheet lacks "writes change nothing".
pub fn write(chip: u8, image: &mut [u8], address: u8, byte: u8) -> u32 {
    let chip = match image_of(chip, image.len()) {
        Ok(chip) => chip,
        Err(refusal) => return refusal,
    };
    if let Some(at) = place(chip, image, address) {
        let (writable, clears, _) = chip.card[at];
        let kept = image[at] & !writable & !(clears & byte);
        image[at] = kept | (byte & writable);
        if let Some(own) = chip.initialization.as_ref().filter(|own| own.at == at) {
            image[at] &= !own.zero;
            if byte & own.bit != 0 {
                initialize(chip, image);
            }
        }
    }
    0
}

/// "All writable bits of the card [...] have power-on values; read-only bits [...] stay."
fn initialize(chip: &Chip, image: &mut [u8]) {
    for (byte, (writable, _, power_on)) in image.iter_mut().zip(chip.card) {
        *byte = *byte & !writable | power_on & writable;
    }
}

/// "A read of 01h or 02h gives the byte, then clears that register, and is the acknowledge", also
/// where the byte was 00h. "Every other read changes nothing." In a bank the sheet lacks "reads
/// give 0". "A refused read clears nothing."
pub fn read(chip: u8, image: &mut [u8], watch: Watch, address: u8) -> (u32, u8, Watch) {
    let chip = match image_of(chip, image.len()) {
        Ok(chip) => chip,
        Err(refusal) => return (refusal, 0, watch),
    };
    let at = match place(chip, image, address) {
        Some(at) => at,
        None => return (0, 0, watch),
    };
    let byte = image[at];
    match chip.monitor {
        Some(monitor) if monitor.status.contains(&at) => {
            image[at] = 0;
            (0, byte, acknowledge(watch))
        }
        _ => (0, byte, watch),
    }
}

/// "Reset fills the image with the power-on column." "A reset turns both facts off" and keeps the
/// behaviour; of a chip that takes no samples the watch comes back as it was.
pub fn reset(chip: u8, image: &mut [u8], watch: Watch) -> (u32, Watch) {
    let chip = match image_of(chip, image.len()) {
        Ok(chip) => chip,
        Err(refusal) => return (refusal, watch),
    };
    for (byte, row) in image.iter_mut().zip(chip.card) {
        *byte = row.2;
    }
    match chip.monitor {
        Some(_) => (0, Watch { hot: false, pending: false, ..watch }),
        None => (0, watch),
    }
}

/// "A sample is a temperature and seven voltage words", of chip 3. It "sets, never clears, status
/// bits". Refused "8, then 12 (also where the temperature is disabled)".
pub fn sample_image(image: &mut [u8], watch: Watch, steps: i16, words: [u16; 7]) -> (u32, Watch) {
    let monitor = match image_of(3, image.len()) {
        Ok(chip) => chip.monitor.unwrap(),
        Err(refusal) => return (refusal, watch),
    };
    if !(-2048..=2047).contains(&steps) {
        return (12, watch);
    }
    for (n, word) in words.into_iter().enumerate() {
        voltage(monitor, image, n, word);
    }
    (0, temperature(monitor, image, watch, steps))
}

/// "Channels disabled at 08h read 0 and raise nothing."
fn disabled(monitor: &Monitor, image: &[u8], channel: u8) -> bool {
    image[monitor.channels] & channel != 0
}

fn raise(image: &mut [u8], (at, bit): Bit) {
    image[at] |= bit;
}

/// "High bytes only, at 20h to 26h." "A voltage counts when strictly above its high or strictly
/// below its low limit, both scaled as that sheet says": of 2.56 V ten bits count 2.5 mV, and the
/// eight bits of a limit 10 mV.
fn voltage(monitor: &Monitor, image: &mut [u8], n: usize, word: u16) {
    let input = &monitor.voltages[n];
    if disabled(monitor, image, input.channel) {
        image[input.reading] = 0;
        return;
    }
    image[input.reading] = word.to_be_bytes()[0];
    let limit = |at: usize| 10_000 * u32::from(image[at]);
    if microvolts(word) > limit(input.high) || microvolts(word) < limit(input.low) {
        raise(image, input.status);
    }
}

/// "Stored at 27h and 06h": the high byte, and the low byte's bits 7 to 4; "bits 3 to 0 of 06h
/// stay". "02h bit 0 where the watch, fed with limits 38h and 39h as signed whole degrees, has its
/// output on; 02h bit 5 where the temperature is strictly above 3Ah in whole degrees." "A disabled
/// temperature does not feed the watch, and both facts stay."
fn temperature(monitor: &Monitor, image: &mut [u8], watch: Watch, steps: i16) -> Watch {
    let own = &monitor.temperature;
    let off = disabled(monitor, image, own.channel);
    let (_, high, low) = bytes_of(12, if off { 0 } else { steps });
    image[own.reading] = high;
    image[own.rest] = low | image[own.rest] & 0x0F;
    if off {
        return watch;
    }
    let (_, watch) = sample(watch, steps, image[own.high] as i8, image[own.hysteresis] as i8);
    if output(watch) {
        raise(image, own.status);
    }
    if steps > 16 * i16::from(image[own.os_high] as i8) {
        raise(image, own.os_status);
    }
    watch
}

/// "Confirmed means all of them", in bank 0's page whichever bank is selected. Refusal 10 "for
/// chip 3 always: it has no identity rule here".
pub fn identity(chip: u8, image: &[u8]) -> u32 {
    let chip = match image_of(chip, image.len()) {
        Ok(chip) => chip,
        Err(refusal) => return refusal,
    };
    match chip.identity {
        Some(bits) if bits.iter().all(|(at, mask, held)| held.admits(image[*at] & mask)) => 0,
        _ => 10,
    }
}
