//! Part of the model: the program's text.

use crate::model::{read_record, script, Plan, SCRIPT};

/// "The program reads plan records from standard input, at most 4,096 bytes."
pub const INPUT: usize = 4096;

fn push_decimal(text: &mut Vec<u8>, number: usize) {
    if number >= 10 {
        push_decimal(text, number / 10);
    }
    text.push(b'0' + (number % 10) as u8);
}

/// Two digits each, as in the paper's example: `A5 FF`.
fn push_write(text: &mut Vec<u8>, address: u8, byte: u8) {
    let high = |byte: u8| b"0123456789ABCDEF"[usize::from(byte >> 4)];
    let low = |byte: u8| b"0123456789ABCDEF"[usize::from(byte & 15)];
    text.extend_from_slice(&[high(address), low(address), b' ', high(byte), low(byte), b'\n']);
}

fn push_part(text: &mut Vec<u8>, words: &[u8], number: usize) {
    text.extend_from_slice(words);
    push_decimal(text, number);
}

/// "It prints a header line per plan (plan number from 1, chip, table, writes, decimal), one
/// line per write (address and byte in hexadecimal), and, when no byte is left, `end` with the
/// number of plans. At a refusal it prints `plan N refused R` and stops. Empty input prints
/// `end 0`." Every line, the last one too, ends with a line feed.
fn text_of(input: &[u8]) -> Vec<u8> {
    // "At most 4,096 bytes (longer: the single line `input too long`)."
    if input.len() > INPUT {
        return b"input too long\n".to_vec();
    }
    let mut text = Vec::with_capacity(16 + 11 * input.len());
    let mut rest = input;
    let mut plans = 0;
    while !rest.is_empty() {
        let mut writes_out = [0; SCRIPT];
        let (mut refusal, chip, table, body, used) = read_record(rest);
        let mut writes = 0;
        if refusal == 0 {
            let plan = Plan { chip, table, body: &body };
            let answer = script(plan, &mut writes_out);
            refusal = answer.0;
            writes = answer.1;
        }
        push_part(&mut text, b"plan ", plans + 1);
        if refusal != 0 {
            push_part(&mut text, b" refused ", refusal as usize);
            text.push(b'\n');
            return text;
        }
        push_part(&mut text, b" chip ", usize::from(chip));
        push_part(&mut text, b" table ", usize::from(table));
        push_part(&mut text, b" writes ", writes);
        text.push(b'\n');
        for pair in writes_out[..2 * writes].chunks(2) {
            push_write(&mut text, pair[0], pair[1]);
        }
        plans += 1;
        rest = &rest[used..];
    }
    push_part(&mut text, b"end ", plans);
    text.push(b'\n');
    text
}

/// The text and its length; 9, "the output buffer is shorter than the result", alters nothing.
/// "An output longer than the result keeps its tail."
pub fn translate(input: &[u8], out: &mut [u8]) -> (u32, usize) {
    let text = text_of(input);
    if out.len() < text.len() {
        return (9, 0);
    }
    out[..text.len()].copy_from_slice(&text);
    (0, text.len())
}
