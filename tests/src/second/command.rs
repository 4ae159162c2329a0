//! What the command prints (R9.13, R10.1 to R10.5).

use super::saved::{load, take};
use super::step;
use crate::machine::{Machine, Step, VECTORS_SIZE};
use std::fmt::Write;

pub const CODE_LIMIT: usize = 4096;
pub const MEMORY_LIMIT: usize = 32_768;

/// All that stands on standard output after the command has read the input.
pub fn output(input: &[u8]) -> String {
    match parts(input) {
        Some((machine, code, memory)) => run(machine, code, memory),
        // R10.2: whatever is wrong with it
        None => "bad input\n".to_string(),
    }
}

/// R10.1: the state, the code and the memory, where none of them is missing, too long or wrong.
fn parts(input: &[u8]) -> Option<(Machine, &[u8], &[u8])> {
    let (saved, rest) = input.split_at_checked(saved_size(input)?)?;
    let machine = load(saved, VECTORS_SIZE).ok()?;
    let (length, rest) = rest.split_at_checked(2)?;
    let length = 256 * usize::from(length[0]) + usize::from(length[1]);
    if length > CODE_LIMIT {
        return None;
    }
    let (code, memory) = rest.split_at_checked(length)?;
    if memory.len() > MEMORY_LIMIT {
        return None;
    }
    Some((machine, code, memory))
}

/// R9.13: how many bytes the saved form in front has, by its own length field.
pub fn saved_size(input: &[u8]) -> Option<usize> {
    let following = take(&mut &input[..], 4)?;
    usize::try_from(4 + following).ok()
}

/// R10.3, R10.4, R10.5: a line for each step, and the last.
fn run(machine: Machine, code: &[u8], memory: &[u8]) -> String {
    let mut text = String::new();
    let mut next = Step {
        machine,
        code: Vec::new(),
        memory: memory.to_vec(),
    };
    let mut offset = 0;
    while offset < code.len() {
        next.code = code[offset..].to_vec();
        let outcome = step(&next);
        next = outcome.after;
        let (number, control) = (outcome.answer.number, next.machine.control);
        writeln!(text, "{offset} {number} {control:08x}").expect("a string takes all");
        // R4.17: with a refusal the length is 0, so the offset stays.
        offset += outcome.answer.length as usize;
        if number != 0 {
            break;
        }
    }
    writeln!(text, "stop {offset}").expect("a string takes all");
    text
}
