//! The replay of a recorded run: what is reported of a recording (R14.1 to R14.7), and what the
//! program prints (R14.10).
//!
//! A recording is a saved form of a state, which ends where its length field says, and items up to
//! the end (R14.1). An item is a step as it was seen elsewhere (R14.2). Every number has its
//! highest byte first:
//!
//! | bytes | |
//! |---|---|
//! | 4 | the length of what follows |
//! | 1 | the version, 1 |
//! | 1 | the answer that is expected |
//! | 1 | how many bytes of code follow, at most 15 |
//! | 0 to 15 | the code |
//! | 2 | how many bytes of memory follow, at most 4,096 |
//! | 0 to 4,096 | the memory |
//! | 4 | the control word that is expected |
//! | 64 | the destination that is expected |

use super::command::saved_size;
use super::encoding::{decode, Destination};
use super::saved::{load, take};
use super::step;
use crate::machine::{Machine, Step, StepOutcome, REGISTER_SIZE, VECTORS_SIZE};
use std::fmt;

/// The most bytes of code and of memory in an item (R14.3).
pub const CODE_LIMIT: usize = 15;
pub const MEMORY_LIMIT: usize = 4096;

/// The version of an item (R14.3).
pub const ITEM_VERSION: u8 = 1;

/// The most bytes that the program takes (R14.10).
pub const INPUT_LIMIT: usize = 65_536;

/// What a replay reports (R14.7). Items are counted from 0.
#[derive(Clone, Copy, Debug, PartialEq, Eq)]
pub enum Report {
    /// Every item agrees; there are so many.
    Same(u64),
    /// The first item that is not as it should be is well formed, and does not agree.
    Differs(u64),
    /// It is not well formed.
    BadItem(u64),
    /// The state in front does not load.
    BadState,
}

impl Report {
    /// The number of the report in the C interface (R14.9).
    pub fn number(self) -> u64 {
        match self {
            Report::Same(_) => 0,
            Report::Differs(_) => 1,
            Report::BadItem(_) => 2,
            Report::BadState => 3,
        }
    }

    /// The number of the item, or of all items; 0 where none was looked at.
    pub fn item(self) -> u64 {
        match self {
            Report::Same(number) | Report::Differs(number) | Report::BadItem(number) => number,
            Report::BadState => 0,
        }
    }
}

impl fmt::Display for Report {
    fn fmt(&self, f: &mut fmt::Formatter) -> fmt::Result {
        match self {
            Report::Same(items) => write!(f, "same {items}"),
            Report::Differs(item) => write!(f, "differs at {item}"),
            Report::BadItem(item) => write!(f, "bad item {item}"),
            Report::BadState => write!(f, "bad state"),
        }
    }
}

/// R14.10: all that stands on standard output after the program has read the input.
pub fn output(input: &[u8]) -> String {
    if input.len() > INPUT_LIMIT {
        return "too long\n".to_string();
    }
    format!("{}\n", replay(input))
}

/// R14.7: what is reported of a recording.
pub fn replay(recording: &[u8]) -> Report {
    let Some((mut machine, mut rest)) = start(recording) else {
        return Report::BadState;
    };
    let mut number = 0;
    while !rest.is_empty() {
        let Some((item, left)) = first_item(rest) else {
            return Report::BadItem(number);
        };
        let outcome = step(&Step {
            machine,
            code: item.code.to_vec(),
            memory: item.memory.to_vec(),
        });
        if !agrees(&item, &outcome) {
            return Report::Differs(number);
        }
        // R14.4: whatever the answer was, the next item goes on from here.
        machine = outcome.after.machine;
        rest = left;
        number += 1;
    }
    Report::Same(number)
}

/// R14.1: the state that is loaded, and all that stands behind its form.
pub fn start(recording: &[u8]) -> Option<(Machine, &[u8])> {
    let (saved, rest) = recording.split_at_checked(saved_size(recording)?)?;
    let machine = load(saved, VECTORS_SIZE).ok()?;
    Some((machine, rest))
}

pub struct Item<'a> {
    answer: u64,
    pub code: &'a [u8],
    pub memory: &'a [u8],
    control: u64,
    destination: &'a [u8],
}

/// R14.2, R14.3: the item in front, if it is well formed, and all that stands behind it.
pub fn first_item(recording: &[u8]) -> Option<(Item<'_>, &[u8])> {
    let mut rest = recording;
    let following = take(&mut rest, 4)?;
    let version = take(&mut rest, 1)?;
    let answer = take(&mut rest, 1)?;
    let code_count = take(&mut rest, 1)? as usize;
    let code = take_bytes(&mut rest, code_count)?;
    let memory_count = take(&mut rest, 2)? as usize;
    let memory = take_bytes(&mut rest, memory_count)?;
    let control = take(&mut rest, 4)?;
    let destination = take_bytes(&mut rest, REGISTER_SIZE)?;
    let is_well_formed = following == 73 + code_count as u64 + memory_count as u64
        && version == u64::from(ITEM_VERSION)
        && code_count <= CODE_LIMIT
        && memory_count <= MEMORY_LIMIT;
    let item = Item {
        answer,
        code,
        memory,
        control,
        destination,
    };
    is_well_formed.then_some((item, rest))
}

/// Takes the next bytes away; nothing where they are too few.
fn take_bytes<'a>(rest: &mut &'a [u8], count: usize) -> Option<&'a [u8]> {
    let (taken, left) = rest.split_at_checked(count)?;
    *rest = left;
    Some(taken)
}

/// R14.6: whether a step went as the item expects.
fn agrees(item: &Item, outcome: &StepOutcome) -> bool {
    item.answer == u64::from(outcome.answer.number)
        && item.control == u64::from(outcome.after.machine.control)
        && item.destination == destination(outcome)
}

/// R14.5: what an item holds of the destination of a step: with 0, 7 and 8 the register that the
/// instruction names, as it stands after the step, and else zeros. By the step's own answer; where
/// something else made the step, its code may name none.
pub fn destination(outcome: &StepOutcome) -> [u8; REGISTER_SIZE] {
    if ![0, 7, 8].contains(&outcome.answer.number) {
        return [0; REGISTER_SIZE];
    }
    let Step { machine, code, .. } = &outcome.after;
    decode(code).map_or([0; REGISTER_SIZE], |instruction| {
        held(machine, instruction.destination)
    })
}

/// R14.5: a register as the 64 bytes of an item: a mask's highest byte first, and zeros behind it.
pub fn held(machine: &Machine, destination: Destination) -> [u8; REGISTER_SIZE] {
    let mut bytes = [0; REGISTER_SIZE];
    match destination {
        Destination::Vector(number) => {
            let at = REGISTER_SIZE * number;
            bytes.copy_from_slice(&machine.vectors[at..at + REGISTER_SIZE]);
        }
        Destination::Mask(number) => {
            bytes[..8].copy_from_slice(&machine.masks[number].to_be_bytes());
        }
    }
    bytes
}
