//! The processor itself as a witness: an instruction of the list runs on it from the state of a
//! step, and everything is read back.
//!
//! The vector file, k0 to k7, all 16 general registers (RSP too) and the control word are loaded as
//! they stand, and the instruction's bytes run from a page of their own, with a jump behind them:
//! that the jump is reached shows the instruction's length. An exception comes as a signal whose
//! handler goes on at the same place, so that what the instruction left untouched is read too.
//!
//! What is changed: in a register form nothing. A memory form gets the prefix 65 in front, and the
//! base of GS is the host's address of the machine's address 0, so that the processor adds up base,
//! index and displacement itself, modulo 2 to the 64. For an address relative to the next
//! instruction the base of GS also makes up for where the code page is.
//!
//! Memory: bytes outside what is lent cannot be read, on both sides. A page ends at one side only,
//! so a memory form runs twice: once with address 0 at the beginning of its page, and once with the
//! last byte at its end. It lies outside memory if one of the two faults; if none does, both are to
//! leave the same.

mod host;
mod identify;
pub mod pairs;
pub mod singles;

use crate::machine::{Answer, Machine, Step, StepOutcome, VECTORS_SIZE};
use host::{Caught, Frame, PAGE};
pub use identify::{has_extended_prefix, missing, model};

/// The runner. There is one a program, on the thread that made it.
pub struct Processor {
    code: *mut u8,
    page: *mut u8,
}

/// What stands in the page beside the lent memory: signalling NaNs, which would show.
const BESIDE: u8 = 0x7D;

const GS_PREFIX: u8 = 0x65;

impl Processor {
    /// The runner, or why this machine cannot serve.
    pub fn here() -> Result<Processor, String> {
        if let Some(why) = missing() {
            return Err(why);
        }
        host::claim()?;
        Ok(Processor {
            code: host::code_page()?,
            page: host::guarded_page()?,
        })
    }

    /// What the processor answers to a step and leaves of it, in the numbers of R4.1: 0; 5 for an
    /// invalid opcode; 7 for a fault on memory; 8 for a numeric exception. The step's bytes are to
    /// be an instruction of the list, or a reserved encoding of one, of `length` bytes. None where
    /// the pointer is so far away that a relative address cannot be placed.
    pub fn step(&mut self, before: &Step, length: usize) -> Option<StepOutcome> {
        let code = &before.code[..length];
        if code[5] >> 6 == 3 {
            return Some(self.run(before, length, code));
        }
        let [low, high] = [0, PAGE - before.memory.len()].map(|at| self.placed(before, code, at));
        let (low, high) = (low?, high?);
        match (low.answer.number, high.answer.number) {
            (7, _) => Some(low),
            (_, 7) => Some(high),
            _ => {
                assert_eq!(low, high, "{before}: it hangs on where memory is placed");
                Some(low)
            }
        }
    }

    /// A memory form, with address 0 so far behind the beginning of the page.
    fn placed(&mut self, before: &Step, code: &[u8], at: usize) -> Option<StepOutcome> {
        // Safety: the page is this runner's own and can be written.
        let page = unsafe { std::slice::from_raw_parts_mut(self.page, PAGE) };
        page.fill(BESIDE);
        page[at..at + before.memory.len()].copy_from_slice(&before.memory);
        let origin = self.page as u64 + at as u64;
        let relative = code[5] & 0xC7 == 5;
        let base = if relative {
            let here = self.code as u64 + 1;
            origin
                .wrapping_add(before.machine.pointer)
                .wrapping_sub(here)
        } else {
            origin
        };
        let prefixed = [&[GS_PREFIX], code].concat();
        host::set_gs_base(base).then(|| self.run(before, code.len(), &prefixed))
    }

    /// Runs bytes from the state of a step; `length` is the instruction's without a prefix.
    fn run(&mut self, before: &Step, length: usize, bytes: &[u8]) -> StepOutcome {
        // jmp [rip + 0], and where to.
        let jump = [0xFF, 0x25, 0, 0, 0, 0];
        let bytes = [bytes, &jump, &host::back().to_le_bytes()].concat();
        // Safety: the page is this runner's own and can be written; the bytes are few.
        unsafe { std::ptr::copy_nonoverlapping(bytes.as_ptr(), self.code, bytes.len()) };
        let mut frame = frame_of(&before.machine);
        let caught = host::run(&mut frame, self.code);
        outcome(before, length as u32, frame, caught)
    }
}

fn frame_of(machine: &Machine) -> Frame {
    let vectors: &[u8; VECTORS_SIZE] = machine.vectors[..].try_into().expect("2,048 bytes");
    Frame {
        vectors: *vectors,
        masks: machine.masks,
        general: machine.general,
        control: machine.control,
        host_control: 0,
        host_stack: 0,
    }
}

fn outcome(before: &Step, length: u32, frame: Frame, caught: Option<Caught>) -> StepOutcome {
    let mut after = before.clone();
    let number = match caught {
        None => 0,
        Some(caught) => {
            // The control word that Linux saved, and the one read back after it was restored.
            assert_eq!(caught.control, frame.control, "{before}: {caught:?}");
            number_of(caught.signal)
        }
    };
    let length = if number == 0 { length } else { 0 };
    after.machine = Machine {
        vectors: frame.vectors.to_vec(),
        masks: frame.masks,
        general: frame.general,
        control: frame.control,
        pointer: before.machine.pointer.wrapping_add(u64::from(length)),
    };
    let answer = Answer { number, length };
    StepOutcome { answer, after }
}

/// A fault on memory is SIGSEGV, or SIGBUS for some addresses that no page can have.
fn number_of(signal: i32) -> u32 {
    match signal {
        host::ILLEGAL => 5,
        host::NUMERIC => 8,
        _ => 7,
    }
}
