//! The library through its C interface (`include/ridgecrook.h`).

use crate::case::{Arithmetic, Case, Outcome};
use crate::machine::{Answer, Machine, Step, StepOutcome};
use crate::second::replay::Report;
use crate::transfer::{Call, Transfer, TransferOutcome};

extern "C" {
    fn ridgecrook_add(a: u16, b: u16, mode: u32, underflow_unmasked: u32) -> Outcome;
    fn ridgecrook_subtract(a: u16, b: u16, mode: u32, underflow_unmasked: u32) -> Outcome;
    fn ridgecrook_multiply(a: u16, b: u16, mode: u32, underflow_unmasked: u32) -> Outcome;
    fn ridgecrook_divide(a: u16, b: u16, mode: u32, underflow_unmasked: u32) -> Outcome;
    fn ridgecrook_square_root(a: u16, mode: u32, underflow_unmasked: u32) -> Outcome;
    fn ridgecrook_fused_multiply_add(
        a: u16,
        b: u16,
        c: u16,
        mode: u32,
        underflow_unmasked: u32,
    ) -> Outcome;
    fn ridgecrook_minimum(a: u16, b: u16) -> Outcome;
    fn ridgecrook_maximum(a: u16, b: u16) -> Outcome;
    fn ridgecrook_compare(a: u16, b: u16, immediate: u32) -> Outcome;
    fn ridgecrook_step(
        vectors: *mut u8,
        vectors_length: usize,
        masks: *mut u64,
        general: *const u64,
        control: *mut u32,
        pointer: *mut u64,
        code: *const u8,
        code_length: usize,
        memory: *const u8,
        memory_length: usize,
    ) -> Answer;
    fn ridgecrook_save(
        vectors: *const u8,
        vectors_length: usize,
        masks: *const u64,
        general: *const u64,
        control: u32,
        pointer: u64,
        target: *mut u8,
        target_length: usize,
    ) -> u32;
    fn ridgecrook_load(
        saved: *const u8,
        saved_length: usize,
        vectors: *mut u8,
        vectors_length: usize,
        masks: *mut u64,
        general: *mut u64,
        control: *mut u32,
        pointer: *mut u64,
    ) -> u32;
    fn ridgecrook_save_version(
        version: u32,
        vectors: *const u8,
        vectors_length: usize,
        masks: *const u64,
        general: *const u64,
        control: u32,
        pointer: u64,
        target: *mut u8,
        target_length: usize,
    ) -> u32;
    fn ridgecrook_move(
        version: u32,
        source: *const u8,
        source_length: usize,
        target: *mut u8,
        target_length: usize,
    ) -> u32;
    fn ridgecrook_saved_size(version: u32, vectors: *const u8, vectors_length: usize) -> usize;
    fn ridgecrook_moved_size(version: u32, source: *const u8, source_length: usize) -> usize;
    fn ridgecrook_replay(recording: *const u8, recording_length: usize) -> Reported;
}

/// What a replay hands back, laid out as `ridgecrook_report` of the C interface.
#[repr(C)]
#[derive(Clone, Copy, Debug, PartialEq, Eq)]
pub struct Reported {
    pub report: u64,
    pub item: u64,
}

impl From<Report> for Reported {
    fn from(report: Report) -> Reported {
        Reported {
            report: report.number(),
            item: report.item(),
        }
    }
}

impl Reported {
    /// The report that has the number (R14.9).
    pub fn report(self) -> Report {
        match self.report {
            0 => Report::Same(self.item),
            1 => Report::Differs(self.item),
            2 => Report::BadItem(self.item),
            _ => Report::BadState,
        }
    }
}

// Safety of the calls of the arithmetic: the functions take numbers alone, accept every number and
// keep no state.

#[inline]
pub fn add(a: u16, b: u16, mode: u32, underflow_unmasked: u32) -> Outcome {
    unsafe { ridgecrook_add(a, b, mode, underflow_unmasked) }
}

#[inline]
pub fn subtract(a: u16, b: u16, mode: u32, underflow_unmasked: u32) -> Outcome {
    unsafe { ridgecrook_subtract(a, b, mode, underflow_unmasked) }
}

#[inline]
pub fn multiply(a: u16, b: u16, mode: u32, underflow_unmasked: u32) -> Outcome {
    unsafe { ridgecrook_multiply(a, b, mode, underflow_unmasked) }
}

#[inline]
pub fn divide(a: u16, b: u16, mode: u32, underflow_unmasked: u32) -> Outcome {
    unsafe { ridgecrook_divide(a, b, mode, underflow_unmasked) }
}

#[inline]
pub fn square_root(a: u16, mode: u32, underflow_unmasked: u32) -> Outcome {
    unsafe { ridgecrook_square_root(a, mode, underflow_unmasked) }
}

#[inline]
pub fn fused_multiply_add(a: u16, b: u16, c: u16, mode: u32, underflow_unmasked: u32) -> Outcome {
    unsafe { ridgecrook_fused_multiply_add(a, b, c, mode, underflow_unmasked) }
}

#[inline]
pub fn minimum(a: u16, b: u16) -> Outcome {
    unsafe { ridgecrook_minimum(a, b) }
}

#[inline]
pub fn maximum(a: u16, b: u16) -> Outcome {
    unsafe { ridgecrook_maximum(a, b) }
}

#[inline]
pub fn compare(a: u16, b: u16, immediate: u32) -> Outcome {
    unsafe { ridgecrook_compare(a, b, immediate) }
}

pub const LIBRARY: Arithmetic = Arithmetic {
    add,
    subtract,
    multiply,
    divide,
    square_root,
    fused_multiply_add,
    minimum,
    maximum,
    compare,
};

/// What the library answers to a case.
pub fn answer(case: &Case) -> Outcome {
    LIBRARY.answer(case)
}

/// One step. The general registers are lent by a pointer that may write, so that a library that
/// does is found out.
#[inline]
pub fn step(machine: &mut Machine, code: &[u8], memory: &[u8]) -> Answer {
    // Safety: each pointer holds for the length passed with it or that the header demands, and the
    // borrows show that nothing that is written overlaps anything else.
    unsafe {
        ridgecrook_step(
            machine.vectors.as_mut_ptr(),
            machine.vectors.len(),
            machine.masks.as_mut_ptr(),
            machine.general.as_mut_ptr().cast_const(),
            &mut machine.control,
            &mut machine.pointer,
            code.as_ptr(),
            code.len(),
            memory.as_ptr(),
            memory.len(),
        )
    }
}

/// What the library answers to a step and leaves of it.
pub fn step_outcome(before: &Step) -> StepOutcome {
    let mut after = before.clone();
    let answer = step(&mut after.machine, &after.code, &after.memory);
    StepOutcome { answer, after }
}

/// A save. What is only read is lent by pointers that may write, so that a library that does is
/// found out.
pub fn save(machine: &mut Machine, target: &mut [u8]) -> u32 {
    // Safety: as in `step`.
    unsafe {
        ridgecrook_save(
            machine.vectors.as_mut_ptr().cast_const(),
            machine.vectors.len(),
            machine.masks.as_mut_ptr().cast_const(),
            machine.general.as_mut_ptr().cast_const(),
            machine.control,
            machine.pointer,
            target.as_mut_ptr(),
            target.len(),
        )
    }
}

/// A load; the saved form is lent in the same way.
pub fn load(saved: &mut [u8], machine: &mut Machine) -> u32 {
    // Safety: as in `step`.
    unsafe {
        ridgecrook_load(
            saved.as_mut_ptr().cast_const(),
            saved.len(),
            machine.vectors.as_mut_ptr(),
            machine.vectors.len(),
            machine.masks.as_mut_ptr(),
            machine.general.as_mut_ptr(),
            &mut machine.control,
            &mut machine.pointer,
        )
    }
}

/// A save in a version; everything is lent in the same way, here and below.
pub fn save_version(version: u32, machine: &mut Machine, target: &mut [u8]) -> u32 {
    // Safety: as in `step`.
    unsafe {
        ridgecrook_save_version(
            version,
            machine.vectors.as_mut_ptr().cast_const(),
            machine.vectors.len(),
            machine.masks.as_mut_ptr().cast_const(),
            machine.general.as_mut_ptr().cast_const(),
            machine.control,
            machine.pointer,
            target.as_mut_ptr(),
            target.len(),
        )
    }
}

/// A move to a version.
pub fn move_saved(version: u32, source: &mut [u8], target: &mut [u8]) -> u32 {
    // Safety: as in `step`.
    unsafe {
        ridgecrook_move(
            version,
            source.as_mut_ptr().cast_const(),
            source.len(),
            target.as_mut_ptr(),
            target.len(),
        )
    }
}

/// The size that a save in a version needs.
pub fn saved_size(version: u32, vectors: &mut [u8]) -> usize {
    // Safety: as in `step`.
    unsafe { ridgecrook_saved_size(version, vectors.as_mut_ptr().cast_const(), vectors.len()) }
}

/// The size that a move to a version needs.
pub fn moved_size(version: u32, source: &mut [u8]) -> usize {
    // Safety: as in `step`.
    unsafe { ridgecrook_moved_size(version, source.as_mut_ptr().cast_const(), source.len()) }
}

/// The replay of a recording, which is lent by a pointer that may write.
pub fn replay(recording: &mut [u8]) -> Reported {
    // Safety: as in `step`.
    unsafe { ridgecrook_replay(recording.as_mut_ptr().cast_const(), recording.len()) }
}

/// What the library answers to a save, a load, a move or a question for a size, and leaves of it.
pub fn transfer_outcome(before: &Transfer) -> TransferOutcome {
    let mut after = before.clone();
    let (machine, bytes) = (&mut after.machine, &mut after.bytes);
    let shown = |size: usize| u32::try_from(size).unwrap_or(u32::MAX);
    let number = match after.call {
        Call::Save => save(machine, bytes),
        Call::SaveVersion(version) => save_version(version, machine, bytes),
        Call::Load => load(bytes, machine),
        Call::Move(version) => move_saved(version, bytes, &mut after.target),
        Call::SavedSize(version) => shown(saved_size(version, &mut machine.vectors)),
        Call::MovedSize(version) => shown(moved_size(version, bytes)),
    };
    TransferOutcome { number, after }
}
