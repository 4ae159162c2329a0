//! The independent second program: the rules of docs/RULES.md in plain whole numbers, slow and
//! obvious. It shares no code with the library.
//!
//! `half` has R6.1 to R6.3, `operations` R6.5 to R6.15, `exact` R6.16, `rounding` R6.17 to R6.24,
//! `comparison` R6.25 to R6.28; `encoding` has the bytes of an instruction (sections 2 and 3),
//! `step` all else of a step (4, 5 and 7); `saved` has the saved form (9), `command` what the
//! command prints (10), `replay` what is reported of a recording (14).

pub mod command;
pub mod comparison;
pub mod encoding;
mod exact;
mod half;
mod operations;
pub mod replay;
mod rounding;
pub mod saved;
pub mod step;

use crate::case::{Case, Outcome};
use operations::Stage;
use rounding::Mode;

pub use saved::transfer;
pub use step::step;

/// What the rules answer to a case.
pub fn answer(case: &Case) -> Outcome {
    // R8.5: without a mode; R8.2: a mode above 3
    let decided = comparison::answer(case).or_else(|| rounded(case));
    let number = if decided.is_some() { 0 } else { 9 };
    let (half, flags) = decided.unwrap_or((0, 0));
    Outcome {
        half,
        flags,
        number,
    }
}

/// The half and the flags of an operation that rounds; nothing where there is no such mode.
fn rounded(case: &Case) -> Option<(u16, u8)> {
    let mode = Mode::numbered(case.mode)?;
    Some(match operations::before_rounding(case, mode) {
        Stage::Decided { half, flags } => (half, flags),
        Stage::Exact { value, flags } => {
            let (half, more) = rounding::round(&value, mode, case.underflow_unmasked != 0);
            (half, flags | more)
        }
    })
}

/// Whether the exact result of an operation that rounds lies in the middle of two neighbouring
/// halves. This takes no part in an answer: it is for tests that count what their operands reach.
pub fn is_in_the_middle(case: &Case) -> bool {
    let Some(mode) = Mode::numbered(case.mode) else {
        return false;
    };
    match operations::before_rounding(case, mode) {
        Stage::Decided { .. } => false,
        Stage::Exact { value, .. } => rounding::is_in_the_middle(&value),
    }
}

/// Whether the exact result of an operation that rounds has at most 11 significant bits, whatever
/// its exponent. This takes no part in an answer: it is for what a processor does where overflow is
/// unmasked.
pub fn fits_eleven_bits(case: &Case) -> bool {
    let Some(mode) = Mode::numbered(case.mode) else {
        return false;
    };
    match operations::before_rounding(case, mode) {
        Stage::Decided { .. } => true,
        Stage::Exact { value, .. } => rounding::fits_eleven_bits(&value),
    }
}
