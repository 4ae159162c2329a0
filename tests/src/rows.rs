//! Steps that a person wrote, one row each, held against the second program and the library. A
//! step is written as `step_line` prints it; behind it stand the answer's number and length and
//! what the step changes, and nothing else may change.

use crate::machine::{Step, StepOutcome};
use crate::step_line::shown_outcome;
use crate::{library, second};

/// A step, and what becomes of it.
pub type Row = (&'static str, &'static str);

fn failures(rows: &[(&str, &str)], name: &str, step: fn(&Step) -> StepOutcome) -> usize {
    let mut failed = 0;
    for (line, expected) in rows {
        let before: Step = format!("step {line}").parse().expect(line);
        let shown = shown_outcome(&before, &step(&before));
        if shown != *expected {
            failed += 1;
            eprintln!("{name}: {before} => {shown} expected {expected}");
        }
    }
    failed
}

/// Fails where one of the two programs does something else.
pub fn check(rows: &[(&str, &str)]) {
    let by_second = failures(rows, "second program", second::step);
    let by_library = failures(rows, "library", library::step_outcome);
    assert_eq!((by_second, by_library), (0, 0), "second program, library");
}
