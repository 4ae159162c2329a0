//! What makes no difference: two steps that differ in such a thing alone are to end alike, by the
//! library and by the second program, each by itself.

use crate::machine::{Step, StepOutcome};
use crate::{library, second};

pub type Program = (&'static str, fn(&Step) -> StepOutcome);

pub const PROGRAMS: [Program; 2] = [
    ("the second program", second::step),
    ("the library", library::step_outcome),
];

/// The answers that steps got; 0, 7 and 8 are to be among them.
#[derive(Default)]
pub struct Answers {
    counts: [u32; 9],
}

impl Answers {
    pub fn see(&mut self, outcome: &StepOutcome) {
        self.counts[outcome.answer.number as usize] += 1;
    }

    pub fn require(&self, least: u32) {
        let reached = |number: &usize| self.counts[*number] >= least;
        assert!([0, 7, 8].iter().all(reached), "{:?}", self.counts);
    }
}
