//! Holds an implementation, in most tests the library, against the second program.

use crate::case::{Case, Outcome};
use crate::machine::{Step, StepOutcome};
use crate::second;
use crate::step_line::shown_outcome;
use crate::transfer::{Transfer, TransferOutcome};
use std::fmt::Display;
use std::io::Write;

/// How many differences are printed; all are counted.
const PRINTED: u64 = 20;

/// A line for the log, written past the test runner, which hides what a passing test prints.
pub fn log(line: &str) {
    writeln!(std::io::stderr(), "{line}").expect("standard error takes a line");
}

/// A number that the environment may set.
pub fn setting(name: &str, otherwise: u64) -> u64 {
    match std::env::var(name) {
        Ok(text) => text
            .parse()
            .unwrap_or_else(|_| panic!("{name}: {text} is not a whole number")),
        Err(_) => otherwise,
    }
}

/// A kind of case, which prints itself as the line that `repeat` reads.
pub trait Compared: Display {
    type Outcome: PartialEq;

    /// What the second program answers.
    fn expected(&self) -> Self::Outcome;

    /// An outcome of this case, as it stands behind `=>` in a line.
    fn shown(&self, outcome: &Self::Outcome) -> String;
}

impl Compared for Case {
    type Outcome = Outcome;

    fn expected(&self) -> Outcome {
        second::answer(self)
    }

    fn shown(&self, outcome: &Outcome) -> String {
        outcome.to_string()
    }
}

impl Compared for Step {
    type Outcome = StepOutcome;

    fn expected(&self) -> StepOutcome {
        second::step(self)
    }

    fn shown(&self, outcome: &StepOutcome) -> String {
        shown_outcome(self, outcome)
    }
}

impl Compared for Transfer {
    type Outcome = TransferOutcome;

    fn expected(&self) -> TransferOutcome {
        second::transfer(self)
    }

    fn shown(&self, outcome: &TransferOutcome) -> String {
        outcome.shown(self)
    }
}

/// The line of a case whose outcome is not the expected one; the part before `=>` can be given to
/// `repeat`.
pub fn failure<C: Compared>(case: &C, outcome: &C::Outcome, expected: &C::Outcome) -> String {
    let [outcome, expected] = [outcome, expected].map(|outcome| case.shown(outcome));
    format!("{case} => {outcome} expected {expected}")
}

/// One comparison of many cases.
pub struct Comparison<C: Compared> {
    name: String,
    answer: fn(&C) -> C::Outcome,
    cases: u64,
    differences: u64,
}

impl<C: Compared> Comparison<C> {
    pub fn of(answer: fn(&C) -> C::Outcome, name: &str) -> Comparison<C> {
        Comparison {
            name: name.to_string(),
            answer,
            cases: 0,
            differences: 0,
        }
    }

    /// Holds the answer to one case against the second program's, which it hands back.
    pub fn case(&mut self, case: &C) -> C::Outcome {
        self.cases += 1;
        let outcome = (self.answer)(case);
        let expected = case.expected();
        if outcome != expected {
            self.differences += 1;
            if self.differences <= PRINTED {
                log(&failure(case, &outcome, &expected));
            }
        }
        expected
    }

    /// Fails where a case differed, or where there were not as many cases as the caller meant.
    pub fn finish(self, meant: u64) {
        let Comparison {
            name,
            cases,
            differences,
            ..
        } = self;
        log(&format!("{name}: {cases} cases, {differences} differ"));
        assert!(cases > 0, "{name}: no cases");
        assert_eq!(cases, meant, "{name}: the number of cases");
        assert_eq!(differences, 0, "{name}: {differences} of {cases} differ");
    }
}

impl Comparison<Case> {
    /// A case of the arithmetic in the four modes, with underflow masked and unmasked.
    pub fn in_every_mode(&mut self, case: &Case) {
        for mode in 0..4 {
            for underflow_unmasked in 0..2 {
                self.case(&Case {
                    mode,
                    underflow_unmasked,
                    ..*case
                });
            }
        }
    }
}
