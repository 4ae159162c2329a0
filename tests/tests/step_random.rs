//! Random steps by the library and the second program (R12.3), one by one, in sequences, and with
//! the library lent the first bytes of the code alone, and a count of what they reach.
//!
//! `RIDGECROOK_SEED` sets the seed, `RIDGECROOK_STEPS` the number of steps of each test. What was
//! reached is shown by `cargo test --release --test step_random -- --nocapture`.

use ridgecrook_tests::compare::setting;
use ridgecrook_tests::coverage::Watched;
use ridgecrook_tests::library;
use ridgecrook_tests::machine::{Step, StepOutcome};
use ridgecrook_tests::random_step::Steps;

const SEED: u64 = 20_240_301;

/// Fewer steps than this may miss something without a fault.
const ENOUGH: u64 = 200_000;

#[test]
fn random_steps_reach_everything_and_agree() {
    let seed = setting("RIDGECROOK_SEED", SEED);
    let count = setting("RIDGECROOK_STEPS", 320_000);
    let name = format!("steps at random, seed {seed}");
    let mut watched = Watched::of(library::step_outcome, &name);
    let mut steps = Steps::seeded(seed);
    for _ in 0..count {
        watched.step(&steps.step());
    }
    let coverage = watched.finish(count, &[0, 1, 2, 3, 4, 5, 7, 8]);
    coverage.lines().iter().for_each(|line| println!("{line}"));
    if count >= ENOUGH {
        coverage.require(10);
    }
}

/// What the library says to the first 12 bytes of a step's code, as if it had been lent the whole.
fn by_twelve_bytes(step: &Step) -> StepOutcome {
    let mut cut = step.clone();
    cut.code.truncate(12);
    let mut outcome = library::step_outcome(&cut);
    outcome.after.code = step.code.clone();
    outcome
}

/// Nothing behind the first 12 bytes counts, whether the code is refused or not (R4.18). A step
/// that differs is shown with its whole code; cut it to try it again.
#[test]
fn twelve_bytes_are_enough() {
    let seed = setting("RIDGECROOK_SEED", SEED);
    let count = setting("RIDGECROOK_STEPS", 40_000);
    let mut watched = Watched::of(by_twelve_bytes, &format!("12 bytes of code, seed {seed}"));
    let mut steps = Steps::seeded(seed);
    for _ in 0..count {
        let mut step = steps.step();
        let longer = steps.random.within(1, 12) as usize;
        step.code.extend(steps.random.bytes(longer));
        watched.step(&step);
    }
    watched.finish(count, &[0, 1, 2, 3, 4, 5, 7, 8]);
}

const STEPS_A_SEQUENCE: u64 = 12;

/// Each step goes on from the state that the one before left, whatever its answer was.
#[test]
fn sequences_of_steps_agree() {
    let seed = setting("RIDGECROOK_SEED", SEED);
    let sequences = setting("RIDGECROOK_STEPS", 30_000).div_ceil(STEPS_A_SEQUENCE);
    let name = format!("sequences of {STEPS_A_SEQUENCE} steps, seed {seed}");
    let mut watched = Watched::of(library::step_outcome, &name);
    let mut steps = Steps::seeded(seed);
    for _ in 0..sequences {
        let (mut machine, mut memory) = steps.start();
        for _ in 0..STEPS_A_SEQUENCE {
            let step = Step {
                machine,
                code: steps.code(),
                memory,
            };
            let expected = watched.step(&step);
            // Where the library agrees, this is the state that it left too.
            Step {
                machine,
                memory,
                ..
            } = expected.after;
        }
    }
    watched.finish(sequences * STEPS_A_SEQUENCE, &[0, 7, 8]);
}
