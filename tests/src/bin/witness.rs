//! The library and this machine's processor side by side: `cargo run --release --bin witness`.
//!
//! `RIDGECROOK_STEPS` sets the number of instructions and `RIDGECROOK_SEED` the seed. A known
//! difference (`differences.rs`) is counted by its name, every other one is a failure with a line
//! for `repeat`. `--keep FOLDER` also writes to that folder what the processor did, as recordings of
//! one item (`case replay` of tools/case explains them): of the failures that are printed, and of
//! the first step with each known difference. `--record` writes what the processor says to tests/data/processor.txt,
//! and `--faults` sees that each of a list of faults is found out. The last line is `N passed, M
//! failed`; where the processor has not the instructions a line says so, and both are 0.

use ridgecrook_tests::compare::setting;
use ridgecrook_tests::differences::Difference;
use ridgecrook_tests::faults::{self, Tried};
use ridgecrook_tests::library;
use ridgecrook_tests::machine::{Step, StepOutcome};
use ridgecrook_tests::processor::{has_extended_prefix, model, Processor};
use ridgecrook_tests::recorded;
use ridgecrook_tests::step_line::shown_outcome;
use ridgecrook_tests::witness::{recording, verdict, Verdict, WitnessSteps};
use std::fs;
use std::path::Path;
use std::process::exit;
use std::time::Instant;

const SEED: u64 = 20_240_302;

/// Fewer steps than this, which go once round the grid, may miss an answer or a difference without
/// a fault.
const ENOUGH: u64 = 54_000;

/// How many failures are printed; all are counted.
const PRINTED: u64 = 20;

fn main() {
    let mut processor = match Processor::here() {
        Ok(processor) => processor,
        Err(why) => {
            println!("skipped: {why}");
            println!("0 passed, 0 failed");
            return;
        }
    };
    let seed = setting("RIDGECROOK_SEED", SEED);
    let count = |otherwise| setting("RIDGECROOK_STEPS", otherwise);
    let arguments: Vec<String> = std::env::args().skip(1).collect();
    match arguments.iter().map(String::as_str).collect::<Vec<_>>()[..] {
        [] => compare(&mut processor, seed, count(100_000), None),
        ["--keep", folder] => compare(&mut processor, seed, count(100_000), Some(folder)),
        ["--record"] => recorded::write(&mut processor, seed),
        ["--faults"] => faults(&mut processor, seed, count(ENOUGH)),
        _ => {
            eprintln!("the options are --keep FOLDER, --record and --faults");
            exit(2);
        }
    }
}

#[derive(Default)]
struct Counts {
    answers: [u64; 9],
    known: [u64; Difference::ALL.len()],
    passed: u64,
    failed: u64,
}

fn compare(processor: &mut Processor, seed: u64, count: u64, folder: Option<&str>) {
    println!("witness: {}, seed {seed}, {count} steps", model());
    let start = Instant::now();
    let mut steps = WitnessSteps::seeded(seed, has_extended_prefix());
    let mut counts = Counts::default();
    for _ in 0..count {
        let (step, length) = steps.step();
        let by_processor = processor
            .step(&step, length)
            .expect("a pointer that is near");
        let name = counts.see(&step, &library::step_outcome(&step), &by_processor);
        if let (Some(folder), Some(name)) = (folder, name) {
            keep(
                folder,
                &name,
                &recording(&step, length, &by_processor).bytes(),
            );
        }
    }
    println!("witness: {:.1} s", start.elapsed().as_secs_f64());
    if !counts.finish(count) {
        exit(1);
    }
}

/// Writes a recording to the folder, and says what the library reports of it: not every place that
/// is compared here stands in an item (R14.6).
fn keep(folder: &str, name: &str, recording: &[u8]) {
    let file = Path::new(folder).join(format!("{name}.bin"));
    let written = fs::create_dir_all(folder).and_then(|()| fs::write(&file, recording));
    let shown = file.display();
    written.unwrap_or_else(|error| panic!("{shown}: {error}"));
    let report = library::replay(&mut recording.to_vec()).report();
    println!("kept as {shown}: {report}");
}

impl Counts {
    /// Hands back the name for what differs, where it is to be kept.
    fn see(
        &mut self,
        step: &Step,
        library: &StepOutcome,
        processor: &StepOutcome,
    ) -> Option<String> {
        self.answers[processor.answer.number as usize] += 1;
        match verdict(step, library, processor) {
            Verdict::Agrees => {
                self.passed += 1;
                None
            }
            Verdict::Known(difference) => {
                self.passed += 1;
                let known = &mut self.known[difference as usize];
                *known += 1;
                (*known == 1).then(|| format!("known-{}", difference as usize))
            }
            Verdict::Differs => {
                self.failed += 1;
                self.print(step, library, processor)
            }
        }
    }

    /// A line for `repeat`, of the first failures.
    fn print(&self, step: &Step, library: &StepOutcome, processor: &StepOutcome) -> Option<String> {
        if self.failed > PRINTED {
            return None;
        }
        let [library, processor] = [library, processor].map(|o| shown_outcome(step, o));
        println!("{step} => {library} processor {processor}");
        Some(format!("failure-{}", self.failed))
    }

    /// Prints the counts; whether all is well, also that enough steps reached every answer and
    /// every known difference.
    fn finish(&self, count: u64) -> bool {
        let answers = [0, 5, 7, 8].map(|number| self.answers[number]);
        let [done, reserved, outside, exception] = answers;
        println!("answers: 0 {done}, 5 {reserved}, 7 {outside}, 8 {exception}");
        for difference in Difference::ALL {
            let known = self.known[difference as usize];
            println!("known difference, {}: {known}", difference.name());
        }
        let reached = answers.iter().chain(&self.known).all(|&count| count > 0);
        if count >= ENOUGH && !reached {
            println!("an answer or a known difference was not reached");
        }
        println!("{} passed, {} failed", self.passed, self.failed);
        self.failed == 0 && self.passed == count && (reached || count < ENOUGH)
    }
}

/// Each fault is put into the library's outcomes; one that no verdict finds out is a failure.
fn faults(processor: &mut Processor, seed: u64, count: u64) {
    let mut steps = WitnessSteps::seeded(seed, has_extended_prefix());
    let mut counts = vec![Tried::default(); faults::all().count()];
    for _ in 0..count {
        let (step, length) = steps.step();
        let by_processor = processor
            .step(&step, length)
            .expect("a pointer that is near");
        let library = library::step_outcome(&step);
        faults::try_all(&step, &library, &by_processor, &mut counts);
    }
    let mut failed = 0;
    for ((name, _), Tried { made, found }) in faults::all().zip(&counts) {
        println!("{name}: made {made} times, found {found}");
        failed += usize::from(*made == 0 || found != made);
    }
    println!("{} passed, {failed} failed", counts.len() - failed);
    if failed > 0 {
        exit(1);
    }
}
