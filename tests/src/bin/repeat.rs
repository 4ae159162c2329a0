//! Runs one printed line again, of the arithmetic, of a step, of a save, a load or a move:
//! `cargo run --release --bin repeat -- add m1 u0 3C00 BC00`
//! `cargo run --release --bin repeat -- step code=62F5744858C2 z1=3C00`
//! A step is also shown as this machine's processor does it, where that can be.

use ridgecrook_tests::case::Case;
use ridgecrook_tests::compare::Compared;
use ridgecrook_tests::library;
use ridgecrook_tests::machine::Step;
use ridgecrook_tests::processor::{has_extended_prefix, Processor};
use ridgecrook_tests::transfer::{Call, Transfer};
use ridgecrook_tests::witness::runnable;
use std::process::exit;
use std::str::FromStr;

fn main() {
    let line = std::env::args().skip(1).collect::<Vec<_>>().join(" ");
    let agrees = match line.split_whitespace().next() {
        Some("step") => {
            let step = read::<Step>(&line);
            let agrees = repeat(&step, library::step_outcome);
            println!("processor       {}", by_processor(&step));
            agrees
        }
        Some(word) if word.parse::<Call>().is_ok() => {
            repeat(&read::<Transfer>(&line), library::transfer_outcome)
        }
        _ => repeat(&read::<Case>(&line), library::answer),
    };
    if !agrees {
        exit(1);
    }
}

fn read<C: FromStr<Err = String>>(line: &str) -> C {
    line.parse().unwrap_or_else(|error| {
        eprintln!(
            "{error}\nusage: repeat add m1 u0 3C00 BC00, or any other line that a test printed"
        );
        exit(2);
    })
}

/// Prints both outcomes, and whether they agree.
fn repeat<C: Compared>(case: &C, answer: fn(&C) -> C::Outcome) -> bool {
    let (outcome, expected) = (answer(case), case.expected());
    println!("{case}");
    println!("library         {}", case.shown(&outcome));
    println!("second program  {}", case.shown(&expected));
    outcome == expected
}

/// The processor's outcome, or why there is none.
fn by_processor(step: &Step) -> String {
    let mut processor = match Processor::here() {
        Ok(processor) => processor,
        Err(why) => return format!("skipped: {why}"),
    };
    let length = runnable(step, has_extended_prefix());
    let outcome = length.and_then(|length| processor.step(step, length));
    match outcome {
        Some(outcome) => step.shown(&outcome),
        None => "skipped: not an instruction that it is given".to_string(),
    }
}
