//! The library and the second program against what a processor said (tests/data/processor.txt), on
//! every machine. A known difference (R7.6) is told by its name (`differences.rs`).

use ridgecrook_tests::checked_replay::Replays;
use ridgecrook_tests::compare::log;
use ridgecrook_tests::differences::{on_a_processor, Difference};
use ridgecrook_tests::faults;
use ridgecrook_tests::machine::{Step, StepOutcome};
use ridgecrook_tests::recorded::{compare, path};
use ridgecrook_tests::recording::Recorder;
use ridgecrook_tests::second::replay::Report;
use ridgecrook_tests::step_line::{read_outcome, shown_outcome};
use ridgecrook_tests::{library, second};

/// The lines of the file that are cases, whose number its head has.
fn cases(text: &str) -> Vec<&str> {
    let cases: Vec<&str> = text.lines().filter(|line| !line.starts_with('#')).collect();
    let said = text.lines().find_map(|line| line.strip_prefix("# cases: "));
    let said: usize = said
        .expect("the number of cases")
        .parse()
        .expect("a number");
    assert_eq!(cases.len(), said, "the number of cases");
    assert!(said >= 2_000, "{said} cases");
    cases
}

fn agrees(name: &str, answer: fn(&Step) -> StepOutcome) {
    let text = std::fs::read_to_string(path()).expect("tests/data/processor.txt");
    let cases = cases(&text);
    let mut known = [0; Difference::ALL.len()];
    let mut failures = Vec::new();
    for line in &cases {
        match compare(line, answer) {
            Ok(None) => {}
            Ok(Some(difference)) => known[difference as usize] += 1,
            Err(failure) => failures.push(failure),
        }
    }
    let counts = Difference::ALL.map(|d| format!("{} {}", d.name(), known[d as usize]));
    let (all, names) = (cases.len(), counts.join(", "));
    log(&format!(
        "{name} and the recorded processor: {all} cases; {names}"
    ));
    for failure in failures.iter().take(20) {
        log(failure);
    }
    assert_eq!(failures.len(), 0, "{name}: cases that differ");
    assert!(known.iter().all(|&count| count > 0), "{known:?}");
}

#[test]
fn the_library_agrees_with_the_recorded_processor() {
    agrees("the library", library::step_outcome);
}

#[test]
fn the_second_program_agrees_with_the_recorded_processor() {
    agrees("the second program", second::step);
}

/// A half, a flag or an answer that is not what the processor said is found out.
#[test]
fn a_wrong_outcome_is_found_out() {
    let text = std::fs::read_to_string(path()).expect("tests/data/processor.txt");
    let wrong: [fn(&Step) -> StepOutcome; 3] = [
        |step| {
            let mut outcome = library::step_outcome(step);
            outcome
                .after
                .machine
                .vectors
                .iter_mut()
                .for_each(|byte| *byte ^= 1);
            outcome
        },
        |step| {
            let mut outcome = library::step_outcome(step);
            outcome.after.machine.control ^= 0x20;
            outcome
        },
        |step| {
            let mut outcome = library::step_outcome(step);
            outcome.answer.number ^= 8;
            outcome
        },
    ];
    for answer in wrong {
        assert!(cases(&text)
            .iter()
            .all(|line| compare(line, answer).is_err()));
    }
}

/// R7.6, R14.1: each case as a recording of one item replays as the same, but where the difference
/// is known.
#[test]
fn each_case_as_a_recording() {
    let text = std::fs::read_to_string(path()).expect("tests/data/processor.txt");
    let replays = Replays::of("recorded steps", env!("CARGO_TARGET_TMPDIR"));
    let mut known = 0;
    for (number, line) in cases(&text).into_iter().enumerate() {
        let (before, outcome) = read_outcome(line).expect(line);
        let (_, difference) = on_a_processor(&before, &second::step(&before));
        let due = difference.map_or(Report::Same(1), |_| Report::Differs(0));
        let recording = Recorder::of_step(&before, outcome);
        replays.reports(number, &recording.bytes(), due);
        known += usize::from(difference.is_some());
    }
    assert!(known > 0);
    log(&format!(
        "the recorded processor as recordings: {known} that differ, as is known"
    ));
}

/// R7.4: what the processor said refutes each wrong reading of the two stages, in so many cases,
/// whatever the second program makes of them.
#[test]
fn the_recorded_processor_has_two_stages() {
    let text = std::fs::read_to_string(path()).expect("tests/data/processor.txt");
    for (name, count) in [
        ("the early stage forgotten", 46),
        ("the early stage by the lane alone", 23),
        ("an early stage by a masked exception", 39),
    ] {
        let (_, spoil) = faults::all().find(|fault| fault.0 == name).expect(name);
        let mut refuted = 0;
        for line in cases(&text) {
            let step: Step = line.parse().expect(line);
            let right = library::step_outcome(&step);
            let mut wrong = right.clone();
            spoil(&step, &mut wrong);
            let (_, said) = line.split_once("=> ").expect("an outcome");
            refuted += u32::from(wrong != right && said != shown_outcome(&step, &wrong));
        }
        assert_eq!(refuted, count, "{name}");
    }
}
