//! The recordings of tests/data/recordings: each gives the report that is due, on every machine, by
//! the library, the second program and the program `replay` (R14.7, R14.10).

use ridgecrook_tests::checked_command::Command;
use ridgecrook_tests::checked_replay::Replays;
use ridgecrook_tests::compare::log;
use ridgecrook_tests::coverage::Coverage;
use ridgecrook_tests::differences::{on_a_processor, Difference};
use ridgecrook_tests::kept::{all, cases, folder, steps, Source};
use ridgecrook_tests::second;
use ridgecrook_tests::second::encoding::{decode, Instruction, Listed, Second, LIST};
use ridgecrook_tests::second::replay::{Report, INPUT_LIMIT};
use std::collections::BTreeSet;

#[test]
fn each_gives_the_report_that_is_due() {
    let replays = Replays::of("kept recordings", env!("CARGO_TARGET_TMPDIR"));
    let command = Command::replaying("kept recordings", env!("CARGO_TARGET_TMPDIR"));
    let (mut reports, mut too_long) = ([0; 4], 0);
    for (number, kept) in all().iter().enumerate() {
        let bytes = kept.bytes();
        replays.reports(number, &bytes, kept.due);
        let is_too_long = bytes.len() > INPUT_LIMIT;
        let line = match is_too_long {
            true => "too long\n".to_string(),
            false => format!("{}\n", kept.due),
        };
        command.prints(number, &bytes, &line);
        reports[kept.due.number() as usize] += 1;
        too_long += usize::from(is_too_long);
    }
    let [same, differs, bad_items, bad_states] = reports;
    log(&format!(
        "kept recordings: {same} same, {differs} that differ, {bad_items} with a bad item, \
         {bad_states} with a bad state; {too_long} too long for the program"
    ));
    assert!(reports.iter().all(|&count| count >= 3) && too_long > 0);
}

/// Every file of the folder is in the list, once, and holds what the list says.
#[test]
fn the_list_is_right() {
    let kept = all();
    let mut names: BTreeSet<String> = ["list.txt".to_string()].into();
    for kept in &kept {
        let mut added = names.insert(format!("{}.bin", kept.name));
        if let Source::Case = kept.source {
            added &= names.insert(format!("{}.txt", kept.name));
        }
        assert!(added, "{} stands there twice", kept.name);
        if let Some(bytes) = kept.derived() {
            assert_eq!(bytes, kept.bytes(), "{}", kept.name);
        }
    }
    let files = std::fs::read_dir(folder()).expect("the folder");
    let name = |file: std::io::Result<std::fs::DirEntry>| {
        let name = file.expect("a file").file_name();
        name.into_string().expect("a plain name")
    };
    assert_eq!(files.map(name).collect::<BTreeSet<_>>(), names);
}

/// R7.6: a case differs at the first item where a processor is expected to do otherwise than the
/// rules, and is the same where there is none.
#[test]
fn cases_differ_where_processors_are_expected_to() {
    let mut known = [0; Difference::ALL.len()];
    for kept in cases() {
        let steps = steps(&kept.bytes());
        let difference = |step| on_a_processor(step, &second::step(step)).1;
        let found = steps.iter().map(difference).enumerate();
        let first = found.clone().find(|(_, name)| name.is_some());
        let due = first.map_or(Report::Same(steps.len() as u64), |(item, _)| {
            Report::Differs(item as u64)
        });
        assert_eq!(kept.due, due, "{}", kept.name);
        for (item, difference) in found.filter_map(|(item, name)| Some((item, name?))) {
            log(&format!(
                "{}: item {item}, {}",
                kept.name,
                difference.name()
            ));
            known[difference as usize] += 1;
        }
    }
    assert_eq!(known, [3]);
}

/// What an instruction is told apart by here.
fn form(instruction: &Instruction) -> String {
    let operand = match (&instruction.second, instruction.embedded_mode) {
        (_, Some(mode)) => format!("embedded mode {mode}"),
        (Second::Register(_), _) if instruction.hides_exceptions => "suppression".to_string(),
        (Second::Register(_), _) => "registers".to_string(),
        (Second::Memory { broadcast, .. }, _) if *broadcast => "broadcast".to_string(),
        (Second::Memory { .. }, _) => "memory".to_string(),
    };
    let masking = match (instruction.mask, instruction.zeroing) {
        (0, _) => "no mask",
        (_, false) => "merging",
        (_, true) => "zeroing",
    };
    let (name, elements) = (instruction.listed.name, instruction.elements);
    format!("{name}, {elements} elements, {operand}, {masking}")
}

/// Every form that a row has.
fn forms(row: &Listed) -> Vec<String> {
    let lengths: &[usize] = if row.is_scalar() { &[1] } else { &[8, 16, 32] };
    let mut operands: Vec<(usize, String)> = Vec::new();
    for &elements in lengths {
        let scalar = row.is_scalar().then_some("memory");
        let kinds = scalar.map_or(vec!["memory", "broadcast"], |kind| vec![kind]);
        let kinds = kinds.into_iter().chain(["registers"]);
        operands.extend(kinds.map(|kind| (elements, kind.to_string())));
    }
    let all = *lengths.last().expect("a length");
    match row.suppresses {
        true => operands.push((all, "suppression".to_string())),
        false => operands.extend((0..4).map(|mode| (all, format!("embedded mode {mode}")))),
    }
    let maskings: &[&str] = match row.to_mask {
        true => &["no mask", "merging"],
        false => &["no mask", "merging", "zeroing"],
    };
    let (name, mut forms) = (row.name, Vec::new());
    for (elements, operand) in operands {
        for masking in maskings {
            forms.push(format!("{name}, {elements} elements, {operand}, {masking}"));
        }
    }
    forms
}

/// The cases together: every form of every row, done; packed and scalar rows in every mode of the
/// control word; every predicate; every answer that a processor gives to what is decoded; every
/// base and index.
#[test]
fn the_cases_reach_every_form() {
    let mut coverage = Coverage::none();
    let (mut reached, mut predicates) = (BTreeSet::new(), BTreeSet::new());
    let mut modes = BTreeSet::new();
    for kept in cases() {
        for step in steps(&kept.bytes()) {
            let outcome = second::step(&step);
            coverage.see(&step, &outcome);
            let instruction = decode(&step.code).expect("a case is decoded");
            if outcome.answer.number == 0 {
                reached.insert(form(&instruction));
                predicates.extend(instruction.immediate.map(|immediate| immediate & 31));
                let mode = step.machine.control >> 13 & 3;
                let rounds = instruction.listed.operation.rounds() && !instruction.hides_exceptions;
                modes.extend(rounds.then(|| (instruction.listed.is_scalar(), mode)));
            }
        }
    }
    let due: BTreeSet<String> = LIST.iter().flat_map(forms).collect();
    assert_eq!(due, reached);
    assert_eq!(predicates, (0..32).collect());
    assert_eq!(modes.len(), 2 * 4, "{modes:?}");
    coverage.require_answers(&[0, 7, 8]);
    coverage.require_of(1, |name| {
        [
            "address: base, base in SIB, base and index, index, none, relative",
            "base register",
            "index register",
            "scale 1, 2, 4, 8",
            "displacement of 0, 1, 4 bytes",
            "address that is a sum beyond 2 to the 64",
            "all lanes off: register, memory, broadcast",
            "some lanes off: merged, zeroed",
            "scalar: no mask; lane 0 on, off, with z on, off",
            "compare: mask destination",
        ]
        .contains(&name)
    });
}

/// R7.2, of the case that raises one flag after another: so many more with each item.
#[test]
fn the_flags_come_one_by_one() {
    let kept = all();
    let flags = kept.iter().find(|kept| kept.name == "flags");
    let steps = steps(&flags.expect("the case").bytes());
    let controls = steps[1..].iter().map(|step| step.machine.control & 63);
    let known = [0, 0x20, 0x22, 0x26, 0x36, 0x3E, 0x3F, 0x3F];
    assert_eq!(controls.collect::<Vec<_>>(), known);
}
