//! The plain replay is worth timing only if it is right: recordings are made by the second program,
//! and each report is held against the one that is meant and against the library's.

use ridgecrook_bench::{plain_replay, recorder::Recorder};
use ridgecrook_tests::library::{self, Reported};
use ridgecrook_tests::machine::{Answer, Machine, Step, VECTORS_SIZE};
use ridgecrook_tests::random_step::Steps;
use ridgecrook_tests::second;
use ridgecrook_tests::second::encoding::decode;
use ridgecrook_tests::second::replay::Report;
use ridgecrook_tests::second::saved::{load, FILE_AT, VERSIONS};
use std::collections::BTreeMap;

/// What both programs report.
fn report(recording: &[u8]) -> Report {
    let plain = plain_replay::replay(recording);
    let library = library::replay(&mut recording.to_vec());
    assert_eq!(Reported::from(plain), library, "plain, library");
    plain
}

fn second_step(machine: &mut Machine, code: &[u8], memory: &[u8]) -> Answer {
    let outcome = second::step(&Step {
        machine: machine.clone(),
        code: code.to_vec(),
        memory: memory.to_vec(),
    });
    *machine = outcome.after.machine;
    outcome.answer
}

/// A recording, and where its parts are.
struct Recording {
    bytes: Vec<u8>,
    /// Where each item begins, and where the last one ends.
    places: Vec<usize>,
    /// Each item's answer, and whether its code names a mask.
    answers: Vec<(u32, bool)>,
}

impl Recording {
    /// Of steps in a row, some refused, from a state of which some registers are present.
    fn of(steps: &mut Steps, version: u32, items: i32, most_memory: i32) -> Recording {
        let (mut machine, memory) = steps.start();
        machine.keep_registers(steps.random.bits() as u32);
        let mut recorder = Recorder::of(second_step, machine, version, Vec::new());
        let mut places = vec![recorder.recording.len()];
        let mut answers = Vec::new();
        for _ in 0..items {
            let mut code = steps.step().code;
            code.truncate(15);
            let lent = steps.random.within(0, most_memory) as usize;
            let to_mask = decode(&code).is_ok_and(|decoded| decoded.listed.to_mask);
            answers.push((recorder.record(&code, &memory[..lent]), to_mask));
            places.push(recorder.recording.len());
        }
        Recording {
            bytes: recorder.recording,
            places,
            answers,
        }
    }

    fn items(&self) -> u64 {
        self.answers.len() as u64
    }
}

#[test]
fn recordings_that_are_the_same() {
    let mut steps = Steps::seeded(20);
    let mut reached = BTreeMap::new();
    for turn in 0..3_000 {
        let version = VERSIONS[turn % 2];
        let items = steps.random.within(0, 8);
        let recording = Recording::of(&mut steps, version, items, 2000);
        assert_eq!(report(&recording.bytes), Report::Same(recording.items()));
        for answer in recording.answers {
            *reached.entry(answer).or_insert(0) += 1;
        }
    }
    let decoded = [0, 7, 8].map(|answer| [(answer, false), (answer, true)]);
    let refused = [3, 4, 5].map(|answer| (answer, false));
    for answer in decoded.as_flattened().iter().chain(&refused) {
        assert!(reached.get(answer) >= Some(&10), "{answer:?}: {reached:?}");
    }
}

/// What an item whose byte at that place is changed is reported as. None where it may turn out any
/// way: in the code, in the memory, and in the code's count, which puts the memory's count at other
/// bytes, where it may fit by chance.
fn meant(item: &[u8], place: usize, number: u64) -> Option<Report> {
    let code_end = 7 + usize::from(item[6]);
    let memory_end = item.len() - 68;
    match place {
        0..=4 => Some(Report::BadItem(number)),
        5 => Some(Report::Differs(number)),
        _ if place < code_end => None,
        _ if place < code_end + 2 => Some(Report::BadItem(number)),
        _ if place < memory_end => None,
        _ => Some(Report::Differs(number)),
    }
}

#[test]
fn every_bit_of_an_item() {
    let mut steps = Steps::seeded(21);
    for turn in 0..40 {
        let mut recording = Recording::of(&mut steps, VERSIONS[turn % 2], 6, 100);
        for number in 0..6 {
            let [start, end] = [0, 1].map(|next| recording.places[number + next]);
            for (at, bit) in (start..end).flat_map(|at| (0..8).map(move |bit| (at, bit))) {
                let item = &recording.bytes[start..end];
                let expected = meant(item, at - start, number as u64);
                recording.bytes[at] ^= 1 << bit;
                let report = report(&recording.bytes);
                recording.bytes[at] ^= 1 << bit;
                let as_meant = expected.is_none_or(|meant| meant == report);
                assert!(as_meant, "bit {bit} at {}: {report:?}", at - start);
                assert!(report.item() >= number as u64 && report != Report::BadState);
            }
        }
    }
}

/// Whether the second program loads the state that a recording begins with.
fn loads(recording: &[u8]) -> bool {
    let Some(length) = recording.first_chunk() else {
        return false;
    };
    let end = 4 + u32::from_be_bytes(*length) as usize;
    let saved = recording.get(..end);
    saved.is_some_and(|saved| load(saved, VECTORS_SIZE).is_ok())
}

#[test]
fn every_bit_of_a_state() {
    let mut steps = Steps::seeded(22);
    let mut refused = 0;
    for version in VERSIONS {
        let mut recording = Recording::of(&mut steps, version, 3, 100);
        for (at, bit) in (0..recording.places[0]).flat_map(|at| (0..8).map(move |bit| (at, bit))) {
            recording.bytes[at] ^= 1 << bit;
            let is_bad = report(&recording.bytes) == Report::BadState;
            assert_eq!(is_bad, !loads(&recording.bytes), "bit {bit} at {at}");
            refused += u32::from(is_bad);
            recording.bytes[at] ^= 1 << bit;
        }
    }
    // In each version the length field, the version and the upper half of the control word.
    assert!(refused >= 2 * 8 * (4 + 1 + 2), "{refused}");
}

#[test]
fn cut_at_every_place() {
    let mut steps = Steps::seeded(23);
    for version in VERSIONS {
        let recording = Recording::of(&mut steps, version, 8, 200);
        for end in 0..=recording.bytes.len() {
            let whole = recording.places.partition_point(|&place| place <= end) as u64;
            let expected = match whole.checked_sub(1) {
                None => Report::BadState,
                Some(items) if recording.places.contains(&end) => Report::Same(items),
                Some(items) => Report::BadItem(items),
            };
            assert_eq!(report(&recording.bytes[..end]), expected, "up to {end}");
        }
    }
}

/// Bytes behind the last item are an item that is cut short or has another version.
#[test]
fn bytes_left_behind() {
    let mut recording = Recording::of(&mut Steps::seeded(24), 2, 2, 100);
    for _ in 0..200 {
        recording.bytes.push(0);
        assert_eq!(report(&recording.bytes), Report::BadItem(2));
    }
}

#[test]
fn counts_within_their_limits() {
    let [code, memory] = [vec![0x62; 16], vec![0; 4097]];
    for (code_count, memory_count) in [(15, 0), (0, 4096), (15, 4096), (16, 0), (0, 4097)] {
        let mut recorder = Recorder::of(second_step, Machine::blank(), 2, Vec::new());
        recorder.record(&[], &[]);
        recorder.record(&code[..code_count], &memory[..memory_count]);
        let expected = if code_count > 15 || memory_count > 4096 {
            Report::BadItem(1)
        } else {
            Report::Same(2)
        };
        assert_eq!(report(&recorder.recording), expected);
    }
}

/// Items behind the first that is bad or differs are not looked at.
#[test]
fn the_first_of_two() {
    let recording = Recording::of(&mut Steps::seeded(25), 1, 4, 100);
    let [version, answer] = [4, 5];
    for (first, second) in [(version, answer), (answer, version)] {
        let mut bytes = recording.bytes.clone();
        bytes[recording.places[1] + first] ^= 0xFF;
        bytes[recording.places[2] + second] ^= 0xFF;
        let expected = match first == version {
            true => Report::BadItem(1),
            false => Report::Differs(1),
        };
        assert_eq!(report(&bytes), expected);
    }
}

/// R9.8: a register that is marked as present is all zero, in a form that is else as it must be.
#[test]
fn a_present_register_that_is_zero() {
    let mut machine = Machine::blank();
    machine.vectors[0] = 1;
    let mut recorder = Recorder::of(second_step, machine, 2, Vec::new());
    recorder.record(&[0x90], &[]);
    assert_eq!(report(&recorder.recording), Report::Same(1));
    recorder.recording[FILE_AT + 4] = 0;
    assert_eq!(report(&recorder.recording), Report::BadState);
}
