//! Damaged recordings (R14.3, R14.6, R14.7): every byte of an item and of the state, every cut,
//! bytes and items that are lost, doubled or in another order. The library's report is held against
//! the second program's, and both against what is due, where the place alone tells that.

use ridgecrook_tests::checked_replay::Replays;
use ridgecrook_tests::command_input::{one_and, ADD, DIVIDE};
use ridgecrook_tests::machine::{Machine, REGISTER_SIZE};
use ridgecrook_tests::recording::{Part, Recorder, Recording};
use ridgecrook_tests::second::replay::Report::{self, BadItem, BadState, Differs, Same};
use ridgecrook_tests::second::replay::CODE_LIMIT;
use ridgecrook_tests::second::saved::{form, FILE_AT, SMALLEST_SIZE, VERSIONS};
use std::collections::BTreeMap;

fn replays(name: &'static str) -> Replays {
    Replays::of(name, env!("CARGO_TARGET_TMPDIR"))
}

/// zmm0 = zmm0 + zmm1.
const COUNT: [u8; 6] = [0x62, 0xF5, 0x7C, 0x48, 0x58, 0xC1];
/// k1 = zmm1 < zmm2, by LT_OS.
const COMPARE: [u8; 7] = [0x62, 0xF3, 0x74, 0x48, 0xC2, 0xCA, 0x01];
/// k2 = zmm1 < what stands at RAX.
const COMPARE_MEMORY: [u8; 7] = [0x62, 0xF3, 0x74, 0x48, 0xC2, 0x10, 0x01];
/// zmm3{k1} = zmm1 + what stands at RAX.
const ADD_UNDER: [u8; 6] = [0x62, 0xF5, 0x74, 0x49, 0x58, 0x18];
/// A fixed bit is wrong.
const RESERVED: [u8; 6] = [0x62, 0xFD, 0x74, 0x48, 0x58, 0xC2];

/// 1 in zmm1; 2 in half of the lanes of zmm2 and 0 in the others; a division by zero is unmasked.
fn start() -> Machine {
    let mut machine = one_and(0x4000);
    for lane in (0..32).step_by(2) {
        machine.set_lane(2, lane, 0);
    }
    machine.masks[2] = 0x0123_4567_89AB_CDEF;
    machine.control = 0x1D80;
    machine
}

/// What each item is answered.
const ANSWERS: [u32; 10] = [0, 0, 0, 4, 7, 8, 5, 3, 7, 0];

/// A recording of every kind of item: vectors and masks, with memory and without, and refusals.
fn of_every_kind(version: u32) -> Recording {
    let mut recorder = Recorder::of(version, start());
    let behind = |code: &[u8]| [code, &[0x90; CODE_LIMIT]].concat()[..CODE_LIMIT].to_vec();
    let steps: [(&[u8], &[u8]); 10] = [
        (&COUNT, &[]),
        (&COMPARE, &[]),
        (&ADD_UNDER, &[0x42; 70]),
        (&[0x90], &[1, 2, 3]),
        (&COMPARE_MEMORY, &[0x40; 63]),
        (&DIVIDE, &[]),
        (&behind(&RESERVED), &[]),
        (&[], &[7]),
        (&ADD_UNDER, &[]),
        (&behind(&COUNT), &[9; 5]),
    ];
    let answers = steps.map(|(code, memory)| recorder.step(code, memory));
    assert_eq!(answers, ANSWERS);
    recorder.recording
}

/// Other values of a byte: each bit changed, the least, the most, the neighbours, the complement.
fn others(byte: u8) -> Vec<u8> {
    let bits = (0..8).map(|bit| byte ^ 1 << bit);
    let far = [0, 0xFF, byte.wrapping_add(1), byte.wrapping_sub(1), !byte];
    let mut all: Vec<u8> = bits.chain(far).filter(|&other| other != byte).collect();
    all.sort();
    all.dedup();
    all
}

/// What is due where a byte of an item has another value; nothing where other bytes have a say.
fn due(number: u64, part: Part, value: u8) -> Option<Report> {
    match part {
        Part::Length | Part::Version => Some(BadItem(number)),
        Part::Answer | Part::Control | Part::Destination => Some(Differs(number)),
        // The count of memory is taken from another place then, and might fit the length.
        Part::CodeCount if usize::from(value) <= CODE_LIMIT => None,
        // The length does not fit, since the count of code is as it was.
        Part::CodeCount | Part::MemoryCount => Some(BadItem(number)),
        Part::Code | Part::Memory => None,
    }
}

/// What the reports of damaged items were, by the part that was damaged: how many were `same`,
/// `differs` and `bad item`.
type Counts = BTreeMap<Part, [u64; 3]>;

/// A byte of an item at another value.
fn damage_item(
    replays: &Replays,
    recording: &Recording,
    (number, place): (usize, usize),
    value: u8,
    counts: &mut Counts,
) {
    let part = recording.items[number].part_of(place);
    let at = recording.item_at(number) + place;
    let mut bytes = recording.bytes();
    bytes[at] = value;
    let report = replays.agrees(at, &bytes);
    let number = number as u64;
    if let Some(due) = due(number, part, value) {
        assert_eq!(report, due, "item {number}, byte {place} is {value:02X}");
    }
    if [Part::Code, Part::Memory].contains(&part) {
        let is_late = matches!(report, Same(10)) || matches!(report, Differs(at) if at >= number);
        assert!(is_late, "item {number}, byte {place}: {report}");
    }
    counts.entry(part).or_default()[report.number() as usize] += 1;
}

/// Every byte of every item, each bit and some other values.
#[test]
fn every_byte_of_an_item() {
    let replays = replays("bytes of items");
    let mut counts = Counts::new();
    for version in VERSIONS {
        let recording = of_every_kind(version);
        replays.reports(0, &recording.bytes(), Same(10));
        for (number, item) in recording.items.iter().enumerate() {
            for (place, byte) in item.bytes().into_iter().enumerate() {
                for value in others(byte) {
                    damage_item(&replays, &recording, (number, place), value, &mut counts);
                }
            }
        }
    }
    // Damaged code and memory are found where they make a difference; not all do.
    for (part, [same, differs, bad]) in [
        (Part::Code, [100, 500, 0]),
        (Part::Memory, [50, 500, 0]),
        (Part::CodeCount, [0, 0, 200]),
        (Part::Destination, [0, 10_000, 0]),
    ] {
        let reached = counts[&part];
        let least = [same, differs, bad];
        let is_enough = reached
            .iter()
            .zip(least)
            .all(|(&count, least)| count >= least);
        assert!(is_enough, "{part:?}: {reached:?} of {least:?}");
    }
}

/// Every value of the bytes that count and mark: length, version, answer and the two counts.
#[test]
fn every_value_of_a_head() {
    let replays = replays("heads of items");
    let recording = of_every_kind(2);
    let mut counts = Counts::new();
    for number in [0, 2, 7, 9] {
        let item = &recording.items[number];
        let bytes = item.bytes();
        let memory_count = 7 + item.code.len();
        for place in (0..7).chain(memory_count..memory_count + 2) {
            for value in (0..=255).filter(|&value| value != bytes[place]) {
                damage_item(&replays, &recording, (number, place), value, &mut counts);
            }
        }
    }
    let [_, _, bad] = counts[&Part::CodeCount];
    assert!(bad >= 4 * 240, "counts of code: {bad}");
    assert_eq!(counts[&Part::Answer], [0, 4 * 255, 0]);
    assert_eq!(counts[&Part::Version], [0, 0, 4 * 255]);
    assert_eq!(counts[&Part::Length], [0, 0, 4 * 4 * 255]);
    assert_eq!(counts[&Part::MemoryCount], [0, 0, 4 * 2 * 255]);
}

/// Cut at every place: a state that is not whole, whole items alone, or a part of one behind them.
#[test]
fn every_cut() {
    let replays = replays("cuts");
    for version in VERSIONS {
        let recording = of_every_kind(version);
        let bytes = recording.bytes();
        let ends: Vec<usize> = (0..=10).map(|number| recording.item_at(number)).collect();
        assert_eq!(ends[10], bytes.len());
        for kept in 0..=bytes.len() {
            let whole = ends.iter().filter(|&&end| end <= kept).count() as u64;
            let known = match whole.checked_sub(1) {
                None => BadState,
                Some(items) if ends.contains(&kept) => Same(items),
                Some(items) => BadItem(items),
            };
            replays.reports(kept, &bytes[..kept], known);
        }
    }
}

/// A byte that is lost, and one that is there twice, at every place.
#[test]
fn bytes_lost_and_doubled() {
    let replays = replays("bytes lost and doubled");
    let recording = of_every_kind(2);
    let bytes = recording.bytes();
    for place in 0..bytes.len() {
        let mut fewer = bytes.clone();
        fewer.remove(place);
        let mut more = bytes.clone();
        more.insert(place, bytes[place]);
        for damaged in [fewer, more] {
            let report = replays.agrees(place, &damaged);
            let is_same = matches!(report, Same(_));
            assert!(!is_same, "{place}: {report}");
        }
    }
}

/// Sums that count: each item has a result of its own.
fn counting(version: u32, items: u64) -> Recording {
    let mut recorder = Recorder::of(version, one_and(0x4000));
    for _ in 0..items {
        assert_eq!(recorder.step(&COUNT, &[]), 0);
    }
    recorder.recording
}

/// Items that are lost, doubled, in another order, or joined to one.
#[test]
fn items_in_disorder() {
    let replays = replays("items in disorder");
    for version in VERSIONS {
        let recording = counting(version, 12);
        replays.reports(0, &recording.bytes(), Same(12));
        for number in 0..12 {
            let at = number as u64;
            let changed = |change: fn(&mut Recording, usize)| {
                let mut damaged = recording.clone();
                change(&mut damaged, number);
                damaged.bytes()
            };
            let lost = changed(|recording, number| drop(recording.items.remove(number)));
            let is_last = number == 11;
            let known = if is_last { Same(11) } else { Differs(at) };
            replays.reports(number, &lost, known);
            let doubled = changed(|recording, number| {
                let item = recording.items[number].clone();
                recording.items.insert(number, item);
            });
            replays.reports(number, &doubled, Differs(at + 1));
            if is_last {
                continue;
            }
            let swapped = changed(|recording, number| recording.items.swap(number, number + 1));
            replays.reports(number, &swapped, Differs(at));
            let mut joined = recording.bytes();
            let (from, to) = (recording.item_at(number), recording.item_at(number + 2));
            joined[from..from + 4].copy_from_slice(&((to - from - 4) as u32).to_be_bytes());
            replays.reports(number, &joined, BadItem(at));
        }
    }
}

/// Items of one recording behind the state of another, and a whole recording behind another.
#[test]
fn recordings_mixed_up() {
    let replays = replays("recordings mixed up");
    for version in VERSIONS {
        let [kinds, count] = [of_every_kind(version), counting(version, 3)];
        let joined = [kinds.bytes(), count.bytes()].concat();
        replays.reports(0, &joined, BadItem(10));
        let items = &kinds.bytes()[kinds.form.len()..];
        // Here a division by zero is masked, so that the control word is not the first item's.
        replays.reports(1, &[&count.form[..], items].concat(), Differs(0));
        // The same state in the other version is as good.
        let other = form(&start(), 3 - version);
        replays.reports(2, &[&other[..], items].concat(), Same(10));
    }
}

/// Each bit of the state in front.
#[test]
fn every_bit_of_the_state() {
    let replays = replays("bits of the state");
    for version in VERSIONS {
        let recording = of_every_kind(version);
        let bytes = recording.bytes();
        let mut reports = [0; 4];
        for place in 0..recording.form.len() {
            // Most of the file of version 1 is never read: one bit of each byte there.
            let is_head = place < SMALLEST_SIZE + 3 * REGISTER_SIZE;
            let bits = if is_head {
                0..8
            } else {
                place % 8..place % 8 + 1
            };
            for bit in bits {
                let mut damaged = bytes.clone();
                damaged[place] ^= 1 << bit;
                let report = replays.agrees(8 * place + bit, &damaged);
                if let Some(due) = due_of_state(version, place) {
                    assert_eq!(report, due, "version {version}, byte {place}, bit {bit}");
                }
                reports[report.number() as usize] += 1;
            }
        }
        let [same, differs, bad_items, bad_states] = reports;
        assert_eq!(bad_items, 0);
        let refused = 8 * (5 + 2 + if version == 2 { 4 } else { 0 });
        assert_eq!(bad_states, refused, "version {version}");
        assert!(same >= 500 && differs >= 500, "{reports:?}");
    }
}

/// What is due where a bit of the state's form is changed; nothing where it depends on the bit.
fn due_of_state(version: u32, place: usize) -> Option<Report> {
    // Where zmm1 stands.
    let one = match version {
        1 => FILE_AT + REGISTER_SIZE,
        _ => SMALLEST_SIZE,
    };
    match place {
        // Length, version, the upper half of the control word; the word of present registers.
        0..7 => Some(BadState),
        FILE_AT..SMALLEST_SIZE if version == 2 => Some(BadState),
        // The control word and zmm1 show in the first item.
        7..9 => Some(Differs(0)),
        _ if (one..one + REGISTER_SIZE).contains(&place) => Some(Differs(0)),
        // The pointer is never read, nor are RBX and what follows, nor k3 to k7.
        9..17 | 41..145 | 169..209 => Some(Same(10)),
        _ => None,
    }
}

/// A sum in an item of another size than its own, each size of code and of memory.
#[test]
fn every_size_of_code_and_memory() {
    let replays = replays("sizes of code and memory");
    for size in 0..=40 {
        let mut recorder = Recorder::of(2, one_and(0x4000));
        let code = ADD.iter().copied().chain([0x90; 64]).take(size);
        let answer = recorder.step(&code.collect::<Vec<u8>>(), &[]);
        assert_eq!(answer, if size < 6 { 3 } else { 0 });
        recorder.step(&ADD, &[]);
        let known = if size <= 15 { Same(2) } else { BadItem(0) };
        replays.reports(size, &recorder.recording.bytes(), known);
    }
    for size in (0..=300).chain(4000..=4200).chain([8192, 65_535]) {
        let mut recorder = Recorder::of(2, one_and(0x4000));
        recorder.step(&ADD, &vec![0x40; size]);
        recorder.step(&ADD_UNDER, &vec![0x40; size]);
        let known = if size <= 4096 { Same(2) } else { BadItem(0) };
        replays.reports(size, &recorder.recording.bytes(), known);
    }
}
