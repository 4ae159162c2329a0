//! Random recordings by the library and the second program (R12.3), short and long, as they are and
//! damaged, and a count of what they reach: reports (R14.7), answers, and destinations (R14.5).
//!
//! `RIDGECROOK_SEED` sets the seed, `RIDGECROOK_RECORDINGS` the number of recordings. One whose
//! report differs is kept as a file, which the message names: `target/bin/replay < FILE` replays it
//! again.

use ridgecrook_tests::checked_replay::Replays;
use ridgecrook_tests::compare::{log, setting};
use ridgecrook_tests::random_recording::Recordings;
use ridgecrook_tests::recording::{Item, Recorder};
use ridgecrook_tests::second::encoding::{decode, LIST};
use ridgecrook_tests::second::replay::Report;
use std::collections::BTreeMap;

const SEED: u64 = 20_240_309;

/// Fewer recordings than this may miss something without a fault.
const ENOUGH: u64 = 20_000;

/// How often each thing was reached, by its name.
#[derive(Default)]
struct Reached(BTreeMap<String, u64>);

impl Reached {
    fn see(&mut self, name: String) {
        *self.0.entry(name).or_default() += 1;
    }

    /// A report on a recording of a version.
    fn report(&mut self, bytes: &[u8], report: Report, kind: &str) {
        let version = bytes.get(4).copied().unwrap_or(0).min(3);
        let number = report.number();
        self.see(format!("version {version}, {kind}: report {number}"));
    }

    /// An item that was replayed and agreed: its answer, its instruction, what it writes.
    fn item(&mut self, item: &Item) {
        let answer = item.answer;
        self.see(format!("answer {answer}"));
        if let Ok(instruction) = decode(&item.code) {
            self.see(format!("{}, answer {answer}", instruction.listed.name));
            if let Some(mask) = instruction.written_mask() {
                self.see(format!("mask {mask}"));
                self.see(format!("a mask, answer {answer}"));
            }
        }
    }

    fn require(&self, name: &str, least: u64) {
        let count = self.0.get(name).copied().unwrap_or(0);
        assert!(count >= least, "{name}: {count} of {least}");
    }
}

/// Replays a recording as it was written: where its state loads, every item agrees.
fn as_written(replays: &Replays, number: usize, recorder: &Recorder, reached: &mut Reached) {
    let bytes = recorder.recording.bytes();
    let report = replays.agrees(number, &bytes);
    reached.report(&bytes, report, "as written");
    if report != Report::BadState {
        assert_eq!(report, recorder.report(), "{number}: the second program");
        let items = &recorder.recording.items;
        items.iter().for_each(|item| reached.item(item));
    }
}

#[test]
fn random_recordings_agree() {
    let seed = setting("RIDGECROOK_SEED", SEED);
    let count = setting("RIDGECROOK_RECORDINGS", 24_000);
    let replays = Replays::of("random recordings", env!("CARGO_TARGET_TMPDIR"));
    let mut recordings = Recordings::seeded(seed);
    let mut reached = Reached::default();
    log(&format!("random recordings: {count}, seed {seed}"));
    for number in 0..count as usize {
        let items = recordings.steps.random.within(0, 8);
        let recorder = recordings.recorder(items as usize);
        as_written(&replays, number, &recorder, &mut reached);
        // And twice damaged, each time anew.
        for _ in 0..2 {
            let bytes = recordings.damaged(&recorder.recording);
            let report = replays.agrees(number, &bytes);
            reached.report(&bytes, report, "damaged");
        }
    }
    for (name, count) in &reached.0 {
        println!("{name}: {count}");
    }
    if count >= ENOUGH {
        require_all(&reached);
    }
}

fn require_all(reached: &Reached) {
    reached.require("version 1, as written: report 0", 5000);
    reached.require("version 2, as written: report 0", 5000);
    reached.require("version 1, as written: report 3", 100);
    for version in [1, 2] {
        for report in 0..4 {
            reached.require(&format!("version {version}, damaged: report {report}"), 500);
        }
    }
    for answer in [0, 3, 4, 5, 7, 8] {
        reached.require(&format!("answer {answer}"), 500);
    }
    for row in &LIST {
        for answer in [0, 7, 8] {
            reached.require(&format!("{}, answer {answer}", row.name), 40);
        }
    }
    for mask in 0..8 {
        reached.require(&format!("mask {mask}"), 100);
    }
    for answer in [0, 7, 8] {
        reached.require(&format!("a mask, answer {answer}"), 40);
    }
}

/// Hundreds of items, as they are and with one of them damaged.
#[test]
fn long_recordings_agree() {
    let seed = setting("RIDGECROOK_SEED", SEED);
    let replays = Replays::of("long recordings", env!("CARGO_TARGET_TMPDIR"));
    let mut recordings = Recordings::seeded(seed ^ 1 << 32);
    let mut reached = Reached::default();
    let mut latest = 0;
    log(&format!("long recordings, seed {seed}"));
    for number in 0..24 {
        let items = recordings.steps.random.within(200, 700);
        let recorder = recordings.recorder(items as usize);
        as_written(&replays, number, &recorder, &mut reached);
        for _ in 0..3 {
            let bytes = recordings.damaged(&recorder.recording);
            let report = replays.agrees(number, &bytes);
            if !matches!(report, Report::Same(_)) {
                latest = latest.max(report.item());
            }
        }
    }
    assert!(latest >= 200, "nothing is found behind {latest}");
    reached.require("answer 0", 1000);
    reached.require("answer 8", 200);
}

/// Behind a hundred thousand items the last one is still looked at.
#[test]
fn a_hundred_thousand_items() {
    const ITEMS: usize = 100_000;
    let replays = Replays::of("a hundred thousand items", env!("CARGO_TARGET_TMPDIR"));
    let mut recordings = Recordings::seeded(SEED ^ 2 << 32);
    let mut recorder = recordings.recorder(0);
    while recorder.recording.form[4] != 2 {
        recorder = recordings.recorder(0);
    }
    for _ in 0..ITEMS {
        let code = recordings.steps.code();
        recorder.step(&code, &[0x3C; 40]);
    }
    let last = ITEMS as u64 - 1;
    let mut bytes = recorder.recording.bytes();
    replays.reports(0, &bytes, Report::Same(last + 1));
    // What is due of these is known by the place alone, so the slow program is not asked.
    replays.check(1, &bytes[..bytes.len() - 1], Report::BadItem(last));
    let at = recorder.recording.item_at(ITEMS - 1);
    for (place, report) in [
        (at + 3, Report::BadItem(last)),
        (at + 4, Report::BadItem(last)),
        (at + 5, Report::Differs(last)),
        (bytes.len() - 65, Report::Differs(last)),
        (bytes.len() - 1, Report::Differs(last)),
    ] {
        bytes[place] ^= 1;
        replays.check(place, &bytes, report);
        bytes[place] ^= 1;
    }
    bytes.push(0);
    replays.check(2, &bytes, Report::BadItem(last + 1));
}
