//! The program that replays a recording, as a process (R14.10): its one line, held against the
//! second program's (R12.3).
//!
//! `RIDGECROOK_REPLAY` names the program (otherwise `target/bin/replay`), `RIDGECROOK_SEED` sets the
//! seed, `RIDGECROOK_INPUTS` the number of random recordings. One whose line differs is kept as a
//! file, which the message names: `target/bin/replay < FILE` replays it again.

use ridgecrook_tests::checked_command::Command;
use ridgecrook_tests::command_input::{one_and, ADD};
use ridgecrook_tests::compare::{log, setting};
use ridgecrook_tests::machine::Machine;
use ridgecrook_tests::program::REPLAY;
use ridgecrook_tests::random::Random;
use ridgecrook_tests::random_recording::Recordings;
use ridgecrook_tests::reading::Reading;
use ridgecrook_tests::recording::{Recorder, Recording};
use ridgecrook_tests::second::replay::INPUT_LIMIT;
use ridgecrook_tests::second::saved::VERSIONS;

const SEED: u64 = 20_240_310;

const TOO_LONG: &str = "too long\n";

fn command(name: &'static str) -> Command {
    Command::replaying(name, env!("CARGO_TARGET_TMPDIR"))
}

/// Each line as a person writes it down.
#[test]
fn every_line() {
    let command = command("every line");
    command.prints(0, &[], "bad state\n");
    command.prints(1, &[0], "bad state\n");
    for version in VERSIONS {
        let mut recorder = Recorder::of(version, one_and(0x4000));
        command.prints(2, &recorder.recording.bytes(), "same 0\n");
        for number in 0..12 {
            recorder.step(&ADD, &[]);
            let mut bytes = recorder.recording.bytes();
            command.prints(3, &bytes, &format!("same {}\n", number + 1));
            // The last byte, then the version of the last item, then the version of the state.
            *bytes.last_mut().expect("an item") ^= 1;
            command.prints(4, &bytes, &format!("differs at {number}\n"));
            bytes[recorder.recording.item_at(number) + 4] = 2;
            command.prints(5, &bytes, &format!("bad item {number}\n"));
            bytes[4] = 3;
            command.prints(6, &bytes, "bad state\n");
        }
    }
}

/// A recording of exactly so many bytes: sums with memory that none of them reads, each of which
/// has 83 bytes at least.
fn filled(version: u32, size: usize) -> Recording {
    let mut recorder = Recorder::of(version, one_and(0x4000));
    let mut left = size - recorder.recording.form.len();
    while left > 0 {
        // What is left behind this one is nothing, or enough for one more.
        let item = if left <= 4179 { left } else { 4000 };
        recorder.step(&ADD, &vec![0x3C; item - 83]);
        left -= item;
    }
    let recording = recorder.recording;
    assert_eq!(recording.bytes().len(), size);
    recording
}

/// 65,536 bytes are replayed to the last, good or bad; one more is too long, whatever it holds.
#[test]
fn the_largest_input() {
    let command = command("the largest input");
    for version in VERSIONS {
        for size in [INPUT_LIMIT - 1, INPUT_LIMIT] {
            let recording = filled(version, size);
            let count = recording.items.len();
            let mut bytes = recording.bytes();
            command.prints(size, &bytes, &format!("same {count}\n"));
            bytes[size - 1] ^= 1;
            command.prints(size, &bytes, &format!("differs at {}\n", count - 1));
            bytes[recording.item_at(count - 1) + 4] ^= 1;
            command.prints(size, &bytes, &format!("bad item {}\n", count - 1));
            bytes[4] = 0;
            command.prints(size, &bytes, "bad state\n");
        }
        // A byte behind the last item, with which there are 65,536.
        let recording = filled(version, INPUT_LIMIT - 1);
        let bytes = [recording.bytes(), vec![0]].concat();
        let count = recording.items.len();
        command.prints(0, &bytes, &format!("bad item {count}\n"));
        for size in [INPUT_LIMIT + 1, INPUT_LIMIT + 2, 70_000, 131_072, 1_000_000] {
            command.prints(size, &filled(version, size).bytes(), TOO_LONG);
        }
    }
}

/// What is too long is never looked at.
#[test]
fn too_long() {
    let command = command("too long");
    let good = filled(2, INPUT_LIMIT).bytes();
    for size in [
        65_537, 65_538, 66_000, 70_000, 131_071, 131_072, 131_073, 1_000_000,
    ] {
        for byte in [0, 1, 0xFF] {
            command.prints(size, &vec![byte; size], TOO_LONG);
            let mut longer = good.clone();
            longer.resize(size, byte);
            command.prints(size, &longer, TOO_LONG);
        }
    }
    for byte in [0, 1, 0xFF] {
        command.prints(0, &[byte; INPUT_LIMIT], "bad state\n");
    }
}

/// Input that comes in pieces, as a pipe may give it, and from a file.
#[test]
fn input_in_pieces() {
    let command = command("input in pieces");
    let mut recordings = Recordings::seeded(setting("RIDGECROOK_SEED", SEED));
    let mut random = Random::seeded(SEED);
    let mut inputs: Vec<Vec<u8>> = (0..40)
        .map(|_| recordings.recorder(12).recording.bytes())
        .collect();
    inputs.push(Vec::new());
    inputs.push(filled(1, INPUT_LIMIT).bytes());
    inputs.push(filled(2, INPUT_LIMIT + 1).bytes());
    inputs.push(filled(2, 300_000).bytes());
    for (number, bytes) in inputs.iter().enumerate() {
        command.agrees_in_pieces(number, bytes, &mut random);
    }
}

/// Each byte by itself, with a pause before it.
#[test]
fn pieces_of_one_byte() {
    let command = command("pieces of one byte");
    let mut recorder = Recorder::of(2, Machine::blank());
    recorder.step(&ADD, &[]);
    let bytes = recorder.recording.bytes();
    let pieces: Vec<&[u8]> = bytes.chunks(1).collect();
    let printed = command.program.output_of_pieces(&pieces);
    assert_eq!(String::from_utf8_lossy(&printed), "same 1\n");
}

#[test]
fn random_recordings_agree() {
    let seed = setting("RIDGECROOK_SEED", SEED);
    let count = setting("RIDGECROOK_INPUTS", 4000);
    let command = command("random recordings of the program");
    let mut recordings = Recordings::seeded(seed);
    let mut endings = [0_u64; 4];
    for number in 0..count as usize {
        let items = recordings.steps.random.within(0, 12);
        let recording = recordings.recorder(items as usize).recording;
        let bytes = match recordings.steps.random.once_in(4) {
            true => recording.bytes(),
            false => recordings.damaged(&recording),
        };
        let line = command.agrees(number, &bytes);
        let words = ["same", "differs at", "bad item", "bad state"];
        let ending = words.iter().position(|word| line.starts_with(word));
        endings[ending.expect("none is too long")] += 1;
    }
    log(&format!("{count} recordings, seed {seed}: {endings:?}"));
    if count >= 2000 {
        let is_enough = endings.iter().all(|&count| count >= 100);
        assert!(is_enough, "{endings:?}");
    }
}

/// Two sums.
fn good_input() -> Reading {
    let mut recorder = Recorder::of(1, one_and(0x4000));
    recorder.step(&ADD, &[]);
    recorder.step(&ADD, &[7; 5]);
    let bytes = recorder.recording.bytes();
    Reading::of(&REPLAY, bytes, "same 2\n".to_string())
}

#[test]
fn reads_that_would_wait() {
    good_input().reads_that_would_wait();
}

#[test]
fn an_end_without_waiting() {
    good_input().an_end_without_waiting();
}

#[test]
fn a_connection_that_is_reset() {
    good_input().a_connection_that_is_reset();
}

#[test]
fn a_folder() {
    good_input().a_folder();
}

#[test]
fn slow_input() {
    good_input().slow_input();
}
