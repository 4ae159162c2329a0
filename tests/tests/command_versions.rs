//! The command with a saved state of either version in front (R9.13, R10.1, R10.2, R10.7), its
//! standard output held against the second program's.

use ridgecrook_tests::checked_command::{Command, BAD};
use ridgecrook_tests::command_input::{input_in, one_and, ADD, ADD_MEMORY, DIVIDE, LARGEST_INPUT};
use ridgecrook_tests::machine::{Machine, REGISTER_SIZE};
use ridgecrook_tests::random::Random;
use ridgecrook_tests::saving::set_length;
use ridgecrook_tests::second::command::{saved_size, CODE_LIMIT, MEMORY_LIMIT};
use ridgecrook_tests::second::saved::{FILE_AT, SMALLEST_SIZE, VERSIONS};

const SEED: u64 = 20_240_304;

fn command(name: &'static str) -> Command {
    Command::of(name, env!("CARGO_TARGET_TMPDIR"))
}

/// A state without a register that is present, byte by byte: 213 bytes, then code, then memory.
#[test]
fn the_smallest_state() {
    let command = command("the smallest state");
    let mut bytes = vec![0, 0, 0, 0xD1, 2, 0, 0, 0x1F, 0x80];
    bytes.resize(213, 0);
    for (number, (rest, known)) in [
        (&[][..], BAD),
        (&[0], BAD),
        (&[0, 0], "stop 0\n"),
        (&[0, 0, 1, 2, 3], "stop 0\n"),
        (&[0, 6, 0x62, 0xF5, 0x74, 0x48, 0x58], BAD),
        (
            &[0, 6, 0x62, 0xF5, 0x74, 0x48, 0x58, 0xC2],
            "0 0 00001f80\nstop 6\n",
        ),
        // 0/0 is invalid, and what follows is memory.
        (
            &[0, 6, 0x62, 0xF5, 0x74, 0x48, 0x5E, 0xC2, 7, 7],
            "0 0 00001f81\nstop 6\n",
        ),
    ]
    .into_iter()
    .enumerate()
    {
        command.prints(number, &[&bytes[..], rest].concat(), known);
    }
}

/// What the registers and the numbers hold is found in its place, whatever is present beside it.
#[test]
fn states_arrive() {
    let command = command("states arrive");
    let code = [ADD, DIVIDE, ADD].concat();
    let inexact = "0 0 00001f80\n6 0 00001fa0\n12 0 00001fa0\nstop 18\n";
    let by_zero = "0 0 00001d80\n6 8 00001d84\nstop 6\n";
    for (half, control, known) in [
        (0x4200, 0x1F80, inexact),
        (0x0000, 0x1D80, by_zero),
        // Negative zeros are present.
        (0x8000, 0x1D80, by_zero),
    ] {
        for register in [0, 3, 17, 31] {
            let mut machine = one_and(half);
            machine.control = control;
            machine.set_lane(register, 31, 0x0100);
            for version in VERSIONS {
                let bytes = input_in(version, &machine, &code, &[1; 9]);
                command.prints(register, &bytes, known);
            }
        }
    }
}

/// The same state in both versions prints the same, with all its memory in reach.
#[test]
fn both_versions_run_alike() {
    let command = command("both versions");
    let mut random = Random::seeded(SEED);
    let mut memory = vec![0; MEMORY_LIMIT];
    memory[MEMORY_LIMIT - 2] = 1;
    for number in 0..100 {
        let mut machine = random.sparse_machine();
        machine.control = 0x1E80;
        machine.masks[1] = 1;
        machine.general[0] = MEMORY_LIMIT as u64 - 2;
        machine.set_lane(1, 0, 0x3C00);
        for (size, known) in [
            (MEMORY_LIMIT, "0 8 00001e82\nstop 0\n"),
            (MEMORY_LIMIT - 1, "0 7 00001e80\nstop 0\n"),
        ] {
            for version in VERSIONS {
                let bytes = input_in(version, &machine, &ADD_MEMORY, &memory[..size]);
                command.prints(number, &bytes, known);
            }
        }
    }
}

/// The largest code and memory behind states of every size, and a byte more.
#[test]
fn the_largest_inputs() {
    let command = command("the largest inputs");
    let mut random = Random::seeded(SEED);
    let mut largest = 0;
    for (version, count) in (0..=32).map(|count| (2, count)).chain([(1, 32)]) {
        let word = (0..count).fold(0, |word, _| word << 1 | 1);
        let mut machine = random.machine_with(word);
        machine.control = 0x1F80;
        let mut bytes = input_in(version, &machine, &[0x90; CODE_LIMIT], &[7; MEMORY_LIMIT]);
        command.prints(count, &bytes, "0 4 00001f80\nstop 0\n");
        largest = largest.max(bytes.len());
        bytes.push(7);
        command.prints(count, &bytes, BAD);
        // A byte of code more, and one of memory less.
        let code = [0x90; CODE_LIMIT + 1];
        let bytes = input_in(version, &machine, &code, &[7; MEMORY_LIMIT - 1]);
        command.prints(count, &bytes, BAD);
    }
    assert_eq!((largest, LARGEST_INPUT), (39_127, 39_127));
}

/// An input with two present registers in version 2: where the code's length stands, and all of it.
fn with_two_registers() -> (usize, Vec<u8>) {
    let bytes = input_in(2, &one_and(0x4200), &[ADD, ADD].concat(), &[7; 5]);
    (SMALLEST_SIZE + 2 * REGISTER_SIZE, bytes)
}

/// Cut at every place.
#[test]
fn every_cut() {
    let command = command("every cut of version 2");
    let (_, bytes) = with_two_registers();
    let texts = (0..=bytes.len()).map(|kept| command.agrees(kept, &bytes[..kept]));
    let good = texts.filter(|text| text != BAD).count();
    assert_eq!(good, 6, "all the code and 0 to 5 bytes of memory");
}

/// Each bit of the length field, of the version, of the control word, of the word of present
/// registers, and of the code's length.
#[test]
fn every_damage() {
    let command = command("every damage of version 2");
    let (length_at, bytes) = with_two_registers();
    let word = FILE_AT..FILE_AT + 4;
    let mut refused = [0; 3];
    for (part, places) in [0..9, word, length_at..length_at + 2]
        .into_iter()
        .enumerate()
    {
        for (place, bit) in places.flat_map(|place| (0..8).map(move |bit| (place, bit))) {
            let mut damaged = bytes.clone();
            damaged[place] ^= 1 << bit;
            let text = command.agrees(8 * place + bit, &damaged);
            refused[part] += usize::from(text == BAD);
        }
    }
    // Of the control word the upper half; of the code's length all but 13, 14, 8 and 4, which are
    // not more than the 17 bytes that follow.
    assert_eq!(refused, [40 + 16, 32, 12]);
}

/// Other lengths of the state, also such that code and memory would fit behind it, and such that 4
/// more do not fit 32 bits.
#[test]
fn length_fields() {
    let command = command("length fields");
    for version in VERSIONS {
        let machine = one_and(0x4200);
        let bytes = input_in(version, &machine, &ADD, &[0; 2400]);
        let right = saved_size(&bytes).expect("a good input") as u32 - 4;
        let near = [right - 64, right - 1, right + 1, right + 4, right + 64];
        let others = [0, 1, 4, 205, 209, 273, 337, 2253, 2257, 0x7FFF_FFFF];
        let high = [right | 1 << 16, right | 1 << 31];
        let highest = (0..10).map(|less| u32::MAX - less);
        let fields = near.into_iter().chain(others).chain(high).chain(highest);
        let mut refused = 0;
        for (number, field) in fields.enumerate() {
            let mut damaged = bytes.clone();
            set_length(&mut damaged, field);
            let known = if field == right {
                "0 0 00001f80\nstop 6\n"
            } else {
                BAD
            };
            command.prints(number, &damaged, known);
            refused += usize::from(known == BAD);
        }
        assert_eq!(refused, 5 + 9 + 2 + 10, "one of the others is right");
    }
}

/// Inputs too short for a length field or for anything behind it.
#[test]
fn few_bytes() {
    let command = command("few bytes");
    for byte in [0, 1, 2, 0xFF] {
        for count in 0..=8 {
            command.prints(count, &vec![byte; count], BAD);
        }
    }
}

/// A register that is marked as present and is all zero, at each place; with one bit it is good.
#[test]
fn empty_registers() {
    let command = command("empty registers");
    let mut random = Random::seeded(SEED);
    for number in 0..32 {
        let at = SMALLEST_SIZE + REGISTER_SIZE * number;
        let mut machine = random.machine();
        machine.control = 0x1F80;
        let mut bytes = input_in(2, &machine, &[0x90], &[]);
        bytes[at..at + REGISTER_SIZE].fill(0);
        command.prints(number, &bytes, BAD);
        bytes[at + random.within(0, 63) as usize] = 1 << random.within(0, 7);
        command.prints(number, &bytes, "0 4 00001f80\nstop 0\n");
    }
}

/// Every version byte, on forms of both versions.
#[test]
fn version_bytes() {
    let command = command("version bytes");
    for version in VERSIONS {
        let mut bytes = input_in(version, &Machine::blank(), &ADD, &[0; 64]);
        for byte in 0..=255 {
            bytes[4] = byte;
            let is_right = u32::from(byte) == version;
            let known = if is_right {
                "0 0 00001f80\nstop 6\n"
            } else {
                BAD
            };
            command.prints(byte.into(), &bytes, known);
        }
    }
}
