//! The command as a process (R10.1 to R10.7), its standard output held against the second
//! program's (R12.3).
//!
//! `RIDGECROOK_COMMAND` names the program (otherwise `target/bin/run`), `RIDGECROOK_SEED` sets the
//! seed, `RIDGECROOK_INPUTS` the number of random inputs. An input whose output differs is kept as
//! a file, which the message names: `target/bin/run < FILE` runs it again, `case show FILE` shows
//! it.

use ridgecrook_tests::assemble::Encoding;
use ridgecrook_tests::checked_command::{Command, BAD};
use ridgecrook_tests::command_input::{
    ending, input, one_and, Inputs, ADD, ADD_MEMORY, CODE_AT, DIVIDE,
};
use ridgecrook_tests::compare::{log, setting};
use ridgecrook_tests::machine::Machine;
use ridgecrook_tests::random::Random;
use ridgecrook_tests::second::command::{output, CODE_LIMIT, MEMORY_LIMIT};
use ridgecrook_tests::second::encoding::LIST;
use std::thread;

const SEED: u64 = 20_240_303;

/// k1 = zmm1 < zmm2, by LT_OS.
const COMPARE: [u8; 7] = [0x62, 0xF3, 0x74, 0x48, 0xC2, 0xCA, 0x01];

fn command(name: &'static str) -> Command {
    Command::of(name, env!("CARGO_TARGET_TMPDIR"))
}

#[test]
fn the_whole_case() {
    let command = command("the whole case");
    let bytes = input(&Machine::blank(), &ADD, &[]);
    assert_eq!(bytes.len(), 2265);
    command.prints(0, &bytes, "0 0 00001f80\nstop 6\n");
}

/// R10.5: where it ends, from a blank state: code, memory, output.
#[test]
fn ends_and_refusals() {
    let command = command("ends and refusals");
    let twice = [ADD, ADD].concat();
    let stops = [&ADD[..], &[0x90], &ADD].concat();
    let cut = "0 0 00001f80\n6 3 00001f80\nstop 6\n";
    let once = "0 0 00001f80\nstop 6\n";
    let compared = [&COMPARE[..], &ADD].concat();
    let rows: [(&[u8], &[u8], &str); 12] = [
        (&[], &[], "stop 0\n"),
        (&[], &[1, 2, 3], "stop 0\n"),
        (&twice, &[], "0 0 00001f80\n6 0 00001f80\nstop 12\n"),
        // A refusal in the middle: what follows is not run.
        (&stops, &[], "0 0 00001f80\n6 4 00001f80\nstop 6\n"),
        // Bytes that are cut, and bytes that are no instruction.
        (&twice[..11], &[], cut),
        (&twice[..7], &[], cut),
        (&[0x62], &[], "0 3 00001f80\nstop 0\n"),
        (&[0], &[], "0 4 00001f80\nstop 0\n"),
        // With mask 0 nothing is read.
        (&ADD_MEMORY, &[], once),
        (&ADD_MEMORY, &[0], once),
        // An immediate counts, and is missed.
        (&compared, &[], "0 0 00001f80\n7 0 00001f80\nstop 13\n"),
        (&COMPARE[..6], &[], "0 3 00001f80\nstop 0\n"),
    ];
    for (number, (code, memory, known)) in rows.into_iter().enumerate() {
        command.prints(number, &input(&Machine::blank(), code, memory), known);
    }
}

/// The control word is printed as it stands after the step, also after 8.
#[test]
fn flags_are_printed() {
    let command = command("flags are printed");
    // 1/3 is inexact, and the flag stays.
    let code = [ADD, DIVIDE, ADD].concat();
    let known = "0 0 00001f80\n6 0 00001fa0\n12 0 00001fa0\nstop 18\n";
    command.prints(0, &input(&one_and(0x4200), &code, &[]), known);
    // 1/0 with ZE unmasked, in mode 3 with FZ.
    let mut unmasked = one_and(0);
    unmasked.control = 0xFD80;
    let known = "0 0 0000fd80\n6 8 0000fd84\nstop 6\n";
    command.prints(1, &input(&unmasked, &code, &[]), known);
    // Flags from before are printed too, and cause nothing.
    unmasked.control = 0x003F;
    command.prints(2, &input(&unmasked, &ADD, &[]), "0 0 0000003f\nstop 6\n");
}

/// A mask that one step writes is the next one's.
#[test]
fn a_mask_is_handed_on() {
    let command = command("a mask is handed on");
    // 1 < 0 nowhere, 1 < 3 everywhere; then 1 + what stands at RAX, where that is a subnormal.
    let code = [&COMPARE[..], &ADD_MEMORY].concat();
    for (number, (half, memory, known)) in [
        (0, &[][..], "0 0 00001e80\n7 0 00001e80\nstop 13\n"),
        (0x4200, &[], "0 0 00001e80\n7 7 00001e80\nstop 7\n"),
        (
            0x4200,
            &[0x01, 0x00],
            "0 0 00001e80\n7 7 00001e80\nstop 7\n",
        ),
        (0x4200, &[0x01; 64], "0 0 00001e80\n7 8 00001e82\nstop 7\n"),
    ]
    .into_iter()
    .enumerate()
    {
        let mut machine = one_and(half);
        machine.control = 0x1E80;
        // Bytes 01 01 are 0101, which is subnormal.
        command.prints(number, &input(&machine, &code, memory), known);
    }
}

/// The pointer of the saved state is not the offset, and wraps.
#[test]
fn a_pointer_of_its_own() {
    let command = command("a pointer of its own");
    // zmm0{k1} = zmm1 + what stands 0 after the next instruction
    let relative = [0x62, 0xF5, 0x74, 0x49, 0x58, 0x05, 0, 0, 0, 0];
    let code = [relative, relative].concat();
    let mut machine = one_and(0);
    machine.masks[1] = 1;
    machine.control = 0x1E80;
    // A subnormal, unmasked, at address 0 and then at 10.
    let memory = [0x01, 0, 0, 0, 0, 0, 0, 0, 0, 0, 0x01, 0];
    for (number, (pointer, known)) in [
        (-10, "0 8 00001e82\nstop 0\n"),
        (-8, "0 0 00001e80\n10 7 00001e80\nstop 10\n"),
        (0, "0 8 00001e82\nstop 0\n"),
        (1, "0 7 00001e80\nstop 0\n"),
        (-20, "0 7 00001e80\nstop 0\n"),
        (1000, "0 7 00001e80\nstop 0\n"),
    ]
    .into_iter()
    .enumerate()
    {
        machine.pointer = pointer as i64 as u64;
        command.prints(number, &input(&machine, &code, &memory), known);
    }
}

/// 4,096 bytes of code run; 4,097 are refused, as is every larger length.
#[test]
fn lengths_of_code() {
    let command = command("lengths of code");
    let machine = one_and(0x4200);
    let mut code = ADD.repeat(682);
    code.extend([0x62; 4]);
    let text = output(&input(&machine, &code, &[]));
    assert_eq!(text.lines().count(), 684, "682 sums, a cut one, stop");
    assert!(text.ends_with("4092 3 00001f80\nstop 4092\n"));
    command.agrees(0, &input(&machine, &code, &[]));
    // To the very end: the displacement makes an instruction of 10 bytes.
    let far = Encoding::memory(&LIST[0], 0, 5, &[0, 0, 0, 0]).bytes();
    assert_eq!(far.len(), 10);
    let whole = [ADD.repeat(681), far].concat();
    let largest = vec![0; MEMORY_LIMIT];
    let bytes = input(&machine, &whole, &largest);
    assert!(command
        .agrees(1, &bytes)
        .ends_with("0 00001f80\nstop 4096\n"));
    for (number, length) in [4097, 4098, 8192, 0x8000, 0xFFFF].into_iter().enumerate() {
        let code = vec![0x62; length];
        command.prints(2 + number, &input(&machine, &code, &[]), BAD);
        let short = input(&machine, &code, &[]);
        let kept = short.len() - (length - CODE_LIMIT);
        command.prints(2 + number, &short[..kept], BAD);
    }
}

/// 32,768 bytes of memory are read to the last; one more is refused, and so is any number more.
#[test]
fn lengths_of_memory() {
    let command = command("lengths of memory");
    let mut machine = one_and(0);
    machine.masks[1] = 1;
    machine.control = 0x1E80;
    machine.general[0] = MEMORY_LIMIT as u64 - 2;
    let mut memory = vec![0; MEMORY_LIMIT];
    memory[MEMORY_LIMIT - 2] = 1;
    let bytes = input(&machine, &ADD_MEMORY, &memory);
    command.prints(0, &bytes, "0 8 00001e82\nstop 0\n");
    let bytes = input(&machine, &ADD_MEMORY, &memory[1..]);
    command.prints(1, &bytes, "0 7 00001e80\nstop 0\n");
    // Totals around those of a program's buffers are among them.
    for (number, extra) in [1, 2, 4089, 4090, 4091, 26_412, 30_503, 30_504, 100_000]
        .into_iter()
        .enumerate()
    {
        let memory = vec![0; MEMORY_LIMIT + extra];
        command.prints(2 + number, &input(&machine, &ADD_MEMORY, &memory), BAD);
        command.prints(2 + number, &input(&machine, &[], &memory), BAD);
    }
    let full = input(&machine, &[0x62; CODE_LIMIT], &vec![0; MEMORY_LIMIT]);
    command.prints(20, &full, "0 5 00001e80\nstop 0\n");
    command.prints(21, &[&full[..], &[0]].concat(), BAD);
    let larger = [&full[..], &vec![0; 65_536][..]].concat();
    for total in [65_535, 65_536, 65_537, larger.len()] {
        command.prints(22, &larger[..total], BAD);
    }
}

/// Cut at every place of the header and behind it, and at some of the vector file.
#[test]
fn every_cut() {
    let command = command("every cut");
    let code = [ADD, ADD].concat();
    let bytes = input(&one_and(0x4200), &code, &[7; 5]);
    let header = 0..=220;
    let body = (221..CODE_AT - 20).step_by(97);
    let end = CODE_AT - 20..=bytes.len();
    let (mut refused, mut cuts) = (0, 0);
    for kept in header.chain(body).chain(end) {
        refused += usize::from(command.agrees(kept, &bytes[..kept]) == BAD);
        cuts += 1;
    }
    assert_eq!(cuts - refused, 6, "all the code and 0 to 5 bytes of memory");
}

/// Saved states that do not load: each bit of the length field, of the version and of the control
/// word's upper half; and each bit of the code's length.
#[test]
fn every_damage() {
    let command = command("every damage");
    let bytes = input(&one_and(0x4200), &[ADD, ADD].concat(), &[7; 5]);
    let mut refused = 0;
    for place in (0..9).chain(CODE_AT - 2..CODE_AT) {
        for bit in 0..8 {
            let mut damaged = bytes.clone();
            damaged[place] ^= 1 << bit;
            let text = command.agrees(8 * place + bit, &damaged);
            refused += usize::from(text == BAD);
        }
    }
    // Each bit of the length field and the version, of two bytes of the control word, and of the
    // code's length all but four: 13, 14, 8 and 4 are not more than the 17 bytes that follow.
    assert_eq!(refused, 40 + 16 + 12);
    for version in [0, 2, 3, 255] {
        let mut damaged = bytes.clone();
        damaged[4] = version;
        command.prints(1000, &damaged, BAD);
    }
}

/// A code length that is a byte beyond the end, and one that takes all that follows.
#[test]
fn code_to_the_end() {
    let command = command("code to the end");
    let mut bytes = input(&Machine::blank(), &ADD, &[0x62, 0xF5]);
    for (number, (length, known)) in [
        (5, "0 3 00001f80\nstop 0\n"),
        (6, "0 0 00001f80\nstop 6\n"),
        (7, "0 0 00001f80\n6 3 00001f80\nstop 6\n"),
        (8, "0 0 00001f80\n6 3 00001f80\nstop 6\n"),
        (9, BAD),
        (10, BAD),
    ]
    .into_iter()
    .enumerate()
    {
        bytes[CODE_AT - 1] = length;
        command.prints(number, &bytes, known);
    }
}

/// Input that comes in pieces, as a pipe may give it, and from a file.
#[test]
fn input_in_pieces() {
    let command = command("input in pieces");
    let mut inputs = Inputs::seeded(setting("RIDGECROOK_SEED", SEED));
    let mut random = Random::seeded(SEED);
    for number in 0..40 {
        command.agrees_in_pieces(number, &inputs.input(), &mut random);
    }
}

/// Hundreds of instructions, up to 4,096 bytes of code.
#[test]
fn long_sequences() {
    let command = command("long sequences");
    let mut inputs = Inputs::seeded(setting("RIDGECROOK_SEED", SEED));
    let mut longest = 0;
    for number in 0..20 {
        let text = command.agrees(number, &inputs.sequence(700, 40));
        longest = longest.max(text.lines().count());
    }
    assert!(longest > 400, "{longest} lines");
}

const THREADS: u64 = 4;

/// One thread's share; for each version byte, how many ended in which way.
fn share(seed: u64, count: u64) -> [[u64; 11]; 2] {
    let command = command("random inputs");
    let mut inputs = Inputs::seeded(seed);
    let mut endings = [[0; 11]; 2];
    for number in 0..count {
        let bytes = inputs.input();
        let text = command.agrees((seed + number) as usize, &bytes);
        let is_packed = bytes.get(4) == Some(&2);
        endings[usize::from(is_packed)][ending(&text)] += 1;
    }
    endings
}

#[test]
fn random_inputs_agree() {
    let seed = setting("RIDGECROOK_SEED", SEED);
    let count = setting("RIDGECROOK_INPUTS", 20_000).div_ceil(THREADS);
    let seeds = (0..THREADS).map(|thread| seed.wrapping_add(thread << 32));
    let threads: Vec<_> = seeds
        .map(|seed| thread::spawn(move || share(seed, count)))
        .collect();
    let mut endings = [[0; 11]; 2];
    for thread in threads {
        let more = thread.join().expect("a thread found a difference");
        let all = endings.iter_mut().flatten();
        all.zip(more.iter().flatten())
            .for_each(|(all, n)| *all += n);
    }
    let total: u64 = endings.iter().flatten().sum();
    log(&format!("{total} random inputs ended by {endings:?}"));
    assert_eq!(total, THREADS * count);
    if total >= 10_000 {
        for (version, endings) in (1..).zip(endings) {
            for reached in [0, 3, 4, 5, 7, 8, 10] {
                let count = endings[reached];
                assert!(count >= 20, "version {version}, {reached}: {count}");
            }
        }
    }
}
