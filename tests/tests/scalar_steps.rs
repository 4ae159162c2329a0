//! What makes no difference to a scalar row (`alike.rs` says how it is told): the length bits
//! (R3.7), lanes above 0 (R5.1, R5.10), memory beside its word (R5.6).

use ridgecrook_tests::alike::{Answers, PROGRAMS};
use ridgecrook_tests::assemble::Encoding;
use ridgecrook_tests::library;
use ridgecrook_tests::machine::{Machine, Step, StepOutcome};
use ridgecrook_tests::random_step::Steps;
use ridgecrook_tests::second::encoding::{decode, scalar_rows, Instruction};

/// A register form, one with embedded rounding, or a memory form at RAX and a displacement of one
/// byte.
#[derive(Clone, Copy, PartialEq, Eq)]
enum Form {
    Registers,
    Embedded,
    Memory,
}

const FORMS: [Form; 3] = [Form::Registers, Form::Embedded, Form::Memory];

/// A step of a scalar row at some place among 8 rows, 3 forms and 3 maskings (none, merging,
/// zeroing), with any registers, states and modes. Memory has 80 bytes, and the word lies at one of
/// its ends or a few bytes from there, inside or outside.
fn step_at(steps: &mut Steps, place: usize) -> Step {
    let (listed, form) = (&scalar_rows()[place % 8], FORMS[place / 8 % 3]);
    let masking = place / 24 % 3;
    let (machine, mut memory) = steps.start();
    memory.truncate(80);
    let random = &mut steps.random;
    let [destination, first, second] = [(); 3].map(|_| random.bits() as u8 & 31);
    let mut encoding = Encoding::registers(listed, destination, first, second);
    encoding.length = random.within(0, 2) as u8;
    if masking > 0 {
        encoding.mask = random.within(1, 7) as u8;
        encoding.zeroing = u8::from(masking == 2);
    }
    let (displacement, word) = (random.within(-3, 3), random.one_of(&WORDS));
    match form {
        Form::Registers => {}
        Form::Embedded => (encoding.extra, encoding.length) = (1, random.bits() as u8 & 3),
        Form::Memory => {
            (encoding.mode, encoding.rm, encoding.b) = (1, 0, 0);
            encoding.rest = vec![displacement as u8];
        }
    }
    let mut step = Step {
        machine,
        code: encoding.bytes(),
        memory,
    };
    // R3.13: N is 2.
    step.machine.general[0] = i64::from(word - 2 * displacement) as u64;
    step
}

/// Where words of a memory of 80 bytes begin.
const WORDS: [i32; 10] = [-1, 0, 1, 2, 40, 76, 77, 78, 79, 80];

/// Where the word of such a step begins.
fn word_of(step: &Step) -> i64 {
    let displacement = step.code.get(6).map_or(0, |&byte| i64::from(byte as i8));
    step.machine.general[0] as i64 + 2 * displacement
}

const STEPS: usize = 40 * 72;

#[test]
fn three_lengths_are_alike() {
    let mut steps = Steps::seeded(31);
    let mut answers = Answers::default();
    for place in 0..STEPS {
        let mut step = step_at(&mut steps, place);
        if FORMS[place / 8 % 3] == Form::Embedded {
            continue;
        }
        for (name, program) in PROGRAMS {
            let [short, middle, long] = [0, 1, 2].map(|length| {
                step.code[3] = step.code[3] & !0x60 | length << 5;
                let outcome = program(&step);
                (outcome.answer, outcome.after.machine, outcome.after.memory)
            });
            assert_eq!(short, middle, "{name}: {step}");
            assert_eq!(short, long, "{name}: {step}");
        }
        answers.see(&library::step_outcome(&step));
    }
    answers.require(50);
}

/// Other halves in lanes 1 to 31 of every register, signalling NaNs in many of them, and other
/// bytes of memory but for the two that are read.
fn changed_elsewhere(steps: &mut Steps, step: &Step) -> Step {
    let random = &mut steps.random;
    let mut other = step.clone();
    for register in 0..32 {
        for lane in 1..32 {
            let half = match random.once_in(2) {
                true => random.one_of(&[0x7C01, 0xFD55]),
                false => random.half(),
            };
            other.machine.set_lane(register, lane, half);
        }
    }
    let word = word_of(step);
    for (address, byte) in other.memory.iter_mut().enumerate() {
        if !(word..word + 2).contains(&(address as i64)) {
            *byte ^= 0x7D;
        }
    }
    other
}

/// Lane 0 of every register.
fn lanes_0(machine: &Machine) -> Vec<u16> {
    (0..32).map(|register| machine.lane(register, 0)).collect()
}

/// R5.10: of a step that is done lanes 1 to 7 of the destination are those of the first source, or
/// its own, and the rest 0; of any other register, and of any step that is not done, all stay.
fn check_lanes_above(name: &str, step: &Step, outcome: &StepOutcome, instruction: &Instruction) {
    let (before, after) = (&step.machine, &outcome.after.machine);
    let destination = instruction.written_vector().expect("a scalar row");
    let from = match instruction.listed.accumulates() {
        true => destination,
        false => instruction.first,
    };
    for (register, lane) in (0..32 * 32).map(|place| (place / 32, place % 32)) {
        let written = register == destination && outcome.answer.number == 0;
        let expected = match lane {
            _ if !written => before.lane(register, lane),
            0 => continue,
            1..8 => before.lane(from, lane),
            _ => 0,
        };
        let found = after.lane(register, lane);
        assert_eq!(
            found, expected,
            "{name}: register {register}, lane {lane}: {step}"
        );
    }
}

/// Answer, length, control word, pointer and lane 0 of every register are the same.
#[test]
fn nothing_but_lane_0_counts() {
    let mut steps = Steps::seeded(32);
    let mut answers = Answers::default();
    for place in 0..STEPS {
        let step = step_at(&mut steps, place);
        let other = changed_elsewhere(&mut steps, &step);
        let instruction = decode(&step.code).expect("a scalar row");
        for (name, program) in PROGRAMS {
            let [one, two] = [&step, &other].map(program);
            let shown = [&one, &two].map(|outcome| {
                let machine = &outcome.after.machine;
                let words = (machine.control, machine.pointer, machine.masks);
                (outcome.answer, words, machine.general, lanes_0(machine))
            });
            assert_eq!(shown[0], shown[1], "{name}: {step} and {other}");
            check_lanes_above(name, &step, &one, &instruction);
            check_lanes_above(name, &other, &two, &instruction);
        }
        answers.see(&library::step_outcome(&step));
    }
    answers.require(50);
}
