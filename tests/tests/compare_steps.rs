//! What makes no difference to VMINPH, VMAXPH and VCMPPH (`alike.rs` says how it is told): the
//! upper bits of the immediate (R3.15), the length bits under suppression (R3.8), the rounding
//! mode, DAZ and FZ (R1.6), what the mask held that is written (R5.11), and lanes that are off with
//! the memory that they alone would read (R5.2).

use ridgecrook_tests::alike::{Answers, PROGRAMS};
use ridgecrook_tests::assemble::Encoding;
use ridgecrook_tests::library;
use ridgecrook_tests::machine::{Answer, Machine, Step, StepOutcome};
use ridgecrook_tests::random_step::Steps;
use ridgecrook_tests::second::encoding::{comparing_rows, decode, Instruction};
use ridgecrook_tests::second::step::is_on;

/// A register form, one with suppression, a memory form, or one with broadcast; the last two at RAX
/// and a displacement of one byte.
#[derive(Clone, Copy, PartialEq, Eq)]
enum Form {
    Registers,
    Suppressed,
    Memory,
    Broadcast,
}

const FORMS: [Form; 4] = [
    Form::Registers,
    Form::Suppressed,
    Form::Memory,
    Form::Broadcast,
];

const MEMORY: usize = 80;

/// A step at some place among 3 rows and 4 forms, under a mask two times in three, with any
/// registers, states and immediates. The memory operand begins near one of the ends of memory.
fn step_at(steps: &mut Steps, place: usize) -> Step {
    let (listed, form) = (&comparing_rows()[place % 3], FORMS[place / 3 % 4]);
    let (machine, mut memory) = steps.start();
    memory.truncate(MEMORY);
    let random = &mut steps.random;
    let [number, first, second] = [(); 3].map(|_| random.bits() as u8 & 31);
    let destination = if listed.to_mask { number & 7 } else { number };
    let mut encoding = Encoding::registers(listed, destination, first, second);
    encoding.length = random.within(0, 2) as u8;
    encoding.immediate = encoding.immediate.map(|_| random.bits() as u8);
    if !(place / 12).is_multiple_of(3) {
        encoding.mask = random.within(1, 7) as u8;
        encoding.zeroing = u8::from(!listed.to_mask && random.once_in(2));
    }
    let displacement = random.within(-3, 3);
    match form {
        Form::Registers => {}
        Form::Suppressed => (encoding.extra, encoding.length) = (1, random.bits() as u8 & 3),
        Form::Memory | Form::Broadcast => {
            (encoding.mode, encoding.rm, encoding.b) = (1, 0, 0);
            (encoding.extra, encoding.rest) =
                (u8::from(form == Form::Broadcast), vec![displacement as u8]);
        }
    }
    let target = random.one_of(&[-16, -2, -1, 0, 1, 16, 48, 64, 77, 78, 79, 80]);
    // R3.13: N is 2 under broadcast, else the size of the vector.
    let n = if encoding.extra == 1 {
        2
    } else {
        16 << encoding.length
    };
    let mut step = Step {
        machine,
        code: encoding.bytes(),
        memory,
    };
    step.machine.general[0] = i64::from(target - n * displacement) as u64;
    step
}

const STEPS: usize = 100 * 36;

/// All that a step leaves, but its code.
fn left(outcome: StepOutcome) -> (Answer, Machine, Vec<u8>) {
    (outcome.answer, outcome.after.machine, outcome.after.memory)
}

/// Goes through such steps. `others` makes of each some that are to end alike, and none where it is
/// not such a step; `seen` is what is looked at of an outcome.
fn alike<S: PartialEq + std::fmt::Debug>(
    seed: u64,
    others: impl Fn(&mut Steps, &Step, &Instruction) -> Vec<Step>,
    seen: impl Fn(StepOutcome, &Step) -> S,
) {
    let mut steps = Steps::seeded(seed);
    let mut answers = Answers::default();
    for place in 0..STEPS {
        let step = step_at(&mut steps, place);
        let instruction = decode(&step.code).expect("a valid instruction");
        for other in others(&mut steps, &step, &instruction) {
            for (name, program) in PROGRAMS {
                let [one, two] = [&step, &other].map(|step| seen(program(step), step));
                assert_eq!(one, two, "{name}: {step} and {other}");
            }
            answers.see(&library::step_outcome(&other));
        }
    }
    answers.require(50);
}

#[test]
fn upper_bits_of_the_immediate() {
    alike(
        41,
        |_, step, instruction| {
            let with = |upper: u8| {
                let mut other = step.clone();
                let last = other.code.last_mut().expect("an immediate");
                *last = *last & 31 | upper << 5;
                other
            };
            let upper = instruction.immediate.map_or(0..0, |_| 0..8);
            upper.map(with).collect()
        },
        |outcome, _| left(outcome),
    );
}

/// Among the answers of these are no 7 and no 8, since they read no memory and stop at nothing.
#[test]
fn length_bits_under_suppression() {
    let mut steps = Steps::seeded(42);
    let mut compared = 0;
    for place in 0..STEPS {
        let step = step_at(&mut steps, place);
        if FORMS[place / 3 % 4] != Form::Suppressed {
            continue;
        }
        for (name, program) in PROGRAMS {
            let outcomes = [0, 1, 2, 3].map(|length| {
                let mut other = step.clone();
                other.code[3] = other.code[3] & !0x60 | length << 5;
                left(program(&other))
            });
            assert_eq!(outcomes[0].0.number, 0, "{name}: {step}");
            assert!(outcomes.iter().all(|o| *o == outcomes[0]), "{name}: {step}");
        }
        compared += 1;
    }
    assert_eq!(compared, STEPS / 4);
}

/// The rounding mode, DAZ and FZ: bits 13, 14, 6 and 15 of the control word, which stay.
const UNREAD: u32 = 0xE040;

#[test]
fn mode_and_subnormal_bits() {
    alike(
        43,
        |_, step, _| {
            let with = |bits: u32| {
                let mut other = step.clone();
                other.machine.control = other.machine.control & !UNREAD | bits;
                other
            };
            [0, 0x2000, 0x4000, 0x6000, 0x0040, 0x8000, UNREAD]
                .map(with)
                .to_vec()
        },
        |mut outcome, step| {
            let machine = &mut outcome.after.machine;
            let kept = machine.control & UNREAD == step.machine.control & UNREAD;
            assert!(kept, "a bit that is no flag changes: {step}");
            machine.control &= !UNREAD;
            left(outcome)
        },
    );
}

/// What the mask held that is written has no say, where it is not the writemask, unless the step is
/// refused and leaves it.
#[test]
fn what_the_mask_held() {
    alike(
        44,
        |steps, step, instruction| {
            let written = instruction.written_mask();
            // Mask 0 is no writemask.
            let is_read = |number| number == instruction.mask && number != 0;
            let Some(number) = written.filter(|&number| !is_read(number)) else {
                return Vec::new();
            };
            let mut other = step.clone();
            other.machine.masks[number] = steps.random.bits();
            vec![other]
        },
        |mut outcome, step| {
            let instruction = decode(&step.code).expect("a valid instruction");
            let number = instruction.written_mask().expect("a mask");
            if outcome.answer.number != 0 {
                let kept = outcome.after.machine.masks[number] == step.machine.masks[number];
                assert!(kept, "a refusal writes k{number}: {step}");
                outcome.after.machine.masks[number] = 0;
            }
            left(outcome)
        },
    );
}

/// Other halves, signalling NaNs many of them, in each lane that is off, of every register, and
/// other bytes of memory but for those of words that are read.
fn changed_elsewhere(steps: &mut Steps, step: &Step, instruction: &Instruction) -> Step {
    let mut other = step.clone();
    let on = |lane: usize| is_on(&step.machine, instruction, lane);
    for (register, lane) in (0..32 * 32).map(|place| (place / 32, place % 32)) {
        let half = match steps.random.once_in(2) {
            _ if on(lane) => continue,
            true => steps.random.one_of(&[0x7C01, 0xFD55, 0x0001]),
            false => steps.random.half(),
        };
        other.machine.set_lane(register, lane, half);
    }
    let displacement = step.code.get(6).map_or(0, |&byte| i64::from(byte as i8));
    let broadcast = step.code[3] & 0x10 != 0;
    let n = if broadcast {
        2
    } else {
        2 * instruction.elements as i64
    };
    let first = step.machine.general[0] as i64 + n * displacement;
    let lanes = (0..instruction.elements).filter(|&lane| on(lane));
    let words: Vec<i64> = lanes
        .map(|lane| first + if broadcast { 0 } else { 2 * lane as i64 })
        .collect();
    for (address, byte) in other.memory.iter_mut().enumerate() {
        let read = |word: &i64| (*word..*word + 2).contains(&(address as i64));
        if !words.iter().any(read) {
            *byte ^= 0x7D;
        }
    }
    other
}

/// Two runs that differ in lanes that are off: answer, length, control word, pointer and every mask
/// are the same, and so are the lanes that are on, of every register.
#[test]
fn lanes_that_are_off() {
    alike(
        45,
        |steps, step, instruction| vec![changed_elsewhere(steps, step, instruction)],
        |outcome, step| {
            let instruction = decode(&step.code).expect("a valid instruction");
            let machine = &outcome.after.machine;
            let on = (0..32).filter(|&lane| is_on(&step.machine, &instruction, lane));
            let lanes: Vec<u16> = on
                .flat_map(|lane| (0..32).map(move |register| machine.lane(register, lane)))
                .collect();
            let words = (machine.control, machine.pointer, machine.masks);
            (outcome.answer, words, machine.general, lanes)
        },
    );
}
