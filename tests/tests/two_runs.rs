//! R11.7, tried: two runs of one sequence of steps, whose starts differ in hidden lanes alone, give
//! the same answers and stay alike in all that is open, masks too, where the first switches no
//! hidden lane on. Each of the programs by itself.

use ridgecrook_tests::alike::{Answers, PROGRAMS};
use ridgecrook_tests::machine::{Answer, Machine, Step, StepOutcome};
use ridgecrook_tests::random_step::Steps;
use ridgecrook_tests::second::encoding::{decode, LIST};
use ridgecrook_tests::second::step::lanes_on;

const SEQUENCES: usize = 300;
const STEPS: usize = 16;

/// A start whose masks, but for k0, have no hidden lane on: of the steps below each has one of them
/// as its writemask, and what a comparison writes has zeros where it is off (R5.11).
fn start(steps: &mut Steps, hidden: u32) -> (Machine, Vec<u8>) {
    let (mut machine, memory) = steps.start();
    for mask in &mut machine.masks[1..] {
        *mask &= !u64::from(hidden);
    }
    (machine, memory)
}

/// Other halves in every hidden lane, signalling NaNs in many.
fn hidden_changed(steps: &mut Steps, machine: &Machine, hidden: u32) -> Machine {
    let mut other = machine.clone();
    for (register, lane) in (0..32 * 32).map(|place| (place / 32, place % 32)) {
        if hidden >> lane & 1 == 1 {
            let half = match steps.random.once_in(2) {
                true => 0x7C01,
                false => steps.random.half(),
            };
            other.set_lane(register, lane, half);
        }
    }
    other
}

/// The bytes of an instruction under a mask.
fn masked_code(steps: &mut Steps) -> Vec<u8> {
    loop {
        let code = steps.code();
        if code[3] & 7 != 0 {
            return code;
        }
    }
}

/// The vector file without its hidden lanes.
fn open_lanes(machine: &Machine, hidden: u32) -> Vec<u16> {
    let places = (0..32 * 32).map(|place| (place / 32, place % 32));
    let open = places.filter(|(_, lane)| hidden >> lane & 1 == 0);
    open.map(|(register, lane)| machine.lane(register, lane))
        .collect()
}

/// All that is to be the same.
fn seen(outcome: &StepOutcome, hidden: u32) -> (Answer, [u64; 26], Vec<u16>) {
    let machine = &outcome.after.machine;
    let words = [u64::from(machine.control), machine.pointer];
    let numbers = [&words[..], &machine.masks, &machine.general].concat();
    let numbers = numbers.try_into().expect("26 numbers");
    (outcome.answer, numbers, open_lanes(machine, hidden))
}

/// Both runs go on from what the last step left. Hands back how many steps of each row were done in
/// the first, of either program.
fn run(steps: &mut Steps, answers: &mut Answers) -> [u32; LIST.len()] {
    let hidden = steps.random.bits() as u32;
    let (machine, memory) = start(steps, hidden);
    let other = hidden_changed(steps, &machine, hidden);
    let codes: Vec<Vec<u8>> = (0..STEPS).map(|_| masked_code(steps)).collect();
    let mut done = [0; LIST.len()];
    for (name, program) in PROGRAMS {
        let mut runs = [&machine, &other].map(Machine::clone);
        for code in &codes {
            let [one, two] = runs.map(|machine| Step {
                machine,
                code: code.clone(),
                memory: memory.clone(),
            });
            let instruction = decode(code).expect("a valid instruction");
            let mut on = lanes_on(&one.machine, &instruction).into_iter();
            let stays_off = on.all(|lane| hidden >> lane & 1 == 0);
            assert!(stays_off, "{name}: {one} switches a hidden lane on");
            let outcomes = [&one, &two].map(program);
            let [seen, seen_too] = outcomes.each_ref().map(|outcome| seen(outcome, hidden));
            assert_eq!(seen, seen_too, "{name}: {one} and {two}");
            answers.see(&outcomes[0]);
            let row = LIST
                .iter()
                .position(|row| row.name == instruction.listed.name);
            done[row.expect("a row")] += u32::from(outcomes[0].answer.number == 0);
            runs = outcomes.map(|outcome| outcome.after.machine);
        }
    }
    done
}

#[test]
fn what_is_open_stays_alike() {
    let mut steps = Steps::seeded(51);
    let mut answers = Answers::default();
    let mut done = [0; LIST.len()];
    for _ in 0..SEQUENCES {
        let more = run(&mut steps, &mut answers);
        done.iter_mut().zip(more).for_each(|(all, n)| *all += n);
    }
    answers.require(100);
    assert!(done.iter().all(|&count| count >= 50), "{done:?}");
}
