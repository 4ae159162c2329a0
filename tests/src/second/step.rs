//! A whole step: the order of the answers and what each leaves (section 4 of docs/RULES.md), lanes
//! and memory (5), flags (7).

use super::encoding::{decode, Address, Base, Destination, Instruction, Second, Source};
use crate::case::{Case, Outcome, DE, IE, ZE};
use crate::machine::{Answer, Machine, Step, StepOutcome, REGISTER_SIZE, VECTORS_SIZE};

/// R4.19: what the rules answer to a step and leave of it.
pub fn step(before: &Step) -> StepOutcome {
    let mut after = before.clone();
    let answer = match carry_out(before, &mut after.machine) {
        Ok(length) => Answer { number: 0, length },
        // R4.17: no length without 0
        Err(number) => Answer { number, length: 0 },
    };
    StepOutcome { answer, after }
}

/// R4.2: the order. The machine is changed only by the last lines, and by 8.
fn carry_out(before: &Step, machine: &mut Machine) -> Result<u32, u32> {
    // R4.3, R4.4: the size of the vector file, the control word
    if before.machine.vectors.len() != VECTORS_SIZE {
        return Err(1);
    }
    if before.machine.control >= 1 << 16 {
        return Err(2);
    }
    // R4.5 to R4.11, by the bytes alone
    let instruction = decode(&before.code)?;
    // R4.13; R5.8: every source is read here, and nothing written yet
    let operands = gather(before, &instruction).ok_or(7_u32)?;
    // R4.14; R7.2, R7.4: flags are set for 0 and for 8
    let outcomes = compute(&before.machine, &instruction, &operands);
    raise(machine, &instruction, &outcomes)?;
    // R4.15: destination and pointer
    write_destination(machine, &instruction, &outcomes);
    let length = instruction.length as u32;
    machine.pointer = machine.pointer.wrapping_add(u64::from(length));
    Ok(length)
}

/// R5.1: a lane with an element, and not masked off.
pub fn is_on(machine: &Machine, instruction: &Instruction, lane: usize) -> bool {
    let has_element = lane < instruction.elements;
    let mask = instruction.mask;
    has_element && (mask == 0 || machine.masks[mask] >> lane & 1 == 1)
}

pub fn lanes_on(machine: &Machine, instruction: &Instruction) -> Vec<usize> {
    let lanes = 0..instruction.elements;
    lanes
        .filter(|&lane| is_on(machine, instruction, lane))
        .collect()
}

/// The operands of each lane that is on, in the operation's order; none where a word that such a
/// lane needs lies outside memory (R5.7). For lanes that are off nothing is read (R5.2).
fn gather(before: &Step, instruction: &Instruction) -> Option<Vec<Option<[u16; 3]>>> {
    let mut all = Vec::new();
    for lane in 0..instruction.elements {
        if !is_on(&before.machine, instruction, lane) {
            all.push(None);
            continue;
        }
        let mut operands = [0; 3];
        for (operand, source) in operands.iter_mut().zip(instruction.listed.operands) {
            *operand = half_of(before, instruction, *source, lane)?;
        }
        all.push(Some(operands));
    }
    Some(all)
}

/// What a lane of an operand holds; none where a byte of it lies outside memory.
pub fn half_of(
    before: &Step,
    instruction: &Instruction,
    source: Source,
    lane: usize,
) -> Option<u16> {
    match source {
        Source::Destination => Some(before.machine.lane(accumulator(instruction), lane)),
        Source::First => Some(before.machine.lane(instruction.first, lane)),
        Source::Second => second_operand(before, instruction, lane),
    }
}

/// R2.2: the destination as an operand, which only fused rows have.
fn accumulator(instruction: &Instruction) -> usize {
    instruction.written_vector().expect("a vector register")
}

fn second_operand(before: &Step, instruction: &Instruction, lane: usize) -> Option<u16> {
    match instruction.second {
        Second::Register(register) => Some(before.machine.lane(register, lane)),
        Second::Memory { address, broadcast } => {
            let first = first_address(&before.machine, &address, instruction.length);
            // R5.5: every lane its own word, or all the first
            let offset = if broadcast { 0 } else { 2 * lane as u64 };
            word(&before.memory, first.wrapping_add(offset))
        }
    }
}

/// R5.4: base, index and displacement added up.
pub fn first_address(machine: &Machine, address: &Address, length: usize) -> u64 {
    let base = match address.base {
        Base::None => 0,
        Base::General(number) => machine.general[number],
        Base::NextInstruction => machine.pointer.wrapping_add(length as u64),
    };
    let index = match address.index {
        Some((number, scale)) => machine.general[number].wrapping_mul(scale),
        None => 0,
    };
    let displacement = address.displacement as u64;
    base.wrapping_add(index).wrapping_add(displacement)
}

/// R5.5: the word at an address, low byte first; none if one of its bytes lies outside memory.
fn word(memory: &[u8], address: u64) -> Option<u16> {
    let low = byte(memory, address)?;
    let high = byte(memory, address.wrapping_add(1))?;
    Some(u16::from_le_bytes([low, high]))
}

/// R1.8: a byte of memory, if the address is one of its own.
fn byte(memory: &[u8], address: u64) -> Option<u8> {
    memory.get(usize::try_from(address).ok()?).copied()
}

/// What becomes of each lane that is on, by the arithmetic.
fn compute(
    machine: &Machine,
    instruction: &Instruction,
    operands: &[Option<[u16; 3]>],
) -> Vec<Option<Outcome>> {
    let case = |operands| lane_case(machine, instruction, operands);
    let lane = |operands: &Option<[u16; 3]>| operands.map(|o| super::answer(&case(o)));
    operands.iter().map(lane).collect()
}

/// The exceptions that show in the operands, before anything is rounded.
pub const EARLY: u8 = IE | DE | ZE;

/// R7.1 to R7.4: two stages, each over all lanes that are on. The first looks for IE, DE and ZE,
/// and if one that it finds is unmasked, there is no second. Under embedded rounding and
/// suppression nothing is set (R7.5).
fn raise(
    machine: &mut Machine,
    instruction: &Instruction,
    outcomes: &[Option<Outcome>],
) -> Result<(), u32> {
    if instruction.hides_exceptions {
        return Ok(());
    }
    let unmasked = unmasked(machine, instruction);
    for stage in [EARLY, !EARLY] {
        let mut stops = false;
        for outcome in outcomes.iter().flatten() {
            machine.control |= u32::from(outcome.flags & stage);
            stops |= outcome.flags & stage & unmasked != 0;
        }
        if stops {
            return Err(8);
        }
    }
    Ok(())
}

/// What the arithmetic is asked for a lane.
fn lane_case(machine: &Machine, instruction: &Instruction, operands: [u16; 3]) -> Case {
    let operation = instruction.listed.operation;
    let mut case = Case::of(operation, operands);
    if operation.rounds() {
        case.mode = mode(machine, instruction);
        case.underflow_unmasked = u32::from(unmasked(machine, instruction) >> 4 & 1);
    }
    if let Some(immediate) = instruction.immediate {
        case.immediate = u32::from(immediate);
    }
    case
}

/// What the arithmetic is asked for each lane that is on; nothing where the answer is 7. This takes
/// no part in an answer: it is for tests that look at single lanes.
pub fn lane_cases(before: &Step, instruction: &Instruction) -> Option<Vec<Case>> {
    let lanes = gather(before, instruction)?;
    let case = |operands| lane_case(&before.machine, instruction, operands);
    Some(lanes.into_iter().flatten().map(case).collect())
}

/// R7.1: every flag that a lane raises that is on, set or not; for the same tests.
pub fn raised(before: &Step, instruction: &Instruction) -> Option<u8> {
    let cases = lane_cases(before, instruction)?;
    let flags = cases.iter().map(|case| super::answer(case).flags);
    Some(flags.fold(0, |all, flags| all | flags))
}

/// R7.5, R1.5: the instruction's own mode, or the control word's.
fn mode(machine: &Machine, instruction: &Instruction) -> u32 {
    let of_control = machine.control >> 13 & 3;
    instruction.embedded_mode.unwrap_or(of_control)
}

/// R1.5, R7.5: the exceptions that count as unmasked, at the places of their flags.
pub fn unmasked(machine: &Machine, instruction: &Instruction) -> u8 {
    if instruction.hides_exceptions {
        0
    } else {
        !(machine.control >> 7) as u8 & 63
    }
}

fn write_destination(
    machine: &mut Machine,
    instruction: &Instruction,
    outcomes: &[Option<Outcome>],
) {
    match instruction.destination {
        Destination::Vector(number) => write_vector(machine, instruction, outcomes, number),
        Destination::Mask(number) => machine.masks[number] = mask_of(outcomes),
    }
}

/// R5.11: a 1 for each lane that is on and of which the predicate holds; every other of the 64 bits
/// is 0.
fn mask_of(outcomes: &[Option<Outcome>]) -> u64 {
    let mut mask = 0;
    for (lane, outcome) in outcomes.iter().enumerate() {
        if outcome.is_some_and(|outcome| outcome.half == 1) {
            mask |= 1 << lane;
        }
    }
    mask
}

/// R5.9, R5.10: every lane of the destination anew, from what stood there before any was written.
fn write_vector(
    machine: &mut Machine,
    instruction: &Instruction,
    outcomes: &[Option<Outcome>],
    register: usize,
) {
    let half = |lane: usize| match outcomes.get(lane) {
        Some(Some(outcome)) => outcome.half,
        Some(None) if instruction.zeroing => 0,
        Some(None) => machine.lane(register, lane),
        None => half_without_element(machine, instruction, lane),
    };
    let halves: Vec<u16> = (0..REGISTER_SIZE / 2).map(half).collect();
    for (lane, half) in halves.into_iter().enumerate() {
        machine.set_lane(register, lane, half);
    }
}

/// R5.10: of a scalar row lanes 1 to 7 are copied, whatever the mask and z say. R5.9: all others
/// become 0.
fn half_without_element(machine: &Machine, instruction: &Instruction, lane: usize) -> u16 {
    match instruction.listed.upper {
        Some(Source::First) if lane < 8 => machine.lane(instruction.first, lane),
        Some(Source::Destination) if lane < 8 => machine.lane(accumulator(instruction), lane),
        _ => 0,
    }
}
