//! Random steps: valid instructions on states in which they have something to do, and some of them
//! spoiled afterwards, so that most decode.

use crate::assemble::Encoding;
use crate::corners;
use crate::machine::{Machine, Step, ALL_MASKED, VECTORS_SIZE};
use crate::random::{self, Random};
use crate::second::encoding::{decode, Base, Instruction, Second, Source, LIST};
use crate::second::step::{first_address, lanes_on};

/// What a generator of steps draws from.
pub struct Steps {
    pub random: Random,
    corners: Vec<u16>,
}

impl Random {
    /// One of some things.
    pub fn one_of<T: Copy>(&mut self, things: &[T]) -> T {
        things[self.within(0, things.len() as i32 - 1) as usize]
    }

    /// Yes, once in so many times.
    pub fn once_in(&mut self, times: i32) -> bool {
        self.within(1, times) == 1
    }
}

/// What kind of halves a state holds.
#[derive(Clone, Copy)]
enum Halves {
    /// Small whole numbers: few flags.
    Whole,
    /// Small whole numbers, and a corner here and there.
    FewCorners,
    Corners,
    Any,
}

impl Steps {
    pub fn seeded(seed: u64) -> Steps {
        Steps {
            random: Random::seeded(seed),
            corners: corners::all(),
        }
    }

    /// A step, one in four of them spoiled in some place.
    pub fn step(&mut self) -> Step {
        let kind = self.kind();
        let machine = self.machine(kind);
        let memory = self.memory(kind);
        let mut step = Step {
            code: self.code(),
            machine,
            memory,
        };
        self.aim(&mut step);
        if self.random.once_in(8) {
            self.divide_by_zero(&mut step);
        }
        self.compare_closely(&mut step);
        if self.random.once_in(3) {
            let extra = self.random.within(1, 6);
            let bytes = (0..extra).map(|_| self.random.bits() as u8);
            step.code.extend(bytes);
        }
        if self.random.once_in(4) {
            self.spoil(&mut step);
        }
        step
    }

    fn kind(&mut self) -> Halves {
        let few = Halves::FewCorners;
        let kinds = [Halves::Whole, few, few, Halves::Corners, Halves::Any];
        self.random.one_of(&kinds)
    }

    fn half(&mut self, kind: Halves) -> u16 {
        const WHOLE: [u16; 8] = [
            0x3C00, 0x4000, 0x4200, 0x4400, 0x4500, 0x4600, 0xBC00, 0xC000,
        ];
        match kind {
            Halves::Whole => self.random.one_of(&WHOLE),
            Halves::FewCorners if !self.random.once_in(12) => self.random.one_of(&WHOLE),
            // Divisors that are zero are few among the corners.
            Halves::FewCorners if self.random.once_in(4) => self.random.half() & 0x8000,
            Halves::FewCorners | Halves::Corners => self.random.one_of(&self.corners),
            Halves::Any => self.random.half(),
        }
    }

    fn halves(&mut self, kind: Halves, bytes: usize) -> Vec<u8> {
        let halves = (0..bytes.div_ceil(2)).flat_map(|_| self.half(kind).to_le_bytes());
        let mut all: Vec<u8> = halves.collect();
        all.truncate(bytes);
        all
    }

    fn machine(&mut self, kind: Halves) -> Machine {
        Machine {
            vectors: self.halves(kind, VECTORS_SIZE),
            masks: [0; 8].map(|_| self.mask()),
            general: [0; 16].map(|_| self.general()),
            control: self.control(),
            pointer: self.general(),
        }
    }

    /// None, few or many of the lanes, or all; the bits that belong to no lane are any or none.
    fn mask(&mut self) -> u64 {
        let (a, b, c) = (self.random.bits(), self.random.bits(), self.random.bits());
        let lanes = match self.random.within(0, 7) {
            0 => 0,
            1 | 2 => 1 << (a & 31),
            3 | 4 => a & b & c,
            5 | 6 => a,
            _ => u64::MAX,
        };
        let above = if self.random.once_in(2) { 0 } else { b << 32 };
        lanes & 0xFFFF_FFFF | above
    }

    fn general(&mut self) -> u64 {
        match self.random.within(0, 3) {
            0 => self.random.bits(),
            1 => self.random.within(-300, 300) as i64 as u64,
            _ => self.random.within(0, 200) as u64,
        }
    }

    /// All exceptions masked, all but one, any or none; flags left from before in some; any mode,
    /// DAZ and FZ.
    fn control(&mut self) -> u32 {
        let bits = self.random.bits() as u32;
        let masks = match self.random.within(0, 4) {
            0 | 1 => ALL_MASKED,
            2 => ALL_MASKED & !(0x80 << self.random.within(0, 5)),
            3 => bits & ALL_MASKED,
            _ => 0,
        };
        let stale = if self.random.once_in(2) { 0 } else { bits & 63 };
        masks | stale | bits & 0xE040
    }

    fn memory(&mut self, kind: Halves) -> Vec<u8> {
        let length = match self.random.within(0, 5) {
            0 => self.random.within(0, 3),
            1 => self.random.one_of(&[16, 32, 64]),
            _ => self.random.within(0, 200),
        };
        self.halves(kind, length as usize)
    }

    /// The bytes of a valid instruction and nothing after them.
    pub fn code(&mut self) -> Vec<u8> {
        self.encoding().exact_bytes()
    }

    /// The fields of a valid instruction, with enough bytes behind for any operand. A scalar row
    /// has no broadcast; one that writes a mask has eight to choose from, and no zeroing.
    fn encoding(&mut self) -> Encoding {
        let random = &mut self.random;
        let listed = &LIST[random.within(0, LIST.len() as i32 - 1) as usize];
        let mode = random.one_of(&[0, 1, 2, 3, 3]);
        let takes_b = mode == 3 || !listed.is_scalar();
        let extra = u8::from(takes_b) & random.bits() as u8;
        let embedded = mode == 3 && extra == 1;
        let mask = random.one_of(&[0, 0, 1, 2, 3, 4, 5, 6, 7]);
        let has_first = listed.takes_first();
        let may_zero = mask != 0 && !listed.to_mask;
        Encoding {
            destination: random.bits() as u8 & if listed.to_mask { 7 } else { 31 },
            first: if has_first { random.bits() as u8 } else { 0 },
            x: random.bits() as u8,
            b: random.bits() as u8,
            zeroing: u8::from(may_zero) & random.bits() as u8,
            length: random.within(0, if embedded { 3 } else { 2 }) as u8,
            extra,
            mask,
            rm: random.one_of(&[0, 1, 2, 3, 4, 4, 4, 5, 5, 6, 7]),
            mode,
            immediate: listed.immediate.then(|| random.bits() as u8),
            rest: self.rest(),
            ..Encoding::registers(listed, 0, 0, 0)
        }
    }

    /// SIB and displacement; a 32-bit one is small half of the time, wherever it begins.
    fn rest(&mut self) -> Vec<u8> {
        let displacement = if self.random.once_in(2) {
            self.random.bits() as i32
        } else {
            self.random.within(-300, 300)
        };
        let mut rest = displacement.to_le_bytes().to_vec();
        let sib = self.random.bits() as u8;
        let no_base = if self.random.once_in(4) { 5 } else { sib & 7 };
        let no_index = if self.random.once_in(4) {
            4
        } else {
            sib >> 3 & 7
        };
        rest.insert(0, sib & 0xC0 | no_index << 3 | no_base);
        rest.push(self.random.bits() as u8);
        rest
    }

    /// An address worth trying: inside memory, at an edge, or just outside.
    fn target(&mut self, step: &Step, instruction: &Instruction) -> u64 {
        let length = step.memory.len() as i32;
        let whole = 2 * instruction.elements as i32;
        let target = match self.random.within(0, 7) {
            0 => self.random.within(-whole - 2, length + 2),
            // The last word ends where memory does.
            1 => length - whole,
            2 => length - 2 + self.random.within(-2, 2),
            3 => -2 * self.random.within(0, 32),
            _ => self.random.within(0, (length - whole).max(0)),
        };
        target as i64 as u64
    }

    /// Moves a general register, the pointer or the displacement so that a memory operand stands at
    /// such an address, or near it.
    fn aim(&mut self, step: &mut Step) {
        let Ok(instruction) = decode(&step.code) else {
            return;
        };
        let Second::Memory { address, .. } = instruction.second else {
            return;
        };
        let target = self.target(step, &instruction);
        let machine = &mut step.machine;
        let now = first_address(machine, &address, instruction.length);
        let missing = target.wrapping_sub(now);
        let step_by = |scale: u64| (missing as i64 / scale as i64) as u64;
        match (address.base, address.index) {
            (Base::NextInstruction, _) => machine.pointer = machine.pointer.wrapping_add(missing),
            (Base::General(base), Some((index, scale))) if base == index => {
                machine.general[base] = machine.general[base].wrapping_add(step_by(scale + 1));
            }
            (Base::General(base), _) => {
                machine.general[base] = machine.general[base].wrapping_add(missing);
            }
            (Base::None, Some((index, scale))) => {
                machine.general[index] = machine.general[index].wrapping_add(step_by(scale));
            }
            (Base::None, None) => {
                let end = instruction.length - usize::from(instruction.immediate.is_some());
                step.code[end - 4..end].copy_from_slice(&(target as u32).to_le_bytes());
            }
        }
    }

    /// A zero for the second source of lane 0, which is the one element of a scalar row.
    fn divide_by_zero(&mut self, step: &mut Step) {
        let zero = self.random.half() & 0x8000;
        if let Ok(instruction) = decode(&step.code) {
            set_operand(step, &instruction, Source::Second, 0, zero);
        }
    }

    /// Of a row that compares: equal halves, neighbours and NaNs for a lane that is on, the lowest
    /// or any.
    fn compare_closely(&mut self, step: &mut Step) {
        let Ok(instruction) = decode(&step.code) else {
            return;
        };
        let operation = instruction.listed.operation;
        let on = lanes_on(&step.machine, &instruction);
        if operation.rounds() || on.is_empty() {
            return;
        }
        let lane = match self.random.once_in(2) {
            true => on[0],
            false => self.random.one_of(&on),
        };
        let case = random::case(&mut self.random, operation);
        for (half, source) in case.operands.iter().zip(instruction.listed.operands) {
            set_operand(step, &instruction, *source, lane, *half);
        }
    }

    /// Of a row that compares: length bits 3, z, a destination above 7, each with nothing behind
    /// ModRM in half of the cases; or the last byte missing. Most of it is refused.
    fn spoil_comparing(&mut self, step: &mut Step, instruction: &Instruction) {
        let (random, code) = (&mut self.random, &mut step.code);
        match random.within(0, 3) {
            0 => code[3] |= 0x60,
            1 => code[3] |= 0x80,
            2 => code[1] &= !random.one_of(&[0x80, 0x10, 0x90]),
            _ => return code.truncate(instruction.length - 1),
        }
        if random.once_in(2) {
            code.truncate(6);
        }
    }

    /// Changes one thing, anywhere.
    fn spoil(&mut self, step: &mut Step) {
        let instruction = decode(&step.code).expect("a valid instruction");
        if !instruction.listed.operation.rounds() && self.random.once_in(2) {
            return self.spoil_comparing(step, &instruction);
        }
        let random = &mut self.random;
        let place = random.within(0, 5) as usize;
        match random.within(0, 7) {
            0..=2 => step.code[place] ^= 1 << random.within(0, 7),
            3 => step.code[place] = random.bits() as u8,
            4 => {
                let kept = random.within(0, step.code.len() as i32);
                step.code.truncate(kept as usize);
            }
            5 => step.machine.control |= 1 << random.within(16, 31),
            6 => {
                let sizes = [0, 1, 2047, 2049, 4096, random.within(0, 5000)];
                step.machine
                    .vectors
                    .resize(random.one_of(&sizes) as usize, 0xA5);
            }
            _ => {
                let kept = random.within(0, step.memory.len() as i32);
                step.memory.truncate(kept as usize);
            }
        }
    }

    /// A machine whose general registers point into its memory, and that memory: a start for
    /// several steps.
    pub fn start(&mut self) -> (Machine, Vec<u8>) {
        let kind = self.kind();
        let mut machine = self.machine(kind);
        machine.general = [0; 16].map(|_| self.random.within(0, 600) as u64);
        (machine, self.halves(kind, 2000))
    }
}

/// Writes the half that a source holds for a lane; nothing where it lies outside memory.
pub fn set_operand(
    step: &mut Step,
    instruction: &Instruction,
    source: Source,
    lane: usize,
    half: u16,
) {
    let register = match (source, instruction.second) {
        (Source::Destination, _) => instruction.written_vector().expect("a vector register"),
        (Source::First, _) => instruction.first,
        (Source::Second, Second::Register(register)) => register,
        (Source::Second, Second::Memory { address, broadcast }) => {
            let first = first_address(&step.machine, &address, instruction.length);
            let offset = if broadcast { 0 } else { 2 * lane as u64 };
            let at = first.wrapping_add(offset) as usize;
            if let Some(word) = step.memory.get_mut(at..at.saturating_add(2)) {
                word.copy_from_slice(&half.to_le_bytes());
            }
            return;
        }
    };
    step.machine.set_lane(register, lane, half);
}
