//! What a processor said of a fixed set of steps, in tests/data/processor.txt: lines that begin
//! with `#` name the processor, the seed and the number of cases, the others are steps with their
//! outcomes as `step_line` prints them. The file there is of a time when the list had its first
//! eight rows alone; what `witness --record` asks now has scalar rows too, and those that compare.

use crate::assemble::Encoding;
use crate::corners;
use crate::differences::{on_a_processor, Difference};
use crate::machine::{Step, StepOutcome, ALL_MASKED};
use crate::processor::{model, Processor};
use crate::random::{self, Random};
use crate::random_step::set_operand;
use crate::second;
use crate::second::encoding::{decode, Instruction, Second, Source, LIST};
use crate::step_line::shown_outcome;
use crate::witness::runnable;
use std::path::PathBuf;

pub fn path() -> PathBuf {
    PathBuf::from(concat!(env!("CARGO_MANIFEST_DIR"), "/data/processor.txt"))
}

/// The examples of R12.1 as steps, the first of R12.4, some like the other examples, and cases
/// around R7.4 and R7.6. Behind them scalar rows: each once, then what R5.10, R3.7, R3.8, R3.13,
/// R4.10, R5.6 and R7.6 say of them. At last rows that compare: each once, then what R6.26, R6.27,
/// R3.8, R3.15, R5.11, R4.10 and R5.4 say of them.
const ROWS: [&str; 92] = [
    "step code=62F5744958C2 control=00001F80 k1=1 z1=3C00 z2=BC00",
    "step code=62F5744958C2 control=00003F80 k1=1 z1=3C00 z2=BC00",
    "step code=62F5744958C2 control=00001F80 k1=1 z1=7BFF z2=4C00",
    "step code=62F5744958C2 control=00001F80 k1=1 z1=7BFF z2=4BFF",
    "step code=62F574495EC2 control=00001F80 k1=1 z1=3C00 z2=4200",
    "step code=62F574495EC2 control=00005F80 k1=1 z1=3C00 z2=4200",
    "step code=62F5744959C2 control=00001F80 k1=1 z1=0001 z2=3800",
    "step code=62F5744959C2 control=00001F80 k1=1 z1=2010 z2=1FE0",
    "step code=62F5744959C2 control=00007F80 k1=1 z1=2010 z2=1FE0",
    "step code=62F5744959C2 control=00001F80 k1=1 z1=0400 z2=3800",
    "step code=62F5744959C2 control=00001780 k1=1 z1=0400 z2=3800",
    "step code=62F67549A8C2 control=00001F80 k1=1 z0=3C01 z1=3C01 z2=BC02",
    "step code=62F57C4951C2 control=00001F80 k1=1 z2=4000",
    "step code=62F57C4951C2 control=00001F80 k1=1 z2=BC00",
    "step code=62F5744958C2 control=00001F80 k1=1 z1=7E01 z2=7D00",
    "step code=62F5744958C2 control=00001F80 k1=1 z1=7D00 z2=3C00",
    "step code=62F574495EC2 control=00001F80 k1=1 z1=0001",
    "step code=62F574495EC2 control=00001F80 k1=1 z1=7E01",
    "step code=62F574D9584001 control=00001F80 k1=3 r0=1 memory=0000000040",
    "step code=62F574D9584001 control=00001F80 k1=3 r0=1 memory=00000040",
    "step code=62F5744858C2 control=00001F80 z1=3C00,BC00 z2=0001x32",
    "step code=62F5743858C2 control=00001F80 z1=3C00,BC00 z2=0001x32",
    "step code=62F574C858C2 control=00001F80",
    "step code=62F574495800 control=00001F80 memory=00",
    "step code=62F574495800 control=00001F80 k1=1 memory=00",
    "step code=62F574495800 control=00001F80 k1=1 memory=003C",
    "step code=62F574495EC2 control=00001D80 k1=3 z1=3C00x2 z2=0000,4200",
    "step code=62F5744959C2 control=00001B80 k1=1 z1=E200 z2=7800",
    "step code=62F5744959C2 control=00001B80 k1=1 z1=7BFF z2=7BFF",
    "step code=62F5744959C2 control=00001280 k1=3 z1=E200,0001 z2=7800,3800",
    "step code=62F5760858C2 control=00001F80 z0=1111x32 z1=3C00,2222x31 z2=4000,3333x31",
    "step code=62F5760859C2 control=00001F80 z0=1111x32 z1=4200,2222x31 z2=4000,3333x31",
    "step code=62F576085CC2 control=00001F80 z0=1111x32 z1=3C00,2222x31 z2=4200,3333x31",
    "step code=62F576085EC2 control=00001F80 z0=1111x32 z1=3C00,2222x31 z2=4200,3333x31",
    "step code=62F5760851C2 control=00001F80 z0=1111x32 z1=FC01,2222x31 z2=4400,3333x31",
    "step code=62F6750899C2 control=00001F80 z0=4000,1111x31 z1=4200,2222x31 z2=4900,3333x31",
    "step code=62F67508A9C2 control=00001F80 z0=4000,1111x31 z1=4200,2222x31 z2=4900,3333x31",
    "step code=62F67508B9C2 control=00001F80 z0=4000,1111x31 z1=4200,2222x31 z2=4900,3333x31",
    "step code=62F5762858C2 control=00001F80 z0=1111x32 z1=3C00,2222x31 z2=4000",
    "step code=62F5764858C2 control=00001F80 z0=1111x32 z1=3C00,2222x31 z2=4000",
    "step code=62F5766858C2 control=00001F80 z1=3C00 z2=4000",
    "step code=62F576185EC2 control=00000000 z1=4500,2222x31 z2=4200",
    "step code=62F576385EC2 control=00000000 z1=4500,2222x31 z2=4200",
    "step code=62F576585EC2 control=00000000 z1=4500,2222x31 z2=4200",
    "step code=62F576785EC2 control=00000000 z1=4500,2222x31 z2=4200",
    "step code=62F5760958C2 control=00001F80 k1=FE z0=1111x32 z1=7C01,2222x31 z2=7C01x32",
    "step code=62F5768958C2 control=00001F80 k1=FE z0=1111x32 z1=7C01,2222x31 z2=7C01x32",
    "step code=62F5760958C2 control=00000000 k1=1 z0=1111x32 z1=3C00,7C01x31 z2=3C00,7C01x31",
    "step code=62F6750999C2 control=00001F80 k1=FE z0=1111x32 z1=2222x32 z2=3333x32",
    "step code=62F6758999C2 control=00001F80 k1=FE z0=1111x32 z1=2222x32 z2=3333x32",
    "step code=62F5760858C0 control=00001F80 z0=3C00,1111x31 z1=4000,2222x31",
    "step code=62F57E0858C1 control=00001F80 z0=3C00,1111x31 z1=4000,2222x31",
    "step code=62F5760858400F control=00001F80 r0=FFFFFFFFFFFFFFE3 z1=3C00,2222x7 memory=AA003C",
    "step code=62F576085800 control=00001F80 z1=3C00,2222x7 memory=003C",
    "step code=62F576085800 control=00001F80 z1=3C00,2222x7 memory=00",
    "step code=62F576095800 control=00001F80 k1=FE z0=1111x32 z1=3C00,2222x7",
    "step code=62F576185800 control=00001F80 memory=003C",
    "step code=62F6751899C2 control=00001F80 z0=4000,1111x31 z1=4200,2222x31 z2=4900,3333x31",
    "step code=62F576085EC2 control=00001D80 z0=1111x32 z1=3C00,2222x31",
    "step code=62F5760859C2 control=00001B80 z0=1111x32 z1=E200,2222x31 z2=7800",
    "step code=62F574085DC2 control=00001F80 z0=1111x32 z1=3C00,4000,BC00 z2=4000,3C00,C000",
    "step code=62F574085FC2 control=00001F80 z0=1111x32 z1=3C00,4000,7C00 z2=4000,3C00,7BFF",
    "step code=62F37408C2CA01 control=00001F80 k1=A5A5A5A5A5A5A5A5 z1=3C00,4000 z2=4000,3C00",
    "step code=62F574085DC2 control=00001F80 z1=0000,8000,0000,8000 z2=8000,0000,0000,8000",
    "step code=62F574085FC2 control=00001F80 z1=0000,8000,0000,8000 z2=8000,0000,0000,8000",
    "step code=62F574085DC2 control=00001F80 z1=7E01,3C00,7C01,3C00 z2=3C00,7E01,3C00,7C01",
    "step code=62F574085FC2 control=00001F80 z1=7E01,7C01,FD02,3C00 z2=7C01,7E01,7C03,FC01",
    "step code=62F574095DC2 control=00001F80 k1=1 z1=7E01 z2=3C00",
    "step code=62F574095FC2 control=00001F80 k1=1 z1=0001 z2=7E01",
    "step code=62F574095DC2 control=00001F80 k1=1 z1=0001 z2=3C00",
    "step code=62F574095FC2 control=00001E80 k1=1 z0=1111x32 z1=3C00 z2=83FF",
    "step code=62F574095DC2 control=00001F00 k1=3 z0=1111x32 z1=7E01,0001 z2=3C00,3C00",
    "step code=62F574185DC2 control=00000000 z1=7C01,0001,4400x30 z2=3C00x2,4200x30",
    "step code=62F574385FC2 control=00000000 z1=7C01,0001,4400x30 z2=3C00x2,4200x30",
    "step code=62F574785DC2 control=00000000 z1=7C01,0001,4400x30 z2=3C00,4000,4200x30",
    "step code=62F574685DC2 control=00001F80 z1=3C00 z2=4000",
    "step code=62F37478C2CA01 control=00000000 z1=7E00,0001,3C00x30 z2=3C00x2,4000x30",
    "step code=62F37418C2C201 control=00000000 k0=FFFFFFFFFFFFFFFF z1=7E00,0001,3C00x30 z2=3C00x2",
    "step code=62F37408C2CA03 control=00000000 z1=7E00,3C00,0001 z2=3C00,7E00,7FFF",
    "step code=62F37408C2CA13 control=00001F80 z1=7E00,3C00,0001 z2=3C00,7E00,7FFF",
    "step code=62F37408C2CA13 control=00001F00 k1=FF z1=7E00,3C00,0001 z2=3C00,7E00,7FFF",
    "step code=62F37408C2CAFB control=00001F80 k1=FF z1=7E00,3C00 z2=3C00,7E00",
    "step code=62F37408C2CAEF control=00001F80 k1=A500000000000000 z1=0001",
    "step code=62F37409C2CA0F control=00001F80 k1=FFFFFFFFFFFFFF05",
    "step code=62F3744AC2FA0D control=00001F80 k2=80000003 k7=FFFFFFFFFFFFFFFF z1=3C00,BC00",
    "step code=62F37488C2CA00 control=00001F80 k1=FF",
    "step code=62F37489C2CA00 control=00001F80 k1=FF",
    "step code=62737408C2CA00 control=00001F80",
    "step code=62E37408C2CA00 control=00001F80",
    "step code=62F37409C2500101 control=00001F80 k1=1 r0=FFFFFFFFFFFFFFF1 z1=3C00 memory=AA0040",
    "step code=62F37459C2500101 control=00001F80 k1=3 r0=FFFFFFFFFFFFFFFF z1=3C00x2 memory=AA0040",
    "step code=62F37409C215F6FFFFFF01 control=00001F80 k1=1 z1=3C00 memory=AA0040",
];

const CASES: usize = 5_700;

/// Asks the processor and writes the file.
pub fn write(processor: &mut Processor, seed: u64) {
    let mut text = format!(
        "# What a processor leaves of some steps; `witness --record` writes this file.\n\
         # processor: {}\n# seed: {seed}\n# cases: {CASES}\n",
        model()
    );
    for step in steps(seed) {
        let length = runnable(&step, false).expect("an instruction of the list");
        let outcome = processor
            .step(&step, length)
            .expect("a pointer that is near");
        text += &format!("{step} => {}\n", shown_outcome(&step, &outcome));
    }
    let path = path();
    std::fs::create_dir_all(path.parent().expect("a file in a folder")).expect("a folder");
    std::fs::write(&path, &text).expect("the file can be written");
    println!("{CASES} cases, {} bytes", text.len());
}

/// What is asked: the rows, then cases.
fn steps(seed: u64) -> impl Iterator<Item = Step> {
    let rows = ROWS.iter().map(|row| row.parse::<Step>().expect(row));
    let mut cases = Cases::seeded(seed);
    let others = std::iter::repeat_with(move || cases.step());
    rows.chain(others).take(CASES)
}

/// One line of the file against what the library, or the second program, answers: the name of the
/// difference, if there is one, or both texts where they do not go together.
pub fn compare(line: &str, answer: fn(&Step) -> StepOutcome) -> Result<Option<Difference>, String> {
    let step: Step = line.parse().map_err(|error| format!("{line}: {error}"))?;
    let recorded = line.split_once("=> ").map_or("", |(_, text)| text);
    let outcome = answer(&step);
    // A difference is one from the outcome by the rules, so this has to be it.
    let by_rules = second::step(&step);
    let (expected, name) = on_a_processor(&step, &by_rules);
    if outcome == by_rules && shown_outcome(&step, &expected) == recorded {
        return Ok(name);
    }
    let [outcome, by_rules] = [outcome, by_rules].map(|outcome| shown_outcome(&step, &outcome));
    Err(format!("{line} found {outcome} by the rules {by_rules}"))
}

/// Steps with one to three lanes that have something to do, so that a line is short.
struct Cases {
    random: Random,
    corners: Vec<u16>,
    place: usize,
}

impl Cases {
    fn seeded(seed: u64) -> Cases {
        Cases {
            random: Random::seeded(seed),
            corners: corners::all(),
            place: 0,
        }
    }

    /// The instructions in turn; one case in eight has a memory operand.
    fn step(&mut self) -> Step {
        let (row, with_memory) = (self.place % LIST.len(), self.place / LIST.len() % 8 == 7);
        self.place += 1;
        let lanes = self.random.within(1, 3) as usize;
        let mut encoding = self.encoding(row);
        if with_memory {
            (encoding.mode, encoding.rm) = (0, 0);
            (encoding.x, encoding.b, encoding.mask) = (0, 0, encoding.mask.max(1));
            (encoding.extra, encoding.length) = match LIST[row].is_scalar() {
                true => (0, encoding.length.min(2)),
                false => (encoding.extra, 0),
            };
        }
        let mut step = Step::of(encoding.bytes());
        step.machine.control = self.control();
        if LIST[row].to_mask {
            step.machine.masks[usize::from(encoding.destination)] = self.random.bits();
        }
        let instruction = decode(&step.code).expect("a valid instruction");
        if with_memory {
            step.memory = vec![0; self.memory_size(&instruction, lanes)];
        }
        self.fill(&mut step, &instruction, lanes, with_memory);
        if instruction.listed.is_scalar() {
            self.fill_above(&mut step, &instruction);
        }
        step
    }

    /// The words of the first lanes, or the one of a broadcast; of a scalar row two bytes, in one
    /// case of four fewer.
    fn memory_size(&mut self, instruction: &Instruction, lanes: usize) -> usize {
        match instruction.second {
            Second::Memory { broadcast, .. } if broadcast => 2,
            _ if !instruction.listed.is_scalar() => 2 * lanes,
            _ if self.random.once_in(4) => self.random.within(0, 1) as usize,
            _ => 2,
        }
    }

    /// Lanes that have no element, a half for each register, which may be a signalling NaN.
    fn fill_above(&mut self, step: &mut Step, instruction: &Instruction) {
        let written = instruction.written_vector().expect("a scalar row");
        for register in [written, instruction.first] {
            let half = self.random.one_of(&self.corners);
            for lane in 1..10 {
                step.machine.set_lane(register, lane, half);
            }
        }
    }

    /// Three registers that are not the same, so that each has its own operands, or two and a mask;
    /// any masking; 8, 16 or 32 lanes or, in one case of four, embedded rounding or suppression.
    fn encoding(&mut self, row: usize) -> Encoding {
        let (random, listed) = (&mut self.random, &LIST[row]);
        let register = random.within(0, 31) as u8;
        let [first, second] = [random.within(1, 15), random.within(16, 31)].map(|n| n as u8);
        let [first, second] = [register ^ first, register ^ second];
        let first = match listed.takes_first() {
            true => first,
            false => 0,
        };
        let destination = match listed.to_mask {
            true => register & 7,
            false => register,
        };
        let extra = u8::from(random.once_in(4));
        let mask = random.one_of(&[0, 1, 1, 2, 3, 4, 5, 6, 7]);
        Encoding {
            extra,
            length: random.within(0, 2 + i32::from(extra)) as u8,
            mask,
            zeroing: u8::from(mask != 0 && !listed.to_mask && random.once_in(4)),
            immediate: listed.immediate.then(|| random.bits() as u8),
            ..Encoding::registers(listed, destination, first, second)
        }
    }

    /// Half of the cases have everything masked.
    fn control(&mut self) -> u32 {
        let bits = self.random.bits() as u32;
        let masks = match self.random.within(0, 5) {
            0..=2 => ALL_MASKED,
            3 | 4 => ALL_MASKED & !(0x80 << self.random.one_of(&[0, 1, 2, 3, 3, 4, 5])),
            _ => bits & ALL_MASKED,
        };
        let stale = if self.random.once_in(6) { bits & 63 } else { 0 };
        masks | stale | bits & 0x6000
    }

    /// Operands for the first lanes, of which some are on; without a mask all others are ones. A
    /// mask may have a bit beyond the memory that is lent, which is then the answer 7; to a
    /// scalar row such a bit says nothing.
    fn fill(&mut self, step: &mut Step, instruction: &Instruction, lanes: usize, memory: bool) {
        let on = self.random.within(1, (1 << lanes) - 1) as u64;
        if instruction.mask != 0 {
            let beyond = u64::from(memory && self.random.once_in(4)) << lanes;
            step.machine.masks[instruction.mask] = on | beyond;
        }
        let sources = instruction.listed.operands;
        let used = match instruction.mask {
            0 => instruction.elements,
            _ => lanes.min(instruction.elements),
        };
        for lane in 0..used {
            let operands = match self.random.within(0, 6) {
                _ if lane >= lanes => [0x3C00; 3],
                0 | 1 => [(); 3].map(|_| self.random.one_of(&self.corners)),
                // A divisor that is zero.
                3 => [0xFC00, 0x8000, 0xFC00].map(|bits| self.random.half() & bits),
                // Large powers of two, whose products overflow and are exact.
                2 => [(); 3].map(|_| self.random.half() & 0xFC00 | 0x4000),
                _ => random::case(&mut self.random, instruction.listed.operation).operands,
            };
            let written = instruction.written_vector();
            let old = written.filter(|_| !sources.contains(&Source::Destination) && lane < lanes);
            if let Some(register) = old {
                step.machine.set_lane(register, lane, 0x5555);
            }
            for (half, source) in operands.iter().zip(sources) {
                set_operand(step, instruction, *source, lane, *half);
            }
        }
    }
}

#[cfg(test)]
mod tests {
    use super::*;
    use crate::coverage::Coverage;

    /// What a processor would be asked, by the second program: all of it can run, and every row and
    /// what is said of scalar ones and of those that compare is among it.
    #[test]
    fn the_steps_to_record_reach_every_row() {
        let mut coverage = Coverage::none();
        for step in steps(20_240_302) {
            assert!(runnable(&step, false).is_some(), "{step}");
            coverage.see(&step, &second::step(&step));
        }
        coverage.require_answers(&[0, 5, 7, 8]);
        coverage.require_of(3, |name| {
            [
                "instruction done",
                "scalar: no mask; lane 0 on, off, with z on, off",
                "scalar: mask without bit 0 but with others, with it alone",
                "scalar: length bits 0, 1, 2 of registers, of memory",
                "scalar: mode of embedded rounding",
                "scalar: mode of the control word",
                "scalar: memory of 2 bytes done, of 1 byte refused, of 0",
                "scalar: unmasked exception alone",
                "compare: row, length bits 0, 1, 2",
                "compare: row, suppression with length bits 0 to 3",
                "compare: row, register, memory, broadcast",
                "compare: row, flags: none, IE, DE",
                "compare: row, the one NaN: first quiet, signalling, second quiet, signalling",
                "compare: bits 5 to 7 of the immediate",
                "compare: mask destination",
                "compare: old mask bits above 31",
            ]
            .contains(&name)
        });
    }
}
