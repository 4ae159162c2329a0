//! Counts what steps reach, so that a test fails where its steps miss something they were made for.

mod comparing;
mod scalar;

use crate::compare::Comparison;
use crate::machine::{Step, StepOutcome, VECTORS_SIZE};
use crate::second::encoding::{decode, find, Address, Base, Instruction, Listed, Second, LIST};
use crate::second::step::{first_address, lanes_on, raised, unmasked, EARLY};

/// A step with its outcome, and the instruction where its bytes make one.
pub struct Seen<'a> {
    before: &'a Step,
    outcome: &'a StepOutcome,
    instruction: Option<&'a Instruction>,
}

/// Something a step may reach, in so many kinds; a step reaches at most one of them.
type Feature = (&'static str, usize, fn(&Seen) -> Option<usize>);

/// Which kind is out of reach: answer 6, which no step gives (R4.12); index 4, which is the
/// encoding of no index. Of the features of scalar rows and of rows that compare, every kind is in
/// reach.
const OUT_OF_REACH: [(&str, usize); 2] = [("answer", 6), ("index register", 4)];

const FEATURES: &[Feature] = &[
    ("answer", 9, |s| Some(s.number())),
    ("instruction done", LIST.len(), |s| {
        let name = s.done()?.listed.name;
        LIST.iter().position(|row| row.name == name)
    }),
    ("lanes 8, 16, 32", 3, |s| {
        let instruction = s.packed().filter(|i| !i.hides_exceptions)?;
        [8, 16, 32].iter().position(|&n| n == instruction.elements)
    }),
    ("mode of embedded rounding", 4, |s| {
        s.packed()?.embedded_mode.map(|mode| mode as usize)
    }),
    ("mode of the control word", 4, |s| {
        let instruction = s.done().filter(|i| i.listed.operation.rounds())?;
        let mode = s.before.machine.control >> 13 & 3;
        yes(instruction.embedded_mode.is_none()).map(|_| mode as usize)
    }),
    ("destination register", 32, |s| s.done()?.written_vector()),
    ("first source register", 32, |s| {
        let instruction = s.done()?;
        yes(instruction.listed.takes_first()).map(|_| instruction.first)
    }),
    ("second source register", 32, |s| match s.done()?.second {
        Second::Register(number) => Some(number),
        Second::Memory { .. } => None,
    }),
    (
        "destination is a source: first, second, both",
        3,
        destination_as_source,
    ),
    ("register, memory, broadcast", 3, |s| {
        Some(form(s.packed()?))
    }),
    ("all lanes off: register, memory, broadcast", 3, |s| {
        let instruction = s.packed()?;
        yes(s.lanes_on(instruction).is_empty()).map(|_| form(instruction))
    }),
    ("some lanes off: merged, zeroed", 2, |s| {
        let instruction = s.packed()?;
        instruction.written_vector()?;
        let on = s.lanes_on(instruction).len();
        let some = (1..instruction.elements).contains(&on);
        yes(some).map(|_| usize::from(instruction.zeroing))
    }),
    ("mask register, 0 for none", 8, |s| Some(s.done()?.mask)),
    ("mask k0 without the lanes of its bits", 1, |s| {
        let instruction = s.done()?;
        yes(instruction.mask == 0 && s.before.machine.masks[0] as u32 != u32::MAX)
    }),
    (
        "address: base, base in SIB, base and index, index, none, relative",
        6,
        address_form,
    ),
    ("base register", 16, |s| match s.address()?.base {
        Base::General(number) => Some(number),
        _ => None,
    }),
    ("index register", 16, |s| {
        s.address()?.index.map(|(number, _)| number)
    }),
    ("scale 1, 2, 4, 8", 4, |s| {
        s.address()?.index.map(|(_, scale)| scale.ilog2() as usize)
    }),
    ("displacement of 0, 1, 4 bytes", 3, |s| {
        let bytes = s.address()?.displacement_bytes;
        [0, 1, 4].iter().position(|&n| n == bytes)
    }),
    ("negative displacement of 1, 4 bytes", 2, |s| {
        let address = s.address().filter(|address| address.displacement < 0)?;
        Some(usize::from(address.displacement_bytes == 4))
    }),
    ("8-bit displacement times 2, 16, 32, 64", 4, |s| {
        let (instruction, address) = (s.packed()?, s.address()?);
        let n = if form(instruction) == 2 {
            2
        } else {
            2 * instruction.elements
        };
        let has = address.displacement_bytes == 1 && address.displacement != 0;
        yes(has).and_then(|_| [2, 16, 32, 64].iter().position(|&m| m == n))
    }),
    ("B 0 or 1, not read", 2, |s| {
        let unread = !matches!(s.address()?.base, Base::General(_));
        yes(unread).map(|_| usize::from(s.before.code[1] >> 5 & 1))
    }),
    ("X 0 or 1, not read", 2, |s| {
        s.address()?;
        yes(s.before.code[5] & 7 != 4).map(|_| usize::from(s.before.code[1] >> 6 & 1))
    }),
    ("address that is a sum beyond 2 to the 64", 1, |s| {
        yes(s.sum_wraps()?)
    }),
    ("word that wraps round to 0 or above", 1, |s| {
        let words = s.words()?;
        let first = s.first_address()?;
        yes(words.iter().any(|&word| word < first))
    }),
    ("word at the end of memory, done", 1, |s| {
        s.done()?;
        let end = s.before.memory.len() as u64;
        yes(s.words()?.iter().any(|word| word + 2 == end))
    }),
    ("outside by 1 byte, by 2, below 0", 3, |s| {
        yes(s.number() == 7)?;
        let end = s.before.memory.len() as u64;
        let last = *s.words()?.iter().max()?;
        [end.wrapping_sub(1), end, u64::MAX - 1]
            .iter()
            .position(|&n| n == last)
    }),
    ("lanes outside memory, but off", 1, |s| {
        let instruction = s.packed().filter(|i| form(i) == 1)?;
        let end = s
            .first_address()?
            .wrapping_add(2 * instruction.elements as u64);
        yes(end > s.before.memory.len() as u64)
    }),
    ("memory of 0, 1, 2 bytes, done", 3, |s| {
        yes(form(s.packed()?) != 0).and_then(|_| small_memory(s))
    }),
    ("memory of 0, 1, 2 bytes, refused", 3, |s| {
        yes(s.number() == 7 && !s.instruction?.listed.is_scalar()).and_then(|_| small_memory(s))
    }),
    ("flag added, done", 6, |s| {
        s.done()?;
        single_bit(s.added_flags())
    }),
    ("done with no flag", 1, |s| {
        yes(!s.done()?.hides_exceptions && s.added_flags() == 0)
    }),
    ("unmasked exception alone", 6, |s| {
        single_bit(s.unmasked_raised()?)
    }),
    ("two unmasked exceptions or more", 1, |s| {
        yes(s.unmasked_raised()?.count_ones() >= 2)
    }),
    ("masked flags beside an unmasked exception", 1, |s| {
        let masked = s.added_flags() & !s.unmasked_raised()?;
        yes(masked != 0)
    }),
    (
        "stop: early, late, late beside a masked early flag",
        3,
        |s| {
            Some(match (s.unmasked_raised()? & EARLY, s.raised()? & EARLY) {
                (0, 0) => 1,
                (0, _) => 2,
                _ => 0,
            })
        },
    ),
    (
        "left out of an early stop: OE, UE without it, PE alone",
        3,
        |s| {
            let left_out = s.raised()? & !(s.outcome.after.machine.control as u8);
            yes(left_out != 0).map(|_| left_out.trailing_zeros() as usize - 3)
        },
    ),
    ("unmasked flag left from before, done", 6, |s| {
        let instruction = s.done()?;
        single_bit(s.before.machine.control as u8 & unmasked(&s.before.machine, instruction))
    }),
    (
        "unmasked exception whose flag was left from before",
        1,
        |s| yes(s.number() == 8 && s.before.machine.control == s.outcome.after.machine.control),
    ),
    ("embedded rounding with all exceptions unmasked", 1, |s| {
        let embedded = s.done()?.embedded_mode.is_some();
        yes(embedded && s.before.machine.control & 0x1F80 == 0)
    }),
    ("DE with DAZ or FZ", 2, |s| {
        yes(s.added_flags() & 2 != 0)?;
        single_bit((s.before.machine.control >> 6 & 1 | s.before.machine.control >> 14 & 2) as u8)
    }),
    ("vector file of 0, 1, 2047, 2049, 4096 bytes", 5, |s| {
        let size = s.before.machine.vectors.len();
        [0, 1, 2047, 2049, 4096].iter().position(|&n| n == size)
    }),
    ("control word with one bit above 15", 16, |s| {
        let high = s.before.machine.control >> 16;
        yes(high.is_power_of_two()).map(|_| high.ilog2() as usize)
    }),
    ("cut short after so many bytes", 12, |s| {
        yes(s.number() == 3).map(|_| s.before.code.len())
    }),
    ("length of 6 to 12 bytes", 7, |s| Some(s.done()?.length - 6)),
    ("bytes after the instruction", 1, |s| {
        yes(s.before.code.len() > s.done()?.length)
    }),
    ("byte 1 bit 3, byte 2 bit 2", 2, |s| {
        let code = s.before.code.get(..6).filter(|_| s.number() == 5)?;
        single_bit(code[1] >> 3 & 1 | !code[2] >> 1 & 2)
    }),
    ("length bits 11: register, memory, broadcast", 3, |s| {
        let code = s.reserved(is_packed)?;
        let (length, extra) = (code[3] >> 5 & 3, code[3] >> 4 & 1);
        yes(length == 3)?;
        match (code[5] >> 6, extra) {
            (3, 0) => Some(0),
            (3, _) => None,
            (_, extra) => Some(1 + usize::from(extra)),
        }
    }),
    ("zeroing without a mask", 1, |s| {
        yes(s.reserved(is_packed)?[3] & 0x87 == 0x80)
    }),
    ("root with a first source: V', vvvv", 2, |s| {
        let code = s.reserved(is_packed)?;
        yes(code[4] == 0x51)?;
        let (v, vvvv) = (!code[3] >> 3 & 1, !code[2] >> 3 & 15);
        single_bit(v | u8::from(vvvv != 0) << 1)
    }),
    ("not listed by prefix, map, W, opcode", 4, unlisted),
    ("byte 0", 1, |s| {
        yes(s.number() == 4 && s.before.code[0] != 0x62)
    }),
    ("pointer that wraps", 1, |s| {
        s.done()?;
        yes(s.outcome.after.machine.pointer < s.before.machine.pointer)
    }),
];

fn all_features() -> impl Iterator<Item = &'static Feature> {
    let more = scalar::FEATURES.iter().chain(comparing::FEATURES);
    FEATURES.iter().chain(more)
}

fn is_packed(listed: &Listed) -> bool {
    !listed.is_scalar()
}

fn yes(holds: bool) -> Option<usize> {
    holds.then_some(0)
}

/// Which of two things holds, or that both do.
fn one_or_both(first: bool, second: bool) -> Option<usize> {
    match (first, second) {
        (true, false) => Some(0),
        (false, true) => Some(1),
        (true, true) => Some(2),
        (false, false) => None,
    }
}

/// The number of the only bit.
fn single_bit(bits: u8) -> Option<usize> {
    yes(bits.is_power_of_two()).map(|_| bits.ilog2() as usize)
}

fn form(instruction: &Instruction) -> usize {
    match instruction.second {
        Second::Register(_) => 0,
        Second::Memory { broadcast, .. } => 1 + usize::from(broadcast),
    }
}

fn destination_as_source(s: &Seen) -> Option<usize> {
    let instruction = s.done()?;
    let destination = instruction.written_vector()?;
    let is_first = instruction.listed.takes_first() && instruction.first == destination;
    let is_second = matches!(instruction.second, Second::Register(n) if n == destination);
    one_or_both(is_first, is_second)
}

fn address_form(s: &Seen) -> Option<usize> {
    let address = s.address()?;
    let in_sib = s.before.code[5] & 7 == 4;
    match (address.base, address.index) {
        (Base::General(_), None) => Some(usize::from(in_sib)),
        (Base::General(_), Some(_)) => Some(2),
        (Base::None, Some(_)) => Some(3),
        (Base::None, None) => Some(4),
        (Base::NextInstruction, _) => Some(5),
    }
}

fn small_memory(s: &Seen) -> Option<usize> {
    let length = s.before.memory.len();
    yes(length < 3).map(|_| length)
}

/// Where exactly one of prefix, map, W and opcode keeps the bytes from a row of the list.
fn unlisted(s: &Seen) -> Option<usize> {
    let code = s.before.code.get(..6).filter(|_| s.number() == 4)?;
    let wrong = |row: &Listed| {
        let prefix = u8::from(code[2] & 3 != row.prefix);
        let map = u8::from(code[1] & 7 != row.map);
        let w = u8::from(code[2] >> 7 != row.w);
        let opcode = u8::from(code[4] != row.opcode);
        prefix | map << 1 | w << 2 | opcode << 3
    };
    LIST.iter().find_map(|row| single_bit(wrong(row)))
}

impl Seen<'_> {
    fn number(&self) -> usize {
        self.outcome.answer.number as usize
    }

    fn done(&self) -> Option<&Instruction> {
        self.instruction.filter(|_| self.number() == 0)
    }

    fn packed(&self) -> Option<&Instruction> {
        self.done().filter(|i| is_packed(i.listed))
    }

    fn scalar(&self) -> Option<&Instruction> {
        self.done().filter(|i| i.listed.is_scalar())
    }

    /// Of code that has its six bytes.
    fn length_bits(&self) -> usize {
        usize::from(self.before.code[3] >> 5 & 3)
    }

    /// The first six bytes of such a row that is refused with 5 after the list.
    fn reserved(&self, chosen: fn(&Listed) -> bool) -> Option<&[u8]> {
        let code = self.before.code.get(..6).filter(|_| self.number() == 5)?;
        let fixed_bits = code[1] & 8 == 0 && code[2] & 4 != 0;
        let row = find(code).filter(|row| fixed_bits && chosen(row));
        row.map(|_| code)
    }

    fn lanes_on(&self, instruction: &Instruction) -> Vec<usize> {
        lanes_on(&self.before.machine, instruction)
    }

    /// The address of a memory operand of which some word was read.
    fn address(&self) -> Option<&Address> {
        let instruction = self.done()?;
        match &instruction.second {
            Second::Memory { address, .. } if !self.lanes_on(instruction).is_empty() => {
                Some(address)
            }
            _ => None,
        }
    }

    /// The first address of a memory operand, read or not.
    fn first_address(&self) -> Option<u64> {
        let instruction = self.instruction?;
        match &instruction.second {
            Second::Memory { address, .. } => {
                let machine = &self.before.machine;
                Some(first_address(machine, address, instruction.length))
            }
            Second::Register(_) => None,
        }
    }

    /// The addresses of the words that lanes that are on need.
    fn words(&self) -> Option<Vec<u64>> {
        let first = self.first_address()?;
        let instruction = self.instruction?;
        let offset = |lane: &usize| match form(instruction) {
            1 => 2 * *lane as u64,
            _ => 0,
        };
        let lanes = self.lanes_on(instruction);
        let words = lanes.iter().map(|lane| first.wrapping_add(offset(lane)));
        Some(words.collect())
    }

    fn sum_wraps(&self) -> Option<bool> {
        let address = self.address()?;
        let machine = &self.before.machine;
        let base = match address.base {
            Base::General(number) => i128::from(machine.general[number]),
            Base::NextInstruction => i128::from(machine.pointer),
            Base::None => 0,
        };
        let index = address.index.map_or(0, |(number, scale)| {
            i128::from(machine.general[number]) * i128::from(scale)
        });
        let sum = base + index + i128::from(address.displacement);
        Some(sum >= 1 << 64)
    }

    /// The flags that the step added; those that stood there before are not seen.
    fn added_flags(&self) -> u8 {
        let [old, new] = [self.before, &self.outcome.after].map(|step| step.machine.control as u8);
        new & !old & 63
    }

    /// On answer 8: all flags that lanes that are on raise, set or not.
    fn raised(&self) -> Option<u8> {
        let instruction = self.instruction.filter(|_| self.number() == 8)?;
        raised(self.before, instruction)
    }

    /// On answer 8: which of them are unmasked.
    fn unmasked_raised(&self) -> Option<u8> {
        Some(self.raised()? & unmasked(&self.before.machine, self.instruction?))
    }
}

/// A comparison of steps that counts what they reach.
pub struct Watched {
    comparison: Comparison<Step>,
    coverage: Coverage,
}

impl Watched {
    pub fn of(answer: fn(&Step) -> StepOutcome, name: &str) -> Watched {
        Watched {
            comparison: Comparison::of(answer, name),
            coverage: Coverage::none(),
        }
    }

    /// Holds one step against the second program, and hands back what that left.
    pub fn step(&mut self, step: &Step) -> StepOutcome {
        let expected = self.comparison.case(step);
        self.coverage.see(step, &expected);
        expected
    }

    /// Fails where a step differed, where there were not as many as the caller meant, or where the
    /// answers were not these, each at least once.
    pub fn finish(self, meant: u64, answers: &[usize]) -> Coverage {
        self.comparison.finish(meant);
        self.coverage.require_answers(answers);
        self.coverage
    }
}

/// How often each kind of each feature was reached.
pub struct Coverage {
    counts: Vec<Vec<u64>>,
}

impl Coverage {
    pub fn none() -> Coverage {
        let counts = all_features().map(|(_, kinds, _)| vec![0; *kinds]);
        Coverage {
            counts: counts.collect(),
        }
    }

    pub fn see(&mut self, before: &Step, outcome: &StepOutcome) {
        let decoded = decode(&before.code).ok();
        let lent_well = before.machine.vectors.len() == VECTORS_SIZE;
        let seen = Seen {
            before,
            outcome,
            instruction: decoded.as_ref().filter(|_| lent_well),
        };
        for (counts, (_, _, kind)) in self.counts.iter_mut().zip(all_features()) {
            if let Some(reached) = kind(&seen) {
                counts[reached] += 1;
            }
        }
    }

    /// A line for each feature, with the count of each kind.
    pub fn lines(&self) -> Vec<String> {
        let rows = all_features().zip(&self.counts);
        rows.map(|((name, _, _), counts)| format!("{name}: {counts:?}"))
            .collect()
    }

    /// Fails where a kind was reached less often than that, or one out of reach was.
    pub fn require(&self, least: u64) {
        self.require_of(least, |_| true);
    }

    /// The same of some features, by their names.
    pub fn require_of(&self, least: u64, chosen: impl Fn(&str) -> bool) {
        let features = all_features().zip(&self.counts);
        for ((name, _, _), counts) in features.filter(|((name, _, _), _)| chosen(name)) {
            for (kind, &count) in counts.iter().enumerate() {
                if OUT_OF_REACH.contains(&(name, kind)) {
                    assert_eq!(count, 0, "{name}, {kind}: out of reach, yet reached");
                } else {
                    assert!(count >= least, "{name}, {kind}: reached {count} times");
                }
            }
        }
    }

    /// Fails unless the answers given were these and no others.
    pub fn require_answers(&self, numbers: &[usize]) {
        let given: Vec<usize> = (0..9).filter(|&n| self.counts[0][n] > 0).collect();
        assert_eq!(given, numbers, "the answers that were given");
    }
}
