//! Features of the rows that compare: suppression (R3.8), the immediate (R3.15), the mask that is
//! written (R5.11), NaNs, subnormals and zeros (R6.26, R6.27), predicates (R6.28).

use super::{form, single_bit, yes, Feature, Seen};
use crate::case::{Case, DE, IE};
use crate::second::comparison::order;
use crate::second::encoding::{comparing_rows, decode, find, Base, Instruction, Listed, Second};
use crate::second::step::{lane_cases, raised};

/// What is counted of these rows alone; `row` counts them from 0: VMINPH, VMAXPH, VCMPPH.
pub const FEATURES: &[Feature] = &[
    ("compare: row, length bits 0, 1, 2", 9, |s| {
        let instruction = s.comparing().filter(|i| !i.hides_exceptions)?;
        Some(3 * row(instruction.listed) + s.length_bits())
    }),
    (
        "compare: row, suppression with length bits 0 to 3",
        12,
        |s| {
            let instruction = s.comparing().filter(|i| i.hides_exceptions)?;
            Some(4 * row(instruction.listed) + s.length_bits())
        },
    ),
    (
        "compare: row, suppression of an unmasked IE, DE, both",
        9,
        |s| {
            let instruction = s.comparing().filter(|i| i.hides_exceptions)?;
            let unmasked = !(s.before.machine.control >> 7) as u8;
            let stopped = raised(s.before, instruction)? & unmasked;
            yes(stopped != 0).map(|_| 3 * row(instruction.listed) + usize::from(stopped) - 1)
        },
    ),
    ("compare: row, register, memory, broadcast", 9, |s| {
        Some(3 * s.comparing_row()? + form(s.comparing()?))
    }),
    ("compare: row, flags: none, IE, DE", 9, |s| {
        let instruction = s.comparing().filter(|i| !i.hides_exceptions)?;
        let raised = raised(s.before, instruction)?;
        let kind = [0, IE, DE].iter().position(|&flags| flags == raised)?;
        Some(3 * row(instruction.listed) + kind)
    }),
    ("compare: row, stopped by IE, DE, both", 9, |s| {
        let listed = s.instruction.filter(|i| compares(i.listed))?.listed;
        let stopped = usize::from(s.unmasked_raised()?);
        Some(3 * row(listed) + stopped - 1)
    }),
    (
        "compare: row, the one NaN: first quiet, signalling, second quiet, signalling",
        12,
        |s| {
            let found = s.compared()?.iter().map(nans).fold(0, |all, one| all | one);
            Some(4 * s.comparing_row()? + single_bit(found)?)
        },
    ),
    (
        "compare: row, a subnormal beside a NaN in the one lane that is on",
        3,
        |s| {
            let is_subnormal = |half: u16| (1..0x0400).contains(&(half & 0x7FFF));
            let cases = s.compared()?;
            let [case] = &cases[..] else { return None };
            let beside = case.used_operands().iter().any(|&half| is_subnormal(half));
            yes(nans(case) != 0 && beside).and_then(|_| s.comparing_row())
        },
    ),
    ("compare: row, zeros: +0 and -0, -0 and +0", 6, |s| {
        let cases = s.compared()?;
        let zeros = |case: &Case| match case.operands {
            [0x0000, 0x8000, _] => Some(0),
            [0x8000, 0x0000, _] => Some(1),
            _ => None,
        };
        let kind = cases.iter().find_map(zeros)?;
        Some(2 * s.comparing_row()? + kind)
    }),
    ("compare: row, address relative to the next", 3, |s| {
        let relative = s.address()?.base == Base::NextInstruction;
        yes(relative).and_then(|_| s.comparing_row())
    }),
    (
        "compare: predicate, and less, equal, greater, unordered in the lowest lane",
        128,
        |s| {
            let predicate = usize::from(s.writes_mask()?.immediate? & 31);
            let case = *s.compared()?.first()?;
            let order = order(case.operands[0], case.operands[1]);
            Some(4 * predicate + order.map_or(3, |order| (order as i8 + 1) as usize))
        },
    ),
    ("compare: bits 5 to 7 of the immediate", 8, |s| {
        Some(usize::from(s.writes_mask()?.immediate? >> 5))
    }),
    ("compare: mask destination", 8, |s| {
        s.writes_mask()?.written_mask()
    }),
    (
        "compare: mask destination that is the writemask, and changes",
        7,
        |s| {
            let instruction = s.writes_mask().filter(|i| i.mask != 0)?;
            let mask = instruction.mask;
            let changes = s.before.machine.masks[mask] != s.outcome.after.machine.masks[mask];
            yes(changes && instruction.written_mask() == Some(mask)).map(|_| mask - 1)
        },
    ),
    ("compare: old mask bit of a lane that is off", 1, |s| {
        let (instruction, old) = s.old_mask()?;
        let off = (0..instruction.elements).find(|lane| !s.lanes_on(instruction).contains(lane))?;
        yes(old >> off & 1 == 1)
    }),
    ("compare: old mask bits above the length", 2, |s| {
        let (instruction, old) = s.old_mask()?;
        let above = old as u32 as u64 >> instruction.elements;
        yes(above != 0).map(|_| usize::from(instruction.elements == 16))
    }),
    ("compare: old mask bits above 31", 1, |s| {
        yes(s.old_mask()?.1 >> 32 != 0)
    }),
    (
        "compare: z with a mask destination, aaa 0, another",
        2,
        |s| {
            let code = s.reserved(|row| row.to_mask)?;
            yes(code[3] >> 7 == 1 && !names_no_mask(code)).map(|_| usize::from(code[3] & 7 != 0))
        },
    ),
    (
        "compare: mask destination above 7 by R, by R', by both",
        3,
        |s| {
            let code = s.reserved(|row| row.to_mask)?;
            yes(code[3] >> 7 == 0 && names_no_mask(code))?;
            Some(match (code[1] >> 7, code[1] >> 4 & 1) {
                (0, 1) => 0,
                (1, 0) => 1,
                _ => 2,
            })
        },
    ),
    (
        "compare: z, mask destination above 7, without the bytes behind ModRM",
        2,
        |s| {
            let code = s.reserved(|row| row.to_mask)?;
            let cut = s.before.code.len() == 6 && code[3] & 0x60 != 0x60;
            match (code[3] >> 7 == 1, names_no_mask(code)) {
                (true, false) => yes(cut),
                (false, true) => yes(cut).map(|_| 1),
                _ => None,
            }
        },
    ),
    (
        "compare: all but the immediate: register, displacement of 0, 1, 4 bytes",
        4,
        all_but_the_immediate,
    ),
    (
        "compare: row, length bits 3: register, memory, broadcast",
        9,
        |s| {
            let code = s.reserved(compares)?;
            let listed = find(code)?;
            // Nothing else that is reserved, and no suppression, under which 3 is taken.
            yes(code[3] & 0xE0 == 0x60 && !(listed.to_mask && names_no_mask(code)))?;
            let form = match (code[5] >> 6, code[3] >> 4 & 1) {
                (3, 0) => 0,
                (3, _) => return None,
                (_, broadcast) => 1 + usize::from(broadcast),
            };
            Some(3 * row(listed) + form)
        },
    ),
];

fn compares(listed: &Listed) -> bool {
    !listed.operation.rounds()
}

fn row(listed: &Listed) -> usize {
    let rows = comparing_rows().iter();
    let mut names = rows.map(|row| row.name);
    names
        .position(|name| name == listed.name)
        .expect("a row that compares")
}

fn names_no_mask(code: &[u8]) -> bool {
    code[1] & 0x90 != 0x90
}

/// Which NaNs a pair has: first quiet (bit 0), signalling, second quiet, signalling.
fn nans(case: &Case) -> u8 {
    let kind = |half: u16| match half & 0x7E00 {
        _ if half & 0x7FFF <= 0x7C00 => 0,
        0x7E00 => 1,
        _ => 2,
    };
    kind(case.operands[0]) | kind(case.operands[1]) << 2
}

/// Code that one more byte makes an instruction with an immediate.
fn all_but_the_immediate(s: &Seen) -> Option<usize> {
    yes(s.number() == 3 && s.before.code.len() >= 6)?;
    let whole = [&s.before.code[..], &[0]].concat();
    let instruction = decode(&whole).ok().filter(|i| i.length == whole.len())?;
    instruction.immediate?;
    match instruction.second {
        Second::Register(_) => Some(0),
        Second::Memory { address, .. } => {
            let bytes = address.displacement_bytes;
            Some(1 + [0, 1, 4].iter().position(|&n| n == bytes)?)
        }
    }
}

impl Seen<'_> {
    fn comparing(&self) -> Option<&Instruction> {
        self.done().filter(|i| compares(i.listed))
    }

    fn comparing_row(&self) -> Option<usize> {
        Some(row(self.comparing()?.listed))
    }

    fn writes_mask(&self) -> Option<&Instruction> {
        self.done().filter(|i| i.listed.to_mask)
    }

    /// What lanes that are on compare.
    fn compared(&self) -> Option<Vec<Case>> {
        lane_cases(self.before, self.comparing()?)
    }

    /// What the mask held that is written.
    fn old_mask(&self) -> Option<(&Instruction, u64)> {
        let instruction = self.writes_mask()?;
        let number = instruction.written_mask()?;
        Some((instruction, self.before.machine.masks[number]))
    }
}
