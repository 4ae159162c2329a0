//! Features of scalar rows: one element, in lane 0 (R3.7), lanes 1 to 7 that are copied (R5.10).

use super::{form, one_or_both, single_bit, yes, Feature, Seen};
use crate::case::Operation;
use crate::second::encoding::{Listed, Second, Source};

/// What is counted of scalar rows alone.
pub const FEATURES: &[Feature] = &[
    (
        "scalar: no mask; lane 0 on, off, with z on, off",
        5,
        |s| {
            let instruction = s.scalar()?;
            let off = usize::from(s.lanes_on(instruction).is_empty());
            yes(instruction.mask == 0).or(Some(1 + off + 2 * usize::from(instruction.zeroing)))
        },
    ),
    (
        "scalar: mask without bit 0 but with others, with it alone",
        2,
        |s| {
            let mask = s.scalar().filter(|i| i.mask != 0)?.mask;
            match s.before.machine.masks[mask] {
                1 => Some(1),
                bits => yes(bits & 1 == 0 && bits as u32 & 0xFE != 0),
            }
        },
    ),
    (
        "scalar, lane 0 on, off: lanes 1 to 7 of another first source, of the destination as such; \
         a fused one's own, with another first source, with itself as such",
        8,
        upper_lanes,
    ),
    (
        "scalar: length bits 0, 1, 2 of registers, of memory",
        6,
        |s| {
            let instruction = s.scalar().filter(|i| i.embedded_mode.is_none())?;
            Some(s.length_bits() + 3 * form(instruction))
        },
    ),
    ("scalar: mode of embedded rounding", 4, |s| {
        s.scalar()?.embedded_mode.map(|mode| mode as usize)
    }),
    ("scalar: mode of the control word", 4, |s| {
        let control = s.before.machine.control;
        yes(s.scalar()?.embedded_mode.is_none()).map(|_| (control >> 13 & 3) as usize)
    }),
    ("scalar: first source of the root", 32, |s| {
        let instruction = s.scalar()?;
        let is_root = instruction.listed.operation == Operation::SquareRoot;
        yes(is_root).map(|_| instruction.first)
    }),
    (
        "scalar: second is the destination, the first source, both",
        3,
        |s| {
            let instruction = s.scalar()?;
            let Second::Register(second) = instruction.second else {
                return None;
            };
            let (destination, first) = (instruction.written_vector()?, instruction.first);
            one_or_both(second == destination, second == first)
        },
    ),
    (
        "scalar: signalling NaNs above lane 0 of the first source, of the second, not seen",
        2,
        |s| {
            yes(s.scalar()?.embedded_mode.is_none() && s.added_flags() == 0)?;
            single_bit(signalling_above(s)?)
        },
    ),
    (
        "scalar: 8-bit displacement times 2, length bits 0, 1, 2",
        3,
        |s| {
            s.scalar()?;
            let address = s.address()?;
            let has = address.displacement_bytes == 1 && address.displacement != 0;
            yes(has).map(|_| s.length_bits())
        },
    ),
    (
        "scalar: memory of 2 bytes done, of 1 byte refused, of 0",
        3,
        |s| {
            yes(!s.words()?.is_empty() && s.instruction?.listed.is_scalar())?;
            match (s.before.memory.len(), s.number()) {
                (2, 0) => Some(0),
                (1, 7) => Some(1),
                (0, 7) => Some(2),
                _ => None,
            }
        },
    ),
    (
        "scalar: word at the end of memory, a byte beyond, beyond but off",
        3,
        |s| {
            yes(s.instruction?.listed.is_scalar())?;
            let (first, end) = (s.first_address()?, s.before.memory.len() as u64);
            let off = s.words()?.is_empty();
            match (s.number(), off) {
                (0, false) => yes(first + 2 == end),
                (7, false) => yes(first.checked_add(1) == Some(end)).map(|_| 1),
                (0, true) => yes(first >= end.saturating_sub(1)).map(|_| 2),
                _ => None,
            }
        },
    ),
    ("scalar: unmasked exception alone", 6, |s| {
        yes(s.instruction?.listed.is_scalar())?;
        single_bit(s.unmasked_raised()?)
    }),
    ("scalar: length bits 11: register, memory", 2, |s| {
        let code = s.reserved(Listed::is_scalar)?;
        yes(code[3] & 0x70 == 0x60).map(|_| usize::from(code[5] >> 6 != 3))
    }),
    ("scalar: zeroing without a mask", 1, |s| {
        yes(s.reserved(Listed::is_scalar)?[3] & 0x87 == 0x80)
    }),
    ("scalar: b in memory form, length bits 0 to 3", 4, |s| {
        let code = s.reserved(Listed::is_scalar)?;
        yes(code[5] >> 6 != 3 && code[3] & 0x10 != 0).map(|_| s.length_bits())
    }),
    ("scalar: b in memory form with bytes missing", 1, |s| {
        let code = s.reserved(Listed::is_scalar)?;
        let takes_more = code[5] & 7 == 4 || code[5] >> 6 != 0;
        let with_b = code[5] >> 6 != 3 && code[3] & 0x10 != 0;
        yes(with_b && takes_more && s.before.code.len() == 6)
    }),
];

/// Where lanes 1 to 7 of a scalar row come from, twice as many with lane 0 off. Of registers that
/// are not the same one, these lanes are to differ, or the wrong one would not show.
fn upper_lanes(s: &Seen) -> Option<usize> {
    let instruction = s.scalar()?;
    let (first, destination) = (instruction.first, instruction.written_vector()?);
    let machine = &s.before.machine;
    let differ = (1..8).any(|lane| machine.lane(first, lane) != machine.lane(destination, lane));
    let kind = match (instruction.listed.upper?, first == destination) {
        (_, false) if !differ => return None,
        (Source::First, same) => usize::from(same),
        (_, same) => 2 + usize::from(same),
    };
    Some(2 * kind + usize::from(s.lanes_on(instruction).is_empty()))
}

/// Whether the first source has a signalling NaN above lane 0 (bit 0), and the second where it is a
/// register (bit 1).
fn signalling_above(s: &Seen) -> Option<u8> {
    let instruction = s.scalar()?;
    let is_signalling = |half: u16| half & 0x7E00 == 0x7C00 && half & 0x01FF != 0;
    let machine = &s.before.machine;
    let has = |register| (1..32).any(|lane| is_signalling(machine.lane(register, lane)));
    let second = matches!(instruction.second, Second::Register(second) if has(second));
    Some(u8::from(has(instruction.first)) | u8::from(second) << 1)
}
