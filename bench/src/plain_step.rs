//! A whole step with the same checks and answers as the library's, unproved and written for speed:
//! lanes that are on are a 32-bit number, and a vector that lies whole in memory is copied at once.
//! The operations are inlined: called, they took up to a sixth longer. Scalar forms, and those that
//! compare, part from the packed ones before anything is decoded: after it, each packed step took
//! some nanoseconds longer.

mod compare;
mod fields;
mod scalar;

use crate::plain;
use fields::{Fields, Head};
use ridgecrook_tests::case::{Outcome, DE, IE, ZE};
use ridgecrook_tests::machine::{Answer, Machine, REGISTER_SIZE, VECTORS_SIZE};

const LANES: usize = 32;
const EARLY: u8 = IE | DE | ZE;
type Register = [u16; LANES];

pub fn step(machine: &mut Machine, code: &[u8], memory: &[u8]) -> Answer {
    let done = match group(code) {
        Group::Packed => carry_out(machine, code, memory),
        Group::Scalar => scalar::carry_out(machine, code, memory),
        Group::Comparing => compare::carry_out(machine, code, memory),
    };
    match done {
        Ok(length) => Answer { number: 0, length },
        Err(number) => Answer { number, length: 0 },
    }
}

/// Where an instruction writes.
pub enum Destination {
    Vector(usize),
    Mask(usize),
}

/// Of code that a step has decoded, which its answers 0, 7 and 8 say: two bytes are enough then, as
/// VCMPPH alone writes a mask, and alone stands in map 3.
#[inline]
pub fn destination(code: &[u8]) -> Destination {
    let [_, byte_1, _, _, _, modrm] = *code.first_chunk().expect("a decoded instruction");
    let number = fields::destination(byte_1, modrm);
    match byte_1 & 7 {
        3 => Destination::Mask(number % 8),
        _ => Destination::Vector(number),
    }
}

/// Rows that have a way of their own.
enum Group {
    Packed,
    Scalar,
    Comparing,
}

/// A scalar row has the prefix F3, or an odd opcode after the prefix 66; a row that compares has no
/// prefix and one of three opcodes. What looks like none of them goes with the packed rows.
#[inline]
fn group(code: &[u8]) -> Group {
    let Some([_, _, byte_2, _, opcode]) = code.first_chunk() else {
        return Group::Packed;
    };
    match byte_2 & 3 {
        0 if opcode & 0xFD == 0x5D || *opcode == 0xC2 => Group::Comparing,
        1 if opcode & 1 == 1 => Group::Scalar,
        2 => Group::Scalar,
        _ => Group::Packed,
    }
}

#[inline]
fn carry_out(machine: &mut Machine, code: &[u8], memory: &[u8]) -> Result<u32, u32> {
    check(machine)?;
    let (kind, fields) = decode::<false>(code)?;
    let on = fields.on(machine);
    let second = second_source(machine, &fields, on, code, memory)?;
    let (results, flags) = compute(machine, kind, &fields, on, &second);
    record(machine, &fields, flags)?;
    write_destination(machine, &fields, on, &results);
    Ok(advance(machine, &fields))
}

#[inline]
fn check(machine: &Machine) -> Result<(), u32> {
    if machine.vectors.len() != VECTORS_SIZE {
        return Err(1);
    }
    if machine.control >> 16 != 0 {
        return Err(2);
    }
    Ok(())
}

#[inline]
fn advance(machine: &mut Machine, fields: &Fields) -> u32 {
    machine.pointer = machine.pointer.wrapping_add(fields.length as u64);
    fields.length as u32
}

/// Adds an instruction's flags to the control word.
#[inline]
fn record(machine: &mut Machine, fields: &Fields, flags: u8) -> Result<(), u32> {
    if fields.hides_exceptions {
        return Ok(());
    }
    let unmasked = !(machine.control >> 7) as u8;
    let stops_early = flags & EARLY & unmasked != 0;
    machine.control |= u32::from(if stops_early { flags & EARLY } else { flags });
    if flags & unmasked != 0 {
        return Err(8);
    }
    Ok(())
}

#[derive(Clone, Copy, PartialEq)]
enum Kind {
    Add,
    Subtract,
    Multiply,
    Divide,
    Root,
    Fused132,
    Fused213,
    Fused231,
}

#[inline]
fn decode<const SCALAR: bool>(code: &[u8]) -> Result<(Kind, Fields), u32> {
    let head = Head::of(code)?;
    let kind = listed::<SCALAR>(head).ok_or(4_u32)?;
    let needless_first = kind == Kind::Root && !SCALAR && head.first() != 0;
    let scalar_broadcast = SCALAR && head.bytes[3] & 0x10 != 0 && head.bytes[5] < 0xC0;
    if needless_first || scalar_broadcast || head.is_reserved() {
        return Err(5);
    }
    let lanes = if SCALAR { 1 } else { head.lanes() };
    Ok((kind, Fields::of(head, code, lanes, 0)?))
}

/// A scalar row has F3 in the place of no prefix, or 1 in the place of the opcode's lowest bit.
#[inline]
fn listed<const SCALAR: bool>(head: Head) -> Option<Kind> {
    let (none, odd) = if SCALAR { (2, 1) } else { (0, 0) };
    // W and the prefix.
    let prefix = head.bytes[2] & 0x83;
    match (head.bytes[1] & 7, head.bytes[4]) {
        (5, 0x58) if prefix == none => Some(Kind::Add),
        (5, 0x5C) if prefix == none => Some(Kind::Subtract),
        (5, 0x59) if prefix == none => Some(Kind::Multiply),
        (5, 0x5E) if prefix == none => Some(Kind::Divide),
        (5, 0x51) if prefix == none => Some(Kind::Root),
        (6, opcode) if prefix == 1 => fused(opcode ^ odd),
        _ => None,
    }
}

/// By the packed row's opcode.
#[inline]
fn fused(opcode: u8) -> Option<Kind> {
    match opcode {
        0x98 => Some(Kind::Fused132),
        0xA8 => Some(Kind::Fused213),
        0xB8 => Some(Kind::Fused231),
        _ => None,
    }
}

#[inline]
fn register(machine: &Machine, number: usize) -> Register {
    let bytes = &machine.vectors[REGISTER_SIZE * number..][..REGISTER_SIZE];
    let mut halves = [0; LANES];
    for (half, pair) in halves.iter_mut().zip(bytes.chunks_exact(2)) {
        *half = u16::from_le_bytes([pair[0], pair[1]]);
    }
    halves
}

#[inline]
fn second_source(
    machine: &Machine,
    fields: &Fields,
    on: u32,
    code: &[u8],
    memory: &[u8],
) -> Result<Register, u32> {
    if fields.modrm < 0xC0 {
        return read_memory(memory, address(machine, fields, code), fields, on);
    }
    Ok(register(machine, fields.second()))
}

#[inline]
fn address(machine: &Machine, fields: &Fields, code: &[u8]) -> u64 {
    let (mode, rm) = (fields.modrm >> 6, fields.modrm & 7);
    let (at, bytes) = fields.displacement;
    let mut sum = match bytes {
        0 => 0,
        1 if fields.byte_3 & 0x10 != 0 => (i64::from(code[at] as i8) * 2) as u64,
        1 => (i64::from(code[at] as i8) * 2 * fields.lanes as i64) as u64,
        _ => {
            let bytes = [code[at], code[at + 1], code[at + 2], code[at + 3]];
            i64::from(i32::from_le_bytes(bytes)) as u64
        }
    };
    let (x, b) = (!fields.byte_1 >> 3 & 8, !fields.byte_1 >> 2 & 8);
    let base = if rm == 4 { code[6] & 7 } else { rm };
    if rm == 4 {
        let index = code[6] >> 3 & 7 | x;
        if index != 4 {
            sum = sum.wrapping_add(machine.general[usize::from(index)] << (code[6] >> 6));
        }
    }
    if mode == 0 && base == 5 {
        let next = machine.pointer.wrapping_add(fields.length as u64);
        return sum.wrapping_add(if rm == 4 { 0 } else { next });
    }
    sum.wrapping_add(machine.general[usize::from(base | b)])
}

#[inline]
fn word(memory: &[u8], address: u64) -> Result<u16, u32> {
    let at = usize::try_from(address).map_err(|_| 7_u32)?;
    let pair = memory.get(at..).and_then(|rest| rest.first_chunk::<2>());
    pair.map(|pair| u16::from_le_bytes(*pair)).ok_or(7)
}

#[inline]
fn read_memory(memory: &[u8], address: u64, fields: &Fields, on: u32) -> Result<Register, u32> {
    let mut halves = [0; LANES];
    if on == 0 {
        return Ok(halves);
    }
    if fields.byte_3 & 0x10 != 0 {
        return Ok([word(memory, address)?; LANES]);
    }
    let whole = usize::try_from(address)
        .ok()
        .and_then(|at| memory.get(at..));
    if let Some(bytes) = whole.and_then(|rest| rest.get(..2 * fields.lanes)) {
        for (half, pair) in halves.iter_mut().zip(bytes.chunks_exact(2)) {
            *half = u16::from_le_bytes([pair[0], pair[1]]);
        }
        return Ok(halves);
    }
    for (lane, half) in halves.iter_mut().enumerate() {
        if on >> lane & 1 == 1 {
            *half = word(memory, address.wrapping_add(2 * lane as u64))?;
        }
    }
    Ok(halves)
}

#[inline]
fn compute(
    machine: &Machine,
    kind: Kind,
    fields: &Fields,
    on: u32,
    second: &Register,
) -> (Register, u8) {
    let (m, u) = fields.rounding(machine);
    let (s, d) = (second, register(machine, fields.destination()));
    let f = register(machine, fields.first);
    match kind {
        Kind::Add => each(on, |j| plain::add(f[j], s[j], m, u)),
        Kind::Subtract => each(on, |j| plain::subtract(f[j], s[j], m, u)),
        Kind::Multiply => each(on, |j| plain::multiply(f[j], s[j], m, u)),
        Kind::Divide => each(on, |j| plain::divide(f[j], s[j], m, u)),
        Kind::Root => each(on, |j| plain::square_root(s[j], m, u)),
        Kind::Fused132 => each(on, |j| plain::fused_multiply_add(d[j], s[j], f[j], m, u)),
        Kind::Fused213 => each(on, |j| plain::fused_multiply_add(f[j], d[j], s[j], m, u)),
        Kind::Fused231 => each(on, |j| plain::fused_multiply_add(f[j], s[j], d[j], m, u)),
    }
}

/// The half of each lane that is on, and all flags.
#[inline]
fn each(on: u32, lane: impl Fn(usize) -> Outcome) -> (Register, u8) {
    let (mut results, mut flags, mut left) = ([0; LANES], 0, on);
    while left != 0 {
        let j = left.trailing_zeros() as usize % LANES;
        let outcome = lane(j);
        results[j] = outcome.half;
        flags |= outcome.flags;
        left &= left - 1;
    }
    (results, flags)
}

#[inline]
fn write_destination(machine: &mut Machine, fields: &Fields, on: u32, results: &Register) {
    let bytes = &mut machine.vectors[REGISTER_SIZE * fields.destination()..][..REGISTER_SIZE];
    // Lanes that keep the old half: off, below the length, and no zeroing.
    let kept = if fields.byte_3 & 0x80 != 0 {
        0
    } else {
        !on & (u32::MAX >> (LANES - fields.lanes))
    };
    for (j, pair) in bytes.chunks_exact_mut(2).enumerate() {
        if kept >> j & 1 == 0 {
            pair.copy_from_slice(&results[j].to_le_bytes());
        }
    }
}
