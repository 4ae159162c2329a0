//! The bytes of one instruction taken apart (R3.1 to R3.15), with the refusals that depend on the
//! bytes alone (R4.5 to R4.11), in their order.

use crate::case::Operation;

/// A row of the table of R2.1. The prefix is numbered as in byte 2 (R3.3).
pub struct Listed {
    pub name: &'static str,
    pub prefix: u8,
    pub map: u8,
    pub w: u8,
    pub opcode: u8,
    pub operation: Operation,
    /// The operands in the order of the operation (R6.6).
    pub operands: &'static [Source],
    /// R5.10: what gives a scalar row its lanes 1 to 7; a packed row has none.
    pub upper: Option<Source>,
    /// R3.8: b in register form is suppression, and not embedded rounding.
    pub suppresses: bool,
    /// R3.6: the destination is a mask register.
    pub to_mask: bool,
    /// R3.1: a byte stands behind all else.
    pub immediate: bool,
}

#[derive(Clone, Copy, Debug, PartialEq, Eq)]
pub enum Source {
    Destination,
    First,
    /// The r/m operand.
    Second,
}

impl Listed {
    /// R3.7: with one element, whatever the length bits say.
    pub fn is_scalar(&self) -> bool {
        self.upper.is_some()
    }

    /// R2.2: whether what the destination held is an operand.
    pub fn accumulates(&self) -> bool {
        self.operands.contains(&Source::Destination)
    }

    /// R2.2: whether the five first-source bits name a register that is read: every row's but
    /// VSQRTPH's.
    pub fn takes_first(&self) -> bool {
        self.operands.contains(&Source::First) || self.upper == Some(Source::First)
    }
}

const fn plain(name: &'static str, opcode: u8, operation: Operation) -> Listed {
    let operands: &[Source] = match operation {
        Operation::SquareRoot => &[Source::Second],
        _ => &[Source::First, Source::Second],
    };
    Listed {
        name,
        prefix: 0,
        map: 5,
        w: 0,
        opcode,
        operation,
        operands,
        upper: None,
        suppresses: false,
        to_mask: false,
        immediate: false,
    }
}

const fn fused(name: &'static str, opcode: u8, operands: &'static [Source]) -> Listed {
    Listed {
        prefix: 1,
        map: 6,
        operands,
        ..plain(name, opcode, Operation::FusedMultiplyAdd)
    }
}

/// F3 in the place of no prefix; lanes 1 to 7 come from the first source.
const fn scalar(name: &'static str, opcode: u8, operation: Operation) -> Listed {
    Listed {
        prefix: 2,
        upper: Some(Source::First),
        ..plain(name, opcode, operation)
    }
}

/// The prefix of the packed one; lanes 1 to 7 stay the destination's.
const fn scalar_fused(name: &'static str, opcode: u8, operands: &'static [Source]) -> Listed {
    Listed {
        upper: Some(Source::Destination),
        ..fused(name, opcode, operands)
    }
}

/// What does not round has nothing to embed a mode for.
const fn suppressing(name: &'static str, opcode: u8, operation: Operation) -> Listed {
    Listed {
        suppresses: true,
        ..plain(name, opcode, operation)
    }
}

const fn comparison(name: &'static str, opcode: u8) -> Listed {
    Listed {
        map: 3,
        to_mask: true,
        immediate: true,
        ..suppressing(name, opcode, Operation::Compare)
    }
}

/// Multiplicand, multiplier, addend.
const ORDER_132: &[Source] = &[Source::Destination, Source::Second, Source::First];
const ORDER_213: &[Source] = &[Source::First, Source::Destination, Source::Second];
const ORDER_231: &[Source] = &[Source::First, Source::Second, Source::Destination];

/// The list has three groups: so many packed rows that round, so many scalar ones, and packed rows
/// that compare.
pub const PACKED: usize = 8;
pub const SCALAR: usize = 8;

pub const LIST: [Listed; 19] = [
    plain("vaddph", 0x58, Operation::Add),
    plain("vmulph", 0x59, Operation::Multiply),
    plain("vsubph", 0x5C, Operation::Subtract),
    plain("vdivph", 0x5E, Operation::Divide),
    plain("vsqrtph", 0x51, Operation::SquareRoot),
    fused("vfmadd132ph", 0x98, ORDER_132),
    fused("vfmadd213ph", 0xA8, ORDER_213),
    fused("vfmadd231ph", 0xB8, ORDER_231),
    scalar("vaddsh", 0x58, Operation::Add),
    scalar("vmulsh", 0x59, Operation::Multiply),
    scalar("vsubsh", 0x5C, Operation::Subtract),
    scalar("vdivsh", 0x5E, Operation::Divide),
    scalar("vsqrtsh", 0x51, Operation::SquareRoot),
    scalar_fused("vfmadd132sh", 0x99, ORDER_132),
    scalar_fused("vfmadd213sh", 0xA9, ORDER_213),
    scalar_fused("vfmadd231sh", 0xB9, ORDER_231),
    suppressing("vminph", 0x5D, Operation::Minimum),
    suppressing("vmaxph", 0x5F, Operation::Maximum),
    comparison("vcmpph", 0xC2),
];

pub fn scalar_rows() -> &'static [Listed] {
    &LIST[PACKED..PACKED + SCALAR]
}

pub fn comparing_rows() -> &'static [Listed] {
    &LIST[PACKED + SCALAR..]
}

pub struct Instruction {
    pub listed: &'static Listed,
    pub destination: Destination,
    pub first: usize,
    pub second: Second,
    /// R3.7: how many of the lanes have an element, from lane 0 on.
    pub elements: usize,
    /// The mode of embedded rounding; without it the control word has the mode.
    pub embedded_mode: Option<u32>,
    /// R7.5: embedded rounding or suppression, under which all exceptions count as masked and no
    /// flag is set.
    pub hides_exceptions: bool,
    /// The number of the writemask.
    pub mask: usize,
    pub zeroing: bool,
    /// R3.15: of a row that has one.
    pub immediate: Option<u8>,
    pub length: usize,
}

/// R3.6: which register is written.
#[derive(Clone, Copy, Debug, PartialEq, Eq)]
pub enum Destination {
    Vector(usize),
    Mask(usize),
}

impl Instruction {
    /// The vector register that is written, where it is one.
    pub fn written_vector(&self) -> Option<usize> {
        match self.destination {
            Destination::Vector(number) => Some(number),
            Destination::Mask(_) => None,
        }
    }

    /// The mask register that is written, where it is one.
    pub fn written_mask(&self) -> Option<usize> {
        match self.destination {
            Destination::Vector(_) => None,
            Destination::Mask(number) => Some(number),
        }
    }
}

/// The r/m operand.
#[derive(Clone, Copy)]
pub enum Second {
    Register(usize),
    Memory { address: Address, broadcast: bool },
}

/// What is added up to an address.
#[derive(Clone, Copy)]
pub struct Address {
    pub base: Base,
    /// The number of a general register, and what it is multiplied by.
    pub index: Option<(usize, u64)>,
    /// In bytes: multiplied by N already where it has one byte.
    pub displacement: i64,
    pub displacement_bytes: usize,
}

#[derive(Clone, Copy, PartialEq, Eq)]
pub enum Base {
    None,
    General(usize),
    NextInstruction,
}

/// One bit of a byte as it is stored.
fn bit(byte: u8, number: u32) -> u8 {
    byte >> number & 1
}

/// One bit of a byte that stores it inverted.
fn inverted(byte: u8, number: u32) -> usize {
    usize::from(1 - bit(byte, number))
}

/// The instruction, or the number of the first refusal that applies.
pub fn decode(code: &[u8]) -> Result<Instruction, u32> {
    // R4.5, R4.6, R4.7: no code, another byte 0, less than six bytes
    if code.is_empty() {
        return Err(3);
    }
    if code[0] != 0x62 {
        return Err(4);
    }
    if code.len() < 6 {
        return Err(3);
    }
    // R4.8: fixed bits
    if bit(code[1], 3) == 1 || bit(code[2], 2) == 0 {
        return Err(5);
    }
    // R4.9: no row
    let listed = find(code).ok_or(4_u32)?;
    // R4.10: reserved forms
    if is_reserved(listed, code) {
        return Err(5);
    }
    // R4.11: bytes that are not there, the immediate last
    let (second, end) = second_source(listed, code).ok_or(3_u32)?;
    let length = end + usize::from(listed.immediate);
    if code.len() < length {
        return Err(3);
    }
    Ok(fields(listed, code, second, length))
}

fn is_reserved(listed: &Listed, code: &[u8]) -> bool {
    has_reserved_length(code)
        || zeroes_without_mask(code)
        || has_needless_first(listed, code)
        || broadcasts_one_element(listed, code)
        || zeroes_a_mask(listed, code)
        || names_no_mask(listed, code)
}

fn fields(listed: &'static Listed, code: &[u8], second: Second, length: usize) -> Instruction {
    let number = destination(code);
    let embeds = has_register_b(code) && !listed.suppresses;
    Instruction {
        listed,
        destination: match listed.to_mask {
            true => Destination::Mask(number),
            false => Destination::Vector(number),
        },
        first: first_source(code),
        second,
        elements: elements(listed, code),
        embedded_mode: embeds.then(|| u32::from(length_bits(code))),
        hides_exceptions: has_register_b(code),
        mask: mask(code),
        zeroing: zeroes(code),
        immediate: listed.immediate.then(|| code[length - 1]),
        length,
    }
}

/// R4.9: the row with the prefix, map, W and opcode of the bytes, of which there are to be six.
pub fn find(code: &[u8]) -> Option<&'static Listed> {
    let (map, prefix, w, opcode) = (code[1] & 7, code[2] & 3, bit(code[2], 7), code[4]);
    LIST.iter()
        .find(|row| row.prefix == prefix && row.map == map && row.w == w && row.opcode == opcode)
}

fn length_bits(code: &[u8]) -> u8 {
    code[3] >> 5 & 3
}

/// R3.5: mod 3.
fn is_register_form(code: &[u8]) -> bool {
    code[5] >> 6 == 3
}

/// R3.8: b in register form, embedded rounding or suppression.
fn has_register_b(code: &[u8]) -> bool {
    is_register_form(code) && bit(code[3], 4) == 1
}

fn has_reserved_length(code: &[u8]) -> bool {
    length_bits(code) == 3 && !has_register_b(code)
}

fn mask(code: &[u8]) -> usize {
    usize::from(code[3] & 7)
}

fn zeroes(code: &[u8]) -> bool {
    bit(code[3], 7) == 1
}

fn zeroes_without_mask(code: &[u8]) -> bool {
    zeroes(code) && mask(code) == 0
}

/// R4.10: VSQRTPH has no first source, so its five bits must stand for number 0.
fn has_needless_first(listed: &Listed, code: &[u8]) -> bool {
    !listed.takes_first() && first_source(code) != 0
}

/// R4.10: b in memory form, of a scalar row.
fn broadcasts_one_element(listed: &Listed, code: &[u8]) -> bool {
    listed.is_scalar() && !is_register_form(code) && bit(code[3], 4) == 1
}

/// R4.10: z of a row that writes a mask, whatever aaa is.
fn zeroes_a_mask(listed: &Listed, code: &[u8]) -> bool {
    listed.to_mask && zeroes(code)
}

/// R4.10: a destination above k7.
fn names_no_mask(listed: &Listed, code: &[u8]) -> bool {
    listed.to_mask && destination(code) > 7
}

/// R3.7, R3.8: one of a scalar row, and else by the length bits, but 32 with b in register form.
fn elements(listed: &Listed, code: &[u8]) -> usize {
    match length_bits(code) {
        _ if listed.is_scalar() => 1,
        _ if has_register_b(code) => 32,
        0 => 8,
        1 => 16,
        _ => 32,
    }
}

/// R3.6: R' is byte 1 bit 4, R byte 1 bit 7, then reg.
fn destination(code: &[u8]) -> usize {
    16 * inverted(code[1], 4) + 8 * inverted(code[1], 7) + usize::from(code[5] >> 3 & 7)
}

/// R3.6: V' is byte 3 bit 3, vvvv byte 2 bits 6 to 3, all inverted.
fn first_source(code: &[u8]) -> usize {
    16 * inverted(code[3], 3) + usize::from(!code[2] >> 3 & 15)
}

/// X, byte 1 bit 6, and B, byte 1 bit 5.
fn x(code: &[u8]) -> usize {
    inverted(code[1], 6)
}

fn b(code: &[u8]) -> usize {
    inverted(code[1], 5)
}

/// The r/m operand, and how many bytes there are up to its end; none where bytes are missing.
fn second_source(listed: &Listed, code: &[u8]) -> Option<(Second, usize)> {
    let (mode, rm) = (code[5] >> 6, code[5] & 7);
    // R3.6: a register
    if mode == 3 {
        let register = 16 * x(code) + 8 * b(code) + usize::from(rm);
        return Some((Second::Register(register), 6));
    }
    // R3.9: rm 4
    let takes_sib = rm == 4;
    let (base, index) = if takes_sib {
        from_sib(code, *code.get(6)?)
    } else {
        (from_rm(code), None)
    };
    let at = if takes_sib { 7 } else { 6 };
    let (displacement, displacement_bytes) = displacement(listed, code, at, base)?;
    let address = Address {
        base,
        index,
        displacement,
        displacement_bytes,
    };
    let broadcast = bit(code[3], 4) == 1;
    let second = Second::Memory { address, broadcast };
    Some((second, at + displacement_bytes))
}

/// The base without a SIB byte; X has no say (R3.10).
fn from_rm(code: &[u8]) -> Base {
    let (mode, rm) = (code[5] >> 6, code[5] & 7);
    // R3.11: 5 with mod 0 is the case apart.
    if rm == 5 && mode == 0 {
        Base::NextInstruction
    } else {
        Base::General(8 * b(code) + usize::from(rm))
    }
}

/// Base and index by a SIB byte.
fn from_sib(code: &[u8], sib: u8) -> (Base, Option<(usize, u64)>) {
    let (mode, scale, index, base) = (code[5] >> 6, sib >> 6, sib >> 3 & 7, sib & 7);
    // R3.10: number 4 is none.
    let number = 8 * x(code) + usize::from(index);
    let index = (number != 4).then(|| (number, 1 << scale));
    // R3.11: here the case apart has no base.
    let base = if base == 5 && mode == 0 {
        Base::None
    } else {
        Base::General(8 * b(code) + usize::from(base))
    };
    (base, index)
}

/// The displacement that begins at a byte, and how many bytes it has; none where one is missing.
/// R3.12: mod 0 has four bytes where no register is the base.
fn displacement(listed: &Listed, code: &[u8], at: usize, base: Base) -> Option<(i64, usize)> {
    let mode = code[5] >> 6;
    let is_long = mode == 2 || mode == 0 && !matches!(base, Base::General(_));
    if is_long {
        let bytes: [u8; 4] = code.get(at..at + 4)?.try_into().ok()?;
        return Some((i64::from(i32::from_le_bytes(bytes)), 4));
    }
    if mode == 0 {
        return Some((0, 0));
    }
    // R3.13: N, which is 2 of a scalar row
    let n = if bit(code[3], 4) == 1 {
        2
    } else {
        2 * elements(listed, code) as i64
    };
    let byte = *code.get(at)? as i8;
    Some((i64::from(byte) * n, 1))
}
