//! Scalar forms: one half of each operand is read, and lanes 0 to 7 are written as one number.

use super::{address, advance, check, decode, record, word, Fields, Kind};
use crate::plain;
use ridgecrook_tests::case::Outcome;
use ridgecrook_tests::machine::{Machine, REGISTER_SIZE};

/// The bytes of lanes 0 to 7; those behind them become 0.
const LOW: usize = 16;

/// Not inlined, so that it takes nothing from the packed forms.
#[inline(never)]
pub fn carry_out(machine: &mut Machine, code: &[u8], memory: &[u8]) -> Result<u32, u32> {
    check(machine)?;
    let (kind, fields) = &decode::<true>(code)?;
    let on = fields.on(machine) == 1;
    let destination = fields.destination();
    let half = if on {
        let second = second_half(machine, fields, code, memory)?;
        let outcome = compute(machine, *kind, fields, second);
        record(machine, fields, outcome.flags)?;
        outcome.half
    } else if fields.byte_3 & 0x80 != 0 {
        0
    } else {
        lane_0(machine, destination)
    };
    let others = low_lanes(machine, others_from(*kind, fields)) & !0xFFFF;
    let register = &mut machine.vectors[REGISTER_SIZE * destination..][..REGISTER_SIZE];
    register[..LOW].copy_from_slice(&(others | u128::from(half)).to_le_bytes());
    register[LOW..].fill(0);
    Ok(advance(machine, fields))
}

/// The register whose lanes 1 to 7 the destination gets.
#[inline]
fn others_from(kind: Kind, fields: &Fields) -> usize {
    match kind {
        Kind::Fused132 | Kind::Fused213 | Kind::Fused231 => fields.destination(),
        _ => fields.first,
    }
}

/// Lane 0 is the lowest of the number.
#[inline]
fn low_lanes(machine: &Machine, register: usize) -> u128 {
    let bytes = &machine.vectors[REGISTER_SIZE * register..][..LOW];
    u128::from_le_bytes(bytes.try_into().expect("16 bytes"))
}

#[inline]
fn lane_0(machine: &Machine, register: usize) -> u16 {
    let bytes = &machine.vectors[REGISTER_SIZE * register..][..2];
    u16::from_le_bytes([bytes[0], bytes[1]])
}

#[inline]
fn second_half(machine: &Machine, fields: &Fields, code: &[u8], memory: &[u8]) -> Result<u16, u32> {
    if fields.modrm < 0xC0 {
        return word(memory, address(machine, fields, code));
    }
    Ok(lane_0(machine, fields.second()))
}

#[inline]
fn compute(machine: &Machine, kind: Kind, fields: &Fields, s: u16) -> Outcome {
    let (m, u) = fields.rounding(machine);
    let d = lane_0(machine, fields.destination());
    let f = lane_0(machine, fields.first);
    match kind {
        Kind::Add => plain::add(f, s, m, u),
        Kind::Subtract => plain::subtract(f, s, m, u),
        Kind::Multiply => plain::multiply(f, s, m, u),
        Kind::Divide => plain::divide(f, s, m, u),
        Kind::Root => plain::square_root(s, m, u),
        Kind::Fused132 => plain::fused_multiply_add(d, s, f, m, u),
        Kind::Fused213 => plain::fused_multiply_add(f, d, s, m, u),
        Kind::Fused231 => plain::fused_multiply_add(f, s, d, m, u),
    }
}
