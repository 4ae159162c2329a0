//! VMINPH, VMAXPH and VCMPPH: nothing is rounded, sources are read where they stand, and the
//! results of a comparison are bits of a number from the first.

mod lanes;

use super::{address, advance, check, each, record, word, Fields, Head, Register, LANES};
use crate::plain_compare as plain;
use lanes::{spread, Sources};
use ridgecrook_tests::machine::Machine;

/// The lanes of a register as they are stored.
type Stored = [[u8; 2]; LANES];

#[derive(Clone, Copy, PartialEq)]
enum Kind {
    Minimum,
    Maximum,
    Compare,
}

/// Not inlined, so that it takes nothing from the packed forms that round.
#[inline(never)]
pub fn carry_out(machine: &mut Machine, code: &[u8], memory: &[u8]) -> Result<u32, u32> {
    check(machine)?;
    let (kind, fields) = &decode(code)?;
    let on = fields.on(machine);
    let mut buffer = [[0; 2]; LANES];
    let sources = Sources {
        on,
        first: register(machine, fields.first),
        second: second_source(machine, fields, on, code, memory, &mut buffer)?,
    };
    if *kind == Kind::Compare {
        let predicate = plain::predicate(u32::from(code[fields.length - 1]));
        let (mask, flags) = sources.mask(predicate);
        record(machine, fields, flags)?;
        machine.masks[fields.destination() % 8] = u64::from(mask);
    } else {
        let (results, flags) = if *kind == Kind::Minimum {
            sources.picked(|x, y| x < y, plain::minimum)
        } else {
            sources.picked(|x, y| x > y, plain::maximum)
        };
        record(machine, fields, flags)?;
        write_destination(machine, fields, on, &results);
    }
    Ok(advance(machine, fields))
}

#[inline]
fn decode(code: &[u8]) -> Result<(Kind, Fields), u32> {
    let head = Head::of(code)?;
    let kind = listed(head).ok_or(4_u32)?;
    let compares = kind == Kind::Compare;
    // Zeroing, or a destination above k7.
    let is_no_mask = head.bytes[3] & 0x80 != 0 || head.bytes[1] & 0x90 != 0x90;
    if compares && is_no_mask || head.is_reserved() {
        return Err(5);
    }
    let fields = Fields::of(head, code, head.lanes(), usize::from(compares))?;
    Ok((kind, fields))
}

#[inline]
fn listed(head: Head) -> Option<Kind> {
    match (head.bytes[1] & 7, head.bytes[2] & 0x83, head.bytes[4]) {
        (5, 0, 0x5D) => Some(Kind::Minimum),
        (5, 0, 0x5F) => Some(Kind::Maximum),
        (3, 0, 0xC2) => Some(Kind::Compare),
        _ => None,
    }
}

#[inline]
fn register(machine: &Machine, number: usize) -> &Stored {
    let lanes = machine.vectors.as_chunks().0;
    lanes[LANES * number..][..LANES]
        .try_into()
        .expect("32 lanes")
}

/// The second source where it stands, or else in the buffer.
#[inline]
fn second_source<'a>(
    machine: &'a Machine,
    fields: &Fields,
    on: u32,
    code: &[u8],
    memory: &'a [u8],
    buffer: &'a mut Stored,
) -> Result<&'a Stored, u32> {
    if fields.modrm >= 0xC0 {
        return Ok(register(machine, fields.second()));
    }
    if on == 0 {
        return Ok(buffer);
    }
    let address = address(machine, fields, code);
    if fields.byte_3 & 0x10 != 0 {
        *buffer = [word(memory, address)?.to_le_bytes(); LANES];
        return Ok(buffer);
    }
    read_memory(memory, address, on, buffer)
}

#[inline]
fn read_memory<'a>(
    memory: &'a [u8],
    address: u64,
    on: u32,
    buffer: &'a mut Stored,
) -> Result<&'a Stored, u32> {
    let at = usize::try_from(address).ok();
    let Some(rest) = at.and_then(|at| memory.get(at..)) else {
        return read_wrapped(memory, address, on, buffer);
    };
    let words = rest.as_chunks().0;
    // What lies behind the vector is of lanes that are off.
    if let Some(whole) = words.first_chunk() {
        return Ok(whole);
    }
    if on >> words.len() != 0 {
        return Err(7);
    }
    buffer[..words.len()].copy_from_slice(words);
    Ok(buffer)
}

/// From an address behind memory words may still wrap round to its beginning.
#[inline(never)]
fn read_wrapped<'a>(
    memory: &[u8],
    address: u64,
    on: u32,
    buffer: &'a mut Stored,
) -> Result<&'a Stored, u32> {
    for (lane, half) in buffer.iter_mut().enumerate() {
        if on >> lane & 1 == 1 {
            *half = word(memory, address.wrapping_add(2 * lane as u64))?.to_le_bytes();
        }
    }
    Ok(buffer)
}

/// R5.9: a lane that is on becomes its result; others stay, or become 0.
#[inline(always)]
fn write_destination(machine: &mut Machine, fields: &Fields, on: u32, results: &Register) {
    let lanes = machine.vectors.as_chunks_mut().0;
    let lanes = &mut lanes[LANES * fields.destination()..][..LANES];
    if on == u32::MAX {
        for (lane, result) in lanes.iter_mut().zip(results) {
            *lane = result.to_le_bytes();
        }
        return;
    }
    let within = u32::MAX >> (LANES - fields.lanes);
    let kept = if fields.byte_3 & 0x80 != 0 {
        0
    } else {
        !on & within
    };
    let (on, kept) = (spread(on, u16::MAX), spread(kept, u16::MAX));
    for (j, lane) in lanes.iter_mut().enumerate() {
        *lane = (results[j] & on[j] | u16::from_le_bytes(*lane) & kept[j]).to_le_bytes();
    }
}
