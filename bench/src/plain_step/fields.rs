//! The bytes of an instruction taken apart, whatever its row.

use super::LANES;
use ridgecrook_tests::machine::Machine;

/// The first six bytes, where they pass what is asked before the list.
#[derive(Clone, Copy)]
pub struct Head<'a> {
    pub bytes: &'a [u8; 6],
}

impl Head<'_> {
    #[inline]
    pub fn of(code: &[u8]) -> Result<Head<'_>, u32> {
        let Some(bytes) = code.first_chunk() else {
            return Err(match code.first() {
                Some(0x62) | None => 3,
                Some(_) => 4,
            });
        };
        if bytes[0] != 0x62 {
            return Err(4);
        }
        if bytes[1] & 8 != 0 || bytes[2] & 4 == 0 {
            return Err(5);
        }
        Ok(Head { bytes })
    }

    #[inline]
    pub fn first(self) -> usize {
        usize::from(!self.bytes[2] >> 3 & 15 | (!self.bytes[3] & 8) << 1)
    }

    /// R3.8: b in register form, which is embedded rounding or suppression.
    #[inline]
    fn hides_exceptions(self) -> bool {
        self.bytes[5] >= 0xC0 && self.bytes[3] & 0x10 != 0
    }

    /// Length bits 3 without b in register form, or zeroing without a mask.
    #[inline]
    pub fn is_reserved(self) -> bool {
        let byte_3 = self.bytes[3];
        byte_3 & 0x60 == 0x60 && !self.hides_exceptions() || byte_3 & 0x87 == 0x80
    }

    /// Of a row that is not scalar.
    #[inline]
    pub fn lanes(self) -> usize {
        if self.hides_exceptions() {
            LANES
        } else {
            8 << (self.bytes[3] >> 5 & 3)
        }
    }
}

pub struct Fields {
    pub modrm: u8,
    pub byte_1: u8,
    pub byte_3: u8,
    pub first: usize,
    /// R7.5: no flag is set, and none stops the instruction.
    pub hides_exceptions: bool,
    /// So many elements: 1 for a scalar form.
    pub lanes: usize,
    pub length: usize,
    /// Where a displacement begins, and how many bytes it has.
    pub displacement: (usize, usize),
}

impl Fields {
    /// With so many bytes of immediate behind the displacement.
    #[inline]
    pub fn of(head: Head, code: &[u8], lanes: usize, immediate: usize) -> Result<Fields, u32> {
        let [_, byte_1, _, byte_3, _, modrm] = *head.bytes;
        let displacement = displacement_place(code, modrm).ok_or(3_u32)?;
        let length = displacement.0 + displacement.1 + immediate;
        if code.len() < length {
            return Err(3);
        }
        Ok(Fields {
            modrm,
            byte_1,
            byte_3,
            first: head.first(),
            hides_exceptions: head.hides_exceptions(),
            lanes,
            length,
            displacement,
        })
    }

    /// The lanes that are on, one bit each.
    #[inline]
    pub fn on(&self, machine: &Machine) -> u32 {
        let mask = match self.byte_3 & 7 {
            0 => u32::MAX,
            number => machine.masks[usize::from(number)] as u32,
        };
        mask & (u32::MAX >> (LANES - self.lanes))
    }

    #[inline]
    pub fn destination(&self) -> usize {
        destination(self.byte_1, self.modrm)
    }

    /// The second source, in register form.
    #[inline]
    pub fn second(&self) -> usize {
        let high = !self.byte_1 >> 2 & 16 | !self.byte_1 >> 2 & 8;
        usize::from(self.modrm & 7 | high)
    }

    /// The rounding mode, and whether underflow is unmasked.
    #[inline]
    pub fn rounding(&self, machine: &Machine) -> (u32, u32) {
        if self.hides_exceptions {
            (u32::from(self.byte_3 >> 5 & 3), 0)
        } else {
            (machine.control >> 13 & 3, !machine.control >> 11 & 1)
        }
    }
}

/// R' R reg.
#[inline]
pub fn destination(byte_1: u8, modrm: u8) -> usize {
    let low = modrm >> 3 & 7;
    usize::from(low | !byte_1 >> 4 & 8 | !byte_1 & 16)
}

/// None where the SIB byte is missing.
#[inline]
fn displacement_place(code: &[u8], modrm: u8) -> Option<(usize, usize)> {
    let (mode, rm) = (modrm >> 6, modrm & 7);
    if mode == 3 {
        return Some((6, 0));
    }
    let (at, base) = if rm == 4 {
        (7, code.get(6)? & 7)
    } else {
        (6, rm)
    };
    let bytes = match mode {
        0 if base == 5 => 4,
        0 => 0,
        1 => 1,
        _ => 4,
    };
    Some((at, bytes))
}
