//! Bytes of an instruction from its fields. Every field may have any value, also one that is
//! refused.

use crate::second::encoding::{decode, Listed};

#[derive(Clone)]
pub struct Encoding {
    pub map: u8,
    pub prefix: u8,
    pub w: u8,
    pub opcode: u8,
    /// R' R reg, 0 to 31; of a row that writes a mask 0 to 7, or it is refused.
    pub destination: u8,
    /// V' vvvv, 0 to 31.
    pub first: u8,
    /// The bits X and B as they are meant, not inverted.
    pub x: u8,
    pub b: u8,
    pub zeroing: u8,
    pub length: u8,
    /// Broadcast, embedded rounding or suppression: the bit b of byte 3.
    pub extra: u8,
    pub mask: u8,
    pub mode: u8,
    pub rm: u8,
    /// SIB, displacement, and whatever follows.
    pub rest: Vec<u8>,
    /// The last byte, behind all of them.
    pub immediate: Option<u8>,
}

/// Length bits of 8, 16 and 32 lanes; a scalar row reads them alike (R3.7).
pub const LANES_8: u8 = 0;
pub const LANES_16: u8 = 1;
pub const LANES_32: u8 = 2;

impl Encoding {
    /// The register form with the length bits of 32 lanes and no mask; an immediate is 0. For an
    /// instruction without a first source, `first` is to be 0, which is stored as ones.
    pub fn registers(listed: &Listed, destination: u8, first: u8, second: u8) -> Encoding {
        Encoding {
            map: listed.map,
            prefix: listed.prefix,
            w: listed.w,
            opcode: listed.opcode,
            destination,
            first,
            x: second >> 4 & 1,
            b: second >> 3 & 1,
            zeroing: 0,
            length: LANES_32,
            extra: 0,
            mask: 0,
            mode: 3,
            rm: second & 7,
            rest: Vec::new(),
            immediate: listed.immediate.then_some(0),
        }
    }

    /// A memory form by its mod and rm and the bytes that follow, otherwise the same.
    pub fn memory(listed: &Listed, mode: u8, rm: u8, rest: &[u8]) -> Encoding {
        Encoding {
            mode,
            rm,
            rest: rest.to_vec(),
            ..Encoding::registers(listed, 0, 0, 0)
        }
    }

    pub fn bytes(&self) -> Vec<u8> {
        let inverted = |number: u8, bit: u8| !number >> bit & 1;
        let byte_1 = inverted(self.destination, 3) << 7
            | (!self.x & 1) << 6
            | (!self.b & 1) << 5
            | inverted(self.destination, 4) << 4
            | self.map & 7;
        let byte_2 = (self.w & 1) << 7 | (!self.first & 15) << 3 | 1 << 2 | self.prefix & 3;
        let byte_3 = (self.zeroing & 1) << 7
            | (self.length & 3) << 5
            | (self.extra & 1) << 4
            | inverted(self.first, 4) << 3
            | self.mask & 7;
        let modrm = self.mode << 6 | (self.destination & 7) << 3 | self.rm & 7;
        let mut bytes = vec![0x62, byte_1, byte_2, byte_3, self.opcode, modrm];
        bytes.extend(&self.rest);
        bytes.extend(self.immediate);
        bytes
    }

    /// The bytes of a valid instruction and nothing behind, the immediate last, whatever `rest` has
    /// there.
    pub fn exact_bytes(&self) -> Vec<u8> {
        let mut bytes = self.bytes();
        let length = decode(&bytes).map(|instruction| instruction.length);
        bytes.truncate(length.unwrap_or_else(|number| panic!("{bytes:02X?}: {number}")));
        if let (Some(immediate), Some(last)) = (self.immediate, bytes.last_mut()) {
            *last = immediate;
        }
        bytes
    }
}
