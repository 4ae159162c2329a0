//! Steps of scalar rows that a person wrote (`rows.rs` says how): one element, in lane 0 (R3.7,
//! R5.1), lanes 1 to 7 that are copied (R5.10), bytes 16 to 63 that become 0 (R5.9). Where not said
//! otherwise the destination is register 0 and holds 1111, the first source is 1 and holds 2222,
//! the second is 2 and holds 3333, each in every lane that a row does not name.

use ridgecrook_tests::rows::{check, Row};

/// R2.1: the eight operations. Lanes 1 to 7 are the first source's, or the destination's own.
const OPERATIONS: &[Row] = &[
    // 1+2, 3*2, 1-3, 1/3
    (
        "code=62F5760858C2 z0=1111x32 z1=3C00,2222x31 z2=4000,3333x31",
        "0 6 pointer=6 z0=4200,2222x7",
    ),
    (
        "code=62F5760859C2 z0=1111x32 z1=4200,2222x31 z2=4000,3333x31",
        "0 6 pointer=6 z0=4600,2222x7",
    ),
    (
        "code=62F576085CC2 z0=1111x32 z1=3C00,2222x31 z2=4200,3333x31",
        "0 6 pointer=6 z0=C000,2222x7",
    ),
    (
        "code=62F576085EC2 z0=1111x32 z1=3C00,2222x31 z2=4200,3333x31",
        "0 6 control=00001FA0 pointer=6 z0=3555,2222x7",
    ),
    // The root of 4; lane 0 of the first source, a signalling NaN, is no operand (R2.2).
    (
        "code=62F5760851C2 control=00000000 z0=1111x32 z1=FC01,2222x31 z2=4400,3333x31",
        "0 6 pointer=6 z0=4000,2222x7",
    ),
    // 2, 3 and 10 in destination, first and second source: 2*10+3, 3*2+10, 3*10+2
    (
        "code=62F6750899C2 z0=4000,1111x31 z1=4200,2222x31 z2=4900,3333x31",
        "0 6 pointer=6 z0=4DC0,1111x7",
    ),
    (
        "code=62F67508A9C2 z0=4000,1111x31 z1=4200,2222x31 z2=4900,3333x31",
        "0 6 pointer=6 z0=4C00,1111x7",
    ),
    (
        "code=62F67508B9C2 z0=4000,1111x31 z1=4200,2222x31 z2=4900,3333x31",
        "0 6 pointer=6 z0=5000,1111x7",
    ),
    // R6.6: the first NaN, in the order of multiplicand, multiplier, addend.
    ("code=62F6750899C2 z0=7E10 z1=7E11 z2=7E12", "0 6 pointer=6"),
    (
        "code=62F6750899C2 z0=3C00 z1=7E11 z2=7E12",
        "0 6 pointer=6 z0=7E12",
    ),
    (
        "code=62F67508A9C2 z0=7E10 z1=7E11 z2=7E12",
        "0 6 pointer=6 z0=7E11",
    ),
    ("code=62F67508A9C2 z0=7E10 z1=3C00 z2=7E12", "0 6 pointer=6"),
    (
        "code=62F67508B9C2 z0=7E10 z1=7E11 z2=7E12",
        "0 6 pointer=6 z0=7E11",
    ),
    (
        "code=62F67508B9C2 z0=7E10 z1=3C00 z2=7E12",
        "0 6 pointer=6 z0=7E12",
    ),
    // R2.1: what has the opcode of one and not its prefix, map or W.
    ("code=62F5750858C2", "4 0"),
    ("code=62F5770858C2", "4 0"),
    ("code=62F5F60858C2", "4 0"),
    ("code=62F6760858C2", "4 0"),
    ("code=62F5760899C2", "4 0"),
    ("code=62F6740899C2", "4 0"),
    ("code=62F6760899C2", "4 0"),
    ("code=62F6F50899C2", "4 0"),
    ("code=62F57608A8C2", "4 0"),
];

/// R5.10: where lanes 1 to 7 come from, as the destination is each of the sources and none.
const REGISTERS: &[Row] = &[
    // The destination is the first source, the second, both: 1+2, 2+1, 1+1.
    (
        "code=62F57E0858C1 z0=3C00,1111x31 z1=4000,2222x31",
        "0 6 pointer=6 z0=4200,1111x7",
    ),
    (
        "code=62F5760858C0 z0=3C00,1111x31 z1=4000,2222x31",
        "0 6 pointer=6 z0=4200,2222x7",
    ),
    (
        "code=62F57E0858C0 z0=3C00,1111x31",
        "0 6 pointer=6 z0=4000,1111x7",
    ),
    // A lane goes to its own number.
    (
        "code=62F5760858C2 z1=3C00,0001,0002,0003,0004,0005,0006,0007,0008,0009 z2=4000",
        "0 6 pointer=6 z0=4200,0001,0002,0003,0004,0005,0006,0007",
    ),
    // R4.10: the root has a first source, of any number: 1, 8, 16, 31, and its destination.
    (
        "code=62F5760851C0 z0=4400,1111x31 z1=2222x32",
        "0 6 pointer=6 z0=4000,2222x7",
    ),
    (
        "code=62F53E0851C2 z0=1111x32 z2=4400,3333x31 z8=2222x32",
        "0 6 pointer=6 z0=4000,2222x7",
    ),
    (
        "code=62F57E0051C2 z0=1111x32 z2=4400,3333x31 z16=2222x32",
        "0 6 pointer=6 z0=4000,2222x7",
    ),
    (
        "code=62F5060051C2 z0=1111x32 z2=4400,3333x31 z31=2222x32",
        "0 6 pointer=6 z0=4000,2222x7",
    ),
    (
        "code=62F57E0851C2 z0=1111x32 z2=4400,3333x31",
        "0 6 pointer=6 z0=4000,1111x7",
    ),
    // Its first source and its second are one register.
    (
        "code=62F56E0851C2 z0=1111x32 z2=4400,3333x31",
        "0 6 pointer=6 z0=4000,3333x7",
    ),
    // Fused, all three one register: 2*2+2.
    (
        "code=62F67D08B9C0 z0=4000,1111x31",
        "0 6 pointer=6 z0=4600,1111x7",
    ),
    // R3.6: all five bits of each number: destination 25, first 30, second 29.
    (
        "code=62050E0058CD z25=1111x32 z29=3C00,3333x31 z30=4000,2222x31",
        "0 6 pointer=6 z25=4200,2222x7",
    ),
];

/// R5.1, R5.9, R5.10: mask bit 0 decides over lane 0 and nothing over the others, nor has z a say.
const MASKS: &[Row] = &[
    // Bit 0 alone: merged and zeroed.
    (
        "code=62F5760958C2 k1=1 z0=1111x32 z1=3C00,2222x31 z2=4000,3333x31",
        "0 6 pointer=6 z0=4200,2222x7",
    ),
    (
        "code=62F5768958C2 k1=1 z0=1111x32 z1=3C00,2222x31 z2=4000,3333x31",
        "0 6 pointer=6 z0=4200,2222x7",
    ),
    // Every bit but 0: lane 0 keeps its half or becomes 0, and raises nothing.
    (
        "code=62F5760958C2 control=00000000 k1=FFFFFFFFFFFFFFFE z0=1111x32 z1=7C01,2222x31 \
         z2=7C01,3333x31",
        "0 6 pointer=6 z0=1111,2222x7",
    ),
    (
        "code=62F5768958C2 control=00000000 k1=FFFFFFFFFFFFFFFE z0=1111x32 z1=7C01,2222x31 \
         z2=7C01,3333x31",
        "0 6 pointer=6 z0=0000,2222x7",
    ),
    // No bit.
    (
        "code=62F5760F51C2 z0=1111x32 z1=2222x32 z2=BC00,3333x31",
        "0 6 pointer=6 z0=1111,2222x7",
    ),
    (
        "code=62F5768F51C2 z0=1111x32 z1=2222x32 z2=BC00,3333x31",
        "0 6 pointer=6 z0=0000,2222x7",
    ),
    // Fused: merged, zeroed; on, off.
    (
        "code=62F67509A9C2 k1=1 z0=4000,1111x31 z1=4200,2222x31 z2=4900,3333x31",
        "0 6 pointer=6 z0=4C00,1111x7",
    ),
    (
        "code=62F67589A9C2 k1=1 z0=4000,1111x31 z1=4200,2222x31 z2=4900,3333x31",
        "0 6 pointer=6 z0=4C00,1111x7",
    ),
    (
        "code=62F67509A9C2 k1=FE z0=4000,1111x31 z1=4200,2222x31 z2=4900,3333x31",
        "0 6 pointer=6 z0=4000,1111x7",
    ),
    (
        "code=62F67589A9C2 k1=FE z0=4000,1111x31 z1=4200,2222x31 z2=4900,3333x31",
        "0 6 pointer=6 z0=0000,1111x7",
    ),
    // k0 is no mask; z without a mask is refused.
    (
        "code=62F5760858C2 k0=FE k1=FE z0=1111x32 z1=3C00,2222x31 z2=4000,3333x31",
        "0 6 pointer=6 z0=4200,2222x7",
    ),
    ("code=62F5768858C2 k0=FF z1=3C00 z2=4000", "5 0"),
    // Embedded rounding is under the mask too.
    (
        "code=62F576195EC2 k1=FE z0=1111x32 z1=4500,2222x31 z2=4200,3333x31",
        "0 6 pointer=6 z0=1111,2222x7",
    ),
];

/// R3.7, R3.8: length bits 0, 1 and 2 are alike, 3 is reserved, and with b in register form all
/// four are modes: 5/3 and -5/3 tell them apart. The control word has another mode each time.
const LENGTHS: &[Row] = &[
    (
        "code=62F5762858C2 z0=1111x32 z1=3C00,2222x31 z2=4000,3333x31",
        "0 6 pointer=6 z0=4200,2222x7",
    ),
    (
        "code=62F5764858C2 z0=1111x32 z1=3C00,2222x31 z2=4000,3333x31",
        "0 6 pointer=6 z0=4200,2222x7",
    ),
    ("code=62F5766858C2 z1=3C00 z2=4000", "5 0"),
    (
        "code=62F67528B9C2 z0=4000,1111x31 z1=4200,2222x31 z2=4900,3333x31",
        "0 6 pointer=6 z0=5000,1111x7",
    ),
    (
        "code=62F67548B9C2 z0=4000,1111x31 z1=4200,2222x31 z2=4900,3333x31",
        "0 6 pointer=6 z0=5000,1111x7",
    ),
    ("code=62F67568B9C2 z1=3C00 z2=4000", "5 0"),
    (
        "code=62F576185EC2 control=00006000 z0=1111x32 z1=4500,2222x31 z2=4200,3333x31",
        "0 6 pointer=6 z0=3EAB,2222x7",
    ),
    (
        "code=62F576385EC2 control=00000000 z0=1111x32 z1=4500,2222x31 z2=4200,3333x31",
        "0 6 pointer=6 z0=3EAA,2222x7",
    ),
    (
        "code=62F576585EC2 control=00002000 z0=1111x32 z1=4500,2222x31 z2=4200,3333x31",
        "0 6 pointer=6 z0=3EAB,2222x7",
    ),
    (
        "code=62F576785EC2 control=00004000 z0=1111x32 z1=4500,2222x31 z2=4200,3333x31",
        "0 6 pointer=6 z0=3EAA,2222x7",
    ),
    (
        "code=62F576185EC2 control=00006000 z1=C500,2222x31 z2=4200",
        "0 6 pointer=6 z0=BEAB,2222x7",
    ),
    (
        "code=62F576385EC2 control=00000000 z1=C500,2222x31 z2=4200",
        "0 6 pointer=6 z0=BEAB,2222x7",
    ),
    (
        "code=62F576585EC2 control=00002000 z1=C500,2222x31 z2=4200",
        "0 6 pointer=6 z0=BEAA,2222x7",
    ),
    (
        "code=62F576785EC2 control=00004000 z1=C500,2222x31 z2=4200",
        "0 6 pointer=6 z0=BEAA,2222x7",
    ),
    // Fused and root with mode 3: 7BFF*3C00+3C00, and the root of 2.
    (
        "code=62F67578B9C2 control=00000000 z0=3C00,1111x31 z1=7BFF,2222x31 z2=3C00,3333x31",
        "0 6 pointer=6 z0=7BFF,1111x7",
    ),
    (
        "code=62F5767851C2 control=00000000 z0=1111x32 z1=2222x32 z2=4000,3333x31",
        "0 6 pointer=6 z0=3DA8,2222x7",
    ),
    // The control word's mode without b: up.
    (
        "code=62F576085EC2 control=00005F80 z1=3C00,2222x31 z2=4200",
        "0 6 control=00005FA0 pointer=6 z0=3556,2222x7",
    ),
];

/// R5.6, R3.13: memory of two bytes, which only lane 0 needs; N is 2.
const MEMORY: &[Row] = &[
    // All that there is, for each length; one byte and none are too few.
    (
        "code=62F576085800 z0=1111x32 z1=3C00,2222x31 memory=0040",
        "0 6 pointer=6 z0=4200,2222x7",
    ),
    (
        "code=62F576285800 z0=1111x32 z1=3C00,2222x31 memory=0040",
        "0 6 pointer=6 z0=4200,2222x7",
    ),
    (
        "code=62F576485800 z0=1111x32 z1=3C00,2222x31 memory=0040",
        "0 6 pointer=6 z0=4200,2222x7",
    ),
    ("code=62F576685800 z1=3C00 memory=0040", "5 0"),
    (
        "code=62F576085800 z0=1111x32 z1=3C00,2222x31 memory=00",
        "7 0",
    ),
    ("code=62F576085800 z0=1111x32 z1=3C00,2222x31", "7 0"),
    (
        "code=62F576085800 r0=1 z0=1111x32 z1=3C00,2222x31 memory=AA0040",
        "0 6 pointer=6 z0=4200,2222x7",
    ),
    (
        "code=62F576085800 r0=2 z1=3C00,2222x31 memory=AA0040",
        "7 0",
    ),
    ("code=62F576085800 r0=FFFFFFFFFFFFFFFF memory=AA0040", "7 0"),
    // Lane 0 is off: nothing is needed, wherever the address is, whatever the other bits are.
    (
        "code=62F576095800 k1=FE z0=1111x32 z1=3C00,2222x31",
        "0 6 pointer=6 z0=1111,2222x7",
    ),
    (
        "code=62F576C95800 k1=FFFFFFFE r0=8000000000000000 z0=1111x32 z1=3C00,2222x31 memory=00",
        "0 6 pointer=6 z0=0000,2222x7",
    ),
    // It is on by bit 0 alone, and the two bytes are enough.
    (
        "code=62F576495800 k1=1 z0=1111x32 z1=3C00,2222x31 memory=0040",
        "0 6 pointer=6 z0=4200,2222x7",
    ),
    ("code=62F576495800 k1=1 z0=1111x32 memory=00", "7 0"),
    // The root and a fused one: 4, and 3*10+2.
    (
        "code=62F576085100 z0=1111x32 z1=2222x32 memory=0044",
        "0 6 pointer=6 z0=4000,2222x7",
    ),
    (
        "code=62F67508B900 z0=4000,1111x31 z1=4200,2222x31 memory=0049",
        "0 6 pointer=6 z0=5000,1111x7",
    ),
    // 15 times 2 from -29 on, for each length; -1 times 2 from 3 on; four bytes count in bytes.
    (
        "code=62F5760858400F r0=FFFFFFFFFFFFFFE3 z1=3C00,2222x31 memory=AA0040",
        "0 7 pointer=7 z0=4200,2222x7",
    ),
    (
        "code=62F5762858400F r0=FFFFFFFFFFFFFFE3 z1=3C00,2222x31 memory=AA0040",
        "0 7 pointer=7 z0=4200,2222x7",
    ),
    (
        "code=62F5764858400F r0=FFFFFFFFFFFFFFE3 z1=3C00,2222x31 memory=AA0040",
        "0 7 pointer=7 z0=4200,2222x7",
    ),
    (
        "code=62F576485840FF r0=3 z1=3C00,2222x31 memory=AA0040",
        "0 7 pointer=7 z0=4200,2222x7",
    ),
    (
        "code=62F675489940FF r0=3 z0=4000,1111x31 z1=4200,2222x31 memory=AA0049",
        "0 7 pointer=7 z0=4DC0,1111x7",
    ),
    (
        "code=62F576485880FFFFFFFF r0=2 z1=3C00,2222x31 memory=AA0040",
        "0 10 pointer=A z0=4200,2222x7",
    ),
    // Relative to the next instruction, and by RBX+8*RCX.
    (
        "code=62F576485805F7FFFFFF z1=3C00,2222x31 memory=AA0040",
        "0 10 pointer=A z0=4200,2222x7",
    ),
    (
        "code=62F576485804CB r1=FFFFFFFFFFFFFFFF r3=9 z1=3C00,2222x31 memory=AA0040",
        "0 7 pointer=7 z0=4200,2222x7",
    ),
];

/// R4.10: b in memory form, for each length, with lane 0 off, and where it stands in the order.
const RESERVED: &[Row] = &[
    ("code=62F576185800 z1=3C00 memory=0040", "5 0"),
    ("code=62F576385800 z1=3C00 memory=0040", "5 0"),
    ("code=62F576585800 z1=3C00 memory=0040", "5 0"),
    ("code=62F576785800 z1=3C00 memory=0040", "5 0"),
    ("code=62F576185900 memory=0040", "5 0"),
    ("code=62F576185C00 memory=0040", "5 0"),
    ("code=62F576185E00 memory=0040", "5 0"),
    ("code=62F576185100 memory=0040", "5 0"),
    ("code=62F675189900 memory=0040", "5 0"),
    ("code=62F67518A900 memory=0040", "5 0"),
    ("code=62F67518B900 memory=0040", "5 0"),
    ("code=62F576195800", "5 0"),
    ("code=62F576995800 k1=1 memory=0040", "5 0"),
    // Before a SIB byte or a displacement that is not there, which is 3 without b; before memory
    // that is not there; before an exception.
    ("code=62F576185804", "5 0"),
    ("code=62F576085804", "3 0"),
    ("code=62F576185840", "5 0"),
    ("code=62F576085840", "3 0"),
    ("code=62F576185805000000", "5 0"),
    ("code=62F576085805000000", "3 0"),
    ("code=62F576185800 memory=", "5 0"),
    (
        "code=62F576185800 control=00000000 z1=7C01 memory=0040",
        "5 0",
    ),
    // Behind too few bytes, byte 0, the list; the packed row takes b.
    ("code=62F5761858", "3 0"),
    ("code=63F576185800", "4 0"),
    ("code=62F576185700", "4 0"),
    ("code=62F5F6185800", "4 0"),
    ("code=62F577185800", "4 0"),
    (
        "code=62F574185800 z1=3C00x8 memory=0040",
        "0 6 pointer=6 z0=4200x8",
    ),
];

/// R7.1 to R7.5: what lane 0 raises, and nothing from any other lane.
const EXCEPTIONS: &[Row] = &[
    // 1/0 with ZE unmasked, 1/3 with PE, 0/0 with IE: the whole destination stays.
    (
        "code=62F576085EC2 control=00001D80 z0=1111x32 z1=3C00,2222x31 z2=0000,3333x31",
        "8 0 control=00001D84",
    ),
    (
        "code=62F576085EC2 control=00000F80 z0=1111x32 z1=3C00,2222x31 z2=4200,3333x31",
        "8 0 control=00000FA0",
    ),
    (
        "code=62F576895EC2 control=00001F00 k1=1 z0=1111x32 z1=0000,2222x31 z2=0000,3333x31",
        "8 0 control=00001F01",
    ),
    (
        "code=62F67508B9C2 control=00001F00 z0=FC00,1111x31 z1=7C00,2222x31 z2=3C00,3333x31",
        "8 0 control=00001F01",
    ),
    (
        "code=62F5760851C2 control=00001F00 z0=1111x32 z1=2222x32 z2=BC00,3333x31",
        "8 0 control=00001F01",
    ),
    // R7.4: 0001/4200 has DE, UE and PE; DE unmasked stops it early, UE does not.
    (
        "code=62F576085EC2 control=00001E80 z0=1111x32 z1=0001,2222x31 z2=4200,3333x31",
        "8 0 control=00001E82",
    ),
    (
        "code=62F576085EC2 control=00001780 z0=1111x32 z1=0001,2222x31 z2=4200,3333x31",
        "8 0 control=000017B2",
    ),
    // R6.20: OE always comes with PE.
    (
        "code=62F5760859C2 control=00001B80 z0=1111x32 z1=E200,2222x31 z2=7800,3333x31",
        "8 0 control=00001BA8",
    ),
    // R6.23: an exact tiny product, with UE unmasked, and under embedded rounding.
    (
        "code=62F5760859C2 control=00001780 z0=1111x32 z1=0400,2222x31 z2=3800,3333x31",
        "8 0 control=00001790",
    ),
    (
        "code=62F5761859C2 control=00000000 z0=1111x32 z1=0400,2222x31 z2=3800,3333x31",
        "0 6 pointer=6 z0=0200,2222x7",
    ),
    // Lane 0 is off: nothing is raised.
    (
        "code=62F576095EC2 control=00000000 k1=FE z0=1111x32 z1=3C00,2222x31",
        "0 6 pointer=6 z0=1111,2222x7",
    ),
    // Signalling NaNs, 0/0 and subnormals above lane 0 raise nothing, everything unmasked, and are
    // copied as they are.
    (
        "code=62F5760858C2 control=00000000 z0=7C01x32 z1=3C00,7C01x31 z2=3C00,7C01x31",
        "0 6 pointer=6 z0=4000,7C01x7",
    ),
    (
        "code=62F576085EC2 control=00000000 z1=3C00 z2=3C00",
        "0 6 pointer=6 z0=3C00",
    ),
    (
        "code=62F5760851C2 control=00000000 z1=FC01x32 z2=4400,BC00x31",
        "0 6 pointer=6 z0=4000,FC01x7",
    ),
    (
        "code=62F67508A9C2 control=00000000 z0=4000,7D55x31 z1=4200,0001x31 z2=4900,7C01x31",
        "0 6 pointer=6 z0=4C00,7D55x7",
    ),
    // A signalling NaN in lane 0 is made quiet; a flag from before counts for nothing.
    (
        "code=62F5760858C2 z0=1111x32 z1=7C01,2222x31 z2=3C00,3333x31",
        "0 6 control=00001F81 pointer=6 z0=7E01,2222x7",
    ),
    (
        "code=62F5760858C2 control=0000003F z0=1111x32 z1=3C00,2222x31 z2=4000,3333x31",
        "0 6 pointer=6 z0=4200,2222x7",
    ),
];

#[test]
fn operations() {
    check(OPERATIONS);
}

#[test]
fn registers() {
    check(REGISTERS);
}

#[test]
fn masks() {
    check(MASKS);
}

#[test]
fn lengths_and_modes() {
    check(LENGTHS);
}

#[test]
fn memory() {
    check(MEMORY);
}

#[test]
fn reserved_forms() {
    check(RESERVED);
}

#[test]
fn exceptions() {
    check(EXCEPTIONS);
}
