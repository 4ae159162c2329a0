//! Steps of VMINPH, VMAXPH and VCMPPH that a person wrote (`rows.rs` says how). Where not said
//! otherwise the first source is register 1 and the second register 2; VMINPH and VMAXPH write
//! register 0, VCMPPH a mask.

use ridgecrook_tests::predicates::{predicate, PAIRS, SIGNALLING};
use ridgecrook_tests::rows::{check, Row};

/// R6.26: numbers, equal ones, zeros of both signs, infinities; then NaNs, of which the second
/// source is handed back as it is. Eight lanes each.
const MINIMUM_MAXIMUM: &[Row] = &[
    // 1 2, 2 1, -1 1, +0 -0, -0 +0, inf 65504, -inf 1, -2 -1
    (
        "code=62F574085DC2 z0=1111x32 z1=3C00,4000,BC00,0000,8000,7C00,FC00,C000 \
         z2=4000,3C00,3C00,8000,0000,7BFF,3C00,BC00",
        "0 6 pointer=6 z0=3C00x2,BC00,8000,0000,7BFF,FC00,C000",
    ),
    (
        "code=62F574085FC2 z0=1111x32 z1=3C00,4000,BC00,0000,8000,7C00,FC00,C000 \
         z2=4000,3C00,3C00,8000,0000,7BFF,3C00,BC00",
        "0 6 pointer=6 z0=4000x2,3C00,8000,0000,7C00,3C00,BC00",
    ),
    // A NaN in the first source, the second, both: quiet and signalling, never made quiet.
    (
        "code=62F574085DC2 z1=7E01,3C00,7C01,3C00,7E01,7C01,FD55,FC00 \
         z2=3C00,FE01,BC00,7C01,7D02,7E02,7C03,FC01",
        "0 6 control=00001F81 pointer=6 z0=3C00,FE01,BC00,7C01,7D02,7E02,7C03,FC01",
    ),
    (
        "code=62F574085FC2 z1=7E01,3C00,7C01,3C00,7E01,7C01,FD55,FC00 \
         z2=3C00,FE01,BC00,7C01,7D02,7E02,7C03,FC01",
        "0 6 control=00001F81 pointer=6 z0=3C00,FE01,BC00,7C01,7D02,7E02,7C03,FC01",
    ),
    // R6.27, one lane at a time: a quiet NaN has IE, first or second.
    (
        "code=62F574095DC2 k1=1 z1=7E01 z2=3C00",
        "0 6 control=00001F81 pointer=6 z0=3C00",
    ),
    (
        "code=62F574095FC2 k1=1 z1=3C00 z2=7E01",
        "0 6 control=00001F81 pointer=6 z0=7E01",
    ),
    (
        "code=62F574095DC2 k1=1 z1=3C00 z2=7D01",
        "0 6 control=00001F81 pointer=6 z0=7D01",
    ),
    // No DE beside a NaN.
    (
        "code=62F574095DC2 k1=1 z1=0001 z2=7E01",
        "0 6 control=00001F81 pointer=6 z0=7E01",
    ),
    (
        "code=62F574095FC2 k1=1 z1=FC01 z2=8001",
        "0 6 control=00001F81 pointer=6 z0=8001",
    ),
    // A subnormal has DE, whichever is handed back.
    (
        "code=62F574095DC2 k1=1 z1=0001 z2=3C00",
        "0 6 control=00001F82 pointer=6 z0=0001",
    ),
    (
        "code=62F574095FC2 k1=1 z1=0001 z2=3C00",
        "0 6 control=00001F82 pointer=6 z0=3C00",
    ),
    (
        "code=62F574095DC2 k1=1 z1=3C00 z2=83FF",
        "0 6 control=00001F82 pointer=6 z0=83FF",
    ),
    (
        "code=62F574095FC2 k1=1 z1=0000 z2=8001",
        "0 6 control=00001F82 pointer=6",
    ),
    // R1.6: with DAZ and FZ a subnormal is still less than the next.
    (
        "code=62F574095FC2 control=00009FC0 k1=1 z1=0002 z2=0001",
        "0 6 control=00009FC2 pointer=6 z0=0002",
    ),
    // The destination is a source, and the order of the two stands: +0 and -0, both ways.
    ("code=62F57C085DC2 z2=8000x8", "0 6 pointer=6 z0=8000x8"),
    ("code=62F574085DC0 z1=8000x8", "0 6 pointer=6"),
    // R3.6: all five bits of each number: destination 25, first 30, second 29.
    (
        "code=62050C005DCD z25=1111x32 z29=3C00x8 z30=4000x8",
        "0 6 pointer=6 z25=3C00x8",
    ),
];

/// R3.7, R3.8, R5.9: lanes by the length bits, masks and zeroing of VMINPH and VMAXPH.
const LANES: &[Row] = &[
    (
        "code=62F574085DC2 z0=1111x32 z1=4000x32 z2=3C00x32",
        "0 6 pointer=6 z0=3C00x8",
    ),
    (
        "code=62F574285DC2 z0=1111x32 z1=4000x32 z2=3C00x32",
        "0 6 pointer=6 z0=3C00x16",
    ),
    (
        "code=62F574485FC2 z0=1111x32 z1=4000x32 z2=3C00x32",
        "0 6 pointer=6 z0=4000x32",
    ),
    ("code=62F574685DC2 z1=4000x32 z2=3C00x32", "5 0"),
    ("code=62F574685FC2 z1=4000x32 z2=3C00x32", "5 0"),
    (
        "code=62F5740A5DC2 k2=FFFFFF05 z0=1111x32 z1=4000x32 z2=3C00x32",
        "0 6 pointer=6 z0=3C00,1111,3C00,1111x5",
    ),
    (
        "code=62F5748A5FC2 k2=FFFFFF05 z0=1111x32 z1=4000x32 z2=3C00x32",
        "0 6 pointer=6 z0=4000,0000,4000",
    ),
    ("code=62F574885DC2 z1=4000x32 z2=3C00x32", "5 0"),
    // R5.2: lanes that are off raise nothing, every exception unmasked.
    (
        "code=62F5740A5DC2 control=00000000 k2=2 z0=1111x32 z1=7C01,4000,0001 z2=3C00x8",
        "0 6 pointer=6 z0=1111,3C00,1111x6",
    ),
];

/// R5.11: the mask that is written. LT_OS is 1, EQ_OQ 0, TRUE_UQ 0F, FALSE_OQ 0B.
const MASKS: &[Row] = &[
    // All 64 bits are new, by each length.
    (
        "code=62F37408C2CA00 k1=FFFFFFFFFFFFFFFF z1=3C00x32 z2=3C00x4",
        "0 7 pointer=7 k1=F",
    ),
    (
        "code=62F37428C2CA00 k1=FFFFFFFFFFFFFFFF z1=3C00x32 z2=3C00x12",
        "0 7 pointer=7 k1=FFF",
    ),
    (
        "code=62F37448C2CA00 k1=FFFFFFFFFFFFFFFF z1=3C00x32 z2=0000,3C00x31",
        "0 7 pointer=7 k1=FFFFFFFE",
    ),
    (
        "code=62F37408C2CA0F k1=A5A5A5A500000000",
        "0 7 pointer=7 k1=FF",
    ),
    (
        "code=62F37448C2CA0B k1=FFFFFFFFFFFFFFFF",
        "0 7 pointer=7 k1=0",
    ),
    // Lane j is bit j; no vector register changes, nor any other mask.
    (
        "code=62F37408C2CA01 z0=1111x32 z1=3C00,4000,3C00,4000,4000,3C00,4000,3C00 z2=3E00x32",
        "0 7 pointer=7 k1=A5",
    ),
    (
        "code=62F37448C2FA01 k6=FF z1=4000x31,3C00 z2=3E00x32 z7=1111x32",
        "0 7 pointer=7 k7=80000000",
    ),
    // k0 may be the destination, and is no writemask even so.
    (
        "code=62F37408C2C20F k0=FFFFFFFF00000001",
        "0 7 pointer=7 k0=FF",
    ),
    ("code=62F37408C2C20B k0=FF k1=FF", "0 7 pointer=7 k0=0"),
    // The writemask: a lane that it switches off gives 0, and so do its bits behind the last lane.
    (
        "code=62F3740AC2CA0F k1=FFFFFFFFFFFFFFFF k2=FFFFFFFFFFFFFF0A",
        "0 7 pointer=7 k1=A",
    ),
    (
        "code=62F3744AC2CA01 k1=F0 k2=80000003 z1=3C00x32 z2=4000,3C00x30,4000",
        "0 7 pointer=7 k1=80000001",
    ),
    ("code=62F3740AC2CA0F k1=FF k2=FF00", "0 7 pointer=7 k1=0"),
    // The destination is the writemask, which is read first.
    (
        "code=62F37409C2CA0F k1=FFFFFFFFFFFFFF05",
        "0 7 pointer=7 k1=5",
    ),
    (
        "code=62F3744FC2FA00 k7=FFFF0000 z1=3C00x32 z2=3C00x24",
        "0 7 pointer=7 k7=FF0000",
    ),
    // Off lanes: no flag by NaNs and subnormals, every exception unmasked.
    (
        "code=62F3740AC2CA01 control=00000000 k2=2 z1=7C01,3C00,0001 z2=3C00,4000,3C00",
        "0 7 pointer=7 k1=2",
    ),
    // R3.6: the sources have all five bits: first 30, second 29.
    (
        "code=62930C00C2CD01 z29=4000x8 z30=3C00x8",
        "0 7 pointer=7 k1=FF",
    ),
];

/// R3.15: what the immediate picks, by its lowest five bits alone, and bytes behind it. Lane 0 is
/// less, the others are equal.
const IMMEDIATES: &[Row] = &[
    ("code=62F37408C2CA01 z1=3C00 z2=4000", "0 7 pointer=7 k1=1"),
    ("code=62F37408C2CA21 z1=3C00 z2=4000", "0 7 pointer=7 k1=1"),
    ("code=62F37408C2CA41 z1=3C00 z2=4000", "0 7 pointer=7 k1=1"),
    ("code=62F37408C2CA81 z1=3C00 z2=4000", "0 7 pointer=7 k1=1"),
    ("code=62F37408C2CAE0 z1=3C00 z2=4000", "0 7 pointer=7 k1=FE"),
    ("code=62F37408C2CAFF z1=3C00 z2=4000", "0 7 pointer=7 k1=FF"),
    (
        "code=62F37408C2CAEB k1=FF z1=3C00 z2=4000",
        "0 7 pointer=7 k1=0",
    ),
    // LT_OQ and EQ_OS, which bit 4 tells from LT_OS and EQ_OQ by a quiet NaN in lane 1.
    (
        "code=62F37408C2CA11 z1=3C00,7E00 z2=4000",
        "0 7 pointer=7 k1=1",
    ),
    (
        "code=62F37408C2CA10 z1=3C00,7E00 z2=4000",
        "0 7 control=00001F81 pointer=7 k1=FC",
    ),
    (
        "code=62F37408C2CA01FF62 z1=3C00 z2=4000",
        "0 7 pointer=7 k1=1",
    ),
];

/// R3.8, R7.5: suppression, with each of the four length codes: 32 lanes, no flag, nothing stops.
const SUPPRESSION: &[Row] = &[
    (
        "code=62F574185DC2 control=00000000 z1=7C01,0001,4400x30 z2=3C00x2,4200x30",
        "0 6 pointer=6 z0=3C00,0001,4200x30",
    ),
    (
        "code=62F574385DC2 control=00000000 z1=7C01,0001,4400x30 z2=3C00x2,4200x30",
        "0 6 pointer=6 z0=3C00,0001,4200x30",
    ),
    (
        "code=62F574585FC2 control=00000000 z1=7C01,0001,4400x30 z2=3C00x2,4200x30",
        "0 6 pointer=6 z0=3C00x2,4400x30",
    ),
    (
        "code=62F574785FC2 control=00000000 z1=7C01,0001,4400x30 z2=3C00x2,4200x30",
        "0 6 pointer=6 z0=3C00x2,4400x30",
    ),
    (
        "code=62F37418C2CA01 control=00000000 z1=7E00,0001,3C00x30 z2=3C00x2,4000x30",
        "0 7 pointer=7 k1=FFFFFFFE",
    ),
    (
        "code=62F37438C2CA01 control=00000000 z1=7E00,0001,3C00x30 z2=3C00x2,4000x30",
        "0 7 pointer=7 k1=FFFFFFFE",
    ),
    (
        "code=62F37458C2CA01 control=00000000 z1=7E00,0001,3C00x30 z2=3C00x2,4000x30",
        "0 7 pointer=7 k1=FFFFFFFE",
    ),
    (
        "code=62F37478C2CA01 control=00000000 z1=7E00,0001,3C00x30 z2=3C00x2,4000x30",
        "0 7 pointer=7 k1=FFFFFFFE",
    ),
    // The writemask counts as ever, and each lane has its own second half: no broadcast.
    (
        "code=62F574195DC2 control=00000000 k1=80000001 z0=1111x32 z1=4400x32 z2=3C00,4000x31",
        "0 6 pointer=6 z0=3C00,1111x30,4000",
    ),
    (
        "code=62F574995DC2 control=00000000 k1=80000001 z0=1111x32 z1=4400x32 z2=3C00,4000x31",
        "0 6 pointer=6 z0=3C00,0000x30,4000",
    ),
    (
        "code=62F3741AC2CA0D control=00000000 k2=80000003 z1=3E00x32 z2=3C00,4000,0000x29,3C00",
        "0 7 pointer=7 k1=80000001",
    ),
    // Flags from before stay.
    (
        "code=62F574185DC2 control=00001F94 z1=7C01x32 z2=3C00x32",
        "0 6 pointer=6 z0=3C00x32",
    ),
];

/// R3.13, R5.4 to R5.7: memory. The lane that is on, by k1, compares 1 with 2, or 2 with 1.
const MEMORY: &[Row] = &[
    // Every word that there is, and a byte less.
    (
        "code=62F574085D00 z1=4000x8 memory=003C004400BC0000003C003C003C003C",
        "0 6 pointer=6 z0=3C00,4000,BC00,0000,3C00x4",
    ),
    (
        "code=62F574085D00 z1=4000x8 memory=003C004400BC0000003C003C003C00",
        "7 0",
    ),
    (
        "code=62F37408C21001 z1=3C00x8 memory=0040003C00440000004000400040003C",
        "0 7 pointer=7 k2=75",
    ),
    (
        "code=62F37408C21001 k2=FF z1=3C00x8 memory=0040003C0044000000400040004000",
        "7 0",
    ),
    // Broadcast: one word for all lanes, needed as soon as one is on.
    (
        "code=62F574585D00 z1=4000x32 memory=003C",
        "0 6 pointer=6 z0=3C00x32",
    ),
    (
        "code=62F37458C21001 z1=3C00x31,4400 memory=0040",
        "0 7 pointer=7 k2=7FFFFFFF",
    ),
    (
        "code=62F37459C21001 k1=80000000 k2=FF z1=3C00x32 memory=00",
        "7 0",
    ),
    (
        "code=62F37459C21001 k1=FFFFFFFF00000000 k2=FF z1=3C00x32",
        "0 7 pointer=7 k2=0",
    ),
    // Broadcast is no suppression: flags are set, and stop it.
    (
        "code=62F574185D00 z1=4000x8 memory=017C",
        "0 6 control=00001F81 pointer=6 z0=7C01x8",
    ),
    (
        "code=62F37458C21000 control=00001E80 k2=FF z1=4000x32 memory=0100",
        "8 0 control=00001E82",
    ),
    // Lanes that are off need nothing.
    ("code=62F37409C21001 k2=FF z1=3C00x8", "0 7 pointer=7 k2=0"),
    (
        "code=62F37409C21001 k1=1 z1=3C00x8 memory=0040",
        "0 7 pointer=7 k2=1",
    ),
    (
        "code=62F574C95D00 k1=2 r0=FFFFFFFFFFFFFFFE z0=1111x32 z1=4000x32 memory=003C",
        "0 6 pointer=6 z0=0000,3C00",
    ),
    // A displacement of one byte, 1 and -1: times 16, 32, 64, and 2 under broadcast.
    (
        "code=62F574095D4001 k1=1 r0=FFFFFFFFFFFFFFF1 z1=4000 memory=AA003C",
        "0 7 pointer=7 z0=3C00",
    ),
    (
        "code=62F574295D4001 k1=1 r0=FFFFFFFFFFFFFFE1 z1=4000 memory=AA003C",
        "0 7 pointer=7 z0=3C00",
    ),
    (
        "code=62F37449C2500101 k1=1 r0=FFFFFFFFFFFFFFC1 z1=3C00 memory=AA0040",
        "0 8 pointer=8 k2=1",
    ),
    (
        "code=62F37459C2500101 k1=1 r0=FFFFFFFFFFFFFFFF z1=3C00 memory=AA0040",
        "0 8 pointer=8 k2=1",
    ),
    (
        "code=62F37409C250FF01 k1=1 r0=11 z1=3C00 memory=AA0040",
        "0 8 pointer=8 k2=1",
    ),
    // Four bytes, in bytes; with a SIB byte, the longest: 12.
    (
        "code=62F37409C290FFFFFFFF01 k1=1 r0=2 z1=3C00 memory=AA0040",
        "0 11 pointer=B k2=1",
    ),
    (
        "code=62F37449C294C80001000001 k1=1 r0=FFFFFFFFFFFFFF00 z1=3C00 memory=0040",
        "0 12 pointer=C k2=1",
    ),
    // Nine bytes: a SIB byte, a displacement of one, an immediate. RSP-16.
    (
        "code=62F37409C25424FF01 k1=1 r4=11 z1=3C00 memory=AA0040",
        "0 9 pointer=9 k2=1",
    ),
    // Relative to the next instruction, behind the immediate: 11-10, and 0+1 over 2 to the 64.
    (
        "code=62F37409C215F6FFFFFF01 k1=1 z1=3C00 memory=AA0040",
        "0 11 pointer=B k2=1",
    ),
    (
        "code=62F37409C2150100000001 pointer=FFFFFFFFFFFFFFF5 k1=1 z1=3C00 memory=AA0040",
        "0 11 pointer=0 k2=1",
    ),
    (
        "code=62F574095D05F7FFFFFF k1=1 z1=4000 memory=AA003C",
        "0 10 pointer=A z0=3C00",
    ),
];

/// R4.9: what has the opcode of one and not its prefix, map or W.
const NOT_LISTED: &[Row] = &[
    ("code=62F575085DC2", "4 0"),
    ("code=62F576085DC2", "4 0"),
    ("code=62F577085FC2", "4 0"),
    ("code=62F5F4085DC2", "4 0"),
    ("code=62F674085FC2", "4 0"),
    ("code=62F374085DC2", "4 0"),
    ("code=62F37508C2CA00", "4 0"),
    ("code=62F37608C2CA00", "4 0"),
    ("code=62F37708C2CA00", "4 0"),
    ("code=62F3F408C2CA00", "4 0"),
    ("code=62F17408C2CA00", "4 0"),
    ("code=62F57408C2CA00", "4 0"),
    ("code=62F67408C2CA00", "4 0"),
    // Before z, a destination above 7, and an immediate that is not there.
    ("code=62F3F488C2CA00", "4 0"),
    ("code=62737608C2CA00", "4 0"),
    ("code=62F37608C2CA", "4 0"),
];

/// R4.10: z with VCMPPH, whatever aaa is, and a destination above 7; where they stand in the order.
const RESERVED: &[Row] = &[
    ("code=62F37488C2CA00", "5 0"),
    ("code=62F37489C2CA00 k1=FF", "5 0"),
    ("code=62F3748FC2CA00", "5 0"),
    ("code=62F374C9C2CA00 k1=FF", "5 0"),
    ("code=62F37499C2CA00 k1=FF", "5 0"),
    ("code=62F37489C20800 k1=FF memory=0040", "5 0"),
    ("code=62F37499C20800 k1=FF memory=0040", "5 0"),
    // R, R', both; X and B stored as zeros pick second sources 18 and 10.
    ("code=62737408C2CA00", "5 0"),
    ("code=62E37408C2CA00", "5 0"),
    ("code=62637408C2CA00", "5 0"),
    ("code=62737408C20800 memory=0040", "5 0"),
    ("code=62E37418C2FA00", "5 0"),
    (
        "code=62B37408C2CA00 z1=3C00 z18=3C00",
        "0 7 pointer=7 k1=FF",
    ),
    (
        "code=62D37408C2CA00 z1=3C00 z10=3C00",
        "0 7 pointer=7 k1=FF",
    ),
    // Length bits 3 without suppression.
    ("code=62F37468C2CA00", "5 0"),
    ("code=62F37468C20800 memory=0040", "5 0"),
    ("code=62F37478C20800 memory=0040", "5 0"),
    ("code=62F574785D00 memory=0040", "5 0"),
    // Before bytes that are not there, a SIB byte, a displacement, the immediate: 3 without them.
    ("code=62F37489C2CA k1=FF", "5 0"),
    ("code=62737408C2CA", "5 0"),
    ("code=62F37468C2CA", "5 0"),
    ("code=62F37408C2CA", "3 0"),
    ("code=62F37489C20C k1=FF", "5 0"),
    ("code=62E37408C20C", "5 0"),
    ("code=62F37408C20C", "3 0"),
    ("code=62F37489C24C24 k1=FF", "5 0"),
    ("code=62F37408C24C24", "3 0"),
    ("code=62F37408C24C2401", "3 0"),
    ("code=62F37408C24C240100", "7 0"),
    ("code=62F37408C20D000000", "3 0"),
    ("code=62F37408C20D00000000", "3 0"),
    ("code=62F37408C20D0000000000", "7 0"),
    ("code=62F37408C28C2500000000", "3 0"),
    ("code=62F37408C28C250000000000", "7 0"),
    // A missing immediate comes before memory that is not there and before an exception.
    ("code=62F37408C208", "3 0"),
    (
        "code=62F37408C2CA control=00000000 z1=7C01x8 z2=3C00x8",
        "3 0",
    ),
    // Before memory and exceptions: z, the destination.
    ("code=62F37489C20800 k1=FF", "5 0"),
    ("code=62737408C2CA00 control=00000000 z1=7C01x8", "5 0"),
    // Behind too few bytes, byte 0, the fixed bits.
    ("code=62F37488C2", "3 0"),
    ("code=63F37488C2CA00", "4 0"),
    ("code=62FB7408C2CA00", "5 0"),
    ("code=62F37008C2CA00", "5 0"),
];

/// R7.1 to R7.5, R6.27: IE and DE, which are early both, so that one unmasked leaves out nothing.
/// The lanes by k1 are 7C01 1 (IE), 7E00 1 (IE, of VCMPPH by some predicates), 0001 1 (DE), 1 2.
const EXCEPTIONS: &[Row] = &[
    (
        "code=62F574095DC2 control=00001F00 k1=1 z0=1111x32 z1=7C01 z2=3C00",
        "8 0 control=00001F01",
    ),
    (
        "code=62F574095FC2 control=00001F00 k1=1 z0=1111x32 z1=7E00 z2=3C00",
        "8 0 control=00001F01",
    ),
    (
        "code=62F574095DC2 control=00001E80 k1=1 z0=1111x32 z1=0001 z2=3C00",
        "8 0 control=00001E82",
    ),
    // The other of the two is set too, in whatever lane, and nothing is written.
    (
        "code=62F574095DC2 control=00001F00 k1=F z0=1111x32 z1=7C01,7E00,0001,3C00 z2=3C00x3,4000",
        "8 0 control=00001F03",
    ),
    (
        "code=62F37409C2D201 control=00001E80 k1=F k2=FFFF z1=7C01,7E00,0001,3C00 z2=3C00x3,4000",
        "8 0 control=00001E83",
    ),
    // VCMPPH and a quiet NaN: LT_OS stops, LT_OQ does not; UNORD_Q says yes of it.
    (
        "code=62F37409C2D201 control=00001F00 k1=2 k2=FFFF z1=7C01,7E00,0001,3C00 z2=3C00x3,4000",
        "8 0 control=00001F01",
    ),
    (
        "code=62F37409C2D211 control=00001F00 k1=A k2=FFFF z1=7C01,7E00,0001,3C00 z2=3C00x3,4000",
        "0 7 pointer=7 k2=8",
    ),
    (
        "code=62F37409C2D203 control=00000000 k1=A k2=FFFF z1=7C01,7E00,0001,3C00 z2=3C00x3,4000",
        "0 7 pointer=7 k2=2",
    ),
    // A signalling one stops each.
    (
        "code=62F37409C2D203 control=00001F00 k1=1 k2=FFFF z1=7C01,7E00,0001,3C00 z2=3C00x3,4000",
        "8 0 control=00001F01",
    ),
    // No DE beside a quiet NaN that is not signalled.
    (
        "code=62F37409C2D203 control=00000000 k1=1 z1=0001 z2=7E00",
        "0 7 pointer=7 k2=1",
    ),
    (
        "code=62F37409C2D213 k1=1 z1=0001 z2=7E00",
        "0 7 control=00001F81 pointer=7 k2=1",
    ),
    // Masked, both are set, and all lanes compared: LT_OS.
    (
        "code=62F37409C2D201 k1=F z1=7C01,7E00,0001,3C00 z2=3C00x3,4000",
        "0 7 control=00001F83 pointer=7 k2=C",
    ),
    // Even FALSE_OS and TRUE_US signal; FALSE_OQ and TRUE_UQ have DE all the same.
    (
        "code=62F37409C2D21B k1=2 k2=FFFF z1=7C01,7E00,0001,3C00 z2=3C00x3,4000",
        "0 7 control=00001F81 pointer=7 k2=0",
    ),
    (
        "code=62F37409C2D21F k1=2 z1=7C01,7E00,0001,3C00 z2=3C00x3,4000",
        "0 7 control=00001F81 pointer=7 k2=2",
    ),
    (
        "code=62F37409C2D20B k1=6 k2=FFFF z1=7C01,7E00,0001,3C00 z2=3C00x3,4000",
        "0 7 control=00001F82 pointer=7 k2=0",
    ),
    (
        "code=62F37409C2D20F k1=6 z1=7C01,7E00,0001,3C00 z2=3C00x3,4000",
        "0 7 control=00001F82 pointer=7 k2=6",
    ),
    // Unmasked OE, UE, PE and ZE stop nothing; flags from before count for nothing.
    (
        "code=62F37409C2D201 control=00000180 k1=F z1=7C01,7E00,0001,3C00 z2=3C00x3,4000",
        "0 7 control=00000183 pointer=7 k2=C",
    ),
    (
        "code=62F574095DC2 control=0000003F k1=8 z1=7C01,7E00,0001,3C00 z2=3C00x3,4000",
        "0 6 pointer=6 z0=0000x3,3C00",
    ),
    // R4.16: an address outside memory comes first, and sets no flag.
    (
        "code=62F37409C21001 control=00000000 k1=3 k2=FF z1=3C00x2 memory=017C",
        "7 0",
    ),
];

#[test]
fn minimum_and_maximum() {
    check(MINIMUM_MAXIMUM);
}

#[test]
fn lanes() {
    check(LANES);
}

#[test]
fn masks() {
    check(MASKS);
}

#[test]
fn immediates() {
    check(IMMEDIATES);
}

#[test]
fn suppression() {
    check(SUPPRESSION);
}

#[test]
fn memory() {
    check(MEMORY);
}

#[test]
fn not_listed() {
    check(NOT_LISTED);
}

#[test]
fn reserved_forms() {
    check(RESERVED);
}

#[test]
fn exceptions() {
    check(EXCEPTIONS);
}

/// R6.28: lanes 0 to 3 are less, equal, greater, unordered by a quiet NaN, and lanes 4 to 7 the
/// same with other halves; no lane has a signalling one. The mask and IE are the table's.
#[test]
fn every_predicate_of_a_step() {
    let lane = |place: usize| PAIRS[place % 4][place / 4];
    let [first, second] = [0, 1].map(|source| {
        let halves = (0..8).map(lane).map(|(a, b)| [a, b][source]);
        let halves: Vec<String> = halves.map(|half| format!("{half:04X}")).collect();
        halves.join(",")
    });
    for number in 0..32 {
        let row = predicate(number);
        let holds = (0..8).filter(|place| row.holds[place % 4]);
        let mask = holds.fold(0, |mask, place| mask | 1_u64 << place);
        let flag = if row.signals { " control=00001F81" } else { "" };
        for upper in [0, 0x20, 0xC0, 0xE0] {
            let immediate = number | upper;
            let line = format!("code=62F37408C2EA{immediate:02X} k5=A5A5 z1={first} z2={second}");
            check(&[(&line, &format!("0 7{flag} pointer=7 k5={mask:X}"))]);
        }
    }
}

/// The same with a signalling NaN in one lane, which every predicate signals and holds unordered.
#[test]
fn every_predicate_and_a_signalling_nan() {
    for number in 0..32 {
        let holds = u8::from(predicate(number).holds[3]);
        for (a, b) in PAIRS[SIGNALLING] {
            let line = format!("code=62F37409C2D2{number:02X} k1=1 k2=A5 z1={a:04X} z2={b:04X}");
            let expected = format!("0 7 control=00001F81 pointer=7 k2={holds}");
            check(&[(&line, &expected)]);
        }
    }
}
