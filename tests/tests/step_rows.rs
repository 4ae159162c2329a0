//! Steps of packed rows that a person wrote (`rows.rs` says how). Those of scalar rows are in
//! `scalar_rows.rs`, the examples of docs/RULES.md in `rules.rs`.

use ridgecrook_tests::rows::{check, Row};

/// R12.1: the examples marked *, each as lane 0 of a step.
const STARRED: &[Row] = &[
    (
        "code=62F5740958C2 k1=1 z0=7777 z1=3C00 z2=BC00",
        "0 6 pointer=6 z0=",
    ),
    (
        "code=62F5740958C2 k1=1 control=00003F80 z0=7777 z1=3C00 z2=BC00",
        "0 6 pointer=6 z0=8000",
    ),
    (
        "code=62F5740958C2 k1=1 z1=7BFF z2=4C00",
        "0 6 control=00001FA8 pointer=6 z0=7C00",
    ),
    (
        "code=62F5740958C2 k1=1 z1=7BFF z2=4BFF",
        "0 6 control=00001FA0 pointer=6 z0=7BFF",
    ),
    (
        "code=62F574095EC2 k1=1 z1=3C00 z2=4200",
        "0 6 control=00001FA0 pointer=6 z0=3555",
    ),
    (
        "code=62F574095EC2 k1=1 control=00005F80 z1=3C00 z2=4200",
        "0 6 control=00005FA0 pointer=6 z0=3556",
    ),
    (
        "code=62F5740959C2 k1=1 z0=7777 z1=0001 z2=3800",
        "0 6 control=00001FB2 pointer=6 z0=",
    ),
    (
        "code=62F5740959C2 k1=1 z1=2010 z2=1FE0",
        "0 6 control=00001FA0 pointer=6 z0=0400",
    ),
    (
        "code=62F5740959C2 k1=1 control=00007F80 z1=2010 z2=1FE0",
        "0 6 control=00007FB0 pointer=6 z0=03FF",
    ),
    (
        "code=62F5740959C2 k1=1 z1=0400 z2=3800",
        "0 6 pointer=6 z0=0200",
    ),
    (
        "code=62F5740959C2 k1=1 control=00001780 z1=0400 z2=3800",
        "8 0 control=00001790",
    ),
    (
        "code=62F67509B8C2 k1=1 z0=BC02 z1=3C01 z2=3C01",
        "0 6 pointer=6 z0=0010",
    ),
    (
        "code=62F57C0951C2 k1=1 z2=4000",
        "0 6 control=00001FA0 pointer=6 z0=3DA8",
    ),
    (
        "code=62F57C0951C2 k1=1 z2=BC00",
        "0 6 control=00001F81 pointer=6 z0=FE00",
    ),
    (
        "code=62F5740958C2 k1=1 z1=7E01 z2=7D00",
        "0 6 control=00001F81 pointer=6 z0=7E01",
    ),
    (
        "code=62F5740958C2 k1=1 z1=7D00 z2=3C00",
        "0 6 control=00001F81 pointer=6 z0=7F00",
    ),
    (
        "code=62F574095EC2 k1=1 z1=0001 z2=0000",
        "0 6 control=00001F84 pointer=6 z0=7C00",
    ),
    (
        "code=62F574095EC2 k1=1 z1=7E01 z2=0000",
        "0 6 pointer=6 z0=7E01",
    ),
];

/// R2.1: the order of the fused operands, which the numbers 2, 3 and 10 in destination, first and
/// second source tell apart.
const FUSED: &[Row] = &[
    // 2*10+3
    (
        "code=62F6754898C2 z0=4000x32 z1=4200x32 z2=4900x32",
        "0 6 pointer=6 z0=4DC0x32",
    ),
    // 3*2+10
    (
        "code=62F67548A8C2 z0=4000x32 z1=4200x32 z2=4900x32",
        "0 6 pointer=6 z0=4C00x32",
    ),
    // 3*10+2
    (
        "code=62F67548B8C2 z0=4000x32 z1=4200x32 z2=4900x32",
        "0 6 pointer=6 z0=5000x32",
    ),
    // R6.6: the first NaN.
    (
        "code=62F6750898C2 z0=7E10x8 z1=7E11x8 z2=7E12x8",
        "0 6 pointer=6",
    ),
    (
        "code=62F6750898C2 z0=3C00x8 z1=7E11x8 z2=7E12x8",
        "0 6 pointer=6 z0=7E12x8",
    ),
    (
        "code=62F67508A8C2 z0=7E10x8 z1=7E11x8 z2=7E12x8",
        "0 6 pointer=6 z0=7E11x8",
    ),
    (
        "code=62F67508A8C2 z0=7E10x8 z1=3C00x8 z2=7E12x8",
        "0 6 pointer=6",
    ),
    (
        "code=62F67508B8C2 z0=7E10x8 z1=7E11x8 z2=7E12x8",
        "0 6 pointer=6 z0=7E11x8",
    ),
    (
        "code=62F67508B8C2 z0=7E10x8 z1=3C00x8 z2=7E12x8",
        "0 6 pointer=6 z0=7E12x8",
    ),
];

/// Mistakes that were made or nearly made, each under what it teaches.
const TRAPS: &[Row] = &[
    // R5.9: what is above the vector becomes 0 even when every lane is off.
    (
        "code=62F5740958C2 z0=1234x32 z1=3C00x32",
        "0 6 pointer=6 z0=1234x8",
    ),
    (
        "code=62F5742958C2 k1=1 z0=1234x32 z1=3C00x32",
        "0 6 pointer=6 z0=3C00,1234x15",
    ),
    // R5.2, R5.9: a lane that is off raises no flag; z makes it 0.
    (
        "code=62F574CA5EC2 control=00000000 k2=80000002 z0=1234x32 z1=3C00x32 \
         z2=0000,3C00,0000x29,4000",
        "0 6 pointer=6 z0=0000,3C00,0000x29,3800",
    ),
    // R5.1: k0 is no mask.
    (
        "code=62F5740858C2 k0=1 z1=3C00x8",
        "0 6 pointer=6 z0=3C00x8",
    ),
    // R5.1: bits of a mask above the lanes switch nothing on, and no bit of another register does.
    (
        "code=62F5740958C2 k0=FF k1=FFFFFFFFFFFFFF00 k2=FF z0=1234x8 z1=3C00x32",
        "0 6 pointer=6",
    ),
    // R5.6: the word of a broadcast is needed only if a lane is on, and one lane is enough.
    ("code=62F574595800 z0=1234x32", "0 6 pointer=6"),
    ("code=62F574595800 k1=80000000 z0=1234x32", "7 0"),
    // Bits above the lanes need none either.
    ("code=62F574195800 k1=FFFFFF00 z0=1234x8", "0 6 pointer=6"),
    // R7.2, R7.3: flags from before stay and count for nothing.
    (
        "code=62F5740858C2 control=0000003F z1=3C00x8",
        "0 6 pointer=6 z0=3C00x8",
    ),
    // R6.20: OE always comes with PE. E200*7800 overflows with OE unmasked.
    (
        "code=62F5744959C2 control=00001B80 k1=1 z1=E200 z2=7800",
        "8 0 control=00001BA8",
    ),
    // R7.5: embedded rounding has UE masked, and sets no flag: 0400*3800.
    (
        "code=62F5741859C2 control=00000000 z1=0400 z2=3800",
        "0 6 pointer=6 z0=0200",
    ),
    // R3.8: its mode is in the length bits, not the control word: 5/3 and -5/3 tell all four apart.
    (
        "code=62F574185EC2 control=00006000 z1=4500,C500 z2=4200x32",
        "0 6 pointer=6 z0=3EAB,BEAB",
    ),
    (
        "code=62F574385EC2 control=00000000 z1=4500,C500 z2=4200x32",
        "0 6 pointer=6 z0=3EAA,BEAB",
    ),
    (
        "code=62F574585EC2 control=00002000 z1=4500,C500 z2=4200x32",
        "0 6 pointer=6 z0=3EAB,BEAA",
    ),
    (
        "code=62F574785EC2 control=00004000 z1=4500,C500 z2=4200x32",
        "0 6 pointer=6 z0=3EAA,BEAA",
    ),
    // R3.8: broadcast is no embedded rounding: mode and masks are the control word's.
    (
        "code=62F574385E00 z1=4500,C500 memory=0042",
        "0 6 control=00001FA0 pointer=6 z0=3EAB,BEAB",
    ),
    (
        "code=62F574385E00 control=00001D80 z0=1111x32 z1=3C00x32 memory=0000",
        "8 0 control=00001D84",
    ),
    // R1.6: DAZ and FZ change nothing.
    (
        "code=62F5740858C2 control=00009FC0 z1=0001 z2=0001",
        "0 6 control=00009FC2 pointer=6 z0=0002",
    ),
    // R5.8: the destination may be each of the sources.
    (
        "code=62F57C4858C0 z0=3C00,4000",
        "0 6 pointer=6 z0=4000,4400",
    ),
    // R4.16: 7 leaves everything, also what a lane inside memory would have raised.
    (
        "code=62F574085E00 control=00000000 z0=1234x32 z1=3C00x8 memory=0000",
        "7 0",
    ),
    // R5.5: a lane's address wraps: lane 0 is off at -2, lane 1 reads at 0.
    (
        "code=62F574095800 k1=2 r0=FFFFFFFFFFFFFFFE z1=0000,3C00 memory=003C",
        "0 6 pointer=6 z0=0000,4000",
    ),
];

/// R7.4: which flags 8 leaves. Of the lanes 1/0 has ZE, 1/3 PE, 0/0 IE, 0001/3C00 DE, 7BFF/3800 OE
/// and PE, 0401/4000 UE and PE; all others are 0/0 and off, but in the last row.
const STAGES: &[Row] = &[
    // ZE unmasked, PE of the other lane masked.
    (
        "code=62F574495EC2 control=00001D80 k1=3 z0=1111x32 z1=3C00x2 z2=0000,4200",
        "8 0 control=00001D84",
    ),
    // ZE masked and PE unmasked: a masked exception stops nothing early.
    (
        "code=62F574495EC2 control=00000F80 k1=3 z0=1111x32 z1=3C00x2 z2=0000,4200",
        "8 0 control=00000FA4",
    ),
    // Both unmasked.
    (
        "code=62F574495EC2 control=00000D80 k1=3 z0=1111x32 z1=3C00x2 z2=0000,4200",
        "8 0 control=00000D84",
    ),
    // The lane that stops is the last, and PE unmasked too.
    (
        "code=62F574495EC2 control=00000D80 k1=80000001 z0=1111x32 z1=3C00,0000x30,3C00 z2=4200",
        "8 0 control=00000D84",
    ),
    // PE from before stays.
    (
        "code=62F574495EC2 control=00001DA0 k1=3 z1=3C00x2 z2=0000,4200",
        "8 0 control=00001DA4",
    ),
    // ZE unmasked: IE and DE of other lanes are set, though masked; OE, UE and PE are not.
    (
        "code=62F574495EC2 control=00001D80 k1=1F z1=3C00,0000,0001,7BFF,0401 \
         z2=0000,0000,3C00,3800,4000",
        "8 0 control=00001D87",
    ),
    // OE unmasked alone: those of both stages, of all lanes.
    (
        "code=62F574495EC2 control=00001B80 k1=1F z1=3C00,0000,0001,7BFF,0401 \
         z2=0000,0000,3C00,3800,4000",
        "8 0 control=00001BBF",
    ),
    // DE and PE in one lane, 0001/4200: DE unmasked stops it before PE, and UE, show.
    (
        "code=62F574495EC2 control=00001E80 k1=1 z1=0001 z2=4200",
        "8 0 control=00001E82",
    ),
    // UE unmasked, DE masked, in one lane.
    (
        "code=62F574495EC2 control=00001780 k1=1 z1=0001 z2=4200",
        "8 0 control=000017B2",
    ),
    // A lane that is off stops nothing early: 0/0, with IE unmasked, is off; 1/3 has PE unmasked.
    (
        "code=62F574495EC2 control=00000F00 k1=1 z1=3C00 z2=4200",
        "8 0 control=00000F20",
    ),
    // IE, the lowest, and nothing else: 0/0 and 1/3.
    (
        "code=62F574495EC2 control=00001F00 k1=3 z1=0000,3C00 z2=0000,4200",
        "8 0 control=00001F01",
    ),
    // R7.5: embedded rounding unmasks nothing and sets nothing; 30 lanes are 0/0.
    (
        "code=62F574185EC2 control=00000000 z1=3C00x2 z2=0000,4200",
        "0 6 pointer=6 z0=7C00,3555,FE00x30",
    ),
];

/// Where operands stand: k1 is 1 and the lane that is on adds 0 and 1.0.
const PLACES: &[Row] = &[
    // R3.11, R5.4: relative to the next instruction, forward over 2 to the 64 and backward; neither
    // B nor X counts.
    (
        "code=62F57409580506000000 pointer=FFFFFFFFFFFFFFF0 k1=1 memory=003C",
        "0 10 pointer=FFFFFFFFFFFFFFFA z0=3C00",
    ),
    (
        "code=62957409580501000000 pointer=FFFFFFFFFFFFFFFA k1=1 memory=AAAAAAAAAA003C",
        "0 10 pointer=4 z0=3C00",
    ),
    (
        "code=62F574095805F6FFFFFF pointer=1 k1=1 memory=AA003C",
        "0 10 pointer=B z0=3C00",
    ),
    // R3.10: RBX+8*RCX
    (
        "code=62F574095804CB r1=FFFFFFFFFFFFFFFF r3=9 k1=1 memory=AA003C",
        "0 7 pointer=7 z0=3C00",
    ),
    // R3.11: no base, 2*RCX-2. B does not count.
    (
        "code=62F5740958044DFEFFFFFF r1=1 r5=77 r13=77 k1=1 memory=003C",
        "0 11 pointer=B z0=3C00",
    ),
    (
        "code=62D5740958044DFEFFFFFF r1=1 r5=77 r13=77 k1=1 memory=003C",
        "0 11 pointer=B z0=3C00",
    ),
    // Neither base nor index.
    (
        "code=62F5740958042501000000 r4=77 r5=77 r13=77 k1=1 memory=AA003C",
        "0 11 pointer=B z0=3C00",
    ),
    // R3.10: RSP without an index; with X stored as zero, the same index bits mean R12.
    (
        "code=62F57409580424 r4=1 r12=1 k1=1 memory=AA003C00BC",
        "0 7 pointer=7 z0=3C00",
    ),
    (
        "code=62B57409580424 r4=1 r12=2 k1=1 memory=AAAAAA003C",
        "0 7 pointer=7 z0=3C00",
    ),
    // B makes RSP R12, and R12 needs a SIB byte too.
    (
        "code=62D57409580424 r12=1 r4=77 k1=1 memory=AA003C",
        "0 7 pointer=7 z0=3C00",
    ),
    ("code=62D574095804 r12=0 k1=1 memory=003C", "3 0"),
    // R3.12, R3.13: [RBP] and [R13] have a displacement, of one byte times N or of four.
    (
        "code=62F574095845FF r5=11 k1=1 memory=AA003C",
        "0 7 pointer=7 z0=3C00",
    ),
    (
        "code=62D574295845FF r13=21 k1=1 memory=AA003C",
        "0 7 pointer=7 z0=3C00",
    ),
    (
        "code=62F574495845FF r5=41 k1=1 memory=AA003C",
        "0 7 pointer=7 z0=3C00",
    ),
    (
        "code=62F574595845FF r5=3 k1=1 memory=AA003C",
        "0 7 pointer=7 z0=3C00",
    ),
    (
        "code=62F574095885FFFFFFFF r5=2 k1=1 memory=AA003C",
        "0 10 pointer=A z0=3C00",
    ),
    // R3.10: without a SIB byte X does not count.
    (
        "code=62B574095800 r0=1 r8=77 k1=1 memory=AA003C",
        "0 6 pointer=6 z0=3C00",
    ),
    // R3.6: R' R reg, V' vvvv and X B rm, together and one bit at a time.
    ("code=6205040058CF z31=3C00x32", "0 6 pointer=6 z25=4000x8"),
    ("code=62B5740858C2 z18=3C00", "0 6 pointer=6 z0=3C00"),
    ("code=62D5740858C2 z10=3C00", "0 6 pointer=6 z0=3C00"),
    ("code=6275740858C2 z2=3C00", "0 6 pointer=6 z8=3C00"),
    ("code=62E5740858C2 z2=3C00", "0 6 pointer=6 z16=3C00"),
    ("code=62F57C0058C2 z16=3C00", "0 6 pointer=6 z0=3C00"),
    ("code=62F53C0858C2 z8=3C00", "0 6 pointer=6 z0=3C00"),
    // R2.2, R4.10: the root takes its second source; its first-source bits are ones.
    (
        "code=62F57C4851C2 z0=7777x32 z2=4000x32",
        "0 6 control=00001FA0 pointer=6 z0=3DA8x32",
    ),
    ("code=62F57C4051C2 z2=4000x32", "5 0"),
    ("code=62F53C4851C2 z2=4000x32", "5 0"),
];

#[test]
fn starred_rows() {
    check(STARRED);
}

/// A starred row as one of a scalar row: prefix F3 in byte 2, or the opcode one higher. Its other
/// lanes are 0 in every register, so the same becomes of it.
fn scalar_form(line: &str) -> String {
    let bytes = [("62F574", "62F576"), ("62F57C", "62F57E"), ("B8C2", "B9C2")];
    let changed = bytes.iter().find(|(packed, _)| line.contains(packed));
    let (packed, scalar) = changed.expect("bytes of a starred row");
    line.replacen(packed, scalar, 1)
}

#[test]
fn starred_rows_of_scalar_forms() {
    let lines: Vec<String> = STARRED.iter().map(|(line, _)| scalar_form(line)).collect();
    let expected = STARRED.iter().map(|(_, expected)| *expected);
    let rows: Vec<(&str, &str)> = lines.iter().map(String::as_str).zip(expected).collect();
    check(&rows);
}

#[test]
fn fused_operands() {
    check(FUSED);
}

#[test]
fn traps() {
    check(TRAPS);
}

#[test]
fn two_stages() {
    check(STAGES);
}

#[test]
fn places_of_operands() {
    check(PLACES);
}
