//! Recordings that a person wrote, byte by byte, with the report that is due (R14.1 to R14.7):
//! by the second program and the library. Nothing here is taken from the writer of recordings that
//! other tests use.
//! A recording is written in hexadecimal digits; `*` repeats what stands before it: `003C*32` is a
//! register of ones. A space has no meaning.

use ridgecrook_tests::checked_replay::Replays;
use ridgecrook_tests::second::replay::Report::{self, BadItem, BadState, Differs, Same};

/// A recording in pieces, and its report.
type Row<'a> = (&'a [&'a str], Report);

fn bytes_of(text: &str) -> Vec<u8> {
    let mut bytes = Vec::new();
    for word in text.split_whitespace() {
        let (digits, times) = word.split_once('*').unwrap_or((word, "1"));
        let pairs = (0..digits.len()).step_by(2);
        let piece = pairs.map(|at| u8::from_str_radix(&digits[at..at + 2], 16).expect(word));
        let piece: Vec<u8> = piece.collect();
        bytes.extend(piece.repeat(times.parse().expect(word)));
    }
    bytes
}

fn check(name: &'static str, rows: &[Row]) {
    let replays = Replays::of(name, env!("CARGO_TARGET_TMPDIR"));
    for (number, (pieces, report)) in rows.iter().enumerate() {
        let bytes: Vec<u8> = pieces.iter().flat_map(|text| bytes_of(text)).collect();
        replays.reports(number, &bytes, *report);
    }
}

#[test]
fn the_notation() {
    assert_eq!(bytes_of("00ff 3C*2"), [0, 255, 0x3C, 0x3C]);
    assert_eq!(bytes_of("0042*2 01"), [0, 0x42, 0, 0x42, 1]);
    assert_eq!(bytes_of(BLANK_1).len(), 2257);
    assert_eq!(bytes_of(BLANK_2).len(), 213);
    assert_eq!(bytes_of(SUM).len(), 83);
}

/// All zero but for the control word, in both versions: length, version, control word, then pointer,
/// general registers and masks, then the vector file.
const BLANK_1: &str = "000008CD 01 00001F80 00*200 00*2048";
const BLANK_2: &str = "000000D1 02 00001F80 00*200 00000000";

/// zmm1 is 1 and zmm2 is 2 in every lane, in both versions.
const ONE_TWO_1: &str = "000008CD 01 00001F80 00*200 00*64 003C*32 0040*32 00*1856";
const ONE_TWO: &str = "00000151 02 00001F80 00*200 00000006 003C*32 0040*32";

/// The same with 5 in zmm0, and with bytes in k1 of which no two are alike.
const FIVE_ONE_TWO: &str = "00000191 02 00001F80 00*8 00*128 00*8 0102030405060708 00*48 \
                            00000007 0045*32 003C*32 0040*32";

/// zmm0 = zmm1 + zmm2, which is 3.
const SUM: &str = "0000004F 01 00 06 62F5744858C2 0000 00001F80 0042*32";

/// The same as it does not agree (it has 4), and as it is not well formed (it has version 2).
const WRONG_SUM: &str = "0000004F 01 00 06 62F5744858C2 0000 00001F80 0044*32";
const BAD_SUM: &str = "0000004F 02 00 06 62F5744858C2 0000 00001F80 0042*32";

/// zmm0 = zmm0 + zmm1, where that is 1, 2, 3 and 4.
const COUNT_1: &str = "0000004F 01 00 06 62F57C4858C1 0000 00001F80 003C*32";
const COUNT_2: &str = "0000004F 01 00 06 62F57C4858C1 0000 00001F80 0040*32";
const COUNT_3: &str = "0000004F 01 00 06 62F57C4858C1 0000 00001F80 0042*32";
const COUNT_4: &str = "0000004F 01 00 06 62F57C4858C1 0000 00001F80 0044*32";

/// Bytes that are no instruction, and no bytes.
const REFUSED: &str = "0000004A 01 04 01 90 0000 00001F80 00*64";
const NO_CODE: &str = "00000049 01 03 00 0000 00001F80 00*64";

#[test]
fn states_and_items() {
    let zero_sum = "0000004F 01 00 06 62F5744858C2 0000 00001F80 00*64";
    check(
        "states and items",
        &[
            (&[], BadState),
            // No items.
            (&[BLANK_1], Same(0)),
            (&[BLANK_2], Same(0)),
            (&[ONE_TWO_1], Same(0)),
            (&[ONE_TWO], Same(0)),
            // Some.
            (&[BLANK_1, zero_sum], Same(1)),
            (&[BLANK_2, zero_sum], Same(1)),
            (&[ONE_TWO_1, SUM], Same(1)),
            (&[ONE_TWO, SUM], Same(1)),
            (&[ONE_TWO_1, SUM, SUM], Same(2)),
            (&[ONE_TWO, SUM, SUM, SUM], Same(3)),
            (&[BLANK_1, SUM], Differs(0)),
            (&[BLANK_2, SUM], Differs(0)),
            (&[ONE_TWO_1, zero_sum], Differs(0)),
            (&[ONE_TWO, SUM, zero_sum], Differs(1)),
            // A state is no item, and an item no state.
            (&[ONE_TWO, ONE_TWO], BadItem(0)),
            (&[BLANK_1, BLANK_1], BadItem(0)),
            (&[SUM], BadState),
            (&[SUM, ONE_TWO, SUM], BadState),
        ],
    );
}

/// Each step goes on from the state that the one before left (R14.4).
#[test]
fn the_state_goes_on() {
    check(
        "the state goes on",
        &[
            (&[ONE_TWO, COUNT_1, COUNT_2, COUNT_3, COUNT_4], Same(4)),
            (&[ONE_TWO_1, COUNT_1, COUNT_2, COUNT_3, COUNT_4], Same(4)),
            (&[ONE_TWO, COUNT_1, COUNT_1], Differs(1)),
            (&[ONE_TWO, COUNT_2], Differs(0)),
            (&[ONE_TWO, COUNT_1, COUNT_2, COUNT_4, COUNT_4], Differs(2)),
            (&[ONE_TWO, COUNT_1, COUNT_2, COUNT_3, COUNT_3], Differs(3)),
            // zmm0 is 3 after the sum.
            (&[ONE_TWO, SUM, COUNT_4], Same(2)),
            (&[ONE_TWO, SUM, COUNT_1], Differs(1)),
            (&[ONE_TWO, COUNT_1, SUM, COUNT_4, SUM], Same(4)),
        ],
    );
}

/// An answer number that is not ours differs, be it of another answer or of none (R14.6).
#[test]
fn answer_numbers() {
    for answer in 1..=255 {
        let item = format!("0000004F 01 {answer:02X} 06 62F5744858C2 0000 00001F80 0042*32");
        // With the zeros that go with most answers too.
        let zeros = format!("0000004F 01 {answer:02X} 06 62F5744858C2 0000 00001F80 00*64");
        let refused = format!("00000049 01 {answer:02X} 00 0000 00001F80 00*64");
        let of_refused = if answer == 3 { Same(1) } else { Differs(0) };
        check(
            "answer numbers",
            &[
                (&[ONE_TWO, &item], Differs(0)),
                (&[ONE_TWO, SUM, &item, SUM], Differs(1)),
                (&[ONE_TWO, &zeros], Differs(0)),
                (&[BLANK_2, &refused], of_refused),
            ],
        );
    }
    let refused = "00000049 01 00 00 0000 00001F80 00*64";
    check("answer 0", &[(&[BLANK_2, refused], Differs(0))]);
}

#[test]
fn control_words() {
    let item = |control: &str| format!("0000004F 01 00 06 62F5744858C2 0000 {control} 0042*32");
    for control in [
        "00000000", "00001F81", "00001FA0", "00001F00", "00000F80", "00003F80", "00009F80",
        "00011F80", "01001F80", "80001F80", "801F0000", "1F800000", "FFFFFFFF",
    ] {
        let item = item(control);
        check("control words", &[(&[ONE_TWO, &item], Differs(0))]);
    }
    // 1/3 is inexact: the flag is set, and stays.
    let three = "00000151 02 00001F80 00*200 00000006 003C*32 0042*32";
    let divide = "0000004F 01 00 06 62F574485EC2 0000 00001FA0 5535*32";
    let without = "0000004F 01 00 06 62F574485EC2 0000 00001F80 5535*32";
    let sum = "0000004F 01 00 06 62F5744858C2 0000 00001F80 0044*32";
    let after = "0000004F 01 00 06 62F5744858C2 0000 00001FA0 0044*32";
    check(
        "control words of a quotient",
        &[
            (&[three, divide], Same(1)),
            (&[three, without], Differs(0)),
            (&[three, sum, divide, after], Same(3)),
            (&[three, divide, sum], Differs(1)),
            (&[three, after], Differs(0)),
        ],
    );
}

/// The destination is the register that the instruction names (R14.5).
#[test]
fn vector_destinations() {
    for (code, name) in [
        ("62F5744858C2", "zmm0"),
        ("62F5744858DA", "zmm3"),
        ("62F5744858FA", "zmm7"),
        ("6275744858C2", "zmm8"),
        ("6275744858FA", "zmm15"),
        ("62E5744858C2", "zmm16"),
        ("6265744858C2", "zmm24"),
        ("6265744858FA", "zmm31"),
    ] {
        let item = |half: &str| format!("0000004F 01 00 06 {code} 0000 00001F80 {half}*32");
        let [three, one, two, zero] = ["0042", "003C", "0040", "0000"].map(item);
        check(
            name,
            &[
                (&[ONE_TWO, &three], Same(1)),
                (&[ONE_TWO_1, &three, &three], Same(2)),
                (&[ONE_TWO, &one], Differs(0)),
                (&[ONE_TWO, &two], Differs(0)),
                (&[ONE_TWO, &zero], Differs(0)),
            ],
        );
    }
    // A source may be the destination: 1 + 2, then 3 + 2.
    let first = "0000004F 01 00 06 62F5744858CA 0000 00001F80 0042*32";
    let second = "0000004F 01 00 06 62F5744858CA 0000 00001F80 0045*32";
    // The lowest and the highest byte alone are wrong, and lanes in another order.
    let lowest = "0000004F 01 00 06 62F5744858C2 0000 00001F80 0142 0042*31";
    let highest = "0000004F 01 00 06 62F5744858C2 0000 00001F80 0042*31 0043";
    let order = "0000004F 01 00 06 62F5744858C2 0000 00001F80 4200*32";
    check(
        "sources and bytes",
        &[
            (&[ONE_TWO, first, second], Same(2)),
            (&[ONE_TWO, first, first], Differs(1)),
            (&[ONE_TWO, lowest], Differs(0)),
            (&[ONE_TWO, highest], Differs(0)),
            (&[ONE_TWO, order], Differs(0)),
        ],
    );
}

/// Of a mask the 8 bytes stand first, the highest in front, and zeros behind them (R14.5).
#[test]
fn mask_destinations() {
    // 1 < zmm2 in lanes 0 to 7 and 16; k1 had ones above its 32 lanes.
    let state = "00000151 02 00001F80 00*8 00*128 00*8 FF*8 00*48 \
                 00000006 003C*32 0040*8 003C*8 0040 003C*15";
    let item = |code: &str, mask: &str| format!("00000050 01 00 07 {code} 0000 00001F80 {mask}");
    let right = "00000000000100FF 00*56";
    for (code, name) in [
        ("62F37448C2C201", "k0"),
        ("62F37448C2CA01", "k1"),
        ("62F37448C2D201", "k2"),
        ("62F37448C2FA01", "k7"),
    ] {
        check(name, &[(&[state, &item(code, right)], Same(1))]);
        for wrong in [
            "FF00010000000000 00*56",
            "000100FF00000000 00*56",
            "FFFFFFFF000100FF 00*56",
            "00000000000100FF 00*55 01",
            "00000000000100FF 01 00*55",
            "00*56 00000000000100FF",
            "FF000100 00*60",
            "003C*32",
            "00*64",
        ] {
            let wrong = item(code, wrong);
            check(name, &[(&[state, &wrong], Differs(0))]);
        }
    }
    // A mask that one step writes is the next one's: 1 + zmm2 under k1, zeros elsewhere.
    let compare = item("62F37448C2CA01", right);
    let under = "0000004F 01 00 06 62F574C958C2 0000 00001F80 0042*8 0000*8 0042 0000*15";
    let whole = "0000004F 01 00 06 62F574C958C2 0000 00001F80 0042*8 0040*8 0042 0040*15";
    // Of 8 lanes, into k0 and then anew into k1.
    let short = item("62F37408C2C201", "00000000000000FF 00*56");
    let again = item("62F37408C2CA01", "00000000000000FF 00*56");
    let fewer = "0000004F 01 00 06 62F574C958C2 0000 00001F80 0042*8 0000*24";
    check(
        "masks that are handed on",
        &[
            (&[state, &compare, under], Same(2)),
            (&[state, under], Differs(0)),
            (&[state, whole, under], Differs(1)),
            (&[state, &compare, whole], Differs(1)),
            (&[state, &short, &compare, under], Same(3)),
            (&[state, &compare, &again, fewer], Same(3)),
        ],
    );
}

/// With answers 3, 4 and 5 zeros stand for the destination, whatever the bytes seem to name; the
/// state stays, and the replay goes on (R14.4, R14.5).
#[test]
fn refused_bytes() {
    for (answer, code, name) in [
        ("03", "", "no bytes"),
        ("03", "62", "one byte"),
        ("03", "62F5744858", "no ModRM"),
        ("03", "62F574485805000000", "a cut displacement"),
        ("03", "62F37448C2CA", "no immediate"),
        ("04", "90", "another first byte"),
        ("04", "62F574485AC2", "another opcode"),
        ("05", "62FD744858C2", "a fixed bit"),
        ("05", "62F574C858C2", "zeroing without a mask"),
        ("05", "62F374C9C2CA01", "zeroing of a mask"),
    ] {
        let count = code.len() / 2;
        let length = 73 + count;
        let item = |answer: &str, control: &str, bytes: &str| {
            format!("{length:08X} 01 {answer} {count:02X} {code} 0000 {control} {bytes}")
        };
        let right = item(answer, "00001F80", "00*64");
        check(
            name,
            &[
                (&[FIVE_ONE_TWO, &right], Same(1)),
                (&[FIVE_ONE_TWO, &right, SUM], Same(2)),
                (&[FIVE_ONE_TWO, SUM, &right, &right, SUM], Same(4)),
                // 5 + 1 is 6, as if nothing had been.
                (
                    &[
                        FIVE_ONE_TWO,
                        &right,
                        "0000004F 01 00 06 62F57C4858C1 0000 00001F80 0046*32",
                    ],
                    Same(2),
                ),
                (&[FIVE_ONE_TWO, &right, WRONG_SUM], Differs(1)),
            ],
        );
        for wrong in [
            item(answer, "00001F80", "0045*32"),
            item(answer, "00001F80", "0102030405060708 00*56"),
            item(answer, "00001F80", "00*63 01"),
            item(answer, "00001F80", "80 00*63"),
            item(answer, "00001F81", "00*64"),
            item(answer, "00000000", "00*64"),
            item("00", "00001F80", "00*64"),
            item("07", "00001F80", "0045*32"),
            item("06", "00001F80", "00*64"),
            item("02", "00001F80", "00*64"),
        ] {
            check(
                name,
                &[
                    (&[FIVE_ONE_TWO, &wrong], Differs(0)),
                    (&[FIVE_ONE_TWO, SUM, &wrong, BAD_SUM], Differs(1)),
                ],
            );
        }
    }
}

/// With 7 the destination is the register that is named, as it was.
#[test]
fn outside_memory() {
    // zmm0 = zmm1 + what stands at RAX; k1 = zmm1 < what stands there.
    let none = "0000004F 01 07 06 62F574485800 0000 00001F80 0045*32";
    let short = "0000008E 01 07 06 62F574485800 003F 0040*31 00 00001F80 0045*32";
    let enough = "0000008F 01 00 06 62F574485800 0040 0040*32 00001F80 0042*32";
    let after = "0000004F 01 07 06 62F574485800 0000 00001F80 0042*32";
    let zeros = "0000004F 01 07 06 62F574485800 0000 00001F80 00*64";
    let mask = "00000050 01 07 07 62F37448C20801 0000 00001F80 0102030405060708 00*56";
    let turned = "00000050 01 07 07 62F37448C20801 0000 00001F80 0807060504030201 00*56";
    let no_mask = "00000050 01 07 07 62F37448C20801 0000 00001F80 00*64";
    let k0 = "00000050 01 07 07 62F37448C20001 0000 00001F80 00*64";
    let k0_as_k1 = "00000050 01 07 07 62F37448C20001 0000 00001F80 0102030405060708 00*56";
    check(
        "outside memory",
        &[
            (&[FIVE_ONE_TWO, none], Same(1)),
            (&[FIVE_ONE_TWO, zeros], Differs(0)),
            (&[FIVE_ONE_TWO, short], Same(1)),
            (&[FIVE_ONE_TWO, enough], Same(1)),
            (&[FIVE_ONE_TWO, none, short, enough, after, SUM], Same(5)),
            (&[FIVE_ONE_TWO, enough, none], Differs(1)),
            (&[FIVE_ONE_TWO, mask], Same(1)),
            (&[FIVE_ONE_TWO, mask, none, mask, SUM, mask], Same(5)),
            (&[FIVE_ONE_TWO, turned], Differs(0)),
            (&[FIVE_ONE_TWO, no_mask], Differs(0)),
            (&[FIVE_ONE_TWO, k0], Same(1)),
            (&[FIVE_ONE_TWO, k0_as_k1], Differs(0)),
        ],
    );
}

/// With 8 too; the flags stay in the control word for what follows.
#[test]
fn unmasked_exceptions() {
    // ZE is unmasked; zmm0 is 5, zmm1 is 1, zmm2 is 0.
    let state = "00000151 02 00001D80 00*200 00000003 0045*32 003C*32";
    let item = |answer: &str, code: &str, control: &str, half: &str| {
        format!("0000004F 01 {answer} 06 {code} 0000 {control} {half}*32")
    };
    let divide = item("08", "62F574485EC2", "00001D84", "0045");
    let sum = item("00", "62F5744858C2", "00001D84", "003C");
    let before = item("00", "62F5744858C2", "00001D80", "003C");
    let divide_after = item("08", "62F574485EC2", "00001D84", "003C");
    check(
        "a division by zero",
        &[
            (&[state, &divide], Same(1)),
            (&[state, &divide, &divide, &sum], Same(3)),
            (&[state, &before, &divide_after, &sum], Same(3)),
            (&[state, &sum], Differs(0)),
            (&[state, &divide, &before], Differs(1)),
            (&[state, &divide, &sum, &divide], Differs(2)),
            (
                &[state, &item("08", "62F574485EC2", "00001D80", "0045")],
                Differs(0),
            ),
            (
                &[state, &item("08", "62F574485EC2", "00001D84", "0000")],
                Differs(0),
            ),
            (
                &[state, &item("08", "62F574485EC2", "00001D84", "007C")],
                Differs(0),
            ),
            (
                &[state, &item("00", "62F574485EC2", "00001D84", "007C")],
                Differs(0),
            ),
        ],
    );
    // IE is unmasked and zmm1 a quiet NaN: k1 = zmm1 < zmm2 signals, and k1 stays.
    let state = "00000111 02 00001F00 00*8 00*128 00*8 0102030405060708 00*48 00000002 007E*32";
    let item = |answer: &str, control: &str, mask: &str| {
        format!("00000050 01 {answer} 07 62F37448C2CA01 0000 {control} {mask} 00*56")
    };
    let signals = item("08", "00001F01", "0102030405060708");
    // By EQ_OQ, which does not signal, k1 becomes 0; and with the flag that stayed.
    let quiet = "00000050 01 00 07 62F37448C2CA00 0000 00001F00 00*64";
    let quiet_after = "00000050 01 00 07 62F37448C2CA00 0000 00001F01 00*64";
    check(
        "a comparison that signals",
        &[
            (&[state, &signals], Same(1)),
            (&[state, &signals, &signals, quiet_after], Same(3)),
            (&[state, quiet, &item("08", "00001F01", "00*8")], Same(2)),
            (&[state, quiet, &signals], Differs(1)),
            (&[state, &signals, quiet], Differs(1)),
            (&[state, &item("08", "00001F01", "00*8")], Differs(0)),
            (
                &[state, &item("08", "00001F01", "0807060504030201")],
                Differs(0),
            ),
            (
                &[state, &item("08", "00001F00", "0102030405060708")],
                Differs(0),
            ),
            (&[state, &item("00", "00001F01", "00*8")], Differs(0)),
        ],
    );
}

/// Scalar forms: lane 0, then seven lanes that are copied, then zeros.
#[test]
fn scalar_forms() {
    let sum = "0000004F 01 00 06 62F5760858C2 0000 00001F80 0042 003C*7 0000*24";
    let packed = "0000004F 01 00 06 62F5760858C2 0000 00001F80 0042*8 0000*24";
    // zmm0 = zmm1 * zmm2 + zmm0 in lane 0, which is 7.
    let fused = "0000004F 01 00 06 62F67508B9C2 0000 00001F80 0047 0045*7 0000*24";
    let of_memory = "00000051 01 00 06 62F576085800 0002 0040 00001F80 0042 003C*7 0000*24";
    let one_byte = "00000050 01 07 06 62F576085800 0001 00 00001F80 0045*32";
    let broadcast = "00000051 01 05 06 62F576185800 0002 0040 00001F80 00*64";
    check(
        "scalar forms",
        &[
            (&[ONE_TWO, sum], Same(1)),
            (&[ONE_TWO, packed], Differs(0)),
            (&[FIVE_ONE_TWO, fused], Same(1)),
            (&[ONE_TWO, fused], Differs(0)),
            (&[ONE_TWO, of_memory, sum], Same(2)),
            (&[FIVE_ONE_TWO, one_byte, fused, sum], Same(3)),
            (&[FIVE_ONE_TWO, broadcast, of_memory], Same(2)),
        ],
    );
}

/// The pointer moves by the length of what is done, and by nothing else.
#[test]
fn the_pointer() {
    // zmm0 = zmm1 + what stands so much before the next instruction: at 0 if the pointer is 0 or 6.
    let at_0 = "00000093 01 00 0A 62F574485805F6FFFFFF 0040 0040*32 00001F80 0042*32";
    let at_6 = "00000093 01 00 0A 62F574485805F0FFFFFF 0040 0040*32 00001F80 0042*32";
    let outside = "0000004F 01 07 06 62F574485800 0000 00001F80 0042*32";
    // Nine bytes stand behind the sum.
    let longer = "00000058 01 00 0F 62F5744858C2 90*9 0000 00001F80 0042*32";
    check(
        "the pointer",
        &[
            (&[ONE_TWO, at_0], Same(1)),
            (&[ONE_TWO, at_6], Differs(0)),
            (&[ONE_TWO, SUM, at_6], Same(2)),
            (&[ONE_TWO, longer, at_6], Same(2)),
            (&[ONE_TWO, SUM, at_0], Differs(1)),
            (&[ONE_TWO, REFUSED, NO_CODE, at_0], Same(3)),
            (&[ONE_TWO, REFUSED, SUM, outside, REFUSED, at_6], Same(5)),
        ],
    );
}

/// Every step has its own item's memory and no other (R14.4).
#[test]
fn own_memory() {
    let two = "0000008F 01 00 06 62F574485800 0040 0040*32 00001F80 0042*32";
    let four = "0000008F 01 00 06 62F574485800 0040 0044*32 00001F80 0045*32";
    let none = "0000004F 01 07 06 62F574485800 0000 00001F80 0045*32";
    let longer = "00000090 01 00 06 62F574485800 0041 0044*32 FF 00001F80 0045*32";
    check(
        "own memory",
        &[
            (&[ONE_TWO, two, four], Same(2)),
            (&[ONE_TWO, four, two, four, none], Same(4)),
            (&[ONE_TWO, two, longer, none, longer], Same(4)),
            (&[ONE_TWO, two, none], Differs(1)),
        ],
    );
}

/// At most 15 bytes of code and 4,096 of memory (R14.3).
#[test]
fn limits() {
    let code_15 = "00000058 01 00 0F 62F5744858C2 90*9 0000 00001F80 0042*32";
    let code_16 = "00000059 01 00 10 62F5744858C2 90*10 0000 00001F80 0042*32";
    let code_255 = "00000148 01 00 FF 62F5744858C2 90*249 0000 00001F80 0042*32";
    let memory_4096 = "0000104F 01 00 06 62F5744858C2 1000 00*4096 00001F80 0042*32";
    let memory_4097 = "00001050 01 00 06 62F5744858C2 1001 00*4097 00001F80 0042*32";
    let memory_65535 = "0001004E 01 00 06 62F5744858C2 FFFF 00*65535 00001F80 0042*32";
    let both = "00001058 01 00 0F 62F5744858C2 90*9 1000 00*4096 00001F80 0042*32";
    let neither = "00001050 01 00 10 62F5744858C2 90*10 0FF7 00*4087 00001F80 0042*32";
    let refused_16 = "00000059 01 04 10 90*16 0000 00001F80 00*64";
    check(
        "limits",
        &[
            (&[ONE_TWO, code_15], Same(1)),
            (&[ONE_TWO, code_16], BadItem(0)),
            (&[ONE_TWO, code_255], BadItem(0)),
            (&[ONE_TWO, refused_16], BadItem(0)),
            (&[ONE_TWO, memory_4096], Same(1)),
            (&[ONE_TWO, memory_4097], BadItem(0)),
            (&[ONE_TWO, memory_65535], BadItem(0)),
            (&[ONE_TWO, both, SUM, both], Same(3)),
            (&[ONE_TWO, both, neither], BadItem(1)),
        ],
    );
    // RAX is 4,032: the last 64 bytes of the largest memory are read.
    let state = "00000151 02 00001F80 00*8 0000000000000FC0 00*120 00*64 00000006 003C*32 0040*32";
    let last = "0000104F 01 00 06 62F574485800 1000 00*4032 0040*32 00001F80 0042*32";
    let missing = "0000104E 01 07 06 62F574485800 0FFF 00*4032 0040*31 00 00001F80 00*64";
    check(
        "the largest memory",
        &[
            (&[state, missing, last, last], Same(3)),
            (&[state, last, missing], Differs(1)),
        ],
    );
}

/// Items that are not well formed (R14.3), which is asked of each item before whether it agrees.
#[test]
fn bad_items() {
    let sum = "01 00 06 62F5744858C2 0000 00001F80 0042*32";
    // One byte more and less; nothing; the total size; equal in 8, 16 and 24 bits; turned; the most.
    for length in [
        "00000050", "0000004E", "00000000", "00000053", "0000014F", "0001004F", "0100004F",
        "8000004F", "4F000000", "FFFFFFFF", "FFFFFFFB", "00000049",
    ] {
        check(
            "lengths",
            &[
                (&[ONE_TWO, length, sum], BadItem(0)),
                (&[ONE_TWO, length, sum, "00"], BadItem(0)),
                (&[ONE_TWO, SUM, length, sum, SUM], BadItem(1)),
            ],
        );
    }
    for version in (0..=255).filter(|&version| version != 1) {
        let item = format!("0000004F {version:02X} 00 06 62F5744858C2 0000 00001F80 0042*32");
        let wrong = format!("0000004F {version:02X} 05 06 62F5744858C2 0000 00000000 00*64");
        check(
            "versions",
            &[
                (&[ONE_TWO, &item], BadItem(0)),
                (&[ONE_TWO, SUM, SUM, &item, SUM], BadItem(2)),
                (&[ONE_TWO, &wrong], BadItem(0)),
            ],
        );
    }
    let turned_count = "00000050 01 00 06 62F5744858C2 0100 AA 00001F80 0042*32";
    let long_and_wrong = "00000050 01 00 06 62F5744858C2 0000 00001F80 0044*32";
    let many_and_wrong = "00000059 01 09 10 62F5744858C2 90*10 0000 00001F80 0044*32";
    let one_short = "0000004F 01 00 06 62F5744858C2 0000 00001F80 0042*31 00";
    check(
        "bad items",
        &[
            (&[ONE_TWO, turned_count], BadItem(0)),
            (&[ONE_TWO, turned_count, SUM, SUM, SUM], BadItem(0)),
            (&[ONE_TWO, long_and_wrong], BadItem(0)),
            (&[ONE_TWO, many_and_wrong], BadItem(0)),
            // What is left behind the last whole item.
            (&[ONE_TWO, SUM, "00"], BadItem(1)),
            (&[ONE_TWO, SUM, "0000004F"], BadItem(1)),
            (&[ONE_TWO, SUM, SUM, "00*76"], BadItem(2)),
            (&[ONE_TWO, SUM, one_short], BadItem(1)),
            (&[ONE_TWO, "01"], BadItem(0)),
        ],
    );
}

/// The first item that is wrong decides, and later ones are not reached (R14.7).
#[test]
fn the_first_that_is_wrong() {
    check(
        "the first that is wrong",
        &[
            (&[ONE_TWO, WRONG_SUM], Differs(0)),
            (&[ONE_TWO, BAD_SUM], BadItem(0)),
            (&[ONE_TWO, WRONG_SUM, BAD_SUM], Differs(0)),
            (&[ONE_TWO, BAD_SUM, WRONG_SUM], BadItem(0)),
            (&[ONE_TWO, SUM, WRONG_SUM, BAD_SUM], Differs(1)),
            (&[ONE_TWO, SUM, BAD_SUM, WRONG_SUM], BadItem(1)),
            (&[ONE_TWO, SUM, WRONG_SUM, SUM, WRONG_SUM], Differs(1)),
            (&[ONE_TWO, SUM, SUM, WRONG_SUM, "00"], Differs(2)),
            (&[ONE_TWO, SUM, SUM, BAD_SUM, "00"], BadItem(2)),
        ],
    );
}

/// A starting state that does not load, whatever follows (R14.7).
#[test]
fn bad_states() {
    for state in [
        // Another version, or the other one's.
        "000000D1 00 00001F80 00*200 00000000",
        "000000D1 03 00001F80 00*200 00000000",
        "000000D1 FF 00001F80 00*200 00000000",
        "000000D1 01 00001F80 00*200 00000000",
        "000008CD 02 00001F80 00*200 00*2048",
        // Another length.
        "00000000",
        "00000001 02",
        "000000D0 02 00001F80 00*200 000000",
        "000000D2 02 00001F80 00*200 00000000 00",
        "000008CC 01 00001F80 00*200 00*2047",
        "000008CE 01 00001F80 00*200 00*2049",
        "FFFFFFFF 02 00001F80 00*200 00000000",
        "FFFFFFFC 02 00001F80 00*200 00000000",
        "800000D1 02 00001F80 00*200 00000000",
        "000100D1 02 00001F80 00*200 00000000",
        // A register that is marked and all zero, not marked, or marked and missing.
        "00000111 02 00001F80 00*200 00000001 00*64",
        "00000111 02 00001F80 00*200 00000000 003C*32",
        "000000D1 02 00001F80 00*200 00000001",
        // A control word above 16 bits, also with all else wrong.
        "000000D1 02 00011F80 00*200 00000000",
        "000000D1 02 80001F80 00*200 00000000",
        "000008CD 01 00011F80 00*200 00*2048",
        "000008CD 01 01001F80 00*200 00*2048",
        "00000111 02 00011F80 00*200 00000001 00*64",
    ] {
        check(
            "bad states",
            &[
                (&[state], BadState),
                (&[state, SUM], BadState),
                (&[state, SUM, SUM, WRONG_SUM], BadState),
                (&[state, BAD_SUM], BadState),
                (&[state, "00"], BadState),
            ],
        );
    }
    // Bytes that end inside the state.
    for state in [
        "00",
        "000000D1",
        "000000D1 02",
        "000000D1 02 00001F80 00*200 000000",
        "000008CD 01 00001F80 00*200 00*2047",
    ] {
        check("states that are cut", &[(&[state], BadState)]);
    }
}
