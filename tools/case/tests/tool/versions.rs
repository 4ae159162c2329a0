//! Saved states of version 2: which registers stand in them, and where.

use crate::process::{made, packed, shown, SIZE_1, SIZE_2};

/// R9.8, written out by hand.
#[test]
fn the_places_of_version_2() {
    let lines = "version 2\ncontrol 0x9F81\nk7 0xFF\nzmm31[31] -2.5\nzmm3 1 0x8001\ncode 90\n";
    let (input, notes) = made("small-places", lines);
    assert_eq!(notes, "");
    assert_eq!(input[..9], [0, 0, 0x01, 0x51, 2, 0, 0, 0x9F, 0x81]);
    assert_eq!(input[201..209], [0, 0, 0, 0, 0, 0, 0, 0xFF]);
    assert_eq!(input[209..213], [0x80, 0, 0, 0x08]);
    assert_eq!(input[213..218], [0x00, 0x3C, 0x01, 0x80, 0]);
    assert_eq!(input[338..], [0, 0x00, 0xC1, 0, 1, 0x90]);
}

/// The line may stand anywhere, and version 1 is what is made without it.
#[test]
fn the_line_is_read() {
    let (silent, _) = made("version-none", "zmm1 1\n");
    for text in ["version 1\nzmm1 1\n", "zmm1 1\nVERSION = 0x1 # whole\n"] {
        assert_eq!(made("version-one", text).0, silent, "{text}");
    }
    let small = [packed(&silent[..SIZE_1]), vec![0, 0]].concat();
    for text in ["version 2\nzmm1 1\n", "zmm1 1\n\tversion\t0b10\n"] {
        assert_eq!(made("version-two", text).0, small, "{text}");
    }
}

/// A line for each register of a set: one byte of it is not 0. Some hold nothing but a negative
/// zero.
fn lines(set: u32) -> String {
    let registers = (0..32).filter(|register| set >> register & 1 == 1);
    let line = |register: usize| {
        let half = ["0x8000", "0x0001", "-0", "0x0100"][register % 4];
        format!("zmm{register}[{}] {half}\n", 31 - register)
    };
    registers.map(line).collect()
}

/// R9.8: no register, each alone, all but each, all, and others; made, shown and made again.
#[test]
fn sets_of_registers() {
    let single = (0..32).map(|register| 1_u32 << register);
    let sets = single.flat_map(|set| [set, !set, set.wrapping_mul(0x9E37_79B9)]);
    for set in sets.chain([0, u32::MAX]) {
        let (whole, _) = made("set-whole", &lines(set));
        let small = packed(&whole[..SIZE_1]);
        assert_eq!(small.len(), SIZE_2 + 64 * set.count_ones() as usize);
        assert_eq!(small[209..213], set.to_be_bytes());
        let made_small = made("set-small", &format!("version 2\n{}", lines(set)));
        let input = [small, vec![0, 0]].concat();
        assert_eq!(made_small, (input.clone(), String::new()), "{set:08X}");
        let text = shown("set-small", &input);
        let shown_whole = shown("set-whole", &whole);
        assert_eq!(text, format!("version   2\n{shown_whole}"), "{set:08X}");
        assert_eq!(made("set-again", &text).0, input, "{set:08X}");
    }
}

/// As the help says: a state is shown and made in the other version, and a code length follows it.
#[test]
fn the_version_is_changed() {
    let (whole, _) = made("changed", "k1 3\nzmm3 1\nzmm31[31] -0\n");
    let small = packed(&whole[..SIZE_1]);
    let text = format!("version 2\n{}", shown("changed", &whole[..SIZE_1]));
    assert_eq!(made("changed", &text).0, [&small[..], &[0, 0]].concat());
    let text = shown("changed", &small).replace("version   2", "version   1");
    assert_eq!(made("changed", &text).0, whole);
}
