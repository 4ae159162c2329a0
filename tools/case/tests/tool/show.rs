//! States as text.

use crate::process::{made, packed, random_bytes, shown, FILE_AT, SIZE_1};
use std::fs;
use std::path::Path;

#[test]
fn a_state_is_shown() {
    let content = "control 0xFFE5\npointer 16\nrbp 0x20\nk2 7\nk3 0x80000081\nk4 0xFFFFFFFF\n\
                   k7 0x100000000\nzmm5[1] 0.1 nan*2 0xFD00 -inf -0\n";
    let (input, _) = made("shown", content);
    let expected = "\
control   0xFFE5     # rounding toward zero; flags: IE ZE PE; masked: IE DE ZE OE UE PE; DAZ; FZ
pointer   0x10
rbp       0x20       # 32
k2        0x7        # 3 of 32 lanes on: 0 to 2
k3        0x80000081 # 3 of 32 lanes on: 0, 7, 31
k4        0xFFFFFFFF # 32 of 32 lanes on: 0 to 31
k7        0x100000000 # 0 of 32 lanes on; bits above 31
zmm5[0]   0x0000     # 0
zmm5[1]   0x2E66     # 0.0999755859375
zmm5[2]   0x7E00*2   # nan, quiet, lanes 2 to 3
zmm5[4]   0xFD00     # -nan, signalling
zmm5[5]   0xFC00     # -inf
zmm5[6]   0x8000     # -0
zmm5[7]   0x0000*25  # 0, lanes 7 to 31
# all zero: 15 of 16 general registers, 4 of 8 masks, 31 of 32 vector registers
";
    assert_eq!(shown("state", &input[..SIZE_1]), expected);
    // An input without code and memory shows the same.
    assert_eq!(shown("state-input", &input), expected);
    let small = packed(&input[..SIZE_1]);
    let expected = format!("version   2\n{expected}");
    assert_eq!(shown("small-state", &small), expected);
    assert_eq!(
        shown("small-input", &[&small[..], &[0, 0]].concat()),
        expected
    );
}

/// A state of version 1, of any content; registers are all zero where a bit of `zero` is set.
fn random_state(seed: u64, zero: u32) -> Vec<u8> {
    let mut state = random_bytes(seed, SIZE_1);
    state[..7].copy_from_slice(&[0, 0, 0x08, 0xCD, 1, 0, 0]);
    for (register, bytes) in state[FILE_AT..].chunks_mut(64).enumerate() {
        if zero >> register & 1 == 1 {
            bytes.fill(0);
        }
    }
    state
}

fn read_back(name: &str, input: &[u8]) {
    let (again, notes) = made(name, &shown(name, input));
    assert_eq!((&again[..], &notes[..]), (input, ""), "{name}");
    for kind in ["txt", "bin"] {
        let path = Path::new(env!("CARGO_TARGET_TMPDIR")).join(format!("{name}.{kind}"));
        fs::remove_file(path).expect("a file can be removed");
    }
}

/// What is shown of any state, code and memory, `make` turns into the same bytes.
#[test]
fn what_is_shown_is_read_back() {
    for seed in 0..100 {
        let code = random_bytes(seed + 1000, seed as usize * 41 % 4097);
        let mut rest = (code.len() as u16).to_be_bytes().to_vec();
        rest.extend(code);
        rest.extend(random_bytes(seed + 2000, seed as usize * 331 % 32_769));
        let state = random_state(seed, (seed as u32).wrapping_mul(0x9E37_79B9));
        let small = packed(&state);
        read_back(&format!("any-{seed}"), &[state, rest.clone()].concat());
        read_back(&format!("any-small-{seed}"), &[small, rest].concat());
    }
}
