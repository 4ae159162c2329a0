//! Damaged states: what the tool says against them, and that the command refuses them too.

use crate::process::{file, made, of_file, packed, run, text, FILE_AT, SIZE_1, SIZE_2};

/// R9.1.
const VERSION_AT: usize = 4;

/// The tool says exactly this.
fn refused(bytes: &[u8], name: &str, what: &str) {
    let path = file(&format!("{name}.bin"), bytes);
    let output = of_file("show", &path);
    let said = text(&output.stderr);
    assert_eq!(said, format!("{}: {what}\n", path.display()));
    assert_eq!(output.status.code(), Some(1), "{what}");
    assert!(output.stdout.is_empty(), "{what}");
    assert_eq!(run(bytes, &format!("{name}-run")), "bad input\n", "{what}");
}

/// Neither has anything against it.
fn taken(bytes: &[u8], name: &str) {
    let output = of_file("show", &file(&format!("{name}.bin"), bytes));
    assert!(output.status.success(), "{}", text(&output.stderr));
    let printed = run(bytes, &format!("{name}-run"));
    assert!(printed.ends_with("stop 6\n"), "{printed}");
}

/// An input with registers 3 and 17, in both versions.
fn inputs(name: &str) -> [Vec<u8>; 2] {
    let content = "zmm3 1\nzmm17[31] 0x8000\ncode 62 F5 74 48 58 C2\nmemory zeros 64\n";
    [1, 2].map(|version| made(name, &format!("version {version}\n{content}")).0)
}

fn with(bytes: &[u8], changes: &[(usize, u8)]) -> Vec<u8> {
    let mut bytes = bytes.to_vec();
    for &(place, byte) in changes {
        bytes[place] = byte;
    }
    bytes
}

/// How messages name what the version and the word of present registers make of a state, and what
/// its length field is then.
fn due(bytes: &[u8]) -> (String, usize) {
    let word = &bytes[FILE_AT..SIZE_2];
    let present: u32 = word.iter().map(|byte| byte.count_ones()).sum();
    let length = SIZE_2 - 4 + 64 * present as usize;
    match (bytes[VERSION_AT], present) {
        (1, _) => ("version 1".to_string(), SIZE_1 - 4),
        (_, 1) => ("version 2 with 1 register present".to_string(), length),
        (_, _) => (
            format!("version 2 with {present} registers present"),
            length,
        ),
    }
}

/// What is to be said where a bit of the head is turned over, if anything.
fn complaint(damaged: &[u8], place: usize) -> Option<String> {
    let number = |at: usize| {
        let bytes = damaged[at..at + 4].try_into().expect("4 bytes");
        u32::from_be_bytes(bytes)
    };
    let (length, version, control) = (number(0), damaged[VERSION_AT], number(5));
    match place {
        VERSION_AT => Some(format!("its version is {version}, neither 1 nor 2")),
        5..7 => Some(format!(
            "its control word 0x{control:08X} has a bit above bit 15"
        )),
        7.. if version == 1 || place < FILE_AT => None,
        _ => {
            let (name, due) = due(damaged);
            Some(format!(
                "its length field is {length}, not {due} as in {name}"
            ))
        }
    }
}

/// Each bit of the length field, of the version, of the control word, and of what begins the vector
/// file: in version 2 the word of present registers.
#[test]
fn every_byte_of_the_head() {
    for input in inputs("head") {
        taken(&input, "head");
        for place in (0..9).chain(FILE_AT..SIZE_2) {
            for bit in 0..8 {
                let damaged = with(&input, &[(place, input[place] ^ 1 << bit)]);
                match complaint(&damaged, place) {
                    Some(what) => refused(&damaged, "head", &what),
                    None => taken(&damaged, "head"),
                }
            }
        }
    }
}

/// Every size of a state of version 2 that is cut, and sizes of one of version 1.
#[test]
fn cut_states() {
    let [whole, small] = inputs("cut");
    let smallest = format!("and the smallest saved state has {SIZE_2}");
    let of_whole = (0..8).chain(200..220).chain(2250..SIZE_1);
    let of_small = 0..SIZE_2 + 2 * 64;
    let sizes: [Vec<usize>; 2] = [of_whole.collect(), of_small.collect()];
    for (input, sizes) in [&whole, &small].into_iter().zip(sizes) {
        let (name, length) = due(input);
        let exact = format!("and a saved state of {name} has {}", length + 4);
        for size in sizes {
            let unknown = size <= VERSION_AT || input[VERSION_AT] == 2 && size < SIZE_2;
            let due = if unknown { &smallest } else { &exact };
            refused(
                &input[..size],
                "cut",
                &format!("it has {size} bytes, {due}"),
            );
        }
    }
}

/// What is wrong behind the state.
#[test]
fn bad_code_and_memory() {
    for input in inputs("behind") {
        let end = due(&input).1 + 4;
        let large = [&input[..], &vec![0; 32_768 - 63][..]].concat();
        taken(&with(&large, &[(end, 0x10), (end + 1, 0)]), "behind");
        let beyond = [(end, 0x10), (end + 1, 1)];
        let too_long = "its code length is 4097, more than 4096";
        for (bytes, what) in [
            (input[..end + 1].to_vec(), "its code length is cut"),
            (
                with(&input, &[(end + 1, 71)]),
                "its code length is 71, but 70 bytes follow",
            ),
            (with(&large, &beyond), too_long),
            (with(&input, &beyond), too_long),
            (large, "it has 32769 bytes of memory, more than 32768"),
        ] {
            refused(&bytes, "behind", what);
        }
    }
}

/// R9.5: each register in turn is marked as present and is all zero. The first such is named.
#[test]
fn empty_registers() {
    let content: String = (0..32).map(|r| format!("zmm{r} {}\n", r + 1)).collect();
    let (whole, _) = made("empty", &content);
    let full = packed(&whole[..SIZE_1]);
    for register in 0..32 {
        let mut damaged = full.clone();
        damaged[SIZE_2 + 64 * register..][..64].fill(0);
        let what = format!("its register zmm{register} is marked as present and is all zero");
        refused(&damaged, "empty", &what);
        damaged[SIZE_2 + 64 * register..].fill(0);
        refused(&damaged, "empty", &what);
    }
    // Its place in the bytes is not its number.
    let (input, _) = made("empty-few", "version 2\nzmm9 1\nzmm30 1\n");
    let damaged = with(&input, &[(SIZE_2 + 64 + 1, 0)]);
    let what = "its register zmm30 is marked as present and is all zero";
    refused(&damaged, "empty-few", what);
}

/// R9.5: the version before the size, the size before the length field, that before an empty
/// register, and that before the control word.
#[test]
fn the_first_fault_is_named() {
    let [_, small] = inputs("first");
    let state = &small[..SIZE_2 + 2 * 64];
    let (control, empty, length) = ((6, 1), (SIZE_2 + 1, 0), (3, 0));
    for (bytes, what) in [
        (
            with(state, &[control]),
            "its control word 0x00011F80 has a bit above bit 15",
        ),
        (
            with(state, &[control, empty]),
            "its register zmm3 is marked as present and is all zero",
        ),
        (
            with(state, &[control, empty, length]),
            "its length field is 256, not 337 as in version 2 with 2 registers present",
        ),
        (
            with(&state[..340], &[control, empty, length]),
            "it has 340 bytes, and a saved state of version 2 with 2 registers present has 341",
        ),
        (
            with(&state[..212], &[control, length]),
            "it has 212 bytes, and the smallest saved state has 213",
        ),
        (
            with(&state[..212], &[control, length, (VERSION_AT, 3)]),
            "its version is 3, neither 1 nor 2",
        ),
    ] {
        refused(&bytes, "first", what);
    }
}

/// A state of one version that says it is of the other.
#[test]
fn the_other_version() {
    let [whole, small] = inputs("other");
    let what = "its length field is 2253, not 209 as in version 2 with 0 registers present";
    refused(&with(&whole, &[(VERSION_AT, 2)]), "other", what);
    let held = small.len();
    let what = format!("it has {held} bytes, and a saved state of version 1 has {SIZE_1}");
    refused(&with(&small, &[(VERSION_AT, 1)]), "other", &what);
}
