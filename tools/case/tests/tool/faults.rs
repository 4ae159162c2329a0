//! Texts that are refused, each fault with its line.

use crate::process::{file, has_assembler, made, of_file, text, SIZE_1};

/// Bad lines, each with a part of what is said against it.
const BAD_LINES: [(&str, &str); 52] = [
    ("speed 5", "`speed` is unknown"),
    ("zmm32 1", "`zmm32` is unknown"),
    ("zmm01 1", "`zmm01` is unknown"),
    ("zmm 1", "`zmm` is unknown"),
    ("k8 1", "`k8` is unknown"),
    ("r16 1", "`r16` is unknown"),
    ("eax 1", "`eax` is unknown"),
    ("rax[0] 1", "takes no place in brackets"),
    ("code[0] 62", "takes no place in brackets"),
    ("rax", "followed by nothing"),
    ("rax =", "followed by nothing"),
    ("rax 1 2", "1 2 is no number"),
    ("rax 0x10000000000000000", "is no number of 64 bits"),
    ("rax 18446744073709551616", "is no number of 64 bits"),
    ("rax -9223372036854775809", "is no number of 64 bits"),
    ("rax 1.5", "is no number of 64 bits"),
    ("rax 0x", "is no number of 64 bits"),
    ("rax 0x+1", "is no number of 64 bits"),
    ("k1 0b12", "is no number of 64 bits"),
    ("pointer ten", "ten is no number of 64 bits"),
    ("version 0", "version 1 or 2, and 0 is neither"),
    ("version 3", "version 1 or 2, and 3 is neither"),
    ("version -1", "version 1 or 2, and -1 is neither"),
    ("version two", "version 1 or 2, and two is neither"),
    ("version 1 2", "version 1 or 2, and 1 2 is neither"),
    ("version[1] 2", "takes no place in brackets"),
    ("control 0x10000", "bits 0 to 15"),
    ("control 1F80", "is no number of 64 bits"),
    ("zmm1[32] 1", "lanes 0 to 31, and this goes to 32"),
    ("zmm1 1*33", "lanes 0 to 31, and this goes to 32"),
    ("zmm1[30] 1 2 3", "lanes 0 to 31, and this goes to 32"),
    ("zmm1[-1] 1", "[-1] is not a lane"),
    ("zmm1[2 1", "[2 is not a lane"),
    ("zmm1 3C00", "3C00 is no number"),
    ("zmm1 7e01", "may mean bits or a power of ten"),
    ("zmm1 0x13C00", "is not 0x and one to four hex digits"),
    ("zmm1 0x", "is not 0x and one to four hex digits"),
    ("zmm1 1..2", "1..2 is no number"),
    ("zmm1 1*0", "a count above 0 follows *"),
    ("zmm1 1*x", "a count above 0 follows *"),
    ("zmm1 ,", "a list of halves is missing"),
    ("code 6", "6 is not pairs of hex digits"),
    ("code 6G", "6G is not pairs of hex digits"),
    ("code 62 é5", "é5 is not pairs of hex digits"),
    ("code ,", "bytes are missing"),
    ("memory 00", "`00` is neither halves, bytes nor zeros"),
    ("memory halves", "a list of halves is missing"),
    ("memory bytes", "bytes are missing"),
    ("memory bytes 123", "123 is not pairs of hex digits"),
    ("memory zeros many", "many is no number"),
    (
        "memory zeros 32769",
        "the memory is larger than 32768 bytes",
    ),
    (
        "memory[32768] bytes 00",
        "the memory is larger than 32768 bytes",
    ),
];

/// The text is refused; each message has its line.
fn refused(name: &str, content: &[u8], messages: &[(usize, &str)]) {
    let path = file(&format!("{name}.txt"), content);
    let output = of_file("make", &path);
    let said = text(&output.stderr);
    assert_eq!(output.status.code(), Some(1), "{name}: {said}");
    assert!(output.stdout.is_empty(), "{name}: something was made");
    assert_eq!(said.lines().count(), messages.len(), "{name}: {said}");
    for (line, (number, what)) in said.lines().zip(messages) {
        let place = format!("{}:{number}: ", path.display());
        assert!(
            line.starts_with(&place),
            "{name}: {line}, not line {number}"
        );
        assert!(line.contains(what), "{name}: {line}, not {what}");
    }
}

#[test]
fn bad_lines_are_refused() {
    for (place, (line, what)) in BAD_LINES.into_iter().enumerate() {
        let content = format!("# a remark\n\n{line} # another\nzmm9 1\n");
        refused(&format!("bad-{place}"), content.as_bytes(), &[(3, what)]);
    }
}

/// Faults that take more than a line.
#[test]
fn bad_texts_are_refused() {
    let twice = "rax 1\nrax 1\nzmm1 1 2\nzmm1[1] 2\nk1 1\nK1 2\ncontrol 0\ncontrol 0\n\
                 version 1\nversion 2\n";
    let messages = [
        (2, "rax is set in line 1 already"),
        (4, "zmm1[1] is set in line 3 already"),
        (6, "k1 is set in line 5 already"),
        (8, "control is set in line 7 already"),
        (10, "version is set in line 9 already"),
    ];
    refused("twice", twice.as_bytes(), &messages);
    let memory = "memory halves 1 2\nmemory[3] bytes 00\n";
    let message = "the byte at address 3 is set already";
    refused("memory-twice", memory.as_bytes(), &[(2, message)]);
    let row = format!("code {}\n", "62".repeat(4095));
    let code = format!("{row}code 62\ncode 62\n");
    refused(
        "long-code",
        code.as_bytes(),
        &[(3, "longer than 4096 bytes")],
    );
    refused("no-text", b"rax 1\nrbx \xFF\n", &[(2, "this is no text")]);
    let largest = format!("{row}code 62\nmemory zeros 32768\n");
    assert_eq!(
        made("largest", &largest).0.len(),
        SIZE_1 + 2 + 4096 + 32_768
    );
}

#[test]
fn bad_assembly_is_refused() {
    if !has_assembler() {
        return;
    }
    for (line, what) in [
        ("asm vaddhp zmm0, zmm1, zmm2", "as: no such instruction"),
        ("asm vaddph zmm0, zmm1", "as: "),
        ("asm vaddph zmm0, zmm1, [table]", "names a place"),
        ("asm .text", "makes no bytes"),
    ] {
        refused("bad-asm", format!("\n{line}\n").as_bytes(), &[(2, what)]);
    }
}
