//! What the tool makes of text.

use crate::process::{file, has_assembler, made, of_file, root, run, shown, text, SIZE_1, WHOLE};
use std::process::Command;

#[test]
fn the_whole_case() {
    let (input, notes) = made("whole", WHOLE);
    let mut expected = vec![0; SIZE_1 + 2];
    expected[2..9].copy_from_slice(&[0x08, 0xCD, 1, 0, 0, 0x1F, 0x80]);
    expected[SIZE_1 + 1] = 6;
    expected.extend([0x62, 0xF5, 0x74, 0x48, 0x58, 0xC2]);
    assert_eq!(input, expected);
    assert_eq!(notes, "");
    assert_eq!(run(&input, "whole-run"), "0 0 00001f80\nstop 6\n");
}

/// Everything that can be set, at its place in the bytes.
#[test]
fn every_place() {
    let lines = "CONTROL = 0x9F81\npointer -1\nrcx 0b101\nr15=258\nk7\t0xFF # all\n\
                 zmm0 1 0x8001\nzmm31[31] -2.5\ncode 62,F5 7448\ncode 00\n\
                 memory bytes 01 02\nmemory[4] halves 1*2\nmemory zeros 1\nmemory[3] bytes AA\n";
    let (input, notes) = made("places", lines);
    assert_eq!(notes, "");
    assert_eq!(input[5..9], [0, 0, 0x9F, 0x81]);
    assert_eq!(input[9..17], [0xFF; 8]);
    assert_eq!(input[25..33], [0, 0, 0, 0, 0, 0, 0, 5]);
    assert_eq!(input[137..145], [0, 0, 0, 0, 0, 0, 1, 2]);
    assert_eq!(input[201..209], [0, 0, 0, 0, 0, 0, 0, 0xFF]);
    assert_eq!(input[209..213], [0x00, 0x3C, 0x01, 0x80]);
    assert_eq!(input[2255..2257], [0x00, 0xC1]);
    assert_eq!(input[2257..2264], [0, 5, 0x62, 0xF5, 0x74, 0x48, 0]);
    assert_eq!(input[2264..], [1, 2, 0, 0xAA, 0, 0x3C, 0, 0x3C, 0]);
}

/// In both versions the command prints the same.
fn runs(name: &str, content: &str, known: &str) {
    for version in [1, 2] {
        let (input, _) = made(name, &format!("version {version}\n{content}"));
        assert_eq!(input[4], version, "{name}");
        assert_eq!(run(&input, &format!("{name}-run")), known, "{content}");
    }
}

/// 1/3 unmasked, then memory to its last byte and one beyond.
#[test]
fn what_is_made_runs() {
    let division = "control 0x0F80\nzmm1 1*32\nzmm2 3*32\ncode 62F5744858C2 62F574485EC2\n";
    runs("division", division, "0 0 00000f80\n6 8 00000fa0\nstop 6\n");
    // zmm0 = zmm1 + what stands at RAX, in all lanes and in lane 0
    let [packed, scalar] = ["62 F5 74 48 58 00", "62 F5 76 08 58 00"];
    let [done, outside] = ["0 0 00001f80\nstop 6\n", "0 7 00001f80\nstop 0\n"];
    for (code, size, known) in [
        (packed, 66, done),
        (packed, 65, outside),
        (scalar, 4, done),
        (scalar, 3, outside),
    ] {
        let content = format!("rax 2\ncode {code}\nmemory zeros {size}\n");
        runs("memory", &content, known);
    }
}

/// A comparison writes the mask that the next step goes by: lanes 0 and 2 are below 2, and the
/// subnormal in lane 1 is off, so that it raises nothing unmasked.
#[test]
fn a_mask_is_written() {
    let [compare, add] = ["62 F3 74 48 C2 CA 01", "62 F5 74 49 58 C3"];
    let state = "control 0x1E80\nk1 0\nzmm1 1 4 1.5 4*29\nzmm2 2*32\nzmm3[1] 0x0001\n";
    let known = "0 0 00001e80\n7 0 00001e80\nstop 13\n";
    runs("masked", &format!("{state}code {compare} {add}\n"), known);
    // Without the comparison k1 has lane 1 on.
    let state = state.replace("k1 0", "k1 2");
    let content = format!("{state}code {add}\n");
    runs("unmasked", &content, "0 8 00001e82\nstop 0\n");
}

#[test]
fn the_example() {
    if !has_assembler() {
        return;
    }
    let output = of_file("make", &root().join("example.txt"));
    assert!(output.status.success(), "{}", text(&output.stderr));
    let notes = text(&output.stderr);
    assert_eq!(notes.lines().count(), 1, "{notes}");
    assert!(notes.contains("0.1 is no half; the nearest is 0.0999755859375 (0x2E66)"));
    let known = "0 0 00001fba\n6 0 00001fba\n12 0 00001fba\n18 0 00001fba\n24 0 00001fba\n\
                 31 0 00001fbb\nstop 37\n";
    assert_eq!(run(&output.stdout, "example-run"), known);
    let again = made("example-again", &shown("example", &output.stdout));
    assert_eq!(again, (output.stdout, String::new()));
}

#[test]
fn assembly_gives_the_bytes() {
    if !has_assembler() {
        return;
    }
    for (asm, code) in [
        ("vaddph zmm0, zmm1, zmm2", "62F5744858C2"),
        ("vaddph zmm0, zmm1, zmm2, {rd-sae}", "62F5743858C2"),
        (
            "vaddph zmm0{k1}{z}, zmm1, word ptr [rax + 2]{1to32}",
            "62F574D9584001",
        ),
        ("vaddph zmm0{k1}{z}, zmm1, [rax + 64]", "62F574C9584001"),
        ("vsqrtph zmm3, zmm4", "62F57C4851DC"),
        ("vaddsh xmm0, xmm1, xmm2", "62F5760858C2"),
        ("vsqrtsh xmm3{k1}, xmm4, xmm5, {ru-sae}", "62F55E5951DD"),
        (
            "vfmadd231sh xmm0, xmm4, word ptr [rax + 144]",
            "62F65D08B94048",
        ),
        ("vminph zmm0, zmm1, zmm2", "62F574485DC2"),
        ("vmaxph zmm0{k1}{z}, zmm1, zmm2, {sae}", "62F574995FC2"),
        ("vcmpph k1{k2}, zmm1, zmm2, 1", "62F3744AC2CA01"),
        ("vcmpph k0, zmm1, zmm2, {sae}, 33", "62F37418C2C221"),
        ("vcmpnge_uqph k3, xmm1, [rax + 32]", "62F37408C2580219"),
        (
            "vcmpltph k2, zmm1, word ptr [rax + 2]{1to32}",
            "62F37458C2500101",
        ),
    ] {
        let (by_asm, _) = made("asm", &format!("asm {asm} # a remark\ncode 90\n"));
        let (by_code, _) = made("bytes", &format!("code {code} 90\n"));
        assert_eq!(by_asm, by_code, "{asm}");
    }
}

#[test]
fn without_an_assembler() {
    let path = file("no-as.txt", b"\nasm vaddph zmm0, zmm1, zmm2\n");
    let mut command = Command::new(env!("CARGO_BIN_EXE_case"));
    let output = command.arg("make").arg(&path).env("PATH", "").output();
    let output = output.expect("the tool starts");
    assert_eq!(output.status.code(), Some(1));
    let said = text(&output.stderr);
    assert!(said.contains("no-as.txt:2: there is no GNU as"), "{said}");
}

#[test]
fn notes_have_their_lines() {
    let content = "zmm1 1\nzmm2 0.1\n\nzmm3 70000 4000 4000.0\n";
    let (_, said) = made("notes", content);
    let notes: Vec<&str> = said.lines().collect();
    for (note, what) in notes.iter().zip([
        ":2: note: 0.1 is no half; the nearest is 0.0999755859375 (0x2E66)",
        ":4: note: 70000 is no half; the nearest is inf (0x7C00)",
        ":4: note: 4000 is taken as a decimal number; the half with these bits is 0x4000",
    ]) {
        assert!(note.ends_with(what), "{note}");
    }
    assert_eq!(notes.len(), 3);
}
