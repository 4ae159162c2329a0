//! What `record` says, as a process. All that is wrong with a case is said on every machine.

use ridgecrook_tests::compare::log;
use ridgecrook_tests::processor;
use std::fs;
use std::path::{Path, PathBuf};
use std::process::{Command, Output};

fn file(name: &str, content: &str) -> PathBuf {
    let path = Path::new(env!("CARGO_TARGET_TMPDIR")).join(name);
    fs::write(&path, content).expect("a file can be written");
    path
}

fn record(arguments: &[&str]) -> Output {
    let mut command = Command::new(env!("CARGO_BIN_EXE_record"));
    command.args(arguments).output().expect("the tool starts")
}

fn of_file(path: &Path) -> Output {
    record(&[path.to_str().expect("a plain name")])
}

fn text(bytes: &[u8]) -> String {
    String::from_utf8_lossy(bytes).to_string()
}

#[test]
fn arguments() {
    let help = record(&["--help"]);
    assert!(help.status.success());
    assert!(text(&help.stdout).contains("record CASE.txt > recording.bin"));
    for arguments in [&[][..], &["a", "b"], &["--fast"], &["-"]] {
        let output = record(arguments);
        assert_eq!(output.status.code(), Some(2), "{arguments:?}");
        assert!(text(&output.stderr).starts_with("usage: record CASE.txt"));
    }
    let output = record(&["/nowhere/at-all"]);
    assert_eq!(output.status.code(), Some(1));
    assert!(text(&output.stderr).starts_with("/nowhere/at-all: "));
}

/// Nothing is written, the status is 1, and the one line says this behind the file's name.
fn refused(name: &str, content: &str, said: &str) {
    let path = file(&format!("{name}.txt"), content);
    let output = of_file(&path);
    let expected = format!("{}{said}\n", path.display());
    assert_eq!(text(&output.stderr), expected);
    assert_eq!(output.status.code(), Some(1), "{said}");
    assert!(output.stdout.is_empty(), "{said}: something was written");
}

#[test]
fn bad_text() {
    refused(
        "half",
        "# a case\nzmm1 1..2\n",
        ":2: 1..2 is no number: \
         write a decimal such as -2.5, inf, nan, or the bits as 0x3C00",
    );
    refused(
        "version",
        "version 3\n",
        ":1: a saved state has version 1 or 2, and 3 is neither",
    );
}

/// A sum, of registers and with an operand in memory.
const ADD: &str = "62 F5 74 48 58 C2";
const ADD_MEMORY: &str = "62 F5 74 48 58 00";

/// Anything but what the rules decode, at its offset.
#[test]
fn unlisted_bytes() {
    let only = "; only what is decoded is executed";
    for (name, code, said) in [
        (
            "ret",
            format!("{ADD} {ADD} C3"),
            "offset 12: C3 is answered 4, not an instruction of the list",
        ),
        (
            "nop",
            format!("90 {ADD}"),
            "offset 0: 90 62 F5 74 48 58 .. is answered 4, not an instruction of the list",
        ),
        (
            "opcode",
            format!("{ADD} 62 F5 74 48 5B C2"),
            "offset 6: 62 F5 74 48 5B C2 is answered 4, not an instruction of the list",
        ),
        (
            "reserved",
            format!("{ADD} 62 F5 74 C8 58 C2"),
            "offset 6: 62 F5 74 C8 58 C2 is answered 5, a reserved encoding",
        ),
        (
            "cut",
            format!("{ADD} 62 F5 74"),
            "offset 6: 62 F5 74 is answered 3, the code ends too early",
        ),
        (
            "displacement",
            format!("{ADD} 62 F5 74 48 58 40"),
            "offset 6: 62 F5 74 48 58 40 is answered 3, the code ends too early",
        ),
    ] {
        refused(name, &format!("code {code}\n"), &format!(": {said}{only}"));
    }
}

/// An item holds 4,096 bytes of memory; an instruction that needs none may stand in any case.
#[test]
fn too_much_memory() {
    let said = ": offset 12: it has an operand in memory, of which there are 4097 bytes; \
                an item holds 4096";
    let content = format!("code {ADD} {ADD} {ADD_MEMORY}\nmemory zeros 4097\n");
    refused("memory", &content, said);
}

/// Nothing tells memory from what lies around it so far away.
#[test]
fn too_far_away() {
    // vaddph zmm0, zmm1, [rip - 0x80000000]
    let relative = "62 F5 74 48 58 05 00 00 00 80";
    for (name, state, code, said) in [
        (
            "pointer",
            "pointer 0x170000000",
            relative,
            "its address is relative to a pointer, 0x170000006, too far from 0",
        ),
        (
            "address",
            "rax 0x100000001",
            ADD_MEMORY,
            "its address, 0x100000001, is too far from memory to be tried",
        ),
        (
            "below",
            "rax -4294967297",
            ADD_MEMORY,
            "its address, 0xFFFFFFFEFFFFFFFF, is too far from memory to be tried",
        ),
    ] {
        let content = format!("{state}\ncode {ADD} {code}\n");
        refused(name, &content, &format!(": offset 6: {said}"));
    }
}

/// Where the instructions are missing that is said of a good case, and nothing is written, by the
/// program that makes kept recordings anew too.
#[test]
fn missing_instructions() {
    let Some(why) = processor::missing() else {
        log("skipped: this processor has the instructions, and nothing is missing");
        return;
    };
    let content = format!("code {ADD}\nmemory zeros 4097\n");
    let output = of_file(&file("good.txt", &content));
    let expected = format!("record: nothing is recorded here: {why}\n");
    assert_eq!(text(&output.stderr), expected);
    assert_eq!(output.status.code(), Some(3));
    assert!(output.stdout.is_empty());
    for (arguments, status, said) in [
        (
            &[][..],
            3,
            format!("keep: nothing is recorded here: {why}\n"),
        ),
        (&["--anew"], 2, "usage: keep, keep --stand-in\n".to_string()),
    ] {
        let mut keep = Command::new(env!("CARGO_BIN_EXE_keep"));
        let output = keep.args(arguments).output().expect("the tool starts");
        assert_eq!(
            (output.status.code(), text(&output.stderr)),
            (Some(status), said)
        );
    }
}
