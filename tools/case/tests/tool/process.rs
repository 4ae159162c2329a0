//! The tool and the command as processes, and the files that they read.

use std::fs;
use std::io::Write;
use std::path::{Path, PathBuf};
use std::process::{Command, Output, Stdio};

/// The smallest text: the command's example in docs/RULES.md, section 12.
pub const WHOLE: &str = "code 62 F5 74 48 58 C2\n";

/// R9.9: how many bytes a saved state of version 1 has, and one of version 2 without its registers.
pub const SIZE_1: usize = 2257;
pub const SIZE_2: usize = 213;

/// R9.1: where the vector file begins.
pub const FILE_AT: usize = 209;

pub fn root() -> &'static Path {
    Path::new(env!("CARGO_MANIFEST_DIR"))
}

/// A file of this content below the folder that cargo keeps for tests.
pub fn file(name: &str, content: &[u8]) -> PathBuf {
    let path = Path::new(env!("CARGO_TARGET_TMPDIR")).join(name);
    fs::write(&path, content).expect("a file can be written");
    path
}

pub fn case(arguments: &[&str]) -> Output {
    let mut command = Command::new(env!("CARGO_BIN_EXE_case"));
    command.args(arguments).output().expect("the tool starts")
}

pub fn of_file(what: &str, file: &Path) -> Output {
    case(&[what, file.to_str().expect("a plain name")])
}

pub fn text(bytes: &[u8]) -> String {
    String::from_utf8_lossy(bytes).to_string()
}

/// The input that a text makes, and the notes.
pub fn made(name: &str, content: &str) -> (Vec<u8>, String) {
    let output = of_file("make", &file(&format!("{name}.txt"), content.as_bytes()));
    let said = text(&output.stderr);
    assert!(output.status.success(), "{name}: {said}");
    (output.stdout, said)
}

pub fn shown(name: &str, bytes: &[u8]) -> String {
    let output = of_file("show", &file(&format!("{name}.bin"), bytes));
    let said = text(&output.stderr);
    assert!(output.status.success(), "{name}: {said}");
    text(&output.stdout)
}

/// What the command prints; the program is found as the tests of the command find it.
pub fn run(input: &[u8], name: &str) -> String {
    let path = match std::env::var_os("RIDGECROOK_COMMAND") {
        Some(path) => PathBuf::from(path),
        None => root().join("../../target/bin/run"),
    };
    let shown = path.display();
    assert!(
        path.is_file(),
        "the command {shown} is missing: run `make`"
    );
    let input = fs::File::open(file(&format!("{name}.bin"), input)).expect("the input opens");
    let output = Command::new(&path)
        .stdin(input)
        .stdout(Stdio::piped())
        .output();
    text(&output.expect("the command starts").stdout)
}

/// Whether GNU as is here and knows the instructions.
pub fn has_assembler() -> bool {
    let path = file("asm-known.txt", b"asm vaddph zmm0, zmm1, zmm2\n");
    let known = of_file("make", &path).status.success();
    if !known {
        // Past the test runner, which hides what a passing test prints.
        let line = "skipped: no as on this machine that knows the instructions";
        writeln!(std::io::stderr(), "{line}").expect("standard error takes a line");
    }
    known
}

/// R9.8: the state of version 2 that a state of version 1 is.
pub fn packed(whole: &[u8]) -> Vec<u8> {
    let registers: Vec<&[u8]> = whole[FILE_AT..].chunks(64).collect();
    let present = |register: &&[u8]| register.iter().any(|&byte| byte != 0);
    let bits = registers.iter().rev().map(present);
    let word = bits.fold(0_u32, |word, bit| word << 1 | u32::from(bit));
    let mut bytes = whole[..FILE_AT].to_vec();
    bytes.extend(word.to_be_bytes());
    bytes.extend(registers.into_iter().filter(present).flatten());
    let length = bytes.len() as u32 - 4;
    bytes[..4].copy_from_slice(&length.to_be_bytes());
    bytes[4] = 2;
    bytes
}

/// Bytes from a multiplicative generator, some of them zero.
pub fn random_bytes(seed: u64, count: usize) -> Vec<u8> {
    let mut state = seed;
    let mut next = || {
        state = state
            .wrapping_mul(6_364_136_223_846_793_005)
            .wrapping_add(1);
        state >> 33
    };
    let mut bytes = Vec::new();
    while bytes.len() < count {
        let zeros = next() % 3 == 0;
        let run = 1 + next() as usize % 100;
        bytes.extend((0..run).map(|_| if zeros { 0 } else { next() as u8 }));
    }
    bytes.truncate(count);
    bytes
}
