//! Bytes of an instruction through GNU as, in Intel's syntax.

use ridgecrook_tests::own_file::own_file;
use std::fs;
use std::io::Write;
use std::process::{Command, Stdio};

const MISSING: &str = "there is no GNU as on this machine: write the bytes in a line `code`";

/// The bytes of one line of assembly, or what the assembler says against it.
pub fn assemble(line: &str) -> Result<Vec<u8>, String> {
    let object = own_file("o");
    let child = Command::new("as")
        .args(["--64", "-o"])
        .arg(&object)
        .stdin(Stdio::piped())
        .stdout(Stdio::null())
        .stderr(Stdio::piped())
        .spawn();
    let mut child = child.map_err(|_| MISSING)?;
    let source = format!(".intel_syntax noprefix\n{line}\n");
    let mut input = child.stdin.take().expect("standard input is a pipe");
    // Where as ends early, what it says counts.
    let _ = input.write_all(source.as_bytes());
    drop(input);
    let output = child.wait_with_output().map_err(|_| MISSING)?;
    if !output.status.success() {
        return Err(format!("as: {}", complaint(&output.stderr)));
    }
    let elf = fs::read(&object).map_err(|error| format!("as wrote no object: {error}"));
    let _ = fs::remove_file(&object);
    let bytes = text(&elf?)?;
    match bytes.is_empty() {
        true => Err("as makes no bytes of it".to_string()),
        false => Ok(bytes),
    }
}

/// Whether GNU as is here and knows the instructions.
pub fn is_there() -> bool {
    assemble("vaddph zmm0, zmm1, zmm2").is_ok()
}

/// The first error of those that as printed, without its place.
fn complaint(printed: &[u8]) -> String {
    let printed = String::from_utf8_lossy(printed);
    let error = printed.lines().find_map(|line| line.split_once("Error: "));
    let error = error.map_or(printed.trim(), |(_, error)| error);
    error.to_string()
}

/// A little-endian number of an object file.
fn number(elf: &[u8], at: usize, size: usize) -> Option<usize> {
    let bytes = elf.get(at..at.checked_add(size)?)?;
    let sum = bytes
        .iter()
        .rev()
        .fold(0, |sum, &byte| sum << 8 | usize::from(byte));
    Some(sum)
}

/// The sections of a 64-bit ELF object, each with its name.
fn sections(elf: &[u8]) -> Option<Vec<(&[u8], &[u8])>> {
    let (table, count, names) = (
        number(elf, 0x28, 8)?,
        number(elf, 0x3C, 2)?,
        number(elf, 0x3E, 2)?,
    );
    let header = |section: usize| table + 64 * section;
    let content = |section: usize| {
        let at = number(elf, header(section) + 0x18, 8)?;
        let size = number(elf, header(section) + 0x20, 8)?;
        // A section without content (.bss) may point anywhere.
        let held = number(elf, header(section) + 4, 4)? != 8;
        elf.get(at..at + if held { size } else { 0 })
    };
    let all_names = content(names)?;
    let mut sections = Vec::new();
    for section in 1..count {
        let name = all_names.get(number(elf, header(section), 4)?..)?;
        let end = name.iter().position(|&byte| byte == 0)?;
        sections.push((&name[..end], content(section)?));
    }
    Some(sections)
}

/// The bytes of the text, in which nothing is left open.
fn text(elf: &[u8]) -> Result<Vec<u8>, String> {
    let sections = sections(elf).ok_or("the object that as wrote is no ELF object of 64 bits")?;
    if sections.iter().any(|(name, _)| *name == b".rela.text") {
        return Err("it names a place that is no number or register".to_string());
    }
    let text = sections.iter().find(|(name, _)| *name == b".text");
    Ok(text.map_or(Vec::new(), |(_, bytes)| bytes.to_vec()))
}
