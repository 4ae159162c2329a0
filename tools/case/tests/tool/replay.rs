//! What is said of recordings: of those that are kept, as a person reads it, and of random ones.

use crate::process::{file, of_file, root, text};
use ridgecrook_tests::compare::log;
use ridgecrook_tests::kept;
use ridgecrook_tests::objdump;
use ridgecrook_tests::random_recording::Recordings;
use ridgecrook_tests::recording::Item;
use ridgecrook_tests::second::encoding::{decode, Destination};
use ridgecrook_tests::second::replay::{output, replay, Report};
use std::fs;
use std::os::unix::fs::symlink;
use std::path::{Path, PathBuf};
use std::process::Command;

/// Without objdump an instruction has its name alone.
fn with_text(expected: &str) -> String {
    if objdump::is_there() {
        return expected.replace('~', "  ");
    }
    let cut = |line: &str| match line.split_once('~') {
        Some((bytes, text)) => format!("{bytes}  {}\n", text.split(' ').next().unwrap_or("")),
        None => format!("{line}\n"),
    };
    expected.lines().map(cut).collect()
}

fn kept_file(name: &str) -> PathBuf {
    kept::folder().join(format!("{name}.bin"))
}

/// All that is said of some of the kept recordings. Behind ~ stands what objdump says.
const SAID: [(&str, &str); 15] = [
    (
        "xeon-overflow",
        "\
differs at 0
item 0, from byte 341 on: 83 bytes, with 6 bytes of code and no memory
instruction  62 F5 74 49 59 C2~vmulph zmm0{k1},zmm1,zmm2
pointer      0x0
mask         k1 is 0x1
answer       both      8, an unmasked exception
control      before    0x1B80  rounding to nearest; flags: none; masked: IE DE ZE UE PE
             recorded  0x1B88  rounding to nearest; flags: OE; masked: IE DE ZE UE PE
             ours      0x1BA8  rounding to nearest; flags: OE PE; masked: IE DE ZE UE PE
             they differ in PE
             PE is raised by lane 0 (0xE200 0x7800)
zmm0         all 32 lanes are the same
known        the difference of R7.6 (docs/RULES.md), PE with overflow unmasked
",
    ),
    (
        "wrong-lane",
        "\
differs at 3
item 3, from byte 910 on: 83 bytes, with 6 bytes of code and no memory
instruction  62 F5 74 49 5E C4~vdivph zmm0{k1},zmm1,zmm4
pointer      0x12
mask         k1 is 0xF
answer       both      0, done
control      before    0x1FA2  rounding to nearest; flags: DE PE; masked: IE DE ZE OE UE PE
             both      0x1FA6  rounding to nearest; flags: DE ZE PE; masked: IE DE ZE OE UE PE
zmm0         lane  from           before    recorded                ours
             0     0x3C00 0x0000  0x3C00 1  0x7C01 nan, signalling  0x7C00 inf
             the other 31 lanes are the same
",
    ),
    (
        "wrong-fused",
        "\
differs at 216
item 216, from byte 38874 on: 276 bytes, with 7 bytes of code and 192 bytes of memory
instruction  62 D6 55 30 98 3C 89~vfmadd132ph ymm7,ymm21,WORD BCST [r9+rcx*4]
pointer      0x58D
memory       the operand is 1 half from address 0x8C on; the memory has 192 bytes
answer       both      0, done
control      before    0x1FA1  rounding to nearest; flags: IE PE; masked: IE DE ZE OE UE PE
             both      0x1FA1  rounding to nearest; flags: IE PE; masked: IE DE ZE OE UE PE
zmm7         lane  from                  before    recorded             ours
             0     0x0000 0x4700 0xC000  0x0000 0  0xC001 -2.001953125  0xC000 -2
             the other 31 lanes are the same
",
    ),
    (
        "wrong-upper-lane",
        "\
differs at 0
item 0, from byte 1557 on: 83 bytes, with 6 bytes of code and no memory
instruction  62 B5 2E 08 58 CC~vaddsh xmm1,xmm10,xmm20
pointer      0x0
answer       both      0, done
control      before    0x1F80  rounding to nearest; flags: none; masked: IE DE ZE OE UE PE
             both      0x1F80  rounding to nearest; flags: none; masked: IE DE ZE OE UE PE
zmm1         lane  from   before    recorded           ours
             3     zmm10  0x4500 5  0x7E01 nan, quiet  0x7E00 nan, quiet
             the other 31 lanes are the same
",
    ),
    (
        "wrong-embedded",
        "\
differs at 36
item 36, from byte 7701 on: 83 bytes, with 6 bytes of code and no memory
instruction  62 B5 54 70 58 CD~vaddph zmm1,zmm21,zmm21{rz-sae}
pointer      0xEC
rounding     embedded, toward zero: no exception stops it, and no flag is set
answer       both      0, done
control      before    0x1F80  rounding to nearest; flags: none; masked: IE DE ZE OE UE PE
             recorded  0x1FA0  rounding to nearest; flags: PE; masked: IE DE ZE OE UE PE
             ours      0x1F80  rounding to nearest; flags: none; masked: IE DE ZE OE UE PE
             they differ in PE
             no lane raises PE
zmm1         all 32 lanes are the same
",
    ),
    (
        "wrong-memory",
        "\
differs at 0
item 0, from byte 341 on: 147 bytes, with 6 bytes of code and 64 bytes of memory
instruction  62 F5 74 49 58 10~vaddph zmm2{k1},zmm1,ZMMWORD PTR [rax]
pointer      0x0
mask         k1 is 0x7FFFFFFF
memory       the operand is 32 halves from address 0x2 on; the memory has 64 bytes
answer       both      0, done
control      before    0x1F80  rounding to nearest; flags: none; masked: IE DE ZE OE UE PE
             both      0x1F80  rounding to nearest; flags: none; masked: IE DE ZE OE UE PE
zmm2         lane  from           before     recorded  ours
             0     0x3C00 0x4100  0x8000 -0  0x4200 3  0x4300 3.5
             the other 31 lanes are the same
",
    ),
    (
        "wrong-lane-on-seven",
        "\
differs at 1
item 1, from byte 488 on: 147 bytes, with 6 bytes of code and 64 bytes of memory
instruction  62 F5 74 48 58 10~vaddph zmm2,zmm1,ZMMWORD PTR [rax]
pointer      0x6
memory       the operand is 32 halves from address 0x2 on; the memory has 64 bytes
answer       both      7, a byte that is needed lies outside memory
control      before    0x1F80  rounding to nearest; flags: none; masked: IE DE ZE OE UE PE
             both      0x1F80  rounding to nearest; flags: none; masked: IE DE ZE OE UE PE
zmm2         lane  from           before    recorded  ours
             0     0x3C00 0x4000  0x4200 3  0x0000 0  0x4200 3
             the other 31 lanes are the same
",
    ),
    (
        "wrong-mask",
        "\
differs at 60
item 60, from byte 13167 on: 84 bytes, with 7 bytes of code and no memory
instruction  62 B3 7C 00 C2 C4 99~vcmpph k0,xmm16,xmm20,0x99
pointer      0x18E
answer       both      0, done
control      before    0x1F83  rounding to nearest; flags: IE DE; masked: IE DE ZE OE UE PE
             both      0x1F83  rounding to nearest; flags: IE DE; masked: IE DE ZE OE UE PE
k0           before    0x0
             recorded  0x5A
             ours      0x61
             bit  from           before  recorded  ours
             0    0x0001 0x0400  0       0         1
             1    0x0000 0xB4A4  0       1         0
             3    0x3600 0xC500  0       1         0
             4    0xB600 0xB800  0       1         0
             5    0x3800 0x4100  0       0         1
             the other 59 bits are the same
",
    ),
    (
        "wrong-behind-mask",
        "\
differs at 1
item 1, from byte 425 on: 84 bytes, with 7 bytes of code and no memory
instruction  62 F3 74 48 C2 DA 01~vcmpltph k3,zmm1,zmm2
pointer      0x7
answer       both      8, an unmasked exception
control      before    0x1F00  rounding to nearest; flags: none; masked: DE ZE OE UE PE
             both      0x1F01  rounding to nearest; flags: IE; masked: DE ZE OE UE PE
k3           before    0xABCD
             both      0xABCD
             all 64 bits are the same
             byte 20, behind the mask, is recorded as 0x01, and not 0
",
    ),
    (
        "unlisted-opcode",
        "\
differs at 1
item 1, from byte 744 on: 83 bytes, with 6 bytes of code and no memory
instruction  62 F5 74 49 5B C2
pointer      0x6
answer       recorded  0, done
             ours      4, not an instruction of the list
control      before    0x1F80  rounding to nearest; flags: none; masked: IE DE ZE OE UE PE
             recorded  0x1FA0  rounding to nearest; flags: PE; masked: IE DE ZE OE UE PE
             ours      0x1F80  rounding to nearest; flags: none; masked: IE DE ZE OE UE PE
             they differ in PE
destination  ours      64 zero bytes, since with this answer nothing is decoded
             lane  recorded
             0     0x3555 0.333251953125
             1     0x3955 0.66650390625
             2     0x3C00 1
             3     0x3D55 1.3330078125
",
    ),
    (
        "unknown-answer",
        "\
differs at 8
item 8, from byte 1325 on: 83 bytes, with 6 bytes of code and no memory
instruction  62 F5 7C D9 58 C7~vaddph zmm0{k1}{z},zmm0,zmm7{ru-sae}
pointer      0x30
mask         k1 is 0xF
rounding     embedded, up: no exception stops it, and no flag is set
answer       recorded  42, which no call gives
             ours      0, done
control      before    0x1FBF  rounding to nearest; flags: IE DE ZE OE UE PE; masked: IE DE ZE OE UE PE
             both      0x1FBF  rounding to nearest; flags: IE DE ZE OE UE PE; masked: IE DE ZE OE UE PE
zmm0         all 32 lanes are the same
",
    ),
    (
        "cut-inside",
        "\
bad item 4
item 4, from byte 993 on: 40 bytes are left, and the smallest item has 77
",
    ),
    (
        "wrong-item-length",
        "\
bad item 5
item 5, from byte 1076 on: its length field is 80, and not 79 as with 6 bytes of code and no memory
",
    ),
    (
        "wrong-state-version",
        "\
bad state
the saved state in front: its version is 3, neither 1 nor 2
",
    ),
    (
        "cut-state",
        "\
bad state
the saved state in front: its length field is 657, and 196 bytes follow it
",
    ),
];

#[test]
fn what_is_said_of_kept_recordings() {
    for (name, expected) in SAID {
        let output = of_file("replay", &kept_file(name));
        assert_eq!(text(&output.stdout), with_text(expected), "{name}");
        assert_eq!(
            (output.status.code(), &output.stderr[..]),
            (Some(1), &b""[..])
        );
    }
}

/// R7.6: a difference is the known one only if nothing else differs.
#[test]
fn the_known_difference() {
    for (name, is_known) in [
        ("overflow-packed", true),
        ("overflow-scalar", true),
        ("overflow-fused", true),
        ("wrong-beside-overflow", false),
        ("wrong-control", false),
    ] {
        let said = text(&of_file("replay", &kept_file(name)).stdout);
        let known = "known        the difference of R7.6";
        let found = said.lines().any(|line| line.starts_with(known));
        assert_eq!(found, is_known, "{name}: {said}");
    }
}

/// The first line of each is the report that is due, and so is the status.
#[test]
fn every_kept_recording() {
    for kept in kept::all() {
        let output = of_file("replay", &kept_file(&kept.name));
        let said = text(&output.stdout);
        let due = kept.due.to_string();
        assert_eq!(said.lines().next(), Some(&due[..]), "{}", kept.name);
        let (status, lines) = match kept.due {
            Report::Same(_) => (0, 1..2),
            Report::Differs(_) => (1, 6..50),
            _ => (1, 2..3),
        };
        assert_eq!(output.status.code(), Some(status), "{}", kept.name);
        assert!(lines.contains(&said.lines().count()), "{said}");
    }
}

/// Each fault of an item's form, in words.
#[test]
fn bad_items() {
    let good = fs::read(kept_file("outside")).expect("a kept recording");
    let at = good.len() - 147;
    let changed = |place: usize, byte: u8| {
        let mut bytes = good.clone();
        bytes[at + place] = byte;
        bytes
    };
    for (bytes, what) in [
        (changed(4, 2), "its version is 2, and not 1"),
        (changed(6, 16), "it counts 16 bytes of code, more than 15"),
        (
            changed(13, 0x20),
            "it counts 8256 bytes of memory, more than 4096",
        ),
        (
            changed(14, 0x41),
            "its length field is 143, and not 144 as with 6 bytes of code and 65 bytes of memory",
        ),
        (
            good[..good.len() - 1].to_vec(),
            "146 bytes are left, and an item with 6 bytes of code and 64 bytes of memory has 147",
        ),
        (
            changed(14, 0x01),
            "its length field is 143, and not 80 as with 6 bytes of code and 1 byte of memory",
        ),
        (
            good[..at + 1].to_vec(),
            "1 byte is left, and the smallest item has 77",
        ),
    ] {
        let output = of_file("replay", &file("bad-item.bin", &bytes));
        let expected = format!("bad item 1\nitem 1, from byte {at} on: {what}\n");
        assert_eq!(text(&output.stdout), expected);
    }
}

/// Of random recordings, as written and damaged, the report is the second program's, and whatever
/// is wrong has its words.
#[test]
fn random_recordings() {
    let mut recordings = Recordings::seeded(20_261_118);
    let mut counts = [0; 4];
    for number in 0..1500 {
        let recorder = recordings.recorder(number % 7);
        let mut bytes = recorder.recording.bytes();
        if number % 3 > 0 {
            bytes = recordings.damaged(&recorder.recording);
        }
        let said = case::replay::explained(&bytes).text();
        let line = said.lines().next().expect("a line");
        assert_eq!(format!("{line}\n"), output_of_any_length(&bytes));
        counts[replay(&bytes).number() as usize] += 1;
    }
    log(&format!("case replay of random recordings: {counts:?}"));
    assert!(counts.iter().all(|&count| count > 100), "{counts:?}");
}

fn output_of_any_length(bytes: &[u8]) -> String {
    let line = output(bytes);
    match line.as_str() {
        "too long\n" => format!("{}\n", replay(bytes)),
        _ => line,
    }
}

/// Changes a bit of one lane of an item's destination. Hands back the destination's name, what is
/// recorded of the lane then, and what is said of the others.
fn change_lane(item: &mut Item, lane: usize, bit: usize) -> (String, String, &'static str) {
    let instruction = decode(&item.code).expect("an item with a destination");
    match instruction.destination {
        Destination::Vector(register) => {
            let half = &mut item.destination[2 * lane..2 * lane + 2];
            half[0] ^= 1 << bit;
            let recorded = format!("0x{:02X}{:02X}", half[1], half[0]);
            let others = "the other 31 lanes are the same";
            (format!("zmm{register}"), recorded, others)
        }
        Destination::Mask(mask) => {
            let byte = &mut item.destination[7 - lane / 8];
            *byte ^= 1 << (lane % 8);
            let recorded = (*byte >> (lane % 8) & 1).to_string();
            let others = "the other 63 bits are the same";
            (format!("k{mask}"), recorded, others)
        }
    }
}

/// One lane of a destination is changed: it stands in the report, with what was recorded, and no
/// other does.
#[test]
fn the_lane_that_differs() {
    let mut recordings = Recordings::seeded(7);
    let mut seen = [0; 2];
    for number in 0..400 {
        let mut recorder = recordings.recorder(1);
        let lane = recordings.steps.random.within(0, 31) as usize;
        let item = &mut recorder.recording.items[0];
        if item.answer != 0 {
            continue;
        }
        let (name, recorded, others) = change_lane(item, lane, number % 8);
        let bytes = recorder.recording.bytes();
        // Some have a state that does not load.
        if replay(&bytes) == Report::Differs(0) {
            let said = case::replay::explained(&bytes).text();
            check_lane(&said, &name, lane, &recorded);
            let has_others = said.lines().any(|line| line.trim_start() == others);
            assert!(has_others, "{said}");
            seen[usize::from(name.starts_with('k'))] += 1;
        }
    }
    assert!(seen.iter().all(|&count| count > 10), "{seen:?}");
}

/// The destination has its name, and the lane its row, in which what was recorded stands in its
/// column.
fn check_lane(said: &str, name: &str, lane: usize, recorded: &str) {
    let is_first = |line: &&str| line.split_whitespace().next() == Some(name);
    assert!(said.lines().any(|line| is_first(&line)), "{name}: {said}");
    let heading = said
        .lines()
        .find(|line| line.ends_with("ours") && line.contains("from "));
    let at = heading.and_then(|line| line.find("recorded"));
    let at = at.unwrap_or_else(|| panic!("no table: {said}"));
    let is_row = |line: &&str| line.split_whitespace().next() == Some(&lane.to_string());
    let row = said
        .lines()
        .find(is_row)
        .unwrap_or_else(|| panic!("no row {lane}: {said}"));
    assert!(row[at..].starts_with(recorded), "{recorded}: {said}");
}

#[test]
fn a_file_without_bytes() {
    let output = of_file("replay", &file("no-bytes.bin", b""));
    let what = "it has 0 bytes, and the smallest saved state has 213";
    let expected = format!("bad state\nthe saved state in front: {what}\n");
    assert_eq!(text(&output.stdout), expected);
}

/// R4.18: an item may have bytes behind its instruction.
#[test]
fn bytes_behind_an_instruction() {
    let mut bytes = fs::read(kept_file("wrong-lane")).expect("a kept recording");
    // Item 3 begins at byte 910: its length, its count of code, and two bytes more of it.
    (bytes[910 + 3], bytes[910 + 6]) = (bytes[910 + 3] + 2, 8);
    bytes.splice(910 + 13..910 + 13, [0x90, 0xC3]);
    let said = case::replay::explained(&bytes).text();
    let text = match objdump::is_there() {
        true => "vdivph zmm0{k1},zmm1,zmm4",
        false => "vdivph",
    };
    let line = format!("instruction  62 F5 74 49 5E C4  {text}; behind it 90 C3");
    assert!(said.lines().any(|found| found == line), "{said}");
}

/// A recording is told from an input of the command: its items are no memory.
#[test]
fn the_state_of_a_recording() {
    let output = of_file("show", &kept_file("example"));
    let note = text(&output.stderr);
    assert!(
        note.ends_with("the state in front of a recording with 5 items\n"),
        "{note}"
    );
    let shown = text(&output.stdout);
    assert!(
        shown.contains("zmm3[0]") && !shown.contains("memory"),
        "{shown}"
    );
    // Without items, and with an item that is not well formed, it is an input.
    for name in ["empty", "wrong-item-length"] {
        let output = of_file("show", &kept_file(name));
        assert_eq!(text(&output.stderr), "", "{name}");
    }
}

/// Without objdump there are the bytes and the name.
#[test]
fn without_objdump() {
    let mut command = Command::new(env!("CARGO_BIN_EXE_case"));
    let command = command.arg("replay").arg(kept_file("wrong-lane"));
    let output = command.env("PATH", "").output().expect("the tool starts");
    let said = text(&output.stdout);
    let line = "instruction  62 F5 74 49 5E C4  vdivph";
    assert!(said.lines().any(|found| found == line), "{said}");
}

/// The commands of README's example, each with what is printed below it.
fn example() -> Vec<(String, String)> {
    let readme = fs::read_to_string(root().join("../../README.md")).expect("README.md");
    let lines = readme
        .lines()
        .skip_while(|line| !line.starts_with("    $ target/tools/record "));
    let block = lines.map_while(|line| line.strip_prefix("    "));
    let mut commands: Vec<(String, String)> = Vec::new();
    for line in block {
        match (line.strip_prefix("$ "), commands.last_mut()) {
            (Some(command), _) => commands.push((command.to_string(), String::new())),
            (None, Some((_, printed))) => *printed += &format!("{line}\n"),
            (None, None) => panic!("the example begins with a command"),
        }
    }
    commands
}

/// A folder in which the example's paths lead to the project and to this tool.
fn example_folder() -> PathBuf {
    let folder = Path::new(env!("CARGO_TARGET_TMPDIR")).join("readme");
    let _ = fs::remove_dir_all(&folder);
    fs::create_dir_all(folder.join("target/tools")).expect("a folder");
    let project = root().join("../..");
    for (place, path) in [
        ("tests", project.join("tests")),
        ("target/bin", project.join("target/bin")),
        (
            "target/tools/case",
            PathBuf::from(env!("CARGO_BIN_EXE_case")),
        ),
    ] {
        symlink(path, folder.join(place)).expect("a link");
    }
    folder
}

/// README's example as a reader would paste it. Where a processor is to record, the kept recording
/// stands in: `tools/record` holds the two against each other.
#[test]
fn the_example_of_readme() {
    let record = "target/tools/record tests/data/recordings/example.txt >";
    let folder = example_folder();
    let commands = example();
    for (command, printed) in &commands {
        let pasted = command.replace(record, "cat tests/data/recordings/example.bin >");
        let mut shell = Command::new("sh");
        let shell = shell.args(["-c", &pasted]).current_dir(&folder);
        let output = shell.output().expect("a shell");
        let printed = with_text(&printed.replace("E2  vdivph", "E2~vdivph"));
        assert_eq!(text(&output.stdout), printed, "{command}");
        assert_eq!(text(&output.stderr), "", "{command}");
    }
    assert!(commands[0].0.starts_with(record) && commands.len() == 5);
}
