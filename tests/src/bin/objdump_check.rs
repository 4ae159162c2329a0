//! Holds the second program's decoder against GNU objdump on random valid instructions, and on
//! VCMPPH with every immediate: names, those of predicates too, operands, masks, rounding,
//! suppression, immediates and lengths; and, of every row with every byte 3, and of VCMPPH with
//! every destination, whether it is reserved (R4.10). `cargo run --release --bin objdump_check`.
//! The last line is `N passed, M failed`; where there is no objdump that knows AVX512-FP16, a line
//! says that the check was skipped, and N is 0.

use ridgecrook_tests::assemble::Encoding;
use ridgecrook_tests::compare::setting;
use ridgecrook_tests::machine::GENERAL;
use ridgecrook_tests::objdump;
use ridgecrook_tests::random_step::Steps;
use ridgecrook_tests::second::comparison::predicate_name;
use ridgecrook_tests::second::encoding::{
    decode, Address, Base, Destination, Instruction, Second, LIST,
};
use std::process::exit;

fn main() {
    if !objdump::is_there() {
        println!("skipped: no objdump that knows AVX512-FP16");
        println!("0 passed, 0 failed");
        return;
    }
    let seed = setting("RIDGECROOK_SEED", 7);
    let count = setting("RIDGECROOK_STEPS", 5_000);
    let mut steps = Steps::seeded(seed);
    let random = (0..count).map(|_| steps.code());
    let codes: Vec<Vec<u8>> = random.chain(every_immediate()).collect();
    let lines = disassembled(&codes.concat());
    let mut failed = 0;
    let mut at = 0;
    for (place, code) in codes.iter().enumerate() {
        let instruction = decode(code).expect("a valid instruction");
        let expected = format!("{at:x}: {}", written(&instruction));
        let found = lines.get(place).map_or("", |line| line);
        if found != expected {
            failed += 1;
            if failed <= 20 {
                println!("{code:02X?} => {found} expected {expected}");
            }
        }
        at += instruction.length;
    }
    let (tried, wrong) = reserved();
    println!(
        "{} passed, {} failed",
        codes.len() as u64 + tried - failed - wrong,
        failed + wrong
    );
    if failed + wrong > 0 || lines.len() != codes.len() {
        exit(1);
    }
}

/// VCMPPH with every immediate.
fn every_immediate() -> impl Iterator<Item = Vec<u8>> {
    let row = &LIST[LIST.len() - 1];
    (0..=255).map(|immediate| {
        let encoding = Encoding {
            immediate: Some(immediate),
            ..Encoding::registers(row, 3, 1, 2)
        };
        encoding.bytes()
    })
}

/// Every row with every byte 3, and VCMPPH with every destination, in register and in memory form:
/// how many, and of how many objdump and the decoder differ over whether they are reserved. Each
/// stands 16 bytes behind the one before, with NOPs between, so that what objdump makes of a bad
/// one ends before the next.
fn reserved() -> (u64, u64) {
    let codes = reserved_or_not();
    let mut lines = disassembled(&codes.concat()).into_iter();
    let mut wrong = 0;
    for (place, code) in codes.iter().enumerate() {
        let start = format!("{:x}: ", 16 * place);
        let line = lines.find(|line| line.starts_with(&start));
        let is_bad = |line: &String| line.contains("(bad)") || line.contains("{bad}");
        if line.as_ref().map(is_bad) != Some(decode(code).err() == Some(5)) {
            wrong += 1;
            println!("{:02X?} => {line:?}", &code[..7]);
        }
    }
    (codes.len() as u64, wrong)
}

/// Two things are left out that objdump does not look at: V' of a row without a first source, and z
/// of VCMPPH with a mask.
fn reserved_or_not() -> Vec<Vec<u8>> {
    let mut codes = Vec::new();
    for place in 0..LIST.len() * 512 {
        let (row, modrm) = (&LIST[place / 512], [0xC2, 0x00][place / 256 % 2]);
        let mut code = Encoding::registers(row, 0, 0, 2).bytes();
        (code[3], code[5]) = (place as u8, modrm);
        let needless = !row.takes_first() && code[3] & 8 == 0;
        let zeroes_mask = row.to_mask && code[3] & 0x80 != 0 && code[3] & 7 != 0;
        if !needless && !zeroes_mask {
            codes.push(code);
        }
    }
    for place in 0..64 {
        let row = &LIST[LIST.len() - 1];
        let mut encoding = Encoding::registers(row, place & 31, 0, 2);
        encoding.mode = 3 * (place >> 5);
        codes.push(encoding.bytes());
    }
    codes.iter_mut().for_each(|code| code.resize(16, 0x90));
    codes
}

/// What objdump writes of some bytes, a line for each instruction.
fn disassembled(bytes: &[u8]) -> Vec<String> {
    let lines = objdump::disassembled(bytes).expect("the temporary folder takes a file");
    lines.iter().map(|line| without_riz(line)).collect()
}

/// objdump writes an index that is none as `riz` and a scale, where the encoding has room for one;
/// the same without.
fn without_riz(text: &str) -> String {
    if let Some((before, rest)) = text.split_once("[riz*") {
        let (sum, behind) = rest.split_once(']').expect(text);
        let magnitude = i64::from_str_radix(&sum[4..], 16).expect(text);
        let sum = if sum[1..].starts_with('-') {
            -magnitude
        } else {
            magnitude
        };
        return format!("{before}ds:{sum:#x}{behind}");
    }
    let scales = ["+riz*1", "+riz*2", "+riz*4", "+riz*8"];
    scales
        .iter()
        .fold(text.to_string(), |text, riz| text.replace(riz, ""))
}

/// The instruction as objdump writes it in Intel's syntax.
fn written(instruction: &Instruction) -> String {
    let mut text = format!("{} {}", name(instruction), destination(instruction));
    if instruction.mask != 0 {
        text += &format!("{{k{}}}", instruction.mask);
    }
    if instruction.zeroing {
        text += "{z}";
    }
    if instruction.listed.takes_first() {
        text += &format!(",{}", register(instruction, instruction.first));
    }
    text += ",";
    match &instruction.second {
        Second::Register(number) => text += &register(instruction, *number),
        Second::Memory { address, broadcast } => {
            text += &memory(instruction, address, *broadcast);
        }
    }
    text += match instruction.embedded_mode {
        Some(mode) => ["{rn-sae}", "{rd-sae}", "{ru-sae}", "{rz-sae}"][mode as usize],
        None if instruction.hides_exceptions => "{sae}",
        None => "",
    };
    // A predicate that has a name is part of the instruction's.
    match instruction.immediate {
        Some(immediate) if immediate > 31 => text + &format!(",{immediate:#x}"),
        _ => text,
    }
}

/// Of VCMPPH with a predicate its name too: `vcmple_oqph`, or `vcmpleph` of the first with that
/// relation.
fn name(instruction: &Instruction) -> String {
    let name = instruction.listed.name;
    let Some(immediate) = instruction.immediate.filter(|&immediate| immediate <= 31) else {
        return name.to_string();
    };
    let relation = |number: u8| predicate_name(u32::from(number)).split('_').next();
    let is_first = (0..immediate).all(|earlier| relation(earlier) != relation(immediate));
    let predicate = match is_first {
        true => relation(immediate).expect("a relation"),
        false => predicate_name(u32::from(immediate)),
    };
    name.replace("ph", &format!("{}ph", predicate.to_lowercase()))
}

fn destination(instruction: &Instruction) -> String {
    match instruction.destination {
        Destination::Vector(number) => register(instruction, number),
        Destination::Mask(number) => format!("k{number}"),
    }
}

/// One element stands in an xmm register, whatever the length bits say.
fn letter(instruction: &Instruction) -> char {
    match instruction.elements {
        1 | 8 => 'x',
        16 => 'y',
        _ => 'z',
    }
}

fn register(instruction: &Instruction, number: usize) -> String {
    format!("{}mm{number}", letter(instruction))
}

fn memory(instruction: &Instruction, address: &Address, broadcast: bool) -> String {
    let size = match instruction.elements {
        _ if broadcast => "WORD BCST".to_string(),
        1 => "WORD PTR".to_string(),
        _ => format!("{}MMWORD PTR", letter(instruction).to_ascii_uppercase()),
    };
    let base = match address.base {
        Base::None => None,
        Base::General(number) => Some(GENERAL[number]),
        Base::NextInstruction => Some("rip"),
    };
    let index = address
        .index
        .map(|(number, scale)| format!("{}*{scale}", GENERAL[number]));
    let parts: Vec<String> = base.map(str::to_string).into_iter().chain(index).collect();
    let shown = address.displacement_bytes > 0;
    let displacement = address.displacement;
    match parts.join("+") {
        sum if sum.is_empty() => format!("{size} ds:{displacement:#x}"),
        sum if sum == "rip" => format!("{size} [rip+{displacement:#x}]"),
        sum if shown && displacement < 0 => format!("{size} [{sum}-{:#x}]", -displacement),
        sum if shown => format!("{size} [{sum}+{displacement:#x}]"),
        sum => format!("{size} [{sum}]"),
    }
}
