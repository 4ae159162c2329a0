//! An item that does not agree (docs/RULES.md, R14.6) beside our step: what it starts from, the
//! answer, the control word, and the destination.

use crate::answer;
use crate::control::{described, differences, flag, mode};
use crate::item::Item;
use crate::lanes::{operands, register, undecoded};
use crate::show::hex;
use crate::table::named;
use ridgecrook_tests::differences::on_a_processor;
use ridgecrook_tests::machine::{Step, StepOutcome};
use ridgecrook_tests::objdump;
use ridgecrook_tests::second;
use ridgecrook_tests::second::encoding::{decode, Instruction, Second};
use ridgecrook_tests::second::replay::destination;
use ridgecrook_tests::second::step::{first_address, lane_cases, lanes_on};

pub struct Seen<'a> {
    pub item: Item<'a>,
    pub before: Step,
    pub ours: StepOutcome,
}

/// Each part behind its name; one that there is nothing to say of has no line.
pub fn lines(seen: &Seen) -> Vec<String> {
    let decoded = decode(seen.item.code).ok();
    let decoded = decoded.as_ref();
    // R14.5: with our other answers there is no destination.
    let is_named = [0, 7, 8].contains(&seen.ours.answer.number);
    let (register, destination) = match decoded.filter(|_| is_named) {
        Some(instruction) => register(seen, instruction),
        None => ("destination".to_string(), undecoded(&seen.item.destination)),
    };
    let parts = [
        ("instruction", vec![instruction(seen.item.code, decoded)]),
        (
            "pointer",
            vec![format!("0x{:X}", seen.before.machine.pointer)],
        ),
        ("mask", Vec::from_iter(decoded.and_then(|i| mask(seen, i)))),
        (
            "memory",
            Vec::from_iter(decoded.and_then(|i| memory(seen, i))),
        ),
        ("rounding", Vec::from_iter(decoded.and_then(rounding))),
        ("answer", answers(seen)),
        ("control", controls(seen, decoded)),
        (&register, destination),
        ("known", Vec::from_iter(known(seen))),
    ];
    let lines = parts.iter().flat_map(|(name, lines)| named(name, lines));
    lines.collect()
}

/// The bytes of the instruction, their text where objdump has one and else its name, and the bytes
/// behind it, which an item may have and which do not count (R4.18).
fn instruction(code: &[u8], decoded: Option<&Instruction>) -> String {
    let length = decoded.map_or(code.len(), |instruction| instruction.length);
    let (own, behind) = code.split_at(length);
    if own.is_empty() {
        return "no bytes".to_string();
    }
    let name = || decoded.map(|instruction| instruction.listed.name.to_string());
    let text = objdump::text_of(own).or_else(name);
    let mut line = hex(own);
    line += &text.map_or(String::new(), |text| format!("  {text}"));
    if !behind.is_empty() {
        line += &format!("; behind it {}", hex(behind));
    }
    line
}

/// The mask that the lanes go by, where it is one.
fn mask(seen: &Seen, instruction: &Instruction) -> Option<String> {
    let number = instruction.mask;
    let value = seen.before.machine.masks[number];
    (number != 0).then(|| format!("k{number} is 0x{value:X}"))
}

/// Where the operand in memory stands, of an instruction that has one.
fn memory(seen: &Seen, instruction: &Instruction) -> Option<String> {
    let Second::Memory { address, broadcast } = instruction.second else {
        return None;
    };
    let first = first_address(&seen.before.machine, &address, instruction.length);
    let halves = match (broadcast, instruction.elements) {
        (true, _) | (_, 1) => "1 half".to_string(),
        (_, count) => format!("{count} halves"),
    };
    let size = seen.before.memory.len();
    let place = format!("{halves} from address 0x{first:X} on");
    Some(format!(
        "the operand is {place}; the memory has {size} bytes"
    ))
}

/// What the control word does not decide (R7.5).
fn rounding(instruction: &Instruction) -> Option<String> {
    let silent = "no exception stops it, and no flag is set";
    match instruction.embedded_mode {
        Some(embedded) => Some(format!("embedded, {}: {silent}", mode(embedded))),
        None => (instruction.hides_exceptions).then(|| format!("suppressed exceptions: {silent}")),
    }
}

/// A line for either side, or one for both where they are the same.
pub fn sides(recorded: String, ours: String) -> Vec<String> {
    match recorded == ours {
        true => vec![format!("both      {ours}")],
        false => vec![format!("recorded  {recorded}"), format!("ours      {ours}")],
    }
}

fn answers(seen: &Seen) -> Vec<String> {
    let numbers = [seen.item.answer.into(), seen.ours.answer.number];
    let [recorded, ours] = numbers.map(answer::described);
    sides(recorded, ours)
}

fn controls(seen: &Seen, decoded: Option<&Instruction>) -> Vec<String> {
    let said = |word: u32| format!("0x{word:04X}  {}", described(word));
    let before = seen.before.machine.control;
    let (recorded, ours) = (seen.item.control, seen.ours.after.machine.control);
    let mut lines = vec![format!("before    {}", said(before))];
    lines.extend(sides(said(recorded), said(ours)));
    if recorded != ours {
        let names = differences(recorded, ours);
        lines.push(format!("they differ in {names}"));
    }
    // A flag that was set before says nothing of this step.
    let flags = (0..6).filter(|bit| (recorded ^ ours) & !before & 1 << bit != 0);
    let raised = |bit| decoded.map(|instruction| raised(seen, instruction, bit));
    lines.extend(flags.filter_map(raised));
    lines
}

/// How many lanes are listed with their operands.
const LISTED: usize = 4;

/// Which lanes raise a flag, by the second program, whether it is set or not (R7.1).
fn raised(seen: &Seen, instruction: &Instruction, bit: u32) -> String {
    let on = lanes_on(&seen.before.machine, instruction);
    let cases = lane_cases(&seen.before, instruction).unwrap_or_default();
    let raises = |case| second::answer(case).flags >> bit & 1 == 1;
    let lanes = on.iter().zip(&cases).filter(|(_, case)| raises(case));
    let lanes: Vec<usize> = lanes.map(|(lane, _)| *lane).collect();
    let shown = lanes.iter().take(LISTED).map(|&lane| {
        let operands = operands(&seen.before, instruction, lane);
        format!("lane {lane} ({operands})")
    });
    let name = flag(bit);
    match lanes.len() {
        0 => format!("no lane raises {name}"),
        count if count > LISTED => {
            let (shown, more) = (shown.collect::<Vec<_>>().join(", "), count - LISTED);
            format!("{name} is raised by {shown} and {more} more")
        }
        _ => format!(
            "{name} is raised by {}",
            shown.collect::<Vec<_>>().join(", ")
        ),
    }
}

/// Where the item is just what RULES says that processors do otherwise.
fn known(seen: &Seen) -> Option<String> {
    let (processor, difference) = on_a_processor(&seen.before, &seen.ours);
    let name = difference?.name();
    let is_it = u32::from(seen.item.answer) == processor.answer.number
        && seen.item.control == processor.after.machine.control
        && seen.item.destination == destination(&processor);
    is_it.then(|| format!("the difference of R7.6 (docs/RULES.md), {name}"))
}
