//! The one line that a step is printed as, and read back from:
//! `step code=62F5744958C2 control=00001F80 k1=3 z1=3C00,BC00 z2=4000x2 => 0 6 pointer=6 z0=...`
//!
//! Before `=>` stand the fields of the call that are not blank, behind it the answer's number and
//! length and each field that the call changed. Numbers are hexadecimal, but for sizes and what
//! names a register. A vector register is a list of halves from lane 0 on, `x` repeats one, and
//! lanes that are not named are 0. `vectors` is the size of a file that has not 2,048 bytes, and
//! `rest` are the bytes behind its last whole register.

use crate::machine::{Answer, Machine, Step, StepOutcome, REGISTER_SIZE, VECTORS_SIZE};
use std::fmt;
use std::str::FromStr;

impl fmt::Display for Step {
    fn fmt(&self, f: &mut fmt::Formatter) -> fmt::Result {
        write!(f, "step")?;
        for (name, value) in fields(self) {
            let always = name == "code" || name == "control";
            let blank = ["", "0", "2048"].contains(&value.as_str());
            if always || !blank {
                write!(f, " {name}={value}")?;
            }
        }
        Ok(())
    }
}

/// The part of a line behind `=>`.
pub fn shown_outcome(before: &Step, outcome: &StepOutcome) -> String {
    let answer = outcome.answer;
    let changes = shown_changes(before, &outcome.after);
    format!("{} {}{changes}", answer.number, answer.length)
}

/// Each field that changed, with a space before it.
pub fn shown_changes(before: &Step, after: &Step) -> String {
    let (old, new) = (fields(before), fields(after));
    let both = new.iter().zip(&old);
    let changed = both.filter(|((_, value), (_, old))| value != old);
    changed
        .map(|((name, value), _)| format!(" {name}={value}"))
        .collect()
}

/// Every field by its name, in the order in which they are printed.
fn fields(step: &Step) -> Vec<(String, String)> {
    let machine = &step.machine;
    let mut all = vec![
        ("code".to_string(), shown_bytes(&step.code)),
        ("control".to_string(), format!("{:08X}", machine.control)),
        ("pointer".to_string(), format!("{:X}", machine.pointer)),
    ];
    for (letter, registers) in [('k', &machine.masks[..]), ('r', &machine.general[..])] {
        for (number, value) in registers.iter().enumerate() {
            all.push((format!("{letter}{number}"), format!("{value:X}")));
        }
    }
    let registers = machine.vectors.chunks_exact(REGISTER_SIZE);
    let rest = registers.remainder();
    let size = machine.vectors.len().to_string();
    all.push(("vectors".to_string(), size));
    for (number, register) in registers.enumerate() {
        all.push((format!("z{number}"), shown_register(register)));
    }
    all.push(("rest".to_string(), shown_bytes(rest)));
    all.push(("memory".to_string(), shown_bytes(&step.memory)));
    all
}

fn shown_bytes(bytes: &[u8]) -> String {
    bytes.iter().map(|byte| format!("{byte:02X}")).collect()
}

/// The halves up to the last that is not 0, equal neighbours together.
fn shown_register(bytes: &[u8]) -> String {
    let pairs = bytes.chunks_exact(2);
    let halves: Vec<u16> = pairs.map(|b| u16::from_le_bytes([b[0], b[1]])).collect();
    let used = halves.iter().rposition(|&half| half != 0);
    let used = used.map_or(0, |last| last + 1);
    let runs = halves[..used].chunk_by(|a, b| a == b);
    let shown = runs.map(|run| match run.len() {
        1 => format!("{:04X}", run[0]),
        count => format!("{:04X}x{count}", run[0]),
    });
    shown.collect::<Vec<_>>().join(",")
}

impl FromStr for Step {
    type Err = String;

    /// Reads a step back from its line; what follows `=>` is passed over.
    fn from_str(line: &str) -> Result<Step, String> {
        let mut words = line.split("=>").next().unwrap_or("").split_whitespace();
        if words.next() != Some("step") {
            return Err("the first word is not step".to_string());
        }
        let mut step = Step::of(Vec::new());
        read_fields(&mut step, words)?;
        Ok(step)
    }
}

/// Reads a step and its outcome back from a line that has both.
pub fn read_outcome(line: &str) -> Result<(Step, StepOutcome), String> {
    let before: Step = line.parse()?;
    let (_, outcome) = line.split_once("=>").ok_or("there is no outcome")?;
    let mut words = outcome.split_whitespace();
    let mut number = || {
        let word = words.next().and_then(|word| word.parse().ok());
        word.ok_or("an answer is its number and its length")
    };
    let (number, length) = (number()?, number()?);
    let mut after = before.clone();
    read_fields(&mut after, words)?;
    let answer = Answer { number, length };
    Ok((before, StepOutcome { answer, after }))
}

fn read_fields<'a>(step: &mut Step, words: impl Iterator<Item = &'a str>) -> Result<(), String> {
    for word in words {
        let (name, value) = word.split_once('=').ok_or(format!("{word} has no ="))?;
        set_field(step, name, value).map_err(|error| format!("{word}: {error}"))?;
    }
    Ok(())
}

fn set_field(step: &mut Step, name: &str, value: &str) -> Result<(), String> {
    let machine = &mut step.machine;
    let number = || u64::from_str_radix(value, 16).map_err(|error| error.to_string());
    match name {
        "code" => step.code = read_bytes(value)?,
        "memory" => step.memory = read_bytes(value)?,
        "rest" => set_rest(machine, &read_bytes(value)?)?,
        "pointer" => machine.pointer = number()?,
        "control" => {
            machine.control = u32::try_from(number()?).map_err(|error| error.to_string())?
        }
        "vectors" => {
            let size = value.parse().map_err(|_| "not a size")?;
            machine.vectors.resize(size, 0);
        }
        _ => return set_register(machine, name, value),
    }
    Ok(())
}

/// `k1`, `r15` or `z31`.
fn set_register(machine: &mut Machine, name: &str, value: &str) -> Result<(), String> {
    let unknown = || format!("no field has the name {name}");
    let kind = name.chars().next().ok_or_else(unknown)?;
    let number: usize = name[kind.len_utf8()..].parse().map_err(|_| unknown())?;
    if kind == 'z' {
        let file = machine.vectors.chunks_exact_mut(REGISTER_SIZE);
        let register = file.into_iter().nth(number).ok_or_else(unknown)?;
        return read_register(register, value);
    }
    let registers = match kind {
        'k' => &mut machine.masks[..],
        'r' => &mut machine.general[..],
        _ => return Err(unknown()),
    };
    let register = registers.get_mut(number).ok_or_else(unknown)?;
    *register = u64::from_str_radix(value, 16).map_err(|error| error.to_string())?;
    Ok(())
}

fn set_rest(machine: &mut Machine, bytes: &[u8]) -> Result<(), String> {
    let whole = machine.vectors.len() / REGISTER_SIZE * REGISTER_SIZE;
    let rest = &mut machine.vectors[whole..];
    if rest.len() != bytes.len() {
        return Err(format!("{} bytes stand there", rest.len()));
    }
    rest.copy_from_slice(bytes);
    Ok(())
}

fn read_bytes(digits: &str) -> Result<Vec<u8>, String> {
    let pairs = digits.as_bytes().chunks(2);
    let byte = |pair: &[u8]| {
        let pair = std::str::from_utf8(pair)
            .ok()
            .filter(|pair| pair.len() == 2)?;
        u8::from_str_radix(pair, 16).ok()
    };
    let bytes: Option<Vec<u8>> = pairs.map(byte).collect();
    bytes.ok_or("not pairs of hexadecimal digits".to_string())
}

fn read_register(register: &mut [u8], value: &str) -> Result<(), String> {
    let mut halves = Vec::new();
    for item in value.split(',').filter(|item| !item.is_empty()) {
        let (digits, count) = item.split_once('x').unwrap_or((item, "1"));
        let half = u16::from_str_radix(digits, 16).map_err(|error| error.to_string())?;
        let count: usize = count.parse().map_err(|_| "not a count".to_string())?;
        halves.extend(std::iter::repeat_n(half, count.min(VECTORS_SIZE)));
    }
    if 2 * halves.len() > register.len() {
        return Err("a register has 32 lanes".to_string());
    }
    register.fill(0);
    for (place, half) in register.chunks_exact_mut(2).zip(halves) {
        place.copy_from_slice(&half.to_le_bytes());
    }
    Ok(())
}

#[cfg(test)]
mod tests {
    use super::*;

    const LINES: [&str; 4] = [
        "step code= control=00001F80",
        "step code=62F5744858C2 control=00001F80 z1=3C00,BC00 z2=0000,4000x31",
        "step code=62 control=FFFF9F80 pointer=FFFFFFFFFFFFFFFF k1=3 r15=10 memory=0001",
        "step code=62 control=00001F80 vectors=130 z0=0001 z1=8000x32 rest=00A5",
    ];

    #[test]
    fn a_printed_line_is_read_back() {
        for line in LINES {
            let step: Step = line.parse().expect(line);
            assert_eq!(step.to_string(), line);
            let failure = format!("{line} => 0 6 pointer=6 expected 3 0");
            assert_eq!(failure.parse(), Ok(step));
        }
    }

    #[test]
    fn a_wrong_line_is_refused() {
        for word in [
            "code",
            "code=6",
            "code=6G",
            "code=é",
            "control=100000000",
            "k8=1",
            "r16=1",
            "z32=1",
            "z0=3C00x33",
            "z0=3C000",
            "é=1",
            "=",
            "rest=00",
            "vectors=-1",
        ] {
            let line = format!("step {word}");
            assert!(line.parse::<Step>().is_err(), "{line}");
        }
        assert!("add m0 u0 3C00 3C00".parse::<Step>().is_err());
    }

    #[test]
    fn an_outcome_shows_what_changed() {
        let before: Step = "step code=62 z3=3C00x32 memory=01".parse().unwrap();
        let mut outcome = StepOutcome {
            answer: Answer {
                number: 0,
                length: 6,
            },
            after: before.clone(),
        };
        assert_eq!(shown_outcome(&before, &outcome), "0 6");
        outcome.after.machine.set_lane(31, 1, 0xBC00);
        outcome.after.machine.vectors[192..256].fill(0);
        outcome.after.machine.general[2] = 9;
        outcome.after.memory[0] = 0;
        let shown = "0 6 r2=9 z3= z31=0000,BC00 memory=00";
        assert_eq!(shown_outcome(&before, &outcome), shown);
        let line = format!("{before} => {shown}");
        assert_eq!(read_outcome(&line), Ok((before, outcome)));
    }

    #[test]
    fn a_wrong_outcome_is_refused() {
        for rest in ["", "=>", "=> 0", "=> x 6", "=> 0 6 k8=1", "=> 0 6 more"] {
            let line = format!("step code=62 {rest}");
            assert!(read_outcome(&line).is_err(), "{line}");
        }
    }
}
