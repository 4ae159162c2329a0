//! The text of a case. `help.txt` has its rules.

use crate::assembler::assemble;
use crate::half;
use crate::saved::Version;
use crate::state::{Input, CODE_LIMIT, GENERAL, MEMORY_LIMIT};
use std::collections::HashMap;

/// Something to say about a line.
#[derive(Debug)]
pub struct Message {
    pub line: usize,
    pub text: String,
}

/// What was read: the case or what is wrong with its text, and notes in either case.
pub struct Reading {
    pub result: Result<Input, Vec<Message>>,
    pub notes: Vec<Message>,
}

pub fn read(text: &str) -> Reading {
    let mut reader = Reader {
        input: Input::blank(),
        memory: Vec::new(),
        set: HashMap::new(),
        notes: Vec::new(),
        line: 0,
    };
    let mut errors = Vec::new();
    for (place, line) in text.lines().enumerate() {
        reader.line = place + 1;
        if let Err(text) = reader.line(line) {
            let line = reader.line;
            errors.push(Message { line, text });
        }
    }
    let mut input = reader.input;
    input.memory = reader.memory.iter().map(|byte| byte.unwrap_or(0)).collect();
    Reading {
        result: if errors.is_empty() {
            Ok(input)
        } else {
            Err(errors)
        },
        notes: reader.notes,
    }
}

struct Reader {
    input: Input,
    /// Bytes that no line has set are none, and become 0.
    memory: Vec<Option<u8>>,
    /// The line in which a register or lane was set.
    set: HashMap<String, usize>,
    notes: Vec<Message>,
    line: usize,
}

type Outcome<T = ()> = Result<T, String>;

impl Reader {
    fn line(&mut self, line: &str) -> Outcome {
        let line = line.split('#').next().unwrap_or("").trim();
        if line.is_empty() {
            return Ok(());
        }
        let (name, rest) = named(line);
        if rest.is_empty() {
            return Err(format!("`{name}` is followed by nothing"));
        }
        let (name, place) = indexed(&name.to_ascii_lowercase())?;
        match (name.as_str(), place) {
            ("code", None) => self.code(bytes(rest)?),
            ("asm", None) => self.code(assemble(rest)?),
            ("memory", place) => self.memory(place, rest),
            ("version", None) => self.version(rest),
            ("control", None) => self.control(rest),
            (name, place) if name.starts_with("zmm") => self.vector(name, place, rest),
            (name, None) => self.number(name, rest),
            (name, Some(_)) => Err(format!("`{name}` takes no place in brackets")),
        }
    }

    fn note(&mut self, text: String) {
        let line = self.line;
        self.notes.push(Message { line, text });
    }

    /// Refuses what an earlier line has set.
    fn set_once(&mut self, name: &str) -> Outcome {
        match self.set.insert(name.to_string(), self.line) {
            Some(earlier) => Err(format!("{name} is set in line {earlier} already")),
            None => Ok(()),
        }
    }

    fn code(&mut self, more: Vec<u8>) -> Outcome {
        self.input.code.extend(more);
        match self.input.code.len() > CODE_LIMIT {
            true => Err(format!("the code is longer than {CODE_LIMIT} bytes")),
            false => Ok(()),
        }
    }

    fn version(&mut self, rest: &str) -> Outcome {
        self.set_once("version")?;
        let version = number(rest).ok().and_then(Version::of);
        self.input.version = version.ok_or(format!(
            "a saved state has version 1 or 2, and {rest} is neither"
        ))?;
        Ok(())
    }

    fn control(&mut self, rest: &str) -> Outcome {
        self.set_once("control")?;
        let control = number(rest)?;
        let word = u32::try_from(control).ok().filter(|&word| word <= 0xFFFF);
        self.input.state.control = word.ok_or(format!(
            "the control word has bits 0 to 15, and {rest} has more"
        ))?;
        Ok(())
    }

    /// The pointer, a mask or a general register.
    fn number(&mut self, name: &str, rest: &str) -> Outcome {
        let state = &mut self.input.state;
        let mask = register(name, "k", 8);
        let general = GENERAL.iter().position(|&known| known == name);
        let place = match (mask, general) {
            (Some(number), _) => &mut state.masks[number],
            (_, Some(number)) => &mut state.general[number],
            _ if name == "pointer" => &mut state.pointer,
            _ => return Err(unknown(name)),
        };
        *place = number(rest)?;
        self.set_once(name)
    }

    fn vector(&mut self, name: &str, place: Option<usize>, rest: &str) -> Outcome {
        let number = register(name, "zmm", 32).ok_or_else(|| unknown(name))?;
        let first = place.unwrap_or(0);
        let halves = self.halves(rest)?;
        if first + halves.len() > 32 {
            let last = first + halves.len() - 1;
            return Err(format!("{name} has lanes 0 to 31, and this goes to {last}"));
        }
        for (lane, half) in (first..).zip(halves) {
            self.set_once(&format!("{name}[{lane}]"))?;
            self.input.state.vectors[number][lane] = half;
        }
        Ok(())
    }

    fn memory(&mut self, place: Option<usize>, rest: &str) -> Outcome {
        let at = place.unwrap_or(self.memory.len());
        let (kind, rest) = named(rest);
        let more = match kind.to_ascii_lowercase().as_str() {
            "halves" => {
                let halves = self.halves(rest)?;
                halves.iter().flat_map(|half| half.to_le_bytes()).collect()
            }
            "bytes" => bytes(rest)?,
            "zeros" => vec![0; number(rest)?.min(MEMORY_LIMIT as u64 + 1) as usize],
            _ => return Err(format!("`{kind}` is neither halves, bytes nor zeros")),
        };
        let end = at.saturating_add(more.len());
        if end > MEMORY_LIMIT {
            return Err(format!("the memory is larger than {MEMORY_LIMIT} bytes"));
        }
        self.memory.resize(self.memory.len().max(end), None);
        for (address, byte) in (at..).zip(more) {
            if self.memory[address].replace(byte).is_some() {
                return Err(format!("the byte at address {address} is set already"));
            }
        }
        Ok(())
    }

    /// A list such as `1.5 -0 0x3C00 0.25*4`.
    fn halves(&mut self, list: &str) -> Outcome<Vec<u16>> {
        let mut all = Vec::new();
        for item in list.split([' ', '\t', ',']).filter(|item| !item.is_empty()) {
            let (value, count) = item.split_once('*').unwrap_or((item, "1"));
            let count = count.parse::<usize>().ok().filter(|&n| n > 0);
            let count = count.ok_or(format!("{item}: a count above 0 follows *"))?;
            let half = self.half(value)?;
            let most = MEMORY_LIMIT / 2 + 1;
            all.extend(std::iter::repeat_n(half, count.min(most)));
        }
        match all.is_empty() {
            true => Err("a list of halves is missing".to_string()),
            false => Ok(all),
        }
    }

    fn half(&mut self, text: &str) -> Outcome<u16> {
        if let Some(digits) = text.strip_prefix("0x") {
            let is_hex = digits.bytes().all(|digit| digit.is_ascii_hexdigit());
            let bits = u16::from_str_radix(digits, 16).ok().filter(|_| is_hex);
            return bits.ok_or(format!("{text} is not 0x and one to four hex digits"));
        }
        let looks_hex = text.len() == 4 && text.bytes().all(|digit| digit.is_ascii_hexdigit());
        let Some(read) = half::from_decimal(text) else {
            let advice = "write a decimal such as -2.5, inf, nan, or the bits as 0x3C00";
            return Err(format!("{text} is no number: {advice}"));
        };
        if looks_hex && text.contains(['e', 'E']) {
            let advice = "write 0x before the bits, or the decimal with a point";
            return Err(format!("{text} may mean bits or a power of ten: {advice}"));
        }
        if !read.exact {
            let half = format!("{} (0x{:04X})", half::to_decimal(read.half), read.half);
            self.note(format!("{text} is no half; the nearest is {half}"));
        } else if looks_hex {
            let advice = format!("the half with these bits is 0x{text}");
            self.note(format!("{text} is taken as a decimal number; {advice}"));
        }
        Ok(read.half)
    }
}

/// The first word and what follows it; an equals sign between them is passed over.
fn named(line: &str) -> (&str, &str) {
    let end = line.find([' ', '\t', '=']).unwrap_or(line.len());
    let (name, rest) = line.split_at(end);
    let rest = rest.trim_start();
    (name, rest.strip_prefix('=').unwrap_or(rest).trim())
}

/// `zmm1[4]` is `zmm1` and 4.
fn indexed(name: &str) -> Outcome<(String, Option<usize>)> {
    let Some((name, place)) = name.split_once('[') else {
        return Ok((name.to_string(), None));
    };
    let digits = place.strip_suffix(']');
    let number = digits.and_then(|digits| number(digits).ok());
    let number = number.and_then(|number| usize::try_from(number).ok());
    match number.filter(|&number| number <= MEMORY_LIMIT) {
        Some(number) => Ok((name.to_string(), Some(number))),
        None => Err(format!("[{place} is not a lane or an address in brackets")),
    }
}

/// The number behind a register's letters, written without zeros before it.
fn register(name: &str, letters: &str, count: usize) -> Option<usize> {
    let digits = name.strip_prefix(letters)?;
    (0..count).find(|number| number.to_string() == digits)
}

fn unknown(name: &str) -> String {
    format!(
        "`{name}` is unknown: a line begins with version, control, pointer, rax to r15, \
         k0 to k7, zmm0 to zmm31, code, asm or memory"
    )
}

/// 64 bits: `64`, `-64`, `0x40`, `0b1000000`.
fn number(text: &str) -> Outcome<u64> {
    let wrong = || format!("{text} is no number of 64 bits: write 64, -64, 0x40 or 0b1000000");
    let radix = [("0x", 16), ("0b", 2)];
    let found = radix
        .iter()
        .find_map(|&(head, radix)| Some((text.strip_prefix(head)?, radix)));
    let value = match found {
        Some((digits, _)) if digits.starts_with('+') => None,
        Some((digits, radix)) => u64::from_str_radix(digits, radix).ok(),
        None if text.starts_with('-') => text.parse::<i64>().ok().map(|number| number as u64),
        None => text.parse().ok(),
    };
    value.ok_or_else(wrong)
}

/// Pairs of hex digits, with or without spaces between them.
fn bytes(text: &str) -> Outcome<Vec<u8>> {
    let mut all = Vec::new();
    for word in text.split([' ', '\t', ',']).filter(|word| !word.is_empty()) {
        let is_hex = word.bytes().all(|digit| digit.is_ascii_hexdigit());
        if !is_hex || word.len() % 2 == 1 {
            return Err(format!("{word} is not pairs of hex digits, such as 62 F5"));
        }
        let pairs = (0..word.len()).step_by(2).map(|at| &word[at..at + 2]);
        let byte = |pair| u8::from_str_radix(pair, 16).expect("hex digits");
        all.extend(pairs.map(byte));
    }
    match all.is_empty() {
        true => Err("bytes are missing".to_string()),
        false => Ok(all),
    }
}
