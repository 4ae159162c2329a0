//! Answers in words (docs/RULES.md, R4.1).

const MEANINGS: [&str; 11] = [
    "done",
    "a size is wrong",
    "a control word with a bit above 15",
    "the code ends too early",
    "not an instruction of the list",
    "a reserved encoding",
    "unused",
    "a byte that is needed lies outside memory",
    "an unmasked exception",
    "a rounding mode above 3",
    "not a saved form",
];

/// The number of an answer, and what it means.
pub fn described(number: u32) -> String {
    let meaning = MEANINGS.get(number as usize);
    format!("{number}, {}", meaning.unwrap_or(&"which no call gives"))
}
