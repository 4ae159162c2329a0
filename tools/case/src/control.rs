//! The control word in words (docs/RULES.md, R1.5, R1.6).

const FLAGS: [&str; 6] = ["IE", "DE", "ZE", "OE", "UE", "PE"];
const MODES: [&str; 4] = ["to nearest", "down", "up", "toward zero"];

/// Where the masks and the mode begin.
const MASKS: u32 = 7;
const MODE: u32 = 13;

/// Bits that are neither flag, mask nor mode.
const OTHERS: [(u32, &str); 2] = [(6, "DAZ"), (15, "FZ")];

/// The names of the exceptions whose bits are set among the lowest six.
fn names(bits: u32) -> Vec<&'static str> {
    let all = FLAGS.iter().enumerate();
    let set = all.filter(|(bit, _)| bits >> bit & 1 == 1);
    set.map(|(_, name)| *name).collect()
}

fn listed(bits: u32) -> String {
    match names(bits) {
        none if none.is_empty() => "none".to_string(),
        some => some.join(" "),
    }
}

/// The name of the flag at a bit below 6.
pub fn flag(bit: u32) -> &'static str {
    FLAGS[bit as usize]
}

/// A rounding mode in words, by its number.
pub fn mode(number: u32) -> &'static str {
    MODES[number as usize]
}

/// All that a control word says.
pub fn described(word: u32) -> String {
    let mode = mode(word >> MODE & 3);
    let (flags, masked) = (listed(word), listed(word >> MASKS));
    let mut text = format!("rounding {mode}; flags: {flags}; masked: {masked}");
    for (bit, name) in OTHERS {
        if word >> bit & 1 == 1 {
            text += &format!("; {name}");
        }
    }
    if word > 0xFFFF {
        text += "; bits above 15";
    }
    text
}

/// What two control words differ in, by name.
pub fn differences(one: u32, other: u32) -> String {
    let bits = one ^ other;
    let mut all: Vec<String> = names(bits).iter().map(|name| name.to_string()).collect();
    all.extend(
        names(bits >> MASKS)
            .iter()
            .map(|name| format!("the mask of {name}")),
    );
    if bits >> MODE & 3 != 0 {
        all.push("the rounding mode".to_string());
    }
    let others = OTHERS.iter().filter(|(bit, _)| bits >> bit & 1 == 1);
    all.extend(others.map(|(_, name)| name.to_string()));
    let above = (16..32).filter(|bit| bits >> bit & 1 == 1);
    all.extend(above.map(|bit| format!("bit {bit}")));
    all.join(", ")
}

#[cfg(test)]
mod tests {
    use super::*;

    /// Each bit has a name of its own, but that the two of the mode share one.
    #[test]
    fn every_bit_has_a_name() {
        let names: Vec<String> = (0..32)
            .map(|bit| differences(0x1F80, 0x1F80 ^ 1 << bit))
            .collect();
        for (bit, name) in names.iter().enumerate() {
            assert!(!name.is_empty() && !name.contains(','), "{bit}: {name}");
            let first = names.iter().position(|other| other == name);
            assert_eq!(first, Some(if bit == 14 { 13 } else { bit }), "{name}");
        }
        assert_eq!(differences(7, 7), "");
        assert_eq!(differences(0x1FA8, 0x1D81), "IE, OE, PE, the mask of ZE");
    }
}
