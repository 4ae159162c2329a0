//! Where a processor does otherwise than the rules (R7.6): in one flag that answer 8 leaves. It is
//! said exactly what the processor leaves, from what the rules say of the lanes. All other
//! differences are faults.

use crate::case::{Case, OE, PE};
use crate::machine::{Step, StepOutcome};
use crate::second;
use crate::second::encoding::decode;
use crate::second::step::{lane_cases, raised, unmasked, EARLY};

#[derive(Clone, Copy, Debug, PartialEq, Eq)]
pub enum Difference {
    /// Where OE is unmasked and no early stage stops it, an overflow has PE only if its result has
    /// more than 11 significant bits, whatever the exponent.
    OverflowPrecision,
}

impl Difference {
    pub const ALL: [Difference; 1] = [Difference::OverflowPrecision];

    pub fn name(self) -> &'static str {
        match self {
            Difference::OverflowPrecision => "PE with overflow unmasked",
        }
    }
}

/// What a processor leaves of a step, and the name of the difference from the outcome by the rules,
/// which the caller has, if there is one.
pub fn on_a_processor(step: &Step, by_rules: &StepOutcome) -> (StepOutcome, Option<Difference>) {
    let mut expected = by_rules.clone();
    if let Some(flags) = flags_with_overflow(step, by_rules) {
        expected.after.machine.control = step.machine.control | u32::from(flags);
    }
    let differs = expected != *by_rules;
    (expected, differs.then_some(Difference::OverflowPrecision))
}

/// What is expected of a processor, by the second program and the rule of the known difference.
/// Where there is no processor it stands in for one.
pub fn stand_in(step: &Step) -> StepOutcome {
    on_a_processor(step, &second::step(step)).0
}

/// The flags that a processor adds where no early stage stops it and OE is raised and unmasked.
fn flags_with_overflow(step: &Step, by_rules: &StepOutcome) -> Option<u8> {
    if by_rules.answer.number != 8 {
        return None;
    }
    let instruction = decode(&step.code).expect("a step that is answered with 8 decodes");
    let stops = raised(step, &instruction)? & unmasked(&step.machine, &instruction);
    if stops & EARLY != 0 || stops & OE == 0 {
        return None;
    }
    let cases = lane_cases(step, &instruction)?;
    let flags = cases.iter().map(with_overflow_unmasked);
    Some(flags.fold(0, |all, flags| all | flags))
}

fn with_overflow_unmasked(case: &Case) -> u8 {
    let flags = second::answer(case).flags;
    if flags & OE != 0 && second::fits_eleven_bits(case) {
        flags & !PE
    } else {
        flags
    }
}

#[cfg(test)]
mod tests {
    use super::*;

    /// The example of R7.6 as a packed, a scalar and a fused scalar step: the control word by the
    /// rules, and what is expected of a processor (none has carried out the last two).
    #[test]
    fn the_rule_gives_the_known_case() {
        for line in [
            "step code=62F5744959C2 control=00001B80 k1=1 z1=E200 z2=7800",
            "step code=62F5760859C2 control=00001B80 z1=E200,7BFFx31 z2=7800,7BFFx31",
            "step code=62F67508B9C2 control=00001B80 z1=E200,7BFFx31 z2=7800,7BFFx31",
        ] {
            let step: Step = line.parse().unwrap();
            let by_rules = second::step(&step);
            assert_eq!(by_rules.after.machine.control, 0x1BA8, "{line}");
            let (processor, name) = on_a_processor(&step, &by_rules);
            assert_eq!(processor.after.machine.control, 0x1B88, "{line}");
            assert_eq!(name, Some(Difference::OverflowPrecision));
        }
    }

    /// Inexact overflows, masked ones, and those that an early stage stops have no name.
    #[test]
    fn what_is_no_difference_has_no_name() {
        for line in [
            "step code=62F5744959C2 control=00001B80 k1=1 z1=7BFF z2=7BFF",
            "step code=62F5744959C2 control=00001F80 k1=1 z1=E200 z2=7800",
            "step code=62F574495EC2 control=00001980 k1=3 z1=3C00,6200 z2=0000,0400",
            "step code=62F574495EC2 control=00000F80 k1=1 z1=3C00 z2=4200",
        ] {
            let step: Step = line.parse().unwrap();
            let by_rules = second::step(&step);
            assert_eq!(on_a_processor(&step, &by_rules), (by_rules, None), "{line}");
        }
    }
}
