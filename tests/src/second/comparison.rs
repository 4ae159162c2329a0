//! R6.25 to R6.28: how two halves compare as numbers, the smaller and the larger of two, and the 32
//! predicates, whose meaning is read off their names.

use super::half::*;
use crate::case::{Case, Operation, DE, IE};
use std::cmp::Ordering;

/// R6.28: the predicates by their numbers. A name has a relation, with an N in front where it is
/// denied, and behind it what unordered halves give (O no, U yes; UNORD and ORD say it by
/// themselves), and whether a quiet NaN is signalled (S yes, Q no).
const PREDICATES: [&str; 32] = [
    "EQ_OQ", "LT_OS", "LE_OS", "UNORD_Q", "NEQ_UQ", "NLT_US", "NLE_US", "ORD_Q", "EQ_UQ", "NGE_US",
    "NGT_US", "FALSE_OQ", "NEQ_OQ", "GE_OS", "GT_OS", "TRUE_UQ", "EQ_OS", "LT_OQ", "LE_OQ",
    "UNORD_S", "NEQ_US", "NLT_UQ", "NLE_UQ", "ORD_S", "EQ_US", "NGE_UQ", "NGT_UQ", "FALSE_OS",
    "NEQ_OS", "GE_OQ", "GT_OQ", "TRUE_US",
];

/// R3.15: the name of the predicate that an immediate picks by its low five bits.
pub fn predicate_name(immediate: u32) -> &'static str {
    PREDICATES[immediate as usize % 32]
}

/// The half and the flags of an operation that does not round; nothing of one that does.
pub fn answer(case: &Case) -> Option<(u16, u8)> {
    let [a, b, _] = case.operands;
    let (half, signals) = match case.operation {
        // R6.26: the second wherever the first is not the one asked for
        Operation::Minimum if order(a, b) == Some(Ordering::Less) => (a, true),
        Operation::Maximum if order(a, b) == Some(Ordering::Greater) => (a, true),
        Operation::Minimum | Operation::Maximum => (b, true),
        Operation::Compare => {
            let predicate = Predicate::named(predicate_name(case.immediate));
            (u16::from(predicate.holds(a, b)), predicate.signals)
        }
        _ => return None,
    };
    Some((half, flags(case.used_operands(), signals)))
}

/// R6.27: IE for a signalling NaN, for a quiet one where that is signalled; DE for a subnormal where
/// there is no NaN.
fn flags(operands: &[u16], signals: bool) -> u8 {
    let some = |is: fn(u16) -> bool| operands.iter().any(|&half| is(half));
    if some(is_signalling) || some(is_nan) && signals {
        IE
    } else if !some(is_nan) && some(is_subnormal) {
        DE
    } else {
        0
    }
}

/// R6.25: how a compares with b; nothing where one of them is a NaN.
pub fn order(a: u16, b: u16) -> Option<Ordering> {
    let unordered = is_nan(a) || is_nan(b);
    (!unordered).then(|| value(a).cmp(&value(b)))
}

/// A half that is no NaN in units of 2 to the -24. Both zeros are 0, and the infinities count as
/// 65,536, which is beyond all finite halves.
fn value(half: u16) -> i128 {
    let units = units(magnitude(half)) as i128;
    if is_negative(half) {
        -units
    } else {
        units
    }
}

/// The parts of a predicate's name.
struct Predicate {
    relation: &'static str,
    unordered: bool,
    signals: bool,
}

impl Predicate {
    fn named(name: &'static str) -> Predicate {
        let (relation, letters) = name.split_once('_').expect("a relation and letters");
        Predicate {
            relation,
            unordered: letters.starts_with('U') || relation == "UNORD",
            signals: letters.ends_with('S'),
        }
    }

    fn holds(&self, a: u16, b: u16) -> bool {
        match order(a, b) {
            Some(order) => relation_holds(self.relation, order),
            None => self.unordered,
        }
    }
}

/// Of halves that are not unordered.
fn relation_holds(relation: &str, order: Ordering) -> bool {
    match relation {
        "EQ" => order == Ordering::Equal,
        "LT" => order == Ordering::Less,
        "LE" => order == Ordering::Less || order == Ordering::Equal,
        "GT" => order == Ordering::Greater,
        "GE" => order == Ordering::Greater || order == Ordering::Equal,
        "FALSE" | "UNORD" => false,
        "TRUE" | "ORD" => true,
        denied => !relation_holds(denied.strip_prefix('N').expect("a name"), order),
    }
}
