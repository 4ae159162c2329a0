//! The library and the second program side by side (R12.3): exhaustive where that is affordable,
//! else on corners and on random cases.
//!
//! `RIDGECROOK_SEED` sets the seed and `RIDGECROOK_CASES` the number of random cases of each
//! operation.

use ridgecrook_tests::case::{Case, Operation, Outcome, DE, IE, OE, PE, UE, ZE};
use ridgecrook_tests::compare::{setting, Comparison};
use ridgecrook_tests::random::{self, Random};
use ridgecrook_tests::second::comparison::order;
use ridgecrook_tests::{corners, library, second};

#[test]
fn every_root() {
    let mut comparison = Comparison::of(library::answer, "every root");
    for a in 0..=u16::MAX {
        comparison.in_every_mode(&Case::of(Operation::SquareRoot, [a, 0, 0]));
    }
    comparison.finish(65_536 * 8);
}

fn pairs_of_corners(operation: Operation) {
    let mut comparison =
        Comparison::of(library::answer, &format!("{} on corners", operation.name()));
    let halves = corners::all();
    for &a in &halves {
        for &b in &halves {
            comparison.in_every_mode(&Case::of(operation, [a, b, 0]));
        }
    }
    comparison.finish((halves.len() * halves.len() * 8) as u64);
}

#[test]
fn add_on_corners() {
    pairs_of_corners(Operation::Add);
}

#[test]
fn subtract_on_corners() {
    pairs_of_corners(Operation::Subtract);
}

#[test]
fn multiply_on_corners() {
    pairs_of_corners(Operation::Multiply);
}

#[test]
fn divide_on_corners() {
    pairs_of_corners(Operation::Divide);
}

/// What does not round, with each predicate where it compares.
fn compared_corners(operation: Operation, predicates: u32) {
    let name = format!("{} on corners", operation.name());
    let mut comparison = Comparison::of(library::answer, &name);
    let halves = corners::all();
    for &a in &halves {
        for &b in &halves {
            for immediate in 0..predicates {
                comparison.case(&Case {
                    immediate,
                    ..Case::of(operation, [a, b, 0])
                });
            }
        }
    }
    comparison.finish(halves.len().pow(2) as u64 * u64::from(predicates));
}

#[test]
fn minimum_on_corners() {
    compared_corners(Operation::Minimum, 1);
}

#[test]
fn maximum_on_corners() {
    compared_corners(Operation::Maximum, 1);
}

#[test]
fn compare_on_corners() {
    compared_corners(Operation::Compare, 32);
}

#[test]
fn fused_multiply_add_on_corners() {
    let mut comparison = Comparison::of(library::answer, "fused_multiply_add on corners");
    let halves = corners::few();
    for &a in &halves {
        for &b in &halves {
            for &c in &halves {
                comparison.in_every_mode(&Case::of(Operation::FusedMultiplyAdd, [a, b, c]));
            }
        }
    }
    comparison.finish((halves.len().pow(3) * 8) as u64);
}

fn random_cases(operation: Operation) {
    let seed = setting("RIDGECROOK_SEED", 20_240_229);
    let cases = setting("RIDGECROOK_CASES", 2_000_000);
    let name = format!("{} at random, seed {seed}", operation.name());
    let mut comparison = Comparison::of(library::answer, &name);
    let mut random = Random::seeded(seed);
    for _ in 0..cases {
        comparison.case(&random::case(&mut random, operation));
    }
    comparison.finish(cases);
}

#[test]
fn random_add() {
    random_cases(Operation::Add);
}

#[test]
fn random_subtract() {
    random_cases(Operation::Subtract);
}

#[test]
fn random_multiply() {
    random_cases(Operation::Multiply);
}

#[test]
fn random_divide() {
    random_cases(Operation::Divide);
}

#[test]
fn random_square_root() {
    random_cases(Operation::SquareRoot);
}

#[test]
fn random_fused_multiply_add() {
    random_cases(Operation::FusedMultiplyAdd);
}

#[test]
fn random_minimum() {
    random_cases(Operation::Minimum);
}

#[test]
fn random_maximum() {
    random_cases(Operation::Maximum);
}

#[test]
fn random_compare() {
    random_cases(Operation::Compare);
}

/// What a case may reach: a name, and whether a case with this outcome does.
type Border = (&'static str, fn(&Case, &Outcome) -> bool);

const BORDERS: [Border; 12] = [
    ("IE", |_, outcome| outcome.flags & IE != 0),
    ("DE", |_, outcome| outcome.flags & DE != 0),
    ("ZE", |_, outcome| outcome.flags & ZE != 0),
    ("OE", |_, outcome| outcome.flags & OE != 0),
    ("tiny, exact", |_, outcome| outcome.flags & (UE | PE) == UE),
    ("tiny, inexact", |_, outcome| {
        outcome.flags & (UE | PE) == UE | PE
    }),
    ("tiny before rounding alone", |case, outcome| {
        let mode = 3;
        let below = second::answer(&Case { mode, ..*case }).half & 0x7FFF == 0x03FF;
        below && outcome.half & 0x7FFF == 0x0400 && outcome.flags & UE == 0
    }),
    ("largest, inexact", |_, outcome| {
        outcome.half & 0x7FFF == 0x7BFF && outcome.flags & (OE | PE) == PE
    }),
    ("a middle", |case, _| second::is_in_the_middle(case)),
    ("cancellation", |case, outcome| {
        let zero = outcome.half & 0x7FFF == 0 && outcome.flags & PE == 0;
        let mut operands = case.used_operands().iter();
        zero && operands.all(|half| (1..0x7C00).contains(&(half & 0x7FFF)))
    }),
    ("subnormal of normals", |case, outcome| {
        are_normal(case) && (1..0x0400).contains(&(outcome.half & 0x7FFF))
    }),
    ("a far operand", |case, _| are_normal(case) && is_far(case)),
];

fn are_normal(case: &Case) -> bool {
    let mut operands = case.used_operands().iter();
    operands.all(|half| (0x0400..0x7C00).contains(&(half & 0x7FFF)))
}

/// One part of a sum lies below all the digits of the other, and of the bit that rounds them.
fn is_far(case: &Case) -> bool {
    let [a, b, c] = case.operands.map(|half| i32::from(half >> 10 & 31));
    match case.operation {
        Operation::Add | Operation::Subtract => (a - b).abs() > 13,
        Operation::FusedMultiplyAdd => (a + b - 15 - c).abs() > 13,
        _ => false,
    }
}

/// The borders that an operation cannot reach. A tiny sum is exact. A quotient of 11-bit numbers
/// that is below a power of two is below it on 11 bits too. A root is neither tiny nor large, and
/// its square would have 23 bits if it lay in a middle. Only sums have far operands. What does not
/// round has no such borders.
fn out_of_reach(operation: Operation) -> &'static [&'static str] {
    match operation {
        Operation::Add | Operation::Subtract => {
            &["ZE", "tiny, inexact", "tiny before rounding alone"]
        }
        Operation::Multiply => &["ZE", "cancellation", "a far operand"],
        Operation::Divide => &[
            "tiny before rounding alone",
            "cancellation",
            "a far operand",
        ],
        Operation::SquareRoot => &[
            "ZE",
            "OE",
            "tiny, exact",
            "tiny, inexact",
            "tiny before rounding alone",
            "largest, inexact",
            "a middle",
            "cancellation",
            "subnormal of normals",
            "a far operand",
        ],
        Operation::FusedMultiplyAdd => &["ZE"],
        Operation::Minimum | Operation::Maximum | Operation::Compare => unreachable!(),
    }
}

/// Random cases are worth their time only where they reach the borders.
#[test]
fn random_cases_reach_every_border() {
    for operation in Operation::rounding() {
        let mut random = Random::seeded(1);
        let mut reached = [0; BORDERS.len()];
        for _ in 0..200_000 {
            let case = random::case(&mut random, operation);
            let outcome = second::answer(&case);
            for (count, (_, reaches)) in reached.iter_mut().zip(BORDERS) {
                *count += u32::from(reaches(&case, &outcome));
            }
        }
        for (count, (name, _)) in reached.into_iter().zip(BORDERS) {
            println!("{} reaches {name}: {count}", operation.name());
            if out_of_reach(operation).contains(&name) {
                assert_eq!(count, 0, "{} reaches {name}", operation.name());
            } else {
                assert!(count >= 20, "{} reaches {name}: {count}", operation.name());
            }
        }
    }
}

/// Random cases of what does not round reach each relation, both kinds of NaN in either place,
/// subnormals and each predicate.
#[test]
fn random_comparisons_reach_every_relation() {
    let is_subnormal = |half: &u16| (1..0x0400).contains(&(half & 0x7FFF));
    let is_quiet = |half: u16| half & 0x7E00 == 0x7E00;
    for operation in Operation::ALL.into_iter().filter(|o| !o.rounds()) {
        let mut random = Random::seeded(1);
        let (mut orders, mut nans, mut subnormal) = ([0; 4], [0; 4], 0);
        let mut predicates = [0; 32];
        for _ in 0..200_000 {
            let case = random::case(&mut random, operation);
            let [a, b, _] = case.operands;
            let order = order(a, b);
            orders[order.map_or(3, |order| (order as i8 + 1) as usize)] += 1;
            for (place, half) in [a, b].into_iter().enumerate() {
                if half & 0x7FFF > 0x7C00 {
                    nans[2 * place + usize::from(is_quiet(half))] += 1;
                }
            }
            let ordered = order.is_some();
            subnormal += u32::from(ordered && case.used_operands().iter().any(is_subnormal));
            predicates[case.immediate as usize % 32] += 1;
        }
        let predicates = match operation {
            Operation::Compare => &predicates[..],
            _ => &[],
        };
        let counts = [&orders[..], &nans, &[subnormal], predicates].concat();
        let reached = counts.iter().all(|&count| count >= 1_000);
        assert!(reached, "{}: {counts:?}", operation.name());
    }
}

/// R6.26, R6.28, of the library alone: one of less, equal, greater and unordered holds; a predicate
/// and the one 4 further deny each other; 16 further it says the same; minimum and maximum go by
/// less and greater.
#[test]
fn predicates_go_together() {
    let halves = corners::few();
    for (a, b) in halves
        .iter()
        .flat_map(|&a| halves.iter().map(move |&b| (a, b)))
    {
        let holds = |number: u32| library::compare(a, b, number).half == 1;
        let relations = [17, 0, 30, 3].map(holds);
        let count = relations.iter().filter(|&&relation| relation).count();
        assert_eq!(count, 1, "{a:04X} {b:04X}: {relations:?}");
        for number in (0..32).filter(|number| number & 4 == 0) {
            assert_ne!(holds(number), holds(number + 4), "{number} {a:04X} {b:04X}");
        }
        for number in 0..16 {
            assert_eq!(
                holds(number),
                holds(number + 16),
                "{number} {a:04X} {b:04X}"
            );
        }
        let [less, _, greater, _] = relations;
        let minimum = if less { a } else { b };
        let maximum = if greater { a } else { b };
        let found = [library::minimum(a, b), library::maximum(a, b)].map(|outcome| outcome.half);
        assert_eq!(found, [minimum, maximum], "{a:04X} {b:04X}");
    }
}
