//! The rows of the arithmetic: each operation on random halves, on corners and on tame halves.

use crate::{tame, time, Pass, Row, LT_OS};
use ridgecrook_bench::plain::PLAIN;
use ridgecrook_tests::case::{Case, Operation, Outcome};
use ridgecrook_tests::random::Random;
use ridgecrook_tests::{corners, library};
use std::hint::black_box;
use std::rc::Rc;

/// So many cases that the processor does not learn their branches by heart.
const CASES: usize = 65_536;

/// Cases with operands of one kind: in one mode, with UE masked and by one predicate, or in all
/// modes, either way and by all predicates.
fn cases(random: &mut Random, mixed: bool, half: impl Fn(&mut Random) -> u16) -> Rc<[Case]> {
    let [highest_mode, highest_mask] = if mixed { [3, 1] } else { [0, 0] };
    let [lowest, highest] = if mixed { [0, 31] } else { [LT_OS; 2] };
    let case = |_| Case {
        // The caller chooses the operation; it takes what it has of all this.
        operation: Operation::FusedMultiplyAdd,
        mode: random.within(0, highest_mode) as u32,
        underflow_unmasked: random.within(0, highest_mask) as u32,
        immediate: random.within(lowest.into(), highest.into()) as u32,
        operands: [half(random), half(random), half(random)],
    };
    (0..CASES).map(case).collect()
}

/// One implementation of an operation, made into a pass over some cases.
type Implementation = Box<dyn Fn(Rc<[Case]>) -> Pass>;

fn implementation(call: impl Fn(&Case) -> Outcome + Copy + 'static) -> Implementation {
    Box::new(move |cases| {
        Box::new(move || {
            let cases = black_box(&cases);
            time(cases.len(), |place| {
                let outcome = call(&cases[place]);
                u64::from(outcome.flags) << 16 | u64::from(outcome.half)
            })
        })
    })
}

/// A function of one, two or three operands as a function of a case.
fn one(f: impl Fn(u16, u32, u32) -> Outcome + Copy + 'static) -> Implementation {
    implementation(move |case| f(case.operands[0], case.mode, case.underflow_unmasked))
}

fn two(f: impl Fn(u16, u16, u32, u32) -> Outcome + Copy + 'static) -> Implementation {
    implementation(move |case| {
        let [a, b, _] = case.operands;
        f(a, b, case.mode, case.underflow_unmasked)
    })
}

fn three(f: impl Fn(u16, u16, u16, u32, u32) -> Outcome + Copy + 'static) -> Implementation {
    implementation(move |case| {
        let [a, b, c] = case.operands;
        f(a, b, c, case.mode, case.underflow_unmasked)
    })
}

/// A function of two operands that does not round.
fn pair(f: impl Fn(u16, u16) -> Outcome + Copy + 'static) -> Implementation {
    implementation(move |case| f(case.operands[0], case.operands[1]))
}

fn comparison(f: impl Fn(u16, u16, u32) -> Outcome + Copy + 'static) -> Implementation {
    implementation(move |case| f(case.operands[0], case.operands[1], case.immediate))
}

/// The library's operations are called, so the plain ones are too, through pointers.
fn operations() -> [(&'static str, [Implementation; 2]); 9] {
    use library as l;
    let p = black_box(PLAIN);
    [
        ("add", [two(l::add), two(p.add)]),
        ("subtract", [two(l::subtract), two(p.subtract)]),
        ("multiply", [two(l::multiply), two(p.multiply)]),
        ("divide", [two(l::divide), two(p.divide)]),
        ("square_root", [one(l::square_root), one(p.square_root)]),
        (
            "fused_multiply_add",
            [three(l::fused_multiply_add), three(p.fused_multiply_add)],
        ),
        ("minimum", [pair(l::minimum), pair(p.minimum)]),
        ("maximum", [pair(l::maximum), pair(p.maximum)]),
        ("compare", [comparison(l::compare), comparison(p.compare)]),
    ]
}

/// The kinds of operands; those of a root are not negative where they are tame.
fn kinds(root: bool) -> [(&'static str, Rc<[Case]>); 3] {
    let mut random = Random::seeded(5);
    let halves = corners::all();
    let corner = |random: &mut Random| random.one_of(&halves);
    let sign = if root { 0 } else { 0x8000 };
    [
        ("random halves", cases(&mut random, true, Random::half)),
        ("corners", cases(&mut random, true, corner)),
        (
            "tame halves",
            cases(&mut random, false, |random| tame(random) & (0x7FFF | sign)),
        ),
    ]
}

pub fn rows() -> Vec<Row> {
    let mut rows = Vec::new();
    for (name, both) in operations() {
        for (kind, cases) in &kinds(name == "square_root") {
            let passes = both.each_ref().map(|pass_over| pass_over(cases.clone()));
            rows.push(Row::of(name, kind, passes));
        }
    }
    rows
}
