//! Times the library, called through C, beside the plain implementations, in one run and by turns,
//! and prints one table: each operation of the arithmetic, then whole steps, then saved forms; and
//! another of replays. Arguments name the groups of rows that are wanted.

mod arithmetic;
mod replays;
mod saved;
mod steps;

use ridgecrook_tests::random::Random;
use std::process::exit;
use std::time::Instant;

/// The groups of rows, in the order that they are printed in.
const GROUPS: [&str; 4] = ["arithmetic", "steps", "saved", "replays"];

/// Everything is timed once in each round; the least time counts, since whatever else runs on the
/// machine only adds.
const ROUNDS: usize = 60;

/// R6.28: the predicate where one is enough: less, and a quiet NaN is signalled.
const LT_OS: u8 = 1;

/// Nanoseconds a call, and a number that depends on every outcome.
type Timed = (f64, u64);

/// Times many calls of one implementation.
type Pass = Box<dyn FnMut() -> Timed>;

/// A row of the table: one pass of the library and one of the plain implementation.
struct Row {
    name: String,
    kind: String,
    passes: [Pass; 2],
    least: [f64; 2],
}

impl Row {
    fn of(name: &str, kind: &str, passes: [Pass; 2]) -> Row {
        Row {
            name: name.to_string(),
            kind: kind.to_string(),
            passes,
            least: [f64::MAX; 2],
        }
    }

    fn round(&mut self) {
        let [(library, digest), (plain, other)] = self.passes.each_mut().map(|pass| pass());
        assert_eq!(digest, other, "{} {}: results differ", self.name, self.kind);
        self.least = [self.least[0].min(library), self.least[1].min(plain)];
    }

    fn print(&self) {
        let [library, plain] = self.least;
        let (name, kind, ratio) = (&self.name, &self.kind, library / plain);
        println!("{name:<20} {kind:<29} {library:>10.1} {plain:>10.1} {ratio:>8.2}");
    }
}

/// A half as embeddings have them, of either sign: from 2 to the -4 to just below 2 to the 4.
fn tame(random: &mut Random) -> u16 {
    let [sign, exponent] = [random.within(0, 1), random.within(11, 18)];
    (sign << 15 | exponent << 10 | random.within(0, 1023)) as u16
}

/// Nanoseconds a call, where each call hands back a number, and what these numbers come to.
fn time(calls: usize, mut call: impl FnMut(usize) -> u64) -> Timed {
    let start = Instant::now();
    let mut digest: u64 = 0;
    for place in 0..calls {
        digest = digest.wrapping_mul(3).wrapping_add(call(place));
    }
    let elapsed = start.elapsed().as_nanos() as f64;
    (elapsed / calls as f64, std::hint::black_box(digest))
}

/// A number that depends on every byte, but that up to seven at the end are left out.
fn sum(bytes: &[u8]) -> u64 {
    let words = bytes.chunks_exact(8);
    words.fold(0, |sum: u64, word| {
        sum.wrapping_add(u64::from_le_bytes(word.try_into().expect("8 bytes")))
    })
}

/// The groups that the arguments name, or all where there are none.
fn wanted() -> Vec<String> {
    let named: Vec<String> = std::env::args().skip(1).collect();
    if let Some(other) = named.iter().find(|name| !GROUPS.contains(&name.as_str())) {
        eprintln!("no group {other}: there are {}", GROUPS.join(", "));
        exit(2);
    }
    if named.is_empty() {
        return GROUPS.map(String::from).to_vec();
    }
    named
}

/// A group's rows of the first table.
fn rows(group: &str) -> Vec<Row> {
    match group {
        "arithmetic" => arithmetic::rows(),
        "steps" => steps::rows(ROUNDS),
        "saved" => saved::rows(),
        _ => Vec::new(),
    }
}

fn print_calls(rows: &[Row]) {
    println!("nanoseconds a call: an operation on halves, a whole step, or one with a saved form");
    println!("tame halves: 2 to the -4 to 2 to the 4, in mode 0 alone; else modes mixed;");
    println!("comparisons of halves by LT_OS where they are tame, else predicates mixed;");
    println!("{}", steps::SETTING);
    println!("{}", saved::SETTING);
    println!(
        "{:<20} {:<29} {:>10} {:>10} {:>8}",
        "call", "on", "library", "plain", "ratio"
    );
    rows.iter().for_each(Row::print);
}

fn main() {
    let wanted = wanted();
    let mut rows: Vec<Row> = wanted.iter().flat_map(|group| rows(group)).collect();
    if !rows.is_empty() {
        for _ in 0..ROUNDS {
            rows.iter_mut().for_each(Row::round);
        }
        print_calls(&rows);
    }
    if wanted.iter().any(|group| group == "replays") {
        replays::print_rows();
    }
}
