//! Every pair of halves: add, subtract, multiply and divide in the four modes, and without a mode
//! minimum, maximum and the comparisons LE_OQ and NGE_UQ, which together tell less, equal, greater
//! and unordered apart. The library is held against the processor.
//! `cargo run --release --bin exhaustive -- [options]`
//!
//!   --operation NAME  only this one (add, subtract, multiply, divide, minimum, maximum, le_oq,
//!                     nge_uq)
//!   --mode N          only this mode, 0 to 3, of those that have one
//!   --share N         only one block of 32 pairs in N, for a trial
//!
//! Compared are the half of every pair, the flags of each 32 lanes together, and in one block of 64
//! the flags of each lane alone (all exceptions masked). Where the processor has not the
//! instructions, those that compare are held against its singles (`processor/singles.rs`), if it has
//! AVX, and all others, on one block in 4,096, against the second program.
//!
//! An operation and mode that is finished whole and without a difference is noted in
//! target/exhaustive/finished.txt, for the library that was linked, and passed over from then on.

use ridgecrook_tests::case::{Case, Operation, Outcome};
use ridgecrook_tests::machine::ALL_MASKED;
use ridgecrook_tests::processor::pairs::{on_pairs, Lanes, OnPairs, Pairs};
use ridgecrook_tests::processor::{missing, model, singles};
use ridgecrook_tests::{library, second};
use std::io::Write;
use std::path::PathBuf;
use std::process::exit;
use std::sync::atomic::{AtomicU64, Ordering};
use std::time::{Duration, Instant};

/// What is tried: its name, the operation, and the immediate of a comparison.
type Tried = (&'static str, Operation, u32);

const TRIED: [Tried; 8] = [
    ("add", Operation::Add, 0),
    ("subtract", Operation::Subtract, 0),
    ("multiply", Operation::Multiply, 0),
    ("divide", Operation::Divide, 0),
    ("minimum", Operation::Minimum, 0),
    ("maximum", Operation::Maximum, 0),
    ("le_oq", Operation::Compare, 18),
    ("nge_uq", Operation::Compare, 25),
];

/// Values of the first operand, and blocks of 32 values of the second.
const FIRSTS: u64 = 1 << 16;
const BLOCKS: u64 = 1 << 11;

/// In one block of so many the flags of each lane are compared alone.
const ALONE: u64 = 64;

/// Where the second program takes the processor's place.
const SHARE_OF_SECOND: u64 = 4096;

const PRINTED: u64 = 20;

fn main() {
    let options = Options::read();
    let missing = missing();
    if let Some(why) = &missing {
        println!("skipped: {why}; its singles or the second program take the place of its halves");
    }
    let tasks = options.tasks(missing.is_none());
    println!(
        "exhaustive: {}, library {LINKED}, {} threads",
        model(),
        threads()
    );
    let progress = Progress::of(&tasks);
    let mut failed = 0;
    for task in &tasks {
        let before = progress.pairs.load(Ordering::Relaxed);
        let differences = task.run(&progress);
        let pairs = progress.pairs.load(Ordering::Relaxed) - before;
        let (name, witness) = (task.label(), task.witness.name());
        println!("{name}, by {witness}: {pairs} pairs, {differences} blocks differ");
        failed += u64::from(differences > 0);
        if pairs == 1 << 32 && differences == 0 {
            note(task);
        }
    }
    println!("{} passed, {failed} failed", tasks.len() as u64 - failed);
    if failed > 0 {
        exit(1);
    }
}

/// A sum of the archive that was linked, by build.rs.
const LINKED: &str = env!("RIDGECROOK_LINKED");

fn threads() -> usize {
    std::thread::available_parallelism().map_or(1, usize::from)
}

struct Options {
    tried: Vec<Tried>,
    mode: Option<u32>,
    share: u64,
}

impl Options {
    fn read() -> Options {
        let mut options = Options {
            tried: TRIED.to_vec(),
            mode: None,
            share: 1,
        };
        let mut words = std::env::args().skip(1);
        while let Some(word) = words.next() {
            let value = words.next().unwrap_or_default();
            let taken = match word.as_str() {
                "--operation" => options.take_operation(&value),
                "--mode" => number(&value, 3).map(|mode| options.mode = Some(mode as u32)),
                "--share" => number(&value, BLOCKS).map(|share| options.share = share.max(1)),
                _ => None,
            };
            if taken.is_none() {
                eprintln!("{word} {value}: --operation NAME, --mode 0 to 3, --share 1 to {BLOCKS}");
                exit(2);
            }
        }
        if options
            .tried
            .iter()
            .all(|tried| options.modes(tried.1).is_empty())
        {
            eprintln!("{} has no mode", options.tried[0].0);
            exit(2);
        }
        options
    }

    fn take_operation(&mut self, name: &str) -> Option<()> {
        let found = TRIED.into_iter().find(|tried| tried.0 == name)?;
        self.tried = vec![found];
        Some(())
    }

    /// The modes of an operation: one, which counts for nothing, where it does not round; none at
    /// all, where a mode is asked for.
    fn modes(&self, operation: Operation) -> Vec<u32> {
        match (operation.rounds(), self.mode) {
            (true, None) => (0..4).collect(),
            (true, Some(mode)) => vec![mode],
            (false, None) => vec![0],
            (false, Some(_)) => Vec::new(),
        }
    }

    /// What is to do; what was finished before is left out with a line.
    fn tasks(&self, has_halves: bool) -> Vec<Task> {
        let finished = std::fs::read_to_string(notes()).unwrap_or_default();
        let mut tasks = Vec::new();
        for &(name, operation, immediate) in &self.tried {
            for mode in self.modes(operation) {
                let case = Case {
                    mode,
                    immediate,
                    ..Case::of(operation, [0; 3])
                };
                let witness = Witness::of(&case, has_halves);
                let task = Task {
                    name,
                    case,
                    share: self.share.max(witness.share()),
                    witness,
                };
                let known = task.note();
                if task.share == 1 && finished.lines().any(|line| line == known) {
                    println!("{}: finished before", task.label());
                } else {
                    tasks.push(task);
                }
            }
        }
        tasks
    }
}

fn number(text: &str, most: u64) -> Option<u64> {
    text.parse().ok().filter(|&number| number <= most)
}

fn notes() -> PathBuf {
    PathBuf::from(concat!(
        env!("CARGO_MANIFEST_DIR"),
        "/../target/exhaustive/finished.txt"
    ))
}

fn note(task: &Task) {
    let path = notes();
    let folder = path.parent().expect("a file in a folder");
    std::fs::create_dir_all(folder).expect("a folder below target/");
    let mut options = std::fs::OpenOptions::new();
    let file = options.create(true).append(true).open(&path);
    let mut file = file.expect("the file of what is finished");
    writeln!(file, "{}", task.note()).expect("a line is written");
}

/// What the library is held against.
enum Witness {
    Halves(OnPairs),
    Singles,
    SecondProgram,
}

impl Witness {
    fn of(case: &Case, has_halves: bool) -> Witness {
        if has_halves {
            Witness::Halves(on_pairs(case))
        } else if !case.operation.rounds() && singles::are_here() {
            Witness::Singles
        } else {
            Witness::SecondProgram
        }
    }

    fn name(&self) -> &'static str {
        match self {
            Witness::Halves(_) => "the processor",
            Witness::Singles => "the processor's singles",
            Witness::SecondProgram => "the second program",
        }
    }

    /// It is asked about one block in so many.
    fn share(&self) -> u64 {
        match self {
            Witness::SecondProgram => SHARE_OF_SECOND,
            _ => 1,
        }
    }
}

/// An operation in a mode, if it has one: a case but for its operands.
struct Task {
    name: &'static str,
    case: Case,
    share: u64,
    witness: Witness,
}

impl Task {
    /// The line of what was finished.
    fn note(&self) -> String {
        let (name, witness) = (self.label(), self.witness.name());
        format!("{name} library {LINKED} witness {witness}, {}", model())
    }

    fn label(&self) -> String {
        match self.case.operation.rounds() {
            true => format!("{} m{}", self.name, self.case.mode),
            false => self.name.to_string(),
        }
    }

    /// With a share, about so many.
    fn pairs(&self) -> u64 {
        32 * FIRSTS * BLOCKS / self.share
    }

    /// All pairs on all cores: how many blocks differ.
    fn run(&self, progress: &Progress) -> u64 {
        let (next, differences) = (AtomicU64::new(0), AtomicU64::new(0));
        let work = || loop {
            let a = next.fetch_add(1, Ordering::Relaxed);
            if a >= FIRSTS {
                break;
            }
            let compared = self.with_first(a, &differences);
            progress.pairs.fetch_add(32 * compared, Ordering::Relaxed);
        };
        std::thread::scope(|scope| {
            let workers: Vec<_> = (0..threads()).map(|_| scope.spawn(work)).collect();
            while !workers.iter().all(|worker| worker.is_finished()) {
                std::thread::sleep(Duration::from_millis(20));
                progress.show();
            }
        });
        differences.into_inner()
    }

    /// All blocks with a first operand, or the share of them; how many.
    fn with_first(&self, a: u64, differences: &AtomicU64) -> u64 {
        let mut compared = 0;
        for block in (self.first_block(a)..BLOCKS).step_by(self.share as usize) {
            let each_alone = (a + block).is_multiple_of(ALONE);
            let lanes = Block::of(a as u16, 32 * block as u16);
            let differs = self.differs(&lanes, each_alone);
            if differs && differences.fetch_add(1, Ordering::Relaxed) < PRINTED {
                self.print(&lanes);
            }
            compared += 1;
        }
        compared
    }

    /// The first block of the share, another for each first operand: 0 where all are taken.
    fn first_block(&self, a: u64) -> u64 {
        (a.wrapping_mul(0x9E37_79B9_7F4A_7C15) >> 32) % self.share
    }

    fn case_of(&self, a: u16, b: u16) -> Case {
        Case {
            operands: [a, b, 0],
            ..self.case
        }
    }

    fn differs(&self, block: &Block, each_alone: bool) -> bool {
        let (pairs, flags) = self.library(block);
        if pairs != self.asked(block, u32::MAX) {
            return true;
        }
        let control = self.control();
        let alone = |lane: usize| self.asked(block, 1 << lane).control;
        each_alone && (0..32).any(|lane| alone(lane) != control | u32::from(flags[lane]))
    }

    fn control(&self) -> u32 {
        ALL_MASKED | self.case.mode << 13
    }

    /// What the library says of a block, and the flags of each lane.
    #[inline(always)]
    fn library(&self, block: &Block) -> (Pairs, [u8; 32]) {
        let Case {
            mode, immediate, ..
        } = self.case;
        match self.case.operation {
            Operation::Add => self.each(block, |a, b| library::add(a, b, mode, 0)),
            Operation::Subtract => self.each(block, |a, b| library::subtract(a, b, mode, 0)),
            Operation::Multiply => self.each(block, |a, b| library::multiply(a, b, mode, 0)),
            Operation::Divide => self.each(block, |a, b| library::divide(a, b, mode, 0)),
            Operation::Minimum => self.each(block, library::minimum),
            Operation::Maximum => self.each(block, library::maximum),
            _ => self.each(block, |a, b| library::compare(a, b, immediate)),
        }
    }

    #[inline(always)]
    fn each(&self, block: &Block, function: impl Fn(u16, u16) -> Outcome) -> (Pairs, [u8; 32]) {
        let (mut halves, mut flags, mut all) = ([0; 32], [0; 32], 0);
        for lane in 0..32 {
            let outcome = function(block.a[lane], block.b[lane]);
            // An answer other than 0 would show in the flags.
            halves[lane] = outcome.half;
            flags[lane] = outcome.flags | outcome.number << 6;
            all |= flags[lane];
        }
        let control = self.control() | u32::from(all);
        (Pairs { halves, control }, flags)
    }

    /// What the witness says of the lanes of `on`.
    fn asked(&self, block: &Block, on: u32) -> Pairs {
        let (a, b) = (&block.a, &block.b);
        match self.witness {
            Witness::Halves(function) => function(a, b, on, self.control()),
            Witness::Singles => singles::pairs(&self.case, a, b, on, self.control()),
            Witness::SecondProgram => self.second(block, on),
        }
    }

    fn second(&self, block: &Block, on: u32) -> Pairs {
        let (mut halves, mut control) = ([0; 32], self.control());
        for lane in (0..32).filter(|lane| on >> lane & 1 == 1) {
            let outcome = second::answer(&self.case_of(block.a[lane], block.b[lane]));
            halves[lane] = outcome.half;
            control |= u32::from(outcome.flags);
        }
        Pairs { halves, control }
    }

    /// A line for `repeat` for each lane of a block that differs alone.
    fn print(&self, block: &Block) {
        let (pairs, flags) = self.library(block);
        for lane in 0..32 {
            let (half, flags) = (pairs.halves[lane], flags[lane]);
            let alone = self.asked(block, 1 << lane);
            let other = Outcome {
                half: alone.halves[lane],
                flags: (alone.control & 63) as u8,
                number: 0,
            };
            let library = Outcome {
                half,
                flags: flags & 63,
                number: flags >> 6,
            };
            if library != other {
                let case = self.case_of(block.a[lane], block.b[lane]);
                println!("{case} => {library} expected {other}");
            }
        }
        let (name, a, [b, .., last]) = (self.label(), block.a[0], block.b);
        println!("{name}: the block {a:04X} and {b:04X} to {last:04X} differs");
    }
}

/// A first operand, 32 times, and 32 second operands.
struct Block {
    a: Lanes,
    b: Lanes,
}

impl Block {
    fn of(a: u16, first: u16) -> Block {
        Block {
            a: [a; 32],
            b: std::array::from_fn(|lane| first + lane as u16),
        }
    }
}

/// How far all tasks have come.
struct Progress {
    start: Instant,
    shown: AtomicU64,
    all: u64,
    pairs: AtomicU64,
}

impl Progress {
    fn of(tasks: &[Task]) -> Progress {
        Progress {
            start: Instant::now(),
            shown: AtomicU64::new(0),
            all: tasks.iter().map(Task::pairs).sum(),
            pairs: AtomicU64::new(0),
        }
    }

    /// A line, if five seconds have gone since the last.
    fn show(&self) {
        let seconds = self.start.elapsed().as_secs_f64();
        let turn = seconds as u64 / 5;
        if self.shown.swap(turn, Ordering::Relaxed) == turn {
            return;
        }
        let pairs = self.pairs.load(Ordering::Relaxed);
        let rate = pairs as f64 / seconds;
        let left = (self.all - pairs.min(self.all)) as f64 / rate.max(1.0);
        let percent = 100.0 * pairs as f64 / self.all as f64;
        eprintln!(
            "exhaustive: {percent:.2} %, {:.1} million pairs a second, ends in {}",
            rate / 1e6,
            shown_time(left)
        );
    }
}

fn shown_time(seconds: f64) -> String {
    let minutes = (seconds / 60.0).ceil() as u64;
    format!("{} h {:02} min", minutes / 60, minutes % 60)
}
