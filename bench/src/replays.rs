//! The rows of replays (R14.9): a recording of a million items replayed whole, by the library and
//! by the plain program, beside the same million steps made by the library with nothing compared.

use crate::steps::{from_memory, Lanes};
use crate::LT_OS;
use ridgecrook_bench::{plain_replay, recorder::Recorder};
use ridgecrook_tests::assemble::{Encoding, LANES_8};
use ridgecrook_tests::library::{self, Reported};
use ridgecrook_tests::machine::{Machine, REGISTER_SIZE};
use ridgecrook_tests::random::Random;
use ridgecrook_tests::second::encoding::{comparing_rows, scalar_rows, Listed, LIST};
use ridgecrook_tests::second::replay::Report;
use std::hint::black_box;

const ITEMS: usize = 1_000_000;

/// Fewer than for other rows, as each round takes the million items three times.
const ROUNDS: usize = 6;

/// A state of version 1 and a million items whose memory is a register.
const LARGEST: usize = 2257 + ITEMS * (4 + 73 + 7 + REGISTER_SIZE);

const SETTING: &str =
    "replays: of a million items, finite random lanes or tame ones, mode 0, exceptions masked.
Destinations are registers 0 to 7 or the masks, sources registers 8 to 31, which stay as they are,
or 64 bytes of memory. step: the library's steps by the same code and memory, one call each, with
nothing compared; item: its replay; nanoseconds of processor time, then millions a second. share:
items a second for each step a second; ratio: the library's replay to the plain one.";

/// An instruction, and how many bytes of memory are lent with it.
type Drawn = (Vec<u8>, usize);

/// What a row's items are.
struct Kind {
    name: &'static str,
    on: &'static str,
    lanes: Lanes,
    /// One of them is each item's.
    answers: &'static [u32],
    draw: fn(&mut Random) -> Drawn,
}

const fn done(
    name: &'static str,
    on: &'static str,
    lanes: Lanes,
    draw: fn(&mut Random) -> Drawn,
) -> Kind {
    Kind {
        name,
        on,
        lanes,
        answers: &[0],
        draw,
    }
}

const MULTIPLY: &Listed = &LIST[1];
const ROOT: &Listed = &LIST[4];

const KINDS: [Kind; 9] = [
    done("vmulph", "32 lanes", Lanes::Random, |random| {
        in_registers(random, MULTIPLY)
    }),
    done("vmulph", "32 lanes, tame", Lanes::Tame, |random| {
        in_registers(random, MULTIPLY)
    }),
    done("vmulph", "32 lanes, memory", Lanes::Random, |random| {
        in_memory(random, MULTIPLY)
    }),
    done("vmulsh", "lane 0", Lanes::Random, |random| {
        in_registers(random, &scalar_rows()[1])
    }),
    done("vcmpph", "32 lanes", Lanes::Random, |random| {
        in_registers(random, &comparing_rows()[2])
    }),
    done("vsqrtph", "32 lanes, tame", Lanes::TamePositive, |random| {
        in_registers(random, ROOT)
    }),
    done(
        "any instruction",
        "a quarter from memory",
        Lanes::Random,
        any,
    ),
    done(
        "any instruction",
        "a quarter from memory, tame",
        Lanes::TamePositive,
        any,
    ),
    Kind {
        answers: &[3, 4, 5, 7],
        ..done("vmulph", "refused: 3, 4, 5 or 7", Lanes::Random, refused)
    },
];

/// The destination is no source, so that no value is fed back until it is a zero or an infinity.
fn encoding(random: &mut Random, listed: &Listed) -> Encoding {
    let destination = random.within(0, 7) as u8;
    let [first, second] = [0; 2].map(|_| random.within(8, 31) as u8);
    let first = if listed.takes_first() { first } else { 0 };
    let mut encoding = Encoding::registers(listed, destination, first, second);
    encoding.immediate = listed.immediate.then_some(LT_OS);
    if listed.is_scalar() {
        encoding.length = LANES_8;
    }
    encoding
}

fn in_registers(random: &mut Random, listed: &Listed) -> Drawn {
    (encoding(random, listed).bytes(), 0)
}

/// At register 3, which is 0.
fn in_memory(random: &mut Random, listed: &Listed) -> Drawn {
    let mut encoding = encoding(random, listed);
    from_memory(&mut encoding);
    (encoding.bytes(), REGISTER_SIZE)
}

/// Any instruction of the list. A fused one reads its destination, which others write in between.
fn any(random: &mut Random) -> Drawn {
    let listed = &LIST[random.within(0, LIST.len() as i32 - 1) as usize];
    if random.once_in(4) {
        in_memory(random, listed)
    } else {
        in_registers(random, listed)
    }
}

/// Cut short, of another map, with length bits 3, or from memory that lacks the last byte: what is
/// refused before a lane is computed.
fn refused(random: &mut Random) -> Drawn {
    let (mut code, mut memory) = in_registers(random, MULTIPLY);
    match random.within(0, 3) {
        0 => code.truncate(5),
        1 => code[1] ^= 3,
        2 => code[3] |= 0x60,
        _ => {
            (code, memory) = in_memory(random, MULTIPLY);
            memory -= 1;
        }
    }
    (code, memory)
}

/// `struct timespec` of 64-bit Linux.
#[repr(C)]
struct Time {
    seconds: i64,
    nanoseconds: i64,
}

/// CLOCK_THREAD_CPUTIME_ID.
const THREAD: i32 = 3;

extern "C" {
    fn clock_gettime(clock: i32, time: *mut Time) -> i32;
}

/// The time that this thread has had a processor.
fn processor_time() -> f64 {
    let mut time = Time {
        seconds: 0,
        nanoseconds: 0,
    };
    // Safety: the call writes the one struct that it is lent.
    assert_eq!(unsafe { clock_gettime(THREAD, &mut time) }, 0);
    time.seconds as f64 * 1e9 + time.nanoseconds as f64
}

/// Nanoseconds of one long call. By the processor's time: other rows have passes of some
/// milliseconds, the least of which nothing interrupts, but a million items take longer than the
/// system lets a thread run where others wait.
fn time_whole(call: impl FnOnce()) -> f64 {
    let start = processor_time();
    call();
    processor_time() - start
}

/// A recording, and what it begins with.
struct Recorded {
    start: Machine,
    state_size: usize,
    recorder: Recorder,
}

impl Recorded {
    /// Made by the library itself; memory is a part of a long row of halves, another for each item.
    fn of(kind: &Kind, buffer: Vec<u8>) -> Recorded {
        let mut random = Random::seeded(13);
        let mut start = Machine::blank();
        start.vectors = kind.lanes.bytes(&mut random, 1024);
        let halves = kind.lanes.bytes(&mut random, 4096);
        let mut recorder = Recorder::of(library::step, start.clone(), 1, buffer);
        let state_size = recorder.recording.len();
        for _ in 0..ITEMS {
            let (code, bytes) = (kind.draw)(&mut random);
            let at = 2 * random.within(0, 4096 - 32) as usize;
            let answer = recorder.record(&code, &halves[at..][..bytes]);
            assert!(kind.answers.contains(&answer), "{code:02X?}: {answer}");
        }
        Recorded {
            start,
            state_size,
            recorder,
        }
    }

    /// Nanoseconds a step of the library, by the items' code and memory where they stand. That the
    /// state at the end is the recorder's shows that these were the same steps.
    fn steps(&self) -> f64 {
        let mut machine = self.start.clone();
        let items = black_box(&self.recorder.recording[self.state_size..]);
        let elapsed = time_whole(|| step_through(&mut machine, items));
        assert!(machine == self.recorder.machine, "other steps");
        elapsed / ITEMS as f64
    }

    /// Nanoseconds an item.
    fn replay(&mut self, replay: fn(&mut [u8]) -> Reported) -> f64 {
        let mut report = Reported::from(Report::BadState);
        let recording = &mut self.recorder.recording;
        let elapsed = time_whole(|| report = replay(black_box(recording)));
        assert_eq!(report, Report::Same(ITEMS as u64).into());
        elapsed / ITEMS as f64
    }

    /// The least of each: a step, an item by the library, an item by the plain program.
    fn least(&mut self) -> [f64; 3] {
        let mut least = [f64::MAX; 3];
        for _ in 0..ROUNDS {
            let passes = [
                self.steps(),
                self.replay(library::replay),
                self.replay(|recording| plain_replay::replay(recording).into()),
            ];
            for (least, pass) in least.iter_mut().zip(passes) {
                *least = least.min(pass);
            }
        }
        least
    }
}

/// Lends the library each item's code and memory, and looks at nothing else.
fn step_through(machine: &mut Machine, items: &[u8]) {
    let mut rest = items;
    while !rest.is_empty() {
        let (code, behind) = rest[7..].split_at(rest[6].into());
        let bytes = u16::from_be_bytes([behind[0], behind[1]]);
        let (memory, behind) = behind[2..].split_at(bytes.into());
        library::step(machine, code, memory);
        rest = &behind[4 + REGISTER_SIZE..];
    }
}

fn print(kind: &Kind, [step, item, plain]: [f64; 3]) {
    let (name, on) = (kind.name, kind.on);
    let [steps, items] = [step, item].map(|nanoseconds| 1000.0 / nanoseconds);
    let (share, ratio) = (items / steps, item / plain);
    println!(
        "{name:<20} {on:<29} {step:>8.1} {item:>8.1} {plain:>8.1} \
         {steps:>8.2} {items:>8.2} {share:>6.2} {ratio:>6.2}"
    );
}

/// Times row after row and prints each, so that there is one recording at a time.
pub fn print_rows() {
    println!("{SETTING}");
    println!(
        "{:<20} {:<29} {:>8} {:>8} {:>8} {:>8} {:>8} {:>6} {:>6}",
        "replay of", "on", "step", "item", "plain", "steps", "items", "share", "ratio"
    );
    let mut buffer = Vec::with_capacity(LARGEST);
    for kind in &KINDS {
        let mut recorded = Recorded::of(kind, buffer);
        print(kind, recorded.least());
        buffer = recorded.recorder.recording;
    }
}
