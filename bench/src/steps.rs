//! The rows of steps: each packed instruction with 32 lanes, how the time goes with the lanes that
//! are on, each scalar instruction, and those that compare.

use crate::{sum, tame, time, Row, Timed, LT_OS};
use ridgecrook_bench::plain_step;
use ridgecrook_tests::assemble::{Encoding, LANES_16, LANES_32, LANES_8};
use ridgecrook_tests::library;
use ridgecrook_tests::machine::{Answer, Machine, ALL_MASKED, REGISTER_SIZE};
use ridgecrook_tests::random::Random;
use ridgecrook_tests::second::encoding::{comparing_rows, scalar_rows, Listed, LIST, PACKED};

/// A million steps of each row in all rounds together.
const STEPS: usize = 1_000_000;

/// So many instructions and states of the destination, taken by turns.
const CODES: usize = 1024;

pub const SETTING: &str = "steps: finite random lanes, or tame ones, the mode from the
control word, exceptions masked; comparisons by LT_OS but where the predicate is any. A million
steps a row. Before each step, and timed with it, the destination register is filled with such
lanes, or a destination mask with ones; no other buffer is cleared.";

type Step = fn(&mut Machine, &[u8], &[u8]) -> Answer;

/// The halves of a row's registers and memory.
#[derive(Clone, Copy)]
pub enum Lanes {
    /// Any finite ones, the four modes mixed where rows change the control word.
    Random,
    /// As embeddings have them, in mode 0.
    Tame,
    /// The same without a sign, for the root.
    TamePositive,
}

impl Lanes {
    fn half(self, random: &mut Random) -> u16 {
        match self {
            Lanes::Random => loop {
                let half = random.half();
                if half & 0x7C00 != 0x7C00 {
                    break half;
                }
            },
            Lanes::Tame => tame(random),
            Lanes::TamePositive => tame(random) & 0x7FFF,
        }
    }

    pub fn bytes(self, random: &mut Random, halves: usize) -> Vec<u8> {
        (0..halves)
            .flat_map(|_| self.half(random).to_le_bytes())
            .collect()
    }

    /// The control word of a turn.
    fn control(self, turn: usize) -> u32 {
        let mode = match self {
            Lanes::Random => turn as u32 & 3,
            Lanes::Tame | Lanes::TamePositive => 0,
        };
        ALL_MASKED | mode << 13
    }
}

/// What a row executes.
struct Work {
    lanes: Lanes,
    memory_end: Option<usize>,
    codes: Vec<Vec<u8>>,
    destinations: Vec<[u8; REGISTER_SIZE]>,
    machine: Machine,
    memory: Vec<u8>,
}

impl Work {
    /// Instructions with destination 0 and sources drawn from the other registers, or memory.
    fn of(listed: &Listed, lanes: Lanes, kind: &Kind) -> Work {
        let mut random = Random::seeded(6);
        let mut codes = Vec::new();
        for _ in 0..CODES {
            let [first, second] = [0; 2].map(|_| random.within(1, 31) as u8);
            let first = if listed.takes_first() { first } else { 0 };
            let mut encoding = Encoding::registers(listed, 0, first, second);
            encoding.immediate = listed.immediate.then_some(LT_OS);
            (kind.change)(&mut encoding);
            if kind.any_predicate {
                encoding.immediate = Some(random.within(0, 31) as u8);
            }
            codes.push(encoding.bytes());
        }
        let mut machine = Machine::blank();
        machine.vectors = lanes.bytes(&mut random, 1024);
        machine.masks[1] = kind.mask;
        let filled = |_| lanes.bytes(&mut random, 32).try_into().expect("64 bytes");
        Work {
            lanes,
            memory_end: kind.memory_end,
            codes,
            destinations: (0..CODES).map(filled).collect(),
            machine,
            memory: lanes.bytes(&mut Random::seeded(8), 2048),
        }
    }

    /// The destination is register 0, or mask 0; what is written there goes into the digest.
    fn pass<const TO_MASK: bool>(&self, step: Step, calls: usize) -> Timed {
        let mut machine = self.machine.clone();
        time(calls, |place| {
            let turn = place % CODES;
            if TO_MASK {
                machine.masks[0] = u64::MAX;
            } else {
                machine.vectors[..REGISTER_SIZE].copy_from_slice(&self.destinations[turn]);
            }
            machine.control = self.lanes.control(turn);
            // An even address, for memory forms.
            machine.general[3] = 2 * turn as u64;
            let end = self.memory_end.map(|bytes| 2 * turn + bytes);
            let memory = &self.memory[..end.unwrap_or(self.memory.len())];
            let answer = step(&mut machine, &self.codes[turn], memory);
            let written = if TO_MASK {
                machine.masks[0]
            } else {
                sum(&machine.vectors[..REGISTER_SIZE])
            };
            assert_eq!(answer.number, 0);
            written ^ u64::from(machine.control) << 32
        })
    }
}

/// How a row's instructions differ from a register form with the length bits of 32 lanes.
struct Kind {
    name: &'static str,
    /// Mask register k1.
    mask: u64,
    /// Memory ends so many bytes behind the address; else far behind it.
    memory_end: Option<usize>,
    /// Each comparison has a predicate drawn for itself; else it is LT_OS.
    any_predicate: bool,
    change: fn(&mut Encoding),
}

fn row(listed: &Listed, lanes: Lanes, kind: &Kind, calls: usize) -> Row {
    let name = match lanes {
        Lanes::Random => kind.name.to_string(),
        Lanes::Tame | Lanes::TamePositive => format!("{}, tame", kind.name),
    };
    let pass = if listed.to_mask {
        Work::pass::<true>
    } else {
        Work::pass::<false>
    };
    let work = || Work::of(listed, lanes, kind);
    let (by_library, by_plain) = (work(), work());
    Row::of(
        listed.name,
        &name,
        [
            Box::new(move || pass(&by_library, library::step, calls)),
            Box::new(move || pass(&by_plain, plain_step::step, calls)),
        ],
    )
}

const fn masked(name: &'static str, mask: u64) -> Kind {
    Kind {
        mask,
        ..changed(name, |e| e.mask = 1)
    }
}

const fn changed(name: &'static str, change: fn(&mut Encoding)) -> Kind {
    Kind {
        name,
        mask: 0,
        memory_end: None,
        any_predicate: false,
        change,
    }
}

/// Memory at register 3, whose value these rows change from step to step.
pub fn from_memory(e: &mut Encoding) {
    (e.mode, e.rm, e.b) = (0, 3, 0);
}

const WHOLE: Kind = changed("32 lanes", |_| ());

/// How the time goes with the lanes that are on, and with memory.
const LANES_ON: [Kind; 10] = [
    changed("8 lanes", |e| e.length = LANES_8),
    changed("16 lanes", |e| e.length = LANES_16),
    masked("32 lanes, mask of 0", 0),
    masked("32 lanes, mask of 1", 1 << 9),
    masked("32 lanes, mask of 4", 0x8001_0401),
    masked("32 lanes, mask of 16", 0x9C5A_A563),
    masked("32 lanes, mask of 32", u64::MAX),
    changed("32 lanes, memory", from_memory),
    // The last lane is off, and its word would lie outside.
    Kind {
        mask: 0x7FFF_FFFF,
        memory_end: Some(62),
        ..changed("31 lanes, memory's end", |e| {
            from_memory(e);
            e.mask = 1;
        })
    },
    changed("32 lanes, broadcast", |e| {
        from_memory(e);
        (e.extra, e.length) = (1, LANES_32);
    }),
];

/// Scalar instructions, with the length bits that assemblers give them.
const SCALAR: Kind = changed("lane 0", |e| e.length = LANES_8);

/// What else is timed of one of them.
const SCALAR_FORMS: [Kind; 2] = [
    changed("lane 0, memory", |e| {
        from_memory(e);
        e.length = LANES_8;
    }),
    Kind {
        // Every bit but the one that is read.
        mask: !1,
        ..changed("lane 0 off", |e| (e.mask, e.length) = (1, LANES_8))
    },
];

/// What else is timed of a comparison.
const COMPARISON_FORMS: [Kind; 2] = [
    changed("32 lanes, suppressed", |e| e.extra = 1),
    Kind {
        any_predicate: true,
        ..changed("32 lanes, any predicate", |_| ())
    },
];

/// Each instruction on random lanes and on tame ones.
fn each(listed: &[Listed], kind: &Kind, calls: usize) -> Vec<Row> {
    let mut rows = Vec::new();
    for listed in listed {
        let is_root = listed.operands.len() == 1;
        let as_embeddings = if is_root {
            Lanes::TamePositive
        } else {
            Lanes::Tame
        };
        rows.push(row(listed, Lanes::Random, kind, calls));
        rows.push(row(listed, as_embeddings, kind, calls));
    }
    rows
}

/// One instruction in several forms, in the same way.
fn forms(listed: &Listed, kinds: &[Kind], calls: usize) -> Vec<Row> {
    let both = |kind| [Lanes::Random, Lanes::Tame].map(|lanes| row(listed, lanes, kind, calls));
    kinds.iter().flat_map(both).collect()
}

pub fn rows(rounds: usize) -> Vec<Row> {
    let calls = STEPS.div_ceil(rounds);
    let (packed, scalar, comparing) = (&LIST[..PACKED], scalar_rows(), comparing_rows());
    let comparison = &comparing[2];
    let mut rows = each(packed, &WHOLE, calls);
    rows.extend(forms(&packed[1], &LANES_ON, calls));
    rows.extend(each(scalar, &SCALAR, calls));
    rows.extend(forms(&scalar[1], &SCALAR_FORMS, calls));
    rows.extend(each(comparing, &WHOLE, calls));
    rows.extend(forms(comparison, &LANES_ON, calls));
    rows.extend(forms(comparison, &COMPARISON_FORMS, calls));
    rows
}
