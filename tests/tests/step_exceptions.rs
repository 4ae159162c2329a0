//! Exceptions (R7.1 to R7.5): lanes that raise every set of flags, under every set of masks, with
//! flags left from before, in lanes that are on and lanes that are off, by control word, by
//! embedded rounding and by suppression.

use ridgecrook_tests::assemble::Encoding;
use ridgecrook_tests::case::{DE, IE, OE, PE, UE, ZE};
use ridgecrook_tests::coverage::Watched;
use ridgecrook_tests::library;
use ridgecrook_tests::machine::Step;
use ridgecrook_tests::second::{self, encoding::comparing_rows, encoding::LIST};

/// Dividend, divisor, and the flags of their quotient where all exceptions are masked: each
/// exception as alone as it comes, and an exact tiny quotient, which has UE where it is unmasked.
const LANES: [(u16, u16, u8); 7] = [
    (0x0000, 0x0000, IE),
    (0x0001, 0x0001, DE),
    (0x3C00, 0x0000, ZE),
    (0x7BFF, 0x3800, OE | PE),
    (0x0401, 0x4000, UE | PE),
    (0x4500, 0x4200, PE),
    (0x0400, 0x4000, 0),
];

const VDIVPH: usize = 3;
const VDIVSH: usize = 11;

/// VDIVPH of registers 1 and 2 to register 0, whose lanes 0 to 6 are those above and which has 32
/// lanes or embedded rounding; `on` goes to k1.
fn division(on: u64, control: u32, embedded: bool) -> Step {
    let encoding = Encoding {
        mask: 1,
        extra: u8::from(embedded),
        ..Encoding::registers(&LIST[VDIVPH], 0, 1, 2)
    };
    let mut step = Step::of(encoding.bytes());
    let machine = &mut step.machine;
    machine.vectors[..64].fill(0x55);
    for (lane, (dividend, divisor, _)) in LANES.iter().enumerate() {
        machine.set_lane(1, lane, *dividend);
        machine.set_lane(2, lane, *divisor);
    }
    machine.masks[1] = on;
    machine.control = control;
    step
}

#[test]
fn the_lanes_raise_what_they_say() {
    for (lane, (_, _, flags)) in LANES.iter().enumerate() {
        let step = division(1 << lane, 0x1F80, false);
        for outcome in [second::step(&step), library::step_outcome(&step)] {
            let control = outcome.after.machine.control;
            assert_eq!(control, 0x1F80 | u32::from(*flags), "lane {lane}");
        }
    }
    let tiny = second::step(&division(1 << 6, 0x1780, false));
    assert_eq!(
        (tiny.answer.number, tiny.after.machine.control),
        (8, 0x1790)
    );
}

/// Every set of lanes under every set of masks.
#[test]
fn every_mixture_under_every_mask() {
    let mut watched = Watched::of(library::step_outcome, "mixtures of exceptions");
    for place in 0..128 * 64_u32 {
        let (on, masks) = (u64::from(place % 128), place / 128);
        // Flags left from before: none, some, or all.
        for stale in [0, place % 61, 63] {
            let step = division(on, masks << 7 | stale, false);
            watched.step(&step);
        }
        watched.step(&division(on, (masks << 7) | (place % 64), true));
    }
    watched.finish(128 * 64 * 4, &[0, 8]);
}

/// R7.4, of both programs, from what the lanes are said to raise: an unmasked IE, DE or ZE of any
/// lane leaves OE, UE and PE of all lanes out, a masked one leaves nothing out.
#[test]
fn the_stage_that_stops_decides_over_the_flags() {
    let (mut left_out, mut masked_early) = (0, 0);
    for place in 0..128 * 64_u32 {
        let (on, masks) = (place % 128, place / 128);
        let unmasked = !(masks as u8) & 63;
        let raised = raised_by(on, unmasked);
        let early = raised & (IE | DE | ZE);
        let stops_early = early & unmasked != 0;
        let added = if stops_early { early } else { raised };
        let number = if raised & unmasked != 0 { 8 } else { 0 };
        let step = division(u64::from(on), masks << 7, false);
        for outcome in [second::step(&step), library::step_outcome(&step)] {
            let shown = (outcome.answer.number, outcome.after.machine.control);
            assert_eq!(shown, (number, masks << 7 | u32::from(added)), "{step}");
        }
        left_out += u32::from(added != raised);
        masked_early += u32::from(number == 8 && early != 0 && !stops_early);
    }
    // By hand: of the 64 sets of lanes 0 to 2 and their masks 37 stop early and 19 raise only what
    // is masked; of the 128 sets of the other lanes and masks 116 raise something, and 92 stop.
    assert_eq!((left_out, masked_early), (37 * 116, 19 * 92));
}

/// The flags of the lanes that are on, by the table; the last has UE where it is unmasked.
fn raised_by(on: u32, unmasked: u8) -> u8 {
    let lanes = LANES.iter().enumerate();
    let raised = lanes.filter(|(lane, _)| on >> lane & 1 == 1);
    let raised = raised.fold(0, |all, (_, (_, _, flags))| all | flags);
    raised | if on >> 6 & 1 == 1 { unmasked & UE } else { 0 }
}

/// VDIVSH of registers 1 and 2 to register 0, which has that lane of the table in lane 0 and the
/// others, over and over, above it.
fn scalar_division(lane: usize, control: u32) -> Step {
    let mut step = Step::of(Encoding::registers(&LIST[VDIVSH], 0, 1, 2).bytes());
    let machine = &mut step.machine;
    machine.control = control;
    machine.vectors[..64].fill(0x55);
    for place in 0..32 {
        let (dividend, divisor, _) = LANES[(lane + place) % LANES.len()];
        machine.set_lane(1, place, dividend);
        machine.set_lane(2, place, divisor);
    }
    step
}

/// Of a scalar row lane 0 alone raises something, by the same two stages (R5.1, R7.4), of both
/// programs, from what the lanes are said to raise. Stopped, it leaves every byte of the
/// destination; done, it copies lanes 1 to 7 of the first source (R5.10).
#[test]
fn a_scalar_row_raises_what_lane_0_does() {
    for place in 0..7 * 64_u32 {
        let (lane, masks) = (place % 7, place / 7);
        let unmasked = !(masks as u8) & 63;
        let raised = raised_by(1 << lane, unmasked);
        let early = raised & (IE | DE | ZE);
        let added = if early & unmasked != 0 { early } else { raised };
        let step = scalar_division(lane as usize, masks << 7);
        for outcome in [second::step(&step), library::step_outcome(&step)] {
            let machine = &outcome.after.machine;
            let number = if raised & unmasked != 0 { 8 } else { 0 };
            let shown = (outcome.answer.number, machine.control);
            assert_eq!(shown, (number, masks << 7 | u32::from(added)), "{step}");
            let before = &step.machine;
            if number == 8 {
                assert_eq!(machine.vectors, before.vectors, "{step}");
                continue;
            }
            assert_eq!(machine.vectors[2..16], before.vectors[66..80], "{step}");
            assert_eq!(machine.vectors[16..64], [0; 48], "{step}");
            assert_eq!(machine.vectors[64..], before.vectors[64..], "{step}");
        }
    }
}

/// R7.5: embedded rounding in the four modes masks everything, whatever the control word says.
#[test]
fn embedded_rounding_hides_every_exception() {
    for place in 0..64 * 4_u32 {
        let (masks, mode) = (place / 4, (place % 4) as u8);
        let mut step = division(0xFF, masks << 7, true);
        step.machine.set_lane(1, 7, 0xC500);
        step.machine.set_lane(2, 7, 0x4200);
        step.code[3] = step.code[3] & !0x60 | mode << 5;
        for outcome in [second::step(&step), library::step_outcome(&step)] {
            let machine = &outcome.after.machine;
            let shown = (outcome.answer.number, machine.control);
            assert_eq!(shown, (0, masks << 7), "{step}");
            // 5/3 and -5/3, which tell the modes apart.
            let thirds = [
                [0x3EAB, 0xBEAB],
                [0x3EAA, 0xBEAB],
                [0x3EAB, 0xBEAA],
                [0x3EAA, 0xBEAA],
            ];
            let halves = [machine.lane(0, 5), machine.lane(0, 7)];
            assert_eq!(halves, thirds[usize::from(mode)], "{step}");
            assert_eq!(machine.lane(0, 6), 0x0200, "{step}");
        }
    }
}

/// Halves to compare, and the flags that they raise: of a minimum or maximum, of a comparison that
/// does not signal a quiet NaN, and of one that does (R6.27).
const COMPARED: [(u16, u16, [u8; 3]); 7] = [
    (0x3C00, 0x4000, [0, 0, 0]),
    (0x7C01, 0x3C00, [IE, IE, IE]),
    (0x3C00, 0x7E00, [IE, 0, IE]),
    (0x0001, 0x3C00, [DE, DE, DE]),
    (0x3C00, 0x83FF, [DE, DE, DE]),
    (0x0001, 0x7E00, [IE, 0, IE]),
    (0xFD00, 0x0001, [IE, IE, IE]),
];

/// Which row, its immediate, and the column above: VMINPH, VMAXPH, and VCMPPH by LT_OQ and LE_OS.
const COMPARISONS: [(usize, Option<u8>, usize); 4] = [
    (0, None, 0),
    (1, None, 0),
    (2, Some(17), 1),
    (2, Some(2), 2),
];

/// One of them on registers 1 and 2, whose lanes 0 to 6 are those above; `on` goes to k1. It writes
/// register 0 or k2.
fn compared(comparison: usize, on: u64, control: u32) -> Step {
    let (row, immediate, _) = COMPARISONS[comparison];
    let listed = &comparing_rows()[row];
    let encoding = Encoding {
        mask: 1,
        immediate,
        ..Encoding::registers(listed, if listed.to_mask { 2 } else { 0 }, 1, 2)
    };
    let mut step = Step::of(encoding.bytes());
    let machine = &mut step.machine;
    machine.vectors[..64].fill(0x55);
    for (lane, (a, b, _)) in COMPARED.iter().enumerate() {
        machine.set_lane(1, lane, *a);
        machine.set_lane(2, lane, *b);
    }
    (machine.masks[1], machine.masks[2]) = (on, 0x55);
    machine.control = control;
    step
}

/// The flags of the lanes that are on, by the table.
fn raised_by_comparison(comparison: usize, on: u32) -> u8 {
    let (_, _, column) = COMPARISONS[comparison];
    let lanes = COMPARED.iter().enumerate();
    let raised = lanes.filter(|(lane, _)| on >> lane & 1 == 1);
    raised.fold(0, |all, (_, (_, _, flags))| all | flags[column])
}

/// R6.27, R7.4, of both programs, from what the lanes are said to raise: IE and DE are early, so
/// both are set, with 8 as with 0, whichever stops it. With 8 nothing else changes. The flags of
/// later stages never come, whatever is unmasked.
#[test]
fn comparisons_raise_what_they_say() {
    for place in 0..4 * 128 * 64_u32 {
        let (comparison, on, masks) = (place as usize % 4, place / 4 % 128, place / 512);
        let raised = raised_by_comparison(comparison, on);
        let stops = raised & !(masks as u8) != 0;
        let step = compared(comparison, u64::from(on), masks << 7);
        for outcome in [second::step(&step), library::step_outcome(&step)] {
            let machine = &outcome.after.machine;
            let shown = (outcome.answer.number, machine.control);
            let number = if stops { 8 } else { 0 };
            assert_eq!(shown, (number, masks << 7 | u32::from(raised)), "{step}");
            if stops {
                let kept = (&machine.vectors, machine.masks, machine.pointer);
                let before = &step.machine;
                let all = (&before.vectors, before.masks, before.pointer);
                assert_eq!(kept, all, "{step}");
            }
        }
    }
}

/// R3.8, R7.5: with b in register form and any length bits, whatever the control word unmasks and
/// holds, the same is written as with every exception masked, and the control word stays.
#[test]
fn suppression_hides_every_exception() {
    for place in 0..4 * 4 * 64 * 16_u32 {
        let (comparison, length) = (place as usize % 4, (place / 4 % 4) as u8);
        let (masks, on) = (place / 16 % 64, u64::from(place / 1024 * 0x0888_8889));
        let control = (masks << 7) | (place % 61);
        let plain = compared(comparison, on, 0x1F80);
        let mut step = compared(comparison, on, control);
        step.code[3] = step.code[3] & !0x60 | 0x10 | length << 5;
        for program in [second::step, library::step_outcome] {
            let (expected, outcome) = (program(&plain), program(&step));
            let [expected, found] = [expected, outcome].map(|outcome| {
                let machine = outcome.after.machine;
                (
                    outcome.answer,
                    machine.vectors,
                    machine.masks,
                    machine.control,
                )
            });
            let expected = (expected.0, expected.1, expected.2, control);
            assert_eq!(found, expected, "{step}");
        }
    }
}

/// Each of the nineteen instructions on lanes that raise something, in every mode, with each
/// exception unmasked alone, and none, and all. Of a scalar row lane 2 has no element, whatever its
/// mask bit says. VCMPPH writes k3.
#[test]
fn every_instruction_and_mode() {
    let mut watched = Watched::of(library::step_outcome, "exceptions of each instruction");
    let halves = [
        0x0000, 0x8000, 0x0001, 0x03FF, 0x0400, 0x3800, 0x3C00, 0xBC01, 0x7BFF, 0xFBFF, 0x7C00,
        0xFC00, 0x7C01, 0x7E00, 0x1FE0, 0x2010,
    ];
    for place in 0..19 * 4 * 8 * 256_usize {
        let (row, place) = (place % 19, place / 19);
        let (mode, unmasked) = (place % 4, place / 4 % 8);
        let (a, b) = (halves[place / 32 % 16], halves[place / 512]);
        let first = u8::from(LIST[row].takes_first());
        let mut encoding = Encoding::registers(&LIST[row], 3, first, 2);
        (encoding.mask, encoding.length) = (5, 0);
        encoding.immediate = encoding.immediate.map(|_| (a ^ b) as u8);
        let mut step = Step::of(encoding.bytes());
        let machine = &mut step.machine;
        // Bit 6 stands for none, 7 for all.
        let masks = [0x3E, 0x3D, 0x3B, 0x37, 0x2F, 0x1F, 0x3F, 0x00][unmasked];
        machine.control = (masks << 7) | (mode as u32) << 13;
        machine.masks[5] = 0b101;
        machine.vectors[3 * 64..4 * 64].fill(0x55);
        for (register, half) in [(1, a), (2, b), (3, a ^ b)] {
            machine.set_lane(register, 0, half);
            machine.set_lane(register, 2, 0x3C00);
            machine.set_lane(register, 1, 0x7C01);
        }
        watched.step(&step);
    }
    watched.finish(155_648, &[0, 8]);
}
