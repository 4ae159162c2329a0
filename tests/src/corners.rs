//! Halves at which arithmetic goes wrong, of both signs.

/// Numbers that stand for themselves: a half, one, two, three, thirds, an eleventh-bit neighbour
/// of each, operands of the examples (R12.1), the largest numbers, and the infinity.
const SINGLE: [u16; 20] = [
    0x0000, 0x3555, 0x3556, 0x3955, 0x3956, 0x3AAB, 0x3DA8, 0x4200, 0x4201, 0x41FF, 0x4248, 0x4500,
    0x4BFF, 0x2010, 0x1FE0, 0x7BFD, 0x7BFE, 0x7BFF, 0x7800, 0x7C00,
];

/// Signalling and quiet NaNs with the smallest, the largest and some other fractions.
const NANS: [u16; 11] = [
    0x7C01, 0x7C02, 0x7C80, 0x7D00, 0x7D55, 0x7DFF, 0x7E00, 0x7E01, 0x7EAA, 0x7F00, 0x7FFF,
];

/// All corners, each once: powers of two and their neighbours among subnormals and normals, three
/// more fractions at every exponent, and the numbers above.
pub fn all() -> Vec<u16> {
    let mut magnitudes: Vec<u16> = [&SINGLE[..], &NANS[..]].concat();
    for bit in 0..10 {
        let power = 1 << bit;
        magnitudes.extend([power - 1, power, power + 1]);
    }
    for exponent in 1..31 {
        let power = exponent << 10;
        magnitudes.extend([power - 1, power, power + 1]);
        // A third, a half and the last bit, and the last fraction but one.
        magnitudes.extend([power + 0x0155, power + 0x0201, power + 0x03FE]);
    }
    with_both_signs(magnitudes)
}

/// A choice for triples: zeros, subnormals, numbers around 1, the borders of underflow and
/// overflow, their roots (whose products lie at the borders), infinities and NaNs.
pub fn few() -> Vec<u16> {
    with_both_signs(vec![
        0x0000, 0x0001, 0x0002, 0x0003, 0x0200, 0x03FE, 0x03FF, 0x0400, 0x0401, 0x0555, 0x0800,
        0x1000, 0x1400, 0x1FE0, 0x2010, 0x2200, 0x3555, 0x3800, 0x3BFF, 0x3C00, 0x3C01, 0x3C02,
        0x3E00, 0x4000, 0x4200, 0x4C00, 0x5BFF, 0x5C00, 0x5C01, 0x7800, 0x7BFE, 0x7BFF, 0x7C00,
        0x7C01, 0x7E00, 0x7FFF,
    ])
}

fn with_both_signs(mut halves: Vec<u16>) -> Vec<u16> {
    halves.extend(halves.clone().iter().map(|half| half | 0x8000));
    halves.sort();
    halves.dedup();
    halves
}

#[cfg(test)]
mod tests {
    use super::*;

    #[test]
    fn there_are_enough_corners() {
        assert!(all().len() >= 400, "{}", all().len());
        assert!(few().len() >= 60, "{}", few().len());
    }
}
