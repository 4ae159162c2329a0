//! Halves from decimal text and back, both exact: a half is 1 sign, 5 exponent and 10 fraction
//! bits.

/// The half nearest to a number (ties to even), and whether it is that number.
pub struct Nearest {
    pub half: u16,
    pub exact: bool,
}

/// Powers of ten beyond this are no half, and make long sums.
const LARGEST_EXPONENT: i64 = 1000;

/// Reads `-2.5`, `65504`, `6e-8`, `inf`, `nan`, in any case.
pub fn from_decimal(text: &str) -> Option<Nearest> {
    let (sign, magnitude) = match text.strip_prefix('-') {
        Some(magnitude) => (0x8000, magnitude),
        None => (0, text.strip_prefix('+').unwrap_or(text)),
    };
    let Nearest { half, exact } = match magnitude.to_ascii_lowercase().as_str() {
        "inf" | "infinity" => exactly(0x7C00),
        "nan" => exactly(0x7E00),
        digits => nearest(digits)?,
    };
    Some(Nearest {
        half: sign | half,
        exact,
    })
}

fn exactly(half: u16) -> Nearest {
    Nearest { half, exact: true }
}

/// The digits of a number and the place of the point among them.
fn digits(text: &str) -> Option<(Vec<u8>, i64)> {
    let (mantissa, exponent) = match text.split_once('e') {
        Some((mantissa, exponent)) => (mantissa, exponent.parse().ok()?),
        None => (text, 0),
    };
    let (whole, fraction) = mantissa.split_once('.').unwrap_or((mantissa, ""));
    let all = [whole, fraction].concat();
    let is_number = !all.is_empty() && all.bytes().all(|digit| digit.is_ascii_digit());
    let is_near = (-LARGEST_EXPONENT..=LARGEST_EXPONENT).contains(&exponent);
    let digits = || all.bytes().map(|digit| digit - b'0').collect();
    (is_number && is_near).then(|| (digits(), whole.len() as i64 + exponent))
}

/// Twice a fraction of such digits; the whole part of it is handed back.
fn double(fraction: &mut [u8]) -> u64 {
    let mut carry = 0;
    for digit in fraction.iter_mut().rev() {
        let twice = 2 * *digit + carry;
        *digit = twice % 10;
        carry = twice / 10;
    }
    u64::from(carry)
}

/// The number as units of 2 to the -26, and whether something is left below a unit.
fn units(mut digits: Vec<u8>, mut point: i64) -> (u64, bool) {
    while point < 0 {
        digits.insert(0, 0);
        point += 1;
    }
    let point = point as usize;
    digits.resize(digits.len().max(point), 0);
    let (whole, fraction) = digits.split_at_mut(point);
    // Enough to tell that a number is too large.
    let cut = |sum: u64| sum.min(1 << 20);
    let mut units = whole
        .iter()
        .fold(0, |sum, &digit| cut(10 * sum + u64::from(digit)));
    for _ in 0..26 {
        units = 2 * units + double(fraction);
    }
    (units, fraction.iter().any(|&digit| digit != 0))
}

fn nearest(text: &str) -> Option<Nearest> {
    let (digits, point) = digits(text)?;
    let (units, more) = units(digits, point);
    // 11 bits are kept, but nothing below 2 to the -24, which is 4 units.
    let shift = (64 - units.leading_zeros()).saturating_sub(11).max(2);
    let (kept, rest, middle) = (units >> shift, units % (1 << shift), 1 << (shift - 1));
    let is_above = rest > middle || rest == middle && (more || kept % 2 == 1);
    let bits = (u64::from(shift - 2) << 10) + kept + u64::from(is_above);
    Some(Nearest {
        half: bits.min(0x7C00) as u16,
        exact: rest == 0 && !more && bits < 0x7C00,
    })
}

/// The exact value in decimal.
pub fn to_decimal(half: u16) -> String {
    let (exponent, fraction) = (half >> 10 & 31, half & 0x3FF);
    let magnitude = match (exponent, fraction) {
        (31, 0) => "inf".to_string(),
        (31, _) if fraction & 0x200 == 0 => "nan, signalling".to_string(),
        (31, _) => "nan, quiet".to_string(),
        (0, _) => digits_of(u64::from(fraction)),
        _ => digits_of(u64::from(0x400 | fraction) << (exponent - 1)),
    };
    let sign = if half < 0x8000 { "" } else { "-" };
    format!("{sign}{magnitude}")
}

/// So many units of 2 to the -24, which have at most 24 digits behind the point.
fn digits_of(units: u64) -> String {
    let value = units as f64 / f64::from(1 << 24);
    let digits = format!("{value:.24}");
    digits
        .trim_end_matches('0')
        .trim_end_matches('.')
        .to_string()
}

#[cfg(test)]
mod tests {
    use super::*;

    #[test]
    fn every_half_is_read_back() {
        for half in 0..=0xFFFF_u16 {
            let text = to_decimal(half);
            let Some(text) = text.split(',').next().filter(|text| !text.contains("nan")) else {
                continue;
            };
            let read = from_decimal(text).expect(text);
            assert_eq!((read.half, read.exact), (half, true), "{text}");
        }
    }

    /// A middle goes to the even neighbour; a hair above or below it to the nearer one.
    #[test]
    fn the_nearest_is_taken() {
        for low in 0..0x7BFF_u16 {
            let [below, above] = [low, low + 1].map(|half| to_decimal(half).parse::<f64>());
            let middle = format!("{:.26}", (below.unwrap() + above.unwrap()) / 2.0);
            let even = low + low % 2;
            for (text, half) in [
                (middle.clone(), even),
                (format!("{middle}0000000000000000000000000001"), low + 1),
                (format!("-{middle}"), even | 0x8000),
            ] {
                let read = from_decimal(&text).expect("a number");
                assert_eq!((read.half, read.exact), (half, false), "{text}");
            }
        }
    }

    #[test]
    fn known_numbers() {
        for (text, half, exact) in [
            ("1", 0x3C00, true),
            ("+1.5e0", 0x3E00, true),
            ("-0", 0x8000, true),
            (".5", 0x3800, true),
            ("1.", 0x3C00, true),
            ("0.1", 0x2E66, false),
            ("65504", 0x7BFF, true),
            ("65519.999", 0x7BFF, false),
            ("65520", 0x7C00, false),
            ("1e1000", 0x7C00, false),
            ("655.04e2", 0x7BFF, true),
            ("1e-1000", 0x0000, false),
            ("-Inf", 0xFC00, true),
            ("NaN", 0x7E00, true),
            ("-nan", 0xFE00, true),
        ] {
            let read = from_decimal(text).expect(text);
            assert_eq!((read.half, read.exact), (half, exact), "{text}");
        }
        for text in [
            "", "-", ".", "1.2.3", "3C00", "--1", "1e", "1e1001", "e5", "0x1",
        ] {
            assert!(from_decimal(text).is_none(), "{text}");
        }
    }
}
