//! A double taken apart into sign, exponent and mantissa, and held to a fraction of whole numbers without any
//! rounding.

use oracle::Fraction;

/// What is wrong with a double, given by its bits, that should be a fraction, whose denominator is at most 2,048.
pub fn fault(bits: u64, right: Fraction) -> Option<&'static str> {
    let exponent = (bits >> 52) as i32 & 2047;
    let rest = i128::from(bits & ((1 << 52) - 1));
    if exponent == 2047 {
        return Some("not finite");
    }
    if bits == 1 << 63 {
        return Some("minus zero");
    }
    let (mantissa, places) = if exponent == 0 { (rest, -1074) } else { (rest + (1 << 52), exponent - 1075) };
    let signed = if bits >> 63 == 1 { -mantissa } else { mantissa };
    // The double is signed × 2^places, and right where signed × denominator × 2^places is the numerator. Without the
    // power, the one side is at most 2^64 in size and the other at most 2^63; with a power beyond 2^60 or 2^-64 they
    // differ, as they do with that one, unless both are 0.
    let left = signed * i128::from(right.denominator) << places.clamp(0, 60);
    let numerator = i128::from(right.numerator) << (-places).clamp(0, 64);
    (left != numerator).then_some("another number")
}
