//! Document 02, Item 6, "Quiet blocks". Sentences in quotation marks are document 02's own here.

use crate::blocks::{test_length, test_samples};
use crate::refusal::Refusal;

/// "Let M be the largest magnitude in the block."
pub fn largest_magnitude(samples: &[i64]) -> u64 {
    let mut largest = 0;
    for sample in samples {
        largest = largest.max(sample.unsigned_abs());
    }
    largest
}

/// "0 for P up to 2; then 5/2 of the one before, rounded up, plus half the length times M over 32,768, rounded up, plus
/// 1."
pub fn bound_at(p: u32, m: u64) -> u64 {
    if p <= 2 {
        return 0;
    }
    let before = bound_at(p - 1, m);
    let half = (1 << p) / 2; // of the length that goes with this P
    rounded_up(5 * before, 2) + rounded_up(half * m, 32_768) + 1
}

/// A quotient, "rounded up": one more where something is left over.
fn rounded_up(x: u64, by: u64) -> u64 {
    let whole = x / by;
    if whole * by < x {
        whole + 1
    } else {
        whole
    }
}

/// "A call answers this bound for a user's block, with forward's checks".
pub fn bound(cells: &[i64]) -> Result<u64, Refusal> {
    test_length(cells.len())?;
    test_samples(cells)?;
    Ok(bound_at(cells.len().ilog2(), largest_magnitude(cells)))
}
