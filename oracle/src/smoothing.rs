//! Document 02, Item 7, "Exact smoothing". Sentences in quotation marks are document 02's own here.

use crate::blocks::{test_length, test_samples};
use crate::refusal::{refuse_if, Refusal, MISFIT, WEIGHTS};

/// "20 weights (their magnitudes add to more than 32,767; place the first cell where the running sum passes it)". A
/// magnitude may be 2^63, so the sum is wider than that.
fn test_weights(weights: &[i64]) -> Result<(), Refusal> {
    let mut sum = 0;
    for (place, weight) in weights.iter().enumerate() {
        sum += u128::from(weight.unsigned_abs());
        refuse_if(sum > 32_767, WEIGHTS, place)?;
    }
    Ok(())
}

/// "at moment t, the plain sum over moments u of sample(u) times weight((t - u) mod N)"
fn sum_at(t: usize, samples: &[i64], weights: &[i64]) -> i64 {
    let n = samples.len();
    let mut sum = 0;
    for u in 0..n {
        sum += samples[u] * weights[(n + t - u) % n];
    }
    sum
}

/// "a block smoothed by their own weights, cyclically, with no rounding". "Checks: 1; 2 if the weights aren't N cells;
/// 3 for samples; 20".
pub fn smooth(cells: &[i64], weights: &[i64]) -> Result<Vec<i64>, Refusal> {
    test_length(cells.len())?;
    refuse_if(weights.len() != cells.len(), MISFIT, 0)?;
    test_samples(cells)?;
    test_weights(weights)?;
    Ok((0..cells.len()).map(|t| sum_at(t, cells, weights)).collect())
}
