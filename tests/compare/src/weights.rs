//! Weights of smoothing (document 02, Item 7), within their limit and beyond it.

use crate::random::Random;
use crate::smooth_cases::MOST;

/// The shapes of weights that are within the limit.
pub const SHAPES: [&str; 13] = [
    "any weights", "to the limit", "to the limit, above 0", "to the limit, below 0", "few weights", "weights up to 1",
    "one weight", "weights alike", "even weights", "odd weights", "falling weights", "weights in turn", "no weights",
];

/// So many cells, all 0 but one.
pub fn alone(n: usize, place: usize, cell: i64) -> Vec<i64> {
    let mut cells = vec![0; n];
    cells[place] = cell;
    cells
}

/// The first place of n, one between where there is one, and the last.
pub fn places(n: usize, random: &mut Random) -> [usize; 3] {
    let between = if n > 2 { 1 + random.below(n - 2) } else { 0 };
    [0, between, n - 1]
}

/// So many numbers, none below 0, that add to a total.
fn parts_of(total: i64, count: usize, random: &mut Random) -> Vec<i64> {
    let mut ends: Vec<i64> = (1..count).map(|_| random.between(0, total)).collect();
    ends.extend((count > 0).then_some(total));
    ends.sort();
    let starts = [&[0], &ends[..]].concat();
    ends.iter().zip(starts).map(|(end, start)| end - start).collect()
}

/// So many weights whose magnitudes add to a total, each with any of these signs.
pub fn adding_to(total: i64, n: usize, signs: &[i64], random: &mut Random) -> Vec<i64> {
    parts_of(total, n, random).into_iter().map(|part| part * random.pick(signs)).collect()
}

/// The same for a total above 0, which the running sum reaches at just this place; the weights after it are 0.
pub fn reaching(total: i64, n: usize, place: usize, signs: &[i64], random: &mut Random) -> Vec<i64> {
    let mut magnitudes = parts_of(total - 1, place + 1, random);
    magnitudes[place] += 1;
    let mut weights: Vec<i64> = magnitudes.into_iter().map(|part| part * random.pick(signs)).collect();
    weights.resize(n, 0);
    weights
}

/// So many weights of the named shape.
pub fn shaped(shape: &str, n: usize, random: &mut Random) -> Vec<i64> {
    let (any, place) = (random.between(0, MOST), random.below(n.max(1)));
    let (sign, share) = (random.pick(&[1, -1]), MOST / n.max(1) as i64);
    match shape {
        "any weights" => adding_to(any, n, &[1, -1], random),
        "to the limit" => adding_to(MOST, n, &[1, -1], random),
        "to the limit, above 0" => adding_to(MOST, n, &[1], random),
        "to the limit, below 0" => adding_to(MOST, n, &[-1], random),
        "few weights" => few(n, random),
        "weights up to 1" => (0..n).map(|_| random.between(-1, 1)).collect(),
        "one weight" => alone(n, place, random.pick(&[1, -1, MOST, -MOST, any])),
        "weights alike" => vec![sign * random.pick(&[1, share]); n],
        "even weights" => mirrored(n, 1, random),
        "odd weights" => mirrored(n, -1, random),
        "falling weights" => falling(n, random),
        "weights in turn" => (0..n).map(|k| [share, -share][k % 2] * sign).collect(),
        _ => vec![0; n],
    }
}

/// At most three weights that are not 0.
fn few(n: usize, random: &mut Random) -> Vec<i64> {
    let mut weights = vec![0; n];
    for part in adding_to(MOST, 3, &[1, -1], random) {
        weights[random.below(n)] += part;
    }
    weights
}

/// Weights of which the one at k is the one at N - k, or its negative.
pub fn mirrored(n: usize, sign: i64, random: &mut Random) -> Vec<i64> {
    let mut weights = vec![0; n];
    for (k, weight) in adding_to(MOST / 2, n / 2 + 1, &[1, -1], random).into_iter().enumerate() {
        let mirror = (n - k) % n;
        if sign == 1 || k != mirror {
            (weights[k], weights[mirror]) = (weight, sign * weight); // only 0 is its own negative
        }
    }
    weights
}

/// Weights that are largest at moment 0 and fall by one step each to either side. With a width of w steps they add to w
/// times w steps, and 181 × 181 is within the limit.
fn falling(n: usize, random: &mut Random) -> Vec<i64> {
    let width = random.between(1, (n as i64 / 2).min(181));
    let step = random.between(1, MOST / (width * width));
    (0..n).map(|k| step * (width - k.min(n - k) as i64).max(0)).collect()
}

/// Weights beyond the limit by themselves: the next ones, those at the ends of i64, and such as are small where a part
/// is left off, or modulo 2^31 - 1.
pub fn heavy(random: &mut Random) -> Vec<i64> {
    let low = random.between(0, 100);
    let cut = [16, 24, 31, 32, 33, 48, 62].map(|digits| (1 << digits) + low);
    let near = [MOST + 1, MOST + 1 + low, 40_000, (1 << 31) - 1 + low, i64::MAX - low, i64::MAX];
    let above = [&cut[..], &near].concat();
    let below: Vec<i64> = above.iter().map(|weight| -weight).collect();
    [&above[..], &below, &[i64::MIN]].concat()
}

/// Puts such weights into one to four cells.
pub fn make_heavy(weights: &mut [i64], random: &mut Random) {
    for _ in 0..random.between(1, 4) {
        let some = heavy(random);
        if !weights.is_empty() {
            weights[random.below(weights.len())] = random.pick(&some);
        }
    }
}
