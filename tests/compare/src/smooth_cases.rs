//! The cases of smoothing (document 02, Item 7). Each must have been seen at every P that has it.

use crate::call::{Call, SAMPLES};
use crate::cases::Case;
use crate::disorders::Form;
use crate::inputs::{cells_of, LENGTHS};

/// The numbers of the tests, in their order.
pub const TESTS: [u64; 4] = [1, 2, 3, 20];

/// What the magnitudes of the weights may add to, and the largest result: 32,768 × 32,767.
pub const MOST: i64 = 32_767;
pub const LARGEST: i64 = 1_073_709_056;

/// What samples and weights can be to either side of moment 0. At P = 1 both are even.
const PARITIES: [[&str; 3]; 3] = [
    ["even samples, even weights", "even samples, odd weights", "even samples, weights neither"],
    ["odd samples, even weights", "odd samples, odd weights", "odd samples, weights neither"],
    ["samples neither, even weights", "samples neither, odd weights", "samples neither, weights neither"],
];

const LEFT_OVER: [(&str, usize); 7] = [
    ("refused: N weights and 1 byte", 1),
    ("refused: N weights and 2 bytes", 2),
    ("refused: N weights and 3 bytes", 3),
    ("refused: N weights and 4 bytes", 4),
    ("refused: N weights and 5 bytes", 5),
    ("refused: N weights and 6 bytes", 6),
    ("refused: N weights and 7 bytes", 7),
];

/// The sum of the magnitudes, each of which may be 2^63.
fn magnitudes(weights: &[i64]) -> u128 {
    weights.iter().map(|weight| u128::from(weight.unsigned_abs())).sum()
}

/// Whether 20 does not hold of them.
pub fn can_be_weights(cells: &[i64]) -> bool {
    magnitudes(cells) <= MOST as u128
}

/// The moment and the value of the one cell that is not 0, where there is just one.
pub fn single(cells: &[i64]) -> Option<(usize, i64)> {
    let mut others = cells.iter().copied().enumerate().filter(|(_, cell)| *cell != 0);
    others.next().filter(|_| others.next().is_none())
}

fn zeros(cells: &[i64]) -> bool {
    cells.iter().all(|cell| *cell == 0)
}

/// Which of the tests fail, each looked at by itself. Where the block has no permitted length, the weights should be as
/// many as its whole cells.
pub fn faults(cells: &[u8], weights: &[u8]) -> [bool; 4] {
    let samples = cells_of(cells);
    [
        cells.len() % 8 != 0 || !LENGTHS.contains(&samples.len()),
        weights.len() != 8 * samples.len(),
        Call::Smooth.is_loud(&samples),
        !can_be_weights(&cells_of(weights)),
    ]
}

/// The cases of a block that is smoothed.
pub fn of_taken(samples: &[i64], weights: &[i64], result: &[i64]) -> Vec<Case> {
    [of_samples(samples, weights), of_one(samples, weights), of_limit(weights), of_results(samples, weights, result)]
        .concat()
}

/// The samples: at their limits, or 0; and which of the laws they come under.
fn of_samples(samples: &[i64], weights: &[i64]) -> Vec<Case> {
    let all = |value| samples.iter().all(|sample| *sample == value);
    let one = |value| single(samples).is_some_and(|(_, sample)| sample == value);
    let turns = samples.windows(2).all(|pair| pair.contains(&SAMPLES.0) && pair.contains(&SAMPLES.1));
    let negative = !samples.contains(&SAMPLES.0);
    let mut cases = vec![
        ("all samples -32,768", 1, all(SAMPLES.0)),
        ("all samples 32,767", 1, all(SAMPLES.1)),
        ("samples -32,768 and 32,767 in turn", 1, turns),
        ("one sample -32,768, the others 0", 1, one(SAMPLES.0)),
        ("one sample 32,767, the others 0", 1, one(SAMPLES.1)),
        ("samples 0, weights not", 1, zeros(samples) && !zeros(weights)),
        ("weights 0, samples not", 1, !zeros(samples) && zeros(weights)),
        ("samples and weights 0", 1, zeros(samples) && zeros(weights)),
        ("the negative samples are taken as well", 1, negative && !zeros(samples) && !zeros(weights)),
        ("the negative samples are not taken", 1, !negative),
        ("samples that can be weights, and are others", 1, can_be_weights(samples) && samples != weights),
    ];
    if !zeros(samples) && !zeros(weights) {
        let (its, other) = (parity(samples), parity(weights));
        for (i, row) in PARITIES.into_iter().enumerate() {
            for (j, case) in row.into_iter().enumerate() {
                cases.push((case, if i + j == 0 { 1 } else { 2 }, its == i && other == j));
            }
        }
    }
    cases
}

/// 0 where cell k is as cell N - k, 1 where it is its negative, 2 where it is neither.
fn parity(cells: &[i64]) -> usize {
    let n = cells.len();
    let is = |sign: i64| (0..n).all(|k| cells[k] == sign * cells[(n - k) % n]);
    if is(1) {
        0
    } else if is(-1) {
        1
    } else {
        2
    }
}

/// One weight that is not 0: what it is, and at which moment. It counts where the samples' two halves differ, since
/// such samples are others at any other moment.
fn of_one(samples: &[i64], weights: &[i64]) -> Vec<Case> {
    let n = samples.len();
    let tellable = samples[..n / 2] != samples[n / 2..];
    let (moment, weight) = single(weights).filter(|_| tellable).unwrap_or((n, 0));
    vec![
        ("one weight of 1", 1, weight == 1),
        ("one weight of -1", 1, weight == -1),
        ("one weight of 32,767", 1, weight == MOST),
        ("one weight of -32,767", 1, weight == -MOST),
        ("one weight of 1, at moment 0", 1, weight == 1 && moment == 0),
        ("one weight, at moment 0", 1, moment == 0),
        ("one weight, at moment 1", 1, moment == 1),
        ("one weight, between moments 1 and N/2", 3, 1 < moment && moment < n / 2),
        ("one weight, at moment N/2", 1, moment == n / 2),
        ("one weight, between moments N/2 and N - 1", 3, n / 2 < moment && moment < n - 1),
        ("one weight, at moment N - 1", 1, moment == n - 1),
    ]
}

/// How near the weights come to their limit, and where they reach it; and weights that are all alike.
fn of_limit(weights: &[i64]) -> Vec<Case> {
    let (sum, last) = (magnitudes(weights), weights.len() - 1);
    let [above, below] = [1, -1].map(|sign| weights.iter().any(|weight| weight.signum() == sign));
    let full = sum == MOST as u128;
    let reached = weights.iter().rposition(|weight| *weight != 0).filter(|_| full);
    let all = |value: i64| weights.iter().all(|weight| *weight == value);
    let share = MOST / weights.len() as i64;
    vec![
        ("magnitudes add to 32,766", 1, sum == MOST as u128 - 1),
        ("magnitudes add to 32,767, none below 0", 1, full && !below),
        ("magnitudes add to 32,767, none above 0", 1, full && !above),
        ("magnitudes add to 32,767, of either sign", 1, full && above && below),
        ("32,767 reached at the first weight", 1, reached == Some(0)),
        ("32,767 reached at a weight between", 2, reached.is_some_and(|place| 0 < place && place < last)),
        ("32,767 reached at the last weight", 1, reached == Some(last)),
        ("32,767 reached at the last weight, not by it alone", 1, reached == Some(last) && single(weights).is_none()),
        ("all weights 1", 1, all(1)),
        ("all weights -1", 1, all(-1)),
        ("all weights 32,767 / N, rounded down", 1, all(share)),
        ("all weights -32,767 / N, rounded to 0", 1, all(-share)),
    ]
}

/// The results: the largest, those of which either sign is large, and those next to 0.
fn of_results(samples: &[i64], weights: &[i64], result: &[i64]) -> Vec<Case> {
    let count = |value| result.iter().filter(|cell| **cell == value).count();
    let nowhere = |cells: &[i64], value| !cells.contains(&value);
    let (large, n) = (1 << 29, result.len());
    let either = result.iter().any(|cell| *cell > large) && result.iter().any(|cell| *cell < -large);
    vec![
        ("result 1,073,709,056 at every moment", 1, count(LARGEST) == n),
        ("result 1,073,709,056 at one moment alone", 1, count(LARGEST) == 1),
        ("result -1,073,709,056 at every moment", 1, count(-LARGEST) == n),
        ("result -1,073,709,056 at one moment alone", 1, count(-LARGEST) == 1),
        ("results above 2^29 and below -2^29", 1, either),
        ("result 0, no sample being 0, nor all weights", 1, count(0) > 0 && nowhere(samples, 0) && !zeros(weights)),
        ("result 1, no sample being so", 1, count(1) > 0 && nowhere(samples, 1)),
        ("result -1, no sample being so", 1, count(-1) > 0 && nowhere(samples, -1)),
    ]
}

/// The cases of a block that is refused for its length, by the P of its size. Those of more cells have none.
pub fn of_length(bytes: usize) -> Vec<Case> {
    let (cells, left_over) = (bytes / 8, bytes % 8);
    if !(2..2048).contains(&cells) {
        return Vec::new();
    }
    let n = 1 << cells.ilog2();
    vec![
        ("refused: N cells and bytes left over", 1, cells == n && left_over > 0),
        ("refused: N + 1 cells", 1, cells == n + 1 && left_over == 0),
        ("refused: 2N - 1 cells", 1, cells == 2 * n - 1 && left_over == 0),
        ("refused: 2N cells but 1 to 7 bytes", 1, cells == 2 * n - 1 && left_over > 0),
    ]
}

/// The forms of a length: those that have no P.
pub fn forms(bytes: usize) -> Vec<Form> {
    vec![
        ("1: no cell", bytes == 0),
        ("1: bytes, but no whole cell", 0 < bytes && bytes < 8),
        ("1: one cell", bytes == 8),
        ("1: 2,048 cells", bytes == 8 * 2048),
        ("1: 65,536 cells", bytes == 8 * 65_536),
    ]
}

/// How many bytes of weights there are, for a block of n cells.
pub fn of_misfit(n: usize, bytes: usize) -> Vec<Case> {
    let (weights, left_over) = (bytes / 8, bytes % 8);
    let whole = |count| weights == count && left_over == 0;
    let mut cases = vec![
        ("refused: one weight too few", 1, whole(n - 1)),
        ("refused: one weight too many", 1, whole(n + 1)),
        ("refused: no weight", 1, whole(0)),
        ("refused: N/2 weights", 1, whole(n / 2)),
        ("refused: N/2 + 1 weights", 2, whole(n / 2 + 1)),
        ("refused: 2N weights", 1, whole(2 * n)),
        ("refused: 1,024 weights, or 2,048 at P 10", 1, whole(if n < 1024 { 1024 } else { 2048 })),
        ("refused: N weights but 1 to 7 bytes", 1, weights == n - 1 && left_over > 0),
    ];
    cases.extend(LEFT_OVER.map(|(case, count)| (case, 1, weights == n && left_over == count)));
    cases
}

/// Where the first loud sample stands, and what it is.
pub fn of_loud(samples: &[i64], place: usize) -> Vec<Case> {
    let (sample, last) = (samples[place], samples.len() - 1);
    let (below, above) = (sample == SAMPLES.0 - 1, sample == SAMPLES.1 + 1);
    let (first, between, last) = (place == 0, 0 < place && place < last, place == last);
    let quiet = |cell: i64| !Call::Smooth.is_loud(&[cell]);
    let low_four = i64::from(sample as i32);
    let two_more = low_four == sample && sample.unsigned_abs() >= 65_536;
    vec![
        ("refused: sample -32,769, the first", 1, below && first),
        ("refused: sample -32,769, one between", 2, below && between),
        ("refused: sample -32,769, the last", 1, below && last),
        ("refused: sample 32,768, the first", 1, above && first),
        ("refused: sample 32,768, one between", 2, above && between),
        ("refused: sample 32,768, the last", 1, above && last),
        ("refused: loud, and a later sample as well", 1, Call::Smooth.is_loud(&samples[place + 1..])),
        ("refused: loud at 256 or above", 9, place >= 256),
        ("refused: sample the least i64", 1, sample == i64::MIN),
        ("refused: sample the largest i64", 1, sample == i64::MAX),
        ("refused: a sample in the low two of four bytes", 1, two_more),
        ("refused: a sample in the low four bytes", 1, quiet(low_four)),
        ("refused: a sample modulo 2^31 - 1", 1, quiet(sample % ((1 << 31) - 1))),
    ]
}

/// Where the running sum of the magnitudes passes 32,767, by how much, and which other sums do not pass it.
pub fn of_weights(weights: &[i64], place: usize) -> Vec<Case> {
    let (weight, last, most) = (weights[place], weights.len() - 1, MOST as u128);
    let (before, total) = (magnitudes(&weights[..place]), magnitudes(weights));
    let by_one = magnitudes(&weights[..=place]) == most + 1;
    let between = 0 < place && place < last;
    let extreme = weights.iter().filter(|weight| [i64::MIN, i64::MAX].contains(weight)).count();
    let mut cases = vec![
        ("refused: passed at the first weight", 1, place == 0),
        ("refused: passed at a weight between", 2, between),
        ("refused: passed at the last weight", 1, place == last),
        ("refused: passed at 256 or above", 9, place >= 256),
        ("refused: passed by one at the first weight", 1, by_one && place == 0),
        ("refused: passed by one at a weight between", 2, by_one && between),
        ("refused: passed by one at the last weight", 1, by_one && place == last),
        ("refused: passed by one, 32,767 reached before", 1, by_one && before == most),
        ("refused: passed, and again at a later weight", 1, magnitudes(&weights[place + 1..]) > most),
        ("refused: weight 32,768", 1, weight == MOST + 1),
        ("refused: weight -32,768", 1, weight == -MOST - 1),
        ("refused: weight the least i64", 1, weight == i64::MIN),
        ("refused: weight the largest i64", 1, weight == i64::MAX),
        ("refused: several weights at the ends of i64", 1, extreme > 1),
        ("refused: no weight beyond 32,767", 1, weights.iter().all(|weight| weight.unsigned_abs() <= MOST as u64)),
    ];
    cases.extend(of_other_sums(weights, total));
    cases
}

/// Sums that do not pass 32,767: signed ones, and such as leave off a part.
fn of_other_sums(weights: &[i64], total: u128) -> Vec<Case> {
    let most = MOST as u128;
    let mut sums = vec![0_i128];
    sums.extend(weights.iter().scan(0, |sum, weight| {
        *sum += i128::from(*weight);
        Some(*sum)
    }));
    let within = |sum: i128| sum.unsigned_abs() <= most;
    let rests = |by: u64| weights.iter().map(|weight| u128::from(weight.unsigned_abs() % by)).sum::<u128>() <= most;
    vec![
        ("refused: the signed sum within the limit", 1, within(sums[weights.len()])),
        ("refused: each signed running sum within the limit", 1, sums.iter().all(|sum| within(*sum))),
        ("refused: within the limit by the low two bytes", 1, rests(1 << 16)),
        ("refused: within the limit by the low four bytes", 1, rests(1 << 32)),
        ("refused: within the limit modulo 2^31 - 1", 1, rests((1 << 31) - 1)),
        ("refused: a sum within the limit modulo 2^32", 1, total % (1 << 32) <= most),
        ("refused: a sum within the limit modulo 2^64", 1, total % (1 << 64) <= most),
    ]
}
