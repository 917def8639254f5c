//! Inputs of smoothing (document 02, Item 7) that are refused: by each number, alone and with others.

use crate::call::SAMPLES;
use crate::compare::Comparison;
use crate::inputs::{bytes_of, make_loud, shaped, LENGTHS};
use crate::random::Random;
use crate::smooth_cases::MOST;
use crate::smooths::{smooth, SIGNS};
use crate::weights::{self, adding_to, heavy, make_heavy, places, reaching};

/// Two weights that are beyond the limit together. The sums of some wrap round, and the signed sums of others are
/// small.
const TWO: [[i64; 2]; 18] = [
    [i64::MIN, i64::MIN],
    [i64::MAX, i64::MAX],
    [i64::MIN, i64::MAX],
    [i64::MAX, i64::MIN + 1],
    [1 << 62, 1 << 62],
    [1 << 31, 1 << 31],
    [1 << 31, -(1 << 31)],
    [(1 << 31) - 1, (1 << 31) - 1],
    [1 << 15, 1 << 15],
    [1 << 15, -(1 << 15)],
    [20_000, -20_000],
    [-20_000, 20_000],
    [MOST, MOST],
    [MOST, 1],
    [MOST, -1],
    [-MOST, -1],
    [1, MOST],
    [1, -MOST],
];

// One round: inputs of each choice of faults, and inputs with several.
const CHOICES: usize = 4;
const SEVERAL: usize = 6000;

pub fn refused(c: &mut Comparison) {
    for n in LENGTHS {
        loud_samples(c, n);
        one_beyond(c, n);
        heavy_weights(c, n);
        numbers_of_weights(c, n);
        for choice in 0..16 * CHOICES {
            with_faults(c, "every choice of faults", n, [1, 2, 4, 8].map(|fault| choice & fault != 0));
        }
    }
    lengths(c);
    several(c);
}

/// Samples of any size, which are taken, with these weights.
fn by_weights(c: &mut Comparison, sort: &'static str, its_weights: &[i64]) {
    let samples = shaped("full range", its_weights.len(), SAMPLES, &mut c.random);
    smooth(c, sort, &samples, its_weights);
}

/// One loud sample, or one and a later one: at a limit, far outside, and such as are samples where a part is left off,
/// or modulo 2^31 - 1. At times the weights are heavy as well.
fn loud_samples(c: &mut Comparison, n: usize) {
    let low = c.random.between(SAMPLES.0, SAMPLES.1);
    let cut = [16, 17, 24, 30, 32, 33, 48, 62].map(|digits| (1 << digits) + low);
    let outside = [SAMPLES.0 - 1, SAMPLES.1 + 1, i64::MIN, i64::MAX, -65_536 * 5 + low, i64::MIN + 32_768 + low];
    for sample in [&cut[..], &outside, &[low + (1 << 31) - 1, low - (1 << 31) + 1]].concat() {
        for place in places(n, &mut c.random) {
            let mut samples = shaped("full range", n, SAMPLES, &mut c.random);
            samples[place + c.random.below(n - place)] = sample;
            samples[place] = sample;
            let mut its_weights = weights::shaped("to the limit", n, &mut c.random);
            if c.random.once_in(3) {
                make_heavy(&mut its_weights, &mut c.random);
            }
            smooth(c, "loud sample", &samples, &its_weights);
        }
    }
}

/// Magnitudes that add to 32,768 at the first, at the last and at a weight between. The weights after it are 0; or any;
/// or one of them brings the signed sum back to 0. Or 32,767 is reached before, and one weight adds 1.
fn one_beyond(c: &mut Comparison, n: usize) {
    let sort = "one beyond the limit of weights";
    for place in places(n, &mut c.random) {
        for signs in SIGNS {
            let mut its_weights = reaching(MOST + 1, n, place, signs, &mut c.random);
            by_weights(c, sort, &its_weights);
            let back = -its_weights.iter().sum::<i64>();
            if place < n - 1 {
                let after = place + 1 + c.random.below(n - place - 1);
                its_weights[after] = back;
                by_weights(c, sort, &its_weights);
                for weight in &mut its_weights[place + 1..] {
                    *weight = c.random.pick(&[0, 1, -1, back, i64::MIN, i64::MAX]);
                }
                by_weights(c, sort, &its_weights);
                let mut its_weights = reaching(MOST, n, place, signs, &mut c.random);
                its_weights[after] = c.random.pick(&[1, -1]);
                by_weights(c, sort, &its_weights);
            }
        }
    }
}

/// A weight beyond the limit by itself, at the first place, at the last and at one between; two that are so together;
/// and many.
fn heavy_weights(c: &mut Comparison, n: usize) {
    for weight in heavy(&mut c.random) {
        for place in places(n, &mut c.random) {
            let mut its_weights = few_more(c, n);
            its_weights[place] = weight;
            by_weights(c, "heavy weight", &its_weights);
        }
    }
    for [first, second] in TWO {
        let place = c.random.below(n - 1);
        let later = place + 1 + c.random.below(n - place - 1);
        let mut its_weights = few_more(c, n);
        (its_weights[place], its_weights[later]) = (first, second);
        by_weights(c, "heavy together, two", &its_weights);
    }
    for _ in 0..4 {
        let total = c.random.between(MOST + 1, 4 * MOST);
        let its_weights = adding_to(total, n, &[1, -1], &mut c.random);
        by_weights(c, "heavy together", &its_weights);
    }
}

/// Weights of 0, or small ones.
fn few_more(c: &mut Comparison, n: usize) -> Vec<i64> {
    let total = c.random.pick(&[0, 0, 10]);
    adding_to(total, n, &[1, -1], &mut c.random)
}

/// Weights of every count up to twice the right one, of odd bytes, of the longest block and huge: zeros, or any bytes;
/// and samples that are right, or loud.
fn numbers_of_weights(c: &mut Comparison, n: usize) {
    let right = 8 * n;
    let counts = (0..=2 * right).step_by(8).chain(right - 9..=right + 9);
    for count in counts.chain([8 * 1024, 8 * 1024 + 1, 8 * 2048, 8 * 65_536]).filter(|count| *count != right) {
        let mut samples = shaped("up to 100", n, SAMPLES, &mut c.random);
        if c.random.once_in(4) {
            make_loud(&mut samples, SAMPLES, &mut c.random);
        }
        let its_weights = if c.random.once_in(2) { vec![0; count] } else { c.random.bytes(count) };
        c.smooth("other number of weights", &bytes_of(&samples), &its_weights);
    }
}

/// A count of cells, and of bytes left over, that is no permitted length, at times near n.
fn wrong_length(n: usize, random: &mut Random) -> (usize, usize) {
    let (any, left_over) = (random.pick(&[0, 1, 3, 5, 6, 7, 12, 100, 1000, 1025, 2048]), 1 + random.below(7));
    random.pick(&[
        (n + 1, 0),
        (3 * n, 0),
        (2 * n - 1, 0),
        (any, 0),
        (n, left_over),
        (n - 1, left_over),
        (any, left_over),
    ])
}

/// A count of weights, and of bytes left over, that is not so many.
fn wrong_count(n: usize, random: &mut Random) -> (usize, usize) {
    let (more, less, left_over) = (1 + random.below(3), n.saturating_sub(1), 1 + random.below(7));
    random.pick(&[(n + more, 0), (n + 1024, 0), (2 * n + 1, 0), (n, left_over), (less, left_over), (n / 2, left_over)])
}

/// An input of this length with these faults, and no other: length, number of weights, loud samples, heavy weights.
/// Where there is no sample, or no weight, none is loud or heavy.
fn with_faults(c: &mut Comparison, sort: &'static str, n: usize, [length, misfit, loud, heavy]: [bool; 4]) {
    let (count, left_over) = if length { wrong_length(n, &mut c.random) } else { (n, 0) };
    let mut samples = shaped("full range", count, SAMPLES, &mut c.random);
    if loud {
        make_loud(&mut samples, SAMPLES, &mut c.random);
    }
    let (count, over) = if misfit { wrong_count(count, &mut c.random) } else { (count, 0) };
    let mut its_weights = weights::shaped("any weights", count, &mut c.random);
    if heavy {
        make_heavy(&mut its_weights, &mut c.random);
    }
    let cells = [bytes_of(&samples), c.random.bytes(left_over)].concat();
    let its_weights = [bytes_of(&its_weights), c.random.bytes(over)].concat();
    c.smooth(sort, &cells, &its_weights);
}

/// Any choice of the faults, up to P = 7.
fn several(c: &mut Comparison) {
    for _ in 0..SEVERAL {
        let n = c.random.pick(&LENGTHS[..7]);
        let faults = [6, 4, 4, 3].map(|count| c.random.once_in(count));
        with_faults(c, "several faults", n, faults);
    }
}

/// Wrong lengths, with as many weights and with another number; and bytes left over or lacking around every permitted
/// length and the next, with the weights of that length and with as many bytes.
fn lengths(c: &mut Comparison) {
    for count in (0..600).chain([1022, 1023, 1024, 1025, 2047, 2048, 2049, 4096, 65_536]) {
        let samples = shaped("full range", count, SAMPLES, &mut c.random);
        for count in [count, c.random.pick(&LENGTHS[..5])] {
            let its_weights = weights::shaped("any weights", count, &mut c.random);
            smooth(c, "length", &samples, &its_weights);
        }
    }
    for n in LENGTHS.into_iter().chain([2048]) {
        let samples = bytes_of(&shaped("up to 100", n + 1, SAMPLES, &mut c.random));
        let its_weights = bytes_of(&weights::shaped("any weights", n, &mut c.random));
        for count in (8 * n - 7..=8 * n + 7).filter(|count| *count != 8 * n) {
            c.smooth("bytes left over", &samples[..count], &its_weights);
            c.smooth("bytes left over", &samples[..count], &samples[..count]);
        }
    }
}
