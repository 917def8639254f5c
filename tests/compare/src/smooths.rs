//! Inputs of smoothing (document 02, Item 7): samples and weights of many shapes, weights at their limit, and the
//! largest results.

use crate::call::SAMPLES;
use crate::compare::Comparison;
use crate::inputs::{bytes_of, shaped, LENGTHS};
use crate::refused_smooths;
use crate::smooth_cases::MOST;
use crate::weights::{self, adding_to, alone, mirrored, places, reaching};

/// The shapes of the samples. Their count and that of the weights' shapes have no factor in common, so that side by
/// side, each begun again at its end, they make every pair.
const SHAPES: [&str; 11] = [
    "full range", "up to 100", "all lowest", "all highest", "either limit", "single cell", "up to 1", "alternating",
    "ramp", "signs of cas", "zeros",
];

/// One sign, the other, and either.
pub const SIGNS: [&[i64]; 3] = [&[1], &[-1], &[1, -1]];

// One round: pairs of shapes at each P. For a block that is taken the second program adds N × N products, so that of
// the longest there are few.
const PAIRS: [usize; 10] = [429, 429, 429, 429, 429, 286, 286, 143, 78, 39];

pub fn smooths(c: &mut Comparison) {
    for n in LENGTHS {
        pairs(c, n);
        single_weights(c, n);
        weights_alike(c, n);
        at_the_limit(c, n);
        largest_results(c, n);
        small_results(c, n);
        parities(c, n);
        single_samples(c, n);
    }
    every_block(c, 2, 2);
    every_block(c, 4, 1);
    for n in [2, 4, 8, 16, 32] {
        every_pair_of_moments(c, n);
    }
    refused_smooths::refused(c);
}

pub fn smooth(c: &mut Comparison, sort: &'static str, samples: &[i64], weights: &[i64]) {
    c.smooth(sort, &bytes_of(samples), &bytes_of(weights));
}

/// Samples and weights of every shape.
fn pairs(c: &mut Comparison, n: usize) {
    let start = c.random.below(SHAPES.len() * weights::SHAPES.len());
    for i in start..start + PAIRS[n.ilog2() as usize - 1] {
        let shape = weights::SHAPES[i % weights::SHAPES.len()];
        let samples = shaped(SHAPES[i % SHAPES.len()], n, SAMPLES, &mut c.random);
        let its_weights = weights::shaped(shape, n, &mut c.random);
        smooth(c, shape, &samples, &its_weights);
    }
}

/// One weight at every moment, up to P = 5, and then at some: with each value, or from P = 8 on with one after the
/// other.
fn single_weights(c: &mut Comparison, n: usize) {
    let any = [(); 2].map(|()| c.random.below(n));
    let some = [0, 1, 2, n / 2 - 1, n / 2, n / 2 + 1, n - 2, n - 1, any[0], any[1]];
    let moments = if n <= 32 { (0..n).collect() } else { some.to_vec() };
    for (i, moment) in moments.into_iter().enumerate() {
        let values = [1, MOST, -1, -MOST, c.random.between(-MOST, MOST)];
        for value in if n <= 128 { &values[..] } else { &values[i % 5..i % 5 + 1] } {
            let samples = shaped("full range", n, SAMPLES, &mut c.random);
            smooth(c, "one weight at a moment", &samples, &alone(n, moment, *value));
        }
    }
}

/// All weights alike, small and as large as can be.
fn weights_alike(c: &mut Comparison, n: usize) {
    for value in [1, -1, MOST / n as i64, -MOST / n as i64] {
        let samples = shaped("full range", n, SAMPLES, &mut c.random);
        smooth(c, "all weights alike", &samples, &vec![value; n]);
    }
}

/// Magnitudes that add to 32,767, or to one less: at the first, at the last and at a weight between.
fn at_the_limit(c: &mut Comparison, n: usize) {
    for place in places(n, &mut c.random) {
        for signs in SIGNS {
            for total in [MOST, MOST - 1] {
                let shape = c.random.pick(&["full range", "either limit"]);
                let samples = shaped(shape, n, SAMPLES, &mut c.random);
                let its_weights = reaching(total, n, place, signs, &mut c.random);
                smooth(c, "at the limit of weights", &samples, &its_weights);
            }
        }
    }
}

/// The least sample everywhere, with weights of one sign that reach the limit. The same with some weights 0 and, where
/// no weight meets them at a chosen moment, the largest sample. And one sample with one weight.
fn largest_results(c: &mut Comparison, n: usize) {
    let sort = "largest results";
    for sign in [1, -1] {
        let its_weights = adding_to(MOST, n, &[sign], &mut c.random);
        smooth(c, sort, &vec![SAMPLES.0; n], &its_weights);
        let (place, moment) = (c.random.below(n), c.random.below(n));
        let mut some: Vec<i64> = its_weights.iter().map(|weight| weight * c.random.pick(&[0, 1])).collect();
        some[place] = 0;
        some[place] = sign * (MOST - some.iter().sum::<i64>().abs());
        let meets = |u: usize| some[(n + moment - u) % n] != 0;
        let samples: Vec<i64> = (0..n).map(|u| if meets(u) { SAMPLES.0 } else { SAMPLES.1 }).collect();
        smooth(c, sort, &samples, &some);
        for sample in [SAMPLES.0, SAMPLES.1] {
            let [u, k] = [(); 2].map(|()| c.random.below(n));
            smooth(c, sort, &alone(n, u, sample), &alone(n, k, sign * MOST));
        }
    }
}

/// Results of 0, of samples alike by two weights that cancel each other; and of 1 and -1, the differences of samples
/// that rise by one each.
fn small_results(c: &mut Comparison, n: usize) {
    let (sample, any) = (c.random.between(1, SAMPLES.1), c.random.between(1, MOST / 2));
    for weight in [any, MOST / 2] {
        let (k, apart) = (c.random.below(n), 1 + c.random.below(n - 1));
        let mut its_weights = alone(n, k, weight);
        its_weights[(k + apart) % n] = -weight;
        smooth(c, "small results", &vec![sample; n], &its_weights);
    }
    let low = c.random.between(2, SAMPLES.1 - n as i64);
    let rising: Vec<i64> = (0..n as i64).map(|t| low + t).collect();
    for sign in [1, -1] {
        let mut its_weights = alone(n, 0, sign);
        its_weights[1] = -sign;
        smooth(c, "small results", &rising, &its_weights);
    }
}

/// Samples and weights that are even, odd and neither. These samples can be weights, and so are exchanged with them.
fn parities(c: &mut Comparison, n: usize) {
    for turn in 0..9 {
        let [samples, its_weights] = [turn / 3, turn % 3].map(|parity| match parity {
            0 => mirrored(n, 1, &mut c.random),
            1 => mirrored(n, -1, &mut c.random),
            _ => adding_to(MOST, n, &[1, -1], &mut c.random),
        });
        smooth(c, "even, odd and neither", &samples, &its_weights);
    }
}

/// One sample at a limit, and none, with weights that are not 0 and with such as are.
fn single_samples(c: &mut Comparison, n: usize) {
    for sample in [SAMPLES.0, SAMPLES.1, 0] {
        for shape in ["to the limit", "no weights"] {
            let place = c.random.below(n);
            let its_weights = weights::shaped(shape, n, &mut c.random);
            smooth(c, "one sample or none", &alone(n, place, sample), &its_weights);
        }
    }
}

/// Every block of small samples, with all such weights.
fn every_block(c: &mut Comparison, n: usize, most: i64) {
    let different = 2 * most + 1;
    for number in 0..different.pow(2 * n as u32) {
        let digit = |place| number / different.pow(place) % different - most;
        let cells: Vec<i64> = (0..2 * n as u32).map(digit).collect();
        smooth(c, "every small block", &cells[..n], &cells[n..]);
    }
}

/// One sample at every moment, with one weight at every moment.
fn every_pair_of_moments(c: &mut Comparison, n: usize) {
    for pair in 0..n * n {
        let sample = c.random.between(SAMPLES.0, SAMPLES.1);
        let weight = c.random.pick(&[1, -1, MOST, -MOST]);
        smooth(c, "every pair of moments", &alone(n, pair / n, sample), &alone(n, pair % n, weight));
    }
}
