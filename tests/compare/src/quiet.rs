//! Quiet blocks (document 02, Item 6): the largest magnitude M of a block, as cases of forward and bound and as inputs.
//! Each case must have been seen at every P that has it.

use crate::call::Call;
use crate::cases::Case;
use crate::compare::Comparison;
use crate::inputs::{bytes_of, cas, LENGTHS};
use crate::random::Random;
use oracle::{bound_at, largest_magnitude};

/// The M whose largest distances are kept, with the names of their cases.
pub const QUIET: [(&str, u64); 5] = [("M 0", 0), ("M 1", 1), ("M 2", 2), ("M 99", 99), ("M 100", 100)];

/// The shapes of a quiet block. Those that name a cell or a half have M there alone. Zeros have one shape, the first.
const SHAPES: [&str; 10] = [
    "quiet, M anywhere", "quiet, M at a cell", "quiet, M at the first cell", "quiet, M at the last cell",
    "quiet, M in the first half", "quiet, M in the second half", "quiet, signs of cas", "quiet, alternating",
    "quiet, either sign", "quiet, all alike",
];

// One round: blocks of each P, M and shape.
const BLOCKS: usize = 4;

/// The cases of a block that is taken.
pub fn cases(samples: &[i64]) -> Vec<Case> {
    let (p, m) = (samples.len().ilog2(), largest_magnitude(samples));
    let mut cases: Vec<Case> = QUIET.iter().map(|(case, its)| (*case, 1, m == *its)).collect();
    cases.extend(of_limits(p, m));
    cases.extend(of_places(p, samples));
    cases
}

/// The largest M that there are, and those between which the bound has a step.
fn of_limits(p: u32, m: u64) -> Vec<Case> {
    vec![
        ("M 32,767", 1, m == 32_767),
        ("M 32,768", 1, m == 32_768),
        ("M above 0, the last of its bound", 3, m > 0 && bound_at(p, m) < bound_at(p, m + 1)),
        ("M above 1, the first of its bound", 3, m > 1 && bound_at(p, m - 1) < bound_at(p, m)),
    ]
}

/// Which part of the samples has M alone. Where bounds differ, from P = 3 on, that of the rest is smaller.
fn of_places(p: u32, samples: &[i64]) -> Vec<Case> {
    let alone = |part: u64, rest: u64| part > rest && (p < 3 || bound_at(p, part) > bound_at(p, rest));
    let (positive, others): (Vec<i64>, Vec<i64>) = samples.iter().partition(|sample| **sample > 0);
    let cut = |at: usize| [&samples[..at], &samples[at..]].map(largest_magnitude);
    let [above, below] = [positive, others].map(|part| largest_magnitude(&part));
    let [first_cell, after_it] = cut(1);
    let [before_it, last_cell] = cut(samples.len() - 1);
    let [first_half, second_half] = cut(samples.len() / 2);
    vec![
        ("M by positive samples alone", 1, alone(above, below)),
        ("M by negative samples alone", 1, alone(below, above)),
        ("M in the first cell alone", 1, alone(first_cell, after_it)),
        ("M in the last cell alone", 1, alone(last_cell, before_it)),
        ("M in the first half alone", 1, alone(first_half, second_half)),
        ("M in the second half alone", 1, alone(second_half, first_half)),
    ]
}

/// Quiet blocks of every P, M and shape, and blocks at the steps of the bound, which it has from P = 3 on; each with
/// its negative.
pub fn blocks(c: &mut Comparison) {
    for n in LENGTHS {
        for (_, m) in QUIET {
            every_shape(c, n, m as i64);
        }
    }
    for n in &LENGTHS[2..] {
        steps(c, *n);
    }
}

fn every_shape(c: &mut Comparison, n: usize, m: i64) {
    let shapes = if m == 0 { &SHAPES[..1] } else { &SHAPES };
    for shape in shapes {
        for _ in 0..BLOCKS {
            let samples = quiet_block(shape, n, m, &mut c.random);
            c.signed_block(Call::Forward, shape, &bytes_of(&samples), &[]);
        }
    }
}

/// A block of n samples of the named shape, of which one at least is m and none is farther from 0.
fn quiet_block(shape: &str, n: usize, m: i64, random: &mut Random) -> Vec<i64> {
    let any = random.below(n);
    let places = match shape {
        "quiet, M at a cell" => any..any + 1,
        "quiet, M at the first cell" => 0..1,
        "quiet, M at the last cell" => n - 1..n,
        "quiet, M in the first half" => 0..n / 2,
        "quiet, M in the second half" => n / 2..n,
        _ => 0..n,
    };
    let place = places.start + random.below(places.len());
    let less = (m - 1).max(0);
    let mut samples = Vec::new();
    for t in 0..n {
        samples.push(match shape {
            "quiet, signs of cas" if cas(any * t * 1024 / n) >= 0 => m,
            "quiet, signs of cas" => -m,
            "quiet, alternating" => [m, -m][t % 2],
            "quiet, all alike" => m,
            _ if t == place => m,
            "quiet, either sign" => random.pick(&[m, -m]),
            _ if places.contains(&t) => random.between(-m, m),
            _ => random.between(-less, less),
        });
    }
    samples
}

/// Blocks whose M, times half the length, is a multiple of 32,768, and of the next M, where the bound is larger.
fn steps(c: &mut Comparison, n: usize) {
    let half = n as i64 / 2;
    let any = c.random.between(1, half - 1);
    for multiple in [1, any, half - 1] {
        let last = multiple * 32_768 / half;
        for m in [last, last + 1] {
            let samples = quiet_block("quiet, M at a cell", n, m, &mut c.random);
            c.signed_block(Call::Forward, "at a step of the bound", &bytes_of(&samples), &[]);
        }
    }
}
