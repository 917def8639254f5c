//! Words (document 02, Item 5): the four places that a sample can have in a word, as cases of the fetch and as inputs.
//! Each case must have been seen at every P from 2 on; a block of two samples is less than a word.

use crate::cases::Case;
use crate::compare::Comparison;
use crate::traces;

const LEAST: i64 = -32_768;
const LARGEST: i64 = 32_767;

/// For each place of a word, what the sample there can be.
const CASES: [[&str; 4]; 4] = [
    [
        "first of a word: least", "first of a word: largest", "first of a word: alone below 0",
        "first of a word: alone not below 0",
    ],
    [
        "second of a word: least", "second of a word: largest", "second of a word: alone below 0",
        "second of a word: alone not below 0",
    ],
    [
        "third of a word: least", "third of a word: largest", "third of a word: alone below 0",
        "third of a word: alone not below 0",
    ],
    [
        "fourth of a word: least", "fourth of a word: largest", "fourth of a word: alone below 0",
        "fourth of a word: alone not below 0",
    ],
];

/// A sample, and the one at all other places.
const APART: [(i64, i64); 8] =
    [(LEAST, LARGEST), (LARGEST, LEAST), (-1, 0), (0, -1), (1, LEAST), (LEAST, 0), (-256, 255), (255, -256)];

/// The cases of a block that is fetched.
pub fn cases(samples: &[i64]) -> Vec<Case> {
    let words: Vec<&[i64]> = samples.chunks_exact(4).collect();
    let shown = |is: &dyn Fn(&[i64]) -> bool| words.iter().any(|word| is(word));
    let alone = |word: &[i64], place: usize, below: bool| (0..4).all(|j| (word[j] < 0) == ((j == place) == below));
    let mut cases = Vec::new();
    for (place, [least, largest, below, not_below]) in CASES.into_iter().enumerate() {
        cases.push((least, 2, shown(&|word| word[place] == LEAST)));
        cases.push((largest, 2, shown(&|word| word[place] == LARGEST)));
        cases.push((below, 2, shown(&|word| alone(word, place, true))));
        cases.push((not_below, 2, shown(&|word| alone(word, place, false))));
    }
    cases
}

/// Blocks in which one sample differs from all others, in the first or the last word: fetched, and listed.
pub fn words(c: &mut Comparison) {
    for p in 1..=10 {
        let n = 1 << p;
        for place in (0..n).filter(|place| *place < 4 || *place + 4 >= n) {
            for (its, others) in APART {
                let mut samples = vec![others; n];
                samples[place] = its;
                let trace = traces::bytes(&[traces::head(8000, p), traces::block(&samples), traces::end()]);
                let cells = c.random.bytes(8 << p);
                c.fetch("one sample apart", &trace, 0, &cells);
                if c.random.once_in(8) {
                    c.list("one sample apart", &trace);
                }
            }
        }
    }
}
