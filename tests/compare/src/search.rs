//! Inputs of the two searches (document 02, Item 2): lists of powers of several sorts, with bands, chosen lines and
//! levels; and lists and lines that are refused.

use crate::call::{Call, SAMPLES};
use crate::compare::Comparison;
use crate::inputs::{any_line, any_line_above, bytes_of, cells_of, lines_above, shaped, LENGTHS, SHAPES};
use crate::random::Random;

/// The sorts of a list of powers. In all but "any powers" equals are frequent.
const SORTS: [&str; 5] = ["up to 2", "extreme", "either extreme", "any powers", "all alike"];

/// Powers side by side at zero and at both ends of their range.
const EXTREMES: [i64; 9] = [i64::MIN, i64::MIN + 1, -2, -1, 0, 1, 2, i64::MAX - 1, i64::MAX];

// One round: searches of each list, and lists with several faults.
const SEARCHES: usize = 30;
const SEVERAL: usize = 10_000;

pub fn searches(c: &mut Comparison) {
    for n in LENGTHS {
        of_spectra(c, n);
        for sort in SORTS {
            for _ in 0..4 {
                let powers = list(sort, n / 2 + 1, &mut c.random);
                search(c, sort, &powers);
            }
        }
        lines_that_reach(c, n);
        refused_lines(c, n);
    }
    for (n, different) in [(2, 3), (4, 3), (8, 3), (16, 2)] {
        every_list(c, n, different);
    }
    for n in [2, 4, 8, 16, 32, 64] {
        every_band(c, n);
    }
    lengths(c);
    several(c);
}

/// So many powers of the named sort.
fn list(sort: &str, count: usize, random: &mut Random) -> Vec<i64> {
    let alike = random.pick(&EXTREMES);
    let mut powers = Vec::new();
    for _ in 0..count {
        powers.push(match sort {
            "up to 2" => random.between(-2, 2),
            "extreme" => random.pick(&EXTREMES),
            "either extreme" => random.pick(&[i64::MIN, i64::MAX]),
            "any powers" => random.next() as i64,
            _ => alike,
        });
    }
    powers
}

/// A band in a list for a block of n cells, at times of one line or of all.
fn any_band(n: usize, random: &mut Random) -> [u64; 2] {
    let mut band = [any_line(n, random), any_line(n, random)];
    band.sort();
    band
}

/// A level: one of the powers, one more, one less, and the least and the largest of all.
fn any_level(powers: &[i64], random: &mut Random) -> i64 {
    let power = if powers.is_empty() { 0 } else { random.pick(powers) };
    let (less, more) = (power.saturating_sub(1), power.saturating_add(1));
    random.pick(&[less, power, power, more, more, i64::MIN, i64::MAX])
}

/// Any bands, chosen lines and levels of a list.
fn search(c: &mut Comparison, sort: &'static str, powers: &[i64]) {
    let (n, bytes) = (2 * (powers.len() - 1), bytes_of(powers));
    for _ in 0..SEARCHES {
        let [low, high] = any_band(n, &mut c.random);
        c.strongest(sort, &bytes, low, high);
        let (chosen, level) = (any_line(n, &mut c.random), any_level(powers, &mut c.random));
        c.nearest(sort, &bytes, chosen, level);
    }
}

/// Lists that power left, of what forward left.
fn of_spectra(c: &mut Comparison, n: usize) {
    for shape in SHAPES {
        let samples = bytes_of(&shaped(shape, n, SAMPLES, &mut c.random));
        let (_, lines) = c.signed_block(Call::Forward, shape, &samples, &[]);
        let output = c.random.bytes(8 * (n / 2 + 1));
        let (_, powers) = c.signed_block(Call::Power, "what forward left", &lines, &[output]);
        search(c, "what power left", &cells_of(&powers));
    }
}

/// So many different powers, in rising order.
fn rising(count: usize, random: &mut Random) -> Vec<i64> {
    let mut powers = EXTREMES.to_vec();
    while powers.len() > count {
        powers.remove(random.below(powers.len()));
    }
    powers
}

/// Every chosen line with every place, up to P = 6, and then some.
fn chosen_and_place(n: usize, random: &mut Random) -> Vec<[i64; 2]> {
    let lines = n / 2 + 1;
    if n <= 64 {
        return (0..lines * lines).map(|i| [i / lines, i % lines].map(|line| line as i64)).collect();
    }
    (0..300).map(|_| [any_line(n, random), any_line(n, random)].map(|line| line as i64)).collect()
}

/// Lists in which one line reaches the level; or two, the other as far from the chosen line on its other side, or a
/// step less or more, as far as the list goes.
fn lines_that_reach(c: &mut Comparison, n: usize) {
    let sort = "one or two that reach";
    for [chosen, place] in chosen_and_place(n, &mut c.random) {
        let mirror = 2 * chosen - place;
        for other in [place, mirror - 1, mirror, mirror + 1] {
            let values = rising(2, &mut c.random);
            let reaches = |line| usize::from(line == place || line == other);
            let powers: Vec<i64> = (0..=n as i64 / 2).map(|line| values[reaches(line)]).collect();
            let level = c.random.pick(&[values[0] + 1, values[1]]);
            c.nearest(sort, &bytes_of(&powers), chosen as u64, level);
            let [low, high] = any_band(n, &mut c.random);
            c.strongest(sort, &bytes_of(&powers), low, high);
        }
    }
}

/// Every list of two or three different powers, with every band, and with every chosen line at each of the powers.
fn every_list(c: &mut Comparison, n: usize, different: usize) {
    let lines = n / 2 + 1;
    for number in 0..different.pow(lines as u32) {
        let values = rising(different, &mut c.random);
        let digit = |line| number / different.pow(line as u32) % different;
        let powers = bytes_of(&(0..lines).map(|line| values[digit(line)]).collect::<Vec<i64>>());
        for line in 0..lines as u64 {
            for high in line..lines as u64 {
                c.strongest("every list", &powers, line, high);
            }
            for level in &values {
                c.nearest("every list", &powers, line, *level);
            }
        }
    }
}

/// Every low end with every high end, turned round and above N/2 as well.
fn every_band(c: &mut Comparison, n: usize) {
    let ends = n as u64 / 2 + 3;
    for sort in SORTS {
        let powers = bytes_of(&list(sort, n / 2 + 1, &mut c.random));
        for band in 0..ends * ends {
            c.strongest("every band", &powers, band / ends, band % ends);
        }
    }
}

/// Bands and chosen lines above N/2, and bands turned round.
fn refused_lines(c: &mut Comparison, n: usize) {
    let powers = list("up to 2", n / 2 + 1, &mut c.random);
    let bytes = bytes_of(&powers);
    for above in lines_above(n, &mut c.random) {
        let (line, other) = (any_line(n, &mut c.random), any_line_above(n, &mut c.random));
        for [low, high] in [[above, line], [line, above], [above, other], [other, above]] {
            c.strongest("line above N/2", &bytes, low, high);
        }
        let level = any_level(&powers, &mut c.random);
        c.nearest("line above N/2", &bytes, above, level);
    }
    for _ in 0..SEARCHES {
        let [low, high] = any_band(n, &mut c.random);
        c.strongest("band turned round", &bytes, high, low);
    }
}

/// Searches of bytes for a block of n cells, with lines that are right and with lines that are not.
fn right_and_wrong(c: &mut Comparison, sort: &'static str, powers: &[u8], n: usize) {
    let (band, above) = (any_band(n, &mut c.random), any_line_above(n, &mut c.random));
    for [low, high] in [band, [band[1], band[0]], [band[0], above], [above, band[1]]] {
        c.strongest(sort, powers, low, high);
    }
    for chosen in [band[0], above] {
        let level = any_level(&cells_of(powers), &mut c.random);
        c.nearest(sort, powers, chosen, level);
    }
}

/// Wrong lengths, and bytes left over or lacking around every permitted length.
fn lengths(c: &mut Comparison) {
    for count in (0..600).chain([1022, 1023, 1024, 1025, 2047, 2048, 2049, 4096, 65_536, 65_537]) {
        let powers = list("up to 2", count, &mut c.random);
        right_and_wrong(c, "length", &bytes_of(&powers), 2 * count.saturating_sub(1));
    }
    for n in LENGTHS {
        let right = 8 * (n / 2 + 1);
        let powers = c.random.bytes(right + 7);
        for count in right - 7..=right + 7 {
            right_and_wrong(c, "bytes left over", &powers[..count], n);
        }
    }
}

/// A line, at times above N/2.
fn line_or_above(n: usize, random: &mut Random) -> u64 {
    let (line, above) = (any_line(n, random), any_line_above(n, random));
    random.pick(&[line, line, above])
}

/// Lists, bands and chosen lines with and without each fault.
fn several(c: &mut Comparison) {
    for _ in 0..SEVERAL {
        let n = c.random.pick(&LENGTHS);
        let (right, any) = (n / 2 + 1, c.random.below(1100));
        let (sort, count) = (c.random.pick(&SORTS), c.random.pick(&[right, right, right, right, n, any]));
        let powers = list(sort, count, &mut c.random);
        let left_over = if c.random.once_in(8) { 1 + c.random.below(7) } else { 0 };
        let bytes = [bytes_of(&powers), c.random.bytes(left_over)].concat();
        let (low, high) = (line_or_above(n, &mut c.random), line_or_above(n, &mut c.random));
        c.strongest("several faults", &bytes, low, high);
        let (chosen, level) = (line_or_above(n, &mut c.random), any_level(&powers, &mut c.random));
        c.nearest("several faults", &bytes, chosen, level);
    }
}
