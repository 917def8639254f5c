//! Section "Levels": the tests of a block, the level rule, and the direct sum.

use crate::cosines::{fine_cas, table_cosine, table_sine, TURN};
use crate::refusal::{refuse_if, Refusal, LENGTH, LOUD};

/// "E for P = 1 to 10"; document 02, Item 6, has them follow from its bound.
pub const E: [u64; 10] = [0, 0, 5, 22, 72, 213, 598, 1_624, 4_317, 11_306];

/// Refusal 1: "block is not 2 to 1,024 cells and a power of two".
pub fn test_length(count: usize) -> Result<(), Refusal> {
    let right = (2..=1024).contains(&count) && count.is_power_of_two();
    refuse_if(!right, LENGTH, 0)
}

/// Refusal 3: a cell outside least to greatest; the place is the "first such cell".
fn test_loudness(cells: &[i64], least: i64, greatest: i64) -> Result<(), Refusal> {
    for (place, cell) in cells.iter().enumerate() {
        refuse_if(*cell < least || *cell > greatest, LOUD, place)?;
    }
    Ok(())
}

/// Refusal 3, "forward: a cell outside -32,768 to 32,767"; the same for saving and smoothing (document 02, Items 4 and
/// 7).
pub fn test_samples(cells: &[i64]) -> Result<(), Refusal> {
    test_loudness(cells, -32_768, 32_767)
}

/// Refusal 3, "any call that takes a spectrum: outside ±2^28"; the limits themselves pass.
pub fn test_spectrum(cells: &[i64]) -> Result<(), Refusal> {
    test_loudness(cells, -(1 << 28), 1 << 28)
}

/// "The forward spectrum is the cells after level P, with no division by N".
pub fn forward(cells: &[i64]) -> Result<Vec<i64>, Refusal> {
    test_length(cells.len())?;
    test_samples(cells)?;
    Ok(after_levels(cells))
}

/// "Backward: the same steps on a spectrum", then the division of each cell by N, which rounds as document 02 says.
pub fn backward(cells: &[i64]) -> Result<Vec<i64>, Refusal> {
    test_length(cells.len())?;
    test_spectrum(cells)?;
    let n = cells.len() as i64;
    let lines = after_levels(cells);
    Ok(lines.iter().map(|x| divided(*x, n)).collect())
}

/// Steps 1 and 2: permute, then "Level L, from 1 to P".
fn after_levels(cells: &[i64]) -> Vec<i64> {
    let p = cells.len().ilog2();
    let mut lines = permuted(cells, p);
    for level in 1..=p {
        lines = joined(&lines, level);
    }
    lines
}

/// "Permute: cell t goes to the place whose P binary digits are those of t reversed."
fn permuted(cells: &[i64], p: u32) -> Vec<i64> {
    let mut places = vec![0; cells.len()];
    for (t, cell) in cells.iter().enumerate() {
        places[reversed(t, p)] = *cell;
    }
    places
}

/// The place "whose P binary digits are those of t reversed".
fn reversed(t: usize, p: u32) -> usize {
    let mut left = t;
    let mut place = 0;
    for _ in 0..p {
        place = place * 2 + left % 2;
        left /= 2;
    }
    place
}

/// "Level L ... joins neighbouring halves a and b of n = 2^(L-1) cells"; the halves are read, a new list is written.
fn joined(cells: &[i64], level: u32) -> Vec<i64> {
    let n = 1 << (level - 1);
    let mut lines = Vec::with_capacity(cells.len());
    for halves in cells.chunks(2 * n) {
        let (a, b) = halves.split_at(n);
        for v in 0..2 * n {
            lines.push(a[v % n] + q(b, v));
        }
    }
    lines
}

/// "Q is b(v mod n) × C + b((n - (v mod n)) mod n) × S, divided by 32,768 with rounding", which is "taken on the sum of
/// both products".
fn q(b: &[i64], v: usize) -> i64 {
    divided(both_products(b, v), 32_768)
}

fn both_products(b: &[i64], v: usize) -> i64 {
    let n = b.len();
    let j = (v * TURN as usize / (2 * n)) as i64;
    let c = table_cosine(j);
    let s = table_sine(j);
    b[v % n] * c + b[(n - v % n) % n] * s
}

/// Document 02, Item 1: "The trade rounds halves away from zero, and so shall the level rounding and the backward
/// division".
fn divided(x: i64, by: i64) -> i64 {
    let whole = x / by; // towards zero
    let rest = x % by; // with the sign of x
    if 2 * rest.abs() >= by {
        whole + x.signum()
    } else {
        whole
    }
}

/// How many of the divisions meet a half, above zero and below it: those of the levels, and those of backward after them.
pub fn halves(cells: &[i64]) -> [[u64; 2]; 2] {
    let mut met = [[0, 0], [0, 0]];
    let p = cells.len().ilog2();
    let mut lines = permuted(cells, p);
    for level in 1..=p {
        let n = 1 << (level - 1);
        for halves in lines.chunks(2 * n) {
            for v in 0..2 * n {
                count_half(&mut met[0], both_products(&halves[n..], v), 32_768);
            }
        }
        lines = joined(&lines, level);
    }
    for line in lines {
        count_half(&mut met[1], line, cells.len() as i64);
    }
    met
}

fn count_half(met: &mut [u64; 2], x: i64, by: i64) {
    if 2 * (x % by).abs() == by {
        met[usize::from(x < 0)] += 1;
    }
}

/// "The direct sum of demand 3" for each line v of an accepted block, at scale 2^60.
pub fn direct(samples: &[i64]) -> Vec<i128> {
    let cas: Vec<i128> = (0..TURN).map(fine_cas).collect();
    (0..samples.len()).map(|v| direct_line(samples, v, &cas)).collect()
}

/// "the sum over t from 0 to N - 1 of sample(t) × cas(v × t × 1,024 / N mod 1,024), with fine cas"
fn direct_line(samples: &[i64], v: usize, cas: &[i128]) -> i128 {
    let step = 1024 / samples.len(); // 1,024 / N is whole
    let mut sum = 0;
    for (t, sample) in samples.iter().enumerate() {
        sum += i128::from(*sample) * cas[v * t * step % 1024];
    }
    sum
}

#[cfg(test)]
mod tests {
    use super::divided;

    #[test]
    fn rounding_worked_by_hand() {
        assert_eq!(divided(8_192 * 23_170, 32_768), 5_793);
        assert_eq!(divided(-8_192 * 23_170, 32_768), -5_793);
        let halves: Vec<i64> = (-7..=7).map(|x| divided(x, 2)).collect();
        assert_eq!(halves, [-4, -3, -3, -2, -2, -1, -1, 0, 1, 1, 2, 2, 3, 3, 4]);
        let quarters: Vec<i64> = (-7..=7).map(|x| divided(x, 4)).collect();
        assert_eq!(quarters, [-2, -2, -1, -1, -1, -1, 0, 0, 0, 1, 1, 1, 1, 2, 2]);
    }
}
