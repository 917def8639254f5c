//! Blocks of samples and spectra, within the limits and outside them.

use crate::call::LINES;
use crate::random::Random;

/// The permitted lengths, for P from 1 to 10.
pub const LENGTHS: [usize; 10] = [2, 4, 8, 16, 32, 64, 128, 256, 512, 1024];

/// The shapes of a block. Those that stand here twice come twice as often.
pub const SHAPES: [&str; 15] = [
    "full range", "signs of cas", "up to 100", "all lowest", "either limit", "single cell", "full range",
    "unit of halves", "signs of cas", "up to 1", "all highest", "alternating", "ramp", "pair of halves", "zeros",
];

/// A cosine and a sine of 23,170, an eighth of a turn on, make a half of an odd multiple of 8,192 (document 01 works
/// 8,192 × 23,170 by hand). A cell of an odd multiple of 4,096 brings it to level 3 twice. So do two cells half a block
/// apart whose difference is such, to level 3, or whose sum is such, to level 4.
const UNIT: i64 = 4096;

/// A block of n cells of the named shape, each from low to high.
pub fn shaped(shape: &str, n: usize, (low, high): (i64, i64), random: &mut Random) -> Vec<i64> {
    let place = random.below(n.max(1));
    let any = random.between(low, high);
    let single = random.pick(&[1, -1, low, high, any]);
    let step = random.between(-high / 64, high / 64);
    let (more, less) = random.pick(&[(high, low), (low, high)]);
    let unit = odd_multiple(UNIT, high, random);
    let part = odd_multiple(UNIT / 2, high / 4, random);
    let partner = random.pick(&[UNIT - part, part - UNIT]);
    let mut cells = Vec::new();
    for t in 0..n {
        cells.push(match shape {
            "full range" => random.between(low, high),
            "up to 100" => random.between(-100, 100),
            "up to 1" => random.between(-1, 1),
            "all lowest" => low,
            "all highest" => high,
            "either limit" => random.pick(&[low, high]),
            "single cell" if t == place => single,
            "unit of halves" if t == place => unit,
            "pair of halves" if t == place => part,
            "pair of halves" if t == (place + n / 2) % n => partner,
            "ramp" => (any + step * t as i64).clamp(low, high),
            "alternating" if t % 2 == 0 => more,
            "alternating" => less,
            "signs of cas" if cas(place * t * 1024 / n) >= 0 => more,
            "signs of cas" => less,
            _ => 0,
        });
    }
    cells
}

/// An odd multiple of a unit, above or below zero, of at most so much.
fn odd_multiple(unit: i64, most: i64, random: &mut Random) -> i64 {
    let odd = 2 * random.between(0, (most / unit - 1) / 2) + 1;
    random.pick(&[1, -1]) * odd * unit
}

/// The same cells with every sign reversed; a byte left over stays.
pub fn negated(bytes: &[u8]) -> Vec<u8> {
    let mut negative: Vec<i64> = cells_of(bytes);
    for cell in &mut negative {
        *cell = cell.wrapping_neg();
    }
    let mut negative = bytes_of(&negative);
    negative.extend_from_slice(&bytes[negative.len()..]);
    negative
}

/// Cosine plus sine after j of a turn's 1,024 steps. Samples of its sign make a line as large as it can be.
pub fn cas(j: usize) -> i64 {
    let j = (j % 1024) as i64;
    oracle::table_cosine(j) + oracle::table_cosine((j + 768) % 1024)
}

/// Puts values outside the limits into one to four cells.
pub fn make_loud(cells: &mut [i64], (low, high): (i64, i64), random: &mut Random) {
    for _ in 0..random.between(1, 4) {
        let far = random.between(high + 1, i64::MAX);
        let value = random.pick(&[low - 1, high + 1, i64::MIN, i64::MAX, far, -far]);
        if !cells.is_empty() {
            cells[random.below(cells.len())] = value;
        }
    }
}

/// A spectrum of n cells: the first and the middle one as given, the others in pairs that mirror each other, which
/// are in turn alike below zero, alike above it, of either sign, and both zero; so that most parts are zero.
pub fn mirrored(n: usize, [first, middle]: [i64; 2], turn: usize, random: &mut Random) -> Vec<i64> {
    let mut spectrum = vec![0; n];
    (spectrum[0], spectrum[n / 2]) = (first, middle);
    for v in 1..n / 2 {
        let any = random.between(1, LINES.1);
        let size = random.pick(&[1, LINES.1, any]);
        let signs = [[-1, -1], [1, -1], [1, 1], [-1, 1], [0, 0]][(v + turn) % 5];
        [spectrum[v], spectrum[n - v]] = signs.map(|sign| sign * size);
    }
    spectrum
}

/// The bytes of a block for n cells, with and without each fault: wrong length, bytes left over, loud cells.
pub fn several_faults(n: usize, limits: (i64, i64), random: &mut Random) -> Vec<u8> {
    let any = random.below(1100);
    let count = random.pick(&[n, n, n, any]);
    let mut cells = shaped("full range", count, limits, random);
    if random.once_in(2) {
        make_loud(&mut cells, limits, random);
    }
    let mut bytes = bytes_of(&cells);
    if random.once_in(4) {
        let left_over = random.below(8);
        bytes.extend(random.bytes(left_over));
    }
    bytes
}

/// An output for a block of n cells, with and without a misfit.
pub fn any_output(n: usize, random: &mut Random) -> Vec<u8> {
    let fit = 8 * (n / 2 + 1);
    let near = fit + 9 - random.below(19);
    let any = random.below(1100);
    let count = random.pick(&[fit, fit, near, 8 * any]);
    random.bytes(count)
}

/// A line of a block of n cells.
pub fn any_line(n: usize, random: &mut Random) -> u64 {
    let half = n as u64 / 2;
    let any = random.below(n / 2 + 1) as u64;
    random.pick(&[0, half, any, any])
}

/// Lines above N/2: the next ones, those of longer blocks, and such as look like a line where a part of the number is
/// left off.
pub fn lines_above(n: usize, random: &mut Random) -> Vec<u64> {
    let half = n as u64 / 2;
    let v = random.below(n / 2 + 1) as u64;
    let near = [half + 1, half + 2, 2 * half, 2 * half + 1, 2 * half + v, 4 * half, 513, 1024, 1025];
    let cut = [8, 16, 31, 32, 48, 53, 56, 60, 61, 62, 63].map(|digits| (1 << digits) + v);
    let whole = [1 << 32, (1 << 56) - 1, 1 << 56, (1 << 63) - 1, 1 << 63, u64::MAX - 1, u64::MAX, u64::MAX - v];
    let mut lines = [&near[..], &cut, &whole, &[random.next()]].concat();
    lines.retain(|&line| line > half);
    lines
}

pub fn any_line_above(n: usize, random: &mut Random) -> u64 {
    let lines = lines_above(n, random);
    random.pick(&lines)
}

/// Cells as bytes, least byte first.
pub fn bytes_of(cells: &[i64]) -> Vec<u8> {
    let mut bytes = Vec::new();
    for cell in cells {
        bytes.extend_from_slice(&cell.to_le_bytes());
    }
    bytes
}

/// Bytes as cells, least byte first.
pub fn cells_of(bytes: &[u8]) -> Vec<i64> {
    let mut cells = Vec::new();
    for eight in bytes.chunks_exact(8) {
        cells.push(i64::from_le_bytes(eight.try_into().expect("eight bytes")));
    }
    cells
}
