//! The samples that document 01 works by hand, and some of document 02, as far as the archive and the listing program
//! show them. The comparison finds both equal to the second program; here they are found equal to the papers' figures.

use crate::call::Call;
use crate::compare::Comparison;
use crate::double;
use crate::inputs::{bytes_of, cells_of};
use crate::report::{accepted, found, refused};
use crate::saving::Given;
use crate::tables;
use crate::traces::{bytes, end, head, record};

const SORT: &str = "worked sample";

/// The document's trace and its listing.
pub const TRACE: [u8; 32] = [
    0x06, 0x00, 0x00, 0x00, 0x01, 0x00, 0x40, 0x1F, 0x00, 0x00, 0x02, 0x00, 0x08, 0x00, 0x00, 0x00, 0x02, 0x00, 0x01,
    0x00, 0x02, 0x00, 0x03, 0x00, 0x04, 0x00, 0x00, 0x00, 0x00, 0x00, 0x04, 0x00,
];
const LISTING: &str = "trace 8000 4 1\n0 0 20 0 200\n0 1 -4 4 16\n0 2 -4 0 8\nend\n";

/// The powers of {0, 1, 0, 0, 0, 0, 0, 0}, whose spectrum is {1, 1, 1, 0, -1, -1, -1, 0}; and those of {1, 2, 3, 4}.
const CRUNCH: [i64; 5] = [2, 1, 2, 1, 2];
const FALLING: [i64; 3] = [200, 16, 8];

pub fn samples(c: &mut Comparison) {
    second_program();
    blocks(c);
    scaled_lines(c);
    refused_blocks(c);
    strongest_lines(c);
    nearest_lines(c);
    traces(c);
    disorders(c);
    fetches(c);
}

/// Saving (document 02, Item 4): "one head, the blocks and the end out, no notes".
pub fn saves(c: &mut Comparison) {
    save(c, [8000, 2], &[1, 2, 3, 4], &TRACE);
    save(c, [8000, 2], &[], &[&TRACE[..12], &TRACE[26..]].concat());
    let two = |low: [u8; 2], high: [u8; 2]| record(2, [low, high].concat());
    let blocks = [two([1, 0], [2, 0]), two([0, 0x80], [0xFF, 0x7F]), two([0xFF, 0xFF], [0, 1])];
    let three = bytes(&[&[head(u32::MAX, 1)][..], &blocks, &[end()]].concat());
    save(c, [u32::MAX.into(), 1], &[1, 2, -32_768, 32_767, -1, 256], &three);
    refused_saves(c);
}

/// "Checks: in this order 15 (place 0), 1 (cells not a whole number of blocks; zero blocks is fine), 3, 10 (result above
/// 65,536 bytes), 2 (lent bytes too few)."
fn refused_saves(c: &mut Comparison) {
    let over = 1 << 32;
    for (rate, p, cells, lent, answer) in [
        (0, 2, &[1, 2, 3, 4][..], 32, 15),
        (over, 2, &[1, 2, 3, 4], 32, 15),
        (over + 8000, 2, &[1, 2, 3, 4], 32, 15),
        (8000, 0, &[1], 32, 15),
        (8000, 11, &[0; 2048], 65_536, 15),
        (8000, over + 2, &[1, 2, 3, 4], 32, 15),
        (0, 2, &[1 << 40; 3], 0, 15), // 15 before 1, 3 and 2
        (8000, 2, &[1, 2, 3], 32, 1),
        (8000, 2, &[1 << 40; 5], 0, 1), // 1 before 3 and 2
        (8000, 2, &[0, 0, 0, 0, 0, 32_768, 0, 32_768], 99, refused(3, 5)),
        (8000, 2, &[-32_769, 0, 0, 0], 0, refused(3, 0)), // 3 before 2
        (8000, 1, &[65_536; 6552 * 2], 0, refused(3, 0)), // 3 before 10
        (8000, 1, &[0; 6552 * 2], 70_000, 10),
        (8000, 1, &[0; 6552 * 2], 0, 10), // 10 before 2
        (8000, 10, &[0; 32 * 1024], 70_000, 10),
        (8000, 1, &[0; 6551 * 2], 65_527, 2),
        (8000, 1, &[0; 6551 * 2], 65_528, 256 * 65_528),
        (8000, 10, &[0; 31 * 1024], 63_691, 2),
        (8000, 10, &[0; 31 * 1024], 63_692, 256 * 63_692),
        (8000, 2, &[1, 2, 3, 4], 31, 2),
        (8000, 2, &[], 17, 2),
        (8000, 2, &[], 18, 256 * 18),
    ] {
        let (given, lent) = (bytes_of(cells), c.random.bytes(lent));
        let (its, left) = c.save(SORT, &Given { rate, p, cells: &given, trace: &lent });
        assert_eq!(its, answer, "saving at rate {rate}, P {p}, of {} cells, into {} bytes", cells.len(), lent.len());
        assert!(answer % 256 == 0 || left == lent, "saving at rate {rate}, P {p}, refused and yet written");
    }
}

/// The bound at a block's own M (document 02, Item 6), by hand: "For M = 100 and P = 10 that is 2,083 instead of
/// 11,306. For M = 0 every line is 0."
pub fn bounds(c: &mut Comparison) {
    let alone = |n: usize, place: usize, sample: i64| {
        let mut cells = vec![0; n];
        cells[place] = sample;
        cells
    };
    for (cells, bound) in [
        (vec![-32_768, 32_767], 0),
        (vec![32_767; 4], 0),
        (vec![0; 8], 1),
        (alone(8, 7, -1), 2), // 4 × 1 over 32,768, rounded up, is 1
        (alone(8, 0, 8192), 2),
        (alone(8, 4, -8193), 3), // 4 × 8,193 over 32,768, rounded up, is 2
        (alone(16, 15, 1), 7),   // 5/2 of 2 is 5
        (vec![0; 16], 4),        // 5/2 of 1, rounded up, is 3
        (vec![0; 1024], 1166),
        (alone(1024, 511, 64), 2082), // 512 × 64 over 32,768 is 1
        (alone(1024, 512, -65), 2083),
        (vec![100; 1024], 2083),
        (vec![-100; 1024], 2083),
        (alone(1024, 0, 100), 2083),
        (alone(1024, 1023, -100), 2083),
        (vec![32_767; 1024], 11_306),
    ] {
        bound_of(c, &cells, bound);
    }
    for (i, figure) in [0, 0, 5, 22, 72, 213, 598, 1624, 4317, 11_306].into_iter().enumerate() {
        bound_of(c, &vec![-32_768; 2 << i], figure); // "the old figures follow from it"
        block(c, Call::Forward, &vec![0; 2 << i], &vec![0; 2 << i]);
    }
    refused_bounds(c);
}

/// "with forward's checks": 1, then 3 with its place; and a count of bytes that is no multiple of eight.
fn refused_bounds(c: &mut Comparison) {
    for (cells, answer) in [
        (&[][..], 1),
        (&[0], 1),
        (&[0; 3], 1),
        (&[0; 2048], 1),
        (&[1 << 40; 3], 1), // 1 before 3
        (&[0, 32_768], refused(3, 1)),
        (&[0, 0, -32_769, 32_768], refused(3, 2)),
        (&[i64::MIN, i64::MAX], refused(3, 0)),
    ] {
        assert_eq!(c.bound(SORT, &bytes_of(cells)), answer, "bound of {cells:?}");
    }
    for count in [9, 15, 17, 23] {
        assert_eq!(c.bound(SORT, &bytes_of(&[1 << 40; 3])[..count]), 1, "bound of {count} bytes");
    }
}

/// The quarter table (document 02, Item 8): document 01's "T at 0, 64, 128, 192, 256", and what all its numbers share.
pub fn tables(c: &mut Comparison) {
    let bytes = c.random.bytes(tables::RIGHT);
    let (answer, left) = c.table(SORT, &bytes);
    let table = cells_of(&left);
    let sampled = [0, 64, 128, 192, 256].map(|j: usize| table[j]);
    assert_eq!((answer, sampled), (0, [32_768, 30_274, 23_170, 12_540, 0]), "the table");
    assert_eq!(oracle::table(), table, "the table of the second program");
    // it falls; and since each number is within half of a cosine, the squares of cosine and sine add to 2^30 nearly
    for j in 0..=256 {
        assert!(j == 256 || table[j] > table[j + 1], "T({j}) is not above T({})", j + 1);
        let (cosine, sine) = (table[j], table[256 - j]);
        assert!((cosine * cosine + sine * sine - (1 << 30)).abs() <= cosine + sine, "squares of T({j}) and its sine");
    }
    let (first, last) = (b"32768\n32767\n32766\n", b"\n402\n201\n0\n");
    let printed = c.printed_table(SORT);
    assert!(printed.starts_with(first) && printed.ends_with(last), "the table as it is printed");
    for count in [0, 8, 1028, 2048, 2055, 2057, 2064] {
        let bytes = c.random.bytes(count);
        assert_eq!(c.table(SORT, &bytes), (2, bytes), "the table in {count} bytes");
    }
}

/// Smoothing (document 02, Item 7), by hand: "at moment t, the plain sum over moments u of sample(u) times weight((t -
/// u) mod N)".
pub fn smooths(c: &mut Comparison) {
    let largest = 1_073_709_056; // 32,768 × 32,767
    for (cells, weights, result) in [
        (&[1, 2, 3, 4][..], &[1, 0, 0, 0][..], &[1, 2, 3, 4][..]),
        (&[1, 2, 3, 4], &[0, 1, 0, 0], &[4, 1, 2, 3]),
        (&[1, 2, 3, 4], &[0, 0, 1, 0], &[3, 4, 1, 2]),
        (&[1, 2, 3, 4], &[0, 0, 0, 1], &[2, 3, 4, 1]),
        (&[1, 2, 3, 4], &[1, 2, 0, -1], &[7, 1, 3, 9]), // 1 × 1 + 2 × -1 + 3 × 0 + 4 × 2, and so on
        (&[1, 2, 3, 4], &[20_000, -12_767, 0, 0], &[-31_068, 27_233, 34_466, 41_699]),
        (&[3, -5], &[2, 7], &[-29, 11]),
        (&[1, 1], &[1, -1], &[0, 0]),
        (&[0, 0, 4, 0, 0, 0, 0, 8], &[2, 1, 0, 0, 0, 0, 0, 1], &[8, 4, 8, 4, 0, 0, 8, 16]),
        (&[-32_768, 0], &[0, -32_767], &[0, largest]),
        (&[-32_768; 4], &[-1, -32_763, -1, -2], &[largest; 4]),
        (&[-32_768; 1024], &[31; 1024], &[-32_768 * 31 * 1024; 1024]),
    ] {
        let (answer, left) = c.smooth(SORT, &bytes_of(cells), &bytes_of(weights));
        assert_eq!((answer, cells_of(&left)), (0, result.to_vec()), "{cells:?} smoothed by {weights:?}");
        assert_eq!(oracle::smooth(cells, weights), Ok(result.to_vec()), "{cells:?} smoothed by the second program");
    }
    refused_smooths(c);
}

/// "Checks: 1; 2 if the weights aren't N cells; 3 for samples; 20 weights (their magnitudes add to more than 32,767;
/// place the first cell where the running sum passes it)."
fn refused_smooths(c: &mut Comparison) {
    for (cells, weights, answer) in [
        (&[][..], &[][..], 1),
        (&[0], &[0], 1),
        (&[0; 3], &[0; 3], 1),
        (&[0; 2048], &[0; 2048], 1),
        (&[1 << 40; 3], &[i64::MIN; 4], 1), // 1 before 2, 3 and 20
        (&[1, 2, 3, 4], &[1, 2, 3], 2),
        (&[1, 2, 3, 4], &[], 2),
        (&[1, 2, 3, 40_000], &[1, 2, 3], 2),                     // 2 before 3
        (&[1, 2, 3, 4], &[40_000, 2, 3, 4, 5], 2),               // 2 before 20
        (&[1, 2, 3, 40_000], &[40_000, 2, 3, 4], refused(3, 3)), // 3 before 20
        (&[1, -32_769, 3, 32_768], &[1, 0, 0, 0], refused(3, 1)),
        (&[1, 2, 3, 4], &[20_000, -12_767, 0, -1], refused(20, 3)),
        (&[1, 2, 3, 4], &[20_000, -12_768, 12_768, 0], refused(20, 1)),
        (&[1, 2, 3, 4], &[32_767, 0, 1, 1], refused(20, 2)),
        (&[1, 2, 3, 4], &[-32_768, 0, 0, 0], 20),
        (&[1, 2, 3, 4], &[i64::MIN, 0, 0, 0], 20),
        (&[1, 2, 3, 4], &[0, i64::MIN, i64::MIN, 0], refused(20, 1)), // whose magnitudes add to 2^64
        (&[1, 2, 3, 4], &[1, 0, i64::MAX, i64::MIN], refused(20, 2)),
    ] {
        let (given, left) = c.smooth(SORT, &bytes_of(cells), &bytes_of(weights));
        assert_eq!((given, cells_of(&left)), (answer, cells.to_vec()), "{cells:?} smoothed by {weights:?}");
    }
    let (cells, weights) = (bytes_of(&[1 << 40; 3]), bytes_of(&[i64::MIN; 3]));
    for count in [9, 15, 17, 23] {
        assert_eq!(c.smooth(SORT, &cells[..count], &weights[..16]).0, 1, "{count} bytes smoothed");
        assert_eq!(c.smooth(SORT, &cells[..16], &weights[..count]).0, 2, "smoothed by {count} bytes");
    }
}

/// The second program's table and distances E, and how a double is held to a fraction.
fn second_program() {
    for (j, t) in [(0, 32768), (64, 30274), (128, 23170), (192, 12540), (256, 0)] {
        assert_eq!(oracle::table_cosine(j), t, "T({j}) of the second program");
    }
    assert_eq!(oracle::E, [0, 0, 5, 22, 72, 213, 598, 1624, 4317, 11306]);
    let five_halves = oracle::Fraction { numerator: 10, denominator: 4 };
    let nothing = oracle::Fraction { numerator: 0, denominator: 4 };
    let bits = 2.5_f64.to_bits();
    assert_eq!(double::fault(bits, five_halves), None);
    for wrong in [bits + 1, bits - 1, bits | 1 << 63, bits + (1 << 52), bits - (1 << 52), 0, 1, u64::MAX >> 12] {
        assert_eq!(double::fault(wrong, five_halves), Some("another number"), "bits {wrong:016X}");
    }
    assert_eq!(double::fault(f64::MAX.to_bits(), five_halves), Some("another number"));
    for wrong in [f64::INFINITY, f64::NEG_INFINITY, f64::NAN] {
        assert_eq!(double::fault(wrong.to_bits(), five_halves), Some("not finite"));
    }
    assert_eq!(double::fault(0, nothing), None);
    assert_eq!(double::fault(1, nothing), Some("another number"));
    assert_eq!(double::fault(1 << 63, nothing), Some("minus zero"));
}

fn blocks(c: &mut Comparison) {
    block(c, Call::Forward, &[0, 0], &[0, 0]);
    block(c, Call::Forward, &[3, -5], &[-2, 8]);
    block(c, Call::Forward, &[1, 2, 3, 4], &[10, -4, -2, 0]);
    block(c, Call::Backward, &[10, -4, -2, 0], &[1, 2, 3, 4]);
    block(c, Call::Parts, &[10, -4, -2, 0], &[20, -4, -4, 0, 4, 0]);
    block(c, Call::Power, &[10, -4, -2, 0], &[200, 16, 8]);
    block(c, Call::Forward, &[1, 2, 3, 4, 5, 6, 7, 8], &[36, -14, -8, -6, -4, -2, 0, 6]);
    block(c, Call::Parts, &[36, -14, -8, -6, -4, -2, 0, 6], &[72, -8, -8, -8, -8, 0, 20, 8, 4, 0]);
    block(c, Call::Forward, &[0, 1, 0, 0, 0, 0, 0, 0], &[1, 1, 1, 0, -1, -1, -1, 0]);

    // Halves away from zero (document 02, Item 1): 5,792.5 and 3 / 2, and their negatives.
    block(c, Call::Forward, &[0, 4096, 0, 0, 0, 0, 0, 0], &[4096, 5793, 4096, 0, -4096, -5793, -4096, 0]);
    block(c, Call::Forward, &[0, -4096, 0, 0, 0, 0, 0, 0], &[-4096, -5793, -4096, 0, 4096, 5793, 4096, 0]);
    block(c, Call::Backward, &[3, 0], &[2, 2]);
    block(c, Call::Backward, &[-3, 0], &[-2, -2]);
}

/// Lines by hand, as doubles: a mean and a last line (cases 1 and 2) have one, a pair (case 3) has two.
fn scaled_lines(c: &mut Comparison) {
    let four = [10, -4, -2, 0];
    line(c, &four, 0, 1, &[2.5]);
    line(c, &four, 1, 3, &[-0.5, 0.5]);
    line(c, &four, 2, 2, &[-0.5]);
    line(c, &[-2, 8], 0, 1, &[-1.0]);
    line(c, &[-2, 8], 1, 2, &[4.0]);
    let eight = [36, -14, -8, -6, -4, -2, 0, 6];
    line(c, &eight, 0, 1, &[4.5]);
    line(c, &eight, 1, 3, &[-0.5, 1.25]);
    line(c, &eight, 2, 3, &[-0.5, 0.5]);
    line(c, &eight, 3, 3, &[-0.5, 0.25]);
    line(c, &eight, 4, 2, &[-0.5]);
    let rising: Vec<i64> = (0..16).collect();
    line(c, &rising, 0, 1, &[0.0]);
    line(c, &rising, 1, 3, &[0.5, 0.4375]);
    line(c, &rising, 7, 3, &[0.5, 0.0625]);
    line(c, &rising, 8, 2, &[0.5]);
    // 2^28 passes, and so does its negative; the parts are as large as they can be, or 0
    line(c, &[-(1 << 28), 1 << 28, 0, -(1 << 28)], 1, 3, &[0.0, -67_108_864.0]);
    line(c, &[0, -(1 << 28), 1 << 28, -(1 << 28)], 1, 3, &[-67_108_864.0, 0.0]);
    for (cells, line, answer) in [
        (&four[..], 3, refused(4, 3)),
        (&four, 1 << 32, refused(4, 1 << 32)),
        (&four, (1 << 56) + 1, refused(4, 1)), // of the place, seven bytes are answered
        (&[-2, 8], 2, refused(4, 2)),
        (&[0, 0, (1 << 28) + 1, 0], 3, refused(3, 2)),
        (&[0, 0, 0, -(1 << 28) - 1], 0, refused(3, 3)),
        (&[1 << 40; 3], 5000, 1),
    ] {
        let (given, _) = c.scaled(SORT, &bytes_of(cells), line);
        assert_eq!(given, answer, "line {line} of {cells:?}");
    }
}

/// Lengths and loud samples.
fn refused_blocks(c: &mut Comparison) {
    for (count, answer) in [(0, 1), (1, 1), (3, 1), (2048, 1), (1024, 0)] {
        let cells = bytes_of(&vec![0; count]);
        for call in [Call::Forward, Call::Backward, Call::Parts, Call::Power] {
            let outputs = c.outputs(call, 8 * (count / 2 + 1));
            let (given, _) = c.signed_block(call, SORT, &cells, &outputs);
            assert_eq!(given, answer, "{call:?} of {count} cells");
        }
        let (given, _) = c.scaled(SORT, &cells, 0);
        assert_eq!(given % 256, answer, "line 0 of {count} cells");
    }
    for (cells, answer) in [([0, 32_768], refused(3, 1)), ([-32_768, 32_767], 0)] {
        let (given, _) = c.signed_block(Call::Forward, SORT, &bytes_of(&cells), &[]);
        assert_eq!(given, answer, "forward of {cells:?}");
    }
}

/// The strongest line "between two lines, both included", "the lowest of equals" (document 02, Item 2).
fn strongest_lines(c: &mut Comparison) {
    block(c, Call::Power, &[1, 1, 1, 0, -1, -1, -1, 0], &CRUNCH);
    let line = |line| found(Some(line));
    for (powers, low, high, answer) in [
        (&CRUNCH[..], 0, 4, line(0)),
        (&CRUNCH, 1, 4, line(2)),
        (&CRUNCH, 3, 4, line(4)),
        (&CRUNCH, 3, 3, line(3)),
        (&FALLING, 0, 2, line(0)),
        (&FALLING, 1, 2, line(1)),
        (&[-3, -1, 0], 0, 1, line(1)),
        (&[i64::MIN, i64::MAX], 0, 1, line(1)),
        (&[0; 513], 512, 512, line(512)),
        (&CRUNCH, 5, 4, refused(4, 5)),
        (&CRUNCH, 4, 5, refused(4, 5)),
        (&CRUNCH, 7, 6, refused(4, 7)), // the low end before the high
        (&CRUNCH, 6, 7, refused(4, 6)),
        (&CRUNCH, 4, 3, refused(4, 4)), // turned round
        (&CRUNCH, 0, 1 << 32, refused(4, 1 << 32)),
        (&CRUNCH, (1 << 56) + 1, 0, refused(4, 1)), // of the place, seven bytes are answered
        (&[9; 4], 9, 3, 1),                         // 1 before 4
        (&[9; 1024], 0, 0, 1),
    ] {
        let given = c.strongest(SORT, &bytes_of(powers), low, high);
        assert_eq!(given, answer, "strongest of {powers:?} from {low} to {high}");
    }
}

/// The nearest line that reaches the level, "the lower of two equally near", or none (document 02, Item 2).
fn nearest_lines(c: &mut Comparison) {
    let line = |line| found(Some(line));
    for (powers, chosen, level, answer) in [
        (&CRUNCH[..], 1, 2, line(0)),
        (&CRUNCH, 3, 2, line(2)),
        (&CRUNCH, 3, 1, line(3)), // the chosen line itself
        (&CRUNCH, 3, 3, found(None)),
        (&CRUNCH, 3, i64::MIN, line(3)),
        (&FALLING, 2, 8, line(2)),
        (&FALLING, 2, 9, line(1)),
        (&FALLING, 2, 17, line(0)),
        (&FALLING, 0, 201, found(None)),
        (&[9, 0, 0, 9, 0], 2, 9, line(3)),
        (&[9, 0, 0, 0, 9], 2, 9, line(0)),
        (&[-3, -1, -2], 2, -1, line(1)),
        (&[-3, -1, -2], 2, 0, found(None)),
        (&CRUNCH, 5, 1, refused(4, 5)),
        (&CRUNCH, 1 << 56, 1, 4), // of the place, seven bytes are answered
        (&[9; 4], 9, 1, 1),       // 1 before 4
    ] {
        let given = c.nearest(SORT, &bytes_of(powers), chosen, level);
        assert_eq!(given, answer, "nearest of {powers:?} to {chosen} at {level}");
    }
}

fn traces(c: &mut Comparison) {
    trace(c, &TRACE, accepted(8000, 2, 1), LISTING);
    trace(c, &[], refused(11, 0), "refused 11 0\n");
    trace(c, &note(255), accepted(8000, 2, 0), "trace 8000 4 0\nend\n");
    trace(c, &note(256), refused(14, 12), "refused 14 12\n");
}

/// Which disorder (document 02, Item 3): "17 headless (first record is not a head), 18 second head, 19 tail (a byte
/// after the end)", "with the old places".
fn disorders(c: &mut Comparison) {
    let (first, block, last) = (&TRACE[..12], &TRACE[12..26], &TRACE[26..]);
    let (short_note, no_kind) = (bytes(&[record(3, vec![7])]), bytes(&[record(5, Vec::new())]));
    let (long_head, long_end) = (bytes(&[record(1, vec![1; 7])]), bytes(&[record(4, vec![0])]));
    let no_rate = bytes(&[head(0, 2)]);
    for (records, number, place) in [
        (vec![block, last], 17, 0),
        (vec![&short_note, &TRACE], 17, 0),
        (vec![last], 17, 0),
        (vec![&long_end], 17, 0),       // 17 before 14
        (vec![&no_kind, first], 12, 0), // 12 before 17
        (vec![first, first, last], 18, 12),
        (vec![first, block, first], 18, 26),
        (vec![first, block, &short_note, first], 18, 33),
        (vec![first, &long_head], 18, 12), // 18 before 14
        (vec![first, &no_rate], 18, 12),   // 18 before 15
        (vec![&TRACE, &[0]], 19, 32),
        (vec![&TRACE, &[9; 7]], 19, 32),
        (vec![&TRACE, last], 19, 32),
        (vec![&TRACE, block, last], 19, 32),
        (vec![&TRACE, &TRACE], 19, 32),
        (vec![first, &long_end], 14, 12), // 14 before 19
        (vec![first, &long_end, last], 14, 12),
    ] {
        let (given, answer) = (records.concat(), refused(number, place));
        trace(c, &given, answer, &format!("refused {number} {place}\n"));
        let cells = c.random.bytes(32);
        assert_eq!(c.fetch(SORT, &given, 0, &cells), (answer, cells), "block 0 of {given:02X?}");
    }
}

/// A trace without blocks, with a note of so many bytes.
fn note(count: usize) -> Vec<u8> {
    bytes(&[head(8000, 2), record(3, vec![7; count]), end()])
}

/// Blocks by hand, and what is answered where there is none or the cells do not fit.
fn fetches(c: &mut Comparison) {
    fetch(c, &TRACE, 0, accepted(8000, 2, 1), &[1, 2, 3, 4]);
    let two = |low: [u8; 2], high: [u8; 2]| record(2, [low, high].concat());
    let blocks = [two([1, 0], [2, 0]), record(3, vec![2, 0]), two([0, 0x80], [0xFF, 0x7F]), two([0xFF, 0xFF], [5, 0])];
    let three = bytes(&[&[head(9, 1)][..], &blocks, &[end()]].concat());
    fetch(c, &three, 0, accepted(9, 1, 3), &[1, 2]);
    fetch(c, &three, 1, accepted(9, 1, 3), &[-32_768, 32_767]);
    fetch(c, &three, 2, accepted(9, 1, 3), &[-1, 5]);
    for (given, k, count, answer) in [
        (&three[..], 3, 16, refused(16, 3)),
        (&three, 3, 8, refused(16, 3)), // 16 before 2
        (&three, 1 << 56, 8, 16),       // of the place, seven bytes are answered
        (&three, 2, 8, 2),
        (&three, 2, 17, 2),
        (&note(255), 0, 32, 16),
        (&note(256), 0, 0, refused(14, 12)),
        (&[], 0, 0, refused(11, 0)),
    ] {
        let cells = c.random.bytes(count);
        assert_eq!(c.fetch(SORT, given, k, &cells), (answer, cells), "block {k} of {given:02X?}");
    }
}

fn block(c: &mut Comparison, call: Call, cells: &[i64], result: &[i64]) {
    let lent = cells.len() / 2 + 1;
    let outputs = c.outputs(call, 8 * lent);
    let (answer, left) = c.signed_block(call, SORT, &bytes_of(cells), &outputs);
    assert_eq!(answer, 0, "{call:?} of {cells:?}");
    assert_eq!(cells_of(&left), result, "{call:?} of {cells:?}");
    let own = match call {
        Call::Forward => oracle::forward(cells),
        Call::Backward => oracle::backward(cells),
        Call::Parts => oracle::parts(cells, lent, lent).map(|(real, imaginary)| [real, imaginary].concat()),
        _ => oracle::power(cells, lent),
    };
    assert_eq!(own, Ok(result.to_vec()), "{call:?} of {cells:?} by the second program");
}

fn bound_of(c: &mut Comparison, cells: &[i64], bound: u64) {
    assert_eq!(c.bound(SORT, &bytes_of(cells)), 256 * bound, "bound of {cells:?}");
    assert_eq!(oracle::bound(cells), Ok(bound), "bound of {cells:?} by the second program");
}

fn line(c: &mut Comparison, cells: &[i64], line: u64, case: u64, doubles: &[f64]) {
    let (answer, bits) = c.scaled(SORT, &bytes_of(cells), line);
    assert_eq!(answer, 256 * case, "line {line} of {cells:?}");
    for (given, double) in bits.iter().zip(doubles) {
        assert_eq!(*given, double.to_bits(), "line {line} of {cells:?}");
    }
}

fn trace(c: &mut Comparison, trace: &[u8], answer: u64, listing: &str) {
    assert_eq!(c.check(SORT, trace), answer, "check of {trace:02X?}");
    assert_eq!(String::from_utf8_lossy(&c.list(SORT, trace)), listing, "listing of {trace:02X?}");
}

fn fetch(c: &mut Comparison, trace: &[u8], k: u64, answer: u64, samples: &[i64]) {
    let cells = c.random.bytes(8 * samples.len());
    let (given, left) = c.fetch(SORT, trace, k, &cells);
    assert_eq!((given, cells_of(&left)), (answer, samples.to_vec()), "block {k} of {trace:02X?}");
    assert_eq!(oracle::fetch(trace, k, samples.len()), Ok(samples.to_vec()), "block {k} by the second program");
}

/// A saving with lent bytes just enough, and with some more, which are kept.
fn save(c: &mut Comparison, [rate, p]: [u64; 2], cells: &[i64], trace: &[u8]) {
    for more in [0, 1, 100] {
        let lent = c.random.bytes(trace.len() + more);
        let (answer, left) = c.save(SORT, &Given { rate, p, cells: &bytes_of(cells), trace: &lent });
        let right = [trace, &lent[trace.len()..]].concat();
        assert_eq!((answer, left), (256 * trace.len() as u64, right), "saving of {cells:?}");
    }
    let own = oracle::save(rate, p, cells, trace.len());
    assert_eq!(own, Ok(trace.to_vec()), "saving of {cells:?} by the second program");
}
