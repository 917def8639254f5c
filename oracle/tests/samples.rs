//! The samples of document 01, its refusals, and the distances E; and what document 02 amends.

use oracle::*;
use std::collections::BTreeMap;
use std::io::Write;
use std::process::{Command, Stdio};

const SAMPLE_TRACE: [u8; 32] = [
    0x06, 0x00, 0x00, 0x00, 0x01, 0x00, 0x40, 0x1F, 0x00, 0x00, 0x02, 0x00, 0x08, 0x00, 0x00, 0x00, 0x02, 0x00, 0x01,
    0x00, 0x02, 0x00, 0x03, 0x00, 0x04, 0x00, 0x00, 0x00, 0x00, 0x00, 0x04, 0x00,
];
const SAMPLE_LISTING: &str = "trace 8000 4 1\n0 0 20 0 200\n0 1 -4 4 16\n0 2 -4 0 8\nend\n";

fn refused<A>(number: u64, place: u64) -> Result<A, Refusal> {
    Err(Refusal { number, place })
}

/// A record of the trace.
fn record(kind: u16, payload: &[u8]) -> Vec<u8> {
    let mut bytes = (payload.len() as u32).to_le_bytes().to_vec();
    bytes.extend(kind.to_le_bytes());
    bytes.extend(payload);
    bytes
}

/// The payload of a head.
fn head(rate: u32, p: u16) -> Vec<u8> {
    let mut payload = rate.to_le_bytes().to_vec();
    payload.extend(p.to_le_bytes());
    payload
}

/// A head of P = 2 at 8,000 samples a second (12 bytes), then these bytes.
fn after_head(rest: &[u8]) -> Vec<u8> {
    let mut trace = record(1, &head(8000, 2));
    trace.extend(rest);
    trace
}

/// What can stand between the head of P = 2 and the end: nothing, and blocks and notes.
fn between() -> Vec<Vec<u8>> {
    let (block, note) = (record(2, &[1, 0, 2, 0, 3, 0, 4, 0]), record(3, &[7; 255]));
    let several = [block.clone(), note.clone(), record(3, &[]), block.clone()].concat();
    vec![Vec::new(), block, note, several]
}

/// The cells in the old host's form.
fn bytes_of(cells: &[i64]) -> Vec<u8> {
    cells.iter().flat_map(|cell| cell.to_le_bytes()).collect()
}

/// A whole number over another, as a scaled line has it.
fn over(numerator: i64, denominator: i64) -> Fraction {
    Fraction { numerator, denominator }
}

/// The case of a pair, its parts over 2N.
fn pair(real: i64, imaginary: i64, denominator: i64) -> Result<Scaled, Refusal> {
    let (real, imaginary) = (over(real, denominator), over(imaginary, denominator));
    Ok(Scaled::Pair { real, imaginary })
}

/// Blocks of N = 2^P samples: the loudest ones, one loud sample alone, and freely mixed ones.
fn blocks(p: u32) -> Vec<Vec<i64>> {
    let n = 1_usize << p;
    let mut alone = vec![0; n];
    alone[n - 1] = -32_768;
    let swinging = (0..n).map(|t| if t % 3 == 0 { 32_767 } else { -32_768 });
    let mut all = vec![vec![-32_768; n], vec![32_767; n], alone, swinging.collect()];
    let mut seed: u64 = 1 + u64::from(p);
    for _ in 0..6 {
        let mut mixed = Vec::new();
        for _ in 0..n {
            seed = seed.wrapping_mul(6364136223846793005).wrapping_add(1);
            mixed.push((seed >> 48) as i64 - 32_768);
        }
        all.push(mixed);
    }
    all
}

#[test]
fn table_cosines() {
    let table: Vec<i64> = (0..=4).map(|j| table_cosine(64 * j)).collect();
    assert_eq!(table, [32768, 30274, 23170, 12540, 0]);
    for j in 0..=256 {
        let entry = (fine_cosine(j) + (1 << 44)).div_euclid(1 << 45);
        assert_eq!(i128::from(table_cosine(j)), entry);
    }
}

/// Document 02, Item 8: T(0) to T(256), in lent cells and as text; in other bytes nothing changes.
#[test]
fn table_in_order() {
    let numbers = table();
    assert_eq!((numbers.len(), numbers[0], numbers[255], numbers[256]), (257, 32768, 201, 0));
    let mut lent = vec![7; 2056];
    assert_eq!(table_bytes(&mut lent), Ok(()));
    assert_eq!(lent, bytes_of(&numbers));
    for count in [0, 8, 2048, 2055, 2057, 2064] {
        let mut lent = vec![7; count];
        assert_eq!((table_bytes(&mut lent), lent), (refused(2, 0), vec![7; count]));
    }
    let text = String::from_utf8(table_text()).unwrap();
    assert!(text.ends_with("\n0\n"));
    assert_eq!(text.lines().map(|line| line.parse().unwrap()).collect::<Vec<i64>>(), numbers);
    let printed = Command::new(env!("CARGO_BIN_EXE_oracle")).arg("table").output().unwrap();
    assert_eq!((printed.status.success(), printed.stdout), (true, text.into_bytes()));
}

/// F at five places, found once more apart from this program, by Python's `math.isqrt`.
#[test]
fn fine_cosines() {
    let rows: [(i64, i128); 5] = [
        (1, 1_152_899_801_185_339_686),
        (64, 1_065_160_580_698_383_124),
        (128, 815_238_614_083_298_888),
        (192, 441_203_958_630_471_860),
        (255, 7_074_193_361_797_262),
    ];
    for (j, fine) in rows {
        assert_eq!(fine_cosine(j), fine, "F({j})");
    }
}

/// F(j)² + F(256 - j)² is never above 2^120, and at most 9/4 × 2^60 below it. Document 01 states no such distance: it
/// is measured, and tells other roundings and other numbers of places apart.
#[test]
fn squares_of_cosine_and_sine_add_up() {
    for j in 0..=256 {
        let lacking = (1 << 120) - fine_cosine(j) * fine_cosine(j) - fine_cosine(256 - j) * fine_cosine(256 - j);
        assert!(0 <= lacking && 4 * lacking <= 9 << 60, "at {j}");
    }
}

#[test]
fn fine_cosines_keep_the_half_angle_law() {
    assert_eq!(fine_cosine(0), 1 << 60);
    assert_eq!(fine_cosine(256), 0);
    for j in 1..256 {
        let x = ((1 << 60) + fine_cosine(2 * j)) * (1 << 59);
        let root = fine_cosine(j);
        assert!(root * root <= x && x < (root + 1) * (root + 1));
    }
}

#[test]
fn cosines_keep_the_symmetries_and_are_cosines() {
    for j in -3000..3000_i64 {
        assert_eq!(fine_cosine(-j), fine_cosine(j));
        assert_eq!(fine_cosine(256 + j), -fine_cosine(256 - j));
        assert_eq!(table_cosine(-j), table_cosine(j));
        assert_eq!(table_cosine(256 + j), -table_cosine(256 - j));
        let cosine = (j as f64 * std::f64::consts::TAU / 1024.0).cos();
        let scale = (1_i64 << 60) as f64;
        assert!((fine_cosine(j) as f64 / scale - cosine).abs() < 1e-13);
    }
}

#[test]
fn forward_worked_by_hand() {
    assert_eq!(forward(&[0, 0]), Ok(vec![0, 0]));
    assert_eq!(forward(&[3, -5]), Ok(vec![-2, 8]));
    assert_eq!(forward(&[1, 2, 3, 4]), Ok(vec![10, -4, -2, 0]));
    let eight = forward(&[1, 2, 3, 4, 5, 6, 7, 8]);
    assert_eq!(eight, Ok(vec![36, -14, -8, -6, -4, -2, 0, 6]));
    let delayed = forward(&[0, 1, 0, 0, 0, 0, 0, 0]);
    assert_eq!(delayed, Ok(vec![1, 1, 1, 0, -1, -1, -1, 0]));
}

#[test]
fn backward_worked_by_hand() {
    assert_eq!(backward(&[10, -4, -2, 0]), Ok(vec![1, 2, 3, 4]));
    // x / 2, halves away from zero, of 1, -1, -2, 3 and -3
    assert_eq!(backward(&[1, 0]), Ok(vec![1, 1]));
    assert_eq!(backward(&[-1, 0]), Ok(vec![-1, -1]));
    assert_eq!(backward(&[-2, 0]), Ok(vec![-1, -1]));
    assert_eq!(backward(&[3, 0]), Ok(vec![2, 2]));
    assert_eq!(backward(&[-3, 0]), Ok(vec![-2, -2]));
}

/// Document 02, Item 1: "a block and its negative, where forward takes both, have spectra that are negatives of each
/// other, line by line".
#[test]
fn negatives() {
    for p in 1..=10 {
        for mut block in blocks(p) {
            for sample in &mut block {
                *sample = (*sample).max(-32_767); // the negative of -32,768 is not taken
            }
            let negative: Vec<i64> = block.iter().map(|sample| -sample).collect();
            let (spectrum, other) = (forward(&block).unwrap(), forward(&negative).unwrap());
            assert!(spectrum.iter().zip(&other).all(|(line, its)| *line == -its));
            let (again, other) = (backward(&spectrum).unwrap(), backward(&other).unwrap());
            assert!(again.iter().zip(&other).all(|(cell, its)| *cell == -its));
        }
    }
}

/// 4,096 alone at moment 1 of 8 makes b(1) + b(3) twice as large, so line 1 adds 8,192 × 23,170 / 32,768 = 5,792.5, and
/// so does line 5, half a turn on, with the other sign. In line 3 the two products cancel.
#[test]
fn halves_worked_by_hand() {
    let block = [0, 4_096, 0, 0, 0, 0, 0, 0];
    assert_eq!(forward(&block), Ok(vec![4_096, 5_793, 4_096, 0, -4_096, -5_793, -4_096, 0]));
    assert_eq!(halves(&block)[0], [1, 1]);
    assert_eq!(halves(&[3, 0])[1], [2, 0]);
    assert_eq!(halves(&[-3, 0])[1], [0, 2]);
    assert_eq!(halves(&[1, 2, 3, 4])[0], [0, 0]);
}

#[test]
fn direct_sums_worked_by_hand() {
    let lines = direct(&[1, 2, 3, 4]);
    assert_eq!(lines, [10, -4, -2, 0].map(|line: i128| line << 60));
    let lines = direct(&[0, 1, 0, 0, 0, 0, 0, 0]);
    let root_of_two = 2 * fine_cosine(128);
    assert_eq!(lines[0..4], [1 << 60, root_of_two, 1 << 60, 0]);
}

#[test]
fn e_is_respected_and_line_0_is_the_sum() {
    for p in 1..=10 {
        let most = i128::from(E[p as usize - 1]) << 60;
        for block in blocks(p) {
            let spectrum = forward(&block).unwrap();
            for (line, sum) in spectrum.iter().zip(direct(&block)) {
                assert!(((i128::from(*line) << 60) - sum).abs() <= most);
            }
            assert_eq!(spectrum[0], block.iter().sum::<i64>());
        }
    }
}

/// A block of n samples, all 0 but one.
fn alone(n: usize, place: usize, sample: i64) -> Vec<i64> {
    let mut block = vec![0; n];
    block[place] = sample;
    block
}

/// Document 02, Item 6, by hand for P from 3 on. At M = 100 and P = 10, for instance, 5/2 of 832 is 2,080, and 512 ×
/// 100 over 32,768 is 1.6, so 2: with 1 that is 2,083. "the old figures follow from it": they are those of M = 32,768.
#[test]
fn bounds_worked_by_hand() {
    let rows: [(u64, [u64; 8]); 9] = [
        (0, [1, 4, 11, 29, 74, 186, 466, 1_166]),
        (1, [2, 7, 20, 52, 132, 332, 832, 2_082]),
        (64, [2, 7, 20, 52, 132, 332, 832, 2_082]),
        (65, [2, 7, 20, 52, 132, 332, 832, 2_083]),
        (100, [2, 7, 20, 52, 132, 332, 832, 2_083]),
        (8_192, [2, 8, 25, 72, 197, 526, 1_380, 3_579]),
        (8_193, [3, 12, 36, 100, 268, 704, 1_826, 4_695]),
        (32_767, [5, 22, 72, 213, 598, 1_624, 4_317, 11_306]),
        (32_768, [5, 22, 72, 213, 598, 1_624, 4_317, 11_306]),
    ];
    for (m, bounds) in rows {
        for (i, its) in [0, 0].iter().chain(&bounds).enumerate() {
            assert_eq!(bound_at(i as u32 + 1, m), *its, "M {m}, P {}", i + 1);
        }
    }
    assert_eq!(E.to_vec(), (1..=10).map(|p| bound_at(p, 32_768)).collect::<Vec<u64>>());
}

/// "Let M be the largest magnitude in the block": by either sign, in any cell.
#[test]
fn largest_magnitudes() {
    for (block, m) in [([0, 0], 0), ([3, -2], 3), ([2, -3], 3), ([-3, -2], 3), ([-32_768, 32_767], 32_768)] {
        assert_eq!(largest_magnitude(&block), m);
    }
    for p in 1..=10 {
        let n = 1 << p;
        for place in 0..n {
            assert_eq!(bound(&alone(n, place, 1)), Ok(bound_at(p, 1)));
            assert_eq!(bound(&alone(n, place, -32_768)), Ok(bound_at(p, 32_768)));
        }
    }
}

/// "For M = 100 and P = 10 that is 2,083 instead of 11,306."
#[test]
fn bounds_of_blocks() {
    for block in [vec![100; 1024], vec![-100; 1024], alone(1024, 0, 100), alone(1024, 1023, -100)] {
        assert_eq!(bound(&block), Ok(2_083));
    }
    assert_eq!(bound(&[-32_768; 1024]), Ok(11_306));
    assert_eq!(bound(&[32_767; 1024]), Ok(11_306));
    assert_eq!(bound(&[-32_768, 32_767]), Ok(0));
    assert_eq!(bound(&[-32_768; 4]), Ok(0));
    assert_eq!(bound(&[0; 8]), Ok(1));
    assert_eq!(bound(&[0, 0, 0, 0, 0, 0, 0, -1]), Ok(2));
    assert_eq!(bound(&[8_192; 8]), Ok(2));
    assert_eq!(bound(&[8_192, 0, 0, 0, -8_193, 0, 0, 0]), Ok(3));
    assert_eq!(bound(&[0; 1024]), Ok(1_166));
}

/// "with forward's checks": 1, then 3 with its place.
#[test]
fn refused_bounds() {
    for count in [0, 1, 3, 5, 1023, 1025, 2048] {
        assert_eq!(bound(&vec![0; count]), refused(1, 0));
        assert_eq!(bound(&vec![i64::MIN; count]), refused(1, 0)); // 1 before 3
    }
    for loud in [-32_769, 32_768, 65_536, 1 << 32, i64::MIN, i64::MAX] {
        for (place, count) in [(0, 2), (1, 2), (0, 1024), (511, 1024), (1023, 1024)] {
            let mut block = alone(count, place, loud);
            assert_eq!(bound(&block), refused(3, place as u64));
            block[count - 1] = loud; // a later one does not move the place
            assert_eq!(bound(&block), refused(3, place as u64));
        }
    }
}

/// "For M = 0 every line is 0"; and at other M every line is as near to the direct sum as the bound says.
#[test]
fn quiet_blocks_are_within_their_bounds() {
    for p in 1..=10 {
        assert_eq!(forward(&vec![0; 1 << p]), Ok(vec![0; 1 << p]));
        for m in [1, 2, 100] {
            for mut block in blocks(p) {
                for sample in &mut block {
                    *sample %= m + 1; // with its sign, and at most m
                }
                let most = i128::from(bound(&block).unwrap()) << 60;
                for (line, sum) in forward(&block).unwrap().iter().zip(direct(&block)) {
                    assert!(((i128::from(*line) << 60) - sum).abs() <= most);
                }
            }
        }
    }
}

#[test]
fn backward_of_forward_is_near_the_samples() {
    for p in 1..=10 {
        for block in blocks(p) {
            let again = backward(&forward(&block).unwrap()).unwrap();
            for (sample, cell) in block.iter().zip(again) {
                // a distance found by trial; document 01 states none
                assert!((sample - cell).abs() <= 2 * i64::from(p));
            }
        }
    }
}

#[test]
fn lengths() {
    for count in [0, 1, 3, 1023, 2048] {
        assert_eq!(forward(&vec![0; count]), refused(1, 0));
        assert_eq!(backward(&vec![0; count]), refused(1, 0));
        assert_eq!(parts(&vec![0; count], 0, 0), refused(1, 0));
        assert_eq!(power(&vec![1 << 40; count], 0), refused(1, 0));
        assert_eq!(scaled(&vec![1 << 40; count], 5_000), refused(1, 0));
    }
    assert_eq!(forward(&[0; 1024]), Ok(vec![0; 1024]));
    assert_eq!(backward(&[0; 1024]), Ok(vec![0; 1024]));
}

#[test]
fn loud_cells() {
    assert_eq!(forward(&[0, 0, 32_768, 32_768]), refused(3, 2));
    assert_eq!(forward(&[0, -32_769]), refused(3, 1));
    assert_eq!(forward(&[i64::MIN, 0]), refused(3, 0));
    assert_eq!(forward(&[-32_768, 32_767]), Ok(vec![-1, -65_535]));
    let limit = 1 << 28;
    assert_eq!(backward(&[limit, -limit]), Ok(vec![0, limit]));
    assert_eq!(backward(&[limit + 1, 0]), refused(3, 0));
    assert_eq!(backward(&[0, -limit - 1]), refused(3, 1));
    assert_eq!(parts(&[0, limit + 1], 2, 2), refused(3, 1));
    assert_eq!(power(&[i64::MIN, 0], 2), refused(3, 0));
    assert_eq!(power(&[limit, -limit], 2), Ok(vec![1 << 57, 1 << 57]));
    assert!(backward(&[limit; 1024]).is_ok());
}

#[test]
fn parts_and_power() {
    let spectrum = [10, -4, -2, 0];
    let doubled_parts = (vec![20, -4, -4], vec![0, 4, 0]);
    assert_eq!(parts(&spectrum, 3, 3), Ok(doubled_parts));
    assert_eq!(power(&spectrum, 3), Ok(vec![200, 16, 8]));
    assert_eq!(parts(&spectrum, 2, 3), refused(2, 0));
    assert_eq!(parts(&spectrum, 3, 4), refused(2, 0));
    assert_eq!(power(&spectrum, 4), refused(2, 0));
    assert_eq!(power(&[1 << 40; 4], 4), refused(2, 0));
}

#[test]
fn scaled_lines_of_the_worked_spectrum() {
    let spectrum = [10, -4, -2, 0];
    assert_eq!(scaled(&spectrum, 0), Ok(Scaled::Mean(over(10, 4)))); // 2.5
    assert_eq!(scaled(&spectrum, 1), pair(-4, 4, 8)); // -0.5 and 0.5
    assert_eq!(scaled(&spectrum, 2), Ok(Scaled::Last(over(-2, 4)))); // -0.5
    assert_eq!(scaled(&spectrum, 3), refused(4, 3));
}

#[test]
fn scaled_lines_of_other_lengths() {
    assert_eq!(scaled(&[-2, 8], 0), Ok(Scaled::Mean(over(-2, 2)))); // -1
    assert_eq!(scaled(&[-2, 8], 1), Ok(Scaled::Last(over(8, 2)))); // 4
    assert_eq!(scaled(&[-2, 8], 2), refused(4, 2));

    let eight = [36, -14, -8, -6, -4, -2, 0, 6];
    assert_eq!(scaled(&eight, 0), Ok(Scaled::Mean(over(36, 8)))); // 4.5
    assert_eq!(scaled(&eight, 1), pair(-8, 20, 16)); // -0.5 and 1.25
    assert_eq!(scaled(&eight, 2), pair(-8, 8, 16)); // -0.5 and 0.5
    assert_eq!(scaled(&eight, 3), pair(-8, 4, 16)); // -0.5 and 0.25
    assert_eq!(scaled(&eight, 4), Ok(Scaled::Last(over(-4, 8)))); // -0.5

    // H(v) = v: the real part is 16 / 32 of every pair, the imaginary part (16 - 2v) / 32
    let rising: Vec<i64> = (0..16).collect();
    assert_eq!(scaled(&rising, 0), Ok(Scaled::Mean(over(0, 16))));
    assert_eq!(scaled(&rising, 1), pair(16, 14, 32));
    assert_eq!(scaled(&rising, 4), pair(16, 8, 32));
    assert_eq!(scaled(&rising, 7), pair(16, 2, 32));
    assert_eq!(scaled(&rising, 8), Ok(Scaled::Last(over(8, 16))));
}

#[test]
fn refused_lines() {
    let most = u64::MAX;
    for (count, line) in [(2, 2), (4, 4), (8, 5), (16, 15), (1024, 513), (1024, 1024), (8, 1 << 32), (8, most)] {
        assert_eq!(scaled(&vec![7; count], line), refused(4, line));
    }
    assert_eq!(scaled(&[7; 1024], 512), Ok(Scaled::Last(over(7, 1024))));
    let limit = 1 << 28;
    assert_eq!(scaled(&[limit, -limit, limit, limit], 1), pair(0, 2 * limit, 8));
    assert_eq!(scaled(&[-limit, -limit, 0, -limit], 1), pair(-2 * limit, 0, 8));
    // 3 before 4, wherever the loud cell stands, and 1 before both
    for line in [0, 1, 2, 3, most] {
        assert_eq!(scaled(&[limit + 1, 0, 0, 0], line), refused(3, 0));
        assert_eq!(scaled(&[0, 0, 0, -limit - 1], line), refused(3, 3));
        assert_eq!(scaled(&[0, limit + 1, i64::MIN], line), refused(1, 0));
    }
}

/// The powers of {0, 1, 0, 0, 0, 0, 0, 0}, whose spectrum is {1, 1, 1, 0, -1, -1, -1, 0}.
const CRUNCH: [i64; 5] = [2, 1, 2, 1, 2];

#[test]
fn powers_to_search() {
    assert_eq!(power(&[1, 1, 1, 0, -1, -1, -1, 0], 5), Ok(CRUNCH.to_vec()));
    assert_eq!(power(&[36, -14, -8, -6, -4, -2, 0, 6], 5), Ok(vec![2592, 232, 64, 40, 32]));
}

/// Document 02, Item 2: "the strongest line between two lines, both included".
#[test]
fn strongest_lines() {
    let falling = [200, 16, 8]; // the powers of {1, 2, 3, 4}
    for (low, high, line) in [(0, 2, 0), (0, 0, 0), (1, 2, 1), (1, 1, 1), (2, 2, 2)] {
        assert_eq!(strongest(&falling, low, high), Ok(line));
    }
    let rising = [32, 40, 64, 232, 2592];
    for (low, high, line) in [(0, 4, 4), (0, 3, 3), (1, 2, 2), (4, 4, 4), (0, 1, 1)] {
        assert_eq!(strongest(&rising, low, high), Ok(line));
    }
    // "The strongest line is the lowest of equals", and a line outside the band is no equal
    for (low, high, line) in [(0, 4, 0), (1, 4, 2), (1, 3, 2), (2, 3, 2), (3, 4, 4), (3, 3, 3), (4, 4, 4)] {
        assert_eq!(strongest(&CRUNCH, low, high), Ok(line));
    }
    let side_by_side = [1, 7, 7, 7, 1];
    for (low, high, line) in [(0, 4, 1), (1, 2, 1), (2, 4, 2), (3, 4, 3), (0, 0, 0), (4, 4, 4)] {
        assert_eq!(strongest(&side_by_side, low, high), Ok(line));
    }
}

#[test]
fn strongest_of_any_cells() {
    let (least, most) = (i64::MIN, i64::MAX);
    assert_eq!(strongest(&[-3, -1, -2], 0, 2), Ok(1));
    assert_eq!(strongest(&[-3, -1, 0], 0, 1), Ok(1));
    assert_eq!(strongest(&[-1, 1], 0, 1), Ok(1));
    assert_eq!(strongest(&[least, most], 0, 1), Ok(1));
    assert_eq!(strongest(&[least, least, least], 1, 2), Ok(1));
    assert_eq!(strongest(&[most - 1, least, most, most, 0], 0, 4), Ok(2));
    assert_eq!(strongest(&[0; 513], 0, 512), Ok(0));
    assert_eq!(strongest(&[0; 513], 512, 512), Ok(512));
    let rising: Vec<i64> = (0..513).collect();
    assert_eq!(strongest(&rising, 0, 512), Ok(512));
    assert_eq!(strongest(&rising, 17, 400), Ok(400));
}

/// "the line nearest to a chosen one whose doubled power reaches a given level"
#[test]
fn nearest_lines() {
    let falling = [200, 16, 8]; // the powers of {1, 2, 3, 4}
    for (chosen, level, line) in [(2, 8, 2), (2, 9, 1), (2, 16, 1), (2, 17, 0), (2, 200, 0), (0, 9, 0), (1, 16, 1)] {
        assert_eq!(nearest(&falling, chosen, level), Ok(Some(line)));
    }
    // "the lower of two equally near"; one step nearer is nearer on either side
    for (chosen, line) in [(0, 0), (1, 0), (2, 2), (3, 2), (4, 4)] {
        assert_eq!(nearest(&CRUNCH, chosen, 2), Ok(Some(line)));
        assert_eq!(nearest(&CRUNCH, chosen, 1), Ok(Some(chosen))); // "the chosen line may itself be the nearest"
    }
    for (powers, chosen, line) in [([9, 0, 0, 9, 0], 1, 0), ([9, 0, 0, 9, 0], 2, 3), ([9, 0, 0, 0, 9], 2, 0)] {
        assert_eq!(nearest(&powers, chosen, 9), Ok(Some(line)));
    }
    // a line that is stronger, but farther, is not the nearest
    assert_eq!(nearest(&[1000, 0, 0, 10, 2000], 2, 10), Ok(Some(3)));
    // at either end alone, as far away as can be
    for chosen in 0..5 {
        assert_eq!(nearest(&[5, 4, 4, 4, 4], chosen, 5), Ok(Some(0)));
        assert_eq!(nearest(&[4, 4, 4, 4, 5], chosen, 5), Ok(Some(4)));
    }
    let mut single = vec![0; 513];
    single[512] = 1;
    assert_eq!(nearest(&single, 0, 1), Ok(Some(512)));
    single.reverse();
    assert_eq!(nearest(&single, 512, 1), Ok(Some(0)));
}

/// "When no line in the list reaches the level the answer is none, and only then."
#[test]
fn levels() {
    let (least, most) = (i64::MIN, i64::MAX);
    for chosen in 0..5 {
        assert_eq!(nearest(&CRUNCH, chosen, 3), Ok(None));
        assert_eq!(nearest(&CRUNCH, chosen, most), Ok(None));
        for level in [1, 0, -1, least] {
            assert_eq!(nearest(&CRUNCH, chosen, level), Ok(Some(chosen))); // every line reaches it
        }
        assert_eq!(nearest(&[least; 5], chosen, least), Ok(Some(chosen)));
        assert_eq!(nearest(&[least; 5], chosen, least + 1), Ok(None));
        assert_eq!(nearest(&[most; 5], chosen, most), Ok(Some(chosen)));
        assert_eq!(nearest(&[most - 1; 5], chosen, most), Ok(None));
    }
    assert_eq!(nearest(&[-3, -1, -2], 0, -2), Ok(Some(1)));
    assert_eq!(nearest(&[-3, -1, -2], 2, -1), Ok(Some(1)));
    assert_eq!(nearest(&[-3, -1, -2], 2, 0), Ok(None));
    assert_eq!(nearest(&[-1, 1], 0, 0), Ok(Some(1)));
    assert_eq!(nearest(&[1, -1], 0, -1), Ok(Some(0)));
}

/// "1 if the list isn't N/2 + 1 long for a permitted N", before 4.
#[test]
fn lengths_of_lists() {
    let permitted = [2, 3, 5, 9, 17, 33, 65, 129, 257, 513];
    for count in (0..=1100).chain([2047, 2048, 2049, 65_537]) {
        let (powers, last) = (vec![7; count], count.max(1) as u64 - 1);
        if permitted.contains(&count) {
            assert_eq!(strongest(&powers, last, last), Ok(last));
            assert_eq!(nearest(&powers, last, 7), Ok(Some(last)));
            assert_eq!(strongest(&powers, 0, last + 1), refused(4, last + 1));
            assert_eq!(nearest(&powers, last + 1, 7), refused(4, last + 1));
            continue;
        }
        for line in [0, last, last + 1, u64::MAX] {
            assert_eq!(strongest(&powers, line, line), refused(1, 0));
            assert_eq!(nearest(&powers, line, 7), refused(1, 0));
        }
        assert_eq!(strongest(&powers, 1, 0), refused(1, 0));
    }
}

/// "4 if a given line exceeds N/2 (place the first such line, low end before high) or the band's low end exceeds its
/// high end (place the low end)".
#[test]
fn refused_bands() {
    let most = u64::MAX;
    for (low, high, place) in [
        (5, 4, 5), // the low end alone
        (most, 0, most),
        (4, 5, 5), // the high end alone
        (0, 1 << 32, 1 << 32),
        (3, most, most),
        (5, 6, 5), // both
        (5, 5, 5),
        (9, 7, 9),
        (most, most - 1, most),
        (most - 1, most, most - 1),
        (1, 0, 1), // turned round
        (4, 3, 4),
        (4, 0, 4),
    ] {
        assert_eq!(strongest(&CRUNCH, low, high), refused(4, place));
    }
    assert_eq!(strongest(&[9, 8], 1, 0), refused(4, 1));
    assert_eq!(strongest(&[9, 8], 0, 2), refused(4, 2));
    assert_eq!(strongest(&[0; 513], 512, 511), refused(4, 512));
    assert_eq!(strongest(&[0; 513], 0, 513), refused(4, 513));
}

/// 4 for the chosen line, whatever the level; a level is never refused.
#[test]
fn refused_chosen_lines() {
    for line in [5, 6, 8, 512, 513, 1 << 32, (1 << 32) + 1, 1 << 56, 1 << 63, u64::MAX] {
        for level in [i64::MIN, 0, 2, 3, i64::MAX] {
            assert_eq!(nearest(&CRUNCH, line, level), refused(4, line));
        }
    }
    assert_eq!(nearest(&[9, 8], 2, 8), refused(4, 2));
    assert_eq!(nearest(&[0; 513], 513, 0), refused(4, 513));
}

#[test]
fn accepted_traces() {
    let held = contents(&SAMPLE_TRACE).unwrap();
    assert_eq!((held.rate, held.p), (8000, 2));
    assert_eq!(held.blocks, [[1, 2, 3, 4]]);
    let long_note = after_head(&[record(3, &[7; 255]), record(4, &[])].concat());
    assert_eq!(contents(&long_note).unwrap().blocks.len(), 0);
    let loudest = record(2, &[0, 0x80, 0xFF, 0x7F, 0xFF, 0xFF, 1, 0]);
    let held = contents(&after_head(&[loudest, record(4, &[])].concat())).unwrap();
    assert_eq!(held.blocks, [[-32_768, 32_767, -1, 1]]);
}

#[test]
fn refused_traces() {
    let end = record(4, &[]);
    assert_eq!(contents(&[]), refused(11, 0));
    assert_eq!(contents(&vec![0; 65_536]), refused(12, 0));
    assert_eq!(contents(&vec![0; 65_537]), refused(10, 0));
    assert_eq!(contents(&[6, 0, 0, 0, 1]), refused(11, 0));
    assert_eq!(contents(&[6, 0, 0, 0, 1, 0, 9]), refused(11, 0));
    assert_eq!(contents(&[7, 0, 0, 0, 5, 0]), refused(12, 0));
    assert_eq!(contents(&[7, 0, 0, 0, 4, 0]), refused(17, 0));
    assert_eq!(contents(&[7, 0, 0, 0, 1, 0]), refused(14, 0));
    assert_eq!(contents(&record(1, &head(0, 2))), refused(15, 0));
    assert_eq!(contents(&record(1, &head(1, 0))), refused(15, 0));
    assert_eq!(contents(&record(1, &head(1, 11))), refused(15, 0));
    assert_eq!(contents(&record(1, &head(1, 10))), refused(11, 12));
    assert_eq!(contents(&after_head(&end[0..5])), refused(11, 12));
    assert_eq!(contents(&after_head(&record(1, &[]))), refused(18, 12));
    assert_eq!(contents(&after_head(&record(2, &[0; 4]))), refused(14, 12));
    assert_eq!(contents(&after_head(&record(2, &[0; 10]))), refused(14, 12));
    assert_eq!(contents(&after_head(&record(2, &[0; 8])[0..13])), refused(11, 12));
    assert_eq!(contents(&after_head(&record(3, &[0; 256]))), refused(14, 12));
    assert_eq!(contents(&after_head(&record(4, &[0]))), refused(14, 12));
    assert_eq!(contents(&after_head(&[end, vec![9; 7]].concat())), refused(19, 18));
}

/// Document 02, Item 3: "17 headless (first record is not a head)". The place is that record's first byte.
#[test]
fn headless_traces() {
    let trace = after_head(&record(4, &[]));
    for first in [record(2, &[0; 8]), record(3, &[]), record(3, &[7; 255]), record(4, &[])] {
        assert_eq!(contents(&first), refused(17, 0));
        assert_eq!(contents(&[&first[..], &trace].concat()), refused(17, 0)); // a head as second record
        assert_eq!(contents(&first[..5]), refused(11, 0)); // 11 (six bytes) before 17
    }
    // 17 before 14, and before 11 (payload): lengths that are right for no P
    for (kind, length) in [(2, 0), (2, 3), (2, 4_096), (3, 256), (4, 1)] {
        let first = record(kind, &vec![0; length]);
        assert_eq!(contents(&first), refused(17, 0));
        assert_eq!(contents(&first[..6]), refused(17, 0));
    }
    // 12 before 17
    for kind in [0, 5, 256, 257, 258, 65_535] {
        assert_eq!(contents(&[record(kind, &[0; 6]), trace.clone()].concat()), refused(12, 0));
    }
    // 10 before 17
    assert_eq!(contents(&[record(4, &[]), vec![0; 65_530]].concat()), refused(17, 0));
    assert_eq!(contents(&[record(4, &[]), vec![0; 65_531]].concat()), refused(10, 0));
}

/// "18 second head". The place is the second head's first byte.
#[test]
fn second_heads() {
    let right = record(1, &head(8000, 2));
    let lengths = [0, 5, 7, 256].map(|length| record(1, &vec![1; length])); // 18 before 14
    let values = [(0, 2), (8000, 0), (8000, 11)].map(|(rate, p)| record(1, &head(rate, p))); // 18 before 15
    for records in between() {
        let before = after_head(&records);
        let place = before.len() as u64;
        for second in [&[right.clone(), record(1, &head(1, 10))][..], &lengths, &values].concat() {
            assert_eq!(contents(&[&before[..], &second].concat()), refused(18, place));
            assert_eq!(contents(&[before.clone(), second, record(4, &[])].concat()), refused(18, place));
        }
        // 11 (six bytes) before 18, and 18 before 11 (payload)
        assert_eq!(contents(&[&before[..], &right[..5]].concat()), refused(11, place));
        assert_eq!(contents(&[&before[..], &right[..6]].concat()), refused(18, place));
    }
    // a fault of the first head is found first
    assert_eq!(contents(&[record(1, &head(0, 2)), right.clone()].concat()), refused(15, 0));
    assert_eq!(contents(&[record(1, &[1; 7]), right].concat()), refused(14, 0));
}

/// "19 tail (a byte after the end)". The place is that byte.
#[test]
fn tails() {
    let bytes = [vec![0], vec![4], vec![0; 5], vec![0; 6], vec![9; 7], vec![0; 300]];
    let records = [record(4, &[]), record(2, &[0; 8]), record(3, &[7]), record(1, &head(8000, 2)), record(4, &[0])];
    for held in between() {
        let trace = after_head(&[held, record(4, &[])].concat());
        assert!(contents(&trace).is_ok());
        for tail in bytes.iter().chain(&records) {
            assert_eq!(contents(&[&trace[..], tail].concat()), refused(19, trace.len() as u64));
        }
        assert_eq!(contents(&[&trace[..], &trace].concat()), refused(19, trace.len() as u64));
        // 10 before 19
        let most = vec![0; 65_536 - trace.len()];
        assert_eq!(contents(&[&trace[..], &most].concat()), refused(19, trace.len() as u64));
        assert_eq!(contents(&[&trace[..], &most, &[0]].concat()), refused(10, 0));
    }
    // 14 before 19: "once the end's own length has passed 14"
    for tail in [vec![], vec![0], vec![0; 2], record(4, &[])] {
        assert_eq!(contents(&after_head(&[record(4, &[0]), tail.clone()].concat())), refused(14, 12));
        assert_eq!(contents(&after_head(&[&[1, 0, 0, 0, 4, 0], &tail[..]].concat())), refused(14, 12));
    }
}

/// "Which traces are accepted doesn't change", and 13 "is no longer given": every order of four records, counted by
/// hand. 192 have no head first. Of the other 64 the second record is a head or an end in 16 each; of the 32 left the
/// third is such in 8 each; and of the 16 left the fourth is a head in 4, the end in 4, and in 8 there is no end.
#[test]
fn every_order_of_four_records() {
    let records = [record(1, &head(8000, 2)), record(2, &[0; 8]), record(3, &[7]), record(4, &[])];
    let mut numbers = BTreeMap::new();
    for order in 0..256 {
        let trace = [64, 16, 4, 1].map(|place| records[order / place % 4].clone()).concat();
        let number = contents(&trace).map_or_else(|refusal| refusal.number, |_| 0);
        *numbers.entry(number).or_insert(0) += 1;
    }
    assert_eq!(numbers, BTreeMap::from([(0, 4), (11, 8), (17, 192), (18, 16 + 8 + 4), (19, 16 + 8)]));
}

#[test]
fn fetches() {
    assert_eq!(fetch(&SAMPLE_TRACE, 0, 4), Ok(vec![1, 2, 3, 4]));
    assert_eq!(fetch(&SAMPLE_TRACE, 0, 5), refused(2, 0));
    assert_eq!(fetch(&SAMPLE_TRACE, 1, 5), refused(16, 1));
    assert_eq!(fetch(&SAMPLE_TRACE, u64::MAX, 4), refused(16, u64::MAX));
    assert_eq!(fetch(&SAMPLE_TRACE[0..31], 1, 5), refused(11, 26));
    // which disorder (document 02, Item 3), whether or not the block is there and the cells fit
    for (k, lent) in [(0, 4), (0, 5), (1, 4), (1, 5)] {
        assert_eq!(fetch(&SAMPLE_TRACE[12..], k, lent), refused(17, 0));
        assert_eq!(fetch(&[&SAMPLE_TRACE[..26], &SAMPLE_TRACE].concat(), k, lent), refused(18, 26));
        assert_eq!(fetch(&[&SAMPLE_TRACE[..], &[0]].concat(), k, lent), refused(19, 32));
    }
}

/// Three blocks of two, with notes between them, before them and after them.
fn three_blocks() -> Vec<u8> {
    let blocks = [[1, 0, 2, 0], [0, 0x80, 0xFF, 0x7F], [0xFF, 0xFF, 5, 0]].map(|payload| record(2, &payload));
    let note = record(3, &[2, 0, 0, 0]);
    let [first, second, third] = blocks;
    [record(1, &head(9, 1)), note.clone(), first, second, record(3, &[]), note.clone(), third, note, record(4, &[])]
        .concat()
}

#[test]
fn fetches_of_several_blocks() {
    let trace = three_blocks();
    assert_eq!(fetch(&trace, 0, 2), Ok(vec![1, 2]));
    assert_eq!(fetch(&trace, 1, 2), Ok(vec![-32_768, 32_767]));
    assert_eq!(fetch(&trace, 2, 2), Ok(vec![-1, 5]));
    for k in [3, 4, 255, 256, 65_536, 1 << 32, (1 << 32) + 1, 1 << 56, u64::MAX] {
        assert_eq!(fetch(&trace, k, 2), refused(16, k));
        assert_eq!(fetch(&trace, k, 3), refused(16, k)); // 16 before 2
    }
    for lent in [0, 1, 3, 4, 1024] {
        assert_eq!(fetch(&trace, 2, lent), refused(2, 0));
    }
    let cut = &trace[..trace.len() - 1];
    assert_eq!(fetch(cut, 9, 3), refused(11, cut.len() as u64 - 5)); // the trace's own before 16 and 2
}

#[test]
fn listings() {
    assert_eq!(listing(&SAMPLE_TRACE), SAMPLE_LISTING.as_bytes());
    assert_eq!(listing(&SAMPLE_TRACE[0..31]), b"refused 11 26\n");
    assert_eq!(listing(&[]), b"refused 11 0\n");
    assert_eq!(listing(&SAMPLE_TRACE[12..]), b"refused 17 0\n");
    assert_eq!(listing(&after_head(&SAMPLE_TRACE)), b"refused 18 12\n");
    assert_eq!(listing(&[&SAMPLE_TRACE[..], &SAMPLE_TRACE[26..]].concat()), b"refused 19 32\n");
    let empty = after_head(&record(4, &[]));
    assert_eq!(listing(&empty), b"trace 8000 4 0\nend\n");
}

#[test]
fn listing_program() {
    let mut program =
        Command::new(env!("CARGO_BIN_EXE_oracle")).stdin(Stdio::piped()).stdout(Stdio::piped()).spawn().unwrap();
    let mut input = program.stdin.take().unwrap();
    input.write_all(&SAMPLE_TRACE).unwrap();
    drop(input);
    let output = program.wait_with_output().unwrap();
    assert!(output.status.success());
    assert_eq!(output.stdout, SAMPLE_LISTING.as_bytes());
}

#[test]
fn bytes_of_the_old_host() {
    let mut lent = bytes_of(&[1, 2, 3, 4]);
    assert_eq!(forward_bytes(&mut lent), Ok(()));
    assert_eq!(lent, bytes_of(&[10, -4, -2, 0]));
    let mut output = vec![9; 24];
    assert_eq!(power_bytes(&lent, &mut output), Ok(()));
    assert_eq!(output, bytes_of(&[200, 16, 8]));
    let mut other = vec![8; 24];
    assert_eq!(parts_bytes(&lent, &mut output, &mut other), Ok(()));
    assert_eq!((output, other), (bytes_of(&[20, -4, -4]), bytes_of(&[0, 4, 0])));
    assert_eq!(scaled_bytes(&lent, 1), pair(-4, 4, 8));
    assert_eq!(backward_bytes(&mut lent), Ok(()));
    assert_eq!(lent, bytes_of(&[1, 2, 3, 4]));
}

#[test]
fn bounds_of_bytes() {
    assert_eq!(bound_bytes(&bytes_of(&[-100; 1024])), Ok(2_083));
    assert_eq!(bound_bytes(&bytes_of(&[0, -1])), Ok(0));
    let loud = bytes_of(&[0, 1 << 40, 0]);
    for count in (0..=24).filter(|count| *count != 16) {
        assert_eq!(bound_bytes(&loud[..count]), refused(1, 0)); // 1 before 3
    }
    assert_eq!(bound_bytes(&loud[..16]), refused(3, 1));
}

#[test]
fn refused_bytes_keep_their_contents() {
    let loud = bytes_of(&[0, 1 << 40]);
    let mut lent = loud.clone();
    assert_eq!(forward_bytes(&mut lent), refused(3, 1));
    assert_eq!(backward_bytes(&mut lent), refused(3, 1));
    assert_eq!(forward_bytes(&mut lent[0..15]), refused(1, 0));
    assert_eq!(backward_bytes(&mut lent[0..15]), refused(1, 0));
    assert_eq!(forward_bytes(&mut lent[0..8]), refused(1, 0));
    assert_eq!(lent, loud);
    let mut output = vec![9; 17];
    assert_eq!(power_bytes(&loud[0..15], &mut output), refused(1, 0));
    assert_eq!(power_bytes(&loud[0..8], &mut output), refused(1, 0));
    assert_eq!(power_bytes(&loud, &mut output), refused(2, 0));
    assert_eq!(power_bytes(&loud, &mut output[0..8]), refused(2, 0));
    assert_eq!(power_bytes(&loud, &mut output[0..16]), refused(3, 1));
    assert_eq!(output, [9; 17]);
}

#[test]
fn refused_parts_and_lines_of_bytes() {
    let (loud, quiet) = (bytes_of(&[0, 1 << 40]), bytes_of(&[1, 2]));
    let mut real = vec![9; 17];
    let mut imaginary = vec![8; 17];
    assert_eq!(parts_bytes(&loud[0..15], &mut real, &mut imaginary), refused(1, 0));
    assert_eq!(parts_bytes(&loud[0..8], &mut real, &mut imaginary), refused(1, 0));
    for (first, second) in [(17, 16), (16, 17), (8, 16), (16, 8), (17, 17), (0, 0)] {
        assert_eq!(parts_bytes(&loud, &mut real[..first], &mut imaginary[..second]), refused(2, 0));
    }
    assert_eq!(parts_bytes(&loud, &mut real[..16], &mut imaginary[..16]), refused(3, 1));
    assert_eq!((real, imaginary), (vec![9; 17], vec![8; 17]));
    for line in [0, 1, 2, u64::MAX] {
        assert_eq!(scaled_bytes(&loud[0..15], line), refused(1, 0));
        assert_eq!(scaled_bytes(&loud[0..8], line), refused(1, 0));
        assert_eq!(scaled_bytes(&loud, line), refused(3, 1));
    }
    assert_eq!(scaled_bytes(&quiet, 2), refused(4, 2));
    assert_eq!(scaled_bytes(&quiet, 1), Ok(Scaled::Last(over(2, 2))));
}

#[test]
fn searches_of_bytes() {
    let powers = bytes_of(&CRUNCH);
    assert_eq!(strongest_bytes(&powers, 1, 4), Ok(2));
    assert_eq!(nearest_bytes(&powers, 3, 2), Ok(Some(2)));
    assert_eq!(nearest_bytes(&powers, 3, 3), Ok(None));
    assert_eq!(strongest_bytes(&powers, 2, 1), refused(4, 2));
    assert_eq!(nearest_bytes(&powers, u64::MAX, 3), refused(4, u64::MAX));
    assert_eq!(strongest_bytes(&bytes_of(&[-1, -2]), 0, 1), Ok(0));
    // a count of bytes that is no multiple of eight, and lists of other lengths: 1 before 4
    for count in (0..40).filter(|count| *count != 16 && *count != 24) {
        for line in [0, 1, u64::MAX] {
            assert_eq!(strongest_bytes(&powers[..count], line, 0), refused(1, 0));
            assert_eq!(nearest_bytes(&powers[..count], line, 0), refused(1, 0));
        }
    }
}

#[test]
fn fetches_into_bytes() {
    let trace = three_blocks();
    let held = contents(&trace).unwrap();
    let mut lent = vec![9; 17];
    for count in [0, 8, 15, 17] {
        assert_eq!(fetch_bytes(&trace, 2, &mut lent[..count]), refused(2, 0));
        assert_eq!(fetch_bytes(&trace, 3, &mut lent[..count]), refused(16, 3));
        assert_eq!(fetch_bytes(&trace[1..], 3, &mut lent[..count]), refused(12, 0));
    }
    assert_eq!(fetch_bytes(&trace, u64::MAX, &mut lent[..16]), refused(16, u64::MAX));
    assert_eq!(lent, [9; 17]);
    for (k, samples) in [(0, [1, 2]), (1, [-32_768, 32_767]), (2, [-1, 5])] {
        assert_eq!(fetch_bytes(&trace, k, &mut lent[..16]).as_ref(), Ok(&held));
        assert_eq!(lent[..16], bytes_of(&samples));
    }
    assert_eq!((held.rate, held.p, held.blocks.len(), lent[16]), (9, 1, 3, 9));
}

/// Document 02, Item 4: "one head, the blocks and the end out, no notes".
#[test]
fn saved_traces() {
    assert_eq!(save(8000, 2, &[1, 2, 3, 4], 32), Ok(SAMPLE_TRACE.to_vec()));
    assert_eq!(save(8000, 2, &[1, 2, 3, 4], usize::MAX), Ok(SAMPLE_TRACE.to_vec()));
    let empty = [6, 0, 0, 0, 1, 0, 1, 0, 0, 0, 10, 0, 0, 0, 0, 0, 4, 0];
    assert_eq!(save(1, 10, &[], 18), Ok(empty.to_vec()));
    let head = [6, 0, 0, 0, 1, 0, 0xFF, 0xFF, 0xFF, 0xFF, 1, 0];
    let blocks = [[4, 0, 0, 0, 2, 0, 0, 0x80, 0xFF, 0x7F], [4, 0, 0, 0, 2, 0, 0xFF, 0xFF, 0, 1]];
    let end = [0, 0, 0, 0, 4, 0];
    let two_blocks = [&head[..], &blocks.concat(), &end].concat();
    assert_eq!(save(4_294_967_295, 1, &[-32_768, 32_767, -1, 256], 38), Ok(two_blocks));
    // a payload of 2,048 bytes: 0008 in hex, least byte first
    let largest = save(8000, 10, &[-2; 1024], 65_536).unwrap();
    assert_eq!((largest.len(), &largest[12..20]), (18 + 6 + 2048, &[0, 8, 0, 0, 2, 0, 0xFE, 0xFF][..]));
}

/// "A saved trace reads back as the same rate, P and samples. For the other direction, any accepted trace without notes
/// is byte for byte what saving its contents would give."
#[test]
fn saved_and_read_back() {
    for p in 1..=10 {
        let given = Contents { rate: 1 << (3 * p), p, blocks: blocks(p) };
        for count in 0..=given.blocks.len() {
            let cells = given.blocks[..count].concat();
            let trace = save(given.rate, p.into(), &cells, 65_536).unwrap();
            let held = contents(&trace).unwrap();
            assert_eq!((held.rate, held.p, &held.blocks[..]), (given.rate, p, &given.blocks[..count]));
        }
    }
    let block = record(2, &[0, 0x80, 0xFF, 0x7F, 0xFF, 0xFF, 1, 0]);
    for count in 0..5 {
        let trace = after_head(&[block.repeat(count), record(4, &[])].concat());
        let held = contents(&trace).unwrap();
        assert_eq!(save(held.rate, held.p.into(), &held.blocks.concat(), trace.len()), Ok(trace));
    }
}

/// The most blocks of each P, by hand: 65,518 bytes beside head and end, divided by 6 + 2N and rounded down. With them,
/// and with one more.
#[test]
fn most_blocks() {
    let most = [6551, 4679, 2978, 1724, 935, 488, 250, 126, 63, 31];
    let bytes = [65_528, 65_524, 65_534, 65_530, 65_468, 65_410, 65_518, 65_286, 64_908, 63_692];
    for (i, (most, bytes)) in most.into_iter().zip(bytes).enumerate() {
        let (p, n) = (i as u64 + 1, 2 << i);
        let trace = save(1, p, &vec![-1; most * n], bytes).unwrap();
        assert_eq!((trace.len(), contents(&trace).unwrap().blocks.len()), (bytes, most));
        assert_eq!(save(1, p, &vec![-1; most * n], bytes - 1), refused(2, 0));
        assert_eq!(save(1, p, &vec![-1; (most + 1) * n], usize::MAX), refused(10, 0));
    }
}

/// "15 (place 0)", before all others.
#[test]
fn heads_that_are_not_saved() {
    let (over, most) = (1 << 32, u64::MAX);
    for rate in [0, over, over + 1, over + 8000, 1 << 63, (1 << 63) + 8000, most] {
        assert_eq!(save(rate, 2, &[1, 2, 3, 4], 32), refused(15, 0));
        assert_eq!(save(rate, 2, &[1 << 40; 3], 0), refused(15, 0)); // 1, 3 and 2 hold as well
        assert_eq!(save(rate, 1, &[7; 20_000], 0), refused(15, 0)); // 10 and 2
        assert_eq!(save(rate, 0, &[], 18), refused(15, 0));
    }
    for p in [0, 11, 12, 63, 64, 65, 255, 256, 258, 65_538, over + 2, (1 << 63) + 2, most] {
        assert_eq!(save(8000, p, &[], 18), refused(15, 0));
        assert_eq!(save(8000, p, &[0; 2048], 65_536), refused(15, 0));
        assert_eq!(save(8000, p, &[1 << 40; 3], 0), refused(15, 0));
    }
    assert_eq!(save(1, 1, &[], 18).map(|trace| trace.len()), Ok(18));
    assert_eq!(save(over - 1, 10, &[], 18).map(|trace| trace.len()), Ok(18));
}

/// "1 (cells not a whole number of blocks; zero blocks is fine), 3, 10 (result above 65,536 bytes), 2 (lent bytes too
/// few)", each before those after it.
#[test]
fn refused_runs() {
    for count in [1, 2, 3, 5, 6, 7, 9, 4095, 65_537] {
        assert_eq!(save(8000, 2, &vec![0; count], usize::MAX), refused(1, 0));
        assert_eq!(save(8000, 2, &vec![i64::MAX; count], 0), refused(1, 0)); // 3 and 2 hold as well, at last 10
    }
    for loud in [-32_769, 32_768, 65_536, 65_541, -65_531, 1 << 32, i64::MIN, i64::MAX] {
        for (place, count) in [(0, 4), (3, 4), (4, 8), (7, 8), (0, 80_000), (65_535, 80_000), (79_999, 80_000)] {
            let mut cells = vec![-32_768; count];
            (cells[place], cells[count - 1]) = (loud, loud);
            assert_eq!(save(8000, 2, &cells, usize::MAX), refused(3, place as u64));
            assert_eq!(save(8000, 2, &cells, 0), refused(3, place as u64)); // 2 and, where they are 80,000, 10
        }
    }
    for lent in [0, 65_535, 65_536, 65_537, usize::MAX] {
        assert_eq!(save(8000, 10, &[0; 32 * 1024], lent), refused(10, 0));
    }
    for lent in 0..40 {
        assert_eq!(save(8000, 2, &[], lent).is_ok(), lent >= 18);
        assert_eq!(save(8000, 2, &[32_767; 4], lent).is_ok(), lent >= 32);
    }
    assert_eq!(save(8000, 2, &[], 17), refused(2, 0));
    assert_eq!(save(8000, 2, &[32_767; 4], 31), refused(2, 0));
}

/// "The bytes used are answered, and lent bytes past them keep their contents."
#[test]
fn saves_into_bytes() {
    let cells = bytes_of(&[1, 2, 3, 4]);
    for (count, fill) in [(32, 0), (33, 9), (40, 0xFF), (70_000, 9)] {
        let mut lent = vec![fill; count];
        assert_eq!(save_bytes(8000, 2, &cells, &mut lent), Ok(32));
        assert_eq!(lent[..32], SAMPLE_TRACE);
        assert_eq!(lent[32..], vec![fill; count - 32]);
    }
    let mut lent = vec![9; 40];
    // a count of bytes that is no multiple of eight: 1, after 15 and before 3
    let loud = bytes_of(&[1 << 40; 5]);
    for count in (0..40).filter(|count| count % 32 != 0) {
        assert_eq!(save_bytes(8000, 2, &loud[..count], &mut lent), refused(1, 0));
        assert_eq!(save_bytes(0, 2, &loud[..count], &mut lent), refused(15, 0));
        assert_eq!(save_bytes(8000, 11, &loud[..count], &mut lent), refused(15, 0));
    }
    assert_eq!(save_bytes(8000, 2, &loud[..32], &mut lent), refused(3, 0));
    assert_eq!(save_bytes(8000, 2, &cells, &mut lent[..31]), refused(2, 0));
    assert_eq!(save_bytes(8000, 2, &[], &mut lent[..17]), refused(2, 0));
    assert_eq!(save_bytes(8000, 1, &vec![0; 16 * 6552], &mut lent), refused(10, 0));
    assert_eq!(lent, [9; 40]);
    assert_eq!(save_bytes(8000, 2, &[], &mut lent[..18]), Ok(18));
    assert_eq!(lent[18..], [9; 22]);
}
