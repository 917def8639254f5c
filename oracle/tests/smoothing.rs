//! Smoothing, by hand (document 02, Item 7).

use oracle::*;

/// The largest result: 32,768 × 32,767.
const LARGEST: i64 = 1_073_709_056;

fn refused<A>(number: u64, place: u64) -> Result<A, Refusal> {
    Err(Refusal { number, place })
}

/// The cells in the old host's form.
fn bytes_of(cells: &[i64]) -> Vec<u8> {
    cells.iter().flat_map(|cell| cell.to_le_bytes()).collect()
}

/// So many cells, all 0 but one.
fn alone(n: usize, place: usize, cell: i64) -> Vec<i64> {
    let mut cells = vec![0; n];
    cells[place] = cell;
    cells
}

/// The same cells so many moments later, cyclically.
fn delayed(cells: &[i64], by: usize) -> Vec<i64> {
    let mut later = cells.to_vec();
    later.rotate_right(by);
    later
}

/// The same cells with every sign reversed.
fn negative(cells: &[i64]) -> Vec<i64> {
    cells.iter().map(|cell| -cell).collect()
}

/// So many cells between -most and most, freely mixed.
fn mixed(n: usize, most: i64, seed: u64) -> Vec<i64> {
    let mut state = 1 + seed;
    let mut cells = Vec::new();
    for _ in 0..n {
        state = state.wrapping_mul(6364136223846793005).wrapping_add(1);
        cells.push((state >> 33) as i64 % (2 * most + 1) - most);
    }
    cells
}

/// For each length a block of any samples, and one whose magnitudes add to at most 32,767.
fn blocks() -> Vec<(Vec<i64>, Vec<i64>)> {
    (1..=10).map(|p| (mixed(1 << p, 32_767, p), mixed(1 << p, 32_767 >> p, 100 + p))).collect()
}

/// All moments of a block, or, where they are many, some of them with the first and the last.
fn several_of(n: usize) -> impl Iterator<Item = usize> {
    (0..n).filter(move |k| n <= 64 || k % 97 == 0 || *k == n - 1)
}

#[test]
fn smoothing_worked_by_hand() {
    let rising = [1, 2, 3, 4];
    assert_eq!(smooth(&rising, &[1, 0, 0, 0]), Ok(vec![1, 2, 3, 4]));
    assert_eq!(smooth(&rising, &[0, 1, 0, 0]), Ok(vec![4, 1, 2, 3]));
    assert_eq!(smooth(&rising, &[0, 0, 1, 0]), Ok(vec![3, 4, 1, 2]));
    assert_eq!(smooth(&rising, &[0, 0, 0, 1]), Ok(vec![2, 3, 4, 1]));
    assert_eq!(smooth(&rising, &[0, 0, 0, -3]), Ok(vec![-6, -9, -12, -3]));
    assert_eq!(smooth(&rising, &[1, 1, 1, 1]), Ok(vec![10; 4]));
    // at moment 0, for instance, 1 × 1 + 2 × -1 + 3 × 0 + 4 × 2
    assert_eq!(smooth(&rising, &[1, 2, 0, -1]), Ok(vec![7, 1, 3, 9]));
    // 3 × 2 - 5 × 7, and 3 × 7 - 5 × 2
    assert_eq!(smooth(&[3, -5], &[2, 7]), Ok(vec![-29, 11]));
    assert_eq!(smooth(&[1, 1], &[1, -1]), Ok(vec![0, 0]));
    // twice the sample itself, and its neighbours once
    let kernel = [2, 1, 0, 0, 0, 0, 0, 1];
    assert_eq!(smooth(&[0, 0, 4, 0, 0, 0, 0, 8], &kernel), Ok(vec![8, 4, 8, 4, 0, 0, 8, 16]));
}

/// "with no rounding": the largest results that there are, of either sign, at all moments and at one.
#[test]
fn largest_results() {
    for p in 1..=10 {
        let n = 1 << p;
        let (lowest, last) = (vec![-32_768; n], n - 1);
        for place in [0, n / 2, last] {
            assert_eq!(smooth(&lowest, &alone(n, place, 32_767)), Ok(vec![-LARGEST; n]));
            assert_eq!(smooth(&lowest, &alone(n, place, -32_767)), Ok(vec![LARGEST; n]));
            let result = alone(n, (place + last) % n, LARGEST);
            assert_eq!(smooth(&alone(n, last, -32_768), &alone(n, place, -32_767)), Ok(result));
        }
        let mut shared = vec![-1; n];
        shared[last] = n as i64 - 32_768; // their magnitudes add to 32,767
        assert_eq!(smooth(&lowest, &shared), Ok(vec![LARGEST; n]));
        assert_eq!(smooth(&lowest, &negative(&shared)), Ok(vec![-LARGEST; n]));
        assert_eq!(smooth(&vec![32_767; n], &shared), Ok(vec![-32_767 * 32_767; n]));
    }
}

/// One weight at moment k delays the samples by k; at moment 0 a weight of 1 leaves them.
#[test]
fn single_weights() {
    for (samples, _) in blocks() {
        let n = samples.len();
        for k in several_of(n) {
            let later = delayed(&samples, k);
            assert_eq!(smooth(&samples, &alone(n, k, 1)), Ok(later.clone()));
            assert_eq!(smooth(&samples, &alone(n, k, -1)), Ok(negative(&later)));
            let result = later.iter().map(|cell| -32_767 * cell).collect();
            assert_eq!(smooth(&samples, &alone(n, k, -32_767)), Ok(result));
        }
    }
}

/// Samples and weights may be exchanged where both can be either. The negative of the one, or of the other, has the
/// negative result, and a delay of either delays it. The sum of all results is the product of both sums.
#[test]
fn laws() {
    for (samples, weights) in blocks() {
        let n = samples.len();
        let quiet = mixed(n, 32_767 / n as i64, 1);
        assert_eq!(smooth(&quiet, &weights), smooth(&weights, &quiet));
        let result = smooth(&samples, &weights).unwrap();
        assert_eq!(smooth(&negative(&samples), &weights), Ok(negative(&result)));
        assert_eq!(smooth(&samples, &negative(&weights)), Ok(negative(&result)));
        assert_eq!(smooth(&delayed(&samples, 1), &weights), Ok(delayed(&result, 1)));
        assert_eq!(smooth(&samples, &delayed(&weights, n - 1)), Ok(delayed(&result, n - 1)));
        assert_eq!(result.iter().sum::<i64>(), samples.iter().sum::<i64>() * weights.iter().sum::<i64>());
    }
}

/// "1; 2 if the weights aren't N cells; 3 for samples; 20", each before those after it.
#[test]
fn order_of_refusals() {
    let (quiet, loud) = ([1, 2, 3, 4], [1, 2, 3, 40_000]);
    assert_eq!(smooth(&loud, &[1, 2, 3]), refused(2, 0));
    assert_eq!(smooth(&loud, &[40_000, 2, 3]), refused(2, 0));
    assert_eq!(smooth(&loud, &[40_000, 2, 3, 4]), refused(3, 3));
    assert_eq!(smooth(&quiet, &[40_000, 2, 3]), refused(2, 0));
    assert_eq!(smooth(&quiet, &[40_000, 2, 3, 4]), refused(20, 0));
    for count in [0, 1, 3, 5, 1023, 1025, 2048] {
        for cell in [0, i64::MIN] {
            assert_eq!(smooth(&vec![cell; count], &vec![0; count]), refused(1, 0));
            assert_eq!(smooth(&vec![cell; count], &vec![i64::MAX; count]), refused(1, 0));
            assert_eq!(smooth(&vec![cell; count], &vec![i64::MAX; count + 1]), refused(1, 0));
        }
    }
    for n in [2, 4, 8, 16, 1024] {
        for count in [0, 1, n / 2, n / 2 + 1, n - 1, n + 1, 2 * n, 2048].into_iter().filter(|count| *count != n) {
            assert_eq!(smooth(&vec![0; n], &vec![0; count]), refused(2, 0));
            assert_eq!(smooth(&vec![i64::MIN; n], &vec![i64::MIN; count]), refused(2, 0));
        }
        assert_eq!(smooth(&vec![-32_768; n], &vec![0; n]), Ok(vec![0; n]));
        for loud in [-32_769, 32_768, 1 << 32, i64::MIN, i64::MAX] {
            for place in [0, n / 2, n - 1] {
                let mut samples = alone(n, n - 1, loud); // a later one does not move the place
                samples[place] = loud;
                assert_eq!(smooth(&samples, &vec![0; n]), refused(3, place as u64));
                assert_eq!(smooth(&samples, &vec![i64::MIN; n]), refused(3, place as u64));
            }
        }
    }
}

/// "their magnitudes add to more than 32,767; place the first cell where the running sum passes it"
#[test]
fn refused_weights() {
    let (least, most) = (i64::MIN, i64::MAX);
    for (weights, place) in [
        ([20_000, -12_767, 0, -1], 3),
        ([20_000, -12_767, -1, 1], 2),
        ([20_000, -12_768, 0, 12_768], 1),
        ([-20_000, 20_000, -20_000, 20_000], 1), // their plain sum is 0
        ([32_767, 0, 0, 1], 3),
        ([32_767, 0, 0, -1], 3),
        ([0, -32_767, -1, 0], 2),
        ([32_768, 0, 0, 0], 0),
        ([-32_768, 0, 0, 0], 0),
        ([0, 0, 0, -32_768], 3),
        ([least, 0, 0, 0], 0),
        ([least; 4], 0),
        ([most; 4], 0),
        ([least, most, 1, 0], 0),
        ([0, 1, most, least], 2),
        ([0, 0, 0, least], 3),
        ([1, (1 << 32) - 1, 0, 0], 1),
        ([1, 1 << 31, 1 << 31, 0], 1),
    ] {
        assert_eq!(smooth(&[1, 2, 3, 4], &weights), refused(20, place), "weights {weights:?}");
    }
    // 20,000 × 1 - 12,767 × 4, then 20,000 × 2 - 12,767 × 1 and so on
    let result = vec![-31_068, 27_233, 34_466, 41_699];
    assert_eq!(smooth(&[1, 2, 3, 4], &[20_000, -12_767, 0, 0]), Ok(result));
    for p in 1..=10 {
        let n = 1 << p;
        let mut weights = vec![-1; n];
        for place in several_of(n) {
            weights[place] = n as i64 - 32_768; // with the others, 32,767
            assert!(smooth(&vec![0; n], &weights).is_ok());
            weights[place] -= 1;
            assert_eq!(smooth(&vec![0; n], &weights), refused(20, n as u64 - 1));
            weights[place] = least;
            assert_eq!(smooth(&vec![0; n], &weights), refused(20, place as u64));
            weights[place] = -1;
        }
    }
}

/// "The smoothed cells replace the samples in their block; the weights are kept." Where it is refused, both are.
#[test]
fn smoothing_of_bytes() {
    let mut lent = bytes_of(&[1, 2, 3, 4]);
    assert_eq!(smooth_bytes(&mut lent, &bytes_of(&[0, 1, 0, -1])), Ok(()));
    assert_eq!(lent, bytes_of(&[2, -2, -2, 2]));
    let mut lent = bytes_of(&[-32_768, -32_768]);
    assert_eq!(smooth_bytes(&mut lent, &bytes_of(&[-32_766, -1])), Ok(()));
    assert_eq!(lent, bytes_of(&[LARGEST, LARGEST]));

    let loud = bytes_of(&[1, 40_000, 3, 4, 5]);
    let heavy = bytes_of(&[i64::MIN, i64::MAX, 0, 1, 2]);
    let mut lent = loud.clone();
    for count in (0..=40).filter(|count| ![16, 32].contains(count)) {
        assert_eq!(smooth_bytes(&mut lent[..count], &heavy[..count]), refused(1, 0));
        assert_eq!(smooth_bytes(&mut lent[..count], &heavy[..16]), refused(1, 0));
        // a count that is no multiple of eight is 2 in the weights
        assert_eq!(smooth_bytes(&mut lent[..32], &heavy[..count]), refused(2, 0));
        assert_eq!(smooth_bytes(&mut lent[16..32], &heavy[..count]), refused(2, 0));
    }
    assert_eq!(smooth_bytes(&mut lent[..32], &heavy[..32]), refused(3, 1));
    assert_eq!(smooth_bytes(&mut lent[16..32], &heavy[..16]), refused(20, 0));
    assert_eq!(smooth_bytes(&mut lent[16..32], &heavy[8..24]), refused(20, 0));
    assert_eq!(lent, loud);
}
