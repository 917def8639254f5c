//! Section "Cosines".

use std::sync::OnceLock;

/// "for j in 1,024ths of a turn"
pub const TURN: i64 = 1024;
const HALF: i64 = 512;
const QUARTER: i64 = 256;

/// "the whole square root, rounded down", of an x below 2^122, found digit by digit.
fn whole_root(x: i128) -> i128 {
    let mut root: i128 = 0;
    for digit in (0..=60).rev() {
        let tried = root + (1 << digit);
        if tried * tried <= x {
            root = tried;
        }
    }
    assert!(root * root <= x && x < (root + 1) * (root + 1));
    root
}

/// "F(0) = 2^60, F(256) = 0, and for 0 < j < 256" the half-angle law.
fn half_angle(j: i64) -> i128 {
    if j == 0 {
        return 1 << 60;
    }
    if j == QUARTER {
        return 0;
    }
    let g = if 2 * j <= QUARTER { half_angle(2 * j) } else { -half_angle(HALF - 2 * j) };
    whole_root(((1 << 60) + g) * (1 << 59))
}

/// F(0) to F(256), computed once.
fn fine_quarter() -> &'static Vec<i128> {
    static FINE: OnceLock<Vec<i128>> = OnceLock::new();
    FINE.get_or_init(|| (0..=QUARTER).map(half_angle).collect())
}

/// "The full turn follows by the cosine's symmetries (even about 0, odd about 256)": place in the quarter, and sign.
fn folded(j: i64) -> (usize, i64) {
    let mut j = j.rem_euclid(TURN);
    if j > HALF {
        j = TURN - j;
    }
    if j > QUARTER {
        return ((HALF - j) as usize, -1);
    }
    (j as usize, 1)
}

/// "Fine cosines F(j), at scale 2^60", over the full turn.
pub fn fine_cosine(j: i64) -> i128 {
    let (place, sign) = folded(j);
    fine_quarter()[place] * i128::from(sign)
}

/// "T(j) = (F(j) + 2^44) / 2^45, rounded down, extended in the same way": the sign comes after the rounding.
pub fn table_cosine(j: i64) -> i64 {
    let (place, sign) = folded(j);
    let t = (fine_quarter()[place] + (1 << 44)).div_euclid(1 << 45);
    t as i64 * sign
}

/// "The sine at j is the cosine at j - 256", of the table.
pub fn table_sine(j: i64) -> i64 {
    table_cosine(j - QUARTER)
}

/// "cas is cosine plus sine", fine.
pub fn fine_cas(j: i64) -> i128 {
    fine_cosine(j) + fine_cosine(j - QUARTER)
}
