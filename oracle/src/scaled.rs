//! Scaled lines: "A scaled line is an f64 answer". Here it is a fraction of whole numbers, and nothing is rounded.

use crate::blocks::{test_length, test_spectrum};
use crate::fourier::mirrored;
use crate::refusal::{refuse_asked_if, Refusal, LINE};

/// A whole number over N or 2N; "N is a power of two, so every quotient is exact".
#[derive(Debug, Clone, Copy, PartialEq, Eq)]
pub struct Fraction {
    pub numerator: i64,
    pub denominator: i64,
}

/// "line 0 is a mean H(0)/N, line N/2 is a last line H(N/2)/N, every other line is a pair of real and imaginary part"
#[derive(Debug, Clone, Copy, PartialEq, Eq)]
pub enum Scaled {
    Mean(Fraction),
    Last(Fraction),
    Pair { real: Fraction, imaginary: Fraction },
}

/// Tests 1, 3 and 4 in turn; 4: "scaled line above N/2", the place being "that line".
pub fn scaled(spectrum: &[i64], line: u64) -> Result<Scaled, Refusal> {
    test_length(spectrum.len())?;
    test_spectrum(spectrum)?;
    let half = spectrum.len() / 2;
    refuse_asked_if(line > half as u64, LINE, line)?;
    let v = line as usize;
    let n = spectrum.len() as i64;
    if v == 0 {
        return Ok(Scaled::Mean(Fraction { numerator: spectrum[0], denominator: n }));
    }
    if v == half {
        return Ok(Scaled::Last(Fraction { numerator: spectrum[half], denominator: n }));
    }
    Ok(pair(mirrored(spectrum, v), 2 * n))
}

/// "each the doubled part over 2N": "doubled real part H(v) + H(N-v); doubled imaginary part H(N-v) - H(v)"
fn pair((line, mirror): (i64, i64), denominator: i64) -> Scaled {
    let real = Fraction { numerator: line + mirror, denominator };
    let imaginary = Fraction { numerator: mirror - line, denominator };
    Scaled::Pair { real, imaginary }
}
