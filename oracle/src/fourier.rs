//! Doubled Fourier parts and doubled power, "for v from 0 to N/2".

use crate::blocks::{test_length, test_spectrum};
use crate::refusal::{refuse_if, Refusal, MISFIT};

/// Refusal 2: "a lent output not ... N/2 + 1 (parts, power)".
fn test_lent(spectrum: &[i64], lent: usize) -> Result<(), Refusal> {
    refuse_if(lent != spectrum.len() / 2 + 1, MISFIT, 0)
}

/// H(v) and H(N-v), "with H(N) read as H(0)".
pub fn mirrored(spectrum: &[i64], v: usize) -> (i64, i64) {
    let n = spectrum.len();
    (spectrum[v], spectrum[(n - v) % n])
}

/// "doubled real part H(v) + H(N-v); doubled imaginary part H(N-v) - H(v)"
pub fn parts(spectrum: &[i64], real: usize, imaginary: usize) -> Result<(Vec<i64>, Vec<i64>), Refusal> {
    test_length(spectrum.len())?;
    test_lent(spectrum, real)?;
    test_lent(spectrum, imaginary)?;
    test_spectrum(spectrum)?;
    let mut real_part = Vec::new();
    let mut imaginary_part = Vec::new();
    for v in 0..=spectrum.len() / 2 {
        let (line, mirror) = mirrored(spectrum, v);
        real_part.push(line + mirror);
        imaginary_part.push(mirror - line);
    }
    Ok((real_part, imaginary_part))
}

/// "doubled power H(v)² + H(N-v)²"
pub fn power(spectrum: &[i64], lent: usize) -> Result<Vec<i64>, Refusal> {
    test_length(spectrum.len())?;
    test_lent(spectrum, lent)?;
    test_spectrum(spectrum)?;
    let mut doubled = Vec::new();
    for v in 0..=spectrum.len() / 2 {
        let (line, mirror) = mirrored(spectrum, v);
        doubled.push(line * line + mirror * mirror);
    }
    Ok(doubled)
}
