//! Inputs of the scaled lines: every line of spectra, lines above N/2, and parts that are zero.

use crate::call::{Call, LINES, SAMPLES};
use crate::compare::Comparison;
use crate::inputs::{bytes_of, lines_above, mirrored, shaped, LENGTHS, SHAPES};

pub fn lines(c: &mut Comparison) {
    for n in LENGTHS {
        for shape in SHAPES {
            let samples = bytes_of(&shaped(shape, n, SAMPLES, &mut c.random));
            let (_, left) = c.signed_block(Call::Forward, shape, &samples, &[]);
            every_line(c, "every line of what forward left", &left);
            let spectrum = bytes_of(&shaped(shape, n, LINES, &mut c.random));
            every_line(c, "every line of spectra so shaped", &spectrum);
            for line in lines_above(n, &mut c.random) {
                c.scaled("line above N/2", &spectrum, line);
            }
        }
        zero_parts(c, n);
    }
}

/// Lines 0 to N/2.
fn every_line(c: &mut Comparison, sort: &'static str, spectrum: &[u8]) {
    for line in 0..=spectrum.len() as u64 / 16 {
        c.scaled(sort, spectrum, line);
    }
}

/// Every line of spectra with a mean or a last line of 0, or both, and with pairs whose real or imaginary part is 0.
fn zero_parts(c: &mut Comparison, n: usize) {
    for turn in 0..9 {
        let any = c.random.between(1, LINES.1);
        let ends = [turn / 3, turn % 3].map(|sign| [0, -any, any][sign]);
        let spectrum = bytes_of(&mirrored(n, ends, turn, &mut c.random));
        every_line(c, "zero parts", &spectrum);
    }
}
