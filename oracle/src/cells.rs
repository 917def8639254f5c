//! The old host's form: "each cell is eight bytes, two's complement, least byte first".

use crate::blocks::{backward, forward, test_length};
use crate::fourier::{parts, power};
use crate::quiet::bound;
use crate::refusal::{refuse_if, Refusal, LENGTH, MISFIT};
use crate::saving::{save, test_head};
use crate::scaled::{scaled, Scaled};
use crate::search::{nearest, strongest};
use crate::smoothing::smooth;
use crate::table::table;
use crate::trace::{block, contents, test_block, Contents};

/// "a count of bytes that is no multiple of eight is a refusal 1"
fn cells_of(bytes: &[u8]) -> Result<Vec<i64>, Refusal> {
    refuse_if(bytes.len() % 8 != 0, LENGTH, 0)?;
    let mut cells = Vec::new();
    for eight in bytes.chunks(8) {
        let mut cell = [0; 8];
        cell.copy_from_slice(eight);
        cells.push(i64::from_le_bytes(cell));
    }
    Ok(cells)
}

/// Writes cells, "two's complement, least byte first", over as many lent bytes.
fn replace(lent: &mut [u8], cells: &[i64]) {
    for (eight, cell) in lent.chunks_mut(8).zip(cells) {
        eight.copy_from_slice(&cell.to_le_bytes());
    }
}

/// Forward on bytes: it replaces "the cells of the lent block".
pub fn forward_bytes(lent: &mut [u8]) -> Result<(), Refusal> {
    let spectrum = forward(&cells_of(lent)?)?;
    replace(lent, &spectrum);
    Ok(())
}

/// The bound of a block on bytes (document 02, Item 6); nothing is lent to be written.
pub fn bound_bytes(cells: &[u8]) -> Result<u64, Refusal> {
    bound(&cells_of(cells)?)
}

/// Backward on bytes: it replaces "the cells of the lent block".
pub fn backward_bytes(lent: &mut [u8]) -> Result<(), Refusal> {
    let samples = backward(&cells_of(lent)?)?;
    replace(lent, &samples);
    Ok(())
}

/// A count of bytes that is no multiple of eight is a refusal 1, "or 2 in an output", and 2 in weights as well; else
/// the count of cells.
fn cells_lent(lent: &[u8]) -> Result<usize, Refusal> {
    refuse_if(lent.len() % 8 != 0, MISFIT, 0)?;
    Ok(lent.len() / 8)
}

/// Parts on bytes: the call "fills two lent lists, real and imaginary".
pub fn parts_bytes(spectrum: &[u8], real: &mut [u8], imaginary: &mut [u8]) -> Result<(), Refusal> {
    let cells = cells_of(spectrum)?;
    test_length(cells.len())?;
    let (real_part, imaginary_part) = parts(&cells, cells_lent(real)?, cells_lent(imaginary)?)?;
    replace(real, &real_part);
    replace(imaginary, &imaginary_part);
    Ok(())
}

/// Power on bytes: "the call for the power fills one".
pub fn power_bytes(spectrum: &[u8], lent: &mut [u8]) -> Result<(), Refusal> {
    let cells = cells_of(spectrum)?;
    test_length(cells.len())?;
    let doubled = power(&cells, cells_lent(lent)?)?;
    replace(lent, &doubled);
    Ok(())
}

/// A scaled line of a spectrum on bytes; it has no lent output.
pub fn scaled_bytes(spectrum: &[u8], line: u64) -> Result<Scaled, Refusal> {
    scaled(&cells_of(spectrum)?, line)
}

/// The strongest line of a band (document 02, Item 2), the powers being bytes; nothing is lent to be written.
pub fn strongest_bytes(powers: &[u8], low: u64, high: u64) -> Result<u64, Refusal> {
    strongest(&cells_of(powers)?, low, high)
}

/// The nearest line that reaches a level, of powers on bytes.
pub fn nearest_bytes(powers: &[u8], chosen: u64, level: i64) -> Result<Option<u64>, Refusal> {
    nearest(&cells_of(powers)?, chosen, level)
}

/// Smoothing on bytes (document 02, Item 7): "The smoothed cells replace the samples in their block; the weights are
/// kept." Bytes of weights that are no whole number of cells are not N cells.
pub fn smooth_bytes(lent: &mut [u8], weights: &[u8]) -> Result<(), Refusal> {
    let cells = cells_of(lent)?;
    test_length(cells.len())?;
    cells_lent(weights)?;
    let smoothed = smooth(&cells, &cells_of(weights)?)?;
    replace(lent, &smoothed);
    Ok(())
}

/// The quarter table into bytes (document 02, Item 8), which are 257 lent cells: "misfit | a lent output not" so many.
pub fn table_bytes(lent: &mut [u8]) -> Result<(), Refusal> {
    let numbers = table();
    refuse_if(cells_lent(lent)? != numbers.len(), MISFIT, 0)?;
    replace(lent, &numbers);
    Ok(())
}

/// A fetch into bytes: the trace's own tests, "then tests 16, then 2". It answers what the check does, and "also
/// fills N lent cells".
pub fn fetch_bytes(trace: &[u8], k: u64, lent: &mut [u8]) -> Result<Contents, Refusal> {
    let held = contents(trace)?;
    test_block(&held, k)?;
    let samples = block(&held, k, cells_lent(lent)?)?;
    replace(lent, samples);
    Ok(held)
}

/// Saving into bytes (document 02, Item 4), the cells being bytes as well: 15 is tested before their count. "The bytes
/// used are answered, and lent bytes past them keep their contents."
pub fn save_bytes(rate: u64, p: u64, cells: &[u8], lent: &mut [u8]) -> Result<u64, Refusal> {
    test_head(rate, p)?;
    let trace = save(rate, p, &cells_of(cells)?, lent.len())?;
    lent[..trace.len()].copy_from_slice(&trace);
    Ok(trace.len() as u64)
}
