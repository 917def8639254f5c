//! Document 02, Item 2, "Crunch lines in a band". Sentences in quotation marks are document 02's own here.

use crate::refusal::{refuse_asked_if, refuse_if, Refusal, LENGTH, LINE};

/// "1 if the list isn't N/2 + 1 long for a permitted N"
fn test_list(powers: &[i64]) -> Result<(), Refusal> {
    let right = (1..=10).any(|p| powers.len() == (1 << p) / 2 + 1);
    refuse_if(!right, LENGTH, 0)
}

/// "4 if a given line exceeds N/2", the place being that line.
fn test_line(powers: &[i64], line: u64) -> Result<(), Refusal> {
    let half = powers.len() - 1; // N/2, the list being N/2 + 1 long
    refuse_asked_if(line > half as u64, LINE, line)
}

/// "place the first such line, low end before high"; and 4 if "the band's low end exceeds its high end (place the low
/// end)".
fn test_band(powers: &[i64], low: u64, high: u64) -> Result<(), Refusal> {
    test_line(powers, low)?;
    test_line(powers, high)?;
    refuse_asked_if(low > high, LINE, low)
}

/// "the strongest line between two lines, both included": the greatest power of the band first, then the line that has
/// it. "The strongest line is the lowest of equals."
pub fn strongest(powers: &[i64], low: u64, high: u64) -> Result<u64, Refusal> {
    test_list(powers)?;
    test_band(powers, low, high)?;
    let band = &powers[low as usize..=high as usize];
    let greatest = band.iter().max();
    let before = band.iter().take_while(|power| Some(*power) != greatest).count();
    Ok(low + before as u64)
}

/// "the line nearest to a chosen one whose doubled power reaches a given level": of all lines in the list that reach
/// it, the least by distance and then by line, since the nearest "is the lower of two equally near". "When no line in
/// the list reaches the level the answer is none, and only then."
pub fn nearest(powers: &[i64], chosen: u64, level: i64) -> Result<Option<u64>, Refusal> {
    test_list(powers)?;
    test_line(powers, chosen)?;
    let lines = 0..powers.len() as u64; // "the chosen line may itself be the nearest"
    let reaching = lines.filter(|line| powers[*line as usize] >= level);
    Ok(reaching.min_by_key(|line| (line.abs_diff(chosen), *line)))
}
