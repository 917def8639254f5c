//! The cases of the two searches (document 02, Item 2). Each must have been seen at every P that has it.

use crate::inputs::LENGTHS;
use oracle::Refusal;

/// A case: its name, the least P that has it, and whether an input is one.
pub type Case = (&'static str, usize, bool);

/// The cases of a list that is refused for its length, by a P of its size. Those of more cells have none.
pub fn of_length(bytes: usize) -> Vec<Case> {
    let (cells, left_over) = (bytes / 8, bytes % 8);
    if cells > 1024 {
        return Vec::new();
    }
    let over = |more| LENGTHS.iter().any(|n| n / 2 + 1 + more == cells);
    vec![
        ("refused: bytes left over", 1, over(0) && left_over > 0),
        ("refused: one cell too many", 2, over(1) && left_over == 0),
        ("refused: N cells", 2, LENGTHS.contains(&cells) && left_over == 0),
    ]
}

/// The cases of a band that is taken, or refused for its lines.
pub fn of_strongest(powers: &[i64], low: u64, high: u64, second: Result<u64, Refusal>) -> Vec<Case> {
    match second {
        Ok(line) => band_taken(powers, [low, line, high].map(|line| line as usize)),
        Err(refusal) if refusal.number == 4 => band_refused(powers.len() as u64 - 1, low, high, refusal.place),
        Err(_) => Vec::new(),
    }
}

/// Where the strongest line stands in the band, and what stands beside it.
fn band_taken(powers: &[i64], [low, line, high]: [usize; 3]) -> Vec<Case> {
    let (before, band, after) = (&powers[..low], &powers[low..=high], &powers[high + 1..]);
    let power = powers[line];
    let equals = powers[line + 1..=high].contains(&power);
    vec![
        ("band of one line", 1, low == high),
        ("band of all lines", 1, band.len() == powers.len()),
        ("strongest at the low end", 1, line == low && low < high),
        ("strongest inside", 2, low < line && line < high),
        ("strongest at the high end", 1, low < high && line == high),
        ("equals from the low end on", 1, equals && line == low),
        ("equals from inside on", 2, equals && low < line),
        ("equal before the band", 1, before.contains(&power)),
        ("stronger before the band", 1, before.iter().any(|its| *its > power)),
        ("stronger after the band", 1, after.iter().any(|its| *its > power)),
        ("all below zero", 1, power < 0),
        ("some below zero", 1, power >= 0 && band.iter().any(|its| *its < 0)),
        ("least and largest i64", 1, power == i64::MAX && band.contains(&i64::MIN)),
    ]
}

/// Which end is above N/2, and whether the band is turned round.
fn band_refused(half: u64, low: u64, high: u64, place: u64) -> Vec<Case> {
    vec![
        ("refused: low end above N/2", 1, low > half && high <= half),
        ("refused: high end above N/2", 1, low <= half && high > half),
        ("refused: both above N/2, high above low", 1, half < low && low < high),
        ("refused: both above N/2, low above high", 1, half < high && high < low),
        ("refused: turned round, none above N/2", 1, high < low && low <= half),
        ("refused: low end at N/2 + 1", 1, low == half + 1),
        ("refused: high end at N/2 + 1", 1, low <= half && high == half + 1),
        ("refused: place of eight bytes", 1, place >= 1 << 56),
    ]
}

/// The cases of a chosen line that is taken, or refused.
pub fn of_nearest(powers: &[i64], chosen: u64, level: i64, second: Result<Option<u64>, Refusal>) -> Vec<Case> {
    match second {
        Ok(line) => chosen_taken(powers, chosen as usize, level, line.map(|line| line as usize)),
        Err(refusal) if refusal.number == 4 => vec![
            ("refused: chosen line at N/2 + 1", 1, chosen == powers.len() as u64),
            ("refused: place of eight bytes", 1, refusal.place >= 1 << 56),
        ],
        Err(_) => Vec::new(),
    }
}

/// Where there is none, the chosen line stands for it, at distance 0, and shows no case of another line.
fn chosen_taken(powers: &[i64], chosen: usize, level: i64, line: Option<usize>) -> Vec<Case> {
    [levels(powers, level, line), distances(powers, chosen, level, line.unwrap_or(chosen))].concat()
}

/// Whether a power is one less than the level.
fn one_short(power: &i64, level: i64) -> bool {
    power.checked_add(1) == Some(level)
}

/// How the level lies to the powers.
fn levels(powers: &[i64], level: i64, line: Option<usize>) -> Vec<Case> {
    let power = line.map(|line| powers[line]);
    vec![
        ("none", 1, line.is_none()),
        ("none, one line one short", 1, line.is_none() && powers.iter().any(|its| one_short(its, level))),
        ("level below every power", 1, powers.iter().all(|its| *its > level)),
        ("power equal to the level", 1, power == Some(level)),
        ("level below zero, power not", 1, level < 0 && power.is_some_and(|power| power >= 0)),
        ("another line stronger", 1, power.is_some_and(|power| powers.iter().any(|its| *its > power))),
        ("level the least i64", 1, level == i64::MIN),
        ("level the largest i64, reached", 1, level == i64::MAX && line.is_some()),
        ("level the largest i64, none", 1, level == i64::MAX && line.is_none()),
    ]
}

/// How the line lies to the chosen one, and what is as near, nearer, or one step farther away.
fn distances(powers: &[i64], chosen: usize, level: i64, line: usize) -> Vec<Case> {
    let (last, distance) = (powers.len() - 1, line.abs_diff(chosen));
    let reaches = |at: Option<&i64>| at.is_some_and(|power| *power >= level);
    let below = |steps| chosen.checked_sub(steps).map(|line| &powers[line]);
    let above = |steps| powers.get(chosen + steps);
    let nearer: Vec<i64> = (0..=last).filter(|at| at.abs_diff(chosen) < distance).map(|at| powers[at]).collect();
    vec![
        ("the chosen line itself", 1, distance == 0 && reaches(below(0))),
        ("a line below", 1, line < chosen),
        ("a line above", 1, line > chosen),
        ("line 0, another chosen", 1, line == 0 && distance > 0),
        ("the last line, another chosen", 1, line == last && distance > 0),
        ("two equally near", 2, distance > 0 && reaches(below(distance)) && reaches(above(distance))),
        ("below, and one step farther above", 3, line < chosen && reaches(above(distance + 1))),
        ("above, and one step farther below", 3, line > chosen && reaches(below(distance + 1))),
        ("farther away than the nearer end", 1, distance > chosen.min(last - chosen)),
        ("a nearer line one short", 1, nearer.iter().any(|its| one_short(its, level))),
        ("a nearer line below zero, level not", 1, level >= 0 && nearer.iter().any(|its| *its < 0)),
    ]
}
