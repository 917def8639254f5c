//! The cases of saving (document 02, Item 4). Each must have been seen: at every P, or once where P itself is wrong.

use crate::call::{Call, SAMPLES};
use crate::cases::Case;
use crate::disorders::Form;
use crate::inputs::cells_of;
use crate::saving::Given;
use crate::traces::{bytes_of_blocks, most_blocks, LONGEST};
use oracle::Refusal;

/// The numbers of the tests, in their order.
pub const TESTS: [u64; 5] = [15, 1, 3, 10, 2];

/// Samples at the limits, around zero, and where one of the two bytes is 0 or as large as can be.
pub const EDGES: [(&str, i64); 7] = [
    ("sample -32,768", -32_768),
    ("sample 32,767", 32_767),
    ("sample -1", -1),
    ("sample 0", 0),
    ("sample 255", 255),
    ("sample 256", 256),
    ("sample -256", -256),
];

const LEFT_OVER: [(&str, usize); 7] = [
    ("refused: 1 byte left over", 1),
    ("refused: 2 bytes left over", 2),
    ("refused: 3 bytes left over", 3),
    ("refused: 4 bytes left over", 4),
    ("refused: 5 bytes left over", 5),
    ("refused: 6 bytes left over", 6),
    ("refused: 7 bytes left over", 7),
];

/// Whether the rate is not 0, and four bytes hold it.
fn right_rate(rate: u64) -> bool {
    rate != 0 && rate >> 32 == 0
}

pub fn right_p(p: u64) -> bool {
    (1..=10).contains(&p)
}

/// Which of the tests fail, each looked at by itself; P is right. The last two go by the whole blocks.
pub fn faults(given: &Given) -> [bool; 5] {
    let bytes = bytes_of_blocks(given.p, given.blocks());
    [
        !right_rate(given.rate),
        given.cells.len() % (8 << given.p) != 0,
        Call::Save.is_loud(&cells_of(given.cells)),
        bytes > LONGEST,
        bytes > given.trace.len(),
    ]
}

/// The cases of an input whose P is right.
pub fn cases(given: &Given, second: Result<u64, Refusal>) -> Vec<Case> {
    match second {
        Ok(used) => [of_blocks(given), of_lent(given, used as usize), of_values(given)].concat(),
        Err(Refusal { number: 1, .. }) => of_length(given),
        Err(Refusal { number: 2, .. }) => of_misfit(given),
        Err(Refusal { number: 3, place }) => of_loud(given, place as usize),
        Err(Refusal { number: 10, .. }) => of_long(given),
        Err(_) => of_rate(given),
    }
}

fn of_blocks(given: &Given) -> Vec<Case> {
    let (blocks, most) = (given.blocks(), most_blocks(given.p));
    let block = 8 << given.p;
    let differ = blocks > 1 && given.cells[..block] != given.cells[given.cells.len() - block..];
    vec![
        ("no block", 1, blocks == 0),
        ("one block", 1, blocks == 1),
        ("several blocks", 1, 1 < blocks && blocks < most),
        ("the most blocks", 1, blocks == most),
        ("first and last block differ", 1, differ),
    ]
}

/// How many bytes are lent, and what stands in those that are kept.
fn of_lent(given: &Given, used: usize) -> Vec<Case> {
    let (blocks, most) = (given.blocks(), most_blocks(given.p));
    let past = &given.trace[used..];
    vec![
        ("lent bytes just enough", 1, past.is_empty()),
        ("no block, lent bytes just enough", 1, blocks == 0 && past.is_empty()),
        ("the most blocks, lent bytes just enough", 1, blocks == most && past.is_empty()),
        ("one lent byte more", 1, past.len() == 1),
        ("65,536 lent bytes", 1, given.trace.len() == LONGEST),
        ("more than 65,536 lent bytes", 1, given.trace.len() > LONGEST),
        ("the byte past the end is not 0", 1, past.first().is_some_and(|byte| *byte != 0)),
        ("the byte past the end is 0", 1, past.first() == Some(&0)),
    ]
}

/// Rates and samples.
fn of_values(given: &Given) -> Vec<Case> {
    let (rate, cells) = (given.rate, cells_of(given.cells));
    let bytes = [0, 8, 16, 24].map(|digits| rate >> digits & 255);
    let unlike = bytes.windows(2).all(|pair| pair[0] != pair[1]);
    let mut cases = vec![
        ("rate 1", 1, rate == 1),
        ("rate 4,294,967,295", 1, rate == 4_294_967_295),
        ("rate of four bytes, none as the next", 1, unlike && bytes[3] != 0),
    ];
    cases.extend(EDGES.map(|(case, sample)| (case, 1, cells.contains(&sample))));
    cases
}

/// A wrong rate, beside cells that fit and that do not.
fn of_rate(given: &Given) -> Vec<Case> {
    let (cells, bytes) = (given.cells.len() / 8, given.cells.len() % 8);
    vec![
        ("refused: the rate alone", 1, faults(given) == [true, false, false, false, false]),
        ("refused: the rate, and bytes left over", 1, bytes > 0 && cells > 0),
        ("refused: the rate, and bytes but no whole cell", 1, bytes > 0 && cells == 0),
        ("refused: the rate, and cells left over", 1, bytes == 0 && faults(given)[1]),
    ]
}

/// What is left over after the whole blocks.
fn of_length(given: &Given) -> Vec<Case> {
    let (cells, bytes, n) = (given.cells.len() / 8, given.cells.len() % 8, 1 << given.p);
    let loud = Call::Save.is_loud(&cells_of(given.cells));
    let mut cases = vec![
        ("refused: bytes left over, no whole cell", 1, cells == 0),
        ("refused: bytes left over, whole blocks", 1, cells > 0 && cells % n == 0),
        ("refused: one cell too many", 1, bytes == 0 && cells % n == 1),
        ("refused: one cell too few", 1, bytes == 0 && cells % n == n - 1),
        ("refused: half a block too many", 1, bytes == 0 && cells % n == n / 2),
        ("refused: bytes left over, and a loud cell", 1, bytes > 0 && loud),
        ("refused: cells left over, and a loud one", 1, bytes == 0 && loud),
    ];
    cases.extend(LEFT_OVER.map(|(case, count)| (case, 1, bytes == count)));
    cases
}

/// Where the first loud cell stands, and what it is.
fn of_loud(given: &Given, place: usize) -> Vec<Case> {
    let (cells, n) = (cells_of(given.cells), 1 << given.p);
    let (cell, last) = (cells[place], cells.len() - 1);
    let low_four = i64::from(cell as i32);
    let two_more = low_four == cell && cell.unsigned_abs() >= 65_536;
    vec![
        ("refused: the first cell loud", 1, place == 0),
        ("refused: a cell between loud", 1, 0 < place && place < last),
        ("refused: the last cell loud", 1, place == last),
        ("refused: loud in the last of several blocks", 1, place >= n && place + n > last),
        ("refused: loud, and a later cell as well", 1, Call::Save.is_loud(&cells[place + 1..])),
        ("refused: loud at 65,536 or above", 1, place >= 65_536),
        ("refused: cell -32,769", 1, cell == SAMPLES.0 - 1),
        ("refused: cell 32,768", 1, cell == SAMPLES.1 + 1),
        ("refused: the least i64", 1, cell == i64::MIN),
        ("refused: the largest i64", 1, cell == i64::MAX),
        ("refused: a sample in the low two of four bytes", 1, two_more),
        ("refused: a sample in the low four bytes", 1, !Call::Save.is_loud(&[low_four])),
    ]
}

fn of_long(given: &Given) -> Vec<Case> {
    let (blocks, most) = (given.blocks(), most_blocks(given.p));
    let enough = given.trace.len() >= bytes_of_blocks(given.p, blocks);
    vec![
        ("refused: one block too many", 1, blocks == most + 1),
        ("refused: one block too many, lent bytes enough", 1, blocks == most + 1 && enough),
        ("refused: twice the most blocks or more", 1, blocks >= 2 * most),
    ]
}

fn of_misfit(given: &Given) -> Vec<Case> {
    let (blocks, most) = (given.blocks(), most_blocks(given.p));
    let lacking = bytes_of_blocks(given.p, blocks) - given.trace.len();
    vec![
        ("refused: one lent byte too few", 1, lacking == 1),
        ("refused: no block, one lent byte too few", 1, blocks == 0 && lacking == 1),
        ("refused: the most blocks, one lent byte too few", 1, blocks == most && lacking == 1),
        ("refused: all lent but the end", 1, lacking == 6),
        ("refused: no lent byte", 1, given.trace.is_empty()),
    ]
}

/// The forms of a refusal by 15.
pub fn forms(given: &Given) -> Vec<Form> {
    let (rate, p) = (given.rate, given.p);
    vec![
        ("15: rate 0", rate == 0),
        ("15: rate 4,294,967,296", rate == 1 << 32),
        ("15: rate 2^64 - 1", rate == u64::MAX),
        ("15: rate too large, right in the low four bytes", rate >> 32 > 0 && right_rate(rate % (1 << 32))),
        ("15: P 64", p == 64),
        ("15: P 2^64 - 1", p == u64::MAX),
        ("15: P right in the low byte", p > 10 && right_p(p % 256)),
        ("15: P right in the low two bytes", p > 10 && right_p(p % 65_536)),
        ("15: P right in the low four bytes", p > 10 && right_p(p % (1 << 32))),
        ("15: rate and P", !right_rate(rate) && !right_p(p)),
    ]
    .into_iter()
    .chain(forms_of_p(given))
    .collect()
}

/// A wrong P beside a right rate: where nothing else is wrong, or something that is tested later and asks for no P.
fn forms_of_p(given: &Given) -> Vec<Form> {
    let (p, cells, lent) = (given.p, given.cells.len() / 8, given.trace.len());
    let alone = right_rate(given.rate) && !right_p(p);
    let rest = given.cells.len() % 8 == 0 && !Call::Save.is_loud(&cells_of(given.cells)) && lent >= LONGEST;
    vec![
        ("15: P 0, all else right for one cell", alone && p == 0 && rest && cells == 1),
        ("15: P 11, all else right for 2,048 cells", alone && p == 11 && rest && cells == 2048),
        ("15: another P, all else right for no cell", alone && p > 11 && rest && cells == 0),
        ("15: P, where 1 holds as well for bytes left over", alone && given.cells.len() % 8 != 0),
        ("15: P, where 3 holds as well", alone && Call::Save.is_loud(&cells_of(given.cells))),
        ("15: P, where 10 holds as well", alone && 18 + 2 * cells > LONGEST),
        ("15: P, where 2 holds as well", alone && lent < 18),
    ]
}
