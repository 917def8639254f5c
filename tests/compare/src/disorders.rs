//! The disorders of a trace (document 02, Item 3): the forms that 17, 18 and 19 have, and faults that a record can have
//! together with them, where the first decides. Each must have been seen.

use oracle::Refusal;

/// A form: its name, and whether a refused trace has it.
pub type Form = (&'static str, bool);

/// The forms of a refused trace; one that is refused by another number has none.
pub fn forms(trace: &[u8], refusal: Refusal) -> Vec<Form> {
    match refusal.number {
        12 => vec![("12: the first record, so 17 holds as well", refusal.place == 0)],
        14 => of_end(&trace[refusal.place as usize..]),
        17 => of_headless(trace),
        18 => of_second_head(trace, refusal.place as usize),
        19 => of_tail(&trace[refusal.place as usize..], refusal.place),
        _ => Vec::new(),
    }
}

/// Bytes as a number, least byte first.
fn number(bytes: &[u8]) -> usize {
    bytes.iter().rev().fold(0, |sum, byte| 256 * sum + usize::from(*byte))
}

/// The length and the kind that a record names, and the bytes after them to the trace's end.
fn taken_apart(record: &[u8]) -> (usize, usize, &[u8]) {
    (number(&record[..4]), number(&record[4..6]), &record[6..])
}

/// An end whose length is wrong, so that its own bytes, or those after them, could be taken for a tail.
fn of_end(record: &[u8]) -> Vec<Form> {
    let (length, kind, rest) = taken_apart(record);
    vec![
        ("14: an end with bytes of its own", kind == 4 && rest.len() == length),
        ("14: an end, where 19 holds as well", kind == 4 && rest.len() > length),
    ]
}

/// What stands first, and what else is wrong with it. No head has named P: a block's length is wrong if it is that of
/// no P.
fn of_headless(trace: &[u8]) -> Vec<Form> {
    let (length, kind, rest) = taken_apart(trace);
    let of_no_p = (1..=10).all(|p| length != 2 << p);
    vec![
        ("17: a block first", kind == 2),
        ("17: a note first", kind == 3),
        ("17: an end first", kind == 4),
        ("17: a block, where 14 holds as well", kind == 2 && of_no_p),
        ("17: a note, where 14 holds as well", kind == 3 && length > 255),
        ("17: an end, where 14 holds as well", kind == 4 && length > 0),
        ("17: an end, where 19 holds as well", kind == 4 && length == 0 && !rest.is_empty()),
        ("17: payload incomplete, so 11 holds as well", rest.len() < length),
    ]
}

/// What stands before the second head, and what else is wrong with it.
fn of_second_head(trace: &[u8], place: usize) -> Vec<Form> {
    let kinds = kinds_before(trace, place);
    let (length, _, rest) = taken_apart(&trace[place..]);
    let payload = rest.get(..6).filter(|_| length == 6); // where it is whole
    let wrong = |payload: &[u8]| number(&payload[..4]) == 0 || !(1..=10).contains(&number(&payload[4..]));
    vec![
        ("18: right after the first", kinds == [1]),
        ("18: after a block", kinds.last() == Some(&2)),
        ("18: after a note", kinds.last() == Some(&3)),
        ("18: after 100 records or more", kinds.len() >= 100),
        ("18: at byte 32,768 or above", place >= 32_768),
        ("18: the same head again", payload.is_some_and(|its| trace[6..].starts_with(its))),
        ("18: length wrong, so 14 holds as well", length != 6),
        ("18: payload incomplete, so 11 holds as well", rest.len() < length),
        ("18: rate or P wrong, so 15 holds as well", payload.is_some_and(wrong)),
    ]
}

/// The kinds of the records before a place, all of which have passed.
pub fn kinds_before(trace: &[u8], place: usize) -> Vec<usize> {
    let mut kinds = Vec::new();
    let mut at = 0;
    while at < place {
        let (length, kind, _) = taken_apart(&trace[at..]);
        kinds.push(kind);
        at += 6 + length;
    }
    kinds
}

/// The bytes after the end, which could be taken for one more record.
fn of_tail(tail: &[u8], place: u64) -> Vec<Form> {
    let kind = tail.get(4..6).map(number);
    vec![
        ("19: one byte", tail.len() == 1),
        ("19: two to five bytes", (2..=5).contains(&tail.len())),
        ("19: only zeros", tail.iter().all(|byte| *byte == 0)),
        ("19: at byte 32,768 or above", place >= 32_768),
        ("19: a head", kind == Some(1)),
        ("19: a block", kind == Some(2)),
        ("19: a note", kind == Some(3)),
        ("19: an end", kind == Some(4)),
        ("19: no kind", kind.is_some_and(|kind| !(1..=4).contains(&kind))),
    ]
}
