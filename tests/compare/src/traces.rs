//! Accepted traces, and ways to damage them.

use crate::call::SAMPLES;
use crate::inputs::{shaped, SHAPES};
use crate::random::Random;

/// The most bytes that a trace may have.
pub const LONGEST: usize = 65_536;

/// The ways to damage a trace; the last takes two of the others.
pub const DAMAGES: [&str; 17] = [
    "undamaged", "cut", "changed byte", "changed record head", "changed length", "unknown kind", "exchanged records",
    "head left out", "second head", "doubled record", "rate 0", "wrong P", "record after the end", "tail",
    "byte put in", "byte left out", "two damages",
];

/// One record. Its length field may differ from the length of its payload.
#[derive(Clone)]
pub struct Record {
    length: u32,
    kind: u16,
    payload: Vec<u8>,
}

pub fn record(kind: u16, payload: Vec<u8>) -> Record {
    Record { length: payload.len() as u32, kind, payload }
}

pub fn head(rate: u32, p: u16) -> Record {
    record(1, [&rate.to_le_bytes()[..], &p.to_le_bytes()[..]].concat())
}

pub fn end() -> Record {
    record(4, Vec::new())
}

pub fn bytes(records: &[Record]) -> Vec<u8> {
    let mut bytes = Vec::new();
    for record in records {
        bytes.extend_from_slice(&record.length.to_le_bytes());
        bytes.extend_from_slice(&record.kind.to_le_bytes());
        bytes.extend_from_slice(&record.payload);
    }
    bytes
}

fn any_head(p: u16, random: &mut Random) -> Record {
    let any = random.between(1, u32::MAX.into()) as u32;
    head(random.pick(&[1, 8000, u32::MAX, any]), p)
}

fn any_block(p: u16, random: &mut Random) -> Record {
    let shape = random.pick(&SHAPES);
    block(&shaped(shape, 1 << p, SAMPLES, random))
}

pub fn block(samples: &[i64]) -> Record {
    record(2, samples.iter().flat_map(|sample| (*sample as i16).to_le_bytes()).collect())
}

fn any_note(random: &mut Random) -> Record {
    let any = random.below(256);
    let count = random.pick(&[0, 1, 255, any, any]);
    record(3, random.bytes(count))
}

/// A short accepted trace.
pub fn short(random: &mut Random) -> Vec<Record> {
    let p = random.between(1, 10) as u16;
    let mut records = vec![any_head(p, random)];
    for _ in 0..random.below(6) {
        records.push(if random.once_in(2) { any_note(random) } else { any_block(p, random) });
    }
    records.push(end());
    records
}

/// A trace of so many blocks, at times with notes before, between and after them, some as long as a block.
pub fn several(p: u16, blocks: usize, random: &mut Random) -> Vec<Record> {
    let mut records = vec![any_head(p, random)];
    for _ in 0..blocks {
        if random.once_in(8) {
            records.push(any_note(random));
        }
        if random.once_in(8) {
            records.push(record(3, random.bytes((2 << p).min(255))));
        }
        records.push(any_block(p, random));
    }
    if random.once_in(2) {
        records.push(any_note(random));
    }
    records.push(end());
    records
}

/// A trace of so many blocks and nothing between them.
pub fn only_blocks(p: u16, blocks: usize, random: &mut Random) -> Vec<Record> {
    let mut records = vec![any_head(p, random)];
    records.extend((0..blocks).map(|_| any_block(p, random)));
    records.push(end());
    records
}

/// The bytes of such a trace: 12 of the head, 6 of each block and two of each sample, 6 of the end.
pub fn bytes_of_blocks(p: u64, blocks: usize) -> usize {
    18 + blocks * (6 + (2 << p))
}

/// The most blocks that a trace can have.
pub fn most_blocks(p: u64) -> usize {
    (LONGEST - 18) / (6 + (2 << p))
}

/// A trace of exactly so many bytes, more than 300, with no fault but perhaps that of being long.
pub fn filled(count: usize, random: &mut Random) -> Vec<Record> {
    let p = random.between(1, 10) as u16;
    let notes = random.below(3); // so many quarters of the records
    let mut records = vec![any_head(p, random)];
    let mut left = count - 18; // the head has 12 bytes, the end 6
    while left > 261 {
        let note = random.below(4) < notes;
        let mut next = if note { any_note(random) } else { any_block(p, random) };
        if next.payload.len() + 12 > left {
            next = record(3, random.bytes(200));
        }
        left -= next.payload.len() + 6;
        records.push(next);
    }
    records.push(record(3, random.bytes(left - 6)));
    records.push(end());
    records
}

/// The bytes of a trace after the named damage.
pub fn damaged(damage: &'static str, records: &[Record], random: &mut Random) -> Vec<u8> {
    let mut damages = vec![damage];
    if damage == "two damages" {
        damages = vec![random.pick(&DAMAGES[..16]), random.pick(&DAMAGES[..16])];
    }
    let mut records = records.to_vec();
    for damage in &damages {
        damage_records(damage, &mut records, random);
    }
    let mut trace = bytes(&records);
    for damage in &damages {
        damage_bytes(damage, &mut trace, random);
    }
    trace
}

fn damage_records(damage: &str, records: &mut Vec<Record>, random: &mut Random) {
    let one = random.below(records.len());
    let other = random.below(records.len());
    let any = random.next();
    match damage {
        "changed record head" => {
            let change = (1 + any % 255) << (8 * random.below(6));
            records[one].length ^= change as u32;
            records[one].kind ^= (change >> 32) as u16;
        }
        "changed length" => {
            let near = records[one].length ^ random.pick(&[1, 2, 4, 65_536, 1 << 31]);
            records[one].length = random.pick(&[near, near, near, 0, 6, 255, 256, any as u32]);
        }
        "unknown kind" => records[one].kind = random.pick(&[0, 5, 256, 257, 65_535, any as u16 | 8]),
        "exchanged records" => records.swap(one, other),
        "head left out" if records.len() > 1 => {
            records.remove(0);
            let right = records[0].length;
            records[0].length = random.pick(&[right, right, right, 1, 256, any as u32]);
        }
        "second head" if records.len() > 1 => {
            let (second, at) = (second_head(&records[0], random), one.max(1));
            if random.once_in(2) {
                records.insert(at, second);
            } else {
                records[at] = second; // so that a full trace is not made longer
            }
        }
        "record after the end" => records.push(records[one].clone()),
        "doubled record" => records.insert(one, records[one].clone()),
        "rate 0" if records[0].payload.len() >= 6 => records[0].payload[..4].fill(0),
        "wrong P" if records[0].payload.len() >= 6 => {
            let p: u16 = random.pick(&[0, 11, 12, 256, 257, 65_535]);
            records[0].payload[4..6].copy_from_slice(&p.to_le_bytes());
        }
        _ => {}
    }
}

/// A second head: the first once more, another one, and such as have a fault of their own.
fn second_head(first: &Record, random: &mut Random) -> Record {
    let p = random.between(1, 10) as u16;
    let count = random.below(20);
    let heads = [any_head(p, random), head(0, p), head(1, p + 10), record(1, random.bytes(count))];
    random.pick(&[first, first, &heads[0], &heads[1], &heads[2], &heads[3]]).clone()
}

fn damage_bytes(damage: &str, trace: &mut Vec<u8>, random: &mut Random) {
    let at = random.below(trace.len().max(1));
    match damage {
        "cut" => trace.truncate(at),
        "tail" => {
            let any = 1 + random.below(12);
            let count = random.pick(&[1, any, any]);
            trace.extend(if random.once_in(4) { vec![0; count] } else { random.bytes(count) });
        }
        "byte put in" => trace.insert(at, random.next() as u8),
        "changed byte" if !trace.is_empty() => trace[at] ^= random.between(1, 255) as u8,
        "byte left out" if !trace.is_empty() => drop(trace.remove(at)),
        _ => {}
    }
}

/// A few records of any kind, length and contents, right and wrong, mostly behind a head whose rate is at times 0.
pub fn any_records(random: &mut Random) -> Vec<u8> {
    let p = random.between(1, 3) as u16;
    let mut records = Vec::new();
    if !random.once_in(4) {
        records.push(head(u32::from(!random.once_in(8)), p));
    }
    for _ in 0..random.below(5) {
        let any = random.below(20);
        let count = random.pick(&[0, 6, 2 << p, 2 << p, 255, 256, any]);
        let mut next = record(random.between(0, 5) as u16, random.bytes(count));
        if next.kind == 1 && random.once_in(2) {
            next = head(random.between(0, 1) as u32, random.between(0, 11) as u16);
        }
        if random.once_in(4) {
            next.length = random.pick(&[0, 1, 6, 2 << p, 255, 256, 65_536, u32::MAX]);
        }
        records.push(next);
    }
    if random.once_in(2) {
        records.push(end());
    }
    let mut trace = bytes(&records);
    if random.once_in(4) {
        trace.truncate(trace.len().saturating_sub(random.below(12)));
    }
    trace
}
