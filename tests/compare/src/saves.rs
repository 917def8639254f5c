//! Inputs of saving (document 02, Item 4): runs of samples of every number of blocks, with more and fewer lent bytes;
//! and every refusal, alone and with others.

use crate::call::SAMPLES;
use crate::compare::Comparison;
use crate::inputs::{bytes_of, make_loud};
use crate::random::Random;
use crate::save_cases::EDGES;
use crate::saving::Given;
use crate::traces::{self, bytes_of_blocks, most_blocks, DAMAGES, LONGEST};
use crate::worked;

// One round: inputs with several faults, and traces that are saved again.
const SEVERAL: usize = 10_000;
const TRACES: usize = 500;

pub fn saves(c: &mut Comparison) {
    for p in 1..=10 {
        numbers_of_blocks(c, p);
        largest(c, p);
        rates(c, p);
        lengths(c, p);
        loud_cells(c, p);
        long_runs(c, p);
        every_choice(c, p);
        again(c, p);
    }
    for p in wrong_p(&mut c.random) {
        other_p(c, p);
    }
    several(c);
    short_again(c);
}

/// So many samples, one in four of them at an edge.
fn any_samples(count: usize, random: &mut Random) -> Vec<i64> {
    let mut samples = Vec::with_capacity(count);
    for _ in 0..count {
        let any = random.between(SAMPLES.0, SAMPLES.1);
        samples.push(if random.once_in(4) { random.pick(&EDGES).1 } else { any });
    }
    samples
}

/// One input with so many lent bytes, in which any bytes stand, or at times only zeros or ones.
fn save(c: &mut Comparison, sort: &'static str, [rate, p]: [u64; 2], cells: &[u8], lent: usize) {
    let fill = c.random.below(8);
    let trace = match fill {
        0 => vec![0; lent],
        1 => vec![0xFF; lent],
        _ => c.random.bytes(lent),
    };
    c.save(sort, &Given { rate, p, cells, trace: &trace });
}

fn any_rate(random: &mut Random) -> u64 {
    let any = random.between(1, u32::MAX.into()) as u64;
    random.pick(&[1, 8000, 4_294_967_295, any, any])
}

/// Rates that are 0 or that four bytes do not hold: the next ones, and such as look right where a part is left off.
fn wrong_rates(random: &mut Random) -> Vec<u64> {
    let low = any_rate(random);
    let cut = [32, 33, 40, 48, 56, 62, 63].map(|digits| (1 << digits) + low);
    [&[0, 1 << 32, 1 << 40, 1 << 63, u64::MAX << 32, u64::MAX - 1, u64::MAX][..], &cut].concat()
}

/// The same of P.
fn wrong_p(random: &mut Random) -> Vec<u64> {
    let low = random.between(1, 10) as u64;
    let cut = [4, 5, 6, 8, 16, 31, 32, 48, 63].map(|digits| (1 << digits) + low);
    let near = [0, 11, 12, 31, 32, 63, 64, 65, 127, 128, 255, 256, 65_535, 65_536, 1 << 32, 1 << 63, u64::MAX];
    [&near[..], &cut].concat()
}

/// No block, a few and the most, and more than can be; with lent bytes just enough, more and fewer.
fn numbers_of_blocks(c: &mut Comparison, p: u64) {
    let (few, most) = (4 + c.random.below(9), most_blocks(p));
    for blocks in [0, 1, 2, 3, few, most - 1, most, most + 1, most + 2, 2 * most] {
        let cells = bytes_of(&any_samples(blocks << p, &mut c.random));
        let bytes = bytes_of_blocks(p, blocks);
        let (less, more) = (c.random.below(bytes), bytes + c.random.below(300));
        for lent in [bytes, bytes + 1, more, LONGEST, LONGEST + more, bytes - 1, bytes - 6, less, 0, 18] {
            let rate = any_rate(&mut c.random);
            save(c, "numbers of blocks", [rate, p], &cells, lent);
        }
    }
}

/// The most blocks, each of them read back.
fn largest(c: &mut Comparison, p: u64) {
    let most = most_blocks(p);
    let cells = bytes_of(&any_samples(most << p, &mut c.random));
    let trace = c.random.bytes(LONGEST);
    let given = Given { rate: any_rate(&mut c.random), p, cells: &cells, trace: &trace };
    let (_, left) = c.save("the most blocks", &given);
    c.read_whole(&given, &left[..bytes_of_blocks(p, most)]);
}

/// Every rate at a limit, right and wrong.
fn rates(c: &mut Comparison, p: u64) {
    let right = [1, 2, 255, 256, 65_535, 65_536, 1 << 24, 0x0102_0304, 0xF0E0_D0C0, 1 << 31, 0xFFFF_FFFF];
    for rate in [&right[..], &wrong_rates(&mut c.random)].concat() {
        for blocks in [0, 1, 2] {
            let cells = bytes_of(&any_samples(blocks << p, &mut c.random));
            let lent = bytes_of_blocks(p, blocks) + c.random.below(3);
            save(c, "rates", [rate, p], &cells, lent);
        }
    }
}

/// Cells and bytes left over after whole blocks: alone, with a wrong rate, and with loud cells where there are any.
fn lengths(c: &mut Comparison, p: u64) {
    let (n, any) = (1 << p, c.random.below(1 << p));
    for cells in [0, 1, n / 2, n - 1, n, n + 1, 2 * n - 1, 2 * n, 2 * n + any] {
        for left_over in 0..8 {
            let samples = any_samples(cells, &mut c.random);
            let mut loud = samples.clone();
            make_loud(&mut loud, SAMPLES, &mut c.random);
            let (right, wrong) = (any_rate(&mut c.random), c.random.pick(&[0, 1 << 32]));
            for (rate, cells) in [(right, &samples), (wrong, &samples), (right, &loud), (wrong, &loud)] {
                let bytes = [bytes_of(cells), c.random.bytes(left_over)].concat();
                let lent = c.random.pick(&[0, LONGEST, LONGEST]);
                save(c, "cells or bytes left over", [rate, p], &bytes, lent);
            }
        }
    }
}

/// One loud cell, or one and a later one: at a limit, far outside, and such as are samples where a part is left off.
fn loud_cells(c: &mut Comparison, p: u64) {
    let low = any_samples(1, &mut c.random)[0];
    let cut = [16, 17, 24, 30, 32, 33, 40, 48, 62].map(|digits| (1 << digits) + low);
    let outside = [SAMPLES.0 - 1, SAMPLES.1 + 1, i64::MIN, i64::MAX, -65_536 * 5 + low, i64::MIN + 32_768 + low];
    for cell in [&cut[..], &outside].concat() {
        for blocks in [1, 2, 5] {
            let last = (blocks << p) - 1;
            for place in [0, last, c.random.below(last + 1)] {
                let mut samples = any_samples(last + 1, &mut c.random);
                samples[place + c.random.below(last + 1 - place)] = cell;
                samples[place] = cell;
                let lent = c.random.pick(&[0, bytes_of_blocks(p, blocks)]);
                save(c, "loud cell", [8000, p], &bytes_of(&samples), lent);
            }
        }
    }
}

/// Runs of more than 65,536 cells, with a loud one late in them.
fn long_runs(c: &mut Comparison, p: u64) {
    for place in [65_535, 65_536, 65_536 + c.random.below(4096)] {
        let mut samples = any_samples(65_536 + 4096, &mut c.random);
        samples[place] = c.random.pick(&[SAMPLES.0 - 1, SAMPLES.1 + 1]);
        let lent = c.random.pick(&[0, LONGEST, 8 * LONGEST]);
        save(c, "loud cell in a long run", [8000, p], &bytes_of(&samples), lent);
    }
}

/// An input of this P with exactly these faults: rate, cells left over, loud cells, too long, too few lent bytes.
fn with_faults(c: &mut Comparison, sort: &'static str, p: u64, [head, length, loud, long, misfit]: [bool; 5]) {
    let few = c.random.below(4) + usize::from(loud); // there is a cell that can be loud
    let blocks = if long { most_blocks(p) + 1 + c.random.below(3) } else { few };
    let (left_over, more) = if length { any_left_over(p, &mut c.random) } else { (0, 0) };
    let mut samples = any_samples((blocks << p) + more, &mut c.random);
    if loud {
        make_loud(&mut samples, SAMPLES, &mut c.random);
    }
    let cells = [bytes_of(&samples), c.random.bytes(left_over)].concat();
    let wrong = wrong_rates(&mut c.random);
    let rate = if head { c.random.pick(&wrong) } else { any_rate(&mut c.random) };
    let bytes = bytes_of_blocks(p, blocks);
    let lent = if misfit { c.random.below(bytes) } else { bytes + c.random.below(20) };
    save(c, sort, [rate, p], &cells, lent);
}

/// Bytes and cells left over: one of the two, or both.
fn any_left_over(p: u64, random: &mut Random) -> (usize, usize) {
    let (bytes, cells) = (1 + random.below(7), 1 + random.below((1 << p) - 1));
    random.pick(&[(bytes, 0), (0, cells), (bytes, cells)])
}

/// Every choice of the five faults, twice.
fn every_choice(c: &mut Comparison, p: u64) {
    for choice in 0..64 {
        let faults = [1, 2, 4, 8, 16].map(|fault| choice & fault != 0);
        with_faults(c, "every choice of faults", p, faults);
    }
}

/// Any choice of the faults, mostly of few; long traces are rare, since they take long.
fn several(c: &mut Comparison) {
    for _ in 0..SEVERAL {
        let p = c.random.between(1, 10) as u64;
        let faults = [8, 6, 6, 64, 6].map(|count| c.random.once_in(count));
        with_faults(c, "several faults", p, faults);
    }
}

/// A P that there is not, with runs that would be right for another, bytes left over, loud cells and long runs.
fn other_p(c: &mut Comparison, p: u64) {
    for cells in [0, 1, 2, 1024, 2048, 40_000] {
        for [left_over, loud] in [[0, 0], [1, 0], [0, 1], [7, 1]] {
            let mut samples = any_samples(cells, &mut c.random);
            if loud == 1 {
                make_loud(&mut samples, SAMPLES, &mut c.random);
            }
            let bytes = [bytes_of(&samples), c.random.bytes(left_over)].concat();
            let wrong = c.random.pick(&[0, 1 << 32]);
            for (rate, lent) in [(8000, 2 * LONGEST), (8000, 0), (wrong, 2 * LONGEST)] {
                save(c, "wrong P", [rate, p], &bytes, lent);
            }
        }
    }
}

/// Traces without notes, up to the longest, that are made record by record and saved again from what they hold.
fn again(c: &mut Comparison, p: u64) {
    let (few, most) = (4 + c.random.below(9), most_blocks(p));
    for blocks in [0, 1, 2, 3, few, most] {
        let trace = traces::bytes(&traces::only_blocks(p as u16, blocks, &mut c.random));
        c.save_again("saved again, only blocks", &trace);
    }
}

/// Of short traces, undamaged and damaged, those that are accepted and have no notes.
fn short_again(c: &mut Comparison) {
    for _ in 0..TRACES {
        let records = traces::short(&mut c.random);
        for damage in DAMAGES {
            let trace = traces::damaged(damage, &records, &mut c.random);
            c.save_again("saved again, short", &trace);
        }
    }
}

/// Of the worked trace, with every byte changed to every value, those that are accepted and have no notes.
pub fn worked_again(c: &mut Comparison) {
    for place in 0..worked::TRACE.len() {
        for value in 0..=255 {
            let mut trace = worked::TRACE;
            trace[place] = value;
            c.save_again("saved again, worked, one byte", &trace);
        }
    }
}
