//! Inputs of the fetch: every block of traces, blocks that are not there, and cells of another length.

use crate::compare::Comparison;
use crate::traces::{self, LONGEST};

pub fn fetches(c: &mut Comparison) {
    for p in 1..=10 {
        let most = (50_000 / ((2 << p) + 46)).min(300); // with notes, the trace is not long
        for blocks in [0, 1, 2, 3, 9, most] {
            let trace = traces::bytes(&traces::several(p, blocks, &mut c.random));
            every_block(c, &trace, p, blocks as u64);
        }
        other_lengths(c, p);
    }
    let blocks = (LONGEST - 18) / 10; // of two samples, which is as many as there can be
    let trace = traces::bytes(&traces::only_blocks(1, blocks, &mut c.random));
    for k in [0, 1, 2, 255, 256, 257, 511, 512, 4095, 4096, blocks - 2, blocks - 1, blocks, blocks + 1, 65_536] {
        let cells = c.random.bytes(16);
        c.fetch("full trace", &trace, k as u64, &cells);
    }
}

/// Each block that the trace has, and some that it has not: the next ones, and such as look like one that it has
/// where a part of the number is left off.
fn every_block(c: &mut Comparison, trace: &[u8], p: u16, blocks: u64) {
    for k in 0..blocks {
        let cells = c.random.bytes(8 << p);
        c.fetch("every block", trace, k, &cells);
    }
    let k = c.random.below(blocks as usize + 1) as u64;
    let next = [blocks, blocks + 1, 255, 256, 65_535, 65_536, (1 << 56) - 1, 1 << 56, u64::MAX - k, u64::MAX];
    let cut = [8, 16, 31, 32, 33, 48, 53, 56, 61, 63].map(|digits| (1 << digits) + k);
    for k in [&next[..], &cut, &[1 << 32, 1 << 63, c.random.next()]].concat() {
        let cells = c.random.bytes(8 << p);
        c.fetch(if k < blocks { "every block" } else { "block not there" }, trace, k, &cells);
    }
}

/// Cells of every count up to twice the right one, of odd bytes, of the longest block and huge; for a block that is
/// there and for one that is not.
fn other_lengths(c: &mut Comparison, p: u16) {
    let right = 8 << p;
    let trace = traces::bytes(&traces::several(p, 3, &mut c.random));
    let counts = (0..=2 * right).step_by(8).chain(right - 9..=right + 9);
    for count in counts.chain([8 * 1024, 8 * 1024 + 1, 8 * 65_536, 8 * 65_536 + right]) {
        let any = c.random.next() | 4;
        for k in [c.random.below(3) as u64, c.random.pick(&[3, 4, any])] {
            let cells = c.random.bytes(count);
            c.fetch("cells of another length", &trace, k, &cells);
        }
    }
}

/// Any block of any trace, into cells of the length that its head names, or of another.
pub fn any(c: &mut Comparison, sort: &'static str, trace: &[u8]) {
    let named = trace.get(10).map_or(0, |p| u64::from(*p));
    let p = if (1..=10).contains(&named) { named as usize } else { 1 + c.random.below(10) };
    let right = 8 << p;
    let near = right + 9 - c.random.below(19);
    let count = c.random.pick(&[right, right, right, right, near, right / 2, 0]);
    let (low, any) = (c.random.below(6) as u64, c.random.next());
    let k = c.random.pick(&[0, 0, 1, low, low, any]);
    let cells = c.random.bytes(count);
    c.fetch(sort, trace, k, &cells);
}
