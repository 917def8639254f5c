//! Compares the archive libhartley.a, the listing program and the table program with the second program, on worked,
//! random, extreme and damaged inputs. Use: compare --list PATH --table PATH [--long]

mod archive;
mod call;
mod cases;
mod compare;
mod disorders;
mod double;
mod fetches;
mod inputs;
mod lines;
mod quiet;
mod random;
mod refused_smooths;
mod report;
mod save_cases;
mod saves;
mod saving;
mod search;
mod smooth_cases;
mod smoothing;
mod smooths;
mod tables;
mod tally;
mod traces;
mod weights;
mod words;
mod worked;

use call::{Call, LINES, ON_A_BLOCK, SAMPLES};
use compare::Comparison;
use inputs::{any_line, any_line_above, any_output, bytes_of, make_loud, several_faults, shaped, LENGTHS, SHAPES};
use random::Random;
use std::process::exit;
use traces::{DAMAGES, LONGEST};

// One round: blocks of each P from 1 to 10, blocks with several faults for each of the calls on a block, and traces,
// each with every damage. One trace in LISTED is listed as well.
const BLOCKS: [usize; 10] = [1300, 1300, 1300, 1300, 1300, 1300, 650, 650, 390, 390];
const SEVERAL: usize = 10_000;
const TRACES: usize = 1500;
const LISTED: usize = 14;

fn main() {
    let words: Vec<String> = std::env::args().skip(1).collect();
    let words: Vec<&str> = words.iter().map(String::as_str).collect();
    let (list, table, seed, rounds) = match words[..] {
        ["--list", list, "--table", table] => (list, table, 1, 1),
        ["--list", list, "--table", table, "--long"] => (list, table, 2, 20),
        _ => {
            println!("use: compare --list PATH --table PATH [--long]");
            exit(2);
        }
    };
    let mut c = Comparison::new(seed, list.to_string(), table.to_string());
    let worked = apart(&mut c, worked::samples);
    small_traces(&mut c);
    every_order(&mut c);
    for _ in 0..rounds {
        for p in 1..=10 {
            blocks(&mut c, p);
        }
        power_outputs(&mut c);
        parts_outputs(&mut c);
        for call in ON_A_BLOCK {
            limits(&mut c, call);
            lengths(&mut c, call);
            several(&mut c, call);
        }
        lines::lines(&mut c);
        search::searches(&mut c);
        fetches::fetches(&mut c);
        traces(&mut c);
    }
    // what came later is last, and so leaves the random inputs of the others as they are without it
    let worked = worked + apart(&mut c, worked::saves);
    saves::worked_again(&mut c);
    for _ in 0..rounds {
        saves::saves(&mut c);
    }
    for _ in 0..rounds {
        words::words(&mut c);
    }
    let worked = worked + apart(&mut c, worked::bounds);
    for _ in 0..rounds {
        quiet::blocks(&mut c);
    }
    // smoothing and the table have random sequences of their own, and leave that of the others as it is
    let others = std::mem::replace(&mut c.random, Random::new(seed << 32));
    let worked = worked + apart(&mut c, worked::smooths);
    for _ in 0..rounds {
        smooths::smooths(&mut c);
    }
    c.random = Random::new(seed << 33);
    let worked = worked + apart(&mut c, worked::tables);
    for _ in 0..rounds {
        tables::tables(&mut c);
    }
    c.random = others;
    c.tally.print();
    c.tally.must_be_complete();
    println!("\ncomparison: ok, {} inputs, {worked} of them worked samples", worked + c.tally.inputs);
}

/// Runs worked samples and gives their number. They are not in the tally: the others are to be complete without them.
fn apart(c: &mut Comparison, samples: fn(&mut Comparison)) -> u64 {
    let others = std::mem::take(&mut c.tally);
    samples(c);
    std::mem::replace(&mut c.tally, others).inputs
}

/// Accepted blocks: forward; backward, parts, power and a scaled line of what it left; the same of spectra. Forward and
/// backward take each with its negative.
fn blocks(c: &mut Comparison, p: usize) {
    let n = LENGTHS[p - 1];
    for i in 0..BLOCKS[p - 1] {
        let shape = SHAPES[i % SHAPES.len()];
        let samples = shaped(shape, n, SAMPLES, &mut c.random);
        let (_, lines) = c.signed_block(Call::Forward, shape, &bytes_of(&samples), &[]);
        let spectrum = bytes_of(&shaped(shape, n, LINES, &mut c.random));
        for (sort, given) in [("what forward left", lines), ("spectra so shaped", spectrum)] {
            for call in [Call::Backward, Call::Parts, Call::Power] {
                let outputs = c.outputs(call, 8 * (n / 2 + 1));
                c.signed_block(call, sort, &given, &outputs);
            }
            let line = any_line(n, &mut c.random);
            c.scaled(sort, &given, line);
        }
    }
}

/// One input of a call on a block of n cells, with outputs that fit; for scaled, with a line and with one above N/2.
fn lend(c: &mut Comparison, call: Call, sort: &'static str, cells: &[u8], n: usize) {
    if call == Call::Scaled {
        for line in [any_line(n, &mut c.random), any_line_above(n, &mut c.random)] {
            c.scaled(sort, cells, line);
        }
        return;
    }
    let outputs = c.outputs(call, 8 * (n / 2 + 1));
    c.signed_block(call, sort, cells, &outputs);
}

/// Cells at the limits, which pass, one step outside and far outside, in one place and in several.
fn limits(c: &mut Comparison, call: Call) {
    let (low, high) = call.limits();
    for n in LENGTHS {
        for value in [low, high, low - 1, high + 1, i64::MIN, i64::MAX] {
            for place in [0, n - 1, c.random.below(n)] {
                let mut cells = shaped("full range", n, (low, high), &mut c.random);
                cells[place] = value;
                lend(c, call, "cell at a limit or outside", &bytes_of(&cells), n);
            }
        }
        for _ in 0..10 {
            let mut cells = shaped("full range", n, (low, high), &mut c.random);
            make_loud(&mut cells, (low, high), &mut c.random);
            lend(c, call, "cells outside", &bytes_of(&cells), n);
        }
    }
}

/// Wrong lengths, and bytes left over or lacking around every permitted length.
fn lengths(c: &mut Comparison, call: Call) {
    for count in (0..600).chain([1022, 1023, 1024, 1025, 2047, 2048, 2049, 4096, 65_536]) {
        let cells = shaped("full range", count, call.limits(), &mut c.random);
        lend(c, call, "length", &bytes_of(&cells), count);
    }
    for n in LENGTHS {
        let cells = bytes_of(&shaped("up to 100", n + 1, call.limits(), &mut c.random));
        for count in 8 * n - 7..=8 * n + 7 {
            lend(c, call, "bytes left over", &cells[..count], n);
        }
    }
}

/// Blocks with and without each fault, and outputs or a line with and without theirs.
fn several(c: &mut Comparison, call: Call) {
    for _ in 0..SEVERAL {
        let n = c.random.pick(&LENGTHS);
        let cells = several_faults(n, call.limits(), &mut c.random);
        if call == Call::Scaled {
            let lines = [any_line(n, &mut c.random), any_line_above(n, &mut c.random)];
            let line = c.random.pick(&lines);
            c.scaled("several faults", &cells, line);
            continue;
        }
        let outputs: Vec<Vec<u8>> = (0..call.outputs()).map(|_| any_output(n, &mut c.random)).collect();
        c.signed_block(call, "several faults", &cells, &outputs);
    }
}

/// Counts of bytes for an output: every count of cells up to twice the right one, with odd bytes, and huge.
fn counts(right: usize) -> impl Iterator<Item = usize> {
    let cells = (0..=2 * right).step_by(8);
    cells.chain(right - 9..=right + 9).chain([8 * 65_536, 8 * 65_536 + right])
}

/// Power with outputs of every such count.
fn power_outputs(c: &mut Comparison) {
    for n in LENGTHS {
        let spectrum = bytes_of(&shaped("full range", n, LINES, &mut c.random));
        for count in counts(8 * (n / 2 + 1)) {
            let output = c.random.bytes(count);
            c.signed_block(Call::Power, "output", &spectrum, &[output]);
        }
    }
}

/// Parts with either output of every such count and the other right, and with both wrong, alike and not.
fn parts_outputs(c: &mut Comparison) {
    for n in LENGTHS {
        let right = 8 * (n / 2 + 1);
        let spectrum = bytes_of(&shaped("full range", n, LINES, &mut c.random));
        for count in counts(right) {
            let other = c.random.pick(&[0, 8, right - 8, right - 1, right + 1, right + 8, 2 * right, count + 8]);
            for (sort, [real, imaginary]) in [
                ("real output", [count, right]),
                ("imaginary output", [right, count]),
                ("both outputs", [count, count]),
                ("both outputs", [count, other]),
            ] {
                let outputs = [c.random.bytes(real), c.random.bytes(imaginary)];
                c.signed_block(Call::Parts, sort, &spectrum, &outputs);
            }
        }
    }
}

/// A head with faults cut everywhere; the worked trace cut everywhere, and with every byte changed to every value.
fn small_traces(c: &mut Comparison) {
    let faulty = traces::bytes(&[traces::head(0, 11)]);
    for cut in 0..=faulty.len() {
        check_and_fetch(c, "faulty head cut", &faulty[..cut]);
    }
    for place in 0..worked::TRACE.len() {
        check_and_fetch(c, "worked trace cut", &worked::TRACE[..place]);
        for value in 0..=255 {
            let mut trace = worked::TRACE;
            trace[place] = value;
            check_and_fetch(c, "worked trace, one byte", &trace);
        }
    }
}

/// Every order of up to four records, each right in itself, alone and with one byte more; all of them are listed.
fn every_order(c: &mut Comparison) {
    let records =
        [traces::head(8000, 1), traces::record(2, vec![1, 0, 2, 0]), traces::record(3, vec![7]), traces::end()];
    for (count, orders) in [(1, 4), (2, 16), (3, 64), (4, 256)] {
        for order in 0..orders {
            let chosen = [64, 16, 4, 1].map(|place| records[order / place % 4].clone());
            let trace = traces::bytes(&chosen[4 - count..]);
            let longer = [&trace[..], &[0]].concat();
            for (sort, given) in [("every order of records", trace), ("every order, one byte more", longer)] {
                check_and_fetch(c, sort, &given);
                c.list(sort, &given);
            }
        }
    }
}

/// Random traces, short and full, accepted and damaged, and bytes that are no trace.
fn traces(c: &mut Comparison) {
    for round in 0..TRACES {
        let mut records = traces::short(&mut c.random);
        if round % 16 == 0 {
            let count = LONGEST - c.random.below(12);
            records = traces::filled(count, &mut c.random);
        }
        for damage in DAMAGES {
            let trace = traces::damaged(damage, &records, &mut c.random);
            trace_call(c, damage, &trace);
        }
        for _ in 0..6 {
            let trace = traces::any_records(&mut c.random);
            trace_call(c, "any records", &trace);
        }
        let count = c.random.below(1 + round % 200);
        let trace = c.random.bytes(count);
        trace_call(c, "any bytes", &trace);
    }
    for above in (1..300).chain([LONGEST, 1_000_000]) {
        let trace = traces::bytes(&traces::filled(LONGEST + above, &mut c.random));
        trace_call(c, "above 65,536 bytes", &trace);
    }
}

/// The check of a trace, and the fetch of any block.
fn check_and_fetch(c: &mut Comparison, sort: &'static str, trace: &[u8]) {
    c.check(sort, trace);
    fetches::any(c, sort, trace);
}

/// The same, and at times the listing.
fn trace_call(c: &mut Comparison, sort: &'static str, trace: &[u8]) {
    check_and_fetch(c, sort, trace);
    if c.random.once_in(LISTED) {
        c.list(sort, trace);
    }
}
