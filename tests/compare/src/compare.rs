//! Runs one input twice, first by the archive or one of the programs, then by the second program, and ends at the
//! first difference.

use crate::archive::{self, Lent};
use crate::call::Call;
use crate::cases::{self, Case};
use crate::disorders;
use crate::inputs::{cells_of, negated};
use crate::quiet;
use crate::random::Random;
use crate::report::{found, packed, packed_trace, Run};
use crate::tally::Tally;
use crate::words;
use oracle::{Contents, Refusal, Scaled};
use std::io::Write;
use std::process::{exit, Command, Stdio};
use std::thread;
use std::time::Duration;

pub struct Comparison {
    pub random: Random,
    pub tally: Tally,
    pub seed: u64,
    list: String,
    pub table_program: String,
    beside: Random, // for the guards of what bound is lent; the other random inputs are as they are without it
}

/// An answer, and what then stands in the bytes lent for the result.
pub type Left = (u64, Vec<u8>);

/// A call on a block by the archive.
fn first_block(call: Call, cells: &mut Lent, outputs: &mut [Lent]) -> u64 {
    match (call, outputs) {
        (Call::Forward, []) => archive::forward(cells),
        (Call::Backward, []) => archive::backward(cells),
        (Call::Parts, [real, imaginary]) => archive::parts(cells, real, imaginary),
        (Call::Power, [powers]) => archive::power(cells, powers),
        _ => panic!("{call:?} with other outputs"),
    }
}

/// The same by the second program.
fn second_block(call: Call, cells: &mut [u8], outputs: &mut [Vec<u8>]) -> Result<(), Refusal> {
    match (call, outputs) {
        (Call::Forward, []) => oracle::forward_bytes(cells),
        (Call::Backward, []) => oracle::backward_bytes(cells),
        (Call::Parts, [real, imaginary]) => oracle::parts_bytes(cells, real, imaginary),
        (Call::Power, [powers]) => oracle::power_bytes(cells, powers),
        _ => panic!("{call:?} with other outputs"),
    }
}

impl Comparison {
    pub fn new(seed: u64, list: String, table_program: String) -> Comparison {
        let (random, beside) = (Random::new(seed), Random::new(!seed));
        Comparison { random, tally: Tally::default(), seed, list, table_program, beside }
    }

    /// A call on a block, with as many outputs as it has; what is left of two stands one after the other. The block
    /// that forward is given is given to bound as well.
    fn block(&mut self, call: Call, sort: &'static str, cells: &[u8], outputs: &[Vec<u8>]) -> Left {
        if call == Call::Forward {
            self.bound(sort, cells);
        }
        let mut lent = Lent::new(cells, &mut self.random);
        let mut lent_outputs: Vec<Lent> = outputs.iter().map(|bytes| Lent::new(bytes, &mut self.random)).collect();
        let answer = first_block(call, &mut lent, &mut lent_outputs);
        let (mut second_cells, mut second_outputs) = (cells.to_vec(), outputs.to_vec());
        let second = second_block(call, &mut second_cells, &mut second_outputs);
        let second_answer = packed(second.map(|()| 0));
        let mut run = Run::new(call, sort, cells, [answer, second_answer]);
        run.output = outputs.iter().map(Vec::len).sum();
        self.same_answer(&run, answer, second_answer);
        if second.is_err() {
            self.same_bytes(&run, "block kept by the second program", cells, &second_cells);
            self.same_bytes(&run, "outputs kept by the second program", &outputs.concat(), &second_outputs.concat());
        }
        self.same_lent(&run, "block", &lent, &second_cells);
        for (lent_output, second_output) in lent_outputs.iter().zip(&second_outputs) {
            self.same_lent(&run, "output", lent_output, second_output);
        }
        let given = cells_of(cells);
        let p = given.len().max(1).ilog2();
        self.tally.count(call, sort, answer % 256, p);
        if let Err(refusal) = second {
            self.tally.count_faults(call, refusal.number, &given, None);
        } else if call == Call::Forward {
            self.measure(&given, &cells_of(lent.bytes()));
            self.tally.count_cases(call, p as usize, &quiet::cases(&given));
        }
        let result = if outputs.is_empty() { vec![lent] } else { lent_outputs };
        (answer, result.iter().flat_map(|lent| lent.bytes().to_vec()).collect())
    }

    /// The bound of a block (document 02, Item 6). Gives the answer.
    pub fn bound(&mut self, sort: &'static str, cells: &[u8]) -> u64 {
        let mut lent = Lent::new(cells, &mut self.beside);
        let answer = archive::bound(&mut lent);
        let second = oracle::bound_bytes(cells);
        let second_answer = packed(second.map(|bound| 256 * bound));
        let run = Run::new(Call::Bound, sort, cells, [answer, second_answer]);
        self.same_answer(&run, answer, second_answer);
        self.same_lent(&run, "block", &lent, cells);
        let given = cells_of(cells);
        let p = given.len().max(1).ilog2();
        self.tally.count(Call::Bound, sort, answer % 256, p);
        match second {
            Ok(_) => self.tally.count_cases(Call::Bound, p as usize, &quiet::cases(&given)),
            Err(refusal) => self.tally.count_faults(Call::Bound, refusal.number, &given, None),
        }
        answer
    }

    /// A block as above and its negative, by forward or backward. Where both are taken, what is left of the one is the
    /// negative of what is left of the other; and backward answers both alike. Gives what is left of the block itself.
    fn both_signs(&mut self, call: Call, sort: &'static str, cells: &[u8]) -> Left {
        let (answer, left) = self.block(call, sort, cells, &[]);
        let negative = negated(cells);
        let (its_answer, its_left) = self.block(call, sort, &negative, &[]);
        let run = Run::new(call, sort, cells, [answer, its_answer]);
        let tellable = !cells_of(cells).contains(&i64::MIN); // whose negative is itself here
        if call == Call::Backward && tellable {
            self.same(&run, "answer for the negative", its_answer, answer);
        }
        if answer == 0 && its_answer == 0 {
            self.same_bytes(&run, "result for the negative", &its_left, &negated(&left));
            self.tally.count_both(call, (cells.len() / 8).ilog2(), oracle::halves(&cells_of(cells)));
        } else if answer == 0 {
            self.tally.only_one_sign += 1;
        }
        (answer, left)
    }

    /// One input of a call on a block; forward and backward take it with its negative.
    pub fn signed_block(&mut self, call: Call, sort: &'static str, cells: &[u8], outputs: &[Vec<u8>]) -> Left {
        match call {
            Call::Forward | Call::Backward => self.both_signs(call, sort, cells),
            _ => self.block(call, sort, cells, outputs),
        }
    }

    /// Random bytes for each output of a call on a block.
    pub fn outputs(&mut self, call: Call, bytes: usize) -> Vec<Vec<u8>> {
        (0..call.outputs()).map(|_| self.random.bytes(bytes)).collect()
    }

    /// A scaled line. Gives the answer, and the bits that then stand in the two lent doubles.
    pub fn scaled(&mut self, sort: &'static str, cells: &[u8], line: u64) -> (u64, [u64; 2]) {
        let mut lent = Lent::new(cells, &mut self.random);
        let kept = [self.any_double(), self.any_double()];
        let mut doubles = kept.map(|bits| Lent::double(bits, &mut self.random));
        let answer = archive::scaled(&mut lent, line, &mut doubles);
        let second = oracle::scaled_bytes(cells, line);
        let (case, fractions) = match second {
            Ok(Scaled::Mean(mean)) => (1, [Some(mean), None]),
            Ok(Scaled::Last(last)) => (2, [Some(last), None]),
            Ok(Scaled::Pair { real, imaginary }) => (3, [Some(real), Some(imaginary)]),
            Err(_) => (0, [None, None]),
        };
        let second_answer = packed(second.map(|_| 256 * case));
        let mut run = Run::new(Call::Scaled, sort, cells, [answer, second_answer]);
        run.asked = format!("line {line}");
        self.same_answer(&run, answer, second_answer);
        self.same(&run, "hartley_case", archive::unpacked(answer)[2], second_answer / 256 % 256);
        self.same_lent(&run, "spectrum", &lent, cells);
        for (i, what) in ["real", "imaginary"].iter().enumerate() {
            self.same_double(&run, what, &doubles[i], kept[i], fractions[i]);
        }
        self.count_scaled(sort, cells, line, second);
        (answer, doubles.map(|double| double.bits()))
    }

    /// What a double holds before the call: any bits, or such as a copy could change, or zeros.
    fn any_double(&mut self) -> u64 {
        let any = self.random.next();
        let signalling = 0x7FF0_0000_0000_0001; // the least that is no number
        self.random.pick(&[any, any, signalling, f64::INFINITY.to_bits(), 1 << 63, 0])
    }

    fn count_scaled(&mut self, sort: &'static str, cells: &[u8], line: u64, second: Result<Scaled, Refusal>) {
        let spectrum = cells_of(cells);
        let p = spectrum.len().max(1).ilog2();
        self.tally.count(Call::Scaled, sort, second.map_or_else(|refusal| refusal.number, |_| 0), p);
        match second {
            Ok(scaled) => self.tally.count_line(p as usize, scaled, &spectrum),
            Err(refusal) => self.tally.count_faults(Call::Scaled, refusal.number, &spectrum, Some(line)),
        }
    }

    /// The strongest line of a band. Gives the answer.
    pub fn strongest(&mut self, sort: &'static str, powers: &[u8], low: u64, high: u64) -> u64 {
        let mut lent = Lent::new(powers, &mut self.random);
        let answer = archive::strongest(&mut lent, low, high);
        let second = oracle::strongest_bytes(powers, low, high);
        let second_answer = packed(second.map(|line| found(Some(line))));
        let mut run = Run::new(Call::Strongest, sort, powers, [answer, second_answer]);
        run.asked = format!("the strongest line from {low} to {high}");
        self.same_search(&run, answer, second_answer);
        self.same_lent(&run, "powers", &lent, powers);
        let wrong = low.max(high) > 512 || low > high; // even in the longest list
        self.count_search(&run, second.err(), wrong, &cases::of_strongest(&cells_of(powers), low, high, second));
        answer
    }

    /// The line nearest to a chosen one that reaches a level. Gives the answer.
    pub fn nearest(&mut self, sort: &'static str, powers: &[u8], chosen: u64, level: i64) -> u64 {
        let mut lent = Lent::new(powers, &mut self.random);
        let answer = archive::nearest(&mut lent, chosen, level);
        let second = oracle::nearest_bytes(powers, chosen, level);
        let second_answer = packed(second.map(found));
        let mut run = Run::new(Call::Nearest, sort, powers, [answer, second_answer]);
        run.asked = format!("the line nearest to {chosen} of at least {level}");
        self.same_search(&run, answer, second_answer);
        self.same_lent(&run, "powers", &lent, powers);
        let cases = cases::of_nearest(&cells_of(powers), chosen, level, second);
        self.count_search(&run, second.err(), chosen > 512, &cases);
        answer
    }

    /// Counts a search: its P is that of a list of N/2 + 1 powers. Where the list has another length, the lines may be
    /// wrong as well.
    fn count_search(&mut self, run: &Run, refusal: Option<Refusal>, wrong: bool, cases: &[Case]) {
        let number = refusal.map_or(0, |refusal| refusal.number);
        let half = (run.input.len() / 8).max(2) - 1;
        let p = half.ilog2() + 1;
        self.tally.count(run.call, run.sort, number, p);
        self.tally.count_cases(run.call, p as usize, cases);
        if number == 1 {
            self.tally.count_together(run.call, [1, 4], wrong);
            self.tally.count_cases(run.call, p as usize, &cases::of_length(run.input.len()));
        }
    }

    /// The check of a trace. Gives the answer.
    pub fn check(&mut self, sort: &'static str, trace: &[u8]) -> u64 {
        let mut lent = Lent::new(trace, &mut self.random);
        let answer = archive::check(&mut lent);
        let second = oracle::contents(trace);
        let run = Run::new(Call::Check, sort, trace, [answer, packed_trace(&second)]);
        self.same_lent(&run, "trace", &lent, trace);
        self.same_trace(&run, answer, &second);
        self.count_trace(Call::Check, sort, &second, trace);
        if let Err(refusal) = second {
            self.tally.count_forms(Call::Check, &disorders::forms(trace, refusal));
        }
        answer
    }

    /// The fetch of block k.
    pub fn fetch(&mut self, sort: &'static str, trace: &[u8], k: u64, cells: &[u8]) -> Left {
        let mut lent = Lent::new(trace, &mut self.random);
        let mut lent_cells = Lent::new(cells, &mut self.random);
        let answer = archive::fetch(&mut lent, k, &mut lent_cells);
        let mut second_cells = cells.to_vec();
        let second = oracle::fetch_bytes(trace, k, &mut second_cells);
        let mut run = Run::new(Call::Fetch, sort, trace, [answer, packed_trace(&second)]);
        (run.asked, run.output) = (format!("block {k}"), cells.len());
        self.same_trace(&run, answer, &second);
        if second.is_err() {
            self.same_bytes(&run, "cells kept by the second program", cells, &second_cells);
        }
        self.same_lent(&run, "trace", &lent, trace);
        self.same_lent(&run, "cells", &lent_cells, &second_cells);
        self.count_trace(Call::Fetch, sort, &second, trace);
        if let Ok(contents) = &second {
            self.tally.count_fetched(contents.p as usize, k);
            self.tally.count_cases(Call::Fetch, contents.p as usize, &words::cases(&cells_of(&second_cells)));
        }
        if second.is_err_and(|refusal| refusal.number == 16) {
            self.tally.count_together(Call::Fetch, [16, 2], cells.len() != 8 << trace[10]);
        }
        (answer, lent_cells.bytes().to_vec())
    }

    /// Counts a trace, with its P where the trace itself is right.
    fn count_trace(&mut self, call: Call, sort: &'static str, second: &Result<Contents, Refusal>, trace: &[u8]) {
        let number = second.as_ref().map_or_else(|refusal| refusal.number, |_| 0);
        let p = if [0, 2, 16].contains(&number) { trace[10].into() } else { 0 };
        self.tally.count(call, sort, number, p);
    }

    /// The listing of a trace. Gives what is printed.
    pub fn list(&mut self, sort: &'static str, trace: &[u8]) -> Vec<u8> {
        let mut command = Command::new(&self.list);
        command.stdin(Stdio::piped()).stdout(Stdio::piped()).stderr(Stdio::piped());
        let mut process = command.spawn().expect("the listing program starts");
        let mut input = process.stdin.take().expect("the listing program has an input");
        // The trace goes in two pieces, at times with a pause between them. A program that has read enough need not
        // read the rest.
        let (cut, whole) = (self.random.below(trace.len() + 1), trace.to_vec());
        let pause = Duration::from_millis(if self.random.once_in(8) { 4 } else { 0 });
        let sender = thread::spawn(move || {
            let _ = input.write_all(&whole[..cut]);
            thread::sleep(pause);
            let _ = input.write_all(&whole[cut..]);
        });
        let printed = process.wait_with_output().expect("the listing program ends");
        sender.join().expect("the trace is sent");
        let second = oracle::listing(trace);
        let run = Run::new(Call::List, sort, trace, [first_line(&printed.stdout), first_line(&second)]);
        self.same_bytes(&run, "listing", &printed.stdout, &second);
        self.same_bytes(&run, "error output", &printed.stderr, &[]);
        self.same(&run, "end by a signal", printed.status.code().is_none().into(), 0);
        self.count_trace(Call::List, "traces as above", &oracle::contents(trace), trace);
        printed.stdout
    }

    /// Demand 3 with the bound of document 02, Item 6, at the block's own M: each line, times 2^60, is at most so many
    /// times 2^60 from the direct sum. "For M = 0 every line is 0."
    fn measure(&mut self, samples: &[i64], lines: &[i64]) {
        let (p, m) = (samples.len().ilog2(), oracle::largest_magnitude(samples));
        let (bound, direct) = (oracle::bound_at(p, m), oracle::direct(samples));
        let mut farthest = 0;
        for v in 0..lines.len() {
            let distance = (i128::from(lines[v]) * (1 << 60) - direct[v]).abs();
            farthest = farthest.max(distance);
            if distance > i128::from(bound) * (1 << 60) || (m == 0 && lines[v] != 0) {
                println!("comparison: P {p}, line {v} is {}, {distance} / 2^60 from the direct sum", lines[v]);
                println!("  M {m}, bound {bound}");
                println!("  seed {}, input {}, samples {samples:?}", self.seed, self.tally.inputs);
                exit(1);
            }
        }
        self.tally.count_measured(p as usize, m, farthest);
    }
}

fn first_line(printed: &[u8]) -> String {
    String::from_utf8_lossy(printed).lines().next().unwrap_or("").to_string()
}
