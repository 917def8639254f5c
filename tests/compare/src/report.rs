//! What two answers and two results must have in common, and the report of the first difference, which ends the
//! program.

use crate::archive::{self, Lent};
use crate::call::Call;
use crate::compare::Comparison;
use crate::double;
use crate::tally;
use oracle::{Contents, Fraction, Refusal};
use std::process::exit;

/// What has been run and answered, for the report of a difference.
pub struct Run<'a> {
    pub call: Call,
    pub sort: &'static str,
    pub input: &'a [u8],
    pub weights: &'a [u8], // of a smoothing
    pub asked: String,     // the line, the band or the block that was asked for, or rate and P, if any
    pub output: usize,     // bytes, of all outputs
    pub answers: [String; 2],
}

impl<'a> Run<'a> {
    pub fn new<A: ToString>(call: Call, sort: &'static str, input: &'a [u8], answers: [A; 2]) -> Run<'a> {
        let answers = answers.map(|answer| answer.to_string());
        Run { call, sort, input, weights: &[], asked: String::new(), output: 0, answers }
    }
}

/// The answer that a refusal makes: the place has seven bytes in it.
pub fn refused(number: u64, place: u64) -> u64 {
    number + 256 * (place % (1 << 56))
}

/// The answer to an accepted trace.
pub fn accepted(rate: u64, p: u32, blocks: usize) -> u64 {
    256 * u64::from(p) + 65_536 * blocks as u64 + (rate << 32)
}

/// The answer to a search: a line that was found, or none.
pub fn found(line: Option<u64>) -> u64 {
    line.map_or(0, |line| 256 + 65_536 * line)
}

/// The answer that what the second program says would make.
pub fn packed(second: Result<u64, Refusal>) -> u64 {
    second.unwrap_or_else(|refusal| refused(refusal.number, refusal.place))
}

/// The answer to a trace that the second program has read.
pub fn packed_trace(second: &Result<Contents, Refusal>) -> u64 {
    packed(second.as_ref().map(|held| accepted(held.rate, held.p, held.blocks.len())).map_err(|refusal| *refusal))
}

impl Comparison {
    /// An answer as a number, and what the unpacking calls say of it: the number of the refusal, and then its place; and
    /// of any answer its seven upper bytes, which are the bytes used where a trace was saved, and the bound of a block
    /// where that was asked for. A number that both programs give is one of the papers'; 13 is none any longer
    /// (document 02, Item 3).
    pub fn same_answer(&self, run: &Run, answer: u64, second: u64) {
        let [number, place, _, used, distance] = archive::unpacked(answer);
        self.same(run, "answer", answer, second);
        self.same(run, "hartley_number", number, second % 256);
        self.same(run, "hartley_used", used, second / 256);
        self.same(run, "hartley_distance", distance, second / 256);
        if second % 256 != 0 {
            self.same(run, "hartley_place", place, second / 256);
        }
        if !tally::in_the_papers(run.call, number) {
            self.differ(run, &format!("number {number}, which the papers do not have for this call"));
        }
    }

    /// The answer to a search, and what the unpacking calls say of it, which read the same bytes of any answer.
    pub fn same_search(&self, run: &Run, answer: u64, second: u64) {
        let [found, line] = archive::unpacked_search(answer);
        self.same_answer(run, answer, second);
        self.same(run, "hartley_found", found, second / 256 % 256);
        self.same(run, "hartley_line", line, second / 65_536 % 65_536);
    }

    /// The answer to a trace, and what the unpacking calls say of it.
    pub fn same_trace(&self, run: &Run, answer: u64, second: &Result<Contents, Refusal>) {
        self.same_answer(run, answer, packed_trace(second));
        if let Ok(contents) = second {
            let [rate, p, blocks] = archive::unpacked_trace(answer);
            self.same(run, "hartley_rate", rate, contents.rate);
            self.same(run, "hartley_p", p, contents.p.into());
            self.same(run, "hartley_blocks", blocks, contents.blocks.len() as u64);
        }
    }

    /// A lent double: the fraction, and nothing rounded, where there is one, else as it was lent; and its guards.
    pub fn same_double(&self, run: &Run, what: &str, lent: &Lent, kept: u64, fraction: Option<Fraction>) {
        let Some(fraction) = fraction else {
            return self.same_lent(run, what, lent, &kept.to_le_bytes());
        };
        if let Some(fault) = double::fault(lent.bits(), fraction) {
            self.differ(run, &format!("{what}: bits {:016X}, {fault}, should be {fraction:?}", lent.bits()));
        }
        self.same_lent(run, what, lent, lent.bytes()); // which is right: the guards are looked at
    }

    pub fn same(&self, run: &Run, what: &str, first: u64, second: u64) {
        if first != second {
            self.differ(run, &format!("{what}: {first}, second program {second}"));
        }
    }

    pub fn same_lent(&self, run: &Run, what: &str, lent: &Lent, second: &[u8]) {
        if let Some((at, first, second)) = lent.first_wrong(second) {
            self.differ(run, &format!("{what}, lent byte {at}: {first:02X}, should be {second:02X}"));
        }
    }

    pub fn same_bytes(&self, run: &Run, what: &str, first: &[u8], second: &[u8]) {
        if first != second {
            let at = first.iter().zip(second).take_while(|(a, b)| a == b).count();
            let (first, second) = (first.get(at), second.get(at));
            self.differ(run, &format!("{what}, byte {at}: {first:02X?}, second program {second:02X?}"));
        }
    }

    pub fn differ(&self, run: &Run, difference: &str) -> ! {
        let [first, second] = &run.answers;
        println!("comparison: a difference at seed {}, input {}", self.seed, self.tally.inputs);
        println!("  call: {:?}, {}", run.call, run.sort);
        println!("  given: {} bytes, and {} of output", run.input.len(), run.output);
        if !run.asked.is_empty() {
            println!("  asked for: {}", run.asked);
        }
        println!("  first bytes given: {:02X?}", &run.input[..run.input.len().min(64)]);
        if run.call == Call::Smooth {
            let first = &run.weights[..run.weights.len().min(64)];
            println!("  weights: {} bytes, the first {first:02X?}", run.weights.len());
        }
        println!("  answer: {first}, second program {second}");
        println!("  {difference}");
        exit(1);
    }
}
