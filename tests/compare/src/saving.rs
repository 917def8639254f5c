//! Runs one saving of a trace (document 02, Item 4) twice, as compare.rs runs the other calls. What was saved is read
//! back by both programs, and what both read in a trace is saved again.

use crate::archive::{self, Lent};
use crate::call::Call;
use crate::compare::{Comparison, Left};
use crate::disorders::kinds_before;
use crate::inputs::bytes_of;
use crate::report::{accepted, packed, packed_trace, Run};
use crate::save_cases::{self, TESTS};
use oracle::Refusal;

/// The sort of the checks and fetches of what was saved.
const SORT: &str = "what was saved";

/// A saved trace of more blocks is not read back whole each time.
const FEW: usize = 8;

/// What a call is given.
pub struct Given<'a> {
    pub rate: u64,
    pub p: u64,
    pub cells: &'a [u8],
    pub trace: &'a [u8], // the bytes lent for the trace, as they are before the call
}

impl Given<'_> {
    /// The whole blocks among the cells, where P is right.
    pub fn blocks(&self) -> usize {
        self.cells.len() / (8 << self.p)
    }

    /// The cells of block k.
    fn block(&self, k: usize) -> &[u8] {
        &self.cells[k * (8 << self.p)..(k + 1) * (8 << self.p)]
    }

    /// What a check or a fetch of the saved trace should answer.
    fn answer_read(&self) -> u64 {
        accepted(self.rate, self.p as u32, self.blocks())
    }
}

impl Comparison {
    /// The saving of a trace. What was saved is read back.
    pub fn save(&mut self, sort: &'static str, given: &Given) -> Left {
        let mut lent_cells = Lent::new(given.cells, &mut self.random);
        let mut lent = Lent::new(given.trace, &mut self.random);
        let answer = archive::save(given.rate, given.p, &mut lent_cells, &mut lent);
        let mut second_trace = given.trace.to_vec();
        let second = oracle::save_bytes(given.rate, given.p, given.cells, &mut second_trace);
        let second_answer = packed(second.map(|used| 256 * used));
        let mut run = Run::new(Call::Save, sort, given.cells, [answer, second_answer]);
        (run.asked, run.output) = (format!("rate {}, P {}", given.rate, given.p), given.trace.len());
        self.same_answer(&run, answer, second_answer);
        let used = second.map_or(0, |used| used as usize); // a refusal keeps all
        self.same_bytes(&run, "bytes kept by the second program", &given.trace[used..], &second_trace[used..]);
        self.same_lent(&run, "cells", &lent_cells, given.cells);
        self.same_lent(&run, "trace", &lent, &second_trace);
        self.count_save(&run, given, second);
        if second.is_ok() {
            self.read_back(&run, given, &lent.bytes()[..used]);
        }
        (answer, lent.bytes().to_vec())
    }

    /// Counts a saving, with its P and its cases where P is right. Where it is wrong nothing says what a block is.
    fn count_save(&mut self, run: &Run, given: &Given, second: Result<u64, Refusal>) {
        let number = second.map_or_else(|refusal| refusal.number, |_| 0);
        if number == 15 {
            self.tally.count_forms(Call::Save, &save_cases::forms(given));
        }
        if !save_cases::right_p(given.p) {
            self.tally.count(Call::Save, run.sort, number, 0);
            return;
        }
        self.tally.count(Call::Save, run.sort, number, given.p as u32);
        self.tally.count_cases(Call::Save, given.p as usize, &save_cases::cases(given, second));
        let faults = save_cases::faults(given);
        let first = faults.iter().position(|fault| *fault).unwrap_or(TESTS.len());
        self.same(run, "number, from the faults one by one", *TESTS.get(first).unwrap_or(&0), number);
        for later in first + 1..TESTS.len() {
            self.tally.count_together(Call::Save, [number, TESTS[later]], faults[later]);
        }
    }

    /// "A saved trace reads back as the same rate, P and samples": by check, and by fetch of each block, or, where they
    /// are many, of the first, the last and one between.
    fn read_back(&mut self, run: &Run, given: &Given, trace: &[u8]) {
        let (answer, blocks) = (given.answer_read(), given.blocks());
        let checked = self.check(SORT, trace);
        self.same(run, "check of what was saved", checked, answer);
        let mut chosen: Vec<usize> = (0..blocks).collect();
        if blocks > FEW {
            chosen = vec![0, 1 + self.random.below(blocks - 2), blocks - 1];
        } else {
            self.tally.count_read_back(given.p, blocks);
        }
        for k in chosen {
            let cells = self.random.bytes(8 << given.p);
            let (fetched, left) = self.fetch(SORT, trace, k as u64, &cells);
            self.same(run, "fetch of what was saved", fetched, answer);
            self.same_bytes(run, "block of what was saved", &left, given.block(k));
        }
    }

    /// The same of every block, however many they are. The second program reads the trace once, and the archive is lent
    /// it once for all fetches, so that it is not copied for each.
    pub fn read_whole(&mut self, given: &Given, trace: &[u8]) {
        let (answer, second) = (given.answer_read(), oracle::contents(trace));
        let mut run = Run::new(Call::Fetch, "what was saved, each block", trace, [answer, packed_trace(&second)]);
        self.same(&run, "answer", answer, packed_trace(&second));
        let held = second.map_or_else(|_| Vec::new(), |held| held.blocks.concat());
        self.same_bytes(&run, "cells given", given.cells, &bytes_of(&held));
        let mut lent = Lent::new(trace, &mut self.random);
        for k in 0..given.blocks() {
            let cells = self.random.bytes(8 << given.p);
            let mut lent_cells = Lent::new(&cells, &mut self.random);
            let fetched = archive::fetch(&mut lent, k as u64, &mut lent_cells);
            run.asked = format!("block {k}");
            self.same_answer(&run, fetched, answer);
            self.same_lent(&run, "cells", &lent_cells, given.block(k));
            self.tally.count(Call::Fetch, run.sort, 0, given.p as u32);
        }
        self.same_lent(&run, "trace", &lent, trace);
        self.tally.count_read_back(given.p, given.blocks());
    }

    /// "any accepted trace without notes is byte for byte what saving its contents would give"; any other trace is
    /// passed over.
    pub fn save_again(&mut self, sort: &'static str, trace: &[u8]) {
        let Ok(held) = oracle::contents(trace) else { return };
        if kinds_before(trace, trace.len()).contains(&3) {
            return;
        }
        let cells = bytes_of(&held.blocks.concat());
        let more = self.random.pick(&[0, 0, 1, 300]);
        let lent = self.random.bytes(trace.len() + more);
        let given = Given { rate: held.rate, p: held.p.into(), cells: &cells, trace: &lent };
        let (answer, left) = self.save(sort, &given);
        let run = Run::new(Call::Save, sort, trace, [answer, 256 * trace.len() as u64]);
        self.same(&run, "answer", answer, 256 * trace.len() as u64);
        self.same_bytes(&run, "trace saved again", &left[..trace.len()], trace);
        self.tally.count_again(given.p, held.blocks.len());
    }
}
