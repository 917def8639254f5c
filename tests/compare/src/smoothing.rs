//! Runs one smoothing (document 02, Item 7) twice, as compare.rs runs the other calls. What is left is held to laws as
//! well, which tie it to the samples themselves and to other smoothings.

use crate::archive::{self, Lent};
use crate::call::Call;
use crate::compare::{Comparison, Left};
use crate::inputs::{bytes_of, cells_of, negated};
use crate::report::{packed, Run};
use crate::smooth_cases::{self, can_be_weights, single, TESTS};
use oracle::Refusal;

impl Comparison {
    /// A smoothing, with the laws that it comes under: of one that is taken all those below, and of one that is refused
    /// by 20 that the negative weights are refused alike.
    pub fn smooth(&mut self, sort: &'static str, cells: &[u8], weights: &[u8]) -> Left {
        let (answer, left) = self.smooth_once(sort, cells, weights);
        let mut run = Run::new(Call::Smooth, sort, cells, [answer, answer]);
        run.weights = weights;
        if answer == 0 {
            self.single_weight(&run, &left);
            self.negative_samples(&run, &left);
            self.exchanged(&run, &left);
        } else if answer % 256 == 20 {
            let (its_answer, _) = self.smooth_once(sort, cells, &negated(weights));
            self.same(&run, "answer for the negative weights", its_answer, answer);
        }
        (answer, left)
    }

    /// One smoothing: the answer, the block and the weights.
    fn smooth_once(&mut self, sort: &'static str, cells: &[u8], weights: &[u8]) -> Left {
        let mut lent = Lent::new(cells, &mut self.random);
        let mut lent_weights = Lent::new(weights, &mut self.random);
        let answer = archive::smooth(&mut lent, &mut lent_weights);
        let mut second_cells = cells.to_vec();
        let second = oracle::smooth_bytes(&mut second_cells, weights);
        let second_answer = packed(second.map(|()| 0));
        let mut run = Run::new(Call::Smooth, sort, cells, [answer, second_answer]);
        run.weights = weights;
        self.same_answer(&run, answer, second_answer);
        if second.is_err() {
            self.same_bytes(&run, "block kept by the second program", cells, &second_cells);
        }
        self.same_lent(&run, "block", &lent, &second_cells);
        self.same_lent(&run, "weights", &lent_weights, weights);
        self.count_smooth(&run, second, &cells_of(lent.bytes()));
        (answer, lent.bytes().to_vec())
    }

    /// Counts a smoothing with its cases, and with the faults that it has beside the one that decides.
    fn count_smooth(&mut self, run: &Run, second: Result<(), Refusal>, left: &[i64]) {
        let (cells, weights) = (cells_of(run.input), cells_of(run.weights));
        let p = cells.len().max(1).ilog2();
        let number = second.map_or_else(|refusal| refusal.number, |()| 0);
        self.tally.count(Call::Smooth, run.sort, number, p);
        let faults = smooth_cases::faults(run.input, run.weights);
        let first = faults.iter().position(|fault| *fault).unwrap_or(TESTS.len());
        self.same(run, "number, from the faults one by one", *TESTS.get(first).unwrap_or(&0), number);
        for later in first + 1..TESTS.len() {
            self.tally.count_together(Call::Smooth, [number, TESTS[later]], faults[later]);
        }
        let cases = match second {
            Ok(()) => smooth_cases::of_taken(&cells, &weights, left),
            Err(Refusal { number: 1, .. }) => smooth_cases::of_length(run.input.len()),
            Err(Refusal { number: 2, .. }) => smooth_cases::of_misfit(cells.len(), run.weights.len()),
            Err(Refusal { number: 3, place }) => smooth_cases::of_loud(&cells, place as usize),
            Err(Refusal { place, .. }) => smooth_cases::of_weights(&weights, place as usize),
        };
        self.tally.count_cases(Call::Smooth, p as usize, &cases);
        if number == 1 {
            self.tally.count_forms(Call::Smooth, &smooth_cases::forms(run.input.len()));
        }
    }

    /// Where one weight alone is not 0, the samples come later by its moment, that many times as large. So a weight of
    /// 1 at moment 0 leaves them as they are.
    fn single_weight(&self, run: &Run, left: &[u8]) {
        if let Some((moment, weight)) = single(&cells_of(run.weights)) {
            let mut later = cells_of(run.input);
            later.rotate_right(moment);
            let later: Vec<i64> = later.iter().map(|sample| weight * sample).collect();
            self.same_bytes(run, "samples delayed by a single weight", left, &bytes_of(&later));
        }
    }

    /// The negative samples, where they are taken as well, have the negative result.
    fn negative_samples(&mut self, run: &Run, left: &[u8]) {
        let (its_answer, its_left) = self.smooth_once(run.sort, &negated(run.input), run.weights);
        if its_answer == 0 {
            self.same_bytes(run, "result for the negative samples", &its_left, &negated(left));
        }
    }

    /// Samples that can be weights have, as the weights of the others, the same result.
    fn exchanged(&mut self, run: &Run, left: &[u8]) {
        if can_be_weights(&cells_of(run.input)) {
            let (its_answer, its_left) = self.smooth_once("samples and weights exchanged", run.weights, run.input);
            self.same(run, "answer for samples and weights exchanged", its_answer, 0);
            self.same_bytes(run, "result for samples and weights exchanged", &its_left, left);
        }
    }
}
