//! Counts what was run and how it was answered, and prints the tables.

use crate::call::Call;
use crate::cases::Case;
use crate::disorders::Form;
use crate::quiet::QUIET;
use crate::traces::most_blocks;
use oracle::Scaled;
use std::collections::{BTreeMap, BTreeSet};
use std::process::exit;

/// Every call, with the numbers of its refusals, 0 being the accepted inputs: those that are given at every P, and those
/// of blocks and traces that have no P, and of the table, which has none.
const ANSWERS: [(Call, &[usize], &[usize]); 15] = [
    (Call::Forward, &[0, 3], &[1]),
    (Call::Bound, &[0, 3], &[1]),
    (Call::Backward, &[0, 3], &[1]),
    (Call::Smooth, &[0, 2, 3, 20], &[1]),
    (Call::Parts, &[0, 2, 3], &[1]),
    (Call::Power, &[0, 2, 3], &[1]),
    (Call::Scaled, &[0, 3, 4], &[1]),
    (Call::Strongest, &[0, 4], &[1]),
    (Call::Nearest, &[0, 4], &[1]),
    (Call::Check, &[0], &[10, 11, 12, 14, 15, 17, 18, 19]),
    (Call::Fetch, &[0, 2, 16], &[10, 11, 12, 14, 15, 17, 18, 19]),
    (Call::Save, &[0, 1, 2, 3, 10, 15], &[]),
    (Call::Table, &[], &[0, 2]),
    (Call::List, &[0], &[10, 11, 12, 14, 15, 17, 18, 19]),
    (Call::TableProgram, &[], &[0]),
];

/// Whether the papers have this number for a call, 0 being no refusal.
pub fn in_the_papers(call: Call, number: u64) -> bool {
    let has = |numbers: &[usize]| numbers.iter().any(|its| *its as u64 == number);
    ANSWERS.iter().any(|(its, at_every_p, others)| *its == call && (has(at_every_p) || has(others)))
}

/// Faults that an input can have together, in the order of their tests: the first decides.
const TOGETHER: [(Call, [u64; 2]); 29] = [
    (Call::Forward, [1, 3]),
    (Call::Bound, [1, 3]),
    (Call::Backward, [1, 3]),
    (Call::Smooth, [1, 2]),
    (Call::Smooth, [1, 3]),
    (Call::Smooth, [1, 20]),
    (Call::Smooth, [2, 3]),
    (Call::Smooth, [2, 20]),
    (Call::Smooth, [3, 20]),
    (Call::Parts, [1, 3]),
    (Call::Parts, [2, 3]),
    (Call::Power, [1, 3]),
    (Call::Power, [2, 3]),
    (Call::Scaled, [1, 3]),
    (Call::Scaled, [1, 4]),
    (Call::Scaled, [3, 4]),
    (Call::Strongest, [1, 4]),
    (Call::Nearest, [1, 4]),
    (Call::Fetch, [16, 2]),
    (Call::Save, [15, 1]),
    (Call::Save, [15, 3]),
    (Call::Save, [15, 10]),
    (Call::Save, [15, 2]),
    (Call::Save, [1, 3]),
    (Call::Save, [1, 10]),
    (Call::Save, [1, 2]),
    (Call::Save, [3, 10]),
    (Call::Save, [3, 2]),
    (Call::Save, [10, 2]),
];

const NUMBERS: [usize; 14] = [1, 2, 3, 4, 10, 11, 12, 14, 15, 16, 17, 18, 19, 20];

/// The sizes of a trace by its number of blocks.
const SIZES: [&str; 4] = ["no block", "one block", "several", "the most"];

/// Which of the sizes a trace of this P has.
fn size(p: u64, blocks: usize) -> usize {
    if blocks == most_blocks(p) {
        return 3;
    }
    blocks.min(2)
}

/// Inputs of a call and a sort: how many were accepted, refused by 1, by 2 and so on.
type Rows = BTreeMap<(Call, &'static str), [u64; 21]>;

/// Blocks that a call took with their negatives, and the halves that its divisions met, above and below zero.
#[derive(Default)]
struct BothSigns {
    blocks: u64,
    at_levels: [u64; 2],
    in_division: [u64; 2],
}

/// Scaled lines of one P: means, last lines and pairs; and the numbers that are 0 while their partner is negative: a
/// mean beside the last line, a last line beside the mean, a real part beside the imaginary one, and that beside the
/// real.
#[derive(Default)]
struct Lines {
    cases: [u64; 3],
    zeros: [u64; 4],
}

/// Blocks measured, and their largest distance from the direct sum, times 2^60.
#[derive(Clone, Copy, Default)]
struct Measured {
    blocks: u64,
    farthest: i128,
}

impl Measured {
    fn count(&mut self, distance: i128) {
        self.blocks += 1;
        self.farthest = self.farthest.max(distance);
    }

    /// The distance in thousandths, rounded up.
    fn shown(&self) -> String {
        let far = (self.farthest * 1000 + (1 << 60) - 1) / (1 << 60);
        format!("{}.{:03}", far / 1000, far % 1000)
    }
}

#[derive(Default)]
pub struct Tally {
    pub inputs: u64,
    rows: Rows,
    totals: Rows,
    /// Each refusal of each call, or 0, at each P.
    seen: BTreeSet<(Call, usize, u32)>,
    /// Inputs with two faults, refused for the first.
    together: BTreeMap<(Call, [u64; 2]), u64>,
    /// The blocks of each P taken with their negatives, and those that forward took without.
    both_signs: BTreeMap<(Call, u32), BothSigns>,
    pub only_one_sign: u64,
    /// For each P the scaled lines, and the fetched blocks: 0, 1 and above.
    lines: [Lines; 11],
    fetched: [[u64; 3]; 11],
    /// For each P the saved traces of which each block was read back, and the traces saved again, by their sizes.
    read_back: [[u64; 4]; 11],
    saved_again: [[u64; 4]; 11],
    /// The cases of the searches, of saving, of the words of a fetch, of a block's M and of smoothing, with the least P
    /// of each: how often it was seen at each P.
    cases: BTreeMap<(Call, &'static str, usize), [u64; 11]>,
    /// The forms of the traces that check refused, of the heads that save refused, of the lengths that smooth refused,
    /// and of the bytes that table refused: how often each was seen.
    forms: BTreeMap<(Call, &'static str), u64>,
    /// For each P the blocks measured, all of them, and those of each quiet M.
    measured: [Measured; 11],
    quiet: [[Measured; QUIET.len()]; 11],
}

impl Tally {
    /// Counts one input: the number of its refusal, or 0 where it is accepted, and its P where it has one.
    pub fn count(&mut self, call: Call, sort: &'static str, number: u64, p: u32) {
        let number = number as usize;
        self.inputs += 1;
        self.rows.entry((call, sort)).or_default()[number] += 1;
        self.totals.entry((call, "all")).or_default()[number] += 1;
        self.seen.insert((call, number, p));
    }

    /// Counts a block that was taken with its negative, and the halves that its divisions meet: those of the levels, and
    /// for backward those after them.
    pub fn count_both(&mut self, call: Call, p: u32, [at_levels, in_division]: [[u64; 2]; 2]) {
        let both = self.both_signs.entry((call, p)).or_default();
        both.blocks += 1;
        for sign in 0..2 {
            both.at_levels[sign] += at_levels[sign];
            both.in_division[sign] += if call == Call::Backward { in_division[sign] } else { 0 };
        }
    }

    /// Counts a scaled line of an accepted spectrum.
    pub fn count_line(&mut self, p: usize, line: Scaled, spectrum: &[i64]) {
        let (first, last) = (spectrum[0], spectrum[spectrum.len() / 2]);
        let lines = &mut self.lines[p];
        match line {
            Scaled::Mean(_) => {
                lines.cases[0] += 1;
                lines.zeros[0] += u64::from(first == 0 && last < 0);
            }
            Scaled::Last(_) => {
                lines.cases[1] += 1;
                lines.zeros[1] += u64::from(last == 0 && first < 0);
            }
            Scaled::Pair { real, imaginary } => {
                lines.cases[2] += 1;
                lines.zeros[2] += u64::from(real.numerator == 0 && imaginary.numerator < 0);
                lines.zeros[3] += u64::from(imaginary.numerator == 0 && real.numerator < 0);
            }
        }
    }

    /// Counts block k, fetched from a trace of this P.
    pub fn count_fetched(&mut self, p: usize, k: u64) {
        self.fetched[p][k.min(2) as usize] += 1;
    }

    /// Counts a saved trace of which each block was read back.
    pub fn count_read_back(&mut self, p: u64, blocks: usize) {
        self.read_back[p as usize][size(p, blocks)] += 1;
    }

    /// Counts a trace that was saved again from what it holds.
    pub fn count_again(&mut self, p: u64, blocks: usize) {
        self.saved_again[p as usize][size(p, blocks)] += 1;
    }

    /// Counts a block of this P and M, whose lines are so far from the direct sum at most.
    pub fn count_measured(&mut self, p: usize, m: u64, distance: i128) {
        self.measured[p].count(distance);
        if let Some(i) = QUIET.iter().position(|(_, its)| *its == m) {
            self.quiet[p][i].count(distance);
        }
    }

    /// Counts an input of this P, for each case whether it is one.
    pub fn count_cases(&mut self, call: Call, p: usize, cases: &[Case]) {
        for &(case, least, shown) in cases {
            self.cases.entry((call, case, least)).or_default()[p] += u64::from(shown);
        }
    }

    /// Counts a refused input, for each form whether it has it.
    pub fn count_forms(&mut self, call: Call, forms: &[Form]) {
        for &(form, shown) in forms {
            *self.forms.entry((call, form)).or_default() += u64::from(shown);
        }
    }

    /// Counts a refused block if it was loud as well, and if the line was above N/2 as well.
    pub fn count_faults(&mut self, call: Call, number: u64, cells: &[i64], line: Option<u64>) {
        if number < 3 {
            self.count_together(call, [number, 3], call.is_loud(cells));
        }
        let half = if number == 1 { 512 } else { cells.len() as u64 / 2 }; // of the longest, where the length is wrong
        if number < 4 {
            self.count_together(call, [number, 4], line.is_some_and(|line| line > half));
        }
    }

    /// Counts an input that was refused for the first of two faults, if the second was there as well.
    pub fn count_together(&mut self, call: Call, faults: [u64; 2], both: bool) {
        *self.together.entry((call, faults)).or_default() += u64::from(both);
    }

    fn seen_together(&self, call: Call, faults: [u64; 2]) -> u64 {
        self.together.get(&(call, faults)).copied().unwrap_or(0)
    }

    pub fn print(&self) {
        let numbers = NUMBERS.map(|number| format!("{number:>7}")).concat();
        println!("{:40}{:>8}{:>9}{numbers}", "inputs", "run", "accepted");
        for ((call, sort), row) in self.rows.iter().chain(&self.totals) {
            let run: u64 = row.iter().sum();
            let refused = NUMBERS.map(|number| format!("{:>7}", row[number])).concat();
            println!("{:40}{run:>8}{:>9}{refused}", format!("{call:?}, {sort}"), row[0]);
        }
        println!();
        for (call, faults) in TOGETHER {
            let [first, second] = faults;
            println!("{call:?} refused by {first}, where {second} holds as well: {}", self.seen_together(call, faults));
        }
        let heads = format!("{:>24}{:>24}", "halves at the levels", "in the division");
        println!("\n{:14}{:>2}{:>9}{heads}", "with negative", "P", "blocks");
        for ((call, p), both) in &self.both_signs {
            let halves = [both.at_levels, both.in_division].map(|[up, down]| format!("{up:>12} and {down:>7}"));
            println!("{:14}{p:>2}{:>9}{}", format!("{call:?}"), both.blocks, halves.concat());
        }
        println!("and {} blocks that forward takes without the negative", self.only_one_sign);
        self.print_each_p();
        self.print_sizes();
        self.print_cases();
        println!("\nforms of what was refused");
        for ((call, form), count) in &self.forms {
            println!("{:56}{count:>7}", format!("{call:?}, {form}"));
        }
    }

    fn print_sizes(&self) {
        let heads = SIZES.map(|size| format!("{size:>11}")).concat();
        println!("\n{:>2}   read back:{heads}   saved again:{heads}", "P");
        for p in 1..=10 {
            let [back, again] = [&self.read_back[p], &self.saved_again[p]];
            let [back, again] = [back, again].map(|row| row.map(|count| format!("{count:>11}")).concat());
            println!("{p:>2}{:13}{back}{:15}{again}", "", "");
        }
    }

    fn print_cases(&self) {
        let heads: String = (1..=10).map(|p| format!("{p:>7}")).collect();
        println!("\n{:56}{heads}", "cases of searches, saving, words, M and smoothing, at P");
        for ((call, case, _), counts) in &self.cases {
            let counts: String = counts[1..].iter().map(|count| format!("{count:>7}")).collect();
            println!("{:56}{counts}", format!("{call:?}, {case}"));
        }
    }

    fn print_each_p(&self) {
        let cases = ["means", "last lines", "pairs"].map(|case| format!("{case:>12}")).concat();
        let zeros = ["mean", "last", "real", "imaginary"].map(|part| format!("{part:>11}")).concat();
        println!("\n{:>2}{cases}   0 beside a negative:{zeros}", "P");
        for p in 1..=10 {
            let cases = self.lines[p].cases.map(|count| format!("{count:>12}")).concat();
            let zeros = self.lines[p].zeros.map(|count| format!("{count:>11}")).concat();
            println!("{p:>2}{cases}{:23}{zeros}", "");
        }
        println!("\n{:>2}{:>12}{:>12}{:>12}", "P", "block 0", "block 1", "above");
        for p in 1..=10 {
            println!("{p:>2}{}", self.fetched[p].map(|count| format!("{count:>12}")).concat());
        }
        println!("\n{:>2}{:>9}{:>18}{:>8}", "P", "blocks", "largest distance", "E(P)");
        for p in 1..=10 {
            let measured = self.measured[p];
            println!("{p:>2}{:>9}{:>18}{:>8}", measured.blocks, measured.shown(), oracle::E[p - 1]);
        }
        self.print_quiet();
    }

    /// The largest distances at the quiet M, each with its bound.
    fn print_quiet(&self) {
        let heads = QUIET.map(|(case, _)| format!("{case:>12}{:>8}", "bound")).concat();
        println!("\nlargest distances of quiet blocks, each with its bound\n{:>2}{heads}", "P");
        for p in 1..=10 {
            let bounds = QUIET.map(|(_, m)| oracle::bound_at(p as u32, m));
            let row = self.quiet[p].iter().zip(bounds).map(|(its, bound)| format!("{:>12}{bound:>8}", its.shown()));
            println!("{p:>2}{}", row.collect::<String>());
        }
    }

    /// Ends the program if something that the comparison is to show was never seen.
    pub fn must_be_complete(&self) {
        let lacking = self.lacking();
        for what in &lacking {
            println!("comparison: {what}");
        }
        if !lacking.is_empty() {
            exit(1);
        }
    }

    fn lacking(&self) -> Vec<String> {
        let mut lacking = self.lacking_signs();
        let what = |number| if number == 0 { "accepted input".into() } else { format!("refusal {number}") };
        for (call, at_every_p, others) in ANSWERS {
            for (number, p) in at_every_p.iter().flat_map(|&number| (1..=10).map(move |p| (number, p))) {
                if !self.seen.contains(&(call, number, p)) {
                    lacking.push(format!("{call:?} has shown no {} at P {p}", what(number)));
                }
            }
            let seen = self.totals.get(&(call, "all")).copied().unwrap_or_default();
            for &number in others.iter().filter(|&&number| seen[number] == 0) {
                lacking.push(format!("{call:?} has shown no {}", what(number)));
            }
        }
        for (call, faults) in TOGETHER.iter().filter(|(call, faults)| self.seen_together(*call, *faults) == 0) {
            lacking.push(format!("{call:?} has shown no faults {faults:?} together"));
        }
        for p in 1..=10 {
            lacking.extend(self.lacking_cases(p));
            lacking.extend(self.lacking_sizes(p));
        }
        for ((call, case, least), counts) in &self.cases {
            for p in (*least..=10).filter(|&p| counts[p] == 0) {
                lacking.push(format!("{call:?} has not shown, at P {p}: {case}"));
            }
        }
        for ((call, form), _) in self.forms.iter().filter(|(_, count)| **count == 0) {
            lacking.push(format!("{call:?} has not shown {form}"));
        }
        lacking
    }

    /// A block of each P, taken by forward and backward with its negative, and one without; and in each division a half,
    /// that of a level from P = 3 on, where they begin.
    fn lacking_signs(&self) -> Vec<String> {
        let mut lacking = Vec::new();
        for (call, p) in [Call::Forward, Call::Backward].iter().flat_map(|call| (1..=10).map(move |p| (*call, p))) {
            let shown = self.both_signs.get(&(call, p)).is_some_and(|both| {
                let levels = p < 3 || !both.at_levels.contains(&0);
                levels && (call == Call::Forward || !both.in_division.contains(&0))
            });
            if !shown || self.only_one_sign == 0 {
                lacking.push(format!("{call:?} has not shown P {p} with its negative and with halves"));
            }
        }
        lacking
    }

    /// Every case of a scaled line of this P, zeros beside negatives, and the first, the second and a later block of a
    /// trace. A block of two cells has no pair.
    fn lacking_cases(&self, p: usize) -> Vec<String> {
        let mut lacking = Vec::new();
        let Lines { cases: [means, last_lines, pairs], zeros: [mean, last, real, imaginary] } = self.lines[p];
        let of_all = [("mean", means), ("last line", last_lines), ("mean of 0", mean), ("last line of 0", last)];
        let of_pairs = [("pair", pairs), ("real part of 0", real), ("imaginary part of 0", imaginary)];
        for (what, count) in of_all.iter().chain(if p == 1 { &[][..] } else { &of_pairs }) {
            if *count == 0 {
                lacking.push(format!("Scaled has shown no {what} at P {p}"));
            }
        }
        for (what, count) in ["block 0", "block 1", "block above 1"].iter().zip(self.fetched[p]) {
            if count == 0 {
                lacking.push(format!("Fetch has shown no {what} at P {p}"));
            }
        }
        lacking
    }

    /// Saved traces of each size, read back whole, and traces of each size saved again.
    fn lacking_sizes(&self, p: usize) -> Vec<String> {
        let mut lacking = Vec::new();
        for (size, name) in SIZES.iter().enumerate() {
            if self.read_back[p][size] == 0 {
                lacking.push(format!("Save has shown no trace read back whole at P {p}, blocks: {name}"));
            }
            if self.saved_again[p][size] == 0 {
                lacking.push(format!("Save has shown no trace saved again at P {p}, blocks: {name}"));
            }
        }
        lacking
    }
}
