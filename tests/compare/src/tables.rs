//! The quarter table (document 02, Item 8): in lent cells, as many as it has and any other count of bytes, and as the
//! table program prints it.

use crate::archive::{self, Lent};
use crate::call::Call;
use crate::compare::{Comparison, Left};
use crate::disorders::Form;
use crate::report::{packed, Run};
use std::process::Command;

/// The bytes of the table: "T(0) to T(256)", in cells of eight.
pub const RIGHT: usize = 8 * 257;

/// The forms of bytes that are refused since they are not the table's cells.
fn forms(count: usize) -> [Form; 7] {
    [
        ("2: no byte", count == 0),
        ("2: one cell", count == 8),
        ("2: one cell too few", count == RIGHT - 8),
        ("2: one cell too many", count == RIGHT + 8),
        ("2: twice the table's cells", count == 2 * RIGHT),
        ("2: some bytes of a cell too few", (RIGHT - 7..RIGHT).contains(&count)),
        ("2: bytes left over", (RIGHT + 1..RIGHT + 8).contains(&count)),
    ]
}

impl Comparison {
    /// The table in lent bytes. Gives the answer, and what is left in them.
    pub fn table(&mut self, sort: &'static str, bytes: &[u8]) -> Left {
        let mut lent = Lent::new(bytes, &mut self.random);
        let answer = archive::table(&mut lent);
        let mut second_bytes = bytes.to_vec();
        let second = oracle::table_bytes(&mut second_bytes);
        let second_answer = packed(second.map(|()| 0));
        let mut run = Run::new(Call::Table, sort, &[], [answer, second_answer]);
        run.output = bytes.len();
        self.same_answer(&run, answer, second_answer);
        if second.is_err() {
            self.same_bytes(&run, "bytes kept by the second program", bytes, &second_bytes);
            self.tally.count_forms(Call::Table, &forms(bytes.len()));
        }
        self.same_lent(&run, "table", &lent, &second_bytes);
        self.tally.count(Call::Table, sort, answer % 256, 0);
        (answer, lent.bytes().to_vec())
    }

    /// What the table program prints.
    pub fn printed_table(&mut self, sort: &'static str) -> Vec<u8> {
        let printed = Command::new(&self.table_program).output().expect("the table program starts and ends");
        let second = oracle::table_text();
        let run = Run::new(Call::TableProgram, sort, &[], [printed.stdout.len(), second.len()]);
        self.same_bytes(&run, "table", &printed.stdout, &second);
        self.same_bytes(&run, "error output", &printed.stderr, &[]);
        self.same(&run, "end by a signal", printed.status.code().is_none().into(), 0);
        self.tally.count(Call::TableProgram, sort, 0, 0);
        printed.stdout
    }
}

/// Every count of bytes to twice that of the table and somewhat beyond, and huge ones; then just as many as it has, over
/// and over, whatever stood in them.
pub fn tables(c: &mut Comparison) {
    for count in (0..2 * RIGHT + 20).chain([8 * 1024, 8 * 65_536, 8 * 65_536 + RIGHT]) {
        let bytes = c.random.bytes(count);
        c.table("every count of bytes", &bytes);
    }
    for _ in 0..100 {
        let bytes = c.random.bytes(RIGHT);
        c.table("as many bytes as it has", &bytes);
    }
    c.table("as many bytes as it has", &[0; RIGHT]);
    c.table("as many bytes as it has", &[255; RIGHT]);
    for _ in 0..10 {
        c.printed_table("printed");
    }
}
