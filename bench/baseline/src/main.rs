//! Settles the rounds of one gaming table.
//!
//! A sheet of commands comes on standard input; ledger entries, notes of
//! refused commands and a closing line go to standard output.

mod cards;
mod command;
mod games;
mod hands;
mod ledger;
mod program;
mod refusal;
mod table;
#[cfg(test)]
mod tests;

use std::io::{self, BufWriter, Read, Write};

use command::MAX_SHEET;

fn main() -> io::Result<()> {
    // One byte more than a sheet may have is enough to see that it is too long.
    let mut sheet = Vec::new();
    io::stdin()
        .lock()
        .take(MAX_SHEET as u64 + 1)
        .read_to_end(&mut sheet)?;

    let mut out = BufWriter::new(io::stdout().lock());
    program::settle_sheet(&sheet, &mut out)?;
    out.flush()
}
