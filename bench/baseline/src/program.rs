//! Runs a sheet on a table and prints what is written down.

use std::io::{self, Write};

use crate::command::{Command, Reader, MAX_SHEET};
use crate::ledger::{Entry, Note, Roll};
use crate::refusal::{Cause, Refusal};
use crate::table::{self, Calls, SEATS};

/// The places of the ledger, and of the notes.
const PLACES: usize = 256;

/// What ended a run.
#[derive(Clone, Copy, Debug, PartialEq, Eq)]
enum Ending {
    EndOfSheet,
    Unreadable,
    RollFull,
}

/// Performs all commands of a sheet, the first of which has to open the table.
pub fn settle_sheet(sheet: &[u8], out: &mut impl Write) -> io::Result<()> {
    if sheet.len() > MAX_SHEET {
        let refusal = Refusal::new(Cause::SheetTooLong, 0);
        return writeln!(out, "{}", Note { place: 0, refusal });
    }
    let mut reader = Reader::new(sheet);
    let mut table = match open_table(&mut reader) {
        Ok(Some(table)) => table,
        Ok(None) => return Ok(()),
        Err(refusal) => return writeln!(out, "{}", Note { place: 0, refusal }),
    };

    let mut ledger = Roll::with_places(PLACES);
    let mut notes = Roll::with_places(PLACES);
    loop {
        let ending = run(table.as_mut(), &mut reader, &mut ledger, &mut notes);
        for entry in ledger.records() {
            writeln!(out, "{entry}")?;
        }
        for note in notes.records() {
            writeln!(out, "{note}")?;
        }
        ledger.clear();
        notes.clear();
        if ending != Ending::RollFull {
            break;
        }
    }
    writeln!(out, "{}", table.closing())
}

/// Opens a table by the first command; an empty sheet has none.
fn open_table(reader: &mut Reader) -> Result<Option<Box<dyn Calls>>, Refusal> {
    match reader.next_command() {
        Ok(None) => Ok(None),
        Ok(Some(Command::Open(opening))) => table::open(&opening).map(Some),
        Ok(Some(other)) => Err(Refusal::new(Cause::WrongStage, other.seat())),
        Err(cause) => Err(Refusal::new(cause, 0)),
    }
}

/// Performs commands until the sheet ends, one cannot be read, or the next one
/// might find no place for what it has to write.
fn run(
    table: &mut dyn Calls,
    reader: &mut Reader,
    ledger: &mut Roll<Entry>,
    notes: &mut Roll<Note>,
) -> Ending {
    loop {
        if !reader.at_end() && (ledger.free() < SEATS || notes.free() == 0) {
            return Ending::RollFull;
        }
        let place = reader.place();
        let command = match reader.next_command() {
            Ok(Some(command)) => command,
            Ok(None) => return Ending::EndOfSheet,
            Err(cause) => {
                let refusal = Refusal::new(cause, 0);
                notes.keep(Note { place, refusal });
                return Ending::Unreadable;
            }
        };
        if let Err(refusal) = table.perform(&command, ledger) {
            notes.keep(Note { place, refusal });
        }
    }
}
