//! What is written down: entries, notes and the closing line.

use std::fmt;

use crate::refusal::Refusal;

/// What one seat staked and got back in one round.
#[derive(Clone, Copy, Debug, PartialEq, Eq)]
pub struct Entry {
    pub round: u32,
    pub seat: u8,
    pub staked: u64,
    pub returned: u64,
}

impl Entry {
    /// The return less the stakes.
    pub fn net(&self) -> i64 {
        self.returned as i64 - self.staked as i64
    }
}

impl fmt::Display for Entry {
    fn fmt(&self, f: &mut fmt::Formatter<'_>) -> fmt::Result {
        write!(
            f,
            "E {} {} {} {} {}",
            self.round,
            self.seat,
            self.staked,
            self.returned,
            self.net()
        )
    }
}

/// A refused command: where it begins on the sheet, and why it was refused.
#[derive(Clone, Copy, Debug, PartialEq, Eq)]
pub struct Note {
    pub place: usize,
    pub refusal: Refusal,
}

impl fmt::Display for Note {
    fn fmt(&self, f: &mut fmt::Formatter<'_>) -> fmt::Result {
        let Refusal { cause, seat } = self.refusal;
        write!(
            f,
            "X {} {} {} {}",
            self.place,
            cause.number(),
            seat,
            cause.layer()
        )
    }
}

/// Where all chips of a table lie.
#[derive(Clone, Copy, Debug, PartialEq, Eq)]
pub struct Closing {
    pub tray: u64,
    pub racks: u64,
    pub spaces: u64,
}

impl fmt::Display for Closing {
    fn fmt(&self, f: &mut fmt::Formatter<'_>) -> fmt::Result {
        write!(f, "Z {} {} {}", self.tray, self.racks, self.spaces)
    }
}

/// Records in order, with a fixed number of places.
#[derive(Debug)]
pub struct Roll<R> {
    records: Vec<R>,
    places: usize,
}

impl<R> Roll<R> {
    pub fn with_places(places: usize) -> Self {
        Roll {
            records: Vec::with_capacity(places),
            places,
        }
    }

    pub fn free(&self) -> usize {
        self.places - self.records.len()
    }

    /// Keeps a record; the caller has seen that a place is free.
    pub fn keep(&mut self, record: R) {
        debug_assert!(self.free() > 0);
        self.records.push(record);
    }

    pub fn records(&self) -> &[R] {
        &self.records
    }

    pub fn clear(&mut self) {
        self.records.clear();
    }
}
