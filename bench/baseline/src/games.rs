//! What a game is to the table, and the games there are.

mod fortune;
mod makccarat;
mod poker;
mod stud;

pub use fortune::Fortune;
pub use makccarat::Makccarat;
pub use stud::Stud;

use crate::refusal::Cause;
use crate::table::SEATS;

/// The number of spaces before a seat.
pub const SPACES: usize = 5;

/// What one seat has laid on its spaces before the deal.
#[derive(Clone, Copy, Debug, Default, PartialEq, Eq)]
pub struct Stakes([u64; SPACES]);

impl Stakes {
    /// The stake on a space from 1 to 5.
    pub fn on(&self, space: u8) -> u64 {
        self.0[usize::from(space) - 1]
    }

    /// The same stakes with one more.
    pub fn with(mut self, space: u8, amount: u64) -> Self {
        self.0[usize::from(space) - 1] = amount;
        self
    }

    pub fn total(&self) -> u64 {
        self.0.iter().sum()
    }

    pub fn is_empty(&self) -> bool {
        self.0.iter().all(|&stake| stake == 0)
    }
}

/// The choice that a seat has between raising and leaving.
#[derive(Clone, Copy, Debug, PartialEq, Eq)]
pub struct Offer {
    pub raise: u64,
    pub may_leave: bool,
}

/// What a seat chose.
#[derive(Clone, Copy, Debug, PartialEq, Eq)]
pub enum Choice {
    Raised(u64),
    Left,
}

/// The rules of a game.
pub trait Game {
    /// What a lawful deal comes to.
    type Round;

    /// Whether a space of this number ever takes a stake.
    fn takes_bets(&self, space: u8) -> bool;

    /// Whether the seat's other stakes allow one on this space.
    fn has_companion(&self, _space: u8, _stakes: &Stakes) -> bool {
        true
    }

    /// Grades the cards if they are a lawful deal for the staking seats.
    fn deal(&self, staking: &[bool; SEATS], cards: &[u8]) -> Result<Self::Round, Cause>;

    /// The choice that a seat has once the cards are dealt.
    fn offer(&self, _stakes: &Stakes) -> Option<Offer> {
        None
    }

    /// What the seat (counted from 0) gets back in all.
    fn payout(
        &self,
        seat: usize,
        stakes: &Stakes,
        choice: Option<Choice>,
        round: &Self::Round,
    ) -> u64;

    /// The most that the bank may have to add to the seat's own chips.
    fn ceiling(&self, stakes: &Stakes) -> u64;
}

/// Posted odds that are used lie within these bounds; unused ones are 0.
fn odds_in_bounds(odds: &[u16]) -> bool {
    odds.iter().all(|odds| (1..=1000).contains(odds))
}

fn unused(odds: &[u16]) -> bool {
    odds.iter().all(|&odds| odds == 0)
}
