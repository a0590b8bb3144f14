//! Stud: five cards against the bank's five.

use std::cmp::Ordering;

use super::poker::Hands;
use super::{unused, Choice, Game, Offer, Stakes};
use crate::cards::{ACE, KING};
use crate::command::Opening;
use crate::hands::{FiveClass, FiveHand};
use crate::refusal::Cause;
use crate::table::SEATS;

const ANTE: u8 = 1;
const MAX_CAP: u64 = 1_000_000_000;

#[derive(Clone, Copy, Debug)]
pub struct Stud {
    /// The most that a raise is paid with four of a kind or better.
    cap: u64,
}

impl Stud {
    pub fn open(opening: &Opening) -> Result<Self, Cause> {
        if !(1..=MAX_CAP).contains(&opening.cap) || !unused(&opening.odds) {
            return Err(Cause::BadConditions);
        }
        Ok(Stud { cap: opening.cap })
    }

    /// What a winning raise is paid above itself.
    fn raise_pay(&self, raise: u64, class: FiveClass) -> u64 {
        match class {
            FiveClass::OddCards | FiveClass::Pair => raise,
            FiveClass::TwoPairs => 2 * raise,
            FiveClass::Three => 3 * raise,
            FiveClass::Straight => 4 * raise,
            FiveClass::Flush => 5 * raise,
            FiveClass::FullHouse => 7 * raise,
            FiveClass::Four => self.cap.min(20 * raise),
            FiveClass::StraightFlush | FiveClass::RoyalFlush => self.cap.min(50 * raise),
        }
    }
}

/// The bank plays with a pair or better, or with both an ace and a king.
fn opens(bank: &FiveHand) -> bool {
    bank.class >= FiveClass::Pair || bank.ranks.starts_with(&[ACE, KING])
}

impl Game for Stud {
    type Round = Hands<FiveHand>;

    fn takes_bets(&self, space: u8) -> bool {
        space == ANTE
    }

    fn deal(&self, staking: &[bool; SEATS], cards: &[u8]) -> Result<Self::Round, Cause> {
        Hands::deal::<5>(staking, cards)
    }

    /// The raise is twice the ante, and every seat may leave.
    fn offer(&self, stakes: &Stakes) -> Option<Offer> {
        let ante = stakes.on(ANTE);
        (ante > 0).then_some(Offer {
            raise: 2 * ante,
            may_leave: true,
        })
    }

    fn payout(
        &self,
        seat: usize,
        stakes: &Stakes,
        choice: Option<Choice>,
        round: &Self::Round,
    ) -> u64 {
        let (Some(hand), Some(Choice::Raised(raise))) = (&round.seats[seat], choice) else {
            return 0;
        };
        let ante = stakes.on(ANTE);
        if !opens(&round.bank) {
            return 2 * ante + raise;
        }
        match hand.cmp(&round.bank) {
            Ordering::Greater => 2 * ante + raise + self.raise_pay(raise, hand.class),
            Ordering::Equal => ante + raise,
            Ordering::Less => 0,
        }
    }

    /// A raise is paid 7 to 1 at most, or 50 to 1 within the cap.
    fn ceiling(&self, stakes: &Stakes) -> u64 {
        let ante = stakes.on(ANTE);
        ante + u64::max(14 * ante, self.cap.min(100 * ante))
    }
}
