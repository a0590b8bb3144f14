//! Fortune: three cards against the bank's three.

use std::cmp::Ordering;

use super::poker::Hands;
use super::{odds_in_bounds, Choice, Game, Offer, Stakes};
use crate::cards::QUEEN;
use crate::command::Opening;
use crate::hands::{ThreeClass, ThreeHand};
use crate::refusal::Cause;
use crate::table::SEATS;

const ANTE: u8 = 1;
const PAIR_PLUS: u8 = 3;

#[derive(Clone, Copy, Debug)]
pub struct Fortune {
    /// Pair Plus odds of straight flush, three, straight, flush and pair.
    odds: [u16; 5],
}

impl Fortune {
    pub fn open(opening: &Opening) -> Result<Self, Cause> {
        if opening.cap != 0 || !odds_in_bounds(&opening.odds) {
            return Err(Cause::BadConditions);
        }
        Ok(Fortune { odds: opening.odds })
    }

    /// What a Pair Plus stake wins, to 1.
    fn pair_plus_odds(&self, class: ThreeClass) -> Option<u64> {
        let [straight_flush, three, straight, flush, pair] = self.odds;
        let odds = match class {
            ThreeClass::StraightFlush => straight_flush,
            ThreeClass::Three => three,
            ThreeClass::Straight => straight,
            ThreeClass::Flush => flush,
            ThreeClass::Pair => pair,
            ThreeClass::OddCards => return None,
        };
        Some(u64::from(odds))
    }

    fn ante_and_raise(ante: u64, raise: u64, hand: &ThreeHand, bank: &ThreeHand) -> u64 {
        let bonus = ante * bonus_times(hand.class);
        let won = if !opens(bank) {
            2 * ante + raise
        } else {
            match hand.cmp(bank) {
                Ordering::Greater => 2 * (ante + raise),
                Ordering::Equal => ante + raise,
                Ordering::Less => 0,
            }
        };
        won + bonus
    }
}

/// The bank plays with a pair or better, or with a queen or higher.
fn opens(bank: &ThreeHand) -> bool {
    bank.class >= ThreeClass::Pair || bank.ranks[0] >= QUEEN
}

/// How many antes a raised hand receives besides, win or lose.
fn bonus_times(class: ThreeClass) -> u64 {
    match class {
        ThreeClass::StraightFlush => 5,
        ThreeClass::Three => 4,
        ThreeClass::Straight => 1,
        _ => 0,
    }
}

impl Game for Fortune {
    type Round = Hands<ThreeHand>;

    fn takes_bets(&self, space: u8) -> bool {
        matches!(space, ANTE | PAIR_PLUS)
    }

    fn deal(&self, staking: &[bool; SEATS], cards: &[u8]) -> Result<Self::Round, Cause> {
        Hands::deal::<3>(staking, cards)
    }

    /// The raise is as large as the ante; beside Pair Plus a seat must raise.
    fn offer(&self, stakes: &Stakes) -> Option<Offer> {
        let ante = stakes.on(ANTE);
        (ante > 0).then_some(Offer {
            raise: ante,
            may_leave: stakes.on(PAIR_PLUS) == 0,
        })
    }

    fn payout(
        &self,
        seat: usize,
        stakes: &Stakes,
        choice: Option<Choice>,
        round: &Self::Round,
    ) -> u64 {
        let Some(hand) = &round.seats[seat] else {
            return 0;
        };
        let played = match choice {
            Some(Choice::Left) => return 0,
            Some(Choice::Raised(raise)) => {
                Self::ante_and_raise(stakes.on(ANTE), raise, hand, &round.bank)
            }
            None => 0,
        };
        let pair_plus = match self.pair_plus_odds(hand.class) {
            Some(odds) => stakes.on(PAIR_PLUS) * (1 + odds),
            None => 0,
        };
        played + pair_plus
    }

    fn ceiling(&self, stakes: &Stakes) -> u64 {
        let largest = self.odds.iter().copied().max().unwrap_or(0);
        7 * stakes.on(ANTE) + stakes.on(PAIR_PLUS) * u64::from(largest)
    }
}
