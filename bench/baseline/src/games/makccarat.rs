//! Makccarat: player against banker, in two ways of adding cards.

use std::cmp::Ordering;

use super::{odds_in_bounds, unused, Choice, Game, Stakes};
use crate::cards::{Card, ACE};
use crate::command::Opening;
use crate::refusal::Cause;
use crate::table::SEATS;

const PLAYER: u8 = 1;
const BANKER: u8 = 2;
const TIE: u8 = 3;
const PLAYER_PAIR: u8 = 4;
const BANKER_PAIR: u8 = 5;

/// A first total of this or more ends the round.
const NATURAL: u8 = 8;

/// The ways differ in what happens when an added card makes the totals equal.
#[derive(Clone, Copy, Debug, PartialEq, Eq)]
enum Way {
    /// The other side adds a card.
    First,
    /// The round ends.
    Second,
}

#[derive(Clone, Copy, Debug)]
pub struct Makccarat {
    way: Way,
    tie_odds: u64,
    pair_odds: u64,
}

/// What the cards of a round decide.
#[derive(Clone, Copy, Debug)]
pub struct Outcome {
    /// The player's total against the banker's.
    totals: Ordering,
    player_pair: bool,
    banker_pair: bool,
}

impl Makccarat {
    /// The first way has fixed odds.
    pub fn open_first(opening: &Opening) -> Result<Self, Cause> {
        if opening.cap != 0 || !unused(&opening.odds) {
            return Err(Cause::BadConditions);
        }
        Ok(Makccarat {
            way: Way::First,
            tie_odds: 14,
            pair_odds: 11,
        })
    }

    /// The second way posts the odds of a tie and of pairs.
    pub fn open_second(opening: &Opening) -> Result<Self, Cause> {
        let (posted, rest) = opening.odds.split_at(2);
        if opening.cap != 0 || !odds_in_bounds(posted) || !unused(rest) {
            return Err(Cause::BadConditions);
        }
        Ok(Makccarat {
            way: Way::Second,
            tie_odds: u64::from(posted[0]),
            pair_odds: u64::from(posted[1]),
        })
    }

    /// Both final totals, if `added` are exactly the cards called for.
    fn totals(&self, player: u8, banker: u8, added: &[Card]) -> Option<(u8, u8)> {
        if player >= NATURAL || banker >= NATURAL {
            return added.is_empty().then_some((player, banker));
        }
        match player.cmp(&banker) {
            Ordering::Equal => match added {
                [first, second] => Some((plus(player, first), plus(banker, second))),
                _ => None,
            },
            Ordering::Less => self.lower_adds(player, banker, added),
            Ordering::Greater => self
                .lower_adds(banker, player, added)
                .map(|(banker, player)| (player, banker)),
        }
    }

    /// The lower side adds a card, and the other may answer with one.
    fn lower_adds(&self, lower: u8, other: u8, added: &[Card]) -> Option<(u8, u8)> {
        let (first, rest) = added.split_first()?;
        let lower = plus(lower, first);
        let answered = match lower.cmp(&other) {
            Ordering::Less => false,
            Ordering::Equal => self.way == Way::First,
            Ordering::Greater => true,
        };
        match (answered, rest) {
            (false, []) => Some((lower, other)),
            (true, [second]) => Some((lower, plus(other, second))),
            _ => None,
        }
    }
}

/// Tens and court cards count nothing, an ace 1.
fn points(card: &Card) -> u8 {
    match card.rank {
        ACE => 1,
        rank @ 2..=9 => rank,
        _ => 0,
    }
}

/// The last digit of the total with one more card.
fn plus(total: u8, card: &Card) -> u8 {
    (total + points(card)) % 10
}

impl Game for Makccarat {
    type Round = Outcome;

    fn takes_bets(&self, space: u8) -> bool {
        (PLAYER..=BANKER_PAIR).contains(&space)
    }

    /// A pair is bet on only beside a stake on player, banker or tie.
    fn has_companion(&self, space: u8, stakes: &Stakes) -> bool {
        match space {
            PLAYER_PAIR | BANKER_PAIR => [PLAYER, BANKER, TIE]
                .iter()
                .any(|&main| stakes.on(main) > 0),
            _ => true,
        }
    }

    /// The cards are the same for all seats, and may come more than once.
    fn deal(&self, _staking: &[bool; SEATS], cards: &[u8]) -> Result<Outcome, Cause> {
        let cards = Card::all(cards)?;
        let [p1, b1, p2, b2, added @ ..] = cards.as_slice() else {
            return Err(Cause::WrongCount);
        };
        let player = plus(points(p1), p2);
        let banker = plus(points(b1), b2);
        let (player, banker) = self
            .totals(player, banker, added)
            .ok_or(Cause::WrongCount)?;
        Ok(Outcome {
            totals: player.cmp(&banker),
            player_pair: p1.rank == p2.rank,
            banker_pair: b1.rank == b2.rank,
        })
    }

    fn payout(
        &self,
        _seat: usize,
        stakes: &Stakes,
        _choice: Option<Choice>,
        outcome: &Outcome,
    ) -> u64 {
        let main = match outcome.totals {
            Ordering::Greater => 2 * stakes.on(PLAYER),
            Ordering::Less => 2 * stakes.on(BANKER),
            Ordering::Equal => {
                stakes.on(PLAYER) + stakes.on(BANKER) + (1 + self.tie_odds) * stakes.on(TIE)
            }
        };
        let pair = |came, space| {
            if came {
                (1 + self.pair_odds) * stakes.on(space)
            } else {
                0
            }
        };
        main + pair(outcome.player_pair, PLAYER_PAIR) + pair(outcome.banker_pair, BANKER_PAIR)
    }

    fn ceiling(&self, stakes: &Stakes) -> u64 {
        stakes.on(PLAYER)
            + stakes.on(BANKER)
            + self.tie_odds * stakes.on(TIE)
            + self.pair_odds * (stakes.on(PLAYER_PAIR) + stakes.on(BANKER_PAIR))
    }
}
