//! The class of a hand of three or five cards, and which of two is higher.
//!
//! A graded hand is compared part by part: class, then ranks, then suit. Parts
//! that do not decide in its class are left empty, so the derived order is the
//! order of hands.

use std::cmp::Reverse;

use crate::cards::{Card, Suit, ACE};

#[derive(Clone, Copy, Debug, PartialEq, Eq, PartialOrd, Ord)]
pub enum ThreeClass {
    OddCards,
    Pair,
    Flush,
    Straight,
    Three,
    StraightFlush,
}

#[derive(Clone, Copy, Debug, PartialEq, Eq, PartialOrd, Ord)]
pub enum FiveClass {
    OddCards,
    Pair,
    TwoPairs,
    Three,
    Straight,
    Flush,
    FullHouse,
    Four,
    StraightFlush,
    RoyalFlush,
}

/// Three graded cards. Suits never decide.
#[derive(Clone, Copy, Debug, PartialEq, Eq, PartialOrd, Ord)]
pub struct ThreeHand {
    pub class: ThreeClass,
    /// The ranks that decide, the most important first.
    pub ranks: [u8; 3],
}

/// Five graded cards.
#[derive(Clone, Copy, Debug, PartialEq, Eq, PartialOrd, Ord)]
pub struct FiveHand {
    pub class: FiveClass,
    /// The ranks that decide, the most important first.
    pub ranks: [u8; 5],
    suit: Option<Suit>,
}

impl From<[Card; 3]> for ThreeHand {
    fn from(cards: [Card; 3]) -> Self {
        let ranks = grouped(cards).map(|card| card.rank);
        let head = row_head(&ranks);
        let flush = one_suit(&cards);
        let class = match ranks {
            [a, _, c] if a == c => ThreeClass::Three,
            [a, b, _] if a == b => ThreeClass::Pair,
            _ => match (head, flush) {
                (Some(_), true) => ThreeClass::StraightFlush,
                (Some(_), false) => ThreeClass::Straight,
                (None, true) => ThreeClass::Flush,
                (None, false) => ThreeClass::OddCards,
            },
        };
        let ranks = match head {
            Some(head) => [head, 0, 0],
            None => ranks,
        };
        ThreeHand { class, ranks }
    }
}

impl From<[Card; 5]> for FiveHand {
    fn from(cards: [Card; 5]) -> Self {
        let cards = grouped(cards);
        let ranks = cards.map(|card| card.rank);
        let only = |rank| [rank, 0, 0, 0, 0];
        let hand = |class, ranks, suit| FiveHand { class, ranks, suit };

        match ranks {
            [a, _, _, d, _] if a == d => return hand(FiveClass::Four, only(a), None),
            [a, _, c, d, e] if a == c && d == e => {
                return hand(FiveClass::FullHouse, only(a), None)
            }
            [a, _, c, _, _] if a == c => return hand(FiveClass::Three, only(a), None),
            // The first card is the one of the higher suit within the (higher) pair.
            [a, b, c, d, _] if a == b && c == d => {
                return hand(FiveClass::TwoPairs, ranks, Some(cards[0].suit))
            }
            [a, b, ..] if a == b => return hand(FiveClass::Pair, ranks, Some(cards[0].suit)),
            _ => {}
        }

        let flush = one_suit(&cards);
        let Some(head) = row_head(&ranks) else {
            let class = if flush {
                FiveClass::Flush
            } else {
                FiveClass::OddCards
            };
            return hand(class, ranks, Some(cards[0].suit));
        };
        let class = match (flush, head) {
            (true, ACE) => FiveClass::RoyalFlush,
            (true, _) => FiveClass::StraightFlush,
            (false, _) => FiveClass::Straight,
        };
        // In the lowest row the ace stands before the head.
        let head_suit = cards
            .iter()
            .find(|card| card.rank == head)
            .map(|card| card.suit);
        hand(class, only(head), head_suit)
    }
}

/// The cards with ranks held more often before others, then from the highest
/// rank and, within a rank, from the highest suit.
fn grouped<const N: usize>(mut cards: [Card; N]) -> [Card; N] {
    let mut held = [0u8; ACE as usize + 1];
    for card in &cards {
        held[usize::from(card.rank)] += 1;
    }
    cards
        .sort_unstable_by_key(|card| Reverse((held[usize::from(card.rank)], card.rank, card.suit)));
    cards
}

/// The highest rank of the row that falling ranks make, if they make one. An
/// ace may stand under the two; it is then not the head.
fn row_head<const N: usize>(ranks: &[u8; N]) -> Option<u8> {
    let falls = |ranks: &[u8]| ranks.windows(2).all(|pair| pair[0] == pair[1] + 1);
    if falls(ranks) {
        Some(ranks[0])
    } else if ranks[0] == ACE && ranks[N - 1] == 2 && falls(&ranks[1..]) {
        Some(ranks[1])
    } else {
        None
    }
}

fn one_suit(cards: &[Card]) -> bool {
    cards.iter().all(|card| card.suit == cards[0].suit)
}
