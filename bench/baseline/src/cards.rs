//! Playing cards.

use crate::refusal::Cause;

pub const QUEEN: u8 = 12;
pub const KING: u8 = 13;
pub const ACE: u8 = 14;

/// The suits, from the lowest to the highest.
#[derive(Clone, Copy, Debug, PartialEq, Eq, PartialOrd, Ord)]
pub enum Suit {
    Diamonds,
    Clubs,
    Hearts,
    Spades,
}

/// A card; the rank is 2 to 10, jack 11, queen 12, king 13 or ace 14.
#[derive(Clone, Copy, Debug, PartialEq, Eq)]
pub struct Card {
    pub rank: u8,
    pub suit: Suit,
}

impl TryFrom<u8> for Card {
    type Error = Cause;

    /// The upper half of the byte is the rank, the lower half the suit.
    fn try_from(byte: u8) -> Result<Self, Cause> {
        let rank = byte >> 4;
        if !(2..=ACE).contains(&rank) {
            return Err(Cause::NoCard);
        }
        let suit = match byte & 15 {
            0 => Suit::Diamonds,
            1 => Suit::Clubs,
            2 => Suit::Hearts,
            3 => Suit::Spades,
            _ => return Err(Cause::NoCard),
        };
        Ok(Card { rank, suit })
    }
}

impl Card {
    /// All bytes as cards, or a refusal if one of them is none.
    pub fn all(bytes: &[u8]) -> Result<Vec<Card>, Cause> {
        bytes.iter().map(|&byte| Card::try_from(byte)).collect()
    }

    /// The card's number in a pack of 52.
    pub fn index(self) -> usize {
        usize::from(self.rank - 2) * 4 + self.suit as usize
    }
}

/// Whether no card comes twice.
pub fn all_different(cards: &[Card]) -> bool {
    let mut seen = [false; 52];
    cards
        .iter()
        .all(|card| !std::mem::replace(&mut seen[card.index()], true))
}
