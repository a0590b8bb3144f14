//! What the two poker games share: every staking seat and the bank get a hand.

use crate::cards::{all_different, Card};
use crate::refusal::Cause;
use crate::table::SEATS;

/// The hands of a round; a seat without stakes has none.
#[derive(Clone, Copy, Debug)]
pub struct Hands<H> {
    pub seats: [Option<H>; SEATS],
    pub bank: H,
}

impl<H> Hands<H> {
    /// Gives `N` cards to each staking seat in order, then `N` to the bank.
    pub fn deal<const N: usize>(staking: &[bool; SEATS], cards: &[u8]) -> Result<Self, Cause>
    where
        H: From<[Card; N]> + Copy,
    {
        let cards = Card::all(cards)?;
        if !all_different(&cards) {
            return Err(Cause::NoCard);
        }
        let (hands, rest) = cards.as_chunks::<N>();
        let players = staking.iter().filter(|&&stakes| stakes).count();
        if hands.len() != players + 1 || !rest.is_empty() {
            return Err(Cause::WrongCount);
        }

        let mut hands = hands.iter().map(|&cards| H::from(cards));
        let mut seats = [None; SEATS];
        for (seat, _) in seats.iter_mut().zip(staking).filter(|(_, &stakes)| stakes) {
            *seat = hands.next();
        }
        let bank = hands.next().ok_or(Cause::WrongCount)?;
        Ok(Hands { seats, bank })
    }
}
