//! A table: the bank's tray, seven seats, and the calls that move their chips.

use crate::command::{Command, Opening};
use crate::games::{Choice, Fortune, Game, Makccarat, Offer, Stakes, Stud, SPACES};
use crate::ledger::{Closing, Entry, Roll};
use crate::refusal::{Cause, Refusal};

pub const SEATS: usize = 7;

/// The most chips on a table.
const MAX_TOTAL: u64 = 1_000_000_000_000;
const MAX_STAKE: u32 = 1_000_000;
const MAX_ROUNDS: u32 = 1_000_000;

/// What can be done with a table, whatever its game.
pub trait Calls {
    /// Performs a command. One that is refused changes nothing.
    fn perform(&mut self, command: &Command, ledger: &mut Roll<Entry>) -> Result<(), Refusal>;

    fn closing(&self) -> Closing;
}

/// Makes a table with empty racks and spaces.
pub fn open(opening: &Opening) -> Result<Box<dyn Calls>, Refusal> {
    try_open(opening).map_err(|cause| Refusal::new(cause, 0))
}

fn try_open(opening: &Opening) -> Result<Box<dyn Calls>, Cause> {
    if opening.tray > MAX_TOTAL {
        return Err(Cause::TotalTooLarge);
    }
    let Opening {
        minimum, maximum, ..
    } = *opening;
    if minimum < 1 || minimum > maximum || maximum > MAX_STAKE {
        return Err(Cause::BadConditions);
    }
    Ok(match opening.game {
        1 => Box::new(Table::new(Fortune::open(opening)?, opening)),
        2 => Box::new(Table::new(Stud::open(opening)?, opening)),
        3 => Box::new(Table::new(Makccarat::open_first(opening)?, opening)),
        4 => Box::new(Table::new(Makccarat::open_second(opening)?, opening)),
        _ => return Err(Cause::BadConditions),
    })
}

#[derive(Clone, Copy, Debug, Default)]
struct Seat {
    rack: u64,
    stakes: Stakes,
    choice: Option<Choice>,
}

impl Seat {
    fn raise(&self) -> u64 {
        match self.choice {
            Some(Choice::Raised(raise)) => raise,
            _ => 0,
        }
    }

    /// The chips on the seat's spaces, with the raise.
    fn staked(&self) -> u64 {
        self.stakes.total() + self.raise()
    }

    /// Empties the spaces, and puts chips into the rack.
    fn clear(&mut self, into_rack: u64) {
        self.rack += into_rack;
        self.stakes = Stakes::default();
        self.choice = None;
    }
}

#[derive(Debug)]
enum Stage<R> {
    Betting,
    Dealt(R),
}

#[derive(Debug)]
struct Table<G: Game> {
    game: G,
    minimum: u32,
    maximum: u32,
    tray: u64,
    seats: [Seat; SEATS],
    stage: Stage<G::Round>,
    rounds: u32,
}

impl<G: Game> Table<G> {
    fn new(game: G, opening: &Opening) -> Self {
        Table {
            game,
            minimum: opening.minimum,
            maximum: opening.maximum,
            tray: opening.tray,
            seats: Default::default(),
            stage: Stage::Betting,
            rounds: 0,
        }
    }

    fn racks(&self) -> u64 {
        self.seats.iter().map(|seat| seat.rack).sum()
    }

    fn spaces(&self) -> u64 {
        self.seats.iter().map(Seat::staked).sum()
    }

    fn total(&self) -> u64 {
        self.tray + self.racks() + self.spaces()
    }

    /// The most that the tray may have to pay for the stakes that are laid.
    fn ceilings(&self) -> u64 {
        self.seats
            .iter()
            .map(|seat| self.game.ceiling(&seat.stakes))
            .sum()
    }

    fn expect_betting(&self) -> Result<(), Cause> {
        match self.stage {
            Stage::Betting => Ok(()),
            Stage::Dealt(_) => Err(Cause::WrongStage),
        }
    }

    fn expect_dealt(&self) -> Result<(), Cause> {
        match self.stage {
            Stage::Dealt(_) => Ok(()),
            Stage::Betting => Err(Cause::WrongStage),
        }
    }

    /// Where the seat with this number is kept.
    fn index(seat: u8) -> Result<usize, Cause> {
        match usize::from(seat) {
            number @ 1..=SEATS => Ok(number - 1),
            _ => Err(Cause::NoSuchSeat),
        }
    }

    /// The choice that a seat still has to make.
    fn open_choice(&self, seat: &Seat) -> Option<Offer> {
        match seat.choice {
            Some(_) => None,
            None => self.game.offer(&seat.stakes),
        }
    }

    /// Whether more chips may come to the table.
    fn expect_room(&self, amount: u64) -> Result<(), Cause> {
        if amount > MAX_TOTAL - self.total() {
            return Err(Cause::TotalTooLarge);
        }
        Ok(())
    }

    fn buy(&mut self, seat: u8, amount: u64) -> Result<(), Cause> {
        let index = Self::index(seat)?;
        expect_some(amount)?;
        self.expect_room(amount)?;
        self.seats[index].rack += amount;
        Ok(())
    }

    fn cash(&mut self, seat: u8, amount: u64) -> Result<(), Cause> {
        let index = Self::index(seat)?;
        expect_some(amount)?;
        let rack = &mut self.seats[index].rack;
        *rack = rack.checked_sub(amount).ok_or(Cause::RackTooSmall)?;
        Ok(())
    }

    fn fill(&mut self, amount: u64) -> Result<(), Cause> {
        expect_some(amount)?;
        self.expect_room(amount)?;
        self.tray += amount;
        Ok(())
    }

    fn draw(&mut self, amount: u64) -> Result<(), Cause> {
        expect_some(amount)?;
        match self.tray.checked_sub(amount) {
            Some(left) if left >= self.ceilings() => {
                self.tray = left;
                Ok(())
            }
            _ => Err(Cause::TrayTooSmall),
        }
    }

    fn bet(&mut self, seat: u8, space: u8, amount: u32) -> Result<(), Cause> {
        self.expect_betting()?;
        let index = Self::index(seat)?;
        if !(1..=SPACES).contains(&usize::from(space)) || !self.game.takes_bets(space) {
            return Err(Cause::NoBets);
        }
        if !(self.minimum..=self.maximum).contains(&amount) {
            return Err(Cause::BadAmount);
        }
        let Seat { rack, stakes, .. } = self.seats[index];
        if stakes.on(space) > 0 {
            return Err(Cause::SpaceTaken);
        }
        if !self.game.has_companion(space, &stakes) {
            return Err(Cause::NoCompanion);
        }
        let amount = u64::from(amount);
        let rack = rack.checked_sub(amount).ok_or(Cause::RackTooSmall)?;
        let with_stake = stakes.with(space, amount);
        let ceilings =
            self.ceilings() - self.game.ceiling(&stakes) + self.game.ceiling(&with_stake);
        if self.tray < ceilings {
            return Err(Cause::TrayTooSmall);
        }

        self.seats[index].rack = rack;
        self.seats[index].stakes = with_stake;
        Ok(())
    }

    fn deal(&mut self, cards: &[u8]) -> Result<(), Cause> {
        self.expect_betting()?;
        let staking = self.seats.map(|seat| !seat.stakes.is_empty());
        if !staking.contains(&true) {
            return Err(Cause::NoStakes);
        }
        if self.rounds == MAX_ROUNDS {
            return Err(Cause::NoRoundsLeft);
        }
        self.stage = Stage::Dealt(self.game.deal(&staking, cards)?);
        self.rounds += 1;
        Ok(())
    }

    fn raise(&mut self, seat: u8) -> Result<(), Cause> {
        self.expect_dealt()?;
        let index = Self::index(seat)?;
        let offer = self
            .open_choice(&self.seats[index])
            .ok_or(Cause::NoChoiceOpen)?;
        let seat = &mut self.seats[index];
        seat.rack = seat
            .rack
            .checked_sub(offer.raise)
            .ok_or(Cause::RackTooSmall)?;
        seat.choice = Some(Choice::Raised(offer.raise));
        Ok(())
    }

    fn leave(&mut self, seat: u8) -> Result<(), Cause> {
        self.expect_dealt()?;
        let index = Self::index(seat)?;
        let offer = self
            .open_choice(&self.seats[index])
            .ok_or(Cause::NoChoiceOpen)?;
        if !offer.may_leave {
            return Err(Cause::LeavingBarred);
        }
        self.seats[index].choice = Some(Choice::Left);
        Ok(())
    }

    fn settle(&mut self, ledger: &mut Roll<Entry>) -> Result<(), Refusal> {
        let Stage::Dealt(round) = &self.stage else {
            return Err(Refusal::new(Cause::WrongStage, 0));
        };
        for (number, seat) in (1..).zip(&self.seats) {
            if self.open_choice(seat).is_some() {
                return Err(Refusal::new(Cause::ChoiceMissing, number));
            }
        }
        let staking = |seat: &Seat| !seat.stakes.is_empty();
        if ledger.free() < self.seats.iter().filter(|seat| staking(seat)).count() {
            return Err(Refusal::new(Cause::NoPlaceFree, 0));
        }

        for (index, seat) in self.seats.iter_mut().enumerate() {
            if !staking(seat) {
                continue;
            }
            let entry = Entry {
                round: self.rounds,
                seat: index as u8 + 1,
                staked: seat.staked(),
                returned: self.game.payout(index, &seat.stakes, seat.choice, round),
            };
            self.tray = self.tray + entry.staked - entry.returned;
            seat.clear(entry.returned);
            ledger.keep(entry);
        }
        self.stage = Stage::Betting;
        Ok(())
    }

    fn void(&mut self) -> Result<(), Cause> {
        self.expect_dealt()?;
        for seat in &mut self.seats {
            seat.clear(seat.staked());
        }
        self.stage = Stage::Betting;
        Ok(())
    }
}

impl<G: Game> Calls for Table<G> {
    fn perform(&mut self, command: &Command, ledger: &mut Roll<Entry>) -> Result<(), Refusal> {
        let outcome = match *command {
            Command::Open(_) => Err(Cause::WrongStage),
            Command::Buy { seat, amount } => self.buy(seat, amount),
            Command::Cash { seat, amount } => self.cash(seat, amount),
            Command::Fill { amount } => self.fill(amount),
            Command::Draw { amount } => self.draw(amount),
            Command::Bet {
                seat,
                space,
                amount,
            } => self.bet(seat, space, amount),
            Command::Deal { cards } => self.deal(cards),
            Command::Raise { seat } => self.raise(seat),
            Command::Leave { seat } => self.leave(seat),
            Command::Settle => return self.settle(ledger),
            Command::Void => self.void(),
        };
        outcome.map_err(|cause| Refusal::new(cause, command.seat()))
    }

    fn closing(&self) -> Closing {
        Closing {
            tray: self.tray,
            racks: self.racks(),
            spaces: self.spaces(),
        }
    }
}

fn expect_some(amount: u64) -> Result<(), Cause> {
    if amount == 0 {
        return Err(Cause::BadAmount);
    }
    Ok(())
}
