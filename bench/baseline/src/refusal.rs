//! Why a command is refused.

use std::fmt;

/// The causes of refusal. Of several that hold, the smallest number answers,
/// except that an unreadable command is never weighed at all.
#[derive(Clone, Copy, Debug, PartialEq, Eq)]
#[repr(u8)]
pub enum Cause {
    WrongStage = 1,
    NoSuchSeat = 2,
    NoBets = 3,
    BadAmount = 4,
    SpaceTaken = 5,
    NoCompanion = 6,
    RackTooSmall = 7,
    TrayTooSmall = 8,
    TotalTooLarge = 9,
    NoStakes = 10,
    NoRoundsLeft = 11,
    NoCard = 12,
    WrongCount = 13,
    NoChoiceOpen = 14,
    LeavingBarred = 15,
    ChoiceMissing = 16,
    NoPlaceFree = 17,
    BadConditions = 18,
    CutShort = 19,
    UnknownByte = 20,
    BadDeal = 21,
    SheetTooLong = 22,
}

/// The part of the program that a cause belongs to.
#[derive(Clone, Copy, Debug, PartialEq, Eq)]
pub enum Layer {
    Game,
    Table,
    Sheet,
}

impl Cause {
    pub fn number(self) -> u8 {
        self as u8
    }

    pub fn layer(self) -> Layer {
        use Cause::*;
        match self {
            NoBets | NoCompanion | NoCard | WrongCount | NoChoiceOpen | LeavingBarred => {
                Layer::Game
            }
            CutShort | UnknownByte | BadDeal | SheetTooLong => Layer::Sheet,
            _ => Layer::Table,
        }
    }
}

impl fmt::Display for Layer {
    fn fmt(&self, f: &mut fmt::Formatter<'_>) -> fmt::Result {
        f.write_str(match self {
            Layer::Game => "game",
            Layer::Table => "table",
            Layer::Sheet => "sheet",
        })
    }
}

/// A cause, and the seat that it concerns, or 0.
#[derive(Clone, Copy, Debug, PartialEq, Eq)]
pub struct Refusal {
    pub cause: Cause,
    pub seat: u8,
}

impl Refusal {
    /// `seat` is the one that the command named. A seat that does not exist and
    /// a command that cannot be read name none.
    pub fn new(cause: Cause, seat: u8) -> Self {
        let nameless = cause == Cause::NoSuchSeat || cause.layer() == Layer::Sheet;
        Refusal {
            cause,
            seat: if nameless { 0 } else { seat },
        }
    }
}
