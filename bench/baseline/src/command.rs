//! The commands of a sheet, and how they are read from its bytes.

use crate::refusal::Cause;

/// The most bytes that a sheet may have.
pub const MAX_SHEET: usize = 65_536;

/// How many bytes a deal has for cards, used or not.
const CARD_BYTES: usize = 40;

#[derive(Clone, Copy, Debug, PartialEq, Eq)]
pub enum Command<'a> {
    Open(Opening),
    Buy { seat: u8, amount: u64 },
    Cash { seat: u8, amount: u64 },
    Fill { amount: u64 },
    Draw { amount: u64 },
    Bet { seat: u8, space: u8, amount: u32 },
    Deal { cards: &'a [u8] },
    Raise { seat: u8 },
    Leave { seat: u8 },
    Settle,
    Void,
}

/// What a table is opened with.
#[derive(Clone, Copy, Debug, PartialEq, Eq)]
pub struct Opening {
    pub game: u8,
    pub minimum: u32,
    pub maximum: u32,
    pub cap: u64,
    pub odds: [u16; 5],
    pub tray: u64,
}

impl Command<'_> {
    /// The seat that the command names, or 0.
    pub fn seat(&self) -> u8 {
        match *self {
            Command::Buy { seat, .. }
            | Command::Cash { seat, .. }
            | Command::Bet { seat, .. }
            | Command::Raise { seat }
            | Command::Leave { seat } => seat,
            _ => 0,
        }
    }
}

/// Reads commands one after the other.
pub struct Reader<'a> {
    sheet: &'a [u8],
    place: usize,
}

impl<'a> Reader<'a> {
    pub fn new(sheet: &'a [u8]) -> Self {
        Reader { sheet, place: 0 }
    }

    /// Where the next command begins.
    pub fn place(&self) -> usize {
        self.place
    }

    pub fn at_end(&self) -> bool {
        self.place == self.sheet.len()
    }

    /// The next command, or none at the end of the sheet. Where a command
    /// cannot be read the place stays at its first byte.
    pub fn next_command(&mut self) -> Result<Option<Command<'a>>, Cause> {
        let Some((&code, rest)) = self.sheet[self.place..].split_first() else {
            return Ok(None);
        };
        let mut operands = Operands(rest);
        let command = operands.command(code)?;
        self.place = self.sheet.len() - operands.0.len();
        Ok(Some(command))
    }
}

/// The bytes that are not read yet.
struct Operands<'a>(&'a [u8]);

impl<'a> Operands<'a> {
    fn command(&mut self, code: u8) -> Result<Command<'a>, Cause> {
        Ok(match code {
            b'T' => Command::Open(self.opening()?),
            b'I' => Command::Buy {
                seat: self.u8()?,
                amount: self.u64()?,
            },
            b'C' => Command::Cash {
                seat: self.u8()?,
                amount: self.u64()?,
            },
            b'F' => Command::Fill {
                amount: self.u64()?,
            },
            b'W' => Command::Draw {
                amount: self.u64()?,
            },
            b'B' => Command::Bet {
                seat: self.u8()?,
                space: self.u8()?,
                amount: self.u32()?,
            },
            b'D' => Command::Deal {
                cards: self.cards()?,
            },
            b'R' => Command::Raise { seat: self.u8()? },
            b'L' => Command::Leave { seat: self.u8()? },
            b'S' => Command::Settle,
            b'V' => Command::Void,
            _ => return Err(Cause::UnknownByte),
        })
    }

    fn opening(&mut self) -> Result<Opening, Cause> {
        Ok(Opening {
            game: self.u8()?,
            minimum: self.u32()?,
            maximum: self.u32()?,
            cap: self.u64()?,
            odds: [
                self.u16()?,
                self.u16()?,
                self.u16()?,
                self.u16()?,
                self.u16()?,
            ],
            tray: self.u64()?,
        })
    }

    /// The counted cards of a deal; the bytes behind them must be 0.
    fn cards(&mut self) -> Result<&'a [u8], Cause> {
        let count = usize::from(self.u8()?);
        let (cards, filler) = self
            .take::<CARD_BYTES>()?
            .split_at_checked(count)
            .ok_or(Cause::BadDeal)?;
        if filler.iter().any(|&byte| byte != 0) {
            return Err(Cause::BadDeal);
        }
        Ok(cards)
    }

    fn take<const N: usize>(&mut self) -> Result<&'a [u8; N], Cause> {
        let (taken, rest) = self.0.split_first_chunk().ok_or(Cause::CutShort)?;
        self.0 = rest;
        Ok(taken)
    }

    fn u8(&mut self) -> Result<u8, Cause> {
        self.take().map(|&[byte]| byte)
    }

    fn u16(&mut self) -> Result<u16, Cause> {
        self.take().copied().map(u16::from_be_bytes)
    }

    fn u32(&mut self) -> Result<u32, Cause> {
        self.take().copied().map(u32::from_be_bytes)
    }

    fn u64(&mut self) -> Result<u64, Cause> {
        self.take().copied().map(u64::from_be_bytes)
    }
}
