//! "Refusal list".

/// A refusal: its number in the list, and the index of the offending element or word for 5 to 8, else 0.
#[derive(Clone, Copy, Debug, PartialEq, Eq)]
pub struct Refusal {
    pub number: u64,
    pub place: u64,
}

impl Refusal {
    /// Of a strip that begins at `start` of a row, its place counted from the row's start; those without a place of
    /// their own keep 0.
    pub(crate) fn counted_from(self, start: usize) -> Refusal {
        match self.number {
            FOREIGN_WORD | WILD_CHANNEL => Refusal {
                place: self.place + start as u64,
                ..self
            },
            _ => self,
        }
    }
}

pub const BAD_SIZE: u64 = 1;
pub const BAD_KEY: u64 = 2;
pub const WRONG_LENGTH: u64 = 3;
pub const SMALL_OUTPUT: u64 = 4;
pub const NO_NUMBER: u64 = 5;
pub const TOO_BRIGHT: u64 = 6;
pub const FOREIGN_WORD: u64 = 7;
pub const WILD_CHANNEL: u64 = 8;
pub const DARK_PAGE: u64 = 9;
pub const BAD_WHITE: u64 = 10;
pub const NO_SUCH_ROW: u64 = 20;
pub const UNLIKE_BANDS: u64 = 21;

/// Passes, or refuses with the number at place 0.
pub fn require(holds: bool, number: u64) -> Result<(), Refusal> {
    require_at(holds, number, 0)
}

/// Passes, or refuses with the number and place.
pub fn require_at(holds: bool, number: u64, place: usize) -> Result<(), Refusal> {
    if holds {
        Ok(())
    } else {
        Err(Refusal {
            number,
            place: place as u64,
        })
    }
}
