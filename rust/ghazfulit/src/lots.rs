//! The lots from a key on, one question after the other.

use std::error::Error;
use std::fmt::{self, Display, Formatter};
use std::iter::FusedIterator;

use crate::answer::{Op, Refusal, Step};
use crate::index::Index;

/// A lot.
#[derive(Clone, Copy, Debug, PartialEq, Eq, Hash)]
pub struct Lot {
    /// Its key.
    pub key: u32,
    /// What stands with it.
    pub information: u32,
}

/// Why the next lot is not told.
#[derive(Clone, Copy, Debug, PartialEq, Eq, Hash)]
#[non_exhaustive]
pub enum Stop {
    /// The question has to wait for another slot, and stays open. Step the others ([`Lots::index`]), and ask again.
    Waiting,
    /// The question was refused; nothing more is told.
    Refused(Refusal),
}

impl Display for Stop {
    fn fmt(&self, f: &mut Formatter) -> fmt::Result {
        match self {
            Stop::Waiting => f.write_str("another slot has to go on first"),
            Stop::Refused(refusal) => refusal.fmt(f),
        }
    }
}

impl Error for Stop {}

impl From<Refusal> for Stop {
    fn from(refusal: Refusal) -> Stop {
        Stop::Refused(refusal)
    }
}

/// How far the questions are.
#[derive(Clone, Copy, Debug)]
enum Asked {
    /// The next one is for the first lot at or above this key.
    From(u32),
    /// One is open in the slot.
    Open,
    /// There is none left.
    All,
}

/// The lots from a key on, in the order of their keys ([`Index::lots`]).
///
/// Each lot is a question of its own, `Next` behind the last one, and not a picture of one moment: what other slots enter, take
/// out or regrade between two questions shows in those that follow. Keys always rise. Who asks to the end hears just once of each
/// lot, at or above the first key, that was there all the time.
///
/// As long as it lives, the slot is its own. Where it is dropped after [`Stop::Waiting`], its question stays open in the slot.
#[derive(Debug)]
pub struct Lots<'i, 'w> {
    index: &'i mut Index<'w>,
    slot: u32,
    asked: Asked,
}

impl<'i, 'w> Lots<'i, 'w> {
    /// From a key on, in a closed slot.
    pub(crate) fn from(index: &'i mut Index<'w>, slot: u32, key: u32) -> Lots<'i, 'w> {
        let asked = Asked::From(key);
        Lots { index, slot, asked }
    }

    /// The index, to go on with other slots between two questions.
    pub fn index(&mut self) -> &mut Index<'w> {
        self.index
    }

    /// One question, begun or gone on with.
    fn ask(&mut self) -> Result<Option<Lot>, Stop> {
        match std::mem::replace(&mut self.asked, Asked::All) {
            Asked::All => return Ok(None),
            Asked::From(key) => self.index.begin(self.slot, Op::next(key))?,
            Asked::Open => {}
        }
        match self.index.finish(self.slot)? {
            Step::Next { key, information } => {
                self.asked = key.checked_add(1).map_or(Asked::All, Asked::From);
                Ok(Some(Lot { key, information }))
            }
            Step::Waiting => {
                self.asked = Asked::Open;
                Err(Stop::Waiting)
            }
            _ => Ok(None),
        }
    }
}

impl Iterator for Lots<'_, '_> {
    type Item = Result<Lot, Stop>;

    fn next(&mut self) -> Option<Result<Lot, Stop>> {
        self.ask().transpose()
    }
}

impl FusedIterator for Lots<'_, '_> {}
