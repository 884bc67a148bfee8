//! What a buyer asks for, and its numbers: as a caller gives them, and as the state's words have them.

use crate::lock::Lock;
use crate::page::BLANK_KEY;

/// The kinds of operation by number.
pub mod kind {
    /// A closed slot's.
    pub const CLOSED: u32 = 0;
    pub const SEARCH: u32 = 1;
    pub const INSERT: u32 = 2;
    pub const DELETE: u32 = 3;
    pub const NEXT: u32 = 4;
    pub const REGRADE: u32 = 5;
    /// The same three updates by the second way.
    pub const INSERT_SECOND: u32 = 6;
    pub const DELETE_SECOND: u32 = 7;
    pub const REGRADE_SECOND: u32 = 8;
    /// And by the third.
    pub const INSERT_THIRD: u32 = 9;
    pub const DELETE_THIRD: u32 = 10;
    pub const REGRADE_THIRD: u32 = 11;
    /// The highest.
    pub const LAST: u32 = REGRADE_THIRD;
}

/// How an update goes down.
#[derive(Clone, Copy, Debug, PartialEq, Eq)]
pub enum Way {
    /// With ξ-locks all the way.
    First,
    /// Like a reader, with updater's ρ, and a ξ-lock wanted on its leaf.
    Second,
    /// With α-locks, which are converted to ξ when the change is known.
    Third,
}

impl Way {
    pub const ALL: [Way; 3] = [Way::First, Way::Second, Way::Third];
}

/// What a buyer asks for: a key, for an insertion or a regrading its information, and for an update its way.
#[derive(Clone, Copy, Debug, PartialEq, Eq)]
pub enum Op {
    Search(u32),
    Insert(u32, u32, Way),
    Delete(u32, Way),
    /// The first entry at or above the key.
    Next(u32),
    /// New information under a key that is there.
    Regrade(u32, u32, Way),
}

impl Op {
    /// The operation that three numbers name; `None` where there is no such kind.
    pub fn of(kind: u32, key: u32, information: u32) -> Option<Op> {
        Some(match kind {
            kind::SEARCH => Op::Search(key),
            kind::INSERT => Op::Insert(key, information, Way::First),
            kind::DELETE => Op::Delete(key, Way::First),
            kind::NEXT => Op::Next(key),
            kind::REGRADE => Op::Regrade(key, information, Way::First),
            kind::INSERT_SECOND => Op::Insert(key, information, Way::Second),
            kind::DELETE_SECOND => Op::Delete(key, Way::Second),
            kind::REGRADE_SECOND => Op::Regrade(key, information, Way::Second),
            kind::INSERT_THIRD => Op::Insert(key, information, Way::Third),
            kind::DELETE_THIRD => Op::Delete(key, Way::Third),
            kind::REGRADE_THIRD => Op::Regrade(key, information, Way::Third),
            _ => return None,
        })
    }

    /// Its kind, its key, and its information or 0.
    pub fn numbers(self) -> (u32, u32, u32) {
        match self {
            Op::Search(key) => (kind::SEARCH, key, 0),
            Op::Insert(key, information, Way::First) => (kind::INSERT, key, information),
            Op::Delete(key, Way::First) => (kind::DELETE, key, 0),
            Op::Next(key) => (kind::NEXT, key, 0),
            Op::Regrade(key, information, Way::First) => (kind::REGRADE, key, information),
            Op::Insert(key, information, Way::Second) => (kind::INSERT_SECOND, key, information),
            Op::Delete(key, Way::Second) => (kind::DELETE_SECOND, key, 0),
            Op::Regrade(key, information, Way::Second) => (kind::REGRADE_SECOND, key, information),
            Op::Insert(key, information, Way::Third) => (kind::INSERT_THIRD, key, information),
            Op::Delete(key, Way::Third) => (kind::DELETE_THIRD, key, 0),
            Op::Regrade(key, information, Way::Third) => (kind::REGRADE_THIRD, key, information),
        }
    }

    /// The key the operation is about.
    pub fn key(self) -> u32 {
        self.numbers().1
    }

    /// Whether it names the lot of a blank tag, which is none: key 0, but for a `Next`, which may begin there.
    pub fn is_blank_tag(self) -> bool {
        !matches!(self, Op::Next(_)) && self.key() == BLANK_KEY
    }

    /// An update's way; who only reads has none.
    pub fn way(self) -> Option<Way> {
        match self {
            Op::Search(_) | Op::Next(_) => None,
            Op::Insert(_, _, way) | Op::Delete(_, way) | Op::Regrade(_, _, way) => Some(way),
        }
    }

    /// The same by another way; who only reads stays as it is.
    pub fn by(self, way: Way) -> Op {
        match self {
            Op::Search(_) | Op::Next(_) => self,
            Op::Insert(key, information, _) => Op::Insert(key, information, way),
            Op::Delete(key, _) => Op::Delete(key, way),
            Op::Regrade(key, information, _) => Op::Regrade(key, information, way),
        }
    }

    /// The kind of lock with which it goes down: under it every page comes to be held.
    pub fn holds(self) -> Lock {
        match self.way() {
            None => Lock::Rho,
            Some(Way::First) => Lock::Xi,
            Some(Way::Second) => Lock::UpdaterRho,
            Some(Way::Third) => Lock::Alpha,
        }
    }

    /// Whether it can hold a page under a lock of this kind at all: the kind with which it goes down, and by the third way also ξ, where
    /// the page was converted.
    pub fn may_hold(self, lock: Lock) -> bool {
        lock == self.holds() || (self.way() == Some(Way::Third) && lock == Lock::Xi)
    }

    /// Whether it can want a page that it does not hold with a lock of this kind at all: the kind with which it goes down, and by the
    /// second way also ξ, for its leaf.
    pub fn may_want(self, lock: Lock) -> bool {
        lock == self.holds() || (self.way() == Some(Way::Second) && lock == Lock::Xi)
    }

    /// Whether it can want a page once more that it holds under the one kind, with the other: by the third way, from α to ξ.
    pub fn may_convert(self, from: Lock, to: Lock) -> bool {
        self.way() == Some(Way::Third) && (from, to) == (Lock::Alpha, Lock::Xi)
    }
}
