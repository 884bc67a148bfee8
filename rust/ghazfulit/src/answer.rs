//! What is asked for, and what the caller hears.

use std::error::Error;
use std::fmt::{self, Display, Formatter};

use crate::numbers;
use crate::raw::Answer;

/// How an update goes down. It does the same by each way.
#[derive(Clone, Copy, Debug, Default, PartialEq, Eq, Hash)]
pub enum Way {
    /// With ξ-locks from page 0 on: what it holds nobody else can read.
    #[default]
    First,
    /// With updater's ρ, beside all who read, and a ξ-lock on its leaf alone. Where the change would reach beyond the leaf, and where page 0
    /// is a leaf, it gives up what it holds and begins again by the first way, which is answered [`Step::Moved`].
    Second,
    /// With α, beside those who read, and with all that it would hold by the first way. When the change is known, each page that it holds is
    /// wanted once more, with ξ, from the top down, one a step, which is answered [`Step::Moved`]; the change comes with the last.
    Third,
}

impl Way {
    /// Each of them once.
    pub const ALL: [Way; 3] = [Way::First, Way::Second, Way::Third];
}

/// What a buyer asks for.
///
/// The functions of the same names make updates by the first way; [`Op::by`] chooses. Key 0 is no lot's, and refused for all but a next
/// ([`Refusal::BadKey`]).
///
/// ```
/// # use ghazfulit::{Op, Way};
/// let op = Op::Insert { key: 12, information: 3, way: Way::First };
/// assert_eq!(Op::insert(12, 3), op);
/// let op = Op::Delete { key: 12, way: Way::Third };
/// assert_eq!(Op::delete(12).by(Way::Third), op);
/// ```
#[derive(Clone, Copy, Debug, PartialEq, Eq, Hash)]
#[non_exhaustive]
pub enum Op {
    /// The information of a lot.
    Search {
        /// The lot's key.
        key: u32,
    },
    /// A new lot.
    Insert {
        /// Its key.
        key: u32,
        /// What stands with it.
        information: u32,
        /// How it goes down.
        way: Way,
    },
    /// A lot to be taken out.
    Delete {
        /// Its key.
        key: u32,
        /// How it goes down.
        way: Way,
    },
    /// The first lot at or above a key.
    Next {
        /// The key, which need not be there; from 0 on it is the first lot of all.
        key: u32,
    },
    /// New information for a lot that is there.
    Regrade {
        /// The lot's key.
        key: u32,
        /// What is to stand with it from now on.
        information: u32,
        /// How it goes down.
        way: Way,
    },
}

impl Op {
    /// A search.
    pub const fn search(key: u32) -> Op {
        Op::Search { key }
    }

    /// An insertion by the first way.
    pub const fn insert(key: u32, information: u32) -> Op {
        let way = Way::First;
        Op::Insert {
            key,
            information,
            way,
        }
    }

    /// A deletion by the first way.
    pub const fn delete(key: u32) -> Op {
        let way = Way::First;
        Op::Delete { key, way }
    }

    /// The first lot at or above a key.
    pub const fn next(key: u32) -> Op {
        Op::Next { key }
    }

    /// A regrading by the first way.
    pub const fn regrade(key: u32, information: u32) -> Op {
        let way = Way::First;
        Op::Regrade {
            key,
            information,
            way,
        }
    }

    /// The same update by this way. Who only reads has none, and stays as it is.
    pub const fn by(mut self, chosen: Way) -> Op {
        match &mut self {
            Op::Search { .. } | Op::Next { .. } => {}
            Op::Insert { way, .. } | Op::Delete { way, .. } | Op::Regrade { way, .. } => {
                *way = chosen;
            }
        }
        self
    }

    /// Kind, key and information, as the library takes them; 0 where there is no information.
    pub fn numbers(self) -> (u32, u32, u32) {
        let by = |way, [first, second, third]: [u32; 3]| match way {
            Way::First => first,
            Way::Second => second,
            Way::Third => third,
        };
        match self {
            Op::Search { key } => (numbers::SEARCH, key, 0),
            Op::Insert {
                key,
                information,
                way,
            } => {
                let kinds = [
                    numbers::INSERT,
                    numbers::INSERT_SECOND,
                    numbers::INSERT_THIRD,
                ];
                (by(way, kinds), key, information)
            }
            Op::Delete { key, way } => {
                let kinds = [
                    numbers::DELETE,
                    numbers::DELETE_SECOND,
                    numbers::DELETE_THIRD,
                ];
                (by(way, kinds), key, 0)
            }
            Op::Next { key } => (numbers::NEXT, key, 0),
            Op::Regrade {
                key,
                information,
                way,
            } => {
                let kinds = [
                    numbers::REGRADE,
                    numbers::REGRADE_SECOND,
                    numbers::REGRADE_THIRD,
                ];
                (by(way, kinds), key, information)
            }
        }
    }
}

/// What a step is answered.
#[derive(Clone, Copy, Debug, PartialEq, Eq, Hash)]
#[non_exhaustive]
pub enum Step {
    /// The lock is not to be had yet; nothing has changed.
    Waiting,
    /// One lock more, or by the third way a stronger one; or an update of the second way has given up what it held, and begins again by the
    /// first.
    Moved,
    /// The key is there, with this information.
    Found(u32),
    /// The key is not there.
    NotFound,
    /// The lot is entered.
    Inserted,
    /// The key was there already, with this information; nothing has changed.
    AlreadyThere(u32),
    /// The lot is taken out; it had this information.
    Deleted(u32),
    /// There is no such key to take out or to regrade.
    NoSuchKey,
    /// More pages would be needed than are free; nothing has changed.
    NoRoom,
    /// The first lot whose key is at or above the one asked for.
    Next {
        /// The lot's key.
        key: u32,
        /// What stands with it.
        information: u32,
    },
    /// No lot has a key at or above it.
    None,
    /// The lot has its new information; it had this one.
    Regraded(u32),
}

impl Step {
    /// Whether the operation has ended, and its slot is closed.
    pub fn is_end(self) -> bool {
        numbers::ends(self.told()[0])
    }

    /// The answer as the library tells it: its number and its values, 0 behind them.
    pub fn told(self) -> Answer {
        match self {
            Step::Waiting => [numbers::WAITING, 0, 0, 0],
            Step::Moved => [numbers::MOVED, 0, 0, 0],
            Step::Found(information) => [numbers::FOUND, information, 0, 0],
            Step::NotFound => [numbers::NOT_FOUND, 0, 0, 0],
            Step::Inserted => [numbers::INSERTED, 0, 0, 0],
            Step::AlreadyThere(information) => [numbers::ALREADY_THERE, information, 0, 0],
            Step::Deleted(information) => [numbers::DELETED, information, 0, 0],
            Step::NoSuchKey => [numbers::NO_SUCH_KEY, 0, 0, 0],
            Step::NoRoom => [numbers::NO_ROOM, 0, 0, 0],
            Step::Next { key, information } => [numbers::NEXT_LOT, key, information, 0],
            Step::None => [numbers::NO_LOT, 0, 0, 0],
            Step::Regraded(information) => [numbers::REGRADED, information, 0, 0],
        }
    }
}

impl Display for Step {
    fn fmt(&self, f: &mut Formatter) -> fmt::Result {
        match self {
            Step::Waiting => write!(f, "Waiting"),
            Step::Moved => write!(f, "Moved"),
            Step::Found(information) => write!(f, "Found {information}"),
            Step::NotFound => write!(f, "NotFound"),
            Step::Inserted => write!(f, "Inserted"),
            Step::AlreadyThere(information) => write!(f, "AlreadyThere {information}"),
            Step::Deleted(information) => write!(f, "Deleted {information}"),
            Step::NoSuchKey => write!(f, "NoSuchKey"),
            Step::NoRoom => write!(f, "NoRoom"),
            Step::Next { key, information } => write!(f, "Next {key} {information}"),
            Step::None => write!(f, "None"),
            Step::Regraded(information) => write!(f, "Regraded {information}"),
        }
    }
}

/// Why a call was refused. Everything is as it was.
#[derive(Clone, Copy, Debug, PartialEq, Eq, Hash)]
#[non_exhaustive]
pub enum Refusal {
    /// The words of the state are none that the calls leave: not sound.
    BadState,
    /// k or n is out of range, or the pool has another number of words than they ask for.
    BadPool,
    /// There is no such slot: they go from 0 to 15.
    BadSlot,
    /// An operation was begun in a slot that is open.
    SlotBusy,
    /// A slot was stepped that is closed.
    SlotIdle,
    /// The pages that the step would meet are not sound. The slot stays open.
    Damaged,
    /// A report was asked for a page that the pool does not have.
    BadPage,
    /// An operation was begun with key 0, which is that of a blank tag and no lot's. Only [`Op::Next`] may begin with it.
    BadKey,
    /// A pool was to be opened in which this page is the lowest that is not sound by itself.
    BadPageInPool(u32),
    /// A pool was to be opened whose pages are sound by themselves, but do not form the tree from page 0.
    BadTree,
}

impl Refusal {
    /// Each of them once, but the one that has a value.
    const EACH: [Refusal; 9] = [
        Refusal::BadState,
        Refusal::BadPool,
        Refusal::BadSlot,
        Refusal::SlotBusy,
        Refusal::SlotIdle,
        Refusal::Damaged,
        Refusal::BadPage,
        Refusal::BadKey,
        Refusal::BadTree,
    ];

    /// The refusal of an answer, if it is one.
    fn of(answer: Answer) -> Option<Refusal> {
        let [number, page, ..] = answer;
        if number == numbers::BAD_PAGE_IN_POOL {
            return Some(Refusal::BadPageInPool(page));
        }
        let mut each = Refusal::EACH.into_iter();
        each.find(|refusal| refusal.number() == number)
    }

    /// The refusal's number.
    pub fn number(self) -> u32 {
        match self {
            Refusal::BadState => numbers::BAD_STATE,
            Refusal::BadPool => numbers::BAD_POOL,
            Refusal::BadSlot => numbers::BAD_SLOT,
            Refusal::SlotBusy => numbers::SLOT_BUSY,
            Refusal::SlotIdle => numbers::SLOT_IDLE,
            Refusal::Damaged => numbers::DAMAGED,
            Refusal::BadPage => numbers::BAD_PAGE,
            Refusal::BadKey => numbers::BAD_KEY,
            Refusal::BadPageInPool(_) => numbers::BAD_PAGE_IN_POOL,
            Refusal::BadTree => numbers::BAD_TREE,
        }
    }
}

impl Display for Refusal {
    fn fmt(&self, f: &mut Formatter) -> fmt::Result {
        let text = match self {
            Refusal::BadState => "the state is not sound",
            Refusal::BadPool => "k, n or the number of words is out of range",
            Refusal::BadSlot => "the slot is above 15",
            Refusal::SlotBusy => "the slot is open",
            Refusal::SlotIdle => "the slot is closed",
            Refusal::Damaged => "the pages that the step would meet are not sound",
            Refusal::BadPage => "there is no such page",
            Refusal::BadKey => "key 0 is that of a blank tag, and no lot's",
            Refusal::BadPageInPool(page) => return write!(f, "page {page} is not sound by itself"),
            Refusal::BadTree => "the pages do not form a tree",
        };
        f.write_str(text)
    }
}

impl Error for Refusal {}

/// A kind of lock, each with the kinds that it goes with on one page.
#[derive(Clone, Copy, Debug, PartialEq, Eq, Hash)]
#[non_exhaustive]
pub enum Lock {
    /// ρ, of a search or a next: it goes with all but ξ.
    Rho,
    /// ξ, of an update by the first way, and by the third where the page was converted: it goes with nothing.
    Xi,
    /// Updater's ρ, of an update by the second way: it goes with ρ, and with others of its kind.
    UpdaterRho,
    /// α, of an update by the third way: it goes with ρ alone.
    Alpha,
}

impl Lock {
    /// Each of them once.
    const EACH: [Lock; 4] = [Lock::Rho, Lock::Xi, Lock::UpdaterRho, Lock::Alpha];

    /// Its number, as the library tells it.
    pub fn number(self) -> u32 {
        match self {
            Lock::Rho => numbers::LOCK_RHO,
            Lock::Xi => numbers::LOCK_XI,
            Lock::UpdaterRho => numbers::LOCK_UPDATER_RHO,
            Lock::Alpha => numbers::LOCK_ALPHA,
        }
    }
}

impl Display for Lock {
    fn fmt(&self, f: &mut Formatter) -> fmt::Result {
        f.write_str(match self {
            Lock::Rho => "ρ",
            Lock::Xi => "ξ",
            Lock::UpdaterRho => "updater's ρ",
            Lock::Alpha => "α",
        })
    }
}

/// Who holds a page.
#[derive(Clone, Copy, Debug, PartialEq, Eq, Hash)]
pub struct Report {
    /// The strongest kind of lock on it, which is the first that is there of ξ, α, updater's ρ and ρ; and the lowest-numbered slot that
    /// holds it, under whatever kind.
    pub held: Option<(Lock, u32)>,
    /// How many slots hold the page, under all kinds together.
    pub holders: u32,
}

/// Reads an answer that must be a refusal then.
fn refused(answer: Answer) -> Refusal {
    let refusal = Refusal::of(answer);
    refusal.unwrap_or_else(|| {
        panic!("the archive answers {answer:?}, which is not in its header for this call")
    })
}

/// Reads the answer of a making, an opening or a beginning.
pub(crate) fn done(answer: Answer) -> Result<(), Refusal> {
    match answer[0] {
        numbers::MADE | numbers::OPENED | numbers::BEGUN => Ok(()),
        _ => Err(refused(answer)),
    }
}

/// Reads the answer of a step.
pub(crate) fn stepped(answer: Answer) -> Result<Step, Refusal> {
    Ok(match answer[0] {
        numbers::WAITING => Step::Waiting,
        numbers::MOVED => Step::Moved,
        numbers::FOUND => Step::Found(answer[1]),
        numbers::NOT_FOUND => Step::NotFound,
        numbers::INSERTED => Step::Inserted,
        numbers::ALREADY_THERE => Step::AlreadyThere(answer[1]),
        numbers::DELETED => Step::Deleted(answer[1]),
        numbers::NO_SUCH_KEY => Step::NoSuchKey,
        numbers::NO_ROOM => Step::NoRoom,
        numbers::NEXT_LOT => Step::Next {
            key: answer[1],
            information: answer[2],
        },
        numbers::NO_LOT => Step::None,
        numbers::REGRADED => Step::Regraded(answer[1]),
        _ => return Err(refused(answer)),
    })
}

/// Reads the answer of a report.
pub(crate) fn reported(answer: Answer) -> Result<Report, Refusal> {
    let [number, kind, holders, lowest] = answer;
    if number != numbers::REPORTED {
        return Err(refused(answer));
    }
    let mut each = Lock::EACH.into_iter();
    let held = each.find(|lock| lock.number() == kind);
    Ok(Report {
        held: held.map(|lock| (lock, lowest)),
        holders,
    })
}
