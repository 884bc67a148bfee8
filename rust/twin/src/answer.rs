//! What the caller hears: every answer and refusal, its name and its numbers.

/// An answer or refusal of one of the five calls.
#[derive(Clone, Copy, Debug, PartialEq, Eq)]
pub enum Answer {
    BadState,
    BadPool,
    BadSlot,
    SlotBusy,
    SlotIdle,
    Damaged,
    BadPage,
    /// The key of a blank tag, 0.
    BadKey,
    /// The lowest page of a pool handed in that is not sound by itself.
    BadPageInPool(u32),
    /// Each page of it is, but they do not form the tree from page 0.
    BadTree,
    /// A kind of operation that does not exist, where operations come as numbers.
    BadKind,
    Waiting,
    Moved,
    Found(u32),
    NotFound,
    Inserted,
    /// The information that is there.
    AlreadyThere(u32),
    Deleted(u32),
    NoSuchKey,
    NoRoom,
    Begun,
    Made,
    /// The lock kind (0 none, 1 ρ, 2 ξ, 3 updater's ρ, 4 α), how many hold the page, the lowest holder.
    Reported(u32, u32, u32),
    /// The key and the information of the first entry at or above the key asked for.
    Next(u32, u32),
    /// There is no such entry.
    None,
    /// The information that was there before.
    Regraded(u32),
    Opened,
}

impl Answer {
    /// Every answer once, with values of 0.
    const EACH: [Answer; 27] = [
        Answer::BadState,
        Answer::BadPool,
        Answer::BadSlot,
        Answer::SlotBusy,
        Answer::SlotIdle,
        Answer::Damaged,
        Answer::BadPage,
        Answer::BadKey,
        Answer::BadPageInPool(0),
        Answer::BadTree,
        Answer::BadKind,
        Answer::Waiting,
        Answer::Moved,
        Answer::Found(0),
        Answer::NotFound,
        Answer::Inserted,
        Answer::AlreadyThere(0),
        Answer::Deleted(0),
        Answer::NoSuchKey,
        Answer::NoRoom,
        Answer::Begun,
        Answer::Made,
        Answer::Reported(0, 0, 0),
        Answer::Next(0, 0),
        Answer::None,
        Answer::Regraded(0),
        Answer::Opened,
    ];

    /// The answer's number.
    pub fn number(self) -> u32 {
        match self {
            Answer::BadState => 1,
            Answer::BadPool => 2,
            Answer::BadSlot => 3,
            Answer::SlotBusy => 4,
            Answer::SlotIdle => 5,
            Answer::Damaged => 6,
            Answer::BadPage => 7,
            Answer::BadKey => 8,
            Answer::BadPageInPool(_) => 9,
            Answer::BadTree => 10,
            Answer::BadKind => 31,
            Answer::Waiting => 32,
            Answer::Moved => 33,
            Answer::Found(_) => 34,
            Answer::NotFound => 35,
            Answer::Inserted => 36,
            Answer::AlreadyThere(_) => 37,
            Answer::Deleted(_) => 38,
            Answer::NoSuchKey => 39,
            Answer::NoRoom => 40,
            Answer::Begun => 41,
            Answer::Made => 42,
            Answer::Reported(..) => 43,
            Answer::Next(..) => 44,
            Answer::None => 45,
            Answer::Regraded(_) => 46,
            Answer::Opened => 47,
        }
    }

    /// The name of the answer with this number, if there is one.
    pub fn name_of(number: u32) -> Option<&'static str> {
        let mut each = Answer::EACH.into_iter();
        each.find(|answer| answer.number() == number)
            .map(Answer::name)
    }

    /// The answer's values.
    fn values(self) -> Vec<u32> {
        match self {
            Answer::Found(information)
            | Answer::AlreadyThere(information)
            | Answer::Deleted(information)
            | Answer::Regraded(information) => vec![information],
            Answer::BadPageInPool(page) => vec![page],
            Answer::Reported(kind, holders, lowest) => vec![kind, holders, lowest],
            Answer::Next(key, information) => vec![key, information],
            _ => vec![],
        }
    }

    /// The answer's number, followed by its values.
    pub fn heard(self) -> Vec<u32> {
        [vec![self.number()], self.values()].concat()
    }

    /// The same as four numbers, 0 behind the values.
    pub fn told(self) -> [u32; 4] {
        let heard = self.heard();
        std::array::from_fn(|at| heard.get(at).copied().unwrap_or(0))
    }

    /// The answer's name, as the little program writes it.
    pub fn name(self) -> &'static str {
        match self {
            Answer::BadState => "BadState",
            Answer::BadPool => "BadPool",
            Answer::BadSlot => "BadSlot",
            Answer::SlotBusy => "SlotBusy",
            Answer::SlotIdle => "SlotIdle",
            Answer::Damaged => "Damaged",
            Answer::BadPage => "BadPage",
            Answer::BadKey => "BadKey",
            Answer::BadPageInPool(_) => "BadPageInPool",
            Answer::BadTree => "BadTree",
            Answer::BadKind => "BadKind",
            Answer::Waiting => "Waiting",
            Answer::Moved => "Moved",
            Answer::Found(_) => "Found",
            Answer::NotFound => "NotFound",
            Answer::Inserted => "Inserted",
            Answer::AlreadyThere(_) => "AlreadyThere",
            Answer::Deleted(_) => "Deleted",
            Answer::NoSuchKey => "NoSuchKey",
            Answer::NoRoom => "NoRoom",
            Answer::Begun => "Begun",
            Answer::Made => "Made",
            Answer::Reported(..) => "Reported",
            Answer::Next(..) => "Next",
            Answer::None => "None",
            Answer::Regraded(_) => "Regraded",
            Answer::Opened => "Opened",
        }
    }
}
