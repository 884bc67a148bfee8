//! Bugs of updates that go down like readers.

use drive_twin::Calls;
use twin::row::{COUNT, DEPTH, INFORMATION, KEY, KIND, LOCK, PATH};
use twin::{
    at, begin_lent, held_in, held_word, kind, report_lent, step_lent, words_of, Answer, Lock, Op,
    State, Way, SLOTS, STATE,
};

use crate::{alone, begin_any, is_second};

/// A call that something is wrong with.
#[derive(Clone, Copy, Debug)]
pub enum SecondBug {
    /// The leaf is wanted with updater's ρ, and so changed under it.
    LeafUnderRho,
    /// ξ is wanted above the leaf too.
    XiAbove,
    /// An older want of a leaf with ξ bars nobody who reads.
    LeafWantOverlooked,
    /// Beginning again keeps the page that was held.
    AgainKeepsLock,
    /// Beginning again keeps its place in the order.
    AgainKeepsPlace,
    /// Beginning again is by the second way again.
    AgainBySecond,
    /// Page 0 as a leaf is changed at once.
    RootLeafAtOnce,
    /// A leaf that is not safe is changed, with what is above it.
    UnsafeLeafChanged,
    /// A safe leaf is not changed: it begins again.
    SafeBeginsAgain,
    /// A key already there or missing is not answered: it begins again.
    ToldBeginsAgain,
    /// The father is kept.
    FatherKept,
    /// A report has ξ for what the second way holds.
    ReportedXi,
    /// Holding two pages is sound.
    HoldsTwo,
    /// The lock of a want is not looked at.
    LockNotLookedAt,
    /// The lock of a closed slot is looked at.
    ClosedLockLookedAt,
}

/// Those that a run can show.
pub const SECOND_BUGS: [SecondBug; 12] = [
    SecondBug::LeafUnderRho,
    SecondBug::XiAbove,
    SecondBug::LeafWantOverlooked,
    SecondBug::AgainKeepsLock,
    SecondBug::AgainKeepsPlace,
    SecondBug::AgainBySecond,
    SecondBug::RootLeafAtOnce,
    SecondBug::UnsafeLeafChanged,
    SecondBug::SafeBeginsAgain,
    SecondBug::ToldBeginsAgain,
    SecondBug::FatherKept,
    SecondBug::ReportedXi,
];

/// Those that only a state can show which no run leaves.
pub const SECOND_STATE_BUGS: [SecondBug; 3] = [
    SecondBug::HoldsTwo,
    SecondBug::LockNotLookedAt,
    SecondBug::ClosedLockLookedAt,
];

impl Calls for SecondBug {
    fn begin(&self, state: &mut [u32; STATE], slot: usize, op: Op) -> Answer {
        let answer = self.spoiled(state, |state| begin_lent(state, slot, op));
        if answer == Answer::Begun {
            self.want_otherwise(state, slot);
        }
        answer
    }

    fn step(&self, state: &mut [u32; STATE], words: &mut [u32], slot: usize) -> Answer {
        let (before, pages) = (*state, words.to_vec());
        let answer = self.spoiled(state, |state| self.stepped(state, words, slot));
        if slot >= SLOTS || !is_second(&before, slot) {
            return answer;
        }
        let is_again = answer == Answer::Moved && !is_second(state, slot);
        let answer = if is_again {
            self.again(&before, state, words, slot)
        } else {
            self.goes_on(&before, &pages, state, words, slot, answer)
        };
        self.want_otherwise(state, slot);
        answer
    }

    fn report(&self, state: &[u32; STATE], page: u32) -> Answer {
        let answer = self.spoiled(&mut state.clone(), |state| report_lent(state, page));
        match (self, answer) {
            (SecondBug::ReportedXi, Answer::Reported(3, holders, lowest))
                if is_second(state, lowest as usize) =>
            {
                Answer::Reported(2, holders, lowest)
            }
            _ => answer,
        }
    }
}

impl SecondBug {
    /// A step. Where another lock is wanted than the due one, that one decides who waits, and the pages are those for the due one.
    fn stepped(&self, state: &mut [u32; STATE], words: &mut [u32], slot: usize) -> Answer {
        let before = *state;
        if let SecondBug::LeafWantOverlooked = self {
            for other in (0..SLOTS).filter(|&other| other != slot && is_second(&before, other)) {
                state[at(LOCK, other)] = Lock::UpdaterRho.number();
            }
        }
        let answer = step_lent(state, words, slot);
        for other in (0..SLOTS).filter(|&other| other != slot) {
            state[at(LOCK, other)] = before[at(LOCK, other)];
        }
        let is_meant = matches!(self, SecondBug::LeafUnderRho | SecondBug::XiAbove)
            && answer == Answer::Damaged
            && is_second(&before, slot);
        if !is_meant {
            return answer;
        }
        // the lock that is not wanted is 2 or 3, and the two make 5
        state[at(LOCK, slot)] = 5 - before[at(LOCK, slot)];
        let answer = step_alone(state, words, slot);
        if answer == Answer::Damaged {
            *state = before;
        }
        answer
    }

    /// What is wrong with beginning again.
    fn again(
        &self,
        before: &[u32; STATE],
        state: &mut [u32; STATE],
        words: &mut [u32],
        slot: usize,
    ) -> Answer {
        let holds = before[at(DEPTH, slot)] > 0;
        match self {
            SecondBug::AgainKeepsLock if holds => {
                let (page, _) = held_in(before[at(PATH, slot)]);
                state[at(PATH, slot)] = held_word(page, Lock::Xi);
                state[at(DEPTH, slot)] = 1;
            }
            SecondBug::AgainKeepsPlace => state[3..19].copy_from_slice(&before[3..19]),
            SecondBug::AgainBySecond => {
                state[at(KIND, slot)] = before[at(KIND, slot)];
                state[at(LOCK, slot)] = Lock::UpdaterRho.number();
            }
            SecondBug::RootLeafAtOnce if !holds => return step_alone(state, words, slot),
            SecondBug::UnsafeLeafChanged if holds => {
                let op = asked(before, slot).by(Way::First);
                close(state, slot);
                return alone(before, words, op);
            }
            _ => {}
        }
        Answer::Moved
    }

    /// What is wrong with any other step of the second way.
    fn goes_on(
        &self,
        before: &[u32; STATE],
        pages: &[u32],
        state: &mut [u32; STATE],
        words: &mut [u32],
        slot: usize,
        answer: Answer,
    ) -> Answer {
        match (self, answer) {
            (
                SecondBug::SafeBeginsAgain,
                Answer::Inserted | Answer::Deleted(_) | Answer::Regraded(_),
            )
            | (SecondBug::ToldBeginsAgain, Answer::AlreadyThere(_) | Answer::NoSuchKey) => {
                words.copy_from_slice(pages);
                begin_any(state, slot, asked(before, slot).by(Way::First));
                Answer::Moved
            }
            (SecondBug::FatherKept, Answer::Moved) if before[at(DEPTH, slot)] == 1 => {
                state[at(DEPTH, slot)] = 2;
                state[at(PATH + 1, slot)] = state[at(PATH, slot)];
                state[at(PATH, slot)] = before[at(PATH, slot)];
                answer
            }
            _ => answer,
        }
    }

    /// Another lock than the due one is wanted.
    fn want_otherwise(&self, state: &mut [u32; STATE], slot: usize) {
        let lock = match self {
            SecondBug::LeafUnderRho => Lock::UpdaterRho,
            SecondBug::XiAbove => Lock::Xi,
            _ => return,
        };
        if is_second(state, slot) {
            state[at(LOCK, slot)] = lock.number();
        }
    }

    /// A call that is shown another state, and what is refused stays as it was.
    fn spoiled(
        &self,
        state: &mut [u32; STATE],
        call: impl FnOnce(&mut [u32; STATE]) -> Answer,
    ) -> Answer {
        let before = *state;
        (0..SLOTS).for_each(|slot| self.spoil(state, slot));
        let answer = call(state);
        if answer.number() <= Answer::Waiting.number() {
            *state = before;
        }
        answer
    }

    /// What is looked at, or is not, of a slot.
    fn spoil(&self, state: &mut [u32; STATE], slot: usize) {
        let (kind, lock) = (state[at(KIND, slot)], state[at(LOCK, slot)]);
        match self {
            SecondBug::HoldsTwo if is_second(state, slot) && state[at(DEPTH, slot)] == 2 => {
                state[at(DEPTH, slot)] = 1;
            }
            SecondBug::LockNotLookedAt => {
                let is_third = |op: &Op| op.way() == Some(Way::Third);
                let op =
                    Op::of(kind, 0, 0).filter(|op| !is_third(op) && !op.may_want(Lock::of(lock)));
                if let Some(op) = op {
                    state[at(LOCK, slot)] = op.holds().number();
                }
            }
            SecondBug::ClosedLockLookedAt if kind == kind::CLOSED && lock != 0 => state[0] = 0,
            _ => {}
        }
    }
}

/// The operation of an open slot.
fn asked(state: &[u32; STATE], slot: usize) -> Op {
    let word = |row: usize| state[at(row, slot)];
    Op::of(word(KIND), word(KEY), word(INFORMATION)).expect("an open slot")
}

/// Closes a slot that stands last in the order.
pub fn close(state: &mut [u32; STATE], slot: usize) {
    for row in 0..COUNT {
        state[at(row, slot)] = 0;
    }
    state[2] -= 1;
    state[3 + state[2] as usize] = 0;
}

/// The step of a slot as if no other were open; it stands last in the order then, or closes.
pub fn step_alone(state: &mut [u32; STATE], words: &mut [u32], slot: usize) -> Answer {
    let mut one = words_of(&State::empty(state[0], state[1]));
    (one[2], one[3]) = (1, slot as u32);
    for row in 0..COUNT {
        one[at(row, slot)] = state[at(row, slot)];
    }
    let answer = step_lent(&mut one, words, slot);
    if answer.number() <= Answer::Waiting.number() {
        return answer;
    }
    let waiting = state[2] as usize;
    let place = (0..waiting).find(|&place| state[3 + place] == slot as u32);
    state[3 + place.unwrap_or(0)..3 + waiting].rotate_left(1);
    for row in 0..COUNT {
        state[at(row, slot)] = one[at(row, slot)];
    }
    if one[2] == 0 {
        close(state, slot);
    }
    answer
}
