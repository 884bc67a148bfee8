//! Bugs of the blank tag: of who may name lot number 0, and of what a page with key 0 is taken for.

use drive_twin::Calls;
use twin::row::{COUNT, INFORMATION, KEY, KIND};
use twin::Way::{First, Second, Third};
use twin::{
    at, begin_lent, is_sound, kind, open_lent, page_words, report_lent, state_of, step_lent,
    Answer, Op, Slot, BLANK_KEY, SLOTS, STATE,
};

use crate::{begin_any, is_second};

/// A call that something is wrong with.
#[derive(Clone, Copy, Debug, PartialEq, Eq)]
pub enum BlankBug {
    /// A search of key 0 is begun.
    SearchLetIn,
    /// A deletion of key 0 by the first way is begun.
    FirstDeletionLetIn,
    /// An insertion of key 0 by the second way is begun.
    SecondInsertionLetIn,
    /// A regrading of key 0 by the third way is begun.
    ThirdRegradingLetIn,
    /// A next from 0 on is refused.
    NextRefused,
    /// Key 0 is refused before SlotBusy.
    BeforeSlotBusy,
    /// Key 0 is refused before BadSlot.
    BeforeBadSlot,
    /// Key 0 is refused before BadState.
    BeforeBadState,
    /// Key 1 is refused too.
    OneRefused,
    /// Information 0 is refused too.
    InformationRefused,
    /// What is refused is open then.
    OpensSlot,
    /// What is refused leaves its information in the slot's words.
    WritesInformation,
    /// A refusal clears the slot's words, also those that are not looked at.
    ClearsColumn,
    /// A state with a slot open for key 0 is not sound.
    SlotUnsound,
    /// Beginning again with key 0 is refused.
    AgainRefused,
    /// No step sees a leaf with key 0.
    StepSeesNone,
    /// A search sees no leaf with key 0.
    SearchSeesNone,
    /// A next sees none, and so tells lot number 0.
    NextSeesNone,
    /// A leaf that is held already is not tested for key 0.
    HeldNotLookedAt,
    /// A leaf that is wanted beside the path is not tested for key 0.
    BesideNotLookedAt,
    /// Page 0 may have key 0 as a leaf.
    RootNotLookedAt,
    /// A leaf without a key counts as one with key 0, for a step.
    EmptyLeafDamaged,
    /// An upper page with reference key 0 is not sound for a step.
    ReferenceDamaged,
    /// The opening sees no leaf with key 0.
    OpeningSeesNone,
    /// The opening names an upper page with reference key 0.
    ReferenceNamed,
    /// The opening says BadTree of a leaf with key 0.
    BlankIsNoTree,
    /// A leaf without a key counts as one with key 0, for the opening.
    EmptyLeafNotOpened,
}

/// Those that a case of the documents can show.
pub const BLANK_BUGS: [BlankBug; 23] = [
    BlankBug::SearchLetIn,
    BlankBug::FirstDeletionLetIn,
    BlankBug::SecondInsertionLetIn,
    BlankBug::ThirdRegradingLetIn,
    BlankBug::NextRefused,
    BlankBug::BeforeSlotBusy,
    BlankBug::BeforeBadSlot,
    BlankBug::BeforeBadState,
    BlankBug::OneRefused,
    BlankBug::InformationRefused,
    BlankBug::OpensSlot,
    BlankBug::StepSeesNone,
    BlankBug::SearchSeesNone,
    BlankBug::NextSeesNone,
    BlankBug::HeldNotLookedAt,
    BlankBug::BesideNotLookedAt,
    BlankBug::RootNotLookedAt,
    BlankBug::EmptyLeafDamaged,
    BlankBug::ReferenceDamaged,
    BlankBug::OpeningSeesNone,
    BlankBug::ReferenceNamed,
    BlankBug::BlankIsNoTree,
    BlankBug::EmptyLeafNotOpened,
];

/// Those that only a state can show, or words of it that no answer tells.
pub const BLANK_STATE_BUGS: [BlankBug; 4] = [
    BlankBug::WritesInformation,
    BlankBug::ClearsColumn,
    BlankBug::SlotUnsound,
    BlankBug::AgainRefused,
];

impl Calls for BlankBug {
    fn open(&self, k: u32, n: u32, state: &mut [u32; STATE], words: &mut [u32]) -> Answer {
        let answer = open_lent(k, n, state, words);
        if answer == Answer::BadPool {
            return answer;
        }
        let blank = blank_leaves(k, words);
        match self {
            BlankBug::OpeningSeesNone => {
                unseen(words, &blank, |words| open_lent(k, n, state, words))
            }
            BlankBug::BlankIsNoTree => {
                let mut aside = [0; STATE];
                let right = unseen(words, &blank, |words| open_lent(k, n, &mut aside, words));
                let names = |answer| matches!(answer, Answer::BadPageInPool(_));
                if names(answer) && !names(right) {
                    Answer::BadTree
                } else {
                    answer
                }
            }
            BlankBug::ReferenceNamed => named(answer, state, references(k, words)),
            BlankBug::EmptyLeafNotOpened => named(answer, state, empty_leaves(k, words)),
            _ => answer,
        }
    }

    fn begin(&self, state: &mut [u32; STATE], slot: usize, op: Op) -> Answer {
        if self.is_unsound(state) {
            return Answer::BadState;
        }
        let before = *state;
        let answer = begin_lent(state, slot, op);
        let refuses = match answer {
            Answer::SlotBusy => *self == BlankBug::BeforeSlotBusy && op.is_blank_tag(),
            Answer::BadSlot => *self == BlankBug::BeforeBadSlot && op.is_blank_tag(),
            Answer::BadState => *self == BlankBug::BeforeBadState && op.is_blank_tag(),
            Answer::Begun => self.refuses(op),
            _ => false,
        };
        if refuses {
            *state = before;
            return Answer::BadKey;
        }
        if answer == Answer::BadKey {
            return self.let_in(state, slot, op);
        }
        answer
    }

    fn step(&self, state: &mut [u32; STATE], words: &mut [u32], slot: usize) -> Answer {
        if self.is_unsound(state) {
            return Answer::BadState;
        }
        let (before, pages) = (*state, words.to_vec());
        let overlooked = self.overlooked(state, words, slot);
        let answer = unseen(words, &overlooked, |words| step_lent(state, words, slot));
        if answer.number() <= Answer::Waiting.number() {
            return answer;
        }
        let refusal = self.refusal(&before, state, &pages, slot);
        if refusal.is_some() {
            *state = before;
            words.copy_from_slice(&pages);
        }
        refusal.unwrap_or(answer)
    }

    fn report(&self, state: &[u32; STATE], page: u32) -> Answer {
        if self.is_unsound(state) {
            return Answer::BadState;
        }
        report_lent(state, page)
    }
}

impl BlankBug {
    /// Whether a slot that is open with key 0 makes the state unsound.
    fn is_unsound(&self, state: &[u32; STATE]) -> bool {
        let op = |slot: usize| Op::of(state[at(KIND, slot)], state[at(KEY, slot)], 0);
        *self == BlankBug::SlotUnsound
            && (0..SLOTS).any(|slot| op(slot).is_some_and(Op::is_blank_tag))
    }

    /// Whether an operation is refused that should begin.
    fn refuses(&self, op: Op) -> bool {
        let (_, key, information) = op.numbers();
        match (self, op) {
            (BlankBug::NextRefused, Op::Next(_)) => key == BLANK_KEY,
            (BlankBug::OneRefused, Op::Next(_)) => false,
            (BlankBug::OneRefused, _) => key == 1,
            (BlankBug::InformationRefused, Op::Insert(..) | Op::Regrade(..)) => information == 0,
            _ => false,
        }
    }

    /// What is wrong where key 0 is to be refused.
    fn let_in(&self, state: &mut [u32; STATE], slot: usize, op: Op) -> Answer {
        match (self, op) {
            (BlankBug::SearchLetIn, Op::Search(_))
            | (BlankBug::FirstDeletionLetIn, Op::Delete(_, First))
            | (BlankBug::SecondInsertionLetIn, Op::Insert(_, _, Second))
            | (BlankBug::ThirdRegradingLetIn, Op::Regrade(_, _, Third)) => {
                return begin_any(state, slot, op);
            }
            (BlankBug::OpensSlot, _) => _ = begin_any(state, slot, op),
            (BlankBug::WritesInformation, _) => state[at(INFORMATION, slot)] = op.numbers().2,
            (BlankBug::ClearsColumn, _) => (0..COUNT).for_each(|row| state[at(row, slot)] = 0),
            _ => {}
        }
        Answer::BadKey
    }

    /// The keys of blank tags that a step does not see.
    fn overlooked(&self, state: &[u32; STATE], words: &[u32], slot: usize) -> Vec<usize> {
        let Some(its) = open_slot(state, words, slot) else {
            return Vec::new();
        };
        let is_meant = |page: u32| match self {
            BlankBug::StepSeesNone => true,
            BlankBug::SearchSeesNone => matches!(its.op, Some(Op::Search(_))),
            BlankBug::NextSeesNone => matches!(its.op, Some(Op::Next(_))),
            BlankBug::HeldNotLookedAt => its.holds(page),
            BlankBug::BesideNotLookedAt => is_at_leaf(&its, state[0], words) && page == its.want,
            BlankBug::RootNotLookedAt => page == 0,
            _ => false,
        };
        let size = page_words(state[0]);
        let blank = blank_leaves(state[0], words).into_iter();
        blank.filter(|at| is_meant((at / size) as u32)).collect()
    }

    /// What a step is refused with that should be granted.
    fn refusal(
        &self,
        before: &[u32; STATE],
        state: &[u32; STATE],
        words: &[u32],
        slot: usize,
    ) -> Option<Answer> {
        let its = open_slot(before, words, slot)?;
        let meets = |places: Vec<u32>| {
            let mut places = places.into_iter();
            places.any(|page| page == its.want || its.holds(page))
        };
        match self {
            BlankBug::EmptyLeafDamaged if meets(empty_leaves(before[0], words)) => {
                Some(Answer::Damaged)
            }
            BlankBug::ReferenceDamaged if meets(references(before[0], words)) => {
                Some(Answer::Damaged)
            }
            BlankBug::AgainRefused => {
                let is_again = is_second(before, slot)
                    && !is_second(state, slot)
                    && state[at(KIND, slot)] != kind::CLOSED;
                let is_blank = before[at(KEY, slot)] == BLANK_KEY;
                (is_again && is_blank).then_some(Answer::BadKey)
            }
            _ => None,
        }
    }
}

/// A slot that is open, where the state and the number of words allow for it to be looked at.
fn open_slot(state: &[u32; STATE], words: &[u32], slot: usize) -> Option<Slot> {
    let state = state_of(state).filter(is_sound)?;
    let length = state.n as usize * page_words(state.k);
    let its = state.slots.get(slot)?;
    (its.op.is_some() && words.len() == length).then_some(*its)
}

/// Whether a slot holds its leaf.
fn is_at_leaf(slot: &Slot, k: u32, words: &[u32]) -> bool {
    let lowest = slot.path().last();
    lowest.is_some_and(|&page| words[page as usize * page_words(k)] == 1)
}

/// A call that is shown 1 for the keys of blank tags at these places.
fn unseen(words: &mut [u32], places: &[usize], call: impl FnOnce(&mut [u32]) -> Answer) -> Answer {
    places.iter().for_each(|&at| words[at] = 1);
    let answer = call(words);
    for &at in places {
        if words[at] == 1 {
            words[at] = BLANK_KEY;
        }
    }
    answer
}

/// The pages of a pool, with where they begin.
fn parts(k: u32, words: &[u32]) -> impl Iterator<Item = (usize, &[u32])> {
    let size = page_words(k);
    words
        .chunks(size)
        .enumerate()
        .map(move |(page, part)| (page * size, part))
}

/// Where leaves have the key of a blank tag first.
fn blank_leaves(k: u32, words: &[u32]) -> Vec<usize> {
    let is_blank = |part: &[u32]| part[0] == 1 && part[1] > 0 && part[2] == BLANK_KEY;
    let blank = parts(k, words).filter(|(_, part)| is_blank(part));
    blank.map(|(start, _)| start + 2).collect()
}

/// The pages for which something holds.
fn pages(k: u32, words: &[u32], is_so: impl Fn(&[u32]) -> bool) -> Vec<u32> {
    let so = (0..)
        .zip(parts(k, words))
        .filter(|(_, (_, part))| is_so(part));
    so.map(|(page, _)| page).collect()
}

/// The upper pages with reference key 0.
fn references(k: u32, words: &[u32]) -> Vec<u32> {
    pages(k, words, |part| part[0] > 1 && part[3] == BLANK_KEY)
}

/// The leaves without a key.
fn empty_leaves(k: u32, words: &[u32]) -> Vec<u32> {
    pages(k, words, |part| part[0] == 1 && part[1] == 0)
}

/// What an opening says that finds these pages not sound too.
fn named(answer: Answer, state: &mut [u32; STATE], pages: Vec<u32>) -> Answer {
    let Some(&lowest) = pages.first() else {
        return answer;
    };
    state.fill(0);
    match answer {
        Answer::BadPageInPool(page) => Answer::BadPageInPool(page.min(lowest)),
        _ => Answer::BadPageInPool(lowest),
    }
}
