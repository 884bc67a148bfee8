//! The comparison can fail: each bug that is put into the calls of the second program is found.

#[path = "bugs/blank_tag.rs"]
mod blank_tag;
#[path = "bugs/kinds.rs"]
mod kinds;
#[path = "bugs/like_readers.rs"]
mod like_readers;
#[path = "bugs/opening.rs"]
mod opening;
#[path = "bugs/third_way.rs"]
mod third_way;

use std::fmt::Debug;

use blank_tag::{BlankBug, BLANK_BUGS, BLANK_STATE_BUGS};
use draw::Random;
use drive_twin::{Calls, Twin};
use drives::{cases, compare, draw_scene, smallest, Scene, KINDS};
use kinds::{KindBug, KIND_BUGS, KIND_STATE_BUGS};
use like_readers::{SecondBug, SECOND_BUGS, SECOND_STATE_BUGS};
use opening::{NoBug, OpenBug, OPEN_BUGS};
use third_way::{ThirdBug, THIRD_BUGS, THIRD_STATE_BUGS};
use twin::row::{BESIDE, DEPTH, INFORMATION, KEY, KIND, LOCK, PATH, WANT};
use twin::Way::First;
use twin::{
    at, begin_lent, free_pages, held_in, held_word, kind, make_lent, page_words, report_lent,
    step_lent, words_of, Answer, Lock, Op, State, STATE,
};

/// A call that something is wrong with.
#[derive(Clone, Copy, Debug)]
enum Bug {
    /// An older want that clashes is overlooked.
    OlderWantOverlooked,
    /// A search waits behind an older search.
    ReaderBarsReader,
    /// A search does not wait behind an older insertion or deletion.
    UpdateBarsNoReader,
    /// An insertion or deletion does not wait behind an older search.
    ReaderBarsNoUpdate,
    /// A search gives its father up before the child is granted.
    FatherGivenUp,
    /// A key equal to a reference key goes left.
    EqualKeyLeft,
    /// A deletion tests μ < 2k.
    DeletionTestsFull,
    /// A sibling is used without its lock.
    SiblingUnlocked,
    /// A freed page keeps its words behind the level.
    FreedNotZeroed,
    /// The last free page is never taken.
    LastPageKept,
    /// A waiting order that is too long counts as a full one.
    LongOrderCut,
    /// A report counts wants.
    WantsCounted,
    /// A refused making clears the words.
    RefusedMakingWrites,
    /// A closed slot keeps its key.
    ClosedKeepsKey,
    /// A kind that does not exist counts as closed.
    UnknownKindClosed,
    /// A next gives up its father like a search.
    NextGivesUp,
    /// A next whose leaf has nothing for it is answered None at once.
    NextEndsAtLeaf,
    /// A next passes over a key that is equal.
    NextPassesEqual,
    /// A next tells the first entry of its second leaf, whatever its key.
    NextTellsBelow,
    /// A next does not keep the pages of its second way.
    NextForgetsBeside,
    /// A next counts as one that holds alone.
    NextHoldsAlone,
    /// A next with pages beside its path is no sound state.
    NextBesideUnsound,
    /// An insertion is told the information that it brings, not what is there.
    ThereTellsNew,
    /// A regrading is told the information that it brings.
    RegradeTellsNew,
    /// A regrading writes nothing.
    RegradeWritesNothing,
    /// A regrading takes ρ-locks.
    RegradeReads,
    /// A regrading keeps its father, like an insertion in full pages.
    RegradeKeepsFather,
    /// A regrading takes the lot out of the tree and enters it again.
    RegradeTakesOut,
    /// A regrading enters a lot that is not there.
    RegradeEnters,
    /// A regrading that holds two pages is a sound state.
    RegradeHoldsTwo,
}

/// Those of who waits behind whom.
const WAITING_BUGS: [Bug; 4] = [
    Bug::OlderWantOverlooked,
    Bug::ReaderBarsReader,
    Bug::UpdateBarsNoReader,
    Bug::ReaderBarsNoUpdate,
];

const BUGS: [Bug; 12] = [
    Bug::FatherGivenUp,
    Bug::EqualKeyLeft,
    Bug::DeletionTestsFull,
    Bug::SiblingUnlocked,
    Bug::FreedNotZeroed,
    Bug::LastPageKept,
    Bug::LongOrderCut,
    Bug::WantsCounted,
    Bug::RefusedMakingWrites,
    Bug::ClosedKeepsKey,
    Bug::UnknownKindClosed,
    Bug::RegradeHoldsTwo,
];

/// Those of the next lot.
const NEXT_BUGS: [Bug; 7] = [
    Bug::NextGivesUp,
    Bug::NextEndsAtLeaf,
    Bug::NextPassesEqual,
    Bug::NextTellsBelow,
    Bug::NextForgetsBeside,
    Bug::NextHoldsAlone,
    Bug::NextBesideUnsound,
];

/// Those of regrading that a run can show.
const REGRADE_BUGS: [Bug; 7] = [
    Bug::ThereTellsNew,
    Bug::RegradeTellsNew,
    Bug::RegradeWritesNothing,
    Bug::RegradeReads,
    Bug::RegradeKeepsFather,
    Bug::RegradeTakesOut,
    Bug::RegradeEnters,
];

/// All that belong to one of 02's requests.
fn request_bugs() -> impl Iterator<Item = Bug> {
    WAITING_BUGS
        .into_iter()
        .chain(NEXT_BUGS)
        .chain(REGRADE_BUGS)
}

impl Calls for Bug {
    fn make(&self, k: u32, n: u32, state: &mut [u32; STATE], words: &mut [u32]) -> Answer {
        let answer = make_lent(k, n, state, words);
        if matches!((self, answer), (Bug::RefusedMakingWrites, Answer::BadPool)) {
            words.fill(0);
        }
        answer
    }

    fn begin(&self, state: &mut [u32; STATE], slot: usize, op: Op) -> Answer {
        self.spoil(state);
        self.disguised(state, |state| begin_lent(state, slot, op))
    }

    fn step(&self, state: &mut [u32; STATE], words: &mut [u32], slot: usize) -> Answer {
        self.spoil(state);
        let (before, pages) = (*state, words.to_vec());
        let answer = self.disguised(state, |state| step_lent(state, words, slot));
        if slot >= 16 {
            return answer;
        }
        if self.waits(&before, slot, answer) {
            *state = before;
            words.copy_from_slice(&pages);
            return Answer::Waiting;
        }
        if self.goes(&before, slot, answer) {
            return unbarred(state, words, slot);
        }
        let its = before[at(KIND, slot)];
        if its == kind::NEXT {
            return self.next(&before, state, words, slot, answer);
        }
        if its == kind::REGRADE {
            return self.regrade(&before, &pages, state, words, slot, answer);
        }
        match (self, answer) {
            (Bug::FatherGivenUp, Answer::Moved) if its == kind::SEARCH => {
                state[at(DEPTH, slot)] = 0;
                answer
            }
            (Bug::EqualKeyLeft, Answer::Found(_) | Answer::Moved) if its == kind::SEARCH => {
                *state = before;
                state[at(KEY, slot)] = before[at(KEY, slot)].saturating_sub(1);
                let answer = step_lent(state, words, slot);
                state[at(KEY, slot)] = before[at(KEY, slot)];
                answer
            }
            (Bug::DeletionTestsFull, Answer::Moved) if its == kind::DELETE => {
                let (mut other, mut copy) = (before, pages);
                other[at(KIND, slot)] = kind::INSERT;
                if step_lent(&mut other, &mut copy, slot) == Answer::Moved {
                    *state = other;
                    state[at(KIND, slot)] = kind::DELETE;
                }
                answer
            }
            (Bug::SiblingUnlocked, Answer::Moved) if state[at(BESIDE, slot)] > 0 => {
                step_lent(state, words, slot)
            }
            (Bug::FreedNotZeroed, Answer::Deleted(_)) => {
                let size = page_words(before[0]);
                for start in (0..words.len()).step_by(size) {
                    if words[start] == 0 && pages[start] != 0 {
                        words[start + 1..start + size]
                            .copy_from_slice(&pages[start + 1..start + size]);
                    }
                }
                answer
            }
            (Bug::LastPageKept, Answer::Inserted) => {
                let free = |words: &[u32]| free_pages(words, before[0], before[1]).len();
                if free(words) == 0 && free(&pages) > 0 {
                    words.copy_from_slice(&pages);
                    return Answer::NoRoom;
                }
                answer
            }
            (Bug::ThereTellsNew, Answer::AlreadyThere(_)) => {
                Answer::AlreadyThere(before[at(INFORMATION, slot)])
            }
            (Bug::ClosedKeepsKey, _)
                if state[at(KIND, slot)] == kind::CLOSED && its != kind::CLOSED =>
            {
                state[at(KEY, slot)] = before[at(KEY, slot)];
                answer
            }
            _ => answer,
        }
    }

    fn report(&self, state: &[u32; STATE], page: u32) -> Answer {
        let answer = self.disguised(&mut state.clone(), |state| report_lent(state, page));
        let wanting = (0..16)
            .find(|&slot| state[at(KIND, slot)] != kind::CLOSED && state[at(WANT, slot)] == page);
        match (self, answer, wanting) {
            (Bug::NextHoldsAlone, Answer::Reported(1, holders, lowest), _)
                if state[at(KIND, lowest as usize)] == kind::NEXT =>
            {
                Answer::Reported(2, holders, lowest)
            }
            (Bug::WantsCounted, Answer::Reported(0, 0, 16), Some(slot)) => {
                Answer::Reported(1, 1, slot as u32)
            }
            _ => answer,
        }
    }
}

impl Bug {
    /// Whether a granted step is made to wait.
    fn waits(&self, before: &[u32; STATE], slot: usize, answer: Answer) -> bool {
        matches!(self, Bug::ReaderBarsReader)
            && matches!(answer, Answer::Moved | Answer::Found(_) | Answer::NotFound)
            && reads(before, slot)
            && older(before, slot).next().is_some()
    }

    /// Whether a step that waits is made to go, if no lock is held against it.
    fn goes(&self, before: &[u32; STATE], slot: usize, answer: Answer) -> bool {
        answer == Answer::Waiting
            && match self {
                Bug::OlderWantOverlooked => true,
                Bug::UpdateBarsNoReader => reads(before, slot),
                Bug::ReaderBarsNoUpdate => {
                    !reads(before, slot) && older(before, slot).all(|other| reads(before, other))
                }
                _ => false,
            }
    }

    /// What is wrong with a step of a next.
    fn next(
        &self,
        before: &[u32; STATE],
        state: &mut [u32; STATE],
        words: &mut [u32],
        slot: usize,
        answer: Answer,
    ) -> Answer {
        let (depth, beside) = (state[at(DEPTH, slot)], state[at(BESIDE, slot)]);
        let key = before[at(KEY, slot)];
        match (self, answer) {
            (Bug::NextGivesUp, Answer::Moved) if depth > 1 && beside == 0 => {
                state[at(PATH, slot)] = held_word(before[at(WANT, slot)], Lock::Rho);
                state[at(DEPTH, slot)] = 1;
            }
            (Bug::NextEndsAtLeaf, Answer::Moved) if words[leaf_word(state, slot)] == 1 => {
                return Answer::None;
            }
            (Bug::NextPassesEqual, Answer::Next(own, _)) if own == key && key < u32::MAX => {
                *state = *before;
                state[at(KEY, slot)] = key + 1;
                return step_lent(state, words, slot);
            }
            (Bug::NextTellsBelow, Answer::Next(..) | Answer::None)
                if is_crossing(before, words, slot) =>
            {
                let entry = page_start(before, before[at(WANT, slot)]) + 2;
                return Answer::Next(words[entry], words[entry + 1]);
            }
            (Bug::NextForgetsBeside, Answer::Moved) if beside > 0 => state[at(BESIDE, slot)] = 0,
            (Bug::NextBesideUnsound, Answer::Moved | Answer::Next(..))
                if before[at(BESIDE, slot)] > 0 =>
            {
                *state = *before;
                return Answer::BadState;
            }
            _ => {}
        }
        answer
    }

    /// What is wrong with a step of a regrading.
    fn regrade(
        &self,
        before: &[u32; STATE],
        pages: &[u32],
        state: &mut [u32; STATE],
        words: &mut [u32],
        slot: usize,
        answer: Answer,
    ) -> Answer {
        let (key, new) = (before[at(KEY, slot)], before[at(INFORMATION, slot)]);
        match (self, answer) {
            (Bug::RegradeTellsNew, Answer::Regraded(_)) => Answer::Regraded(new),
            (Bug::RegradeWritesNothing, Answer::Regraded(_)) => {
                words.copy_from_slice(pages);
                answer
            }
            (Bug::RegradeReads, Answer::Found(_)) => {
                alone(before, words, Op::Regrade(key, new, First))
            }
            (Bug::RegradeReads, Answer::NotFound) => Answer::NoSuchKey,
            (Bug::RegradeKeepsFather, Answer::Moved) if before[at(DEPTH, slot)] == 1 => {
                state[at(DEPTH, slot)] = 2;
                state[at(PATH + 1, slot)] = state[at(PATH, slot)];
                state[at(PATH, slot)] = before[at(PATH, slot)];
                answer
            }
            (Bug::RegradeTakesOut, Answer::Regraded(_)) => {
                words.copy_from_slice(pages);
                alone(before, words, Op::Delete(key, First));
                alone(before, words, Op::Insert(key, new, First));
                answer
            }
            (Bug::RegradeEnters, Answer::NoSuchKey) => {
                alone(before, words, Op::Insert(key, new, First))
            }
            _ => answer,
        }
    }

    /// A call to which regradings look like another kind: one that reads, or, where two pages are held, one that may hold them.
    fn disguised(
        &self,
        state: &mut [u32; STATE],
        call: impl FnOnce(&mut [u32; STATE]) -> Answer,
    ) -> Answer {
        let (disguise, lock, depths) = match self {
            Bug::RegradeReads => (kind::SEARCH, Lock::Rho, 0..2),
            Bug::RegradeHoldsTwo => (kind::INSERT, Lock::Xi, 2..3),
            _ => return call(state),
        };
        let before = *state;
        let is_meant = |slot: &usize| {
            before[at(KIND, *slot)] == kind::REGRADE && depths.contains(&before[at(DEPTH, *slot)])
        };
        let meant: Vec<usize> = (0..16).filter(is_meant).collect();
        for &slot in &meant {
            state[at(KIND, slot)] = disguise;
            lock_anew(state, slot, lock);
        }
        let answer = call(state);
        if answer.number() <= Answer::Waiting.number() {
            *state = before;
            return answer;
        }
        for slot in meant {
            if state[at(KIND, slot)] == disguise {
                state[at(KIND, slot)] = kind::REGRADE;
                lock_anew(state, slot, Lock::Xi);
                state[at(INFORMATION, slot)] = before[at(INFORMATION, slot)];
            }
        }
        answer
    }

    /// Changes the state before the twin looks at it.
    fn spoil(&self, state: &mut [u32; STATE]) {
        match self {
            Bug::LongOrderCut => state[2] = state[2].min(16),
            Bug::UnknownKindClosed => state[at(KIND, 0)..at(KEY, 0)]
                .iter_mut()
                .filter(|its| **its > kind::LAST)
                .for_each(|its| *its = kind::CLOSED),
            _ => {}
        }
    }
}

/// Whether a slot's operation goes the second way.
fn is_second(state: &[u32; STATE], slot: usize) -> bool {
    (kind::INSERT_SECOND..=kind::REGRADE_SECOND).contains(&state[at(KIND, slot)])
}

/// Puts what a slot holds on its path, and its want, under a kind of lock.
fn lock_anew(state: &mut [u32; STATE], slot: usize, lock: Lock) {
    state[at(LOCK, slot)] = lock.number();
    for row in 0..state[at(DEPTH, slot)].min(10) as usize {
        let (page, _) = held_in(state[at(PATH + row, slot)]);
        state[at(PATH + row, slot)] = held_word(page, lock);
    }
}

/// Whether a slot of a sound state wants its page with ρ, plain or updater's.
fn reads(state: &[u32; STATE], slot: usize) -> bool {
    let lock = Lock::of(state[at(LOCK, slot)]);
    matches!(lock, Lock::Rho | Lock::UpdaterRho)
}

/// The slots of a sound state that have wanted a slot's page for longer.
fn older(state: &[u32; STATE], slot: usize) -> impl Iterator<Item = usize> + '_ {
    let order = state[3..19].iter().map(|&other| other as usize);
    order
        .take_while(move |&other| other != slot)
        .filter(move |&other| state[at(WANT, other)] == state[at(WANT, slot)])
}

/// The step of a slot that no want is older than.
fn unbarred(state: &mut [u32; STATE], words: &mut [u32], slot: usize) -> Answer {
    let before = *state;
    let place = (3..19).find(|&place| state[place] == slot as u32);
    state[3..=place.unwrap_or(3)].rotate_right(1);
    let answer = step_lent(state, words, slot);
    if answer == Answer::Waiting {
        *state = before;
    }
    answer
}

/// Begins an operation on any key: a spoiled state may have one that no begin lets in.
fn begin_any(state: &mut [u32; STATE], slot: usize, op: Op) -> Answer {
    let (kind, key, information) = op.numbers();
    let named = Op::of(kind, key.max(1), information).expect("the same kind");
    let answer = begin_lent(state, slot, named);
    if answer == Answer::Begun {
        state[at(KEY, slot)] = key;
    }
    answer
}

/// An operation from its beginning to its end, with no other slot open.
fn alone(state: &[u32; STATE], words: &mut [u32], op: Op) -> Answer {
    let mut idle = words_of(&State::empty(state[0], state[1]));
    begin_any(&mut idle, 0, op);
    loop {
        let answer = step_lent(&mut idle, words, 0);
        if answer != Answer::Moved {
            return answer;
        }
    }
}

/// Where the pool has the level of a page.
fn page_start(state: &[u32; STATE], page: u32) -> usize {
    page as usize * page_words(state[0])
}

/// Where the pool has the level of a slot's lowest path page.
fn leaf_word(state: &[u32; STATE], slot: usize) -> usize {
    let lowest = state[at(PATH + state[at(DEPTH, slot)] as usize - 1, slot)];
    page_start(state, held_in(lowest).0)
}

/// Whether a slot that holds something is at its leaf, and so on its second way.
fn is_crossing(state: &[u32; STATE], words: &[u32], slot: usize) -> bool {
    state[at(DEPTH, slot)] > 0 && words[leaf_word(state, slot)] == 1
}

/// Some scenes, the same for every bug, short ones first: where a bug is found late in a long one, its smallest case takes seconds.
fn scenes() -> Vec<Scene> {
    let mut scenes: Vec<Scene> = (0..28 * 20)
        .map(|seed: u64| {
            let kind = KINDS[(seed % KINDS.len() as u64) as usize];
            draw_scene(kind, &mut Random(seed))
        })
        .collect();
    scenes.sort_by_key(|scene| scene.lines.len());
    scenes
}

/// A bug is found in some of the scenes, and told.
fn is_found(bug: impl Calls + Copy + Debug, scenes: &[Scene]) {
    let program = || bug;
    let found = scenes
        .chunks(28)
        .find_map(|batch| compare(&program, batch).map(|at| &batch[at]));
    let scene = found.unwrap_or_else(|| panic!("{bug:?} is not found"));
    let text = smallest(&program, &scene.lines);
    assert!(text.contains("by the twin"), "{bug:?}: {text}");
}

/// A case of the documents is answered otherwise.
fn is_refuted<C: Calls + Copy + Debug>(bug: C) {
    let refuted = cases().iter().any(|case| case.refuted(&|| bug).is_some());
    assert!(refuted, "{bug:?}");
}

#[test]
fn each_bug_is_found() {
    let scenes = scenes();
    for bug in BUGS.into_iter().chain(request_bugs()) {
        is_found(bug, &scenes);
    }
    for bug in SECOND_BUGS.into_iter().chain(SECOND_STATE_BUGS) {
        is_found(bug, &scenes);
    }
    for bug in KIND_BUGS.into_iter().chain(KIND_STATE_BUGS) {
        is_found(bug, &scenes);
    }
    for bug in THIRD_BUGS.into_iter().chain(THIRD_STATE_BUGS) {
        is_found(bug, &scenes);
    }
    for bug in OPEN_BUGS {
        is_found(bug, &scenes);
    }
    for bug in BLANK_BUGS.into_iter().chain(BLANK_STATE_BUGS) {
        is_found(bug, &scenes);
    }
}

/// The check that the bugs of opening are put into is right without them.
#[test]
fn the_check_without_a_bug_is_the_twins() {
    let program = || NoBug;
    assert_eq!(compare(&program, &scenes()), None);
}

#[test]
fn a_small_case_is_told() {
    let scenes = scenes();
    let program = || Bug::WantsCounted;
    let at = compare(&program, &scenes).expect("it is found");
    let text = smallest(&program, &scenes[at].lines);
    // a state, the call, and where the two differ
    assert!(text.lines().count() < 12, "{text}");
}

#[test]
fn the_twin_itself_is_found_right() {
    let program = || Twin;
    assert_eq!(compare(&program, &scenes()[..56]), None);
    for case in cases() {
        assert_eq!(case.refuted(&program), None);
    }
}

#[test]
fn a_case_of_the_documents_finds_each_shortcut() {
    let shortcuts = [
        Bug::FatherGivenUp,
        Bug::EqualKeyLeft,
        Bug::DeletionTestsFull,
        Bug::FreedNotZeroed,
        Bug::LastPageKept,
    ];
    shortcuts
        .into_iter()
        .chain(request_bugs())
        .for_each(is_refuted::<Bug>);
    SECOND_BUGS.into_iter().for_each(is_refuted::<SecondBug>);
    KIND_BUGS.into_iter().for_each(is_refuted::<KindBug>);
    THIRD_BUGS.into_iter().for_each(is_refuted::<ThirdBug>);
    OPEN_BUGS.into_iter().for_each(is_refuted::<OpenBug>);
    BLANK_BUGS.into_iter().for_each(is_refuted::<BlankBug>);
}
