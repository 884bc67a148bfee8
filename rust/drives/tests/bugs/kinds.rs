//! Bugs of the kinds of lock that held pages carry.

use drive_twin::Calls;
use twin::row::{BESIDE, COUNT, DEPTH, KIND, LOCK, PATH, SIBLINGS};
use twin::{at, begin_lent, held_in, report_lent, step_lent, Answer, Lock, Op, HALF, SLOTS, STATE};

use crate::is_second;

/// A call that something is wrong with.
#[derive(Clone, Copy, Debug)]
pub enum KindBug {
    /// A report has the kind of the lowest holder, not the strongest.
    LowestTold,
    /// A report has the weakest kind that is there.
    WeakestTold,
    /// By the second way pages are held with plain ρ, and wanted so above the leaf.
    SecondHoldsRho,
    /// The kind of a held page is not looked at.
    NotLookedAt,
    /// The kind of a page beside the path is not looked at.
    BesideNotLookedAt,
    /// The kind in a cell behind a count is looked at.
    BehindLookedAt,
    /// A number that is no kind stands for the kind of the operation.
    NumberTaken,
    /// A word is a page as a whole: its upper half is no kind.
    WordIsPage,
}

/// Those that a run can show.
pub const KIND_BUGS: [KindBug; 4] = [
    KindBug::LowestTold,
    KindBug::WeakestTold,
    KindBug::SecondHoldsRho,
    KindBug::WordIsPage,
];

/// Those that only a state can show which no run leaves.
pub const KIND_STATE_BUGS: [KindBug; 4] = [
    KindBug::NotLookedAt,
    KindBug::BesideNotLookedAt,
    KindBug::BehindLookedAt,
    KindBug::NumberTaken,
];

impl Calls for KindBug {
    fn begin(&self, state: &mut [u32; STATE], slot: usize, op: Op) -> Answer {
        self.shown(state, |state| begin_lent(state, slot, op))
    }

    fn step(&self, state: &mut [u32; STATE], words: &mut [u32], slot: usize) -> Answer {
        self.shown(state, |state| step_lent(state, words, slot))
    }

    fn report(&self, state: &[u32; STATE], page: u32) -> Answer {
        let answer = self.shown(&mut state.clone(), |state| report_lent(state, page));
        match answer {
            Answer::Reported(kind, holders, lowest) if holders > 0 => {
                Answer::Reported(self.told(state, page, kind, lowest), holders, lowest)
            }
            _ => answer,
        }
    }
}

impl KindBug {
    /// The kind that is told of a page that is held.
    fn told(&self, state: &[u32; STATE], page: u32, kind: u32, lowest: u32) -> u32 {
        let kinds = (0..SLOTS).filter_map(|slot| lock_on(state, slot, page));
        match self {
            KindBug::LowestTold => lock_on(state, lowest as usize, page).unwrap_or(kind),
            KindBug::WeakestTold => kinds.min().unwrap_or(kind),
            KindBug::SecondHoldsRho if kind == Lock::UpdaterRho.number() => Lock::Rho.number(),
            _ => kind,
        }
    }

    /// A call that is shown another state; what it leaves is turned back, and what is refused stays as it was.
    fn shown(
        &self,
        state: &mut [u32; STATE],
        call: impl FnOnce(&mut [u32; STATE]) -> Answer,
    ) -> Answer {
        let before = *state;
        (0..SLOTS).for_each(|slot| self.show(state, slot));
        let shown = *state;
        let answer = call(state);
        if answer.number() <= Answer::Waiting.number() {
            *state = before;
            return answer;
        }
        for slot in 0..SLOTS {
            let cells = (0..COUNT).map(|row| at(row, slot));
            if cells.clone().all(|cell| state[cell] == shown[cell]) {
                cells.for_each(|cell| state[cell] = before[cell]);
            } else {
                self.leave(state, slot);
            }
        }
        answer
    }

    /// What a call is shown of a slot.
    fn show(&self, state: &mut [u32; STATE], slot: usize) {
        let Some(op) = Op::of(state[at(KIND, slot)], 0, 0) else {
            return;
        };
        let (own, held) = (op.holds().number(), held_cells(state, slot));
        match self {
            KindBug::SecondHoldsRho if is_second(state, slot) => exchange_rhos(state, slot),
            KindBug::NotLookedAt => put(state, held, |_| own),
            KindBug::BesideNotLookedAt => {
                put(state, held.filter(|&cell| cell >= at(SIBLINGS, 0)), |_| own);
            }
            KindBug::NumberTaken => {
                let is_kind = |number: u32| number <= Lock::Alpha.number();
                let taken = |number| if is_kind(number) { number } else { own };
                put(state, held, taken);
            }
            KindBug::BehindLookedAt if has_kind_behind(state, slot) => state[0] = 0,
            KindBug::WordIsPage => held.for_each(|cell| {
                let page = state[cell];
                state[cell] = if page < HALF {
                    page + HALF * own
                } else {
                    u32::MAX
                };
            }),
            _ => {}
        }
    }

    /// What a call leaves of the slot that it wrote.
    fn leave(&self, state: &mut [u32; STATE], slot: usize) {
        match self {
            KindBug::SecondHoldsRho if is_second(state, slot) => exchange_rhos(state, slot),
            KindBug::WordIsPage => put(state, held_cells(state, slot), |_| 0),
            _ => {}
        }
    }
}

/// The cells of the pages that a slot holds.
fn held_cells(state: &[u32; STATE], slot: usize) -> impl Iterator<Item = usize> {
    let rows = |first: usize, count: u32| first..first + count.min(10) as usize;
    let path = rows(PATH, state[at(DEPTH, slot)]);
    let beside = rows(SIBLINGS, state[at(BESIDE, slot)]);
    path.chain(beside).map(move |row| at(row, slot))
}

/// Whether a cell behind one of a slot's counts has something in its upper half.
fn has_kind_behind(state: &[u32; STATE], slot: usize) -> bool {
    let held: Vec<usize> = held_cells(state, slot).collect();
    let mut cells = (PATH..COUNT).map(|row| at(row, slot));
    cells.any(|cell| !held.contains(&cell) && state[cell] >= HALF)
}

/// Gives held pages another number for their kind.
fn put(state: &mut [u32; STATE], cells: impl Iterator<Item = usize>, number: impl Fn(u32) -> u32) {
    for cell in cells {
        state[cell] = state[cell] % HALF + HALF * number(state[cell] / HALF);
    }
}

/// Exchanges ρ and updater's ρ, of what a slot holds and of its want.
fn exchange_rhos(state: &mut [u32; STATE], slot: usize) {
    let (plain, updaters) = (Lock::Rho.number(), Lock::UpdaterRho.number());
    let exchanged = |number: u32| match number {
        _ if number == plain => updaters,
        _ if number == updaters => plain,
        _ => number,
    };
    put(state, held_cells(state, slot), exchanged);
    state[at(LOCK, slot)] = exchanged(state[at(LOCK, slot)]);
}

/// The number of the kind under which a slot holds a page, if it does.
fn lock_on(state: &[u32; STATE], slot: usize, page: u32) -> Option<u32> {
    let mut held = held_cells(state, slot).map(|cell| held_in(state[cell]));
    let (_, lock) = held.find(|(own, _)| *own == page)?;
    Some(lock.number())
}
