//! Bugs of updates by the third way, and of their conversions.

use drive_twin::Calls;
use twin::row::{BESIDE, DEPTH, KIND, LOCK, PATH, SIBLINGS, WANT};
use twin::{
    at, begin_lent, held_in, held_word, kind, report_lent, state_of, step_lent, Answer, Lock, Op,
    State, SLOTS, STATE,
};

use crate::like_readers::{close, step_alone};

/// A call that something is wrong with.
#[derive(Clone, Copy, Debug)]
pub enum ThirdBug {
    /// Pages are converted from the leaf up.
    LeafFirst,
    /// On each level the sibling is converted before the path page.
    SiblingFirst,
    /// Room is counted when the change is known, before any conversion.
    RoomCountedFirst,
    /// The change is made with the last page still held with α.
    LastNotConverted,
    /// The whole change is made without a conversion.
    NothingConverted,
    /// A ρ is let in while a conversion waits.
    ReaderLetIn,
    /// A conversion waits behind an older want.
    WaitsForOlder,
    /// A conversion does not wait for who reads the page.
    ReaderOverlooked,
    /// Pages are wanted with ξ on the way down.
    XiDown,
    /// A conversion keeps its place in the order.
    KeepsPlace,
    /// Whose turn it is is not looked at.
    TurnNotLookedAt,
    /// A held page is wanted from ξ too.
    FromXi,
    /// ξ is wanted for a page that is not held.
    XiWantedAnew,
    /// α goes with α.
    AlphaWithAlpha,
}

/// Those that a run can show.
pub const THIRD_BUGS: [ThirdBug; 9] = [
    ThirdBug::LeafFirst,
    ThirdBug::SiblingFirst,
    ThirdBug::RoomCountedFirst,
    ThirdBug::LastNotConverted,
    ThirdBug::NothingConverted,
    ThirdBug::ReaderLetIn,
    ThirdBug::WaitsForOlder,
    ThirdBug::ReaderOverlooked,
    ThirdBug::XiDown,
];

/// Those that only the words of the state can show.
pub const THIRD_STATE_BUGS: [ThirdBug; 5] = [
    ThirdBug::KeepsPlace,
    ThirdBug::TurnNotLookedAt,
    ThirdBug::FromXi,
    ThirdBug::XiWantedAnew,
    ThirdBug::AlphaWithAlpha,
];

impl Calls for ThirdBug {
    fn begin(&self, state: &mut [u32; STATE], slot: usize, op: Op) -> Answer {
        let answer = self.shown(state, |state| begin_lent(state, slot, op));
        if answer == Answer::Begun {
            self.leave(state, slot);
        }
        answer
    }

    fn step(&self, state: &mut [u32; STATE], words: &mut [u32], slot: usize) -> Answer {
        let (before, pages) = (*state, words.to_vec());
        let answer = self.shown(state, |state| step_lent(state, words, slot));
        if slot >= SLOTS {
            return answer;
        }
        let answer = self.granted(&before, &pages, state, words, slot, answer);
        self.leave(state, slot);
        answer
    }

    fn report(&self, state: &[u32; STATE], page: u32) -> Answer {
        self.shown(&mut state.clone(), |state| report_lent(state, page))
    }
}

impl ThirdBug {
    /// What is wrong with a step.
    fn granted(
        &self,
        before: &[u32; STATE],
        pages: &[u32],
        state: &mut [u32; STATE],
        words: &mut [u32],
        slot: usize,
        answer: Answer,
    ) -> Answer {
        let (was, is) = (converts(before, slot), converts(state, slot));
        match self {
            ThirdBug::LeafFirst | ThirdBug::SiblingFirst => {
                self.in_own_order(before, state, words, slot, answer)
            }
            ThirdBug::TurnNotLookedAt if was && answer == Answer::Damaged => {
                in_turn(state, slot, Order::Right);
                or_before(before, state, words, slot)
            }
            ThirdBug::RoomCountedFirst if is && !was && has_no_room(state, words, slot) => {
                close(state, slot);
                Answer::NoRoom
            }
            ThirdBug::LastNotConverted if is && alphas(state, slot) == 1 => {
                step_alone(state, words, slot)
            }
            ThirdBug::NothingConverted if is && !was => to_the_end(state, words, slot),
            ThirdBug::ReaderLetIn if answer == Answer::Waiting && waits_for_none(before, slot) => {
                or_before(before, state, words, slot)
            }
            ThirdBug::ReaderOverlooked if was && answer == Answer::Waiting => {
                or_before(before, state, words, slot)
            }
            ThirdBug::WaitsForOlder if was && answer.number() > 32 && has_older(before, slot) => {
                *state = *before;
                words.copy_from_slice(pages);
                Answer::Waiting
            }
            ThirdBug::KeepsPlace if is && answer == Answer::Moved => {
                state[3..19].copy_from_slice(&before[3..19]);
                answer
            }
            _ => answer,
        }
    }

    /// A step of a slot that has its pages in this bug's order is not damaged; what a step leaves is in that order too.
    fn in_own_order(
        &self,
        before: &[u32; STATE],
        state: &mut [u32; STATE],
        words: &mut [u32],
        slot: usize,
        answer: Answer,
    ) -> Answer {
        let mut own = *before;
        in_turn(&mut own, slot, self.order());
        let is_own = converts(before, slot) && own == *before;
        let answer = if is_own && answer == Answer::Damaged {
            in_turn(state, slot, Order::Right);
            or_before(before, state, words, slot)
        } else {
            answer
        };
        if answer == Answer::Moved && converts(state, slot) {
            in_turn(state, slot, self.order());
        }
        answer
    }

    /// The order in which this bug converts.
    fn order(&self) -> Order {
        match self {
            ThirdBug::LeafFirst => Order::LeafFirst,
            ThirdBug::SiblingFirst => Order::SiblingFirst,
            _ => Order::Right,
        }
    }

    /// A call that is shown another state; what it does not write stays as it was.
    fn shown(
        &self,
        state: &mut [u32; STATE],
        call: impl FnOnce(&mut [u32; STATE]) -> Answer,
    ) -> Answer {
        let before = *state;
        (0..SLOTS).for_each(|slot| self.show(state, slot));
        let shown = *state;
        let answer = call(state);
        for at in 0..STATE {
            if state[at] == shown[at] {
                state[at] = before[at];
            }
        }
        answer
    }

    /// What a call is shown of a slot.
    fn show(&self, state: &mut [u32; STATE], slot: usize) {
        if !is_third(state, slot) {
            return;
        }
        let (want, lock) = (state[at(WANT, slot)], state[at(LOCK, slot)]);
        let wanted = order(state, slot, Order::Right)
            .into_iter()
            .find(|&cell| held_in(state[cell]).0 == want);
        match (self, wanted) {
            (ThirdBug::FromXi, Some(cell)) if lock == Lock::Xi.number() => {
                let (page, held) = held_in(state[cell]);
                if held == Lock::Xi {
                    state[cell] = held_word(page, Lock::Alpha);
                }
            }
            (ThirdBug::XiWantedAnew | ThirdBug::XiDown, None) if lock == Lock::Xi.number() => {
                state[at(LOCK, slot)] = Lock::Alpha.number();
            }
            (ThirdBug::AlphaWithAlpha, _) => give_way(state, slot),
            _ => {}
        }
    }

    /// What a call leaves of a slot.
    fn leave(&self, state: &mut [u32; STATE], slot: usize) {
        let is_new = slot < SLOTS && is_third(state, slot) && !converts(state, slot);
        if matches!(self, ThirdBug::XiDown) && is_new {
            state[at(LOCK, slot)] = Lock::Xi.number();
        }
    }
}

/// An order in which pages are converted.
#[derive(Clone, Copy)]
enum Order {
    Right,
    LeafFirst,
    SiblingFirst,
}

/// The cells of the pages that a slot holds, in an order of conversion.
fn order(state: &[u32; STATE], slot: usize, by: Order) -> Vec<usize> {
    let depth = state[at(DEPTH, slot)].min(10) as usize;
    let beside = state[at(BESIDE, slot)].min(10) as usize;
    let mut cells = Vec::new();
    for level in (0..depth).rev() {
        let path = at(PATH + depth - 1 - level, slot);
        let sibling = (level < beside).then_some(at(SIBLINGS + level, slot));
        match by {
            Order::SiblingFirst => cells.extend(sibling.into_iter().chain([path])),
            _ => cells.extend([path].into_iter().chain(sibling)),
        }
    }
    if let Order::LeafFirst = by {
        cells.reverse();
    }
    cells
}

/// As many pages as have ξ have it in this order from the first on, and the next one is wanted.
fn in_turn(state: &mut [u32; STATE], slot: usize, by: Order) {
    let cells = order(state, slot, by);
    let done = cells.len() - alphas(state, slot);
    for (turn, &cell) in cells.iter().enumerate() {
        let lock = if turn < done { Lock::Xi } else { Lock::Alpha };
        state[cell] = held_word(held_in(state[cell]).0, lock);
    }
    if let Some(&cell) = cells.get(done) {
        state[at(WANT, slot)] = held_in(state[cell]).0;
    }
}

/// How many pages a slot holds with another kind than ξ.
fn alphas(state: &[u32; STATE], slot: usize) -> usize {
    let cells = order(state, slot, Order::Right);
    let is_alpha = |cell: &&usize| held_in(state[**cell]).1 != Lock::Xi;
    cells.iter().filter(is_alpha).count()
}

/// Whether a slot's operation goes the third way.
fn is_third(state: &[u32; STATE], slot: usize) -> bool {
    (kind::INSERT_THIRD..=kind::REGRADE_THIRD).contains(&state[at(KIND, slot)])
}

/// Whether a slot goes the third way and wants a page that it holds.
fn converts(state: &[u32; STATE], slot: usize) -> bool {
    let cells = order(state, slot, Order::Right);
    let is_wanted = |&cell: &usize| held_in(state[cell]).0 == state[at(WANT, slot)];
    is_third(state, slot) && cells.iter().any(is_wanted)
}

/// A step as if no other slot were open; what is refused stays as it was.
fn or_before(
    before: &[u32; STATE],
    state: &mut [u32; STATE],
    words: &mut [u32],
    slot: usize,
) -> Answer {
    let answer = step_alone(state, words, slot);
    if answer.number() <= Answer::Waiting.number() {
        *state = *before;
    }
    answer
}

/// All that is left of an operation, as if no other slot were open.
fn to_the_end(state: &mut [u32; STATE], words: &mut [u32], slot: usize) -> Answer {
    loop {
        let answer = step_alone(state, words, slot);
        if answer != Answer::Moved {
            return answer;
        }
    }
}

/// Whether an insertion would find no room if it went on alone.
fn has_no_room(state: &[u32; STATE], words: &[u32], slot: usize) -> bool {
    to_the_end(&mut state.clone(), &mut words.to_vec(), slot) == Answer::NoRoom
}

/// The state that sound words say.
fn told(state: &[u32; STATE]) -> State {
    state_of(state).expect("a sound state")
}

/// Whether a slot that wants with ρ waits for conversions alone: no lock and no older want but theirs is in its way.
fn waits_for_none(state: &[u32; STATE], slot: usize) -> bool {
    let state = told(state);
    let own = &state.slots[slot];
    let age = |slot: usize| state.order().iter().position(|&named| named == slot);
    let bars = |other: usize| {
        let its = &state.slots[other];
        let is_older = its.want == own.want && age(other) < age(slot) && !its.converts();
        its.lock_on(own.want) == Some(Lock::Xi) || (is_older && its.lock == Lock::Xi)
    };
    let is_open = |other: &usize| *other != slot && state.slots[*other].op.is_some();
    own.lock == Lock::Rho && !(0..SLOTS).filter(is_open).any(bars)
}

/// Whether another slot has wanted a slot's page for longer.
fn has_older(state: &[u32; STATE], slot: usize) -> bool {
    let state = told(state);
    let mut older = state.order().iter().take_while(|&&named| named != slot);
    older.any(|&other| state.slots[other].want == state.slots[slot].want)
}

/// A slot that holds one page with α is shown as a search, where another one before it has α there too.
fn give_way(state: &mut [u32; STATE], slot: usize) {
    let held = |other: usize| {
        let cells = order(state, other, Order::Right);
        cells
            .into_iter()
            .map(|cell| held_in(state[cell]))
            .collect::<Vec<_>>()
    };
    let [(page, Lock::Alpha)] = held(slot)[..] else {
        return;
    };
    let has_alpha = |other: usize| held(other).contains(&(page, Lock::Alpha));
    if (0..slot).any(|other| is_third(state, other) && has_alpha(other)) {
        state[at(KIND, slot)] = kind::SEARCH;
        state[at(LOCK, slot)] = Lock::Rho.number();
        state[at(PATH, slot)] = held_word(page, Lock::Rho);
    }
}
