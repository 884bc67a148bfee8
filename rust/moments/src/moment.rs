//! A moment of the twin: state and words, and the calls made on it.

use draw::Random;
use twin::{
    begin, must_wait, page_words, report, step, Answer, Lock, Op, Slot, State, Way, PATH, SIBLINGS,
};

/// One call of a run.
#[derive(Clone, Copy, Debug)]
pub enum Call {
    Begin(usize, Op),
    Step(usize),
    Report(u32),
}

/// What a call is given beside its own arguments.
#[derive(Clone)]
pub struct Moment {
    pub state: State,
    pub words: Vec<u32>,
}

impl Moment {
    /// Makes one call.
    pub fn call(&mut self, call: Call) -> Answer {
        let (answer, next) = match call {
            Call::Begin(slot, op) => begin(&self.state, slot, op),
            Call::Step(slot) => step(&self.state, &mut self.words, slot),
            Call::Report(page) => (report(&self.state, page), self.state),
        };
        self.state = next;
        answer
    }

    /// The keys that each leaf holds.
    fn leaves(&self) -> impl Iterator<Item = Vec<u32>> + '_ {
        let size = page_words(self.state.k);
        let leaves = self.words.chunks(size).filter(|part| part[0] == 1);
        leaves.map(|part| {
            let keys = part[2..].iter().step_by(2);
            keys.take(part[1] as usize).copied().collect()
        })
    }

    /// The keys that the leaves hold.
    pub fn keys(&self) -> Vec<u32> {
        self.leaves().flatten().collect()
    }

    /// The last key of each leaf.
    pub fn ends(&self) -> Vec<u32> {
        let last = |keys: Vec<u32>| keys.last().copied();
        self.leaves().filter_map(last).collect()
    }

    /// The open slots that need not wait.
    pub fn ready(&self) -> Vec<usize> {
        self.open()
            .into_iter()
            .filter(|&slot| !must_wait(&self.state, slot))
            .collect()
    }

    /// The pages that the open slots of a sound state hold, as often as they are held.
    pub fn held(&self) -> impl Iterator<Item = u32> + '_ {
        let slots = self.state.slots.iter().filter(|slot| slot.op.is_some());
        slots.flat_map(Slot::held)
    }

    /// The slots that are open.
    pub fn open(&self) -> Vec<usize> {
        (0..16)
            .filter(|&slot| self.state.slots[slot].op.is_some())
            .collect()
    }
}

/// Puts another operation into a slot; it holds and wants with the lock that it begins with.
pub(crate) fn ask(slot: &mut Slot, op: Op) {
    slot.op = Some(op);
    *slot = slot.holding(op.holds()).wanting(op.holds());
}

/// The same operation by another way; it holds with the lock that it begins with then, and its want stays.
pub(crate) fn turn(slot: &mut Slot, way: Way) {
    if let Some(op) = slot.op.map(|op| op.by(way)) {
        slot.op = Some(op);
        *slot = slot.holding(op.holds());
    }
}

/// A kind of lock, or none.
pub(crate) fn any_lock(random: &mut Random) -> Lock {
    random.one(&[
        Lock::None,
        Lock::Rho,
        Lock::Xi,
        Lock::UpdaterRho,
        Lock::Alpha,
    ])
}

/// Gives one page that a slot holds another kind of lock.
pub(crate) fn spoil_lock(random: &mut Random, slot: &mut Slot) {
    let (depth, beside) = (slot.depth.min(PATH), slot.beside.min(SIBLINGS));
    let cells = slot.path_locks[..depth].iter_mut();
    let mut cells: Vec<&mut Lock> = cells.chain(&mut slot.sibling_locks[..beside]).collect();
    if !cells.is_empty() {
        let at = random.below(cells.len() as u64) as usize;
        *cells[at] = any_lock(random);
    }
}
