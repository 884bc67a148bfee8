//! What the tests share: a run that is judged after every call, and the
//! demands as checks on it.

#![allow(dead_code)]

pub mod pools;
mod ways;

use std::collections::BTreeMap;

use twin::Way::{self, First, Second, Third};
use twin::{
    begin, free_pages, make, must_wait, open, page_words, read_page, report, step, Answer, Lock,
    Op, State,
};

/// The way of an open slot that updates.
fn way(state: &State, slot: usize) -> Option<Way> {
    match state.slots[slot].op? {
        Op::Search(_) | Op::Next(_) => None,
        Op::Insert(_, _, way) | Op::Delete(_, way) | Op::Regrade(_, _, way) => Some(way),
    }
}

/// Whether two locks on a page clash: two ρ of either kind go together, and α with plain ρ.
fn clash(one: Lock, other: Lock) -> bool {
    let both = |is_so: fn(&Lock) -> bool| is_so(&one) && is_so(&other);
    let are_rho = both(|lock| matches!(lock, Lock::Rho | Lock::UpdaterRho));
    let with_alpha = [(Lock::Rho, Lock::Alpha), (Lock::Alpha, Lock::Rho)];
    !are_rho && !with_alpha.contains(&(one, other))
}

/// Whether an operation names lot number 0; a `Next` may, which names none.
fn is_blank_tag(op: Op) -> bool {
    match op {
        Op::Next(_) => false,
        Op::Search(key) | Op::Insert(key, ..) | Op::Delete(key, _) | Op::Regrade(key, ..) => {
            key == 0
        }
    }
}

/// A run from a fresh pool or from one that is opened, with the sorted list beside it.
pub struct Run {
    pub k: u32,
    pub n: u32,
    pub words: Vec<u32>,
    pub state: State,
    pub list: BTreeMap<u32, u32>,
    pub grants: [u32; 16],
    pub height: [u32; 16],
    pub tally: BTreeMap<&'static str, u64>,
    pub tallest: u32,
    /// How often a step left a `Next` with so many pages beside its path.
    pub beside: [u64; 10],
    /// How often an update of the second way began again, and how often one ended without that.
    pub again: u64,
    pub at_once: u64,
    /// How many steps wanted an upper page where nobody updated by the first way.
    pub unbarred: u64,
    /// How many steps left a page that one slot reads and another one holds with updater's ρ.
    pub mixed: u64,
    /// How many conversions were granted.
    pub converted: u64,
    /// How many readers were granted a page on which another slot has α.
    pub stayed: u64,
    /// How often a want waited for a conversion alone, and how often a conversion waited.
    pub behind: u64,
    pub held_up: u64,
}

impl Run {
    /// Starts with a pool made over rubbish.
    pub fn new(k: u32, n: u32) -> Run {
        let mut words = vec![77; n as usize * page_words(k)];
        let (answer, state) = make(k, n, &mut words);
        assert_eq!(answer, Answer::Made);
        let (list, tally) = (BTreeMap::new(), BTreeMap::new());
        Run {
            k,
            n,
            words,
            state,
            list,
            grants: [0; 16],
            height: [0; 16],
            tally,
            tallest: 1,
            beside: [0; 10],
            again: 0,
            at_once: 0,
            unbarred: 0,
            mixed: 0,
            converted: 0,
            stayed: 0,
            behind: 0,
            held_up: 0,
        }
    }

    /// Opens the words as they are, which ends the run and starts another: every slot is closed, and the sorted list begins with the
    /// entries that are there.
    pub fn reopen(&mut self) {
        let (answer, state) = open(self.k, self.n, &self.words);
        assert_eq!(answer, Answer::Opened);
        assert_eq!(state, State::empty(self.k, self.n));
        self.state = state;
        self.check();
    }

    /// Begins, and looks only at the slot begun.
    pub fn begin(&mut self, slot: usize, op: Op) -> Answer {
        let was_open = slot < 16 && self.state.slots[slot].op.is_some();
        let (answer, next) = begin(&self.state, slot, op);
        let expected = match slot {
            16.. => Answer::BadSlot,
            _ if was_open => Answer::SlotBusy,
            _ if is_blank_tag(op) => Answer::BadKey,
            _ => Answer::Begun,
        };
        assert_eq!(answer, expected);
        *self.tally.entry(answer.name()).or_default() += 1;
        if answer == Answer::Begun {
            self.grants[slot] = 0;
        } else {
            assert_eq!(next, self.state);
        }
        self.state = next;
        answer
    }

    /// Steps, and judges the answer by the sorted list.
    pub fn step(&mut self, slot: usize) -> Answer {
        let op = self.state.slots[slot].op;
        let waits = op.is_some() && self.is_in_the_way(slot);
        let is_unbarred = op.is_some() && self.is_unbarred(slot);
        let (before, given) = (self.words.clone(), self.state);
        let (answer, next) = step(&self.state, &mut self.words, slot);
        *self.tally.entry(answer.name()).or_default() += 1;
        let Some(op) = op else {
            assert_eq!(answer, Answer::SlotIdle);
            return answer;
        };
        assert_eq!(answer == Answer::Waiting, waits);
        assert!(!(waits && is_unbarred));
        self.unbarred += u64::from(is_unbarred);
        self.count_third(slot, waits);
        if waits {
            assert_eq!((&self.words, next), (&before, given));
            return answer;
        }
        if !self.judge_second(slot, op, answer, &next, &before) {
            self.judge(slot, op, answer, &before);
        }
        self.state = next;
        self.tallest = self.tallest.max(self.words[0]);
        self.mixed += u64::from(self.is_mixed(slot));
        self.check_slot(slot);
        if let (Op::Next(_), Answer::Moved) = (op, answer) {
            self.beside[self.state.slots[slot].beside] += 1;
        }
        answer
    }

    /// Whether another slot is in a slot's way, as demand 2 has it: it holds the wanted page with a lock that clashes, or has wanted it
    /// for longer with one that does, or wants it converted. A conversion has only those in its way who hold the page.
    fn is_in_the_way(&self, slot: usize) -> bool {
        let own = &self.state.slots[slot];
        let bars = |other| self.holds_against(other, slot) || self.comes_before(other, slot);
        let stays = |other| self.holds_against(other, slot);
        let mut others = self.others(slot);
        if own.holds(own.want) {
            others.any(stays)
        } else {
            others.any(bars)
        }
    }

    /// The other open slots.
    fn others(&self, slot: usize) -> impl Iterator<Item = usize> + '_ {
        (0..16).filter(move |&other| other != slot && self.state.slots[other].op.is_some())
    }

    /// Whether another slot holds the page that a slot wants with a lock that clashes.
    fn holds_against(&self, other: usize, slot: usize) -> bool {
        let own = &self.state.slots[slot];
        let its = self.state.slots[other].lock_on(own.want);
        its.is_some_and(|lock| clash(lock, own.lock))
    }

    /// Whether another slot's want of the same page comes before: it is older and clashes, or is a conversion.
    fn comes_before(&self, other: usize, slot: usize) -> bool {
        let waits_since = |slot| self.state.order().iter().position(|&own| own == slot);
        let (own, its) = (&self.state.slots[slot], &self.state.slots[other]);
        let is_older = waits_since(other) < waits_since(slot);
        its.want == own.want && (its.holds(its.want) || (is_older && clash(its.lock, own.lock)))
    }

    /// Whether nobody can be in a slot's way: it wants an upper page, and every open one reads or goes the second way and has not begun
    /// again; or it reads, and nobody holds a page with ξ or wants one so.
    fn is_unbarred(&self, slot: usize) -> bool {
        let is_light = |slot| matches!(way(&self.state, slot), None | Some(Second));
        let has_xi = |slot: usize| {
            let its = &self.state.slots[slot];
            its.lock == Lock::Xi || its.held_with().any(|(_, lock)| lock == Lock::Xi)
        };
        let is_upper = self.page(self.state.slots[slot].want).level > 1;
        (is_upper && (0..16).all(is_light))
            || (way(&self.state, slot).is_none() && !(0..16).any(has_xi))
    }

    /// Counts what the third way is there for.
    fn count_third(&mut self, slot: usize, waits: bool) {
        let own = &self.state.slots[slot];
        let is_conversion = own.holds(own.want);
        let has_alpha =
            |other: usize| self.state.slots[other].lock_on(own.want) == Some(Lock::Alpha);
        let stays = way(&self.state, slot).is_none() && self.others(slot).any(has_alpha);
        let is_held = self
            .others(slot)
            .any(|other| self.holds_against(other, slot));
        self.converted += u64::from(is_conversion && !waits);
        self.held_up += u64::from(is_conversion && waits);
        self.stayed += u64::from(stays && !waits);
        self.behind += u64::from(stays && waits && !is_held);
    }

    /// A granted step of the second way; whether it begins again. It does at page 0, if that is a leaf, and at a leaf beyond which the
    /// change would reach.
    fn judge_second(
        &mut self,
        slot: usize,
        op: Op,
        answer: Answer,
        next: &State,
        before: &[u32],
    ) -> bool {
        if way(&self.state, slot) != Some(Second) {
            return false;
        }
        let (size, want) = (page_words(self.k), self.state.slots[slot].want);
        let page = &before[want as usize * size..][..size];
        let is_there = self.list.contains_key(&op.key());
        let reaches_beyond = match op {
            Op::Insert(..) => !is_there && page[1] == 2 * self.k,
            Op::Delete(..) => is_there && page[1] == self.k,
            _ => false,
        };
        if page[0] > 1 || (want > 0 && !reaches_beyond) {
            self.at_once += u64::from(page[0] == 1);
            return false;
        }
        self.judge_again(slot, answer, next, before);
        true
    }

    /// "Beginning again is answered Moved, and the want of page 0 goes to the end of the order."
    fn judge_again(&mut self, slot: usize, answer: Answer, next: &State, before: &[u32]) {
        assert_eq!(answer, Answer::Moved);
        assert_eq!(self.words, before);
        let height = if self.grants[slot] == 0 {
            before[0]
        } else {
            self.height[slot]
        };
        assert_eq!(self.grants[slot] + 1, height);
        let its = &next.slots[slot];
        assert_eq!((its.want, its.held()), (0, vec![]));
        assert_eq!(way(next, slot), Some(First));
        assert_eq!(next.order().last(), Some(&slot));
        self.grants[slot] = 0;
        self.again += 1;
    }

    /// A granted step: only a change writes, the sorted list agrees, and the grants are counted.
    fn judge(&mut self, slot: usize, op: Op, answer: Answer, before: &[u32]) {
        if self.state.slots[slot].want == 0 {
            self.height[slot] = before[0];
        }
        self.grants[slot] += 1;
        if answer == Answer::Moved {
            assert_eq!(self.words, before);
            return;
        }
        self.judge_grants(slot, op, answer);
        if answer == Answer::NoRoom {
            let Op::Insert(key, ..) = op else {
                panic!("no room for {op:?}")
            };
            assert!(!self.list.contains_key(&key));
            assert_eq!(self.words, before);
            assert!(self.needs(key) > self.free());
            return;
        }
        if let (Op::Insert(key, ..), Answer::Inserted) = (op, answer) {
            let given = std::mem::replace(&mut self.words, before.to_vec());
            assert!(self.needs(key) <= self.free());
            self.words = given;
        }
        assert_eq!(answer, list_answer(&mut self.list, op));
        match answer {
            Answer::Inserted | Answer::Deleted(_) => {}
            Answer::Regraded(old) => self.judge_regraded(op, old, before),
            _ => assert_eq!(self.words, before),
        }
    }

    /// A regrading changed one word at most: the information behind its key, in a leaf.
    fn judge_regraded(&self, op: Op, old: u32, before: &[u32]) {
        let Op::Regrade(key, information, _) = op else {
            panic!("{op:?} is regraded")
        };
        let mut changed = (0..before.len()).filter(|&at| self.words[at] != before[at]);
        if let Some(at) = changed.next() {
            let start = at / page_words(self.k) * page_words(self.k);
            assert_eq!((before[start], before[at - 1]), (1, key));
            assert_eq!((before[at], self.words[at]), (old, information));
        }
        assert_eq!(changed.next(), None);
    }

    /// Search, insertion and regrading take h grants, a deletion h to 2h-1, or h by the second way, a `Next` just those of its ways. By
    /// the second way those before beginning again are counted apart, and are h too.
    fn judge_grants(&self, slot: usize, op: Op, answer: Answer) {
        let (taken, height) = (self.grants[slot], self.height[slot]);
        match op {
            Op::Delete(_, First) if answer != Answer::NoSuchKey => {
                assert!((height..=2 * height - 1).contains(&taken));
            }
            Op::Next(_) if answer != Answer::None => assert_eq!(taken, self.next_grants(slot)),
            _ if way(&self.state, slot) == Some(Third) => {
                assert_eq!(taken, height + self.third_grants(slot, answer));
            }
            _ => assert_eq!(taken, height),
        }
    }

    /// How many grants the third way takes beyond one a level: none where the leaf gives the answer, otherwise one for each sibling and
    /// one more for each page held.
    fn third_grants(&self, slot: usize, answer: Answer) -> u32 {
        let its = &self.state.slots[slot];
        match answer {
            Answer::AlreadyThere(_) | Answer::NoSuchKey => 0,
            _ => (its.depth + 2 * its.beside) as u32,
        }
    }

    /// How many pages are free.
    pub fn free(&self) -> u32 {
        free_pages(&self.words, self.k, self.n).len() as u32
    }

    /// How many pages a new key needs in the tree: the pages that split, and one for page 0.
    fn needs(&self, key: u32) -> u32 {
        let mut full = 0;
        let mut number = 0;
        loop {
            let page = read_page(&self.words, self.k, self.n, number).expect("a tree page");
            let is_full = page.count() as u32 == 2 * self.k;
            full = if is_full {
                full + 1 + u32::from(number == 0)
            } else {
                0
            };
            if page.is_leaf() {
                return if is_full { full } else { 0 };
            }
            number = page.route(key);
        }
    }

    /// All the demands on a moment of the run.
    pub fn check(&self) {
        self.check_tree();
        self.check_locks();
        (0..16).for_each(|slot| self.check_slot(slot));
        let is_closed = self.state.slots.iter().all(|slot| slot.op.is_none());
        assert!(is_closed || !self.ready().is_empty());
    }

    /// The open slots that need not wait.
    pub fn ready(&self) -> Vec<usize> {
        let is_ready =
            |slot: &usize| self.state.slots[*slot].op.is_some() && !must_wait(&self.state, *slot);
        (0..16).filter(is_ready).collect()
    }

    /// The pages form the tree, it holds the list's entries, of which none is lot number 0, every other page is all zeros.
    fn check_tree(&self) {
        let mut seen = vec![false; self.n as usize];
        let mut entries = Vec::new();
        self.walk(0, self.words[0], 0, u64::MAX, &mut seen, &mut entries);
        assert_eq!(
            entries,
            self.list
                .iter()
                .map(|(&key, &with)| (key, with))
                .collect::<Vec<_>>()
        );
        assert!(!self.list.contains_key(&0));
        for (part, seen) in self.words.chunks(page_words(self.k)).zip(seen) {
            assert!(seen || part.iter().all(|&word| word == 0));
        }
        // so that it could be opened
        assert_eq!(open(self.k, self.n, &self.words).0, Answer::Opened);
    }

    /// One page of the tree: its keys lie from `least` to below `limit`.
    fn walk(
        &self,
        number: u32,
        level: u32,
        least: u64,
        limit: u64,
        seen: &mut [bool],
        entries: &mut Vec<(u32, u32)>,
    ) {
        assert!(!std::mem::replace(&mut seen[number as usize], true));
        let page = read_page(&self.words, self.k, self.n, number).expect("sound by itself");
        assert_eq!(page.level, level);
        assert!(page
            .keys
            .iter()
            .all(|&key| (least..limit).contains(&u64::from(key))));
        if page.is_leaf() {
            entries.extend(page.keys.iter().copied().zip(page.with));
            return;
        }
        for (i, &child) in page.with.iter().enumerate() {
            let least = if i == 0 {
                least
            } else {
                u64::from(page.keys[i - 1])
            };
            let limit = page.keys.get(i).map_or(limit, |&key| u64::from(key));
            self.walk(child, level - 1, least, limit, seen, entries);
        }
    }

    /// No two locks clash, and the report agrees with the held pages.
    fn check_locks(&self) {
        let mut holders: BTreeMap<u32, Vec<(usize, Lock)>> = BTreeMap::new();
        for (number, slot) in self.state.slots.iter().enumerate() {
            for (page, lock) in slot.held_with() {
                holders.entry(page).or_default().push((number, lock));
            }
        }
        for page in 0..self.n {
            let by = holders.get(&page).cloned().unwrap_or_default();
            for (at, &(_, lock)) in by.iter().enumerate() {
                assert!(by[..at].iter().all(|&(_, its)| !clash(lock, its)));
            }
            let is_there = |kind| by.iter().any(|&(_, lock)| lock == kind);
            let kind = if is_there(Lock::Xi) {
                2
            } else if is_there(Lock::Alpha) {
                4
            } else if is_there(Lock::UpdaterRho) {
                3
            } else {
                u32::from(is_there(Lock::Rho))
            };
            let lowest = by.first().map_or(16, |&(slot, _)| slot as u32);
            assert_eq!(
                report(&self.state, page),
                Answer::Reported(kind, by.len() as u32, lowest)
            );
        }
    }

    /// Steps every open slot in rounds until none is open; 608 rounds must do.
    pub fn finish(&mut self) {
        for _ in 0..608 {
            for slot in 0..16 {
                if self.state.slots[slot].op.is_some() {
                    self.step(slot);
                }
            }
        }
        assert!(self.state.slots.iter().all(|slot| slot.op.is_none()));
        assert_eq!(self.state.waiting, 0);
    }

    /// Enters rising keys, so far apart, until there is no room. They leave pages half full, which gives the tallest tree of the pool.
    pub fn rise(&mut self, apart: u32) {
        for step in 1.. {
            self.begin(0, Op::Insert(apart * step, 7, First));
            self.finish();
            if self.tally.contains_key("NoRoom") {
                return;
            }
        }
    }
}

/// The sorted list's answer.
fn list_answer(list: &mut BTreeMap<u32, u32>, op: Op) -> Answer {
    match op {
        Op::Search(key) => list
            .get(&key)
            .map_or(Answer::NotFound, |&with| Answer::Found(with)),
        Op::Next(key) => list
            .range(key..)
            .next()
            .map_or(Answer::None, |(&own, &with)| Answer::Next(own, with)),
        Op::Delete(key, _) => list.remove(&key).map_or(Answer::NoSuchKey, Answer::Deleted),
        Op::Insert(key, with, _) => match list.get(&key) {
            Some(&there) => Answer::AlreadyThere(there),
            None => {
                list.insert(key, with);
                Answer::Inserted
            }
        },
        Op::Regrade(key, with, _) => match list.get_mut(&key) {
            Some(there) => Answer::Regraded(std::mem::replace(there, with)),
            None => Answer::NoSuchKey,
        },
    }
}
