//! The state of a rival in two layouts: one struct a slot, and in columns.

use ghazfulit::numbers::{
    self, DELETE, DELETE_SECOND, DELETE_THIRD, INSERT, INSERT_SECOND, INSERT_THIRD, LARGEST_K,
    LARGEST_N, LOCK_ALPHA, LOCK_RHO, LOCK_UPDATER_RHO, LOCK_XI, NEXT, REGRADE, REGRADE_SECOND,
    REGRADE_THIRD, SEARCH,
};

/// How many slots there are.
pub const SLOTS: usize = numbers::SLOTS as usize;
/// The kind of a closed slot.
pub const CLOSED: u32 = 0;
/// The most pages on a path, and cells for siblings.
pub const HELD: usize = 10;
/// Words of a state in columns.
pub const STATE: usize = 19 + SLOTS * 27;

/// The word of a held page: the page in the lower half, the number of the kind of its lock in the upper.
fn pack(page: u32, lock: u32) -> u32 {
    page | lock << 16
}

/// The page and the kind of such a word.
fn unpack(word: u32) -> (u32, u32) {
    (word & 0xffff, word >> 16)
}

/// The kinds of lock that clash with this one, a bit for each by its number.
fn clashing(lock: u32) -> u32 {
    const XI: u32 = 1 << LOCK_XI;
    const UPDATERS: u32 = 1 << LOCK_UPDATER_RHO | 1 << LOCK_ALPHA;
    match lock {
        LOCK_RHO => XI,
        LOCK_UPDATER_RHO => XI | 1 << LOCK_ALPHA,
        LOCK_ALPHA => XI | UPDATERS,
        _ => XI | UPDATERS | 1 << LOCK_RHO,
    }
}

/// Whether such a set has a kind; what is none is in no set.
fn has(kinds: u32, lock: u32) -> bool {
    kinds >> (lock & 31) & 1 != 0
}

/// A set of pages.
pub type Pages = [u64; 16];

/// Puts a page into a set; whether it was there. Pages are below 1,024.
pub fn put(pages: &mut Pages, page: u32) -> bool {
    let (word, bit) = (page as usize / 64 % 16, 1u64 << (page % 64));
    let was = pages[word] & bit != 0;
    pages[word] |= bit;
    was
}

/// One slot.
#[derive(Clone, Copy, Default)]
pub struct Slot {
    pub kind: u32,
    pub key: u32,
    pub information: u32,
    pub want: u32,
    /// The kind of lock that it wants there.
    pub lock: u32,
    pub depth: u32,
    pub beside: u32,
    pub path: [u32; HELD],
    pub siblings: [u32; HELD],
    /// The kinds of lock under which they are held.
    pub path_locks: [u32; HELD],
    pub sibling_locks: [u32; HELD],
}

impl Slot {
    /// A slot that has just begun, or begun again: it wants page 0.
    pub fn begun(kind: u32, key: u32, information: u32) -> Slot {
        Slot {
            kind,
            key,
            information,
            lock: lock_held(kind),
            ..Slot::default()
        }
    }

    /// All pages held.
    pub fn held(&self) -> impl Iterator<Item = u32> + '_ {
        let path = &self.path[..self.depth as usize];
        path.iter()
            .chain(&self.siblings[..self.beside as usize])
            .copied()
    }

    /// The same with the kinds of their locks.
    pub fn held_with(&self) -> impl Iterator<Item = (u32, u32)> + '_ {
        let path = &self.path_locks[..self.depth as usize];
        let beside = &self.sibling_locks[..self.beside as usize];
        self.held().zip(path.iter().chain(beside).copied())
    }
}

/// A state, in one layout or the other.
pub trait Layout {
    /// The state of a fresh pool.
    fn fresh(k: u32, n: u32) -> Self;
    fn k(&self) -> u32;
    fn n(&self) -> u32;
    fn waiting(&self) -> usize;
    fn order(&self) -> &[u32; SLOTS];
    /// The slot that is stepped, lifted out.
    fn slot(&self, s: usize) -> Slot;
    /// The slot put back, with so many cells of its path and of its siblings.
    fn set_slot(&mut self, s: usize, slot: &Slot, path: usize, siblings: usize);
    /// Takes a slot out of the order; it is put last if it goes on.
    fn requeue(&mut self, s: usize, goes_on: bool);
    /// Puts a slot at the end of the order.
    fn enqueue(&mut self, s: usize);
    /// Whether no other slot's lock clashes, held on the page or wanted for longer.
    fn grants(&self, s: usize) -> bool;
    /// The test of a sound state.
    fn is_sound(&self) -> bool;
    /// All words, in columns.
    fn words(&self) -> [u32; STATE];
}

/// The order without a slot, and with it at the end if it goes on.
fn requeued(order: &mut [u32], waiting: usize, s: usize, goes_on: bool) -> usize {
    let place = order[..waiting]
        .iter()
        .position(|&own| own as usize == s)
        .unwrap_or(0);
    order.copy_within(place + 1..waiting, place);
    order[waiting - 1] = if goes_on { s as u32 } else { 0 };
    if goes_on {
        waiting
    } else {
        waiting - 1
    }
}

/// The slots that an order names, if it names none twice and none above 15.
fn named(order: &[u32; SLOTS], waiting: usize) -> Option<u16> {
    let mut mask = 0u16;
    for &s in order.get(..waiting)? {
        if s > 15 || mask & (1 << s) != 0 {
            return None;
        }
        mask |= 1 << s;
    }
    Some(mask)
}

/// Whether a kind goes the second way.
pub fn is_second(kind: u32) -> bool {
    (INSERT_SECOND..=REGRADE_SECOND).contains(&kind)
}

/// Whether a kind goes the third way.
pub fn is_third(kind: u32) -> bool {
    (INSERT_THIRD..=REGRADE_THIRD).contains(&kind)
}

/// Whether a slot of this kind that wants with this lock converts a page that it holds: in a sound state only then ξ is wanted by the third
/// way.
pub fn is_converting(kind: u32, lock: u32) -> bool {
    is_third(kind) & (lock == LOCK_XI)
}

/// The kind by the first way.
pub fn first(kind: u32) -> u32 {
    match kind {
        INSERT_SECOND | INSERT_THIRD => INSERT,
        DELETE_SECOND | DELETE_THIRD => DELETE,
        REGRADE_SECOND | REGRADE_THIRD => REGRADE,
        _ => kind,
    }
}

/// Whether a kind may hold so many pages.
fn holds_so_many(kind: u32, depth: u32, beside: u32) -> bool {
    let none = (kind == CLOSED) & (depth == 0) & (beside == 0);
    let single = (kind == SEARCH) | (first(kind) == REGRADE) | is_second(kind);
    let one = single & (depth <= 1) & (beside == 0);
    let inserts = (kind == INSERT) | (kind == INSERT_THIRD);
    let insertion = inserts & (depth <= 10) & (beside == 0);
    let few = (beside == 0) | (beside < depth);
    let both = (kind == DELETE) | (kind == DELETE_THIRD) | (kind == NEXT);
    none | one | insertion | (both & (depth <= 10) & (beside <= 9) & few)
}

/// The kind of lock that a kind goes down with: searches and the next lot ρ, the second way updater's ρ, the third α, and the first ξ.
pub fn lock_held(kind: u32) -> u32 {
    if is_second(kind) {
        LOCK_UPDATER_RHO
    } else if is_third(kind) {
        LOCK_ALPHA
    } else if (kind == SEARCH) | (kind == NEXT) {
        LOCK_RHO
    } else {
        LOCK_XI
    }
}

/// Whether a kind can want a lock at all; by the third way ξ only for a page that it holds.
fn may_want(kind: u32, lock: u32) -> bool {
    let may_xi = is_second(kind) | is_third(kind);
    (lock == lock_held(kind)) | (may_xi & (lock == LOCK_XI)) | (kind == CLOSED)
}

/// Whether a kind can hold with a lock at all.
fn may_hold(kind: u32, lock: u32) -> bool {
    (lock == lock_held(kind)) | is_converting(kind, lock)
}

/// The pages that are held, by the kinds of their locks.
#[derive(Default)]
struct Taken {
    rho: Pages,
    updaters: Pages,
    alpha: Pages,
    xi: Pages,
}

impl Taken {
    /// Adds a page; whether it was there under the same kind, and that goes with no other.
    fn add(&mut self, page: u32, lock: u32) -> bool {
        match lock {
            LOCK_RHO => {
                put(&mut self.rho, page);
                false
            }
            LOCK_UPDATER_RHO => {
                put(&mut self.updaters, page);
                false
            }
            LOCK_ALPHA => put(&mut self.alpha, page),
            _ => put(&mut self.xi, page),
        }
    }

    /// Whether two kinds clash on some page.
    fn clashes(&self) -> bool {
        (0..16).any(|i| {
            let beside = self.rho[i] | self.updaters[i] | self.alpha[i];
            self.xi[i] & beside != 0 || self.alpha[i] & self.updaters[i] != 0
        })
    }
}

/// Whether the pages of one slot are sound by themselves and beside those that are taken, which they are then too.
fn takes(
    taken: &mut Taken,
    n: u32,
    [kind, want, wanted]: [u32; 3],
    held: impl Iterator<Item = (u32, u32)>,
) -> bool {
    let converting = is_converting(kind, wanted);
    let (mut bad, mut has_want) = (false, false);
    for (page, lock) in held {
        bad |= (page >= n) | !may_hold(kind, lock);
        // a page that is held is wanted only as a conversion from α
        bad |= (page == want) & !(converting & (lock == LOCK_ALPHA));
        has_want |= page == want;
        bad |= taken.add(page, lock);
    }
    !bad && has_want == converting
}

/// Whether a page is named twice.
fn is_twice(mut pages: impl Iterator<Item = u32>) -> bool {
    let mut seen = [0; 16];
    pages.any(|page| put(&mut seen, page))
}

/// One struct a slot.
pub struct Structs {
    k: u32,
    n: u32,
    waiting: usize,
    order: [u32; SLOTS],
    slots: [Slot; SLOTS],
}

impl Layout for Structs {
    fn fresh(k: u32, n: u32) -> Structs {
        Structs {
            k,
            n,
            waiting: 0,
            order: [0; SLOTS],
            slots: [Slot::default(); SLOTS],
        }
    }

    fn k(&self) -> u32 {
        self.k
    }

    fn n(&self) -> u32 {
        self.n
    }

    fn waiting(&self) -> usize {
        self.waiting
    }

    fn order(&self) -> &[u32; SLOTS] {
        &self.order
    }

    fn slot(&self, s: usize) -> Slot {
        self.slots[s]
    }

    fn set_slot(&mut self, s: usize, slot: &Slot, _path: usize, _siblings: usize) {
        self.slots[s] = *slot;
    }

    fn requeue(&mut self, s: usize, goes_on: bool) {
        self.waiting = requeued(&mut self.order, self.waiting, s, goes_on);
    }

    fn enqueue(&mut self, s: usize) {
        self.order[self.waiting] = s as u32;
        self.waiting += 1;
    }

    fn grants(&self, s: usize) -> bool {
        let (want, barred_by) = (self.slots[s].want, clashing(self.slots[s].lock));
        let is_in_the_way = |(page, lock): (u32, u32)| page == want && has(barred_by, lock);
        let mut others = self.slots.iter().enumerate();
        let held = others.any(|(other, slot)| {
            let converts = slot.want == want && is_converting(slot.kind, slot.lock);
            other != s && (converts || slot.held_with().any(is_in_the_way))
        });
        if held || is_converting(self.slots[s].kind, self.slots[s].lock) {
            return !held;
        }
        let mut older = self.order[..self.waiting]
            .iter()
            .take_while(|&&other| other as usize != s)
            .map(|&other| &self.slots[other as usize]);
        !older.any(|slot| is_in_the_way((slot.want, slot.lock)))
    }

    fn is_sound(&self) -> bool {
        if !(1..=LARGEST_K).contains(&self.k) || !(1..=LARGEST_N).contains(&self.n) {
            return false;
        }
        let Some(named) = named(&self.order, self.waiting) else {
            return false;
        };
        let (mut open, mut taken) = (0u16, Taken::default());
        for (s, slot) in self.slots.iter().enumerate() {
            if !holds_so_many(slot.kind, slot.depth, slot.beside) {
                return false;
            }
            if slot.kind == CLOSED {
                continue;
            }
            open |= 1 << s;
            if slot.want >= self.n || !may_want(slot.kind, slot.lock) {
                return false;
            }
            let wants = [slot.kind, slot.want, slot.lock];
            if !takes(&mut taken, self.n, wants, slot.held_with()) {
                return false;
            }
            if slot.kind == NEXT && is_twice(slot.held()) {
                return false;
            }
        }
        open == named && !taken.clashes()
    }

    fn words(&self) -> [u32; STATE] {
        let mut columns = Columns::fresh(self.k, self.n);
        columns.words[2] = self.waiting as u32;
        columns.words[3..19].copy_from_slice(&self.order);
        for (s, slot) in self.slots.iter().enumerate() {
            columns.set_slot(s, slot, HELD, HELD);
        }
        columns.words
    }
}

/// In columns: the words that the proved index has.
pub struct Columns {
    words: [u32; STATE],
}

/// Rows by what they are.
const KIND: usize = 0;
const KEY: usize = 1;
const INFORMATION: usize = 2;
const WANT: usize = 3;
const LOCK: usize = 4;
const DEPTH: usize = 5;
const BESIDE: usize = 6;
const PATH: usize = 7;
const SIBLINGS: usize = 17;

/// Where a row has the word of a slot.
fn at(row: usize, s: usize) -> usize {
    19 + SLOTS * row + s
}

impl Columns {
    /// One row.
    fn row(&self, row: usize) -> &[u32; SLOTS] {
        let start = 19 + SLOTS * row;
        self.words[start..start + SLOTS]
            .try_into()
            .expect("a row has 16 words")
    }

    /// Whether a slot other than s holds the page with a lock that clashes; rows only as far as some slot has them.
    fn is_held(&self, s: usize, page: u32) -> bool {
        let barred_by = clashing(self.row(LOCK)[s]);
        let mut hit = false;
        for (first, length) in [(PATH, DEPTH), (SIBLINGS, BESIDE)] {
            let lengths = self.row(length);
            let most = lengths.iter().fold(0, |most, &own| most.max(own));
            for i in 0..most.min(HELD as u32) {
                let row = self.row(first + i as usize);
                for other in 0..SLOTS {
                    let (own, lock) = unpack(row[other]);
                    let clashes = has(barred_by, lock);
                    hit |= (own == page) & (i < lengths[other]) & clashes & (other != s);
                }
            }
        }
        hit
    }
}

impl Layout for Columns {
    fn fresh(k: u32, n: u32) -> Columns {
        let mut words = [0; STATE];
        words[0] = k;
        words[1] = n;
        Columns { words }
    }

    fn k(&self) -> u32 {
        self.words[0]
    }

    fn n(&self) -> u32 {
        self.words[1]
    }

    fn waiting(&self) -> usize {
        self.words[2] as usize
    }

    fn order(&self) -> &[u32; SLOTS] {
        self.words[3..19].try_into().expect("16 words")
    }

    fn slot(&self, s: usize) -> Slot {
        let word = |row: usize| self.words[at(row, s)];
        let mut slot = Slot {
            kind: word(KIND),
            key: word(KEY),
            information: word(INFORMATION),
            want: word(WANT),
            lock: word(LOCK),
            depth: word(DEPTH),
            beside: word(BESIDE),
            ..Slot::default()
        };
        let (depth, beside) = (slot.depth as usize, slot.beside as usize);
        for i in 0..depth {
            (slot.path[i], slot.path_locks[i]) = unpack(word(PATH + i));
        }
        for i in 0..beside {
            (slot.siblings[i], slot.sibling_locks[i]) = unpack(word(SIBLINGS + i));
        }
        slot
    }

    fn set_slot(&mut self, s: usize, slot: &Slot, path: usize, siblings: usize) {
        let single = [
            slot.kind,
            slot.key,
            slot.information,
            slot.want,
            slot.lock,
            slot.depth,
            slot.beside,
        ];
        for (row, &cell) in single.iter().enumerate() {
            self.words[at(row, s)] = cell;
        }
        for i in 0..path {
            self.words[at(PATH + i, s)] = pack(slot.path[i], slot.path_locks[i]);
        }
        for i in 0..siblings {
            self.words[at(SIBLINGS + i, s)] = pack(slot.siblings[i], slot.sibling_locks[i]);
        }
    }

    fn requeue(&mut self, s: usize, goes_on: bool) {
        let waiting = self.waiting();
        self.words[2] = requeued(&mut self.words[3..19], waiting, s, goes_on) as u32;
    }

    fn enqueue(&mut self, s: usize) {
        let waiting = self.waiting();
        self.words[3 + waiting] = s as u32;
        self.words[2] += 1;
    }

    fn grants(&self, s: usize) -> bool {
        let (kinds, wants, locks) = (self.row(KIND), self.row(WANT), self.row(LOCK));
        let (want, barred_by) = (wants[s], clashing(locks[s]));
        if is_converting(kinds[s], locks[s]) {
            return !self.is_held(s, want);
        }
        let mut behind = false;
        for other in 0..SLOTS {
            behind |= (wants[other] == want) & is_converting(kinds[other], locks[other]);
        }
        if behind {
            return false;
        }
        let mut older = self.order()[..self.waiting()]
            .iter()
            .map(|&other| other as usize)
            .take_while(|&other| other != s);
        let barred = older.any(|other| wants[other] == want && has(barred_by, locks[other]));
        !barred && !self.is_held(s, want)
    }

    fn is_sound(&self) -> bool {
        let (k, n) = (self.k(), self.n());
        if !(1..=LARGEST_K).contains(&k) || !(1..=LARGEST_N).contains(&n) {
            return false;
        }
        let Some(named) = named(self.order(), self.waiting()) else {
            return false;
        };
        let (kinds, wants, locks) = (self.row(KIND), self.row(WANT), self.row(LOCK));
        let (depths, besides) = (self.row(DEPTH), self.row(BESIDE));
        let (mut bad, mut open) = (false, 0u16);
        for s in 0..SLOTS {
            let (kind, depth, beside) = (kinds[s], depths[s], besides[s]);
            bad |= !holds_so_many(kind, depth, beside);
            bad |= (kind != CLOSED) & (wants[s] >= n);
            bad |= !may_want(kind, locks[s]);
            open |= u16::from(kind != CLOSED) << s;
        }
        if bad || open != named {
            return false;
        }
        let mut taken = Taken::default();
        let mut left = open;
        while left != 0 {
            let s = left.trailing_zeros() as usize;
            left &= left - 1;
            let word = |row: usize| self.words[at(row, s)];
            let path = (0..depths[s] as usize).map(|i| word(PATH + i));
            let held = path.chain((0..besides[s] as usize).map(|i| word(SIBLINGS + i)));
            let held = held.map(unpack);
            let asked = [kinds[s], wants[s], locks[s]];
            bad |= !takes(&mut taken, n, asked, held.clone());
            bad |= kinds[s] == NEXT && is_twice(held.map(|(page, _)| page));
        }
        !bad && !taken.clashes()
    }

    fn words(&self) -> [u32; STATE] {
        self.words
    }
}
