//! The pages that a `Next`, a regrading or an update of the second or third way holds and wants, told again from the tree as it stands.

use twin::Way::{First, Second, Third};
use twin::{read_page, Lock, Op, Page};

use super::{way, Run};

/// An upper page's next child to the right of the route: it stands behind the first key above.
fn right_of(page: &Page, key: u32) -> Option<u32> {
    let at = page.keys.iter().position(|&own| own > key)?;
    (page.level > 1).then(|| page.with[at + 1])
}

impl Run {
    /// A page of the tree.
    pub fn page(&self, number: u32) -> Page {
        read_page(&self.words, self.k, self.n, number).expect("a tree page")
    }

    /// From a page down to a leaf, by the child that is chosen.
    fn down(&self, from: u32, chosen: impl Fn(&Page) -> u32) -> Vec<u32> {
        let mut way = vec![from];
        loop {
            let page = self.page(way[way.len() - 1]);
            if page.level == 1 {
                return way;
            }
            way.push(chosen(&page));
        }
    }

    /// The number behind the last key of the leaf that a key leads to.
    pub fn behind_leaf(&self, key: u32) -> u32 {
        let way = self.down(0, |page| page.route(key));
        let leaf = self.page(way[way.len() - 1]);
        leaf.keys.last().map_or(key, |last| last.saturating_add(1))
    }

    /// Whether a slot wants its page for itself alone: an update does, by the second way only its leaf, by the third what it converts.
    pub fn wants_alone(&self, slot: usize) -> bool {
        let its = &self.state.slots[slot];
        let is_above_leaf = |&page: &u32| self.page(page).level == 2;
        match way(&self.state, slot) {
            None => false,
            Some(First) => true,
            Some(Second) => its.path().iter().any(is_above_leaf),
            Some(Third) => its.holds(its.want),
        }
    }

    /// Whether a slot holds a page that another slot holds too, one of them with ρ and one with updater's ρ.
    pub fn is_mixed(&self, slot: usize) -> bool {
        let mut held = self.state.slots[slot].held_with();
        held.any(|(page, lock)| {
            let other = match lock {
                Lock::Rho => Lock::UpdaterRho,
                Lock::UpdaterRho => Lock::Rho,
                _ => return false,
            };
            let mut slots = self.state.slots.iter();
            slots.any(|its| its.lock_on(page) == Some(other))
        })
    }

    /// All that is known of where an open slot stands.
    pub fn check_slot(&self, slot: usize) {
        let its = &self.state.slots[slot];
        if its.op.is_none() {
            return;
        }
        let own = match way(&self.state, slot) {
            None => Lock::Rho,
            Some(First) => Lock::Xi,
            Some(Second) => Lock::UpdaterRho,
            Some(Third) => Lock::Alpha,
        };
        let alone = self.wants_alone(slot);
        assert_eq!(its.lock, if alone { Lock::Xi } else { own });
        if its.holds(its.want) {
            self.check_conversion(slot);
        } else {
            assert!(its.held_with().all(|(_, lock)| lock == own));
            self.check_one(slot);
        }
        self.check_way(slot);
        self.check_third(slot);
    }

    /// A slot that converts goes the third way, stands at its leaf and has the change before it; page by page down the levels, on each the
    /// path first, it has ξ above its want and α from there on.
    fn check_conversion(&self, slot: usize) {
        assert_eq!(way(&self.state, slot), Some(Third));
        let its = &self.state.slots[slot];
        let op = its.op.expect("an open slot");
        let is_there = self.list.contains_key(&op.key());
        assert_eq!(is_there, !matches!(op, Op::Insert(..)));
        let mut held: Vec<(u32, Lock)> = its.held_with().collect();
        // the sort is stable, and the path stands first
        held.sort_by_key(|&(page, _)| 10 - self.page(page).level);
        assert_eq!(self.page(held[held.len() - 1].0).level, 1);
        let turn = held.iter().position(|&(page, _)| page == its.want);
        for (at, &(_, lock)) in held.iter().enumerate() {
            let is_done = Some(at) < turn;
            assert_eq!(lock, if is_done { Lock::Xi } else { Lock::Alpha });
        }
    }

    /// An insertion or a deletion of the third way holds the way of its key from the lowest page that is safe for it, or from page 0.
    fn check_third(&self, slot: usize) {
        let its = &self.state.slots[slot];
        let (key, is_safe): (u32, fn(usize, usize) -> bool) = match its.op {
            Some(Op::Insert(key, _, Third)) => (key, |count, k| count < 2 * k),
            Some(Op::Delete(key, Third)) => (key, |count, k| count > k),
            _ => return,
        };
        let Some(&lowest) = its.path().last() else {
            return;
        };
        let way = self.down(0, |page| page.route(key));
        let end = way.iter().position(|&page| page == lowest);
        let end = end.expect("a page on the way of the key");
        let is_top = |&at: &usize| is_safe(self.page(way[at]).count(), self.k as usize);
        let top = (0..=end).rev().find(is_top).unwrap_or(0);
        assert_eq!(its.path(), &way[top..=end]);
    }

    /// An open `Next` that holds pages stands where the rules have it.
    ///
    /// Its path goes from the lowest page with a child to the right of the route, or from page 0; it ends above the want, or
    /// at a leaf that has nothing for the key, and then the second way is beside it.
    fn check_way(&self, slot: usize) {
        let slot = &self.state.slots[slot];
        let key = match slot.op {
            Some(Op::Next(key)) if slot.depth > 0 => key,
            _ => return,
        };
        let way = self.down(0, |page| page.route(key));
        let lowest = slot.path[slot.depth - 1];
        let end = way.iter().position(|&page| page == lowest);
        let end = end.expect("a page on the way of the key");
        let has_right = |&at: &usize| right_of(&self.page(way[at]), key).is_some();
        let top = (0..=end).rev().find(has_right).unwrap_or(0);
        assert_eq!(slot.path(), &way[top..=end]);
        if end + 1 < way.len() {
            assert_eq!((slot.siblings(), slot.want), (&[][..], way[end + 1]));
            return;
        }
        assert!(self.page(lowest).keys.iter().all(|&own| own < key));
        let right = right_of(&self.page(way[top]), key).expect("a second way");
        let second = self.down(right, |page| page.with[0]);
        let taken = [slot.siblings(), &[slot.want]].concat();
        assert_eq!(second[..taken.len()], taken);
    }

    /// An open regrading, or an update of the second way, that holds something holds one page on the way of its key, above the leaves,
    /// and wants the next one there.
    fn check_one(&self, slot: usize) {
        let is_second = way(&self.state, slot) == Some(Second);
        let slot = &self.state.slots[slot];
        let key = match slot.op {
            Some(Op::Regrade(key, ..)) if slot.depth > 0 => key,
            Some(op) if is_second && slot.depth > 0 => op.key(),
            _ => return,
        };
        assert_eq!((slot.depth, slot.beside), (1, 0));
        let way = self.down(0, |page| page.route(key));
        let at = way.iter().position(|&page| page == slot.path[0]);
        let at = at.expect("a page on the way of the key");
        assert_eq!(way.get(at + 1), Some(&slot.want));
    }

    /// How many grants a `Next` takes with this one: one a level, and if it crossed to a second way one a level below the top
    /// of its path.
    pub fn next_grants(&self, slot: usize) -> u32 {
        let (its, height) = (&self.state.slots[slot], self.height[slot]);
        match its.path() {
            [top, .., leaf] if self.page(*leaf).level == 1 => height + self.page(*top).level - 1,
            _ => height,
        }
    }
}
