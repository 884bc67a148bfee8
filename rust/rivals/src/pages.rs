//! Pages in the pool's words, read and changed in place.

use crate::layout::{put, Pages};

/// Where a page's pairs begin: a leaf's entries, or the reference keys with the pointers behind them.
fn base(page: &[u32]) -> usize {
    if page[0] == 1 {
        2
    } else {
        3
    }
}

/// The most words of a page with one pair too many.
const SHEET: usize = 2 * 33 + 3;

/// Whether the words of page p are sound by themselves.
pub fn is_page_sound(page: &[u32], p: u32, k: usize, n: u32) -> bool {
    let (level, count) = (page[0], page[1] as usize);
    let least = match (p, level) {
        (0, 1) => 0,
        (0, _) => 1,
        _ => k,
    };
    if !(1..=10).contains(&level) || count < least || count > 2 * k {
        return false;
    }
    let start = base(page);
    let (pairs, unused) = page[start..].split_at(2 * count);
    let mut bad = unused.iter().fold(0, |all, &word| all | word) != 0;
    for i in 1..count {
        bad |= pairs[2 * i - 2] >= pairs[2 * i];
    }
    if level == 1 {
        // keys rise, so that the first tells whether a blank tag's is there
        return !bad && (count == 0 || pairs[0] != 0);
    }
    if bad {
        return false;
    }
    let mut seen: Pages = [0; 16];
    for &pointer in page[2..].iter().step_by(2).take(count + 1) {
        bad |= pointer == 0 || pointer >= n || put(&mut seen, pointer);
    }
    !bad
}

/// A pool's words with the width of its pages.
pub struct Pool<'w> {
    pub words: &'w mut [u32],
    pub k: usize,
}

impl Pool<'_> {
    /// Words of a page.
    pub fn size(&self) -> usize {
        4 * self.k + 3
    }

    /// A page.
    pub fn page(&self, p: u32) -> &[u32] {
        let start = p as usize * self.size();
        &self.words[start..start + self.size()]
    }

    /// A page to be changed.
    fn page_mut(&mut self, p: u32) -> &mut [u32] {
        let size = self.size();
        let start = p as usize * size;
        &mut self.words[start..start + size]
    }

    pub fn level(&self, p: u32) -> u32 {
        self.words[p as usize * self.size()]
    }

    pub fn count(&self, p: u32) -> usize {
        self.words[p as usize * self.size() + 1] as usize
    }

    /// How many keys of a page are at most this one.
    pub fn place(&self, p: u32, key: u32) -> usize {
        let page = self.page(p);
        let pairs = &page[base(page)..][..2 * page[1] as usize];
        pairs.iter().step_by(2).filter(|&&own| own <= key).count()
    }

    /// Where an upper page sends a key.
    pub fn route(&self, p: u32, key: u32) -> u32 {
        self.page(p)[2 + 2 * self.place(p, key)]
    }

    /// The information of a key in a leaf.
    pub fn find(&self, p: u32, key: u32) -> Option<u32> {
        let place = self.place(p, key);
        let at = 2 * place;
        let page = self.page(p);
        (place > 0 && page[at] == key).then(|| page[at + 1])
    }

    /// Puts new information under a key that is in a leaf.
    pub fn regrade(&mut self, p: u32, key: u32, information: u32) {
        let place = self.place(p, key);
        self.page_mut(p)[2 * place + 1] = information;
    }

    /// A leaf's first entry whose key is at or above this one.
    pub fn first_from(&self, p: u32, key: u32) -> Option<(u32, u32)> {
        let page = self.page(p);
        let mut entries = page[2..2 + 2 * page[1] as usize].chunks_exact(2);
        let entry = entries.find(|entry| entry[0] >= key)?;
        Some((entry[0], entry[1]))
    }

    /// An upper page's next child to the right of the route.
    pub fn right_of(&self, p: u32, key: u32) -> Option<u32> {
        let place = self.place(p, key);
        let is_right = self.level(p) > 1 && place < self.count(p);
        is_right.then(|| self.page(p)[4 + 2 * place])
    }

    /// An upper page's first pointer.
    pub fn first_child(&self, p: u32) -> Option<u32> {
        (self.level(p) > 1).then(|| self.page(p)[2])
    }

    /// The right neighbour of the page to which an upper page sends a key, or with none the left one.
    pub fn neighbour(&self, p: u32, key: u32) -> u32 {
        let place = self.place(p, key);
        let page = self.page(p);
        if place < page[1] as usize {
            page[4 + 2 * place]
        } else {
            page[2 * place]
        }
    }

    /// The test of a page by itself.
    pub fn is_page_sound(&self, p: u32, n: u32) -> bool {
        is_page_sound(self.page(p), p, self.k, n)
    }

    /// The first free pages from a page on, at most so many.
    pub fn free(&self, n: u32, need: usize, pages: &mut [u32; 11]) -> bool {
        let mut found = 0;
        for p in 1..n {
            if found == need {
                break;
            }
            if self.level(p) == 0 {
                pages[found] = p;
                found += 1;
            }
        }
        found == need
    }

    /// Puts a pair into a page that has room.
    fn put_pair(&mut self, p: u32, place: usize, key: u32, with: u32) {
        let page = self.page_mut(p);
        let at = base(page) + 2 * place;
        let end = base(page) + 2 * page[1] as usize;
        page.copy_within(at..end, at + 2);
        page[at] = key;
        page[at + 1] = with;
        page[1] += 1;
    }

    /// Takes a pair out of a page.
    fn take_pair(&mut self, p: u32, place: usize) -> (u32, u32) {
        let page = self.page_mut(p);
        let at = base(page) + 2 * place;
        let end = base(page) + 2 * page[1] as usize;
        let pair = (page[at], page[at + 1]);
        page.copy_within(at + 2..end, at);
        page[end - 2..end].fill(0);
        page[1] -= 1;
        pair
    }

    /// Writes a page whole: its level, its first pointer above the leaves, and its pairs.
    fn write(&mut self, p: u32, level: u32, first: u32, pairs: &[u32]) {
        let page = self.page_mut(p);
        page.fill(0);
        page[0] = level;
        page[1] = pairs.len() as u32 / 2;
        page[2] = first;
        let start = base(page);
        page[start..start + pairs.len()].copy_from_slice(pairs);
    }

    /// The whole change of an insertion; the pages that it takes are given.
    pub fn insert(&mut self, path: &[u32], key: u32, information: u32, taken: &[u32]) {
        let mut pair = (key, information);
        let mut taken = taken.iter().copied();
        for &p in path.iter().rev() {
            let place = self.place(p, key);
            if self.count(p) < 2 * self.k {
                self.put_pair(p, place, pair.0, pair.1);
                return;
            }
            let k = self.k;
            let page = self.page(p);
            let (level, first, start) = (page[0], page[2], base(page));
            let mut sheet = [0; SHEET];
            let pairs = &page[start..start + 4 * k];
            sheet[..2 * place].copy_from_slice(&pairs[..2 * place]);
            sheet[2 * place] = pair.0;
            sheet[2 * place + 1] = pair.1;
            sheet[2 * place + 2..4 * k + 2].copy_from_slice(&pairs[2 * place..]);
            let (left, right) = sheet[..4 * k + 2].split_at(2 * k);
            let up = right[0];
            let (left_first, right_first, right) = if level == 1 {
                (left[0], right[0], right)
            } else {
                (first, right[1], &right[2..])
            };
            let mut new = || taken.next().expect("room was counted");
            if p == 0 {
                let (a, b) = (new(), new());
                self.write(a, level, left_first, left);
                self.write(b, level, right_first, right);
                self.write(0, level + 1, a, &[up, b]);
                return;
            }
            let b = new();
            self.write(p, level, left_first, left);
            self.write(b, level, right_first, right);
            pair = (up, b);
        }
    }

    /// The whole change of a deletion; its key is in the leaf.
    pub fn delete(&mut self, path: &[u32], siblings: &[u32], key: u32) -> u32 {
        let last = path.len() - 1;
        let place = self.place(path[last], key);
        let (_, information) = self.take_pair(path[last], place - 1);
        for (i, &sibling) in siblings.iter().enumerate() {
            self.mend(path[last - i], sibling, path[last - i - 1], key);
        }
        if path[0] == 0 && self.level(0) > 1 && self.count(0) == 0 {
            let child = self.page(0)[2];
            let start = child as usize * self.size();
            self.words.copy_within(start..start + self.size(), 0);
            self.page_mut(child).fill(0);
        }
        information
    }

    /// A short page with its sibling: one pair moves over, or both join.
    fn mend(&mut self, short: u32, sibling: u32, father: u32, key: u32) {
        let place = self.place(father, key);
        let is_right = place < self.count(father);
        let between = if is_right { place } else { place - 1 };
        let at = 3 + 2 * between;
        let reference = self.page(father)[at];
        let is_leaf = self.level(short) == 1;
        if self.count(sibling) > self.k {
            let end = self.count(short);
            let up = if is_right {
                let (first, with) = self.take_pair(sibling, 0);
                if is_leaf {
                    self.put_pair(short, end, first, with);
                    self.page(sibling)[2]
                } else {
                    let over = std::mem::replace(&mut self.page_mut(sibling)[2], with);
                    self.put_pair(short, end, reference, over);
                    first
                }
            } else {
                let (last, with) = self.take_pair(sibling, self.count(sibling) - 1);
                if is_leaf {
                    self.put_pair(short, 0, last, with);
                } else {
                    let over = std::mem::replace(&mut self.page_mut(short)[2], with);
                    self.put_pair(short, 0, reference, over);
                }
                last
            };
            self.page_mut(father)[at] = up;
        } else {
            let (left, right) = if is_right {
                (short, sibling)
            } else {
                (sibling, short)
            };
            if !is_leaf {
                let first = self.page(right)[2];
                self.put_pair(left, self.count(left), reference, first);
            }
            self.append(left, right);
            self.take_pair(father, between);
        }
    }

    /// Puts all pairs of the right page behind those of the left, and frees the right one.
    fn append(&mut self, left: u32, right: u32) {
        let (size, count) = (self.size(), self.count(right));
        let from = right as usize * size + base(self.page(right));
        let to = left as usize * size + base(self.page(left)) + 2 * self.count(left);
        self.words.copy_within(from..from + 2 * count, to);
        self.page_mut(left)[1] += count as u32;
        self.page_mut(right).fill(0);
    }
}
