//! How pages change: splits, moves, joins and the root collapse; and a leaf in which a lot is regraded.

use crate::answer::Answer;
use crate::page::{free_pages, page_words, write_page, zero_page, Page};
use crate::reach::{Held, Reach, Shape};

/// Whether an insertion needs more pages than are free.
pub fn room_is_short(shape: Shape, words: &[u32], path: &[Held]) -> bool {
    let is_full = |held: &&Held| held.page.count() == 2 * shape.k as usize;
    let leaf = path.last().expect("an insertion has its leaf");
    if !is_full(&leaf) {
        return false;
    }
    let full = path.iter().filter(is_full).count();
    let for_root = path
        .iter()
        .filter(is_full)
        .filter(|held| held.number == 0)
        .count();
    full + for_root > free_pages(words, shape.k, shape.n).len()
}

/// Puts the entry into the leaf and splits upward as far as needed.
pub fn insert(
    shape: Shape,
    words: &mut [u32],
    key: u32,
    information: u32,
    path: Vec<Held>,
) -> Answer {
    let mut path = path;
    let mut leaf = path.pop().expect("an insertion has its leaf");
    let place = leaf.page.place(key);
    leaf.page.keys.insert(place, key);
    leaf.page.with.insert(place, information);
    let mut changed = leaf;
    while let Some((up, right)) = settle(shape, words, &changed) {
        let mut father = path.pop().expect("the top page is page 0 or not full");
        let place = father.page.place_of(changed.number);
        father.page.keys.insert(place, up);
        father.page.with.insert(place + 1, right);
        changed = father;
    }
    Answer::Inserted
}

/// Writes a changed page; if it is too full, splits it and says what goes to the father.
fn settle(shape: Shape, words: &mut [u32], changed: &Held) -> Option<(u32, u32)> {
    if changed.page.count() <= 2 * shape.k as usize {
        write_page(words, shape.k, changed.number, &changed.page);
        return None;
    }
    let (left, up, right) = halves(shape.k, &changed.page);
    if changed.number == 0 {
        let left = write_new(shape, words, &left);
        let right = write_new(shape, words, &right);
        let root = Page {
            level: changed.page.level + 1,
            keys: vec![up],
            with: vec![left, right],
        };
        write_page(words, shape.k, 0, &root);
        return None;
    }
    write_page(words, shape.k, changed.number, &left);
    Some((up, write_new(shape, words, &right)))
}

/// The halves of a page with 2k+1 keys, and the reference key that goes up.
fn halves(k: u32, page: &Page) -> (Page, u32, Page) {
    let k = k as usize;
    let up = page.keys[k];
    let (left_with, right_keys) = if page.is_leaf() {
        (k, k)
    } else {
        (k + 1, k + 1)
    };
    let (keys, with) = (&page.keys, &page.with);
    let half = |keys: &[u32], with: &[u32]| Page {
        level: page.level,
        keys: keys.to_vec(),
        with: with.to_vec(),
    };
    (
        half(&keys[..k], &with[..left_with]),
        up,
        half(&keys[right_keys..], &with[left_with..]),
    )
}

/// Writes a page into the lowest free one and gives its number.
fn write_new(shape: Shape, words: &mut [u32], page: &Page) -> u32 {
    let number = free_pages(words, shape.k, shape.n)[0];
    write_page(words, shape.k, number, page);
    number
}

/// Puts new information under the key, and tells the old. No other word changes.
pub fn regrade(
    shape: Shape,
    words: &mut [u32],
    key: u32,
    information: u32,
    mut path: Vec<Held>,
) -> Answer {
    let mut leaf = path.pop().expect("a regrading has its leaf");
    let place = leaf.page.find(key).expect("the key is there");
    let old = std::mem::replace(&mut leaf.page.with[place], information);
    write_page(words, shape.k, leaf.number, &leaf.page);
    Answer::Regraded(old)
}

/// Takes the entry out of the leaf, then moves or joins with each sibling held.
pub fn delete(shape: Shape, words: &mut [u32], key: u32, reach: Reach) -> Answer {
    let Reach { mut path, siblings } = reach;
    let mut short = path.pop().expect("a deletion has its leaf");
    let place = short.page.find(key).expect("the key is there");
    short.page.keys.remove(place);
    let information = short.page.with.remove(place);
    for sibling in siblings {
        let mut father = path.pop().expect("a short page has its father");
        mend(shape, words, short, sibling, &mut father.page);
        short = father;
    }
    write_page(words, shape.k, short.number, &short.page);
    if short.number == 0 {
        collapse(shape, words, &short.page);
    }
    Answer::Deleted(information)
}

/// Mends a short page by its sibling, and writes both.
fn mend(shape: Shape, words: &mut [u32], short: Held, sibling: Held, father: &mut Page) {
    let short_place = father.place_of(short.number);
    let sibling_place = father.place_of(sibling.number);
    let does_move = sibling.page.can_spare(shape.k);
    let is_short_left = short_place < sibling_place;
    let between = short_place.min(sibling_place);
    let (mut left, mut right) = if is_short_left {
        (short, sibling)
    } else {
        (sibling, short)
    };
    if does_move {
        let (l, r) = (&mut left.page, &mut right.page);
        let reference = &mut father.keys[between];
        if is_short_left {
            move_left(l, r, reference);
        } else {
            move_right(l, r, reference);
        }
        write_page(words, shape.k, left.number, &left.page);
        write_page(words, shape.k, right.number, &right.page);
    } else {
        let reference = father.keys.remove(between);
        father.with.remove(between + 1);
        join(&mut left.page, right.page, reference);
        write_page(words, shape.k, left.number, &left.page);
        zero_page(words, shape.k, right.number);
    }
}

/// Moves one entry, or one reference key with its child, from the right page to the left.
fn move_left(left: &mut Page, right: &mut Page, reference: &mut u32) {
    let key = right.keys.remove(0);
    left.with.push(right.with.remove(0));
    if left.is_leaf() {
        left.keys.push(key);
        *reference = right.keys[0];
    } else {
        left.keys.push(*reference);
        *reference = key;
    }
}

/// Moves one entry, or one reference key with its child, from the left page to the right.
fn move_right(left: &mut Page, right: &mut Page, reference: &mut u32) {
    let key = left.keys.pop().expect("more than k");
    right.with.insert(0, left.with.pop().expect("more than k"));
    if left.is_leaf() {
        right.keys.insert(0, key);
    } else {
        right.keys.insert(0, *reference);
    }
    *reference = key;
}

/// Joins both pages in the left one; above the leaves the reference key comes down.
fn join(left: &mut Page, right: Page, reference: u32) {
    if !left.is_leaf() {
        left.keys.push(reference);
    }
    left.keys.extend(right.keys);
    left.with.extend(right.with);
}

/// If page 0 is left with no reference key, its one child's words move into it.
fn collapse(shape: Shape, words: &mut [u32], root: &Page) {
    if root.is_leaf() || root.count() > 0 {
        return;
    }
    let length = page_words(shape.k);
    let child = root.with[0] as usize * length;
    words.copy_within(child..child + length, 0);
    zero_page(words, shape.k, root.with[0]);
}
