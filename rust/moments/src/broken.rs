//! One clause of what a `Next` on its second way must find, broken; all the others hold.

use draw::Random;
use twin::{page_words, read_page, Page, Slot};

use crate::pages::{write, write_page, Build};

/// A way to break one clause; `None` where these pages are too few for it.
pub(crate) type Break = fn(&mut Random, &mut Build, &mut Slot, u32) -> Option<()>;

/// One for each clause.
pub(crate) const BREAKS: [Break; 8] = [
    leaf_has_key,
    path_has_right,
    top_has_no_right,
    path_leads_away,
    second_leads_away,
    path_leaves_a_level_out,
    second_is_off_a_level,
    path_ends_above,
];

/// Breaks one clause of a slot on its second way.
pub(crate) fn break_clause(random: &mut Random, build: &mut Build, slot: &mut Slot, key: u32) {
    let chosen = random.one(&BREAKS);
    // where it cannot be broken, all is left as it is
    let _ = chosen(random, build, slot, key);
}

/// The second way, its want at the end.
pub(crate) fn second(slot: &Slot) -> Vec<u32> {
    [slot.siblings(), &[slot.want]].concat()
}

/// Reads a page that was built.
pub(crate) fn read(build: &Build, number: u32) -> Option<Page> {
    read_page(&build.words, build.k, build.n, number)
}

/// The leaf has a key at or above.
fn leaf_has_key(random: &mut Random, build: &mut Build, slot: &mut Slot, key: u32) -> Option<()> {
    let leaf = *slot.path().last()?;
    let mut page = read(build, leaf)?;
    *page.keys.last_mut()? = key + random.below(3) as u32;
    write_page(build, leaf, &page);
    Some(())
}

/// A page between the top and the leaf has a child to the right; its route stays.
fn path_has_right(random: &mut Random, build: &mut Build, slot: &mut Slot, key: u32) -> Option<()> {
    let at = random.from(
        1,
        slot.depth.checked_sub(2).filter(|&last| last > 0)? as u64,
    );
    let number = slot.path[at as usize];
    let mut page = read(build, number)?;
    let last = page.count();
    page.with.swap(last - 1, last);
    *page.keys.last_mut()? = key + 1 + random.below(3) as u32;
    write_page(build, number, &page);
    Some(())
}

/// The top page has no child to the right; its route stays.
fn top_has_no_right(_: &mut Random, build: &mut Build, slot: &mut Slot, key: u32) -> Option<()> {
    let top = slot.path[0];
    let mut page = read(build, top)?;
    let (place, count) = (page.place(key), page.count());
    page.with.swap(place, count);
    page.keys = ((key + 1).checked_sub(count as u32)?..=key).collect();
    write_page(build, top, &page);
    Some(())
}

/// A path page leads to another page than the next; the top page's next child stays.
fn path_leads_away(
    random: &mut Random,
    build: &mut Build,
    slot: &mut Slot,
    key: u32,
) -> Option<()> {
    let at = random.below(slot.depth as u64 - 1) as usize;
    let place = read(build, slot.path[at])?.place(key);
    let stays = if at == 0 { vec![place + 1] } else { vec![] };
    lead_away(random, build, slot, slot.path[at], place, &stays)
}

/// A page that points to one of the second way points to another; the top page's route stays.
fn second_leads_away(
    random: &mut Random,
    build: &mut Build,
    slot: &mut Slot,
    key: u32,
) -> Option<()> {
    match (random.below(slot.beside as u64 + 1) as usize).checked_sub(1) {
        Some(at) => lead_away(random, build, slot, slot.siblings[at], 0, &[]),
        None => {
            let top = slot.path[0];
            let place = read(build, top)?.place(key);
            lead_away(random, build, slot, top, place + 1, &[place])
        }
    }
}

/// The pointer at this place is exchanged for another of its page, or for one that the slot does not know.
fn lead_away(
    random: &mut Random,
    build: &mut Build,
    slot: &Slot,
    number: u32,
    place: usize,
    stays: &[usize],
) -> Option<()> {
    let mut page = read(build, number)?;
    let is_other = |at: &usize| *at != place && !stays.contains(at);
    let others: Vec<usize> = (0..page.with.len()).filter(is_other).collect();
    let is_new = |to: &u32| !page.with.contains(to) && !slot.holds(*to) && *to != slot.want;
    let new: Vec<u32> = (1..build.n).filter(is_new).collect();
    if !others.is_empty() && (new.is_empty() || random.percent(50)) {
        page.with.swap(place, random.one(&others));
    } else if !new.is_empty() {
        page.with[place] = random.one(&new);
    } else {
        return None;
    }
    write_page(build, number, &page);
    Some(())
}

/// Somewhere on the path two levels lie between a page and the next; the second way follows the top page.
fn path_leaves_a_level_out(
    random: &mut Random,
    build: &mut Build,
    slot: &mut Slot,
    _: u32,
) -> Option<()> {
    if read(build, slot.path[0])?.level == 10 {
        return None;
    }
    let upper = random.from(1, slot.depth as u64 - 1) as usize;
    shift(random, build, &slot.path[..upper], 1)?;
    shift(random, build, &second(slot), 1)
}

/// Somewhere on the second way a page is as high as the one before, or two levels lower.
fn second_is_off_a_level(
    random: &mut Random,
    build: &mut Build,
    slot: &mut Slot,
    _: u32,
) -> Option<()> {
    let from = random.below(slot.beside as u64 + 1) as usize;
    let can_sink = read(build, slot.want)?.level > 1;
    let by = if can_sink && random.percent(50) {
        -1
    } else {
        1
    };
    shift(random, build, &second(slot)[from..], by)
}

/// The path ends above its leaf.
fn path_ends_above(_: &mut Random, _: &mut Build, slot: &mut Slot, _: u32) -> Option<()> {
    slot.depth -= 1;
    Some(())
}

/// Shifts pages by a level; where a leaf becomes an upper page, or one a leaf, it is written anew, if there are enough pages
/// for it to point to.
fn shift(random: &mut Random, build: &mut Build, pages: &[u32], by: i32) -> Option<()> {
    if build.n < build.k + 2 {
        return None;
    }
    for &page in pages {
        let start = page as usize * page_words(build.k);
        let old = build.words[start];
        let level = old.wrapping_add_signed(by);
        if old == 1 || level == 1 {
            write(random, build, page, level, build.k, None);
        } else {
            build.words[start] = level;
        }
    }
    Some(())
}
