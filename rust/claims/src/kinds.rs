//! Names for what a call did, to count how much the claims cover.

use moments::{Call, Moment};
use twin::{free_pages, page_words, Answer, Op, Slot, Way, BLANK_KEY};

/// The name of what a call did from one moment to the next.
pub fn kind(before: &Moment, call: Call, answer: Answer, after: &Moment) -> String {
    match (call, answer) {
        (Call::Step(_), Answer::Inserted) => inserted(before, after),
        (Call::Step(slot), Answer::Deleted(_)) => deleted(before, &before.state.slots[slot], after),
        (Call::Step(slot), Answer::Damaged | Answer::Moved | Answer::Next(..) | Answer::None) => {
            let (was, is) = (&before.state.slots[slot], &after.state.slots[slot]);
            let again = if was.op == is.op || answer != Answer::Moved {
                ""
            } else {
                ", begins again"
            };
            let blank = if answer == Answer::Damaged && meets_blank(before, was) {
                ", key 0 in a leaf"
            } else {
                ""
            };
            format!("{} {}{again}{blank}", answer.name(), stand(before, was))
        }
        _ => answer.name().to_string(),
    }
}

/// How many pages an insertion took, and whether the root rose.
fn inserted(before: &Moment, after: &Moment) -> String {
    let free = |moment: &Moment| free_pages(&moment.words, moment.state.k, moment.state.n).len();
    let taken = free(before) - free(after);
    let root = match after.words[0] {
        level if level == before.words[0] => "",
        11 => ", root to level 11",
        _ => ", root rises",
    };
    format!("Inserted, {taken} taken{root}")
}

/// The sides of the siblings used from the leaf's upward, how the last was used, and the root.
fn deleted(before: &Moment, slot: &Slot, after: &Moment) -> String {
    if !has_leaf(before, slot) {
        return "Deleted".to_string();
    }
    // by the third way all of them are held before the last conversion
    let wanted: &[u32] = if slot.converts() { &[] } else { &[slot.want] };
    let siblings = [slot.siblings(), wanted].concat();
    let Some(&last) = siblings.last() else {
        return "Deleted".to_string();
    };
    let sides: String = (0..siblings.len())
        .map(|height| side(before, slot, height, siblings[height]))
        .collect();
    let does_move = page(before, last)[1] > before.state.k;
    let last = if does_move { "move" } else { "join" };
    let root = if after.words[0] < before.words[0] {
        ", root falls"
    } else {
        ""
    };
    format!("Deleted, {sides} {last}{root}")
}

/// R or L: where the sibling stands from the path page at this height.
fn side(moment: &Moment, slot: &Slot, height: usize, sibling: u32) -> char {
    let at = slot.depth - 1 - height;
    let pointers: Vec<u32> = page(moment, slot.path[at - 1])[2..]
        .iter()
        .step_by(2)
        .copied()
        .collect();
    let place = |number: u32| pointers.iter().position(|&pointer| pointer == number);
    if place(sibling) > place(slot.path[at]) {
        'R'
    } else {
        'L'
    }
}

/// Where an operation stands: which one, how many pages it holds, and if beside its leaf.
fn stand(moment: &Moment, slot: &Slot) -> String {
    let op = match slot.op {
        Some(Op::Search(_)) => "search",
        Some(Op::Insert(..)) => "insertion",
        Some(Op::Next(_)) => "next",
        Some(Op::Regrade(..)) => "regrading",
        _ => "deletion",
    };
    let way = match slot.op.and_then(Op::way) {
        Some(Way::Second) => " by the second way",
        Some(Way::Third) => " by the third way",
        _ => "",
    };
    let leaf = match has_leaf(moment, slot) {
        _ if slot.converts() => " that converts",
        true => " at its leaf",
        false => "",
    };
    format!("{op}{way}{leaf} {}+{}", slot.depth, slot.beside)
}

/// Whether a slot holds or wants a leaf with the key of a blank tag.
fn meets_blank(moment: &Moment, slot: &Slot) -> bool {
    let mut pages = slot.held().into_iter().chain([slot.want]);
    pages.any(|number| {
        let page = page(moment, number);
        page[0] == 1 && page[1] > 0 && page[2] == BLANK_KEY
    })
}

/// Whether the lowest path page is a leaf.
fn has_leaf(moment: &Moment, slot: &Slot) -> bool {
    slot.path()
        .last()
        .is_some_and(|&number| page(moment, number)[0] == 1)
}

/// The words of a page.
fn page(moment: &Moment, number: u32) -> &[u32] {
    let size = page_words(moment.state.k);
    &moment.words[number as usize * size..][..size]
}
