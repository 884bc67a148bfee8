//! What the crate has beside the calls: parts by value, an operation stepped to its end, the lots in order, sizes and texts.

use ghazfulit::{
    numbers, pool_words, Index, Lock, Lot, Op, Refusal, Step, Stop, Way, SLOTS, STATE,
};

/// An insertion of a lot whose information is its key and 1.
fn insert(key: u32) -> Op {
    Op::insert(key, key.wrapping_add(1))
}

/// A pool with these lots.
fn entered(n: u32, keys: &[u32]) -> Index<'static> {
    let mut index = Index::new(1, n).expect("in range");
    for &key in keys {
        index.begin(0, insert(key)).expect("begun");
        assert_eq!(index.finish(0), Ok(Step::Inserted));
    }
    index
}

/// The keys from one on.
fn keys(index: &mut Index, slot: u32, from: u32) -> Result<Vec<u32>, Stop> {
    index
        .lots(slot, from)
        .map(|lot| lot.map(|lot| lot.key))
        .collect()
}

#[test]
fn the_limits_are_those_of_the_header() {
    let (k, n) = (numbers::LARGEST_K, numbers::LARGEST_N);
    let words = pool_words(k, n);
    assert_eq!(Index::new(k, n).expect("in range").words().len(), words);
    for (k, n) in [(k + 1, 1), (1, n + 1), (u32::MAX, u32::MAX), (0, 1), (1, 0)] {
        assert_eq!(Index::new(k, n).err(), Some(Refusal::BadPool));
    }
}

#[test]
fn the_size_of_a_pool_saturates() {
    assert_eq!(pool_words(16, 1024), 68_608);
    assert_eq!(pool_words(0, 0), 0);
    let most = pool_words(u32::MAX, u32::MAX);
    let true_size = (4 * u128::from(u32::MAX) + 3) * u128::from(u32::MAX);
    assert_eq!(most as u128, true_size.min(usize::MAX as u128));
}

#[test]
fn parts_go_out_and_in_by_value() {
    let mut index = entered(3, &[10, 20, 30]);
    index.begin(4, Op::search(20)).expect("begun");
    assert_eq!(index.step(4), Ok(Step::Moved));
    let (state, words) = index.into_parts();
    let mut index = Index::from_parts(state, words.clone());
    assert_eq!(index.step(4), Ok(Step::Found(21)));
    // lent words stay with their lender
    let mut lent = words.clone();
    let parts = Index::from_words(state, &mut lent).into_parts();
    assert_eq!(parts, (state, words));
    // what is no index is refused call by call
    let mut none = Index::from_parts([0; STATE], Vec::new());
    assert_eq!(none.step(0), Err(Refusal::BadState));
}

#[test]
fn an_operation_is_finished_or_waits() {
    let mut index = entered(8, &[10, 20, 30, 40, 50]);
    index.begin(1, Op::search(50)).expect("begun");
    assert_eq!(index.step(1), Ok(Step::Moved));
    index.begin(0, Op::delete(10)).expect("begun");
    assert_eq!(index.finish(0), Ok(Step::Waiting));
    assert_eq!(index.finish(1), Ok(Step::Found(51)));
    assert_eq!(index.finish(0), Ok(Step::Deleted(11)));
    assert_eq!(index.finish(0), Err(Refusal::SlotIdle));
}

#[test]
fn the_lots_come_in_order() {
    let mut index = entered(20, &[50, 10, u32::MAX, 30, 1, 20, 40]);
    let all = [1, 10, 20, 30, 40, 50, u32::MAX];
    assert_eq!(keys(&mut index, 3, 0), Ok(all.to_vec()));
    assert_eq!(keys(&mut index, 3, 31), Ok(all[4..].to_vec()));
    assert_eq!(keys(&mut index, 3, u32::MAX), Ok(vec![u32::MAX]));
    let first = index.lots(3, 5).next();
    let (key, information) = (10, 11);
    assert_eq!(first, Some(Ok(Lot { key, information })));
    // the slot is closed between two questions
    assert_eq!(index.step(3), Err(Refusal::SlotIdle));
    assert_eq!(keys(&mut entered(1, &[]), 0, 0), Ok(vec![]));
}

#[test]
fn each_lot_is_a_question_of_its_own() {
    let mut index = entered(20, &[10, 20, 30]);
    let mut lots = index.lots(3, 0);
    assert_eq!(lots.next().map(|lot| lot.map(|lot| lot.key)), Some(Ok(10)));
    for op in [insert(5), insert(25), Op::delete(30)] {
        lots.index().begin(0, op).expect("begun");
        assert!(lots.index().finish(0).expect("answered").is_end());
    }
    let rest: Result<Vec<Lot>, Stop> = lots.collect();
    let keys: Vec<u32> = rest.expect("told").iter().map(|lot| lot.key).collect();
    assert_eq!(keys, [20, 25]);
}

#[test]
fn the_lots_wait_for_an_update() {
    let mut index = entered(3, &[10, 20, 30]);
    index.begin(0, Op::regrade(10, 7)).expect("begun");
    let mut lots = index.lots(3, 0);
    assert_eq!(lots.next(), Some(Err(Stop::Waiting)));
    assert_eq!(lots.next(), Some(Err(Stop::Waiting)));
    assert_eq!(lots.index().finish(0), Ok(Step::Regraded(11)));
    let (key, information) = (10, 7);
    assert_eq!(lots.next(), Some(Ok(Lot { key, information })));
    assert_eq!(lots.count(), 2);
}

/// Above its leaf an update of the second way bars nobody who reads; it has to wait for the leaf itself.
#[test]
fn the_lots_go_on_beside_the_second_way() {
    let mut index = entered(3, &[10, 20, 30]);
    let regrade = Op::regrade(30, 7).by(Way::Second);
    index.begin(0, regrade).expect("begun");
    assert_eq!(index.step(0), Ok(Step::Moved));
    let mut lots = index.lots(3, 0);
    assert_eq!(lots.next().map(|lot| lot.map(|lot| lot.key)), Some(Ok(10)));
    // the next one is in the leaf that the regrading wants
    assert_eq!(lots.next(), Some(Err(Stop::Waiting)));
    assert_eq!(lots.index().finish(0), Ok(Step::Regraded(31)));
    assert_eq!(lots.next().map(|lot| lot.map(|lot| lot.key)), Some(Ok(20)));
    let (key, information) = (30, 7);
    assert_eq!(lots.next(), Some(Ok(Lot { key, information })));
}

/// An update of the third way bars nobody who reads before it converts; then it waits for those who are there.
#[test]
fn the_lots_go_on_beside_the_third_way() {
    let mut index = entered(3, &[10, 20, 30]);
    let delete = Op::delete(10).by(Way::Third);
    index.begin(0, delete).expect("begun");
    for _ in 0..2 {
        assert_eq!(index.step(0), Ok(Step::Moved));
    }
    assert_eq!(keys(&mut index, 3, 0), Ok(vec![10, 20, 30]));
    // with the sibling it knows its change, and page 0 is wanted once more
    assert_eq!(index.step(0), Ok(Step::Moved));
    let mut lots = index.lots(3, 0);
    assert_eq!(lots.next(), Some(Err(Stop::Waiting)));
    assert_eq!(lots.index().finish(0), Ok(Step::Deleted(11)));
    assert_eq!(lots.next().map(|lot| lot.map(|lot| lot.key)), Some(Ok(20)));
}

#[test]
fn the_lots_end_where_they_are_refused() {
    let mut index = entered(3, &[10]);
    let refused = |refusal| Some(Err(Stop::Refused(refusal)));
    let mut lots = index.lots(SLOTS, 0);
    assert_eq!(lots.next(), refused(Refusal::BadSlot));
    assert_eq!(lots.next(), None);
    index.begin(2, Op::search(10)).expect("begun");
    let mut lots = index.lots(2, 0);
    assert_eq!(lots.next(), refused(Refusal::SlotBusy));
    assert_eq!(lots.next(), None);
    assert_eq!(
        Stop::from(Refusal::SlotBusy).to_string(),
        "the slot is open"
    );
}

#[test]
fn texts_and_numbers() {
    let mut index = entered(3, &[10]);
    index.begin(2, Op::search(10)).expect("begun");
    let text = format!("{index:?}");
    assert_eq!(text, "Index { k: 1, n: 3, open: 1, words: 21, .. }");
    let (key, information) = (4, 5);
    let next = Step::Next { key, information };
    assert_eq!(next.told(), [numbers::NEXT_LOT, 4, 5, 0]);
    assert_eq!(Refusal::Damaged.number(), numbers::DAMAGED);
    assert_eq!(insert(4).numbers(), (numbers::INSERT, 4, 5));
}

#[test]
fn the_kinds_of_lock() {
    let kinds = [Lock::Rho, Lock::Xi, Lock::UpdaterRho, Lock::Alpha];
    assert_eq!(kinds.map(Lock::number), [1, 2, 3, 4]);
    assert_eq!(
        kinds.map(|lock| lock.to_string()),
        ["ρ", "ξ", "updater's ρ", "α"]
    );
}

#[test]
fn the_way_is_chosen() {
    use numbers::*;
    for (op, kinds) in [
        (Op::insert(4, 5), [INSERT, INSERT_SECOND, INSERT_THIRD]),
        (Op::delete(4), [DELETE, DELETE_SECOND, DELETE_THIRD]),
        (Op::regrade(4, 5), [REGRADE, REGRADE_SECOND, REGRADE_THIRD]),
        // who only reads has no way
        (Op::search(4), [SEARCH; 3]),
        (Op::next(4), [NEXT; 3]),
    ] {
        assert_eq!(Way::ALL.map(|way| op.by(way).numbers().0), kinds);
        let (_, key, information) = op.numbers();
        for way in Way::ALL {
            assert_eq!(op.by(way).by(Way::default()), op);
            let (_, same, too) = op.by(way).numbers();
            assert_eq!((key, information), (same, too));
        }
    }
}

#[test]
fn the_readme_has_the_first_example_of_the_crate() {
    let docs = include_str!("../src/lib.rs").lines();
    let example = docs.skip_while(|line| *line != "//! ```").skip(1);
    let lines = example.take_while(|line| *line != "//! ```");
    let code: Vec<&str> = lines
        .map(|line| line[3..].trim_start_matches(' '))
        .collect();
    let readme = include_str!("../../../README.md").lines();
    let there: Vec<&str> = readme
        .skip_while(|line| line.trim() != code[0])
        .take(code.len())
        .map(str::trim)
        .collect();
    assert_eq!(there, code);
}
