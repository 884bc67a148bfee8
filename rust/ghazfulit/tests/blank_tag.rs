//! The blank tag: who may name lot number 0, and what a page with key 0 is taken for.

use ghazfulit::{numbers, Index, Lot, Op, Refusal, Step, Stop, Way, SLOTS, STATE};

/// The words of case E, k = 1: page 0 above the leaves 1 (10) and 2 (20, 30).
const E: [u32; 21] = [
    2, 1, 1, 20, 2, 0, 0, // page 0
    1, 1, 10, 7, 0, 0, 0, // page 1
    1, 2, 20, 7, 30, 7, 0, // page 2
];

/// Every operation that names a lot, by every way that it has.
fn naming(key: u32) -> Vec<Op> {
    let updates = [Op::insert(key, 7), Op::delete(key), Op::regrade(key, 7)];
    let updates = Way::ALL
        .into_iter()
        .flat_map(|way| updates.map(|op| op.by(way)));
    [Op::search(key)].into_iter().chain(updates).collect()
}

/// E, opened.
fn e() -> Index<'static> {
    Index::open(1, 3, E.to_vec()).expect("a pool")
}

/// E with one word changed behind the back of the index.
fn changed(at: usize, word: u32) -> Index<'static> {
    let (state, mut words) = e().into_parts();
    words[at] = word;
    Index::from_parts(state, words)
}

#[test]
fn lot_number_0_is_refused_by_every_operation_that_names_it() {
    let mut index = e();
    let state = *index.state();
    assert_eq!(naming(0).len(), 10);
    for op in naming(0) {
        assert_eq!(index.begin(0, op), Err(Refusal::BadKey), "{op:?}");
        assert_eq!(index.step(0), Err(Refusal::SlotIdle));
        assert_eq!((index.state(), index.words()), (&state, &E[..]));
    }
    // the number beside it is a lot's, and information is any number
    for op in naming(1) {
        let mut index = e();
        assert_eq!(index.begin(0, op), Ok(()), "{op:?}");
    }
    index.begin(0, Op::insert(1, 0)).expect("begun");
    assert_eq!(index.finish(0), Ok(Step::Inserted));
}

#[test]
fn the_first_lot_of_all_is_asked_for() {
    let mut index = Index::new(1, 3).expect("in range");
    index.begin(0, Op::next(0)).expect("begun");
    assert_eq!(index.finish(0), Ok(Step::None));
    let mut index = e();
    index.begin(0, Op::next(0)).expect("begun");
    let (key, information) = (10, 7);
    assert_eq!(index.finish(0), Ok(Step::Next { key, information }));
    let lots: Result<Vec<Lot>, Stop> = index.lots(0, 0).collect();
    assert_eq!(lots.expect("nobody else is at work").len(), 3);
}

#[test]
fn it_is_refused_after_all_else() {
    let mut index = e();
    index.begin(3, Op::search(10)).expect("begun");
    let mut none = Index::from_parts([0; STATE], E.to_vec());
    for op in naming(0) {
        assert_eq!(index.begin(3, op), Err(Refusal::SlotBusy), "{op:?}");
        assert_eq!(index.begin(SLOTS, op), Err(Refusal::BadSlot), "{op:?}");
        assert_eq!(index.begin(4, op), Err(Refusal::BadKey), "{op:?}");
        assert_eq!(none.begin(0, op), Err(Refusal::BadState), "{op:?}");
    }
    assert_eq!(index.finish(3), Ok(Step::Found(7)));
}

#[test]
fn a_leaf_with_key_0_is_damaged() {
    for op in naming(5).into_iter().chain([Op::next(5), Op::next(0)]) {
        let mut index = changed(9, 0);
        index.begin(0, op).expect("begun");
        assert_eq!(index.finish(0), Err(Refusal::Damaged), "{op:?}");
        assert_eq!(index.report(1).expect("a page").held, None);
    }
    // who goes elsewhere does not meet it
    let mut index = changed(9, 0);
    index.begin(0, Op::search(20)).expect("begun");
    assert_eq!(index.finish(0), Ok(Step::Found(7)));
}

#[test]
fn a_reference_key_0_is_not() {
    let mut index = changed(3, 0);
    for (op, step) in [
        (Op::search(20), Step::Found(7)),
        (Op::search(5), Step::NotFound),
        (Op::insert(5, 7), Step::NoRoom),
        (Op::delete(30).by(Way::Third), Step::Deleted(7)),
    ] {
        index.begin(0, op).expect("begun");
        assert_eq!(index.finish(0), Ok(step), "{op:?}");
    }
}

#[test]
fn a_pool_with_key_0_is_not_opened() {
    for (at, refusal) in [
        (9, Refusal::BadPageInPool(1)),
        (16, Refusal::BadPageInPool(2)),
        (3, Refusal::BadTree),
    ] {
        let mut words = E.to_vec();
        words[at] = 0;
        let refused = Index::open(1, 3, words.clone()).expect_err("key 0");
        assert_eq!((refused.refusal, refused.words), (refusal, words));
    }
    let root = Index::open(1, 1, vec![1, 1, 0, 7, 0, 0, 0]);
    let refusal = Refusal::BadPageInPool(0);
    assert_eq!(root.err().map(|refused| refused.refusal), Some(refusal));
    // a leaf without a key, and the lowest lot
    for words in [[1, 0, 0, 0, 0, 0, 0], [1, 1, 1, 0, 0, 0, 0]] {
        assert!(Index::open(1, 1, words.to_vec()).is_ok());
    }
}

#[test]
fn its_number_and_text() {
    assert_eq!((numbers::BAD_KEY, numbers::VERSION), (8, 7));
    assert_eq!(Refusal::BadKey.number(), 8);
    assert!(numbers::refuses(numbers::BAD_KEY));
    let text = "key 0 is that of a blank tag, and no lot's";
    assert_eq!(Refusal::BadKey.to_string(), text);
}
