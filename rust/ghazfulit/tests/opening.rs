//! Saving a pool and opening it: the round trip, what is refused, and that the words come back.

use ghazfulit::{numbers, pool_words, Index, Lot, NotOpened, Op, Refusal, Step, Stop, Way, STATE};

/// The words of case E, k = 1: page 0 above the leaves 1 (10) and 2 (20, 30).
const E: [u32; 21] = [
    2, 1, 1, 20, 2, 0, 0, // page 0
    1, 1, 10, 7, 0, 0, 0, // page 1
    1, 2, 20, 7, 30, 7, 0, // page 2
];

/// A pool in which lots were entered and taken out, by each way in turn.
fn grown() -> Index<'static> {
    let mut index = Index::new(2, 64).expect("in range");
    // 101 is a prime, so that no lot has number 0
    let entered = (1..91).map(|i| Op::insert(7 * i % 101, i));
    let taken = (0..40).map(|i| Op::delete(7 * (1 + 3 * i % 90) % 101));
    for (op, way) in entered.chain(taken).zip(Way::ALL.into_iter().cycle()) {
        index.begin(0, op.by(way)).expect("begun");
        let step = index.finish(0).expect("answered");
        assert!(step.is_end(), "{op:?}");
    }
    index
}

/// All lots.
fn lots(index: &mut Index) -> Vec<Lot> {
    let lots: Result<Vec<Lot>, Stop> = index.lots(15, 0).collect();
    lots.expect("nobody else is at work")
}

/// What opening these words is refused with; they come back as they were.
fn refused(k: u32, n: u32, words: &[u32]) -> Option<Refusal> {
    let not_opened = Index::open(k, n, words.to_vec()).err()?;
    assert_eq!(not_opened.words, words);
    Some(not_opened.refusal)
}

#[test]
fn what_was_saved_is_there_again() {
    let mut index = grown();
    let there = lots(&mut index);
    assert!(there.len() > 40);
    let saved = index.into_words();
    let mut index = Index::open(2, 64, saved.clone()).expect("a pool");
    assert_eq!(index.words(), saved);
    assert_eq!(index.state()[..2], [2, 64]);
    assert!(index.state()[2..].iter().all(|&word| word == 0));
    assert_eq!(lots(&mut index), there);
    // and it goes on
    index.begin(0, Op::insert(1000, 1)).expect("begun");
    assert_eq!(index.finish(0), Ok(Step::Inserted));
    assert_eq!(lots(&mut index).len(), there.len() + 1);
}

/// At any moment of a run the words can be saved; what was open has done nothing there, and is begun again by who asked for it.
#[test]
fn operations_that_were_open_are_not_saved() {
    let mut index = grown();
    let there = lots(&mut index);
    index.begin(3, Op::insert(1000, 1)).expect("begun");
    assert_eq!(index.step(3), Ok(Step::Moved));
    let mut index = Index::open(2, 64, index.words().to_vec()).expect("a pool");
    assert_eq!(index.step(3), Err(Refusal::SlotIdle));
    assert_eq!(lots(&mut index), there);
    assert_eq!(index.report(0).expect("a page").held, None);
}

#[test]
fn what_is_no_pool_is_refused() {
    assert_eq!(refused(1, 3, &E), None);
    assert_eq!(refused(1, 4, &E), Some(Refusal::BadPool));
    assert_eq!(refused(0, 3, &E), Some(Refusal::BadPool));
    assert_eq!(refused(17, 1025, &[]), Some(Refusal::BadPool));
    for (at, word, refusal) in [
        (0, 0, Refusal::BadPageInPool(0)),
        (20, 1, Refusal::BadPageInPool(2)),
        (7, 11, Refusal::BadPageInPool(1)),
        (4, 3, Refusal::BadPageInPool(0)),
        // a key at the end of its range, a level too many, a loose reference key beyond a leaf's key
        (9, 20, Refusal::BadTree),
        (0, 3, Refusal::BadTree),
        (3, 21, Refusal::BadTree),
    ] {
        let mut words = E;
        words[at] = word;
        assert_eq!(refused(1, 3, &words), Some(refusal), "{at}");
    }
    // a reference key that stands in no leaf
    let mut loose = E;
    loose[3] = 15;
    assert_eq!(refused(1, 3, &loose), None);
}

/// One word changed anywhere in a pool: it is opened, or refused as no tree or with just the page that the word stands in.
#[test]
fn each_word_of_a_pool_matters() {
    let words = grown().into_words();
    let size = pool_words(2, 1);
    for at in 0..words.len() {
        let mut changed = words.clone();
        changed[at] ^= 1;
        match refused(2, 64, &changed) {
            Some(Refusal::BadPageInPool(page)) => assert_eq!(page as usize, at / size),
            Some(refusal) => assert_eq!(refusal, Refusal::BadTree),
            // information is any number, and a key may have room; but a free page has none of both
            None => assert!(changed[at / size * size] > 0),
        }
    }
}

#[test]
fn lent_words_are_opened_where_they_lie() {
    let mut words = E;
    let mut index = Index::open_over(1, 3, &mut words).expect("a pool");
    index.begin(0, Op::regrade(20, 9)).expect("begun");
    assert_eq!(index.finish(0), Ok(Step::Regraded(7)));
    assert_eq!(words[17], 9);
    words[17] = 7;
    assert_eq!(words, E);
    let short = Index::open_over(1, 3, &mut words[1..]);
    assert_eq!(short.err(), Some(Refusal::BadPool));
    assert_eq!(words, E);
}

#[test]
fn texts_and_numbers_of_what_is_not_opened() {
    let not_opened = Index::open(1, 1, vec![9; 7]).expect_err("no page");
    assert_eq!(not_opened.to_string(), "page 0 is not sound by itself");
    let text = "NotOpened { refusal: BadPageInPool(0), words: 7 }";
    assert_eq!(format!("{not_opened:?}"), text);
    assert_eq!(Refusal::from(not_opened.clone()), Refusal::BadPageInPool(0));
    let stop = Stop::Refused(Refusal::BadPageInPool(0));
    assert_eq!(Stop::from(not_opened), stop);
    assert_eq!(Refusal::BadPageInPool(5).number(), 9);
    assert_eq!(Refusal::BadTree.number(), numbers::BAD_TREE);
    assert_eq!(Refusal::BadTree.to_string(), "the pages do not form a tree");
    assert_eq!((numbers::OPENED, numbers::BAD_TREE), (47, 10));
    let error: Box<dyn std::error::Error> = Box::new(NotOpened {
        refusal: Refusal::BadTree,
        words: Vec::new(),
    });
    assert_eq!(error.to_string(), "the pages do not form a tree");
}

/// What a making leaves is opened, and the state is the same.
#[test]
fn a_fresh_pool_is_opened() {
    for (k, n) in [(1, 1), (16, 1), (2, 64), (16, 1024)] {
        let (state, words) = Index::new(k, n).expect("in range").into_parts();
        let index = Index::open(k, n, words).expect("a pool");
        assert_eq!(*index.state(), state);
        assert_eq!(state.len(), STATE);
    }
}
