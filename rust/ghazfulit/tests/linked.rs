//! The archive as it is linked: its sizes, its numbers and its refusals.

use ghazfulit::{pool_words, Index, Lock, Op, Refusal, Step, Way, STATE};

#[test]
fn a_state_has_just_so_many_words() {
    // a fresh state has k and n in front, and every other word 0
    let index = Index::new(16, 1).expect("in range");
    assert_eq!(index.state()[..2], [16, 1]);
    assert!(index.state()[2..].iter().all(|&word| word == 0));
    assert_eq!(index.words().len(), pool_words(16, 1));
}

#[test]
fn case_e_and_its_locks() {
    let mut index = Index::new(1, 3).expect("in range");
    for key in [10, 20, 30] {
        index.begin(0, Op::insert(key, 7)).expect("begun");
        assert_eq!(index.step(0), Ok(Step::Inserted));
    }
    let pages = [
        [2, 1, 1, 20, 2, 0, 0],
        [1, 1, 10, 7, 0, 0, 0],
        [1, 2, 20, 7, 30, 7, 0],
    ];
    assert_eq!(index.words(), pages.concat());
    index.begin(0, Op::search(20)).expect("begun");
    assert_eq!(index.step(0), Ok(Step::Moved));
    let report = index.report(0).expect("a page");
    assert_eq!((report.held, report.holders), (Some((Lock::Rho, 0)), 1));
    assert_eq!(index.step(0), Ok(Step::Found(7)));
}

#[test]
fn the_next_lot() {
    let mut index = Index::new(1, 3).expect("in range");
    index.begin(0, Op::next(10)).expect("begun");
    assert_eq!(index.step(0), Ok(Step::None));
    for key in [10, 20, 30] {
        index.begin(0, Op::insert(key, key + 1)).expect("begun");
        assert_eq!(index.step(0), Ok(Step::Inserted));
    }
    // its leaf has nothing for it, and it keeps both while it wants the second one
    index.begin(2, Op::next(11)).expect("begun");
    for holders in [0, 1] {
        assert_eq!(index.step(2), Ok(Step::Moved));
        assert_eq!(index.report(1).expect("a page").holders, holders);
    }
    let report = index.report(0).expect("a page");
    assert_eq!((report.held, report.holders), (Some((Lock::Rho, 2)), 1));
    let next = Step::Next {
        key: 20,
        information: 21,
    };
    assert_eq!(index.step(2), Ok(next));
    assert!(next.is_end() && Step::None.is_end());
    assert_eq!(
        (next.to_string(), Step::None.to_string()),
        ("Next 20 21".to_string(), "None".to_string())
    );
}

#[test]
fn a_lot_is_regraded() {
    let mut index = Index::new(1, 1).expect("in range");
    let key = 10;
    let regrade = |information| Op::regrade(key, information);
    let insert = |information| Op::insert(key, information);
    for (op, answer, text, found) in [
        (regrade(9), Step::NoSuchKey, "NoSuchKey", Step::NotFound),
        (insert(7), Step::Inserted, "Inserted", Step::Found(7)),
        (regrade(9), Step::Regraded(7), "Regraded 7", Step::Found(9)),
        (
            insert(8),
            Step::AlreadyThere(9),
            "AlreadyThere 9",
            Step::Found(9),
        ),
    ] {
        index.begin(0, op).expect("begun");
        index.begin(1, Op::search(key)).expect("begun");
        // it goes with nothing, and the search behind it finds what it left
        assert_eq!(index.step(1), Ok(Step::Waiting));
        assert_eq!(index.step(0), Ok(answer));
        assert_eq!((answer.is_end(), answer.to_string().as_str()), (true, text));
        assert_eq!(index.step(1), Ok(found));
    }
    assert_eq!(index.words(), [1, 1, 10, 9, 0, 0, 0]);
}

#[test]
fn a_search_does_not_wait_for_a_search() {
    let mut index = Index::new(1, 1).expect("in range");
    let ops = [
        Op::search(5),
        Op::search(5),
        Op::insert(5, 7),
        Op::search(5),
    ];
    for (slot, op) in ops.into_iter().enumerate() {
        index.begin(slot as u32, op).expect("begun");
    }
    // case K; then what is older and updates, or is older than an update
    assert_eq!(index.step(1), Ok(Step::NotFound));
    assert_eq!(index.step(3), Ok(Step::Waiting));
    assert_eq!(index.step(2), Ok(Step::Waiting));
    assert_eq!(index.step(0), Ok(Step::NotFound));
    assert_eq!(index.step(2), Ok(Step::Inserted));
    assert_eq!(index.step(3), Ok(Step::Found(7)));
}

#[test]
fn an_update_goes_down_like_a_reader() {
    let mut index = Index::new(1, 4).expect("in range");
    for key in [10, 20, 30] {
        index.begin(0, Op::insert(key, 7)).expect("begun");
        assert_eq!(index.step(0), Ok(Step::Inserted));
    }
    let second = |op: Op| op.by(Way::Second);
    // a search holds page 0 with it; its leaf has room
    index.begin(0, second(Op::insert(5, 7))).expect("begun");
    index.begin(1, Op::search(20)).expect("begun");
    assert_eq!(index.step(0), Ok(Step::Moved));
    assert_eq!(index.step(1), Ok(Step::Moved));
    let report = index.report(0).expect("a page");
    assert_eq!(
        (report.held, report.holders),
        (Some((Lock::UpdaterRho, 0)), 2)
    );
    assert_eq!(index.step(0), Ok(Step::Inserted));
    assert_eq!(index.step(1), Ok(Step::Found(7)));
    // the leaf is full: it gives up all, and begins again by the first way
    index.begin(0, second(Op::insert(25, 7))).expect("begun");
    for lock in [Some((Lock::UpdaterRho, 0)), None, Some((Lock::Xi, 0))] {
        assert_eq!(index.step(0), Ok(Step::Moved));
        assert_eq!(index.report(0).expect("a page").held, lock);
    }
    assert_eq!(index.step(0), Ok(Step::Inserted));
    for (op, answer) in [
        (Op::insert(25, 9), Step::AlreadyThere(7)),
        (Op::regrade(25, 9), Step::Regraded(7)),
        (Op::delete(25), Step::Deleted(9)),
        (Op::delete(25), Step::NoSuchKey),
    ] {
        index.begin(2, second(op)).expect("begun");
        assert_eq!(index.step(2), Ok(Step::Moved));
        assert_eq!(index.step(2), Ok(answer));
    }
    let pages = [
        [2, 2, 1, 20, 2, 25, 3],
        [1, 2, 5, 7, 10, 7, 0],
        [1, 1, 20, 7, 0, 0, 0],
        [1, 1, 30, 7, 0, 0, 0],
    ];
    assert_eq!(index.words(), pages.concat());
}

#[test]
fn a_held_page_has_its_kind_in_its_word() {
    let mut index = Index::new(1, 3).expect("in range");
    for key in [10, 20, 30] {
        index.begin(0, Op::insert(key, 7)).expect("begun");
        assert_eq!(index.step(0), Ok(Step::Inserted));
    }
    for (op, lock) in [
        (Op::search(10), Lock::Rho),
        (Op::regrade(10, 7), Lock::Xi),
        (Op::regrade(10, 7).by(Way::Second), Lock::UpdaterRho),
        (Op::regrade(10, 7).by(Way::Third), Lock::Alpha),
    ] {
        index.begin(3, op).expect("begun");
        assert_eq!(index.step(3), Ok(Step::Moved));
        assert_eq!(index.report(0).expect("a page").held, Some((lock, 3)));
        // the top of the path of slot 3: page 0, and the kind above it
        let top = 19 + 16 * 7 + 3;
        assert_eq!(index.state()[top], lock.number() << 16);
        let (mut state, words) = (*index.state(), index.words().to_vec());
        // by the third way a page may be converted, though this one is not: that is a matter of the pages
        let may_hold = |number: u32| {
            number == lock.number() || (lock == Lock::Alpha && number == Lock::Xi.number())
        };
        for number in (0..9).filter(|&number| !may_hold(number)) {
            state[top] = number << 16;
            let mut other = Index::from_parts(state, words.clone());
            assert_eq!(other.step(3), Err(Refusal::BadState), "{op:?} {number}");
        }
        index.finish(3).expect("it ends");
    }
}

#[test]
fn an_update_lets_readers_stay() {
    let mut index = Index::new(1, 4).expect("in range");
    for key in [10, 20, 30] {
        index.begin(0, Op::insert(key, 7)).expect("begun");
        assert_eq!(index.step(0), Ok(Step::Inserted));
    }
    let third = |op: Op| op.by(Way::Third);
    let held = |index: &Index, page: u32| index.report(page).expect("a page").held;
    index.begin(1, Op::search(10)).expect("begun");
    assert_eq!(index.step(1), Ok(Step::Moved));
    // pages 0 and 2 are to change; both are held with α, and page 0 is read meanwhile
    index.begin(0, third(Op::insert(25, 7))).expect("begun");
    assert_eq!(index.step(0), Ok(Step::Moved));
    assert_eq!(index.step(0), Ok(Step::Moved));
    assert_eq!(held(&index, 0), Some((Lock::Alpha, 0)));
    assert_eq!(held(&index, 2), Some((Lock::Alpha, 0)));
    // the conversion of page 0 waits for the search, and a search that comes for the conversion
    assert_eq!(index.step(0), Ok(Step::Waiting));
    index.begin(2, Op::search(20)).expect("begun");
    assert_eq!(index.step(2), Ok(Step::Waiting));
    assert_eq!(index.step(1), Ok(Step::Found(7)));
    assert_eq!(index.step(2), Ok(Step::Waiting));
    assert_eq!(index.step(0), Ok(Step::Moved));
    assert_eq!(held(&index, 0), Some((Lock::Xi, 0)));
    assert_eq!(index.step(0), Ok(Step::Inserted));
    assert_eq!(index.finish(2), Ok(Step::Found(7)));
    for (op, moves, answer) in [
        (Op::insert(25, 9), 1, Step::AlreadyThere(7)),
        (Op::regrade(25, 9), 2, Step::Regraded(7)),
        (Op::delete(25), 2, Step::Deleted(9)),
        (Op::delete(25), 1, Step::NoSuchKey),
    ] {
        index.begin(2, third(op)).expect("begun");
        for _ in 0..moves {
            assert_eq!(index.step(2), Ok(Step::Moved));
        }
        assert_eq!(index.step(2), Ok(answer));
    }
}

#[test]
fn a_refused_call_leaves_all_as_it_was() {
    let mut words = vec![5; 9];
    assert_eq!(Index::over(1, 1, &mut words).err(), Some(Refusal::BadPool));
    let mut index = Index::from_words([3; STATE], &mut words);
    assert_eq!(index.step(0), Err(Refusal::BadState));
    assert_eq!(index.begin(0, Op::delete(1)), Err(Refusal::BadState));
    assert_eq!(index.report(0), Err(Refusal::BadState));
    assert_eq!(index.state(), &[3; STATE]);
    assert_eq!(words, [5; 9]);
}
