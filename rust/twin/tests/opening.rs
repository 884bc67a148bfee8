//! Opening a pool that somebody hands in, 02 (vii): each refusal with its page, what is accepted, and random pools with something changed.

mod common;

use common::pools::{three_levels, two_levels};
use common::Run;
use draw::Random;
use twin::Way::{self, First};
use twin::{open, open_lent, page_words, read_page, words_of, Answer, Op, Page, State, STATE};

/// The words of case E: page 0 above the leaves 1 (10) and 2 (20, 30).
const E: [u32; 21] = [
    2, 1, 1, 20, 2, 0, 0, // page 0
    1, 1, 10, 7, 0, 0, 0, // page 1
    1, 2, 20, 7, 30, 7, 0, // page 2
];

/// What opening words says, k = 1; the state that it gives is all closed with k and N, or the empty one.
fn opened(words: &[u32]) -> Answer {
    let n = words.len() as u32 / 7;
    let (answer, state) = open(1, n, words);
    let expected = match answer {
        Answer::Opened => State::empty(1, n),
        _ => State::empty(0, 0),
    };
    assert_eq!(state, expected);
    answer
}

/// What it says of words in which some are put otherwise.
fn changed(words: &[u32], spoiled: &[(usize, u32)]) -> Answer {
    let mut words = words.to_vec();
    for &(at, word) in spoiled {
        words[at] = word;
    }
    opened(&words)
}

#[test]
fn e_is_opened_and_the_run_goes_on() {
    let mut run = two_levels();
    assert_eq!(run.words, E);
    // a slot is in the middle of its way: opening ends the run
    run.begin(3, Op::Insert(40, 7, First));
    assert_eq!(run.step(3), Answer::Moved);
    run.reopen();
    assert_eq!(run.step(3), Answer::SlotIdle);
    run.begin(0, Op::Search(20));
    assert_eq!(run.step(0), Answer::Moved);
    assert_eq!(run.step(0), Answer::Found(7));
    run.begin(0, Op::Insert(15, 7, First));
    assert_eq!(run.step(0), Answer::Moved);
    assert_eq!(run.step(0), Answer::Inserted);
    run.check();
}

#[test]
fn a_fresh_pool_is_opened() {
    for (k, n) in [(1, 1), (16, 1), (1, 1024), (16, 1024), (3, 7)] {
        Run::new(k, n).reopen();
    }
    // an empty leaf at page 0, and every other page all zeros
    assert_eq!(opened(&[1, 0, 0, 0, 0, 0, 0]), Answer::Opened);
    assert_eq!(
        opened(&[[1; 1].as_slice(), &[0; 20]].concat()),
        Answer::Opened
    );
}

/// "when making a pool: k, N or length out of range", before any page is looked at.
#[test]
fn out_of_range() {
    let empty = (Answer::BadPool, State::empty(0, 0));
    for (k, n) in [(0, 3), (17, 3), (1, 0), (1, 1025), (1, 2), (1, 4), (2, 3)] {
        assert_eq!(open(k, n, &E), empty, "{k} {n}");
    }
    assert_eq!(open(u32::MAX, u32::MAX, &E), empty);
    assert_eq!(open(1, 3, &E[..20]), empty);
    assert_eq!(open(1, 0, &[]), empty);
    assert_eq!(open(1, 3, &[9; 22]), empty);
}

/// Each of these changes makes a page of E, k = 1, one that is not sound by itself.
fn is_named(changes: &[(u32, &[(usize, u32)])]) {
    for &(page, spoiled) in changes {
        let expected = Answer::BadPageInPool(page);
        assert_eq!(changed(&E, spoiled), expected, "{spoiled:?}");
    }
}

/// "its level, μ, keys, pointers and unused words as 01 has them".
#[test]
fn a_page_that_is_not_sound_by_itself() {
    let (one, two) = (7, 14);
    is_named(&[
        // levels
        (0, &[(0, 11)]),
        (0, &[(0, u32::MAX)]),
        (1, &[(one, 0)]),
        (2, &[(two, 11)]),
        // μ: page 0 has 1 to 2k above the leaves, every other page k to 2k
        (0, &[(1, 0), (3, 0), (4, 0)]),
        (0, &[(1, 3)]),
        (0, &[(1, u32::MAX)]),
        (1, &[(one + 1, 0), (one + 2, 0), (one + 3, 0)]),
        (2, &[(two + 1, 3)]),
        (2, &[(two + 1, 1 << 31)]),
        // keys rise
        (2, &[(two + 4, 20)]),
        (2, &[(two + 4, 19)]),
        // pointers are all different and from 1 to N-1
        (0, &[(2, 0)]),
        (0, &[(2, 3)]),
        (0, &[(4, 1)]),
        (0, &[(4, u32::MAX)]),
        // unused words
        (0, &[(5, 1)]),
        (0, &[(6, 1)]),
        (1, &[(one + 4, 5)]),
        (2, &[(two + 6, 1)]),
        // all zeros, and page 0
        (0, &[(0, 0), (1, 0), (2, 0), (3, 0), (4, 0)]),
        // a leaf read as an upper page: 10 is no page
        (1, &[(one, 2)]),
    ]);
}

/// Page 0's μ is page 0's: 1 to 2k, and as a leaf from 0 on. Other pages have k at least.
#[test]
fn the_number_in_page_0() {
    let size = page_words(2);
    for count in 0..=5 {
        let mut words = vec![0; 4 * size];
        words[..2].copy_from_slice(&[1, count]);
        for i in 0..(count as usize).min(4) {
            words[2 + 2 * i] = 10 * (i as u32 + 1);
        }
        let expected = match count {
            5 => Answer::BadPageInPool(0),
            _ => Answer::Opened,
        };
        assert_eq!(open(2, 4, &words).0, expected, "{count}");
        // the same page as a leaf of its own is short with 0 and 1, and otherwise hangs nowhere
        words.copy_within(..size, 2 * size);
        let expected = match count {
            5 => Answer::BadPageInPool(0),
            0 | 1 => Answer::BadPageInPool(2),
            _ => Answer::BadTree,
        };
        assert_eq!(open(2, 4, &words).0, expected, "{count}");
    }
}

/// "the lowest-numbered page that is not sound by itself", also where the tree is wrong, and wherever the page hangs.
#[test]
fn the_lowest_page_is_named() {
    let words = three_levels().words;
    // the last words of the pages, which no page of this tree uses
    let ends: Vec<usize> = (0..8).map(|page| 7 * page + 6).collect();
    for lowest in 0..8 {
        let spoiled: Vec<(usize, u32)> = ends[lowest..].iter().map(|&at| (at, 1)).collect();
        let expected = Answer::BadPageInPool(lowest as u32);
        assert_eq!(changed(&words, &spoiled), expected);
        // page 0 says one level too many, so that there is no tree; but a page is named before that
        let no_tree = [&[(0, 4)], &spoiled[..1]].concat();
        assert_eq!(changed(&words, &no_tree), expected);
    }
    assert_eq!(changed(&words, &[(0, 4)]), Answer::BadTree);
}

/// "exactly if they form the B*-tree of document 01 from page 0, every other page is all zeros, and no page hangs in two places".
#[test]
fn pages_that_form_no_tree() {
    let words = three_levels().words;
    let page = |page: usize, word: usize| 7 * page + word;
    for spoiled in [
        // levels: page 0 too high; a leaf where a page of level 2 should hang
        &[(0, 4)][..],
        &[(page(0, 2), 1)],
        // keys below their range and at its end, in leaves and above them
        &[(page(3, 2), 29)],
        &[(page(2, 2), 30)],
        &[(page(4, 2), 39)],
        &[(page(5, 3), 30)],
        &[(page(6, 3), 29)],
        // reference keys that leave a leaf's keys outside
        &[(3, 31)],
        &[(page(5, 3), 10)],
        &[(page(5, 3), 21)],
        // page 3 in two places, and page 2 nowhere; two leaves, each in the other's place
        &[(page(5, 4), 3)],
        &[(page(5, 2), 2), (page(5, 4), 1)],
        // a free page hangs in the tree
        &[(page(0, 2), 7)],
        &[(page(6, 4), 7)],
    ] {
        assert_eq!(changed(&words, spoiled), Answer::BadTree, "{spoiled:?}");
    }
    // page 7 is a leaf that hangs nowhere; or has a single word
    let leaf = [(page(7, 0), 1), (page(7, 1), 1), (page(7, 2), 60)];
    assert_eq!(changed(&words, &leaf), Answer::BadTree);
    for word in 0..7 {
        let free = [(page(7, word), 1)];
        assert_eq!(changed(&words, &free), Answer::BadPageInPool(7));
    }
}

/// A leaf under two fathers, and every page is met. In one of the two places its key is out of range, since ranges do not overlap and no leaf but
/// page 0 is empty: a check must not pass over a page that it has met.
#[test]
fn a_page_in_two_places() {
    let words = [
        [3, 1, 1, 20, 2, 0, 0],
        [2, 1, 3, 10, 4, 0, 0],
        [2, 1, 4, 30, 5, 0, 0],
        [1, 1, 5, 7, 0, 0, 0],
        [1, 1, 15, 7, 0, 0, 0],
        [1, 1, 35, 7, 0, 0, 0],
    ];
    assert_eq!(opened(&words.concat()), Answer::BadTree);
    // with a leaf of its own for the second father it is a tree
    let mut right = words.to_vec();
    right[2][2] = 6;
    right.push([1, 1, 25, 7, 0, 0, 0]);
    assert_eq!(opened(&right.concat()), Answer::Opened);
}

/// Reference keys need not stand in a leaf, and both ends of the range of all lots may: 1 and the largest.
#[test]
fn loose_reference_keys_and_the_ends_of_the_range() {
    assert_eq!(changed(&E, &[(3, 11)]), Answer::Opened);
    assert_eq!(changed(&E, &[(3, 19)]), Answer::Opened);
    assert_eq!(changed(&E, &[(3, 10)]), Answer::BadTree);
    assert_eq!(changed(&E, &[(3, 21)]), Answer::BadTree);
    assert_eq!(
        changed(&E, &[(7 + 2, 1), (14 + 4, u32::MAX)]),
        Answer::Opened
    );
    // information is any number
    assert_eq!(
        changed(&E, &[(7 + 3, u32::MAX), (14 + 3, 0)]),
        Answer::Opened
    );
}

/// A tree of ten levels, the most that there are, and one of 1,024 pages.
#[test]
fn the_tallest_trees() {
    for (k, apart) in [(1, 3), (2, 1)] {
        let mut run = Run::new(k, 1024);
        run.rise(apart);
        run.reopen();
    }
}

#[test]
fn the_state_is_written_whole() {
    let mut state = [9; STATE];
    assert_eq!(open_lent(1, 3, &mut state, &E), Answer::Opened);
    assert_eq!(state, words_of(&State::empty(1, 3)));
    assert_eq!((state[0], state[1]), (1, 3));
    let refusals = [
        (4, E, Answer::BadPool),
        (3, [9; 21], Answer::BadPageInPool(0)),
        (
            3,
            E.map(|word| if word == 2 { 3 } else { word }),
            Answer::BadPageInPool(0),
        ),
        (
            3,
            E.map(|word| if word == 10 { 20 } else { word }),
            Answer::BadTree,
        ),
    ];
    for (n, words, refusal) in refusals {
        state = [9; STATE];
        assert_eq!(open_lent(1, n, &mut state, &words), refusal);
        assert_eq!(state, [0; STATE]);
    }
}

/// All pages, where each is sound by itself or all zeros and not page 0; else the lowest that is not.
fn pages(k: u32, n: u32, words: &[u32]) -> Result<Vec<Option<Page>>, u32> {
    let part = |number: u32| &words[number as usize * page_words(k)..][..page_words(k)];
    let is_free = |number: u32| number > 0 && part(number).iter().all(|&word| word == 0);
    let page = |number| match read_page(words, k, n, number) {
        None if !is_free(number) => Err(number),
        page => Ok(page),
    };
    (0..n).map(page).collect()
}

/// Whether pages form the tree, judged by routes and not by ranges: each page but page 0 has one father, one level higher, and every key of a
/// page is led there from page 0.
fn is_tree(pages: &[Option<Page>]) -> bool {
    let fathers = |number: u32| {
        let upper = pages.iter().flatten().filter(|page| !page.is_leaf());
        let levels = upper.flat_map(move |page| {
            let leads = page.with.iter().filter(move |&&child| child == number);
            leads.map(|_| page.level)
        });
        levels.collect::<Vec<u32>>()
    };
    (0..).zip(pages).all(|(number, page)| match page {
        None => fathers(number).is_empty(),
        Some(_) if number == 0 => true,
        Some(page) => {
            fathers(number) == [page.level + 1]
                && page
                    .keys
                    .iter()
                    .all(|&key| led(pages, key, page.level) == Some(number))
        }
    })
}

/// Where page 0 leads a key on a level; nowhere, where a page on the way is not one level lower than the last.
fn led(pages: &[Option<Page>], key: u32, level: u32) -> Option<u32> {
    let mut number = 0;
    let top = pages[0].as_ref()?.level;
    for upper in (level + 1..=top).rev() {
        let page = pages[number as usize].as_ref()?;
        if page.level != upper {
            return None;
        }
        number = page.route(key);
    }
    Some(number)
}

/// What opening must say, by the judges above.
fn judged(k: u32, n: u32, words: &[u32]) -> Answer {
    match pages(k, n, words) {
        Err(page) => Answer::BadPageInPool(page),
        Ok(pages) if is_tree(&pages) => Answer::Opened,
        Ok(_) => Answer::BadTree,
    }
}

/// A tree that has grown and shrunk, so that reference keys are loose.
fn grown(random: &mut Random, k: u32, n: u32) -> Run {
    let mut run = Run::new(k, n);
    let keys = random.from(4, 12 * u64::from(k * n));
    for turn in 0..random.from(20, 400) {
        let key = 3 * random.below(keys) as u32;
        let way = random.one(&Way::ALL);
        run.begin(
            0,
            match (turn / 60) % 2 {
                0 => Op::Insert(key, key, way),
                _ => Op::Delete(
                    run.list.range(key..).next().map_or(key, |(&own, _)| own),
                    way,
                ),
            },
        );
        while run.state.slots[0].op.is_some() {
            run.step(0);
        }
    }
    run
}

/// One thing changed: a word by one or to any small number, two pages exchanged, a page copied.
fn spoil(random: &mut Random, run: &Run) -> Vec<u32> {
    let mut words = run.words.clone();
    let size = page_words(run.k);
    let pick = |random: &mut Random| random.below(run.n.into()) as usize * size;
    let (one, other) = (pick(random), pick(random));
    let used = 2 + 2 * words[one + 1].min(2 * run.k) as usize;
    let at = one + random.below(used as u64 + 1) as usize;
    match random.below(8) {
        0 => words[at] = words[at].wrapping_add(1),
        1 => words[at] = words[at].wrapping_sub(1),
        2 => words[at] = random.below(run.n.into()) as u32,
        3 => words[at] = words[random.below(run.words.len() as u64) as usize],
        4 => (0..size).for_each(|i| words.swap(one + i, other + i)),
        5 => words.copy_within(one..one + size, other),
        6 => words[one..one + size].fill(0),
        _ => words[one] = random.below(4) as u32,
    }
    words
}

#[test]
fn random_pools_with_something_changed() {
    let mut random = Random(7);
    let (mut accepted, mut no_tree, mut bad_page) = (0, 0, 0);
    for _ in 0..300 {
        let (k, n) = (random.from(1, 3) as u32, random.from(1, 40) as u32);
        let mut run = grown(&mut random, k, n);
        run.reopen();
        for _ in 0..60 {
            let words = spoil(&mut random, &run);
            let (answer, _) = open(k, n, &words);
            assert_eq!(answer, judged(k, n, &words), "{words:?}");
            match answer {
                Answer::Opened => accepted += 1,
                Answer::BadTree => no_tree += 1,
                _ => bad_page += 1,
            }
        }
    }
    assert!(accepted > 1000 && no_tree > 1000 && bad_page > 1000);
}
