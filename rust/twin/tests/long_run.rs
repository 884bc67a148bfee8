//! The long run on the bench: three slots, k = 1, N = 18, up to four levels and back to nothing.

mod common;

use common::Run;
use twin::Op::{self, Delete, Insert, Search};
use twin::{Answer, Way};

/// The proved table of what is heard in this run.
const TABLE: &str = include_str!("../../../crates/promises/specs/LongRun.antt");

/// The updates of this run, all by the first way.
const fn insert(key: u32) -> Op {
    Insert(key, 7, Way::First)
}

const fn delete(key: u32) -> Op {
    Delete(key, Way::First)
}

/// Three operations, and how many rounds by all three slots, by the last two, by the last.
type Three = ([Op; 3], [usize; 3]);

const RUN: [Three; 13] = [
    ([insert(1), delete(11), insert(14)], [1, 0, 0]),
    ([insert(14), insert(7), insert(8)], [1, 0, 1]),
    ([insert(2), insert(16), insert(7)], [2, 1, 2]),
    ([insert(13), insert(3), insert(4)], [3, 1, 1]),
    ([insert(9), Search(17), insert(15)], [3, 1, 1]),
    ([insert(6), insert(5), delete(14)], [4, 1, 2]),
    ([delete(7), insert(11), delete(15)], [5, 0, 4]),
    ([Search(16), insert(10), delete(3)], [4, 1, 4]),
    ([Search(9), delete(5), delete(8)], [4, 3, 6]),
    ([insert(12), delete(2), delete(9)], [3, 6, 4]),
    ([delete(4), delete(1), delete(6)], [4, 3, 4]),
    ([delete(12), delete(13), delete(10)], [2, 2, 2]),
    ([delete(16), Search(16), delete(16)], [1, 0, 0]),
];

/// The answers of the table, by the names that it gives them.
fn table() -> Vec<Answer> {
    let rows = TABLE
        .split("long_answers =\n")
        .nth(1)
        .expect("the table is there");
    let rows = rows.split("[]").next().expect("it has an end");
    let names = rows
        .split('∷')
        .map(str::trim)
        .filter(|name| !name.is_empty());
    names.map(named).collect()
}

fn named(name: &str) -> Answer {
    match name {
        "began" => Answer::Begun,
        "onward" => Answer::Moved,
        "waits" => Answer::Waiting,
        "found" => Answer::Found(7),
        "absent" => Answer::NotFound,
        "entered" => Answer::Inserted,
        "there" => Answer::AlreadyThere(7),
        "deleted" => Answer::Deleted(7),
        "missing" => Answer::NoSuchKey,
        "no_page" => Answer::NoRoom,
        _ => panic!("the table has another name: {name}"),
    }
}

#[test]
fn up_to_four_levels_and_back() {
    let mut run = Run::new(1, 18);
    let mut heard = Vec::new();
    let mut heights = Vec::new();
    let mut calls = 0;
    for (ops, rounds) in RUN {
        for (slot, op) in ops.into_iter().enumerate() {
            heard.push(run.begin(slot, op));
        }
        let steps = (0..3).flat_map(|first| (0..rounds[first]).flat_map(move |_| first..3));
        for slot in steps {
            heard.push(run.step(slot));
            run.check();
            calls += 1;
        }
        calls += 3;
        heights.push(run.words[0]);
        assert_eq!(run.state.waiting, 0);
    }
    assert_eq!(calls, 219);
    assert_eq!(heard, table());
    assert_eq!(heights, [1, 2, 3, 3, 4, 4, 4, 4, 3, 3, 2, 1, 1]);
    assert_eq!(run.tallest, 4);
    assert_eq!(run.words[0], 1);
    assert!(run.words[1..].iter().all(|&word| word == 0));
}
