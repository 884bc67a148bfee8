//! The lots on the bench and the shortcuts that lose a lot, each as document 01 says it; and the next lot, who waits behind
//! whom, regrading, updates that go down like readers, a lock that lets readers stay, pools that are opened, and the blank tag, as 02
//! does.

mod blank_tag;
mod like_readers;
mod opening;
mod third_way;

use twin::Way::{self, First};
use twin::{kind, Answer, Op};

use crate::program::Program;
use crate::scene::begin_line;

/// Information throughout, but where a lot is regraded.
const INFORMATION: u32 = 7;

/// What a call must be answered, and now and then the pool's words behind it.
struct Expected {
    answer: Answer,
    pool: Option<Vec<u32>>,
}

/// A case: its lines, and what each call must be answered.
pub struct Case {
    name: &'static str,
    lines: Vec<String>,
    expected: Vec<Expected>,
}

/// Operations on one key, for cases of who waits.
const SEARCH: Op = Op::Search(5);
const INSERT: Op = Op::Insert(5, INFORMATION, First);
const DELETE: Op = Op::Delete(5, First);
const NEXT: Op = Op::Next(5);
const REGRADE: Op = Op::Regrade(5, INFORMATION, First);

/// Answers that carry the information.
const FOUND: Answer = Answer::Found(INFORMATION);
const ALREADY_THERE: Answer = Answer::AlreadyThere(INFORMATION);
const DELETED: Answer = Answer::Deleted(INFORMATION);
const REGRADED: Answer = Answer::Regraded(INFORMATION);

impl Case {
    /// A case that starts with a making.
    fn made(name: &'static str, k: u32, n: u32, answer: Answer) -> Case {
        let mut case = Case {
            name,
            lines: vec![format!("p {} 9", n * (4 * k + 3))],
            expected: Vec::new(),
        };
        case.call(&format!("m {k} {n}"), answer);
        case
    }

    /// A case with these pages, k = 1, and a state of rubbish.
    fn handed(name: &'static str, pages: &[[u32; 7]]) -> Case {
        let mut lines = vec![format!("p {} 0", 7 * pages.len()), "s 0 1 9 3".to_string()];
        lines.extend((0..).zip(pages).map(|(page, words)| {
            let words = words.map(|word| word.to_string()).join(" ");
            format!("w {} {words}", 7 * page)
        }));
        let expected = Vec::new();
        Case {
            name,
            lines,
            expected,
        }
    }

    /// A case with k = 1 from a fresh pool.
    fn fresh(name: &'static str, n: u32) -> Case {
        Case::made(name, 1, n, Answer::Made)
    }

    /// Case E: 10, 20 and 30 in three pages.
    fn from_e(name: &'static str) -> Case {
        Case::with_pages(name, 3)
    }

    /// E in a pool with a free page more.
    fn from_e_with_room(name: &'static str) -> Case {
        Case::with_pages(name, 4)
    }

    /// 10, 20 and 30 in a pool of so many pages.
    fn with_pages(name: &'static str, n: u32) -> Case {
        let mut case = Case::fresh(name, n);
        for key in [10, 20, 30] {
            case.insert(key, 1, Answer::Inserted);
        }
        case
    }

    /// Updates of E by this way of a key that is there, and of keys that are missing: answered at once, and no word changes.
    fn at_once(way: Way, there: &'static str, missing: &'static str) -> Vec<Case> {
        let mut there = Case::from_e(there);
        for key in [20, 10] {
            there.alone(Op::Insert(key, 9, way), 2, ALREADY_THERE);
        }
        there.words(&E);

        let mut missing = Case::from_e(missing);
        for key in [99, 11] {
            missing.alone(Op::Delete(key, way), 2, Answer::NoSuchKey);
            missing.alone(Op::Regrade(key, 9, way), 2, Answer::NoSuchKey);
        }
        missing.words(&E);

        vec![there, missing]
    }

    /// A line that is no call, if it is not empty.
    fn line(&mut self, line: &str) {
        self.lines
            .extend((!line.is_empty()).then(|| line.to_string()));
    }

    /// A call, and its answer.
    fn call(&mut self, line: &str, answer: Answer) {
        self.lines.push(line.to_string());
        self.expected.push(Expected { answer, pool: None });
    }

    /// The pool's words from the first on must now be these pages.
    fn words(&mut self, pages: &[[u32; 7]]) {
        if let Some(last) = self.expected.last_mut() {
            last.pool = Some(pages.concat());
        }
        // all words with the last call
        let call = self.lines.pop().unwrap_or_default();
        self.lines
            .extend(["q 2".to_string(), call, "q 0".to_string()]);
    }

    /// A beginning, and its answer.
    fn begin(&mut self, slot: usize, op: Op, answer: Answer) {
        self.call(&begin_line(slot, op.numbers()), answer);
    }

    /// An operation alone in slot 0, to its end after so many grants.
    fn alone(&mut self, op: Op, grants: usize, answer: Answer) {
        self.begin(0, op, Answer::Begun);
        for _ in 1..grants {
            self.call("t 0", Answer::Moved);
        }
        self.call("t 0", answer);
    }

    fn search(&mut self, key: u32, grants: usize, answer: Answer) {
        self.alone(Op::Search(key), grants, answer);
    }

    fn insert(&mut self, key: u32, grants: usize, answer: Answer) {
        self.alone(Op::Insert(key, INFORMATION, First), grants, answer);
    }

    fn delete(&mut self, key: u32, grants: usize, answer: Answer) {
        self.alone(Op::Delete(key, First), grants, answer);
    }

    fn next(&mut self, key: u32, grants: usize, answer: Answer) {
        self.alone(Op::Next(key), grants, answer);
    }

    fn regrade(&mut self, key: u32, with: u32, grants: usize, answer: Answer) {
        self.alone(Op::Regrade(key, with, First), grants, answer);
    }

    /// What the program says otherwise, if anything.
    pub fn refuted(&self, program: &impl Program) -> Option<String> {
        let input: String = self.lines.iter().map(|line| format!("{line}\n")).collect();
        let written = program.written(input.as_bytes());
        let text = String::from_utf8_lossy(&written).into_owned();
        let lines: Vec<Vec<u32>> = text
            .lines()
            .map(|line| line.split(' ').flat_map(str::parse).collect())
            .collect();
        let agrees = |(numbers, expected): (&Vec<u32>, &Expected)| {
            let is_pool = |pool: &Vec<u32>| {
                let start = 4 + twin::STATE;
                numbers.get(start..start + pool.len()) == Some(&pool[..])
            };
            numbers.get(..4) == Some(&expected.answer.told()[..])
                && expected.pool.as_ref().is_none_or(is_pool)
        };
        let same =
            lines.len() == self.expected.len() && lines.iter().zip(&self.expected).all(agrees);
        (!same).then(|| format!("case {} is answered otherwise:\n{input}{text}", self.name))
    }
}

/// All cases.
pub fn cases() -> Vec<Case> {
    [
        bench(),
        together(),
        limits(),
        shortcuts(),
        nexts(),
        regraded(),
        regrade_locks(),
        like_readers::cases(),
        third_way::cases(),
        opening::cases(),
        blank_tag::cases(),
    ]
    .into_iter()
    .flatten()
    .collect()
}

/// A to I.
fn bench() -> Vec<Case> {
    let mut a = Case::fresh("A", 1);
    a.words(&[[1, 0, 0, 0, 0, 0, 0]]);

    let mut b = Case::fresh("B", 1);
    b.search(5, 1, Answer::NotFound);

    let mut c = Case::fresh("C", 1);
    c.insert(10, 1, Answer::Inserted);
    c.insert(20, 1, Answer::Inserted);
    c.words(&[[1, 2, 10, 7, 20, 7, 0]]);

    let mut d = Case::fresh("D", 2);
    d.insert(10, 1, Answer::Inserted);
    d.insert(20, 1, Answer::Inserted);
    d.insert(30, 1, Answer::NoRoom);
    d.words(&[[1, 2, 10, 7, 20, 7, 0]]);

    let mut e = Case::from_e("E");
    e.words(&E);

    let mut f = Case::from_e("F");
    f.search(20, 2, FOUND);

    let mut g = Case::from_e("G");
    g.delete(10, 3, DELETED);
    g.words(&[
        [2, 1, 1, 30, 2, 0, 0],
        [1, 1, 20, 7, 0, 0, 0],
        [1, 1, 30, 7, 0, 0, 0],
    ]);

    let mut h = Case::from_e("H");
    h.delete(10, 3, DELETED);
    h.delete(20, 3, DELETED);
    h.words(&[[1, 1, 30, 7, 0, 0, 0], [0; 7], [0; 7]]);

    // "Case I becomes AlreadyThere 7."
    let mut i = Case::from_e("I");
    i.insert(20, 2, ALREADY_THERE);
    i.words(&E);

    vec![a, b, c, d, e, f, g, h, i]
}

/// The words of case E.
const E: [[u32; 7]; 3] = [
    [2, 1, 1, 20, 2, 0, 0],
    [1, 1, 10, 7, 0, 0, 0],
    [1, 2, 20, 7, 30, 7, 0],
];

/// J and K, and older wants that clash: two slots at once.
fn together() -> Vec<Case> {
    let mut j = Case::from_e("J");
    j.begin(0, Op::Search(10), Answer::Begun);
    j.call("t 0", Answer::Moved);
    j.begin(1, Op::Delete(20, First), Answer::Begun);
    j.call("t 1", Answer::Waiting);
    j.call("t 0", FOUND);
    j.call("t 1", Answer::Moved);

    // "Case K becomes NotFound in an empty pool."
    let mut k = Case::fresh("K", 1);
    k.begin(0, Op::Search(10), Answer::Begun);
    k.begin(1, Op::Search(20), Answer::Begun);
    k.call("t 1", Answer::NotFound);

    vec![
        j,
        k,
        waits(
            "a search behind an insertion",
            (INSERT, Answer::Inserted),
            (SEARCH, FOUND),
        ),
        waits(
            "an insertion behind a search",
            (SEARCH, Answer::NotFound),
            (INSERT, Answer::Inserted),
        ),
        waits(
            "a deletion behind a next",
            (NEXT, Answer::None),
            (DELETE, Answer::NoSuchKey),
        ),
        waits(
            "two insertions",
            (INSERT, Answer::Inserted),
            (INSERT, ALREADY_THERE),
        ),
    ]
}

/// "older wants that clash with it": in an empty pool the younger of two operations, each with its answer, waits.
fn waits(name: &'static str, older: (Op, Answer), younger: (Op, Answer)) -> Case {
    let mut case = Case::fresh(name, 1);
    case.begin(0, older.0, Answer::Begun);
    case.begin(1, younger.0, Answer::Begun);
    case.call("t 1", Answer::Waiting);
    case.call("t 0", older.1);
    case.call("t 1", younger.1);
    case
}

/// L, and a kind of operation that does not exist.
fn limits() -> Vec<Case> {
    let mut slots = Case::fresh("L, slots", 1);
    slots.begin(15, Op::Search(5), Answer::Begun);
    slots.begin(16, Op::Search(5), Answer::BadSlot);

    let mut kinds = Case::fresh("kinds", 1);
    kinds.call(&begin_line(0, (kind::CLOSED, 5, 0)), Answer::BadKind);
    kinds.call(&begin_line(0, (kind::LAST + 1, 5, 0)), Answer::BadKind);
    kinds.call(&begin_line(16, (u32::MAX, 5, 0)), Answer::BadKind);

    vec![
        slots,
        kinds,
        Case::made("L, k 16", 16, 1, Answer::Made),
        Case::made("L, k 0", 0, 1, Answer::BadPool),
        Case::made("L, k 17", 17, 1, Answer::BadPool),
        Case::made("L, 1,024 pages", 1, 1024, Answer::Made),
        Case::made("L, 1,025 pages", 1, 1025, Answer::BadPool),
    ]
}

/// Five lots, 10 to 50, in a tree of three levels: 0 above 5 and 6, 5 above 1 and 2, 6 above 3 and 4.
fn three_levels(name: &'static str) -> Case {
    let mut case = Case::fresh(name, 8);
    for (key, grants) in [(10, 1), (20, 1), (30, 1), (40, 2), (50, 2)] {
        case.insert(key, grants, Answer::Inserted);
    }
    case
}

/// What each shortcut would lose.
fn shortcuts() -> Vec<Case> {
    // "after one grant of a search in slot 0, the report for page 0 is ρ, 1, 0; the shortcut gives none, 0, 16"
    let mut father = Case::from_e("giving up the father before the child is granted");
    father.begin(0, Op::Search(20), Answer::Begun);
    father.call("t 0", Answer::Moved);
    father.call("r 0", Answer::Reported(1, 1, 0));

    // "F fails"
    let mut left = Case::from_e("sending an equal key left");
    left.search(20, 2, FOUND);

    // "the father is given up though it must change"
    let mut safe = Case::from_e("testing μ < 2k on a deletion");
    safe.begin(0, Op::Delete(10, First), Answer::Begun);
    safe.call("t 0", Answer::Moved);
    safe.call("t 0", Answer::Moved);
    safe.call("r 0", Answer::Reported(2, 1, 0));
    safe.call("t 0", DELETED);

    // "a search resting there holds a page that no longer leads where it wants to go, or a freed one"
    let mut sibling = three_levels("taking words from a sibling without its lock");
    sibling.begin(0, Op::Search(40), Answer::Begun);
    sibling.call("t 0", Answer::Moved);
    sibling.call("t 0", Answer::Moved);
    sibling.call("r 6", Answer::Reported(1, 1, 0));
    sibling.begin(1, Op::Delete(10, First), Answer::Begun);
    for _ in 0..4 {
        sibling.call("t 1", Answer::Moved);
    }
    sibling.call("t 1", Answer::Waiting);
    sibling.call("t 0", FOUND);
    sibling.call("t 1", DELETED);

    // "Freeing a page without zeroing it, or never taking it again": H, and then both pages are taken again
    let mut freed = Case::from_e("freeing a page without zeroing it, or never taking it again");
    freed.delete(10, 3, DELETED);
    freed.delete(20, 3, DELETED);
    freed.words(&[[1, 1, 30, 7, 0, 0, 0], [0; 7], [0; 7]]);
    freed.insert(40, 1, Answer::Inserted);
    freed.insert(50, 1, Answer::Inserted);
    freed.words(&[
        [2, 1, 1, 40, 2, 0, 0],
        [1, 1, 30, 7, 0, 0, 0],
        [1, 2, 40, 7, 50, 7, 0],
    ]);

    vec![father, left, safe, sibling, freed]
}

/// The answer Next with this key.
fn next_is(key: u32) -> Answer {
    Answer::Next(key, INFORMATION)
}

/// The next lot at or above.
fn nexts() -> Vec<Case> {
    // "the first entry whose key is at or above a given one, or None"
    let mut leaf = Case::fresh("next in a root leaf", 1);
    leaf.next(0, 1, Answer::None);
    leaf.insert(10, 1, Answer::Inserted);
    leaf.insert(20, 1, Answer::Inserted);
    for (key, answer) in [(9, 10), (10, 10), (11, 20), (20, 20)] {
        leaf.next(key, 1, next_is(answer));
    }
    leaf.next(21, 1, Answer::None);

    // "if the leaf has no such key, goes down the leftmost way of the next child to the right"
    let mut second = Case::from_e("next in the second leaf");
    for (key, grants, answer) in [
        (5, 2, 10),
        (10, 2, 10),
        (11, 3, 20),
        (20, 2, 20),
        (21, 2, 30),
    ] {
        second.next(key, grants, next_is(answer));
    }
    second.next(31, 2, Answer::None);

    vec![
        leaf,
        second,
        next_below(),
        next_child(),
        next_keeps(),
        next_gives_up(),
        next_shares(),
    ]
}

/// "the first entry whose key is at or above a given one, or None", also where the second leaf has keys below it: only in a damaged pool
fn next_below() -> Case {
    let mut case = Case::from_e("next tells no key below the one asked for");
    // leaf 2 has 5 and 30, then 5 and 8
    case.lines.push("w 16 5".to_string());
    case.next(11, 3, next_is(30));
    case.lines.push("w 18 8".to_string());
    case.next(11, 3, Answer::None);
    case.next(4, 2, next_is(10));
    case
}

/// "the next child to the right", not the last one: page 0 has three children
fn next_child() -> Case {
    let mut case = Case::fresh("next in the next child of three", 4);
    for (key, grants) in [(10, 1), (20, 1), (30, 1), (40, 2)] {
        case.insert(key, grants, Answer::Inserted);
    }
    case.next(15, 3, next_is(20));
    case.next(25, 3, next_is(30));
    case
}

/// "giving nothing up until its answer"
fn next_keeps() -> Case {
    let mut case = three_levels("next over three levels keeps both ways");
    case.begin(0, Op::Next(25), Answer::Begun);
    case.begin(1, Op::Insert(26, 7, First), Answer::Begun);
    for page in [0, 5, 2, 6] {
        case.call("t 0", Answer::Moved);
        case.call("t 1", Answer::Waiting);
        case.call(&format!("r {page}"), Answer::Reported(1, 1, 0));
    }
    case.call("r 5", Answer::Reported(1, 1, 0));
    case.call("t 0", next_is(30));
    case.call("r 6", Answer::Reported(0, 0, 16));
    case.call("t 1", Answer::Moved);
    case
}

/// "from the lowest page on its way that still has a child to the right of the route"
fn next_gives_up() -> Case {
    let mut case = three_levels("next gives up what is above a page with a child to the right");
    case.begin(0, Op::Next(15), Answer::Begun);
    case.call("t 0", Answer::Moved);
    case.call("r 0", Answer::Reported(1, 1, 0));
    case.call("t 0", Answer::Moved);
    case.call("r 0", Answer::Reported(0, 0, 16));
    case.call("t 0", Answer::Moved);
    case.call("r 5", Answer::Reported(1, 1, 0));
    case.call("r 1", Answer::Reported(1, 1, 0));
    case.call("t 0", next_is(20));
    // "from page 0 if none has"
    case.begin(0, Op::Next(51), Answer::Begun);
    case.call("t 0", Answer::Moved);
    case.call("t 0", Answer::Moved);
    case.call("r 0", Answer::Reported(1, 1, 0));
    case.call("t 0", Answer::None);
    case
}

/// "It uses ρ-locks"
fn next_shares() -> Case {
    let mut case = three_levels("next goes together with a search");
    case.begin(3, Op::Next(25), Answer::Begun);
    for _ in 0..3 {
        case.call("t 3", Answer::Moved);
    }
    case.begin(1, Op::Search(20), Answer::Begun);
    case.call("t 1", Answer::Moved);
    case.call("r 0", Answer::Reported(1, 2, 1));
    case.call("t 1", Answer::Moved);
    case.call("t 1", FOUND);
    case.call("t 3", Answer::Moved);
    case.call("t 3", next_is(30));
    case
}

/// What a regrading answers and writes.
fn regraded() -> Vec<Case> {
    // "AlreadyThere shall now carry the information there", and not what was to be entered
    let mut there = Case::from_e("AlreadyThere with what is there");
    there.alone(Op::Insert(20, 9, First), 2, ALREADY_THERE);
    there.words(&E);

    // "puts new information under a key that is there and answers Regraded with the old information"
    let mut regraded = Case::from_e("a lot is regraded");
    regraded.regrade(20, 9, 2, REGRADED);
    regraded.words(&[E[0], E[1], [1, 2, 20, 9, 30, 7, 0]]);
    regraded.search(20, 2, Answer::Found(9));
    regraded.regrade(20, 8, 2, Answer::Regraded(9));
    regraded.next(11, 3, Answer::Next(20, 8));

    // its leaf has k entries, and stays as it is otherwise
    let mut least = Case::from_e("the only lot of a leaf is regraded");
    least.regrade(10, 9, 2, REGRADED);
    least.words(&[E[0], [1, 1, 10, 9, 0, 0, 0], E[2]]);

    // "or NoSuchKey"
    let mut missing = Case::from_e("a lot that is not there is regraded");
    missing.regrade(15, 9, 2, Answer::NoSuchKey);
    missing.words(&E);

    // no page is free, and none is needed
    let mut full = Case::fresh("a lot of a full root leaf is regraded", 1);
    full.insert(10, 1, Answer::Inserted);
    full.insert(20, 1, Answer::Inserted);
    full.regrade(20, 9, 1, REGRADED);
    full.words(&[[1, 2, 10, 7, 20, 9, 0]]);
    full.regrade(30, 9, 1, Answer::NoSuchKey);

    vec![there, regraded, least, missing, full]
}

/// What a regrading holds, and who waits for whom.
fn regrade_locks() -> Vec<Case> {
    vec![
        regrade_holds(),
        regrade_waits(),
        waits(
            "a regrading behind an insertion",
            (INSERT, Answer::Inserted),
            (REGRADE, REGRADED),
        ),
        waits(
            "a regrading behind a search",
            (SEARCH, Answer::NotFound),
            (REGRADE, Answer::NoSuchKey),
        ),
        waits(
            "a search behind a regrading",
            (REGRADE, Answer::NoSuchKey),
            (SEARCH, Answer::NotFound),
        ),
    ]
}

/// "It takes ξ-locks; every page is safe for it, so it holds at most 1"
fn regrade_holds() -> Case {
    let mut case = three_levels("regrading holds one page, alone");
    case.begin(0, Op::Regrade(20, 9, First), Answer::Begun);
    case.call("t 0", Answer::Moved);
    case.call("r 0", Answer::Reported(2, 1, 0));
    case.call("t 0", Answer::Moved);
    case.call("r 0", Answer::Reported(0, 0, 16));
    case.call("r 5", Answer::Reported(2, 1, 0));
    case.call("t 0", REGRADED);
    case.call("r 5", Answer::Reported(0, 0, 16));
    case.call("r 2", Answer::Reported(0, 0, 16));
    case
}

/// "During a downgrade the lot is for a moment nowhere": one search comes before it and one behind it, and both find the lot.
fn regrade_waits() -> Case {
    let mut case = three_levels("a lot is searched for while it is regraded");
    case.begin(0, Op::Search(20), Answer::Begun);
    case.call("t 0", Answer::Moved);
    case.begin(1, Op::Regrade(20, 9, First), Answer::Begun);
    case.begin(2, Op::Search(20), Answer::Begun);
    case.call("t 1", Answer::Waiting);
    case.call("t 0", Answer::Moved);
    case.call("t 1", Answer::Moved);
    case.call("t 2", Answer::Waiting);
    case.call("t 1", Answer::Waiting);
    case.call("t 0", FOUND);
    case.call("t 1", Answer::Moved);
    case.call("t 2", Answer::Moved);
    case.call("t 2", Answer::Waiting);
    case.call("t 1", REGRADED);
    case.call("t 2", Answer::Moved);
    case.call("t 2", Answer::Found(9));
    case
}
