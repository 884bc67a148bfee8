//! The program `drive` as a machine that is given one line after another. `docs/DRIVE.md` has the lines.

use twin::{begin_lent, make_lent, open_lent, report_lent, step_lent, Answer, Op, STATE};

/// The most words a pool may be given.
pub const ROOM: usize = 70_000;
/// The most numbers in a line: a place, and a row of 16.
const MOST: usize = 17;
/// The line that answers what is no line.
const BAD_LINE: &[u8] = b"BadLine\n";

/// The five calls, as they are or with something wrong.
pub trait Calls {
    /// Makes a fresh pool.
    fn make(&self, k: u32, n: u32, state: &mut [u32; STATE], words: &mut [u32]) -> Answer {
        make_lent(k, n, state, words)
    }

    /// Opens the words as a pool. They can be written, so that a call with something wrong can do so.
    fn open(&self, k: u32, n: u32, state: &mut [u32; STATE], words: &mut [u32]) -> Answer {
        open_lent(k, n, state, words)
    }

    /// Begins an operation.
    fn begin(&self, state: &mut [u32; STATE], slot: usize, op: Op) -> Answer {
        begin_lent(state, slot, op)
    }

    /// Steps a slot.
    fn step(&self, state: &mut [u32; STATE], words: &mut [u32], slot: usize) -> Answer {
        step_lent(state, words, slot)
    }

    /// Reports the locks on a page.
    fn report(&self, state: &[u32; STATE], page: u32) -> Answer {
        report_lent(state, page)
    }
}

/// The calls of the twin.
pub struct Twin;

impl Calls for Twin {}

/// How much is written of an outcome.
#[derive(Clone, Copy, PartialEq, Eq)]
enum How {
    Answer,
    Sums,
    Words,
}

/// What stands between two lines.
pub struct Drive<C> {
    calls: C,
    pub state: [u32; STATE],
    pub words: Vec<u32>,
    how: How,
}

impl<C: Calls> Drive<C> {
    /// At the start: no words, a state of zeros, answers only.
    pub fn new(calls: C) -> Drive<C> {
        Drive {
            calls,
            state: [0; STATE],
            words: Vec::new(),
            how: How::Answer,
        }
    }

    /// All that is written for an input.
    pub fn answers(&mut self, input: &[u8]) -> Vec<u8> {
        let mut out = Vec::new();
        for piece in input.split_inclusive(|&byte| byte == b'\n') {
            match piece.strip_suffix(b"\n") {
                Some(line) => self.line(line, &mut out),
                None => out.extend(BAD_LINE),
            }
        }
        out
    }

    /// One line, given without its line feed, and what is written for it.
    pub fn line(&mut self, line: &[u8], out: &mut Vec<u8>) {
        if self.obey(line, out).is_none() {
            out.extend(BAD_LINE);
        }
    }

    /// Does what a line asks for, if it is one.
    fn obey(&mut self, line: &[u8], out: &mut Vec<u8>) -> Option<()> {
        let (letter, numbers) = parse(line)?;
        match self.call(letter, &numbers) {
            Some(answer) => self.outcome(answer, out),
            None => self.put(letter, &numbers)?,
        }
        Some(())
    }

    /// Makes the call that a line asks for, if it is one.
    fn call(&mut self, letter: u8, numbers: &[u32]) -> Option<Answer> {
        let (state, words) = (&mut self.state, &mut self.words);
        Some(match (letter, numbers) {
            (b'm', &[k, n]) => self.calls.make(k, n, state, words),
            (b'o', &[k, n]) => self.calls.open(k, n, state, words),
            (b'b', &[slot, kind, key, information]) => match Op::of(kind, key, information) {
                Some(op) => self.calls.begin(state, slot as usize, op),
                None => Answer::BadKind,
            },
            (b't', &[slot]) => self.calls.step(state, words, slot as usize),
            (b'r', &[page]) => self.calls.report(state, page),
            _ => return None,
        })
    }

    /// Puts words, or what is written, as a line says, if it is one that does.
    fn put(&mut self, letter: u8, numbers: &[u32]) -> Option<()> {
        match (letter, numbers) {
            (b's', [at, words @ ..]) => lay(&mut self.state, *at as usize, words)?,
            (b'w', [at, words @ ..]) => lay(&mut self.words, *at as usize, words)?,
            (b'p', &[length, word]) if length as usize <= ROOM => {
                self.words = vec![word; length as usize];
            }
            (b'q', &[0]) => self.how = How::Answer,
            (b'q', &[1]) => self.how = How::Sums,
            (b'q', &[2]) => self.how = How::Words,
            _ => return None,
        }
        Some(())
    }

    /// Writes an outcome.
    fn outcome(&self, answer: Answer, out: &mut Vec<u8>) {
        let four = answer.told();
        number(four[0], out);
        let mut behind = |word: u32| {
            out.push(b' ');
            number(word, out);
        };
        four[1..].iter().for_each(|&word| behind(word));
        match self.how {
            How::Answer => {}
            How::Sums => [sum(&self.state), sum(&self.words)]
                .into_iter()
                .for_each(behind),
            How::Words => self
                .state
                .iter()
                .chain(&self.words)
                .for_each(|&word| behind(word)),
        }
        out.push(b'\n');
    }
}

/// Writes a number in decimal.
fn number(number: u32, out: &mut Vec<u8>) {
    out.extend(number.to_string().bytes());
}

/// The sum of some words: each one counts as 33 of those behind it.
fn sum(words: &[u32]) -> u32 {
    words
        .iter()
        .fold(0, |sum: u32, &word| sum.wrapping_mul(33).wrapping_add(word))
}

/// Lays words from a place on, if there are some and they all fit.
fn lay(cells: &mut [u32], at: usize, words: &[u32]) -> Option<()> {
    if words.is_empty() {
        return None;
    }
    cells.get_mut(at..at + words.len())?.copy_from_slice(words);
    Some(())
}

/// The letter and the numbers of a line.
fn parse(line: &[u8]) -> Option<(u8, Vec<u32>)> {
    let mut parts = line.split(|&byte| byte == b' ');
    let &[letter] = parts.next()? else {
        return None;
    };
    let numbers: Option<Vec<u32>> = parts.map(decimal).collect();
    numbers
        .filter(|numbers| letter.is_ascii_lowercase() && numbers.len() <= MOST)
        .map(|numbers| (letter, numbers))
}

/// A decimal number of 32 bits: digits only, leading zeros allowed.
fn decimal(digits: &[u8]) -> Option<u32> {
    let is_number = !digits.is_empty() && digits.iter().all(u8::is_ascii_digit);
    let text = std::str::from_utf8(digits).ok().filter(|_| is_number)?;
    text.trim_start_matches('0')
        .parse()
        .ok()
        .or_else(|| text.bytes().all(|byte| byte == b'0').then_some(0))
}
