//! The little program of documents 01 and 02 as one function from its input to its output.

use twin::Way::{First, Second, Third};
use twin::{begin, make, page_words, step, Answer, Op, State};

/// The most bytes the program reads.
pub const MOST: usize = 65_536;
const K: u32 = 2;
const N: u32 = 64;

/// A line that asks for something.
#[derive(Debug, PartialEq, Eq)]
enum Line {
    Begin(u32, Op),
    Step(u32),
}

/// All the program writes for an input.
pub fn answers(input: &[u8]) -> Vec<u8> {
    if input.len() > MOST {
        return b"TooLong\n".to_vec();
    }
    let mut talk = Talk::default();
    input
        .split_inclusive(|&byte| byte == b'\n')
        .flat_map(|piece| talk.answer(piece))
        .collect()
}

/// The pool between two lines.
pub struct Talk {
    pub state: State,
    pub words: Vec<u32>,
}

impl Default for Talk {
    /// A pool just made.
    fn default() -> Self {
        let mut words = vec![0; N as usize * page_words(K)];
        let (_, state) = make(K, N, &mut words);
        Talk { state, words }
    }
}

impl Talk {
    /// The answer to one line, given with its line feed if it has one.
    pub fn answer(&mut self, piece: &[u8]) -> Vec<u8> {
        let Some(line) = piece.strip_suffix(b"\n").and_then(parse) else {
            return b"BadLine\n".to_vec();
        };
        let (answer, next) = match line {
            Line::Begin(slot, op) => begin(&self.state, slot as usize, op),
            Line::Step(slot) => step(&self.state, &mut self.words, slot as usize),
        };
        self.state = next;
        match answer {
            Answer::Found(information)
            | Answer::Deleted(information)
            | Answer::AlreadyThere(information)
            | Answer::Regraded(information) => {
                format!("{} {}\n", answer.name(), information).into_bytes()
            }
            Answer::Next(key, information) => {
                format!("{} {key} {information}\n", answer.name()).into_bytes()
            }
            _ => format!("{}\n", answer.name()).into_bytes(),
        }
    }
}

/// What a line asks for, if it is one.
fn parse(line: &[u8]) -> Option<Line> {
    let parts: Vec<&[u8]> = line.split(|&byte| byte == b' ').collect();
    match parts[..] {
        [b"b", slot, letter, ref rest @ ..] => {
            Some(Line::Begin(number(slot)?, operation(letter, rest)?))
        }
        [b"t", slot] => Some(Line::Step(number(slot)?)),
        _ => None,
    }
}

/// The operation that a letter asks for, with the numbers behind it; a 2 at the letter chooses the second way, a 3 the third.
fn operation(letter: &[u8], rest: &[&[u8]]) -> Option<Op> {
    let numbers: Option<Vec<u32>> = rest.iter().map(|digits| number(digits)).collect();
    Some(match (letter, &numbers?[..]) {
        (b"s", &[key]) => Op::Search(key),
        (b"n", &[key]) => Op::Next(key),
        (b"i", &[key, information]) => Op::Insert(key, information, First),
        (b"i2", &[key, information]) => Op::Insert(key, information, Second),
        (b"i3", &[key, information]) => Op::Insert(key, information, Third),
        (b"d", &[key]) => Op::Delete(key, First),
        (b"d2", &[key]) => Op::Delete(key, Second),
        (b"d3", &[key]) => Op::Delete(key, Third),
        (b"g", &[key, information]) => Op::Regrade(key, information, First),
        (b"g2", &[key, information]) => Op::Regrade(key, information, Second),
        (b"g3", &[key, information]) => Op::Regrade(key, information, Third),
        _ => return None,
    })
}

/// A decimal number of 32 bits: digits only, leading zeros allowed.
fn number(digits: &[u8]) -> Option<u32> {
    if digits.is_empty() {
        return None;
    }
    digits.iter().try_fold(0_u32, |so_far, &digit| {
        if !digit.is_ascii_digit() {
            return None;
        }
        so_far.checked_mul(10)?.checked_add(u32::from(digit - b'0'))
    })
}
