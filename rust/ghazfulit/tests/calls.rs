//! The table of docs/CALLS.md, row by row: against the header, as a C compiler reads it, and against what the archive does.

use std::env;
use std::fs;
use std::path::{Path, PathBuf};
use std::process::Command;

use draw::Random;
use ghazfulit::{numbers, ANSWER, SLOTS, STATE};
use raw::archive;

#[allow(dead_code)]
#[path = "../src/raw.rs"]
mod raw;

const TABLE: &str = include_str!("../../../docs/CALLS.md");
const HEADER: &str = include_str!("../../../include/ghazfulit.h");

/// One row.
#[derive(Debug)]
struct Row {
    call: String,
    name: String,
    number: u32,
    values: usize,
    slot: String,
    changed: String,
}

/// All rows.
fn rows() -> Vec<Row> {
    let lines = TABLE.lines().skip_while(|line| !line.starts_with("|---"));
    let rows = lines.skip(1).take_while(|line| line.starts_with('|'));
    rows.map(|line| {
        let cells: Vec<&str> = line.split('|').map(str::trim).collect();
        let [_, call, _, name, number, values, slot, changed, _] = cells[..] else {
            panic!("{line}");
        };
        Row {
            call: call.to_string(),
            name: name.trim_matches('`').to_string(),
            number: number.parse().expect("a number"),
            values: values.split(',').filter(|value| !value.is_empty()).count(),
            slot: slot.to_string(),
            changed: changed.to_string(),
        }
    })
    .collect()
}

#[test]
fn every_answer_of_the_header_has_a_row() {
    let rows = rows();
    let answers = HEADER.split("/* Answers.").nth(1).expect("they are there");
    let list = answers.split("};").next().expect("they end");
    let mut names = list.lines().filter_map(|line| {
        let (name, _) = line.trim().split_once(" = ")?;
        name.strip_prefix("GHAZFULIT_")
    });
    let missing = names.find(|name| !rows.iter().any(|row| row.name == *name));
    assert_eq!(missing, None);
}

/// The kinds of operation in a text, by name: those of the header, or of the second table.
fn kinds(text: &str, pair: impl Fn(&str) -> Option<(String, u32)>) -> Vec<(String, u32)> {
    text.lines().filter_map(pair).collect()
}

#[test]
fn every_kind_of_the_header_has_a_row() {
    let enumeration = HEADER.split("/* Kinds of operation.").nth(1);
    let list = enumeration.and_then(|text| text.split("};").next());
    let in_header = kinds(list.expect("they are there"), |line| {
        let (name, number) = line.trim().split_once(" = ")?;
        let number = number.split([',', ' ']).next()?;
        let name = name.strip_prefix("GHAZFULIT_")?;
        Some((name.to_string(), number.parse().ok()?))
    });
    let table = TABLE.split("| kind | in the header |").nth(1);
    let in_table = kinds(table.expect("it is there"), |line| {
        let cells: Vec<&str> = line.split('|').map(str::trim).collect();
        let [_, number, name, ..] = cells[..] else {
            return None;
        };
        Some((name.trim_matches('`').to_string(), number.parse().ok()?))
    });
    assert_eq!(in_header, in_table);
    assert_eq!(in_header.len(), 11);
}

#[test]
fn a_c_compiler_reads_the_header_so() {
    let held = |(at, row): (usize, Row)| {
        let Row { name, number, .. } = &row;
        let (ends, refuses) = (row.slot == "closes", *number < 32);
        assert_eq!(
            (ends, refuses),
            (numbers::ends(*number), numbers::refuses(*number))
        );
        let name = format!("GHAZFULIT_{name}");
        let (ends, refuses) = (u8::from(ends), u8::from(refuses));
        format!(
            "HOLDS(row{at}, {name} == {number} && GHAZFULIT_ENDS({name}) == {ends} && GHAZFULIT_REFUSES({name}) == {refuses});\n"
        )
    };
    let mut text = String::from(
        "#include \"ghazfulit.h\"\n#define HOLDS(row, test) typedef char row[(test) ? 1 : -1]\n",
    );
    text.extend(rows().into_iter().enumerate().map(held));
    let file = PathBuf::from(env!("CARGO_TARGET_TMPDIR")).join("calls.c");
    fs::write(&file, text).expect("written");
    let include = Path::new(env!("CARGO_MANIFEST_DIR")).join("../../include");
    let compiler = env::var("CC").unwrap_or("cc".to_string());
    let mut command = Command::new(compiler);
    command.args([
        "-std=c99",
        "-Wall",
        "-Wextra",
        "-Werror",
        "-fsyntax-only",
        "-I",
    ]);
    let status = command.arg(include).arg(file).status();
    assert!(status.expect("there is a C compiler").success());
}

/// A call as a C program makes it.
#[derive(Clone, Copy)]
enum Call {
    Make(u32, u32),
    Open(u32, u32),
    Begin(u32, u32, u32),
    Step(u32),
    Report(u32),
}

impl Call {
    /// Its name in the table, and the slot that it is about.
    fn named(self) -> (&'static str, Option<u32>) {
        match self {
            Call::Make(..) => ("make", None),
            Call::Open(..) => ("open", None),
            Call::Begin(slot, ..) => ("begin", Some(slot)),
            Call::Step(slot) => ("step", Some(slot)),
            Call::Report(_) => ("report", None),
        }
    }
}

impl Row {
    /// What the row says of the slot is so: whether it was open before the call, and behind it.
    fn leaves_slot(&self, was_open: bool, is_open: bool) -> bool {
        match self.slot.as_str() {
            "opens" => !was_open && is_open,
            "closes" => was_open && !is_open,
            "stays open" => was_open && is_open,
            _ => was_open == is_open,
        }
    }
}

/// Whether a slot is open: the row of kinds has 0 for a closed one.
fn is_open(state: &[u32; STATE], slot: u32) -> bool {
    state[19 + slot as usize] != 0
}

/// Words, and which rows were met on them.
struct Met {
    state: [u32; STATE],
    words: Vec<u32>,
    rows: Vec<(Row, bool)>,
}

impl Met {
    /// Makes a call, and gives its answer.
    fn answer(&mut self, call: Call) -> [u32; ANSWER] {
        let mut answer = [9; ANSWER];
        let (state, out) = (self.state.as_mut_ptr(), answer.as_mut_ptr());
        let (words, length) = (self.words.as_mut_ptr(), self.words.len());
        // SAFETY: as many words are there as the calls ask for or are told, and nobody else has them.
        unsafe {
            match call {
                Call::Make(k, n) => archive::ghazfulit_make(k, n, state, words, length, out),
                Call::Open(k, n) => archive::ghazfulit_open(k, n, state, words, length, out),
                Call::Begin(slot, kind, key) => {
                    archive::ghazfulit_begin(state, slot, kind, key, key + 1, out)
                }
                Call::Step(slot) => archive::ghazfulit_step(state, words, length, slot, out),
                Call::Report(page) => archive::ghazfulit_report(state, page, out),
            }
        }
        answer
    }

    /// Makes a call, and holds what it does to its row.
    fn call(&mut self, call: Call) {
        let (state, words) = (self.state, self.words.clone());
        let answer = self.answer(call);
        let (name, slot) = call.named();
        let mut rows = self.rows.iter_mut();
        let row = rows.find(|(row, _)| row.call == name && row.number == answer[0]);
        let (row, met) = row.unwrap_or_else(|| panic!("{name} is answered {answer:?}"));
        *met = true;
        let behind = &answer[1 + row.values..];
        assert!(behind.iter().all(|&value| value == 0), "{row:?}");
        assert!(
            self.state == state || row.changed.contains("the state"),
            "{row:?}"
        );
        assert!(
            self.words == words || row.changed.contains("the pool"),
            "{row:?}"
        );
        let is_emptied = row.changed.contains("every word is 0");
        assert!(!is_emptied || self.state == [0; STATE], "{row:?}");
        if let Some(slot) = slot.filter(|&slot| slot < SLOTS) {
            let (was_open, is_open) = (is_open(&state, slot), is_open(&self.state, slot));
            assert!(row.leaves_slot(was_open, is_open), "{row:?}");
        }
    }

    /// Openings of the words as they are, and with something wrong; all is put back.
    fn openings(&mut self, k: u32, n: u32) {
        self.spoiled(Call::Open(k, n), |_, _| {});
        self.spoiled(Call::Open(k, n + 1), |_, _| {});
        self.spoiled(Call::Open(k, n), |_, words| words[6] = 1 << 31);
        // page 0 says one level more, which is no tree
        self.spoiled(Call::Open(k, n), |_, words| {
            words[0] += u32::from(words[0] > 1)
        });
        // the first key of page 0: that of a leaf, or a reference key
        self.spoiled(Call::Open(k, n), |_, words| {
            let first = if words[0] == 1 { 2 } else { 3 };
            words[first] = 0;
        });
    }

    /// Makes a call on a state or pool with something wrong, and puts all back.
    fn spoiled(&mut self, call: Call, spoil: impl Fn(&mut [u32; STATE], &mut Vec<u32>)) {
        let before = (self.state, self.words.clone());
        spoil(&mut self.state, &mut self.words);
        self.call(call);
        (self.state, self.words) = before;
    }
}

#[test]
fn each_row_is_met_and_nothing_else() {
    let (k, n) = (1, 5);
    let mut met = Met {
        state: [3; STATE],
        words: vec![4; 5 * 7],
        rows: rows().into_iter().map(|row| (row, false)).collect(),
    };
    met.spoiled(Call::Make(0, n), |_, _| {});
    met.call(Call::Make(k, n));
    let mut random = Random(1);
    for _ in 0..4000 {
        let (slot, key) = (random.below(4) as u32, random.below(9) as u32);
        let kind = random.from(1, numbers::REGRADE_THIRD.into()) as u32;
        met.call(match random.below(8) {
            0 | 1 => Call::Begin(slot, kind, key),
            2 => Call::Report(random.below(6) as u32),
            _ => Call::Step(slot),
        });
        let (begin, step) = (Call::Begin(slot, kind, key), Call::Step(slot));
        match random.below(40) {
            0 => met.spoiled(step, |_, words| words[0] = 11),
            1 => met.spoiled(step, |_, words| words.push(0)),
            2 => met.spoiled(random.one(&[begin, step, Call::Report(0)]), |state, _| {
                state[2] = 17
            }),
            3 => met.call(random.one(&[Call::Begin(SLOTS, kind, key), Call::Step(SLOTS)])),
            4 => met.call(Call::Begin(slot, random.one(&[0, 12, 31, u32::MAX]), key)),
            5 => met.openings(k, n),
            _ => {}
        }
    }
    let missed: Vec<&Row> = met
        .rows
        .iter()
        .filter(|(_, met)| !met)
        .map(|(row, _)| row)
        .collect();
    assert!(missed.is_empty(), "{missed:?}");
}
