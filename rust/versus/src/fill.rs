//! An input that fills the pool of 64 pages until there is no room, and empties it again.

use twin::{Op, Way};

use crate::input::Input;

/// How many operations go on at once.
const AT_ONCE: usize = 4;
/// How many insertions are tried; some of the last find no room.
const LOTS: u32 = 160;

/// Lots in a mixed order, entered four at a time until some find no room; one of them looked up; all deleted in another
/// order; and at the end one lot in the empty pool.
pub fn fill_and_empty() -> Vec<u8> {
    let mut input = Input::default();
    let keys: Vec<u32> = (0..LOTS).map(|i| i * 67 % LOTS * 3 + 1).collect();
    let entered = run(
        &mut input,
        keys.iter().map(|&key| Op::Insert(key, key % 5, Way::First)),
    );
    run(&mut input, [Op::Search(keys[0])]);
    let mut left: Vec<u32> = keys;
    left.sort_by_key(|key| key % 7);
    run(
        &mut input,
        left.iter().map(|&key| Op::Delete(key, Way::First)),
    );
    run(
        &mut input,
        [
            Op::Search(left[0]),
            Op::Insert(left[0], 9, Way::First),
            Op::Search(left[0]),
        ],
    );
    assert!(entered.contains("NoRoom"), "the pool is never full");
    input.bytes
}

/// Runs operations to their ends, some at once, and tells all that was answered.
fn run(input: &mut Input, ops: impl IntoIterator<Item = Op>) -> String {
    let ops: Vec<Op> = ops.into_iter().collect();
    let mut told = String::new();
    for batch in ops.chunks(AT_ONCE) {
        for (slot, &op) in batch.iter().enumerate() {
            told += &input.begin(slot, op);
        }
        while !input.open().is_empty() {
            for slot in input.open() {
                told += &input.step(slot);
            }
        }
    }
    told
}
