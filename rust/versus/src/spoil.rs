//! Lines that are likely no good: a good one with something wrong.

use draw::Random;

/// Bytes that stand in good lines, or could be taken for some that do.
const BYTES: &[u8] = b"bbttsidng0123456789  \t\r\n+-.,_xBTSIDNG\0\x7f\xff";
/// Numbers around the largest, and beyond what 64 bits hold.
const NUMBERS: &[&str] = &[
    "4294967295",
    "4294967296",
    "4294967300",
    "42949672950",
    "18446744073709551616",
    "18446744073709551631",
    "340282366920938463463374607431768211456",
    "00000000000000000000000000000000000000000000000001",
    "",
];

/// The line with one to three things changed, which may by chance be none.
pub fn spoiled(random: &mut Random, line: &str) -> Vec<u8> {
    let mut bytes = line.as_bytes().to_vec();
    for _ in 0..random.from(1, 3) {
        change(random, &mut bytes);
    }
    bytes
}

/// One change.
fn change(random: &mut Random, bytes: &mut Vec<u8>) {
    let at = random.below(bytes.len() as u64 + 1) as usize;
    match random.below(6) {
        0 => bytes.truncate(at),
        1 if at < bytes.len() => {
            bytes.remove(at);
        }
        2 if at < bytes.len() => bytes[at] = random.one(BYTES),
        3 => number(random, bytes),
        4 => bytes.push(random.one(BYTES)),
        _ => bytes.insert(at, random.one(BYTES)),
    }
}

/// One of the words becomes a number that is hard to read.
fn number(random: &mut Random, bytes: &mut Vec<u8>) {
    let mut words: Vec<&[u8]> = bytes.split(|&byte| byte == b' ').collect();
    let at = random.below(words.len() as u64) as usize;
    words[at] = random.one(NUMBERS).as_bytes();
    *bytes = words.join(&b' ');
}
