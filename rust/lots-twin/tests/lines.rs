//! The little program's lines: the example of document 01, and every kind of bad line.

use lots_twin::answers;

/// What the program writes for a text.
fn written(input: &str) -> String {
    String::from_utf8(answers(input.as_bytes())).expect("answers are plain text")
}

/// The third line is Waiting also as 02 (iii) corrects 01: the older want is an insertion's. Were it a search's, it would not be.
#[test]
fn the_example() {
    let input = "b 0 i 12 3\nb 1 s 12\nt 1\nt 0\nt 1\nt 1\n";
    assert_eq!(
        written(input),
        "Begun\nBegun\nWaiting\nInserted\nFound 3\nSlotIdle\n"
    );
    let behind_a_search = input.replace("i 12 3", "s 12");
    assert_eq!(
        written(&behind_a_search),
        "Begun\nBegun\nNotFound\nNotFound\nSlotIdle\nSlotIdle\n"
    );
}

#[test]
fn empty_input_writes_nothing() {
    assert_eq!(written(""), "");
}

#[test]
fn bad_lines() {
    let bad = [
        "\n",
        " \n",
        "b\n",
        "t\n",
        "t \n",
        "t  0\n",
        " t 0\n",
        "t 0 \n",
        "t 0\r\n",
        "t\t0\n",
        "t +0\n",
        "t -1\n",
        "T 0\n",
        "t 0 0\n",
        "b 0 s\n",
        "b 0 s 1 2\n",
        "b 0 i 1\n",
        "b 0 i 1 2 3\n",
        "b 0 d\n",
        "b 0 n\n",
        "b 0 n \n",
        "b 0 n 1 2\n",
        "b 0 n 4294967296\n",
        "b 0 N 1\n",
        "n 0 1\n",
        "b 0 n 1",
        "b 0 g\n",
        "b 0 g 1\n",
        "b 0 g 1 \n",
        "b 0 g 1 2 3\n",
        "b 0 g 1  2\n",
        "b 0 g 1 4294967296\n",
        "b 0 g 4294967296 1\n",
        "b 0 G 1 2\n",
        "g 0 1 2\n",
        "b 0 g 1 2",
        "b 0 i2\n",
        "b 0 i2 1\n",
        "b 0 i2 1 2 3\n",
        "b 0 i2 1  2\n",
        "b 0 i2 1 4294967296\n",
        "b 0 i 2 1 2\n",
        "b 0 i1 1 2\n",
        "b 0 i02 1 2\n",
        "b 0 i22 1 2\n",
        "b 0 I2 1 2\n",
        "b 0 2i 1 2\n",
        "b 0 2 1 2\n",
        "b 0 i2 1 2",
        "b 0 d2\n",
        "b 0 d2 1 2\n",
        "b 0 d2 4294967296\n",
        "b 0 g2 1\n",
        "b 0 g2 1 2 3\n",
        "b 0 g21 2\n",
        "b 0 i3\n",
        "b 0 i3 1\n",
        "b 0 i3 1 2 3\n",
        "b 0 i3 1 4294967296\n",
        "b 0 i 3 1 2\n",
        "b 0 i03 1 2\n",
        "b 0 i33 1 2\n",
        "b 0 i4 1 2\n",
        "b 0 I3 1 2\n",
        "b 0 3i 1 2\n",
        "b 0 i3 1 2",
        "b 0 d3\n",
        "b 0 d3 1 2\n",
        "b 0 d4 1\n",
        "b 0 d32 1\n",
        "b 0 g3 1\n",
        "b 0 g3 1 2 3\n",
        "b 0 g31 2\n",
        "b 0 g4 1 2\n",
        "b 0 s3 1\n",
        "b 0 n3 1\n",
        "t3 0\n",
        "i3 0 1 2\n",
        "b 0 s2 1\n",
        "b 0 n2 1\n",
        "t2 0\n",
        "b2 0 s 1\n",
        "i2 0 1 2\n",
        "b 0 x 1\n",
        "b s 1\n",
        "t 4294967296\n",
        "b 0 s 99999999999999999999\n",
        "b 0 i 1 4294967296\n",
        "t 0x1\n",
        "t 1\0\n",
        "t 0",
        "b 0 s 1",
        "x",
    ];
    for line in bad {
        assert_eq!(written(line), "BadLine\n", "{line:?}");
    }
}

#[test]
fn numbers_at_the_edge() {
    assert_eq!(written("t 000000000000000000015\n"), "SlotIdle\n");
    assert_eq!(written("t 16\nt 4294967295\n"), "BadSlot\nBadSlot\n");
    assert_eq!(written("b 16 s 1\n"), "BadSlot\n");
    let input = "b 15 i 4294967295 4294967295\nb 15 s 1\nt 15\nb 0 d 04294967295\nt 0\n";
    assert_eq!(
        written(input),
        "Begun\nSlotBusy\nInserted\nBegun\nDeleted 4294967295\n"
    );
}

#[test]
fn the_next_lot() {
    let input = "b 0 n 1\nt 0\nb 0 i 12 3\nt 0\nb 1 n 12\nt 1\nb 1 n 013\nt 1\n";
    assert_eq!(
        written(input),
        "Begun\nNone\nBegun\nInserted\nBegun\nNext 12 3\nBegun\nNone\n"
    );
    let largest = "b 0 i 4294967295 4294967295\nt 0\nb 15 n 0\nt 15\nb 16 n 0\n";
    assert_eq!(
        written(largest),
        "Begun\nInserted\nBegun\nNext 4294967295 4294967295\nBadSlot\n"
    );
}

#[test]
fn the_next_lot_in_the_second_leaf() {
    let mut input = String::new();
    for key in [10, 20, 30, 40, 50] {
        input += &format!("b 0 i {key} {key}\nt 0\n");
    }
    assert_eq!(written(&input), "Begun\nInserted\n".repeat(5));
    input += "b 0 n 21\nt 0\nt 0\nb 1 d 30\nt 1\nt 0\nt 1\n";
    let told = "Begun\nMoved\nMoved\nBegun\nWaiting\nNext 30 30\nMoved\n";
    assert!(written(&input).ends_with(told), "{}", written(&input));
}

#[test]
fn a_lot_is_regraded() {
    let input =
        "b 0 g 12 3\nt 0\nb 0 i 12 3\nt 0\nb 1 g 012 04\nt 1\nb 1 s 12\nt 1\nb 1 g 13 5\nt 1\n";
    assert_eq!(
        written(input),
        "Begun\nNoSuchKey\nBegun\nInserted\nBegun\nRegraded 3\nBegun\nFound 4\nBegun\nNoSuchKey\n"
    );
    let largest = "b 0 i 4294967295 4294967295\nt 0\nb 15 g 4294967295 0\nt 15\nb 16 g 0 0\n";
    assert_eq!(
        written(largest),
        "Begun\nInserted\nBegun\nRegraded 4294967295\nBadSlot\n"
    );
}

/// The downgrade of a lot is one operation: a buyer's search finds the old information or the new.
#[test]
fn a_search_while_a_lot_is_regraded() {
    let input = "b 0 i 12 3\nt 0\nb 0 g 12 4\nb 1 s 12\nt 1\nt 0\nt 1\nb 1 s 12\nb 0 g 12 5\nt 0\nt 1\nt 0\n";
    assert_eq!(
        written(input),
        "Begun\nInserted\nBegun\nBegun\nWaiting\nRegraded 3\nFound 4\nBegun\nBegun\nWaiting\nFound 4\nRegraded 4\n"
    );
}

/// Behind the letter of an update a 2 chooses the second way. Page 0 is a leaf here, so that each begins again.
#[test]
fn the_second_way() {
    let input = "b 0 i2 12 3\nt 0\nt 0\nb 0 i2 012 4\nt 0\nt 0\nb 1 g2 12 5\nt 1\nt 1\nb 1 d2 12\nt 1\nt 1\nb 16 d2 0\n";
    assert_eq!(
        written(input),
        "Begun\nMoved\nInserted\nBegun\nMoved\nAlreadyThere 3\nBegun\nMoved\nRegraded 3\nBegun\nMoved\nDeleted 5\nBadSlot\n"
    );
}

/// A buyer's search is not held out of the top page; on the leaf the two clash.
#[test]
fn a_search_beside_the_second_way() {
    let mut input = String::new();
    for key in [10, 20, 30, 40, 50] {
        input += &format!("b 0 i {key} {key}\nt 0\n");
    }
    input += "b 0 d2 30\nb 1 s 30\nt 0\nt 1\nt 1\nt 0\nt 1\n";
    let told = "Begun\nBegun\nMoved\nMoved\nWaiting\nDeleted 30\nNotFound\n";
    assert!(written(&input).ends_with(told), "{}", written(&input));
}

/// Behind the letter of an update a 3 chooses the third way. Page 0 is a leaf here, and is converted before each change.
#[test]
fn the_third_way() {
    let input = "b 0 i3 12 3\nt 0\nt 0\nb 0 i3 012 4\nt 0\nb 1 g3 12 5\nt 1\nt 1\nb 1 g3 13 5\nt 1\nb 1 d3 12\nt 1\nt 1\nb 16 d3 0\n";
    assert_eq!(
        written(input),
        "Begun\nMoved\nInserted\nBegun\nAlreadyThere 3\nBegun\nMoved\nRegraded 3\nBegun\nNoSuchKey\nBegun\nMoved\nDeleted 5\nBadSlot\n"
    );
}

/// A buyer's search goes on beside the third way, and waits only while a page is converted or changed.
#[test]
fn a_search_beside_the_third_way() {
    let mut input = String::new();
    for key in [10, 20, 30, 40, 50] {
        input += &format!("b 0 i {key} {key}\nt 0\n");
    }
    input += "b 0 d3 30\nb 1 s 30\nt 0\nt 1\nt 0\nt 1\nt 0\nt 1\n";
    let told = "Begun\nBegun\nMoved\nMoved\nMoved\nWaiting\nDeleted 30\nNotFound\n";
    assert!(written(&input).ends_with(told), "{}", written(&input));
}

/// Lot number 0 is that of a blank tag, however many zeros it has. The next lot at or above it is asked for as ever.
#[test]
fn the_blank_tag() {
    let lines = [
        "b 0 s 0",
        "b 0 i 0 7",
        "b 0 i2 0 7",
        "b 0 i3 0 7",
        "b 0 d 0",
        "b 0 d2 0",
        "b 0 d3 0",
        "b 0 g 0 7",
        "b 0 g2 0 7",
        "b 0 g3 0 7",
        "b 0 s 000",
    ];
    for line in lines {
        let input = format!("{line}\nt 0\nb 0 s 1\n{line}\nt 0\n");
        let told = "BadKey\nSlotIdle\nBegun\nSlotBusy\nNotFound\n";
        assert_eq!(written(&input), told, "{line}");
        let beyond = line.replace("b 0", "b 16");
        assert_eq!(written(&(beyond + "\n")), "BadSlot\n", "{line}");
        assert_eq!(written(line), "BadLine\n", "{line}");
    }
    let next = "b 0 n 0\nt 0\nb 0 i 1 0\nt 0\nb 0 n 00\nt 0\n";
    let told = "Begun\nNone\nBegun\nInserted\nBegun\nNext 1 0\n";
    assert_eq!(written(next), told);
}

#[test]
fn what_is_there_already_is_told() {
    let input = "b 0 i 12 3\nt 0\nb 0 i 12 8\nt 0\nb 0 d 12\nt 0\n";
    assert_eq!(
        written(input),
        "Begun\nInserted\nBegun\nAlreadyThere 3\nBegun\nDeleted 3\n"
    );
}

#[test]
fn an_unended_last_line_is_not_run() {
    assert_eq!(written("b 0 s 1\nt 0"), "Begun\nBadLine\n");
}

#[test]
fn too_long() {
    let most = "\n".repeat(65_536);
    assert_eq!(written(&most), "BadLine\n".repeat(65_536));
    assert_eq!(written(&(most + "\n")), "TooLong\n");
}
