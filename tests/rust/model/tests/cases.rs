//! The command of the cases that lists backwards, on the readings F6-1, F6-3 and F6-11 and each refusal.
use model::cases::{output, Model};

// A row and its line: 1 has P, 2 has P,Q, and 4294967295 has R(a).
const ROWS: [(&str, &str); 16] = [
    ("fresh: 0L 40M 0T F", "fresh: 0 left 0000000000000000"),
    ("empty: 0B 8001C 0X", "empty: 0 0 0"),
    ("keep: 8001C 1K", "keep: 0 changed 0000000300000001"),
    ("keep: 8001C 8002C 2K", "keep: 0 changed 0000000600000002"),
    (
        "keep: 8803C 0001C ffffffffK",
        "keep: 0 changed 0000000a00000003",
    ),
    ("F6-1: 1B 8001C 0X", "F6-1: 16"),
    ("F6-1, no budget: 0B 8001C 0X", "F6-1, no budget: 12 0"),
    ("one word: 9B 8001C 1X", "one word: 16"),
    ("two words: 8001C 2X", "two words: 0 2 3 0:1 1:2"),
    ("three words: 3B 8001C 3X", "three words: 0 2 3 0:1 1:2"),
    ("a budget of 2: 2B 8001C 3X", "a budget of 2: 12 2"),
    ("F6-11: 9B 8803C 4000C 2X", "F6-11: 0 1 4 0:4294967295"),
    ("a bad clause: 4000C 0X", "a bad clause: 4 0"),
    ("no clause: 0X", "no clause: 3"),
    (
        "no tree: 0L 0000000100000001T 0000000050000001T 8001C 0X",
        "no tree: 14",
    ),
    ("broken: 0L 0T 0T 1T 8001C 0X", "broken: 2"),
];

#[test]
fn listing_backwards() {
    let rows: String = ROWS.iter().map(|(row, _)| format!("{row}\n")).collect();
    let lines = output::<Model>(&rows);
    assert_eq!(lines.lines().count(), ROWS.len());
    for (line, (_, expected)) in lines.lines().zip(ROWS) {
        assert_eq!(line, expected);
    }
}
