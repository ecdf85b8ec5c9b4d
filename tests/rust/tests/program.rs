//! The built program on whole pages: every byte that it prints is the model's. With `back` it is run by program_back.rs.
use crate::drawn::pages::{any_page, fill, full_page};
use crate::drawn::repeated::repeating_page;
use crate::drawn::tally::Tally;
use crate::drawn::units::unit_page;
use crate::drawn::Random;
use crate::running::{expect_same, BLOCKS, PLAIN};
use crate::sheet::strikes::expect_strikes;
use crate::sheet::units::expect_units;
use crate::sheet::{expect_sheet, Report};
use model::pages::{pages, record, record_counting};
use model::program::{records, Outcome, Record, Ruling, Setting};

#[test]
fn stored_pages() {
    PLAIN.expect_stored("tests/pages", &pages(), "out");
}

// Document 01's example, and a page with each kind of line and an overlong record.
fn example() -> Vec<u8> {
    let clauses: [&[u16]; 3] = [
        &[0x9801, 0x4000, 0x0001, 0x4000],
        &[0x9801, 0x0002, 0x0001, 0x0002],
        &[0x9801, 0x4000, 0x4000, 0x0002],
    ];
    let numbered = clauses.iter().zip(1..);
    numbered.flat_map(|(words, n)| record(n, words)).collect()
}

fn every_kind() -> Vec<u8> {
    let refused = [
        record(7, &[]),
        record(8, &[0x4000]),
        record(9, &[0x8001; 66]),
    ];
    [example(), refused.concat(), record(10, &[0x8001])].concat()
}

#[test]
fn documents_example() {
    let lines = "1 kept 10\n2 struck 1 1\n3 kept 15\nkept 2 struck 1 refused 0\n";
    let expected = format!("{lines}1 1 1\n3 0 0\n3\n");
    assert_eq!(PLAIN.output(&example()), expected);
    PLAIN.expect_page(&example(), 65_536, "document 01's example");
    // P-1 to P-3: cut overlong, cut count, taken number of a covered clause
    let rows: [(&[u8], &str); 4] = [
        (&[0, 1, 0, 0x41, 0, 0], "kept 0 struck 0 refused 0\n0\n"),
        (&[0, 1, 0], "kept 0 struck 0 refused 0\n0\n"),
        (&[0, 1, 0, 0], "1 refused 3\nkept 0 struck 0 refused 1\n1\n"),
        (
            &[0, 1, 0, 1, 0x80, 1, 0, 1, 0, 1, 0x80, 1],
            "1 kept 3\n1 struck 1 1\nkept 1 struck 1 refused 0\n1 1 1\n2\n",
        ),
    ];
    for (page, expected) in rows {
        assert_eq!(PLAIN.output(page), expected);
        PLAIN.expect_page(page, 65_536, expected);
    }
}

// Cut in and between number, count and words.
#[test]
fn two_pieces() {
    PLAIN.expect_two_pieces(&every_kind());
}

#[test]
fn small_pieces() {
    let mut random = Random(11);
    for piece in [1, 2, 3, 5, 7, 11, 64, 4_095, 4_097, 16_383, 65_535] {
        let page = any_page(&mut random, 40 * piece.min(100) + 3 * piece);
        PLAIN.expect_page(&page, piece, &format!("pieces of {piece}"));
    }
}

#[test]
fn random_pages() {
    let mut random = Random(12);
    for i in 0..300 {
        let bytes = random.below(3_000);
        let page = any_page(&mut random, bytes);
        PLAIN.expect_page(&page, 65_536, &format!("random page {i}"));
    }
}

#[test]
fn pages_of_several_blocks() {
    let mut random = Random(13);
    for i in 0..16 {
        let bytes = 66_000 + random.below(80_000);
        let page = any_page(&mut random, bytes);
        let piece = 1_000 + random.below(9_000);
        PLAIN.expect_both(&page, &[piece], &format!("page {i} of several blocks"));
    }
    for (words, code) in [(3, 10), (15, 11), (5, 10), (9, 11)] {
        let page = full_page(&mut random, words);
        let expected = PLAIN.output(&page);
        assert!(page.len() > 65_536 && expected.len() > 65_536);
        assert!(
            expected.contains(&format!(" refused {code}\n")),
            "code {code}"
        );
        PLAIN.expect_both(&page, &[70_001], &format!("full page {words}"));
    }
}

// Pages in which a record lies across the end of every block, cut by it after each of its fields.
#[test]
fn records_across_blocks() {
    let mut random = Random(14);
    let across = record(1, &[0x9001, 0x0001, 0x0002]);
    for block in BLOCKS {
        for cut in (0..=across.len()).step_by(2) {
            let mut page = Vec::new();
            for end in (1..=3).map(|i| i * block - cut) {
                fill(&mut page, end, &mut random);
                page.extend(&across);
            }
            fill(&mut page, 3 * block + 2_000, &mut random);
            let what = format!("record begun {cut} before the end of {block}");
            PLAIN.expect_both(&page, &[block, block - 1], &what);
        }
    }
}

// Overlong records over one block and more, whole and cut.
#[test]
fn overlong_records_across_blocks() {
    for count in [65, 8_190, 8_191, 32_766, 32_767, 65_535] {
        let long = record_counting(2, count, &vec![0x8001; count as usize]);
        let page = [record(1, &[0x8001]), long.clone(), record(3, &[0x8002])].concat();
        PLAIN.expect_both(&page, &[4_095], &format!("count of {count}"));
        PLAIN.expect_page(&long[..long.len() - 1], long.len(), "a cut overlong record");
    }
}

// What is claimed of the sheet, by the printed text and the records of the input alone: the model's tally has no part in it. Then every byte.
fn expect_claims(page: &[u8], what: &str) {
    let text = PLAIN.printed([page].into_iter());
    expect_sheet(&text, records(page).len(), Setting::Plain, what);
    expect_same(&text, &PLAIN.output(page), what);
}

#[test]
fn sheets_add_up() {
    for (name, page) in pages() {
        expect_claims(&page, name);
    }
    let mut random = Random(15);
    for i in 0..100 {
        let bytes = random.below(400 + 200 * i);
        let page = any_page(&mut random, bytes);
        expect_claims(&page, &format!("random page {i} with a sheet"));
    }
    for words in [3, 15] {
        let page = full_page(&mut random, words);
        expect_claims(&page, &format!("full page {words} with a sheet"));
    }
}

// What is claimed of the lines of a page, by the printed text and the matcher. Then every byte.
fn expect_lines(
    page: &[u8],
    claim: impl Fn(&[Ruling], &[Record], &str),
    what: &str,
) -> Vec<Ruling> {
    let text = PLAIN.printed([page].into_iter());
    let rulings = Report::of(&text).rulings;
    claim(&rulings, &records(page), what);
    expect_same(&text, &PLAIN.output(page), what);
    rulings
}

// A page on which no clause but units is kept.
fn expect_unit_page(page: &[u8], what: &str, tally: &mut Tally) {
    tally.count("pages");
    for (_, outcome) in expect_lines(page, expect_units, what) {
        tally.count(&match outcome {
            Outcome::Kept { .. } => "kept".to_string(),
            Outcome::Struck { candidates, .. } => format!("struck at literal {candidates}"),
            Outcome::Refused { code } => format!("refused {code}"),
        });
    }
}

// The stored pages that keep units, and nothing else.
const STORED_UNITS: [&str; 10] = [
    "cut-number",
    "cut-count",
    "cut-words",
    "cut-long",
    "full-list",
    "idle-clause",
    "first-and-last",
    "all-eighths",
    "cut-strike",
    "units",
];

// How often each line has to occur on pages of units.
const LEAST_OF_UNITS: [(&str, u64); 16] = [
    ("pages", 93),
    ("kept", 5_000),
    ("refused 3", 650),
    ("refused 4", 700),
    ("refused 5", 40),
    ("refused 7", 2_200),
    ("refused 10", 450),
    ("refused 11", 450),
    ("struck at literal 1", 9_500),
    ("struck at literal 2", 2_400),
    ("struck at literal 3", 1_250),
    ("struck at literal 4", 750),
    ("struck at literal 5", 500),
    ("struck at literal 6", 250),
    ("struck at literal 7", 100),
    ("struck at literal 8", 40),
];

#[test]
fn pages_of_units() {
    let (mut random, mut tally) = (Random(16), Tally::default());
    for (name, page) in pages() {
        if STORED_UNITS.contains(&name) {
            expect_unit_page(&page, name, &mut tally);
        }
    }
    for i in 0..80 {
        let drawn = 20 + random.below(30 + 8 * i);
        let page = unit_page(&mut random, 0, drawn);
        expect_unit_page(&page, &format!("page {i} of units"), &mut tally);
    }
    for numbered in [300, 1_020, 1_100] {
        let page = unit_page(&mut random, numbered, 3_000);
        expect_unit_page(&page, &format!("page of {numbered} units"), &mut tally);
    }
    tally.assert_least(&LEAST_OF_UNITS);
}

// Kept, struck and refused by the ordinary matcher, on the stored pages and where most literals are repeated.
#[test]
fn pages_of_repeated_literals() {
    let (mut random, mut tally) = (Random(17), Tally::default());
    for (name, page) in pages() {
        expect_lines(&page, expect_strikes, name);
    }
    for i in 0..200 {
        let page = repeating_page(&mut random, 5 + i % 50);
        let what = format!("page {i} of repeated literals");
        for (_, outcome) in expect_lines(&page, expect_strikes, &what) {
            tally.count(match outcome {
                Outcome::Kept { .. } => "kept",
                Outcome::Struck { .. } => "struck",
                Outcome::Refused { .. } => "refused",
            });
        }
    }
    tally.assert_least(&[("kept", 950), ("struck", 4_300)]);
}

// More strikes by one clause than 16 bits count, and three times as many candidates.
#[test]
fn very_many_strikes() {
    let strikes = 66_000;
    let clause = |i: u32| [vec![0x8001; i as usize % 5], vec![0x8802, 0x0003]].concat();
    let mut page = record(9, &[0x8802, 0x4000]);
    page.extend((0..strikes).flat_map(|i| record(i as u16, &clause(i))));
    let expected = PLAIN.output(&page);
    assert!(expected.ends_with("\n9 66000 198000\n66001\n"));
    PLAIN.expect_both(&page, &[page.len()], "very many strikes");
}

// Many short lines: more bytes out than in, and both over a block.
#[test]
fn more_out_than_in() {
    let short = |i: u32| record(i as u16, &[0x8000 + i as u16 % 700]);
    let page: Vec<u8> = (0..30_000).flat_map(short).collect();
    let expected = PLAIN.output(&page);
    assert!(page.len() > 2 * 65_536 && expected.len() > 4 * 65_536);
    PLAIN.expect_both(&page, &[page.len()], "many lines");
}
