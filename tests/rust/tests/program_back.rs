//! The built program with the argument `back`: every byte that it prints is the model's, and what is claimed of its lines and its sheet holds by the text
//! alone and an ordinary matcher.
use crate::drawn::back::{clearing_full_list, clearing_full_tree, clearing_page, clearing_units};
use crate::drawn::pages::{any_page, fill, full_page};
use crate::drawn::repeated::repeating_page;
use crate::drawn::tally::Tally;
use crate::drawn::Random;
use crate::running::{expect_same, Run, BACK, BLOCKS, PLAIN};
use crate::sheet::removals::expect_removals;
use crate::sheet::{expect_sheet, Report};
use model::back_pages::{back_pages, room_page};
use model::pages::{pages, record, record_counting};
use model::program::{records, Setting};

#[test]
fn stored_pages() {
    BACK.expect_stored("tests/pages/back", &back_pages(), "back.out");
}

// A stored page by its name.
fn stored(name: &str) -> Vec<u8> {
    let page = back_pages().into_iter().find(|page| page.0 == name);
    page.expect("a stored page").1
}

// The first argument decides, if it is exactly `back`; further ones are not looked at.
#[test]
fn arguments() {
    let page = stored("lines");
    let (plain, back) = (PLAIN.output(&page), BACK.output(&page));
    let removals = |text: &str| text.matches(" removed ").count();
    assert_eq!((removals(&plain), removals(&back)), (0, 8));
    let on: [&[&str]; 5] = [
        &["back"],
        &["back", "x"],
        &["back", "back"],
        &["back", ""],
        &["back", "window", "0"],
    ];
    let off: [&[&str]; 14] = [
        &[],
        &["Back"],
        &["BACK"],
        &["x", "back"],
        &["", "back"],
        &[""],
        &["b"],
        &["bac"],
        &["back "],
        &[" back"],
        &["backs"],
        &["backback"],
        &["--back"],
        &["kcab"],
    ];
    for (arguments, expected) in [(&on[..], &back), (&off[..], &plain)] {
        for arguments in arguments {
            let what = format!("{arguments:?}");
            let text = Run(arguments).printed([&page[..]].into_iter());
            expect_same(&text, expected, &what);
        }
    }
}

// What is claimed of the lines and the sheet, by the printed text, the records and a matcher; then every byte.
fn expect_claims(page: &[u8], what: &str, tally: &mut Tally) {
    let text = BACK.printed([page].into_iter());
    let records = records(page);
    expect_sheet(&text, records.len(), Setting::Back, what);
    expect_removals(&Report::of(&text).rulings, &records, what, tally);
    expect_same(&text, &BACK.output(page), what);
    tally.count("pages");
}

// The stored pages of both folders.
#[test]
fn stored_claims() {
    let mut tally = Tally::default();
    for (name, page) in back_pages().into_iter().chain(pages()) {
        expect_claims(&page, name, &mut tally);
    }
    tally.assert_least(&[
        ("kept that remove", 30),
        ("kept that remove several", 12),
        ("kept under a number of before", 2_000),
        ("its own number would be removed", 2),
        ("refused 7, none removed", 4),
        ("refused 10", 5),
        ("refused 11, none removed", 2),
    ]);
}

// How often each thing has to occur on generated pages.
const LEAST: [(&str, u64); 15] = [
    ("pages", 300),
    ("kept", 16_000),
    ("kept that remove", 1_200),
    ("kept that remove several", 500),
    ("kept under a number of before", 3_000),
    ("struck", 8_000),
    ("refused 3", 600),
    ("refused 4", 300),
    ("refused 5", 60),
    ("refused 7", 2_000),
    ("refused 7, none removed", 200),
    ("its own number would be removed", 50),
    ("refused 10", 250),
    ("refused 11", 1_200),
    ("refused 11, none removed", 250),
];

#[test]
fn generated_pages() {
    let (mut random, mut tally) = (Random(61), Tally::default());
    for i in 0..150 {
        let (rounds, numbers) = (1 + i % 15, random.of(&[9, 40, 400, 65_536]));
        let page = clearing_page(&mut random, rounds, numbers);
        expect_claims(&page, &format!("clearing page {i}"), &mut tally);
    }
    for i in 0..60 {
        let (rounds, numbers) = (1 + i % 9, random.of(&[20, 80, 1_000, 65_536]));
        let page = clearing_units(&mut random, rounds, numbers);
        expect_claims(&page, &format!("clearing units {i}"), &mut tally);
    }
    for i in 0..60 {
        let bytes = random.below(3_000);
        let page = any_page(&mut random, bytes);
        expect_claims(&page, &format!("random page {i} with back"), &mut tally);
    }
    for i in 0..30 {
        let page = repeating_page(&mut random, 5 + i);
        expect_claims(&page, &format!("repeating page {i} with back"), &mut tally);
    }
    for i in 0..4 {
        let page = clearing_full_list(&mut random, 1 + i);
        expect_claims(&page, &format!("full list {i} with back"), &mut tally);
    }
    for i in 0..12 {
        let page = clearing_full_tree(&mut random);
        expect_claims(&page, &format!("full tree {i} with back"), &mut tally);
    }
    tally.assert_least(&LEAST);
}

// Both sides of the room that a removal leaves.
#[test]
fn room_after_removal() {
    for room in 0..8 {
        let what = format!("{room} words left");
        expect_claims(&room_page(room), &what, &mut Tally::default());
    }
}

#[test]
fn two_pieces() {
    BACK.expect_two_pieces(&stored("lines"));
}

#[test]
fn small_pieces() {
    let mut random = Random(62);
    for piece in [1, 2, 3, 5, 7, 11, 64, 509, 4_095, 4_097] {
        let page = clearing_page(&mut random, 3 + piece % 9, 60);
        BACK.expect_page(&page, piece, &format!("back in pieces of {piece}"));
        let page = clearing_units(&mut random, 2 + piece % 5, 200);
        BACK.expect_page(&page, piece, &format!("units back in pieces of {piece}"));
    }
}

// Pages of more than a block, as files and through pipes.
#[test]
fn pages_of_several_blocks() {
    let mut random = Random(63);
    for i in 0..6 {
        let mut page = Vec::new();
        while page.len() < 66_000 + 9_000 * i {
            let numbers = random.of(&[300, 4_000, 65_536]);
            page.extend(match random.one_in(2) {
                true => clearing_page(&mut random, 20, numbers),
                false => clearing_units(&mut random, 20, numbers),
            });
        }
        let piece = 1_000 + random.below(9_000);
        let what = format!("page {i} of several blocks with back");
        BACK.expect_both(&page, &[piece], &what);
    }
    for words in [3, 15] {
        let page = full_page(&mut random, words);
        let what = format!("full page {words} with back");
        BACK.expect_both(&page, &[70_001], &what);
    }
}

// Pages in which a record that removes lies across the end of a block, cut by it after each of its fields.
#[test]
fn records_across_blocks() {
    let mut random = Random(64);
    let special = |n: u16| record(100 + n, &[0x8804, 0x0001 + n]);
    let general = record(7, &[0x8804, 0x4000]);
    for block in BLOCKS {
        for cut in (0..=general.len()).step_by(2) {
            let mut page: Vec<u8> = (0..40).flat_map(special).collect();
            fill(&mut page, block - cut, &mut random);
            page.extend(&general);
            fill(&mut page, block + 2_000, &mut random);
            let expected = BACK.output(&page);
            assert!(expected.contains("\n139 removed 7\n7 kept "));
            let what = format!("removing record begun {cut} before the end of {block}");
            BACK.expect_both(&page, &[block, block - 1], &what);
        }
    }
}

// The lines of one record that removes 1,024 begin at each of some places before the end of a block of output.
#[test]
fn removals_across_blocks() {
    let page = stored("clears-all");
    let kept = 1_024 * "64000 kept 2050\n".len();
    let removals = 1_024 * "64000 removed 65535\n".len();
    let refused = "12345 refused 3\n".len();
    for (i, block) in [16_384, 32_768, 65_536].into_iter().enumerate() {
        // the block ends within the removals
        let before = (block + kept + removals / 2).next_multiple_of(block) - kept - removals / 2;
        let before = (0..before / refused).flat_map(|_| record(12_345, &[]));
        let page = [before.collect(), page.clone()].concat();
        BACK.expect_both(&page, &[60_001], &format!("removals across block {i}"));
    }
    for refused in 0..10 {
        // numbers of one to five digits move the lines byte by byte
        let number = [1, 10, 100, 1_000, 10_000][refused % 5];
        let before: Vec<u8> = (0..refused).flat_map(|_| record(number, &[])).collect();
        let page = [before, page.clone()].concat();
        let what = format!("removals after {refused} refused");
        BACK.expect_page(&page, page.len(), &what);
    }
}

// Overlong records, whole and cut, and a cut record that would remove.
#[test]
fn cut_and_overlong_records() {
    let kept = [record(1, &[0x8801, 0x0001]), record(2, &[0x8801, 0x0002])].concat();
    let general = record(3, &[0x8801, 0x4000]);
    for cut in 0..=general.len() {
        let page = [&kept[..], &general[..general.len() - cut]].concat();
        BACK.expect_page(&page, 65_536, &format!("back, cut by {cut}"));
        assert_eq!(BACK.output(&page).contains("removed 3\n"), cut == 0);
    }
    for count in [65, 32_767, 65_535] {
        let long = record_counting(2, count, &vec![0x8001; count as usize]);
        let page = [kept.clone(), long, general.clone()].concat();
        BACK.expect_both(&page, &[4_095], &format!("back, count of {count}"));
    }
}

// Without the argument the pages of this file are printed as ever.
#[test]
fn without_the_argument() {
    let mut random = Random(65);
    for (name, page) in back_pages() {
        PLAIN.expect_page(&page, 65_536, name);
        Run(&["x", "back"]).expect_page(&page, 65_536, name);
    }
    for i in 0..20 {
        let page = clearing_page(&mut random, 1 + i % 9, 60);
        PLAIN.expect_page(&page, 65_536, &format!("clearing page {i}, plain"));
    }
}
