//! Pages shuffled (F-7): the built program with `back` on the same records in several orders. What it keeps is compared by the printed texts and an
//! ordinary matcher; then every byte is the model's.
use crate::drawn::orders::{
    by_generality, cut_page, family_records, few_orders, orders, page, renumbered, reversed,
    strangers, with_instances,
};
use crate::drawn::tally::Tally;
use crate::drawn::Random;
use crate::running::{expect_same, Run, BACK, PLAIN};
use crate::sheet::orders::{expect_alike, failing, numbers_differ, LastBook, Part};
use model::back_pages::{back_pages, filler};
use model::limits::{KEPT, PROGRAM_TREE};
use model::notation::clause;
use model::pages::{pages, record};
use model::program::{lines, records, rulings, sheet, Outcome, Record, Ruling, Setting};

// What the program keeps of a page, by its text.
fn printed(run: Run, page: &[u8], what: &str) -> LastBook {
    let text = run.printed([page].into_iter());
    LastBook::of(text, records(page), what)
}

// What the program keeps of records in some orders, by texts that are the model's.
fn kept_by(run: Run, orders: &[Vec<Record>], what: &str) -> Vec<LastBook> {
    let book = |order: &Vec<Record>| {
        let book = printed(run, &page(order), what);
        expect_same(&book.text, &run.output(&page(order)), what);
        book
    };
    orders.iter().map(book).collect()
}

// Each pair of several.
fn pairs(books: &[LastBook]) -> impl Iterator<Item = (&LastBook, &LastBook)> {
    let later = |i: usize| books[i + 1..].iter();
    let books = books.iter().enumerate();
    books.flat_map(move |(i, a)| later(i).map(move |b| (a, b)))
}

// The claim for each pair of orders, and that what is kept covers each record.
fn expect_pairs(books: &[LastBook], what: &str, tally: &mut Tally) {
    for (a, b) in pairs(books) {
        assert!(a.has_records_of(b), "{what}: other records");
        expect_alike(a, b, what, tally);
    }
    for book in books {
        assert!(book.covers_input(), "{what}: a record is not covered");
    }
    tally.count("pages");
}

// The claim by the texts that the program prints of pages. Then every byte of them.
fn expect_books(books: &[LastBook], pages: &[Vec<u8>], what: &str, tally: &mut Tally) {
    expect_pairs(books, what, tally);
    for (book, page) in books.iter().zip(pages) {
        expect_same(&book.text, &BACK.output(page), what);
    }
}

fn expect_orders(pages: &[Vec<u8>], what: &str, tally: &mut Tally) {
    let books = pages.iter().map(|page| printed(BACK, page, what));
    expect_books(&books.collect::<Vec<_>>(), pages, what, tally);
}

// Of books where a record is refused, first with this code, the claim may fail.
fn count_refused(books: &[LastBook], code: u64, tally: &mut Tally) {
    tally.count(&format!("refused {code}"));
    let fails = pairs(books).any(|(a, b)| !failing(a, b).is_empty());
    tally.count_if("refused, and the claim fails", fails);
}

// The pages of records in several orders; at the end of one in three a record is cut.
fn drawn_orders(random: &mut Random, families: usize, tally: &mut Tally) -> Vec<Vec<u8>> {
    let records = family_records(random, families);
    let orders = orders(random, &records);
    let page = |order: &Vec<Record>| {
        let cut = random.one_in(3);
        tally.count_if("ends in a cut record", cut);
        match cut {
            true => cut_page(random, order),
            false => page(order),
        }
    };
    orders.iter().map(page).collect()
}

#[test]
fn generated_pages() {
    let (mut random, mut tally) = (Random(71), Tally::default());
    for i in 0..400 {
        let pages = drawn_orders(&mut random, 1 + i % 8, &mut tally);
        expect_orders(&pages, &format!("page {i} in several orders"), &mut tally);
    }
    tally.assert_least(&[
        ("pages", 400),
        ("pairs", 8_400),
        ("ends in a cut record", 850),
        ("texts differ", 8_000),
        ("struck totals differ", 6_500),
        ("rows differ", 7_800),
        ("kept numbers differ", 5_300),
        ("kept words differ", 4_100),
        ("kept are not variants", 2_100),
        ("removed in both", 4_900),
        ("a remover is removed", 3_100),
        ("kept units and longer clauses", 5_700),
    ]);
}

// More of them, by the model's texts alone.
#[test]
fn modelled_pages() {
    let (mut random, mut tally) = (Random(72), Tally::default());
    for i in 0..2_000 {
        let what = format!("page {i} in several orders, modelled");
        let pages = drawn_orders(&mut random, 1 + i % 5, &mut tally);
        let book = |page: &Vec<u8>| LastBook::of(BACK.output(page), records(page), &what);
        let books: Vec<LastBook> = pages.iter().map(book).collect();
        expect_pairs(&books, &what, &mut tally);
    }
    tally.assert_least(&[
        ("pages", 2_000),
        ("pairs", 42_000),
        ("struck totals differ", 31_000),
        ("kept numbers differ", 23_500),
        ("kept words differ", 16_500),
        ("kept are not variants", 7_600),
        ("removed in both", 22_000),
        ("a remover is removed", 12_000),
    ]);
}

// Pages of more than a block: the clauses come again and again under other numbers.
#[test]
fn pages_of_several_blocks() {
    let (mut random, mut tally) = (Random(82), Tally::default());
    for i in 0..4 {
        let what = format!("page {i} of several blocks, shuffled");
        let records = family_records(&mut random, 20);
        let clauses = records.iter().map(|(_, words)| words.clone());
        let clauses = clauses.cycle().take(4_000 + 500 * i);
        let many: Vec<Record> = random.numbers().zip(clauses).collect();
        let pages = few_orders(&mut random, &many).map(|order| page(&order));
        assert!(pages[0].len() > 65_536);
        expect_orders(&pages, &what, &mut tally);
    }
    tally.assert_least(&[
        ("pairs", 24),
        ("kept numbers differ", 18),
        ("kept are not variants", 15),
        ("struck totals differ", 22),
        ("removed in both", 10),
    ]);
}

// A record's number, and its clause written out.
type Row<'a> = (u16, &'a str);

fn records_of(rows: &[Row]) -> Vec<Record> {
    let record = |(number, text): &Row| (*number, clause(text));
    rows.iter().map(record).collect()
}

// Five records in two orders. P(x) clears P(a) and P(b) or strikes them; of P,Q and Q,P, which subsume each other, the first that comes is kept.
const SPECIAL_FIRST: [Row; 5] = [
    (1, "P1 a"),
    (3, "P1 b"),
    (2, "P1 x"),
    (4, "P0 Q0"),
    (5, "Q0 P0"),
];

#[test]
fn by_hand() {
    let special = records_of(&SPECIAL_FIRST);
    let general = reversed(&special);
    let special_lines =
        "1 kept 5\n3 kept 7\n1 removed 2\n3 removed 2\n2 kept 5\n4 kept 9\n5 struck 4 3\n\
        kept 2 struck 1 refused 0 removed 2\n1 0 0\n2 0 0\n3 0 0\n4 1 3\n5\n";
    let general_lines = "5 kept 5\n4 struck 5 3\n2 kept 9\n3 struck 2 1\n1 struck 2 1\n\
        kept 2 struck 3 refused 0 removed 0\n2 2 2\n5 1 3\n5\n";
    let mut tally = Tally::default();
    let books = kept_by(BACK, &[special, general], "by hand");
    assert_eq!(books[0].text, special_lines);
    assert_eq!(books[1].text, general_lines);
    assert_eq!(books[0].numbers(), [2, 4]);
    assert_eq!(books[1].numbers(), [2, 5]);
    expect_pairs(&books, "by hand", &mut tally);
    tally.assert_least(&[
        ("pairs", 1),
        ("texts differ", 1),
        ("struck totals differ", 1),
        ("rows differ", 1),
        ("kept numbers differ", 1),
        ("kept words differ", 1),
        ("kept are not variants", 1),
    ]);
}

// The stored pages whose numbers differ: as they are, reversed and in any order.
#[test]
fn stored_pages() {
    let (mut random, mut tally) = (Random(73), Tally::default());
    for (name, stored) in back_pages().into_iter().chain(pages()) {
        let given = records(&stored);
        if !numbers_differ(&given) {
            tally.count("numbers do not differ");
            continue;
        }
        let (reversed, shuffled) = (reversed(&given), random.shuffled(&given));
        let orders = [stored, page(&reversed), page(&shuffled)];
        let books = orders.each_ref().map(|page| printed(BACK, page, name));
        let refused: Vec<u64> = books.iter().flat_map(|book| book.refused()).collect();
        match refused[..] {
            [] => expect_books(&books, &orders, name, &mut tally),
            [code, ..] => count_refused(&books, code, &mut tally),
        }
    }
    tally.assert_least(&[
        ("pages", 13),
        ("pairs", 39),
        ("struck totals differ", 18),
        ("removed in both", 12),
        ("a remover is removed", 4),
        ("numbers do not differ", 16),
        ("refused 11", 1),
        ("refused, and the claim fails", 1),
    ]);
}

// README's sample: its 13 records that are not refused end with 7 kept in each order, struck and removed sharing the others.
#[test]
fn sample() {
    let mut random = Random(83);
    let all = records(include_bytes!("../../../samples/furnace.page"));
    let ruled = ruled(&all).into_iter().zip(&all);
    let taken = ruled.filter(|((_, outcome), _)| !matches!(outcome, Outcome::Refused { .. }));
    let given: Vec<Record> = taken.map(|(_, record)| record.clone()).collect();
    assert_eq!((all.len(), given.len()), (15, 13));
    let mut orders = vec![given.clone()];
    orders.extend((0..60).map(|_| random.shuffled(&given)));
    let books = kept_by(BACK, &orders, "sample");
    expect_pairs(&books, "sample", &mut Tally::default());
    let says = |book: &LastBook, totals| book.text.contains(&format!("\n{totals}\n"));
    assert!(books.iter().all(|book| book.numbers().len() == 7));
    assert!(says(&books[0], "kept 7 struck 5 refused 0 removed 1"));
    let other = |book| says(book, "kept 7 struck 1 refused 0 removed 5");
    assert!(books.iter().any(other), "README's other order");
}

// A record that is cut at the end plays no part, wherever it is cut; whole, it would take the place of two.
#[test]
fn cut_at_the_end() {
    let given = records_of(&[(1, "P1 a"), (2, "P1 f a"), (3, "P0 Q0"), (4, "Q0 P0")]);
    let last = record(5, &clause("P1 x"));
    let plain = printed(BACK, &page(&given), "without a cut record");
    for cut in 0..=last.len() {
        let what = format!("cut behind byte {cut}");
        let reversed = page(&reversed(&given));
        let other = [&reversed, &last[..cut]].concat();
        if cut < last.len() {
            expect_orders(&[page(&given), other], &what, &mut Tally::default());
        } else {
            let whole = printed(BACK, &other, &what);
            assert!(!plain.has_clauses_of(&whole), "{what}");
            let parts = [Part::Under, Part::Many, Part::Alike];
            assert_eq!(failing(&plain, &whole), parts, "{what}");
        }
    }
}

// Records of which a list or a tree is exactly full at the end, whatever the order; some of them are cleared or struck on the way.
fn expect_full(random: &mut Random, records: &[Record], kept: usize, used: usize) {
    let (what, mut tally) = (format!("{kept} kept in {used} words"), Tally::default());
    let orders = few_orders(random, records);
    let books = kept_by(BACK, &orders, &what);
    expect_pairs(&books, &what, &mut tally);
    for book in &books {
        assert_eq!(book.numbers().len(), kept, "{what}");
        assert!(book.text.contains(&format!(" kept {used}\n")), "{what}");
    }
    tally.assert_least(&[("pairs", 6), ("struck totals differ", 5)]);
}

// Of P(x) and P(a) only one is kept at a time.
#[test]
fn full_list() {
    let mut random = Random(74);
    let general = strangers(&mut random, KEPT);
    let records = with_instances(&mut random, &general, 400);
    expect_full(&mut random, &records, KEPT, 1 + 4 * KEPT);
}

// P(a) has as many words as P(x).
#[test]
fn full_tree() {
    let mut random = Random(75);
    let general = strangers(&mut random, 40);
    let rest = records(&filler(PROGRAM_TREE - 2 - 4 * general.len(), 100));
    let clauses = [general, rest].concat().into_iter().map(|record| record.1);
    let kept: Vec<Record> = random.numbers().zip(clauses).collect();
    let records = with_instances(&mut random, &kept, 40);
    expect_full(&mut random, &records, kept.len(), PROGRAM_TREE - 1);
}

// Records of which the last one has no place, whatever the order: then the two runs keep the same only if they end with the same record.
fn expect_last_refused(random: &mut Random, records: &[Record], code: u64) {
    let what = format!("the last one refused {code}");
    let mut orders = few_orders(random, records).to_vec();
    let mut same_last = orders[0].clone();
    same_last[..records.len() - 1].reverse();
    orders.push(same_last);
    let books = kept_by(BACK, &orders, &what);
    for (a, i) in books.iter().zip(0..) {
        assert_eq!(a.refused(), [code], "{what}");
        for (b, j) in books.iter().zip(0..i) {
            let parts = match orders[i].last() == orders[j].last() {
                true => vec![],
                false => vec![Part::Under, Part::Alike],
            };
            assert!(a.has_records_of(b), "{what}");
            assert_eq!(failing(a, b), parts, "{what}");
        }
    }
}

#[test]
fn one_more_than_a_list() {
    let mut random = Random(76);
    let records = strangers(&mut random, KEPT + 1);
    expect_last_refused(&mut random, &records, 10);
}

#[test]
fn one_word_more_than_a_tree() {
    let mut random = Random(77);
    let records = records(&filler(PROGRAM_TREE - 1, 100));
    expect_last_refused(&mut random, &records, 11);
}

// What each of two orders refuses, and the parts that fail.
fn expect_refusals(orders: &[Vec<Record>; 2], refused: [&[u64]; 2], parts: &[Part], what: &str) {
    let books = kept_by(BACK, orders, what);
    assert!(books[0].has_clauses_of(&books[1]), "{what}");
    for (book, refused) in books.iter().zip(refused) {
        assert_eq!(book.refused(), refused, "{what}");
    }
    assert_eq!(failing(&books[0], &books[1]), parts, "{what}");
}

// As many special clauses as a list keeps, and one more: it is refused if P(x), which covers the special ones, comes behind it.
#[test]
fn refused_in_one_order() {
    let special = (0..KEPT as u16).map(|i| (i, vec![0x8801, 16 + i]));
    let special: Vec<Record> = special.collect();
    let general = records_of(&[(2_000, "P1 x")]);
    for (more, parts) in [
        ("P1 b", &[][..]),
        ("Q0", &[Part::Under, Part::Many, Part::Alike]),
    ] {
        let special = [special.clone(), records_of(&[(3_000, more)])].concat();
        let orders = [
            [&general[..], &special].concat(),
            [&special[..], &general].concat(),
        ];
        expect_refusals(&orders, [&[], &[10]], parts, more);
    }
}

// Two records under one number: which one stays may go by the order. None is refused where one is covered, or removed before the number comes again.
#[test]
fn taken_numbers() {
    let expect = |rows: &[Row], refused: [&[u64]; 2], parts: &[Part]| {
        let given = records_of(rows);
        let orders = [given.clone(), reversed(&given)];
        expect_refusals(&orders, refused, parts, &format!("{rows:?}"));
    };
    let parts = [Part::Under, Part::Alike];
    expect(&[(1, "P0"), (1, "Q0")], [&[7], &[7]], &parts);
    expect(&[(1, "P1 a"), (1, "P1 x")], [&[7], &[]], &parts);
    expect(&[(1, "Q0"), (1, "P1 a"), (2, "P1 x")], [&[7], &[]], &[]);
    expect(&[(1, "P1 a"), (2, "P1 x"), (1, "Q0")], [&[], &[]], &[]);
    expect(&[(1, "P0 Q0"), (1, "Q0 P0")], [&[], &[]], &[]);
}

// A record that is no clause is refused in every order: what is kept is alike all the same.
#[test]
fn faulty_records() {
    let (mut random, mut tally) = (Random(78), Tally::default());
    let faulty = [
        (3, vec![]),
        (3, vec![0x8001; 65]),
        (4, vec![0x4000]),
        (4, vec![0x9001, 0x0001]),
        (5, vec![0x8001; 9]),
    ];
    for (i, (code, faulty)) in faulty.iter().cycle().take(60).enumerate() {
        let what = format!("faulty record {i}");
        let mut records = family_records(&mut random, 1 + i % 4);
        let at = random.below(records.len());
        records[at].1 = faulty.clone();
        let books = kept_by(BACK, &orders(&mut random, &records), &what);
        for book in &books {
            assert_eq!(book.refused(), [*code], "{what}");
            tally.count(&format!("refused {code}"));
        }
        for (a, b) in pairs(&books) {
            assert!(a.has_records_of(b), "{what}");
            assert_eq!(failing(a, b), [], "{what}");
        }
    }
    tally.assert_least(&[("refused 3", 168), ("refused 4", 168), ("refused 5", 84)]);
}

// Inputs with the same clauses: each once, each twice under its number, each up to three times under any numbers, few or many.
#[test]
fn same_clauses() {
    let (mut random, mut tally) = (Random(79), Tally::default());
    for i in 0..600 {
        let what = format!("same clauses {i}");
        let records = family_records(&mut random, 1 + i % 5);
        let twice = random.shuffled(&[&records[..], &records].concat());
        let numbers = random.of(&[2, 1_000]) * records.len();
        let others = renumbered(&mut random, &records, numbers.min(65_536));
        let books = kept_by(BACK, &[records, twice, others], &what);
        assert!(!books[0].has_records_of(&books[1]), "{what}");
        expect_alike(&books[0], &books[1], &what, &mut tally);
        match books[2].refused()[..] {
            [] => {
                expect_alike(&books[0], &books[2], &what, &mut tally);
                expect_alike(&books[1], &books[2], &what, &mut tally);
                tally.count("other numbers");
            }
            [code, ..] => count_refused(&books, code, &mut tally),
        }
    }
    tally.assert_least(&[
        ("pairs", 1_600),
        ("other numbers", 500),
        ("struck totals differ", 1_500),
        ("kept numbers differ", 1_350),
        ("kept are not variants", 280),
        ("refused 7", 75),
        ("refused, and the claim fails", 15),
    ]);
}

// Without `back` what is kept covers each record, but the claim fails where special clauses come first.
#[test]
fn without_back() {
    let (mut random, mut tally) = (Random(80), Tally::default());
    for i in 0..150 {
        let what = format!("page {i} without back");
        let records = family_records(&mut random, 1 + i % 8);
        let books = kept_by(PLAIN, &by_generality(&records), &what);
        for book in &books {
            assert_eq!(book.refused(), [], "{what}");
            assert!(book.covers_input(), "{what}");
        }
        let failing = failing(&books[0], &books[1]);
        assert!(!failing.contains(&Part::Under), "{what}");
        tally.count_if("alike", failing.is_empty());
        for part in failing {
            tally.count(&format!("{part:?} fails"));
        }
    }
    tally.assert_least(&[
        ("Apart fails", 140),
        ("Many fails", 140),
        ("Alike fails", 140),
        ("alike", 5),
    ]);
}

// The model's rulings.
fn ruled(records: &[Record]) -> Vec<Ruling> {
    rulings(records, Setting::Back)
}

// What a text comes to that tells these rulings, true or not.
fn told(records: &[Record], rulings: &[Ruling]) -> LastBook {
    let text = lines(rulings, Setting::Back) + &sheet(records, rulings);
    LastBook::of(text, records.to_vec(), "told")
}

// A book of these clauses, as if none of them had to do with another.
fn book_of(clauses: &[&str]) -> LastBook {
    let numbered: Vec<Row> = (1..).zip(clauses.iter().copied()).collect();
    let kept = |(number, _): &Row| {
        let (removed, used) = (vec![], 0);
        (*number, Outcome::Kept { removed, used })
    };
    let rulings: Vec<Ruling> = numbered.iter().map(kept).collect();
    told(&records_of(&numbered), &rulings)
}

// Which parts fail is found, whichever of the two books comes first.
#[test]
fn wrong_books() {
    use Part::*;
    let rows: [(&[&str], &[&str], &[Part]); 14] = [
        (&[], &[], &[]),
        (&["P1 x", "Q0"], &["Q0", "P1 y"], &[]),
        (&["P0 Q0"], &["Q0 P0"], &[]),
        (&["P1 x", "P1 a"], &["P1 x", "P1 a"], &[Apart]),
        (&["P1 a", "P1 x"], &["P1 x", "P1 a"], &[Apart]),
        (&["P1 x", "P1 x P1 y"], &["P1 x P1 y", "P1 x"], &[Apart]),
        (&["P1 x", "P1 a"], &["P1 x", "Q0"], &[Apart, Under, Alike]),
        (&["P1 x", "P1 y"], &["P1 x"], &[Apart, Many]),
        (&["P1 x", "P1 a"], &["P1 x"], &[Apart, Many, Alike]),
        (&["P1 x"], &["P1 a"], &[Under, Alike]),
        (&["P1 x P1 y"], &["P1 x"], &[Under, Alike]),
        (&["P1 x", "Q0"], &["P1 x", "P0"], &[Under, Alike]),
        (&["P0"], &["P0", "Q0"], &[Under, Many, Alike]),
        (&[], &["P0"], &[Under, Many, Alike]),
    ];
    for (a, b, parts) in rows {
        let (a, b) = (book_of(a), book_of(b));
        assert_eq!(failing(&a, &b), parts);
        assert_eq!(failing(&b, &a), parts);
    }
}

// The rulings with one number fewer among those that are removed, if there are any.
fn with_one_left(rulings: &[Ruling]) -> Option<Vec<Ruling>> {
    let mut spoilt = rulings.to_vec();
    let removed = spoilt.iter_mut().find_map(|(_, outcome)| match outcome {
        Outcome::Kept { removed, .. } if !removed.is_empty() => Some(removed),
        _ => None,
    });
    removed?.pop();
    Some(spoilt)
}

// The rulings with one number more that the last kept record removes, if another clause is kept.
fn with_one_gone(rulings: &[Ruling]) -> Option<Vec<Ruling>> {
    let mut spoilt = rulings.to_vec();
    let mut kept = Vec::new();
    let last = spoilt
        .iter_mut()
        .filter_map(|(number, outcome)| match outcome {
            Outcome::Kept { removed, .. } => {
                kept.retain(|number| !removed.contains(number));
                kept.push(u32::from(*number));
                Some(removed)
            }
            _ => None,
        });
    let last = last.last()?;
    kept.pop();
    last.push(kept.pop()?);
    Some(spoilt)
}

// One removal too few, or too many, in one of two orders.
#[test]
fn wrong_removals() {
    let (mut random, mut tally) = (Random(81), Tally::default());
    for i in 0..300 {
        let records = family_records(&mut random, 1 + i % 5);
        let [general, special] = by_generality(&records);
        let [a, b] = [&general, &special].map(|order| told(order, &ruled(order)));
        assert_eq!(failing(&a, &b), []);
        if let Some(spoilt) = with_one_left(&ruled(&special)) {
            let wrong = told(&special, &spoilt);
            assert_eq!(failing(&a, &wrong), [Part::Apart, Part::Many, Part::Alike]);
            assert!(wrong.covers_input());
            tally.count("one removed too few");
        }
        if let Some(spoilt) = with_one_gone(&ruled(&special)) {
            let wrong = told(&special, &spoilt);
            assert_eq!(failing(&a, &wrong), [Part::Under, Part::Many, Part::Alike]);
            assert!(!wrong.covers_input());
            tally.count("one removed too many");
        }
    }
    tally.assert_least(&[("one removed too few", 275), ("one removed too many", 245)]);
}

// The page by hand in two orders, one of them with a wrong ruling.
fn expect_spoilt(spoil: impl Fn(&[Ruling]) -> Option<Vec<Ruling>>) {
    let special = records_of(&SPECIAL_FIRST);
    let general = reversed(&special);
    let spoilt = spoil(&ruled(&special)).expect("another ruling");
    let books = [told(&special, &spoilt), told(&general, &ruled(&general))];
    expect_pairs(&books, "one wrong ruling", &mut Tally::default());
}

#[test]
#[should_panic(expected = "1, no kept clause of either run subsumes another kept one")]
fn one_removed_too_few() {
    expect_spoilt(with_one_left);
}

#[test]
#[should_panic(expected = "2, each kept by one is subsumed by one kept by the other")]
fn one_removed_too_many() {
    expect_spoilt(with_one_gone);
}

#[test]
#[should_panic(expected = "3, both keep equally many")]
fn one_fewer_kept() {
    expect_spoilt(with_one_gone);
}
