//! Kept clauses listed backwards: after lists of calls beside an ordinary matcher, which knows no tree, and on spoilt and hand-made slices beside the
//! model.
use crate::beside;
use crate::beside::Listing;
use crate::drawn::back::{clearing_page, clearing_units};
use crate::drawn::spoilt::each_change;
use crate::drawn::tally::Tally;
use crate::drawn::{renamed, Random, Style, STYLES};
use crate::listed::Queries;
use crate::set::full::Full;
use crate::set::Set;
use model::back_pages::back_pages;
use model::by_hand::{self, with_much_stack};
use model::calls::Listed;
use model::instruction::used;
use model::limits::{ENOUGH_BUDGET, FULL_BUDGET, KEPT, TREE_MOST};
use model::limits::{PROGRAM_BUDGET, PROGRAM_LIST, PROGRAM_TREE, WITNESS_WORDS};
use model::matcher::subsumes;
use model::notation::{clause, tree};
use model::program::{output, records, Setting};
use model::reader::read;
use model::refusal::Refusal;
use model::words::{is_variable, word, FUNCTION, POSITIVE, VARIABLE};

// What a clause has to do with the kept ones.
const KINDS: [&str; 7] = [
    "general",
    "variant",
    "instance",
    "factor",
    "any",
    "unrelated",
    "kept",
];

impl Set<'_> {
    // A clause of a kind, made of one that is kept, if there is one.
    fn given(&mut self, kind: &str, style: Style) -> Vec<u16> {
        let clauses = self.book.clauses();
        if clauses.is_empty() {
            return self.random.clause(style);
        }
        let kept = self.random.of(&clauses).to_vec();
        match kind {
            "general" => self.random.general(&kept),
            "variant" => renamed(&kept, 1 + self.random.below(2_000) as u16),
            "instance" => self.random.instance(&kept, is_variable),
            "factor" => self.random.made_of(&kept),
            "any" => self.any_clause(style),
            "unrelated" => vec![word(POSITIVE, 1, 2_000), word(VARIABLE, 0, 0)],
            _ => kept,
        }
    }

    // A removal or the insertion of a clause made of a kept one or, mostly, of a general one.
    fn change_around(&mut self, style: Style, general: &[u16]) {
        if self.random.one_in(6) {
            let number = self.any_removal();
            return self.remove(number);
        }
        let clause = match self.random.below(4) {
            0 => self.any_clause(style),
            1 => self.random.made_of(general),
            _ => {
                let instance = self.random.instance(general, is_variable);
                self.random.among_strangers(&instance)
            }
        };
        let number = self.any_number();
        self.insert(&clause, number);
    }

    // One listing; on the smaller slices the model's call on words is run, too.
    fn list(&mut self, clause: &[u16], budget: u64, expected: &Listing) {
        self.tally.count("listings in all");
        beside::expect_backward(self.tree(), clause, budget, expected);
        if self.tree().len() < 160 && self.random.one_in(4) {
            let list_words = expected.list.len();
            let again = beside::backward(self.tree(), clause, budget, list_words);
            assert_eq!(again, *expected);
        }
    }

    // A clause given with many budgets and lists.
    fn list_at_all(&mut self, clause: &[u16], kind: &str) {
        let literals = match read(clause) {
            Err(refusal) => return self.list_refused(clause, refusal),
            Ok(literals) => literals,
        };
        let queries = Queries::of(&literals, &self.book.pairs);
        let (many, tries) = (queries.numbers().len(), queries.tries());
        self.tally.count(&format!("{kind} clauses listed for"));
        self.tally.count_if("listings of none", many == 0);
        self.tally.count_if("listings of several", many > 1);
        self.tally.count_if("listings of six or more", many >= 6);
        // a list of no word, of one too few, just long enough, of one more, and of as many as can be kept
        let lists = [0, many.saturating_sub(1), many, many + 1, KEPT];
        let any = self.random.of(&lists);
        let with_each = |budget| lists.map(|list_words| (budget, list_words));
        let others = [FULL_BUDGET, u64::MAX, tries + 1].map(|budget| (budget, any));
        let enough = [with_each(ENOUGH_BUDGET), with_each(tries)].concat();
        for (budget, list_words) in enough.into_iter().chain(others) {
            let expected = queries.listing(budget, list_words);
            assert_eq!(expected.answer.is_ok(), list_words >= many);
            self.tally.answer("listings", "made", expected.answer);
            self.list(clause, budget, &expected);
        }
        // budgets on both sides of what the first queries take together
        let mut sums = queries.sums();
        sums.dedup();
        for sum in sums.into_iter().chain([0]) {
            for budget in [sum.saturating_sub(1), sum, sum + 1] {
                let list_words = match self.random.one_in(2) {
                    true => self.random.of(&lists),
                    false => self.random.below(many + 1),
                };
                let expected = queries.listing(budget, list_words);
                self.tally
                    .answer("small budgets", "enough", expected.answer);
                self.list(clause, budget, &expected);
            }
        }
    }

    // A clause that is not accepted has its code whatever budget and list are.
    fn list_refused(&mut self, clause: &[u16], refusal: Refusal) {
        self.tally.answer::<()>("clauses", "", Err(refusal));
        for budget in [0, 1, ENOUGH_BUDGET] {
            for list_words in [0, 1, 20] {
                let expected = Listing::refused(refusal, list_words);
                self.list(clause, budget, &expected);
            }
        }
    }

    // What is made of a kept clause subsumes it or does not, by how it is made.
    fn judge_kinds(&mut self, style: Style) {
        for kind in KINDS {
            let clause = self.given(kind, style);
            self.list_at_all(&clause, kind);
            let Ok(literals) = read(&clause) else {
                continue;
            };
            let mut pairs = self.book.pairs.iter();
            let some = pairs.any(|pair| subsumes(&literals, &pair.literals));
            match kind {
                "general" | "variant" | "kept" => assert_eq!(some, !self.book.pairs.is_empty()),
                "unrelated" => assert!(!some || self.book.pairs.is_empty()),
                _ => {}
            }
        }
    }
}

// How often each thing has to occur.
const LEAST: [(&str, u64); 24] = [
    ("sets", 3_000),
    ("listings in all", 500_000),
    ("listings made", 150_000),
    ("listings refused 16", 50_000),
    ("small budgets enough", 30_000),
    ("small budgets refused 12", 150_000),
    ("small budgets refused 16", 40_000),
    ("listings of none", 10_000),
    ("listings of several", 5_000),
    ("listings of six or more", 1_000),
    ("general clauses listed for", 8_000),
    ("variant clauses listed for", 2_500),
    ("instance clauses listed for", 2_500),
    ("factor clauses listed for", 2_500),
    ("any clauses listed for", 2_500),
    ("unrelated clauses listed for", 2_500),
    ("kept clauses listed for", 2_500),
    ("clauses refused 3", 50),
    ("clauses refused 4", 50),
    ("clauses refused 5", 50),
    ("insertions kept", 13_000),
    ("insertions refused 7", 4_000),
    ("insertions refused 8", 2_500),
    ("removals made", 13_000),
];

// Lists of insertions and removals, refused ones among them, then clauses of each kind.
#[test]
fn lists_of_calls() {
    let mut random = Random(71);
    let mut tally = Tally::default();
    for i in 0..3_000 {
        let style = STYLES[i % STYLES.len()];
        let most = if random.one_in(2) { 150 } else { 2_000 };
        let length = 2 + random.below(most);
        let general = random.clause(style);
        let mut set = Set::new(length, &mut random, &mut tally);
        for _ in 0..4 + set.random.below(24) {
            set.change_around(style, &general);
        }
        set.judge_kinds(style);
        set.list_at_all(&general, "general");
        set.finish();
        set.list_at_all(&general, "general");
    }
    tally.assert_least(&LEAST);
}

impl Full {
    // As many clauses as can be kept, under any numbers.
    fn of_clauses(random: &mut Random, clause: impl Fn(u16, &mut Random) -> Vec<u16>) -> Full {
        let mut full = Full::new();
        while full.book.pairs.len() < KEPT {
            let (i, number) = (full.book.pairs.len() as u16, random.next() as u32);
            let clause = clause(i, random);
            let _ = full.keep(&clause, number);
        }
        full
    }

    // The listing by the matcher, with budgets and lists around what it takes.
    fn judge_listing(&self, given: &[u16]) -> Vec<u32> {
        let literals = read(given).expect("an accepted clause");
        let queries = Queries::of(&literals, &self.book.pairs);
        let (numbers, tries) = (queries.numbers(), queries.tries());
        let many = numbers.len();
        assert!(numbers.is_sorted());
        for budget in [ENOUGH_BUDGET, tries, tries.saturating_sub(1), tries / 2, 0] {
            for list_words in [KEPT, KEPT + 9, many, many.saturating_sub(1), 0] {
                let expected = queries.listing(budget, list_words);
                beside::expect_backward(&self.tree, given, budget, &expected);
            }
        }
        numbers
    }
}

// 1,024 kept clauses: P(c), P(f(c)) and, of several literals, P(c),Q(d).
#[test]
fn full_trees() {
    let mut random = Random(72);
    let (p1, q1, f, x) = (0x8801, 0x8802, 0x0803, 0x4000);
    let constant = |i: u16| word(FUNCTION, 0, 1 + i);
    let full = Full::of_clauses(&mut random, |i, random| match i % 4 {
        0 => vec![p1, constant(i)],
        1 => vec![p1, f, constant(i)],
        2 => vec![q1, constant(i), p1, constant(i)],
        _ => vec![p1, constant(i), q1, constant(random.below(9) as u16)],
    });
    assert_eq!(full.judge_listing(&[p1, x]).len(), KEPT);
    assert_eq!(full.judge_listing(&[p1, f, x]).len(), KEPT / 4);
    assert_eq!(full.judge_listing(&[q1, x]).len(), KEPT / 2);
    assert!(full.judge_listing(&[p1, x, q1, x]).len() >= KEPT / 4);
    assert_eq!(full.judge_listing(&[p1, constant(4)]).len(), 1);
    assert_eq!(full.judge_listing(&[0x8001]).len(), 0);
    // the model on the same words
    let all = beside::backward(&full.tree, &[p1, x], ENOUGH_BUDGET, KEPT);
    let mut numbers: Vec<u32> = full.book.pairs.iter().map(|pair| pair.number).collect();
    numbers.sort();
    assert_eq!(all.numbers(), numbers);
    let short = beside::backward(&full.tree, &[p1, x], ENOUGH_BUDGET, KEPT - 1);
    assert_eq!(short.answer, Err(Refusal::ShortList));
}

// The most that a listing can take: 1,024 clauses P(c),..,P(c) of eight literals, and P(x1),..,P(x7),Q, of which no choice fits.
#[test]
fn most_candidates() {
    let mut random = Random(73);
    let constant = |i: u16| word(FUNCTION, 0, 1 + i);
    let full = Full::of_clauses(&mut random, |i, _| [0x8801, constant(i)].repeat(8));
    let variables = (0..7).flat_map(|i| [0x8801, word(VARIABLE, 0, i)]);
    let given: Vec<u16> = variables.chain([0x8002]).collect();
    let enough = Listing::of(&[], ENOUGH_BUDGET, 2);
    beside::expect_backward(&full.tree, &given, ENOUGH_BUDGET, &enough);
    let budget = ENOUGH_BUDGET - 1;
    let spent = Listing::refused(Refusal::Spent(budget), 2);
    beside::expect_backward(&full.tree, &given, budget, &spent);
}

// Numbers that differ in a bit are listed in the order of numbers of 32 bits, in whatever order they came.
#[test]
fn numbers_a_bit_apart() {
    let mut random = Random(74);
    let mut numbers = by_hand::numbers_a_bit_apart();
    for _ in 0..20 {
        random.shuffle(&mut numbers);
        let mut tree = [0; 200];
        for (i, number) in numbers.iter().enumerate() {
            let clause = [0x8801, word(FUNCTION, 0, 1 + i as u16)];
            assert_eq!(beside::insert(&mut tree, &clause, *number), Ok(()));
        }
        let listing = beside::backward(&tree, &[0x8801, 0x4000], 66, 66);
        let mut rising = numbers.clone();
        rising.sort();
        assert_eq!(listing, Listing::of(&rising, 66, 66));
    }
}

// A listing on any slice beside the model.
fn list_any(tree: &[u64], clause: &[u16], random: &mut Random, tally: &mut Tally) {
    let budget = random.of(&[0, 1, 2, 3, 5, 1_000, u64::MAX]);
    let list_words = random.of(&[0, 1, 2, 4]);
    let listing = beside::backward(tree, clause, budget, list_words);
    tally.answer("listings", "made", listing.answer);
    tally.count_if("listings of some", !listing.numbers().is_empty());
}

// How often each answer has to occur on spoilt slices.
const LEAST_OF_SPOILT: [(&str, u64); 6] = [
    ("listings made", 1_000),
    ("listings of some", 500),
    ("listings refused 2", 500),
    ("listings refused 12", 500),
    ("listings refused 14", 1_000),
    ("listings refused 16", 500),
];

// In small trees each bit changed, each two words exchanged, and each field one more and one less; given is a clause more general than a kept one.
#[test]
fn each_word_changed() {
    let mut random = Random(75);
    let mut tally = Tally::default();
    for i in 0..48 {
        let mut general = vec![0x8801, 0x4000];
        let tree = random.small_tree(STYLES[i % STYLES.len()], |random, kept| {
            general = random.general(kept);
        });
        each_change(&tree, |changed| {
            list_any(changed, &general, &mut random, &mut tally)
        });
    }
    tally.assert_least(&LEAST_OF_SPOILT);
}

// Sequences near those of clauses, each under a number that is mostly its own, laid out as a tree's paths are.
#[test]
fn paths_near_clauses() {
    let mut random = Random(76);
    let mut tally = Tally::default();
    for i in 0..16_000 {
        let style = STYLES[i % 6];
        let (clauses, sequences) = random.sequences(style);
        let Some(first) = clauses.first() else {
            continue;
        };
        let general = random.general(first);
        let changed = random.of(&[0, 0, 1, 2]);
        let tree = random.laid(&sequences, |_, i| {
            (i + changed >= sequences.len()).then_some(0)
        });
        list_any(&tree, &general, &mut random, &mut tally);
    }
    tally.assert_least(&LEAST_OF_SPOILT);
}

// Slices made by hand: one that passes a check lists its clause, read back, under its number, and no number that is not there; another one has the check's code.
#[test]
fn slices_made_by_hand() {
    with_much_stack(|| {
        let (mut listed, mut refused) = (0, 0);
        for example in by_hand::examples() {
            println!("{}", example.name);
            let given = example.back.clone().unwrap_or(clause("P0"));
            let listing = beside::backward(&example.words, &given, ENOUGH_BUDGET, KEPT);
            match example.checked() {
                Err(refusal) => {
                    assert_eq!(listing, Listing::refused(refusal, KEPT));
                    refused += 1;
                }
                Ok(()) if example.back.is_ok() => {
                    assert!(listing.numbers().contains(&example.number));
                    listed += 1;
                }
                Ok(()) => assert!(!listing.numbers().contains(&example.number)),
            }
        }
        assert!(listed > 80 && refused > 200, "{listed} and {refused}");
    });
}

// Paths about as long as any clause's can be, and the longest of all, before and after a clause's path.
#[test]
fn deep_paths() {
    with_much_stack(|| {
        for depth in [319, 320, 321, 322, 30_000, 65_534] {
            for mut tree in by_hand::deep(depth) {
                tree.resize((tree.len() + 9).min(TREE_MOST), 0);
                let _ = code_tree::insert(&mut tree, &clause("Q1 x"), 7);
                let refused = Listing::refused(Refusal::NoSuchTree, 3);
                assert_eq!(beside::backward(&tree, &clause("Q1 y"), 9, 3), refused);
            }
        }
    });
}

// 1, 3 to 5, 2, 14, then 12 and 16: of those that apply the first.
#[test]
fn order_of_refusals() {
    let saved = tree("First 0/3, Check P0/2, Success 1/1");
    let no_tree = tree("First 0/2, Success 1/1");
    let twice = tree("First 0/5, Check P0/2, Success 1/1, Check Q0/2, Success 1/1");
    let broken = tree("First 0/2, Success 1/2");
    let lengths = [0, 1, TREE_MOST + 1].map(|length| vec![u64::MAX; length]);
    let slices = [(&saved, 0), (&no_tree, 14), (&twice, 14), (&broken, 2)];
    let slices = slices
        .into_iter()
        .chain(lengths.iter().map(|slice| (slice, 1)));
    let (nine, long) = ("P0 ".repeat(9), "x ".repeat(65));
    let last = format!("{}P1", "P0 ".repeat(7));
    let clauses = [("", 3), (&long, 3), ("x", 4), (&last, 4), (&nine, 5)];
    for (words, slice) in slices {
        for (given, fault) in clauses.into_iter().chain([("P0", 0)]) {
            for (budget, list_words) in [(0, 0), (0, 1), (1, 0), (1, 1), (2, 2)] {
                let refusals = [
                    (slice == 1, 1),
                    (fault > 0, fault),
                    (slice > 1, slice),
                    (budget < 1, 12),
                    (list_words < 1, 16),
                ];
                let listing = beside::backward(words, &clause(given), budget, list_words);
                beside::expect_first(listing.answer, &refusals);
            }
        }
    }
}

// Clauses at both sides of their limits, on an empty tree.
#[test]
fn limits_of_clauses() {
    let nested = |words: usize| [vec![0x8801], vec![0x0803; words - 2], vec![0x4000]].concat();
    for (given, answer) in [
        (nested(64), None),
        (nested(65), Some(Refusal::BadLength)),
        (vec![], Some(Refusal::BadLength)),
        (vec![0x8001], None),
        (vec![0x8001; 8], None),
        (vec![0x8001; 9], Some(Refusal::NinthLiteral(8))),
        (nested(64)[..63].to_vec(), Some(Refusal::BadClause(63))),
    ] {
        let listing = beside::backward(&[0; 2], &given, 0, 0);
        assert_eq!(listing.answer.err(), answer);
    }
}

// Slices of each length at the bounds, empty, with a clause or of one word over and over.
#[test]
fn slices_of_each_length() {
    let mut tally = Tally::default();
    for length in by_hand::LENGTHS {
        let (of_one_word, resized) = by_hand::of_length(length);
        for words in of_one_word.iter().chain(&resized) {
            for (budget, list_words) in [(1, 1), (0, 1), (1, 0)] {
                let listing = beside::backward(words, &[0x8001], budget, list_words);
                tally.answer("listings", "made", listing.answer);
            }
        }
    }
    tally.assert_least(&[
        ("listings made", 20),
        ("listings refused 1", 60),
        ("listings refused 2", 60),
        ("listings refused 12", 4),
        ("listings refused 14", 20),
        ("listings refused 16", 4),
    ]);
}

// What the program prints of a page with `back`, by the library's calls in its place: query, listing, number, removals and insertion on 8,192 words.
struct ByCalls {
    tree: Vec<u64>,
    lines: String,
}

impl ByCalls {
    // Gives the line of a record, or its code.
    fn take(&mut self, number: u16, words: &[u16]) -> Result<String, code_tree::Refusal> {
        let tree = &mut self.tree;
        let cover = code_tree::query(tree, words, PROGRAM_BUDGET, &mut [0; WITNESS_WORDS])?;
        if let code_tree::Cover::Covered { number: by, count } = cover {
            return Ok(format!("{number} struck {by} {count}\n"));
        }
        let mut list = [0; PROGRAM_LIST];
        let listed = code_tree::backward(tree, words, PROGRAM_BUDGET, &mut list)?;
        let removed = &list[..listed.many];
        let mut after = tree.clone();
        let number = u32::from(number);
        if code_tree::remove(&mut after, number).is_ok() {
            return Err(code_tree::Refusal::NumberTaken);
        }
        let mut lines = String::new();
        for gone in removed {
            code_tree::remove(&mut after, *gone)?;
            lines += &format!("{gone} removed {number}\n");
        }
        code_tree::insert(&mut after, words, number)?;
        *tree = after;
        Ok(format!("{lines}{number} kept {}\n", used(tree[0])))
    }

    fn page(page: &[u8]) -> String {
        let (tree, lines) = (vec![0; PROGRAM_TREE], String::new());
        let mut calls = ByCalls { tree, lines };
        for (number, words) in records(page) {
            let answer = calls.take(number, &words);
            let refused = |refusal| format!("{number} refused {}\n", code(refusal));
            calls.lines += &answer.unwrap_or_else(refused);
        }
        calls.lines
    }
}

// The codes that the program can print.
fn code(refusal: code_tree::Refusal) -> u64 {
    match refusal {
        code_tree::Refusal::BadLength => 3,
        code_tree::Refusal::BadClause { .. } => 4,
        code_tree::Refusal::NinthLiteral { .. } => 5,
        code_tree::Refusal::NumberTaken => 7,
        code_tree::Refusal::ListFull => 10,
        code_tree::Refusal::NoRoom => 11,
        other => panic!("{other:?} in the program"),
    }
}

#[test]
fn pages_by_calls() {
    let mut random = Random(77);
    let stored = back_pages().into_iter().map(|(_, page)| page);
    let mut pages: Vec<Vec<u8>> = stored.collect();
    for i in 0..40 {
        let numbers = random.of(&[9, 60, 900]);
        pages.push(clearing_page(&mut random, 1 + i % 12, numbers));
        pages.push(clearing_units(&mut random, 1 + i % 6, numbers));
    }
    let mut removed = 0;
    for page in &pages {
        let lines = ByCalls::page(page);
        removed += lines.matches(" removed ").count();
        let expected = output(page, Setting::Back);
        assert!(expected.starts_with(&format!("{lines}kept ")));
    }
    assert!(removed > 5_500, "{removed} removed");
}

// The answer of the Rust wrapper.
#[test]
fn wrapped() {
    let mut tree = [0; 40];
    for (number, text) in [(9, "P1 a"), (4, "P1 b"), (6, "Q0")] {
        assert_eq!(code_tree::insert(&mut tree, &clause(text), number), Ok(()));
    }
    let mut list = [7; 3];
    let given = clause("P1 x");
    let answer = code_tree::backward(&tree, &given, 3, &mut list);
    let expected = code_tree::Listed {
        many: 2,
        candidates: 3,
    };
    assert_eq!((answer, list), (Ok(expected), [4, 9, 7]));
    let spent = Err(code_tree::Refusal::Spent { count: 2 });
    assert_eq!(code_tree::backward(&tree, &given, 2, &mut list), spent);
    let short = Err(code_tree::Refusal::ShortList);
    assert_eq!(code_tree::backward(&tree, &given, 3, &mut [0; 1]), short);
    assert_eq!(KEPT, code_tree::LIST_WORDS);
    let Listed { many, candidates } = model::calls::backward(&tree, &given, 3, &mut list).unwrap();
    assert_eq!((many, candidates), (2, 3));
}
