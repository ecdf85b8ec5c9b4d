//! Saved trees checked and read back: those of lists of calls beside the clause book, spoilt and hand-made slices beside the model.
use crate::beside;
use crate::beside::ReadBack;
use crate::drawn::spoilt::each_change;
use crate::drawn::tally::Tally;
use crate::drawn::{Random, Style, STYLES};
use crate::set::full::Full;
use crate::set::Set;
use model::book::Book;
use model::by_hand::{self, chain, with_much_stack, Example};
use model::compiler::sequence;
use model::instruction::{used, Instruction, Operation};
use model::laid::well_laid;
use model::limits::{FULL_BUDGET, KEPT, OUTPUT_WORDS, TREE_MOST, WITNESS_WORDS};
use model::notation::{clause, path, tree};
use model::reader::read;
use model::refusal::Refusal;
use model::saved::renumbered;
use model::tree::Path;
use model::words::{word, NEGATIVE};

// Lengths of an output.
const OUTPUTS: [usize; 4] = [OUTPUT_WORDS, OUTPUT_WORDS + 1, OUTPUT_WORDS + 2, 300];

// The numbers of the clauses of a well-laid slice.
fn numbers(tree: &[u64]) -> Vec<u32> {
    let words = tree[1..=used(tree[0])].iter();
    let successes = words.filter(|word| **word >> 60 == 0);
    successes.map(|word| (word >> 28) as u32).collect()
}

// Reads every so many-th clause of a book back: it is as it was kept but for the names of its variables, and compiles to the same.
fn read_book_back(tree: &[u64], book: &Book, every: usize, random: &mut Random, tally: &mut Tally) {
    for pair in book.pairs.iter().step_by(every) {
        let clause = renumbered(&pair.words);
        let expected = ReadBack::of(&clause, random.of(&OUTPUTS));
        beside::expect_read_back(tree, pair.number, &expected);
        let literals = read(&clause).expect("an accepted clause");
        assert_eq!(sequence(&literals), sequence(&pair.literals));
        tally.count("clauses read back");
        tally.count_if("read back equal", clause == pair.words);
        tally.count_if("read back with 60 or more words", clause.len() >= 60);
    }
}

// A slice that passes is made again of the clauses read back, in any order and with any words to spare; queries are answered the same.
fn make_again(tree: &[u64], queries: &[Vec<u16>], random: &mut Random, tally: &mut Tally) {
    let length = (tree.len() + random.below(9)).min(TREE_MOST);
    let mut again = vec![!0; length];
    assert_eq!(code_tree::fresh(&mut again), Ok(()));
    let mut numbers = numbers(tree);
    random.shuffle(&mut numbers);
    for number in numbers {
        let mut out = [0; OUTPUT_WORDS];
        let length = code_tree::read_back(tree, number, &mut out).expect("a clause");
        let inserted = code_tree::insert(&mut again, &out[..length], number);
        assert_eq!(inserted, Ok(()));
    }
    let (words, spare) = again.split_at(tree.len());
    assert!(words == tree && spare.iter().all(|word| *word == 0));
    assert_eq!(code_tree::check(&again), Ok(()));
    tally.count("made again");
    for query in queries {
        let ask = |tree| beside::query(tree, query, FULL_BUDGET, WITNESS_WORDS);
        let asked = ask(tree);
        assert_eq!(asked, ask(&again));
        tally.answer("queries of both", "answered", asked.answer);
    }
}

impl Set<'_> {
    fn change(&mut self, style: Style) {
        if self.random.one_in(4) {
            let number = self.any_removal();
            return self.remove(number);
        }
        let (clause, number) = (self.any_clause(style), self.any_number());
        self.insert(&clause, number);
    }

    // The slice passes, the book is read back, and no other number is.
    fn judge_saved(&mut self) {
        let tree = self.tree().to_vec();
        assert_eq!(beside::check(&tree), Ok(()));
        self.tally.count("lists passed");
        read_book_back(&tree, &self.book, 1, self.random, self.tally);
        let known = numbers(&tree);
        let near = |number: &u32| [number.wrapping_add(1), number ^ 1 << 16, number ^ 1 << 31];
        let any = (0..18).chain([u32::MAX - 1, u32::MAX]);
        let others = known.iter().flat_map(near).chain(any);
        for other in others.filter(|other| !known.contains(other)) {
            let refused = ReadBack::refused(Refusal::NoSuchNumber, self.random.of(&OUTPUTS));
            beside::expect_read_back(&tree, other, &refused);
            self.tally.count("other numbers refused");
        }
        // the model's own reading of the words
        let number = self.any_removal();
        let back = beside::read_back(&tree, number, OUTPUT_WORDS);
        assert_eq!(back.answer.is_ok(), known.contains(&number));
    }
}

// Lists of insertions and removals, refused ones among them.
#[test]
fn lists_of_calls() {
    let mut random = Random(51);
    let mut tally = Tally::default();
    for i in 0..2_000 {
        let style = STYLES[i % STYLES.len()];
        let most = if random.one_in(2) { 150 } else { 2000 };
        let length = 2 + random.below(most);
        let mut set = Set::new(length, &mut random, &mut tally);
        set.judge_saved();
        for _ in 0..5 + set.random.below(20) {
            set.change(style);
            if set.random.one_in(6) {
                set.judge_saved();
            }
        }
        set.judge_saved();
        let queries: Vec<Vec<u16>> = (0..4).map(|_| set.any_clause(style)).collect();
        let tree = set.tree().to_vec();
        make_again(&tree, &queries, set.random, set.tally);
        set.finish();
        set.judge_saved();
    }
    tally.assert_least(&[
        ("lists passed", 8_000),
        ("clauses read back", 12_000),
        ("read back equal", 4_000),
        ("read back with 60 or more words", 600),
        ("other numbers refused", 100_000),
        ("made again", 2_000),
        ("queries of both answered", 6_000),
        ("insertions kept", 6_000),
        ("insertions refused 4", 500),
        ("insertions refused 7", 1_000),
        ("insertions refused 8", 1_000),
        ("insertions refused 11", 1_000),
        ("removals made", 6_000),
        ("removals refused 9", 1_000),
    ]);
}

impl Full {
    // Random clauses up to the most, or until little room is left: none takes more than 321 words.
    fn at_random(style: Style, random: &mut Random) -> Full {
        let mut full = Full::new();
        while full.book.pairs.len() < KEPT && full.book.tree.used() < TREE_MOST - 400 {
            let (clause, number) = (random.clause(style), random.next() as u32);
            let _ = full.keep(&clause, number);
        }
        full
    }

    // Literals without arguments up to the last word: one alone takes two words, the first one twice takes three.
    fn fill_up(&mut self) {
        let head = |n: u32| word(NEGATIVE, 0, 99 + n as u16);
        assert_eq!(self.keep(&[head(0)], 0), Ok(()));
        if (TREE_MOST - 1 - self.book.tree.used()) % 2 == 1 {
            assert_eq!(self.keep(&[head(0), head(0)], 1), Ok(()));
        }
        for n in 2.. {
            if self.book.tree.used() == TREE_MOST - 1 {
                break;
            }
            assert_eq!(self.keep(&[head(n)], n), Ok(()));
        }
    }

    // A Check of 17 bits, at any place where that leaves the slice well laid, is no clause's.
    fn judge_widened(&self, random: &mut Random, tally: &mut Tally) {
        for _ in 0..200 {
            let mut changed = self.tree.clone();
            let at = 1 + random.below(used(changed[0]));
            changed[at] |= 1 << (28 + 16);
            if changed[at] >> 60 == Operation::Check as u64 && well_laid(&changed) {
                beside::expect_check(&changed, Err(Refusal::NoSuchTree));
                tally.count("Checks widened");
            }
        }
    }

    fn judge_saved(&self, every: usize, random: &mut Random, tally: &mut Tally) {
        let Full { tree, book } = self;
        assert!(*tree == book.tree.words(), "the words of a full tree");
        assert_eq!(beside::check(tree), Ok(()));
        read_book_back(tree, book, every, random, tally);
        let known = numbers(tree);
        let other = (0..).find(|other| !known.contains(other)).unwrap();
        let refused = ReadBack::refused(Refusal::NoSuchNumber, OUTPUT_WORDS);
        beside::expect_read_back(tree, other, &refused);
        // the last number is the first one's, too
        let mut twice = tree.clone();
        twice[used(tree[0])] = Instruction::new(Operation::Success, known[0]).pack(1);
        assert_eq!(beside::check(&twice), Err(Refusal::NoSuchTree));
        self.judge_widened(random, tally);
        println!("{} clauses in {} words", known.len(), used(tree[0]));
    }
}

#[test]
fn full_trees() {
    let mut random = Random(52);
    let mut tally = Tally::default();
    let [middle, large] = [STYLES[3], STYLES[6]];
    let full = Full::at_random(middle, &mut random);
    assert_eq!(full.book.pairs.len(), KEPT);
    full.judge_saved(1, &mut random, &mut tally);
    let mut full = Full::at_random(large, &mut random);
    full.fill_up();
    full.judge_saved(5, &mut random, &mut tally);
    tally.assert_least(&[
        ("clauses read back", 1_100),
        ("read back with 60 or more words", 50),
        ("Checks widened", 40),
    ]);
}

// Both calls on any slice; one that passes is, now and then, made again.
fn call_both(tree: &[u64], random: &mut Random, tally: &mut Tally) {
    let checked = beside::check(tree);
    tally.answer("checks", "passed", checked);
    let (number, short) = (random.below(5) as u32, random.one_in(8));
    let out_words = OUTPUT_WORDS + random.below(2) - short as usize;
    let back = beside::read_back(tree, number, out_words);
    tally.answer("readings back", "made", back.answer);
    if checked.is_ok() && random.one_in(8) {
        make_again(tree, &[], random, tally);
    }
}

// How often each answer has to occur.
const LEAST: [(&str, u64); 9] = [
    ("checks passed", 1_000),
    ("checks refused 2", 500),
    ("checks refused 14", 1_000),
    ("readings back made", 1_000),
    ("readings back refused 2", 500),
    ("readings back refused 9", 1_000),
    ("readings back refused 14", 1_000),
    ("readings back refused 15", 1_000),
    ("made again", 100),
];

// In small trees each bit changed, each two words exchanged, and each field one more and one less.
#[test]
fn each_word_changed() {
    let mut random = Random(53);
    let mut tally = Tally::default();
    for i in 0..48 {
        let tree = random.small_tree(STYLES[i % STYLES.len()], |_, _| ());
        each_change(&tree, |changed| call_both(changed, &mut random, &mut tally));
    }
    tally.assert_least(&LEAST);
}

// Sequences near those of clauses, each under a number that is mostly its own, laid out as a tree's paths are.
#[test]
fn paths_near_clauses() {
    let mut random = Random(54);
    let mut tally = Tally::default();
    for i in 0..24_000 {
        let large = i % 32 == 0;
        let style = STYLES[if large { 6 + random.below(2) } else { i % 6 }];
        let (_, sequences) = random.sequences(style);
        let changed = random.of(&[0, 1, 1, 2]);
        let tree = random.laid(&sequences, |random, i| {
            (i < changed).then(|| random.below(sequences.len()))
        });
        call_both(&tree, &mut random, &mut tally);
        let mut apart = numbers(&tree);
        let paths = apart.len();
        apart.sort();
        apart.dedup();
        let twice = changed == 0 && apart.len() < paths;
        tally.count_if("a number twice, no path changed", twice);
    }
    let more = [
        ("checks passed", 5_000),
        ("checks refused 14", 10_000),
        ("a number twice, no path changed", 500),
    ];
    tally.assert_least(&[&LEAST[..], &more].concat());
}

// Numbers that differ in a bit are different, and each has its own clause.
#[test]
fn numbers_a_bit_apart() {
    let numbers = by_hand::numbers_a_bit_apart();
    let mut tree = [0; 200];
    let clause = |i: usize| [word(NEGATIVE, 0, i as u16)];
    for (i, number) in numbers.iter().enumerate() {
        assert_eq!(beside::insert(&mut tree, &clause(i), *number), Ok(()));
    }
    assert_eq!(beside::check(&tree), Ok(()));
    for (i, number) in numbers.iter().enumerate() {
        let back = beside::read_back(&tree, *number, OUTPUT_WORDS);
        assert_eq!(back, ReadBack::of(&clause(i), OUTPUT_WORDS));
    }
}

// Library and model answer each example as it says, and a slice that passes is made again.
fn judge_examples(examples: Vec<Example>) {
    let (mut random, mut tally) = (Random(56), Tally::default());
    with_much_stack(move || {
        for example in examples {
            let Example { name, words, .. } = &example;
            println!("{name}");
            assert_eq!(beside::check(words), example.checked());
            let expected = |out_words| match &example.back {
                Ok(clause) => ReadBack::of(clause, out_words),
                Err(refusal) => ReadBack::refused(*refusal, out_words),
            };
            let back = beside::read_back(words, example.number, OUTPUT_WORDS);
            assert_eq!(back, expected(OUTPUT_WORDS));
            for out_words in OUTPUTS {
                beside::expect_read_back(words, example.number, &expected(out_words));
            }
            if example.checked().is_ok() {
                make_again(words, &[], &mut random, &mut tally);
            }
        }
    });
}

#[test]
fn slices_made_by_hand() {
    judge_examples(by_hand::examples());
}

// Paths about as long as any clause's can be, and the longest of all: none is a clause's, alone, before a clause's path or after one.
#[test]
fn deep_paths() {
    with_much_stack(|| {
        for depth in [317, 318, 319, 320, 321, 322, 323, 400, 30_000, 65_534] {
            for tree in by_hand::deep(depth) {
                assert_eq!(beside::check(&tree), Err(Refusal::NoSuchTree));
                let back = beside::read_back(&tree, 9, OUTPUT_WORDS);
                assert_eq!(back.answer, Err(Refusal::NoSuchTree));
                for other in ["P0", "Q1 x"] {
                    let mut two = tree.clone();
                    two.resize((tree.len() + 9).min(TREE_MOST), 0);
                    let inserted = code_tree::insert(&mut two, &clause(other), 7);
                    assert_eq!(inserted.is_ok(), two.len() > tree.len());
                    beside::expect_check(&two, Err(Refusal::NoSuchTree));
                    let refused = ReadBack::refused(Refusal::NoSuchTree, OUTPUT_WORDS);
                    beside::expect_read_back(&two, 7, &refused);
                }
            }
        }
    });
}

// Literals one below the other, each the end of a clause: eight are, nine or more are not.
#[test]
fn clauses_below_clauses() {
    for (literals, answer) in [
        (1, Ok(())),
        (8, Ok(())),
        (9, Err(Refusal::NoSuchTree)),
        (300, Err(Refusal::NoSuchTree)),
        (1_024, Err(Refusal::NoSuchTree)),
        (1_025, Err(Refusal::Broken)),
    ] {
        let literal = |number| path(&format!("First, Check P0, Success {number}"));
        let tree = chain(&(1..=literals).flat_map(literal).collect::<Path>());
        assert_eq!(beside::check(&tree), answer);
        let back = beside::read_back(&tree, 1, OUTPUT_WORDS);
        assert_eq!(back.answer, answer.map(|()| 1));
        let back = beside::read_back(&tree, 8, OUTPUT_WORDS).answer;
        assert_eq!(back.is_ok(), literals == 8);
    }
}

// 1, 15, 2, 14, 9: of those that apply the first.
#[test]
fn order_of_refusals() {
    let saved = tree("First 0/3, Check P0/2, Success 1/1");
    let no_tree = tree("First 0/2, Success 1/1");
    let broken = tree("First 0/2, Success 1/2");
    let lengths = [1, TREE_MOST + 1].map(|length| vec![u64::MAX; length]);
    let [one, too_long] = &lengths;
    for (words, code) in [
        (one, 1),
        (too_long, 1),
        (&broken, 2),
        (&no_tree, 14),
        (&saved, 0),
    ] {
        let checked = beside::check(words);
        assert_eq!(checked.err().map_or(0, Refusal::code), code);
        for (out_words, number) in [(0, 1), (63, 1), (63, 9), (64, 1), (64, 9), (65, 9)] {
            let refusals = [
                (code == 1, 1),
                (out_words < 64, 15),
                (code == 2, 2),
                (code == 14, 14),
                (number != 1, 9),
            ];
            let back = beside::read_back(words, number, out_words);
            beside::expect_first(back.answer, &refusals);
        }
    }
}

// Slices of each length at the bounds, empty, with a clause or of one word over and over.
#[test]
fn slices_of_each_length() {
    let mut random = Random(55);
    let mut tally = Tally::default();
    for length in by_hand::LENGTHS {
        let (of_one_word, resized) = by_hand::of_length(length);
        for words in of_one_word {
            call_both(&words, &mut random, &mut tally);
        }
        for words in resized {
            for number in [1, 2] {
                let back = beside::read_back(&words, number, OUTPUT_WORDS);
                tally.answer("readings back", "made", back.answer);
            }
            tally.answer("checks", "passed", beside::check(&words));
        }
    }
    tally.assert_least(&[
        ("checks passed", 8),
        ("checks refused 1", 20),
        ("checks refused 2", 20),
        ("checks refused 14", 8),
        ("readings back made", 4),
        ("readings back refused 1", 20),
        ("readings back refused 2", 20),
        ("readings back refused 9", 4),
        ("readings back refused 14", 16),
    ]);
}
