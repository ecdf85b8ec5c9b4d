//! Striking backwards in the model: the readings F6-1 to F6-12, each on a small input, and both sides of each limit.
use model::back_pages::{back_pages, room_page};
use model::by_hand::laid;
use model::calls::{backward, check, fresh, insert, query, remove, Cover, Listed};
use model::limits::{ENOUGH_BUDGET, KEPT, TREE_MOST, WITNESS_WORDS};
use model::limits::{PROGRAM_BUDGET, PROGRAM_LIST, PROGRAM_TREE};
use model::notation::{clause, tree};
use model::pages::record;
use model::program::{output, records, Outcome, Program, Setting};
use model::refusal::Refusal;

// What list words hold before a call.
const UNWRITTEN: u32 = 0xDEAD_BEEF;

const SHORT_LIST: Result<Listed, Refusal> = Err(Refusal::ShortList);

// A slice with clauses kept under their numbers.
fn kept(clauses: &[(u32, &str)]) -> Vec<u64> {
    let mut words = vec![!0; 400];
    assert_eq!(fresh(&mut words), Ok(()));
    for (number, text) in clauses {
        assert_eq!(insert(&mut words, &clause(text), *number), Ok(()), "{text}");
    }
    words
}

// The answer with a list of so many words, and the list afterwards.
fn list_to(
    words: &[u64],
    given: &str,
    budget: u64,
    length: usize,
) -> (Result<Listed, Refusal>, Vec<u32>) {
    let mut list = vec![UNWRITTEN; length];
    (backward(words, &clause(given), budget, &mut list), list)
}

// The answer alone; a refused listing writes nothing, and an accepted one nothing past its numbers.
fn answer(words: &[u64], given: &str, budget: u64, length: usize) -> Result<Listed, Refusal> {
    let (answer, list) = list_to(words, given, budget, length);
    let many = answer.map_or(0, |listed| listed.many);
    assert!(list[many..].iter().all(|word| *word == UNWRITTEN));
    answer
}

// The numbers and the candidates, with a list and a budget that are enough.
fn numbers(words: &[u64], given: &str) -> (Vec<u32>, u64) {
    let (answer, list) = list_to(words, given, ENOUGH_BUDGET, KEPT);
    let Listed { many, candidates } = answer.expect("a listing");
    (list[..many].to_vec(), candidates)
}

fn listed(many: usize, candidates: u64) -> Result<Listed, Refusal> {
    Ok(Listed { many, candidates })
}

fn spent(budget: u64) -> Result<Listed, Refusal> {
    Err(Refusal::Spent(budget))
}

// F6-1: the number too many is refused where it is found, before the next candidate.
#[test]
fn short_list_against_spent() {
    let words = kept(&[(1, "P0"), (2, "P0 Q0")]);
    for (budget, length, expected) in [
        (0, 0, spent(0)),
        (1, 0, SHORT_LIST),
        (2, 0, SHORT_LIST),
        (0, 1, spent(0)),
        (1, 1, spent(1)),
        (2, 1, SHORT_LIST),
        (1, 2, spent(1)),
        (2, 2, listed(2, 2)),
        (3, 3, listed(2, 2)),
    ] {
        let said = answer(&words, "P0", budget, length);
        assert_eq!(said, expected, "budget {budget}, list of {length}");
    }
    // a query that fails after the last number still takes its candidates
    let words = kept(&[(1, "P0"), (2, "Q0 Q1 a")]);
    for (budget, length, expected) in [
        (1, 0, SHORT_LIST),
        (1, 1, spent(1)),
        (2, 1, spent(2)),
        (3, 1, listed(1, 3)),
    ] {
        let said = answer(&words, "P0", budget, length);
        assert_eq!(said, expected, "budget {budget}, list of {length}");
    }
}

// F6-2: 16 carries nothing, 12 the budget.
#[test]
fn what_refusals_carry() {
    assert_eq!(Refusal::ShortList.code(), 16);
    assert_eq!(Refusal::ShortList.values(), []);
    let words = kept(&[(1, "Q0 Q0 Q0")]);
    for budget in 0..3 {
        let refusal = answer(&words, "P0", budget, 9).expect_err("spent");
        assert_eq!((refusal.code(), refusal.values()), (12, vec![budget]));
    }
    assert_eq!(answer(&words, "P0", 3, 9), listed(0, 3));
}

// F6-3: a variant is listed.
#[test]
fn variants() {
    let words = kept(&[(1, "P1 x")]);
    assert_eq!(numbers(&words, "P1 y"), (vec![1], 1));
    assert_eq!(numbers(&words, "P1 x"), (vec![1], 1));
    assert_eq!(numbers(&words, "P1 a"), (vec![], 1));
    let words = kept(&[(1, "P2 x y"), (2, "P2 x x"), (3, "P2 a x")]);
    assert_eq!(numbers(&words, "P2 y z"), (vec![1, 2, 3], 3));
    assert_eq!(numbers(&words, "P2 y y"), (vec![2], 3));
}

// A page of records, each a number and its clause.
fn page(records: &[(u16, &str)]) -> Vec<u8> {
    let bytes = records
        .iter()
        .map(|(number, text)| record(*number, &clause(text)));
    bytes.flatten().collect()
}

fn printed(records: &[(u16, &str)]) -> String {
    output(&page(records), Setting::Back)
}

// F6-4: a number that would be removed is still taken.
#[test]
fn number_of_a_clause_to_be_removed() {
    let text = printed(&[(1, "P1 a"), (1, "P1 x"), (2, "P1 a")]);
    let lines = "1 kept 5\n1 refused 7\n2 struck 1 1\n";
    let totals = "kept 1 struck 1 refused 1 removed 0\n";
    assert_eq!(text, format!("{lines}{totals}1 1 1\n3\n"));
}

// F6-5: where the listing is refused, that code is the record's, also under a taken number; and nothing is removed.
#[test]
fn listing_before_numbers() {
    let refused = |code| Outcome::Refused { code };
    for number in [1, 2] {
        let mut program = Program::new(Setting::Back);
        program.take(1, &clause("P1 a"));
        program.list_budget = 0;
        assert_eq!(program.take(number, &clause("P1 x")), refused(12));
        program.list_budget = 1;
        program.list_words = 0;
        assert_eq!(program.take(number, &clause("P1 x")), refused(16));
        program.list_words = 1;
        let expected = match number {
            1 => refused(7),
            _ => Outcome::Kept {
                removed: vec![1],
                used: 5,
            },
        };
        assert_eq!(program.take(number, &clause("P1 x")), expected);
    }
    // with the setting off nothing is listed
    let mut program = Program::new(Setting::Plain);
    (program.list_budget, program.list_words) = (0, 0);
    program.take(1, &clause("P1 a"));
    let kept = Outcome::Kept {
        removed: vec![],
        used: 7,
    };
    assert_eq!(program.take(2, &clause("P1 x")), kept);
}

// F6-6: list and room are those of the tree without the removed clauses; the other list has a place for each kept clause.
#[test]
fn list_after_removal() {
    assert_eq!(PROGRAM_LIST, KEPT);
    let mut program = Program::new(Setting::Back);
    let kept = |removed: &[u32], used| Outcome::Kept {
        removed: removed.to_vec(),
        used,
    };
    assert_eq!(program.take(1, &clause("P1 a")), kept(&[], 5));
    for n in 1..KEPT {
        let outcome = program.take(999 + n as u16, &[0x8000 + n as u16]);
        assert_eq!(outcome, kept(&[], 5 + 2 * n));
    }
    let used = 5 + 2 * (KEPT - 1);
    let full = Outcome::Refused { code: 10 };
    assert_eq!(program.take(5, &clause("Q1 x")), full);
    assert_eq!(program.take(6, &clause("P1 x")), kept(&[1], used));
    assert_eq!(program.take(5, &clause("Q1 x")), full);
    let taken = Outcome::Refused { code: 7 };
    assert_eq!(program.take(1000, &clause("Q1 x")), taken);
}

// Both sides of the room that a removal leaves: P(a,x,x) needs three words more than it removes. Refused, it removes nothing, and 1 still strikes.
#[test]
fn room_after_removal() {
    for room in 0..8 {
        let text = output(&room_page(room), Setting::Back);
        let full = PROGRAM_TREE - 1 - room;
        let lines = match room < 3 {
            true => "60000 refused 11\n60001 struck 1 1\n".to_string(),
            false => format!(
                "1 removed 60000\n60000 kept {}\n60001 struck 60000 1\n",
                full + 3
            ),
        };
        let before = format!(" kept {full}\n");
        assert!(text.contains(&(before + &lines)), "{room} words left");
    }
}

// F6-7: the fourth total stands only where the setting is on, and kept counts what is still kept.
#[test]
fn totals() {
    let records = [(1, "P1 a"), (2, "P1 x")];
    let lines = "1 kept 5\n1 removed 2\n2 kept 5\n";
    let totals = "kept 1 struck 0 refused 0 removed 1\n";
    assert_eq!(
        printed(&records),
        format!("{lines}{totals}1 0 0\n2 0 0\n2\n")
    );
    let plain = "1 kept 5\n2 kept 7\nkept 2 struck 0 refused 0\n1 0 0\n2 0 0\n2\n";
    assert_eq!(output(&page(&records), Setting::Plain), plain);
    let none = "kept 0 struck 0 refused 0 removed 0\n0\n";
    assert_eq!(printed(&[]), none);
    // all four add up to the complete records; a cut one is none
    let records = [(3, "Q0"), (1, "P1 a"), (9, "P1"), (4, "Q0"), (2, "P1 x")];
    let cut = [page(&records), page(&[(5, "Q1 x")])[..5].to_vec()].concat();
    let text = output(&cut, Setting::Back);
    assert!(text.contains("kept 2 struck 1 refused 1 removed 1\n"));
    assert!(text.ends_with("\n5\n"));
}

// F6-8: a number that is used again has one row.
#[test]
fn numbers_used_again() {
    let text = printed(&[(1, "P1 a"), (2, "P1 x"), (1, "Q0")]);
    assert!(text.ends_with("kept 2 struck 0 refused 0 removed 1\n1 0 0\n2 0 0\n3\n"));
    // strikes and candidates of both are added up
    let text = printed(&[
        (1, "P1 a"),
        (7, "Q0 P1 a"),
        (2, "P1 x"),
        (1, "Q0"),
        (8, "Q1 a Q1 b Q0"),
    ]);
    assert!(text.contains("7 struck 1 2\n") && text.contains("8 struck 1 3\n"));
    assert!(text.ends_with("\n1 2 5\n2 0 0\n5\n"));
}

// F6-9: the first argument, exactly.
#[test]
fn first_argument() {
    for (arguments, setting) in [
        (&[][..], Setting::Plain),
        (&["back"], Setting::Back),
        (&["back", "x"], Setting::Back),
        (&["back", "back"], Setting::Back),
        (&["x", "back"], Setting::Plain),
        (&["Back"], Setting::Plain),
        (&["BACK"], Setting::Plain),
        (&["bac"], Setting::Plain),
        (&["backs"], Setting::Plain),
        (&["back "], Setting::Plain),
        (&[" back"], Setting::Plain),
        (&["--back"], Setting::Plain),
        (&[""], Setting::Plain),
        (&["", "back"], Setting::Plain),
    ] {
        assert_eq!(Setting::of(arguments), setting, "{arguments:?}");
    }
}

// F6-10: names of variables play no part, in the given clause and in kept ones.
#[test]
fn names_of_variables() {
    let slices = [
        kept(&[(1, "P2 x y"), (2, "P2 f x x")]),
        kept(&[(1, "P2 y x"), (2, "P2 f z z")]),
        kept(&[(1, "P2 47FF 4000"), (2, "P2 f 4555 4555")]),
    ];
    for words in &slices {
        assert_eq!(*words, slices[0]);
        for given in ["P2 x y", "P2 y x", "P2 z 47FF"] {
            assert_eq!(numbers(words, given), (vec![1, 2], 2));
        }
        for given in ["P2 f x x", "P2 f y y"] {
            assert_eq!(numbers(words, given), (vec![2], 2));
        }
        // a kept clause's variables are constants: f(x) does not fall on x
        assert_eq!(numbers(words, "P2 f x y"), (vec![2], 2));
        assert_eq!(numbers(words, "P2 x x"), (vec![], 2));
    }
}

// F6-11: numbers rise as numbers of 32 bits, whatever the order of the records and of the tree.
#[test]
fn rising_numbers() {
    let rising = [
        0,
        2,
        5,
        0xFFFF,
        0x1_0000,
        0x7FFF_FFFF,
        0x8000_0000,
        u32::MAX,
    ];
    for turn in 0..rising.len() {
        let mut words = vec![0; 60];
        for (i, number) in rising.iter().cycle().skip(turn).take(8).enumerate() {
            // P(c) under its number; the tree has them by c
            let constant = (i as u16 * 5 + 3) % 8 + 1;
            assert_eq!(insert(&mut words, &[0x8801, constant], *number), Ok(()));
        }
        assert_eq!(numbers(&words, "P1 x"), (rising.to_vec(), 8));
    }
}

// F6-12: a removed clause's row stays with what it struck.
#[test]
fn strikes_of_a_removed_clause() {
    let text = printed(&[(1, "P1 a"), (3, "P1 a"), (2, "P1 x"), (4, "P1 a")]);
    let lines = "1 kept 5\n3 struck 1 1\n1 removed 2\n2 kept 5\n4 struck 2 1\n";
    let totals = "kept 1 struck 2 refused 0 removed 1\n";
    assert_eq!(text, format!("{lines}{totals}1 1 1\n2 1 1\n4\n"));
}

// Several clauses are removed by rising number, each with the new number, before the record's own line.
#[test]
fn lines_of_removals() {
    let text = printed(&[(9, "P1 a"), (7, "P1 f a"), (8, "P1 b"), (3, "P1 x")]);
    let lines = "9 kept 5\n7 kept 9\n8 kept 11\n7 removed 3\n8 removed 3\n9 removed 3\n3 kept 5\n";
    assert!(text.starts_with(&format!("{lines}kept 1 struck 0 refused 0 removed 3\n")));
}

// The candidates are those of all queries, listed or not, each on the kept clause's literals.
#[test]
fn candidates() {
    let words = kept(&[
        (1, "P1 a P1 b Q1 b"),
        (2, "P1 a Q1 b"),
        (3, "Q1 a"),
        (4, "P1 a Q1 a"),
    ]);
    // 6, 3, 1 and 2: of F-3's rows, a literal that is no P, and first choices that fit
    assert_eq!(numbers(&words, "P1 x Q1 x"), (vec![1, 4], 12));
    assert_eq!(numbers(&words, "P1 x P1 y"), (vec![1], 2 + 3 + 1 + 3));
    assert_eq!(numbers(&words, "P0"), (vec![], 3 + 2 + 1 + 2));
    let partial = [6, 9, 10, 12];
    for budget in 0..14 {
        let expected = match budget < 12 {
            true => spent(budget),
            false => listed(2, 12),
        };
        assert_eq!(answer(&words, "P1 x Q1 x", budget, 9), expected);
        // with no room it is the first number that is refused, and with room for one the second
        let first = if budget < partial[0] {
            spent(budget)
        } else {
            SHORT_LIST
        };
        assert_eq!(answer(&words, "P1 x Q1 x", budget, 0), first);
        let second = if budget < partial[3] {
            spent(budget)
        } else {
            SHORT_LIST
        };
        assert_eq!(answer(&words, "P1 x Q1 x", budget, 1), second);
    }
}

#[test]
fn words_of_the_list() {
    let words = kept(&[(7, "P1 a"), (3, "P1 b"), (5, "Q0")]);
    for length in [0, 1, 2, 3, 100] {
        let mut expected = vec![UNWRITTEN; length];
        let answer = match length < 2 {
            true => SHORT_LIST,
            false => {
                expected[..2].copy_from_slice(&[3, 7]);
                listed(2, 3)
            }
        };
        assert_eq!(list_to(&words, "P1 x", 3, length), (answer, expected));
    }
    // nothing to list takes no word
    assert_eq!(answer(&words, "Q1 x", 3, 0), listed(0, 3));
    assert_eq!(answer(&[0; 2], "Q1 x", 0, 0), listed(0, 0));
}

#[test]
fn full_lists() {
    let mut words = vec![0; TREE_MOST];
    for n in 0..KEPT as u16 {
        let number = u32::MAX - u32::from(n);
        assert_eq!(insert(&mut words, &[0x8801, 1 + n], number), Ok(()));
    }
    let all: Vec<u32> = (u32::MAX - 1023..=u32::MAX).collect();
    assert_eq!(numbers(&words, "P1 x"), (all, 1024));
    assert_eq!(answer(&words, "P1 x", 1024, 1024), listed(1024, 1024));
    assert_eq!(answer(&words, "P1 x", 1024, 1023), SHORT_LIST);
    assert_eq!(answer(&words, "P1 x", 1023, 1024), spent(1023));
    assert_eq!(answer(&words, "P1 x", 1023, 1023), spent(1023));
}

// 1, 3 to 5, 2, 14, then 12 and 16: each with all that come after it.
#[test]
fn order_of_refusals() {
    let bad_slices = [vec![], vec![!0; 1], vec![!0; TREE_MOST + 1]];
    let broken = vec![!0; 9];
    let no_tree = tree("First 0/2, Success 1/1");
    let equal_numbers = laid(&["First, Check P0, Success 1", "First, Check Q0, Success 1"]);
    let saved = kept(&[(1, "P0")]);
    let nine = "P0 ".repeat(9);
    let too_long = "x ".repeat(65);
    let clauses = [("", 3), (&too_long, 3), ("P1", 4), ("x", 4), (&nine, 5)];
    let code = |words: &[u64], given: &str, budget, length| {
        let answer = answer(words, given, budget, length);
        answer.map_or_else(Refusal::code, |_| 0)
    };
    for (budget, length) in [(0, 0), (0, 1), (1, 0), (1, 1)] {
        for words in &bad_slices {
            for (given, _) in clauses.iter().chain(&[("P0", 0)]) {
                assert_eq!(code(words, given, budget, length), 1);
            }
        }
        for words in [&broken, &no_tree, &equal_numbers, &saved] {
            for (given, refused) in clauses {
                assert_eq!(code(words, given, budget, length), refused);
            }
        }
        assert_eq!(code(&broken, "P0", budget, length), 2);
        assert_eq!(code(&no_tree, "P0", budget, length), 14);
        assert_eq!(code(&equal_numbers, "P0", budget, length), 14);
        let last = [[12, 12], [16, 0]][budget as usize][length];
        assert_eq!(code(&saved, "P0", budget, length), last);
    }
    assert_eq!(answer(&saved, "P1", 9, 9), Err(Refusal::BadClause(1)));
    assert_eq!(answer(&saved, &nine, 9, 9), Err(Refusal::NinthLiteral(8)));
    assert_eq!(check(&saved), Ok(()));
}

// The program's own steps by the calls on its words: a query, a listing, the number judged, then removals and the insertion.
fn taken_by_calls(tree: &mut Vec<u64>, number: u16, words: &[u16]) -> Result<Outcome, Refusal> {
    let number = u32::from(number);
    let cover = query(tree, words, PROGRAM_BUDGET, &mut [0; WITNESS_WORDS])?;
    if let Cover::Covered { number, count } = cover {
        let (covering, candidates) = (number, count);
        return Ok(Outcome::Struck {
            covering,
            candidates,
        });
    }
    let mut list = [0; PROGRAM_LIST];
    let listed = backward(tree, words, PROGRAM_BUDGET, &mut list)?;
    let removed = list[..listed.many].to_vec();
    let mut after = tree.clone();
    if insert(&mut after, words, number) == Err(Refusal::NumberTaken) {
        return Err(Refusal::NumberTaken);
    }
    after.copy_from_slice(tree);
    for gone in &removed {
        remove(&mut after, *gone)?;
    }
    insert(&mut after, words, number)?;
    *tree = after;
    let used = (tree[0] >> 32) as usize;
    Ok(Outcome::Kept { removed, used })
}

// On the small stored pages the program and the calls say the same of each record, and leave the same words.
#[test]
fn program_by_calls() {
    let small = back_pages()
        .into_iter()
        .filter(|(_, page)| page.len() < 1_000);
    let mut removed = 0;
    for (name, page) in small {
        let mut program = Program::new(Setting::Back);
        let mut tree = vec![0; PROGRAM_TREE];
        for (number, words) in records(&page) {
            let by_calls = taken_by_calls(&mut tree, number, &words);
            let by_calls = by_calls.unwrap_or_else(|refusal| Outcome::Refused {
                code: refusal.code(),
            });
            let outcome = program.take(number, &words);
            assert_eq!(outcome, by_calls, "{name}: {number}");
            assert!(program.tree() == tree, "{name}: words after {number}");
            removed +=
                matches!(&outcome, Outcome::Kept { removed, .. } if !removed.is_empty()) as u32;
        }
    }
    assert!(removed > 12, "{removed} records that remove");
}

// A slice of any length that passes: of two words it keeps none.
#[test]
fn lengths_of_a_slice() {
    for (length, expected) in [
        (0, Err(Refusal::BadSlice)),
        (1, Err(Refusal::BadSlice)),
        (2, listed(0, 0)),
        (TREE_MOST, listed(0, 0)),
        (TREE_MOST + 1, Err(Refusal::BadSlice)),
    ] {
        assert_eq!(answer(&vec![0; length], "P0", 0, 0), expected);
    }
}
