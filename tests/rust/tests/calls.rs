//! Document 01's trial rows with the counts of F-3, every refusal with its values, the ceilings, clauses read back, kept clauses listed backwards, and
//! told words that are too few.
use code_tree::{backward, ceiling, check, fresh, insert, query, raw, read_back, remove};
use code_tree::{Cover, Listed, Refusal, LIST_WORDS, OUTPUT_WORDS, WITNESS_WORDS};
use model::limits::{KEPT, LITERALS};

const P3: u16 = 0x9801;
const P2: u16 = 0x9001;
const P1: u16 = 0x8801;
const Q1: u16 = 0x8802;
const Q2: u16 = 0x9002;
const P0: u16 = 0x8001;
const F: u16 = 0x0803;
const A: u16 = 0x0001;
const B: u16 = 0x0002;
const X: u16 = 0x4000;
const Y: u16 = 0x4001;
const Z: u16 = 0x4002;

const PXAX: &[u16] = &[P3, X, A, X];
const PXXB: &[u16] = &[P3, X, X, B];
const PXQX: &[u16] = &[P1, X, Q1, X];
const LONG: &[u16] = &[P2, X, F, Y, P2, Z, F, F, Z];
const SHORT: &[u16] = &[P2, Y, F, F, Y];

// A tree of n words with clauses kept under 1, 2, ..
fn tree(n: usize, clauses: &[&[u16]]) -> Vec<u64> {
    let mut words = vec![!0; n];
    assert_eq!(fresh(&mut words), Ok(()));
    for (i, clause) in clauses.iter().enumerate() {
        assert_eq!(insert(&mut words, clause, i as u32 + 1), Ok(()));
    }
    words
}

// The answer and the witness of a query; what a witness held before is 9.
fn ask(tree: &[u64], clause: &[u16], budget: u64) -> (Result<Cover, Refusal>, Vec<u16>) {
    let mut witness = vec![9; WITNESS_WORDS];
    (query(tree, clause, budget, &mut witness), witness)
}

fn answer(tree: &[u64], clause: &[u16], budget: u64) -> Result<Cover, Refusal> {
    ask(tree, clause, budget).0
}

// A witness of 9s with literals and positions written.
fn shown(literals: &[u16], positions: &[u16]) -> Vec<u16> {
    let mut witness = vec![9; WITNESS_WORDS];
    witness[..literals.len()].copy_from_slice(literals);
    witness[8..8 + positions.len()].copy_from_slice(positions);
    witness
}

fn covered(number: u32, count: u64) -> Result<Cover, Refusal> {
    Ok(Cover::Covered { number, count })
}

fn not_covered(count: u64) -> Result<Cover, Refusal> {
    Ok(Cover::NotCovered { count })
}

#[test]
fn merged_tree() {
    let words = tree(24, &[PXAX, PXXB]);
    let extents: Vec<u64> = words[1..16].iter().map(|w| w & 0xFFF_FFFF).collect();
    assert_eq!(extents, [15, 14, 13, 12, 11, 5, 4, 3, 2, 1, 5, 4, 3, 2, 1]);
    assert_eq!(words[0], 15 << 32 | 2);
    assert_eq!(words[16..], [0; 8]);
    // First, Check P, Down, Put 0, Right; Put 1, Right, Check b, Compare 0 1, Success 2; Check a, Right, Put 1, Compare 0 1, Success 1
    let keys: Vec<(u64, u64)> = words[1..16]
        .iter()
        .map(|w| (w >> 60, w >> 28 & 0xFFFF_FFFF))
        .collect();
    let begin = [(1, 0), (7, P3 as u64), (2, 0), (4, 0), (3, 0)];
    let second = [(4, 1), (3, 0), (7, B as u64), (8, 1), (0, 2)];
    let first = [(7, A as u64), (3, 0), (4, 1), (8, 1), (0, 1)];
    assert_eq!(keys, [begin, second, first].concat());
}

#[test]
fn starred_rows() {
    let both = tree(24, &[PXAX, PXXB]);
    assert_eq!(
        ask(&both, &[P3, B, A, B], 100),
        (covered(1, 1), shown(&[0], &[1, 3]))
    );
    let pxqx = tree(24, &[PXQX]);
    let three = &[P1, A, P1, B, Q1, B];
    for budget in [100, 6] {
        assert_eq!(
            ask(&pxqx, three, budget),
            (covered(1, 6), shown(&[1, 2], &[3, 5]))
        );
    }
    assert_eq!(
        ask(&pxqx, three, 5),
        (Err(Refusal::Spent { count: 5 }), shown(&[], &[]))
    );
    assert_eq!(
        ask(&pxqx, &[P1, A, Q1, B], 100),
        (not_covered(3), shown(&[], &[]))
    );
    assert_eq!(answer(&tree(24, &[LONG]), SHORT, 100), not_covered(1));
    assert_eq!(answer(&tree(24, &[SHORT]), LONG, 100), covered(1, 2));
    assert_eq!(
        answer(&tree(24, &[&[P1, A]]), &[P1, X], 100),
        not_covered(1)
    );
}

// A query that takes just so many candidates: with one less in its budget it is spent.
fn expect_count(kept: &[&[u16]], clause: &[u16], answer: Result<Cover, Refusal>, witness: &[u16]) {
    let words = tree(90, kept);
    let (Ok(Cover::Covered { count, .. }) | Ok(Cover::NotCovered { count })) = answer else {
        panic!("{answer:?} has no count");
    };
    for budget in [count, count + 1, u64::MAX] {
        assert_eq!(ask(&words, clause, budget), (answer, witness.to_vec()));
    }
    for budget in [count - 1, count / 2] {
        let spent = Err(Refusal::Spent { count: budget });
        assert_eq!(ask(&words, clause, budget), (spent, shown(&[], &[])));
    }
}

// Each literal of a kept clause falls on a literal of its own, equal ones being two; one that is used is passed over, uncounted.
#[test]
fn own_literals() {
    let none = shown(&[], &[]);
    expect_count(&[PXQX], &[P1, A, Q1, B], not_covered(3), &none);
    // no literal is left for the second First: at a budget of 1, too, it is not spent
    expect_count(&[PXQX], &[P1, A], not_covered(1), &none);
    expect_count(&[LONG], SHORT, not_covered(1), &none);
    let pxpy: &[u16] = &[P1, X, P1, Y];
    let twice = shown(&[0, 1], &[1, 3]);
    expect_count(&[pxpy], &[P1, A, P1, A], covered(1, 2), &twice);
    expect_count(&[pxpy], &[P1, A], not_covered(1), &none);
    // the second literal retakes what the first one gave back
    let chain: &[u16] = &[P1, X, P1, Y, Q2, X, Y];
    let swapped = shown(&[1, 0, 2], &[3, 1, 5, 6]);
    expect_count(&[chain], &[P1, A, P1, B, Q2, B, A], covered(1, 7), &swapped);
    expect_count(&[chain], &[P1, A, P1, B, Q2, B, B], not_covered(9), &none);
    // what the branch of P(x) used is free in that of P(a)
    let branches: [&[u16]; 2] = [&[P1, A, Q1, B], &[P1, X, Q1, A]];
    let second = shown(&[0, 1], &[]);
    expect_count(&branches, &[P1, A, Q1, B], covered(1, 3), &second);
}

// Equal literals by number: a kept clause covers a query with as many of them or more, and none with fewer.
#[test]
fn equal_literals() {
    let literals = |n: u16| shown(&(0..n).collect::<Vec<_>>(), &[]);
    expect_count(&[&[P0; 8]], &[P0; 8], covered(1, 8), &literals(8));
    expect_count(&[&[P0; 7]], &[P0; 8], covered(1, 7), &literals(7));
    expect_count(&[&[P0; 7]], &[P0; 7], covered(1, 7), &literals(7));
    let tried = 7 + 42 + 210 + 840 + 2_520 + 5_040 + 5_040;
    expect_count(&[&[P0; 8]], &[P0; 7], not_covered(tried), &literals(0));
    expect_count(&[&[P0; 8], &[P0; 7]], &[P0; 7], covered(2, 7), &literals(7));
    expect_count(&[&[P0; 2]], &[P0], not_covered(1), &literals(0));
}

#[test]
fn budget_rows() {
    assert_eq!(answer(&tree(24, &[]), PXAX, 0), not_covered(0));
    assert_eq!(
        answer(&tree(24, &[PXAX]), PXAX, 0),
        Err(Refusal::Spent { count: 0 })
    );
    assert_eq!(answer(&tree(24, &[PXAX]), PXAX, u64::MAX), covered(1, 1));
}

#[test]
fn room_rows() {
    tree(11, &[PXAX]);
    assert_eq!(insert(&mut tree(10, &[]), PXAX, 1), Err(Refusal::NoRoom));
    tree(16, &[PXAX, PXXB]);
    let mut words = tree(15, &[PXAX]);
    let before = words.clone();
    assert_eq!(insert(&mut words, PXXB, 2), Err(Refusal::NoRoom));
    assert_eq!(words, before);
    assert_eq!(remove(&mut words, 1), Ok(()));
    assert_eq!(words, [0; 15]);
    assert_eq!(insert(&mut words, PXXB, 2), Ok(()));
}

#[test]
fn limit_rows() {
    // seven literals of 8 words and one of 8, or of 9: P with seven arguments
    let p7 = 0x8000 | 7 << 11 | 1;
    let sixty_four: Vec<u16> = (0..8).flat_map(|_| [p7, A, A, A, A, A, A, A]).collect();
    let mut sixty_five = sixty_four.clone();
    sixty_five.push(A);
    let mut words = tree(200, &[&sixty_four]);
    assert_eq!(answer(&words, &sixty_four, 8), covered(1, 8));
    assert_eq!(answer(&words, &sixty_five, 100), Err(Refusal::BadLength));
    assert_eq!(insert(&mut words, &sixty_five, 2), Err(Refusal::BadLength));
    let eight = [0x8001; 8];
    let nine = [0x8001; 9];
    assert_eq!(insert(&mut words, &eight, 2), Ok(()));
    assert_eq!(
        insert(&mut words, &nine, 3),
        Err(Refusal::NinthLiteral { position: 8 })
    );
    assert_eq!(
        answer(&words, &nine, 9),
        Err(Refusal::NinthLiteral { position: 8 })
    );
    assert_eq!(
        query(&words, &eight, 99, &mut [0; 71]),
        Err(Refusal::ShortWitness)
    );
    assert_eq!(query(&words, &eight, 99, &mut [0; 72]), covered(2, 8));
}

#[test]
fn refusals_of_slices() {
    for n in [0, 1, 65537] {
        let mut words = vec![7; n];
        assert_eq!(fresh(&mut words), Err(Refusal::BadSlice));
        assert_eq!(insert(&mut words, PXAX, 1), Err(Refusal::BadSlice));
        assert_eq!(remove(&mut words, 1), Err(Refusal::BadSlice));
        assert_eq!(answer(&words, PXAX, 1), Err(Refusal::BadSlice));
        assert_eq!(words, vec![7; n]);
    }
    for n in [2, 65536] {
        let mut words = vec![7; n];
        assert_eq!(insert(&mut words, PXAX, 1), Err(Refusal::Broken));
        assert_eq!(remove(&mut words, 1), Err(Refusal::Broken));
        assert_eq!(words, vec![7; n]);
        assert_eq!(answer(&vec![!0; n], PXAX, 1), Err(Refusal::Broken));
        assert_eq!(fresh(&mut words), Ok(()));
        assert_eq!(words, vec![0; n]);
    }
}

#[test]
fn refusals_of_clauses() {
    let mut words = tree(50, &[]);
    let mut both = |clause: &[u16], refusal: Refusal| {
        assert_eq!(insert(&mut words, clause, 1), Err(refusal));
        assert_eq!(answer(&words, clause, 9), Err(refusal));
        assert_eq!(words, [0; 50]);
    };
    both(&[], Refusal::BadLength);
    both(&[0x8001; 65], Refusal::BadLength);
    both(&[X], Refusal::BadClause { position: 0 });
    both(&[P2, A], Refusal::BadClause { position: 2 });
    both(&[P2, A, P1, A], Refusal::BadClause { position: 2 });
    both(&[P1, X | 1 << 11, A], Refusal::BadClause { position: 1 });
    both(&[0x8001; 9], Refusal::NinthLiteral { position: 8 });
}

#[test]
fn refusals_of_numbers() {
    let mut words = tree(24, &[PXAX]);
    let before = words.clone();
    assert_eq!(insert(&mut words, PXXB, 1), Err(Refusal::NumberTaken));
    assert_eq!(
        insert(&mut words, &[P3, Y, A, Y], 5),
        Err(Refusal::Held { number: 1 })
    );
    assert_eq!(remove(&mut words, 5), Err(Refusal::NoSuchNumber));
    assert_eq!(words, before);
    assert_eq!(remove(&mut words, 1), Ok(()));
    assert_eq!(insert(&mut words, PXAX, u32::MAX), Ok(()));
    assert_eq!(
        insert(&mut words, PXAX, 0),
        Err(Refusal::Held { number: u32::MAX })
    );
    assert_eq!(answer(&words, PXAX, 9), covered(u32::MAX, 1));
}

#[test]
fn list_full() {
    let mut words = tree(65536, &[]);
    for number in 0..1024 {
        assert_eq!(
            insert(&mut words, &[0x8000 | number], number as u32),
            Ok(())
        );
    }
    assert_eq!(
        insert(&mut words, &[0x8000 | 1024], 1024),
        Err(Refusal::ListFull)
    );
    assert_eq!(
        insert(&mut words, &[0x8000 | 5], 1024),
        Err(Refusal::Held { number: 5 })
    );
    assert_eq!(words[0], 2049 << 32 | 1024);
    assert_eq!(remove(&mut words, 77), Ok(()));
    assert_eq!(insert(&mut words, &[0x8000 | 1024], 77), Ok(()));
    assert_eq!(answer(&words, &[0x8000 | 1024], 9), covered(77, 1));
}

// The clause read back; what an output held before is 9, and the words after the clause still hold it.
fn back(tree: &[u64], number: u32) -> Result<Vec<u16>, Refusal> {
    let mut out = vec![9; OUTPUT_WORDS];
    let answer = read_back(tree, number, &mut out);
    let (clause, rest) = out.split_at(answer.unwrap_or(0));
    assert!(rest.iter().all(|word| *word == 9));
    answer.map(|_| clause.to_vec())
}

#[test]
fn clauses_read_back() {
    let clauses: [&[u16]; 6] = [
        PXAX,
        &[P3, Z, Z, B],
        &[P2, Y, F, X, P2, Z, F, F, Z],
        &[P1, 0x47FF, Q1, 0x47FF],
        &[0xC001, 0xF802, X, Y, Z, Y, X, A, 0x0FFF, Z],
        &[P0; 8],
    ];
    let expected: [&[u16]; 6] = [
        PXAX,
        PXXB,
        LONG,
        PXQX,
        &[0xC001, 0xF802, X, Y, Z, Y, X, A, 0x0FFF, Z],
        &[P0; 8],
    ];
    let words = tree(90, &clauses);
    assert_eq!(check(&words), Ok(()));
    for (i, clause) in expected.iter().enumerate() {
        assert_eq!(back(&words, i as u32 + 1), Ok(clause.to_vec()));
    }
    for number in [0, 7, 1 << 16 | 1, u32::MAX] {
        assert_eq!(back(&words, number), Err(Refusal::NoSuchNumber));
    }
    let mut long = [9; OUTPUT_WORDS + 1];
    assert_eq!(read_back(&words, 4, &mut long), Ok(4));
    assert_eq!(long[..4], *PXQX);
    assert_eq!(long[4..], [9; OUTPUT_WORDS - 3]);
    let mut short = [9; OUTPUT_WORDS - 1];
    assert_eq!(read_back(&words, 4, &mut short), Err(Refusal::ShortOutput));
    assert_eq!(short, [9; OUTPUT_WORDS - 1]);
}

#[test]
fn refusals_of_saved_slices() {
    for n in [0, 1, 65537] {
        assert_eq!(check(&vec![0; n]), Err(Refusal::BadSlice));
        assert_eq!(back(&vec![0; n], 1), Err(Refusal::BadSlice));
    }
    for n in [2, 65536] {
        assert_eq!(check(&vec![0; n]), Ok(()));
        assert_eq!(back(&vec![0; n], 1), Err(Refusal::NoSuchNumber));
        assert_eq!(check(&vec![7; n]), Err(Refusal::Broken));
        assert_eq!(back(&vec![7; n], 1), Err(Refusal::Broken));
    }
    // a Success at the top
    assert_eq!(check(&[1 << 32 | 1, 1 << 28 | 1]), Err(Refusal::NoSuchTree));
    // the second clause's number made the first one's
    let mut words = tree(24, &[PXAX, PXXB]);
    let second = words.iter().position(|&word| word == 2 << 28 | 1);
    words[second.expect("a Success")] = 1 << 28 | 1;
    assert_eq!(check(&words), Err(Refusal::NoSuchTree));
    for number in [1, 2] {
        assert_eq!(back(&words, number), Err(Refusal::NoSuchTree));
    }
    assert_eq!(remove(&mut words, 1), Ok(()));
    assert_eq!(check(&words), Ok(()));
    assert_eq!(back(&words, 1), Ok(PXAX.to_vec()));
}

// The numbers listed and the candidates; what a list held before is 9, and the words after the numbers still hold it.
fn list(
    tree: &[u64],
    clause: &[u16],
    budget: u64,
    length: usize,
) -> Result<(Vec<u32>, u64), Refusal> {
    let mut list = vec![9; length];
    let answer = backward(tree, clause, budget, &mut list);
    let (numbers, rest) = list.split_at(answer.map_or(0, |listed| listed.many));
    assert!(rest.iter().all(|word| *word == 9));
    answer.map(|Listed { candidates, .. }| (numbers.to_vec(), candidates))
}

#[test]
fn clauses_listed() {
    let clauses: [&[u16]; 5] = [PXAX, PXXB, PXQX, &[P1, A, P1, B, Q1, B], &[P1, A, Q1, B]];
    let words = tree(90, &clauses);
    assert_eq!(list(&words, &[P3, X, Y, Z], 10, 2), Ok((vec![1, 2], 9)));
    // 1, 1, 2, 6 and 3 candidates
    assert_eq!(list(&words, PXQX, 13, 2), Ok((vec![3, 4], 13)));
    assert_eq!(list(&words, PXQX, 12, 2), Err(Refusal::Spent { count: 12 }));
    assert_eq!(list(&words, PXQX, 13, 1), Err(Refusal::ShortList));
    assert_eq!(list(&words, PXQX, 10, 1), Err(Refusal::ShortList));
    assert_eq!(list(&words, PXQX, 9, 1), Err(Refusal::Spent { count: 9 }));
    assert_eq!(list(&words, PXQX, 13, 3), Ok((vec![3, 4], 13)));
    assert_eq!(list(&words, &[P0], 9, 0), Ok((vec![], 9)));
    assert_eq!(list(&words, PXAX, 99, 9), Ok((vec![1], 9)));
    assert_eq!(list(&[0; 2], PXAX, 0, 0), Ok((vec![], 0)));
    assert_eq!(LIST_WORDS, KEPT);
}

#[test]
fn refusals_of_listings() {
    for n in [0, 1, 65537] {
        assert_eq!(list(&vec![0; n], &[X], 0, 0), Err(Refusal::BadSlice));
    }
    for n in [2, 65536] {
        assert_eq!(list(&vec![0; n], PXAX, 0, 0), Ok((vec![], 0)));
        assert_eq!(list(&vec![7; n], &[], 0, 0), Err(Refusal::BadLength));
        let bad = Err(Refusal::BadClause { position: 0 });
        assert_eq!(list(&vec![7; n], &[X], 0, 0), bad);
        let ninth = Err(Refusal::NinthLiteral { position: 8 });
        assert_eq!(list(&vec![7; n], &[P0; 9], 0, 0), ninth);
        assert_eq!(list(&vec![7; n], PXAX, 0, 0), Err(Refusal::Broken));
    }
    let mut words = tree(24, &[PXAX, PXXB]);
    assert_eq!(
        list(&words, &[P3, X, X, X], 1, 9),
        Err(Refusal::Spent { count: 1 })
    );
    // the second clause's number made the first one's
    let second = words.iter().position(|&word| word == 2 << 28 | 1);
    words[second.expect("a Success")] = 1 << 28 | 1;
    assert_eq!(list(&words, PXAX, 0, 0), Err(Refusal::NoSuchTree));
    assert_eq!(
        list(&[1 << 32 | 1, 1 << 28 | 1], PXAX, 0, 0),
        Err(Refusal::NoSuchTree)
    );
}

#[test]
fn ceilings() {
    assert_eq!(ceiling(0, 1, 1), Ok(0));
    assert_eq!(ceiling(3, 2, 3), Ok(3 * (2 + 4 + 8)));
    assert_eq!(ceiling(1024, 8, 8), Ok(19_634_135_040));
    for (kept, q, m) in [
        (1025, 1, 1),
        (1, 0, 1),
        (1, 9, 1),
        (1, 1, 0),
        (1, 1, 9),
        (u64::MAX, 1, 1),
        (1, u64::MAX, 1),
        (1, 1, u64::MAX),
    ] {
        assert_eq!(ceiling(kept, q, m), Err(Refusal::BadSize));
    }
}

// Each sum by its closed form, which the model does not use: for q over 1, (q^(m + 1) - q) / (q - 1).
#[test]
fn ceilings_in_closed_form() {
    let literals = || 1..=LITERALS as u64;
    for (q, m) in literals().flat_map(|q| literals().map(move |m| (q, m))) {
        let sum = match q {
            1 => m,
            _ => (q.pow(m as u32 + 1) - q) / (q - 1),
        };
        for kept in [0, 1, 2, KEPT as u64 - 1, KEPT as u64] {
            assert_eq!(ceiling(kept, q, m), Ok(kept * sum));
        }
    }
}

// The number returned, and the told words, of which there are t and which held 9.
fn told(t: usize, call: impl Fn(&mut [u64]) -> u64) -> (u64, Vec<u64>) {
    let mut words = vec![9; t];
    (call(&mut words), words)
}

// A code with its values as far as t words reach; the others still hold 9.
fn so_far(t: usize, code: u64, values: &[u64]) -> (u64, Vec<u64>) {
    let word = |i| *values.get(i).unwrap_or(&9);
    (code, (0..t).map(word).collect())
}

#[test]
fn told_by_queries() {
    let pxqx = tree(24, &[PXQX]);
    let header = vec![9 << 32, 0];
    let rows: [(&[u64], &[u16], u64, usize, u64, &[u64]); 8] = [
        (&pxqx, &[P1, A, P1, B, Q1, B], 100, 72, 0, &[1, 1, 6]),
        (&pxqx, &[P1, A, Q1, B], 100, 72, 0, &[0, 0, 3]),
        (&pxqx, &[P1, A, P1, B, Q1, B], 5, 72, 12, &[5]),
        (&pxqx, &[P2, A], 7, 72, 4, &[2]),
        (&pxqx, &[0x8001; 9], 7, 72, 5, &[8]),
        (&pxqx, &[], 7, 72, 3, &[]),
        (&pxqx, PXQX, 9, 71, 6, &[]),
        (&header, PXQX, 9, 72, 2, &[]),
    ];
    for (tree, clause, budget, witness, code, values) in rows {
        for t in 0..6 {
            let query =
                |words: &mut [u64]| raw::query(tree, clause, budget, &mut vec![0; witness], words);
            assert_eq!(told(t, query), so_far(t, code, values));
        }
    }
}

#[test]
fn told_by_insertions_and_ceilings() {
    let pxqx = tree(24, &[PXQX]);
    let rows: [(&[u16], u32, u64, &[u64]); 5] = [
        (PXAX, 2, 0, &[]),
        (PXAX, 1, 7, &[]),
        (PXQX, 3, 8, &[1]),
        (&[P2, A], 3, 4, &[2]),
        (&[0x8001; 9], 3, 5, &[8]),
    ];
    for t in 0..6 {
        for (clause, number, code, values) in rows {
            let insert = |words: &mut [u64]| raw::insert(&mut pxqx.clone(), clause, number, words);
            assert_eq!(told(t, insert), so_far(t, code, values));
        }
        let ceiling = |m: u64| told(t, |words| raw::ceiling(3, 2, m, words));
        assert_eq!(ceiling(3), so_far(t, 0, &[42]));
        assert_eq!(ceiling(9), so_far(t, 13, &[]));
    }
}

#[test]
fn told_by_readings_back() {
    let pxqx = tree(24, &[PXQX]);
    let (no_tree, broken) = (vec![1 << 32 | 1, 1 << 28 | 1], vec![9 << 32, 0]);
    let rows: [(&[u64], u32, usize, u64, &[u64]); 6] = [
        (&pxqx, 1, 64, 0, &[4]),
        (&pxqx, 2, 64, 9, &[]),
        (&pxqx, 1, 63, 15, &[]),
        (&no_tree, 1, 64, 14, &[]),
        (&broken, 1, 64, 2, &[]),
        (&[0], 1, 64, 1, &[]),
    ];
    for (tree, number, out, code, values) in rows {
        for t in 0..6 {
            let read_back =
                |words: &mut [u64]| raw::read_back(tree, number, &mut vec![0; out], words);
            assert_eq!(told(t, read_back), so_far(t, code, values));
        }
    }
}

#[test]
fn told_by_listings() {
    let both = tree(24, &[PXQX, PXAX]);
    let (no_tree, broken) = (vec![1 << 32 | 1, 1 << 28 | 1], vec![9 << 32, 0]);
    let rows: [(&[u64], &[u16], u64, usize, u64, &[u64]); 10] = [
        (&both, PXQX, 3, 1, 0, &[1, 3]),
        (&both, &[P1, X], 3, 2, 0, &[1, 2]),
        (&both, &[P0], 3, 0, 0, &[0, 3]),
        (&both, PXQX, 2, 1, 12, &[2]),
        (&both, PXQX, 3, 0, 16, &[]),
        (&both, &[P2, A], 3, 0, 4, &[2]),
        (&both, &[P0; 9], 3, 0, 5, &[8]),
        (&both, &[], 3, 0, 3, &[]),
        (&no_tree, PXQX, 3, 1, 14, &[]),
        (&broken, PXQX, 3, 1, 2, &[]),
    ];
    for (tree, clause, budget, length, code, values) in rows {
        for t in 0..6 {
            let backward = |words: &mut [u64]| {
                raw::backward(tree, clause, budget, &mut vec![0; length], words)
            };
            assert_eq!(told(t, backward), so_far(t, code, values));
        }
    }
}

// Nested words, each with so many siblings after it that cannot be taken: a First, Puts, and a Check that fails.
fn nested(levels: usize, siblings: usize) -> Vec<u64> {
    let each = 1 + siblings;
    let mut words = vec![0; 65536];
    words[0] = ((levels * each) as u64) << 32;
    for level in 0..levels {
        let key: u64 = if level == 0 { 1 << 32 } else { 4 << 32 };
        words[1 + level] = key << 28 | (each * (levels - level) - siblings) as u64;
    }
    for word in &mut words[levels..=levels * each] {
        *word = (7 << 32 | 0xFFFF) << 28 | 1;
    }
    words
}

// Makes some calls on a thread with so many KiB of stack: an overflow kills the tests.
fn on_a_stack_of(kib: usize, calls: fn()) {
    std::thread::Builder::new()
        .stack_size(kib << 10)
        .spawn(calls)
        .unwrap()
        .join()
        .unwrap();
}

#[test]
fn deepest_trees() {
    let calls = || {
        // the topmost Check comes before a candidate
        assert_eq!(
            answer(&nested(32767, 1), &[0x8001], 99),
            Err(Refusal::Broken)
        );
        assert_eq!(answer(&nested(65535, 0), &[0x8001], 99), not_covered(1));
        let mut words = nested(65535, 0);
        assert_eq!(insert(&mut words, &[0x8001], 1), Err(Refusal::Broken));
        // the same with a Success at the end is well laid
        words[0] |= 1;
        words[65535] = 5 << 28 | 1;
        assert_eq!(insert(&mut words, &[0x8001], 1), Err(Refusal::NoRoom));
        assert_eq!(check(&words), Err(Refusal::NoSuchTree));
        assert_eq!(back(&words, 5), Err(Refusal::NoSuchTree));
        assert_eq!(list(&words, &[P0], 9, 9), Err(Refusal::NoSuchTree));
        assert_eq!(remove(&mut words, 1), Err(Refusal::NoSuchNumber));
        assert_eq!(remove(&mut words, 5), Ok(()));
        assert_eq!(words, [0; 65536]);
    };
    on_a_stack_of(8 << 10, calls);
}

// Firsts, as many as a clause has literals, and then rows of two Checks, each below the first one of the row before: a call of the walk for each row.
fn rows_of_two() -> Vec<u64> {
    let word = |key: u64, extent: usize| key << 28 | extent as u64;
    let (used, check) = (65535, 7 << 32 | u64::from(P0));
    let mut words = vec![0; 1 + used];
    words[0] = (used as u64) << 32;
    for first in 0..8 {
        words[1 + first] = word(1 << 32, used - first);
    }
    let (mut from, mut to) = (9, 1 + used);
    while from + 1 < to {
        to -= 1;
        words[from] = word(check, to - from);
        words[to] = word(check, 1);
        from += 1;
    }
    words[to - 1] = word(0, 1);
    words
}

// The header tells a caller what stack the deepest slice takes, 6,152 KiB: it is answered on a thread that has little more.
#[test]
fn deepest_tree_on_the_stack_told() {
    let calls = || {
        assert_eq!(answer(&rows_of_two(), &[P0; 8], 99), covered(0, 8));
    };
    on_a_stack_of(6200, calls);
}
