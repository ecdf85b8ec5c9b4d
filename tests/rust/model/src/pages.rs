//! The stored pages of tests/pages: which records they have. Those that are run with `back` are in back_pages.rs.
use crate::words::{word, FUNCTION, NEGATIVE, POSITIVE, VARIABLE};

/// A page's name and bytes.
pub type Page = (&'static str, Vec<u8>);

pub(crate) const X: u16 = word(VARIABLE, 0, 0);
pub(crate) const Y: u16 = word(VARIABLE, 0, 1);
pub(crate) const Z: u16 = word(VARIABLE, 0, 2);
pub(crate) const A: u16 = word(FUNCTION, 0, 1);
pub(crate) const B: u16 = word(FUNCTION, 0, 2);
pub(crate) const F: u16 = word(FUNCTION, 1, 3);
pub(crate) const G: u16 = word(FUNCTION, 2, 4);

// The predicate of a number, positive.
pub(crate) const fn p(arity: u16, number: u16) -> u16 {
    word(POSITIVE, arity, number)
}

pub(crate) const P0: u16 = p(0, 1);
pub(crate) const P1: u16 = p(1, 1);
pub(crate) const P2: u16 = p(2, 1);
pub(crate) const N2: u16 = word(NEGATIVE, 2, 1);

pub(crate) fn constant(i: u16) -> u16 {
    word(FUNCTION, 0, 16 + i)
}

/// A record's bytes, with a word count of its own.
pub fn record_counting(number: u16, count: u16, words: &[u16]) -> Vec<u8> {
    let fields = [&[number, count], words].concat();
    fields
        .iter()
        .flat_map(|field| field.to_be_bytes())
        .collect()
}

/// A record's bytes.
pub fn record(number: u16, words: &[u16]) -> Vec<u8> {
    record_counting(number, words.len() as u16, words)
}

/// All stored pages.
pub fn pages() -> Vec<Page> {
    let mut pages = vec![
        ("empty", vec![]),
        ("strikes", strikes()),
        ("refusals", refusals()),
        ("full-list", full_list()),
        ("full-tree", full_tree()),
        ("only-refused", only_refused()),
        ("idle-clause", idle_clause()),
        ("thousands", thousands()),
        ("first-and-last", first_and_last()),
        ("all-eighths", all_eighths()),
        ("cut-strike", cut_strike()),
        ("units", units()),
        ("factors", factors()),
    ];
    pages.extend(cut_pages());
    pages
}

fn strikes() -> Vec<u8> {
    let clauses: [&[u16]; 13] = [
        &[P2, X, F, Y, P2, Z, F, F, Z],
        &[P2, Y, F, F, Y],
        &[P2, A, F, F, A, P1, B],
        &[P1, X, p(1, 2), X],
        &[P1, A, P1, B, p(1, 2), B],
        &[P1, A, p(1, 2), B],
        &[N2, G, X, Y, X],
        &[N2, G, F, A, B, F, A],
        &[N2, G, F, A, B, F, B],
        &[p(1, 9), A],
        &[p(1, 9), X],
        &[P0, P0, p(0, 7)],
        &[P0],
    ];
    let numbered = clauses.iter().enumerate();
    numbered
        .flat_map(|(n, words)| record(n as u16, words))
        .collect()
}

fn refusals() -> Vec<u8> {
    let records: [(u16, Vec<u16>); 18] = [
        (1, vec![P1, X]),
        (2, vec![]),
        (3, vec![X]),
        (4, vec![P1]),
        (5, vec![P1, word(VARIABLE, 1, 0)]),
        (6, vec![P2, A, P0]),
        (7, vec![P0; 8]),
        (8, vec![P0; 9]),
        (9, [vec![P0; 8], vec![P1]].concat()),
        (10, [vec![p(0, 3); 8], vec![A]].concat()),
        (1, vec![p(1, 5), X]),
        (0, vec![p(1, 6), X]),
        (65535, [vec![p(7, 1)], vec![X; 7]].concat()),
        (11, [vec![p(7, 1), A], vec![G; 56], vec![B; 6]].concat()),
        (12, vec![P0; 64]),
        (13, vec![P0; 65]),
        (14, [vec![p(0, 4); 8], vec![P1; 56], vec![A; 300]].concat()),
        (15, vec![p(0, 8)]),
    ];
    let records = records.iter();
    records
        .flat_map(|(number, words)| record(*number, words))
        .collect()
}

// Two whole records, then one that ends in its number, its count or its words.
fn cut_pages() -> [Page; 4] {
    let whole = [record(1, &[P1, X]), record(2, &[P1, A])].concat();
    let cut = record(3, &[P2, A, B]);
    let long = record_counting(4, 65535, &[P0; 100]);
    let page = |end: &[u8]| [&whole, end].concat();
    [
        ("cut-number", page(&cut[..1])),
        ("cut-count", page(&cut[..3])),
        ("cut-words", page(&cut[..cut.len() - 1])),
        ("cut-long", page(&long)),
    ]
}

// More clauses than a list keeps.
fn full_list() -> Vec<u8> {
    let mut page: Vec<u8> = (0..1030)
        .flat_map(|n| record(n, &[P1, constant(n)]))
        .collect();
    page.extend(record(3, &[P1, X]));
    page.extend(record(2000, &[P1, constant(7), P1, A]));
    page
}

// More words than a tree has.
fn full_tree() -> Vec<u8> {
    let clause = |n: u16| {
        let (second, third) = (constant(n * 7 % 501), constant(n * 3 % 401));
        [p(3, 1), constant(n), F, second, X, P1, third]
    };
    let mut page: Vec<u8> = (0..900).flat_map(|n| record(n, &clause(n))).collect();
    page.extend(record(5, &[p(1, 2), A]));
    page
}

// No clause is kept, so a sheet has no rows, but records.
fn only_refused() -> Vec<u8> {
    let records = [
        record(1, &[]),
        record(1, &[X]),
        record(0, &[P0; 9]),
        record(65535, &[P0; 65]),
        record(2, &[P1]),
    ];
    records.concat()
}

// Clauses that strike nothing beside one that does; what comes under their numbers later is struck by another clause or refused.
fn idle_clause() -> Vec<u8> {
    let records = [
        record(20, &[P1, A]),
        record(30, &[P2, X, X]),
        record(10, &[P1, B]),
        record(10, &[P2, A, A]),
        record(20, &[P1, X]),
        record(20, &[P0, P2, F, Y, F, Y]),
    ];
    records.concat()
}

// A clause that is struck by its last literal: so many others stand before it, each a candidate more.
fn behind(others: u32, literal: &[u16]) -> Vec<u16> {
    [&vec![P0; others as usize], literal].concat()
}

// Literals Q of these pairs of terms.
fn pairs(pairs: impl IntoIterator<Item = (u16, u16)>) -> Vec<u16> {
    let literals = pairs.into_iter().map(|(a, b)| [p(2, 2), a, b]);
    literals.flatten().collect()
}

// A clause that strikes thousands of records, and one that strikes three, of more than 65,536 candidates each: only with its first literal on
// their last does its last one fit, on their first.
fn thousands() -> Vec<u8> {
    let variable = |i| word(VARIABLE, 0, i);
    let any = (0..7).map(|i| (variable(i), variable(7 + i)));
    let searching = pairs(any.chain([(X, X)]));
    let others = (0..6).map(|i| (constant(i), B));
    let searched = pairs([(A, A)].into_iter().chain(others).chain([(A, B)]));
    let mut page = [record(500, &[P1, X]), record(400, &searching)].concat();
    for n in 0..4500 {
        if n % 1500 == 7 {
            page.extend(record(n, &searched));
        }
        let struck = behind(u32::from(n % 4), &[P1, constant(n % 1000)]);
        page.extend(record(n, &struck));
    }
    page
}

// The first number and the last one strike, also what comes under the other's number.
fn first_and_last() -> Vec<u8> {
    let records = [
        record(65535, &[P1, X]),
        record(0, &[P2, X, Y]),
        record(65535, &[P2, A, B]),
        record(0, &[P1, A]),
        record(1, &behind(3, &[P1, B])),
        record(65534, &behind(5, &[P2, B, B])),
        record(7, &behind(6, &[P1, F, A])),
    ];
    records.concat()
}

// As many clauses as a list keeps, 128 in each eighth of the numbers from its first to its last number, in an order that is neither
// that of their numbers nor that of the tree; some strike nothing, others once or twice.
fn all_eighths() -> Vec<u8> {
    let number = |i: u32| (i / 128 * 8192 + i % 128 * 8191 / 127) as u16;
    let literal = |i: u32| [P1, constant((i * 275 % 1024) as u16)];
    let order = (0..1024).map(|i| i * 397 % 1024);
    let new = order.clone().map(|i| record(number(i), &literal(i)));
    let mut page: Vec<u8> = new.flatten().collect();
    for i in order.rev() {
        for others in 0..(i + 1) % 3 {
            let struck = behind(i % 5 + others, &literal(i));
            page.extend(record(number(1023 - i), &struck));
        }
    }
    page
}

// The last record would be struck, if it had its last byte.
fn cut_strike() -> Vec<u8> {
    let records = [
        record(2, &[P1, X]),
        record(1, &[P2, X, Y]),
        record(3, &[P1, A]),
        record(4, &[P1, B]),
    ];
    let page = records.concat();
    page[..page.len() - 1].to_vec()
}

// Five units; then records of q literals that one of them strikes at place p, numbered 100 × q + p: before it stand literals that are just missed,
// behind it such as a unit falls on. Last, one of missed literals only: under a number that is taken, then behind a unit that strikes it.
fn units() -> Vec<u8> {
    // a unit, a literal on which it falls, and one that it misses
    let rows: [[&[u16]; 3]; 5] = [
        [&[P1, A], &[P1, A], &[P1, X]],
        [&[P2, X, X], &[P2, F, Y, F, Y], &[P2, X, Y]],
        [&[N2, G, X, Y, X], &[N2, G, A, B, A], &[N2, G, A, B, B]],
        [&[p(1, 2), F, X], &[p(1, 2), F, A], &[p(1, 2), X]],
        [&[p(0, 3)], &[p(0, 3)], &[P0]],
    ];
    let missed = |n: usize| (0..n).flat_map(|i| rows[i % 5][2]);
    let met = |from: usize, to: usize| (from..to).flat_map(|i| rows[i % 5][1]);
    let new = rows.iter().zip(1..).map(|(row, n)| record(n, row[0]));
    let mut page: Vec<u8> = new.flatten().collect();
    for q in 1..=8 {
        for place in 1..=q {
            let clause = missed(place - 1).chain(met(q + place, 2 * q + 1));
            let clause: Vec<u16> = clause.copied().collect();
            page.extend(record((100 * q + place) as u16, &clause));
        }
    }
    let clause: Vec<u16> = missed(8).copied().collect();
    page.extend(record(5, &clause));
    page.extend(record(6, &[P0]));
    page.extend(record(7, &clause));
    page
}

// Clauses that leave their factors standing: each literal of a kept clause needs one of its own in what it strikes, equal ones at two places
// being two.
fn factors() -> Vec<u8> {
    let (q, r, s, t, u) = (p(1, 2), p(0, 3), p(1, 4), p(2, 5), p(0, 6));
    let clauses: [&[u16]; 24] = [
        // P(x),P(y), instances of its factor P(x) and of itself, alone and among others; then the factor, which leaves those before it and
        // strikes the two after it
        &[P1, X, P1, Y],
        &[P1, A],
        &[P1, B, P1, B],
        &[P1, B, P0],
        &[P1, B, P0, P1, A],
        &[P1, X],
        &[P1, B],
        &[P1, B, P1, B],
        // the clause of document 02, its factor, an instance of this, and the clause once more
        &[P2, X, F, Y, P2, Z, F, F, Z],
        &[P2, Y, F, F, Y],
        &[P2, A, F, F, A],
        &[P2, X, F, Y, P2, Z, F, F, Z],
        // by number
        &[r, r, r],
        &[r, r],
        &[r, r, r],
        &[r],
        &[u; 8],
        &[u; 7],
        &[u; 8],
        // used literals are passed over, and given back after a miss
        &[q, X, q, Y, t, X, Y],
        &[q, A, q, B, t, B, A],
        &[q, A, t, A, A],
        &[s, A, q, B, q, A, q, B, t, B, B],
        &[t, A, A, q, B, q, A],
    ];
    let numbered = clauses.iter().zip(1..);
    numbered.flat_map(|(words, n)| record(n, words)).collect()
}
