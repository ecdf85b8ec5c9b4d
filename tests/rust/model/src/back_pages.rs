//! The stored pages of tests/pages/back, which are run with the argument `back`: which records they have.
use crate::limits::PROGRAM_TREE;
use crate::pages::{constant, p, record, Page, A, B, F, G, N2, P0, P1, P2, X, Y, Z};

const Q0: u16 = p(0, 2);
const Q1: u16 = p(1, 2);
const R1: u16 = p(1, 3);
const P3: u16 = p(3, 1);
const P7: u16 = p(7, 1);

// A record's number and words.
type Row<'a> = (u16, &'a [u16]);

fn page(rows: &[Row]) -> Vec<u8> {
    let records = rows.iter().map(|(number, words)| record(*number, words));
    records.flatten().collect()
}

/// All stored pages that are run with `back`.
pub fn back_pages() -> Vec<Page> {
    vec![
        ("empty", vec![]),
        ("lines", lines()),
        ("one-removed", one_removed()),
        ("factors", factors()),
        ("number-taken", number_taken()),
        ("number-again", number_again()),
        ("full-list", full_list()),
        ("clears-many", clears_many()),
        ("clears-all", clears_all()),
        ("full-tree", full_tree()),
        ("room-short", room_page(2)),
        ("room-just", room_page(3)),
        ("cut-removal", cut_removal()),
    ]
}

// Each kind of line; clauses are removed one at a time and several, of which the numbers rise neither as the records nor as the tree's words do.
fn lines() -> Vec<u8> {
    page(&[
        (7, &[P1, A]),
        (3, &[P1, F, A]),
        (9, &[P1, F, X]),
        (5, &[P2, A, B]),
        (2, &[P1, B]),
        (4, &[P1, A]),
        (4, &[]),
        (4, &[X]),
        (4, &[P0; 9]),
        (4, &[P0; 65]),
        (7, &[P2, A, A]),
        (3, &[P0, P1, G, A, B]),
        (4, &[P1, X]),
        (4, &[P2, X, Y]),
        (6, &[P2, X, Y]),
        (65535, &[P1, B]),
        (0, &[P0]),
        (65535, &[N2, A, A]),
        (1, &[P0, P2, B, B]),
        (8, &[N2, X, X]),
    ])
}

// The smallest page with a removal (F6-7).
fn one_removed() -> Vec<u8> {
    page(&[(1, &[P1, A]), (2, &[P1, X])])
}

// Clauses of several literals: each literal of the new clause falls on one of its own, so a factor removes what it is a factor of, and not the other
// way round; one variable has one term.
fn factors() -> Vec<u8> {
    page(&[
        (1, &[P1, A]),
        (2, &[P1, X, P1, Y]),
        (3, &[P1, X]),
        (4, &[Q1, A, R1, B]),
        (5, &[R1, A, Q1, B, Q1, A]),
        (6, &[Q1, X, R1, X]),
        (7, &[Q0, Q0, Q0]),
        (8, &[Q0, Q0]),
        (9, &[Q0]),
        (10, &[P2, Y, F, F, Y]),
        (11, &[P2, X, F, Y, P2, Z, F, F, Z]),
        (12, &[P2, X, F, X]),
        (13, &[P2, X, Y]),
    ])
}

// A number that is kept is taken, also where its clause would be removed (F6-4), and then nothing is: 1 and 3 strike afterwards.
fn number_taken() -> Vec<u8> {
    page(&[
        (1, &[P1, A]),
        (3, &[Q1, A]),
        (1, &[P1, X]),
        (3, &[P1, X]),
        (4, &[P1, A]),
        (5, &[Q1, A]),
        (2, &[P1, X]),
        (1, &[Q1, X]),
        (3, &[R1, A]),
    ])
}

// A removed clause keeps its row with what it struck (F6-12), and a number that is used again adds to it (F6-8): 1 has three clauses, each of which
// strikes; 6 has two, and strikes nothing.
fn number_again() -> Vec<u8> {
    page(&[
        (1, &[P1, A]),
        (5, &[P1, A]),
        (5, &[P0, P1, A]),
        (6, &[P1, B]),
        (2, &[P1, X]),
        (7, &[P1, A]),
        (1, &[Q1, A]),
        (8, &[P0, Q0, Q1, A]),
        (1, &[R1, A]),
        (3, &[Q1, X]),
        (1, &[R1, A]),
        (9, &[R1, A]),
        (6, &[R1, B]),
        (1, &[R1, X]),
        (4, &[R1, X]),
        (6, &[P0, R1, B]),
    ])
}

// As many clauses as a list keeps, 1 being P(a): a stranger has no place, also under a number that would be free; P(x) goes in where P(a) goes out
// (F6-6), and is refused under a number that is taken. Q(x) makes room for two more.
fn full_list() -> Vec<u8> {
    let mut page = page(&[
        (1, &[P1, A]),
        (2, &[Q1, A]),
        (3, &[Q1, B]),
        (4, &[Q1, F, A]),
    ]);
    page.extend((0..1020).flat_map(|n| record(100 + n, &[p(0, 100 + n)])));
    page.extend(record(5, &[R1, X]));
    page.extend(record(100, &[P1, X]));
    page.extend(record(6, &[P1, X]));
    page.extend(record(7, &[R1, X]));
    page.extend(record(8, &[Q1, X]));
    page.extend(record(9, &[R1, A]));
    page.extend(record(10, &[R1, B]));
    page.extend(record(11, &[P0]));
    page.extend(record(12, &[R1, X]));
    page.extend(record(13, &[P0]));
    page
}

// A permutation of the numbers below 1,024.
fn mixed(i: u16) -> u16 {
    (u32::from(i) * 397 % 1024) as u16
}

// 1,024 clauses, 896 of them P(c), and P(x), which clears these; then clauses under their numbers, some of which had struck, and Q(x), which clears
// all that are left but P(x).
fn clears_many() -> Vec<u8> {
    let literal = |i: u16| match i % 8 {
        0 => [Q1, constant(i)],
        _ => [P1, constant(i)],
    };
    let mut page: Vec<u8> = (0..1024)
        .flat_map(|i| record(mixed(i), &literal(i)))
        .collect();
    page.extend((0..1024).step_by(3).flat_map(|i| record(i, &literal(i))));
    page.extend(record(2000, &[R1, A]));
    page.extend(record(2000, &[P1, X]));
    for i in 0..900 {
        page.extend(record(mixed(i), &[Q1, F, constant(i)]));
    }
    page.extend((0..1024).step_by(5).flat_map(|i| record(i, &literal(i))));
    page.extend(record(1999, &[Q1, X]));
    page
}

// Three times all but the clauses that clear are cleared, by one record each: the first time as many as a list keeps, and the longest lines that there
// are, more than a block of them in all.
fn clears_all() -> Vec<u8> {
    let mut page = Vec::new();
    for round in 0..3 {
        let head = p(1, 1 + round);
        for i in 0..1024 - round {
            page.extend(record(64000 + mixed(i), &[head, constant(i)]));
        }
        page.extend(record(65535 - round, &[head, X]));
    }
    page
}

// A tree without room. P(x,..,x) would remove P(a,..,a), which has two words of its own, but needs more: nothing is removed. P(a,..,a,x) removes both
// clauses of P, and there is room for a clause of two words more.
fn full_tree() -> Vec<u8> {
    let p7 = |last: u16| [P7, A, A, A, A, A, A, last];
    let large = |n: u16| {
        let (second, third) = (constant(n * 7 % 501), constant(n * 3 % 401));
        [p(3, 1), constant(n), F, second, X, P1, third]
    };
    let mut page = page(&[(1, &p7(A)), (2, &p7(B))]);
    page.extend((0..700).flat_map(|n| record(100 + n, &large(n))));
    page.extend((0..20).flat_map(|n| record(1000 + n, &[p(0, 100 + n)])));
    page.extend(record(2000, &[P7, X, X, X, X, X, X, X]));
    page.extend(record(2001, &p7(A)));
    page.extend(record(2002, &p7(X)));
    page.extend(record(2003, &p7(A)));
    page.extend((0..3).flat_map(|n| record(1 + n, &[p(0, 200 + n)])));
    page
}

/// Records, numbered from here on, of clauses that take exactly so many words of a tree which has a First: 128 each, then two each, and seven once
/// if the words are odd.
pub fn filler(words: usize, number: u16) -> Vec<u8> {
    let (odd, rest) = (words % 2, words - 7 * (words % 2));
    let predicate = |arity: u16, n: usize| p(arity, 2047 - n as u16);
    let long = |n: usize| [vec![predicate(1, n)], vec![F; 62], vec![X]].concat();
    let short = |n: usize| vec![predicate(0, n)];
    let seven = |n: usize| vec![predicate(2, n), X, X];
    let clauses = (0..rest / 128).map(long);
    let clauses = clauses.chain((0..rest % 128 / 2).map(short));
    let clauses = clauses.chain((0..odd).map(seven));
    let numbered = clauses.zip(number..);
    numbered.flat_map(|(words, n)| record(n, &words)).collect()
}

/// So many words of the tree are left where P(a,x,x) comes, which needs three more than go out with P(a,a,a): this has two of its own beside P(a,a,b).
/// Then P(a,a,a) is asked for.
pub fn room_page(room: usize) -> Vec<u8> {
    let mut page = page(&[(1, &[P3, A, A, A]), (2, &[P3, A, A, B])]);
    let used = 11;
    page.extend(filler(PROGRAM_TREE - 1 - used - room, 100));
    page.extend(record(60000, &[P3, A, X, X]));
    page.extend(record(60001, &[P3, A, A, A]));
    page
}

// The last record would remove two, if it had its last byte.
fn cut_removal() -> Vec<u8> {
    let page = page(&[(2, &[P1, A]), (1, &[P1, B]), (3, &[Q1, A]), (4, &[P1, X])]);
    page[..page.len() - 1].to_vec()
}
