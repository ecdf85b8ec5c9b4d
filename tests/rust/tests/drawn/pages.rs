//! Pages of any records, and pages that fill the list or the tree.
use super::{Random, STYLES};
use model::pages::record;

// A record of a clause made from earlier ones, a spoilt one among them, or one that is too long.
fn any_record(random: &mut Random, style: usize, clauses: &mut Vec<Vec<u16>>) -> Vec<u8> {
    let number = random.below(65_536) as u16;
    if random.one_in(300) {
        return record(number, &vec![0x8001; 65 + random.below(400)]);
    }
    let from: Vec<&[u16]> = clauses.iter().rev().take(40).map(|c| &c[..]).collect();
    let clause = random.any_clause(STYLES[style], &from);
    if random.one_in(3) {
        clauses.push(clause.clone());
    }
    record(number, &clause)
}

/// A page of so many bytes or more of any records; the last one is cut now and then.
pub fn any_page(random: &mut Random, bytes: usize) -> Vec<u8> {
    let style = random.below(STYLES.len());
    let (mut page, mut clauses) = (Vec::new(), Vec::new());
    while page.len() < bytes {
        page.extend(any_record(random, style, &mut clauses));
    }
    if random.one_in(2) {
        page.truncate(page.len() - random.below(9).min(page.len()));
    }
    page
}

// Clauses of so many words that nothing else covers: P(c, d), with as many literals Q(c) as it takes.
fn new_clause(i: u16, words: usize) -> Vec<u16> {
    let mut clause = vec![0x9001, 16 + i % 1500, 16 + i / 1500];
    while clause.len() + 2 <= words {
        clause.extend([0x8802, 16 + i % 1500]);
    }
    clause
}

/// A page whose records fill the list (short clauses) or the tree (long ones), with further ones behind.
pub fn full_page(random: &mut Random, words: usize) -> Vec<u8> {
    let new = (0..1_100).flat_map(|i| record(i, &new_clause(i, words)));
    let mut page: Vec<u8> = new.collect();
    for _ in 0..9_000 {
        let clause = new_clause(random.below(2_000) as u16, 3 + 2 * random.below(4));
        page.extend(record(random.below(2_000) as u16, &clause));
    }
    page
}

/// Adds records of so many bytes in all, an even number and 6 or more, that are struck, refused or kept.
pub fn fill(page: &mut Vec<u8>, end: usize, random: &mut Random) {
    while page.len() < end {
        let room = end - page.len();
        let words = (room - 4) / 2;
        let count = if words <= 40 {
            words
        } else {
            1 + random.below(30)
        };
        let mut clause = new_clause(random.below(400) as u16, count);
        clause.resize(count, 0x8003);
        page.extend(record(random.below(60_000) as u16, &clause));
    }
}
