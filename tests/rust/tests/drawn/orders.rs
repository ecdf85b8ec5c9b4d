//! Records that are run in several orders, and the orders.
use super::repeated::{literals, REPEATING};
use super::{renamed, Random, Style, STYLES};
use model::compiler::sequence;
use model::limits::{KEPT, PROGRAM_TREE};
use model::pages::record;
use model::program::Record;
use model::reader::read;
use model::words::{is_variable, word, FUNCTION, POSITIVE, VARIABLE};
use std::cmp::Reverse;
use std::collections::BTreeSet;

impl Random {
    // The clause with its literals in another order: each of the two subsumes the other.
    fn permuted(&mut self, clause: &[u16]) -> Vec<u16> {
        let mut places = literals(clause);
        self.shuffle(&mut places);
        places.concat()
    }

    // An accepted clause that has to do with one of these; where what is drawn is none, that one comes again.
    fn relative(&mut self, style: Style, family: &[Vec<u16>]) -> Vec<u16> {
        let clause = &family[self.below(family.len())];
        let drawn = match self.below(7) {
            0 | 1 => self.permuted(&renamed(clause, 3)),
            2 | 3 => self.general(clause),
            _ => self.about(style, clause),
        };
        match read(&drawn) {
            Ok(_) => drawn,
            Err(_) => clause.clone(),
        }
    }

    // A clause of a theme and others, each of which has to do with one before it, so that they come in chains.
    fn family(&mut self, style: Style, theme: usize) -> Vec<Vec<u16>> {
        let mut family = vec![self.theme_clause(style, theme)];
        for _ in 0..self.below(10) {
            let clause = self.relative(style, &family);
            family.push(clause);
        }
        family
    }

    /// Numbers that differ, in any order.
    pub fn numbers(&mut self) -> impl Iterator<Item = u16> {
        let (first, step) = (self.next() as u16, self.next() as u16 | 1);
        (0..=u16::MAX).map(move |i| first.wrapping_add(step.wrapping_mul(i)))
    }

    /// The records in any order.
    pub fn shuffled(&mut self, records: &[Record]) -> Vec<Record> {
        let mut shuffled = records.to_vec();
        self.shuffle(&mut shuffled);
        shuffled
    }
}

// The words of a clause's path.
fn path_words(clause: &[u16]) -> usize {
    1 + sequence(&read(clause).expect("an accepted clause")).len()
}

/// Records of families of clauses, all of them accepted and under different numbers. List and tree have room for all at once, so in every order none is
/// refused.
pub fn family_records(random: &mut Random, families: usize) -> Vec<Record> {
    let style = match random.one_in(3) {
        true => random.of(&REPEATING),
        false => random.of(&STYLES),
    };
    let families = (0..families).flat_map(|theme| random.family(style, theme));
    let mut words = 0;
    let fits = |clause: &Vec<u16>| {
        words += path_words(clause);
        words < PROGRAM_TREE
    };
    let clauses: Vec<Vec<u16>> = families.take_while(fits).take(KEPT).collect();
    random.numbers().zip(clauses).collect()
}

/// Records of the same clauses in any order: each up to three times, under any numbers below a bound.
pub fn renumbered(random: &mut Random, records: &[Record], numbers: usize) -> Vec<Record> {
    let mut again = Vec::new();
    for (_, clause) in records {
        for _ in 0..1 + random.below(3) {
            again.push((random.below(numbers) as u16, clause.clone()));
        }
    }
    random.shuffle(&mut again);
    again
}

// A clause goes before those that it may subsume: by words, then the more variables the better.
fn generality(clause: &[u16]) -> (usize, Reverse<usize>) {
    let variables = clause.iter().filter(|word| is_variable(**word));
    let variables: BTreeSet<&u16> = variables.collect();
    (clause.len(), Reverse(variables.len()))
}

/// The records from the last to the first.
pub fn reversed(records: &[Record]) -> Vec<Record> {
    records.iter().rev().cloned().collect()
}

/// Records with the general ones first, and with the special ones first.
pub fn by_generality(records: &[Record]) -> [Vec<Record>; 2] {
    let mut general = records.to_vec();
    general.sort_by_key(|(_, words)| generality(words));
    let special = reversed(&general);
    [general, special]
}

/// Four orders of records: reversed, general first, special first, and any.
pub fn few_orders(random: &mut Random, records: &[Record]) -> [Vec<Record>; 4] {
    let [general, special] = by_generality(records);
    let shuffled = random.shuffled(records);
    [reversed(records), general, special, shuffled]
}

/// These and three more: as they are, rotated, and any.
pub fn orders(random: &mut Random, records: &[Record]) -> Vec<Vec<Record>> {
    let mut rotated = records.to_vec();
    rotated.rotate_left(random.below(records.len()));
    let mut orders = few_orders(random, records).to_vec();
    orders.extend([records.to_vec(), rotated, random.shuffled(records)]);
    orders
}

/// Clauses P(x) of so many predicates, under numbers that differ.
pub fn strangers(random: &mut Random, count: usize) -> Vec<Record> {
    let (head, x) = (word(POSITIVE, 1, 0), word(VARIABLE, 0, 0));
    let clauses = (head..).map(|head| vec![head, x]).take(count);
    random.numbers().zip(clauses).collect()
}

/// The records, then P(a) for each of the first so many, which are P(x), under other numbers: reversed, P(x) comes when all else is there.
pub fn with_instances(random: &mut Random, records: &[Record], first: usize) -> Vec<Record> {
    let a = word(FUNCTION, 0, 1);
    let instances = records[..first].iter().map(|(_, words)| vec![words[0], a]);
    let taken = |number: &u16| records.iter().any(|(taken, _)| taken == number);
    let numbers = random.numbers().filter(|number| !taken(number));
    let instances = numbers.zip(instances);
    records.iter().cloned().chain(instances).collect()
}

/// The bytes of records.
pub fn page(records: &[Record]) -> Vec<u8> {
    let bytes = records.iter().map(|(number, words)| record(*number, words));
    bytes.flatten().collect()
}

/// The bytes of records, then of one that subsumes one of them and is cut: within its number, its count or its words, or behind one of these.
pub fn cut_page(random: &mut Random, records: &[Record]) -> Vec<u8> {
    let special = random.below(records.len());
    let general = random.general(&records[special].1);
    let cut = record(random.next() as u16, &general);
    let end = 1 + random.below(cut.len() - 1);
    [&page(records), &cut[..end]].concat()
}
