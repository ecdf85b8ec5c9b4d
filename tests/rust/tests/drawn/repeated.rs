//! Clauses with many repeated literals, and queries made of them: instances, and factors, in which literals that became equal stand once.
use super::{style, Random, Style};
use model::limits::LITERALS;
use model::pages::record;
use model::words::{is_head, is_variable, word, FUNCTION, POSITIVE, VARIABLE};

/// Styles that have few literals in all, so that most clauses have one at several places.
pub const REPEATING: [Style; 4] = [
    style([1, 0, 1, 1, 8, 64, 0]),
    style([2, 1, 1, 2, 8, 64, 60]),
    style([1, 1, 1, 3, 6, 64, 80]),
    style([1, 2, 1, 2, 5, 64, 75]),
];

// A literal that no clause of these styles has.
const STRANGER: &[u16] = &[word(POSITIVE, 0, 99)];

/// The literals of a clause, each by its words.
pub fn literals(clause: &[u16]) -> Vec<&[u16]> {
    clause.chunk_by(|_, next| !is_head(*next)).collect()
}

impl Random {
    pub fn shuffle<T>(&mut self, items: &mut [T]) {
        for i in (1..items.len()).rev() {
            items.swap(i, self.below(i + 1));
        }
    }

    /// The clause with a or x for each variable, its literals in any order: each of them is there, at a place of its own.
    pub fn narrow_instance(&mut self, clause: &[u16]) -> Vec<u16> {
        let (constants, x) = (self.next(), word(VARIABLE, 0, 0));
        let replace = |&w: &u16| match is_variable(w) {
            true if constants >> (w % 8) & 1 == 1 => word(FUNCTION, 0, 1),
            true => x,
            false => w,
        };
        let instance: Vec<u16> = clause.iter().map(replace).collect();
        let mut places = literals(&instance);
        self.shuffle(&mut places);
        places.concat()
    }

    /// Such an instance with most repetitions left out: each literal of the clause is there, but perhaps not each at a place of its own.
    pub fn factor(&mut self, clause: &[u16]) -> Vec<u16> {
        let instance = self.narrow_instance(clause);
        let mut places: Vec<&[u16]> = Vec::new();
        for literal in literals(&instance) {
            if !places.contains(&literal) || self.one_in(4) {
                places.push(literal);
            }
        }
        places.concat()
    }

    /// A clause with strangers among its literals, up to 8 in all.
    pub fn among_strangers(&mut self, clause: &[u16]) -> Vec<u16> {
        let mut places = literals(clause);
        while places.len() < LITERALS && !self.one_in(4) {
            places.insert(self.below(places.len() + 1), STRANGER);
        }
        places.concat()
    }

    /// An instance or a factor of a clause, alone or among strangers.
    pub fn made_of(&mut self, clause: &[u16]) -> Vec<u16> {
        let made = match self.one_in(2) {
            true => self.narrow_instance(clause),
            false => self.factor(clause),
        };
        match self.one_in(2) {
            true => self.among_strangers(&made),
            false => made,
        }
    }
}

/// A page of clauses of one style: new ones, and instances and factors of those before them.
pub fn repeating_page(random: &mut Random, records: usize) -> Vec<u8> {
    let style = random.of(&REPEATING);
    let mut clauses = vec![random.clause(style)];
    while clauses.len() < records {
        let from = random.below(clauses.len());
        clauses.push(match random.one_in(4) {
            true => random.clause(style),
            false => random.made_of(&clauses[from]),
        });
    }
    let number = |_: &Vec<u16>| random.below(65_536) as u16;
    let numbers: Vec<u16> = clauses.iter().map(number).collect();
    let numbered = numbers.iter().zip(&clauses);
    numbered.flat_map(|(n, words)| record(*n, words)).collect()
}
