//! Clauses that are more general than a given one.
use super::Random;
use model::matcher::same;
use model::reader::{read, Term};
use model::words::{is_variable, word, VARIABLE};

// A clause that is being made: its words, and for each of its variables, by their numbers, the term that it stands for.
#[derive(Default)]
struct General<'a> {
    words: Vec<u16>,
    terms: Vec<&'a Term>,
}

impl<'a> General<'a> {
    // A variable for a term: one that stands for an equal term, if they are to share it, or a new one.
    fn put(&mut self, term: &'a Term, share: bool) {
        let known = self.terms.iter().position(|known| same(known, term));
        let number = known.filter(|_| share).unwrap_or(self.terms.len());
        if number == self.terms.len() {
            self.terms.push(term);
        }
        self.words.push(word(VARIABLE, 0, number as u16));
    }
}

impl Random {
    /// A clause that subsumes this one, which has to be accepted: some of its literals in any order, with variables for some of their terms.
    pub fn general(&mut self, clause: &[u16]) -> Vec<u16> {
        let literals = read(clause).expect("an accepted clause");
        let mut chosen: Vec<&Term> = literals.iter().filter(|_| !self.one_in(3)).collect();
        if chosen.is_empty() {
            chosen.push(&literals[self.below(literals.len())]);
        }
        self.shuffle(&mut chosen);
        let mut general = General::default();
        let open = 1 + self.below(4);
        for literal in chosen {
            general.words.push(literal.word);
            for argument in &literal.arguments {
                self.generalise(argument, open, &mut general);
            }
        }
        general.words
    }

    // Of so many terms one gets a variable; a variable always does.
    fn generalise<'a>(&mut self, term: &'a Term, open: usize, general: &mut General<'a>) {
        if is_variable(term.word) || self.one_in(open) {
            return general.put(term, self.one_in(2));
        }
        general.words.push(term.word);
        for argument in &term.arguments {
            self.generalise(argument, open, general);
        }
    }
}
