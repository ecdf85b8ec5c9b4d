//! An ordinary matcher: subsumption from its definition, with nothing of compiling, tree or walk.
use crate::limits::LITERALS;
use crate::reader::Term;
use crate::words::is_variable;

/// Whether one replacement of c's variables by terms turns each literal of c into the literal of d at a place that is chosen for it, no place
/// chosen twice. Equal literals of d are at places of their own.
pub fn subsumes(c: &[Term], d: &[Term]) -> bool {
    search(c, d).0
}

/// Whether c subsumes d, and how many places of d were tried by taking c's literals in order, for each the places from the first upward; one
/// that is taken is not tried.
pub fn search(c: &[Term], d: &[Term]) -> (bool, u64) {
    let mut choice = Choice::default();
    let found = choice.falls(c, d);
    (found, choice.tries)
}

/// The most tries for m literals in a clause of q: q + q × (q − 1) + .., a term for each literal.
pub fn most_tries(q: u64, m: u64) -> u64 {
    let choices = (1..=m.min(q)).map(|i| (0..i).map(|taken| q - taken).product::<u64>());
    choices.sum()
}

/// The place of the first literal of d that one of these units, clauses of a single literal, falls on.
pub fn first_struck(units: &[&Term], d: &[Term]) -> Option<usize> {
    let falls = |target| units.iter().any(|unit| fits(unit, target, &mut Vec::new()));
    d.iter().position(falls)
}

/// The candidates that a query takes where units, one or more, are all that is kept: up to its first literal that one falls on, or all.
pub fn unit_candidates(units: &[&Term], query: &[Term]) -> u64 {
    let struck = first_struck(units, query);
    struck.map_or(query.len(), |place| 1 + place) as u64
}

// For each variable that was met, in order, the term that it met; a variable met again is there again.
type Replaced<'a> = Vec<(u16, &'a Term)>;

// What is chosen for the literals so far: the terms for their variables, and their places; and the tries of all.
#[derive(Default)]
struct Choice<'a> {
    replaced: Replaced<'a>,
    taken: Vec<usize>,
    tries: u64,
}

impl<'a> Choice<'a> {
    // Whether further literals can fall on places of d that are not taken.
    fn falls(&mut self, literals: &[Term], d: &'a [Term]) -> bool {
        let Some((literal, rest)) = literals.split_first() else {
            return true;
        };
        let met = self.replaced.len();
        (0..d.len()).any(|place| {
            if self.taken.contains(&place) {
                return false;
            }
            self.tries += 1;
            self.taken.push(place);
            let found = fits(literal, &d[place], &mut self.replaced) && self.falls(rest, d);
            self.taken.pop();
            self.replaced.truncate(met);
            found
        })
    }
}

// Whether the replacement, with more terms for variables not met before, turns the pattern into the target.
fn fits<'a>(pattern: &Term, target: &'a Term, replaced: &mut Replaced<'a>) -> bool {
    if is_variable(pattern.word) {
        let earlier = replaced.iter().find(|(word, _)| *word == pattern.word);
        let agrees = earlier.is_none_or(|(_, term)| same(term, target));
        replaced.push((pattern.word, target));
        return agrees;
    }
    let mut arguments = pattern.arguments.iter().zip(&target.arguments);
    pattern.word == target.word && arguments.all(|(p, t)| fits(p, t, replaced))
}

/// Whether two terms are the same.
pub fn same(a: &Term, b: &Term) -> bool {
    a.word == b.word
        && a.arguments
            .iter()
            .zip(&b.arguments)
            .all(|(a, b)| same(a, b))
}

/// Whether a witness shows that c subsumes d: a literal for each literal of c, no two the same, and the position for each place of a variable.
pub fn shows(c: &[Term], d: &[Term], witness: &[u16]) -> bool {
    let chosen = &witness[..c.len()];
    let apart = (1..chosen.len()).all(|i| !chosen[..i].contains(&chosen[i]));
    let mut replaced = Vec::new();
    let falls = c.iter().zip(chosen).all(|(literal, &i)| {
        let target = d.get(i as usize);
        target.is_some_and(|target| fits(literal, target, &mut replaced))
    });
    let mut positions = replaced.iter().zip(&witness[LITERALS..]);
    apart && falls && positions.all(|((_, term), &position)| position as usize == term.at)
}
