//! Random clauses: few symbols and variables, new ones and such as are made from another clause.
pub mod back;
pub mod general;
pub mod orders;
pub mod pages;
pub mod paths;
pub mod repeated;
pub mod spoilt;
pub mod tally;
pub mod units;

use model::words::{arity, is_head, is_variable, word, FUNCTION, NEGATIVE, POSITIVE, VARIABLE};

/// Random numbers: splitmix64.
pub struct Random(pub u64);

/// How a set's clauses are made; of 100 terms so many are variables.
#[derive(Clone, Copy)]
pub struct Style {
    pub predicates: usize,
    pub arity: usize,
    pub symbols: usize,
    pub variables: usize,
    pub literals: usize,
    pub words: usize,
    pub open: usize,
}

const fn style(fields: [usize; 7]) -> Style {
    let [predicates, arity, symbols, variables, literals, words, open] = fields;
    Style {
        predicates,
        arity,
        symbols,
        variables,
        literals,
        words,
        open,
    }
}

const SMALL: Style = style([2, 2, 3, 2, 2, 64, 55]);
const MIDDLE: Style = style([2, 3, 5, 3, 4, 64, 50]);
const ONE_PREDICATE: Style = style([1, 1, 2, 4, 6, 40, 70]);
const LARGE: Style = style([2, 7, 6, 3, 8, 64, 45]);
const CLOSED: Style = style([1, 2, 6, 2, 2, 64, 15]);
const NINE_LITERALS: Style = style([2, 1, 3, 3, 9, 64, 20]);

/// The styles, the commoner ones more than once.
pub const STYLES: [Style; 8] = [
    SMALL,
    SMALL,
    NINE_LITERALS,
    MIDDLE,
    MIDDLE,
    ONE_PREDICATE,
    LARGE,
    CLOSED,
];

impl Random {
    pub fn next(&mut self) -> u64 {
        self.0 = self.0.wrapping_add(0x9E37_79B9_7F4A_7C15);
        let mut z = self.0;
        z = (z ^ z >> 30).wrapping_mul(0xBF58_476D_1CE4_E5B9);
        z = (z ^ z >> 27).wrapping_mul(0x94D0_49BB_1331_11EB);
        z ^ z >> 31
    }

    /// Below n, or 0.
    pub fn below(&mut self, n: usize) -> usize {
        (self.next() % n.max(1) as u64) as usize
    }

    pub fn one_in(&mut self, n: usize) -> bool {
        self.below(n) == 0
    }

    pub fn of<T: Copy>(&mut self, items: &[T]) -> T {
        items[self.below(items.len())]
    }

    fn variable(&mut self, style: Style) -> u16 {
        word(VARIABLE, 0, self.below(style.variables) as u16)
    }

    fn symbol(&mut self, style: Style) -> u16 {
        let symbols = [(0, 1), (1, 3), (0, 2), (2, 4), (2, 3), (7, 2047)];
        let (arity, number) = self.of(&symbols[..style.symbols]);
        word(FUNCTION, arity, number)
    }

    // A predicate of number n has n arguments less than the most.
    fn head(&mut self, style: Style) -> u16 {
        let predicate = self.below(style.predicates);
        let kind = if self.one_in(4) { NEGATIVE } else { POSITIVE };
        word(kind, (style.arity - predicate) as u16, predicate as u16)
    }

    fn term(&mut self, style: Style) -> u16 {
        if self.below(100) < style.open {
            self.variable(style)
        } else {
            self.symbol(style)
        }
    }

    // Adds a literal, if there is room; a term that has no room becomes a variable.
    fn push_literal(&mut self, style: Style, clause: &mut Vec<u16>) {
        let head = self.head(style);
        if clause.len() + 1 + arity(head) > style.words {
            return;
        }
        clause.push(head);
        let mut due = arity(head);
        while due > 0 {
            let term = self.term(style);
            let fits = clause.len() + due + arity(term) <= style.words;
            let term = if fits { term } else { self.variable(style) };
            clause.push(term);
            due = due - 1 + arity(term);
        }
    }

    /// A new clause.
    pub fn clause(&mut self, style: Style) -> Vec<u16> {
        let mut clause = Vec::new();
        for _ in 0..1 + self.below(style.literals) {
            self.push_literal(style, &mut clause);
        }
        clause
    }

    /// A clause made from one of these, or a new one; in one of 16 cases a spoilt one.
    pub fn any_clause(&mut self, style: Style, from: &[&[u16]]) -> Vec<u16> {
        let mut clause = if from.is_empty() || self.one_in(5) {
            self.clause(style)
        } else {
            self.of(from).to_vec()
        };
        for _ in 0..self.below(4) {
            clause = self.changed(style, &clause);
        }
        if self.one_in(16) {
            self.spoil(&mut clause);
        }
        clause
    }

    fn changed(&mut self, style: Style, c: &[u16]) -> Vec<u16> {
        match self.below(12) {
            0..5 => self.with_other_literals(style, c),
            5 | 6 => renamed(c, 1 + self.below(3) as u16),
            7 | 8 => {
                let variable = self.variable(style);
                self.instance(c, |word| word == variable)
            }
            9 => self.with_other_leaf(style, c),
            _ => self.instance(c, is_variable),
        }
    }

    // A literal moved to the front with all after it, left out, repeated, or a new one added.
    fn with_other_literals(&mut self, style: Style, c: &[u16]) -> Vec<u16> {
        let mut starts: Vec<usize> = (0..c.len()).filter(|&i| is_head(c[i])).collect();
        starts.push(c.len());
        let i = self.below(starts.len() - 1);
        let (before, rest) = c.split_at(starts[i]);
        let (literal, after) = rest.split_at(starts.get(i + 1).map_or(0, |end| end - starts[i]));
        match self.below(5) {
            0 => [rest, before].concat(),
            1 => [before, after].concat(),
            2 => [c, literal].concat(),
            _ => {
                let mut clause = c.to_vec();
                self.push_literal(style, &mut clause);
                clause
            }
        }
    }

    /// The clause with a term for each variable that is to be replaced: a, f of it, g of a and it, or another variable.
    pub fn instance(&mut self, c: &[u16], replaced: impl Fn(u16) -> bool) -> Vec<u16> {
        let shapes = self.next();
        let (a, f, g) = (0x0001, 0x0803, 0x1004);
        let term = |variable: u16| match shapes >> (variable % 8 * 2) & 3 {
            0 => vec![a],
            1 => vec![f, variable],
            2 => vec![g, a, variable],
            _ => vec![word(VARIABLE, 0, 0)],
        };
        let replace = |&w: &u16| if replaced(w) { term(w) } else { vec![w] };
        c.iter().flat_map(replace).collect()
    }

    // The clause with another variable for a term without arguments.
    fn with_other_leaf(&mut self, style: Style, c: &[u16]) -> Vec<u16> {
        let mut clause = c.to_vec();
        let i = self.below(clause.len());
        if let Some(word) = clause
            .get_mut(i)
            .filter(|w| !is_head(**w) && arity(**w) == 0)
        {
            *word = self.variable(style);
        }
        clause
    }

    /// Spoils a clause: any words for one of its words, that word cut out, one bit of it changed, or all after it cut off.
    pub fn spoil(&mut self, clause: &mut Vec<u16>) {
        let i = self.below(clause.len());
        match self.below(4) {
            0 => clause.truncate(i),
            1 if i < clause.len() => clause[i] ^= 1 << self.below(16),
            _ => {
                let any = |random: &mut Random| (random.next() & 0xF803) as u16;
                let words: Vec<u16> = (0..self.below(4)).map(|_| any(self)).collect();
                clause.splice(i..(i + 1).min(clause.len()), words);
            }
        }
    }
}

/// The clause with each variable's number raised.
pub fn renamed(c: &[u16], by: u16) -> Vec<u16> {
    let raise = |&w: &u16| {
        if is_variable(w) {
            word(VARIABLE, 0, (w + by) % 2048)
        } else {
            w
        }
    };
    c.iter().map(raise).collect()
}
