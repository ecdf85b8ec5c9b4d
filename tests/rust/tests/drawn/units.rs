//! Units, clauses of a single literal; queries on a book of them, and pages that keep nothing else.
use super::{Random, Style, STYLES};
use model::book::Book;
use model::limits::{CLAUSE_WORDS, LITERALS, PROGRAM_TREE};
use model::matcher::first_struck;
use model::pages::record;
use model::reader::{read, Term};
use model::words::{is_variable, word, FUNCTION, NEGATIVE, POSITIVE, VARIABLE};

// Whether a unit of the book falls on one of these literals.
fn struck(book: &Book, literals: &[Term]) -> bool {
    let units = book.units();
    units.is_some_and(|units| first_struck(&units, literals).is_some())
}

/// P(c), not Q(c, x) or R(x, f(c), x), c being the constant of a number.
pub fn numbered_unit(number: u16) -> Vec<u16> {
    let (c, x) = (word(FUNCTION, 0, number), word(VARIABLE, 0, 0));
    match number % 3 {
        0 => vec![word(POSITIVE, 1, 1), c],
        1 => vec![word(NEGATIVE, 2, 2), c, x],
        _ => vec![word(POSITIVE, 3, 3), x, word(FUNCTION, 1, 3), c, x],
    }
}

impl Random {
    /// A unit, mostly made from a kept clause; now and then a clause that is refused.
    pub fn any_unit(&mut self, style: Style, book: &Book) -> Vec<u16> {
        let mut clause = self.any_clause(style, &book.clauses());
        if let Ok([_, second, ..]) = read(&clause).as_deref() {
            clause.truncate(second.at);
        }
        clause
    }

    /// A unit on which none of the book falls; after eight draws without one, a literal of no arguments.
    pub fn stranger(&mut self, style: Style, book: &Book) -> Vec<u16> {
        for _ in 0..8 {
            let unit = self.any_unit(style, book);
            if read(&unit).is_ok_and(|literals| !struck(book, &literals)) {
                return unit;
            }
        }
        vec![word(POSITIVE, 0, 99)]
    }

    // An instance of a kept clause.
    fn struck_unit(&mut self, book: &Book) -> Vec<u16> {
        let clause = self.of(&book.clauses());
        self.instance(clause, is_variable)
    }

    /// A query of up to 8 literals: the first on which a unit of the book falls is at any of its places, or there is none.
    pub fn query_of_units(&mut self, style: Style, book: &Book) -> Vec<u16> {
        let literals = 1 + self.below(LITERALS);
        let place = self.below(literals * 3 / 2 + 1);
        let mut query = Vec::new();
        for i in 0..literals {
            let literal = if i == place && !book.pairs.is_empty() {
                self.struck_unit(book)
            } else if i > place {
                self.any_unit(style, book)
            } else {
                self.stranger(style, book)
            };
            if query.len() + literal.len() <= CLAUSE_WORDS {
                query.extend(literal);
            }
        }
        query
    }
}

// Adds a record to a page. A clause of several literals on which no unit falls would be kept: it comes under a taken number or, where nothing is
// kept, is left out.
fn add_record(page: &mut Vec<u8>, book: &mut Book, clause: &[u16], number: u16) {
    let literals = read(clause).unwrap_or_default();
    let new = !struck(book, &literals);
    let number = match book.pairs.last() {
        Some(pair) if new && literals.len() > 1 => pair.number as u16,
        None if literals.len() > 1 => return,
        _ => number,
    };
    if new {
        // refused where the program refuses it
        let _ = book.insert(clause, u32::from(number));
    }
    page.extend(record(number, clause));
}

/// A page of units: so many numbered ones, then so many records, of units and of clauses made for those that are kept.
pub fn unit_page(random: &mut Random, numbered: u16, drawn: usize) -> Vec<u8> {
    let style = random.of(&STYLES);
    let (mut page, mut book) = (Vec::new(), Book::new(PROGRAM_TREE));
    for number in 0..numbered {
        add_record(&mut page, &mut book, &numbered_unit(number), number);
    }
    for _ in 0..drawn {
        let clause = if random.one_in(4) {
            random.any_unit(style, &book)
        } else {
            random.query_of_units(style, &book)
        };
        let number = random.below(65_536) as u16;
        add_record(&mut page, &mut book, &clause, number);
    }
    page
}
