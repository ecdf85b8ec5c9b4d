//! Reading a clause: its words in prefix order to literals.
use crate::limits::{CLAUSE_WORDS, LITERALS};
use crate::refusal::Refusal;
use crate::words::{arity, is_head, is_variable};

/// A term or a literal, with the position of its first word.
#[derive(Clone, Debug)]
pub struct Term {
    pub word: u16,
    pub at: usize,
    pub arguments: Vec<Term>,
}

/// The literals of a clause, or the first thing wrong with it.
pub fn read(words: &[u16]) -> Result<Vec<Term>, Refusal> {
    if words.is_empty() || words.len() > CLAUSE_WORDS {
        return Err(Refusal::BadLength);
    }
    let mut reader = Reader { words, at: 0 };
    let mut literals = Vec::new();
    while reader.at < words.len() {
        if !is_head(words[reader.at]) {
            return Err(Refusal::BadClause(reader.at));
        }
        if literals.len() == LITERALS {
            return Err(Refusal::NinthLiteral(reader.at));
        }
        literals.push(reader.term()?);
    }
    Ok(literals)
}

struct Reader<'a> {
    words: &'a [u16],
    at: usize,
}

impl Reader<'_> {
    // The term whose first word may stand here.
    fn term(&mut self) -> Result<Term, Refusal> {
        let at = self.at;
        let word = self.words[at];
        self.at += 1;
        let arguments = (0..arity(word)).map(|_| self.argument());
        Ok(Term {
            word,
            at,
            arguments: arguments.collect::<Result<_, _>>()?,
        })
    }

    // A head, a variable with arguments and the end may not stand here.
    fn argument(&mut self) -> Result<Term, Refusal> {
        match self.words.get(self.at) {
            Some(&word) if !(is_head(word) || is_variable(word) && arity(word) > 0) => self.term(),
            _ => Err(Refusal::BadClause(self.at)),
        }
    }
}
