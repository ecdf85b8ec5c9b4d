//! The walk over the words of any tree.
use crate::instruction::{used, Instruction, Operation};
use crate::limits::{LITERALS, NUMBERS};
use crate::reader::Term;
use crate::refusal::Refusal;
use std::ops::Range;

/// What a walk finds: the covering clause, or none; and the candidates tried.
pub struct Found {
    pub covering: Option<Box<Covering>>,
    pub count: u64,
}

/// The number of the covering clause, its literals' candidates and the positions put, as on the path to its Success.
pub struct Covering {
    pub number: u32,
    pub state: State,
}

/// The state of a path. Each sibling has a copy of its own.
#[derive(Clone, Copy)]
pub struct State {
    candidates: [u8; LITERALS],
    literals: usize,
    head: u8,
    pushed: [Option<u8>; NUMBERS],
    put: [Option<u8>; NUMBERS],
}

impl State {
    const START: State = State {
        candidates: [0; LITERALS],
        literals: 0,
        head: 0,
        pushed: [None; NUMBERS],
        put: [None; NUMBERS],
    };

    /// Writes the literal for kept literal i at i and the position for Put k after the literals.
    pub fn write(&self, witness: &mut [u16]) {
        for (i, &candidate) in self.candidates[..self.literals].iter().enumerate() {
            witness[i] = candidate as u16;
        }
        for (k, position) in self.put.iter().enumerate() {
            if let Some(position) = position {
                witness[LITERALS + k] = *position as u16;
            }
        }
    }
}

// What is at a position of the query: the first argument, the right sibling and the end of the term there.
#[derive(Clone, Copy, Default)]
struct Place {
    down: Option<u8>,
    right: Option<u8>,
    end: u8,
}

// How a walk stops before its end.
enum Stop {
    Refused(Refusal),
    Success(Box<Covering>),
}

// A word that the walk cannot take.
const BROKEN: Stop = Stop::Refused(Refusal::Broken);

struct Walk<'a> {
    tree: &'a [u64],
    query: &'a [u16],
    places: Vec<Place>,
    literals: Vec<u8>,
    budget: u64,
    count: u64,
}

/// Walks over a tree whose header's used words are in the slice. The query's words are those of its literals.
pub fn walk(tree: &[u64], query: &[u16], literals: &[Term], budget: u64) -> Result<Found, Refusal> {
    let mut walk = Walk {
        tree,
        query,
        places: vec![Place::default(); query.len()],
        literals: literals.iter().map(|literal| literal.at as u8).collect(),
        budget,
        count: 0,
    };
    for literal in literals {
        walk.note_place(literal, None);
    }
    let covering = match walk.row(1..used(tree[0]) + 1, &State::START) {
        Ok(()) => None,
        Err(Stop::Success(covering)) => Some(covering),
        Err(Stop::Refused(refusal)) => return Err(refusal),
    };
    let count = walk.count;
    Ok(Found { covering, count })
}

// The position stored under a number.
fn filled(positions: &[Option<u8>; NUMBERS], number: usize) -> Result<u8, Stop> {
    positions.get(number).copied().flatten().ok_or(BROKEN)
}

impl Walk<'_> {
    // Notes the places of a term; gives its end. Literals are never right siblings.
    fn note_place(&mut self, term: &Term, right: Option<u8>) -> u8 {
        let mut end = term.at as u8 + 1;
        for (i, argument) in term.arguments.iter().enumerate() {
            let right = term.arguments.get(i + 1).map(|sibling| sibling.at as u8);
            end = self.note_place(argument, right);
        }
        let down = term.arguments.first().map(|argument| argument.at as u8);
        self.places[term.at] = Place { down, right, end };
        end
    }

    // Takes siblings in order, each from the same state.
    fn row(&mut self, row: Range<usize>, state: &State) -> Result<(), Stop> {
        let mut at = row.start;
        while at < row.end {
            let (instruction, extent) = Instruction::unpack(self.tree[at]).ok_or(BROKEN)?;
            let success = instruction.operation == Operation::Success;
            if extent == 0 || at + extent > row.end || success && extent != 1 {
                return Err(BROKEN);
            }
            self.meet(instruction, at + 1..at + extent, *state)?;
            at += extent;
        }
        Ok(())
    }

    // Meets a word, which has these words below it.
    fn meet(
        &mut self,
        instruction: Instruction,
        below: Range<usize>,
        mut state: State,
    ) -> Result<(), Stop> {
        if instruction.operation == Operation::First {
            return self.first(below, state);
        }
        if state.literals == 0 {
            return Err(BROKEN);
        }
        if instruction.operation == Operation::Success {
            let number = instruction.operand;
            return Err(Stop::Success(Box::new(Covering { number, state })));
        }
        if self.step(instruction, &mut state)? {
            self.row(below, &state)?;
        }
        Ok(())
    }

    // First takes the query's literals from 0 upward, each counted as a candidate. One that is used on this path is passed over: it is not
    // counted, and no budget is spent on it.
    fn first(&mut self, below: Range<usize>, mut state: State) -> Result<(), Stop> {
        let i = state.literals;
        if i == LITERALS {
            return Err(BROKEN);
        }
        state.literals += 1;
        for candidate in 0..self.literals.len() {
            if state.candidates[..i].contains(&(candidate as u8)) {
                continue;
            }
            if self.count == self.budget {
                return Err(Stop::Refused(Refusal::Spent(self.count)));
            }
            self.count += 1;
            state.candidates[i] = candidate as u8;
            state.head = self.literals[candidate];
            self.row(below.clone(), &state)?;
        }
        Ok(())
    }

    // Whether any other instruction succeeds; it moves the head or stores a position.
    fn step(&self, instruction: Instruction, state: &mut State) -> Result<bool, Stop> {
        let place = self.places[state.head as usize];
        let operand = instruction.operand as usize;
        match instruction.operation {
            Operation::Success | Operation::First => unreachable!("met before"),
            Operation::Down => state.head = place.down.ok_or(BROKEN)?,
            Operation::Right => state.head = place.right.ok_or(BROKEN)?,
            Operation::Put => *state.put.get_mut(operand).ok_or(BROKEN)? = Some(state.head),
            Operation::Push => {
                let position = place.right.ok_or(BROKEN)?;
                *state.pushed.get_mut(operand).ok_or(BROKEN)? = Some(position);
            }
            Operation::Pop => state.head = filled(&state.pushed, operand)?,
            Operation::Check => return Ok(operand == self.query[state.head as usize] as usize),
            Operation::Compare => {
                let m = filled(&state.put, operand >> 16)?;
                let k = filled(&state.put, operand & 0xFFFF)?;
                return Ok(self.term(m) == self.term(k));
            }
        }
        Ok(true)
    }

    // The words of the whole term at a position.
    fn term(&self, position: u8) -> &[u16] {
        let start = position as usize;
        &self.query[start..self.places[start].end as usize]
    }
}
