//! Sequences of instructions that are nearly those of clauses: most are no clause's, and all can be laid out in a tree.
use super::{Random, Style};
use model::compiler::sequence;
use model::instruction::{Instruction, Operation};
use model::reader::read;
use model::tree::{Path, Tree};
use model::words::{word, POSITIVE};

impl Random {
    /// Clauses, four but for those that are not accepted, and their sequences.
    pub fn sequences(&mut self, style: Style) -> (Vec<Vec<u16>>, Vec<Path>) {
        let clauses = [(); 4].map(|()| self.clause(style));
        let accepted = |clause: Vec<u16>| {
            let literals = read(&clause).ok()?;
            Some((clause, sequence(&literals)))
        };
        clauses.into_iter().filter_map(accepted).unzip()
    }

    /// Sequences, each under a number that is mostly its own, laid out as a tree's paths are. One for which another's place is given is changed.
    pub fn laid(
        &mut self,
        sequences: &[Path],
        other: impl Fn(&mut Random, usize) -> Option<usize>,
    ) -> Vec<u64> {
        let mut paths = Vec::new();
        for (i, sequence) in sequences.iter().enumerate() {
            let mut path = match other(self, i) {
                Some(other) => self.near(sequence, &sequences[other]),
                None => sequence.clone(),
            };
            let number = if self.one_in(20) { 0 } else { i as u32 };
            path.push(Instruction::new(Operation::Success, number));
            paths.push(path);
        }
        paths.sort();
        paths.dedup();
        Tree::of_paths(&paths, 1 + self.below(9)).words()
    }

    /// A sequence with up to two changes.
    pub fn near(&mut self, sequence: &[Instruction], other: &[Instruction]) -> Vec<Instruction> {
        let mut near = sequence.to_vec();
        for _ in 0..self.of(&[0, 1, 1, 1, 2]) {
            self.change(&mut near, other);
        }
        near
    }

    fn change(&mut self, near: &mut Vec<Instruction>, other: &[Instruction]) {
        if near.is_empty() {
            return;
        }
        let (i, j) = (self.below(near.len()), self.below(near.len()));
        let next = (i + 1) % near.len();
        match self.below(13) {
            0 => drop(near.remove(i)),
            1 => near.insert(i, near[i]),
            2 => near.swap(i, next),
            3 => near.swap(i, j),
            4 | 5 => near[i] = self.with_other_operand(near[i]),
            6 => near[i].operation = self.of_its_kind(near[i].operation),
            7 => near[i] = self.of(other),
            8 => near.insert(i, self.of(other)),
            9 => {
                near.truncate(i);
                near.extend(&other[self.below(other.len())..]);
            }
            10 => near.truncate(i),
            11 => self.change_compares(near),
            _ => self.add_literals(near),
        }
    }

    // First, Down and Right have none but 0.
    fn with_other_operand(&mut self, instruction: Instruction) -> Instruction {
        let Instruction { operation, operand } = instruction;
        let other = match self.below(5) {
            0 => operand.wrapping_add(1),
            1 => operand.wrapping_sub(1),
            2 => operand ^ 1 << self.below(16),
            _ => operand ^ 1 << self.below(32),
        };
        match operation {
            Operation::First | Operation::Down | Operation::Right => instruction,
            _ => Instruction::new(operation, other),
        }
    }

    // Another operation, one without an operand for one without it.
    fn of_its_kind(&mut self, operation: Operation) -> Operation {
        use Operation::{Check, Compare, Down, First, Pop, Push, Put, Right};
        match operation {
            First | Down | Right => self.of(&[First, Down, Right]),
            _ => self.of(&[Put, Push, Pop, Check, Compare]),
        }
    }

    // The Compares in another order, or one more at the end.
    fn change_compares(&mut self, near: &mut Vec<Instruction>) {
        let compare = |i: &usize| near[*i].operation == Operation::Compare;
        let places: Vec<usize> = (0..near.len()).filter(compare).collect();
        if places.len() > 1 && self.one_in(2) {
            return near.swap(self.of(&places), self.of(&places));
        }
        let puts = near.iter().filter(|it| it.operation == Operation::Put);
        let puts = puts.count() + 1;
        let operand = self.below(puts) << 16 | self.below(puts);
        near.push(Instruction::new(Operation::Compare, operand as u32));
    }

    // Up to nine literals without arguments.
    fn add_literals(&mut self, near: &mut Vec<Instruction>) {
        let head = word(POSITIVE, 0, self.below(2) as u16) as u32;
        for _ in 0..1 + self.below(9) {
            near.push(Instruction::new(Operation::First, 0));
            near.push(Instruction::new(Operation::Check, head));
        }
    }
}
