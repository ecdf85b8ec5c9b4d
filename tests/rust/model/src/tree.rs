//! A tree as the paths to its Successes, and its words.
use crate::instruction::{header, used, Instruction, Operation};
use crate::limits::KEPT;
use crate::refusal::Refusal;
use std::collections::BTreeMap;
use std::ops::Range;

/// The instructions down to a Success, which is the last of them and has the clause's number.
pub type Path = Vec<Instruction>;

fn path(sequence: &[Instruction], number: u32) -> Path {
    let mut path = sequence.to_vec();
    path.push(Instruction::new(Operation::Success, number));
    path
}

fn number(path: &Path) -> u32 {
    path[path.len() - 1].operand
}

fn above_success(path: &Path) -> &[Instruction] {
    &path[..path.len() - 1]
}

/// What a slice of so many words keeps. Of each beginning it is noted how many paths have it.
#[derive(Clone)]
pub struct Tree {
    pub length: usize,
    pub paths: Vec<Path>,
    beginnings: BTreeMap<Path, usize>,
}

impl Tree {
    pub fn new(length: usize) -> Tree {
        Tree {
            length,
            paths: Vec::new(),
            beginnings: BTreeMap::new(),
        }
    }

    /// The tree of paths, whatever they are, in a slice with so many words to spare.
    pub fn of_paths(paths: &[Path], spare: usize) -> Tree {
        let mut tree = Tree::new(0);
        for path in paths {
            tree.add(path.clone());
        }
        tree.length = 1 + tree.used() + spare;
        tree
    }

    /// The tree of one sequence, in as many words as it takes. Its Success has number 0.
    pub fn alone(sequence: &[Instruction]) -> Tree {
        Tree::of_paths(&[path(sequence, 0)], 0)
    }

    /// The tree of well-laid words.
    pub fn of(words: &[u64]) -> Tree {
        let mut tree = Tree::new(words.len());
        tree.read_row(words, 1..used(words[0]) + 1, &mut Vec::new());
        tree
    }

    fn read_row(&mut self, words: &[u64], row: Range<usize>, above: &mut Path) {
        let mut at = row.start;
        while at < row.end {
            let (instruction, extent) = Instruction::unpack(words[at]).expect("a well-laid word");
            above.push(instruction);
            if instruction.operation == Operation::Success {
                self.add(above.clone());
            }
            self.read_row(words, at + 1..at + extent, above);
            above.pop();
            at += extent;
        }
    }

    fn add(&mut self, path: Path) {
        for n in 1..=path.len() {
            *self.beginnings.entry(path[..n].to_vec()).or_insert(0) += 1;
        }
        self.paths.push(path);
    }

    fn take_out(&mut self, i: usize) {
        let path = self.paths.remove(i);
        for n in 1..=path.len() {
            let paths = self.beginnings.get_mut(&path[..n]).expect("a beginning");
            *paths -= 1;
            if *paths == 0 {
                self.beginnings.remove(&path[..n]);
            }
        }
    }

    /// Keeps a sequence under a number.
    pub fn insert(&mut self, sequence: &[Instruction], new: u32) -> Result<(), Refusal> {
        if self.paths.iter().any(|path| number(path) == new) {
            return Err(Refusal::NumberTaken);
        }
        let variant = |path: &&Path| above_success(path) == sequence;
        if let Some(held) = self.paths.iter().find(variant) {
            return Err(Refusal::Held(number(held)));
        }
        if self.paths.len() >= KEPT {
            return Err(Refusal::ListFull);
        }
        let path = path(sequence, new);
        let added = (1..=path.len()).filter(|&n| !self.beginnings.contains_key(&path[..n]));
        if self.used() + added.count() > self.length - 1 {
            return Err(Refusal::NoRoom);
        }
        self.add(path);
        Ok(())
    }

    /// Takes out the first path with a number.
    pub fn remove(&mut self, gone: u32) -> Result<(), Refusal> {
        let first = self.paths.iter().position(|path| number(path) == gone);
        self.take_out(first.ok_or(Refusal::NoSuchNumber)?);
        Ok(())
    }

    /// The used words: one for each beginning.
    pub fn used(&self) -> usize {
        self.beginnings.len()
    }

    /// The words. In the order of lists, the beginnings stand in preorder with their siblings rising.
    pub fn words(&self) -> Vec<u64> {
        let beginnings: Vec<&Path> = self.beginnings.keys().collect();
        let mut words = vec![header(self.used(), self.paths.len())];
        for (i, beginning) in beginnings.iter().enumerate() {
            let later = beginnings[i + 1..].iter();
            let below = later.take_while(|later| later.len() > beginning.len());
            words.push(beginning[beginning.len() - 1].pack(1 + below.count()));
        }
        words.resize(self.length, 0);
        words
    }
}
