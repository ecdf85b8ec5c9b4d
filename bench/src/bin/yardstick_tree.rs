//! The program of documents 01 and 02 in plain safe Rust: the same tree words, walk, lines and sheet. It trusts its own tree: no test
//! of foreign words on a step, no well-laid test on insertion, no witness. With the argument `back` the kept clauses stand beside the tree, by
//! rising number, and each is queried in a tree of the new one alone.
use std::{env, io};
use yardsticks::clause::Clause;
use yardsticks::code::*;
use yardsticks::page::{self, Lines, Verdict};

const BUDGET: u64 = 1_000_000_000;
const EXTENT_BITS: u32 = 28;

fn operation(word: u64) -> u64 {
    word >> 60
}

fn operand(word: u64) -> usize {
    (word >> EXTENT_BITS & 0xffff_ffff) as usize
}

fn extent(word: u64) -> usize {
    (word & ((1 << EXTENT_BITS) - 1)) as usize
}

/// How a walk ends early.
enum Stop {
    Covered(u32),
    Spent,
}

/// A walk over the tree. Put and Push numbers rise along a path, so no sibling reads what another one stored.
struct Walk<'a> {
    tree: &'a [u64],
    query: &'a Clause,
    candidates: u64,
    /// The query's literals that are not used on the path, a bit each.
    free: u32,
    puts: [usize; 64],
    pushes: [usize; 64],
}

impl Walk<'_> {
    /// Walks the siblings from a place to the end of their row.
    fn row(&mut self, mut at: usize, mut end: usize, mut head: usize) -> Result<(), Stop> {
        while at < end {
            let word = self.tree[at];
            let n = operand(word);
            let (below, next) = (at + 1, at + extent(word));
            let mut to = head;
            match operation(word) {
                SUCCESS => return Err(Stop::Covered(n as u32)),
                FIRST => {
                    self.try_literals(below, next)?;
                    at = next;
                    continue;
                }
                DOWN => to = head + 1,
                RIGHT => to = self.query.ends[head],
                PUT => self.puts[n] = head,
                PUSH => self.pushes[n] = self.query.ends[head],
                POP => to = self.pushes[n],
                CHECK => {
                    // Siblings rise: past the query's word there is nothing, and beside it nothing else fits.
                    match n.cmp(&usize::from(self.query.words[head])) {
                        std::cmp::Ordering::Less => at = next,
                        std::cmp::Ordering::Equal => (at, end) = (below, next),
                        std::cmp::Ordering::Greater => return Ok(()),
                    }
                    continue;
                }
                _ => {
                    let (m, k) = (self.puts[n >> 16], self.puts[n & 0xffff]);
                    if self.query.term(m) != self.query.term(k) {
                        at = next;
                        continue;
                    }
                }
            }
            if next == end {
                (at, head) = (below, to);
            } else {
                self.row(below, next, to)?;
                at = next;
            }
        }
        Ok(())
    }

    /// Walks the words below a First from each literal of the query that is free.
    fn try_literals(&mut self, at: usize, end: usize) -> Result<(), Stop> {
        let (query, free) = (self.query, self.free);
        let mut left = free;
        while left != 0 {
            if self.candidates == BUDGET {
                return Err(Stop::Spent);
            }
            self.candidates += 1;
            let literal = left.trailing_zeros();
            left &= left - 1;
            self.free = free ^ 1 << literal;
            self.row(at, end, query.heads[literal as usize])?;
        }
        self.free = free;
        Ok(())
    }
}

/// A walk over a tree from its top, some candidates having been tried before.
fn walk(tree: &[u64], query: &Clause, candidates: u64) -> (Result<(), Stop>, u64) {
    let mut walk = Walk {
        tree,
        query,
        candidates,
        free: query.all_literals(),
        puts: [0; 64],
        pushes: [0; 64],
    };
    let end = 1 + used(tree);
    (walk.row(1, end, 0), walk.candidates)
}

fn used(tree: &[u64]) -> usize {
    (tree[0] >> 32) as usize
}

/// The tree's words, and the numbers taken as a set of bits.
struct Tree {
    words: Vec<u64>,
    taken: Vec<u64>,
}

impl Tree {
    fn new() -> Tree {
        Tree {
            words: vec![0; TREE_WORDS],
            taken: vec![0; 1 << 10],
        }
    }

    fn used(&self) -> usize {
        used(&self.words)
    }

    fn kept(&self) -> usize {
        (self.words[0] & 0xffff_ffff) as usize
    }

    fn query(&self, clause: &Clause) -> Option<Verdict> {
        let (end, candidates) = walk(&self.words, clause, 0);
        match end {
            Ok(()) => None,
            Err(Stop::Covered(by)) => Some(Verdict::Struck { by, candidates }),
            Err(Stop::Spent) => Some(Verdict::Refused { code: 12 }),
        }
    }

    fn is_taken(&self, number: u16) -> bool {
        self.taken[usize::from(number >> 6)] >> (number & 63) & 1 == 1
    }

    fn turn_taken(&mut self, number: u16) {
        self.taken[usize::from(number >> 6)] ^= 1 << (number & 63);
    }

    /// Keeps a sequence under a number that is not taken.
    fn insert(&mut self, sequence: &[u64], number: u16) -> Result<(), u64> {
        let place = self.place(sequence);
        let rest = &sequence[place.above.len()..];
        if rest.is_empty() && place.success {
            return Err(8);
        }
        if self.kept() == CLAUSES {
            return Err(10);
        }
        if self.used() + rest.len() + 1 >= TREE_WORDS {
            return Err(11);
        }
        self.open(&place, rest, number);
        self.turn_taken(number);
        Ok(())
    }

    /// Takes out the words on no other path than that of a kept sequence, and closes up.
    fn remove(&mut self, sequence: &[u64], number: u16) {
        let Place { above, at, .. } = self.place(sequence);
        // a word is on no other path if there are no more words below it than on this one
        let alone = |&(below, &above): &(usize, &usize)| extent(self.words[above]) == below + 2;
        let own = above.iter().rev().enumerate().take_while(alone).count();
        let shared = above.len() - own;
        let (from, end) = (at - own, 1 + self.used());
        self.words.copy_within(at + 1..end, from);
        self.words[end - own - 1..end].fill(0);
        for &above in &above[..shared] {
            self.words[above] -= 1 + own as u64;
        }
        self.words[0] -= (1 + own as u64) << 32 | 1;
        self.turn_taken(number);
    }

    /// Follows a sequence as far as the tree has it.
    fn place(&self, sequence: &[u64]) -> Place {
        let mut above = Vec::with_capacity(sequence.len());
        let (mut at, mut end) = (1, 1 + self.used());
        for &wanted in sequence {
            at = self.not_before(at, end, wanted);
            if at == end || self.words[at] >> EXTENT_BITS != wanted {
                return Place {
                    above,
                    at,
                    success: false,
                };
            }
            above.push(at);
            (at, end) = (at + 1, at + extent(self.words[at]));
        }
        let success = at < end && operation(self.words[at]) == SUCCESS;
        Place { above, at, success }
    }

    /// The first sibling of a row with this key or a greater one.
    fn not_before(&self, mut at: usize, end: usize, wanted: u64) -> usize {
        while at < end && self.words[at] >> EXTENT_BITS < wanted {
            at += extent(self.words[at]);
        }
        at
    }

    /// Makes room at a place and writes the rest of a sequence with its Success there.
    fn open(&mut self, place: &Place, rest: &[u64], number: u16) {
        let more = rest.len() + 1;
        let end = 1 + self.used();
        self.words.copy_within(place.at..end, place.at + more);
        let success = key(SUCCESS, u64::from(number));
        for (i, &key) in rest.iter().chain([&success]).enumerate() {
            self.words[place.at + i] = key << EXTENT_BITS | (more - i) as u64;
        }
        for &at in &place.above {
            self.words[at] += more as u64;
        }
        self.words[0] += (more as u64) << 32 | 1;
    }
}

/// Where a sequence leaves the tree: the words it shares, the place of the next one, whether a Success stands there.
struct Place {
    above: Vec<usize>,
    at: usize,
    success: bool,
}

/// The kept clauses by rising number, beside their tree.
#[derive(Default)]
struct Kept {
    numbers: Vec<u16>,
    clauses: Vec<Clause>,
}

impl Kept {
    /// The places of those that a clause subsumes, of which the tree is this, or none if the candidates are spent.
    fn listed(&self, lone: &[u64]) -> Option<Vec<usize>> {
        let (mut listed, mut tried) = (Vec::new(), 0);
        for (i, clause) in self.clauses.iter().enumerate() {
            let (end, candidates) = walk(lone, clause, tried);
            tried = candidates;
            match end {
                Ok(()) => {}
                Err(Stop::Covered(_)) => listed.push(i),
                Err(Stop::Spent) => return None,
            }
        }
        Some(listed)
    }

    fn add(&mut self, clause: &Clause, number: u16) {
        let at = self.numbers.partition_point(|&kept| kept < number);
        self.numbers.insert(at, number);
        self.clauses.insert(at, clause.clone());
    }

    /// Takes out those at rising places.
    fn remove(&mut self, places: &[usize]) {
        for &at in places.iter().rev() {
            self.numbers.remove(at);
            self.clauses.remove(at);
        }
    }
}

/// The words of a tree of one sequence alone.
fn alone(sequence: &[u64]) -> Vec<u64> {
    let used = sequence.len() + 1;
    let keys = sequence.iter().chain([&0]).enumerate();
    let words = keys.map(|(i, &key)| key << EXTENT_BITS | (used - i) as u64);
    [(used as u64) << 32 | 1].into_iter().chain(words).collect()
}

/// The program between two records. The kept clauses are there only with `back`.
struct Program {
    tree: Tree,
    compiler: Compiler,
    back: bool,
    kept: Kept,
}

impl Program {
    fn new(back: bool) -> Program {
        Program {
            tree: Tree::new(),
            compiler: Compiler::default(),
            back,
            kept: Kept::default(),
        }
    }

    fn judge(&mut self, clause: &Clause, number: u16, removed: &mut Vec<u16>) -> Verdict {
        if let Some(verdict) = self.tree.query(clause) {
            return verdict;
        }
        let inserted = match self.back {
            true => self.exchange(clause, number, removed),
            false => self.insert(clause, number),
        };
        match inserted {
            Ok(()) => Verdict::Kept {
                used: self.tree.used(),
            },
            Err(code) => Verdict::Refused { code },
        }
    }

    fn insert(&mut self, clause: &Clause, number: u16) -> Result<(), u64> {
        if self.tree.is_taken(number) {
            return Err(7);
        }
        self.tree.insert(self.compiler.sequence(clause), number)
    }

    /// Takes out what a clause subsumes, and the clause in. Numbers are judged before the removal, list and room after it.
    fn exchange(
        &mut self,
        clause: &Clause,
        number: u16,
        removed: &mut Vec<u16>,
    ) -> Result<(), u64> {
        let Program {
            tree,
            compiler,
            kept,
            ..
        } = self;
        let sequence = compiler.sequence(clause).to_vec();
        let listed = kept.listed(&alone(&sequence)).ok_or(12u64)?;
        if tree.is_taken(number) {
            return Err(7);
        }
        let before = (!listed.is_empty()).then(|| (tree.words.clone(), tree.taken.clone()));
        for &at in &listed {
            tree.remove(compiler.sequence(&kept.clauses[at]), kept.numbers[at]);
        }
        let inserted = tree.insert(&sequence, number);
        match (inserted, before) {
            (Ok(()), _) => {
                removed.extend(listed.iter().map(|&at| kept.numbers[at]));
                kept.remove(&listed);
                kept.add(clause, number);
            }
            (Err(_), Some(before)) => (tree.words, tree.taken) = before,
            (Err(_), None) => {}
        }
        inserted
    }
}

fn main() -> io::Result<()> {
    let back = env::args_os().nth(1).is_some_and(|first| first == "back");
    let page = page::input()?;
    let (mut program, mut removed) = (Program::new(back), Vec::new());
    let (mut clause, mut lines) = (Clause::default(), Lines::new(true, back));
    let mut records = 0;
    for (number, bytes) in page::records(&page) {
        records += 1;
        removed.clear();
        let verdict = match clause.read(bytes) {
            Ok(()) => program.judge(&clause, number, &mut removed),
            Err(code) => Verdict::Refused { code },
        };
        lines.put_removed(&removed, number)?;
        lines.put(number, &verdict)?;
    }
    lines.end(records)
}
