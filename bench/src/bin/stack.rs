//! The stack that calls of the proved library take, by trial: the least thread stack on which a query of the deepest slices is answered, and the
//! least that a thread needs to have left for a check, a reading back or a listing. An overflow kills, so each trial is a process of its own:
//! `stack CALL SHAPE WORDS KIB FRAMES`.
use code_tree::{backward, check, fresh, insert, query, read_back};
use code_tree::{Cover, Listed, LIST_WORDS, OUTPUT_WORDS, WITNESS_WORDS};
use std::cell::Cell;
use std::hint::black_box;
use std::process::{exit, Command, Stdio};
use std::{env, io, thread};
use yardsticks::code::{CHECK, CLAUSES, FIRST, PUT, SUCCESS};

const MOST_WORDS: usize = 65_536;
const FIRSTS: usize = 8;
const PAGE_KIB: usize = 4;
const MOST_KIB: usize = 1 << 16;
/// The thread of a check, a reading back or a listing, well over the least that the system gives.
const THREAD_KIB: usize = 512;
/// A literal without arguments.
const UNIT: u16 = 0x8001;
/// Heads with seven arguments, from here on, and one that is none of the first eight.
const HEAD: u16 = 0xb800;
const OTHER_HEAD: u16 = 0xb8ff;
/// Heads with one argument, from here on, and a function with one.
const SMALL_HEAD: u16 = 0x8800;
const FUNCTION: u16 = 0x0803;
const VARIABLE: u16 = 0x4000;
const OTHER_VARIABLE: u16 = 0x4001;
const CONSTANT: u16 = 0x0001;

/// A slice with the query put to it, which meets no Success but the deepest, with number 0: in a tree made by calls its own.
struct Question {
    tree: Vec<u64>,
    clause: Vec<u16>,
}

fn word(operation: u64, operand: u16, extent: usize) -> u64 {
    operation << 60 | u64::from(operand) << 28 | extent as u64
}

/// Firsts, then rows of two, each below the first word of the row before: a walk takes a call for every row. The query has a literal for each First.
fn rows(words: usize, operation: u64, operand: u16) -> Question {
    let mut tree = vec![0; words];
    let used = words - 1;
    tree[0] = (used as u64) << 32;
    for i in 0..FIRSTS {
        tree[1 + i] = word(FIRST, 0, used - i);
    }
    let (mut from, mut to) = (1 + FIRSTS, words);
    while from + 1 < to {
        to -= 1;
        tree[from] = word(operation, operand, to - from);
        tree[to] = word(operation, operand, 1);
        from += 1;
    }
    tree[to - 1] = word(SUCCESS, 0, 1);
    Question {
        tree,
        clause: vec![UNIT; FIRSTS],
    }
}

/// A First and Puts, each the only word below the one before.
fn chain(words: usize) -> Question {
    let mut tree = vec![0; words];
    tree[0] = (words as u64 - 1) << 32;
    tree[1] = word(FIRST, 0, words - 1);
    for (i, cell) in tree.iter_mut().enumerate().skip(2) {
        *cell = word(PUT, 0, words - i);
    }
    tree[words - 1] = word(SUCCESS, 0, 1);
    Question {
        tree,
        clause: vec![UNIT],
    }
}

/// Eight literals, each of a predicate of its own, with one variable at all 56 places: 8 Firsts, 8 heads, 56 Puts, 55 Compares.
fn longest() -> Vec<u16> {
    let literal = |i: u16| [vec![HEAD + i], vec![VARIABLE; 7]].concat();
    (0..8).flat_map(literal).collect()
}

/// The longest clause with one word changed. A fresh variable leaves its path at a Compare; the last head keeps it from covering.
fn leaving(at: usize, word: u16) -> Vec<u16> {
    let mut clause = longest();
    clause[at] = word;
    if word == OTHER_VARIABLE {
        clause[56] = OTHER_HEAD;
    }
    clause
}

/// A tree made by insertions: the longest clause, and those that leave its path at each head and Put and at most Compares, so that
/// further siblings stand there and the walk takes a call.
fn by_calls(words: usize) -> Question {
    let mut tree = vec![0; words];
    fresh(&mut tree).expect("a slice of this length");
    insert(&mut tree, &longest(), 0).expect("room for the longest");
    let heads = (0..8).map(|i| leaving(8 * i, OTHER_HEAD));
    let places = (0..64).filter(|at| at % 8 != 0);
    let puts = places.clone().map(|at| leaving(at, CONSTANT));
    let compares = places
        .filter(|&at| at < 56)
        .map(|at| leaving(at, OTHER_VARIABLE));
    for (clause, number) in heads.chain(puts).chain(compares).zip(1..) {
        insert(&mut tree, &clause, number).expect("room for each");
    }
    Question {
        tree,
        clause: longest(),
    }
}

/// A tree made by insertions that fills the slice: 1,024 clauses P(f(..f(x))), 64 words for each but the first, 63 for that with the First.
fn full(words: usize) -> Question {
    let mut tree = vec![0; words];
    fresh(&mut tree).expect("a slice of this length");
    let clause = |i: usize| {
        let functions = if i == 0 { 29 } else { 30 };
        let head = SMALL_HEAD + i as u16;
        [vec![head], vec![FUNCTION; functions], vec![VARIABLE]].concat()
    };
    for i in 0..CLAUSES {
        insert(&mut tree, &clause(i), i as u32).expect("room for each");
    }
    assert_eq!(tree[0], (words as u64 - 1) << 32 | CLAUSES as u64);
    Question {
        tree,
        clause: clause(0),
    }
}

fn question(shape: &str, words: usize) -> Question {
    match shape {
        "checks" => rows(words, CHECK, UNIT),
        "puts" => rows(words, PUT, 0),
        "chain" => chain(words),
        "full" => full(words),
        _ => by_calls(words),
    }
}

/// A query gets to the deepest word.
fn asked(Question { tree, clause }: &Question) -> bool {
    let answer = query(tree, clause, u64::MAX, &mut [0; WITNESS_WORDS]);
    matches!(answer, Ok(Cover::Covered { number: 0, .. }))
}

fn read(Question { tree, clause }: &Question) -> bool {
    let mut out = [0; OUTPUT_WORDS];
    read_back(tree, 0, &mut out) == Ok(clause.len()) && out.starts_with(clause)
}

/// A listing finds the clause itself, and no other that it subsumes.
fn listed(Question { tree, clause }: &Question) -> bool {
    let mut list = vec![1; LIST_WORDS];
    let answer = backward(tree, clause, u64::MAX, &mut list);
    matches!(answer, Ok(Listed { many: 1, .. })) && list[0] == 0
}

/// Makes a call below so many frames of this function.
#[inline(never)]
fn below(frames: usize, call: &dyn Fn() -> bool) -> bool {
    if frames == 0 {
        return call();
    }
    let here = 0u8;
    black_box(&here);
    let answer = below(frames - 1, call);
    black_box(&here);
    answer
}

/// The bytes of such a frame.
fn frame() -> usize {
    let place = Cell::new(0);
    let note = || {
        let here = 0u8;
        place.set(black_box(&raw const here).addr());
        true
    };
    let [high, low] = [100, 200].map(|frames| {
        below(frames, &note);
        place.get()
    });
    (high - low) / 100
}

/// A call on a slice of a shape and a length, on a thread of so many KiB and below so many frames.
#[derive(Clone, Copy)]
struct Trial<'a> {
    call: &'a str,
    shape: &'a str,
    words: usize,
    kib: usize,
    frames: usize,
}

impl Trial<'_> {
    /// Says whether the call is answered as it has to be.
    fn answered(self) -> bool {
        let call: fn(&Question) -> bool = match self.call {
            "none" => |_| true,
            "check" => |it| check(&it.tree).is_ok(),
            "read back" => read,
            "backward" => listed,
            _ => asked,
        };
        let question = question(self.shape, self.words);
        let work = move || below(self.frames, &|| call(&question));
        let thread = thread::Builder::new().stack_size(self.kib * 1024);
        thread::scope(|scope| {
            let thread = thread.spawn_scoped(scope, work).expect("a thread");
            thread.join().expect("an answer")
        })
    }

    fn answered_in_child(self) -> io::Result<bool> {
        let numbers = [self.words, self.kib, self.frames].map(|number| number.to_string());
        let status = Command::new(env::current_exe()?)
            .args([self.call, self.shape])
            .args(numbers)
            .stderr(Stdio::null())
            .status()?;
        Ok(status.success())
    }
}

/// The least number, up to the most, for which a trial is answered, by halving.
fn least<'a>(most: usize, trial: impl Fn(usize) -> Trial<'a>) -> io::Result<usize> {
    let (mut fails, mut answers) = (0, most);
    if !trial(most).answered_in_child()? {
        let Trial { call, shape, .. } = trial(most);
        return Err(io::Error::other(format!("{call}, {shape}: not answered")));
    }
    while fails + 1 < answers {
        let middle = (fails + answers) / 2;
        if trial(middle).answered_in_child()? {
            answers = middle;
        } else {
            fails = middle;
        }
    }
    Ok(answers)
}

/// The least thread stack on which a query is answered, in KiB.
fn least_thread(shape: &str, words: usize) -> io::Result<usize> {
    let trial = |pages| Trial {
        call: "query",
        shape,
        words,
        kib: pages * PAGE_KIB,
        frames: 0,
    };
    Ok(least(MOST_KIB / PAGE_KIB, trial)? * PAGE_KIB)
}

/// The least stack left of a thread on which a call is answered, in bytes: the rest is taken by frames above it.
fn least_left(call: &str, shape: &str) -> io::Result<usize> {
    let frame = frame();
    let all = THREAD_KIB * 1024 / frame;
    let trial = |left| Trial {
        call,
        shape,
        words: MOST_WORDS,
        kib: THREAD_KIB,
        frames: all - left,
    };
    Ok(least(all, trial)? * frame)
}

/// How many rows nest in a slice of so many words.
fn depth(shape: &str, words: usize) -> usize {
    match shape {
        "chain" => words - 1,
        _ => 1 + FIRSTS + (words - 1 - FIRSTS) / 2,
    }
}

/// Tab-separated: call and slice, how many rows nest, the least stack in KiB, its bytes a row (from a slice of half the length).
fn measure_queries() -> io::Result<()> {
    let half = MOST_WORDS / 2;
    let shapes = [
        ("checks", "8 Firsts, then rows of two Checks (the deepest)"),
        ("puts", "8 Firsts, then rows of two Puts"),
        ("chain", "a First, then a chain of Puts"),
    ];
    for (shape, name) in shapes {
        let (whole, part) = (least_thread(shape, MOST_WORDS)?, least_thread(shape, half)?);
        let rows = depth(shape, MOST_WORDS);
        let bytes = 1024 * (whole - part) / (rows - depth(shape, half));
        println!("query: {name}\t{rows}\t{whole}\t{bytes}");
    }
    let calls = least_thread("calls", MOST_WORDS)?;
    println!("query: a tree made by calls\t184\t{calls}\t-");
    Ok(())
}

/// The same for a check, a reading back and a listing; what a thread takes without a call is taken off.
fn measure_saved() -> io::Result<()> {
    let none = least_left("none", "chain")?;
    for call in ["check", "read back", "backward"] {
        for (shape, tree) in [("full", "1,024 clauses"), ("calls", "clauses of 64 words")] {
            let kib = (least_left(call, shape)? - none) as f64 / 1024.0;
            println!("{call}: {tree} made by calls\t-\t{kib:.1}\t-");
        }
    }
    Ok(())
}

fn main() -> io::Result<()> {
    let words: Vec<String> = env::args().skip(1).collect();
    let [call, shape, length, kib, frames] = &words[..] else {
        measure_queries()?;
        return measure_saved();
    };
    let number = |text: &str| text.parse().map_err(io::Error::other);
    let trial = Trial {
        call,
        shape,
        words: number(length)?,
        kib: number(kib)?,
        frames: number(frames)?,
    };
    exit(i32::from(!trial.answered()))
}
