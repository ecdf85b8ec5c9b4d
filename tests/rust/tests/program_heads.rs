//! The built program where its index of heads matters: many heads, heads that go and come again, literals in any order, full trees and lists, inputs of
//! several blocks. Every byte that it prints is the model's, which has no index.
use crate::drawn::repeated::literals;
use crate::drawn::tally::Tally;
use crate::drawn::{renamed, Random};
use crate::running::{expect_same, Run, BACK, PLAIN};
use model::limits::{CLAUSE_WORDS, KEPT, LITERALS, PROGRAM_TREE};
use model::pages::record;
use model::program::{lines, records, sheet, Outcome, Program, Record, Ruling, Setting};
use model::words::{arity, is_variable, word, FUNCTION, NEGATIVE, POSITIVE, VARIABLE};
use std::collections::{BTreeMap, BTreeSet};
use std::thread::panicking;

const X: u16 = word(VARIABLE, 0, 0);
const Y: u16 = word(VARIABLE, 0, 1);
const Z: u16 = word(VARIABLE, 0, 2);
const A: u16 = word(FUNCTION, 0, 1);
const B: u16 = word(FUNCTION, 0, 2);
const F: u16 = word(FUNCTION, 1, 3);

// The words that the program's tree has for instructions.
const ROOM: usize = PROGRAM_TREE - 1;

// The bytes of a block that the program reads, or half of them: its blocks end where these do, or where every second one does.
const BLOCK: usize = 8_192;

// The least and the greatest head of each sign, and those beside them.
const ENDS: [u16; 8] = [
    0x8000, 0x8001, 0xBFFE, 0xBFFF, 0xC000, 0xC001, 0xFFFE, 0xFFFF,
];

// A constant that no other clause has by chance.
fn constant(i: usize) -> u16 {
    word(FUNCTION, 0, 16 + i as u16)
}

// The literal of a head with a variable of its own at each place.
fn open_literal(head: u16) -> Vec<u16> {
    let variables = (0..arity(head)).map(|i| word(VARIABLE, 0, i as u16));
    [head].into_iter().chain(variables).collect()
}

// A clause of so many words; of none there is no clause.
fn clause_of_words(words: usize) -> Vec<u16> {
    match words {
        0 => vec![],
        1 => vec![word(NEGATIVE, 0, 7)],
        _ => [vec![word(NEGATIVE, 1, 7)], vec![F; words - 2], vec![A]].concat(),
    }
}

impl Random {
    // A head of either sign, any arity, small ones more often, and any number; now and then one of the ends.
    fn any_head(&mut self) -> u16 {
        if self.one_in(25) {
            return self.of(&ENDS);
        }
        let kind = self.of(&[POSITIVE, NEGATIVE]);
        let arity = self.below(8).min(self.below(8));
        word(kind, arity as u16, self.below(2_048) as u16)
    }

    // A head of so many arguments.
    fn head_of(&mut self, arity: usize) -> u16 {
        let kind = self.of(&[POSITIVE, NEGATIVE]);
        word(kind, arity as u16, self.below(2_048) as u16)
    }

    // A head close to another one: next to it, of the other sign, of another arity or another number.
    fn beside(&mut self, head: u16) -> u16 {
        let close = match self.below(6) {
            0 => head.wrapping_add(1),
            1 => head.wrapping_sub(1),
            2 => head ^ 0x4000,
            3 => head ^ 0x0800 << self.below(3),
            _ => head ^ 1 << self.below(11),
        };
        close | 0x8000
    }

    // Heads, of which some are close to one before them.
    fn heads(&mut self, count: usize) -> Vec<u16> {
        let mut heads = vec![self.any_head()];
        while heads.len() < count {
            let before = self.of(&heads);
            heads.push(match self.one_in(4) {
                true => self.beside(before),
                false => self.any_head(),
            });
        }
        heads
    }

    // A literal of a head; of 100 terms so many are variables.
    fn literal_of(&mut self, head: u16, open: usize) -> Vec<u16> {
        let mut literal = vec![head];
        for _ in 0..arity(head) {
            if self.one_in(8) {
                literal.push(F);
            }
            literal.push(match self.below(100) < open {
                true => self.of(&[X, Y, Z]),
                false => self.of(&[A, B]),
            });
        }
        literal
    }

    // A clause of up to so many literals of these heads.
    fn clause_of(&mut self, heads: &[u16], most: usize, open: usize) -> Vec<u16> {
        let mut clause = Vec::new();
        for _ in 0..1 + self.below(most) {
            let head = self.of(heads);
            let literal = self.literal_of(head, open);
            if clause.len() + literal.len() <= CLAUSE_WORDS {
                clause.extend(literal);
            }
        }
        clause
    }

    // Literals that have mostly nothing to do with what is kept: of a head that is there, of one close to it, and of any head.
    fn others(&mut self, row: &[u16], most: usize) -> Vec<Vec<u16>> {
        let other = |random: &mut Random| {
            let there = random.of(row);
            let head = match random.below(5) {
                0 => random.any_head(),
                1 | 2 => random.beside(there),
                _ => there,
            };
            random.literal_of(head, 20)
        };
        (0..self.below(most + 1)).map(|_| other(self)).collect()
    }

    // A clause that a given one subsumes: an instance of it among other literals, in any order.
    fn around(&mut self, clause: &[u16], others: &[Vec<u16>]) -> Vec<u16> {
        let instance = match self.one_in(2) {
            true => self.narrow_instance(clause),
            false => self.instance(clause, is_variable),
        };
        let instance = match instance.len() > CLAUSE_WORDS {
            true => clause.to_vec(),
            false => instance,
        };
        let (mut places, mut words) = (literals(&instance), instance.len());
        for other in others {
            if places.len() < LITERALS && words + other.len() <= CLAUSE_WORDS {
                places.push(other);
                words += other.len();
            }
        }
        self.shuffle(&mut places);
        places.concat()
    }

    // The clause with a head close to it for one of its heads, of the same arity.
    fn missing(&mut self, clause: &[u16]) -> Vec<u16> {
        let mut places: Vec<Vec<u16>> = literals(clause).iter().map(|l| l.to_vec()).collect();
        let (place, bit) = (self.below(places.len()), 1 << self.below(11));
        places[place][0] ^= self.of(&[0x4000, 1, 2, bit]);
        places.concat()
    }

    // Words that are no clause, made from one: too few or too many words, nine literals, the end too early or too late, a word at the wrong place.
    fn faulty(&mut self, clause: &[u16]) -> Vec<u16> {
        let last = clause.len() - 1;
        match self.below(8) {
            0 => vec![],
            1 => clause.repeat(1 + CLAUSE_WORDS / clause.len()),
            2 | 3 => literals(clause)[0].repeat(9),
            4 => [clause, &[word(POSITIVE, 1 + self.below(7) as u16, 5)]].concat(),
            5 => [clause, &[self.of(&[X, A])]].concat(),
            6 => [&clause[..last], &[word(VARIABLE, 1, 0), A]].concat(),
            _ => [&[self.of(&[X, A, F])], clause].concat(),
        }
    }
}

// Says on which page a test stopped, also where the program itself did.
struct On<'a>(&'a str);

impl Drop for On<'_> {
    fn drop(&mut self) {
        if panicking() {
            println!("stopped on {}", self.0);
        }
    }
}

// A page that is being made, and what the model says of its records: each is put to it at once, so that the next one can go by what is kept.
struct Page<'a> {
    run: Run<'a>,
    model: Program,
    records: Vec<Record>,
    rulings: Vec<Ruling>,
    bytes: usize,
    used: usize,
    kept: Vec<Record>,
    // how many kept clauses begin with each head; and the heads with which none begins any more
    heads: BTreeMap<u16, usize>,
    gone: BTreeSet<u16>,
    tally: &'a mut Tally,
}

impl Page<'_> {
    fn new<'a>(run: Run<'a>, tally: &'a mut Tally) -> Page<'a> {
        Page {
            run,
            model: Program::new(Setting::of(run.0)),
            records: Vec::new(),
            rulings: Vec::new(),
            bytes: 0,
            used: 0,
            kept: Vec::new(),
            heads: BTreeMap::new(),
            gone: BTreeSet::new(),
            tally,
        }
    }

    // Adds a record.
    fn add(&mut self, number: u16, words: &[u16]) {
        let outcome = self.model.take(number, words);
        self.count(words, &outcome);
        if let Outcome::Kept { removed, used } = &outcome {
            self.used = *used;
            self.keep(number, words, removed);
        }
        self.bytes += record(number, words).len();
        self.records.push((number, words.to_vec()));
        self.rulings.push((number, outcome));
    }

    // Adds a record under any number, now and then one that is taken.
    fn put(&mut self, random: &mut Random, words: &[u16]) {
        let number = match random.one_in(50) && !self.kept.is_empty() {
            true => self.kept[random.below(self.kept.len())].0,
            false => random.next() as u16,
        };
        self.add(number, words);
    }

    // Adds a record under a number that is not taken.
    fn put_free(&mut self, random: &mut Random, words: &[u16]) {
        let taken: BTreeSet<u16> = self.kept.iter().map(|(number, _)| *number).collect();
        let free = random.numbers().find(|number| !taken.contains(number));
        self.add(free.expect("a number"), words);
    }

    // Notes what is kept after a record that goes in.
    fn keep(&mut self, number: u16, words: &[u16], removed: &[u32]) {
        *self.heads.entry(words[0]).or_default() += 1;
        self.gone.remove(&words[0]);
        let going = |record: &Record| removed.contains(&u32::from(record.0));
        for (_, words) in self.kept.iter().filter(|record| going(record)) {
            let count = self.heads.get_mut(&words[0]).expect("a head");
            *count -= 1;
            if *count == 0 {
                self.heads.remove(&words[0]);
                self.gone.insert(words[0]);
                self.tally.count("a head goes");
                self.tally
                    .count_if("an end of the heads goes", ENDS.contains(&words[0]));
                let alone = self.heads.len() == 1;
                self.tally.count_if("a head goes, one is left", alone);
            }
        }
        self.kept.retain(|record| !going(record));
        self.kept.push((number, words.to_vec()));
    }

    // What there is of a head before a record comes.
    fn standing(&self, head: u16) -> &'static str {
        let lower = self.heads.range(..head).next().is_some();
        let higher = self.heads.range(head..).next().is_some();
        match (lower, higher) {
            _ if self.heads.contains_key(&head) => "head there",
            _ if self.gone.contains(&head) => "head gone",
            (true, true) => "head between others",
            _ => "head before or behind all",
        }
    }

    // Counts what becomes of a record, by the heads that are there when it comes.
    fn count(&mut self, words: &[u16], outcome: &Outcome) {
        let head = words.first().map_or("no head", |head| self.standing(*head));
        match outcome {
            Outcome::Kept { removed, .. } if removed.is_empty() => {
                self.tally.count(&format!("kept, {head}"));
            }
            Outcome::Kept { .. } => self.tally.count(&format!("kept and removes, {head}")),
            Outcome::Refused { code } => self.tally.count(&format!("refused {code}, {head}")),
            Outcome::Struck { covering, .. } => self.count_strike(words, *covering),
        }
    }

    // Where the first literal of the covering clause can fall first, and which heads stand before that place.
    fn count_strike(&mut self, words: &[u16], covering: u32) {
        let mut kept = self.kept.iter();
        let covering = kept.find(|(number, _)| u32::from(*number) == covering);
        let (_, clause) = covering.expect("a kept clause");
        let heads: Vec<u16> = literals(words).iter().map(|literal| literal[0]).collect();
        let place = heads.iter().position(|head| *head == clause[0]);
        let place = place.expect("the head of the covering clause");
        let there = |head: &u16| self.heads.contains_key(head);
        let behind_some = heads[..place].iter().any(there);
        let behind_none = heads[..place].iter().any(|head| !there(head));
        let units = literals(clause).len() == 1;
        let (head, arity) = (clause[0], arity(clause[0]));
        let tally = &mut self.tally;
        tally.count(&format!("struck, head at place {}", place + 1));
        tally.count(&format!("struck by a head of {arity} arguments"));
        tally.count_if("struck by a negative head", head >= 0xC000);
        tally.count_if("struck by an end of the heads", ENDS.contains(&head));
        tally.count_if("struck behind a head that is there", behind_some);
        tally.count_if("struck behind a head that is not there", behind_none);
        tally.count_if("struck by a clause of several literals", !units);
    }

    // The heads that are there.
    fn row(&self) -> Vec<u16> {
        self.heads.keys().copied().collect()
    }

    // The words of a kept clause.
    fn kept_clause(&self, random: &mut Random) -> Vec<u16> {
        self.kept[random.below(self.kept.len())].1.clone()
    }

    // A clause that a kept one strikes, its first literal at any place, among up to so many others.
    fn struck(&self, random: &mut Random, others: usize) -> Vec<u16> {
        let clause = self.kept_clause(random);
        let others = random.others(&self.row(), others);
        random.around(&clause, &others)
    }

    // For each head that is there a record that a clause of this head strikes, in any order.
    fn ask_each(&mut self, random: &mut Random) {
        let clauses = self.kept.iter().map(|(_, words)| (words[0], words.clone()));
        let by_head: BTreeMap<u16, Vec<u16>> = clauses.collect();
        let mut clauses: Vec<Vec<u16>> = by_head.into_values().collect();
        random.shuffle(&mut clauses);
        for clause in clauses {
            let others = random.others(&self.row(), 2);
            let struck = random.around(&clause, &others);
            self.put(random, &struck);
        }
    }

    // Adds records until the page has exactly so many bytes, 6 or more from here. Most of them are struck.
    fn fill(&mut self, random: &mut Random, end: usize) {
        while self.bytes < end {
            let words = (end - self.bytes) / 2 - 2;
            let clause = match random.one_in(8) {
                true => random.clause_of(&[0x9005, 0xD007, 0x8800, 0xE7FF], 2, 50),
                false => self.struck(random, 3),
            };
            let clause = match words {
                0..=40 => clause_of_words(words),
                _ if clause.len() > 30 => clause_of_words(30),
                _ => clause,
            };
            self.put(random, &clause);
        }
    }

    fn input(&self) -> Vec<u8> {
        let records = self.records.iter();
        records
            .flat_map(|(number, words)| record(*number, words))
            .collect()
    }

    // What the page is called, with its setting.
    fn named(&self, what: &str) -> String {
        format!("{what}, {:?}", Setting::of(self.run.0))
    }

    // What the model prints.
    fn text(&self) -> String {
        let setting = Setting::of(self.run.0);
        lines(&self.rulings, setting) + &sheet(&self.records, &self.rulings)
    }

    // Compares what the program prints.
    fn expect(self, what: &str) {
        let (what, input) = (self.named(what), self.input());
        let _on = On(&what);
        assert!(records(&input) == self.records, "{what}: the records");
        let printed = self.run.printed([&input[..]].into_iter());
        expect_same(&printed, &self.text(), &what);
        self.done();
    }

    // The same as a file and in pieces of some sizes.
    fn expect_pieces(self, pieces: &[usize], what: &str) {
        let (what, input) = (self.named(what), self.input());
        let _on = On(&what);
        assert_eq!(input.len(), self.bytes, "{what}: the bytes");
        expect_same(&self.run.output(&input), &self.text(), &what);
        self.run.expect_both(&input, pieces, &what);
        self.done();
    }

    // Counts the page.
    fn done(self) {
        self.tally.count("pages");
        for _ in self.records {
            self.tally.count("records");
        }
        for least in [100, 256, 400] {
            let name = format!("pages with over {least} heads");
            self.tally.count_if(&name, self.heads.len() > least);
        }
    }
}

// The index and its edges on one page, the lines told by hand. 8801 clears what begins with C000, a head that then comes again.
#[test]
fn by_hand() {
    let high = [&[0xFFFF][..], &[A; 7]].concat();
    let rows: [(u16, &[u16]); 13] = [
        (1, &[0x8000]),
        (2, &high),
        (3, &[0xC000, 0x8801, A]),
        (4, &[0xC000, 0x8801, B]),
        (5, &[0x8001, 0x8000]),
        (6, &[0xC000, 0x8000]),
        (7, &high),
        (8, &[0x8801, X]),
        (9, &[0xC000]),
        (10, &[0xC000, 0x8801, A]),
        (11, &[0x8801, B, 0xC000]),
        (
            12,
            &[0x8002, 0xC001, 0xFFFE, A, A, A, A, A, A, A, 0x8801, B],
        ),
        (1, &[0x8802, A]),
    ];
    let back = "1 kept 3\n2 kept 19\n3 kept 25\n4 kept 27\n5 struck 1 2\n6 struck 1 3\n7 struck 2 1\n\
        3 removed 8\n4 removed 8\n8 kept 23\n9 kept 25\n10 struck 9 1\n11 struck 8 1\n12 struck 8 4\n1 refused 7\n\
        kept 4 struck 6 refused 1 removed 2\n1 2 5\n2 1 1\n3 0 0\n4 0 0\n8 2 5\n9 1 1\n13\n";
    let plain =
        "1 kept 3\n2 kept 19\n3 kept 25\n4 kept 27\n5 struck 1 2\n6 struck 1 3\n7 struck 2 1\n\
        8 kept 31\n9 kept 32\n10 struck 9 1\n11 struck 8 1\n12 struck 8 4\n1 refused 7\n\
        kept 6 struck 6 refused 1\n1 2 5\n2 1 1\n3 0 0\n4 0 0\n8 2 5\n9 1 1\n13\n";
    for (run, expected) in [(BACK, back), (PLAIN, plain)] {
        let mut tally = Tally::default();
        let mut page = Page::new(run, &mut tally);
        for (number, words) in rows {
            page.add(number, words);
        }
        expect_same(&page.text(), expected, "the model by hand");
        page.expect("by hand");
    }
}

// Records with first literals of many heads, units and longer clauses: of heads that are there, that are not, and that are between those that are.
fn put_heads(page: &mut Page, random: &mut Random, heads: usize, count: usize) {
    let pool = random.heads(heads);
    let first = random.literal_of(pool[0], 50);
    if random.one_in(4) {
        // before anything is kept
        let faulty = random.faulty(&first);
        page.put(random, &faulty);
    }
    page.put_free(random, &first);
    for _ in 0..count {
        let (head, kept) = (random.of(&pool), page.kept_clause(random));
        let clause = match random.below(20) {
            0..7 => random.literal_of(head, 40),
            7 | 8 => random.clause_of(&pool, 4, 50),
            9..13 => page.struck(random, 7),
            13 => renamed(&kept, 4),
            14 | 15 => random.missing(&kept),
            16 | 17 => {
                let there = random.of(&page.row());
                let beside = random.beside(there);
                let close = [beside, random.beside(beside), random.any_head()];
                random.clause_of(&close, 3, 50)
            }
            18 => random.general(&kept),
            _ => random.faulty(&kept),
        };
        page.put(random, &clause);
    }
}

#[test]
fn many_heads() {
    let (mut random, mut tally) = (Random(91), Tally::default());
    for i in 0..300 {
        let mut page = Page::new([PLAIN, BACK][i % 2], &mut tally);
        let heads = 1 + random.below(60);
        put_heads(&mut page, &mut random, heads, 40 + 2 * heads);
        page.expect(&format!("page {i} of many heads"));
    }
    tally.assert_least(&[
        ("pages", 300),
        ("records", 30_000),
        ("kept, head there", 4_000),
        ("kept, head between others", 9_000),
        ("kept, head before or behind all", 2_200),
        ("kept and removes, head there", 650),
        ("a head goes", 135),
        ("struck behind a head that is there", 1_900),
        ("struck behind a head that is not there", 3_200),
        ("struck by a clause of several literals", 1_300),
        ("struck by an end of the heads", 400),
        ("struck by a negative head", 6_000),
        ("struck by a head of 0 arguments", 4_000),
        ("struck by a head of 7 arguments", 275),
        ("struck, head at place 8", 25),
        ("refused 3, head there", 180),
        ("refused 4, head there", 520),
        ("refused 5, head there", 320),
    ]);
}

#[test]
fn hundreds_of_heads() {
    let (mut random, mut tally) = (Random(92), Tally::default());
    for i in 0..12 {
        let mut page = Page::new([PLAIN, BACK][i % 2], &mut tally);
        let heads = 300 + 50 * i;
        put_heads(&mut page, &mut random, heads, 2 * heads);
        page.ask_each(&mut random);
        page.expect(&format!("page {i} of hundreds of heads"));
    }
    tally.assert_least(&[
        ("pages with over 256 heads", 12),
        ("pages with over 400 heads", 8),
        ("records", 19_500),
        ("kept, head between others", 5_500),
        ("kept, head there", 1_400),
        ("a head goes", 80),
        ("struck behind a head that is there", 1_700),
        ("struck behind a head that is not there", 3_000),
        ("struck by an end of the heads", 300),
        ("refused 11, head there", 90),
        ("refused 11, head between others", 200),
    ]);
}

// As many heads as there can be: each kept clause has one of its own, and the list is full. They are any heads, or side by side. Then come records of
// each of them, and of others.
#[test]
fn a_head_for_each_clause() {
    let (mut random, mut tally) = (Random(93), Tally::default());
    for (run, any) in [(PLAIN, true), (BACK, true), (PLAIN, false), (BACK, false)] {
        let mut page = Page::new(run, &mut tally);
        let mut heads = BTreeSet::new();
        while heads.len() < KEPT {
            let arity = random.below(3);
            heads.insert(match any {
                true => random.head_of(arity),
                false => 0xC000 + heads.len() as u16,
            });
        }
        let mut heads: Vec<u16> = heads.into_iter().collect();
        random.shuffle(&mut heads);
        for head in heads {
            let unit = random.literal_of(head, 0);
            page.put_free(&mut random, &unit);
            if random.one_in(4) {
                let clause = page.struck(&mut random, 7);
                page.put(&mut random, &clause);
            }
        }
        assert_eq!(page.heads.len(), KEPT);
        page.ask_each(&mut random);
        for _ in 0..300 {
            let there = random.of(&page.row());
            let beside = random.beside(there);
            let clause = match random.below(6) {
                0 | 1 => random.literal_of(there, 50),
                2 | 3 => random.literal_of(beside, 50),
                4 => open_literal(there),
                _ => page.struck(&mut random, 7),
            };
            page.put(&mut random, &clause);
        }
        let which = if any { "any" } else { "side by side" };
        page.expect(&format!("a head for each clause, {which}"));
    }
    tally.assert_least(&[
        ("pages", 4),
        ("pages with over 400 heads", 4),
        ("records", 10_400),
        ("struck behind a head that is there", 360),
        ("struck behind a head that is not there", 1_200),
        ("kept and removes, head there", 45),
        ("refused 10, head there", 130),
        ("refused 10, head between others", 180),
        ("refused 10, head before or behind all", 80),
    ]);
}

// A round in which heads go: clauses that begin with these heads and have a literal of another one in them, then one that clears them, whatever they
// begin with. Then the heads come again.
fn put_going(page: &mut Page, random: &mut Random, heads: &[u16]) {
    let arity = 1 + random.below(3);
    let inner = random.head_of(arity);
    let mut clauses = Vec::new();
    for &head in heads {
        for _ in 0..1 + random.below(3) {
            let between = random.others(heads, 1).concat();
            let (first, last) = (random.literal_of(head, 40), random.literal_of(inner, 0));
            clauses.push([first, between, last].concat());
        }
        if random.one_in(5) {
            // it stays
            clauses.push(random.literal_of(head, 0));
        }
    }
    random.shuffle(&mut clauses);
    for clause in clauses {
        page.put(random, &clause);
        if random.one_in(4) {
            let clause = page.struck(random, 5);
            page.put(random, &clause);
        }
    }
    let kept = page.kept_clause(random);
    let clearing = match random.below(6) {
        0 => open_literal(random.of(heads)),
        1 => random.general(&kept),
        _ => open_literal(inner),
    };
    if random.one_in(5) {
        let taken = page.kept[random.below(page.kept.len())].0;
        page.add(taken, &clearing);
    }
    page.put_free(random, &clearing);
    for _ in 0..2 * heads.len() + 3 {
        let (head, kept) = (random.of(heads), page.kept_clause(random));
        let first = random.literal_of(head, 30);
        let clause = match random.below(6) {
            0 => first,
            1 => [first, random.literal_of(inner, 30)].concat(),
            2 => random.around(&kept, &[first]),
            3 => [first, random.others(heads, 2).concat()].concat(),
            _ => page.struck(random, 5),
        };
        page.put(random, &clause);
    }
    if random.one_in(2) {
        page.ask_each(random);
    }
}

#[test]
fn heads_that_go() {
    let (mut random, mut tally) = (Random(94), Tally::default());
    for i in 0..300 {
        let mut page = Page::new(BACK, &mut tally);
        let mut pool = random.heads(3 + i % 20);
        pool.extend(ENDS);
        for round in 0..1 + i % 7 {
            // the first time the only one, now and then
            let many = match round {
                0 if i % 3 == 0 => 1,
                _ => 1 + random.below(8),
            };
            let heads: Vec<u16> = (0..many).map(|_| random.of(&pool)).collect();
            put_going(&mut page, &mut random, &heads);
        }
        page.expect(&format!("page {i} of heads that go"));
    }
    tally.assert_least(&[
        ("pages", 300),
        ("records", 34_000),
        ("a head goes", 1_750),
        ("a head goes, one is left", 110),
        ("an end of the heads goes", 750),
        ("kept, head gone", 1_250),
        ("kept and removes, head there", 900),
        ("kept and removes, head between others", 650),
        ("refused 7, head there", 200),
        ("struck behind a head that is not there", 6_000),
        ("struck behind a head that is there", 3_000),
        ("struck by an end of the heads", 7_500),
    ]);
}

// Clauses of several literals, few heads, some of them only inside; then queries in which the first literal of a kept clause is at any place, among
// literals of heads that are there and that are not. A unit of one more head strikes some of them in the end, so that their candidates are told.
fn put_orders(page: &mut Page, random: &mut Random, queries: usize) {
    let arities: Vec<usize> = (0..1 + random.below(5)).map(|_| random.below(3)).collect();
    let heads: Vec<u16> = arities.iter().map(|arity| random.head_of(*arity)).collect();
    let inner: Vec<u16> = heads.iter().map(|head| random.beside(*head)).collect();
    let all = [&heads[..], &inner].concat();
    let arity = random.below(2);
    let last = random.head_of(arity);
    page.put_free(random, &open_literal(last));
    for _ in 0..3 + random.below(12) {
        let head = random.of(&heads);
        let clause = [random.literal_of(head, 60), random.clause_of(&all, 3, 50)];
        page.put(random, &clause.concat());
    }
    for _ in 0..queries {
        let mut others = random.others(&all, 2);
        for _ in 0..random.below(6) {
            let head = random.of(&all);
            others.push(random.literal_of(head, 20));
        }
        if random.one_in(3) {
            // the same literal again
            let again = others.first().cloned();
            others.extend(again);
        }
        let (kept, told) = (page.kept_clause(random), random.literal_of(last, 20));
        let clause = match random.below(4) {
            0 => others.concat(),
            1 => {
                others.truncate(LITERALS - 1);
                random.shuffle(&mut others);
                [others.concat(), told].concat()
            }
            _ => random.around(&kept, &others),
        };
        page.put(random, &clause);
    }
}

#[test]
fn literals_in_any_order() {
    let (mut random, mut tally) = (Random(95), Tally::default());
    for i in 0..400 {
        let mut page = Page::new([PLAIN, BACK][i % 2], &mut tally);
        put_orders(&mut page, &mut random, 20 + i % 60);
        page.expect(&format!("page {i} of literals in any order"));
    }
    tally.assert_least(&[
        ("pages", 400),
        ("records", 23_000),
        ("struck by a clause of several literals", 10_500),
        ("struck behind a head that is there", 6_800),
        ("struck behind a head that is not there", 8_200),
        ("struck, head at place 1", 5_500),
        ("struck, head at place 2", 3_300),
        ("struck, head at place 3", 2_600),
        ("struck, head at place 4", 1_700),
        ("struck, head at place 5", 1_250),
        ("struck, head at place 6", 850),
        ("struck, head at place 7", 530),
        ("struck, head at place 8", 300),
    ]);
}

// Fills the tree but for so many words: first by clauses of these heads, then by units of heads that are in no clause, mostly such as stand last.
fn fill_tree(page: &mut Page, random: &mut Random, pool: &[u16], left: usize) {
    while page.used + left + 200 < ROOM {
        let head = random.of(pool);
        let clause = [random.literal_of(head, 20), random.clause_of(pool, 3, 20)];
        page.put(random, &clause.concat());
    }
    while page.used + left < ROOM {
        let odd = (ROOM - left - page.used) % 2 == 1;
        let head = word(NEGATIVE, 2 * odd as u16, random.below(2_048) as u16);
        let mut kept = page.kept.iter();
        if !kept.any(|(_, words)| words.contains(&head)) {
            // 7 words or 2
            let unit = if odd { vec![head, X, X] } else { vec![head] };
            page.put_free(random, &unit);
        }
    }
    assert_eq!(page.used, ROOM - left);
    page.tally.count_if("a tree exactly full", left == 0);
}

// Records for a full tree: most of them need words, below a head that is there or with a new one.
fn put_too_many(page: &mut Page, random: &mut Random, count: usize) {
    for i in 0..count {
        let (kept, there, any) = (
            page.kept_clause(random),
            random.of(&page.row()),
            random.any_head(),
        );
        let clause = match random.below(12) {
            0..3 => [literals(&kept)[0], &[0x8801, constant(i)]].concat(),
            3 => [vec![there], vec![constant(i); arity(there)]].concat(),
            4 | 5 => [vec![any], vec![constant(i); arity(any)]].concat(),
            6..9 => page.struck(random, 6),
            9 => renamed(&kept, 3),
            10 => random.faulty(&kept),
            _ => {
                let taken = page.kept[random.below(page.kept.len())].0;
                page.add(taken, &[any, kept[0]]);
                random.others(&[there], 3).concat()
            }
        };
        page.put(random, &clause);
    }
}

// Trees that are full, or but for few words; then general clauses, which with `back` make room, and full trees again.
fn expect_full_trees(run: Run, seed: u64) {
    let (mut random, mut tally) = (Random(seed), Tally::default());
    for i in 0..12 {
        let mut page = Page::new(run, &mut tally);
        let left = [0, 0, 1, 2, 3, 5][i % 6];
        let mut pool = random.heads(150);
        if i % 2 == 0 {
            // positive ones, so that the last heads of the row have few words
            pool.iter_mut().for_each(|head| *head &= 0xBFFF);
        }
        fill_tree(&mut page, &mut random, &pool, left);
        put_too_many(&mut page, &mut random, 250);
        page.ask_each(&mut random);
        for _ in 0..40 {
            let kept = page.kept_clause(&mut random);
            let general = match random.one_in(2) {
                true => random.general(&kept),
                false => literals(&kept)[0].to_vec(),
            };
            page.put(&mut random, &general);
        }
        if page.used + left < ROOM - 8 {
            fill_tree(&mut page, &mut random, &pool, left);
        }
        put_too_many(&mut page, &mut random, 100);
        page.ask_each(&mut random);
        page.expect(&format!("full tree {i}"));
    }
    tally.assert_least(&[
        ("pages", 12),
        ("records", 16_000),
        ("a tree exactly full", 4),
        ("refused 11, head there", 500),
        ("refused 11, head between others", 370),
        ("refused 11, head before or behind all", 30),
        ("refused 3, head there", 40),
        ("refused 4, head there", 120),
        ("refused 4, head between others", 230),
        ("refused 5, head there", 70),
        ("refused 7, head there", 120),
        ("refused 7, head between others", 65),
        ("struck behind a head that is there", 2_600),
        ("struck behind a head that is not there", 1_800),
    ]);
}

#[test]
fn full_trees() {
    expect_full_trees(PLAIN, 96);
}

#[test]
fn full_trees_with_back() {
    expect_full_trees(BACK, 97);
}

// Records of which one lies across the end of each of four blocks, begun so many bytes before it: one of a new head, for which with `back` others go, or
// one that is struck, so that nothing goes in before what is asked next. Behind it come records that this head strikes, and such as have to do with the
// heads that were there before.
fn put_across(page: &mut Page, random: &mut Random, cut: usize) {
    page.put_free(random, &[0x8000]);
    for block in 1..=4 {
        let general = open_literal(random.head_of(5));
        let special = |i: u16| [&general[..1], &[A + i; 5]].concat();
        for i in 0..12 {
            let first = random.any_head();
            let first = random.literal_of(first, 30);
            page.put(random, &[first, special(i)].concat());
        }
        let goes_in = (block <= 2) == (cut % 4 == 2);
        if !goes_in {
            page.put_free(random, &general);
        }
        page.fill(random, block * BLOCK - cut);
        assert_eq!(page.bytes, block * BLOCK - cut);
        match goes_in {
            true => page.put_free(random, &general),
            false => page.put_free(random, &special(20)),
        }
        let (_, outcome) = page.rulings.last().expect("a ruling");
        assert_eq!(matches!(outcome, Outcome::Kept { .. }), goes_in);
        for i in 0..4 {
            let clause = page.struck(random, 3);
            page.put(random, &clause);
            page.put(random, &[vec![0x8001 + i], special(i)].concat());
        }
    }
    page.fill(random, 4 * BLOCK + 1_000);
}

// Cut by the blocks after each of their fields.
#[test]
fn records_across_blocks() {
    let (mut random, mut tally) = (Random(98), Tally::default());
    let bytes = record(0, &[0; 6]).len();
    for run in [PLAIN, BACK] {
        for cut in (0..=bytes).step_by(2) {
            let mut page = Page::new(run, &mut tally);
            put_across(&mut page, &mut random, cut);
            let what = format!("record begun {cut} before the ends of blocks");
            page.expect_pieces(&[BLOCK, BLOCK - 1, 2 * BLOCK, 1_021], &what);
        }
    }
    tally.assert_least(&[
        ("pages", 18),
        ("records", 20_500),
        ("a head goes", 390),
        ("kept and removes, head between others", 25),
        ("struck behind a head that is there", 2_600),
        ("struck behind a head that is not there", 5_500),
    ]);
}

// Pages of somewhat more than a block, written in small pieces, each of which is a read.
#[test]
fn small_writes() {
    let (mut random, mut tally) = (Random(99), Tally::default());
    for (i, piece) in [1, 2, 3, 5, 7, 13, 64, 509, 4_097].into_iter().enumerate() {
        for run in [PLAIN, BACK] {
            let mut page = Page::new(run, &mut tally);
            while page.bytes < BLOCK + 300 * i {
                let heads = random.heads(4);
                put_going(&mut page, &mut random, &heads);
            }
            page.expect_pieces(&[piece], &format!("heads in pieces of {piece}"));
        }
    }
    tally.assert_least(&[
        ("pages", 18),
        ("records", 8_300),
        ("a head goes", 250),
        ("kept, head gone", 150),
        ("struck behind a head that is there", 900),
        ("struck behind a head that is not there", 1_800),
    ]);
}
