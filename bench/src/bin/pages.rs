//! Pages to measure on: `pages FAMILY RECORDS SEED [KEPT]` writes the same bytes each time. README.md says what the families are.
use std::io::{self, Write};
use std::{env, process};

/// Marsaglia's xorshift, 64 bits.
struct Random(u64);

impl Random {
    fn new(seed: u64) -> Random {
        let mut random = Random(seed.wrapping_mul(0x9e37_79b9_7f4a_7c15) | 1);
        for _ in 0..8 {
            random.next();
        }
        random
    }

    fn next(&mut self) -> u64 {
        self.0 ^= self.0 << 13;
        self.0 ^= self.0 >> 7;
        self.0 ^= self.0 << 17;
        self.0
    }

    fn below(&mut self, n: usize) -> usize {
        ((self.next() >> 32) as usize * n) >> 32
    }

    fn percent(&mut self, n: usize) -> bool {
        self.below(100) < n
    }

    fn shuffle<T>(&mut self, items: &mut [T]) {
        for i in (1..items.len()).rev() {
            items.swap(i, self.below(i + 1));
        }
    }
}

type Words = Vec<u16>;
type Literals = Vec<Words>;

fn function(arity: usize, number: usize) -> u16 {
    (arity << 11 | number) as u16
}

fn variable(number: usize) -> u16 {
    0x4000 | number as u16
}

fn variable_of(word: u16) -> Option<usize> {
    (word >> 14 == 1).then_some(usize::from(word & 0x7ff))
}

fn head(negative: bool, arity: usize, number: usize) -> u16 {
    0x8000 | u16::from(negative) << 14 | function(arity, number)
}

/// Each variable replaced by its term.
fn replaced(words: &[u16], terms: &[Words]) -> Words {
    let term = |&word: &u16| match variable_of(word) {
        Some(v) => terms[v].clone(),
        None => vec![word],
    };
    words.iter().flat_map(term).collect()
}

/// Interlocks of a plant: signals at zones. Signal s has 1 to 3 arguments; a rule has `least` to `most` literals.
#[derive(Clone, Copy)]
struct Plant {
    signals: usize,
    zones: usize,
    least: usize,
    most: usize,
    /// The most literals that an instance has.
    instance: usize,
}

const FURNACES: Plant = Plant {
    signals: 40,
    zones: 300,
    least: 1,
    most: 3,
    instance: 5,
};
const WIDE: Plant = Plant {
    signals: 9,
    zones: 14,
    least: 3,
    most: 5,
    instance: 8,
};
/// Function 0: the fan of a zone.
const FAN: usize = 0;

impl Plant {
    fn zone(&self, random: &mut Random) -> Words {
        let zone = function(0, 1 + random.below(self.zones));
        if random.percent(8) {
            vec![function(1, FAN), zone]
        } else {
            vec![zone]
        }
    }

    fn literal(&self, random: &mut Random, argument: impl Fn(&mut Random) -> Words) -> Words {
        let signal = random.below(self.signals);
        let arity = 1 + signal % 3;
        let mut words = vec![head(random.percent(50), arity, signal)];
        for _ in 0..arity {
            words.extend(argument(random));
        }
        words
    }

    /// A rule: literals over three variables and some zones. One of a single literal names a zone, or it would cover too much.
    fn rule(&self, random: &mut Random) -> Literals {
        let count = self.least + random.below(self.most - self.least + 1);
        let fixed = if count == 1 { 100 } else { 15 };
        let argument = |random: &mut Random| match random.below(100) {
            n if n < fixed => self.zone(random),
            n if n < 75 => vec![variable(0)],
            n if n < 92 => vec![variable(1)],
            _ => vec![variable(2)],
        };
        (0..count).map(|_| self.literal(random, argument)).collect()
    }

    /// An instance of a rule, mostly at zones, weakened by further literals, in any order.
    fn instance(&self, random: &mut Random, rule: &Literals) -> Literals {
        let terms: Vec<Words> = (0..3)
            .map(|v| {
                if random.percent(10) {
                    vec![variable(5 + v)]
                } else {
                    self.zone(random)
                }
            })
            .collect();
        let mut literals: Literals = rule.iter().map(|l| replaced(l, &terms)).collect();
        for _ in 0..random.below(self.instance - literals.len() + 1) {
            literals.push(self.literal(random, |random| self.zone(random)));
        }
        if random.percent(50) {
            random.shuffle(&mut literals);
        }
        literals
    }

    fn rules(&self, random: &mut Random, count: usize) -> Vec<Literals> {
        (0..count).map(|_| self.rule(random)).collect()
    }
}

/// Rules at the start, after some hundred instances, or one in forty records.
fn rules(
    plant: Plant,
    order: &str,
    count: usize,
    random: &mut Random,
    records: usize,
) -> Vec<Literals> {
    let rules = plant.rules(random, count);
    let mut page = Vec::new();
    let mut given = 0;
    for i in 0..records {
        let due = match order {
            "first" => true,
            "late" => i >= 300,
            _ => i % 40 == 0,
        };
        if due && given < rules.len() {
            page.push(rules[given].clone());
            given += 1;
            continue;
        }
        let known = if order == "late" || random.percent(2) {
            rules.len()
        } else {
            given
        };
        let rule = &rules[random.below(known)];
        page.push(plant.instance(random, rule));
    }
    page
}

/// Two records of three are new rules, far more than there is room for; the others are instances of early ones.
fn overfull(random: &mut Random, records: usize) -> Vec<Literals> {
    let plant = Plant {
        least: 2,
        ..FURNACES
    };
    let early = plant.rules(random, 400);
    let one = |i: usize| match early.get(i) {
        Some(rule) => rule.clone(),
        None if random.percent(67) => plant.rule(random),
        None => {
            let rule = random.below(early.len());
            plant.instance(random, &early[rule])
        }
    };
    (0..records).map(one).collect()
}

/// A random implication of so many leaves, over so many variables.
fn implication(random: &mut Random, leaves: usize, variables: usize) -> Words {
    if leaves == 1 {
        return vec![variable(random.below(variables))];
    }
    let left = 1 + random.below(leaves - 1);
    let mut words = vec![function(2, 1)];
    words.extend(implication(random, left, variables));
    words.extend(implication(random, leaves - left, variables));
    words
}

/// Single literals "this implication is a theorem": schemes, one in three records until all are given, and instances of them.
fn detachment(random: &mut Random, records: usize) -> Vec<Literals> {
    let theorem = head(false, 1, 1);
    let mut schemes: Vec<Words> = Vec::new();
    let mut page = Vec::new();
    for i in 0..records {
        let words = if i % 3 == 0 && schemes.len() < 400 {
            let (leaves, variables) = (5 + random.below(6), 2 + random.below(3));
            schemes.push(implication(random, leaves, variables));
            schemes[schemes.len() - 1].clone()
        } else {
            let scheme = random.below(schemes.len());
            detached(random, &schemes[scheme])
        };
        page.push(vec![[vec![theorem], words].concat()]);
    }
    page
}

/// An instance of a scheme that is no longer than a clause may be.
fn detached(random: &mut Random, scheme: &[u16]) -> Words {
    loop {
        let terms: Vec<Words> = (0..4)
            .map(|_| {
                let leaves = 1 + random.below(4);
                implication(random, leaves, 5)
            })
            .collect();
        let words = replaced(scheme, &terms);
        if words.len() < 64 {
            return words;
        }
    }
}

const NODES: usize = 30;

fn link(from: Words, to: Words) -> Words {
    [vec![head(true, 2, 1)], from, to].concat()
}

fn node(random: &mut Random) -> Words {
    vec![function(0, 1 + random.below(NODES))]
}

/// A chain of 3 to 5 links from one named node to another by way of variables.
fn route(random: &mut Random) -> Literals {
    let links = 3 + random.below(3);
    let mut stops = vec![node(random)];
    stops.extend((1..links).map(|v| vec![variable(v - 1)]));
    stops.push(node(random));
    let mut literals: Literals = stops
        .windows(2)
        .map(|ends| link(ends[0].clone(), ends[1].clone()))
        .collect();
    random.shuffle(&mut literals);
    literals
}

/// Up to eight literals of one predicate: routes, one in ten records until all are given, and routes with further links.
fn one_predicate(random: &mut Random, records: usize) -> Vec<Literals> {
    let mut routes: Vec<Literals> = Vec::new();
    let mut page = Vec::new();
    for i in 0..records {
        if i % 10 == 0 && routes.len() < 120 {
            routes.push(route(random));
            page.push(routes[routes.len() - 1].clone());
            continue;
        }
        let terms: Vec<Words> = (0..4).map(|_| node(random)).collect();
        let chosen = random.below(routes.len());
        let mut literals: Literals = routes[chosen].iter().map(|l| replaced(l, &terms)).collect();
        while literals.len() < 8 && random.percent(80) {
            literals.push(link(node(random), node(random)));
        }
        random.shuffle(&mut literals);
        page.push(literals);
    }
    page
}

/// So many kept clauses "not signal s at zone z, or signal t at zone z", then records that nothing covers: their zones all differ.
fn growth(random: &mut Random, records: usize, kept: usize) -> Vec<Literals> {
    let (signals, zones) = (40, 200);
    let at = |negative, signal, zone| vec![head(negative, 1, signal), function(0, 1 + zone)];
    let mut page: Vec<Literals> = Vec::new();
    while page.len() < kept {
        let zone = random.below(zones);
        let (s, t) = (random.below(signals), random.below(signals));
        let clause = vec![at(true, s, zone), at(false, t, zone)];
        if !page.contains(&clause) {
            page.push(clause);
        }
    }
    for _ in 0..records {
        let start = random.below(zones);
        let literals =
            (0..3).map(|i| at(i % 2 == 0, random.below(signals), (start + i * 7) % zones));
        page.push(literals.collect());
    }
    page
}

fn family(name: &str, random: &mut Random, records: usize, kept: usize) -> Option<Vec<Literals>> {
    Some(match name {
        "rules-first" => rules(FURNACES, "first", 150, random, records),
        "rules-late" => rules(FURNACES, "late", 150, random, records),
        "rules-mixed" => rules(FURNACES, "mixed", 150, random, records),
        "wide" => rules(WIDE, "first", 240, random, records),
        "detachment" => detachment(random, records),
        "one-predicate" => one_predicate(random, records),
        "overfull" => overfull(random, records),
        "growth" => growth(random, records, kept),
        _ => return None,
    })
}

/// Writes the records, numbered from 1; those after the kept ones of `growth` have number 1, which is taken.
fn write(page: &[Literals], kept: usize) -> io::Result<()> {
    let mut bytes = Vec::new();
    for (i, literals) in page.iter().enumerate() {
        let number = if kept > 0 && i >= kept { 1 } else { i + 1 };
        let words = literals.concat();
        for field in [number as u16, words.len() as u16].iter().chain(&words) {
            bytes.extend(field.to_be_bytes());
        }
    }
    io::stdout().write_all(&bytes)
}

fn main() -> io::Result<()> {
    let words: Vec<String> = env::args().skip(1).collect();
    let number = |i: usize| words.get(i).and_then(|w| w.parse::<usize>().ok());
    let page = match (words.first(), number(1), number(2)) {
        (Some(name), Some(records), Some(seed)) => family(
            name,
            &mut Random::new(seed as u64),
            records,
            number(3).unwrap_or(0),
        ),
        _ => None,
    };
    let Some(page) = page else {
        eprintln!("usage: pages FAMILY RECORDS SEED [KEPT]");
        process::exit(2)
    };
    write(&page, number(3).unwrap_or(0))
}
