//! Pages for the program that strikes backwards: special clauses first, then general ones that clear them.
use super::{renamed, Random, Style, STYLES};
use model::back_pages::filler;
use model::limits::{KEPT, PROGRAM_TREE};
use model::pages::record;
use model::reader::read;
use model::words::{is_head, is_variable, word, FUNCTION, NEGATIVE, POSITIVE, VARIABLE};

// The clause with other predicates, by the number of a theme: clauses of two themes have nothing to do with each other.
fn themed(clause: &[u16], theme: usize) -> Vec<u16> {
    let shift = |&w: &u16| match is_head(w) {
        true => w ^ (theme as u16 % 1_000) << 1,
        false => w,
    };
    clause.iter().map(shift).collect()
}

// A variable, a constant of a number, and a literal P or not P of a theme with these terms.
const X: u16 = word(VARIABLE, 0, 0);
const Y: u16 = word(VARIABLE, 0, 1);

fn constant(number: usize) -> u16 {
    word(FUNCTION, 0, number as u16)
}

fn literal(theme: usize, terms: &[u16]) -> Vec<u16> {
    let kind = if theme % 2 == 1 { NEGATIVE } else { POSITIVE };
    let head = word(kind, terms.len() as u16, 1 + theme as u16);
    [&[head], terms].concat()
}

impl Random {
    /// An accepted clause of a theme.
    pub fn theme_clause(&mut self, style: Style, theme: usize) -> Vec<u16> {
        loop {
            let clause = themed(&self.clause(style), theme);
            if read(&clause).is_ok() {
                return clause;
            }
        }
    }

    /// A clause that has to do with a general one: it, a variant, what is more general still, or, mostly, an instance, alone or with other literals.
    pub fn about(&mut self, style: Style, general: &[u16]) -> Vec<u16> {
        match self.below(16) {
            0 => general.to_vec(),
            1 => renamed(general, 5),
            2 => self.general(general),
            3 => self.any_clause(style, &[general]),
            4..8 => self.made_of(general),
            _ => {
                let instance = self.instance(general, is_variable);
                match self.one_in(2) {
                    true => instance,
                    false => self.among_strangers(&instance),
                }
            }
        }
    }
}

/// A page of rounds, each about a clause of a theme of its own, which comes last; numbers are below a bound, so that some are taken and some are used
/// again.
pub fn clearing_page(random: &mut Random, rounds: usize, numbers: usize) -> Vec<u8> {
    let style = random.of(&STYLES);
    let mut page = Vec::new();
    for theme in 0..rounds {
        let general = random.theme_clause(style, theme);
        for _ in 0..random.below(14) {
            let clause = random.about(style, &general);
            page.extend(record(random.below(numbers) as u16, &clause));
        }
        page.extend(record(random.below(numbers) as u16, &general));
    }
    page
}

/// A page of units: in each round literals with constants at most places, then one with variables there, which clears those that it falls on; some
/// are asked for again, by themselves or in longer clauses.
pub fn clearing_units(random: &mut Random, rounds: usize, numbers: usize) -> Vec<u8> {
    let mut page = Vec::new();
    let mut add = |clause: &[u16], random: &mut Random| {
        page.extend(record(random.below(numbers) as u16, clause));
    };
    for round in 0..rounds {
        let theme = round % 700;
        let few = 2 + random.below(9);
        for _ in 0..random.below(40) {
            let terms = [
                constant(1 + random.below(few)),
                constant(1 + random.below(few)),
            ];
            let unit = literal(theme, &terms);
            add(&unit, random);
            if random.one_in(4) {
                let longer = [
                    random.of(&[&[0x8001][..], &[0x8001, 0x8801, 0x0001]]),
                    &unit,
                ]
                .concat();
                add(&longer, random);
            }
        }
        let c = constant(1 + random.below(few));
        let general: [&[u16]; 5] = [&[X, X], &[c, X], &[X, c], &[X, Y], &[X, Y]];
        for _ in 0..1 + random.below(3) {
            add(&literal(theme, random.of(&general)), random);
        }
    }
    page
}

/// A page that fills the list and then clears some of it, several times: by clauses that remove none, one, some and, at last, all of what the turn is
/// about.
pub fn clearing_full_list(random: &mut Random, turns: usize) -> Vec<u8> {
    let mut page = Vec::new();
    let e = word(VARIABLE, 0, 2);
    for turn in 0..turns {
        for i in 0..KEPT + 10 + random.below(30) {
            let terms = [
                constant(1 + i % 7),
                constant(10 + i / 7),
                constant(1 + turn),
            ];
            // a number of its own in this turn
            let number = (i * 397 + 100 * turn) % 2_048;
            page.extend(record(number as u16, &literal(turn, &terms)));
        }
        for i in 0..2 + random.below(9) {
            let c = constant(1 + random.below(7));
            let d = constant(10 + random.below(140));
            let general: [&[u16]; 6] = [
                &[X, X, Y],
                &[c, d, X],
                &[X, d, Y],
                &[c, X, Y],
                &[X, Y, X],
                &[c, X, c],
            ];
            let number = match random.one_in(4) {
                true => random.below(2_048),
                false => 3_000 + 100 * turn + i,
            };
            let clause = literal(turn, random.of(&general));
            page.extend(record(number as u16, &clause));
            // a stranger, for which there may be a place
            let clause = literal(100 + i, &[constant(1 + turn)]);
            page.extend(record((5_000 + 100 * turn + i) as u16, &clause));
        }
        page.extend(record(60_000 + turn as u16, &literal(turn, &[X, Y, e])));
    }
    page
}

/// A page that leaves few words of the tree or none, then general clauses that free some and need others, more or fewer.
pub fn clearing_full_tree(random: &mut Random) -> Vec<u8> {
    let mut page = Vec::new();
    // pairs that share all but their last word
    for pair in 0..30 {
        for last in 0..1 + random.below(3) {
            let terms = [constant(1), constant(1), constant(1 + last)];
            page.extend(record((10 * pair + last) as u16, &literal(pair, &terms)));
        }
    }
    let rest = 2_000 + random.below(400);
    page.extend(filler(PROGRAM_TREE - rest, 1_000));
    // until it is full
    for i in 0..260 {
        let words = 1 + random.below(3);
        let clause = [
            literal(100 + i, &[constant(1), X, X][..words]),
            literal(99, &[X]),
        ]
        .concat();
        page.extend(record(2_000 + i as u16, &clause));
    }
    for i in 0..60 {
        let (a, b) = (constant(1), constant(2));
        let general: [&[u16]; 7] = [
            &[X, X, X],
            &[a, X, X],
            &[a, a, X],
            &[X, Y, Y],
            &[X, a, b],
            &[a, X, a],
            &[X, Y, a],
        ];
        let clause = literal(random.below(30), random.of(&general));
        page.extend(record(10_000 + i, &clause));
        if random.one_in(4) {
            page.extend(record(20_000 + i, &literal(random.below(30), &[a, a, a])));
        }
    }
    page
}
