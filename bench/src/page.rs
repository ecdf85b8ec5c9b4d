//! A page: records in, lines and tally sheet out (document 01, "The program"; F-1 and F-6 of document 02).
use std::io::{self, Read, Write};

/// What becomes of a record.
pub enum Verdict {
    Kept { used: usize },
    Struck { by: u32, candidates: u64 },
    Refused { code: u64 },
}

/// The whole of standard input.
pub fn input() -> io::Result<Vec<u8>> {
    let mut page = Vec::new();
    io::stdin().lock().read_to_end(&mut page)?;
    Ok(page)
}

fn field(bytes: &[u8]) -> Option<u16> {
    Some(u16::from_be_bytes([*bytes.first()?, *bytes.get(1)?]))
}

/// The words of a record's bytes.
pub fn words(bytes: &[u8]) -> impl Iterator<Item = u16> + '_ {
    bytes
        .chunks_exact(2)
        .map(|pair| u16::from_be_bytes([pair[0], pair[1]]))
}

/// The whole records of a page, each as its number and the bytes of its words; a cut record ends the page.
pub fn records(page: &[u8]) -> impl Iterator<Item = (u16, &[u8])> {
    let mut rest = page;
    std::iter::from_fn(move || {
        let number = field(rest)?;
        let count = field(rest.get(2..)?)?;
        let (bytes, after) = rest[4..].split_at_checked(2 * usize::from(count))?;
        rest = after;
        Some((number, bytes))
    })
}

/// The lines of a page, gathered into large writes, the counts for the line of totals, and the tallies for the sheet.
pub struct Lines {
    text: Vec<u8>,
    /// Whether covering numbers and candidates are told; a matcher without a tree has none.
    values: bool,
    /// Whether the clauses removed are told.
    back: bool,
    struck: u64,
    refused: u64,
    removed: u64,
    /// The numbers kept, in the order of their records, those removed later among them.
    kept: Vec<u16>,
    /// The strikes of each number, and the candidates spent on them.
    tallies: Vec<[u64; 2]>,
}

impl Lines {
    pub fn new(values: bool, back: bool) -> Lines {
        Lines {
            text: Vec::new(),
            values,
            back,
            struck: 0,
            refused: 0,
            removed: 0,
            kept: Vec::new(),
            tallies: vec![[0; 2]; 1 << 16],
        }
    }

    /// The lines of the clauses that a record removes, which come before its own.
    pub fn put_removed(&mut self, removed: &[u16], by: u16) -> io::Result<()> {
        for &number in removed {
            self.removed += 1;
            self.digits(u64::from(number));
            self.text.extend_from_slice(b" removed ");
            self.digits(u64::from(by));
            self.end_line()?;
        }
        Ok(())
    }

    /// The line of a record.
    pub fn put(&mut self, number: u16, verdict: &Verdict) -> io::Result<()> {
        self.digits(u64::from(number));
        match *verdict {
            Verdict::Kept { used } => {
                self.kept.push(number);
                self.text.extend_from_slice(b" kept ");
                self.digits(used as u64);
            }
            Verdict::Struck { by, candidates } => {
                self.struck += 1;
                let [strikes, spent] = &mut self.tallies[by as usize];
                *strikes += 1;
                *spent += candidates;
                self.text.extend_from_slice(b" struck");
                self.values(u64::from(by), candidates);
            }
            Verdict::Refused { code } => {
                self.refused += 1;
                self.text.extend_from_slice(b" refused ");
                self.digits(code);
            }
        }
        self.end_line()
    }

    /// The line of totals, and the sheet: the numbers ever kept by rising number, and how many records were read.
    pub fn end(mut self, records: u64) -> io::Result<()> {
        let (struck, refused, removed) = (self.struck, self.refused, self.removed);
        let kept = self.kept.len() as u64 - removed;
        write!(self.text, "kept {kept} struck {struck} refused {refused}")?;
        if self.back {
            write!(self.text, " removed {removed}")?;
        }
        self.end_line()?;
        let mut numbers = std::mem::take(&mut self.kept);
        numbers.sort_unstable();
        numbers.dedup();
        for number in numbers {
            let [strikes, spent] = self.tallies[usize::from(number)];
            self.digits(u64::from(number));
            self.values(strikes, spent);
            self.end_line()?;
        }
        writeln!(self.text, "{records}")?;
        self.flush()
    }

    fn values(&mut self, first: u64, second: u64) {
        if self.values {
            self.text.push(b' ');
            self.digits(first);
            self.text.push(b' ');
            self.digits(second);
        }
    }

    fn end_line(&mut self) -> io::Result<()> {
        self.text.push(b'\n');
        if self.text.len() >= 1 << 16 {
            self.flush()?;
        }
        Ok(())
    }

    fn flush(&mut self) -> io::Result<()> {
        io::stdout().write_all(&self.text)?;
        self.text.clear();
        Ok(())
    }

    fn digits(&mut self, value: u64) {
        let mut digits = [0; 20];
        let mut from = digits.len();
        let mut rest = value;
        loop {
            from -= 1;
            digits[from] = b'0' + (rest % 10) as u8;
            rest /= 10;
            if rest == 0 {
                break;
            }
        }
        self.text.extend_from_slice(&digits[from..]);
    }
}
