//! Writes the model's lines of the rows on standard input: tests/rust/cases/lines.txt is what it writes of rows.txt there.
use model::cases::{output, Model};
use std::io::{read_to_string, stdin};

fn main() -> std::io::Result<()> {
    let rows = read_to_string(stdin())?;
    print!("{}", output::<Model>(&rows));
    Ok(())
}
