//! Prints what the program must print of standard input, with the same arguments: `program back < PAGE`.
use model::program::{output, Setting};
use std::io::{stdin, Read};

fn main() -> std::io::Result<()> {
    let mut page = Vec::new();
    stdin().read_to_end(&mut page)?;
    let arguments = std::env::args_os().skip(1);
    // what is no text is not `back`
    let arguments: Vec<String> = arguments
        .map(|argument| argument.to_string_lossy().into_owned())
        .collect();
    let arguments: Vec<&str> = arguments.iter().map(String::as_str).collect();
    print!("{}", output(&page, Setting::of(&arguments)));
    Ok(())
}
