//! All tests of the interface and of the program in one binary: what they share is built once, and a long test leaves no core idle.
mod any_words;
mod backward;
mod beside;
mod calls;
mod cases;
mod drawn;
mod listed;
mod program;
mod program_back;
mod program_heads;
mod program_shuffled;
mod readings;
mod repeated;
mod running;
mod saved;
mod set;
mod sets;
mod sheet;
mod units;

use std::fs::read_dir;
use std::path::Path;

// A file or folder beside this one that is no module of it would not be run.
#[test]
fn each_file_is_a_module() {
    let folder = Path::new(env!("CARGO_MANIFEST_DIR")).join("tests");
    let modules = include_str!("all.rs");
    for entry in read_dir(folder).expect("the folder of the tests") {
        let path = entry.expect("an entry").path();
        let name = path.file_stem().and_then(|name| name.to_str());
        let name = name.expect("a name in UTF-8");
        let is_module = modules.contains(&format!("\nmod {name};\n"));
        assert!(is_module || name == "all", "{name} is not run");
    }
}
