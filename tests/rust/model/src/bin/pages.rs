//! Writes the stored pages and what the program must print of them: NAME.page and NAME.out in tests/pages, or in the folder given. In the folder
//! `back` below it are those that are run with the argument `back`.
use model::back_pages::back_pages;
use model::pages::{pages, Page};
use model::program::{output, Setting};
use std::fs::{create_dir_all, write};
use std::io::Result;
use std::path::{Path, PathBuf};

fn write_pages(folder: &Path, pages: Vec<Page>, setting: Setting) -> Result<()> {
    create_dir_all(folder)?;
    for (name, page) in pages {
        let path = folder.join(name);
        write(path.with_extension("out"), output(&page, setting))?;
        write(path.with_extension("page"), page)?;
    }
    Ok(())
}

fn main() -> Result<()> {
    let stored = Path::new(env!("CARGO_MANIFEST_DIR")).join("../../pages");
    let folder = std::env::args_os().nth(1).map_or(stored, PathBuf::from);
    write_pages(&folder, pages(), Setting::Plain)?;
    write_pages(&folder.join("back"), back_pages(), Setting::Back)
}
