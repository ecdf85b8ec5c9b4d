//! The built program run with arguments, beside the model: every byte that it prints has to be the model's. SUBSUME_BIN names it, or it is
//! crates/subsume/out/subsume.
use model::pages::Page;
use model::program::{output, Setting};
use std::fs::{read, read_dir, read_to_string, remove_file, write, File};
use std::io::Write;
use std::os::fd::AsRawFd;
use std::path::{Path, PathBuf};
use std::process::{ChildStdin, Command, Stdio};
use std::thread::{scope, yield_now};
use std::time::{Duration, Instant};

/// The sizes of the blocks that the program reads, or may read one day.
pub const BLOCKS: [usize; 2] = [65_536, 16_384];

/// The program with these arguments.
#[derive(Clone, Copy, Debug)]
pub struct Run<'a>(pub &'a [&'a str]);

/// Without arguments.
pub const PLAIN: Run = Run(&[]);

/// Striking backwards.
pub const BACK: Run = Run(&["back"]);

// The top of the repository.
fn repository() -> PathBuf {
    Path::new(env!("CARGO_MANIFEST_DIR")).join("../..")
}

extern "C" {
    fn ioctl(file: i32, request: u64, count: *mut i32) -> i32;
}

// Waits until the program has read all that was written to its pipe, so that the next piece is a read of its own.
// One that reads no more is waited for some seconds.
fn wait_until_read(pipe: &ChildStdin) {
    const FIONREAD: u64 = 0x541B;
    let since = Instant::now();
    let mut left = 1;
    while left > 0 && since.elapsed() < Duration::from_secs(5) {
        yield_now();
        // the file is open and the count is lent for the call
        let code = unsafe { ioctl(pipe.as_raw_fd(), FIONREAD, &mut left) };
        assert_eq!(code, 0, "the pipe cannot be asked");
    }
}

// The pages are stored in a folder as the model makes them.
fn expect_written(folder: &Path, pages: &[Page]) {
    for (name, page) in pages {
        let stored = read(folder.join(name).with_extension("page"));
        assert!(stored.unwrap() == *page, "{name}.page");
    }
}

/// Where two texts differ first, in few words.
pub fn expect_same(printed: &str, expected: &str, what: &str) {
    if printed != expected {
        let lines = printed.lines().zip(expected.lines());
        let same = lines.take_while(|(a, b)| a == b).count();
        let line = |text: &str| text.lines().nth(same).map(str::to_string);
        let (got, wanted) = (line(printed), line(expected));
        panic!("{what}: line {same} is {got:?}, not {wanted:?}");
    }
}

impl Run<'_> {
    fn program(self) -> Command {
        let built = || repository().join("crates/subsume/out/subsume").into_os_string();
        let mut program = Command::new(std::env::var_os("SUBSUME_BIN").unwrap_or_else(built));
        program.args(self.0);
        program
    }

    /// What the model prints of a page.
    pub fn output(self, page: &[u8]) -> String {
        output(page, Setting::of(self.0))
    }

    /// What the program prints of pieces, each written when the one before it has been read.
    pub fn printed<'b>(self, pieces: impl Iterator<Item = &'b [u8]> + Send) -> String {
        let mut program = self.program();
        let started = program.stdin(Stdio::piped()).stdout(Stdio::piped()).spawn();
        let mut child = started.unwrap_or_else(|error| panic!("{program:?}: {error}"));
        let mut pipe = child.stdin.take().expect("a pipe");
        let output = scope(|threads| {
            threads.spawn(move || {
                for piece in pieces {
                    // a program that stopped early is found by what it printed
                    if pipe.write_all(piece).is_err() {
                        return;
                    }
                    wait_until_read(&pipe);
                }
            });
            child.wait_with_output().expect("the program's output")
        });
        assert!(output.status.success());
        String::from_utf8(output.stdout).expect("text")
    }

    /// Compares what the program prints of a page in pieces of some size.
    pub fn expect_page(self, page: &[u8], piece: usize, what: &str) {
        expect_same(&self.printed(page.chunks(piece)), &self.output(page), what);
    }

    /// Compares what the program prints of a file, which it reads in blocks of its own size.
    pub fn expect_file(self, path: &Path, expected: &str, what: &str) {
        let file = File::open(path).expect("a page");
        let run = self.program().stdin(file).output();
        let output = run.unwrap_or_else(|error| panic!("{:?}: {error}", self.program()));
        assert!(output.status.success());
        expect_same(
            &String::from_utf8(output.stdout).expect("text"),
            expected,
            what,
        );
    }

    // Compares what model and program print of each page in a folder with the lines that stand beside it under another extension; gives how many
    // pages there are.
    fn expect_folder(self, folder: &Path, lines: &str) -> usize {
        let mut pages = 0;
        for entry in read_dir(folder).unwrap() {
            let path = entry.unwrap().path();
            if path.extension().is_some_and(|page| page == "page") {
                let expected = read_to_string(path.with_extension(lines)).unwrap();
                let what = path.display().to_string();
                expect_same(&self.output(&read(&path).unwrap()), &expected, &what);
                self.expect_file(&path, &expected, &what);
                pages += 1;
            }
        }
        pages
    }

    /// Compares a folder's pages with the model's, and what is printed of them and of the samples with the lines beside them, a sample's under an
    /// extension.
    pub fn expect_stored(self, folder: &str, pages: &[Page], lines: &str) {
        let [folder, samples] = [folder, "samples"].map(|name| repository().join(name));
        expect_written(&folder, pages);
        let stored = self.expect_folder(&folder, "out") + self.expect_folder(&samples, lines);
        assert!(
            stored > pages.len(),
            "{stored} pages, the sample among them"
        );
    }

    /// Compares what the program prints of a page cut at each byte in two pieces, which are two reads.
    pub fn expect_two_pieces(self, page: &[u8]) {
        let expected = self.output(page);
        for at in 1..page.len() {
            let (first, second) = page.split_at(at);
            let text = self.printed([first, second].into_iter());
            expect_same(&text, &expected, &format!("cut at {at}"));
        }
    }

    /// Compares what the program prints of a page as a file, and as pieces of some sizes through a pipe.
    pub fn expect_both(self, page: &[u8], pieces: &[usize], what: &str) {
        let expected = self.output(page);
        let name = what.replace(' ', "-");
        let path = Path::new(env!("CARGO_TARGET_TMPDIR"))
            .join(name)
            .with_extension("page");
        write(&path, page).expect("a page written");
        self.expect_file(&path, &expected, what);
        remove_file(&path).expect("the page removed");
        for &piece in pieces {
            let what = format!("{what}, in pieces of {piece}");
            expect_same(&self.printed(page.chunks(piece)), &expected, &what);
        }
    }
}
