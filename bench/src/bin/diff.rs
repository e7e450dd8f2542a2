//! Puts the same calls to the reference and to another typer and compares reply by reply.
//!
//! `diff [--cases N] [--seed S]`: calls on books, to the reference and to a book with types found by substitutions over
//! expansions; with the feature `library`, calls on books and on catalogue files to the linked library as well.
//! `diff --program PATH`: lines for the program that stands there.

use bench::compare::{self, Counts, session, shorten};
use bench::generator::Random;
use bench::program::{self, Program};
use bench::reference::Definition;
use bench::typer::{Files, Typer};

struct Options {
    cases: usize,
    seed: u64,
    program: Option<String>,
}

fn options() -> Options {
    let mut options = Options { cases: 100_000, seed: 1, program: None };
    let mut arguments = std::env::args().skip(1);
    while let Some(flag) = arguments.next() {
        let value = arguments.next().expect("a flag has a value");
        match flag.as_str() {
            "--cases" => options.cases = value.parse().expect("a number"),
            "--seed" => options.seed = value.parse().expect("a number"),
            "--program" => options.program = Some(value),
            _ => panic!("unknown flag {flag}"),
        }
    }
    options
}

/// Compares calls on books, and looks at the other's book after each session.
fn books<T: Typer>(options: &Options, other: &str, mut after: impl FnMut(&T)) -> bool {
    let mut counts = Counts::default();
    let mut random = Random::new(options.seed);
    while counts.total() < options.cases {
        let left = options.cases - counts.total();
        match session::<T>(&mut random, &mut counts, left) {
            Ok(book) => after(&book),
            Err(found) => {
                println!("DIFFERENCE from {other} after {} calls", counts.total());
                println!("{}", shorten::<T>(*found));
                return false;
            }
        }
    }
    print(&counts, &format!("calls on books, the reference and {other}"));
    true
}

fn files<F: Files>(options: &Options, other: &str) -> bool {
    let mut counts = Counts::default();
    let mut random = Random::new(options.seed);
    while counts.total() < options.cases / 5 {
        if let Some(found) = compare::file::<F>(&mut random, &mut counts) {
            println!("DIFFERENCE from {other} after {} files\n{found}", counts.total());
            return false;
        }
    }
    print(&counts, &format!("catalogue files, the reference and {other}"));
    true
}

fn print(counts: &Counts, compared: &str) {
    let answered = counts.0.get(&0).unwrap_or(&0);
    println!("{} {compared}: no difference; answered {answered}", counts.total());
    let refused = counts.0.iter().filter(|(number, _)| **number > 0);
    let refused: Vec<String> = refused.map(|(number, count)| format!("{number}: {count}")).collect();
    println!("    refused by number: {}", refused.join(", "));
}

fn lines(options: &Options, path: &str) -> bool {
    let program = Program::at(path).expect("the program runs");
    let mut random = Random::new(options.seed);
    let mut compared = 0;
    while compared < options.cases {
        match program::run(&mut random, path, program).expect("the program runs") {
            Ok(count) => compared += count,
            Err(found) => {
                println!("DIFFERENCE from {path} after {compared} lines\n{found}");
                return false;
            }
        }
    }
    println!("{compared} lines, the reference and {path}: no difference");
    true
}

/// Against the book that is close to the definitions.
fn definitions(options: &Options) -> bool {
    let (mut asked, mut too_large) = (0, 0);
    let same = books::<Definition>(options, "substitutions over expansions", |book| {
        asked += book.engine().asked;
        too_large += book.engine().left_to_graph;
    });
    println!("    types asked for: {asked}, of which too large for plain trees: {too_large}");
    same
}

#[cfg(feature = "library")]
fn library(options: &Options) -> bool {
    use bench::ffi::{Library, LibraryFiles};
    books::<Library>(options, "the library", |_| {}) && files::<LibraryFiles>(options, "the library")
}

#[cfg(not(feature = "library"))]
fn library(options: &Options) -> bool {
    println!("no library is linked; files are only counted");
    files::<bench::reference::FileReader>(options, "itself")
}

fn run() -> bool {
    let options = options();
    println!("seed {}, cases {}", options.seed, options.cases);
    match &options.program {
        Some(path) => lines(&options, path),
        None => definitions(&options) & library(&options),
    }
}

fn main() {
    // Plain trees are walked by recursion.
    let worker = std::thread::Builder::new().stack_size(256 << 20).spawn(run).expect("a thread");
    let same = worker.join().unwrap_or(false);
    std::process::exit(if same { 0 } else { 1 });
}
