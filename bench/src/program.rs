//! The comparison with the program: lines go in, and its output is compared line by line.

use crate::generator::formulas::Setting;
use crate::generator::{Random, texts};
use crate::limits;
use crate::reference::Reference;
use crate::typer::{Memory, Typer};
use std::io::Write;
use std::process::{Command, Stdio};

/// The most bytes that the program reads.
const INPUT: usize = 65_536;

/// Which program it is.
#[derive(Clone, Copy, PartialEq)]
pub enum Program {
    /// Each line is a formula by itself, and its type is printed.
    Lines,
    /// All lines go to one book, and numbers and types are printed.
    Book,
}

impl Program {
    /// Finds out by its reply to one line.
    pub fn at(path: &str) -> std::io::Result<Self> {
        let printed = output(path, br"\x.x".to_vec())?;
        Ok(if printed.starts_with(b"#0 : ") { Program::Book } else { Program::Lines })
    }
}

/// What the program prints for an input.
fn output(path: &str, input: Vec<u8>) -> std::io::Result<Vec<u8>> {
    let mut child = Command::new(path).stdin(Stdio::piped()).stdout(Stdio::piped()).spawn()?;
    let mut stdin = child.stdin.take().expect("it is piped");
    let writer = std::thread::spawn(move || stdin.write_all(&input));
    let printed = child.wait_with_output()?.stdout;
    let _ = writer.join();
    Ok(printed)
}

/// A line that the program answered otherwise than the reference.
pub struct Difference {
    pub line: Vec<u8>,
    pub ours: Vec<u8>,
    pub theirs: Vec<u8>,
}

/// The reference's side of one run.
struct Replies {
    program: Program,
    book: Reference,
    memory: Memory,
}

impl Replies {
    fn new(program: Program) -> Self {
        let memory = Memory::zeros(limits::TERM, limits::NEED, limits::numbers(limits::NEED, limits::TERM));
        Self { program, book: Reference::new(), memory }
    }

    /// What is printed for a line, without its end.
    fn to(&mut self, line: &[u8]) -> Vec<u8> {
        let outcome = self.book.submit(line, &mut self.memory).and_then(|()| self.book.file());
        let mut out = [0; limits::LINE];
        let length = self.book.line(outcome, &mut out).expect("there is room");
        let mut reply = out[..length - 1].to_vec();
        if self.program == Program::Lines && outcome.is_ok() {
            reply.drain(.."#0 : ".len());
            self.book.withdraw().expect("a formula is filed");
        }
        reply
    }

    /// How many formulas a line may refer to.
    fn filed(&self) -> usize {
        self.book.filed().len()
    }
}

/// A line and the reply that is expected.
struct Expected {
    line: Vec<u8>,
    reply: Vec<u8>,
}

/// The input for one run, and its lines with their replies.
fn lines(random: &mut Random, program: Program) -> (Vec<u8>, Vec<Expected>) {
    let (mut input, mut expected, mut replies) = (Vec::new(), Vec::new(), Replies::new(program));
    let primitives: Vec<String> = replies
        .book
        .catalogue()
        .entries
        .iter()
        .map(|entry| String::from_utf8_lossy(&entry.name).into_owned())
        .collect();
    loop {
        let setting = Setting { primitives: primitives.clone(), filed: replies.filed() };
        let text = texts::any(random, &setting);
        for line in text.split(|&byte| byte == b'\n') {
            if input.len() + line.len() + 1 > INPUT {
                return (input, expected);
            }
            input.extend(line);
            input.push(b'\n');
            expected.push(Expected { line: line.to_vec(), reply: replies.to(line) });
        }
    }
}

/// Runs the program once. Answers how many lines were compared, or the first that differs.
pub fn run(random: &mut Random, path: &str, program: Program) -> std::io::Result<Result<usize, Difference>> {
    let (input, expected) = lines(random, program);
    let output = output(path, input)?;
    let mut printed = output.split(|&byte| byte == b'\n');
    let count = expected.len();
    for Expected { line, reply } in expected {
        let theirs = printed.next().unwrap_or_default().to_vec();
        if reply != theirs {
            return Ok(Err(Difference { line, ours: reply, theirs }));
        }
    }
    Ok(Ok(count))
}

impl std::fmt::Display for Difference {
    fn fmt(&self, f: &mut std::fmt::Formatter<'_>) -> std::fmt::Result {
        writeln!(f, "  line:      {}", self.line.escape_ascii())?;
        writeln!(f, "  reference: {}", self.ours.escape_ascii())?;
        writeln!(f, "  program:   {}", self.theirs.escape_ascii())
    }
}
