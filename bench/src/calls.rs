//! Calls with all that they are given, and all that they leave: what is compared.

use crate::generator::Random;
use crate::typer::{Memory, Reply, TermNode, TypeNode, Typer};
use std::fmt;

/// Over which catalogue a book is made.
#[derive(Clone)]
pub enum Over {
    Builtin,
    File(Vec<u8>),
}

impl Over {
    pub fn book<T: Typer>(&self) -> T {
        match self {
            Over::Builtin => T::new(),
            Over::File(file) => T::over(file),
        }
    }
}

/// A call on a book. Memories are given by their lengths and by the seed of what they hold before.
#[derive(Clone)]
pub enum Call {
    Submit { text: Vec<u8>, terms: usize, types: usize, numbers: usize, seed: u64 },
    File,
    Dismiss,
    Withdraw,
    Show { n: u16, room: usize },
    Line { outcome: Reply<u16>, room: usize },
    Derive { n: u16, types: usize, places: usize, numbers: usize, seed: u64 },
    Check { n: u16, list: Vec<TypeNode>, places: Vec<u16> },
}

/// What memories hold after a call.
#[derive(PartialEq)]
pub enum Left {
    Nothing,
    Memory(Memory),
    Bytes(Vec<u8>),
    Derivation(Vec<TypeNode>, Vec<u16>, Vec<u32>),
}

/// A reply and what the call left.
#[derive(PartialEq)]
pub struct Outcome {
    pub reply: Reply<usize>,
    pub left: Left,
}

fn number(n: u16) -> usize {
    n.into()
}

fn some_types(random: &mut Random, count: usize) -> Vec<TypeNode> {
    (0..count)
        .map(|_| random.word())
        .map(|w| TypeNode { kind: w as u8, left: (w >> 8) as u16, right: (w >> 24) as u16 })
        .collect()
}

fn some_numbers(random: &mut Random, count: usize) -> Vec<u32> {
    (0..count).map(|_| random.word() as u32).collect()
}

impl Call {
    pub fn put<T: Typer>(&self, book: &mut T) -> Outcome {
        match *self {
            Call::Submit { ref text, terms, types, numbers, seed } => {
                let mut random = Random::new(seed);
                let term = |w: u64| TermNode { kind: w as u8, number: (w >> 8) as u16 };
                let mut memory = Memory {
                    terms: (0..terms).map(|_| term(random.word())).collect(),
                    types: some_types(&mut random, types),
                    numbers: some_numbers(&mut random, numbers),
                };
                let reply = book.submit(text, &mut memory).map(|()| 0);
                Outcome { reply, left: Left::Memory(memory) }
            }
            Call::File => Outcome { reply: book.file().map(number), left: Left::Nothing },
            Call::Dismiss => Outcome { reply: book.dismiss().map(|()| 0), left: Left::Nothing },
            Call::Withdraw => Outcome { reply: book.withdraw().map(number), left: Left::Nothing },
            Call::Show { n, room } => {
                let mut out = vec![b'?'; room];
                Outcome { reply: book.show(n, &mut out), left: Left::Bytes(out) }
            }
            Call::Line { outcome, room } => {
                let mut out = vec![b'?'; room];
                Outcome { reply: book.line(outcome, &mut out), left: Left::Bytes(out) }
            }
            Call::Derive { n, types, places, numbers, seed } => {
                let mut random = Random::new(seed);
                let mut types = some_types(&mut random, types);
                let mut places: Vec<u16> = (0..places).map(|_| random.word() as u16).collect();
                let mut numbers = some_numbers(&mut random, numbers);
                let reply = book.derive(n, &mut types, &mut places, &mut numbers);
                Outcome { reply, left: Left::Derivation(types, places, numbers) }
            }
            Call::Check { n, ref list, ref places } => {
                Outcome { reply: book.check(n, list, places).map(|()| 0), left: Left::Nothing }
            }
        }
    }
}

fn quoted(bytes: &[u8]) -> String {
    bytes.escape_ascii().to_string()
}

impl fmt::Debug for Call {
    fn fmt(&self, f: &mut fmt::Formatter<'_>) -> fmt::Result {
        match self {
            Call::Submit { text, terms, types, numbers, .. } => {
                write!(f, "submit({} bytes: \"{}\", memories of {terms}, {types}, {numbers})", text.len(), quoted(text))
            }
            Call::File => write!(f, "file()"),
            Call::Dismiss => write!(f, "dismiss()"),
            Call::Withdraw => write!(f, "withdraw()"),
            Call::Show { n, room } => write!(f, "show({n}, {room} bytes)"),
            Call::Line { outcome, room } => write!(f, "line({outcome:?}, {room} bytes)"),
            Call::Derive { n, types, places, numbers, .. } => {
                write!(f, "derive({n}, memories of {types}, {places}, {numbers})")
            }
            Call::Check { n, list, places } => {
                let nodes: Vec<_> = list.iter().map(|node| (node.kind, node.left, node.right)).collect();
                write!(f, "check({n}, {nodes:?}, {places:?})")
            }
        }
    }
}

impl fmt::Debug for Over {
    fn fmt(&self, f: &mut fmt::Formatter<'_>) -> fmt::Result {
        match self {
            Over::Builtin => write!(f, "the built-in catalogue"),
            Over::File(file) => write!(f, "the file \"{}\"", quoted(file)),
        }
    }
}

impl fmt::Debug for Outcome {
    fn fmt(&self, f: &mut fmt::Formatter<'_>) -> fmt::Result {
        match &self.reply {
            Ok(answer) => write!(f, "answered {answer}")?,
            Err(refusal) => write!(f, "{refusal}")?,
        }
        match &self.left {
            Left::Nothing => Ok(()),
            Left::Memory(memory) => {
                let zeros = *memory == Memory::zeros(memory.terms.len(), memory.types.len(), memory.numbers.len());
                write!(f, ", memories {}", if zeros { "all zeros" } else { "not all zeros" })
            }
            Left::Bytes(bytes) => write!(f, ", leaving \"{}\"", quoted(&bytes[..bytes.len().min(4_200)])),
            Left::Derivation(types, places, numbers) => {
                let nodes: Vec<_> = types.iter().map(|node| (node.kind, node.left, node.right)).collect();
                let zeros = numbers.iter().all(|&n| n == 0);
                write!(f, ", leaving {nodes:?}, {places:?}, numbers {}", if zeros { "zeros" } else { "not zeros" })
            }
        }
    }
}
