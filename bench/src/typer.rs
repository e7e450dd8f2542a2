//! What a typer is: the calls on a book and on a catalogue file, and their replies.

use std::fmt;

/// A node of a list of type nodes.
#[repr(C)]
#[derive(Clone, Copy, Debug, Default, PartialEq, Eq, Hash)]
pub struct TypeNode {
    pub kind: u8,
    pub left: u16,
    pub right: u16,
}

impl TypeNode {
    pub const VARIABLE: u8 = 0;
    pub const BASE: u8 = 1;
    pub const ARROW: u8 = 2;

    pub const fn variable(number: u16) -> Self {
        Self { kind: Self::VARIABLE, left: number, right: 0 }
    }

    pub const fn base(code: u16) -> Self {
        Self { kind: Self::BASE, left: code, right: 0 }
    }

    pub const fn arrow(left: u16, right: u16) -> Self {
        Self { kind: Self::ARROW, left, right }
    }
}

/// A node of a term in prefix order.
#[repr(C)]
#[derive(Clone, Copy, Debug, Default, PartialEq, Eq)]
pub struct TermNode {
    pub kind: u8,
    pub number: u16,
}

impl TermNode {
    pub const VARIABLE: u8 = 0;
    pub const ABSTRACTION: u8 = 1;
    pub const APPLICATION: u8 = 2;
    pub const PRIMITIVE: u8 = 3;
    pub const REFERENCE: u8 = 4;
}

/// The layer that a refusal comes from.
#[derive(Clone, Copy, Debug, PartialEq, Eq)]
pub enum Layer {
    Text,
    Formula,
    Types,
    Book,
    File,
}

/// A refusal by its three parts.
#[derive(Clone, Copy, Debug, PartialEq, Eq)]
pub struct Refusal {
    pub number: u16,
    pub layer: Layer,
    pub place: u32,
}

impl Refusal {
    /// The refusal of that number, at a place.
    pub fn at(number: u16, place: usize) -> Self {
        let layer = match number {
            20 | 21 => Layer::Text,
            22..=25 => Layer::Formula,
            30..=32 | 40 => Layer::Types,
            90..=95 => Layer::File,
            _ => Layer::Book,
        };
        Self { number, layer, place: place as u32 }
    }

    /// The refusal of that number, where no place is named.
    pub fn of(number: u16) -> Self {
        Self::at(number, 0)
    }
}

impl fmt::Display for Refusal {
    fn fmt(&self, f: &mut fmt::Formatter<'_>) -> fmt::Result {
        write!(f, "refused {} at {} by {:?}", self.number, self.place, self.layer)
    }
}

pub type Reply<T> = Result<T, Refusal>;

/// Refuses with that number unless the question is answered with yes.
pub fn ask(yes: bool, number: u16) -> Reply<()> {
    if yes { Ok(()) } else { Err(Refusal::of(number)) }
}

/// The three work memories of a submission.
#[derive(Clone, Debug, Default, PartialEq, Eq)]
pub struct Memory {
    pub terms: Vec<TermNode>,
    pub types: Vec<TypeNode>,
    pub numbers: Vec<u32>,
}

impl Memory {
    /// Zeros of these three lengths.
    pub fn zeros(terms: usize, types: usize, numbers: usize) -> Self {
        Self {
            terms: vec![TermNode::default(); terms],
            types: vec![TypeNode::default(); types],
            numbers: vec![0; numbers],
        }
    }

    pub fn clear(&mut self) {
        self.terms.fill(TermNode::default());
        self.types.fill(TypeNode::default());
        self.numbers.fill(0);
    }
}

/// A book and the calls on it. The ticket of a submission is implied: a book has one candidate at most.
pub trait Typer {
    /// A new book over the built-in catalogue.
    fn new() -> Self;
    /// A new book over the catalogue that a file opens as.
    fn over(file: &[u8]) -> Self;

    fn submit(&mut self, text: &[u8], memory: &mut Memory) -> Reply<()>;
    fn file(&mut self) -> Reply<u16>;
    fn dismiss(&mut self) -> Reply<()>;
    fn withdraw(&mut self) -> Reply<u16>;
    /// Answers the length of what was written.
    fn show(&self, n: u16, out: &mut [u8]) -> Reply<usize>;
    /// Answers the length of what was written.
    fn line(&self, outcome: Reply<u16>, out: &mut [u8]) -> Reply<usize>;
    /// Answers the length of the list.
    fn derive(&mut self, n: u16, types: &mut [TypeNode], places: &mut [u16], numbers: &mut [u32]) -> Reply<usize>;
    fn check(&self, n: u16, list: &[TypeNode], places: &[u16]) -> Reply<()>;
}

/// The check of a catalogue file, and the questions to the catalogue that it opens as.
pub trait Files {
    fn check(file: &[u8]) -> Reply<()>;
    fn count(file: &[u8]) -> u16;
    fn find(file: &[u8], name: &[u8]) -> Option<u16>;
    fn nodes(file: &[u8], k: u16) -> u16;
    fn node(file: &[u8], k: u16, i: u16) -> TypeNode;
}
