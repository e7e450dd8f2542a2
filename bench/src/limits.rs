//! The limits of formulas, lists, books and files, and the figures that calls ask of their memories.

/// The longest text, in bytes.
pub const TEXT: usize = 4_096;
/// The longest name, in bytes.
pub const NAME: usize = 31;
/// The most digits of a reference.
pub const DIGITS: usize = 3;
/// The most nodes of a formula's term.
pub const TERM: usize = 1_024;
/// The most type nodes that a formula may need.
pub const NEED: usize = 4_096;
/// The most nodes of a list of type nodes.
pub const LIST: usize = 4_096;
/// The highest number of a variable.
pub const VARIABLE: u16 = 4_095;
/// The names of the bases, by code.
pub const BASES: [&str; 6] = ["hours", "rate", "gross", "net", "paid", "flag"];
/// The most formulas of a book.
pub const FILED: usize = 128;
/// The term nodes that a book holds.
pub const BOOK_TERMS: usize = 4_096;
/// The type nodes that a book holds.
pub const BOOK_TYPES: usize = 4_096;
/// The longest printed type, in bytes.
pub const SHOWN: usize = 4_096;
/// The memory that a line of the program asks for, in bytes.
pub const LINE: usize = 4_104;
/// The smallest and the largest catalogue file, in bytes.
pub const FILE: std::ops::RangeInclusive<usize> = 2..=65_535;
/// The most entries of a catalogue file.
pub const FILE_ENTRIES: usize = 256;
/// How many nodes an entry of a catalogue file may have.
pub const FILE_NODES: std::ops::RangeInclusive<usize> = 1..=64;

/// The numbers that typing a term of `nodes` nodes and of that `need` asks for.
pub const fn numbers(need: usize, nodes: usize) -> usize {
    8 * (need + nodes)
}
