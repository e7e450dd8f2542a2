//! The reference: reader, typer, book and catalogue files, written from the rules alone.

mod book;
mod catalogue;
mod derivation;
mod engine;
mod file;
mod grammar;
mod graph;
mod hash;
mod lists;
mod reader;
mod show;
mod text;
mod textbook;

pub use book::{Book, Formula};
pub use catalogue::Catalogue;
pub use engine::{Context, Derivation, Engine};
pub use file::FileReader;
pub use graph::Graph;
pub use lists::{Normalizer, lawful};
pub use textbook::Textbook;

/// The reference that is compared and timed.
pub type Reference = Book<Graph>;
/// The same book with types found by substitutions, over expansions: slow, and close to the definitions.
pub type Definition = Book<Textbook>;
