//! Formulas, catalogue files, derivations and whole sessions from a seed.

pub mod damage;
pub mod derivations;
pub mod files;
pub mod formulas;
pub mod pay;
pub mod random;
pub mod sessions;
pub mod shapes;
pub mod texts;

pub use random::Random;
