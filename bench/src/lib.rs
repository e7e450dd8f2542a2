//! An independent typer of pay formulas in plain Rust, a generator of formulas and calls, and the comparison of two typers.

pub mod limits;
pub mod typer;

pub mod calls;
pub mod compare;
#[cfg(feature = "library")]
pub mod ffi;
pub mod generator;
pub mod program;
pub mod reference;
pub mod workloads;
