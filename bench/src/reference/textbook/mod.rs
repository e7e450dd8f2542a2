//! Types by the book: a term's references are expanded, and unification is by substitutions with an occurs check. Types are
//! plain trees, so the work is bounded; where the bound is met, the graph answers instead.

mod expansion;
mod inference;
mod listing;
mod steps;

use super::engine::{Context, Derivation, Engine};
use super::graph::Graph;
use crate::typer::{TermNode, TypeNode};
use expansion::Expand;
use inference::typing;
use listing::list;
use std::rc::Rc;

/// The most steps of unifying and substituting, and the most nodes of an expansion.
const STEPS: usize = 20_000;
/// The most tree nodes of the types that are listed.
const TREE: usize = 600;

#[derive(PartialEq)]
enum Type {
    Variable(usize),
    Base(u16),
    Arrow(Rc<Type>, Rc<Type>),
}

enum Stop {
    NoType,
    TooLong,
}

/// How often the graph had to answer, of how many questions.
#[derive(Default)]
pub struct Textbook {
    pub asked: usize,
    pub left_to_graph: usize,
    graph: Graph,
}

impl Textbook {
    fn settle<T>(&mut self, found: Result<T, Stop>, graph: impl FnOnce(&mut Graph) -> Option<T>) -> Option<T> {
        self.asked += 1;
        match found {
            Ok(found) => Some(found),
            Err(Stop::NoType) => None,
            Err(Stop::TooLong) => {
                self.left_to_graph += 1;
                graph(&mut self.graph)
            }
        }
    }
}

impl Engine for Textbook {
    fn principal(&mut self, term: &[TermNode], context: Context<'_>) -> Option<Vec<TypeNode>> {
        let found = typing(term, context, Expand::All, 1).and_then(|types| list(&types));
        self.settle(found.map(|found| found.list), |graph| graph.principal(term, context))
    }

    fn derivation(&mut self, term: &[TermNode], context: Context<'_>) -> Option<Derivation> {
        let found = typing(term, context, Expand::None, term.len()).and_then(|types| list(&types));
        self.settle(found, |graph| graph.derivation(term, context))
    }

    fn wrong_step(term: &[TermNode], context: Context<'_>, list: &[TypeNode], places: &[u16]) -> Option<usize> {
        let by_trees = steps::wrong_step(term, context, list, places);
        by_trees.unwrap_or_else(|| Graph::wrong_step(term, context, list, places))
    }
}
