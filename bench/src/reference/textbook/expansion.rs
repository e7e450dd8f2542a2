//! Terms as trees, with their references expanded or left as they are.

use super::{STEPS, Stop};
use crate::reference::Context;
use crate::typer::TermNode;

pub enum Term {
    Variable(usize),
    Abstraction(Box<Term>),
    Application(Box<Term>, Box<Term>),
    /// A primitive or an unexpanded reference.
    Kept(TermNode),
}

/// Which references are replaced by the expansions of their formulas.
#[derive(Clone, Copy, PartialEq)]
pub enum Expand {
    All,
    None,
}

/// The tree of a whole term.
pub fn tree(term: &[TermNode], context: Context<'_>, expand: Expand) -> Result<Term, Stop> {
    Builder { context, expand, size: 0 }.term(&mut term.iter())
}

/// Builds terms from their nodes.
struct Builder<'a> {
    context: Context<'a>,
    expand: Expand,
    size: usize,
}

impl Builder<'_> {
    fn term(&mut self, nodes: &mut std::slice::Iter<'_, TermNode>) -> Result<Term, Stop> {
        let node = *nodes.next().expect("terms are whole");
        self.size += 1;
        if self.size > STEPS {
            return Err(Stop::TooLong);
        }
        Ok(match node.kind {
            TermNode::VARIABLE => Term::Variable(node.number.into()),
            TermNode::ABSTRACTION => Term::Abstraction(Box::new(self.term(nodes)?)),
            TermNode::APPLICATION => Term::Application(Box::new(self.term(nodes)?), Box::new(self.term(nodes)?)),
            TermNode::REFERENCE if self.expand == Expand::All => {
                self.term(&mut self.context.filed[usize::from(node.number)].term.iter())?
            }
            _ => Term::Kept(node),
        })
    }
}
