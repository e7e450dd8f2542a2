//! What finds types: the most general type of a term, and its most general typing.

use super::book::Formula;
use super::catalogue::Catalogue;
use crate::typer::{TermNode, TypeNode};

/// What the primitives and references of a term stand for.
#[derive(Clone, Copy)]
pub struct Context<'a> {
    pub catalogue: &'a Catalogue,
    pub filed: &'a [Formula],
}

impl<'a> Context<'a> {
    /// The normal list of which a primitive or a reference has an instance; none for other nodes.
    pub fn kept(&self, node: TermNode) -> Option<&'a [TypeNode]> {
        let number = usize::from(node.number);
        match node.kind {
            TermNode::PRIMITIVE => Some(&self.catalogue.entries[number].normal),
            TermNode::REFERENCE => Some(&self.filed[number].list),
            _ => None,
        }
    }

    /// How many type nodes typing a term takes.
    pub fn need(&self, term: &[TermNode]) -> usize {
        let of_node = |node: &TermNode| match node.kind {
            TermNode::ABSTRACTION | TermNode::APPLICATION => 2,
            TermNode::PRIMITIVE => self.catalogue.nodes(node.number),
            TermNode::REFERENCE => self.filed[usize::from(node.number)].list.len(),
            _ => 0,
        };
        term.iter().map(of_node).sum()
    }
}

/// A list of types and, for each term node, its place in the list.
#[derive(Clone, Debug, Default, PartialEq, Eq)]
pub struct Derivation {
    pub list: Vec<TypeNode>,
    pub places: Vec<u16>,
}

pub trait Engine: Default {
    /// The normal list of the term's most general type; none where it has no type.
    fn principal(&mut self, term: &[TermNode], context: Context<'_>) -> Option<Vec<TypeNode>>;
    /// The term's most general typing; none where it has no type.
    fn derivation(&mut self, term: &[TermNode], context: Context<'_>) -> Option<Derivation>;
    /// The first term node whose step is no typing step, in a lawful list without equal records and places inside it.
    fn wrong_step(term: &[TermNode], context: Context<'_>, list: &[TypeNode], places: &[u16]) -> Option<usize>;
}
