//! The check of a derivation: is each of its steps a typing step?

use super::engine::{Context, Engine};
use super::hash::QuickSet;
use super::lists::lawful;
use crate::limits;
use crate::typer::{Refusal, Reply, TermNode, TypeNode, ask};

/// Checks a derivation of a whole and closed term.
pub fn check<E: Engine>(term: &[TermNode], context: Context<'_>, list: &[TypeNode], places: &[u16]) -> Reply<()> {
    ask((1..=limits::LIST).contains(&list.len()), 80)?;
    ask(lawful(list), 81)?;
    let mut seen = QuickSet::default();
    seen.reserve(list.len());
    ask(list.iter().all(|node| seen.insert(*node)), 82)?;
    ask(places.len() == term.len() && places.iter().all(|&place| usize::from(place) < list.len()), 83)?;
    E::wrong_step(term, context, list, places).map_or(Ok(()), |at| Err(Refusal::at(84, at)))
}

/// The first step that is none. No two records are equal, so equal types stand at equal places.
pub fn wrong_step(term: &[TermNode], context: Context<'_>, list: &[TypeNode], places: &[u16]) -> Option<usize> {
    let (sizes, binders, matching) = (sizes(term), Vec::new(), Vec::new());
    let mut steps = Steps { term, context, list, places, sizes, binders, matching };
    (0..term.len()).find(|&at| !steps.holds(at))
}

/// How many nodes the subterm at each node has.
fn sizes(term: &[TermNode]) -> Vec<usize> {
    let mut sizes = vec![1; term.len()];
    for at in (0..term.len()).rev() {
        let parts = match term[at].kind {
            TermNode::ABSTRACTION => 1,
            TermNode::APPLICATION => 2,
            _ => 0,
        };
        for _ in 0..parts {
            sizes[at] += sizes[at + sizes[at]];
        }
    }
    sizes
}

/// The questions to the steps, put in the order of the term.
struct Steps<'a> {
    term: &'a [TermNode],
    context: Context<'a>,
    list: &'a [TypeNode],
    places: &'a [u16],
    sizes: Vec<usize>,
    /// The abstractions around the node at hand.
    binders: Vec<usize>,
    matching: Vec<Option<u16>>,
}

impl Steps<'_> {
    /// The parts of the arrow at a place, if one stands there.
    fn arrow(&self, place: u16) -> Option<(u16, u16)> {
        let node = self.list[usize::from(place)];
        (node.kind == TypeNode::ARROW).then_some((node.left, node.right))
    }

    /// Whether the step at a node is a typing step.
    fn holds(&mut self, at: usize) -> bool {
        while self.binders.last().is_some_and(|&binder| binder + self.sizes[binder] <= at) {
            self.binders.pop();
        }
        let (node, place) = (self.term[at], self.places[at]);
        match node.kind {
            TermNode::VARIABLE => {
                let binder = self.binders[self.binders.len() - 1 - usize::from(node.number)];
                self.arrow(self.places[binder]).is_some_and(|(left, _)| left == place)
            }
            TermNode::ABSTRACTION => {
                self.binders.push(at);
                self.arrow(place).is_some_and(|(_, right)| right == self.places[at + 1])
            }
            TermNode::APPLICATION => {
                let argument = at + 1 + self.sizes[at + 1];
                self.arrow(self.places[at + 1]) == Some((self.places[argument], place))
            }
            _ => self.is_instance(self.context.kept(node).unwrap_or_default(), place),
        }
    }

    /// Whether the type at a place is an instance of the type that a normal list means.
    fn is_instance(&mut self, pattern: &[TypeNode], place: u16) -> bool {
        let mut matching = std::mem::take(&mut self.matching);
        matching.clear();
        matching.resize(pattern.len(), None);
        matching[pattern.len() - 1] = Some(place);
        // A node stands behind its parts, so each one is matched with all that use it before it is looked at.
        let fits = (0..pattern.len()).rev().all(|at| match matching[at] {
            Some(place) => self.match_node(pattern[at], place, &mut matching),
            None => true,
        });
        self.matching = matching;
        fits
    }

    fn match_node(&self, node: TypeNode, place: u16, matching: &mut [Option<u16>]) -> bool {
        match node.kind {
            TypeNode::VARIABLE => true,
            TypeNode::BASE => self.list[usize::from(place)] == node,
            _ => self.arrow(place).is_some_and(|(left, right)| {
                *matching[usize::from(node.left)].get_or_insert(left) == left
                    && *matching[usize::from(node.right)].get_or_insert(right) == right
            }),
        }
    }
}
