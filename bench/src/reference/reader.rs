//! Reading: from a text to its term, one question after the other.

use super::catalogue::Catalogue;
use super::grammar::{Expression, Tree};
use super::hash::QuickMap;
use super::text::{self, Token};
use crate::limits;
use crate::typer::{Refusal, Reply, TermNode, ask};

/// The memories that reading takes, kept from one text to the next.
#[derive(Default)]
pub struct Reader {
    tokens: Vec<Token>,
    tree: Tree,
}

impl Reader {
    /// How many nodes the term of a text has, if the text is an expression.
    pub fn nodes(&mut self, text: &[u8]) -> Option<usize> {
        text::tokens(text, &mut self.tokens).ok()?;
        self.tree.read(&self.tokens, text.len()).ok()?;
        Some(self.tree.nodes.len())
    }

    /// The term of a text, over a catalogue and that many filed formulas, with room for `room` nodes.
    pub fn read(&mut self, text: &[u8], catalogue: &Catalogue, filed: usize, room: usize) -> Reply<Vec<TermNode>> {
        text::tokens(text, &mut self.tokens).map_err(|place| Refusal::at(20, place))?;
        self.tree.read(&self.tokens, text.len()).map_err(|place| Refusal::at(21, place))?;
        let size = self.tree.nodes.len();
        ask(size <= limits::TERM, 22)?;
        ask(size <= room, 23)?;
        let mut scope = Scope::new(text, catalogue, filed, &self.tree.nodes);
        scope.flatten(size as u32 - 1);
        match (scope.unknown, scope.beyond) {
            (Some(place), _) => Err(Refusal::at(24, place)),
            (None, Some(place)) => Err(Refusal::at(25, place)),
            (None, None) => Ok(scope.term),
        }
    }
}

/// The walk that settles names and writes the term.
struct Scope<'a> {
    text: &'a [u8],
    catalogue: &'a Catalogue,
    filed: usize,
    nodes: &'a [Expression],
    /// How many binders are around.
    depth: u16,
    /// The depth of the innermost binder of each name in scope.
    binders: QuickMap<&'a [u8], u16>,
    term: Vec<TermNode>,
    unknown: Option<usize>,
    beyond: Option<usize>,
}

impl<'a> Scope<'a> {
    fn new(text: &'a [u8], catalogue: &'a Catalogue, filed: usize, nodes: &'a [Expression]) -> Self {
        let term = Vec::with_capacity(nodes.len());
        let binders = QuickMap::default();
        Self { text, catalogue, filed, nodes, depth: 0, binders, term, unknown: None, beyond: None }
    }

    fn spelling(&self, token: &Token) -> &'a [u8] {
        &self.text[token.start..token.end]
    }

    fn put(&mut self, kind: u8, number: u16) {
        self.term.push(TermNode { kind, number });
    }

    fn flatten(&mut self, at: u32) {
        match self.nodes[at as usize] {
            Expression::Name(token) => self.name(&token),
            Expression::Reference(n, token) => {
                if usize::from(n) >= self.filed {
                    self.beyond.get_or_insert(token.start);
                }
                self.put(TermNode::REFERENCE, n);
            }
            Expression::Abstraction { binder, body } => {
                self.put(TermNode::ABSTRACTION, 0);
                let name = self.spelling(&binder);
                let outer = self.binders.insert(name, self.depth);
                self.depth += 1;
                self.flatten(body);
                self.depth -= 1;
                match outer {
                    Some(outer) => self.binders.insert(name, outer),
                    None => self.binders.remove(name),
                };
            }
            Expression::Application { function, argument } => {
                self.put(TermNode::APPLICATION, 0);
                self.flatten(function);
                self.flatten(argument);
            }
        }
    }

    fn name(&mut self, token: &Token) {
        let name = self.spelling(token);
        if let Some(&binder) = self.binders.get(name) {
            self.put(TermNode::VARIABLE, self.depth - 1 - binder);
        } else if let Some(k) = self.catalogue.find(name) {
            self.put(TermNode::PRIMITIVE, k);
        } else {
            self.unknown.get_or_insert(token.start);
        }
    }
}
