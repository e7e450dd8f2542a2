//! The steps of a typing, by the rules as they are written.

use super::{STEPS, Type};
use crate::reference::Context;
use crate::typer::{TermNode, TypeNode};
use std::collections::HashMap;
use std::rc::Rc;

/// The first wrong step, if there is one; nothing where the types are too large for trees.
pub fn wrong_step(term: &[TermNode], context: Context<'_>, list: &[TypeNode], places: &[u16]) -> Option<Option<usize>> {
    let trees = trees(list)?;
    let types = places.iter().map(|&place| trees[usize::from(place)].clone()).collect();
    let mut steps = Steps { term, context, types, wrong: None };
    steps.walk(0, &mut Vec::new());
    Some(steps.wrong)
}

/// The trees of a list's places, if they are not too large; its variables are the trees' variables.
fn trees(list: &[TypeNode]) -> Option<Vec<Rc<Type>>> {
    let (mut trees, mut sizes): (Vec<Rc<Type>>, Vec<usize>) = Default::default();
    for node in list {
        let (left, right) = (usize::from(node.left), usize::from(node.right));
        let (tree, size) = match node.kind {
            TypeNode::VARIABLE => (Type::Variable(left), 1),
            TypeNode::BASE => (Type::Base(node.left), 1),
            _ => (Type::Arrow(trees[left].clone(), trees[right].clone()), 1 + sizes[left] + sizes[right]),
        };
        if size > STEPS {
            return None;
        }
        trees.push(Rc::new(tree));
        sizes.push(size);
    }
    Some(trees)
}

/// The type of each term node, and the first wrong step so far.
struct Steps<'a> {
    term: &'a [TermNode],
    context: Context<'a>,
    types: Vec<Rc<Type>>,
    wrong: Option<usize>,
}

impl Steps<'_> {
    fn ask(&mut self, at: usize, holds: bool) {
        if !holds {
            self.wrong = Some(self.wrong.map_or(at, |first| first.min(at)));
        }
    }

    /// Looks at a node and its parts; answers where the next node stands.
    fn walk(&mut self, at: usize, scope: &mut Vec<Option<Rc<Type>>>) -> usize {
        let (node, own) = (self.term[at], self.types[at].clone());
        match node.kind {
            TermNode::VARIABLE => {
                let binder = &scope[scope.len() - 1 - usize::from(node.number)];
                self.ask(at, *binder == Some(own));
                at + 1
            }
            TermNode::ABSTRACTION => {
                let body = self.types[at + 1].clone();
                let binder = left_of(&own);
                self.ask(at, binder.clone().is_some_and(|binder| *own == Type::Arrow(binder, body)));
                scope.push(binder);
                let next = self.walk(at + 1, scope);
                scope.pop();
                next
            }
            TermNode::APPLICATION => {
                let argument = self.walk(at + 1, scope);
                let next = self.walk(argument, scope);
                let wanted = Type::Arrow(self.types[argument].clone(), own);
                self.ask(at, *self.types[at + 1] == wanted);
                next
            }
            _ => {
                let kept = self.context.kept(node).unwrap_or_default();
                let fits = Instances { kept, meant: HashMap::new() }.fits(kept.len() - 1, &own);
                self.ask(at, fits);
                at + 1
            }
        }
    }
}

fn left_of(t: &Type) -> Option<Rc<Type>> {
    match t {
        Type::Arrow(left, _) => Some(left.clone()),
        _ => None,
    }
}

/// What the variables of a list stand for in an instance of its type.
struct Instances<'a> {
    kept: &'a [TypeNode],
    meant: HashMap<u16, Rc<Type>>,
}

impl Instances<'_> {
    fn fits(&mut self, place: usize, t: &Rc<Type>) -> bool {
        let node = self.kept[place];
        match (node.kind, &**t) {
            (TypeNode::VARIABLE, _) => self.meant.entry(node.left).or_insert_with(|| t.clone()) == t,
            (TypeNode::BASE, Type::Base(code)) => node.left == *code,
            (TypeNode::ARROW, Type::Arrow(left, right)) => {
                self.fits(node.left.into(), left) && self.fits(node.right.into(), right)
            }
            _ => false,
        }
    }
}
