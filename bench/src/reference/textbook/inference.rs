//! Algorithm W without generalisation.

use super::expansion::{Expand, Term, tree};
use super::{STEPS, Stop, Type};
use crate::reference::Context;
use crate::typer::{TermNode, TypeNode};
use std::rc::Rc;

/// The types of the first nodes of a term, in prefix order.
pub fn typing(term: &[TermNode], context: Context<'_>, expand: Expand, count: usize) -> Result<Vec<Rc<Type>>, Stop> {
    let term = tree(term, context, expand)?;
    let mut inference = Inference { context, bound: Vec::new(), types: Vec::new(), steps: 0 };
    inference.infer(&term, &mut Vec::new())?;
    let types = std::mem::take(&mut inference.types);
    types[..count].iter().map(|t| inference.apply(t)).collect()
}

/// A substitution in the making. What a variable is bound to may hold bound variables.
struct Inference<'a> {
    context: Context<'a>,
    bound: Vec<Option<Rc<Type>>>,
    types: Vec<Rc<Type>>,
    steps: usize,
}

impl Inference<'_> {
    fn step(&mut self) -> Result<(), Stop> {
        self.steps += 1;
        if self.steps > STEPS { Err(Stop::TooLong) } else { Ok(()) }
    }

    fn fresh(&mut self) -> Rc<Type> {
        self.bound.push(None);
        Rc::new(Type::Variable(self.bound.len() - 1))
    }

    fn infer(&mut self, term: &Term, scope: &mut Vec<Rc<Type>>) -> Result<Rc<Type>, Stop> {
        let at = self.types.len();
        self.types.push(Rc::new(Type::Base(0)));
        let found = match term {
            Term::Variable(k) => scope[scope.len() - 1 - k].clone(),
            Term::Abstraction(body) => {
                let binder = self.fresh();
                scope.push(binder.clone());
                let body = self.infer(body, scope)?;
                scope.pop();
                Rc::new(Type::Arrow(binder, body))
            }
            Term::Application(function, argument) => {
                let function = self.infer(function, scope)?;
                let argument = self.infer(argument, scope)?;
                let result = self.fresh();
                self.unify(&function, &Rc::new(Type::Arrow(argument, result.clone())))?;
                result
            }
            Term::Kept(node) => self.instance(self.context.kept(*node).unwrap_or_default()),
        };
        self.types[at] = found.clone();
        Ok(found)
    }

    fn instance(&mut self, list: &[TypeNode]) -> Rc<Type> {
        let mut made: Vec<Rc<Type>> = Vec::new();
        for node in list {
            let (left, right) = (usize::from(node.left), usize::from(node.right));
            made.push(match node.kind {
                TypeNode::VARIABLE => self.fresh(),
                TypeNode::BASE => Rc::new(Type::Base(node.left)),
                _ => Rc::new(Type::Arrow(made[left].clone(), made[right].clone())),
            });
        }
        made.pop().expect("lists are not empty")
    }

    /// A type, or what it is bound to if it is a bound variable.
    fn head(&self, t: &Rc<Type>) -> Rc<Type> {
        match **t {
            Type::Variable(v) => self.bound[v].as_ref().map_or_else(|| t.clone(), |t| self.head(t)),
            _ => t.clone(),
        }
    }

    fn unify(&mut self, a: &Rc<Type>, b: &Rc<Type>) -> Result<(), Stop> {
        self.step()?;
        let (a, b) = (self.head(a), self.head(b));
        match (&*a, &*b) {
            (Type::Variable(v), Type::Variable(w)) if v == w => Ok(()),
            (Type::Variable(v), _) => self.bind(*v, &b),
            (_, Type::Variable(v)) => self.bind(*v, &a),
            (Type::Base(x), Type::Base(y)) if x == y => Ok(()),
            (Type::Arrow(f, x), Type::Arrow(g, y)) => {
                self.unify(f, g)?;
                self.unify(x, y)
            }
            _ => Err(Stop::NoType),
        }
    }

    fn bind(&mut self, v: usize, t: &Rc<Type>) -> Result<(), Stop> {
        if self.occurs(v, t)? {
            return Err(Stop::NoType);
        }
        self.bound[v] = Some(t.clone());
        Ok(())
    }

    fn occurs(&mut self, v: usize, t: &Rc<Type>) -> Result<bool, Stop> {
        self.step()?;
        match &*self.head(t) {
            Type::Variable(w) => Ok(v == *w),
            Type::Base(_) => Ok(false),
            Type::Arrow(left, right) => Ok(self.occurs(v, left)? || self.occurs(v, right)?),
        }
    }

    fn apply(&mut self, t: &Rc<Type>) -> Result<Rc<Type>, Stop> {
        self.step()?;
        let t = self.head(t);
        match &*t {
            Type::Arrow(left, right) => Ok(Rc::new(Type::Arrow(self.apply(left)?, self.apply(right)?))),
            _ => Ok(t),
        }
    }
}
