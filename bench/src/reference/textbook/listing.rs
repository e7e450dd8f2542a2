//! Normal lists by comparing every subtree with every other.

use super::{Stop, TREE, Type};
use crate::reference::Derivation;
use crate::typer::TypeNode;
use std::collections::HashMap;
use std::rc::Rc;

/// The normal list of several types: their subtrees in the order of completion, each the first time only.
pub fn list(types: &[Rc<Type>]) -> Result<Derivation, Stop> {
    let mut completed = Vec::new();
    let mut ends = Vec::new();
    for t in types {
        complete(t, &mut completed)?;
        ends.push(completed.len() - 1);
    }
    let mut distinct: Vec<&Type> = Vec::new();
    let mut places = HashMap::new();
    for (at, &t) in completed.iter().enumerate() {
        let place = distinct.iter().position(|&other| other == t).unwrap_or_else(|| {
            distinct.push(t);
            distinct.len() - 1
        });
        places.insert(at, place);
    }
    let place = |t: &Type| distinct.iter().position(|&other| other == t).expect("parts come first") as u16;
    let variables: Vec<&Type> = distinct.iter().copied().filter(|t| matches!(t, Type::Variable(_))).collect();
    let number = |t: &Type| variables.iter().position(|&other| other == t).expect("it is one of them") as u16;
    let node = |t: &&Type| match *t {
        Type::Variable(_) => TypeNode::variable(number(t)),
        Type::Base(code) => TypeNode::base(*code),
        Type::Arrow(left, right) => TypeNode::arrow(place(left), place(right)),
    };
    Ok(Derivation {
        list: distinct.iter().map(node).collect(),
        places: ends.iter().map(|at| places[at] as u16).collect(),
    })
}

fn complete<'a>(t: &'a Type, completed: &mut Vec<&'a Type>) -> Result<(), Stop> {
    if let Type::Arrow(left, right) = t {
        complete(left, completed)?;
        complete(right, completed)?;
    }
    if completed.len() == TREE {
        return Err(Stop::TooLong);
    }
    completed.push(t);
    Ok(())
}
