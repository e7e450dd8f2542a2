//! Pay formulas: random formulas over the built-in primitives that have a type.

use super::formulas::{Formula, abstraction, apply, name};
use super::random::Random;
use std::rc::Rc;

const HOURS: u8 = 0;
const RATE: u8 = 1;
const GROSS: u8 = 2;
const NET: u8 = 3;
const PAID: u8 = 4;
const FLAG: u8 = 5;

#[derive(Clone, PartialEq)]
enum Type {
    Base(u8),
    Arrow(Rc<Type>, Rc<Type>),
}

fn any_type(random: &mut Random, depth: usize) -> Rc<Type> {
    if depth == 0 || random.below(3) > 0 {
        return Rc::new(Type::Base(random.below(6) as u8));
    }
    Rc::new(Type::Arrow(any_type(random, depth - 1), any_type(random, depth - 1)))
}

/// A formula with some type that needs no more than that fuel, more or less.
pub fn formula(random: &mut Random, fuel: usize) -> Formula {
    let mut binders = random.below(4);
    let mut wanted = any_type(random, 2);
    while binders > 0 {
        wanted = Rc::new(Type::Arrow(any_type(random, 1), wanted));
        binders -= 1;
    }
    Maker { random, fuel, scope: Vec::new() }.make(&wanted)
}

struct Maker<'a> {
    random: &'a mut Random,
    fuel: usize,
    /// Binders by name; no name is used twice.
    scope: Vec<(String, Rc<Type>)>,
}

impl Maker<'_> {
    fn make(&mut self, wanted: &Rc<Type>) -> Formula {
        self.fuel = self.fuel.saturating_sub(1);
        if self.fuel == 0 {
            return self.shortest(wanted);
        }
        match self.random.below(10) {
            0 => self.chosen(wanted),
            1 => self.redex(wanted),
            2..=6 => self.by_binder(wanted).unwrap_or_else(|| self.direct(wanted)),
            _ => self.direct(wanted),
        }
    }

    /// By a primitive for a base, by an abstraction for an arrow.
    fn direct(&mut self, wanted: &Rc<Type>) -> Formula {
        match **wanted {
            Type::Arrow(ref left, ref right) => self.abstract_over(left, right),
            Type::Base(HOURS) => name("std_hours"),
            Type::Base(RATE) => name("base_rate"),
            Type::Base(GROSS) if self.fuel > 0 && self.random.one_in(3) => self.call("add", &[GROSS, GROSS]),
            Type::Base(GROSS) => self.call("gross_of", &[HOURS, RATE]),
            Type::Base(NET) => self.call("net_of", &[GROSS]),
            Type::Base(PAID) => self.call("paid_of", &[NET]),
            Type::Base(_) => self.call("over", &[HOURS, HOURS]),
        }
    }

    fn shortest(&mut self, wanted: &Rc<Type>) -> Formula {
        let known = self.scope.iter().rev().find(|(_, t)| t == wanted).map(|(binder, _)| name(binder));
        known.unwrap_or_else(|| self.direct(wanted))
    }

    fn call(&mut self, primitive: &str, arguments: &[u8]) -> Formula {
        arguments.iter().fold(name(primitive), |f, &code| apply(f, self.make(&Rc::new(Type::Base(code)))))
    }

    fn abstract_over(&mut self, left: &Rc<Type>, right: &Rc<Type>) -> Formula {
        let binder = format!("{}{}", self.random.pick(&["x", "h", "r", "gross_", "f"]), self.scope.len());
        self.scope.push((binder.clone(), left.clone()));
        let body = self.make(right);
        self.scope.pop();
        abstraction(&binder, body)
    }

    fn chosen(&mut self, wanted: &Rc<Type>) -> Formula {
        let flag = self.make(&Rc::new(Type::Base(FLAG)));
        let (one, other) = (self.make(wanted), self.make(wanted));
        apply(apply(apply(name("choose"), flag), one), other)
    }

    fn redex(&mut self, wanted: &Rc<Type>) -> Formula {
        let argument = any_type(self.random, 1);
        let function = self.abstract_over(&argument, wanted);
        apply(function, self.make(&argument))
    }

    /// By a binder whose type ends in the one that is wanted.
    fn by_binder(&mut self, wanted: &Rc<Type>) -> Option<Formula> {
        let fits: Vec<(String, Vec<Rc<Type>>)> =
            self.scope.iter().filter_map(|(binder, t)| Some((binder.clone(), arguments(t, wanted)?))).collect();
        if fits.is_empty() {
            return None;
        }
        let (binder, arguments) = self.random.pick(&fits).clone();
        Some(arguments.iter().fold(name(&binder), |f, t| apply(f, self.make(t))))
    }
}

/// The arguments that lead from one type to another.
fn arguments(from: &Rc<Type>, to: &Rc<Type>) -> Option<Vec<Rc<Type>>> {
    let mut found = Vec::new();
    let mut at = from;
    while at != to {
        let Type::Arrow(left, right) = &**at else { return None };
        found.push(left.clone());
        at = right;
    }
    Some(found)
}
