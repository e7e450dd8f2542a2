//! Formulas as trees: how they are written, random ones, and small changes to them.

use super::random::Random;

#[derive(Clone, Debug)]
pub enum Formula {
    Name(String),
    Reference(usize),
    Abstraction(String, Box<Formula>),
    Application(Box<Formula>, Box<Formula>),
}

use Formula::{Abstraction, Application, Name, Reference};

pub fn name(name: impl Into<String>) -> Formula {
    Name(name.into())
}

pub fn abstraction(binder: &str, body: Formula) -> Formula {
    Abstraction(binder.to_string(), Box::new(body))
}

pub fn apply(function: Formula, argument: Formula) -> Formula {
    Application(Box::new(function), Box::new(argument))
}

/// What names and numbers a formula may use.
pub struct Setting {
    pub primitives: Vec<String>,
    pub filed: usize,
}

/// How loosely a formula is written: extra brackets and extra spaces once in so many places, 0 for never.
#[derive(Clone, Copy)]
pub struct Style {
    pub brackets: usize,
    pub spaces: usize,
}

impl Style {
    pub fn any(random: &mut Random) -> Self {
        Self { brackets: *random.pick(&[0, 0, 30, 8, 3]), spaces: *random.pick(&[0, 0, 0, 10, 3]) }
    }
}

fn now_and_then(random: &mut Random, times: usize) -> bool {
    times > 0 && random.one_in(times)
}

impl Formula {
    pub fn text(&self, random: &mut Random, style: Style) -> Vec<u8> {
        let mut writer = Writer { random, style, out: Vec::new() };
        writer.expression(self);
        writer.spaces();
        writer.out
    }

    pub fn size(&self) -> usize {
        match self {
            Name(_) | Reference(_) => 1,
            Abstraction(_, body) => 1 + body.size(),
            Application(function, argument) => 1 + function.size() + argument.size(),
        }
    }

    /// The subformula at a place in prefix order.
    pub fn at(&mut self, place: usize) -> &mut Formula {
        if place == 0 {
            return self;
        }
        match self {
            Name(_) | Reference(_) => self,
            Abstraction(_, body) => body.at(place - 1),
            Application(function, argument) => match function.size() {
                size if place <= size => function.at(place - 1),
                size => argument.at(place - 1 - size),
            },
        }
    }

    /// Puts one subformula in the place of another.
    pub fn shuffle(&mut self, random: &mut Random) {
        let size = self.size();
        let from = random.below(size);
        let taken = self.at(from).clone();
        *self.at(random.below(size)) = taken;
    }
}

struct Writer<'a> {
    random: &'a mut Random,
    style: Style,
    out: Vec<u8>,
}

impl Writer<'_> {
    fn spaces(&mut self) {
        while now_and_then(self.random, self.style.spaces) {
            self.out.push(b' ');
        }
    }

    fn put(&mut self, token: &str) {
        self.spaces();
        let joins = |byte: &u8| byte.is_ascii_alphanumeric() || *byte == b'_';
        if self.out.last().is_some_and(joins) && token.bytes().next().is_some_and(|byte| joins(&byte)) {
            self.out.push(b' ');
        }
        self.out.extend(token.bytes());
    }

    fn bracketed(&mut self, formula: &Formula) {
        self.put("(");
        self.expression(formula);
        self.put(")");
    }

    fn expression(&mut self, formula: &Formula) {
        match formula {
            _ if now_and_then(self.random, self.style.brackets) => self.bracketed(formula),
            Abstraction(binder, body) => {
                self.put("\\");
                self.put(binder);
                self.put(".");
                self.expression(body);
            }
            _ => self.application(formula),
        }
    }

    fn application(&mut self, formula: &Formula) {
        match formula {
            Application(function, argument) => {
                self.application(function);
                if !self.random.one_in(8) {
                    self.out.push(b' ');
                }
                self.atom(argument);
            }
            _ => self.atom(formula),
        }
    }

    fn atom(&mut self, formula: &Formula) {
        match formula {
            Name(name) => self.put(name),
            Reference(n) => self.put(&format!("#{n}")),
            _ => self.bracketed(formula),
        }
    }
}

const BINDERS: [&str; 12] =
    ["x", "y", "z", "f", "g", "h", "a", "b2", "rate_of", "net_of", "x_", "aaaaaaaaaabbbbbbbbbbccccccccccd"];

/// Any name for a binder, now and then that of a primitive.
pub fn binder(random: &mut Random) -> String {
    let few = if random.one_in(10) { BINDERS.len() } else { 9 };
    BINDERS[random.below(few)].to_string()
}

/// A closed formula of about that size, with no thought of types.
pub fn any(random: &mut Random, setting: &Setting, size: usize) -> Formula {
    grow(random, setting, &mut Vec::new(), size)
}

fn grow(random: &mut Random, setting: &Setting, scope: &mut Vec<String>, size: usize) -> Formula {
    if size <= 1 {
        return leaf(random, setting, scope);
    }
    if size == 2 || random.below(10) < 4 {
        let binder = binder(random);
        scope.push(binder);
        let body = grow(random, setting, scope, size - 1);
        return Abstraction(scope.pop().unwrap_or_default(), Box::new(body));
    }
    let left = if random.one_in(2) { 1 } else { random.within(1..size - 1) };
    let function = grow(random, setting, scope, left);
    apply(function, grow(random, setting, scope, size - 1 - left))
}

fn leaf(random: &mut Random, setting: &Setting, scope: &[String]) -> Formula {
    match random.below(20) {
        0..=13 if !scope.is_empty() => name(random.pick(scope)),
        14..=16 if setting.filed > 0 => Reference(random.below(setting.filed)),
        17..=19 if !setting.primitives.is_empty() => name(random.pick(&setting.primitives)),
        _ if !scope.is_empty() => name(random.pick(scope)),
        _ => abstraction("x", name("x")),
    }
}

/// A formula that puts many small conditions on the types of a few binders: `\a.\b. .. \z.z (a b) (c (d a)) ..`.
pub fn conditions(random: &mut Random, setting: &Setting) -> Formula {
    let count = random.within(2..12);
    let binders: Vec<String> = (0..count).map(|k| format!("v{k}")).collect();
    let mut body = name("z");
    for _ in 0..random.within(1..2 + count * 3 / 2) {
        body = apply(body, condition(random, setting, &binders));
    }
    binders.iter().rev().fold(abstraction("z", body), |body, binder| abstraction(binder, body))
}

fn condition(random: &mut Random, setting: &Setting, binders: &[String]) -> Formula {
    let some = |random: &mut Random| name(random.pick(binders));
    match random.below(6) {
        0 | 1 => apply(some(random), some(random)),
        2 => apply(apply(some(random), some(random)), some(random)),
        3 => apply(some(random), apply(some(random), some(random))),
        4 if setting.primitives.iter().any(|p| p == "choose") => {
            apply(apply(apply(name("choose"), some(random)), some(random)), some(random))
        }
        // Two types made equal by hand.
        _ => {
            let (x, y) = (some(random), some(random));
            abstraction("e", apply(apply(name("e"), apply(name("e"), x.clone())), apply(apply(name("z"), x), y)))
        }
    }
}

/// A formula over filed ones.
pub fn over_filed(random: &mut Random, setting: &Setting) -> Formula {
    let newest = setting.filed.saturating_sub(1);
    let mut some = || Reference(if random.one_in(2) { newest } else { random.below(setting.filed) });
    let (k, j) = (some(), some());
    let x = || name("x");
    match random.below(9) {
        0 => k,
        1 => apply(k, j),
        2 => abstraction("x", apply(k, apply(j, x()))),
        3 => abstraction("x", apply(apply(k, x()), x())),
        4 => abstraction("f", apply(apply(name("f"), k), j)),
        5 => abstraction("c", apply(apply(apply(name("choose"), name("c")), k), j)),
        6 => abstraction("x", apply(k, abstraction("y", apply(x(), name("y"))))),
        7 => abstraction("x", apply(apply(x(), k), apply(x(), j))),
        _ => apply(abstraction("x", apply(k, x())), j),
    }
}
