//! Sessions: what is called next on a book, judged by the reference's own book.

use super::formulas::Setting;
use super::random::Random;
use super::{derivations, files, formulas, shapes, texts};
use crate::calls::{Call, Over};
use crate::limits;
use crate::reference::{Derivation, Reference};
use crate::typer::{Reply, TypeNode, Typer};

/// What a session is after.
#[derive(Clone, Copy, PartialEq)]
enum Aim {
    /// All calls, any texts.
    Anything,
    /// Formulas upon formulas.
    Chain,
    /// Short formulas, till the book is full.
    Many,
    /// Long terms, till the book has no room for terms.
    Terms,
    /// Long lists, till the book has no room for types.
    Types,
}

pub struct Session {
    pub over: Over,
    pub length: usize,
    aim: Aim,
    /// The latest reply to a submission or a filing.
    latest: Reply<u16>,
}

impl Session {
    pub fn any(random: &mut Random) -> Self {
        let aim = match random.below(20) {
            0 => Aim::Chain,
            1 => Aim::Terms,
            2 => Aim::Types,
            3 => Aim::Many,
            _ => Aim::Anything,
        };
        let length = match aim {
            Aim::Chain | Aim::Many => 800,
            Aim::Anything => random.within(10..150),
            _ => 60,
        };
        let over = match random.below(8) {
            0 | 1 => Over::File(files::lawful(random)),
            2 => Over::File(files::damaged(random)),
            _ => Over::Builtin,
        };
        Self { over, length, aim, latest: Ok(0) }
    }

    /// Takes note of the reply to a call.
    pub fn note(&mut self, call: &Call, reply: Reply<usize>) {
        match call {
            Call::Submit { .. } if reply.is_err() => self.latest = reply.map(|_| 0),
            Call::File if reply.is_ok() => self.latest = reply.map(|n| n as u16),
            _ => {}
        }
    }

    pub fn next(&mut self, random: &mut Random, book: &mut Reference) -> Call {
        let dealing = if book.candidate().is_some() { 12 } else { 55 };
        match random.below(100) {
            roll if roll < dealing => self.submit(random, book),
            roll if roll < 58 => self.settle(random, book),
            58 if self.aim == Aim::Anything || random.one_in(6) => Call::Withdraw,
            59..=65 => show(random, book),
            66..=70 => self.line(random, book),
            71..=79 => derive(random, book),
            80..=94 if !book.filed().is_empty() => check(random, book),
            _ => self.settle(random, book),
        }
    }

    /// File for the most part, dismiss, or withdraw.
    fn settle(&self, random: &mut Random, book: &Reference) -> Call {
        let open = book.candidate().is_some();
        match random.below(20) {
            0 | 1 => Call::Dismiss,
            2 if self.aim == Aim::Anything => Call::Withdraw,
            3..=5 if !open && self.aim == Aim::Anything => Call::Withdraw,
            _ => Call::File,
        }
    }

    fn submit(&self, random: &mut Random, book: &mut Reference) -> Call {
        let primitives = book.catalogue().entries.iter().map(|entry| String::from_utf8_lossy(&entry.name).into_owned());
        let setting = Setting { primitives: primitives.collect(), filed: book.filed().len() };
        let at_a_limit = match self.aim {
            Aim::Terms | Aim::Types => random.one_in(4),
            _ => random.one_in(40),
        };
        let text = if at_a_limit { exact(random, book) } else { self.text(random, &setting) };
        let (nodes, need) = book.measure(&text).unwrap_or((random.below(5), random.below(5)));
        let [mut terms, mut types, mut numbers] = [nodes, need, limits::numbers(need, nodes)];
        match random.below(20) {
            0 => terms = terms.saturating_sub(1 + random.mostly_small(4)),
            1 => types = types.saturating_sub(1 + random.mostly_small(4)),
            2 => numbers = numbers.saturating_sub(1 + random.mostly_small(20)),
            3 => [terms, types, numbers] = [random.below(8), random.below(8), random.below(40)],
            4..=11 => {
                terms += random.mostly_small(20);
                types += random.mostly_small(20);
                numbers += random.mostly_small(100);
            }
            _ => {}
        }
        Call::Submit { text, terms, types, numbers, seed: random.word() }
    }

    fn text(&self, random: &mut Random, setting: &Setting) -> Vec<u8> {
        let long = random.within(300..500);
        match self.aim {
            Aim::Chain if setting.filed == 0 => {
                random.pick(&[r"\x.\f.f x x", r"\x.x", r"\f.\x.f (f x)", shapes::EIGHT]).as_bytes().to_vec()
            }
            Aim::Chain if !random.one_in(8) => doubled(random, setting),
            Aim::Many if !random.one_in(20) => few_nodes(random, setting),
            Aim::Terms if !random.one_in(5) => shapes::nested(long).into_bytes(),
            Aim::Types if !random.one_in(5) => shapes::binders(long).into_bytes(),
            _ => texts::any(random, setting),
        }
    }

    fn line(&self, random: &mut Random, book: &Reference) -> Call {
        let outcome = match self.latest {
            Ok(_) => Ok(some_number(random, book)),
            fault => fault,
        };
        let room = *random.pick(&[limits::LINE, limits::LINE, limits::LINE + 10, limits::LINE - 1, 0]);
        Call::Line { outcome, room }
    }
}

/// A formula that just fits in one way, or just does not.
fn exact(random: &mut Random, book: &Reference) -> Vec<u8> {
    let terms: usize = book.filed().iter().map(|formula| formula.term.len()).sum();
    let types: usize = book.filed().iter().map(|formula| formula.list.len()).sum();
    let beyond = random.below(2);
    let k = random.below(book.filed().len());
    let list = book.filed().get(k).map_or(0, |formula| formula.list.len());
    let text = match random.below(4) {
        0 => shapes::of_nodes((limits::BOOK_TERMS - terms).clamp(4, limits::TERM) + beyond),
        1 => shapes::of_list((limits::BOOK_TYPES - types).clamp(2, 2_000) + beyond),
        2 if list > 5 => shapes::of_need(limits::NEED + beyond, k, list),
        _ => shapes::of_print(limits::SHOWN + beyond),
    };
    text.into_bytes()
}

/// A formula whose list is short.
fn few_nodes(random: &mut Random, setting: &Setting) -> Vec<u8> {
    match random.below(4) {
        0 => format!("#{}", random.below(setting.filed + 1)).into_bytes(),
        1 => format!("#{0} #{0}", random.below(setting.filed + 1)).into_bytes(),
        2 if !setting.primitives.is_empty() => random.pick(&setting.primitives).clone().into_bytes(),
        _ => br"\x.x".to_vec(),
    }
}

/// The newest formula used again.
fn doubled(random: &mut Random, setting: &Setting) -> Vec<u8> {
    let newest = setting.filed - 1;
    match random.below(4) {
        0 => format!(r"\x.#0 (#{newest} x)").into_bytes(),
        1 => format!("#{newest} #0").into_bytes(),
        2 => format!(r"\x.#{newest} (#0 x)").into_bytes(),
        _ => formulas::over_filed(random, setting).text(random, formulas::Style { brackets: 0, spaces: 0 }),
    }
}

/// A filed number most of the time.
fn some_number(random: &mut Random, book: &Reference) -> u16 {
    let filed = book.filed().len();
    match random.below(12) {
        0 => filed as u16,
        1 => filed as u16 + 1,
        2 => random.word() as u16,
        _ => random.below(filed) as u16,
    }
}

fn show(random: &mut Random, book: &Reference) -> Call {
    let n = some_number(random, book);
    let exact = book.show(n, &mut [0; limits::SHOWN]).unwrap_or(limits::SHOWN);
    let room = match random.below(8) {
        0 => exact.saturating_sub(1),
        1 => random.below(exact),
        2 => limits::SHOWN,
        3 => limits::SHOWN + random.below(20),
        _ => exact + random.below(3),
    };
    Call::Show { n, room }
}

fn derive(random: &mut Random, book: &Reference) -> Call {
    let n = some_number(random, book);
    let (nodes, need) = book.measure_filed(n).unwrap_or((random.below(4), random.below(4)));
    let [mut types, mut places, mut numbers] = [need, nodes, limits::numbers(need, nodes)];
    match random.below(12) {
        0 => types = types.saturating_sub(1 + random.mostly_small(4)),
        1 => places = places.saturating_sub(1 + random.mostly_small(4)),
        2 => numbers = numbers.saturating_sub(1 + random.mostly_small(20)),
        3 => [types, places, numbers] = [random.below(8), random.below(8), random.below(40)],
        4..=7 => {
            types += random.mostly_small(20);
            places += random.mostly_small(20);
            numbers += random.mostly_small(100);
        }
        _ => {}
    }
    Call::Derive { n, types, places, numbers, seed: random.word() }
}

fn check(random: &mut Random, book: &mut Reference) -> Call {
    let n = random.below(book.filed().len()) as u16;
    let mut derivation = right_derivation(book, n);
    derivations::change(random, &mut derivation);
    let n = if random.one_in(20) { some_number(random, book) } else { n };
    Call::Check { n, list: derivation.list, places: derivation.places }
}

/// The reference's own derivation of a filed formula.
fn right_derivation(book: &mut Reference, n: u16) -> Derivation {
    let (nodes, need) = book.measure_filed(n).unwrap_or_default();
    let mut list = vec![TypeNode::default(); need];
    let mut places = vec![0; nodes];
    let mut numbers = vec![0; limits::numbers(need, nodes)];
    let length = book.derive(n, &mut list, &mut places, &mut numbers).unwrap_or_default();
    list.truncate(length);
    Derivation { list, places }
}
