//! The comparison: one session on two books, call by call, and the shortest session found that still shows a difference.

use crate::calls::{Call, Outcome, Over};
use crate::generator::Random;
use crate::generator::files;
use crate::generator::sessions::Session;
use crate::reference::{Catalogue, FileReader, Reference};
use crate::typer::{Files, Typer};
use std::collections::BTreeMap;
use std::ops::Range;

/// How many calls got which reply: 0 for an answer, else the number of the refusal.
#[derive(Default)]
pub struct Counts(pub BTreeMap<u16, usize>);

impl Counts {
    pub fn add<T>(&mut self, reply: &crate::typer::Reply<T>) {
        let number = reply.as_ref().err().map_or(0, |refusal| refusal.number);
        *self.0.entry(number).or_default() += 1;
    }

    pub fn total(&self) -> usize {
        self.0.values().sum()
    }
}

/// Calls that end in a difference.
pub struct Difference {
    pub over: Over,
    pub calls: Vec<Call>,
    pub ours: Outcome,
    pub theirs: Outcome,
}

/// Runs one session on the reference and on another typer, till they differ. Answers the other's book.
pub fn session<T: Typer>(random: &mut Random, counts: &mut Counts, most: usize) -> Result<T, Box<Difference>> {
    let mut session = Session::any(random);
    let mut ours: Reference = session.over.book();
    let mut theirs: T = session.over.book();
    let mut calls = Vec::new();
    for _ in 0..session.length.min(most) {
        let call = session.next(random, &mut ours);
        calls.push(call.clone());
        let (one, other) = (call.put(&mut ours), call.put(&mut theirs));
        counts.add(&one.reply);
        session.note(&call, one.reply);
        if one != other {
            return Err(Box::new(Difference { over: session.over, calls, ours: one, theirs: other }));
        }
    }
    Ok(theirs)
}

/// The first difference that these calls show.
fn replay<T: Typer>(over: &Over, calls: &[Call]) -> Option<Difference> {
    let (mut ours, mut theirs): (Reference, T) = (over.book(), over.book());
    for (at, call) in calls.iter().enumerate() {
        let (one, other) = (call.put(&mut ours), call.put(&mut theirs));
        if one != other {
            return Some(Difference { over: over.clone(), calls: calls[..=at].to_vec(), ours: one, theirs: other });
        }
    }
    None
}

/// Leaves out calls, and bytes of texts, as long as a difference remains.
pub fn shorten<T: Typer>(mut found: Difference) -> Difference {
    while let Some(shorter) = shorter::<T>(&found) {
        found = shorter;
    }
    found
}

fn shorter<T: Typer>(found: &Difference) -> Option<Difference> {
    let without = |at: usize| {
        let mut calls = found.calls.clone();
        calls.remove(at);
        calls
    };
    let by_calls = (0..found.calls.len()).find_map(|at| replay::<T>(&found.over, &without(at)));
    by_calls.or_else(|| found.calls.iter().enumerate().find_map(|(at, call)| shorter_text::<T>(found, at, call)))
}

fn shorter_text<T: Typer>(found: &Difference, at: usize, call: &Call) -> Option<Difference> {
    let Call::Submit { text, terms, types, numbers, seed } = call else { return None };
    shorter_texts(text).find_map(|text| {
        let mut calls = found.calls.clone();
        calls[at] = Call::Submit { text, terms: *terms, types: *types, numbers: *numbers, seed: *seed };
        replay::<T>(&found.over, &calls)
    })
}

/// Parts of a text: what stands in a bracket, the text without a bracket or with an inner one for it, and without some bytes.
fn shorter_texts(text: &[u8]) -> impl Iterator<Item = Vec<u8>> {
    let without = |cut: &Range<usize>, instead: &[u8]| [&text[..cut.start], instead, &text[cut.end..]].concat();
    let pairs = brackets(text);
    let inner = pairs.clone().into_iter().map(|inner| text[inner].to_vec());
    let dropped = pairs.clone().into_iter().map(move |inner| without(&(inner.start - 1..inner.end + 1), b" "));
    let lifted = pairs.clone().into_iter().flat_map(move |outer| {
        let inside: Vec<_> = pairs.iter().filter(|inner| outer.start < inner.start && inner.end < outer.end).collect();
        inside.into_iter().map(|inner| without(&outer, &text[inner.clone()])).collect::<Vec<_>>()
    });
    let sizes = [text.len() / 2, text.len() / 4, text.len() / 8, 3, 2, 1].into_iter().filter(|&size| size > 0);
    let cuts = sizes.flat_map(|size| (0..=text.len().saturating_sub(size)).map(move |from| from..from + size));
    let by_bytes = cuts.filter(|cut| cut.end <= text.len()).map(move |cut| without(&cut, b""));
    inner.chain(dropped).chain(lifted).chain(by_bytes)
}

/// What stands inside each pair of brackets.
fn brackets(text: &[u8]) -> Vec<Range<usize>> {
    let (mut open, mut found) = (Vec::new(), Vec::new());
    for (at, byte) in text.iter().enumerate() {
        match byte {
            b'(' => open.push(at),
            b')' => found.extend(open.pop().map(|from| from + 1..at)),
            _ => {}
        }
    }
    found
}

/// Compares what two readers say of one file; answers the question on which they differ.
pub fn file<F: Files>(random: &mut Random, counts: &mut Counts) -> Option<String> {
    let file = match random.below(20) {
        0 => files::full(random),
        1..=6 => files::lawful(random),
        _ => files::damaged(random),
    };
    counts.add(&FileReader::check(&file));
    let asked = questions::<F>(random, &file)?;
    Some(format!("{asked} of the file \"{}\"", file.escape_ascii()))
}

/// Puts the check, the count and some questions about entries and names.
fn questions<F: Files>(random: &mut Random, file: &[u8]) -> Option<String> {
    let catalogue = Catalogue::open(file);
    let k = random.below(catalogue.entries.len() + 1) as u16;
    let i = random.below(catalogue.nodes(k) + 1) as u16;
    let start = random.below(file.len());
    let name = match catalogue.entries.get(usize::from(k)) {
        Some(entry) => entry.name.clone(),
        None => file[start..file.len().min(start + random.below(33))].to_vec(),
    };
    differ("check", FileReader::check(file), F::check(file))
        .or_else(|| differ("count", FileReader::count(file), F::count(file)))
        .or_else(|| differ("find", catalogue.find(&name), F::find(file, &name)))
        .or_else(|| differ("nodes", catalogue.nodes(k) as u16, F::nodes(file, k)))
        .or_else(|| differ("node", catalogue.node(k, i), F::node(file, k, i)))
}

fn differ<T: PartialEq + std::fmt::Debug>(asked: &str, ours: T, theirs: T) -> Option<String> {
    (ours != theirs).then(|| format!("{asked}: reference {ours:?}, other {theirs:?}"))
}

impl std::fmt::Display for Difference {
    fn fmt(&self, f: &mut std::fmt::Formatter<'_>) -> std::fmt::Result {
        writeln!(f, "over {:?}:", self.over)?;
        self.calls.iter().try_for_each(|call| writeln!(f, "  {call:?}"))?;
        writeln!(f, "  reference: {:?}", self.ours)?;
        writeln!(f, "  other:     {:?}", self.theirs)
    }
}
