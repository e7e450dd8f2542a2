//! The book: its filed formulas, its candidate, and the calls on it.

use super::catalogue::Catalogue;
use super::derivation;
use super::engine::{Context, Engine};
use super::reader::Reader;
use super::show::show;
use crate::limits;
use crate::typer::{Memory, Refusal, Reply, TermNode, TypeNode, Typer, ask};

/// A formula and the normal list of its most general type.
#[derive(Clone, Debug)]
pub struct Formula {
    pub term: Vec<TermNode>,
    pub list: Vec<TypeNode>,
}

pub struct Book<E> {
    catalogue: Catalogue,
    filed: Vec<Formula>,
    candidate: Option<Formula>,
    reader: Reader,
    engine: E,
}

/// The room that the three memories of a submission have.
struct Room {
    terms: usize,
    types: usize,
    numbers: usize,
}

impl<E: Engine> Book<E> {
    pub fn with(catalogue: Catalogue) -> Self {
        let (reader, engine) = Default::default();
        Self { catalogue, filed: Vec::new(), candidate: None, reader, engine }
    }

    pub fn catalogue(&self) -> &Catalogue {
        &self.catalogue
    }

    pub fn engine(&self) -> &E {
        &self.engine
    }

    pub fn filed(&self) -> &[Formula] {
        &self.filed
    }

    pub fn candidate(&self) -> Option<&Formula> {
        self.candidate.as_ref()
    }

    /// The nodes of a text that is an expression, and its need, or 0 where its names or references mean nothing.
    pub fn measure(&mut self, text: &[u8]) -> Option<(usize, usize)> {
        let nodes = self.reader.nodes(text)?;
        let term = self.reader.read(text, &self.catalogue, self.filed.len(), nodes);
        Some((nodes, term.map_or(0, |term| self.context().need(&term))))
    }

    /// The nodes and the need of a filed formula.
    pub fn measure_filed(&self, n: u16) -> Option<(usize, usize)> {
        let formula = self.numbered(n).ok()?;
        Some((formula.term.len(), self.context().need(&formula.term)))
    }

    fn context(&self) -> Context<'_> {
        Context { catalogue: &self.catalogue, filed: &self.filed }
    }

    fn numbered(&self, n: u16) -> Reply<&Formula> {
        self.filed.get(usize::from(n)).ok_or(Refusal::of(70))
    }

    /// The questions that are put before a memory is written to.
    fn open_for(&self, text: &[u8]) -> Reply<()> {
        ask(self.candidate.is_none(), 10)?;
        ask(self.filed.len() < limits::FILED, 11)?;
        ask(text.len() <= limits::TEXT, 12)
    }

    fn accept(&mut self, text: &[u8], room: Room) -> Reply<Formula> {
        let term = self.reader.read(text, &self.catalogue, self.filed.len(), room.terms)?;
        let need = self.context().need(&term);
        ask(need <= limits::NEED, 30)?;
        ask(need <= room.types, 31)?;
        ask(limits::numbers(need, term.len()) <= room.numbers, 32)?;
        let held: usize = self.filed.iter().map(|formula| formula.term.len()).sum();
        ask(held + term.len() <= limits::BOOK_TERMS, 33)?;
        let context = Context { catalogue: &self.catalogue, filed: &self.filed };
        let list = self.engine.principal(&term, context).ok_or(Refusal::of(40))?;
        let held: usize = self.filed.iter().map(|formula| formula.list.len()).sum();
        ask(held + list.len() <= limits::BOOK_TYPES, 41)?;
        Ok(Formula { term, list })
    }
}

impl<E: Engine> Typer for Book<E> {
    fn new() -> Self {
        Self::with(Catalogue::builtin())
    }

    fn over(file: &[u8]) -> Self {
        Self::with(Catalogue::open(file))
    }

    fn submit(&mut self, text: &[u8], memory: &mut Memory) -> Reply<()> {
        self.open_for(text)?;
        memory.clear();
        let room = Room { terms: memory.terms.len(), types: memory.types.len(), numbers: memory.numbers.len() };
        self.candidate = Some(self.accept(text, room)?);
        Ok(())
    }

    fn file(&mut self) -> Reply<u16> {
        self.filed.push(self.candidate.take().ok_or(Refusal::of(60))?);
        Ok(self.filed.len() as u16 - 1)
    }

    fn dismiss(&mut self) -> Reply<()> {
        self.candidate.take().map(|_| ()).ok_or(Refusal::of(60))
    }

    fn withdraw(&mut self) -> Reply<u16> {
        ask(self.candidate.is_none(), 62)?;
        self.filed.pop().ok_or(Refusal::of(63))?;
        Ok(self.filed.len() as u16)
    }

    fn show(&self, n: u16, out: &mut [u8]) -> Reply<usize> {
        let formula = match &self.candidate {
            Some(candidate) if usize::from(n) == self.filed.len() => candidate,
            _ => self.numbered(n)?,
        };
        let text = show(&formula.list, limits::SHOWN.min(out.len())).ok_or(Refusal::of(71))?;
        out[..text.len()].copy_from_slice(&text);
        Ok(text.len())
    }

    fn line(&self, outcome: Reply<u16>, out: &mut [u8]) -> Reply<usize> {
        ask(out.len() >= limits::LINE, 72)?;
        let mut line = match outcome {
            Ok(n) => {
                let text = show(&self.numbered(n)?.list, limits::SHOWN);
                [format!("#{n} : ").into_bytes(), text.unwrap_or_else(|| b"too long".to_vec())].concat()
            }
            Err(Refusal { number, place, .. }) => format!("refused {number} at {place}").into_bytes(),
        };
        line.push(b'\n');
        out[..line.len()].copy_from_slice(&line);
        Ok(line.len())
    }

    fn derive(&mut self, n: u16, types: &mut [TypeNode], places: &mut [u16], numbers: &mut [u32]) -> Reply<usize> {
        let context = Context { catalogue: &self.catalogue, filed: &self.filed };
        let term = &self.filed.get(usize::from(n)).ok_or(Refusal::of(70))?.term;
        let need = context.need(term);
        ask(need <= types.len(), 73)?;
        ask(term.len() <= places.len(), 74)?;
        ask(limits::numbers(need, term.len()) <= numbers.len(), 75)?;
        let found = self.engine.derivation(term, context).expect("a filed formula has a type");
        types.fill(TypeNode::default());
        places.fill(0);
        numbers.fill(0);
        types[..found.list.len()].copy_from_slice(&found.list);
        places[..found.places.len()].copy_from_slice(&found.places);
        Ok(found.list.len())
    }

    fn check(&self, n: u16, list: &[TypeNode], places: &[u16]) -> Reply<()> {
        derivation::check::<E>(&self.numbered(n)?.term, self.context(), list, places)
    }
}
