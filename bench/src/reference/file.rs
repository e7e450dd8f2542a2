//! Catalogue files: the check, and the catalogue that a file opens as.

use super::catalogue::Catalogue;
use super::lists::lawful;
use super::text::is_name;
use crate::limits;
use crate::typer::{Files, Refusal, Reply, TypeNode, ask};
use std::collections::HashSet;

const NODE: usize = 5;

fn number(bytes: &[u8]) -> usize {
    usize::from(u16::from_le_bytes([bytes[0], bytes[1]]))
}

/// Cuts a file into entries: questions 90 to 92.
fn entries(file: &[u8]) -> Reply<Vec<&[u8]>> {
    ask(limits::FILE.contains(&file.len()), 90)?;
    let count = number(file);
    let start = 2 + 4 * count;
    ask(count <= limits::FILE_ENTRIES && start <= file.len(), 91)?;
    let pairs = file[2..start].chunks(4).map(|pair| (number(pair), number(&pair[2..])));
    let mut next = start;
    let mut found = Vec::with_capacity(count);
    for (offset, length) in pairs {
        ask(offset == next && offset + length <= file.len(), 92)?;
        next = offset + length;
        found.push(&file[offset..next]);
    }
    ask(next == file.len(), 92)?;
    Ok(found)
}

/// The name of an entry and its nodes, if the name is lawful and the nodes are whole and 1 to 64.
fn parts(entry: &[u8]) -> Option<(&[u8], Vec<TypeNode>)> {
    let (&length, rest) = entry.split_first()?;
    let (name, nodes) = rest.split_at_checked(length.into())?;
    let whole = nodes.len() % NODE == 0 && limits::FILE_NODES.contains(&(nodes.len() / NODE));
    (is_name(name) && whole).then(|| (name, nodes.chunks(NODE).map(node).collect()))
}

fn node(bytes: &[u8]) -> TypeNode {
    TypeNode { kind: bytes[0], left: number(&bytes[1..]) as u16, right: number(&bytes[3..]) as u16 }
}

/// The entries of a file, all questions asked.
fn rows(file: &[u8]) -> Reply<Vec<(&[u8], Vec<TypeNode>)>> {
    let mut rows = Vec::new();
    for (k, entry) in entries(file)?.into_iter().enumerate() {
        rows.push(parts(entry).ok_or(Refusal::at(93, k))?);
    }
    if let Some(k) = rows.iter().position(|(_, list)| !lawful(list)) {
        return Err(Refusal::at(94, k));
    }
    let mut names = HashSet::new();
    match rows.iter().position(|(name, _)| !names.insert(*name)) {
        Some(k) => Err(Refusal::at(95, k)),
        None => Ok(rows),
    }
}

impl Catalogue {
    /// What a file opens as: no entries where the check refuses it.
    pub fn open(file: &[u8]) -> Self {
        rows(file).unwrap_or_default().into_iter().collect()
    }
}

/// The reference's answers about files.
pub struct FileReader;

impl Files for FileReader {
    fn check(file: &[u8]) -> Reply<()> {
        rows(file).map(|_| ())
    }

    fn count(file: &[u8]) -> u16 {
        Catalogue::open(file).entries.len() as u16
    }

    fn find(file: &[u8], name: &[u8]) -> Option<u16> {
        Catalogue::open(file).find(name)
    }

    fn nodes(file: &[u8], k: u16) -> u16 {
        Catalogue::open(file).nodes(k) as u16
    }

    fn node(file: &[u8], k: u16, i: u16) -> TypeNode {
        Catalogue::open(file).node(k, i)
    }
}
