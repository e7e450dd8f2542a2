//! Catalogues: entries by number and by name.

use super::hash::QuickMap;
use super::lists::Normalizer;
use crate::typer::TypeNode;

/// An entry: its name, its list, and the normal list of its type, from which instances are made.
pub struct Entry {
    pub name: Vec<u8>,
    pub list: Vec<TypeNode>,
    pub normal: Vec<TypeNode>,
}

/// Entries in order; of several that bear one name, the first is found.
#[derive(Default)]
pub struct Catalogue {
    pub entries: Vec<Entry>,
    numbers: QuickMap<Vec<u8>, u16>,
}

impl Catalogue {
    /// The built-in table.
    pub fn builtin() -> Self {
        use TypeNode as Node;
        let (hours, rate, gross) = (Node::base(0), Node::base(1), Node::base(2));
        let (net, paid, flag) = (Node::base(3), Node::base(4), Node::base(5));
        let (a, to) = (Node::variable(0), Node::arrow);
        Self::from_iter([
            (&b"gross_of"[..], vec![hours, rate, gross, to(1, 2), to(0, 3)]),
            (b"add", vec![gross, to(0, 0), to(0, 1)]),
            (b"net_of", vec![gross, net, to(0, 1)]),
            (b"paid_of", vec![net, paid, to(0, 1)]),
            (b"over", vec![hours, flag, to(0, 1), to(0, 2)]),
            (b"choose", vec![flag, a, to(1, 1), to(1, 2), to(0, 3)]),
            (b"std_hours", vec![hours]),
            (b"base_rate", vec![rate]),
        ])
    }

    pub fn find(&self, name: &[u8]) -> Option<u16> {
        self.numbers.get(name).copied()
    }

    pub fn nodes(&self, k: u16) -> usize {
        self.entries.get(usize::from(k)).map_or(0, |entry| entry.list.len())
    }

    pub fn node(&self, k: u16, i: u16) -> TypeNode {
        let list = self.entries.get(usize::from(k)).map_or(&[][..], |entry| &entry.list);
        list.get(usize::from(i)).copied().unwrap_or_default()
    }
}

impl<'a> FromIterator<(&'a [u8], Vec<TypeNode>)> for Catalogue {
    /// Of names and lawful lists.
    fn from_iter<I: IntoIterator<Item = (&'a [u8], Vec<TypeNode>)>>(rows: I) -> Self {
        let mut catalogue = Self::default();
        let mut normalizer = Normalizer::default();
        for (k, (name, list)) in rows.into_iter().enumerate() {
            let normal = normalizer.of_list(&list).to_vec();
            catalogue.numbers.entry(name.to_vec()).or_insert(k as u16);
            catalogue.entries.push(Entry { name: name.to_vec(), list, normal });
        }
        catalogue
    }
}
