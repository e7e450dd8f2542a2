//! Catalogue files, lawful and damaged.

use super::damage;
use super::random::Random;
use crate::limits;
use crate::typer::TypeNode;

/// An entry as it will be written.
#[derive(Clone)]
pub struct Entry {
    pub name: Vec<u8>,
    pub nodes: Vec<TypeNode>,
}

/// The bytes of a file with these entries. Numbers that do not fit are cut.
pub fn bytes(entries: &[Entry]) -> Vec<u8> {
    let mut pairs = (entries.len() as u16).to_le_bytes().to_vec();
    let mut body = Vec::new();
    let start = 2 + 4 * entries.len();
    for entry in entries {
        let offset = start + body.len();
        body.push(entry.name.len() as u8);
        body.extend(&entry.name);
        for node in &entry.nodes {
            body.push(node.kind);
            body.extend(node.left.to_le_bytes());
            body.extend(node.right.to_le_bytes());
        }
        pairs.extend((offset as u16).to_le_bytes());
        pairs.extend(((start + body.len() - offset) as u16).to_le_bytes());
    }
    [pairs, body].concat()
}

fn name(random: &mut Random) -> Vec<u8> {
    let length = 1 + random.mostly_small(limits::NAME);
    let mut name = vec![*random.pick(b"abxyz")];
    name.extend((1..length).map(|_| *random.pick(b"ab01_z")));
    name
}

fn node(random: &mut Random, place: usize) -> TypeNode {
    match random.below(10) {
        0 => TypeNode::variable(*random.pick(&[0, 1, 2, 25, 26, 27, 4_095])),
        1 | 2 => TypeNode::variable(random.below(3) as u16),
        3 | 4 => TypeNode::base(random.below(6) as u16),
        _ if place == 0 => TypeNode::base(random.below(6) as u16),
        _ => TypeNode::arrow(random.below(place) as u16, (place - 1 - random.mostly_small(place)) as u16),
    }
}

fn entry(random: &mut Random, most: usize) -> Entry {
    let count = 1 + random.mostly_small(most);
    Entry { name: name(random), nodes: (0..count).map(|place| node(random, place)).collect() }
}

/// Entries with different names, whose lists are lawful, but not normal.
pub fn entries(random: &mut Random) -> Vec<Entry> {
    let count = match random.below(40) {
        0 => 256,
        1 => 257,
        2..=4 => 0,
        _ => random.mostly_small(20),
    };
    let most = if count > 100 && random.one_in(2) { 40 } else { 64 };
    let mut entries: Vec<Entry> = Vec::new();
    while entries.len() < count {
        let mut entry = entry(random, most);
        if entries.iter().any(|other| other.name == entry.name) {
            entry.name = format!("e{}", entries.len()).into_bytes();
        }
        entries.push(entry);
    }
    entries
}

/// A file without damage.
pub fn lawful(random: &mut Random) -> Vec<u8> {
    bytes(&entries(random))
}

/// A file of about the largest size, filled up by one entry after the other.
pub fn full(random: &mut Random) -> Vec<u8> {
    let wanted = random.within(65_530..65_540);
    let count = 202;
    let mut entries: Vec<Entry> =
        (0..count).map(|k| Entry { name: format!("e{k}").into_bytes(), nodes: vec![TypeNode::base(0); 63] }).collect();
    while wanted - bytes(&entries).len() >= 5 {
        let short = entries.iter_mut().find(|entry| entry.nodes.len() < 64);
        match short {
            Some(entry) => entry.nodes.push(TypeNode::arrow(0, 0)),
            None => break,
        }
    }
    let missing = wanted - bytes(&entries).len();
    let longer = entries.iter_mut().take(missing);
    longer.for_each(|entry| entry.name.push(b'_'));
    bytes(&entries)
}

/// Spoils one thing of the entries.
fn spoil(random: &mut Random, entries: &mut Vec<Entry>) {
    if entries.is_empty() {
        return entries.push(Entry { name: name(random), nodes: Vec::new() });
    }
    let (at, other) = (random.below(entries.len()), random.below(entries.len()));
    let borrowed = entries[other].name.clone();
    let Entry { name, nodes } = &mut entries[at];
    let place = random.below(nodes.len());
    match random.below(10) {
        1 => name.clear(),
        2 => *name = b"a".repeat(random.within(30..34)),
        3 if !name.is_empty() => name[0] = *random.pick(b"A0_\xc0 "),
        4 => *name.last_mut().unwrap_or(&mut 0) = random.byte(),
        5 => nodes.clear(),
        6 => nodes.resize(random.within(63..66), TypeNode::base(1)),
        7 if !nodes.is_empty() => nodes[place] = unlawful(random, place),
        8 if !nodes.is_empty() => nodes[place].right = nodes[place].right.wrapping_add(1),
        _ => *name = borrowed,
    }
}

fn unlawful(random: &mut Random, place: usize) -> TypeNode {
    let place = place as u16;
    match random.below(6) {
        0 => TypeNode::variable(4_096),
        1 => TypeNode::base(6 + random.below(3) as u16),
        2 => TypeNode::arrow(place, 0),
        3 => TypeNode::arrow(0, place + random.below(2) as u16),
        4 => TypeNode { kind: 3 + random.byte() % 250, left: 0, right: 0 },
        _ => TypeNode { kind: random.below(2) as u8, left: 0, right: 1 + random.below(300) as u16 },
    }
}

/// A file with damage of some kind, or of several.
pub fn damaged(random: &mut Random) -> Vec<u8> {
    let mut entries = entries(random);
    let spoilt = random.below(3);
    (0..spoilt).for_each(|_| spoil(random, &mut entries));
    let mut file = bytes(&entries);
    match random.below(8) {
        0 => file.truncate(random.below(file.len() + 1)),
        1 => file.extend([0; 5].iter().take(1 + random.below(5))),
        2 => file[random.below(2)] ^= 1 << random.below(8),
        3 if file.len() > 6 => file[2 + random.below(4 * entries.len()).min(60)] ^= 1 << random.below(4),
        4 => damage::edit(random, &mut file),
        5 => file = (0..random.mostly_small(40)).map(|_| random.byte() & random.byte()).collect(),
        _ if spoilt == 0 => spoil_again(random, &mut file, entries),
        _ => {}
    }
    file
}

fn spoil_again(random: &mut Random, file: &mut Vec<u8>, mut entries: Vec<Entry>) {
    spoil(random, &mut entries);
    *file = bytes(&entries);
}
