//! Derivations: changed ones, right and wrong, made from a right one.

use super::random::Random;
use crate::reference::Derivation;
use crate::typer::TypeNode;
use std::collections::HashMap;

/// Changes a derivation in some way, or not at all.
pub fn change(random: &mut Random, derivation: &mut Derivation) {
    match random.below(14) {
        0 | 1 => {}
        2..=4 => *derivation = instance(random, derivation),
        5 => *derivation = reordered(random, derivation),
        6 | 7 => move_place(random, derivation),
        8 => {
            *derivation = instance(random, derivation);
            move_place(random, derivation);
        }
        9 => derivation.list.push(record(random, derivation.list.len())),
        10 => resize(random, derivation),
        _ => change_record(random, &mut derivation.list),
    }
}

fn move_place(random: &mut Random, Derivation { list, places }: &mut Derivation) {
    if !places.is_empty() {
        let at = random.below(places.len());
        let beyond = usize::from(random.one_in(8));
        places[at] = random.below(list.len() + beyond) as u16;
    }
}

fn resize(random: &mut Random, Derivation { list, places }: &mut Derivation) {
    match random.below(6) {
        0 => drop(places.pop()),
        1 => places.push(random.below(list.len()) as u16),
        2 => list.clear(),
        3 => drop(list.pop()),
        4 => list.extend((list.len()..random.within(4_095..4_098)).map(|v| TypeNode::variable(v as u16))),
        _ => list.insert(0, record(random, 0)),
    }
}

fn record(random: &mut Random, place: usize) -> TypeNode {
    match random.below(8) {
        0 => TypeNode::variable(*random.pick(&[4_095, 4_096, 100, 0])),
        1 | 2 => TypeNode::variable(random.below(200) as u16),
        3 | 4 => TypeNode::base(random.below(7) as u16),
        5 => TypeNode { kind: random.below(4) as u8, left: random.below(7) as u16, right: random.below(3) as u16 },
        _ => TypeNode::arrow(random.below(place + 1) as u16, random.below(place + 1) as u16),
    }
}

fn change_record(random: &mut Random, list: &mut [TypeNode]) {
    if list.is_empty() {
        return;
    }
    let at = random.below(list.len());
    let other = list[random.below(list.len())];
    match random.below(5) {
        0 => list[at] = record(random, at),
        1 => list[at] = other,
        2 => list[at].left = random.below(at + 1) as u16,
        3 => list[at].right = random.below(at + 1) as u16,
        _ => list[at].kind = random.below(4) as u8,
    }
}

/// Each distinct record once.
#[derive(Default)]
struct Records {
    list: Vec<TypeNode>,
    places: HashMap<TypeNode, u16>,
}

impl Records {
    fn put(&mut self, node: TypeNode) -> u16 {
        let next = self.list.len() as u16;
        *self.places.entry(node).or_insert_with(|| {
            self.list.push(node);
            next
        })
    }
}

/// The derivation with other types for some of its variables: an instance, so still a right one.
fn instance(random: &mut Random, from: &Derivation) -> Derivation {
    let mut records = Records::default();
    let mut moved: Vec<u16> = Vec::new();
    for node in &from.list {
        let at = match node.kind {
            TypeNode::VARIABLE => match random.below(6) {
                0 => records.put(TypeNode::base(random.below(6) as u16)),
                1 if !moved.is_empty() => *random.pick(&moved),
                2 if !moved.is_empty() => {
                    let parts = (*random.pick(&moved), *random.pick(&moved));
                    records.put(TypeNode::arrow(parts.0, parts.1))
                }
                3 => records.put(TypeNode::variable(random.below(4_096) as u16)),
                _ => records.put(*node),
            },
            TypeNode::ARROW => {
                records.put(TypeNode::arrow(moved[usize::from(node.left)], moved[usize::from(node.right)]))
            }
            _ => records.put(*node),
        };
        moved.push(at);
    }
    let places = from.places.iter().map(|&place| moved[usize::from(place)]).collect();
    Derivation { list: records.list, places }
}

/// The same records in another order in which parts still stand before their wholes.
fn reordered(random: &mut Random, from: &Derivation) -> Derivation {
    let mut moved: Vec<Option<u16>> = vec![None; from.list.len()];
    let mut list = Vec::new();
    while list.len() < from.list.len() {
        let part = |place: u16| moved.get(usize::from(place)).copied().flatten();
        let ready = |at: &usize| {
            let node = from.list[*at];
            moved[*at].is_none()
                && (node.kind != TypeNode::ARROW || part(node.left).is_some() && part(node.right).is_some())
        };
        let start = random.below(from.list.len());
        let Some(at) = (start..from.list.len()).chain(0..start).find(ready) else { break };
        let node = from.list[at];
        list.push(match (node.kind, part(node.left), part(node.right)) {
            (TypeNode::ARROW, Some(left), Some(right)) => TypeNode::arrow(left, right),
            _ => node,
        });
        moved[at] = Some(list.len() as u16 - 1);
    }
    let places = from.places.iter().map(|&place| moved[usize::from(place)].unwrap_or_default()).collect();
    Derivation { list, places }
}
