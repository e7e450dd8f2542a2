//! Lists of type nodes: which are lawful, and normal lists. Equal subtrees are found by hash-consing.

use super::hash::QuickMap;
use crate::limits;
use crate::typer::TypeNode;

/// Whether a node may stand at that place of a list.
fn lawful_at(node: &TypeNode, place: usize) -> bool {
    match node.kind {
        TypeNode::VARIABLE => node.left <= limits::VARIABLE && node.right == 0,
        TypeNode::BASE => usize::from(node.left) < limits::BASES.len() && node.right == 0,
        TypeNode::ARROW => usize::from(node.left) < place && usize::from(node.right) < place,
        _ => false,
    }
}

/// Whether all nodes are lawful.
pub fn lawful(list: &[TypeNode]) -> bool {
    list.iter().enumerate().all(|(place, node)| lawful_at(node, place))
}

/// A type as the writer of a normal list sees it.
#[derive(Clone, Copy)]
pub enum Shape {
    Variable,
    Base(u16),
    Arrow(u32, u32),
}

/// Types that share subtrees: nodes by number, each with a shape.
pub trait Shared {
    /// The number under which a node is known, one for all nodes that are the same.
    fn canonical(&mut self, node: u32) -> u32;
    fn shape(&self, node: u32) -> Shape;
    fn len(&self) -> usize;
}

/// A type that contains itself.
#[derive(Debug)]
pub struct Loop;

const UNSEEN: u32 = u32::MAX;
const IN_LEFT: u32 = u32::MAX - 1;
const IN_RIGHT: u32 = u32::MAX - 2;
/// Walked without being listed.
const PASSED: u32 = u32::MAX - 3;

/// The writer of normal lists. Its memories are kept from one list to the next.
#[derive(Default)]
pub struct Normalizer {
    pub list: Vec<TypeNode>,
    /// By node: its place in the list, or how far the walk is with it.
    places: Vec<u32>,
    stack: Vec<u32>,
    bases: [Option<u16>; limits::BASES.len()],
    variables: u16,
    arrows: QuickMap<(u16, u16), u16>,
}

impl Normalizer {
    /// Starts an empty list over types of that many nodes.
    pub fn start(&mut self, nodes: usize) {
        self.list.clear();
        self.places.clear();
        self.places.resize(nodes, UNSEEN);
        self.stack.clear();
        self.bases = Default::default();
        self.variables = 0;
        self.arrows.clear();
    }

    /// Lists the subtrees of a type that are not listed yet, and answers its place.
    pub fn add(&mut self, types: &mut impl Shared, root: u32) -> Result<u16, Loop> {
        let root = types.canonical(root);
        self.walk(types, root, true)?;
        Ok(self.places[root as usize] as u16)
    }

    /// Looks for loops in all nodes that have not been listed.
    pub fn look_for_loops(&mut self, types: &mut impl Shared) -> Result<(), Loop> {
        (0..types.len() as u32).try_for_each(|node| {
            let node = types.canonical(node);
            self.walk(types, node, false)
        })
    }

    /// The normal list of the type that a lawful list means.
    pub fn of_list(&mut self, list: &[TypeNode]) -> &[TypeNode] {
        let mut types = Listed::new(list);
        self.start(list.len());
        self.add(&mut types, list.len() as u32 - 1).expect("a lawful list has no loop");
        &self.list
    }

    fn walk(&mut self, types: &mut impl Shared, root: u32, listing: bool) -> Result<(), Loop> {
        self.enter(root)?;
        while let Some(&node) = self.stack.last() {
            let state = self.places[node as usize];
            match (types.shape(node), state) {
                (Shape::Arrow(left, _), UNSEEN) => {
                    self.places[node as usize] = IN_LEFT;
                    self.enter(types.canonical(left))?;
                }
                (Shape::Arrow(_, right), IN_LEFT) => {
                    self.places[node as usize] = IN_RIGHT;
                    self.enter(types.canonical(right))?;
                }
                (shape, _) => {
                    let place = if listing { self.leave(types, shape) } else { PASSED };
                    self.places[node as usize] = place;
                    self.stack.pop();
                }
            }
        }
        Ok(())
    }

    fn enter(&mut self, node: u32) -> Result<(), Loop> {
        match self.places[node as usize] {
            UNSEEN => self.stack.push(node),
            IN_LEFT | IN_RIGHT => return Err(Loop),
            _ => {}
        }
        Ok(())
    }

    /// The place of a type whose parts are listed.
    fn leave(&mut self, types: &mut impl Shared, shape: Shape) -> u32 {
        let next = self.list.len() as u16;
        let place = match shape {
            Shape::Variable => {
                self.list.push(TypeNode::variable(self.variables));
                self.variables += 1;
                next
            }
            Shape::Base(code) => *self.bases[usize::from(code)].get_or_insert_with(|| {
                self.list.push(TypeNode::base(code));
                next
            }),
            Shape::Arrow(left, right) => {
                let left = self.places[types.canonical(left) as usize] as u16;
                let right = self.places[types.canonical(right) as usize] as u16;
                *self.arrows.entry((left, right)).or_insert_with(|| {
                    self.list.push(TypeNode::arrow(left, right));
                    next
                })
            }
        };
        place.into()
    }
}

/// The nodes of a lawful list as types; of several nodes for one variable the first counts.
struct Listed<'a> {
    list: &'a [TypeNode],
    variables: QuickMap<u16, u32>,
}

impl<'a> Listed<'a> {
    fn new(list: &'a [TypeNode]) -> Self {
        let mut variables = QuickMap::default();
        for (place, node) in list.iter().enumerate() {
            if node.kind == TypeNode::VARIABLE {
                variables.entry(node.left).or_insert(place as u32);
            }
        }
        Self { list, variables }
    }
}

impl Shared for Listed<'_> {
    fn canonical(&mut self, node: u32) -> u32 {
        let TypeNode { kind, left, .. } = self.list[node as usize];
        if kind == TypeNode::VARIABLE { self.variables[&left] } else { node }
    }

    fn shape(&self, node: u32) -> Shape {
        let TypeNode { kind, left, right } = self.list[node as usize];
        match kind {
            TypeNode::VARIABLE => Shape::Variable,
            TypeNode::BASE => Shape::Base(left),
            _ => Shape::Arrow(left.into(), right.into()),
        }
    }

    fn len(&self) -> usize {
        self.list.len()
    }
}
