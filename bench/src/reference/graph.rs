//! Types by union-find: one graph for the whole term, loops looked for once at the end.

use super::derivation;
use super::engine::{Context, Derivation, Engine};
use super::lists::{Loop, Normalizer, Shape, Shared};
use crate::typer::{TermNode, TypeNode};

#[derive(Clone, Copy)]
enum Cell {
    Same(u32),
    Variable,
    Base(u16),
    Arrow(u32, u32),
}

/// Two types that no substitution makes equal.
struct NoType;

impl From<Loop> for NoType {
    fn from(_: Loop) -> Self {
        NoType
    }
}

#[derive(Default)]
struct Cells {
    cells: Vec<Cell>,
    pending: Vec<(u32, u32)>,
}

impl Cells {
    fn push(&mut self, cell: Cell) -> u32 {
        self.cells.push(cell);
        self.cells.len() as u32 - 1
    }

    /// The root of a cell's class; paths are halved on the way.
    fn root(&mut self, mut at: u32) -> u32 {
        while let Cell::Same(next) = self.cells[at as usize] {
            if let Cell::Same(over) = self.cells[next as usize] {
                self.cells[at as usize] = Cell::Same(over);
            }
            at = next;
        }
        at
    }

    fn unify(&mut self, a: u32, b: u32) -> Result<(), NoType> {
        self.pending.clear();
        self.pending.push((a, b));
        while let Some((a, b)) = self.pending.pop() {
            let (a, b) = (self.root(a), self.root(b));
            if a == b {
                continue;
            }
            match (self.cells[a as usize], self.cells[b as usize]) {
                (Cell::Variable, _) => self.cells[a as usize] = Cell::Same(b),
                (_, Cell::Variable) => self.cells[b as usize] = Cell::Same(a),
                (Cell::Base(x), Cell::Base(y)) if x == y => self.cells[a as usize] = Cell::Same(b),
                (Cell::Arrow(f, x), Cell::Arrow(g, y)) => {
                    self.cells[a as usize] = Cell::Same(b);
                    self.pending.push((x, y));
                    self.pending.push((f, g));
                }
                _ => return Err(NoType),
            }
        }
        Ok(())
    }

    /// A fresh instance of a normal list.
    fn instance(&mut self, list: &[TypeNode]) -> u32 {
        let base = self.cells.len() as u32;
        self.cells.extend(list.iter().map(|node| match node.kind {
            TypeNode::VARIABLE => Cell::Variable,
            TypeNode::BASE => Cell::Base(node.left),
            _ => Cell::Arrow(base + u32::from(node.left), base + u32::from(node.right)),
        }));
        self.cells.len() as u32 - 1
    }
}

impl Shared for Cells {
    fn canonical(&mut self, node: u32) -> u32 {
        self.root(node)
    }

    fn shape(&self, node: u32) -> Shape {
        match self.cells[node as usize] {
            Cell::Base(code) => Shape::Base(code),
            Cell::Arrow(left, right) => Shape::Arrow(left, right),
            Cell::Variable | Cell::Same(_) => Shape::Variable,
        }
    }

    fn len(&self) -> usize {
        self.cells.len()
    }
}

/// The graph and the memories of the walk, kept from one term to the next.
#[derive(Default)]
pub struct Graph {
    cells: Cells,
    scope: Vec<u32>,
    /// The cell of each term node.
    types: Vec<u32>,
    normalizer: Normalizer,
}

impl Graph {
    fn infer(&mut self, term: &[TermNode], context: Context<'_>) -> Result<(), NoType> {
        self.cells.cells.clear();
        self.scope.clear();
        self.types.clear();
        self.types.reserve(term.len());
        self.node(term, context).map(|_| ())
    }

    /// Types the node that comes next, with all its parts.
    fn node(&mut self, term: &[TermNode], context: Context<'_>) -> Result<u32, NoType> {
        let at = self.types.len();
        self.types.push(0);
        let node = term[at];
        let found = match node.kind {
            TermNode::VARIABLE => self.scope[self.scope.len() - 1 - usize::from(node.number)],
            TermNode::ABSTRACTION => {
                let binder = self.cells.push(Cell::Variable);
                self.scope.push(binder);
                let body = self.node(term, context)?;
                self.scope.pop();
                self.cells.push(Cell::Arrow(binder, body))
            }
            TermNode::APPLICATION => {
                let function = self.node(term, context)?;
                let argument = self.node(term, context)?;
                let result = self.cells.push(Cell::Variable);
                let arrow = self.cells.push(Cell::Arrow(argument, result));
                self.cells.unify(function, arrow)?;
                result
            }
            _ => self.cells.instance(context.kept(node).unwrap_or_default()),
        };
        self.types[at] = found;
        Ok(found)
    }

    /// Lists the types of the first `count` term nodes, in order, and answers their places.
    fn list(&mut self, count: usize) -> Result<Vec<u16>, NoType> {
        let Self { cells, types, normalizer, .. } = self;
        normalizer.start(cells.len());
        let places = types[..count].iter().map(|&cell| normalizer.add(cells, cell)).collect::<Result<_, _>>()?;
        normalizer.look_for_loops(cells)?;
        Ok(places)
    }
}

impl Engine for Graph {
    fn principal(&mut self, term: &[TermNode], context: Context<'_>) -> Option<Vec<TypeNode>> {
        self.infer(term, context).and_then(|()| self.list(1)).ok()?;
        Some(self.normalizer.list.clone())
    }

    fn derivation(&mut self, term: &[TermNode], context: Context<'_>) -> Option<Derivation> {
        let places = self.infer(term, context).and_then(|()| self.list(term.len())).ok()?;
        Some(Derivation { list: self.normalizer.list.clone(), places })
    }

    fn wrong_step(term: &[TermNode], context: Context<'_>, list: &[TypeNode], places: &[u16]) -> Option<usize> {
        derivation::wrong_step(term, context, list, places)
    }
}
