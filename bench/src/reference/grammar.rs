//! Expressions: how tokens make a tree. Nesting is kept on a stack of its own, so no text is too deep.

use super::text::{Kind, Token};

/// A node of the tree; parts stand before their whole.
#[derive(Clone, Copy, Debug)]
pub enum Expression {
    Name(Token),
    Reference(u16, Token),
    Abstraction { binder: Token, body: u32 },
    Application { function: u32, argument: u32 },
}

/// What is open around the place of reading.
enum Around {
    Binder(Token),
    Bracket { head: Option<u32> },
}

/// The tree of some tokens, and the stack that reading them takes.
#[derive(Default)]
pub struct Tree {
    pub nodes: Vec<Expression>,
    around: Vec<Around>,
}

impl Tree {
    /// Reads the tokens of a text of that length. Its root is the last node. Where they form no expression, answers the
    /// offset of the first token that cannot follow, or the length.
    pub fn read(&mut self, tokens: &[Token], length: usize) -> Result<(), usize> {
        self.nodes.clear();
        self.around.clear();
        let mut brackets = 0;
        // What has been read of the application at hand; none at the start of an expression.
        let mut head = None;
        let mut tokens = tokens.iter();
        while let Some(&token) = tokens.next() {
            match token.kind {
                Kind::Name => head = Some(self.extend(head, Expression::Name(token))),
                Kind::Reference(n) => head = Some(self.extend(head, Expression::Reference(n, token))),
                Kind::Open => {
                    self.around.push(Around::Bracket { head: head.take() });
                    brackets += 1;
                }
                Kind::Close if brackets > 0 => {
                    head = Some(self.close(head.ok_or(token.start)?));
                    brackets -= 1;
                }
                Kind::Backslash if head.is_none() => {
                    let binder = *expect(tokens.next(), Kind::Name, length)?;
                    expect(tokens.next(), Kind::Dot, length)?;
                    self.around.push(Around::Binder(binder));
                }
                _ => return Err(token.start),
            }
        }
        match head {
            Some(body) if brackets == 0 => {
                self.close_binders(body);
                Ok(())
            }
            _ => Err(length),
        }
    }

    fn push(&mut self, node: Expression) -> u32 {
        self.nodes.push(node);
        self.nodes.len() as u32 - 1
    }

    fn apply(&mut self, head: Option<u32>, argument: u32) -> u32 {
        match head {
            None => argument,
            Some(function) => self.push(Expression::Application { function, argument }),
        }
    }

    fn extend(&mut self, head: Option<u32>, atom: Expression) -> u32 {
        let argument = self.push(atom);
        self.apply(head, argument)
    }

    /// Ends the abstractions that end here.
    fn close_binders(&mut self, mut body: u32) -> u32 {
        while let Some(&Around::Binder(binder)) = self.around.last() {
            self.around.pop();
            body = self.push(Expression::Abstraction { binder, body });
        }
        body
    }

    /// Ends a bracket, which is then an argument of what stood before it.
    fn close(&mut self, body: u32) -> u32 {
        let whole = self.close_binders(body);
        match self.around.pop() {
            Some(Around::Bracket { head }) => self.apply(head, whole),
            _ => unreachable!("a bracket is open"),
        }
    }
}

fn expect(token: Option<&Token>, kind: Kind, length: usize) -> Result<&Token, usize> {
    match token {
        Some(token) if token.kind == kind => Ok(token),
        Some(token) => Err(token.start),
        None => Err(length),
    }
}
