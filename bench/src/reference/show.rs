//! How types are printed.

use crate::limits;
use crate::typer::TypeNode;

/// The text of the type that a lawful list means; none where it has more than `most` bytes.
pub fn show(list: &[TypeNode], most: usize) -> Option<Vec<u8>> {
    let length = *lengths(list, most).last()?;
    if length > most {
        return None;
    }
    let mut out = Vec::with_capacity(length);
    write(list, list.len() - 1, &mut out);
    Some(out)
}

/// The length of the text of each node, or anything above `most` where it is longer.
fn lengths(list: &[TypeNode], most: usize) -> Vec<usize> {
    let mut lengths: Vec<usize> = Vec::with_capacity(list.len());
    for node in list {
        let length = match node.kind {
            TypeNode::VARIABLE => letters(node.left).1,
            TypeNode::BASE => limits::BASES[usize::from(node.left)].len(),
            _ => {
                let brackets = if is_arrow(list, node.left) { "()".len() } else { 0 };
                lengths[usize::from(node.left)] + brackets + " -> ".len() + lengths[usize::from(node.right)]
            }
        };
        lengths.push(length.min(most + 1));
    }
    lengths
}

fn is_arrow(list: &[TypeNode], place: u16) -> bool {
    list[usize::from(place)].kind == TypeNode::ARROW
}

/// The letter and the digits of a variable's number, and how many bytes they are.
fn letters(variable: u16) -> ([u8; 6], usize) {
    let mut bytes = [b'a' + (variable % 26) as u8; 6];
    let round = variable / 26;
    let digits = if round == 0 { 0 } else { round.ilog10() as usize + 1 };
    let mut rest = round;
    for byte in bytes[1..=digits].iter_mut().rev() {
        *byte = b'0' + (rest % 10) as u8;
        rest /= 10;
    }
    (bytes, 1 + digits)
}

fn write(list: &[TypeNode], mut place: usize, out: &mut Vec<u8>) {
    loop {
        let node = list[place];
        match node.kind {
            TypeNode::VARIABLE => {
                let (bytes, length) = letters(node.left);
                return out.extend_from_slice(&bytes[..length]);
            }
            TypeNode::BASE => return out.extend_from_slice(limits::BASES[usize::from(node.left)].as_bytes()),
            _ if is_arrow(list, node.left) => {
                out.push(b'(');
                write(list, node.left.into(), out);
                out.push(b')');
            }
            _ => write(list, node.left.into(), out),
        }
        out.extend_from_slice(b" -> ");
        place = node.right.into();
    }
}
