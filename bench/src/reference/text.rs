//! Tokens: how bytes make names, references and marks.

use crate::limits;

#[derive(Clone, Copy, Debug, PartialEq, Eq)]
pub enum Kind {
    Backslash,
    Dot,
    Open,
    Close,
    Name,
    Reference(u16),
}

/// A token, and the part of the text that it is.
#[derive(Clone, Copy, Debug)]
pub struct Token {
    pub kind: Kind,
    pub start: usize,
    pub end: usize,
}

/// Cuts a text into tokens, or answers the offset of the first byte or run that is none.
pub fn tokens(text: &[u8], out: &mut Vec<Token>) -> Result<(), usize> {
    out.clear();
    let mut at = 0;
    while at < text.len() {
        let start = at;
        at += 1;
        let kind = match text[start] {
            b' ' => continue,
            b'\\' => Kind::Backslash,
            b'.' => Kind::Dot,
            b'(' => Kind::Open,
            b')' => Kind::Close,
            b'#' => {
                at = run_end(text, at);
                Kind::Reference(number(&text[start + 1..at]).ok_or(start)?)
            }
            byte if in_name(byte) => {
                at = run_end(text, at);
                if !is_name(&text[start..at]) {
                    return Err(start);
                }
                Kind::Name
            }
            _ => return Err(start),
        };
        out.push(Token { kind, start, end: at });
    }
    Ok(())
}

fn in_name(byte: u8) -> bool {
    byte.is_ascii_lowercase() || byte.is_ascii_digit() || byte == b'_'
}

fn run_end(text: &[u8], from: usize) -> usize {
    from + text[from..].iter().take_while(|&&byte| in_name(byte)).count()
}

/// Whether these bytes, all of them, are a name.
pub fn is_name(run: &[u8]) -> bool {
    run.first().is_some_and(u8::is_ascii_lowercase) && run.len() <= limits::NAME && run.iter().all(|&b| in_name(b))
}

/// The number that a run of one to three digits writes without a leading zero.
fn number(run: &[u8]) -> Option<u16> {
    let short = !run.is_empty() && run.len() <= limits::DIGITS && run.iter().all(u8::is_ascii_digit);
    let padded = run.len() > 1 && run[0] == b'0';
    (short && !padded).then(|| run.iter().fold(0, |n, &digit| 10 * n + u16::from(digit - b'0')))
}
