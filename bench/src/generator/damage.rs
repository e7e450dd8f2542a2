//! Damage to texts: edits of bytes, and soups of tokens that were never a formula.

use super::random::Random;

const TELLING: &[u8] = b"\\.()# x0_aB9\t\n\r\0\xff~@[`{/:";

fn some_byte(random: &mut Random) -> u8 {
    if random.one_in(4) { random.byte() } else { *random.pick(TELLING) }
}

/// Edits a text in a few places.
pub fn edit(random: &mut Random, text: &mut Vec<u8>) {
    for _ in 0..1 + random.below(3) {
        let at = random.below(text.len() + 1);
        let end = at + random.mostly_small(text.len() - at + 1);
        match random.below(7) {
            0 | 1 => text.insert(at, some_byte(random)),
            2 | 3 if at < text.len() => text[at] = some_byte(random),
            4 if at < text.len() => drop(text.remove(at)),
            5 => drop(text.drain(at..end)),
            _ => {
                let part = text[at..end].to_vec();
                let to = random.below(text.len() + 1);
                text.splice(to..to, part);
            }
        }
    }
}

/// Tokens, spaces and near misses in any order.
pub fn soup(random: &mut Random) -> Vec<u8> {
    const PIECES: [&str; 20] = [
        "\\", "\\x.", "\\x.", ".", "(", ")", "(", ")", " ", " ", "x", "y", "#0", "#1", "add", "#12", "net_of", "#",
        "x1_", "7",
    ];
    let most = if random.one_in(5) { PIECES.len() } else { 17 };
    (0..random.mostly_small(40)).flat_map(|_| PIECES[random.below(most)].bytes()).collect()
}

/// Any bytes at all.
pub fn noise(random: &mut Random) -> Vec<u8> {
    (0..random.mostly_small(60)).map(|_| some_byte(random)).collect()
}

/// Words that are nearly references or names.
pub fn words(random: &mut Random) -> Vec<u8> {
    let mut text = Vec::new();
    for _ in 0..1 + random.below(3) {
        let mut word = String::new();
        for _ in 0..random.below(3) {
            word.push('#');
        }
        let longest = *random.pick(&[1, 2, 3, 4, 34]);
        for _ in 0..random.below(longest + 1) {
            word.push(char::from(*random.pick(b"0123a_z")));
        }
        text.extend(word.bytes());
        text.push(b' ');
    }
    text
}
