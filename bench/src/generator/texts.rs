//! One text of any kind.

use super::formulas::{self, Setting, Style};
use super::random::Random;
use super::{damage, pay, shapes};

/// A text of some kind; large ones are rarer than they are slow.
pub fn any(random: &mut Random, setting: &Setting) -> Vec<u8> {
    match random.below(100) {
        0..=24 => pay_formula(random),
        25..=39 => {
            let size = 1 + random.mostly_small(60);
            written(random, |random| formulas::any(random, setting, size))
        }
        40..=49 => written(random, |random| formulas::conditions(random, setting)),
        50..=64 if setting.filed > 0 => written(random, |random| formulas::over_filed(random, setting)),
        65..=69 => near_miss(random),
        70..=83 => {
            let mut text = pay_formula(random);
            damage::edit(random, &mut text);
            text
        }
        84..=87 => damage::soup(random),
        88..=89 => damage::noise(random),
        90..=91 => damage::words(random),
        92 => large(random, setting),
        93 => edge(random),
        _ => {
            let size = 1 + random.mostly_small(12);
            written(random, |random| formulas::any(random, setting, size))
        }
    }
}

fn written(random: &mut Random, make: impl FnOnce(&mut Random) -> formulas::Formula) -> Vec<u8> {
    let style = Style::any(random);
    make(random).text(random, style)
}

pub fn pay_formula(random: &mut Random) -> Vec<u8> {
    let fuel = 2 + random.mostly_small(80);
    written(random, |random| pay::formula(random, fuel))
}

/// A pay formula with one part put in the place of another.
fn near_miss(random: &mut Random) -> Vec<u8> {
    let fuel = 2 + random.mostly_small(40);
    written(random, |random| {
        let mut formula = pay::formula(random, fuel);
        formula.shuffle(random);
        formula
    })
}

/// A text of one shape, up to the largest that fits and a little beyond.
pub fn large(random: &mut Random, setting: &Setting) -> Vec<u8> {
    let mut up_to = |most: usize| random.mostly_small(most);
    let text = match up_to(12) {
        0 => shapes::abstractions(up_to(1_030)),
        1 => shapes::binders(1 + up_to(550)),
        2 => shapes::arguments(up_to(520)),
        3 => shapes::choices(up_to(520)),
        4 => shapes::self_applied(1 + up_to(520)),
        5 => shapes::brackets(up_to(2_100)),
        6 => shapes::nested(up_to(520)),
        7 => shapes::sums(up_to(260)),
        8 => shapes::doubling(up_to(150)),
        9 => shapes::doubling_binders(up_to(70)),
        10 => shapes::long_loop(2 + up_to(120)),
        _ => shapes::references(up_to(setting.filed + 1), up_to(600)),
    };
    text.into_bytes()
}

/// A text at a limit.
fn edge(random: &mut Random) -> Vec<u8> {
    let text = match random.below(14) {
        0 => " ".repeat(random.within(4_094..4_099)),
        1 => shapes::self_applied(random.within(510..515)),
        2 => shapes::abstractions(random.within(1_021..1_026)),
        3 => shapes::arguments(random.within(508..513)),
        4 => "(".repeat(random.within(4_090..4_098)),
        5 => shapes::brackets(random.within(2_040..2_046)),
        6 => "x".repeat(random.within(30..34)),
        7 => format!(r"\{0}.{0}", "a".repeat(random.within(30..33))),
        8 => format!("#{}", random.below(1_100)),
        9 => shapes::choices(random.within(508..514)),
        10 => r"\x.x".to_string() + &" ".repeat(random.within(4_090..4_094)),
        11 => " ".repeat(random.within(4_090..4_094)) + r"\x.x",
        12 => shapes::largest(),
        _ => shapes::EIGHT.to_string(),
    };
    text.into_bytes()
}
