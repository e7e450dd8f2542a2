//! Derivations whose replies are known.

use bench::limits;
use bench::reference::{Definition, Reference};
use bench::typer::{Memory, Refusal, Reply, TypeNode, Typer};

fn book_of<T: Typer>(texts: &[&str]) -> T {
    let mut book = T::new();
    let mut memory = Memory::zeros(limits::TERM, limits::NEED, limits::numbers(limits::NEED, limits::TERM));
    for text in texts {
        book.submit(text.as_bytes(), &mut memory).and_then(|()| book.file()).expect("it has a type");
    }
    book
}

fn derivation<T: Typer>(texts: &[&str]) -> (Vec<TypeNode>, Vec<u16>) {
    let (mut types, mut places, mut numbers) = (vec![TypeNode::default(); 100], vec![9; 100], vec![7; 1_600]);
    let n = texts.len() as u16 - 1;
    let length = book_of::<T>(texts).derive(n, &mut types, &mut places, &mut numbers).expect("there is room");
    assert!(
        types[length..].iter().all(|node| *node == TypeNode::default()) && numbers.iter().all(|&number| number == 0)
    );
    types.truncate(length);
    (types, places)
}

const A: TypeNode = TypeNode::variable(0);

#[test]
fn the_most_general_typing() {
    let (list, places) = derivation::<Reference>(&[r"(\x.\y.y) (\z.z)"]);
    // Node 0 is the whole, 1 the function, 2 its body, 3 a variable, 4 the argument, 5 a variable.
    let to = TypeNode::arrow;
    assert_eq!(list, [A, to(0, 0), TypeNode::variable(1), to(2, 2), to(3, 1)]);
    assert_eq!(places[..6], [1, 4, 1, 0, 3, 2]);
    assert!(places[6..].iter().all(|&place| place == 0));
    assert_eq!(derivation::<Definition>(&[r"(\x.\y.y) (\z.z)"]), (list, places));
    let (list, places) = derivation::<Reference>(&[r"\x.x", "#0 #0"]);
    assert_eq!(list, [A, to(0, 0), to(1, 1)]);
    assert_eq!(places[..3], [1, 2, 1]);
}

fn check(list: &[TypeNode], places: &[u16], expected: Reply<()>) {
    assert_eq!(book_of::<Reference>(&[r"\x.\f.f x"]).check(0, list, places), expected, "{list:?} {places:?}");
    assert_eq!(book_of::<Definition>(&[r"\x.\f.f x"]).check(0, list, places), expected, "{list:?} {places:?}");
}

#[test]
fn the_first_question_with_a_no() {
    let no = |number: u16, place: usize| Err(Refusal::at(number, place));
    let (to, b) = (TypeNode::arrow, TypeNode::variable(1));
    // Of `\x.\f.f x`: the whole, the inner abstraction, the application, f, x.
    let right = [A, b, to(0, 1), to(2, 1), to(0, 3)];
    check(&right, &[4, 3, 1, 2, 0], Ok(()));
    check(&[A, TypeNode::base(4), to(0, 1), to(2, 1), to(0, 3)], &[4, 3, 1, 2, 0], Ok(()));
    check(&[A, to(0, 0), to(1, 0), to(0, 2)], &[3, 2, 0, 1, 0], Ok(()));
    check(&[], &[4, 3, 1, 2, 0], no(80, 0));
    check(&[A; 4_097], &[4, 3, 1, 2, 0], no(80, 0));
    check(&[A, b, to(0, 2), to(2, 1), to(0, 3)], &[4, 3, 1, 2, 0], no(81, 0));
    check(&[A, A, to(0, 1), to(2, 1), to(0, 3)], &[4, 3, 1, 2, 0], no(82, 0));
    check(&right, &[4, 3, 1, 2], no(83, 0));
    check(&right, &[4, 3, 1, 2, 5], no(83, 0));
    check(&right, &[3, 3, 1, 2, 0], no(84, 0));
    check(&right, &[4, 3, 0, 2, 0], no(84, 1));
    check(&right, &[4, 3, 1, 0, 0], no(84, 2));
    check(&right, &[4, 3, 1, 2, 1], no(84, 2));
    assert_eq!(book_of::<Reference>(&[]).check(0, &right, &[]), no(70, 0));
}

#[test]
fn each_use_has_an_instance() {
    let to = TypeNode::arrow;
    let net = TypeNode::base(3);
    let book: Reference = book_of(&[r"\x.x", "#0 #0"]);
    assert_eq!(book.check(1, &[net, to(0, 0), to(1, 1)], &[1, 2, 1]), Ok(()));
    assert_eq!(book.check(1, &[net, to(0, 0), to(1, 1), to(2, 2)], &[2, 3, 2]), Ok(()));
    let wrong = [net, A, to(0, 1), to(2, 2)];
    assert_eq!(book.check(1, &wrong, &[2, 3, 2]), Err(Refusal::at(84, 2)));
}
