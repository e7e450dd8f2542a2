//! Formulas whose replies are known, put to both typers of this package.

use bench::generator::shapes;
use bench::limits;
use bench::reference::{Definition, Reference};
use bench::typer::{Memory, Typer};

fn enough() -> Memory {
    Memory::zeros(limits::TERM, limits::NEED, limits::numbers(limits::NEED, limits::TERM))
}

/// The program's line for a text after others have been filed.
fn line<T: Typer>(filed: &[&str], text: &[u8]) -> String {
    let mut book = T::new();
    for text in filed {
        book.submit(text.as_bytes(), &mut enough()).and_then(|()| book.file()).expect("the formula has a type");
    }
    let outcome = book.submit(text, &mut enough()).and_then(|()| book.file());
    let mut out = [0; limits::LINE];
    let length = book.line(outcome, &mut out).expect("the line has room");
    String::from_utf8(out[..length].to_vec()).expect("lines are text")
}

fn both(filed: &[&str], text: impl AsRef<[u8]>, expected: &str) {
    let expected = format!("{expected}\n");
    assert_eq!(line::<Reference>(filed, text.as_ref()), expected);
    assert_eq!(line::<Definition>(filed, text.as_ref()), expected);
}

#[test]
fn formulas_with_a_type() {
    both(&[], r"\x.x", "#0 : a -> a");
    both(&[], r"\f.\g.\x.f (g x)", "#0 : (a -> b) -> (c -> a) -> c -> b");
    both(&[r"\x.x"], "#0 #0", "#1 : a -> a");
    both(&[], r"\h.\r.paid_of (net_of (gross_of h r))", "#0 : hours -> rate -> paid");
    both(&[], "choose", "#0 : flag -> a -> a -> a");
    both(&[], r"\net_of.net_of", "#0 : a -> a");
    both(&[], r"\x.\x.x", "#0 : a -> b -> b");
}

#[test]
fn formulas_without_a_type() {
    both(&[], r"\x.x x", "refused 40 at 0");
    both(&[], r"(\i.i i) (\x.x)", "refused 40 at 0");
    both(&[], r"(\x.\y.y) (\z.z z)", "refused 40 at 0");
    both(&[], r"\h.\r.paid_of (gross_of h r)", "refused 40 at 0");
    both(&[], r"\x.".to_string() + &" x".repeat(512), "refused 40 at 0");
}

#[test]
fn texts_that_are_no_formulas() {
    both(&[], "", "refused 21 at 0");
    both(&[], r"x \y.y", "refused 21 at 2");
    both(&[], r"\x.y", "refused 24 at 3");
    both(&[], "#0", "refused 25 at 0");
    both(&[], "y #0 )", "refused 21 at 5");
    both(&[], "#0 y", "refused 24 at 3");
    both(&[], "x 0B", "refused 20 at 2");
    both(&[], "aB", "refused 20 at 1");
    both(&[], "##0", "refused 20 at 0");
    both(&[], "x #01", "refused 20 at 2");
    both(&[], "(x  ", "refused 21 at 4");
    both(&[], r"\x", "refused 21 at 2");
    both(&[], " ".repeat(4_096), "refused 21 at 4096");
    both(&[], " ".repeat(4_097), "refused 12 at 0");
    both(&[], r"\x.".to_string() + &" x".repeat(513), "refused 22 at 0");
}

#[test]
fn memories_that_are_just_long_enough() {
    for (terms, types, numbers, refused) in
        [(2, 2, 32, None), (2, 2, 31, Some(32)), (2, 1, 32, Some(31)), (1, 2, 32, Some(23))]
    {
        let mut book = Reference::new();
        let mut memory = Memory::zeros(terms, types, numbers);
        memory.numbers.fill(7);
        let reply = book.submit(br"\x.x", &mut memory);
        assert_eq!(reply.err().map(|refusal| refusal.number), refused);
        assert_eq!(memory, Memory::zeros(terms, types, numbers));
    }
}

#[test]
fn nodes_and_needs() {
    let mut book = Reference::new();
    let mut measures = |text: &str, t, n| assert_eq!(book.measure(text.as_bytes()), Some((t, n)), "{text}");
    measures(r"\x.x", 2, 2);
    measures(r"\f.\g.\x.f (g x)", 8, 10);
    measures(r"\x.x x", 4, 4);
    measures(r"(\i.i i) (\x.x)", 7, 8);
    measures("choose", 1, 5);
    measures(r"\h.\r.paid_of (net_of (gross_of h r))", 11, 23);
    measures(r"\h.\r.paid_of (gross_of h r)", 9, 18);
    measures(&(r"\x.".to_string() + &" x".repeat(512)), 1_024, 1_024);
}

#[test]
fn shapes_are_as_large_as_they_say() {
    let file =
        |book: &mut Reference, text: &str| book.submit(text.as_bytes(), &mut enough()).and_then(|()| book.file());
    for t in [4, 5, 100, 1_023, 1_024] {
        assert_eq!(Reference::new().measure(shapes::of_nodes(t).as_bytes()).map(|(t, _)| t), Some(t));
    }
    for l in [2, 3, 100, 1_999] {
        let mut book = Reference::new();
        file(&mut book, &shapes::of_list(l)).expect("it has a type");
        assert_eq!(book.filed()[0].list.len(), l);
        for need in [4_000, 4_095, 4_096, 4_097] {
            let measured = book.measure(shapes::of_need(need, 0, l).as_bytes());
            assert!(l < 100 || measured.map(|(_, n)| n) == Some(need), "{measured:?}");
        }
    }
    for length in [100, 1_000, 4_094, 4_095, 4_096, 4_097] {
        let mut book = Reference::new();
        file(&mut book, &shapes::of_print(length)).expect("it has a type");
        assert_eq!(book.show(0, &mut [0; 5_000]).unwrap_or(4_097), length);
    }
    let mut book = Reference::new();
    file(&mut book, shapes::EIGHT).expect("it has a type");
    assert_eq!(book.measure(shapes::largest().as_bytes()), Some((1_024, 4_096)));
}

#[test]
fn variables_have_a_letter_and_a_round() {
    let mut book = Reference::new();
    book.submit((r"\a.".repeat(700) + "a").as_bytes(), &mut enough())
        .and_then(|()| book.file())
        .expect("it has a type");
    assert_eq!(book.show(0, &mut [0; limits::SHOWN]).err().map(|refusal| refusal.number), Some(71));
    let mut book = Reference::new();
    book.submit((r"\a.".repeat(300) + "a").as_bytes(), &mut enough())
        .and_then(|()| book.file())
        .expect("it has a type");
    let mut out = [0; limits::SHOWN];
    let length = book.show(0, &mut out).expect("it fits");
    let shown = String::from_utf8_lossy(&out[..length]);
    let words: Vec<&str> = shown.split(" -> ").collect();
    let expected = [
        (0, "a"),
        (25, "z"),
        (26, "a1"),
        (51, "z1"),
        (52, "a2"),
        (259, "z9"),
        (260, "a10"),
        (299, "n11"),
        (300, "n11"),
    ];
    expected.iter().for_each(|(at, word)| assert_eq!(words[*at], *word));
}
