//! What is timed: calls on books that were made ready beforehand.

use crate::generator::shapes;
use crate::limits;
use crate::reference::{Derivation, Reference};
use crate::typer::{Memory, TypeNode, Typer};
use std::hint::black_box;

/// Formulas as a house files them.
pub const PAY: [&str; 10] = [
    r"\h.\r.gross_of h r",
    r"\h.\r.paid_of (net_of (gross_of h r))",
    r"gross_of std_hours base_rate",
    r"\h.gross_of h base_rate",
    r"\h.\r.add (gross_of h r) (gross_of std_hours base_rate)",
    r"\h.choose (over h std_hours) (gross_of std_hours base_rate) (gross_of h base_rate)",
    r"\f.\g.\x.f (g x)",
    r"\h.\r.\t.paid_of (net_of (add (gross_of h r) (choose (over h std_hours) t (gross_of std_hours r))))",
    r"\p.\h.\r.choose (over h std_hours) (p h r) (p std_hours r)",
    r"\tips.\h.(\wage.net_of (add tips wage)) (gross_of h base_rate)",
];

/// What is done to a book, once for each turn of the clock.
pub enum Work {
    /// Submit a text and dismiss it; nothing to dismiss where it is refused.
    Submit(Vec<u8>),
    /// Submit a text, file it and withdraw it.
    File(Vec<u8>),
    /// Fill a new book with all of these.
    Fill(Vec<Vec<u8>>),
    Show(u16),
    Derive(u16),
    Check(u16, Derivation),
}

/// A row of the table: formulas filed beforehand, work, and memories that are just long enough.
pub struct Row {
    pub title: String,
    filed: Vec<Vec<u8>>,
    work: Work,
    memory: Memory,
    places: usize,
    /// The nodes and the need of the formula that is worked on.
    pub size: (usize, usize),
}

/// Memories that are long enough for every text.
pub fn full_memory() -> Memory {
    Memory::zeros(limits::TERM, limits::NEED, limits::numbers(limits::NEED, limits::TERM))
}

/// A book in which these are filed.
pub fn book_of<T: Typer>(filed: &[Vec<u8>]) -> T {
    let mut book = T::new();
    let mut memory = full_memory();
    for text in filed {
        let number = book.submit(text, &mut memory).and_then(|()| book.file());
        number.unwrap_or_else(|refusal| panic!("{}: {refusal}", text.escape_ascii()));
    }
    book
}

impl Row {
    pub fn new(title: impl Into<String>, filed: &[String], work: Work) -> Self {
        let filed: Vec<Vec<u8>> = filed.iter().map(|text| text.clone().into_bytes()).collect();
        let mut book: Reference = book_of(&filed);
        let size = match &work {
            Work::Submit(text) | Work::File(text) => book.measure(text).unwrap_or((0, 0)),
            Work::Show(n) | Work::Derive(n) | Work::Check(n, _) => book.measure_filed(*n).unwrap_or((0, 0)),
            Work::Fill(texts) => largest(texts),
        };
        let memory = Memory::zeros(size.0, size.1, limits::numbers(size.1, size.0));
        Self { title: title.into(), filed, work, memory, places: size.0, size }
    }

    /// The same row with memories that are long enough for every text.
    pub fn with_full_memory(mut self) -> Self {
        self.memory = full_memory();
        self
    }

    /// A clockwork for a typer: each call of it does the work once.
    pub fn ready<'a, T: Typer + 'a>(&'a self) -> Box<dyn FnMut() + 'a> {
        let mut book: T = book_of(&self.filed);
        let mut memory = self.memory.clone();
        let mut places = vec![0; self.places];
        let mut out = vec![0; limits::SHOWN];
        Box::new(move || match &self.work {
            Work::Submit(text) => {
                if black_box(book.submit(black_box(text), &mut memory)).is_ok() {
                    let _ = black_box(book.dismiss());
                }
            }
            Work::File(text) => {
                let filed = book.submit(black_box(text), &mut memory).and_then(|()| book.file());
                let _ = black_box((filed, book.withdraw()));
            }
            Work::Fill(texts) => {
                let mut book = T::new();
                for text in texts {
                    let _ = black_box(book.submit(black_box(text), &mut memory).and_then(|()| book.file()));
                }
            }
            Work::Show(n) => drop(black_box(book.show(black_box(*n), &mut out))),
            Work::Derive(n) => {
                let Memory { types, numbers, .. } = &mut memory;
                let _ = black_box(book.derive(black_box(*n), types, &mut places, numbers));
            }
            Work::Check(n, Derivation { list, places }) => {
                let _ = black_box(book.check(black_box(*n), black_box(list), black_box(places)));
            }
        })
    }
}

/// The derivation of formula `n` of a book in which these are filed.
fn derivation(filed: &[String], n: u16) -> Derivation {
    let filed: Vec<Vec<u8>> = filed.iter().map(|text| text.clone().into_bytes()).collect();
    let mut book: Reference = book_of(&filed);
    let (nodes, need) = book.measure_filed(n).expect("it is filed");
    let (mut list, mut places) = (vec![TypeNode::default(); need], vec![0; nodes]);
    let mut numbers = vec![0; limits::numbers(need, nodes)];
    let length = book.derive(n, &mut list, &mut places, &mut numbers).expect("there is room");
    list.truncate(length);
    Derivation { list, places }
}

/// The most nodes and the largest need of texts that are filed one after the other.
fn largest(texts: &[Vec<u8>]) -> (usize, usize) {
    let book: Reference = book_of(texts);
    let sizes = (0..texts.len() as u16).filter_map(|n| book.measure_filed(n));
    sizes.fold((0, 0), |(nodes, need), (t, n)| (nodes.max(t), need.max(n)))
}

/// What is timed of a formula.
#[derive(Clone, Copy)]
enum Part {
    Submit,
    File,
    Derive,
    Check,
}

/// The last of some formulas submitted, filed, derived or checked.
fn on_last(title: &str, filed: &[String], part: Part) -> Row {
    let (last, before) = filed.split_last().expect("there is one");
    let (text, n) = (last.clone().into_bytes(), before.len() as u16);
    match part {
        Part::Submit => Row::new(format!("{title}: submit, dismiss"), before, Work::Submit(text)),
        Part::File => Row::new(format!("{title}: submit, file, withdraw"), before, Work::File(text)),
        Part::Derive => Row::new(format!("{title}: derive"), filed, Work::Derive(n)),
        Part::Check => Row::new(format!("{title}: check"), filed, Work::Check(n, derivation(filed, n))),
    }
}

/// Types that double: `n` uses of a filed formula, one upon the other. Needs 8 n + 1.
fn doubled(n: usize) -> Vec<String> {
    vec![r"\x.\f.f x x".to_string(), "#0 (".repeat(n) + "std_hours" + &")".repeat(n)]
}

/// 128 formulas that fill a book: pay formulas, and formulas upon formulas.
fn full_book() -> Vec<Vec<u8>> {
    let upon = |n: usize| format!(r"\h.\r.choose (over h std_hours) (#{} h r) (#0 std_hours r)", n / 20 * 20);
    (0..limits::FILED).map(|n| if n % 20 < 10 { PAY[n % 20].to_string() } else { upon(n) }.into_bytes()).collect()
}

/// The rows of the first table.
pub fn rows() -> Vec<Row> {
    let formulas = [
        ("short pay formula", vec![PAY[1].to_string()]),
        ("long pay formula", vec![PAY[7].to_string()]),
        ("largest formula", vec![shapes::EIGHT.to_string(), shapes::largest()]),
        ("types that double 511 times", doubled(511)),
        ("254 sums", vec![shapes::sums(254)]),
        ("1,023 abstractions", vec![shapes::abstractions(1_023)]),
    ];
    let parts = [Part::Submit, Part::File, Part::Derive, Part::Check];
    let of_formula = |(title, filed): &(&str, Vec<String>)| parts.map(|part| on_last(title, filed, part));
    let mut rows: Vec<Row> = formulas.iter().flat_map(of_formula).collect();
    let submitted = |title: &str, text: String| Row::new(title, &[], Work::Submit(text.into_bytes()));
    rows.extend([
        submitted("long pay formula, full memories", PAY[7].to_string()).with_full_memory(),
        Row::new("show 4,096 bytes", &[shapes::of_print(limits::SHOWN)], Work::Show(0)),
        Row::new("a full book of 128", &[], Work::Fill(full_book())),
        submitted("no token at the end of 4,096 bytes", "x ".repeat(2_047) + " ~"),
        submitted("4,096 open brackets", "(".repeat(limits::TEXT)),
        submitted("no type: x applied 511 times to itself", shapes::self_applied(512)),
        submitted("no type: a loop over 150 binders", shapes::long_loop(150)),
    ]);
    rows
}

/// The needs of the second table.
pub const NEEDS: [usize; 5] = [256, 512, 1_024, 2_048, 4_096];

/// The rows of the second table, each in the order of `NEEDS`.
pub fn growing() -> Vec<[Row; NEEDS.len()]> {
    let wide = |need: usize| vec![shapes::EIGHT.to_string(), shapes::of_need(need, 0, 8)];
    let parts = [Part::Submit, Part::Derive, Part::Check];
    let of_part = |part: Part| {
        [
            NEEDS.map(|need| on_last("many arguments", &wide(need), part)),
            NEEDS.map(|need| on_last("types that double", &doubled(need / 8 - 1), part)),
        ]
    };
    parts.into_iter().flat_map(of_part).collect()
}
