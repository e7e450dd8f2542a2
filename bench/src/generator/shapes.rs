//! Texts of one shape that grow: long, deep and doubling ones.

/// `\a.\a. .. a`: `n` abstractions.
pub fn abstractions(n: usize) -> String {
    r"\a.".repeat(n) + "a"
}

/// `\v0.\v1. .. v0` with a new name for each binder.
pub fn binders(n: usize) -> String {
    let heads: String = (0..n).map(|k| format!(r"\v{k}.")).collect();
    heads + "v0"
}

/// `\x.\f.f x x ..`: `n` arguments.
pub fn arguments(n: usize) -> String {
    r"\x.\f.f".to_string() + &" x".repeat(n)
}

/// `\f.f choose choose ..`: `n` arguments, each with a type of its own.
pub fn choices(n: usize) -> String {
    r"\f.f".to_string() + &" choose".repeat(n)
}

/// `\f.f #k #k ..`: `n` uses of one filed formula.
pub fn references(k: usize, n: usize) -> String {
    r"\f.f".to_string() + &format!(" #{k}").repeat(n)
}

/// `\x.x x x ..`, which has no type where there is more than one.
pub fn self_applied(n: usize) -> String {
    r"\x.".to_string() + &" x".repeat(n)
}

/// `((( .. std_hours .. )))`.
pub fn brackets(n: usize) -> String {
    "(".repeat(n) + "std_hours" + &")".repeat(n)
}

/// `\f.\x.f (f (f .. x))`.
pub fn nested(n: usize) -> String {
    r"\f.\x.".to_string() + &"f (".repeat(n) + "x" + &")".repeat(n)
}

/// `add (add (.. ) g) g`, a pay formula that grows to the left.
pub fn sums(n: usize) -> String {
    r"\g.".to_string() + &"add (".repeat(n) + "g" + &") g".repeat(n)
}

/// A type whose tree doubles `n` times: `(\x.\f.f x x) ((\x.\f.f x x) .. std_hours)`.
pub fn doubling(n: usize) -> String {
    r"(\x.\f.f x x) (".repeat(n) + "std_hours" + &")".repeat(n)
}

/// Binders of which each has the type of functions on the one before: types that double by unification alone.
pub fn doubling_binders(n: usize) -> String {
    let heads: String = (0..=n).map(|k| format!(r"\v{k}.")).collect();
    let equal = |k: usize| format!(r" (choose c v{} (\y.choose c y v{k}))", k + 1);
    format!(r"\c.{heads}\z.z{}", (0..n).map(equal).collect::<String>())
}

/// A chain of conditions that closes in a loop only at its end: binder k is a function on binder k + 1, the last on the first.
pub fn long_loop(n: usize) -> String {
    let heads: String = (0..n).map(|k| format!(r"\v{k}.")).collect();
    let uses: String = (0..n).map(|k| format!(" (v{k} v{})", (k + 1) % n)).collect();
    format!(r"{heads}\z.z{uses}")
}

/// The largest formula: 1,024 nodes and a need of 4,096, over a filed formula 0 whose list has eight nodes.
pub fn largest() -> String {
    let uses = " #0".repeat(383) + &" std_hours".repeat(6) + &" x".repeat(121);
    format!(r"\x.\y.\f.f{uses}")
}

/// A formula whose list has eight nodes.
pub const EIGHT: &str = r"\a.\b.\c.\d.d";

/// A formula of exactly `t` nodes, from 4 on, with a short list.
pub fn of_nodes(t: usize) -> String {
    if t % 2 == 1 { nested((t - 3) / 2) } else { r"\y.".to_string() + &nested((t - 4) / 2) }
}

/// A formula whose list has exactly `l` nodes, from 2 on.
pub fn of_list(l: usize) -> String {
    r"\a.".repeat(l / 2) + if l.is_multiple_of(2) { "a" } else { "std_hours" }
}

/// A formula that needs exactly `need` type nodes, from `list` + 7 on, over filed formula `k` whose list has `list` nodes.
pub fn of_need(need: usize, k: usize, list: usize) -> String {
    let odd = |uses: usize| (need - 2 - uses * (list + 2)) % 2 == 1;
    let mut uses = (need - 2) / (list + 2);
    if odd(uses) && need - 2 - uses * (list + 2) < 3 {
        uses -= 1;
    }
    let tail = if odd(uses) { " std_hours" } else { "" };
    let rest = need - 2 - uses * (list + 2) - if odd(uses) { 3 } else { 0 };
    r"\a.".repeat(rest / 2) + &references(k, uses) + tail
}

/// A formula whose type prints as exactly `length` bytes, from 100 on.
pub fn of_print(length: usize) -> String {
    let variable = |v: usize| " -> ".len() + if v < 26 { 1 } else { 1 + (v / 26).to_string().len() };
    let ends = [("std_hours", "hours"), ("base_rate", "rate"), ("(net_of (gross_of std_hours base_rate))", "net")];
    let hours = "hours -> ".len();
    let (mut binders, mut printed) = (0, 0);
    while printed + 60 < length {
        printed += variable(binders);
        binders += 1;
    }
    let fits = |used: usize| ends.iter().find(|(_, base)| used + base.len() == length);
    loop {
        let found = (0..8).find_map(|more| Some((more, fits(printed + more * hours)?)));
        if let Some((more, (end, _))) = found {
            let open = r"\h.(\z.".repeat(more);
            return r"\a.".repeat(binders) + &open + end + &") (over h h)".repeat(more);
        }
        printed += variable(binders);
        binders += 1;
    }
}
