//! Catalogue files whose replies are known.

use bench::generator::files::{Entry, bytes};
use bench::reference::{FileReader, Reference};
use bench::typer::{Files, Memory, Refusal, TypeNode, Typer};

fn entry(name: &str, nodes: &[TypeNode]) -> Entry {
    Entry { name: name.as_bytes().to_vec(), nodes: nodes.to_vec() }
}

fn refused(file: &[u8], number: u16, place: usize) {
    assert_eq!(FileReader::check(file), Err(Refusal::at(number, place)), "{}", file.escape_ascii());
    assert_eq!(FileReader::count(file), 0);
}

fn entries_refused(entries: &[Entry], number: u16, place: usize) {
    refused(&bytes(entries), number, place);
}

const HOURS: TypeNode = TypeNode::base(0);

#[test]
fn a_file_means_its_entries() {
    let file = bytes(&[
        entry("tips", &[HOURS, TypeNode::base(2), TypeNode::arrow(0, 1)]),
        entry("pick", &[TypeNode::variable(7), TypeNode::variable(7), HOURS, TypeNode::arrow(0, 1)]),
    ]);
    assert_eq!(FileReader::check(&file), Ok(()));
    assert_eq!(FileReader::count(&file), 2);
    assert_eq!(FileReader::find(&file, b"pick"), Some(1));
    assert_eq!(FileReader::find(&file, b"add"), None);
    assert_eq!((FileReader::nodes(&file, 1), FileReader::nodes(&file, 2)), (4, 0));
    assert_eq!(FileReader::node(&file, 1, 3), TypeNode::arrow(0, 1));
    assert_eq!(FileReader::node(&file, 1, 4), TypeNode::default());
    let mut book = Reference::over(&file);
    assert_eq!(book.measure(b"pick"), Some((1, 4)));
    assert_eq!(book.submit(b"pick (tips)", &mut Memory::zeros(3, 9, 96)), Ok(()));
    let mut out = [0; 20];
    let length = book.show(0, &mut out).expect("it fits");
    assert_eq!(&out[..length], b"hours -> gross");
}

#[test]
fn files_that_are_no_files() {
    refused(b"", 90, 0);
    refused(b"\0", 90, 0);
    refused(&[0; 65_536], 90, 0);
    assert_eq!(FileReader::check(b"\0\0"), Ok(()));
    refused(b"\0\0\0", 92, 0);
    refused(b"\x01\x01", 91, 0);
    refused(b"\x01\0\x06\0\0", 91, 0);
    refused(b"\x01\0\x06\0\0\0", 93, 0);
    refused(b"\x01\0\x06\0\x01\0", 92, 0);
    refused(b"\x01\0\x05\0\x01\0", 92, 0);
    let many: Vec<Entry> = (0..257).map(|k| entry(&format!("e{k}"), &[HOURS])).collect();
    assert_eq!(FileReader::check(&bytes(&many[..256])), Ok(()));
    entries_refused(&many, 91, 0);
}

#[test]
fn entries_that_are_no_entries() {
    let good = entry("a", &[HOURS]);
    for name in ["", "0a", "_a", "A", "a b", &"a".repeat(32)] {
        entries_refused(&[good.clone(), entry(name, &[HOURS])], 93, 1);
    }
    entries_refused(&[good.clone(), entry("b", &[])], 93, 1);
    entries_refused(&[good.clone(), entry("b", &[HOURS; 65])], 93, 1);
    assert_eq!(FileReader::check(&bytes(&[entry(&"a".repeat(31), &[HOURS; 64])])), Ok(()));
    for node in [
        TypeNode::variable(4_096),
        TypeNode::base(6),
        TypeNode::arrow(0, 1),
        TypeNode::arrow(1, 0),
        TypeNode { kind: 3, left: 0, right: 0 },
        TypeNode { kind: 1, left: 0, right: 1 },
        TypeNode { kind: 0, left: 0, right: 1 },
    ] {
        entries_refused(&[good.clone(), entry("b", &[HOURS, node])], 94, 1);
    }
    entries_refused(&[good.clone(), entry("b", &[HOURS]), good.clone()], 95, 2);
    // An earlier question comes first, wherever its entry stands.
    entries_refused(&[entry("b", &[TypeNode::base(6)]), entry("", &[HOURS])], 93, 1);
    entries_refused(&[good.clone(), good, entry("b", &[TypeNode::base(6)])], 94, 2);
}
