//! The verified library as a typer. The boundary is the module `raw`; everything else turns slices into pointers and
//! lengths, and replies into results.
//!
//! A book lives in memory of the caller's, `paybook_size()` bytes, aligned to 8. Every function answers, whatever it is
//! given. A slice goes as a pointer and a length. The library keeps no pointer but that of the file that a book is opened
//! over, which therefore stays where it is as long as the book.

use crate::typer::{Files, Layer, Memory, Refusal, Reply, TypeNode, Typer};

mod raw {
    use crate::typer::{TermNode, TypeNode};

    /// `number` 0: served, with `answer`. Else the refusal's number, with its layer (by the codes of `layer` below) and place.
    #[repr(C)]
    pub struct Reply {
        pub number: u32,
        pub layer: u32,
        pub place: u32,
        pub answer: u32,
    }

    unsafe extern "C" {
        pub fn paybook_size() -> usize;
        /// Makes an empty book over the built-in catalogue.
        pub fn paybook_new(book: *mut u64);
        /// Makes an empty book over the catalogue that a file opens as.
        pub fn paybook_open(book: *mut u64, file: *const u8, length: usize);

        pub fn paybook_submit(
            book: *mut u64,
            text: *const u8,
            length: usize,
            terms: *mut TermNode,
            term_count: usize,
            types: *mut TypeNode,
            type_count: usize,
            numbers: *mut u32,
            number_count: usize,
        ) -> Reply;
        pub fn paybook_file(book: *mut u64) -> Reply;
        pub fn paybook_dismiss(book: *mut u64) -> Reply;
        pub fn paybook_withdraw(book: *mut u64) -> Reply;
        pub fn paybook_show(book: *const u64, n: u16, out: *mut u8, length: usize) -> Reply;
        /// `number` 0: the line of the filed formula `value`. Else the line of the refusal of that number at place `value`.
        pub fn paybook_line(book: *const u64, number: u32, value: u32, out: *mut u8, length: usize) -> Reply;
        pub fn paybook_derive(
            book: *const u64,
            n: u16,
            types: *mut TypeNode,
            type_count: usize,
            places: *mut u16,
            place_count: usize,
            numbers: *mut u32,
            number_count: usize,
        ) -> Reply;
        pub fn paybook_check(
            book: *const u64,
            n: u16,
            list: *const TypeNode,
            node_count: usize,
            places: *const u16,
            place_count: usize,
        ) -> Reply;

        pub fn paybook_file_check(file: *const u8, length: usize) -> Reply;
        pub fn paybook_file_count(file: *const u8, length: usize) -> u32;
        /// The number of an entry, or 65,536 where there is none.
        pub fn paybook_file_find(file: *const u8, length: usize, name: *const u8, name_length: usize) -> u32;
        pub fn paybook_file_nodes(file: *const u8, length: usize, k: u16) -> u32;
        pub fn paybook_file_node(file: *const u8, length: usize, k: u16, i: u16) -> TypeNode;
    }
}

/// The layer of a code: the order of the library's enum.
fn layer(code: u32) -> Layer {
    match code {
        0 => Layer::Text,
        1 => Layer::Formula,
        2 => Layer::Types,
        3 => Layer::Book,
        4 => Layer::File,
        _ => panic!("layer {code}"),
    }
}

impl raw::Reply {
    fn answer(self) -> Reply<usize> {
        match self.number {
            0 => Ok(self.answer as usize),
            number => Err(Refusal { number: number as u16, layer: layer(self.layer), place: self.place }),
        }
    }

    fn number(self) -> Reply<u16> {
        self.answer().map(|answer| answer as u16)
    }

    fn done(self) -> Reply<()> {
        self.answer().map(|_| ())
    }
}

/// A book of the library.
pub struct Library {
    book: Box<[u64]>,
    /// What the book's catalogue is read from.
    _file: Box<[u8]>,
}

impl Library {
    fn memory() -> Box<[u64]> {
        // Sound: it takes nothing.
        let size = unsafe { raw::paybook_size() };
        vec![0; size.div_ceil(8)].into_boxed_slice()
    }
}

// Sound: each slice is passed with its own length, and a `Library` holds a book that was made in its memory.
impl Typer for Library {
    fn new() -> Self {
        let mut book = Self::memory();
        unsafe { raw::paybook_new(book.as_mut_ptr()) };
        Self { book, _file: Box::default() }
    }

    fn over(file: &[u8]) -> Self {
        let (mut book, file) = (Self::memory(), Box::<[u8]>::from(file));
        unsafe { raw::paybook_open(book.as_mut_ptr(), file.as_ptr(), file.len()) };
        Self { book, _file: file }
    }

    fn submit(&mut self, text: &[u8], memory: &mut Memory) -> Reply<()> {
        let Memory { terms, types, numbers } = memory;
        let reply = unsafe {
            raw::paybook_submit(
                self.book.as_mut_ptr(),
                text.as_ptr(),
                text.len(),
                terms.as_mut_ptr(),
                terms.len(),
                types.as_mut_ptr(),
                types.len(),
                numbers.as_mut_ptr(),
                numbers.len(),
            )
        };
        reply.done()
    }

    fn file(&mut self) -> Reply<u16> {
        unsafe { raw::paybook_file(self.book.as_mut_ptr()) }.number()
    }

    fn dismiss(&mut self) -> Reply<()> {
        unsafe { raw::paybook_dismiss(self.book.as_mut_ptr()) }.done()
    }

    fn withdraw(&mut self) -> Reply<u16> {
        unsafe { raw::paybook_withdraw(self.book.as_mut_ptr()) }.number()
    }

    fn show(&self, n: u16, out: &mut [u8]) -> Reply<usize> {
        unsafe { raw::paybook_show(self.book.as_ptr(), n, out.as_mut_ptr(), out.len()) }.answer()
    }

    fn line(&self, outcome: Reply<u16>, out: &mut [u8]) -> Reply<usize> {
        let (number, value) = match outcome {
            Ok(n) => (0, n.into()),
            Err(refusal) => (refusal.number.into(), refusal.place),
        };
        unsafe { raw::paybook_line(self.book.as_ptr(), number, value, out.as_mut_ptr(), out.len()) }.answer()
    }

    fn derive(&mut self, n: u16, types: &mut [TypeNode], places: &mut [u16], numbers: &mut [u32]) -> Reply<usize> {
        let reply = unsafe {
            raw::paybook_derive(
                self.book.as_ptr(),
                n,
                types.as_mut_ptr(),
                types.len(),
                places.as_mut_ptr(),
                places.len(),
                numbers.as_mut_ptr(),
                numbers.len(),
            )
        };
        reply.answer()
    }

    fn check(&self, n: u16, list: &[TypeNode], places: &[u16]) -> Reply<()> {
        let (nodes, ends) = (list.as_ptr(), places.as_ptr());
        unsafe { raw::paybook_check(self.book.as_ptr(), n, nodes, list.len(), ends, places.len()) }.done()
    }
}

/// The library's answers about files.
pub struct LibraryFiles;

// Sound: each slice is passed with its own length.
impl Files for LibraryFiles {
    fn check(file: &[u8]) -> Reply<()> {
        unsafe { raw::paybook_file_check(file.as_ptr(), file.len()) }.done()
    }

    fn count(file: &[u8]) -> u16 {
        unsafe { raw::paybook_file_count(file.as_ptr(), file.len()) as u16 }
    }

    fn find(file: &[u8], name: &[u8]) -> Option<u16> {
        let found = unsafe { raw::paybook_file_find(file.as_ptr(), file.len(), name.as_ptr(), name.len()) };
        u16::try_from(found).ok()
    }

    fn nodes(file: &[u8], k: u16) -> u16 {
        unsafe { raw::paybook_file_nodes(file.as_ptr(), file.len(), k) as u16 }
    }

    fn node(file: &[u8], k: u16, i: u16) -> TypeNode {
        unsafe { raw::paybook_file_node(file.as_ptr(), file.len(), k, i) }
    }
}
