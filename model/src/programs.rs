//! The programs as functions from file contents to output bytes; a file that could
//! not be read is None.

use crate::book::{self, Book};
use crate::build::{build, compare};
use crate::cut::{cut_on, End, Word};
use crate::limits::{BOOK_FILE, RULES_FILE, SHEET_FILE, TEXT_FILE, TYPED_AREA};
use crate::refusal::{refuse, Fault, Refusal};
use crate::sheet::{self, Table};
use crate::typed;

/// Records in the list with which `cut` works; the output does not depend on it.
const ROOM: usize = 100;

/// Refuses a file that is missing or over its size.
fn input(file: Option<&[u8]>, most: usize) -> Result<&[u8], Refusal> {
    match file {
        Some(bytes) if bytes.len() <= most => Ok(bytes),
        _ => refuse(Fault::Input, 0),
    }
}

/// What `cut` prints.
pub fn cut(book: Option<&[u8]>, text: Option<&[u8]>) -> Vec<u8> {
    printed(try_cut(book, text))
}

fn try_cut(book: Option<&[u8]>, text: Option<&[u8]>) -> Result<String, Refusal> {
    let bytes = input(book, BOOK_FILE)?;
    let text = input(text, TEXT_FILE)?;
    let book = book::read(bytes)?;
    Ok(words(&book, &build(&book)?, text))
}

fn words(book: &Book, table: &Table, text: &[u8]) -> String {
    let (words, end) = cut_on(table, text, ROOM);
    listed(book, &words, end)
}

/// The lines for all words and the last line.
pub fn listed(book: &Book, words: &[Word], end: End) -> String {
    let mut out = String::new();
    for word in words {
        let kind = book.rules[word.rule].kind;
        out += &format!("{} {} {} {}\n", word.start, word.length, word.rule, kind);
    }
    match end {
        End::Done { count } => out += &format!("done {count}\n"),
        End::Stuck { place, .. } => out += &format!("stuck {place}\n"),
        End::Full { .. } => unreachable!("cutting on leaves nothing over"),
    }
    out
}

/// What `compare` prints.
pub fn comparison(book: Option<&[u8]>, sheet: Option<&[u8]>) -> Vec<u8> {
    printed(try_comparison(book, sheet))
}

fn try_comparison(book: Option<&[u8]>, sheet: Option<&[u8]>) -> Result<String, Refusal> {
    let book = input(book, BOOK_FILE)?;
    let sheet = input(sheet, SHEET_FILE)?;
    let book = book::read(book)?;
    let table = sheet::read(sheet)?;
    Ok(compare(&book, &table)?.lines())
}

/// The sheet that `sheet` writes, or the refusal that it prints.
pub fn sheet(book: Option<&[u8]>) -> Result<Vec<u8>, Refusal> {
    let book = book::read(input(book, BOOK_FILE)?)?;
    Ok(sheet::write(&build(&book)?))
}

/// The book that `rules` writes, or the refusal that it prints. Its area is long enough.
pub fn rules(text: Option<&[u8]>) -> Result<Vec<u8>, Refusal> {
    Ok(typed::book(input(text, RULES_FILE)?, TYPED_AREA)?.write())
}

/// A refusal is the only line.
fn printed(result: Result<String, Refusal>) -> Vec<u8> {
    result.unwrap_or_else(|refusal| refusal.line()).into_bytes()
}
