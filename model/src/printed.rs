//! What the program `test_cases` has to print for a case: the build, the cut with room for
//! a few words, the sheet written back, and the comparison.

use crate::book::{self, Book};
use crate::build::{alike, build_by, compare_by, Built};
use crate::cases::Case;
use crate::cut::{cut, End, Word};
use crate::limits::{Caps, LAST_VERSION};
use crate::refusal::Refusal;
use crate::sheet::{self, Table};

/// Words for which the program's list has room.
const ROOM: usize = 6;

/// What the program has to print for a case.
pub struct Printed {
    pub build: String,
    words: String,
    /// Empty where the build is refused.
    pub cut: String,
    /// Empty where the sheet is refused.
    back: String,
    pub comparison: String,
    shown: String,
}

impl Printed {
    /// Within the given caps; they also say how many states a sheet may have.
    pub fn of(case: &Case, caps: Caps) -> Printed {
        Printed::to(LAST_VERSION, case, caps)
    }

    /// The same by a reader of books of at most such a version.
    pub fn to(last: usize, case: &Case, caps: Caps) -> Printed {
        let bytes = case.book.bytes().unwrap_or_default();
        let sheet = case.sheet.bytes().unwrap_or_default();
        let read = sheet::read_to(caps.states, sheet);
        let back = read.map_or_else(|_| String::new(), |table| back(&table, sheet));
        let book = book::read_to(last, bytes);
        let (comparison, shown) = compared(&book, sheet, caps);
        let built = book.and_then(|book| build_by(&book, &alike(&book), caps));
        let (build, words, cut) = match built {
            Err(refusal) => (refusal.line(), String::new(), String::new()),
            Ok(Built { table, .. }) => {
                let length = sheet::write(&table).len();
                let (words, end) = words(&table, &case.text);
                (format!("{} states, {length} bytes\n", table.count()), words, end)
            }
        };
        Printed { build, words, cut, back, comparison, shown }
    }

    pub fn text(&self) -> String {
        let first = [&self.build[..], &self.words, &self.cut];
        [first, [&self.back, &self.comparison, &self.shown]].concat().concat()
    }

    /// The kinds of the three answers: a table, or the answer's name, with a refusal's number.
    pub fn kinds(&self) -> Vec<String> {
        [&self.build, &self.cut, &self.comparison].map(|line| kind(line)).to_vec()
    }
}

/// The kind of the answer that a line gives.
pub fn kind(line: &str) -> String {
    let mut parts = line.split_whitespace();
    match (parts.next(), parts.next()) {
        (None, _) => "no table".to_string(),
        (Some("refused"), Some(number)) => format!("refused {number:>2}"),
        (Some(_), Some("states,")) => "a table".to_string(),
        (Some(name), _) => name.to_string(),
    }
}

/// The words for which there is room, a line each, and the line that says how it ended.
fn words(table: &Table, text: &[u8]) -> (String, String) {
    let (words, end) = cut(table, text, ROOM);
    let line = |w: &Word| format!("{} {} {}\n", w.start, w.length, w.rule);
    let end = match end {
        End::Done { count } => format!("done {count}\n"),
        End::Stuck { count, place } => format!("stuck {count} {place}\n"),
        End::Full { count, place } => format!("full {count} {place}\n"),
    };
    (words.iter().map(line).collect(), end)
}

/// A table's sheet beside the one that it was read from.
fn back(table: &Table, sheet: &[u8]) -> String {
    let written = sheet::write(table);
    let same = if written == sheet { "the same" } else { "others" };
    format!("back {} bytes, {same}\n", written.len())
}

/// The comparison by the library: the sheet is loaded before the book is read. The
/// first line is told apart from that of the shown text.
fn compared(book: &Result<Book, Refusal>, sheet: &[u8], caps: Caps) -> (String, String) {
    let compared = |table: Table| {
        let book = book.as_ref().map_err(|&refusal| refusal)?;
        Ok(compare_by(book, &table, &alike(book), caps)?.answer)
    };
    let answer = sheet::read_to(caps.states, sheet).and_then(compared);
    let lines = answer.map_or_else(|refusal| refusal.line(), |answer| answer.lines());
    let (first, shown) = lines.split_once('\n').expect("a line ends");
    (format!("{first}\n"), shown.to_string())
}
