//! The sample book of the specification and the other fixed cases that every set of
//! cases begins with: file sizes, odd files, books and meetings at the limits or of starts.

use crate::book::{self, one, Book};
use crate::both::{both_edges, both_meetings, other_edges};
use crate::build::{alike, build, build_by};
use crate::cases::{Case, File};
use crate::edges::{all, meetings, Edge, Meeting};
use crate::faults::{self, Faulty};
use crate::limits::{Caps, BOOK_FILE, BYTES, CAPS, OLDER, TEXT_FILE};
use crate::notes::{notes_cases, notes_meetings};
use crate::padded::{padded_book_cases, padded_sheet_cases, twice_padded_cases};
use crate::prng::Rng;
use crate::raised_builds::raised_edges;
use crate::raised_meetings::{raised_meetings, slowest};
use crate::raised_sheets::{beginning_cases, raised_sheet_cases};
use crate::random::joined_text;
use crate::sheet::{self, Table};
use crate::sheets::{crowded, merged, random};
use crate::starts::starts;
use crate::versions::{more_version_cases, version_cases};

/// The sample book, byte for byte.
pub const SAMPLE: [u8; 36] = [
    0x01, 0x04, // four rules
    0x01, 0x03, 0x02, 0x74, 0x74, 0x02, 0x6F, 0x6F, 0x03, // the word "to"
    0x02, 0x04, 0x02, 0x61, 0x7A, 0x02, 0x61, 0x7A, 0x05, 0x03, // letters
    0x03, 0x04, 0x02, 0x30, 0x39, 0x02, 0x30, 0x39, 0x05, 0x03, // digits
    0x00, 0x01, 0x02, 0x20, 0x20, // a space
];

/// The text of the worked example and what `cut` prints for it.
pub const TEXT: &[u8] = b"to tom 7";
pub const OUTPUT: &str = "0 2 0 1\n2 1 3 0\n3 3 1 2\n6 1 3 0\n7 1 2 3\ndone 5\n";

pub fn sample_book() -> Book {
    book::read(&SAMPLE).expect("the sample book is right")
}

pub fn sample_table() -> Table {
    build(&sample_book()).expect("the sample book builds")
}

pub fn case(name: &str, book: &[u8], text: &[u8], sheet: &[u8]) -> Case {
    Case {
        name: name.to_string(),
        book: File::Bytes(book.to_vec()),
        text: text.to_vec(),
        sheet: File::Bytes(sheet.to_vec()),
    }
}

/// Every fixed case; the generator only chooses texts and tables that do not matter.
pub fn fixed(rng: &mut Rng) -> Vec<Case> {
    [
        sample_cases(),
        file_cases(),
        limit_cases(rng),
        meeting_cases(rng),
        book_fault_cases(),
        sheet_fault_cases(),
        state_count_cases(),
        sheet_length_cases(),
        start_cases(rng),
        raised_limit_cases(rng),
        raised_meeting_cases(rng),
        beginning_cases(),
        raised_sheet_cases(),
        padded_book_cases(),
        padded_sheet_cases(),
        twice_padded_cases(),
        version_cases(),
        notes_cases(),
        notes_meeting_cases(rng),
        both_limit_cases(rng),
        more_version_cases(),
        other_limit_cases(rng),
        both_meeting_cases(rng),
    ]
    .concat()
}

/// Books that just meet or pass a limit, some of them an older one.
pub fn limit_cases(rng: &mut Rng) -> Vec<Case> {
    built_cases(rng, all(), OLDER)
}

/// Books against their own sheets if they build within the given caps, else against
/// small tables. The caps are those that the books stand at, so that a book keeps its
/// sheet when caps are raised.
pub fn built_cases(rng: &mut Rng, edges: Vec<Edge>, caps: Caps) -> Vec<Case> {
    let mut cases = Vec::new();
    for Edge { name, book, .. } in edges {
        let text = joined_text(rng, &book, 400);
        let built = build_by(&book, &alike(&book), caps);
        let table = built.map_or_else(|_| random(rng, 3), |built| built.table);
        cases.push(case(name, &book.write(), &text, &sheet::write(&table)));
    }
    cases
}

/// Comparisons that just meet or pass a limit.
pub fn meeting_cases(rng: &mut Rng) -> Vec<Case> {
    meetings().iter().map(|meeting| met(rng, meeting)).collect()
}

/// Comparisons that turn on the start.
pub fn start_cases(rng: &mut Rng) -> Vec<Case> {
    starts().iter().map(|meeting| met(rng, meeting)).collect()
}

/// Books that just meet or pass a raised cap.
pub fn raised_limit_cases(rng: &mut Rng) -> Vec<Case> {
    built_cases(rng, raised_edges(), CAPS)
}

/// Comparisons that just meet or pass a raised cap.
pub fn raised_meeting_cases(rng: &mut Rng) -> Vec<Case> {
    raised_meetings().iter().chain([&slowest()]).map(|meeting| met(rng, meeting)).collect()
}

/// Comparisons of notes.
pub fn notes_meeting_cases(rng: &mut Rng) -> Vec<Case> {
    notes_meetings().iter().map(|meeting| met(rng, meeting)).collect()
}

/// Books with And and Not that are stored, and the others.
pub fn both_limit_cases(rng: &mut Rng) -> Vec<Case> {
    let mut cases = built_cases(rng, both_edges(), CAPS);
    // Rules that have no text, or none that is easily found, are tried on one too.
    for case in cases.iter_mut().filter(|case| case.text.is_empty()) {
        case.text = b"aab xa".to_vec();
    }
    cases
}

fn other_limit_cases(rng: &mut Rng) -> Vec<Case> {
    built_cases(rng, other_edges(), CAPS)
}

/// Comparisons with And and Not.
fn both_meeting_cases(rng: &mut Rng) -> Vec<Case> {
    both_meetings().iter().map(|meeting| met(rng, meeting)).collect()
}

fn met(rng: &mut Rng, meeting: &Meeting) -> Case {
    let text = joined_text(rng, &meeting.book, 400);
    case(meeting.name, &meeting.book.write(), &text, &sheet::write(&meeting.table))
}

/// The books written by hand.
pub fn book_fault_cases() -> Vec<Case> {
    faulty_books("book with a fault", faults::BOOKS)
}

/// The sheets written by hand.
pub fn sheet_fault_cases() -> Vec<Case> {
    faulty_sheets("sheet with a fault", faults::SHEETS)
}

/// Books against the sample's own sheet.
pub fn faulty_books(name: &str, books: &[Faulty]) -> Vec<Case> {
    let own = sheet::write(&sample_table());
    books.iter().map(|(bytes, _, _)| case(name, bytes, TEXT, &own)).collect()
}

/// Sheets against the sample book.
pub fn faulty_sheets(name: &str, sheets: &[Faulty]) -> Vec<Case> {
    sheets.iter().map(|(bytes, _, _)| case(name, &SAMPLE, TEXT, bytes)).collect()
}

/// Sheets with as many states as an older reader takes, and one more.
pub fn state_count_cases() -> Vec<Case> {
    let mut cases = Vec::new();
    for (name, count) in [("128 states", OLDER.states), ("129 states", OLDER.states + 1)] {
        let table = Table { labels: vec![0; count], targets: vec![0; BYTES * count] };
        cases.push(case(name, &SAMPLE, TEXT, &sheet::write(&table)));
    }
    cases
}

/// Sheets of the older number of states: at the greatest size of a file, one byte
/// longer, and the longest of them.
fn sheet_length_cases() -> Vec<Case> {
    let mut cases = Vec::new();
    for (name, runs, first) in [("65536 bytes", 63, 4), ("65537 bytes", 63, 130)] {
        cases.push(case(name, &SAMPLE, TEXT, &sheet::write(&crowded(OLDER.states, runs, first))));
    }
    cases.extend(older_longest_cases());
    cases
}

/// The longest sheet of the older number of states.
pub fn older_longest_cases() -> Vec<Case> {
    let sheet = sheet::write(&crowded(OLDER.states, BYTES, 1));
    vec![case("65923 bytes", &SAMPLE, TEXT, &sheet)]
}

/// The sample book, whole and in parts, against its own sheet and a merged one.
pub fn sample_cases() -> Vec<Case> {
    let table = sample_table();
    let own = sheet::write(&table);
    let mut cases = vec![case("sample", &SAMPLE, TEXT, &own)];
    for take_out in [true, false] {
        let sheet = sheet::write(&merged(&table, 5, 4, take_out));
        cases.push(case("sample, merged", &SAMPLE, b"t7", &sheet));
    }
    cases.push(case("sample, stuck", &SAMPLE, b"to #tom", &own));
    for length in 0..SAMPLE.len() {
        let text = &TEXT[..length % 9];
        cases.push(case("sample, early", &SAMPLE[..length], text, &own));
    }
    for length in [0, 1, 2, 3, 4, 5, own.len() - 1] {
        cases.push(case("sheet, early", &SAMPLE, TEXT, &own[..length]));
    }
    for spare in [0x00, 0x80] {
        let late = [&SAMPLE[..], &[spare]].concat();
        let sheet = [&own[..], &[spare]].concat();
        cases.push(case("sample, late", &late, TEXT, &own));
        cases.push(case("sheet, late", &SAMPLE, TEXT, &sheet));
    }
    for bytes in
        [&[0x80][..], &[0x80, 0x00], &[0x80, 0x80], &[0x80, 0x80, 0x80], &[0x80, 0x80, 0x00]]
    {
        let version = [bytes, &SAMPLE[1..]].concat();
        cases.push(case("number alone", bytes, TEXT, bytes));
        cases.push(case("number before the rest", &version, TEXT, &own));
        let label = [&own[..2], bytes, &own[3..]].concat();
        cases.push(case("number as a label", &SAMPLE, TEXT, &label));
    }
    cases
}

/// Files that are missing, folders, or at their greatest size.
fn file_cases() -> Vec<Case> {
    let own = sheet::write(&sample_table());
    let plain = |name: &str| case(name, &SAMPLE, TEXT, &own);
    let over = vec![b'x'; TEXT_FILE + 1];
    let full = TEXT.iter().chain(b" ").copied().cycle().take(TEXT_FILE).collect::<Vec<u8>>();
    let long_book = |length: usize| [&SAMPLE[..], &vec![0; length - SAMPLE.len()]].concat();
    let ones = Book::of(vec![one(b'x')]).write();
    vec![
        Case { book: File::Missing, ..plain("no book") },
        Case { sheet: File::Missing, ..plain("no sheet") },
        Case { book: File::Folder, ..plain("book is a folder") },
        Case { sheet: File::Folder, ..plain("sheet is a folder") },
        Case { book: File::Missing, sheet: File::Missing, ..plain("no files") },
        Case { sheet: File::Missing, ..case("bad book, no sheet", &SAMPLE[..9], TEXT, &own) },
        case("bad book, bad sheet", &SAMPLE[..9], TEXT, &own[..9]),
        case("book of 4096 bytes", &long_book(BOOK_FILE), TEXT, &own),
        case("book of 4097 bytes", &long_book(BOOK_FILE + 1), TEXT, &own),
        case("text of 32768 bytes", &SAMPLE, &full, &own),
        case("32768 words", &ones, &over[..TEXT_FILE], &own),
        case("text of 32769 bytes", &SAMPLE, &over, &own),
        case("bad book, text of 32769 bytes", &SAMPLE[..9], &over, &own),
        case("empty text", &SAMPLE, b"", &own),
    ]
}
