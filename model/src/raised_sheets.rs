//! Sheets of more states than there were before the caps were raised, at the new cap
//! and just past it, and sheets at the programs' greatest size and of the greatest length.

use crate::book::{cat, star, Book};
use crate::cases::Case;
use crate::edges::{differs, rule};
use crate::faults::Faulty;
use crate::limits::{BYTES, OLDER, SHEET_FILE, STATES};
use crate::sheet::{self, Table};
use crate::sheets::relabelled;
use crate::starts::any;
use crate::worked::{case, faulty_sheets, sample_book, TEXT};

/// Beginnings of sheets by hand; numbers from 128 on take two bytes.
pub const BEGINNINGS: &[Faulty] = &[
    // The state count: 128, 129, 254, 255, 256, 300, 16,383 and 16,384.
    (&[0x01, 0x80, 0x01], 1, 3),
    (&[0x01, 0x81, 0x01], 1, 3),
    (&[0x01, 0xFE, 0x01], 1, 3),
    (&[0x01, 0xFF, 0x01], 1, 3),
    (&[0x01, 0xFF], 1, 1),
    (&[0x01, 0xFF, 0x00], 15, 1),
    (&[0x01, 0x80, 0x02], 3, 1),
    (&[0x01, 0x81, 0x02, 0x00], 3, 1),
    (&[0x01, 0xAC, 0x02], 3, 1),
    (&[0x01, 0xFF, 0x7F], 3, 1),
    (&[0x01, 0x80, 0x80, 0x01], 3, 1),
    // Targets 127, 128, 254 and 255 of 255 states, 254 of 254, 128 of 128 and of 129.
    (&[0x01, 0xFF, 0x01, 0x00, 0x02, 0x01, 0x7F], 1, 7),
    (&[0x01, 0xFF, 0x01, 0x00, 0x02, 0x01, 0x80, 0x01], 1, 8),
    (&[0x01, 0xFF, 0x01, 0x00, 0x02, 0x01, 0xFE, 0x01], 1, 8),
    (&[0x01, 0xFF, 0x01, 0x00, 0x02, 0x01, 0xFF, 0x01], 3, 6),
    (&[0x01, 0xFF, 0x01, 0x00, 0x02, 0x01, 0x80, 0x02], 3, 6),
    (&[0x01, 0xFE, 0x01, 0x00, 0x02, 0x01, 0xFE, 0x01], 3, 6),
    (&[0x01, 0x80, 0x01, 0x00, 0x02, 0x01, 0x80, 0x01], 3, 6),
    (&[0x01, 0x81, 0x01, 0x00, 0x02, 0x01, 0x80, 0x01], 1, 8),
    (&[0x01, 0xFF, 0x01, 0x00, 0x02, 0x01, 0x80], 1, 6),
    (&[0x01, 0xFF, 0x01, 0x00, 0x02, 0x01, 0x80, 0x00], 15, 6),
    (&[0x01, 0xFF, 0x01, 0x00, 0x02, 0x01, 0xFF, 0x00], 15, 6),
    // Equal neighbours, a sum that passes 256, and a low sum, behind targets of two bytes.
    (&[0x01, 0xFF, 0x01, 0x00, 0x02, 0x01, 0xFE, 0x01, 0xFF, 0x01, 0xFE, 0x01], 9, 10),
    (&[0x01, 0xFF, 0x01, 0x00, 0x02, 0x01, 0xFE, 0x01, 0xFF, 0x01, 0xFF, 0x01], 3, 10),
    (&[0x01, 0xFF, 0x01, 0x00, 0x02, 0x01, 0xFE, 0x01, 0x80, 0x02, 0x80, 0x01], 9, 8),
    (&[0x01, 0xFF, 0x01, 0x00, 0x01, 0xFF, 0x01, 0xFE, 0x01], 9, 9),
    (&[0x01, 0xFF, 0x01, 0x20, 0x01, 0x80, 0x02, 0xFE, 0x01, 0x21], 3, 9),
];

/// A whole sheet, a book and what their comparison by the library has to give.
pub struct Lent {
    pub name: &'static str,
    pub book: Book,
    pub sheet: Vec<u8>,
    pub expect: String,
}

fn lend(name: &'static str, book: Book, table: &Table, expect: impl Into<String>) -> Lent {
    Lent { name, book, sheet: sheet::write(table), expect: expect.into() }
}

/// All of them.
pub fn raised_sheets() -> Vec<Lent> {
    [counts(), targets(), lengths()].into_iter().flatten().collect()
}

/// Sheets without labels, all of whose states lead to the start.
fn counts() -> Vec<Lent> {
    let flat = |count| Table { labels: vec![0; count], targets: vec![0; BYTES * count] };
    let counted = |name, count, expect: &str| lend(name, sample_book(), &flat(count), expect);
    let (read, refused) = (differs(b" ", 4, 0), "refused 3 1\n");
    vec![
        counted("254 states", STATES - 1, &read),
        counted("255 states", STATES, &read),
        counted("256 states", STATES + 1, refused),
        counted("300 states", 300, refused),
    ]
}

/// A table whose start leads to one state, which alone has a label and keeps to itself.
fn aimed(count: usize, target: usize) -> Table {
    let to = |state: usize| [if state == 0 || state == target { target } else { 0 }; BYTES];
    let labels = (0..count).map(|state| usize::from(state == target)).collect();
    Table { labels, targets: (0..count).flat_map(to).collect() }
}

/// Targets of one byte and of two, and the ones that are not below the count.
fn targets() -> Vec<Lent> {
    let some = || rule(cat(any(1), star(any(1))));
    let last = STATES - 1;
    let aim = |name, count, target, expect| lend(name, some(), &aimed(count, target), expect);
    vec![
        aim("target 127 of 128", OLDER.states, 127, "same\n"),
        aim("target 128 of 128", OLDER.states, 128, "refused 3 7\n"),
        aim("target 127 of 255", STATES, 127, "same\n"),
        aim("target 128 of 255", STATES, 128, "same\n"),
        aim("target 253 of 254", last, last - 1, "same\n"),
        aim("target 254 of 254", last, last, "refused 3 7\n"),
        aim("target 254 of 255", STATES, last, "same\n"),
        aim("target 255 of 255", STATES, STATES, "refused 3 7\n"),
    ]
}

/// A table of 255 states, all with label 1, whose sheet has just so many bytes. Rows
/// with a run for each byte take 771, rows with one run 6, or 5 where it leads to the
/// start. States from 128 on lead to the next one, and every second byte back.
fn lengthy(length: usize) -> Table {
    let half = STATES / 2 + 1;
    let spare = length - 3 - 6 * STATES;
    let (full, rest) = (spare / 765, spare % 765);
    let (part, low) = (1 + rest.div_ceil(3), (3 - rest % 3) % 3);
    let mut table = Table { labels: vec![1; STATES], targets: Vec::new() };
    for state in 0..STATES {
        let near = if (half..STATES - 1).contains(&state) { state + 1 } else { half };
        let other = if near == half { half + 1 } else { half };
        let runs = match STATES - 1 - state {
            above if above < full => BYTES,
            above if above == full => part,
            _ => 1,
        };
        let target = |byte: usize| match () {
            _ if (1..=low).contains(&state) => 0,
            _ if byte.min(runs - 1) % 2 == 0 => near,
            _ => other,
        };
        table.targets.extend((0..BYTES).map(target));
    }
    table
}

/// Sheets at the programs' greatest size, one byte longer, and the longest there is.
fn lengths() -> Vec<Lent> {
    let every = || rule(star(any(1)));
    let (just, over) = (lengthy(SHEET_FILE), lengthy(SHEET_FILE + 1));
    let longest = lengthy(LONGEST);
    let last = |table: &Table, text: &[u8]| relabelled(table, text, 2);
    let (by_row, by_fork) = (vec![0; 127], [&[1], &[0; 125][..]].concat());
    vec![
        lend("65536 bytes, 255 states", every(), &just, "same\n"),
        lend("65537 bytes, 255 states", every(), &over, "same\n"),
        lend("65537 bytes, W", sample_book(), &over, differs(&[0], 0, 1)),
        lend("65537 bytes, last label", every(), &last(&over, &by_row), differs(&by_row, 1, 2)),
        lend("196608 bytes", every(), &longest, "same\n"),
        lend("196608 bytes, W", sample_book(), &longest, differs(&[0], 0, 1)),
        lend(
            "196608 bytes, last label",
            every(),
            &last(&longest, &by_fork),
            differs(&by_fork, 1, 2),
        ),
    ]
}

/// The length of the longest sheet: 255 states of 256 runs, each with a target of two
/// bytes; and version, state count, labels and run counts.
pub const LONGEST: usize = 3 + STATES * (3 + BYTES * 3);

/// The beginnings as cases.
pub fn beginning_cases() -> Vec<Case> {
    faulty_sheets("beginning of a sheet", BEGINNINGS)
}

/// The whole sheets as cases.
pub fn raised_sheet_cases() -> Vec<Case> {
    let whole = |lent: Lent| case(lent.name, &lent.book.write(), TEXT, &lent.sheet);
    raised_sheets().into_iter().map(whole).collect()
}
