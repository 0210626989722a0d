//! Exercise texts with notes between `/*` and `*/`: the book that cuts them by a Not, books
//! that do the same without one or do it wrong, and texts with the words that they have.

use crate::book::{alt, cat, literal, not, one, star, Book, Expr};
use crate::cases::Case;
use crate::edges::{differs, meet, Meeting};
use crate::sheet;
use crate::starts::{any, own};
use crate::worked::case;

/// Texts in which nothing of the inner expression is anywhere.
pub fn without(inner: Expr) -> Expr {
    not(cat(star(any(1)), cat(inner, star(any(1)))))
}

/// A note: its beginning, any text without an end of a note, and the end.
pub fn note() -> Expr {
    let (slash, times) = (|| one(b'/'), || one(b'*'));
    let ended = cat(star(any(1)), cat(times(), cat(slash(), star(any(1)))));
    cat(slash(), cat(times(), cat(not(ended), cat(times(), slash()))))
}

/// A book of the given expression for notes, then words and a space.
fn with_words(note: Expr) -> Book {
    let letter = || Expr::Range(b'a', b'z');
    let mut book = Book::of(vec![note, cat(letter(), star(letter())), one(b' ')]);
    book.rules[2].kind = 0;
    book
}

pub fn notes_book() -> Book {
    with_words(note())
}

/// The same notes by version 1: pieces that end in no star, then stars and a slash.
fn spelled_out() -> Book {
    let plain = alt(Expr::Range(0, 41), Expr::Range(43, 255));
    let other = alt(Expr::Range(0, 41), alt(Expr::Range(43, 46), Expr::Range(48, 255)));
    let stars = || cat(one(b'*'), star(one(b'*')));
    let inner = star(alt(plain, cat(stars(), other)));
    with_words(cat(literal(b"/*"), cat(inner, cat(stars(), one(b'/')))))
}

/// Any text inside, so that a note goes on to the last end there is.
fn greedy() -> Book {
    with_words(cat(literal(b"/*"), cat(star(any(1)), literal(b"*/"))))
}

/// No star inside.
fn starless() -> Book {
    let plain = alt(Expr::Range(0, 41), Expr::Range(43, 255));
    with_words(cat(literal(b"/*"), cat(star(plain), literal(b"*/"))))
}

/// The example of the book and what `cut` prints for it.
pub const NOTES_TEXT: &[u8] = b"go /* a * b */ to /**/ x*/";

/// Texts, and what `cut` prints for them by the book of notes.
pub const NOTES_CUT: &[(&str, &[u8], &str)] = &[
    (
        "words and notes",
        NOTES_TEXT,
        "0 2 1 2\n2 1 2 0\n3 11 0 1\n14 1 2 0\n15 2 1 2\n17 1 2 0\n18 4 0 1\n22 1 2 0\n\
         23 1 1 2\nstuck 24\n",
    ),
    ("one note", b"/* a note */", "0 12 0 1\ndone 1\n"),
    ("the first end ends it", b"/* a */ b */", "0 7 0 1\n7 1 2 0\n8 1 1 2\n9 1 2 0\nstuck 10\n"),
    ("a star inside", b"/***/", "0 5 0 1\ndone 1\n"),
    ("stars before the end", b"/* a ****/", "0 10 0 1\ndone 1\n"),
    ("nothing inside", b"/**/", "0 4 0 1\ndone 1\n"),
    ("a star for two", b"/*/", "stuck 0\n"),
    ("a slash inside", b"/*/ */", "0 6 0 1\ndone 1\n"),
    ("no end", b"go /* to", "0 2 1 2\n2 1 2 0\nstuck 3\n"),
    ("no end but a star", b"/* to *", "stuck 0\n"),
    ("no end after a note", b"/*a*//*", "0 5 0 1\nstuck 5\n"),
    ("a beginning inside", b"/* /* */", "0 8 0 1\ndone 1\n"),
    ("a beginning inside, two ends", b"/* /* */*/", "0 8 0 1\nstuck 8\n"),
    ("two notes", b"/* a *//* b */", "0 7 0 1\n7 7 0 1\ndone 2\n"),
    ("any bytes inside", b"/*\x00\n\xFF\x80*/to", "0 8 0 1\n8 2 1 2\ndone 2\n"),
];

/// The texts as cases, by the book's own sheet and by that of the greedy book in turn.
pub fn notes_cases() -> Vec<Case> {
    let book = notes_book().write();
    let sheets = [sheet::write(&own(&notes_book())), sheet::write(&own(&greedy()))];
    let numbered = NOTES_CUT.iter().enumerate();
    numbered.map(|(i, (name, text, _))| case(name, &book, text, &sheets[i % 2])).collect()
}

/// The book of notes against tables of other books, and these against its own.
pub fn notes_meetings() -> Vec<Meeting> {
    let (book, table) = (notes_book(), own(&notes_book()));
    let by_starless = own(&starless());
    vec![
        meet("notes by version 1", book.clone(), own(&spelled_out()), "same\n"),
        meet("version 1 by notes", spelled_out(), table.clone(), "same\n"),
        meet("the greedy by notes", greedy(), table.clone(), differs(b"/**/*/", 1, 0)),
        meet("notes by the starless", book, by_starless, differs(b"/***/", 1, 0)),
        meet("the starless by notes", starless(), table, differs(b"/***/", 0, 1)),
    ]
}
