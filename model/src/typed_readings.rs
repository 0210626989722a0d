//! Typed texts by every way to read them, for the model's test of itself: each part of a
//! text is cut in two at every place, and what comes out is nodes of a book.

use crate::book::{alt, cat, choice, one, star, Expr};
use crate::limits::OPEN;
use crate::typed_sets::{ranges, NAMES};

/// Digits and expression of a line.
pub type Read = (Vec<u8>, Expr);

/// The lines of a text, each with all its readings; None if the last does not end.
pub fn readings(text: &[u8]) -> Option<Vec<Vec<Read>>> {
    let Some((b'\n', most)) = text.split_last() else {
        return text.is_empty().then(Vec::new);
    };
    Some(most.split(|&byte| byte == b'\n').map(line).collect())
}

/// Whether there is exactly one reading of every line.
pub fn reads_one_way(text: &[u8]) -> bool {
    readings(text).is_some_and(|lines| lines.iter().all(|line| line.len() == 1))
}

fn line(text: &[u8]) -> Vec<Read> {
    let mut found = Vec::new();
    for at in (0..text.len()).filter(|&at| text[at] == b':') {
        let digits = &text[..at];
        let decimal = digits.iter().all(u8::is_ascii_digit) && !digits.is_empty();
        if decimal && (digits == b"0" || digits[0] != b'0') {
            found.extend(choices(&text[at + 1..], 0).into_iter().map(|e| (digits.to_vec(), e)));
        }
    }
    found
}

/// A row, or a choice, a bar and a row.
fn choices(text: &[u8], open: usize) -> Vec<Expr> {
    let mut found = rows(text, open);
    for at in (0..text.len()).filter(|&at| text[at] == b'|') {
        for last in rows(&text[at + 1..], open) {
            found.extend(choices(&text[..at], open).into_iter().map(|e| alt(e, last.clone())));
        }
    }
    found
}

/// An item, or a row and an item.
fn rows(text: &[u8], open: usize) -> Vec<Expr> {
    let mut found = items(text, open);
    for at in 1..text.len() {
        for last in items(&text[at..], open) {
            found.extend(rows(&text[..at], open).into_iter().map(|e| cat(e, last.clone())));
        }
    }
    found
}

/// An atom, or an item and a mark.
fn items(text: &[u8], open: usize) -> Vec<Expr> {
    let before = || items(&text[..text.len() - 1], open).into_iter();
    match text.last() {
        Some(b'*') => before().map(star).collect(),
        Some(b'+') => before().map(|e| cat(e.clone(), star(e))).collect(),
        Some(b'?') => before().map(|e| alt(e, Expr::Empty)).collect(),
        _ => atoms(text, open),
    }
}

fn atoms(text: &[u8], open: usize) -> Vec<Expr> {
    match text {
        [b' '] => vec![one(b' ')],
        [b'.'] => vec![Expr::Range(0, 255)],
        [byte] if byte.is_ascii_alphanumeric() => vec![one(*byte)],
        [b'\\', high, low] => {
            let digits = [*high, *low].map(char::from).iter().collect::<String>();
            // A sign is no digit, though the machine would take one.
            let hex = digits.chars().all(|c| c.is_ascii_hexdigit());
            u8::from_str_radix(&digits, 16).into_iter().filter(|_| hex).map(one).collect()
        }
        [b'<', name @ .., b'>'] => {
            let set = NAMES.iter().filter(|known| known.as_bytes() == name);
            let parts = |name: &&str| ranges(name).into_iter().map(|(lo, hi)| Expr::Range(lo, hi));
            set.map(|name| choice(parts(name).collect())).collect()
        }
        [b'(', b')'] if open < OPEN => vec![Expr::Empty],
        [b'(', inner @ .., b')'] if open < OPEN => choices(inner, open + 1),
        _ => vec![],
    }
}
