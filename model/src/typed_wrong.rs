//! The first wrong byte of a typed text: the first that no rightly typed text could have
//! there, or the end if the text stops too early. Numbers too large are not looked at.

use crate::limits::OPEN;
use crate::typed_sets::NAMES;

/// What stands before a place in a text; `open` counts the open parentheses. Each of
/// these can be gone on from to the end of a line, so a byte is wrong where it leads to
/// none of them, and only there.
#[derive(Clone, Copy)]
enum Stand {
    /// Nothing, or a whole line: the text may end here.
    Line,
    /// Digits of a kind; a first 0 is all of them.
    Kind { zero: bool },
    /// A colon or a bar: an atom is due.
    Due { open: usize },
    /// A parenthesis, which may be closed at once.
    Opened { open: usize },
    /// An atom and perhaps marks.
    Atom { open: usize },
    /// An escape that lacks so many hex digits.
    Escape { open: usize, lacks: usize },
    /// A set's name, or its beginning, from the given place on.
    Name { open: usize, from: usize },
}

/// The place of the first wrong byte, if there is one.
pub fn wrong(text: &[u8]) -> Option<usize> {
    let mut stand = Stand::Line;
    for at in 0..text.len() {
        match next(text, at, stand) {
            Some(after) => stand = after,
            None => return Some(at),
        }
    }
    (!matches!(stand, Stand::Line)).then_some(text.len())
}

/// What stands before the next place, if the byte at this one is not wrong.
fn next(text: &[u8], at: usize, stand: Stand) -> Option<Stand> {
    let byte = text[at];
    match stand {
        Stand::Line => byte.is_ascii_digit().then_some(Stand::Kind { zero: byte == b'0' }),
        Stand::Kind { zero } => match byte {
            b'0'..=b'9' if !zero => Some(stand),
            b':' => Some(Stand::Due { open: 0 }),
            _ => None,
        },
        Stand::Due { open } => atom(byte, at, open),
        Stand::Opened { open } => match byte {
            b')' => Some(Stand::Atom { open: open - 1 }),
            _ => atom(byte, at, open),
        },
        Stand::Atom { open } => match byte {
            b'*' | b'+' | b'?' => Some(stand),
            b'|' => Some(Stand::Due { open }),
            b')' if open > 0 => Some(Stand::Atom { open: open - 1 }),
            b'\n' if open == 0 => Some(Stand::Line),
            _ => atom(byte, at, open),
        },
        Stand::Escape { open, lacks } => byte.is_ascii_hexdigit().then_some(match lacks {
            1 => Stand::Atom { open },
            _ => Stand::Escape { open, lacks: lacks - 1 },
        }),
        Stand::Name { open, from } => {
            let typed = &text[from..=at];
            let named = |name: &&str| [name.as_bytes(), b">"].concat().starts_with(typed);
            NAMES.iter().any(named).then_some(match byte {
                b'>' => Stand::Atom { open },
                _ => stand,
            })
        }
    }
}

/// What stands behind the first byte of an atom.
fn atom(byte: u8, at: usize, open: usize) -> Option<Stand> {
    match byte {
        b'A'..=b'Z' | b'a'..=b'z' | b'0'..=b'9' | b' ' | b'.' => Some(Stand::Atom { open }),
        b'\\' => Some(Stand::Escape { open, lacks: 2 }),
        b'<' => Some(Stand::Name { open, from: at + 1 }),
        b'(' if open < OPEN => Some(Stand::Opened { open: open + 1 }),
        _ => None,
    }
}
