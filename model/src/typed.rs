//! Rules typed as text, one a line: what a typed text says, and the book that it stands
//! for or the refusal. A text that is not wrong anywhere is taken apart from outside:
//! into lines, these into choices, rows, and atoms with their marks.

use crate::book::{alt, cat, star, Book, Expr, Rule};
use crate::limits::{KIND, NODES, RULES, TYPED_AREA, VERSION};
use crate::refusal::{refuse, Fault, Refusal};
use crate::typed_sets::ranges;
use crate::typed_wrong::wrong;

/// One line: where it starts, its kind, unless that is too large, and its expression.
pub struct Line {
    pub start: usize,
    pub kind: Option<usize>,
    pub choice: Choice,
}

/// Rows between bars.
pub struct Choice {
    pub rows: Vec<Vec<Item>>,
}

/// An atom and the marks behind it, in order.
pub struct Item {
    pub atom: Atom,
    pub marks: Vec<Mark>,
}

pub enum Atom {
    /// Empty parentheses.
    Empty,
    /// One byte from some range: a letter, an escape, a dot, a set.
    Ranges(Vec<(u8, u8)>),
    /// What parentheses hold.
    Choice(Choice),
}

#[derive(Clone, Copy)]
pub enum Mark {
    Star,
    Plus,
    Question,
}

/// The book for a typed text and an output area of the given length.
pub fn book(text: &[u8], area: usize) -> Result<Book, Refusal> {
    if area < TYPED_AREA {
        return refuse(Fault::Room, 0);
    }
    if let Some(place) = wrong(text) {
        return refuse(Fault::Typed, place);
    }
    let lines = lines(text);
    if lines.is_empty() {
        return refuse(Fault::Range, 0);
    }
    let mut rules = Vec::new();
    let mut total = 0;
    for Line { start, kind, choice } in lines {
        total = choice.nodes().saturating_add(total);
        match kind {
            Some(kind) if rules.len() < RULES && total <= NODES => {
                rules.push(Rule { kind, expr: choice.expr() });
            }
            _ => return refuse(Fault::Range, start),
        }
    }
    Ok(Book { version: VERSION, rules })
}

/// The lines of a text that is not wrong.
pub fn lines(text: &[u8]) -> Vec<Line> {
    assert!(wrong(text).is_none());
    let mut start = 0;
    let mut lines = Vec::new();
    for line in text.split_inclusive(|&byte| byte == b'\n') {
        // Neither a kind nor an expression has a colon of its own.
        let colon = line.iter().position(|&byte| byte == b':').expect("a line has a colon");
        let digits = std::str::from_utf8(&line[..colon]).expect("a kind is digits");
        // A kind with too many digits for the machine is too large for a book.
        let kind = digits.parse().ok().filter(|&kind| kind <= KIND);
        lines.push(Line { start, kind, choice: choice(&line[colon + 1..line.len() - 1]) });
        start += line.len();
    }
    lines
}

/// Takes the expression apart at the bars that stand in no parentheses.
fn choice(text: &[u8]) -> Choice {
    let mut rows = Vec::new();
    let (mut open, mut from) = (0, 0);
    for (at, byte) in text.iter().enumerate() {
        match byte {
            b'(' => open += 1,
            b')' => open -= 1,
            b'|' if open == 0 => {
                rows.push(row(&text[from..at]));
                from = at + 1;
            }
            _ => {}
        }
    }
    rows.push(row(&text[from..]));
    Choice { rows }
}

/// Takes a row apart into atoms and marks.
fn row(text: &[u8]) -> Vec<Item> {
    let mut items: Vec<Item> = Vec::new();
    let mut rest = text;
    while let Some(byte) = rest.first() {
        let mark = match byte {
            b'*' => Some(Mark::Star),
            b'+' => Some(Mark::Plus),
            b'?' => Some(Mark::Question),
            _ => None,
        };
        let length = match mark {
            Some(mark) => {
                items.last_mut().expect("an atom stands before a mark").marks.push(mark);
                1
            }
            None => {
                let length = atom_length(rest);
                items.push(Item { atom: atom(&rest[..length]), marks: Vec::new() });
                length
            }
        };
        rest = &rest[length..];
    }
    items
}

/// The length of the atom at the beginning.
fn atom_length(text: &[u8]) -> usize {
    let mut open = 0;
    let mut closed = |byte: &u8| {
        open += i32::from(*byte == b'(') - i32::from(*byte == b')');
        open == 0
    };
    let last = match text[0] {
        b'\\' => Some(2),
        b'<' => text.iter().position(|&byte| byte == b'>'),
        b'(' => text.iter().position(&mut closed),
        _ => Some(0),
    };
    last.expect("an atom ends") + 1
}

fn atom(text: &[u8]) -> Atom {
    let inner = || &text[1..text.len() - 1];
    let hex = |byte: u8| char::from(byte).to_digit(16).expect("a hex digit") as u8;
    match text[0] {
        b'.' => Atom::Ranges(vec![(0, 255)]),
        b'\\' => {
            let byte = 16 * hex(text[1]) + hex(text[2]);
            Atom::Ranges(vec![(byte, byte)])
        }
        b'<' => Atom::Ranges(ranges(std::str::from_utf8(inner()).expect("a name is letters"))),
        b'(' if inner().is_empty() => Atom::Empty,
        b'(' => Atom::Choice(choice(inner())),
        byte => Atom::Ranges(vec![(byte, byte)]),
    }
}

/// The nodes of so many parts and of what joins them: one node less than there are parts.
fn joined(parts: impl ExactSizeIterator<Item = usize>) -> usize {
    let joints = parts.len() - 1;
    parts.fold(joints, usize::saturating_add)
}

impl Choice {
    /// The number of nodes in a book; more than can be counted are as many as can be.
    pub fn nodes(&self) -> usize {
        joined(self.rows.iter().map(|row| joined(row.iter().map(Item::nodes))))
    }

    /// The expression by nodes of a book, joined from the left.
    pub fn expr(&self) -> Expr {
        let row = |row: &Vec<Item>| row.iter().map(Item::expr).reduce(cat).expect("no empty row");
        self.rows.iter().map(row).reduce(alt).expect("no empty choice")
    }
}

impl Item {
    fn nodes(&self) -> usize {
        let atom = match &self.atom {
            Atom::Empty => 1,
            Atom::Ranges(ranges) => joined(ranges.iter().map(|_| 1)),
            Atom::Choice(choice) => choice.nodes(),
        };
        self.marks.iter().fold(atom, |nodes, mark| match mark {
            Mark::Star => nodes.saturating_add(1),
            Mark::Plus => nodes.saturating_mul(2).saturating_add(2),
            Mark::Question => nodes.saturating_add(2),
        })
    }

    fn expr(&self) -> Expr {
        let atom = match &self.atom {
            Atom::Empty => Expr::Empty,
            Atom::Ranges(ranges) => {
                let range = |&(lo, hi): &(u8, u8)| Expr::Range(lo, hi);
                ranges.iter().map(range).reduce(alt).expect("no empty set")
            }
            Atom::Choice(choice) => choice.expr(),
        };
        self.marks.iter().fold(atom, |expr, mark| match mark {
            Mark::Star => star(expr),
            Mark::Plus => cat(expr.clone(), star(expr)),
            Mark::Question => alt(expr, Expr::Empty),
        })
    }
}
