//! Rule books: the expressions of their rules, reading them with every refusal at
//! its place, and writing a book from a value (also a book that breaks the limits).

use crate::limits::{KIND, LAST_CODES, LAST_VERSION, NODES, RULES, VERSION};
use crate::number::{self, Reader};
use crate::refusal::{refuse, Fault, Refusal};

/// An expression as a book gives it, before any normal form.
#[derive(Clone, Debug, PartialEq, Eq)]
pub enum Expr {
    Nothing,
    Empty,
    Range(u8, u8),
    Cat(Box<Expr>, Box<Expr>),
    Alt(Box<Expr>, Box<Expr>),
    Star(Box<Expr>),
    Either(u8),
    And(Box<Expr>, Box<Expr>),
    Not(Box<Expr>),
}

/// One rule: its kind and what it matches.
#[derive(Clone, Debug, PartialEq, Eq)]
pub struct Rule {
    pub kind: usize,
    pub expr: Expr,
}

/// The version of a book and its rules in order.
#[derive(Clone, Debug, PartialEq, Eq)]
pub struct Book {
    pub version: usize,
    pub rules: Vec<Rule>,
}

pub fn cat(a: Expr, b: Expr) -> Expr {
    Expr::Cat(Box::new(a), Box::new(b))
}

pub fn alt(a: Expr, b: Expr) -> Expr {
    Expr::Alt(Box::new(a), Box::new(b))
}

pub fn star(a: Expr) -> Expr {
    Expr::Star(Box::new(a))
}

pub fn and(a: Expr, b: Expr) -> Expr {
    Expr::And(Box::new(a), Box::new(b))
}

pub fn not(a: Expr) -> Expr {
    Expr::Not(Box::new(a))
}

/// The expression of exactly one byte.
pub fn one(byte: u8) -> Expr {
    Expr::Range(byte, byte)
}

/// The expression of one text, joined to the left; Empty for the empty text.
pub fn literal(text: &[u8]) -> Expr {
    text.iter().map(|&byte| one(byte)).reduce(cat).unwrap_or(Expr::Empty)
}

/// The expression written `times` times in a row, joined to the left.
pub fn power(expr: &Expr, times: usize) -> Expr {
    (0..times).map(|_| expr.clone()).reduce(cat).unwrap_or(Expr::Empty)
}

/// The choice of all the given expressions, joined to the left.
pub fn choice(parts: Vec<Expr>) -> Expr {
    parts.into_iter().reduce(alt).unwrap_or(Expr::Nothing)
}

impl Expr {
    /// The number of nodes that the expression takes in a book.
    pub fn nodes(&self) -> usize {
        match self {
            Expr::Cat(a, b) | Expr::Alt(a, b) | Expr::And(a, b) => 1 + a.nodes() + b.nodes(),
            Expr::Star(a) | Expr::Not(a) => 1 + a.nodes(),
            _ => 1,
        }
    }

    /// The first version of books that have all its nodes.
    pub fn version(&self) -> usize {
        match self {
            Expr::And(..) | Expr::Not(_) => 2,
            Expr::Cat(a, b) | Expr::Alt(a, b) => a.version().max(b.version()),
            Expr::Star(a) => a.version(),
            _ => VERSION,
        }
    }

    /// Calls `visit` on every leaf, from left to right.
    pub fn leaves(&self, visit: &mut dyn FnMut(&Expr)) {
        match self {
            Expr::Cat(a, b) | Expr::Alt(a, b) | Expr::And(a, b) => {
                a.leaves(visit);
                b.leaves(visit);
            }
            Expr::Star(a) | Expr::Not(a) => a.leaves(visit),
            leaf => visit(leaf),
        }
    }

    fn write(&self, out: &mut Vec<u8>) {
        let numbers = match self {
            Expr::Nothing => vec![0],
            Expr::Empty => vec![1],
            Expr::Range(lo, hi) => vec![2, *lo, *hi],
            Expr::Either(x) => vec![6, *x],
            Expr::Cat(a, b) => {
                a.write(out);
                b.write(out);
                vec![3]
            }
            Expr::Alt(a, b) => {
                a.write(out);
                b.write(out);
                vec![4]
            }
            Expr::Star(a) => {
                a.write(out);
                vec![5]
            }
            Expr::And(a, b) => {
                a.write(out);
                b.write(out);
                vec![7]
            }
            Expr::Not(a) => {
                a.write(out);
                vec![8]
            }
        };
        for value in numbers {
            number::write(value.into(), out);
        }
    }
}

impl Book {
    /// A book of the given expressions, rule i having kind i + 1.
    pub fn of(exprs: Vec<Expr>) -> Book {
        let numbered = exprs.into_iter().enumerate();
        Book::with(numbered.map(|(i, expr)| Rule { kind: i + 1, expr }).collect())
    }

    /// A book of the given rules, of the first version that has all their nodes.
    pub fn with(rules: Vec<Rule>) -> Book {
        let version = rules.iter().map(|rule| rule.expr.version()).max().unwrap_or(VERSION);
        Book { version, rules }
    }

    /// The node total.
    pub fn nodes(&self) -> usize {
        self.rules.iter().map(|rule| rule.expr.nodes()).sum()
    }

    /// The book's bytes; limits are not looked at.
    pub fn write(&self) -> Vec<u8> {
        let mut out = Vec::new();
        number::write(self.version, &mut out);
        number::write(self.rules.len(), &mut out);
        for rule in &self.rules {
            number::write(rule.kind, &mut out);
            number::write(rule.expr.nodes(), &mut out);
            rule.expr.write(&mut out);
        }
        out
    }

    /// The bounds of all ranges of the book, those of an Either too.
    pub fn ranges(&self) -> Vec<(u8, u8)> {
        let mut found = Vec::new();
        for rule in &self.rules {
            rule.expr.leaves(&mut |leaf| match *leaf {
                Expr::Range(lo, hi) => found.push((lo, hi)),
                Expr::Either(x) => found.extend([(x, x), (x - 32, x - 32)]),
                _ => {}
            });
        }
        found
    }
}

/// Reads a whole book.
pub fn read(bytes: &[u8]) -> Result<Book, Refusal> {
    read_to(LAST_VERSION, bytes)
}

/// Reads a whole book of at most such a version, as older readers do.
pub fn read_to(last: usize, bytes: &[u8]) -> Result<Book, Refusal> {
    let mut reader = Reader::new(bytes);
    let version = reader.field(VERSION, last)?;
    let count = reader.field(1, RULES)?;
    let mut left = NODES;
    let mut rules = Vec::new();
    for _ in 0..count {
        let kind = reader.field(0, KIND)?;
        // With no node left even a count of 1 is out of its field.
        let nodes = reader.field(1, left)?;
        left -= nodes;
        rules.push(Rule { kind, expr: read_nodes(&mut reader, version, nodes)? });
    }
    reader.end()?;
    Ok(Book { version, rules })
}

/// Reads the nodes of one rule, keeping the terms that are still open.
fn read_nodes(reader: &mut Reader, version: usize, count: usize) -> Result<Expr, Refusal> {
    let mut open: Vec<Expr> = Vec::new();
    for _ in 0..count {
        let place = reader.at();
        let code = reader.field(0, LAST_CODES[version - 1])?;
        let takes = match code {
            3 | 4 | 7 => 2,
            5 | 8 => 1,
            _ => 0,
        };
        if open.len() < takes {
            return refuse(Fault::Stack, place);
        }
        let taken = open.split_off(open.len() - takes);
        let node = read_node(reader, code, taken)?;
        open.push(node);
    }
    match open.pop() {
        Some(expr) if open.is_empty() => Ok(expr),
        _ => refuse(Fault::Stack, reader.at()),
    }
}

/// Finishes the node with the given code, whose terms are already taken.
fn read_node(reader: &mut Reader, code: usize, taken: Vec<Expr>) -> Result<Expr, Refusal> {
    let mut taken = taken.into_iter();
    let mut term = || taken.next().expect("the terms were counted");
    Ok(match code {
        0 => Expr::Nothing,
        1 => Expr::Empty,
        2 => {
            let lo = reader.byte()?;
            let hi = reader.field(lo.into(), 255)? as u8;
            Expr::Range(lo, hi)
        }
        3 => cat(term(), term()),
        4 => alt(term(), term()),
        5 => star(term()),
        6 => Expr::Either(reader.field(97, 122)? as u8),
        7 => and(term(), term()),
        _ => not(term()),
    })
}
