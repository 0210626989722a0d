//! The walk over vectors of terms: building a table from a book, and comparing a
//! book with a table, with the refusals of both and their places.

use crate::book::Book;
use crate::limits::{Caps, BYTES, CAPS};
use crate::refusal::{refuse, Fault, Refusal};
use crate::sheet::Table;
use crate::term::{collect, derivative, normal, Term, TooLong};
use std::collections::{HashMap, HashSet};
use std::iter::successors;

/// One term for each rule of the book.
pub type Vector = Vec<Term>;

/// Where one byte leads: to a vector that is held, or to one that is not.
enum Next {
    Held(usize),
    New(Vector),
}

/// The vectors held so far, and the distinct terms in them.
struct Walk {
    vectors: Vec<Vector>,
    numbers: HashMap<Vector, usize>,
    pool: HashSet<Term>,
    /// Steps already found to lead to a held vector.
    known: HashMap<(usize, u8), usize>,
    caps: Caps,
}

impl Walk {
    /// A walk that holds the rules in normal form.
    fn start(book: &Book, caps: Caps) -> Result<Walk, Refusal> {
        let exprs = book.rules.iter().map(|rule| &rule.expr);
        let Ok(vector) = exprs.map(normal).collect::<Result<Vector, TooLong>>() else {
            return refuse(Fault::Long, 0);
        };
        let mut walk = Walk {
            vectors: Vec::new(),
            numbers: HashMap::new(),
            pool: HashSet::new(),
            known: HashMap::new(),
            caps,
        };
        walk.hold(vector, 0)?;
        Ok(walk)
    }

    /// Derives a held vector by one byte; `place` is the state or pair being left.
    fn next(&mut self, from: usize, byte: u8, place: usize) -> Result<Next, Refusal> {
        if let Some(&number) = self.known.get(&(from, byte)) {
            return Ok(Next::Held(number));
        }
        let terms = self.vectors[from].iter().map(|term| derivative(term, byte));
        let Ok(vector) = terms.collect::<Result<Vector, TooLong>>() else {
            return refuse(Fault::Long, place);
        };
        if let Some(&number) = self.numbers.get(&vector) {
            self.known.insert((from, byte), number);
            return Ok(Next::Held(number));
        }
        Ok(Next::New(vector))
    }

    /// The number of a vector, which is held from now on.
    fn settle(&mut self, next: Next, place: usize) -> Result<usize, Refusal> {
        match next {
            Next::Held(number) => Ok(number),
            Next::New(vector) => self.hold(vector, place),
        }
    }

    /// Gives a vector the next number, then counts the terms.
    fn hold(&mut self, vector: Vector, place: usize) -> Result<usize, Refusal> {
        for term in &vector {
            collect(term, &mut self.pool);
        }
        let number = self.vectors.len();
        self.numbers.insert(vector.clone(), number);
        self.vectors.push(vector);
        if self.pool.len() > self.caps.pool {
            return refuse(Fault::Pool, place);
        }
        Ok(number)
    }
}

/// 1 plus the first rule whose term matches the empty text, or 0.
pub fn label(vector: &[Term]) -> usize {
    vector.iter().position(|term| term.empty).map_or(0, |rule| rule + 1)
}

/// For each byte, the lowest byte that lies in the same ranges of the book; both lead
/// every vector to the same one.
pub fn alike(book: &Book) -> [u8; BYTES] {
    let ranges = book.ranges();
    let mut lowest: HashMap<Vec<bool>, u8> = HashMap::new();
    let mut like = [0; BYTES];
    for byte in 0..=255u8 {
        let inside = ranges.iter().map(|&(lo, hi)| lo <= byte && byte <= hi).collect();
        like[usize::from(byte)] = *lowest.entry(inside).or_insert(byte);
    }
    like
}

/// What a build found out beside its table: counts for the selftest and the report.
#[derive(Clone, Debug)]
pub struct Built {
    pub table: Table,
    /// Distinct terms in the held vectors and their parts.
    pub pool: usize,
    /// Tree nodes of the greatest term in a held vector.
    pub longest: usize,
}

/// The table of a book.
pub fn build(book: &Book) -> Result<Table, Refusal> {
    Ok(build_by(book, &alike(book), CAPS)?.table)
}

/// Builds while deriving only by the lowest of bytes that are alike, within the given caps.
pub fn build_by(book: &Book, like: &[u8; BYTES], caps: Caps) -> Result<Built, Refusal> {
    let mut walk = Walk::start(book, caps)?;
    let mut table = Table { labels: Vec::new(), targets: Vec::new() };
    let mut state = 0;
    while state < walk.vectors.len() {
        table.labels.push(label(&walk.vectors[state]));
        let mut row = [0; BYTES];
        for byte in 0..=255u8 {
            let lowest = like[usize::from(byte)];
            row[usize::from(byte)] = match () {
                _ if lowest < byte => row[usize::from(lowest)],
                _ => match walk.next(state, byte, state)? {
                    Next::New(_) if walk.vectors.len() >= caps.states => {
                        return refuse(Fault::States, state);
                    }
                    next => walk.settle(next, state)?,
                },
            };
        }
        table.targets.extend(row);
        state += 1;
    }
    let sizes = walk.vectors.iter().flatten().map(|term| term.size);
    Ok(Built { table, pool: walk.pool.len(), longest: sizes.max().unwrap_or(0) })
}

/// The answer of a comparison.
#[derive(Clone, Debug, PartialEq, Eq)]
pub enum Answer {
    Same,
    Differs { text: Vec<u8>, book: usize, sheet: usize },
}

impl Answer {
    /// The lines that a program prints; where they differ, the text has a line of its own.
    pub fn lines(&self) -> String {
        match self {
            Answer::Same => "same\n".to_string(),
            Answer::Differs { text, book, sheet } => {
                let hex: String = text.iter().map(|byte| format!("{byte:02x}")).collect();
                format!("differs {} {book} {sheet}\n{hex}\n", text.len())
            }
        }
    }
}

/// A pair on the way: sheet state, vector, and the step by which a non-empty text first
/// led to it. Only the start can be without one.
struct Pair {
    state: usize,
    vector: usize,
    found: Option<(usize, u8)>,
}

/// The pairs by number, the start being 0, and the numbers of those that count: the
/// ones that a non-empty text leads to, in the order found.
struct Pairs {
    held: Vec<Pair>,
    numbers: HashMap<(usize, usize), usize>,
    counted: Vec<usize>,
}

impl Pairs {
    /// The start, which does not count until a text leads back to it.
    fn start() -> Pairs {
        let held = vec![Pair { state: 0, vector: 0, found: None }];
        Pairs { held, numbers: HashMap::from([((0, 0), 0)]), counted: Vec::new() }
    }

    fn counts(&self, state: usize, vector: usize) -> bool {
        let number = self.numbers.get(&(state, vector));
        number.is_some_and(|&number| self.held[number].found.is_some())
    }

    /// Counts a pair. The start keeps its number; any other pair gets the next one.
    fn count(&mut self, state: usize, vector: usize, found: (usize, u8)) {
        let next = self.held.len();
        let number = *self.numbers.entry((state, vector)).or_insert(next);
        if number == next {
            self.held.push(Pair { state, vector, found: None });
        }
        self.held[number].found = Some(found);
        self.counted.push(number);
    }

    /// The text that first led to a counted pair: its steps back to where the start is left.
    fn text(&self, number: usize) -> Vec<u8> {
        let before = |&(from, _): &(usize, u8)| match from {
            0 => None,
            _ => self.held[from].found,
        };
        let steps = successors(self.held[number].found, before);
        let mut text: Vec<u8> = steps.map(|(_, byte)| byte).collect();
        text.reverse();
        text
    }
}

/// Compares a book with a table that is well formed.
pub fn compare(book: &Book, table: &Table) -> Result<Answer, Refusal> {
    Ok(compare_by(book, table, &alike(book), CAPS)?.answer)
}

/// What a comparison found out beside its answer.
#[derive(Clone, Debug)]
pub struct Compared {
    pub answer: Answer,
    /// Pairs that count.
    pub pairs: usize,
    pub pool: usize,
}

/// Compares while deriving only by the lowest of bytes that are alike, within the given caps.
pub fn compare_by(
    book: &Book,
    table: &Table,
    like: &[u8; BYTES],
    caps: Caps,
) -> Result<Compared, Refusal> {
    let mut walk = Walk::start(book, caps)?;
    let mut pairs = Pairs::start();
    let mut left = 0;
    while left < pairs.held.len() {
        let Pair { state, vector, .. } = pairs.held[left];
        let mut derived = [0; BYTES];
        for byte in 0..=255u8 {
            let lowest = like[usize::from(byte)];
            let target = table.step(state, byte);
            let next = match () {
                _ if lowest < byte => Next::Held(derived[usize::from(lowest)]),
                _ => walk.next(vector, byte, left)?,
            };
            derived[usize::from(byte)] = match next {
                Next::Held(number) if pairs.counts(target, number) => number,
                _ if pairs.counted.len() >= caps.pairs => return refuse(Fault::Pairs, left),
                next => {
                    let number = walk.settle(next, left)?;
                    pairs.count(target, number, (left, byte));
                    number
                }
            };
        }
        left += 1;
    }
    let answer = answer(&walk, &pairs, table);
    Ok(Compared { answer, pairs: pairs.counted.len(), pool: walk.pool.len() })
}

/// The first counted pair whose labels differ decides.
fn answer(walk: &Walk, pairs: &Pairs, table: &Table) -> Answer {
    for &number in &pairs.counted {
        let Pair { state, vector, .. } = pairs.held[number];
        let (book, sheet) = (label(&walk.vectors[vector]), table.labels[state]);
        if book != sheet {
            return Answer::Differs { text: pairs.text(number), book, sheet };
        }
    }
    Answer::Same
}
