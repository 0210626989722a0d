//! A comparison told text by text, with no walk over pairs: which pairs count, their
//! numbers, the refusals and the answer follow from the texts, taken in their order,
//! shorter ones first and lower ones first among equally long ones.

use crate::book::Book;
use crate::brute::all_texts;
use crate::build::{label, Answer, Vector};
use crate::limits::Caps;
use crate::refusal::{refuse, Fault, Refusal};
use crate::sheet::Table;
use crate::term::{collect, derivative, normal, Term, TooLong};
use std::collections::{HashSet, VecDeque};

/// Sheet state and vector.
type Pair = (usize, Vector);

/// What the texts so far have told.
struct Telling<'a> {
    book: &'a Book,
    table: &'a Table,
    caps: Caps,
    /// The pairs that non-empty texts lead to, each with the least of these texts.
    counted: Vec<(Pair, Vec<u8>)>,
    /// The distinct terms of the vectors of all texts, the empty one too.
    pool: HashSet<Term>,
}

impl<'a> Telling<'a> {
    /// After the empty text.
    fn start(book: &'a Book, table: &'a Table, caps: Caps) -> Result<Telling<'a>, Refusal> {
        let (counted, pool) = (Vec::new(), HashSet::new());
        let mut telling = Telling { book, table, caps, counted, pool };
        telling.take(b"")?;
        Ok(telling)
    }

    /// The pair that a text leads to.
    fn pair(&self, text: &[u8]) -> Result<Pair, TooLong> {
        let exprs = self.book.rules.iter().map(|rule| &rule.expr);
        let after =
            |expr| text.iter().try_fold(normal(expr)?, |term, &byte| derivative(&term, byte));
        let vector = exprs.map(after).collect::<Result<Vector, TooLong>>()?;
        Ok((self.table.after(text), vector))
    }

    /// The number of the pair that a text leads to: 0 for the start, and for others the
    /// place among those that count, the start left out.
    fn number(&self, text: &[u8]) -> usize {
        let (pair, start) = (self.pair(text), self.pair(b""));
        let mut others = self.counted.iter().filter(|(other, _)| Ok(other) != start.as_ref());
        let place = others.position(|(other, _)| Ok(other) == pair.as_ref());
        place.map_or(0, |place| place + 1)
    }

    /// Takes the next text; tells whether it is the least one that leads to a pair.
    fn take(&mut self, text: &[u8]) -> Result<bool, Refusal> {
        let left = self.number(&text[..text.len().saturating_sub(1)]);
        let Ok(pair) = self.pair(text) else {
            return refuse(Fault::Long, left);
        };
        let new = !text.is_empty() && self.counted.iter().all(|(other, _)| *other != pair);
        if new && self.counted.len() == self.caps.pairs {
            return refuse(Fault::Pairs, left);
        }
        for term in &pair.1 {
            collect(term, &mut self.pool);
        }
        if self.pool.len() > self.caps.pool {
            return refuse(Fault::Pool, left);
        }
        if new {
            self.counted.push((pair, text.to_vec()));
        }
        Ok(new)
    }

    fn answer(&self) -> Answer {
        for ((state, vector), text) in &self.counted {
            let (book, sheet) = (label(vector), self.table.labels[*state]);
            if book != sheet {
                return Answer::Differs { text: text.clone(), book, sheet };
            }
        }
        Answer::Same
    }
}

/// The comparison by all texts of the given bytes with at most `most` of them; None if
/// longer texts could still tell more.
pub fn by_all_texts(
    book: &Book,
    table: &Table,
    caps: Caps,
    bytes: &[u8],
    most: usize,
) -> Result<Option<Answer>, Refusal> {
    let mut telling = Telling::start(book, table, caps)?;
    for equally_long in all_texts(bytes, most)[1..].chunk_by(|a, b| a.len() == b.len()) {
        let mut news = false;
        for text in equally_long {
            news |= telling.take(text)?;
        }
        if !news {
            return Ok(Some(telling.answer()));
        }
    }
    Ok(None)
}

/// The comparison by the texts that are least for their pairs, each with one byte more.
pub fn by_least_texts(
    book: &Book,
    table: &Table,
    caps: Caps,
    bytes: &[u8],
) -> Result<Answer, Refusal> {
    let mut telling = Telling::start(book, table, caps)?;
    let mut least = VecDeque::from([Vec::new()]);
    while let Some(text) = least.pop_front() {
        for &byte in bytes {
            let longer = [&text[..], &[byte]].concat();
            if telling.take(&longer)? {
                least.push_back(longer);
            }
        }
    }
    Ok(telling.answer())
}
