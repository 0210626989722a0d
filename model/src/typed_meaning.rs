//! What typed expressions mean, straight from the typing and with no nodes: the pieces of
//! a text that an expression matches, and the words of a text by typed rules.

use crate::brute;
use crate::cut::{End, Word};
use crate::typed::{Atom, Choice, Item, Line, Mark};

/// The longest text that pieces can be told of.
pub const LONGEST: usize = 127;

/// Pieces of a text: bit `to` of `ends[from]` for the piece between these two places.
#[derive(Clone, PartialEq)]
pub struct Pieces {
    ends: Vec<u128>,
}

impl Pieces {
    fn of(text: &[u8], has: impl Fn(usize, usize) -> bool) -> Pieces {
        let places = 0..=text.len();
        let bit = |from, to| if has(from, to) { 1 << to } else { 0 };
        let ends = |from| places.clone().fold(0, |bits, to| bits | bit(from, to));
        Pieces { ends: places.clone().map(ends).collect() }
    }

    pub fn has(&self, from: usize, to: usize) -> bool {
        self.ends[from] >> to & 1 == 1
    }

    fn or(&self, other: &Pieces) -> Pieces {
        Pieces { ends: self.ends.iter().zip(&other.ends).map(|(a, b)| a | b).collect() }
    }

    fn then(&self, other: &Pieces) -> Pieces {
        let places = 0..self.ends.len();
        let through = |from, mid| if self.has(from, mid) { other.ends[mid] } else { 0 };
        let ends = |from| places.clone().fold(0, |bits, mid| bits | through(from, mid));
        Pieces { ends: places.clone().map(ends).collect() }
    }

    /// One piece or more, joined.
    fn repeated(&self) -> Pieces {
        let mut all = self.clone();
        loop {
            let more = all.or(&all.then(self));
            if more == all {
                return all;
            }
            all = more;
        }
    }
}

/// The pieces of a text of at most `LONGEST` bytes that a choice matches.
pub fn pieces(choice: &Choice, text: &[u8]) -> Pieces {
    assert!(text.len() <= LONGEST);
    let row = |items: &Vec<Item>| {
        let parts = items.iter().map(|item| item_pieces(item, text));
        parts.reduce(|a, b| a.then(&b)).expect("no empty row")
    };
    choice.rows.iter().map(row).reduce(|a, b| a.or(&b)).expect("no empty choice")
}

fn item_pieces(item: &Item, text: &[u8]) -> Pieces {
    let empty = Pieces::of(text, |from, to| from == to);
    let within = |byte: u8, &(lo, hi): &(u8, u8)| lo <= byte && byte <= hi;
    let atom = match &item.atom {
        Atom::Empty => empty.clone(),
        Atom::Ranges(ranges) => Pieces::of(text, |from, to| {
            to == from + 1 && ranges.iter().any(|range| within(text[from], range))
        }),
        Atom::Choice(choice) => pieces(choice, text),
    };
    item.marks.iter().fold(atom, |one, mark| match mark {
        Mark::Star => empty.or(&one.repeated()),
        Mark::Plus => one.repeated(),
        Mark::Question => empty.or(&one),
    })
}

/// All the words of a text by typed rules, and how the cut ends.
pub fn words(lines: &[Line], text: &[u8]) -> (Vec<Word>, End) {
    let rules: Vec<Pieces> = lines.iter().map(|line| pieces(&line.choice, text)).collect();
    brute::words(text, |rest| {
        let from = text.len() - rest.len();
        let rule = |to| rules.iter().position(|rule| rule.has(from, to));
        let mut longest = (from + 1..=text.len()).rev();
        longest.find_map(|to| rule(to).map(|rule| (to - from, rule)))
    })
}
