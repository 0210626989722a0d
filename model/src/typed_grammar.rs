//! Typed texts by a grammar, for the model's test of itself: the first wrong byte is the
//! first one that no derivation goes through. Every symbol derives some text, so every
//! derivation that is left can be finished.

use crate::limits::OPEN;
use crate::typed_sets::NAMES;
use std::collections::BTreeSet;

/// Symbols of the grammar; a number counts the parentheses around.
#[derive(Clone, Copy, PartialEq, Eq, PartialOrd, Ord)]
enum Symbol {
    Text,
    Line,
    Kind,
    Digits,
    Choice(usize),
    Rows(usize),
    Row(usize),
    Items(usize),
    Item(usize),
    Marks,
    Atom(usize),
    /// Any one of these bytes.
    Byte(&'static [u8]),
}
use Symbol::*;

const DIGIT: Symbol = Byte(b"0123456789");
const HEX: Symbol = Byte(b"0123456789abcdefABCDEF");
const ITSELF: Symbol = Byte(b"abcdefghijklmnopqrstuvwxyzABCDEFGHIJKLMNOPQRSTUVWXYZ0123456789 ");

/// What a symbol may be replaced by.
fn ways(symbol: Symbol) -> Vec<Vec<Symbol>> {
    match symbol {
        Text => vec![vec![], vec![Line, Text]],
        Line => vec![vec![Kind, Byte(b":"), Choice(0), Byte(b"\n")]],
        Kind => vec![vec![Byte(b"0")], vec![Byte(b"123456789"), Digits]],
        Digits => vec![vec![], vec![DIGIT, Digits]],
        Choice(open) => vec![vec![Row(open), Rows(open)]],
        Rows(open) => vec![vec![], vec![Byte(b"|"), Row(open), Rows(open)]],
        Row(open) => vec![vec![Item(open), Items(open)]],
        Items(open) => vec![vec![], vec![Item(open), Items(open)]],
        Item(open) => vec![vec![Atom(open), Marks]],
        Marks => vec![vec![], vec![Byte(b"*+?"), Marks]],
        Atom(open) => {
            let mut all = vec![vec![ITSELF], vec![Byte(b"\\"), HEX, HEX], vec![Byte(b".")]];
            for name in NAMES {
                let letters = name.as_bytes().chunks(1).map(Byte);
                all.push([Byte(b"<")].into_iter().chain(letters).chain([Byte(b">")]).collect());
            }
            if open < OPEN {
                all.push(vec![Byte(b"("), Byte(b")")]);
                all.push(vec![Byte(b"("), Choice(open + 1), Byte(b")")]);
            }
            all
        }
        Byte(_) => unreachable!("a byte is not replaced"),
    }
}

/// What is left to derive, the next symbol last.
type Left = Vec<Symbol>;

/// All that can be left if the first symbol is replaced until it is a byte.
fn replaced(from: BTreeSet<Left>) -> BTreeSet<Left> {
    let mut found = BTreeSet::new();
    let mut open: Vec<Left> = from.into_iter().collect();
    while let Some(mut left) = open.pop() {
        match left.last().copied() {
            None | Some(Byte(_)) => {
                found.insert(left);
            }
            Some(symbol) => {
                left.pop();
                for way in ways(symbol) {
                    open.push(left.iter().copied().chain(way.into_iter().rev()).collect());
                }
            }
        }
    }
    found
}

/// All that can be left behind a text, or the place of its first wrong byte.
fn derived(text: &[u8]) -> Result<BTreeSet<Left>, usize> {
    let mut all = replaced(BTreeSet::from([vec![Text]]));
    for (at, byte) in text.iter().enumerate() {
        let mut behind = BTreeSet::new();
        for mut left in all {
            if matches!(left.pop(), Some(Byte(bytes)) if bytes.contains(byte)) {
                behind.insert(left);
            }
        }
        if behind.is_empty() {
            return Err(at);
        }
        all = replaced(behind);
    }
    Ok(all)
}

/// The place of the first wrong byte, if there is one.
pub fn wrong_by_grammar(text: &[u8]) -> Option<usize> {
    match derived(text) {
        Ok(all) => (!all.contains(&vec![])).then_some(text.len()),
        Err(at) => Some(at),
    }
}

/// The bytes that some derivation goes on with behind a text; none behind a wrong byte.
pub fn next_by_grammar(text: &[u8]) -> BTreeSet<u8> {
    let next = |left: &Left| match left.last() {
        Some(Byte(bytes)) => bytes.to_vec(),
        _ => vec![],
    };
    derived(text).unwrap_or_default().iter().flat_map(next).collect()
}
