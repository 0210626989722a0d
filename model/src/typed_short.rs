//! All short texts that are rightly typed, made by their lengths, for the model's test of
//! itself: a byte is wrong where no such text begins like the text up to that byte.

use crate::brute::{all_texts, Texts};
use crate::typed_sets::NAMES;
use std::collections::HashSet;

/// Texts by their length.
type ByLength = Vec<Texts>;

/// All texts of `length` bytes that are one of the first, the middle, one of the second.
fn joined(first: &ByLength, middle: &[u8], second: &ByLength, length: usize) -> Texts {
    let mut all = Texts::new();
    let Some(length) = length.checked_sub(middle.len()) else {
        return all;
    };
    // Lists that are still being made lack the longest parts, which nothing is joined to.
    for k in (0..=length).filter(|&k| k < first.len() && length - k < second.len()) {
        for a in &first[k] {
            all.extend(second[length - k].iter().map(|b| [&a[..], middle, &b[..]].concat()));
        }
    }
    all
}

/// All expressions of at most `most` bytes that can be typed with the given bytes; the
/// names of sets may have others.
fn choices(bytes: &[u8], most: usize) -> ByLength {
    let (mut items, mut rows, mut choices): (ByLength, ByLength, ByLength) =
        (vec![], vec![], vec![]);
    let marks: Vec<u8> = b"*+?".iter().copied().filter(|mark| bytes.contains(mark)).collect();
    for length in 0..=most {
        let mut found = short_atoms(bytes, length);
        if length > 2 && bytes.contains(&b'(') {
            let held = choices[length - 2].iter();
            found.extend(held.map(|text: &Vec<u8>| [b"(", &text[..], b")"].concat()));
        }
        for mark in marks.iter().filter(|_| length > 1) {
            let before = items[length - 1].iter();
            found.extend(before.map(|text: &Vec<u8>| [&text[..], &[*mark]].concat()));
        }
        items.push(found);
        let more = joined(&rows, b"", &items, length);
        rows.push(&items[length] | &more);
        let mut found = rows[length].clone();
        if bytes.contains(&b'|') {
            found.extend(joined(&choices, b"|", &rows, length));
        }
        choices.push(found);
    }
    choices
}

/// The atoms of so many bytes that hold no others.
fn short_atoms(bytes: &[u8], length: usize) -> Texts {
    let itself = |byte: &u8| byte.is_ascii_alphanumeric() || b" .".contains(byte);
    let hex: Vec<u8> = bytes.iter().copied().filter(u8::is_ascii_hexdigit).collect();
    let escape = |digits: Vec<u8>| [b"\\", &digits[..]].concat();
    let pairs = all_texts(&hex, 2).into_iter().filter(|digits| digits.len() == 2);
    let mut all: Texts = pairs.map(escape).collect();
    all.extend(bytes.iter().filter(|byte| itself(byte)).map(|&byte| vec![byte]));
    all.extend(NAMES.map(|name| format!("<{name}>").into_bytes()));
    all.insert(b"()".to_vec());
    all.retain(|text| text.len() == length && bytes.contains(&text[0]));
    all
}

/// All kinds with the given bytes.
fn kinds(bytes: &[u8], most: usize) -> ByLength {
    let digits: Vec<u8> = bytes.iter().copied().filter(u8::is_ascii_digit).collect();
    let mut kinds = vec![Texts::new(); most + 1];
    for text in all_texts(&digits, most) {
        if text == b"0" || text.first().is_some_and(|&first| first != b'0') {
            kinds[text.len()].insert(text);
        }
    }
    kinds
}

/// The short texts that are rightly typed, and their beginnings.
pub struct Short {
    texts: HashSet<Vec<u8>>,
    beginnings: HashSet<Vec<u8>>,
}

impl Short {
    /// Texts of at most `most` bytes, typed with the given ones.
    pub fn of(bytes: &[u8], most: usize) -> Short {
        let longest = most.saturating_sub(3);
        let (kinds, choices) = (kinds(bytes, longest), choices(bytes, longest));
        let ends: ByLength = vec![Texts::new(), Texts::from([b"\n".to_vec()])];
        let bodies = (0..most).map(|length| joined(&choices, b"", &ends, length)).collect();
        let lines = (0..=most).map(|length| joined(&kinds, b":", &bodies, length)).collect();
        let mut texts: ByLength = vec![Texts::from([Vec::new()])];
        for length in 1..=most {
            let more = joined(&texts, b"", &lines, length);
            texts.push(more);
        }
        let texts: HashSet<Vec<u8>> = texts.into_iter().flatten().collect();
        let parts = |text: &Vec<u8>| (0..=text.len()).map(|n| text[..n].to_vec()).collect();
        let beginnings = texts.iter().flat_map::<Vec<Vec<u8>>, _>(parts).collect();
        Short { texts, beginnings }
    }

    /// All the texts.
    pub fn texts(&self) -> impl Iterator<Item = &Vec<u8>> {
        self.texts.iter()
    }

    /// The place of the first wrong byte, if there is one.
    pub fn wrong(&self, text: &[u8]) -> Option<usize> {
        let leads_nowhere = |at: &usize| !self.beginnings.contains(&text[..=*at]);
        let stops = || (!self.texts.contains(text)).then_some(text.len());
        (0..text.len()).find(leads_nowhere).or_else(stops)
    }
}
