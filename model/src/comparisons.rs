//! The model's test of itself, fifth part: answers of comparisons are held against the
//! cuts and labels of all short texts, and the count and numbers of pairs and every
//! refusal against what the texts tell one by one.

use crate::book::Book;
use crate::brute::{self, all_texts, Meaning};
use crate::build::{alike, build, compare, compare_by, Answer};
use crate::cut::first_word;
use crate::limits::{Caps, CAPS, RULES};
use crate::prng::Rng;
use crate::random::{looping_book, small_book};
use crate::refusal::Fault;
use crate::selftest::Checks;
use crate::sheet::Table;
use crate::sheets::{
    apart, changed, clock, counter, merged, random, relabelled, shuffled, unrolled, with_spare,
};
use crate::telling::{by_all_texts, by_least_texts};
use std::collections::HashSet;

/// Texts are told one by one up to this length, where so few bytes are told apart.
const TOLD: usize = 7;
const FEW: usize = 3;

pub fn run(checks: &mut Checks) {
    for seed in 0..6_000 {
        let mut rng = Rng::part(5, seed);
        let looping = rng.chance(60);
        let book = if looping { looping_book(&mut rng) } else { small_book(&mut rng, 2, 7) };
        if let Ok(table) = build(&book) {
            told(checks, &mut rng, &book, &table, seed % 4 == 0);
        }
    }
}

/// Comparisons of a book that builds, within small caps, and their answers if asked for.
pub fn told(checks: &mut Checks, rng: &mut Rng, book: &Book, table: &Table, answered: bool) {
    within_caps(checks, rng, book, table);
    if answered {
        answers(checks, rng, book, table);
    }
}

/// The lowest of every set of bytes that neither the book nor the table tells apart.
fn lowest_bytes(book: &Book, table: &Table) -> Vec<u8> {
    let like = alike(book);
    let mut seen = HashSet::new();
    let mut new = |byte: u8| {
        let column: Vec<usize> = (0..table.count()).map(|state| table.step(state, byte)).collect();
        seen.insert((like[usize::from(byte)], column))
    };
    (0..=255).filter(|&byte| new(byte)).collect()
}

/// Comparisons of a book with its own table in other forms, and with other tables.
pub fn answers(checks: &mut Checks, rng: &mut Rng, book: &Book, table: &Table) {
    let (label, spare) = (rng.below(RULES + 1), with_spare(rng, table, 2));
    let deep = unrolled(table, table.count() + 9);
    for own in [table.clone(), shuffled(rng, table), spare, apart(table, label), deep] {
        checks.check("what cuts alike is the same", compare(book, &own) == Ok(Answer::Same));
    }
    let count = table.count();
    let (gone, kept, small) = (rng.below(count), rng.below(count), rng.within(1, 4));
    let new = changed(rng, table);
    let others = [
        relabelled(table, b"", label),
        relabelled(&new, b"", label),
        new,
        merged(table, gone, kept, gone != kept),
        random(rng, small),
        counter(b'a', 3, 1),
    ];
    for other in others {
        answer(checks, book, &other);
    }
}

/// The shown text is the least one that the two cut differently, which is also the
/// least non-empty one that they label differently.
fn answer(checks: &mut Checks, book: &Book, other: &Table) {
    let bytes = lowest_bytes(book, other);
    let most = match bytes.len() {
        0..=4 => 5,
        5..=7 => 3,
        8..=30 => 2,
        _ => 1,
    };
    let meaning = Meaning::of(book, &bytes, most);
    let by_book = |text: &[u8]| brute::words(text, |rest| meaning.first_word(rest));
    let by_table = |text: &[u8]| brute::words(text, |rest| first_word(other, rest));
    let texts = all_texts(&bytes, most);
    let least = texts.iter().find(|text| by_book(text) != by_table(text));
    let labelled = texts[1..].iter().find(|text| meaning.label(text) != other.label(text));
    checks.check("cuts and labels differ first at one text", least == labelled);
    let right = match compare(book, other) {
        Ok(Answer::Same) => least.is_none(),
        Ok(Answer::Differs { text, book: b, sheet: s }) => {
            let first = least.map_or(text.len() > most, |least| *least == text);
            let words = brute::words(&text, |rest| brute::first_word(book, rest));
            let labels = b == brute::label(book, &text) && s == other.label(&text);
            first && words != by_table(&text) && labels && b != s
        }
        // The book builds, so only the pairs can run out.
        Err(refusal) => refusal.fault == Fault::Pairs,
    };
    checks.check(&format!("comparison of {book:?}"), right);
}

/// Comparisons in which the pairs or the terms run out early, or just do not.
fn within_caps(checks: &mut Checks, rng: &mut Rng, book: &Book, own: &Table) {
    let caps = Caps { pairs: rng.within(1, 12), pool: rng.within(5, 60), ..CAPS };
    let (label, round, count) = (rng.below(4), rng.within(1, 5), own.count());
    let table = match rng.below(5) {
        0 => relabelled(own, b"", label),
        1 => apart(own, label),
        2 => merged(own, rng.below(count), rng.below(count), false),
        3 => counter(b'a', round, 1),
        _ => clock(round, 0),
    };
    least_texts(checks, book, &table, caps);
    let bytes = lowest_bytes(book, &table);
    if bytes.len() > FEW {
        return;
    }
    let compared = compare_by(book, &table, &alike(book), caps).map(|found| found.answer);
    let right = match by_all_texts(book, &table, caps, &bytes, TOLD) {
        Ok(None) => return,
        Ok(Some(answer)) => compared == Ok(answer),
        Err(refusal) => compared == Err(refusal),
    };
    checks.check(&format!("all texts tell {book:?}, {caps:?}"), right);
}

/// The comparison is the one told by the texts that are least for their pairs.
pub fn least_texts(checks: &mut Checks, book: &Book, table: &Table, caps: Caps) {
    let told = by_least_texts(book, table, caps, &lowest_bytes(book, table));
    let compared = compare_by(book, table, &alike(book), caps).map(|found| found.answer);
    checks.check(&format!("least texts tell {book:?}, {caps:?}"), compared == told);
}
