//! Random expressions and books with And and Not: small ones, ones that lead back to their
//! start, wide ones, scanners with notes, ones that come near the limits; and their texts.

use crate::book::{alt, and, cat, choice, literal, not, one, power, star, Book, Expr};
use crate::edges::{filled, row_of_a};
use crate::limits::{NODES, POOL, RULES};
use crate::notes::{note, without};
use crate::prng::Rng;
use crate::random::{alphabet, leaf, sample, scanner_book, with_kinds};
use crate::starts::any;
use crate::term::{derivative, normal};

/// A random expression with at most `budget` nodes, some of them And or Not.
pub fn mixed(rng: &mut Rng, letters: &[u8], budget: usize) -> Expr {
    if budget <= 1 {
        return leaf(rng, letters);
    }
    if budget == 2 || rng.chance(24) {
        let inner = mixed(rng, letters, budget - 1);
        return if rng.chance(45) { star(inner) } else { not(inner) };
    }
    if budget >= 8 && rng.chance(12) {
        return without(mixed(rng, letters, budget - 7));
    }
    if budget >= 6 && rng.chance(8) {
        // Members that are equal or turned, and a term with its opposite.
        let third = (budget - 3) / 3;
        let (a, b) = (mixed(rng, letters, third), mixed(rng, letters, third));
        let again = a.clone();
        return if rng.chance(50) { and(alt(b, again), a) } else { and(cat(again, b), not(a)) };
    }
    let left = rng.within(1, budget - 2);
    let a = mixed(rng, letters, left);
    let b = mixed(rng, letters, budget - 1 - left);
    let spare = 1 + a.nodes() + b.nodes() < budget;
    match rng.below(20) {
        0..=3 => alt(a, b),
        4..=6 => and(a, b),
        // What the one has and the other has not.
        7..=10 if spare => and(a, not(b)),
        _ => cat(a, b),
    }
}

/// A book of few small rules over few bytes.
pub fn small_mixed(rng: &mut Rng, rules: usize, budget: usize) -> Book {
    let letters = alphabet(rng);
    let count = rng.within(1, rules);
    let mut exprs = Vec::new();
    for _ in 0..count {
        let nodes = rng.within(1, budget);
        exprs.push(mixed(rng, &letters, nodes));
    }
    with_kinds(rng, exprs)
}

/// A book of rules of which some text more often than not leads back to the start.
pub fn looping_mixed(rng: &mut Rng) -> Book {
    let letters = alphabet(rng);
    let again = one(*rng.pick(&letters));
    let mut exprs = Vec::new();
    for _ in 0..*rng.pick(&[1, 1, 1, 2, 3]) {
        let nodes = rng.within(1, 8);
        let inner = mixed(rng, &letters, nodes);
        exprs.push(match rng.below(6) {
            0 => star(alt(again.clone(), inner)),
            1 => not(star(cat(inner, again.clone()))),
            2 => and(star(again.clone()), not(inner)),
            3 => cat(star(again.clone()), not(inner)),
            4 => and(star(inner), star(any(2))),
            _ => star(not(inner)),
        });
    }
    with_kinds(rng, exprs)
}

/// A book of up to as many rules as there may be, over all sorts of bytes.
pub fn wide_mixed(rng: &mut Rng) -> Book {
    let count = rng.within(5, RULES);
    let mut exprs = Vec::new();
    for _ in 0..count {
        let letters = alphabet(rng);
        let nodes = rng.within(1, NODES / count);
        exprs.push(mixed(rng, &letters, nodes));
    }
    with_kinds(rng, exprs)
}

/// A scanner's book with notes, names that are no keywords, or quoted text without a mark.
pub fn scanner_mixed(rng: &mut Rng) -> Book {
    let mut exprs: Vec<Expr> = scanner_book(rng).rules.into_iter().map(|rule| rule.expr).collect();
    let letters = Expr::Range(b'a', b'z');
    let name = cat(letters.clone(), star(letters));
    let words = alt(literal(b"if"), alt(literal(b"to"), literal(b"in")));
    let quoted = cat(one(b'"'), cat(without(one(b'"')), one(b'"')));
    let more = [note(), and(name, not(words)), quoted];
    exprs.retain(|expr| expr.nodes() < 60);
    let first = rng.below(3);
    for expr in more.into_iter().skip(first) {
        exprs.insert(rng.below(exprs.len() + 1), expr);
    }
    with_kinds(rng, exprs)
}

/// A book whose terms, vectors or term count grow.
pub fn heavy_mixed(rng: &mut Rng) -> Book {
    let row = |byte: u8, times: usize| power(&one(byte), times);
    let mut exprs = Vec::new();
    match rng.below(8) {
        0 => exprs.push(all_there(rng.within(2, 8) as u8)),
        1 => {
            let (m, n) = (rng.within(2, 34), rng.within(2, 34));
            let rounds = star(row_of_a(n));
            exprs.push(and(star(row_of_a(m)), if rng.chance(50) { not(rounds) } else { rounds }));
        }
        2 => {
            // Two rows have about as many states as there may be.
            exprs.push(not(row(b'x', rng.within(100, 129))));
            if rng.chance(60) {
                exprs.push(not(row(b'y', rng.within(100, 128))));
            }
        }
        3 | 4 => {
            let letters = alphabet(rng);
            let nodes = rng.within(60, 250);
            exprs.push(mixed(rng, &letters, nodes));
        }
        5 => {
            let letters = alphabet(rng);
            let nodes = rng.within(20, 120);
            let inner = mixed(rng, &letters, nodes);
            exprs.push(cat(row(b'x', rng.within(0, 4)), not(star(inner))));
        }
        6 => {
            // Parts about as long as they may be, in an And that may make them vanish.
            let long = star(row_of_a(rng.within(62, 66)));
            let short = if rng.chance(50) { one(b'x') } else { star(literal(b"bc")) };
            let both = if rng.chance(50) { and(long, short) } else { and(short, not(long)) };
            exprs.push(cat(row(b'x', rng.within(0, 2)), both));
        }
        _ => exprs.extend((0..rng.within(1, 3)).map(|_| absences(rng))),
    }
    if rng.chance(30) {
        exprs.push(not(Expr::Nothing));
    }
    with_kinds(rng, exprs)
}

/// Texts in which each of so many letters is somewhere: 2^letters states.
pub fn all_there(letters: u8) -> Expr {
    let has = |i| cat(star(any(1)), cat(one(b'a' + i), star(any(1))));
    (0..letters).map(has).reduce(and).expect("there are letters")
}

/// Texts of small letters without some short words.
fn absences(rng: &mut Rng) -> Expr {
    let mut whole = star(Expr::Range(b'a', b'e'));
    for _ in 0..rng.within(1, 5) {
        let length = rng.within(1, 4);
        let word: Vec<u8> = (0..length).map(|_| *rng.pick(b"abcde")).collect();
        whole = and(whole, without(literal(&word)));
    }
    whole
}

/// An And of which byte c leaves the opposites of the first c bytes, with parts of its own.
pub fn shrinking(first: u8, members: u8) -> Expr {
    let member = |i: u8| not(cat(Expr::Range(first + i, 255), one(first + i)));
    (1..=members).map(member).reduce(and).expect("there are members")
}

/// A book whose terms come near the cap on distinct ones, or just meet or pass it.
pub fn crowded_mixed(rng: &mut Rng) -> Book {
    let members = rng.within(19, 23) as u8;
    let mut exprs = vec![shrinking(0, 51), shrinking(60, members)];
    if rng.chance(30) {
        exprs.push(choice(vec![literal(b"to"), not(one(b'7'))]));
    }
    filled(exprs, POOL + rng.below(2))
}

/// Whether the expression has the text; not where its terms get too long.
fn has(expr: &Expr, text: &[u8]) -> bool {
    let after = |term| text.iter().try_fold(term, |term, &byte| derivative(&term, byte));
    normal(expr).and_then(after).is_ok_and(|term| term.empty)
}

/// Some text of both expressions: one of the first or of the second that the other has.
pub fn sample_of_both(rng: &mut Rng, a: &Expr, b: &Expr) -> Option<Vec<u8>> {
    let first = sample(rng, a).filter(|text| has(b, text));
    first.or_else(|| sample(rng, b).filter(|text| has(a, text)))
}

/// Some text that the expression has not: one of its own, changed until it has it no more.
pub fn sample_beside(rng: &mut Rng, a: &Expr) -> Option<Vec<u8>> {
    let mut text = sample(rng, a).unwrap_or_default();
    for _ in 0..6 {
        if !has(a, &text) {
            return Some(text);
        }
        let at = rng.below(text.len() + 1);
        match rng.below(4) {
            0 => text.insert(at, rng.byte()),
            1 => text.truncate(at),
            2 => text.extend(text.clone()),
            _ if at < text.len() => {
                text.remove(at);
            }
            _ => {}
        }
    }
    None
}
