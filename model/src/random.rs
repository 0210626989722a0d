//! Random expressions, books and texts: small ones with few bytes, ones that lead back
//! to their start, wide ones, ones that look like a scanner's, heavy ones that come near
//! the limits of a build.

use crate::book::{alt, and, cat, choice, literal, not, one, power, star, Book, Expr, Rule};
use crate::limits::{KIND, NODES, RULES};
use crate::prng::Rng;
use crate::random_both::{sample_beside, sample_of_both};

/// A rising list of a few bytes, from which an expression or a text is made.
pub fn alphabet(rng: &mut Rng) -> Vec<u8> {
    let mut bytes = match rng.below(8) {
        0 | 1 => vec![b'a', b'b'],
        2 | 3 => vec![b'a', b'b', b'c'],
        4 => vec![b'A', b'B', b'a', b'b'],
        5 => vec![0, 255],
        6 => vec![127, 128, 129],
        _ => {
            let count = rng.within(1, 6);
            rng.bytes(count)
        }
    };
    bytes.sort();
    bytes.dedup();
    bytes
}

/// A random expression with about `budget` nodes at most.
pub fn expr(rng: &mut Rng, alphabet: &[u8], budget: usize) -> Expr {
    if budget <= 1 {
        return leaf(rng, alphabet);
    }
    if budget == 2 || rng.chance(18) {
        return star(expr(rng, alphabet, budget - 1));
    }
    let left = rng.within(1, budget - 2);
    let a = expr(rng, alphabet, left);
    let b = expr(rng, alphabet, budget - 1 - left);
    match rng.below(5) {
        0 | 1 => alt(a, b),
        // Equal and turned members, so that sorting and dropping have work.
        2 if rng.chance(15) && left * 2 + 2 <= budget => alt(cat(a.clone(), b), a),
        _ => cat(a, b),
    }
}

pub fn leaf(rng: &mut Rng, alphabet: &[u8]) -> Expr {
    match rng.below(40) {
        0 => Expr::Nothing,
        1 | 2 => Expr::Empty,
        3 => Expr::Range(0, 255),
        4 | 5 => Expr::Either(b'a' + rng.below(26) as u8),
        6 | 7 => Expr::Either(b'a' + rng.below(3) as u8),
        8..=12 => {
            let (x, y) = (*rng.pick(alphabet), *rng.pick(alphabet));
            Expr::Range(x.min(y), x.max(y))
        }
        _ => one(*rng.pick(alphabet)),
    }
}

/// The expression kept to three neighbouring letters, where it has gone beyond them.
pub fn plain(expr: &Expr, letters: [u8; 3]) -> Expr {
    let [low, _, high] = letters;
    match expr {
        Expr::Cat(a, b) => cat(plain(a, letters), plain(b, letters)),
        Expr::Alt(a, b) => alt(plain(a, letters), plain(b, letters)),
        Expr::Star(a) => star(plain(a, letters)),
        Expr::And(a, b) => and(plain(a, letters), plain(b, letters)),
        Expr::Not(a) => not(plain(a, letters)),
        Expr::Range(lo, hi) if *lo < low || high < *hi => Expr::Range(low, high),
        Expr::Either(_) => one(high),
        leaf => leaf.clone(),
    }
}

pub fn kind(rng: &mut Rng) -> usize {
    match rng.below(6) {
        0 => 0,
        1 => *rng.pick(&[127, 128, 255, 256, KIND - 1, KIND]),
        2 => rng.within(0, KIND),
        _ => rng.within(0, 9),
    }
}

pub fn with_kinds(rng: &mut Rng, exprs: Vec<Expr>) -> Book {
    Book::with(exprs.into_iter().map(|expr| Rule { kind: kind(rng), expr }).collect())
}

/// A book of few small rules over few bytes.
pub fn small_book(rng: &mut Rng, rules: usize, budget: usize) -> Book {
    let letters = alphabet(rng);
    let count = rng.within(1, rules);
    let mut exprs = Vec::new();
    for _ in 0..count {
        let nodes = rng.within(1, budget);
        exprs.push(expr(rng, &letters, nodes));
    }
    with_kinds(rng, exprs)
}

/// A book of rules that match the empty text or that a letter leaves as they are, so
/// that more often than not some text leads back to the start.
pub fn looping_book(rng: &mut Rng) -> Book {
    let letters = alphabet(rng);
    let again = one(*rng.pick(&letters));
    let mut exprs = Vec::new();
    for _ in 0..*rng.pick(&[1, 1, 1, 1, 2, 3]) {
        let nodes = rng.within(1, 9);
        let inner = expr(rng, &letters, nodes);
        exprs.push(match rng.below(7) {
            0 | 1 => star(alt(again.clone(), inner)),
            2 | 3 => star(cat(inner, again.clone())),
            4 | 5 => cat(star(again.clone()), inner),
            _ => alt(inner, Expr::Empty),
        });
    }
    with_kinds(rng, exprs)
}

/// A book of up to as many rules as there may be, over all sorts of bytes.
pub fn wide_book(rng: &mut Rng) -> Book {
    let count = rng.within(5, RULES);
    let mut exprs = Vec::new();
    for _ in 0..count {
        let letters = alphabet(rng);
        let nodes = rng.within(1, NODES / count);
        exprs.push(expr(rng, &letters, nodes));
    }
    with_kinds(rng, exprs)
}

/// A book such as a scanner has: keywords, names, numbers, marks and spaces.
pub fn scanner_book(rng: &mut Rng) -> Book {
    let small = Expr::Range(b'a', b'z');
    let digit = Expr::Range(b'0', b'9');
    let some = |e: &Expr| cat(e.clone(), star(e.clone()));
    let mut exprs = Vec::new();
    for word in ["if", "else", "to", "tom", "int", "in", "for", "while", "i", "fi"] {
        if rng.chance(40) {
            exprs.push(literal(word.as_bytes()));
        } else if rng.chance(30) {
            let letters = word.bytes().map(Expr::Either);
            exprs.push(letters.reduce(cat).expect("no keyword is empty"));
        }
    }
    if rng.chance(80) {
        exprs.push(some(&small));
    }
    if rng.chance(50) {
        exprs.push(cat(small.clone(), star(alt(small.clone(), digit.clone()))));
    }
    exprs.push(some(&digit));
    if rng.chance(60) {
        exprs.push(cat(cat(some(&digit), one(b'.')), some(&digit)));
    }
    if rng.chance(40) {
        let inner = star(alt(Expr::Range(32, 33), Expr::Range(35, 126)));
        exprs.push(cat(cat(one(b'"'), inner), one(b'"')));
    }
    if rng.chance(50) {
        exprs.push(choice(vec![literal(b"=="), literal(b"="), literal(b"<"), literal(b"<=")]));
    }
    exprs.push(if rng.chance(50) { some(&one(32)) } else { alt(one(32), one(10)) });
    if rng.chance(50) {
        rng.shuffle(&mut exprs);
    }
    with_kinds(rng, exprs)
}

/// A book whose terms, vectors or term count grow.
pub fn heavy_book(rng: &mut Rng) -> Book {
    let two = if rng.chance(50) { alt(one(b'a'), one(b'b')) } else { Expr::Range(b'a', b'b') };
    let mut exprs = Vec::new();
    match rng.below(6) {
        0 => exprs = memories(rng, &two),
        1 => {
            let most = *rng.pick(&[24, 70]);
            for _ in 0..rng.within(1, 3) {
                exprs.push(star(power(&one(b'a'), rng.within(2, most))));
            }
        }
        2 => {
            // Two rows have about as many states as there may be.
            exprs.push(power(&one(b'x'), rng.within(100, 135)));
            if rng.chance(60) {
                exprs.push(power(&one(b'y'), rng.within(100, 130)));
            }
        }
        3 => {
            let letters = alphabet(rng);
            let nodes = rng.within(60, 250);
            exprs.push(expr(rng, &letters, nodes));
        }
        4 => {
            let letters = alphabet(rng);
            let nodes = rng.within(20, 120);
            let inner = expr(rng, &letters, nodes);
            let front = power(&one(b'x'), rng.within(0, 4));
            exprs.push(cat(front, star(inner)));
        }
        _ => exprs.extend((0..rng.within(1, 6)).map(|_| word_list(rng))),
    }
    if rng.chance(30) {
        exprs.push(star(Expr::Range(0, 255)));
    }
    with_kinds(rng, exprs)
}

/// Rules that remember the last few letters, up to one more than there are states for.
fn memories(rng: &mut Rng, two: &Expr) -> Vec<Expr> {
    let mut exprs = Vec::new();
    for i in 0..rng.within(1, 12) {
        let back = power(two, rng.within(1, 7));
        let tail = cat(cat(one(b'a'), back), one(b'c' + i as u8));
        exprs.push(cat(star(two.clone()), tail));
    }
    exprs
}

/// A choice of a few short words.
fn word_list(rng: &mut Rng) -> Expr {
    let mut parts = Vec::new();
    for _ in 0..rng.within(1, 12) {
        let length = rng.within(1, 6);
        let text: Vec<u8> = (0..length).map(|_| *rng.pick(b"abcde")).collect();
        parts.push(literal(&text));
    }
    choice(parts)
}

/// Some text of the expression, if it has one that is easily found.
pub fn sample(rng: &mut Rng, expr: &Expr) -> Option<Vec<u8>> {
    match expr {
        Expr::Nothing => None,
        Expr::Empty => Some(Vec::new()),
        Expr::Range(lo, hi) => Some(vec![rng.within((*lo).into(), (*hi).into()) as u8]),
        Expr::Either(x) => Some(vec![if rng.chance(50) { *x } else { *x - 32 }]),
        Expr::Cat(a, b) => {
            let (first, second) = (sample(rng, a)?, sample(rng, b)?);
            Some([first, second].concat())
        }
        Expr::Alt(a, b) => {
            let (first, second) = if rng.chance(50) { (a, b) } else { (b, a) };
            sample(rng, first).or_else(|| sample(rng, second))
        }
        Expr::Star(a) => {
            let mut text = Vec::new();
            while text.len() < 200 && rng.chance(55) {
                text.extend(sample(rng, a).unwrap_or_default());
            }
            Some(text)
        }
        Expr::And(a, b) => sample_of_both(rng, a, b),
        Expr::Not(a) => sample_beside(rng, a),
    }
}

/// Texts of the book's rules joined, up to about `most` bytes.
pub fn joined_text(rng: &mut Rng, book: &Book, most: usize) -> Vec<u8> {
    let mut text = Vec::new();
    for _ in 0..most {
        let rule = rng.pick(&book.rules);
        text.extend(sample(rng, &rule.expr).unwrap_or_default());
        if text.len() >= most {
            break;
        }
    }
    text.truncate(most);
    text
}

/// Random bytes that are at or next to the bounds of the book's ranges.
pub fn nearby_text(rng: &mut Rng, book: &Book, length: usize) -> Vec<u8> {
    let ranges = book.ranges();
    let near = |rng: &mut Rng| {
        if ranges.is_empty() {
            return rng.byte();
        }
        let (lo, hi) = *rng.pick(&ranges);
        match rng.below(8) {
            0 => lo.wrapping_sub(1),
            1 => hi.wrapping_add(1),
            2..=4 => lo,
            _ => hi,
        }
    };
    (0..length).map(|_| near(rng)).collect()
}
