//! The model's test of itself, fourth part: random books whose tables and cuts are held
//! against the sets of texts, and laws that hold for all books.

use crate::book::{alt, cat, one, star, Book, Expr};
use crate::brute::{self, all_texts, Meaning};
use crate::build::{alike, build, build_by, compare, compare_by, Answer, Built};
use crate::comparisons;
use crate::cut::{cut, cut_on, first_word, first_word_in, hopeful, End};
use crate::limits::{Caps, BYTES, CAPS, POOL, SHOWN, TERM};
use crate::prng::Rng;
use crate::random::{heavy_book, joined_text, nearby_text, small_book, wide_book};
use crate::refusal::{Fault, Refusal};
use crate::selftest::Checks;
use crate::sheet::Table;
use crate::sheets;
use crate::term::{derivative, is_normal, normal, Shape, Term};

pub fn run(checks: &mut Checks) {
    order(checks);
    for seed in 0..3_000 {
        let mut rng = Rng::part(3, seed);
        let book = small_book(&mut rng, 3, 9);
        terms(checks, &mut rng, &book);
        let Ok(table) = build(&book) else {
            continue;
        };
        labels(checks, &mut rng, &book, &table);
        cuts(checks, &mut rng, &book, &table);
        comparisons::answers(checks, &mut rng, &book, &table);
    }
    for seed in 0..400 {
        let mut rng = Rng::part(4, seed);
        let book = if seed % 2 == 0 { heavy_book(&mut rng) } else { wide_book(&mut rng) };
        walks(checks, &mut rng, &book, seed % 10 == 0);
    }
}

/// A few bytes for a book's texts, no two of them alike.
pub fn few_bytes(rng: &mut Rng, book: &Book, count: usize) -> Vec<u8> {
    let mut bytes = alike(book).to_vec();
    bytes.sort();
    bytes.dedup();
    rng.shuffle(&mut bytes);
    bytes.truncate(count);
    bytes.sort();
    bytes
}

/// The order of terms, by a list that has to be rising.
fn order(checks: &mut Checks) {
    let [a, b] = [one(b'a'), one(b'b')];
    let rising = [
        Expr::Nothing,
        Expr::Empty,
        Expr::Range(0, 0),
        Expr::Range(0, 255),
        Expr::Range(1, 1),
        cat(a.clone(), a.clone()),
        cat(a.clone(), b.clone()),
        cat(a.clone(), cat(a.clone(), a.clone())),
        cat(a.clone(), cat(b.clone(), b.clone())),
        cat(a.clone(), alt(a.clone(), b.clone())),
        cat(a.clone(), star(a.clone())),
        cat(b.clone(), a.clone()),
        cat(alt(a.clone(), b.clone()), a.clone()),
        cat(star(a.clone()), a.clone()),
        alt(Expr::Empty, b.clone()),
        alt(a.clone(), b.clone()),
        alt(a.clone(), cat(a.clone(), a.clone())),
        alt(b.clone(), star(a.clone())),
        star(a.clone()),
        star(cat(a.clone(), a.clone())),
        star(alt(a, b)),
    ];
    let terms: Vec<Term> = rising.iter().map(|e| normal(e).expect("they are short")).collect();
    checks.check("order of terms", terms.windows(2).all(|pair| pair[0] < pair[1]));
    checks.check("rising list is normal", terms.iter().all(is_normal));
}

/// Tree nodes, counted.
fn size(term: &Term) -> usize {
    match &term.shape {
        Shape::Cat(a, b) | Shape::Alt(a, b) | Shape::And(a, b) => 1 + size(a) + size(b),
        Shape::Star(a) | Shape::Not(a) => 1 + size(a),
        _ => 1,
    }
}

/// Normal forms and derivatives are normal, of the right size, and match the empty
/// text when the sets of texts say so.
pub fn terms(checks: &mut Checks, rng: &mut Rng, book: &Book) {
    for rule in &book.rules {
        let Ok(term) = normal(&rule.expr) else {
            continue;
        };
        let empty = !brute::texts(&rule.expr, &[], 0).is_empty();
        let right = is_normal(&term) && size(&term) == term.size && term.empty == empty;
        checks.check("a normal form", right);
        let mut left = term;
        for &byte in &nearby_text(rng, book, 5) {
            let Ok(term) = derivative(&left, byte) else {
                break;
            };
            checks.check("a derivative", is_normal(&term) && size(&term) == term.size);
            left = term;
        }
    }
}

/// The labels of all short texts are those of the sets.
pub fn labels(checks: &mut Checks, rng: &mut Rng, book: &Book, table: &Table) {
    let bytes = few_bytes(rng, book, 3);
    let meaning = Meaning::of(book, &bytes, 5);
    let texts = all_texts(&bytes, 5);
    let wrong = texts.iter().find(|text| meaning.label(text) != table.label(text));
    checks.check(&format!("labels of {book:?}: {wrong:?}"), wrong.is_none());
    let hope = hopeful(table);
    let mut words_right = true;
    for text in texts.iter().filter(|text| text.len() == 5) {
        let word = meaning.first_word(text);
        words_right &= word == first_word(table, text);
        words_right &= word == first_word_in(table, text, &hope);
        words_right &= word == brute::first_word(book, text);
    }
    checks.check(&format!("first words of {book:?}"), words_right);
}

/// Cuts are those of the sets, whatever the room, and tile the text.
pub fn cuts(checks: &mut Checks, rng: &mut Rng, book: &Book, table: &Table) {
    let length = rng.within(0, 24);
    let text = match rng.chance(50) {
        true => joined_text(rng, book, length),
        false => nearby_text(rng, book, length),
    };
    let (words, end) = brute::words(&text, |rest| brute::first_word(book, rest));
    let count = words.len();
    let reached = match end {
        End::Stuck { place, .. } => place,
        _ => text.len(),
    };
    let mut place = 0;
    let mut tiled = true;
    for word in &words {
        tiled &= word.start == place && word.length > 0;
        place += word.length;
    }
    checks.check("words tile the text", tiled && place == reached);
    for room in 0..count + 2 {
        let expect = match words.get(room) {
            Some(next) => (words[..room].to_vec(), End::Full { count: room, place: next.start }),
            None => (words.clone(), end),
        };
        checks.check(&format!("cut of {text:?}, room {room}"), cut(table, &text, room) == expect);
        if room > 0 {
            checks.check("cutting on", cut_on(table, &text, room) == (words.clone(), end));
        }
    }
}

/// Laws of the walk for books near the limits; `slow` derives by every byte.
pub fn walks(checks: &mut Checks, rng: &mut Rng, book: &Book, slow: bool) {
    let built = build_by(book, &alike(book), CAPS);
    if slow {
        every_byte(checks, rng, book, &built);
        let caps = Caps { pairs: rng.within(1, 20), pool: rng.within(50, 900), ..CAPS };
        comparisons::least_texts(checks, book, &sheets::clock(3, 0), caps);
    }
    match built {
        Ok(built) => big_table(checks, rng, book, &built),
        Err(refused) => {
            let compared = compare(book, &sheets::lone(0));
            let right = match refused.fault {
                // One state: the pairs are the vectors, and the walk is the same.
                Fault::Long | Fault::Pool => compared == Err(refused),
                fault => fault == Fault::States,
            };
            checks.check("the walk against one state refuses alike", right);
        }
    }
}

/// Deriving by every byte gives what deriving by the lowest of those alike gives.
fn every_byte(checks: &mut Checks, rng: &mut Rng, book: &Book, built: &Result<Built, Refusal>) {
    let each: [u8; BYTES] = std::array::from_fn(|byte| byte as u8);
    let plain = build_by(book, &each, CAPS);
    let kept = |built: &Result<Built, Refusal>| built.clone().map(|b| (b.table, b.pool));
    checks.check("alike bytes lead alike", kept(built) == kept(&plain));
    let other = sheets::random(rng, 3);
    let answered =
        |like| compare_by(book, &other, like, CAPS).map(|found| (found.answer, found.pairs));
    checks.check("alike bytes compare alike", answered(&alike(book)) == answered(&each));
}

/// A book near the limits that builds: its size, a comparison and a cut.
fn big_table(checks: &mut Checks, rng: &mut Rng, book: &Book, built: &Built) {
    let table = &built.table;
    checks.check("the longest term is short", built.longest <= TERM && built.pool <= POOL);
    checks.check("own table is the same", compare(book, table) == Ok(Answer::Same));
    let other = sheets::changed(rng, table);
    match compare(book, &other) {
        Ok(Answer::Same) => {}
        Ok(Answer::Differs { text, book, sheet }) => {
            let right = table.label(&text) == book && other.label(&text) == sheet;
            let shown = (1..=SHOWN).contains(&text.len());
            checks.check("a text that differs", right && book != sheet && shown);
        }
        Err(refusal) => checks.check("only pairs run out", refusal.fault == Fault::Pairs),
    }
    let text = joined_text(rng, book, 100);
    let (words, end) = cut(table, &text, usize::MAX);
    let place = words.last().map_or(0, |word| word.start + word.length);
    let right = match end {
        End::Done { count } => count == words.len() && place == text.len(),
        End::Stuck { count, place: stuck } => count == words.len() && place == stuck,
        End::Full { .. } => false,
    };
    checks.check("a cut of a big book", right);
}
