//! Random typed texts: their wrong bytes and readings told in other ways, the lines out of
//! range by what the book reader says, and what they mean by what their books match.

use crate::book::{self, Book, Rule};
use crate::brute::{all_texts, texts};
use crate::build::build;
use crate::cut::cut_on;
use crate::limits::{KIND, NODES, TYPED_AREA, VERSION};
use crate::prng::Rng;
use crate::programs;
use crate::random::{joined_text, nearby_text};
use crate::refusal::{Fault, Refusal};
use crate::selftest::Checks;
use crate::typed::{self, lines, Line};
use crate::typed_cases::{cut_as_typed, random_text};
use crate::typed_grammar::wrong_by_grammar;
use crate::typed_meaning::{pieces, words};
use crate::typed_random::right_text;
use crate::typed_readings::readings;
use crate::typed_wrong::wrong;

pub fn run(checks: &mut Checks) {
    for seed in 0..10_000 {
        let mut rng = Rng::part(71, seed);
        let (_, text) = random_text(&mut rng);
        if text.len() > 4_000 && seed % 20 > 0 {
            continue;
        }
        first_wrong(checks, &text);
        if wrong(&text).is_none() {
            as_read(checks, &text);
            out_of_range(checks, &text);
        }
    }
    for seed in 0..3_000 {
        let mut rng = Rng::part(72, seed);
        let text = right_text(&mut rng);
        if let Ok(book) = typed::book(&text, TYPED_AREA) {
            meaning(checks, &mut rng, &text, &book);
        }
    }
}

/// The first wrong byte by the grammar, and of every part of the text.
fn first_wrong(checks: &mut Checks, text: &[u8]) {
    let found = wrong(text);
    let name = format!("random text {}", text.escape_ascii());
    checks.check(&format!("{name}, by grammar"), wrong_by_grammar(text) == found);
    let answer = typed::book(text, TYPED_AREA);
    let typed = found.map(|place| Refusal { fault: Fault::Typed, place });
    let first = answer.as_ref().err().filter(|refusal| refusal.fault == Fault::Typed);
    checks.check(&format!("{name}, refused as wrong"), first == typed.as_ref());
    let short = typed::book(text, TYPED_AREA - 1).map_err(|refusal| refusal.fault);
    checks.check("a short area comes first", short == Err(Fault::Room));
    if text.len() > 400 {
        return;
    }
    let right = |length: usize| match wrong(&text[..length]) {
        // A text may end where a line does.
        None => length == 0 || text[length - 1] == b'\n',
        Some(place) if found.is_some_and(|first| first < length) => Some(place) == found,
        Some(place) => place == length,
    };
    checks.check(&format!("{name}, cut off"), (0..text.len()).all(right));
}

/// The lines of a right text have one reading each, with the same nodes.
fn as_read(checks: &mut Checks, text: &[u8]) {
    let longest = text.split(|&byte| byte == b'\n').map(<[u8]>::len).max().unwrap_or(0);
    if longest > 40 {
        return;
    }
    let read = readings(text).expect("it ends");
    let typed = lines(text);
    checks.check("as many lines", read.len() == typed.len());
    for (read, line) in read.iter().zip(&typed) {
        checks.check("one reading", read.len() == 1);
        let (digits, expr) = &read[0];
        checks.check("nodes as read", line.choice.expr() == *expr);
        checks.check("so many nodes", line.choice.nodes() == expr.nodes());
        // The greatest kind as text: fewer digits, or as many and not later in order.
        let most = KIND.to_string().into_bytes();
        let small = (digits.len(), digits) <= (most.len(), &most);
        checks.check("a kind in range", line.kind.is_some() == small);
        let same = line.kind.is_none_or(|kind| kind.to_string().into_bytes() == *digits);
        checks.check("the kind's digits", same);
    }
}

/// The book of some lines, whatever their numbers, if it is not too large to be made.
fn unlimited(lines: &[Line]) -> Option<Book> {
    let small = lines.iter().all(|line| line.choice.nodes() <= 4 * NODES);
    // Any kind that is too large stands for all of them.
    let kind = |line: &Line| line.kind.unwrap_or(KIND + 1);
    let rule = |line: &Line| Rule { kind: kind(line), expr: line.choice.expr() };
    small.then(|| Book { version: VERSION, rules: lines.iter().map(rule).collect() })
}

/// A right text is refused at the first line with which the book reader refuses.
fn out_of_range(checks: &mut Checks, text: &[u8]) {
    let answer = typed::book(text, TYPED_AREA);
    let lines = lines(text);
    if lines.len() > 40 {
        return;
    }
    let mut first = lines.is_empty().then_some(0);
    for count in 1..=lines.len() {
        let Some(book) = unlimited(&lines[..count]) else {
            first = first.or(Some(lines[count - 1].start));
            break;
        };
        match book::read(&book.write()) {
            Ok(again) => checks.check("a book read again", first.is_none() && again == book),
            Err(refusal) => {
                checks.check("the reader finds Range", refusal.fault == Fault::Range);
                first = first.or(Some(lines[count - 1].start));
            }
        }
    }
    match first {
        Some(place) => {
            let range = Err(Refusal { fault: Fault::Range, place });
            checks.check(&format!("out of range: {}", text.escape_ascii()), answer == range);
        }
        None => {
            let whole = unlimited(&lines);
            let book = answer.ok();
            checks.check("no longer than the longest", {
                let length = book.as_ref().map_or(0, |book| book.write().len());
                (5..=1_701).contains(&length)
            });
            checks.check(&format!("the whole book: {}", text.escape_ascii()), book == whole);
        }
    }
}

/// Typed rules match what their book's nodes match, and cut as their book does.
fn meaning(checks: &mut Checks, rng: &mut Rng, text: &[u8], book: &Book) {
    let name = text.escape_ascii();
    let lines = lines(text);
    let few = few_bytes(rng, book);
    let short = all_texts(&few, 4);
    for (line, rule) in lines.iter().zip(&book.rules) {
        let matched = texts(&rule.expr, &few, 4);
        let same = |text: &Vec<u8>| {
            pieces(&line.choice, text).has(0, text.len()) == matched.contains(text)
        };
        let wrong = short.iter().find(|text| !same(text));
        checks.check(&format!("meaning of {name}: {wrong:?}"), wrong.is_none());
    }
    let Ok(table) = build(book) else {
        return;
    };
    for length in [20, 60] {
        let text_to_cut = match rng.chance(70) {
            true => joined_text(rng, book, length),
            false => nearby_text(rng, book, length / 2),
        };
        let bytes = book.write();
        let printed = programs::cut(Some(&bytes), Some(&text_to_cut));
        let as_typed = cut_as_typed(text, &bytes, &text_to_cut).into_bytes();
        checks.check(&format!("a cut by {name}"), printed == as_typed);
        let found = words(&lines, &text_to_cut);
        checks.check(&format!("words by {name}"), found == cut_on(&table, &text_to_cut, 7));
    }
}

/// Three bytes that a book speaks of, or neighbours of them.
fn few_bytes(rng: &mut Rng, book: &Book) -> Vec<u8> {
    let mut bytes = nearby_text(rng, book, 3);
    bytes.sort();
    bytes.dedup();
    bytes
}
