//! The model's test of itself, sixth part: random terms with And and Not, whose normal forms,
//! derivatives, tables, cuts and comparisons are held against the sets of texts.

use crate::book::{self, and, not, Book, Expr};
use crate::both::later_sample;
use crate::brute::{self, all_texts};
use crate::build::{alike, build, build_by};
use crate::comparisons;
use crate::crosschecks::{cuts, few_bytes, labels, terms, walks};
use crate::drawn::later_book;
use crate::limits::{CAPS, LAST_VERSION, NODES, VERSION};
use crate::notes::{notes_book, NOTES_CUT};
use crate::prng::Rng;
use crate::programs;
use crate::random::alphabet;
use crate::random_both::{heavy_mixed, looping_mixed, mixed, small_mixed, wide_mixed};
use crate::refusal::Fault;
use crate::selftest::Checks;
use crate::sheet;
use crate::term::{derivative, normal, Shape, Term, TooLong};
use crate::worked::{sample_table, OUTPUT, TEXT};

pub fn run(checks: &mut Checks) {
    notes(checks);
    for seed in 0..4_000 {
        every_text(checks, &mut Rng::part(7, seed));
    }
    for seed in 0..3_000 {
        let mut rng = Rng::part(8, seed);
        let loops = seed % 3 == 0;
        let book = if loops { looping_mixed(&mut rng) } else { small_mixed(&mut rng, 3, 9) };
        terms(checks, &mut rng, &book);
        let Ok(table) = build(&book) else { continue };
        labels(checks, &mut rng, &book, &table);
        cuts(checks, &mut rng, &book, &table);
        comparisons::told(checks, &mut rng, &book, &table, seed % 4 == 0);
    }
    for seed in 0..300 {
        let mut rng = Rng::part(9, seed);
        let book = if seed % 2 == 0 { heavy_mixed(&mut rng) } else { wide_mixed(&mut rng) };
        walks(checks, &mut rng, &book, seed % 10 == 0);
    }
    for seed in 0..2_000 {
        versions(checks, &mut Rng::part(10, seed));
    }
}

/// The words of the worked texts, and the sample book as version 2.
fn notes(checks: &mut Checks) {
    let book = notes_book();
    for (name, text, output) in NOTES_CUT {
        let cut = programs::cut(Some(&book.write()), Some(text));
        checks.check(name, cut == output.as_bytes());
        let (words, end) = brute::words(text, |rest| brute::first_word(&book, rest));
        checks.check(name, programs::listed(&book, &words, end) == *output);
    }
    let later = later_sample().write();
    checks
        .check("sample as version 2", programs::cut(Some(&later), Some(TEXT)) == OUTPUT.as_bytes());
    let own = sheet::write(&sample_table());
    checks.check("its sheet", programs::sheet(Some(&later)) == Ok(own));
}

/// The term after a text.
fn after(term: Term, text: &[u8]) -> Result<Term, TooLong> {
    text.iter().try_fold(term, |term, &byte| derivative(&term, byte))
}

/// Every text that is short is matched by a random term just where the sets of texts and of
/// ends say so, and by its opposite where not; every derivative on the way is normal.
fn every_text(checks: &mut Checks, rng: &mut Rng) {
    let (letters, nodes) = (alphabet(rng), rng.within(2, 11));
    let expr = mixed(rng, &letters, nodes);
    let (Ok(term), Ok(other)) = (normal(&expr), normal(&not(expr.clone()))) else { return };
    let bytes = few_bytes(rng, &Book::of(vec![expr.clone()]), 3);
    let has = brute::texts(&expr, &bytes, 4);
    let mut right = true;
    for text in all_texts(&bytes, 4) {
        let (Ok(left), Ok(beside)) = (after(term.clone(), &text), after(other.clone(), &text))
        else {
            continue;
        };
        let matched = has.contains(&text);
        right &= left.empty == matched && beside.empty != matched;
        right &= brute::ends(&expr, &text, 0).contains(&text.len()) == matched;
        right &= formed(&left) && formed(&beside);
    }
    checks.check(&format!("every short text of {expr:?}"), right);
    laws(checks, rng, &expr, &term);
}

/// And's members, looked at one by one: at least two, rising, none Nothing and none an And;
/// no Not of a Not; and so for all parts.
fn formed(term: &Term) -> bool {
    match &term.shape {
        Shape::And(first, rest) => {
            let (mut members, mut rest) = (vec![first], rest);
            while let Shape::And(next, more) = &rest.shape {
                members.push(next);
                rest = more;
            }
            members.push(rest);
            let rising = members.windows(2).all(|two| two[0].shape < two[1].shape);
            let barred = |m: &&&Term| matches!(m.shape, Shape::Nothing | Shape::And(..));
            rising && !members.iter().any(|m| barred(&m)) && members.into_iter().all(formed)
        }
        Shape::Not(a) => !matches!(a.shape, Shape::Not(_)) && formed(a),
        Shape::Cat(a, b) | Shape::Alt(a, b) => formed(a) && formed(b),
        Shape::Star(a) => formed(a),
        _ => true,
    }
}

/// Terms that the normal form makes equal.
fn laws(checks: &mut Checks, rng: &mut Rng, expr: &Expr, term: &Term) {
    let (letters, nodes) = (alphabet(rng), rng.within(1, 6));
    let (x, y) = (mixed(rng, &letters, nodes), mixed(rng, &letters, nodes));
    let e = || expr.clone();
    let same = |a: Expr, b: Expr| normal(&a) == normal(&b);
    let join = |a: &Expr, b: &Expr| and(a.clone(), b.clone());
    let right = normal(&not(not(e()))).as_ref() == Ok(term)
        && normal(&join(expr, expr)).as_ref() == Ok(term)
        && same(join(expr, &x), join(&x, expr))
        && same(join(&join(expr, &x), &y), join(expr, &join(&x, &y)))
        && same(join(&join(expr, &x), expr), join(&x, expr))
        && same(join(expr, &Expr::Nothing), Expr::Nothing)
        && same(join(&join(&x, expr), &Expr::Nothing), Expr::Nothing);
    checks.check(&format!("laws of {expr:?}, {x:?}, {y:?}"), right);
}

/// A book of version 2 is read again; in version 1 it is refused at its first And or Not,
/// or read to the same rules and built to the same table.
fn versions(checks: &mut Checks, rng: &mut Rng) {
    let (_, mut book) = later_book(rng);
    if book.nodes() > NODES {
        return;
    }
    let needs = book.version;
    book.version = LAST_VERSION;
    let mut bytes = book.write();
    checks.check("a book of version 2 read again", book::read(&bytes) == Ok(book.clone()));
    checks.check("version 2 by an older reader", {
        book::read_to(VERSION, &bytes).is_err_and(|r| r.fault == Fault::Range && r.place == 0)
    });
    for version in [0, 3, 4, 127] {
        bytes[0] = version;
        let read = book::read(&bytes);
        checks
            .check("no such version", read.is_err_and(|r| r.fault == Fault::Range && r.place == 0));
    }
    bytes[0] = VERSION as u8;
    let right = match book::read(&bytes) {
        Ok(read) => {
            let built = |book: &Book| build_by(book, &alike(book), CAPS).map(|b| (b.table, b.pool));
            needs == VERSION && read.rules == book.rules && built(&read) == built(&book)
        }
        Err(refusal) => {
            let code = bytes.get(refusal.place);
            needs > VERSION && refusal.fault == Fault::Range && matches!(code, Some(7 | 8))
        }
    };
    checks.check("the same in version 1", right);
}
