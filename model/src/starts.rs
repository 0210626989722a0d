//! Comparisons that turn on the start: no cut shows its label unless a text leads back
//! to it, it counts as a pair only from that step on, and it keeps number 0.

use crate::book::{alt, cat, choice, literal, one, power, star, Book, Expr};
use crate::build::build;
use crate::edges::{
    bulk, crossing_book, differs, growing, meet, pool_book, row_of_a, rule, Meeting,
};
use crate::sheet::Table;
use crate::sheets::{apart, clock, counter, funnel, lone, merged, relabelled, spread};
use crate::worked::{sample_book, sample_table};

/// All of them.
pub fn starts() -> Vec<Meeting> {
    [labels(), two_labels(), pairs(), long_texts(), refusals()].into_iter().flatten().collect()
}

/// The table of a book that builds.
pub fn own(book: &Book) -> Table {
    build(book).expect("the book builds")
}

/// Any bytes, so many in a row.
pub fn any(times: usize) -> Expr {
    power(&Expr::Range(0, 255), times)
}

/// Starts that the sheet labels otherwise than the book.
fn labels() -> Vec<Meeting> {
    let start = |table: &Table, label| relabelled(table, b"", label);
    let w = sample_table();
    let merged = start(&merged(&w, 5, 4, true), 1);
    let a = || one(b'a');
    let (once, maybe, stars) = (rule(a()), rule(alt(a(), Expr::Empty)), rule(star(a())));
    let (some, twos) = (rule(cat(a(), star(a()))), rule(star(literal(b"ab"))));
    let of = |book: &Book, label| start(&own(book), label);
    let aside = |label| apart(&own(&stars), label);
    vec![
        meet("W, start labelled 1", sample_book(), start(&w, 1), "same\n"),
        meet("W, start labelled 32", sample_book(), start(&w, 32), "same\n"),
        meet("W, start labelled 1, 5 merged", sample_book(), merged, differs(b"to", 1, 2)),
        meet("a, start labelled 1", once.clone(), of(&once, 1), "same\n"),
        meet("a | Empty, start unlabelled", maybe.clone(), of(&maybe, 0), "same\n"),
        meet("a*, start unlabelled", stars.clone(), of(&stars, 0), differs(b"a", 1, 0)),
        meet("a*, start apart, unlabelled", stars.clone(), aside(0), "same\n"),
        meet("a*, start apart, labelled 2", stars.clone(), aside(2), "same\n"),
        meet("a a* by a*", some.clone(), own(&stars), "same\n"),
        meet("a* by a a*", stars.clone(), own(&some), "same\n"),
        meet("(ab)*, start unlabelled", twos.clone(), of(&twos, 0), differs(b"ab", 1, 0)),
        meet("(ab)*, start labelled 2", twos.clone(), of(&twos, 2), differs(b"ab", 1, 2)),
        meet("any text by none", rule(star(any(1))), lone(0), differs(&[0], 1, 0)),
    ]
}

/// Starts without their label, first met again after `ab`, and one more wrong label.
fn two_labels() -> Vec<Meeting> {
    let book = rule(star(choice(vec![literal(b"aac"), literal(b"ab"), literal(b"cdef")])));
    let start = relabelled(&own(&book), b"", 0);
    let wrong = |text: &[u8]| relabelled(&start, text, 1);
    vec![
        meet("wrong at ab and a", book.clone(), wrong(b"a"), differs(b"a", 0, 1)),
        meet("wrong at ab and aa", book.clone(), wrong(b"aa"), differs(b"aa", 0, 1)),
        meet("wrong at ab and cd", book.clone(), wrong(b"cd"), differs(b"ab", 1, 0)),
        meet("wrong at ab and cde", book.clone(), wrong(b"cde"), differs(b"ab", 1, 0)),
    ]
}

/// As many pairs as may count, or more, where no text leads back to the start, and
/// where one does: at the first step, on the way, or as the last pair.
fn pairs() -> Vec<Meeting> {
    let a = row_of_a;
    let (nine, fifteen) = (|| rule(star(a(9))), || rule(star(a(15))));
    let count = |round, more| spread(&counter(b'a', round, 1), more);
    let aside = |more| apart(&count(17, more), 1);
    let x = |times| rule(cat(one(b'x'), star(a(times))));
    let loops = |times| rule(star(alt(one(b'z'), a(times))));
    let front = |times| rule(cat(star(one(b'z')), cat(one(b'x'), star(a(times)))));
    let anys = |times| rule(star(any(times)));
    let x_and = |times| [&[b'x'][..], &vec![b'a'; times]].concat();
    let (sixteen, seventeen) = (x_and(15), x_and(16));
    let crossing = crossing_book(8, 6, 1, 1);
    vec![
        meet("256 pairs, start apart", fifteen(), aside(0), differs(&[b'a'; 15], 1, 0)),
        meet("257 pairs, start apart", fifteen(), aside(1), differs(&[b'a'; 15], 1, 0)),
        meet("256 pairs, x (a^15)* by x (a^17)*", x(15), own(&x(17)), differs(&sixteen, 1, 0)),
        meet("273 pairs, x (a^16)* by x (a^17)*", x(16), own(&x(17)), differs(&seventeen, 1, 0)),
        meet("256 pairs, back by z", loops(7), own(&loops(31)), differs(&[b'a'; 7], 1, 0)),
        meet("257 pairs, back by z", front(15), own(&front(17)), differs(&sixteen, 1, 0)),
        meet("264 pairs, back by z", loops(7), own(&loops(32)), differs(&[b'a'; 7], 1, 0)),
        meet("256 pairs, back from pair 1", anys(2), clock(1, 127), differs(&[0; 2], 1, 0)),
        meet("384 pairs, back from pair 129", anys(3), clock(1, 127), differs(&[0; 3], 1, 0)),
        meet("256 pairs, back as the last", nine(), count(28, 3), differs(&[b'a'; 9], 1, 0)),
        meet("257 pairs, back as the last", nine(), count(28, 4), differs(&[b'a'; 9], 1, 0)),
        meet("258 pairs, back as the last", nine(), count(28, 5), differs(&[b'a'; 9], 1, 0)),
        meet("1025 terms and 257 pairs at once", crossing, clock(8, 67), "refused 12 358\n"),
    ]
}

/// A difference at the last of 256 pairs, each one byte on, and one at the start itself.
fn long_texts() -> Vec<Meeting> {
    let round = |text: &[u8]| relabelled(&clock(128, 0), text, 1);
    vec![
        meet("256 bytes", rule(any(128)), round(b""), differs(&[0; 256], 0, 1)),
        meet("128 bytes and back", rule(star(any(64))), round(&[0; 64]), differs(&[0; 128], 1, 0)),
    ]
}

/// Refusals, or many terms, at the start and past the step where it is met again; and
/// at pair 256.
fn refusals() -> Vec<Meeting> {
    let a = row_of_a;
    let back = |byte: u8, rest: Expr| cat(star(one(byte)), rest);
    let again = rule(star(alt(one(b'b'), cat(one(b'p'), a(63)))));
    let late = rule(back(b'b', cat(one(b'x'), star(a(65)))));
    let far = |byte: u8| rule(cat(any(22), star(power(&one(byte), 65))));
    let grown = rule(back(0, growing(60)));
    let (many, alone) = (pool_book(27, &[]), pool_book(26, &[15, 1, 1, 1]));
    // On a and on b the last rule stays as it is; so b leads back to the start.
    let two = || star(Expr::Range(b'a', b'b'));
    let filled = |rest: Expr| Book::of([bulk(26), vec![cat(two(), rest)]].concat());
    let fresh = |last: u8| literal(&(128..=last).collect::<Vec<u8>>());
    let just = filled(alt(Expr::Empty, fresh(142)));
    vec![
        meet("Long at the start, met again", again, lone(0), "refused 6 0\n"),
        meet("Long at pair 2, past the start", late, lone(0), "refused 6 2\n"),
        meet("Long at pair 256", far(0), funnel(22, 3), "refused 6 256\n"),
        meet("257 pairs, then Long at pair 256", far(b'a'), funnel(22, 3), "refused 6 256\n"),
        meet("2014 terms, the start met again", grown, lone(0), differs(&[1, 1], 1, 0)),
        meet("1031 terms, the start met again", many, lone(0), differs(b"aaaaac", 1, 0)),
        meet("1025 terms, 5 in vector 0 only", alone, lone(0), differs(&[143], 28, 0)),
        meet("1024 terms, back by b", just, lone(0), differs(b"a", 27, 0)),
        meet("1025 terms, back by b", filled(fresh(143)), lone(0), differs(b"aaaaac", 1, 0)),
    ]
}
