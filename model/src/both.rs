//! Books with And and Not: their members gathered, sorted and kept once, parts that vanish,
//! the order of kinds, and the limits of a walk, each with a name and what it has to give.

use crate::book::{alt, and, cat, choice, literal, not, one, power, star, Book, Expr};
use crate::edges::{differs, edge, filled, meet, row_of_a, rule, Edge, Meeting};
use crate::limits::{LAST_VERSION, POOL};
use crate::notes::{notes_book, without};
use crate::raised_builds::nodes_255;
use crate::random_both::{all_there, shrinking};
use crate::sheets::lone;
use crate::starts::{any, own};
use crate::worked::{sample_book, sample_table};

/// Those that are small enough to be stored, and the others.
pub fn both_edges() -> Vec<Edge> {
    [normal_forms(), vanishing(), pool(), order()].into_iter().flatten().collect()
}

pub fn other_edges() -> Vec<Edge> {
    [more_forms(), more_order(), long(), states()].into_iter().flatten().collect()
}

fn a() -> Expr {
    one(b'a')
}

fn b() -> Expr {
    one(b'b')
}

/// Texts with the byte somewhere.
fn has(byte: u8) -> Expr {
    cat(star(any(1)), cat(one(byte), star(any(1))))
}

/// The sample book as a book of version 2.
pub fn later_sample() -> Book {
    Book { version: LAST_VERSION, ..sample_book() }
}

/// Texts that have x, y and z somewhere, the three being joined in different ways.
fn three_letters() -> [Expr; 3] {
    let (x, y, z) = (|| has(b'x'), || has(b'y'), || has(b'z'));
    let left = and(and(z(), x()), y());
    let right = and(y(), and(z(), x()));
    [left, right, and(and(x(), y()), and(y(), z()))]
}

/// What the rules of the normal form give, told by the numbers of states and terms.
fn normal_forms() -> Vec<Edge> {
    let [left, right, twice] = three_letters();
    let nothing = || Expr::Nothing;
    let kinds =
        || choice(vec![not(star(a())), and(star(a()), not(b())), star(b()), literal(b"ab")]);
    let sample =
        Edge { name: "W as version 2", book: later_sample(), expect: "7 states, 12 terms" };
    vec![
        sample,
        edge("x & y & z, from the left", vec![left.clone()], "8 states, 29 terms"),
        edge("x & y & z, from the right", vec![right.clone()], "8 states, 29 terms"),
        edge("x & y & z, in three ways", vec![left, right, twice], "8 states, 29 terms"),
        edge("a* & a*", vec![and(star(a()), star(a()))], "2 states, 3 terms"),
        edge("a & Nothing", vec![and(a(), nothing())], "1 states, 1 terms"),
        edge("Nothing & a", vec![and(nothing(), a())], "1 states, 1 terms"),
        edge("a & b Nothing", vec![and(a(), cat(b(), nothing()))], "1 states, 1 terms"),
        edge("a & (b & Nothing)", vec![and(a(), and(b(), nothing()))], "1 states, 1 terms"),
        edge("not not a", vec![not(not(a()))], "3 states, 3 terms"),
        edge("not not not a", vec![not(not(not(a())))], "3 states, 6 terms"),
        edge("a & not a", vec![and(a(), not(a()))], "3 states, 7 terms"),
        edge("a* & not a*", vec![and(star(a()), not(star(a())))], "2 states, 5 terms"),
        edge("not Nothing", vec![not(nothing())], "1 states, 2 terms"),
        edge("not Empty", vec![not(Expr::Empty)], "2 states, 4 terms"),
        edge("(not a)*", vec![star(not(a()))], "4 states, 10 terms"),
        edge("every kind from Cat on", vec![kinds(), not(kinds())], "6 states, 24 terms"),
    ]
}

/// More of them.
fn more_forms() -> Vec<Edge> {
    let (ab, nothing) = (|| literal(b"ab"), || Expr::Nothing);
    let either = || alt(one(b'e'), one(b'E'));
    let nots = |count: usize| vec![(1..count).fold(a(), |e, _| not(e))];
    let twins = |count: usize| (1..count).fold(a(), |e, _| and(a(), e));
    vec![
        Edge { name: "notes", book: notes_book(), expect: "10 states, 29 terms" },
        edge(
            "(a b) a & a (b a)",
            vec![and(cat(ab(), a()), cat(a(), cat(b(), a())))],
            "5 states, 6 terms",
        ),
        edge(
            "(a & b Nothing) & a",
            vec![and(and(a(), cat(b(), nothing())), a())],
            "1 states, 1 terms",
        ),
        edge("not (a & Nothing)", vec![not(and(a(), nothing()))], "1 states, 2 terms"),
        edge("a & not Nothing", vec![and(a(), not(nothing()))], "3 states, 6 terms"),
        edge("a | not Nothing", vec![alt(a(), not(nothing()))], "3 states, 6 terms"),
        edge("(not Nothing)*", vec![star(not(nothing()))], "2 states, 4 terms"),
        edge(
            "not E & not (e | E)",
            vec![and(not(Expr::Either(b'e')), not(either()))],
            "3 states, 8 terms",
        ),
        edge("a, then neither a nor b", vec![a(), and(not(a()), not(b()))], "4 states, 10 terms"),
        edge("512 nodes, nots", nots(512), "3 states, 6 terms"),
        edge("513 nodes, nots", nots(513), "refused 3 3"),
        edge("512 nodes, equal members of And", vec![not(twins(256))], "3 states, 6 terms"),
        edge("513 nodes, equal members of And", vec![twins(257)], "refused 3 3"),
    ]
}

/// Parts that are too long and vanish: in the rules, in a derivative, on each side, and in a
/// part of an And with more members.
fn vanishing() -> Vec<Edge> {
    let rounds = |times| star(row_of_a(times));
    let bc = || star(literal(b"bc"));
    let (x, two) = (|| one(b'x'), |m, n| and(rounds(m), rounds(n)));
    let beside = |byte: u8, times| power(&one(byte), times);
    vec![
        edge("a^128 & Nothing", vec![and(row_of_a(128), Expr::Nothing)], "1 states, 1 terms"),
        edge("a^129 & Nothing", vec![and(row_of_a(129), Expr::Nothing)], "refused 6 0"),
        edge("Nothing & a^129", vec![and(Expr::Nothing, row_of_a(129))], "refused 6 0"),
        edge(
            "(a^64 & b^65) & Nothing",
            vec![and(and(row_of_a(64), beside(b'b', 65)), Expr::Nothing)],
            "refused 6 0",
        ),
        edge("x & (a^64)*", vec![and(x(), rounds(64))], "2 states, 68 terms"),
        edge("x & (a^65)*", vec![and(x(), rounds(65))], "refused 6 0"),
        edge("(a^64)* & (bc)*", vec![and(rounds(64), bc())], "2 states, 71 terms"),
        edge("(a^65)* & (bc)*", vec![and(rounds(65), bc())], "refused 6 0"),
        edge("x (x & (a^65)*)", vec![cat(x(), and(x(), rounds(65)))], "refused 6 2"),
        edge("x (x & not (a^65)*)", vec![cat(x(), and(x(), not(rounds(65))))], "refused 6 2"),
        edge("x & (a^31)* & (a^33)*", vec![and(x(), two(31, 33))], "2 states, 39 terms"),
        edge("x & (a^32)* & (a^33)*", vec![and(x(), two(32, 33))], "refused 6 0"),
    ]
}

/// As many distinct terms as there may be, most of them in Ands, and one more.
fn pool() -> Vec<Edge> {
    let exprs = || vec![shrinking(0, 51), shrinking(60, 21)];
    let made = |name, terms, expect| Edge { name, book: filled(exprs(), terms), expect };
    vec![
        made("Ands, 2048 terms", POOL, "106 states, 2048 terms"),
        made("Ands, 2049 terms", POOL + 1, "refused 7 2"),
    ]
}

/// A rule of one member and two more, and a rule of these two alone, which is a part of the
/// first rule if the one comes before them.
fn with_part(join: fn(Expr, Expr) -> Expr, first: Expr, (p, q): (Expr, Expr)) -> Vec<Expr> {
    vec![join(q.clone(), join(first, p.clone())), join(p, q)]
}

fn stars() -> (Expr, Expr) {
    (star(a()), star(b()))
}

fn ands() -> (Expr, Expr) {
    let with = |rest: &[u8]| and(star(a()), star(literal(rest)));
    (with(b"ab"), with(b"ba"))
}

fn nots() -> (Expr, Expr) {
    (not(a()), not(b()))
}

/// Rules whose number of terms shows whether members are gathered, kept once and sorted:
/// And behind Star, Not behind And.
fn by_order(terms: usize) -> Book {
    let parts = [
        with_part(alt, star(a()), ands()),
        with_part(alt, ands().0, nots()),
        with_part(and, star(a()), nots()),
        three_letters()[..2].to_vec(),
        vec![not(not(star(a()))), and(star(a()), star(a()))],
        vec![shrinking(0, 51), shrinking(60, 20)],
    ];
    filled(parts.concat(), terms)
}

/// As many terms as there may be.
fn order() -> Vec<Edge> {
    let (name, expect) = ("And and Not by order, 2048 terms", "111 states, 2048 terms");
    vec![Edge { name, book: by_order(POOL), expect }]
}

/// One term more; and the order of each two kinds by itself.
fn more_order() -> Vec<Edge> {
    let (name, expect) = ("And and Not by order, 2049 terms", "refused 7 87");
    vec![
        Edge { name, book: by_order(POOL + 1), expect },
        edge("a* | Ands", with_part(alt, star(a()), ands()), "4 states, 15 terms"),
        edge("And | Nots", with_part(alt, ands().0, nots()), "4 states, 18 terms"),
        edge("a b | stars", with_part(alt, cat(a(), b()), stars()), "6 states, 10 terms"),
        edge("a* | Nots", with_part(alt, star(a()), nots()), "5 states, 14 terms"),
        edge("a | b & stars", with_part(and, alt(a(), b()), stars()), "2 states, 8 terms"),
        edge("a* & Nots", with_part(and, star(a()), nots()), "5 states, 14 terms"),
        edge("Empty & Nots", with_part(and, Expr::Empty, nots()), "3 states, 11 terms"),
    ]
}

/// Ands and Nots of 255 nodes and of 256, in the rules and in derivatives.
fn long() -> Vec<Edge> {
    let bytes = |from: u8, count: u8| choice((0..count).map(|i| one(from + 2 * i)).collect());
    let tail = |times| star(cat(row_of_a(times), star(b())));
    let rounds = |times| star(row_of_a(times));
    vec![
        edge("And of 255 nodes", vec![and(bytes(0, 64), bytes(64, 64))], "3 states, 225 terms"),
        edge("And of 256 nodes", vec![and(bytes(0, 64), star(bytes(64, 64)))], "refused 6 0"),
        edge("And of 255 nodes, derived", vec![and(rounds(21), tail(42))], "44 states, 173 terms"),
        edge("And of 256 nodes, derived", vec![and(rounds(21), not(tail(42)))], "refused 6 0"),
        edge("Not of 255 nodes", vec![not(star(bytes(0, 127)))], "2 states, 257 terms"),
        edge("Not of 256 nodes", vec![not(bytes(0, 128))], "refused 6 0"),
        edge("not not, 254 nodes", vec![not(not(star(bytes(0, 127))))], "2 states, 255 terms"),
        edge("not not, 255 nodes", vec![not(not(bytes(0, 128)))], "refused 6 0"),
        edge("not (a^64)*", vec![not(rounds(64))], "65 states, 194 terms"),
        edge("Not of 256 nodes, derived", vec![not(nodes_255())], "refused 6 0"),
    ]
}

/// As many states as there may be, and one more.
fn states() -> Vec<Edge> {
    let b = |times| power(&one(b'b'), times);
    let rounds = |times| star(row_of_a(times));
    vec![
        edge("a^127, not b^126", vec![row_of_a(127), not(b(126))], "255 states, 383 terms"),
        edge("a^127, not b^127", vec![row_of_a(127), not(b(127))], "refused 8 253"),
        edge(
            "(a^11)* & not (a^23)*",
            vec![and(rounds(11), not(rounds(23)))],
            "254 states, 334 terms",
        ),
        edge("(a^15)* & not (a^17)*", vec![and(rounds(15), not(rounds(17)))], "refused 8 254"),
        edge("- and seven letters", vec![cat(one(b'-'), all_there(7))], "130 states, 600 terms"),
        edge("- and eight letters", vec![cat(one(b'-'), all_there(8))], "refused 8 236"),
    ]
}

/// Comparisons of books with And and Not with tables of books that say the same otherwise,
/// or nearly the same.
pub fn both_meetings() -> Vec<Meeting> {
    let either = || alt(star(a()), star(b()));
    let neither = and(not(star(a())), not(star(b())));
    let by = |expr| own(&rule(expr));
    let every = || star(any(1));
    vec![
        meet("W as version 2 by W", later_sample(), sample_table(), "same\n"),
        meet("W by W as version 2", sample_book(), own(&later_sample()), "same\n"),
        meet("not not a by a", rule(not(not(a()))), by(a()), "same\n"),
        meet("not a* & not b* by one not", rule(neither.clone()), by(not(either())), "same\n"),
        meet("not a* & not b* by not a*", rule(neither), by(not(star(a()))), differs(b"b", 0, 1)),
        meet("a or b & not a by b", rule(and(alt(a(), b()), not(a()))), by(b()), "same\n"),
        meet("a* & not a* by none", rule(and(star(a()), not(star(a())))), lone(0), "same\n"),
        meet("not Nothing by any text", rule(not(Expr::Nothing)), by(every()), "same\n"),
        meet("not Empty by any text", rule(not(Expr::Empty)), by(every()), "same\n"),
        meet("not a by any text", rule(not(a())), by(every()), differs(b"a", 0, 1)),
        meet("without a by other bytes", rule(without(a())), by(other_bytes()), "same\n"),
        meet("all three letters", rule(all_there(3)), lone(0), differs(b"abc", 1, 0)),
        meet(
            "Long on the right",
            rule(and(one(b'x'), star(row_of_a(65)))),
            lone(0),
            "refused 6 0\n",
        ),
    ]
}

/// Any bytes but a.
fn other_bytes() -> Expr {
    star(alt(Expr::Range(0, b'a' - 1), Expr::Range(b'b', 255)))
}
