//! Books that just meet or just pass the caps on states and terms since these were
//! raised, or the limit on a term's size at states that there were not before.

use crate::book::{alt, cat, choice, literal, one, power, star, Book, Expr};
use crate::edges::{
    crossing_book, edge, filled, fresh_literals, growing, memory_book, order_gadgets, remembering,
    row_of_a, Edge,
};
use crate::limits::POOL;
use crate::starts::any;

/// All of them.
pub fn raised_edges() -> Vec<Edge> {
    let groups = [states(), one_rule(), pool(), late_pool(), at_once(), long(), widest()];
    groups.into_iter().flatten().collect()
}

/// One byte, so many times in a row.
fn row(byte: u8, times: usize) -> Expr {
    power(&one(byte), times)
}

/// Texts of two letters that have the first one so far back, and then a third letter.
fn memory(letter: u8, back: usize) -> Expr {
    let two = Expr::Range(letter, letter + 1);
    let tail = cat(power(&two, back), one(letter + 2));
    cat(star(two), cat(one(letter), tail))
}

/// A choice of memories, each with letters of its own: 2^(back + 1) states each, and
/// three more.
fn memories(backs: &[usize]) -> Expr {
    let letters = (b'a'..).step_by(3);
    choice(backs.iter().zip(letters).map(|(&back, letter)| memory(letter, back)).collect())
}

/// Rows of two letters and counters of one letter; the shortest rows are there for what
/// a state costs.
fn states() -> Vec<Edge> {
    let (a, b) = (row_of_a, |times| row(b'b', times));
    let (every, bb) = (|| star(any(1)), literal(b"bb"));
    let rounds = |m, n, more: Vec<Expr>| [vec![star(a(m)), star(a(n))], more].concat();
    vec![
        edge("a^127, b^126", vec![a(127), b(126)], "255 states, 255 terms"),
        edge("a^127, b^127", vec![a(127), b(127)], "refused 8 253"),
        edge("a^128, b^125", vec![a(128), b(125)], "255 states, 255 terms"),
        edge("a^128, b^126", vec![a(128), b(126)], "refused 8 254"),
        edge("any text, a^127, b^126", vec![every(), a(127), b(126)], "255 states, 257 terms"),
        edge("any text, a^127, b^127", vec![every(), a(127), b(127)], "refused 8 253"),
        edge("(a^11)*, (a^23)*", rounds(11, 23, vec![]), "254 states, 58 terms"),
        edge("(a^9)*, (a^28)*, b", rounds(9, 28, vec![one(b'b')]), "255 states, 68 terms"),
        edge("(a^9)*, (a^28)*, bb", rounds(9, 28, vec![bb]), "refused 8 254"),
        edge("(a^15)*, (a^17)*", rounds(15, 17, vec![]), "refused 8 254"),
        edge("a^15, b^15", vec![a(15), b(15)], "32 states, 32 terms"),
        edge("a^31, b^31", vec![a(31), b(31)], "64 states, 64 terms"),
    ]
}

/// Choices in one rule, and states that run out in the middle of a row.
fn one_rule() -> Vec<Edge> {
    let six = || memories(&[6, 5, 4, 3, 2, 1]);
    let forked = |ways: &[&[u8]]| {
        let ways = choice(ways.iter().map(|way| literal(way)).collect());
        vec![cat(row_of_a(123), ways), row(b'b', 122), row(b'f', 7)]
    };
    vec![
        edge("six memories in a rule", vec![six()], "255 states, 310 terms"),
        edge("six memories | xy", vec![alt(six(), literal(b"xy"))], "refused 8 159"),
        edge("a^123 (a | b), b^122, f^7", forked(&[b"a", b"b"]), "255 states, 256 terms"),
        edge("a^123 (a | bc | cd), b^122, f^7", forked(&[b"a", b"bc", b"cd"]), "refused 8 253"),
    ]
}

fn made(name: &'static str, book: Book, expect: &'static str) -> Edge {
    Edge { name, book, expect }
}

/// Terms that run out on the way, by memories, literals and the order of terms, and
/// early, by a choice that grows.
fn pool() -> Vec<Edge> {
    let many = |lengths: &[usize], last| {
        let mut book = memory_book(28, 5, lengths);
        book.rules.extend(Book::of(last).rules);
        book
    };
    let gadgets = |rules, terms| filled([order_gadgets(), remembering(rules, 6)].concat(), terms);
    let grown = |lengths: &[usize]| Book::of([vec![growing(60)], fresh_literals(lengths)].concat());
    vec![
        made("28 of 5 + [28]", memory_book(28, 5, &[28]), "122 states, 2048 terms"),
        made("28 of 5 + [14, 15]", memory_book(28, 5, &[14, 15]), "refused 7 44"),
        made("31 rules, 2048 terms", many(&[9, 10, 10], vec![]), "123 states, 2048 terms"),
        made(
            "32 rules, 2048 terms",
            many(&[9, 10, 10], vec![Expr::Empty]),
            "123 states, 2048 terms",
        ),
        made("32 rules, 2049 terms", many(&[7, 7, 8, 8], vec![]), "refused 7 54"),
        made("29 of 5 + []", memory_book(29, 5, &[]), "refused 7 32"),
        made("14 of 6 + [70]", memory_book(14, 6, &[70]), "214 states, 2048 terms"),
        made("14 of 6 + [35, 36]", memory_book(14, 6, &[35, 36]), "refused 7 78"),
        made("15 of 6 + [2]", memory_book(15, 6, &[2]), "147 states, 2048 terms"),
        made("15 of 6 + [1, 2]", memory_book(15, 6, &[1, 2]), "refused 7 68"),
        made("by order, 2048", gadgets(14, POOL), "198 states, 2048 terms"),
        made("by order, 2049", gadgets(14, POOL + 1), "refused 7 98"),
        made("by order, 2048, 265 states", gadgets(13, POOL), "refused 8 254"),
        made("by order, 2049, 266 states", gadgets(13, POOL + 1), "refused 7 98"),
        made("growing + [19]", grown(&[19]), "82 states, 2048 terms"),
        made("growing + [9, 11]", grown(&[9, 11]), "refused 7 2"),
        made("growing, one member more", Book::of(vec![growing(61)]), "refused 7 0"),
    ]
}

/// Terms that run out behind a long row of letters.
fn late_pool() -> Vec<Edge> {
    let behind = cat(row(b'x', 50), memory(b'A', 4));
    let late = |terms| filled([remembering(14, 6), vec![behind.clone()]].concat(), terms);
    vec![
        made("late, 2048", late(POOL), "250 states, 2048 terms"),
        made("late, 2049", late(POOL + 1), "refused 7 233"),
    ]
}

/// States and Pool at the same step.
fn at_once() -> Vec<Edge> {
    let crossing = crossing_book(7, 7, 1, 127);
    vec![
        made("9 rules, States and Pool", crossing, "refused 8 131"),
        made("7 of 7 + [76, 76]", memory_book(7, 7, &[76, 76]), "refused 8 133"),
        made("7 of 7 + [70, 82]", memory_book(7, 7, &[70, 82]), "refused 8 133"),
    ]
}

/// The star of (p Y | Z), whose derivative by p has 2|Y| + |Z| + 5 nodes.
fn looped(y: Expr, z: Expr) -> Expr {
    star(alt(cat(one(b'p'), y), z))
}

/// A term with a derivative of 255 nodes.
pub fn nodes_255() -> Expr {
    looped(cat(row_of_a(61), star(one(b'b'))), star(one(b'z')))
}

/// A term with a derivative of 256 nodes.
pub fn nodes_256() -> Expr {
    looped(row_of_a(63), one(b'z'))
}

/// Long at states past the older cap, up to the last one that there can be.
fn long() -> Vec<Edge> {
    let behind = |times, rest| vec![memory(b'A', 6), cat(row(b'x', times), rest)];
    let last = |times| vec![memories(&[6, 5]), cat(row(b'x', times), star(row(b'y', 65)))];
    vec![
        edge("255 nodes at state 191", behind(61, nodes_255()), "255 states, 336 terms"),
        edge("255 nodes, one state more", behind(62, nodes_255()), "refused 8 254"),
        edge("256 nodes at state 191", behind(61, nodes_256()), "refused 6 191"),
        edge("256 nodes at state 140", behind(10, nodes_256()), "refused 6 140"),
        edge("Long before States, at state 254", last(60), "refused 6 254"),
        edge("States one step before Long", last(61), "refused 8 254"),
    ]
}

/// Any text that ends in one of the first so many odd bytes.
pub fn ends_odd(count: u8) -> Expr {
    cat(star(any(1)), choice((0..count).map(|i| one(2 * i + 1)).collect()))
}

/// A build with the longest sheet that was found: nearly all neighbouring bytes have
/// different targets, and each has to be derived by itself, so it is the slowest too.
fn widest() -> Vec<Edge> {
    let exprs = vec![ends_odd(125), ends_odd(104), star(any(5)), star(any(17))];
    vec![edge("160401 bytes of sheet", exprs, "255 states, 397 terms")]
}
