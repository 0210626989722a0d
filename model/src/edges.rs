//! Books and comparisons that just meet or just pass a limit of reading or of the walk,
//! or a cap as it was before it was raised, each with a name and what it has to give.

use crate::book::{alt, cat, choice, literal, one, power, star, Book, Expr};
use crate::build::{alike, build, build_by, Answer};
use crate::limits::{Caps, CAPS, OLDER};
use crate::sheet::Table;
use crate::sheets::{chain, clock, counter, lone};

/// a, so many times in a row.
pub fn row_of_a(times: usize) -> Expr {
    power(&one(b'a'), times)
}

/// Rules that remember so many of the last letters and the one before them.
pub fn remembering(rules: usize, back: usize) -> Vec<Expr> {
    let two = Expr::Range(b'a', b'b');
    let rule = |i: usize| {
        let tail = cat(power(&two, back), one(b'c' + i as u8));
        cat(star(two.clone()), cat(one(b'a'), tail))
    };
    (0..rules).map(rule).collect()
}

/// Rules that remember four letters and one: 38 terms each and 5 in common.
pub fn bulk(rules: usize) -> Vec<Expr> {
    remembering(rules, 4)
}

/// A choice of which byte c leaves the first c members, a choice with parts of its own.
pub fn growing(members: u8) -> Expr {
    choice((1..=members).map(|i| cat(Expr::Range(i, 255), one(i))).collect())
}

/// Literals of bytes that nothing else has: 2j - 1 terms each.
pub fn fresh_literals(lengths: &[usize]) -> Vec<Expr> {
    let mut fresh = (128..=255u8).chain(0..=31);
    let mut text = |&length: &usize| fresh.by_ref().take(length).collect::<Vec<u8>>();
    lengths.iter().map(|length| literal(&text(length))).collect()
}

/// Rules that remember so many letters and one, then literals.
pub fn memory_book(rules: usize, back: usize, lengths: &[usize]) -> Book {
    Book::of([remembering(rules, back), fresh_literals(lengths)].concat())
}

/// Rules in bulk, then literals.
pub fn pool_book(rules: usize, lengths: &[usize]) -> Book {
    memory_book(rules, 4, lengths)
}

/// The rules with literals added that bring the distinct terms of the whole walk to
/// exactly the given number, if they are fewer.
pub fn filled(exprs: Vec<Expr>, terms: usize) -> Book {
    let book = Book::of(exprs.clone());
    // The count has to end whatever the caps of a walk are.
    let caps = Caps { states: 2_000, pool: 20_000, ..CAPS };
    let held = build_by(&book, &alike(&book), caps).map_or(terms, |built| built.pool);
    let missing = terms.saturating_sub(held);
    let lengths = match missing % 2 {
        _ if missing == 0 => vec![],
        1 => vec![missing / 2 + 1],
        _ => vec![missing / 4 + 1, missing / 2 - missing / 4],
    };
    Book::of([exprs, fresh_literals(&lengths)].concat())
}

/// Expressions whose number of distinct terms depends on the order of terms: on every
/// two kinds that can meet, on lo before hi, and on left before right.
pub fn order_gadgets() -> Vec<Expr> {
    // Three letters for each gadget, and their range.
    let letters = |i: u8| (one(33 + 3 * i), one(34 + 3 * i), one(35 + 3 * i), 33 + 3 * i);
    let (p, _, r, _) = letters(0);
    let first = star(alt(cat(star(p.clone()), cat(power(&p, 2), r)), star(p)));
    let (p, _, r, low) = letters(1);
    let pair = Expr::Range(low, low + 1);
    let second = star(alt(cat(pair.clone(), alt(p, r)), star(pair)));
    let (p, q, r, _) = letters(2);
    let inner = alt(cat(star(r.clone()), cat(q.clone(), p)), q);
    let third = alt(cat(star(r.clone()), inner), star(r));
    let (_, q, r, low) = letters(3);
    let front = cat(alt(r.clone(), star(q.clone())), star(q));
    let fourth = cat(front, alt(cat(star(Expr::Range(low, low + 2)), star(r)), Expr::Empty));
    let (p, q, _, _) = letters(4);
    let fifth = star(cat(star(q.clone()), cat(star(p.clone()), cat(q, star(p)))));
    vec![first, second, third, fourth, fifth]
}

/// Rules that remember more letters, a rule that counts letters and a literal: states
/// and terms run out at about the same time.
pub fn crossing_book(rules: usize, back: usize, round: usize, length: usize) -> Book {
    let mut exprs = remembering(rules, back);
    exprs.push(star(power(&Expr::Range(b'a', b'b'), round)));
    exprs.push(literal(&(128..128 + length as u8).collect::<Vec<u8>>()));
    Book::of(exprs)
}

/// A book at a limit and what its build has to give: states and terms, or a refusal.
pub struct Edge {
    pub name: &'static str,
    pub book: Book,
    pub expect: &'static str,
}

pub fn edge(name: &'static str, exprs: Vec<Expr>, expect: &'static str) -> Edge {
    Edge { name, book: Book::of(exprs), expect }
}

/// Books whose reading meets or passes a limit.
pub fn reading() -> Vec<Edge> {
    let flat = |count: u8| (0..count).map(one).collect::<Vec<Expr>>();
    let with_kind = |name, kind, expect| {
        let mut made = edge(name, flat(1), expect);
        made.book.rules[0].kind = kind;
        made
    };
    let stars = |count: usize| vec![(1..count).fold(one(b'a'), |e, _| star(e))];
    let twins = |count: usize| choice(vec![one(b'a'); count]);
    let spread = |last: Expr| {
        let mut exprs = vec![row_of_a(8); 31];
        exprs.push(last);
        exprs
    };
    let bs = power(&one(b'b'), 24);
    vec![
        edge("32 rules", flat(32), "34 states, 34 terms"),
        edge("33 rules", flat(33), "refused 3 1"),
        with_kind("kind 16383", 16_383, "3 states, 3 terms"),
        with_kind("kind 16384", 16_384, "refused 3 2"),
        edge("512 nodes, stars", stars(512), "2 states, 3 terms"),
        edge("513 nodes, stars", stars(513), "refused 3 3"),
        edge("512 nodes, equal members", vec![star(twins(256))], "2 states, 3 terms"),
        edge("513 nodes, equal members", vec![twins(257)], "refused 3 3"),
        edge("31 rules of 15 nodes, one of 47", spread(bs.clone()), "34 states, 34 terms"),
        edge("31 rules of 15 nodes, one of 48", spread(star(bs)), "refused 3 1026"),
        edge("256 and 256 nodes", vec![star(twins(128)); 2], "2 states, 3 terms"),
        edge("256 and 257 nodes", vec![star(twins(128)), twins(129)], "refused 3 518"),
        edge("512 and 1 nodes", vec![star(twins(256)), one(b'b')], "refused 3 1030"),
    ]
}

/// Books whose walk meets or passes Long.
pub fn long() -> Vec<Edge> {
    let a = row_of_a;
    let x = |times: usize| power(&one(b'x'), times);
    let wide = || choice((0..128u8).map(|b| one(2 * b)).collect());
    // For the star of (p Y | Z), a derivative by p of 2|Y| + |Z| + 5 nodes.
    let looped = |y: Expr, z: Expr| vec![star(alt(cat(one(b'p'), y), z))];
    let even = cat(a(61), star(one(b'b')));
    let (b64, b63) = (power(&one(b'b'), 64), power(&one(b'b'), 63));
    vec![
        edge("a^129", vec![a(129)], "refused 6 0"),
        edge("(a^64)*", vec![star(a(64))], "65 states, 129 terms"),
        edge("(a^65)*", vec![star(a(65))], "refused 6 0"),
        edge("128 bytes, 255 nodes", vec![wide()], "3 states, 257 terms"),
        edge("their star, 256 nodes", vec![star(wide())], "refused 6 0"),
        edge("a^64 | b^63, 253 nodes", vec![alt(a(64), b63)], "128 states, 130 terms"),
        edge("a^64 | b^64, 255 nodes", vec![alt(a(64), b64.clone())], "129 states, 131 terms"),
        edge("a^64 | b^64 | c, 257 nodes", vec![alt(alt(a(64), b64), one(b'c'))], "refused 6 0"),
        edge("derivative of 255 nodes", looped(even, star(one(b'z'))), "65 states, 134 terms"),
        edge("derivative of 256 nodes", looped(a(63), one(b'z')), "refused 6 0"),
        edge("a^128 Nothing", vec![cat(a(128), Expr::Nothing)], "1 states, 1 terms"),
        edge("a^129 Nothing", vec![cat(a(129), Expr::Nothing)], "refused 6 0"),
        edge("Nothing a^129", vec![cat(Expr::Nothing, a(129))], "refused 6 0"),
        edge("a^120 | a^120, equal", vec![alt(a(120), a(120))], "122 states, 122 terms"),
        edge("x (a^65)*", vec![cat(x(1), star(a(65)))], "refused 6 2"),
        edge("x x x (a^65)*", vec![cat(x(3), star(a(65)))], "refused 6 4"),
        edge("x* (a^65)*", vec![cat(star(x(1)), star(a(65)))], "refused 6 0"),
        edge("x* (a^64)*", vec![cat(star(x(1)), star(a(64)))], "66 states, 132 terms"),
        edge("b, then a^129", vec![one(b'b'), a(129)], "refused 6 0"),
    ]
}

/// Books whose walk meets or passes the older States.
pub fn states() -> Vec<Edge> {
    let a = row_of_a;
    let b = |times: usize| power(&one(b'b'), times);
    let any = || star(Expr::Range(0, 255));
    vec![
        edge("a^126", vec![a(126)], "128 states, 128 terms"),
        edge("a^127", vec![a(127)], "129 states, 129 terms"),
        edge("a^128", vec![a(128)], "130 states, 130 terms"),
        edge("a^126, b^127", vec![a(126), b(127)], "255 states, 255 terms"),
        edge("a^63, b^63", vec![a(63), b(63)], "128 states, 128 terms"),
        edge("a^63, b^64", vec![a(63), b(64)], "129 states, 129 terms"),
        edge("any text, a^126", vec![any(), a(126)], "128 states, 130 terms"),
        edge("any text, a^127", vec![any(), a(127)], "129 states, 131 terms"),
        edge("(a^9)*, (a^14)*", vec![star(a(9)), star(a(14))], "127 states, 38 terms"),
        edge("(a^11)*, (a^12)*", vec![star(a(11)), star(a(12))], "133 states, 36 terms"),
    ]
}

/// Books whose walk meets or passes the older Pool, and books that pass it at the same
/// step as the older States.
pub fn pool() -> Vec<Edge> {
    let made = |name, book, expect| Edge { name, book, expect };
    let gadgets = |rules| [order_gadgets(), bulk(rules)].concat();
    let most = OLDER.pool;
    vec![
        made("by order, 1024", filled(gadgets(24), most), "96 states, 1024 terms"),
        made("by order, 1025", filled(gadgets(24), most + 1), "97 states, 1025 terms"),
        made("by order, 1024 again", filled(gadgets(23), most), "114 states, 1024 terms"),
        made("by order, 1025 again", filled(gadgets(23), most + 1), "115 states, 1025 terms"),
        made("26 + [16]", pool_book(26, &[16]), "76 states, 1024 terms"),
        made("26 + [8, 9]", pool_book(26, &[8, 9]), "77 states, 1025 terms"),
        made("25 + [10, 12, 14]", pool_book(25, &[10, 12, 14]), "95 states, 1024 terms"),
        made("25 + [17, 19]", pool_book(25, &[17, 19]), "95 states, 1025 terms"),
        made("24 + [18, 18, 19]", pool_book(24, &[18, 18, 19]), "113 states, 1024 terms"),
        made("24 + [27, 28]", pool_book(24, &[27, 28]), "113 states, 1025 terms"),
        made("27 + []", pool_book(27, &[]), "60 states, 1031 terms"),
        made("10 rules, past both older caps", crossing_book(10, 6, 2, 1), "refused 8 124"),
        made("12 rules, past both older caps", crossing_book(12, 6, 3, 2), "refused 8 123"),
        made("13 rules, past both older caps", crossing_book(13, 6, 4, 1), "refused 8 123"),
    ]
}

/// All of them.
pub fn all() -> Vec<Edge> {
    [reading(), long(), states(), pool()].into_iter().flatten().collect()
}

/// A book, a table and what `compare` has to print for them.
pub struct Meeting {
    pub name: &'static str,
    pub book: Book,
    pub table: Table,
    pub expect: String,
}

pub fn meet(name: &'static str, book: Book, table: Table, expect: impl Into<String>) -> Meeting {
    Meeting { name, book, table, expect: expect.into() }
}

/// What `compare` prints where the labels of a text differ.
pub fn differs(text: &[u8], book: usize, sheet: usize) -> String {
    Answer::Differs { text: text.to_vec(), book, sheet }.lines()
}

/// A book of one rule.
pub fn rule(expr: Expr) -> Book {
    Book::of(vec![expr])
}

/// Comparisons that meet or pass a limit or an older cap, or whose text is long.
pub fn meetings() -> Vec<Meeting> {
    let a = row_of_a;
    let fifteen = || rule(star(a(15)));
    let any = || Expr::Range(0, 255);
    let endless = Book::of(vec![star(any()), a(127)]);
    let chained = build(&rule(a(126))).expect("a^126 builds");
    let (round, longer) = (star(power(&any(), 63)), differs(&[0; 189], 1, 0));
    let late = || rule(cat(one(b'x'), star(a(65))));
    let (crossing, pool) = (crossing_book(8, 6, 1, 1), pool_book(26, &[8, 9]));
    vec![
        meet("256 pairs", fifteen(), counter(b'a', 17, 1), differs(&[b'a'; 15], 1, 0)),
        meet("257 pairs", fifteen(), counter(b'a', 17, 2), differs(&[b'a'; 15], 1, 0)),
        meet("15 against 15", fifteen(), counter(b'a', 15, 2), "same\n"),
        meet("a^127 by a^126", rule(a(127)), chained, differs(&[b'a'; 126], 0, 1)),
        meet("any, a^127 by one state", endless, lone(1), "same\n"),
        meet("189 bytes", rule(round), chain(128, 63), longer),
        meet("empty text", rule(Expr::Empty), lone(0), "same\n"),
        meet("label above n", rule(Expr::Nothing), lone(32), differs(&[0], 0, 32)),
        meet("Long at vector 0", rule(a(129)), lone(0), "refused 6 0\n"),
        meet("Long at pair 2", late(), lone(0), "refused 6 2\n"),
        meet("Long at pair 5", late(), counter(b'x', 3, 4), "refused 6 5\n"),
        meet("1025 terms", pool, lone(0), differs(b"aaaaac", 1, 0)),
        meet("1025 terms, then 257 pairs", crossing, clock(8, 66), "refused 12 357\n"),
    ]
}
