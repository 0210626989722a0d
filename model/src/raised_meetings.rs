//! Comparisons that just meet or just pass the caps on pairs and terms since these were
//! raised, and differences shown by texts that were too long before.

use crate::book::{alt, cat, literal, one, power, star, Book, Expr};
use crate::edges::{
    crossing_book, differs, growing, meet, memory_book, remembering, row_of_a, rule, Meeting,
};
use crate::raised_builds::{ends_odd, nodes_255, nodes_256};
use crate::sheet::Table;
use crate::sheets::{apart, chain, clock, counter, funnel, lone, relabelled, spread};
use crate::starts::{any, own};

/// All of them.
pub fn raised_meetings() -> Vec<Meeting> {
    [pairs(), back(), terms(), long(), texts()].into_iter().flatten().collect()
}

fn count_of_a(round: usize, more: usize) -> Table {
    spread(&counter(b'a', round, 1), more)
}

/// As many pairs as may count, or more, where no text leads back to the start, and
/// where it is met again as the last.
fn pairs() -> Vec<Meeting> {
    let a = row_of_a;
    let (seven, nine) = (|| rule(star(a(7))), || rule(star(a(9))));
    let aside = |more| apart(&count_of_a(73, more), 1);
    let x = |times| rule(cat(one(b'x'), star(a(times))));
    let by_x = |more| spread(&own(&x(17)), more);
    let eighteen = [b"x", &[b'a'; 17][..]].concat();
    vec![
        meet("512 pairs", seven(), count_of_a(73, 0), differs(&[b'a'; 7], 1, 0)),
        meet("513 pairs", seven(), counter(b'a', 73, 2), "refused 12 512\n"),
        meet("512 pairs, start apart", seven(), aside(0), differs(&[b'a'; 7], 1, 0)),
        meet("513 pairs, start apart", seven(), aside(1), "refused 12 512\n"),
        meet("512 pairs, x (a^30)* by x (a^17)*", x(30), by_x(1), differs(&eighteen, 0, 1)),
        meet("513 pairs, x (a^30)* by x (a^17)*", x(30), by_x(2), "refused 12 512\n"),
        meet("512 pairs, back as the last", nine(), count_of_a(56, 7), differs(&[b'a'; 9], 1, 0)),
        meet("513 pairs, back as the last", nine(), count_of_a(56, 8), "refused 12 512\n"),
        meet("514 pairs, back as the last", nine(), count_of_a(56, 9), "refused 12 512\n"),
    ]
}

/// The same where a text leads back to the start at the first step, or on the way.
fn back() -> Vec<Meeting> {
    let a = row_of_a;
    let loops = |times| rule(star(alt(one(b'z'), a(times))));
    let front = |times| rule(cat(star(one(b'z')), cat(one(b'x'), star(a(times)))));
    let by_front = |more| spread(&own(&front(17)), more);
    let anys = |times| rule(star(any(times)));
    let eighteen = [b"x", &[b'a'; 17][..]].concat();
    vec![
        meet("512 pairs, back by z", loops(15), own(&loops(31)), differs(&[b'a'; 15], 1, 0)),
        meet("528 pairs, back by z", loops(15), own(&loops(32)), "refused 12 511\n"),
        meet("512 pairs, z* x", front(30), by_front(0), differs(&eighteen, 0, 1)),
        meet("513 pairs, z* x", front(30), by_front(1), "refused 12 511\n"),
        meet("510 pairs, back from pair 1", anys(2), clock(1, 254), differs(&[0; 2], 1, 0)),
        meet("513 pairs, back from pair 172", anys(3), clock(1, 170), "refused 12 172\n"),
        meet("512 pairs, back from pair 257", anys(4), clock(1, 127), differs(&[0; 4], 1, 0)),
        meet("516 pairs, back from pair 259", anys(4), clock(1, 128), "refused 12 259\n"),
    ]
}

/// As many terms as may be, or more, and more pairs at the same step or one step on.
fn terms() -> Vec<Meeting> {
    let crossing = || crossing_book(8, 7, 1, 1);
    let (just, more) = (memory_book(28, 5, &[28]), memory_book(28, 5, &[14, 15]));
    // On a and on b the last rule stays as it is; so b leads back to the start.
    let two = || star(Expr::Range(b'a', b'b'));
    let fresh = |last: u8| literal(&(128..=last).collect::<Vec<u8>>());
    let around = |rest| Book::of([remembering(28, 5), vec![cat(two(), rest)]].concat());
    let just_back = around(alt(Expr::Empty, fresh(154)));
    let grown = rule(cat(star(one(0)), growing(61)));
    vec![
        meet("Pool, one pair before Pairs", crossing(), clock(9, 130), "refused 7 324\n"),
        meet("Pairs and Pool at one step", crossing(), clock(9, 131), "refused 12 325\n"),
        meet("2048 terms", just, lone(0), differs(b"aaaaaac", 1, 0)),
        meet("2049 terms", more, lone(0), "refused 7 44\n"),
        meet("2048 terms, back by b", just_back, lone(0), differs(b"a", 29, 0)),
        meet("2049 terms, back by b", around(fresh(155)), lone(0), "refused 7 38\n"),
        meet("Pool at the start, met again", grown, lone(0), "refused 7 0\n"),
    ]
}

/// Long and Pairs at the last pair that there can be, and a term of 255 nodes and one of
/// 256 beyond the older caps.
fn long() -> Vec<Meeting> {
    let far = |byte: u8| rule(cat(any(31), star(power(&one(byte), 65))));
    let behind = |rest| {
        let row = power(&one(b'x'), 30);
        Book::of([remembering(1, 6), vec![cat(row, rest)]].concat())
    };
    let eight = differs(b"aaaaaaac", 1, 0);
    vec![
        meet("Long at pair 512", far(0), funnel(31, 16), "refused 6 512\n"),
        meet("Pairs at pair 512", far(b'a'), funnel(31, 16), "refused 12 512\n"),
        meet("255 nodes at pair 290", behind(nodes_255()), clock(2, 0), eight),
        meet("256 nodes at pair 290", behind(nodes_256()), clock(2, 0), "refused 6 290\n"),
    ]
}

/// A book and a table that first differ after exactly so many bytes, from 505 on, with
/// one pair for each number of bytes. The masks know this number modulo 9, 7 and 4, as
/// the table does, and leave one number in 252 to the last rule. That rule knows it
/// modulo 8: it has `length - 252` and not `length`, and by a row also `length - 504`.
fn masked(length: usize) -> (Book, Table) {
    let at = |modulus, from| cat(any(from), star(any(modulus)));
    let mask = |modulus: usize| {
        let others = (0..modulus).filter(|&from| from != length % modulus);
        others.map(|from| at(modulus, from)).reduce(alt).expect("there are others")
    };
    let last = alt(any(length - 504), at(8, (length - 252) % 8));
    let label = |state: usize| {
        let masks = [9, 7, 4].iter().position(|&by| state % by != length % by);
        masks.map_or(4, |mask| mask + 1)
    };
    let table = Table { labels: (0..252).map(label).collect(), ..clock(252, 0) };
    (Book::of(vec![mask(9), mask(7), mask(4), last]), table)
}

/// Differences after many bytes: by a table that is a row of 255 states, and the ones
/// that only so many pairs allow.
fn texts() -> Vec<Meeting> {
    let rounds = |times| rule(star(any(times)));
    let behind = rule(cat(any(1), star(any(64))));
    let shifted = [1, 65, 129, 193]
        .iter()
        .fold(chain(255, 255), |table, &length| relabelled(&table, &vec![0; length], 1));
    let late = |name, length: usize, expect: String| {
        let (book, table) = masked(length);
        meet(name, book, table, expect)
    };
    let zeros = |length: usize| differs(&vec![0; length], 0, 4);
    vec![
        meet("255 bytes", rounds(51), chain(255, 51), differs(&[0; 255], 1, 0)),
        meet("256 bytes, (any^64)*", rounds(64), chain(255, 64), differs(&[0; 256], 1, 0)),
        meet("257 bytes", behind, shifted, differs(&[0; 257], 1, 0)),
        meet("258 bytes", rounds(43), chain(255, 43), differs(&[0; 258], 1, 0)),
        late("510 bytes", 510, zeros(510)),
        late("511 bytes", 511, zeros(511)),
        late("512 bytes", 512, zeros(512)),
        late("513 pairs, one for each length", 513, "refused 12 512\n".to_string()),
    ]
}

/// The slowest comparison that was found: many pairs, and each byte derived by itself.
/// It stands alone, since telling it text by text would take minutes.
pub fn slowest() -> Meeting {
    let book = Book::of(vec![ends_odd(125), ends_odd(109), star(any(10))]);
    meet("510 pairs, 251 runs each", book, clock(17, 0), differs(&[1], 1, 0))
}
