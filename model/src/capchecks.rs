//! The model's test of itself, third part: books, comparisons and sheets that meet or
//! pass a limit, the order of limits at one step, and what raising the caps changes.

use crate::book::{self, Book};
use crate::both::{both_edges, both_meetings, other_edges};
use crate::build::{alike, build_by, compare, compare_by};
use crate::comparisons;
use crate::edges::{all, crossing_book, meetings, memory_book, Edge, Meeting};
use crate::limits::{Caps, CAPS, OLDER, SHEET_FILE, SHOWN};
use crate::notes::notes_meetings;
use crate::programs;
use crate::raised_builds::raised_edges;
use crate::raised_meetings::{raised_meetings, slowest};
use crate::raised_sheets::{raised_sheets, Lent, LONGEST};
use crate::refusal::{Fault, Refusal};
use crate::selftest::Checks;
use crate::sheet::{self, Table};
use crate::sheets;
use crate::starts::starts;

pub fn run(checks: &mut Checks) {
    for edge in all_edges() {
        let given = outcome(&edge);
        checks.check(&format!("{}: {given}", edge.name), given == edge.expect);
        raising_builds(checks, &edge.book);
        build_by_texts(checks, &edge);
    }
    for meeting in all_meetings() {
        let Meeting { name, book, table, expect } = meeting;
        let output = programs::comparison(Some(&book.write()), Some(&sheet::write(&table)));
        let given = String::from_utf8_lossy(&output).to_string();
        checks.check(&format!("{name}: {given}"), given == expect);
        comparisons::least_texts(checks, &book, &table, CAPS);
        raising_comparisons(checks, &book, &table);
    }
    let Meeting { name, book, table, expect } = slowest();
    let lines =
        compare(&book, &table).map_or_else(|refusal| refusal.line(), |answer| answer.lines());
    checks.check(name, lines == expect);
    for lent in raised_sheets() {
        whole_sheet(checks, &lent);
    }
    let longest = raised_sheets().iter().map(|lent| lent.sheet.len()).max();
    checks.check("the longest sheet", longest == Some(LONGEST) && LONGEST == 196_608);
    checks.check("the text area holds every text", CAPS.pairs <= SHOWN);
    at_once(checks);
}

/// Books at a limit, older or raised.
fn all_edges() -> impl Iterator<Item = Edge> {
    all().into_iter().chain(raised_edges()).chain(both_edges()).chain(other_edges())
}

/// Comparisons at a limit, older or raised, and those that turn on the start.
fn all_meetings() -> impl Iterator<Item = Meeting> {
    let later = notes_meetings().into_iter().chain(both_meetings());
    meetings().into_iter().chain(starts()).chain(raised_meetings()).chain(later)
}

/// What the reading and the build of a book at a limit give.
fn outcome(edge: &Edge) -> String {
    let built = book::read(&edge.book.write());
    match built.and_then(|book| build_by(&book, &alike(&book), CAPS)) {
        Ok(built) => format!("{} states, {} terms", built.table.count(), built.pool),
        Err(refusal) => refusal.line().trim_end().to_string(),
    }
}

/// A build is a walk against one state. Where no text leads back to the start, the
/// vectors after vector 0 are the pairs that count, so that texts tell its refusals too.
fn build_by_texts(checks: &mut Checks, edge: &Edge) {
    let (book, one) = (&edge.book, sheets::lone(0));
    let caps = Caps { pairs: CAPS.states - 1, ..CAPS };
    let built = build_by(book, &alike(book), CAPS);
    if built.as_ref().is_ok_and(|built| built.table.targets.contains(&0)) {
        return;
    }
    let built = built.err();
    if built.is_some() {
        // Texts tell slowly; the places of refusals are worth it.
        comparisons::least_texts(checks, book, &one, caps);
    }
    let pairs = |refusal: Refusal| match refusal.fault {
        Fault::States => Refusal { fault: Fault::Pairs, ..refusal },
        _ => refusal,
    };
    let compared = compare_by(book, &one, &alike(book), caps).err();
    checks.check(&format!("{} by texts", edge.name), compared == built.map(pairs));
}

/// Raised caps change nothing but a refusal by a cap, which goes or comes no earlier.
fn raised_right<T: PartialEq>(old: Result<T, Refusal>, new: Result<T, Refusal>) -> bool {
    let later = |old: Refusal| new.as_ref().err().is_none_or(|new| new.place >= old.place);
    match old {
        Err(old) if old.fault != Fault::Long => later(old),
        old => old == new,
    }
}

fn raising_builds(checks: &mut Checks, book: &Book) {
    let built = |caps| build_by(book, &alike(book), caps).map(|built| (built.table, built.pool));
    checks.check("a build by raised caps", raised_right(built(OLDER), built(CAPS)));
}

fn raising_comparisons(checks: &mut Checks, book: &Book, table: &Table) {
    let compared = |caps| {
        let found = compare_by(book, table, &alike(book), caps);
        found.map(|found| (found.answer, found.pairs, found.pool))
    };
    checks.check("a comparison by raised caps", raised_right(compared(OLDER), compared(CAPS)));
}

/// A whole sheet by the library, and by the program, which refuses it if it is too long.
fn whole_sheet(checks: &mut Checks, lent: &Lent) {
    let answer = sheet::read(&lent.sheet).and_then(|table| compare(&lent.book, &table));
    let given = answer.map_or_else(|refusal| refusal.line(), |answer| answer.lines());
    checks.check(&format!("{}: {given}", lent.name), given == lent.expect);
    let output = programs::comparison(Some(&lent.book.write()), Some(&lent.sheet));
    let expect = if lent.sheet.len() > SHEET_FILE { "refused 13 0\n" } else { &lent.expect };
    checks.check(lent.name, output == expect.as_bytes());
}

/// States and Pairs come before Pool: with room for one more, the same step refuses Pool.
fn at_once(checks: &mut Checks) {
    let older = [(10, 6, 2, 1), (12, 6, 3, 2), (13, 6, 4, 1)];
    for (rules, back, round, length) in older {
        states_first(checks, &crossing_book(rules, back, round, length), OLDER);
    }
    states_first(checks, &crossing_book(7, 7, 1, 127), CAPS);
    for lengths in [[76, 76], [70, 82]] {
        states_first(checks, &memory_book(7, 7, &lengths), CAPS);
    }
    pairs_first(checks, &crossing_book(8, 6, 1, 1), &sheets::clock(8, 67), OLDER, 164);
    pairs_first(checks, &crossing_book(8, 7, 1, 1), &sheets::clock(9, 131), CAPS, 325);
}

fn states_first(checks: &mut Checks, book: &Book, caps: Caps) {
    let wider = Caps { states: caps.states + 1, ..caps };
    let refused = |caps| build_by(book, &alike(book), caps).map(|built| built.table).err();
    let by = |fault| move |refusal: Refusal| (refusal.fault == fault).then_some(refusal.place);
    let first = refused(caps).and_then(by(Fault::States));
    let second = refused(wider).and_then(by(Fault::Pool));
    checks.check("States before Pool", first.is_some() && first == second);
}

fn pairs_first(checks: &mut Checks, book: &Book, table: &Table, caps: Caps, place: usize) {
    let wider = Caps { pairs: caps.pairs + 1, ..caps };
    let refused = |caps| compare_by(book, table, &alike(book), caps).err();
    let pairs = Refusal { fault: Fault::Pairs, place };
    let pool = Refusal { fault: Fault::Pool, place };
    let right = refused(caps) == Some(pairs) && refused(wider) == Some(pool);
    checks.check("Pairs before Pool", right);
}

/// Prints every book and meeting at a limit with what it gives.
pub fn print_limits() {
    for edge in all_edges() {
        let (nodes, bytes) = (edge.book.nodes(), edge.book.write().len());
        println!("{}: {nodes} nodes, {bytes} bytes: {}", edge.name, outcome(&edge));
    }
    for Meeting { name, book, table, .. } in all_meetings() {
        match compare_by(&book, &table, &alike(&book), CAPS) {
            Ok(found) => println!("{name}: {} pairs, {} terms", found.pairs, found.pool),
            Err(refusal) => print!("{name}: {}", refusal.line()),
        }
    }
}
