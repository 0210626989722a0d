//! The model's test of itself, first part: books and the sample book with its worked
//! lines, behind `numberchecks`; then come `sheetchecks`, `capchecks`, `crosschecks`,
//! `bothchecks`, `comparisons` and `typed_checks`.

use crate::book;
use crate::bothchecks;
use crate::brute;
use crate::capchecks;
use crate::comparisons;
use crate::crosschecks;
use crate::cut::{cut, first_word, End, Word};
use crate::damage::damage;
use crate::faults;
use crate::limits::NODES;
use crate::numberchecks;
use crate::padded;
use crate::prng::Rng;
use crate::programs;
use crate::raised_sheets::BEGINNINGS;
use crate::random::{heavy_book, scanner_book, small_book, wide_book};
use crate::refusal::{Fault, Refusal};
use crate::sheet;
use crate::sheetchecks;
use crate::sheets;
use crate::typed_checks;
use crate::versions;
use crate::worked::{sample_book, sample_table, OUTPUT, SAMPLE, TEXT};

/// Counts checks and names those that fail.
#[derive(Default)]
pub struct Checks {
    passed: usize,
    failed: usize,
}

impl Checks {
    pub fn check(&mut self, what: &str, right: bool) {
        if right {
            self.passed += 1;
        } else {
            self.failed += 1;
            if self.failed <= 30 {
                println!("failed: {what}");
            }
        }
    }

    /// Says how many there were; answers whether none failed.
    fn end(&self) -> bool {
        println!("{} passed, {} failed", self.passed, self.failed);
        self.failed == 0
    }
}

/// Runs every check; answers whether none failed.
pub fn run() -> bool {
    let mut checks = Checks::default();
    numberchecks::run(&mut checks);
    books(&mut checks);
    faulty(&mut checks);
    sample(&mut checks);
    sheetchecks::run(&mut checks);
    capchecks::run(&mut checks);
    crosschecks::run(&mut checks);
    bothchecks::run(&mut checks);
    comparisons::run(&mut checks);
    typed_checks::run(&mut checks);
    checks.end()
}

/// Runs the checks of And and Not alone.
pub fn run_both() -> bool {
    let mut checks = Checks::default();
    bothchecks::run(&mut checks);
    checks.end()
}

/// Runs the checks of typed texts alone.
pub fn run_typed() -> bool {
    let mut checks = Checks::default();
    typed_checks::run(&mut checks);
    checks.end()
}

/// The refusals that reading a book has.
const OF_BOOKS: [Fault; 6] =
    [Fault::Short, Fault::Number, Fault::Padded, Fault::Range, Fault::Stack, Fault::Tail];

fn books(checks: &mut Checks) {
    for seed in 0..600 {
        let mut rng = Rng::part(1, seed);
        let book = match seed % 4 {
            0 => small_book(&mut rng, 6, 12),
            1 => wide_book(&mut rng),
            2 => scanner_book(&mut rng),
            _ => heavy_book(&mut rng),
        };
        if book.nodes() > NODES {
            continue;
        }
        let bytes = book.write();
        checks.check("a book read again", book::read(&bytes) == Ok(book));
        let short = |length| {
            let refusal = book::read(&bytes[..length]).expect_err("it is too short");
            refusal.fault == Fault::Short && length - refusal.place <= 2
        };
        checks.check("every early end is Short", (0..bytes.len()).all(short));
        let late = [&bytes[..], &[rng.byte()]].concat();
        let tail = Refusal { fault: Fault::Tail, place: bytes.len() };
        checks.check("a spare byte is Tail", book::read(&late) == Err(tail));
        for _ in 0..40 {
            let mut spoilt = bytes.clone();
            damage(&mut rng, &mut spoilt);
            let right = match book::read(&spoilt) {
                Ok(book) => book.write() == spoilt,
                Err(refusal) => refusal.place <= spoilt.len() && OF_BOOKS.contains(&refusal.fault),
            };
            checks.check("a damaged book is refused or written alike", right);
        }
    }
}

/// The files written by hand; fault 0 is none.
fn faulty(checks: &mut Checks) {
    let found = |refusal: Option<Refusal>| refusal.map_or((0, 0), |r| (r.fault as u8, r.place));
    let later = versions::BOOKS.iter().chain(versions::MORE);
    for (bytes, fault, place) in faults::BOOKS.iter().chain(padded::BOOKS).chain(later) {
        let read = found(book::read(bytes).err());
        checks.check(&format!("book {bytes:02X?}: {read:?}"), read == (*fault, *place));
    }
    for (bytes, fault, place) in faults::SHEETS.iter().chain(BEGINNINGS).chain(padded::SHEETS) {
        let read = found(sheet::read(bytes).err());
        checks.check(&format!("sheet {bytes:02X?}: {read:?}"), read == (*fault, *place));
    }
}

fn sample(checks: &mut Checks) {
    let (book, table) = (sample_book(), sample_table());
    let own = sheet::write(&table);
    checks.check("sample nodes", book.rules.len() == 4 && book.nodes() == 12);
    checks.check("sample written", book.write() == SAMPLE);
    checks.check("sample labels", table.labels == [0, 0, 4, 3, 2, 2, 1]);
    checks.check("sample dead state", table.row(1).iter().all(|&target| target == 1));
    checks.check("sample t and to", table.step(0, b't') == 5 && table.step(5, b'o') == 6);
    let lines: [(&[u8], usize); 7] =
        [(b"to", 1), (b"tom", 2), (b"t", 2), (b"7", 3), (b" ", 4), (b"", 0), (b"t7", 0)];
    for (text, label) in lines {
        checks.check("P1 to P7", table.label(text) == label);
        checks.check("P1 to P7 by sets", brute::label(&book, text) == label);
    }
    let words: [(&[u8], Option<(usize, usize)>); 3] =
        [(b"t7", Some((1, 1))), (b"tom 7", Some((3, 1))), (b"#", None)];
    for (text, word) in words {
        checks.check("P8 to P10", first_word(&table, text) == word);
        checks.check("P8 to P10 by sets", brute::first_word(&book, text) == word);
    }
    let output = programs::cut(Some(&SAMPLE), Some(TEXT));
    checks.check("sample output", output == OUTPUT.as_bytes());
    let compared = |sheet: &[u8]| programs::comparison(Some(&SAMPLE), Some(sheet));
    checks.check("sample against its own sheet", compared(&own) == b"same\n");
    for take_out in [true, false] {
        let sheet = sheet::write(&sheets::merged(&table, 5, 4, take_out));
        checks.check("sample against a merged sheet", compared(&sheet) == b"differs 2 1 2\n746f\n");
    }
    let words = [Word { start: 0, length: 2, rule: 0 }, Word { start: 2, length: 1, rule: 3 }];
    let full = (words.to_vec(), End::Full { count: 2, place: 3 });
    checks.check("sample with room for two", cut(&table, TEXT, 2) == full);
    checks.check("no room", cut(&table, TEXT, 0) == (vec![], End::Full { count: 0, place: 0 }));
    let stuck = (words[..1].to_vec(), End::Stuck { count: 1, place: 2 });
    checks.check("stuck before full", cut(&table, b"to#", 1) == stuck);
    // Rules 1 and 1.1: the text 1.. begins with the word 1.
    let dots = book::Book::of(vec![book::literal(b"1"), book::literal(b"1.1")]);
    let output = programs::cut(Some(&dots.write()), Some(b"1.."));
    checks.check("back to the last label", output == b"0 1 0 1\nstuck 1\n");
}
