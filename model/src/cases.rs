//! Cases from a seed: a book, a text and a sheet, with what the three programs have
//! to give for them, written into numbered folders for a driver.

use crate::book::Book;
use crate::build::{alike, build, compare_by};
use crate::damage::damage;
use crate::drawn::drawn_case;
use crate::edges::{crossing_book, filled, growing, remembering};
use crate::limits::{Caps, BOOK_FILE, CAPS, PAIRS, POOL, RULES, SHEET_FILE, STATES, TEXT_FILE};
use crate::prng::Rng;
use crate::programs;
use crate::random::{expr, heavy_book, joined_text, nearby_text, plain};
use crate::random::{looping_book, scanner_book, small_book, wide_book};
use crate::sheet::{self, Table};
use crate::sheets;
use crate::worked::fixed;
use std::fs;
use std::io;
use std::path::Path;

/// A file of a case.
#[derive(Clone, Debug)]
pub enum File {
    Bytes(Vec<u8>),
    Missing,
    /// A folder has the file's name, so it cannot be read.
    Folder,
}

impl File {
    pub fn bytes(&self) -> Option<&[u8]> {
        match self {
            File::Bytes(bytes) => Some(bytes),
            _ => None,
        }
    }

    pub fn put(&self, path: &Path) -> io::Result<()> {
        match self {
            File::Bytes(bytes) => fs::write(path, bytes),
            File::Missing => Ok(()),
            File::Folder => fs::create_dir(path),
        }
    }
}

/// One case: where it comes from, and the three inputs.
#[derive(Clone, Debug)]
pub struct Case {
    pub name: String,
    pub book: File,
    pub text: Vec<u8>,
    pub sheet: File,
}

impl Case {
    /// Writes the inputs and the expected outputs into a new folder.
    fn put(&self, folder: &Path) -> io::Result<()> {
        let (book, sheet) = (self.book.bytes(), self.sheet.bytes());
        let written = programs::sheet(book);
        fs::create_dir_all(folder)?;
        self.book.put(&folder.join("words.book"))?;
        self.sheet.put(&folder.join("words.sheet"))?;
        fs::write(folder.join("text"), &self.text)?;
        fs::write(folder.join("about"), format!("{}\n", self.name))?;
        fs::write(folder.join("cut.out"), programs::cut(book, Some(&self.text)))?;
        fs::write(folder.join("compare.out"), programs::comparison(book, sheet))?;
        fs::write(folder.join("sheet.out"), written.unwrap_or_else(|r| r.line().into_bytes()))
    }
}

/// Writes `count` cases of a seed: first the fixed ones, then random ones. A case
/// depends on the seed and its number only.
pub fn put_cases(count: usize, seed: u64, folder: &Path) -> io::Result<()> {
    let first = fixed(&mut Rng::part(seed, 0));
    for number in 1..=count {
        let case = match first.get(number - 1) {
            Some(case) => case.clone(),
            None => drawn_case(&mut Rng::part(seed, number as u64)),
        };
        case.put(&folder.join(format!("{number:05}")))?;
    }
    Ok(())
}

/// A random case of version 1; stored cases are among them, so that a seed must go on
/// giving the same.
pub fn random_case(rng: &mut Rng) -> Case {
    let (name, book) = random_book(rng);
    case_of(rng, name, &book)
}

/// A random case of the given book.
pub fn case_of(rng: &mut Rng, book_name: &str, book: &Book) -> Case {
    let (text_name, text) = random_text(rng, book);
    let (sheet_name, sheet) = random_sheet(rng, book);
    let (fault, bytes) = spoilt(rng, book.write(), BOOK_FILE);
    let name = format!("{book_name} book{fault}, {text_name} text, {sheet_name}");
    Case { name, book: bytes, text, sheet }
}

pub fn random_book(rng: &mut Rng) -> (&'static str, Book) {
    match rng.below(100) {
        0..=14 => ("small", small_book(rng, 4, 14)),
        15..=41 => ("looping", looping_book(rng)),
        42..=52 => ("middling", small_book(rng, 8, 40)),
        53..=63 => ("scanner", scanner_book(rng)),
        64..=78 => ("wide", wide_book(rng)),
        79..=93 => ("heavy", heavy_book(rng)),
        _ => ("crowded", crowded_book(rng)),
    }
}

/// A book whose terms come near the cap on distinct ones, or just meet or pass it.
fn crowded_book(rng: &mut Rng) -> Book {
    if rng.chance(50) {
        let (back, round) = (rng.within(5, 7), rng.within(1, 5));
        // A rule has about 2^(back + 1) terms, and no more rules have room in a book.
        let rules = (POOL / (2 << back)).min(28) - rng.below(3);
        return crossing_book(rules, back, round, rng.within(1, 10));
    }
    let mut exprs = match rng.chance(50) {
        true => remembering(14, 6),
        false => vec![growing(rng.within(57, 60) as u8)],
    };
    for i in 0..rng.within(0, 4) as u8 {
        let letters = [33 + 3 * i, 34 + 3 * i, 35 + 3 * i];
        let nodes = rng.within(6, 16);
        exprs.push(plain(&expr(rng, &letters, nodes), letters));
    }
    filled(exprs, POOL + rng.below(2))
}

/// The bytes as they are, or damaged, or replaced, or not there.
fn spoilt(rng: &mut Rng, mut bytes: Vec<u8>, most: usize) -> (&'static str, File) {
    match rng.below(100) {
        0..=74 => ("", File::Bytes(bytes)),
        75..=92 => {
            for _ in 0..*rng.pick(&[1, 1, 1, 2, 3]) {
                damage(rng, &mut bytes);
            }
            (" (damaged)", File::Bytes(bytes))
        }
        93..=96 => {
            // Random bytes that begin well, most of them small.
            let count = rng.within(0, 40);
            let mut bytes = vec![1, rng.within(1, 4) as u8];
            for _ in 0..count {
                let most = *rng.pick(&[3, 7, 7, 40, 255]);
                bytes.push(rng.within(0, most) as u8);
            }
            (" (random bytes)", File::Bytes(bytes))
        }
        97 => (" (missing)", File::Missing),
        98 => {
            bytes.resize(most, 0);
            (" (longest)", File::Bytes(bytes))
        }
        _ => {
            bytes.resize(most + 1, 0);
            (" (too long)", File::Bytes(bytes))
        }
    }
}

fn random_text(rng: &mut Rng, book: &Book) -> (&'static str, Vec<u8>) {
    let length = rng.within(0, 200);
    match rng.below(100) {
        0..=49 => ("joined", joined_text(rng, book, length)),
        50..=69 => ("nearby", nearby_text(rng, book, length / 3)),
        70..=77 => ("random", rng.bytes(length / 4)),
        78..=81 => ("all bytes", (0..=255).collect()),
        82..=84 => ("empty", Vec::new()),
        85..=95 => {
            let mut text = joined_text(rng, book, length);
            for _ in 0..rng.within(1, 3) {
                let at = rng.below(text.len() + 1);
                text.insert(at, rng.byte());
            }
            ("broken", text)
        }
        96..=98 => {
            let length = rng.within(1_000, 8_000);
            ("long", joined_text(rng, book, length))
        }
        _ => {
            let length = TEXT_FILE + rng.below(2);
            let mut text = joined_text(rng, book, length);
            text.resize(length, b' ');
            ("longest", text)
        }
    }
}

/// A sheet for a book: of its own build or changed from it, if it builds.
fn random_sheet(rng: &mut Rng, book: &Book) -> (String, File) {
    let (name, table) = match build(book) {
        Ok(table) => related_table(rng, book, &table),
        Err(_) => other_table(rng),
    };
    let (fault, file) = spoilt(rng, sheet::write(&table), SHEET_FILE);
    (format!("{name} sheet{fault}"), file)
}

fn related_table(rng: &mut Rng, book: &Book, table: &Table) -> (&'static str, Table) {
    let count = table.count();
    match rng.below(100) {
        0..=7 => ("own", table.clone()),
        8..=10 => ("round", round_table(rng, book)),
        11..=13 if count < STATES => ("deep", deep_table(rng, table)),
        11..=13 => ("own", table.clone()),
        14..=24 => ("renumbered", sheets::shuffled(rng, table)),
        25..=32 => {
            // A few states more, or as many as there may be and perhaps one.
            let many = rng.chance(30) && count < STATES;
            let more = if many { STATES - count + rng.below(2) } else { rng.within(1, 4) };
            let wider = sheets::with_spare(rng, table, more);
            ("wider", sheets::shuffled(rng, &wider))
        }
        33..=46 => {
            let (gone, kept) = (rng.below(count), rng.below(count));
            ("merged", sheets::merged(table, gone, kept, rng.chance(70) && gone != kept))
        }
        47..=62 => ("changed", sheets::changed(rng, table)),
        63..=66 => {
            let mut high = table.clone();
            let label = rng.within(1, RULES + 1);
            high.labels[rng.below(count)] = label;
            ("relabelled", high)
        }
        67..=88 => other_start(rng, table),
        _ => other_table(rng),
    }
}

/// The table with another label on its start, to which texts lead back as before, or
/// none does; perhaps changed elsewhere too.
fn other_start(rng: &mut Rng, table: &Table) -> (&'static str, Table) {
    let table = if rng.chance(70) { table.clone() } else { sheets::changed(rng, table) };
    let label = if rng.chance(50) { 0 } else { rng.within(1, RULES) };
    match rng.chance(70) {
        true => ("start relabelled", sheets::relabelled(&table, b"", label)),
        false => ("start apart", sheets::apart(&table, label)),
    }
}

/// A clock, spread so far that about as many pairs as may be count with the book.
fn round_table(rng: &mut Rng, book: &Book) -> Table {
    let pairs = |round| {
        let caps = Caps { pairs: 4 * PAIRS, ..CAPS };
        let found = compare_by(book, &sheets::clock(round, 0), &alike(book), caps);
        found.map_or(PAIRS, |found| found.pairs)
    };
    // Each state of a clock has about as many pairs as each of another one.
    let each = (pairs(19) / 19).max(1);
    let round = (PAIRS / each).saturating_sub(rng.below(9)).clamp(1, STATES);
    let more = (PAIRS + rng.below(3)).saturating_sub(pairs(round) + 1);
    sheets::clock(round, more.min(STATES - round))
}

/// The same table with as many states as there may be, or one that differs from it only
/// after many bytes.
fn deep_table(rng: &mut Rng, table: &Table) -> Table {
    let mut deep = sheets::unrolled(table, STATES);
    if rng.chance(70) {
        deep.labels[STATES - 1 - table.count()] = rng.below(RULES + 1);
    }
    deep
}

fn other_table(rng: &mut Rng) -> (&'static str, Table) {
    match rng.below(10) {
        0..=3 => {
            let count = *rng.pick(&[1, 1, 2, 3, 10, 40, 128, 129, 200, STATES - 1, STATES]);
            ("random", sheets::random(rng, count))
        }
        4 => {
            let most = *rng.pick(&[60, STATES - 3]);
            let (round, dead) = (rng.within(1, most), rng.within(1, 3));
            ("counter", sheets::counter(b'a', round, dead))
        }
        5 => {
            let most = *rng.pick(&[100, STATES - 20]);
            let (round, spread) = (rng.within(1, 20), rng.within(0, most));
            ("clock", sheets::clock(round, spread))
        }
        _ => match build(&small_book(rng, 3, 12)) {
            Ok(table) => ("another book's", table),
            Err(_) => ("random", sheets::random(rng, 5)),
        },
    }
}
