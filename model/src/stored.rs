//! The cases that are stored beside the program `test_cases`: small books, texts and
//! sheets, what the program has to print for them, and tables that describe them.

use crate::book;
use crate::build::build;
use crate::cases::{random_case, Case};
use crate::damage::damage;
use crate::limits::{CAPS, OLDER, VERSION};
use crate::notes::notes_cases;
use crate::padded::{padded_book_cases, padded_sheet_cases, twice_padded_cases};
use crate::printed::{kind, Printed};
use crate::prng::Rng;
use crate::raised_sheets::{beginning_cases, raised_sheet_cases};
use crate::random::{joined_text, scanner_book, small_book};
use crate::refusal::Refusal;
use crate::sheet;
use crate::sheets::{shuffled, with_spare};
use crate::versions::version_cases;
use crate::worked::{
    book_fault_cases, both_limit_cases, case, limit_cases, meeting_cases, notes_meeting_cases,
    older_longest_cases, raised_limit_cases, raised_meeting_cases, sample_cases, sample_table,
    sheet_fault_cases, start_cases, state_count_cases, SAMPLE, TEXT,
};
use std::collections::BTreeMap;
use std::fs;
use std::io;
use std::path::Path;

/// The seed of all stored cases.
const SEED: u64 = 2026;

/// The longest file of a random case, so that the store stays small, and of one that
/// the older caps do not allow.
const SMALL: usize = 300;
const LARGE: usize = 4_000;

/// Damaged files for each refusal.
const EACH: usize = 8;

/// Random cases, and those with the same kinds of answers past the older caps.
const RANDOM: usize = 118;
const ALIKE: usize = 2;

/// The last version of books when the random and the damaged ones were chosen. They are
/// chosen by it still, so that they keep their files.
const CHOSEN: usize = VERSION;

/// Random cases that are looked at.
const TRIED: u64 = 3_000;

/// Cases that were made in one way; the names of some tell more.
struct Group {
    about: &'static str,
    named: bool,
    cases: Vec<Case>,
}

fn groups() -> Vec<Group> {
    let rng = &mut Rng::part(SEED, 0);
    let group = |about, named, cases| Group { about, named, cases };
    vec![
        group("the sample book: whole, early, late, with forbidden numbers", false, sample_cases()),
        group("books at a limit or an older limit, and just past it", true, limit_cases(rng)),
        group(
            "comparisons at a limit or an older limit, and just past it",
            true,
            meeting_cases(rng),
        ),
        group("books by hand, most with a fault", false, book_fault_cases()),
        group("sheets by hand, most with a fault", false, sheet_fault_cases()),
        group("sheets of 128 and of 129 states", true, state_count_cases()),
        group("the sample's own sheet in another form", true, sample_sheets(rng)),
        group("random books, damaged", false, damaged_books(rng)),
        group("sheets of random books, damaged", false, damaged_sheets(rng)),
        group("random books, texts and sheets", false, random_cases()),
        group("comparisons over non-empty texts", true, start_cases(rng)),
        group("books at a raised cap and just past it", true, raised_limit_cases(rng)),
        group("comparisons at a raised cap and just past it", true, raised_meeting_cases(rng)),
        group("beginnings of sheets of more than 128 states", false, beginning_cases()),
        group("sheets of more than 128 states, and long ones", true, raised_sheet_cases()),
        group("random cases past the older caps", false, raised_random_cases()),
        group("the longest sheet of 128 states", true, older_longest_cases()),
        group("books by hand, a number padded, going on or short", false, padded_book_cases()),
        group("sheets by hand, a number padded, going on or short", false, padded_sheet_cases()),
        group("a book and a sheet with such numbers", false, twice_padded_cases()),
        group("books of versions 0 to 3, codes up to 9", false, version_cases()),
        group("texts with notes, by the book's sheet and a greedy one", true, notes_cases()),
        group("comparisons of a book of notes", true, notes_meeting_cases(rng)),
        group("books with And and Not", true, both_limit_cases(rng)),
    ]
}

/// The kind of an answer by which a case is chosen. A padded number was refused by Number
/// when the cases were chosen, and counts as that still, so that they keep their files.
fn chosen_by(kind: String) -> String {
    if kind == "refused 15" {
        "refused  2".to_string()
    } else {
        kind
    }
}

/// Counts refusals by their kinds, until each has come at enough places.
#[derive(Default)]
struct Places {
    seen: BTreeMap<String, Vec<usize>>,
}

impl Places {
    /// Whether a refusal comes at a new place and is still wanted.
    fn wants(&mut self, refusal: Refusal) -> bool {
        let places = self.seen.entry(chosen_by(kind(&refusal.line()))).or_default();
        let new = places.len() < EACH && !places.contains(&refusal.place);
        if new {
            places.push(refusal.place);
        }
        new
    }

    /// Whether the six refusals that a file can have are all there, two of them as one.
    fn full(&self) -> bool {
        self.seen.values().filter(|places| places.len() == EACH).count() == 5
    }
}

/// Sheets that are the same as the sample's, though their states are not.
fn sample_sheets(rng: &mut Rng) -> Vec<Case> {
    let table = sample_table();
    let (other, wider) = (shuffled(rng, &table), with_spare(rng, &table, 2));
    vec![
        case("states numbered otherwise", &SAMPLE, TEXT, &sheet::write(&other)),
        case("two states that nothing leads to", &SAMPLE, TEXT, &sheet::write(&wider)),
    ]
}

fn damaged_books(rng: &mut Rng) -> Vec<Case> {
    let own = sheet::write(&sample_table());
    let (mut cases, mut places) = (Vec::new(), Places::default());
    while !places.full() {
        let book = if rng.chance(50) { small_book(rng, 4, 14) } else { scanner_book(rng) };
        let mut bytes = book.write();
        damage(rng, &mut bytes);
        if book::read_to(CHOSEN, &bytes).is_err_and(|refusal| places.wants(refusal)) {
            cases.push(case("damaged book", &bytes, b"", &own));
        }
    }
    cases
}

fn damaged_sheets(rng: &mut Rng) -> Vec<Case> {
    let (mut cases, mut places) = (Vec::new(), Places::default());
    while !places.full() {
        let book = small_book(rng, 4, 14);
        let Ok(table) = build(&book) else { continue };
        let mut bytes = sheet::write(&table);
        damage(rng, &mut bytes);
        if sheet::read(&bytes).is_err_and(|refusal| places.wants(refusal)) {
            let text = joined_text(rng, &book, 20);
            cases.push(case("damaged sheet", &book.write(), &text, &bytes));
        }
    }
    cases
}

/// Small random cases: the first ones with every three kinds of answers, then the second
/// ones and so on, until there are as many as wanted.
fn random_cases() -> Vec<Case> {
    let mut found: Vec<(usize, Case)> = Vec::new();
    let mut alike: BTreeMap<Vec<String>, usize> = BTreeMap::new();
    for number in 1..=TRIED {
        let case = random_case(&mut Rng::part(SEED, number));
        let Some(whole) = whole_files(&case, SMALL) else { continue };
        let printed = Printed::to(CHOSEN, &case, CAPS);
        let kinds = printed.kinds().into_iter().map(chosen_by).collect();
        let count = alike.entry(kinds).or_default();
        *count += 1;
        if whole || *count == 1 {
            found.push((*count, case));
        }
    }
    found.sort_by_key(|(count, _)| *count);
    found.truncate(RANDOM);
    assert_eq!(found.len(), RANDOM, "the cases after them keep their numbers");
    found.into_iter().map(|(_, case)| case).collect()
}

/// Random cases of whole files that answer otherwise than by the older caps, a few for
/// every three kinds of answers and every three that they had.
fn raised_random_cases() -> Vec<Case> {
    let mut cases = Vec::new();
    let mut alike: BTreeMap<[Vec<String>; 2], usize> = BTreeMap::new();
    for number in 1..=TRIED {
        let case = random_case(&mut Rng::part(SEED, TRIED + number));
        if whole_files(&case, LARGE) != Some(true) {
            continue;
        }
        let [old, new] = [OLDER, CAPS].map(|caps| Printed::to(CHOSEN, &case, caps));
        if old.text() == new.text() {
            continue;
        }
        let count = alike.entry([old.kinds(), new.kinds()]).or_default();
        *count += 1;
        if *count <= ALIKE {
            cases.push(case);
        }
    }
    cases
}

/// Whether both files are whole, if they are there and no file is longer than `most`.
fn whole_files(case: &Case, most: usize) -> Option<bool> {
    let (book, sheet) = (case.book.bytes()?, case.sheet.bytes()?);
    let small = book.len().max(sheet.len()).max(case.text.len()) <= most;
    small.then(|| book::read_to(CHOSEN, book).is_ok() && sheet::read(sheet).is_ok())
}

/// Writes the files of a case; an empty file is left out, and a text that is not cut.
fn put(case: &Case, printed: &Printed, folder: &Path, number: usize) -> io::Result<()> {
    let (book, sheet) = (case.book.bytes(), case.sheet.bytes().unwrap_or_default());
    fs::write(folder.join(format!("c{number:03}.book")), book.unwrap_or_default())?;
    if !sheet.is_empty() {
        fs::write(folder.join(format!("c{number:03}.sheet")), sheet)?;
    }
    if !case.text.is_empty() && !printed.cut.is_empty() {
        fs::write(folder.join(format!("c{number:03}.text")), &case.text)?;
    }
    Ok(())
}

/// Writes all stored cases and the expected output below a folder, and prints the tables.
pub fn put_stored(folder: &Path) -> io::Result<()> {
    let data = folder.join("data");
    if data.exists() {
        fs::remove_dir_all(&data)?;
    }
    fs::create_dir_all(&data)?;
    let mut out = String::new();
    let mut tables = Tables::default();
    let mut number = 0;
    for group in groups() {
        let last = number + group.cases.len() - 1;
        tables.ways += &format!("| {number:03} to {last:03} | {} |\n", group.about);
        for case in group.cases {
            let printed = Printed::of(&case, CAPS);
            put(&case, &printed, &data, number)?;
            out += &format!("{number:03} {}", printed.text());
            tables.count(&printed);
            if group.named {
                tables.name(number, &case, &printed);
            }
            number += 1;
        }
    }
    fs::write(folder.join("stdout"), out)?;
    println!("{number} cases\n");
    tables.print();
    Ok(())
}

/// The tables that describe the cases.
#[derive(Default)]
struct Tables {
    ways: String,
    counts: BTreeMap<String, [usize; 3]>,
    names: String,
}

impl Tables {
    fn count(&mut self, printed: &Printed) {
        for (column, kind) in printed.kinds().into_iter().enumerate() {
            self.counts.entry(kind).or_default()[column] += 1;
        }
    }

    fn name(&mut self, number: usize, case: &Case, printed: &Printed) {
        let (build, comparison) = (printed.build.trim(), printed.comparison.trim());
        let name = case.name.replace('|', "or");
        self.names += &format!("| {number:03} | {name} | {build} | {comparison} |\n");
    }

    fn print(&self) {
        println!("| cases | what they are |\n|---|---|\n{}", self.ways);
        println!("| answer | builds | cuts | comparisons |\n|---|---|---|---|");
        for (kind, columns) in &self.counts {
            let cells = columns.map(|n| if n == 0 { String::new() } else { n.to_string() });
            println!("| {kind} | {} |", cells.join(" | "));
        }
        println!("\n| case | what it is | the build | the comparison |\n|---|---|---|---|");
        print!("{}", self.names);
    }
}
