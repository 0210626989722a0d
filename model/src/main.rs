//! A model of the word cutter, written from its specification alone; it does what the
//! programs do, makes cases for them with the expected outputs, and tests itself.

mod advice;
mod advice_checks;
mod book;
mod both;
mod bothchecks;
mod brute;
mod build;
mod capchecks;
mod cases;
mod comparisons;
mod crosschecks;
mod cut;
mod damage;
mod drawn;
mod edges;
mod faults;
mod limits;
mod notes;
mod number;
mod numberchecks;
mod padded;
mod printed;
mod prng;
mod programs;
mod raised_builds;
mod raised_meetings;
mod raised_sheets;
mod random;
mod random_both;
mod refusal;
mod selftest;
mod sheet;
mod sheetchecks;
mod sheets;
mod starts;
mod stored;
mod telling;
mod term;
mod typed;
mod typed_cases;
mod typed_checks;
mod typed_fixed;
mod typed_grammar;
mod typed_laws;
mod typed_limits;
mod typed_meaning;
mod typed_random;
mod typed_readings;
mod typed_sets;
mod typed_short;
mod typed_stored;
mod typed_wrong;
mod versions;
mod worked;

use std::fs;
use std::io::{self, Read, Write};
use std::path::Path;
use std::process::ExitCode;

const USAGE: &str = "model cut DIR | compare DIR | sheet DIR | rules DIR | advice DIR
    | typed AREA | cases N SEED OUT | typed-cases N SEED OUT | stored DIR
    | typed-stored DIR | limits | selftest | selftest both | selftest typed";

fn main() -> ExitCode {
    let arguments: Vec<String> = std::env::args().skip(1).collect();
    let words: Vec<&str> = arguments.iter().map(String::as_str).collect();
    match run(&words) {
        Ok(true) => ExitCode::SUCCESS,
        Ok(false) => ExitCode::FAILURE,
        Err(error) => {
            eprintln!("model: {error}");
            ExitCode::from(2)
        }
    }
}

/// Runs one subcommand; answers whether all is well.
fn run(words: &[&str]) -> io::Result<bool> {
    match words {
        ["cut", folder] => {
            let (book, text) = (file(folder, "words.book"), input().ok());
            io::stdout().write_all(&programs::cut(book.as_deref(), text.as_deref()))?;
        }
        ["compare", folder] => {
            let (book, sheet) = (file(folder, "words.book"), file(folder, "words.sheet"));
            io::stdout().write_all(&programs::comparison(book.as_deref(), sheet.as_deref()))?;
        }
        ["sheet", folder] => match programs::sheet(file(folder, "words.book").as_deref()) {
            Ok(sheet) => fs::write(Path::new(folder).join("words.sheet"), sheet)?,
            Err(refusal) => print!("{}", refusal.line()),
        },
        ["rules", folder] => match programs::rules(file(folder, "words.rules").as_deref()) {
            Ok(book) => fs::write(Path::new(folder).join("words.book"), book)?,
            Err(refusal) => print!("{}", refusal.line()),
        },
        ["advice", folder] => print!("{}", advice::told(file(folder, "words.rules").as_deref())),
        ["typed", area] => println!("{}", typed_stored::answer(&input()?, number(area)?)),
        ["cases", count, seed, folder] => {
            cases::put_cases(number(count)?, number(seed)?, Path::new(folder))?;
        }
        ["typed-cases", count, seed, folder] => {
            typed_cases::put_typed_cases(number(count)?, number(seed)?, Path::new(folder))?;
        }
        ["stored", folder] => stored::put_stored(Path::new(folder))?,
        ["typed-stored", folder] => typed_stored::put_typed_stored(Path::new(folder))?,
        ["limits"] => capchecks::print_limits(),
        ["selftest"] => return Ok(selftest::run()),
        ["selftest", "both"] => return Ok(selftest::run_both()),
        ["selftest", "typed"] => return Ok(selftest::run_typed()),
        _ => return Err(io::Error::other(USAGE)),
    }
    Ok(true)
}

/// A number of the command line.
fn number<T: std::str::FromStr>(word: &str) -> io::Result<T> {
    word.parse().map_err(|_| io::Error::other(USAGE))
}

/// All of standard input.
fn input() -> io::Result<Vec<u8>> {
    let mut bytes = Vec::new();
    io::stdin().read_to_end(&mut bytes)?;
    Ok(bytes)
}

/// A file's bytes, if it can be read.
fn file(folder: &str, name: &str) -> Option<Vec<u8>> {
    fs::read(Path::new(folder).join(name)).ok()
}
