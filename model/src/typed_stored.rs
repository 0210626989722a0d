//! The typed texts that are stored with the project, each with the length of the output
//! area and what they have to give.

use crate::limits::TYPED_AREA;
use crate::prng::Rng;
use crate::typed;
use crate::typed_cases::{random_text, RICH};
use crate::typed_fixed::{fixed_texts, hex};
use std::collections::BTreeMap;
use std::fs;
use std::io;
use std::path::Path;

/// The seed of the random ones, how many are looked at, and their greatest length.
const SEED: u64 = 2027;
const TRIED: u64 = 1_000;
const SMALL: usize = 120;

/// Random texts of every way to make them and every kind of answer.
const EACH: usize = 3;

/// The book in hex, or the refusal.
pub fn answer(text: &[u8], area: usize) -> String {
    match typed::book(text, area) {
        Ok(book) => hex(&book.write()),
        Err(refusal) => refusal.line().trim_end().to_string(),
    }
}

/// The kind of an answer.
fn kind(answer: &str) -> String {
    let words: Vec<&str> = answer.split(' ').collect();
    if words[0] == "refused" {
        words[..2].join(" ")
    } else {
        "book".to_string()
    }
}

fn random_texts() -> Vec<Vec<u8>> {
    let mut alike: BTreeMap<(&str, String), Vec<Vec<u8>>> = BTreeMap::new();
    for number in 0..TRIED {
        let (name, text) = random_text(&mut Rng::part(SEED, number));
        let texts = alike.entry((name, kind(&answer(&text, TYPED_AREA)))).or_default();
        if text.len() <= SMALL && texts.len() < EACH {
            texts.push(text);
        }
    }
    alike.into_values().flatten().collect()
}

/// Writes the texts and the file with all answers, and says what they are.
pub fn put_typed_stored(folder: &Path) -> io::Result<()> {
    let fixed = fixed_texts().into_iter().map(|fixed| (fixed.text, fixed.area)).collect();
    let cuts = (0..=RICH.len()).map(|length| (RICH[..length].to_vec(), TYPED_AREA)).collect();
    let random = random_texts().into_iter().map(|text| (text, TYPED_AREA)).collect();
    let groups: [(&str, Vec<(Vec<u8>, usize)>); 3] = [
        ("by hand: all that can be typed, wrong bytes, limits", fixed),
        ("a text with all that can be typed, cut off at every byte", cuts),
        ("random, right and damaged", random),
    ];
    fs::create_dir_all(folder)?;
    for file in fs::read_dir(folder)? {
        let path = file?.path();
        if path.extension().is_some_and(|extension| extension == "rules") {
            fs::remove_file(path)?;
        }
    }
    let (mut number, mut expected, mut ways) = (0, String::new(), String::new());
    let mut counts: BTreeMap<String, usize> = BTreeMap::new();
    for (about, texts) in groups {
        ways += &format!("| {number:03} to {:03} | {about} |\n", number + texts.len() - 1);
        for (text, area) in texts {
            let answer = answer(&text, area);
            let book = if answer.starts_with("refused") { "" } else { "book " };
            expected += &format!("t{number:03} {area} {book}{answer}\n");
            fs::write(folder.join(format!("t{number:03}.rules")), text)?;
            *counts.entry(kind(&answer)).or_default() += 1;
            number += 1;
        }
    }
    fs::write(folder.join("expected"), expected)?;
    println!("{number} cases\n\n| cases | what they are |\n|---|---|\n{ways}");
    println!("| answer | cases |\n|---|---|");
    for (kind, count) in counts {
        println!("| {kind} | {count} |");
    }
    Ok(())
}
