//! Cases for the program `rules` from a seed: a typed text, perhaps an older book and a
//! text to cut, with what the program prints and tells, the book that is there afterwards
//! and the words that it cuts by what the rules mean as they are typed.

use crate::advice;
use crate::book;
use crate::build::build;
use crate::cases::File;
use crate::limits::{BOOK_FILE, RULES, RULES_FILE, TYPED_AREA};
use crate::prng::Rng;
use crate::programs;
use crate::random::{joined_text, nearby_text};
use crate::typed::lines;
use crate::typed_fixed::{fixed_texts, more_texts};
use crate::typed_meaning::{words, LONGEST};
use crate::typed_random::{damage, filled_text, line, loose_text, right_text, TELLING};
use crate::worked::{SAMPLE, TEXT};
use std::fs;
use std::io;
use std::path::Path;

/// A text with all that can be typed, short enough to be cut off at every byte.
pub const RICH: &[u8] = b"0: \n12:(a|<xdigit>+)*\\4fB?|.()\n";

/// One case: where it comes from, the file words.rules and the words.book before.
#[derive(Clone)]
struct TypedCase {
    name: String,
    rules: File,
    old: File,
}

impl TypedCase {
    fn new(name: &str, rules: File) -> TypedCase {
        TypedCase { name: name.to_string(), rules, old: File::Missing }
    }

    /// Writes the inputs and what is expected into a new folder: what the program prints
    /// with the book that is there afterwards, and if it is a new one, a cut by it; and
    /// what the program tells on standard error.
    fn put(&self, rng: &mut Rng, folder: &Path) -> io::Result<()> {
        fs::create_dir_all(folder)?;
        self.rules.put(&folder.join("words.rules"))?;
        self.old.put(&folder.join("words.book"))?;
        fs::write(folder.join("about"), format!("{}\n", self.name))?;
        fs::write(folder.join("rules.told"), advice::told(self.rules.bytes()))?;
        let (line, after) = match programs::rules(self.rules.bytes()) {
            Ok(book) => {
                let text = subject(rng, &book);
                let typed = self.rules.bytes().expect("it was read");
                fs::write(folder.join("cut.out"), cut_as_typed(typed, &book, &text))?;
                fs::write(folder.join("text"), text)?;
                (String::new(), Some(book))
            }
            Err(refusal) => (refusal.line(), self.old.bytes().map(<[u8]>::to_vec)),
        };
        let after = after.map_or(vec![], |book| [b"words.book\n", &book[..]].concat());
        fs::write(folder.join("rules.out"), [line.as_bytes(), &after].concat())
    }
}

/// A text to cut by a book, short enough to be cut as typed.
fn subject(rng: &mut Rng, bytes: &[u8]) -> Vec<u8> {
    let book = book::read(bytes).expect("it was written");
    let length = rng.within(0, 60);
    let mut text = match rng.below(6) {
        0 => nearby_text(rng, &book, length / 2),
        _ => joined_text(rng, &book, length),
    };
    if rng.chance(15) {
        let at = rng.below(text.len() + 1);
        text.insert(at, rng.byte());
    }
    if bytes == SAMPLE {
        text = TEXT.to_vec();
    }
    assert!(text.len() <= LONGEST);
    text
}

/// What `cut` prints: the words by the meaning of what was typed, if the book builds.
pub fn cut_as_typed(typed: &[u8], bytes: &[u8], text: &[u8]) -> String {
    let book = book::read(bytes).expect("it was written");
    match build(&book) {
        Ok(_) => {
            let (words, end) = words(&lines(typed), text);
            programs::listed(&book, &words, end)
        }
        Err(refusal) => refusal.line(),
    }
}

/// Writes `count` cases of a seed: first the fixed ones, then random ones. A case
/// depends on the seed and its number only.
pub fn put_typed_cases(count: usize, seed: u64, folder: &Path) -> io::Result<()> {
    let first = fixed_cases();
    for number in 1..=count {
        // Not the numbers that the cases of the other programs are made from.
        let rng = &mut Rng::part(!seed, number as u64);
        let mut case = match first.get(number - 1) {
            Some(case) => case.clone(),
            None => random_case(rng),
        };
        case.old = old_book(rng, number);
        case.put(rng, &folder.join(format!("{number:05}")))?;
    }
    Ok(())
}

/// The book before, in every other case: a right one, an empty file, the longest, any bytes.
fn old_book(rng: &mut Rng, number: usize) -> File {
    if number % 2 == 0 {
        return File::Missing;
    }
    File::Bytes(match rng.below(4) {
        0 => SAMPLE.to_vec(),
        1 => Vec::new(),
        2 => vec![0xFF; BOOK_FILE],
        _ => {
            let length = rng.within(1, 60);
            rng.bytes(length)
        }
    })
}

/// The fixed cases; the program's area is always long enough.
fn fixed_cases() -> Vec<TypedCase> {
    let bytes = |name: &str, text: &[u8]| TypedCase::new(name, File::Bytes(text.to_vec()));
    let texts = fixed_texts().into_iter().chain(more_texts());
    let whole = texts.filter(|fixed| fixed.area >= TYPED_AREA);
    let mut cases: Vec<TypedCase> = whole.map(|fixed| bytes(&fixed.name, &fixed.text)).collect();
    cases.push(TypedCase::new("no file", File::Missing));
    cases.push(TypedCase::new("the file is a folder", File::Folder));
    for (name, text) in [("right text", &b"1:a\n"[..]), ("wrong text", b"|\n")] {
        let over = text.iter().copied().cycle().take(RULES_FILE + 1).collect::<Vec<u8>>();
        cases.push(bytes(&format!("{name} of 32769 bytes"), &over));
    }
    for length in 0..=RICH.len() {
        cases.push(bytes(&format!("rich text, {length} bytes of it"), &RICH[..length]));
    }
    cases
}

/// A random case.
fn random_case(rng: &mut Rng) -> TypedCase {
    let (name, text) = random_text(rng);
    TypedCase::new(name, File::Bytes(text))
}

/// A random typed text, right or wrong.
pub fn random_text(rng: &mut Rng) -> (&'static str, Vec<u8>) {
    let mut text = right_text(rng);
    match rng.below(100) {
        0..=39 => ("right text", text),
        40..=51 => {
            let length = rng.below(text.len());
            text.truncate(length);
            ("right text, cut off", text)
        }
        52..=76 => {
            damage(rng, &mut text);
            ("right text, one byte damaged", text)
        }
        77..=82 => {
            for _ in 0..rng.within(2, 4) {
                damage(rng, &mut text);
            }
            ("right text, damaged", text)
        }
        83..=90 => ("text of about 512 nodes", filled_text(rng)),
        91..=95 => ("loose text", loose_text(rng)),
        96..=98 => {
            for _ in 0..rng.within(1, 2 * RULES) {
                let atoms = rng.within(1, 3);
                text.extend(line(rng, atoms));
            }
            ("text of many lines", text)
        }
        _ => {
            // As long as a file may be, a byte shorter or a byte longer.
            let length = RULES_FILE - 1 + rng.below(3);
            while text.len() < length - 5_000 {
                let atoms = rng.within(1, 200);
                text.extend(line(rng, atoms));
            }
            text.extend(b"1:");
            text.resize(length - 1, b'a');
            text.push(if rng.chance(70) { b'\n' } else { *rng.pick(TELLING) });
            ("longest text", text)
        }
    }
}
