//! The random cases behind the fixed ones: of version 1, or of version 2 with And and Not or
//! without them; some with another version or code, some with a number too long.

use crate::book::Book;
use crate::cases::{case_of, random_book, random_case, Case, File};
use crate::damage::{lengthen, places};
use crate::limits::{LAST_VERSION, NODES};
use crate::prng::Rng;
use crate::random_both::{
    crowded_mixed, heavy_mixed, looping_mixed, scanner_mixed, small_mixed, wide_mixed,
};

/// A random case, in which a version, a code or a number may be wrong.
pub fn drawn_case(rng: &mut Rng) -> Case {
    let mut case = if rng.chance(60) { random_case(rng) } else { later_case(rng) };
    let (file, name) = match rng.below(100) {
        0..=11 => (&mut case.book, ", a number of the book too long"),
        12..=29 => (&mut case.sheet, ", a number of the sheet too long"),
        30..=34 => (&mut case.book, ", another version"),
        35..=39 => (&mut case.book, ", another code"),
        _ => return case,
    };
    let File::Bytes(bytes) = file else { return case };
    match name {
        ", another version" => other_version(rng, bytes),
        ", another code" => other_code(rng, bytes),
        _ => lengthen(rng, bytes),
    }
    case.name += name;
    case
}

/// A random case whose book has version 2.
fn later_case(rng: &mut Rng) -> Case {
    let (name, mut book) = later_book(rng);
    book.version = LAST_VERSION;
    case_of(rng, &format!("later {name}"), &book)
}

/// A random book, nearly always with And or Not.
pub fn later_book(rng: &mut Rng) -> (&'static str, Book) {
    let (name, book) = match rng.below(100) {
        0..=17 => ("small", small_mixed(rng, 4, 14)),
        18..=33 => ("looping", looping_mixed(rng)),
        34..=45 => ("middling", small_mixed(rng, 6, 30)),
        46..=63 => ("scanner", scanner_mixed(rng)),
        64..=72 => ("wide", wide_mixed(rng)),
        73..=88 => ("heavy", heavy_mixed(rng)),
        89..=92 => ("crowded", crowded_mixed(rng)),
        _ => random_book(rng),
    };
    // A book with too many nodes is refused when it is read; few should be.
    if book.nodes() > NODES && rng.chance(90) {
        return ("small", small_mixed(rng, 3, 9));
    }
    (name, book)
}

/// Writes another version in front.
fn other_version(rng: &mut Rng, bytes: &mut Vec<u8>) {
    let versions: [&[u8]; 8] = [&[0], &[1], &[1], &[2], &[2], &[3], &[127], &[0x80, 0x01]];
    if !bytes.is_empty() {
        bytes.splice(..1, rng.pick(&versions).to_vec());
    }
}

/// Writes a code of version 2, or one that no version has, over a number that could be one.
fn other_code(rng: &mut Rng, bytes: &mut [u8]) {
    let mut codes: Vec<usize> = places(bytes).into_iter().skip(2).map(|(from, _)| from).collect();
    codes.retain(|&at| (3..=8).contains(&bytes[at]));
    if !codes.is_empty() {
        bytes[*rng.pick(&codes)] = *rng.pick(&[4, 5, 7, 7, 7, 8, 8, 8, 9, 9, 10]);
    }
}
