//! The model's test of itself, last part: typed texts. Fixed ones and short ones, where
//! wrong bytes are told in several ways; then `typed_laws` has random ones, and
//! `advice_checks` what people are told.

use crate::advice_checks;
use crate::book;
use crate::brute::all_texts;
use crate::limits::{OPEN, RULES_FILE, TYPED_AREA};
use crate::programs;
use crate::refusal::Fault;
use crate::selftest::Checks;
use crate::typed;
use crate::typed_cases::RICH;
use crate::typed_fixed::{fixed_texts, more_texts, Fixed};
use crate::typed_grammar::wrong_by_grammar;
use crate::typed_laws;
use crate::typed_readings::reads_one_way;
use crate::typed_sets::{ranges, NAMES};
use crate::typed_short::Short;
use crate::typed_stored::answer;
use crate::typed_wrong::wrong;
use std::thread;

/// Stack for texts of any length.
const STACK: usize = 128 * 1_024;

pub fn run(checks: &mut Checks) {
    sets(checks);
    for fixed in fixed_texts().into_iter().chain(more_texts()) {
        expected(checks, &fixed);
    }
    longest(checks);
    every_byte(checks);
    short(checks, b"01:()|*\\>-\n", 5, 10);
    short(checks, b"1:a ()+.?\n", 5, 9);
    short(checks, b"1:<>alp\n", 5, 12);
    cut_off(checks);
    files(checks);
    large(checks);
    typed_laws::run(checks);
    advice_checks::run(checks);
}

/// The sets by a table, and by what the machine's library has of them.
fn sets(checks: &mut Checks) {
    let table: [(&str, &[(u8, u8)]); 12] = [
        ("alnum", &[(0x30, 0x39), (0x41, 0x5A), (0x61, 0x7A)]),
        ("alpha", &[(0x41, 0x5A), (0x61, 0x7A)]),
        ("blank", &[(0x09, 0x09), (0x20, 0x20)]),
        ("cntrl", &[(0x00, 0x1F), (0x7F, 0x7F)]),
        ("digit", &[(0x30, 0x39)]),
        ("graph", &[(0x21, 0x7E)]),
        ("lower", &[(0x61, 0x7A)]),
        ("print", &[(0x20, 0x7E)]),
        ("punct", &[(0x21, 0x2F), (0x3A, 0x40), (0x5B, 0x60), (0x7B, 0x7E)]),
        ("space", &[(0x09, 0x0D), (0x20, 0x20)]),
        ("upper", &[(0x41, 0x5A)]),
        ("xdigit", &[(0x30, 0x39), (0x41, 0x46), (0x61, 0x66)]),
    ];
    checks.check("names of sets", table.map(|(name, _)| name) == NAMES);
    checks.check("23 ranges", table.iter().map(|(_, ranges)| ranges.len()).sum::<usize>() == 23);
    for (name, expect) in table {
        checks.check(&format!("ranges of {name}"), ranges(name) == expect);
        for byte in 0..=255u8 {
            let right = match name {
                "alnum" => byte.is_ascii_alphanumeric(),
                "alpha" => byte.is_ascii_alphabetic(),
                "blank" => byte == b' ' || byte == b'\t',
                "cntrl" => byte.is_ascii_control(),
                "digit" => byte.is_ascii_digit(),
                "graph" => byte.is_ascii_graphic(),
                "lower" => byte.is_ascii_lowercase(),
                "print" => byte.is_ascii_graphic() || byte == b' ',
                "punct" => byte.is_ascii_punctuation(),
                "space" => byte.is_ascii_whitespace() || byte == 0x0B,
                "upper" => byte.is_ascii_uppercase(),
                _ => byte.is_ascii_hexdigit(),
            };
            let has = ranges(name).iter().any(|&(lo, hi)| lo <= byte && byte <= hi);
            checks.check(&format!("{byte} in {name}"), has == right);
        }
    }
}

/// A fixed text gives what it has to.
fn expected(checks: &mut Checks, fixed: &Fixed) {
    let Fixed { name, text, area, expect } = fixed;
    let found = answer(text, *area);
    let counts = typed::book(text, *area)
        .map(|book| format!("{} rules, {} nodes", book.rules.len(), book.nodes()));
    let right = found == *expect || counts == Ok(expect.clone());
    checks.check(&format!("{name}: {found}, not {expect}"), right);
    let by_grammar = wrong_by_grammar(text);
    checks.check(&format!("{name}, by grammar"), by_grammar == wrong(text));
}

/// The longest book, and the longest text of a book.
fn longest(checks: &mut Checks) {
    for (name, length, book_length) in
        [("longest book", 1_040, 1_701), ("longest text of a book", 19_776, 1_157)]
    {
        let texts = fixed_texts().into_iter().chain(more_texts());
        let fixed = texts.into_iter().find(|fixed| fixed.name == name).expect("it is there");
        let book = typed::book(&fixed.text, TYPED_AREA).expect("it is right").write();
        let found = (fixed.text.len(), book.len());
        checks.check(&format!("{name}: {found:?}"), found == (length, book_length));
    }
}

/// Every byte behind a beginning of every kind, by the bytes that may stand there.
fn every_byte(checks: &mut Checks) {
    let parts = |parts: &[&[u8]]| parts.concat();
    let digits = b"0123456789";
    let hex = b"0123456789ABCDEFabcdef";
    let letters: Vec<u8> = (b'A'..=b'Z').chain(b'a'..=b'z').collect();
    let inner = parts(&[&letters, digits, b" .\\<"]);
    let atom = parts(&[&inner, b"("]);
    let behind = parts(&[&atom, b"*+?|\n"]);
    let held = parts(&[&atom, b"*+?|)"]);
    let full = vec![b'('; OPEN];
    let deep = |end: &[u8]| parts(&[b"1:", &full, end]);
    let ways: Vec<(Vec<u8>, Vec<u8>)> = vec![
        (b"".to_vec(), digits.to_vec()),
        (b"1:a\n".to_vec(), digits.to_vec()),
        (b"0".to_vec(), b":".to_vec()),
        (b"1".to_vec(), parts(&[digits, b":"])),
        (b"10".to_vec(), parts(&[digits, b":"])),
        (b"1:".to_vec(), atom.clone()),
        (b"1:a|".to_vec(), atom.clone()),
        (b"1:(a|".to_vec(), atom.clone()),
        (b"1:(".to_vec(), parts(&[&atom, b")"])),
        (b"1:a((".to_vec(), parts(&[&atom, b")"])),
        (b"1:a".to_vec(), behind.clone()),
        (b"1:a?".to_vec(), behind.clone()),
        (b"1:()".to_vec(), behind.clone()),
        (b"1:.".to_vec(), behind.clone()),
        (b"1: ".to_vec(), behind.clone()),
        (b"1:\\41".to_vec(), behind.clone()),
        (b"1:<digit>".to_vec(), behind.clone()),
        (b"1:(a)".to_vec(), behind),
        (b"1:(a".to_vec(), held.clone()),
        (b"1:(()".to_vec(), held.clone()),
        (b"1:(a*".to_vec(), held),
        (b"1:\\".to_vec(), hex.to_vec()),
        (b"1:\\4".to_vec(), hex.to_vec()),
        (b"1:<".to_vec(), b"abcdglpsux".to_vec()),
        (b"1:<a".to_vec(), b"l".to_vec()),
        (b"1:<al".to_vec(), b"np".to_vec()),
        (b"1:<p".to_vec(), b"ru".to_vec()),
        (b"1:<digi".to_vec(), b"t".to_vec()),
        (b"1:<xdigit".to_vec(), b">".to_vec()),
        (deep(b""), parts(&[&inner, b")"])),
        (deep(b"a"), parts(&[&inner, b"*+?|)"])),
        (deep(b"a|"), inner),
        (deep(b"a)"), parts(&[&atom, b"*+?|)"])),
    ];
    for (begin, right) in ways {
        for byte in 0..=255 {
            let text = [&begin[..], &[byte]].concat();
            let may = right.contains(&byte);
            let place = |found: Option<usize>| found == Some(begin.len());
            let name = format!("{byte} behind {}", begin.escape_ascii());
            checks.check(&name, place(wrong(&text)) != may);
            checks.check(&format!("{name}, by grammar"), place(wrong_by_grammar(&text)) != may);
        }
    }
}

/// All texts of the given bytes with at most `most` of them: the first wrong byte is the
/// first with which no right text begins, of those that are not longer than `longest`.
fn short(checks: &mut Checks, bytes: &[u8], most: usize, longest: usize) {
    let right = Short::of(bytes, longest);
    for text in all_texts(bytes, most) {
        let found = wrong(&text);
        let name = format!("short text {}", text.escape_ascii());
        checks.check(&name, found == right.wrong(&text));
        checks.check(&format!("{name}, by grammar"), found == wrong_by_grammar(&text));
        checks.check(&format!("{name}, read"), found.is_none() == reads_one_way(&text));
    }
    // Right texts are fewer, so longer ones can be read too.
    let read = right.texts().filter(|text| text.len() < longest);
    for text in read {
        let name = format!("short right text {}", text.escape_ascii());
        checks.check(&name, wrong(text).is_none() && reads_one_way(text));
    }
}

/// The rich text: a part of it stops too early, except behind a line.
fn cut_off(checks: &mut Checks) {
    for length in 0..=RICH.len() {
        let whole = length == 0 || RICH[length - 1] == b'\n';
        let right = if whole { None } else { Some(length) };
        checks.check(&format!("{length} bytes of the rich text"), wrong(&RICH[..length]) == right);
    }
    checks.check("the rich text is right", typed::book(RICH, TYPED_AREA).is_ok());
}

/// The file words.rules: missing, at its greatest size, and longer.
fn files(checks: &mut Checks) {
    let fault = |text: Option<&[u8]>| programs::rules(text).map_err(|r| (r.fault, r.place));
    let long = |length: usize| "1:a\n".repeat(length / 4 + 1).into_bytes()[..length].to_vec();
    checks.check("no file", fault(None) == Err((Fault::Input, 0)));
    checks.check("empty file", fault(Some(b"")) == Err((Fault::Range, 0)));
    let full = fault(Some(&long(RULES_FILE)));
    checks.check("longest file", full == Err((Fault::Range, 128)));
    let over = fault(Some(&long(RULES_FILE + 1)));
    checks.check("file too long", over == Err((Fault::Input, 0)));
    let read = fault(Some(b"1:a\n")).map(|bytes| book::read(&bytes).is_ok());
    checks.check("right file", read == Ok(true));
}

/// Texts of 100,000 bytes, with little stack.
fn large(checks: &mut Checks) {
    let hold = |inner: &str| format!("{}{inner}{}", "(".repeat(OPEN), ")".repeat(OPEN));
    let texts: Vec<(String, &str)> = vec![
        (format!("1:{}\n", "a".repeat(99_997)), "refused 3 0"),
        (format!("1:a{}\n", "+".repeat(99_996)), "refused 3 0"),
        (format!("1:a{}\n", "?".repeat(99_996)), "refused 3 0"),
        (format!("1:a{}\n", "*+?".repeat(33_332)), "refused 3 0"),
        (format!("1:a{}\n", "|a".repeat(49_998)), "refused 3 0"),
        (format!("1:{}\n", "()".repeat(49_998)), "refused 3 0"),
        (format!("1:{}\n", "<punct>+".repeat(12_500)), "refused 3 0"),
        (format!("1:{}\n", hold("a").repeat(1_538)), "refused 3 0"),
        (format!("1:{}\n", hold(&"a|b".repeat(30_000))), "refused 3 0"),
        (format!("1:{}\n", hold(&"a)+(a".repeat(10_000))), "refused 3 0"),
        (format!("{}:a\n", "9".repeat(99_997)), "refused 3 0"),
        (format!("1:a\n{}:a\n", "9".repeat(99_993)), "refused 3 4"),
        ("1:a\n".repeat(25_000), "refused 3 128"),
        ("1:a\n".repeat(24_999) + "1:a|", "refused 14 100000"),
        ("16384:a\n".repeat(12_499) + "00000000", "refused 14 99993"),
        (format!("1:{}", "a".repeat(99_998)), "refused 14 100000"),
        (format!("1:{})", "a".repeat(99_997)), "refused 14 99999"),
        ("(".repeat(100_000), "refused 14 0"),
        (format!("1:{}", "(".repeat(99_998)), "refused 14 34"),
        (format!("1:{}{}", "a|(".repeat(33_332), "(("), "refused 14 100"),
    ];
    for (text, expect) in texts {
        let name = format!("{}... of {} bytes", &text[..12].escape_debug(), text.len());
        let by_grammar = wrong_by_grammar(text.as_bytes()) == wrong(text.as_bytes());
        checks.check(&format!("{name}, by grammar"), by_grammar);
        let work = move || answer(text.as_bytes(), TYPED_AREA);
        let thread = thread::Builder::new().stack_size(STACK).spawn(work);
        let found = thread.expect("a thread starts").join().unwrap_or("no answer".to_string());
        checks.check(&format!("{name}: {found}, not {expect}"), found == expect);
    }
}
