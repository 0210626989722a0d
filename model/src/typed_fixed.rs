//! Fixed typed texts, each with what it has to give, worked out by hand: every thing that
//! can be typed and every kind of wrong byte; `typed_limits` has those at the limits.

use crate::limits::{KIND, TYPED_AREA};
use crate::typed_limits::{limit_texts, long_texts, wrapped};
use crate::worked::SAMPLE;

/// A typed text, the length of the output area, and what they have to give: the book in
/// hex, or its rules and nodes, or a refusal.
#[derive(Clone)]
pub struct Fixed {
    pub name: String,
    pub text: Vec<u8>,
    pub area: usize,
    pub expect: String,
}

pub fn fixed(name: &str, text: impl Into<Vec<u8>>, expect: impl Into<String>) -> Fixed {
    Fixed { name: name.to_string(), text: text.into(), area: TYPED_AREA, expect: expect.into() }
}

/// Bytes in hex.
pub fn hex(bytes: &[u8]) -> String {
    bytes.iter().map(|byte| format!("{byte:02x}")).collect()
}

/// Expressions, their number of nodes, and the nodes in hex.
const RIGHT: &[(&str, usize, &str)] = &[
    ("a", 1, "026161"),
    ("Z", 1, "025a5a"),
    ("7", 1, "023737"),
    (" ", 1, "022020"),
    (".", 1, "0200ff01"),
    (r"\00", 1, "020000"),
    (r"\0a", 1, "020a0a"),
    (r"\7F", 1, "027f7f"),
    (r"\80", 1, "0280018001"),
    (r"\Ff", 1, "02ff01ff01"),
    (r"\28\7C\29", 5, "02282802 7c7c03 02292903"),
    (r"\5c\2A", 3, "025c5c 022a2a 03"),
    (r"\411", 3, "024141 023131 03"),
    ("()", 1, "01"),
    ("(())", 1, "01"),
    ("(a)", 1, "026161"),
    ("ab", 3, "026161 026262 03"),
    ("abc", 5, "026161 026262 03 026363 03"),
    ("a(bc)", 5, "026161 026262 026363 03 03"),
    ("(ab)c", 5, "026161 026262 03 026363 03"),
    ("a b", 5, "026161 022020 03 026262 03"),
    ("  ", 3, "022020 022020 03"),
    ("a|b", 3, "026161 026262 04"),
    ("a|b|c", 5, "026161 026262 04 026363 04"),
    ("a|(b|c)", 5, "026161 026262 026363 04 04"),
    ("(a|b)c", 5, "026161 026262 04 026363 03"),
    ("a|bc", 5, "026161 026262 026363 03 04"),
    ("ab|c", 5, "026161 026262 03 026363 04"),
    ("a|()", 3, "026161 01 04"),
    ("()a()", 5, "01 026161 03 01 03"),
    ("a*", 2, "026161 05"),
    ("a+", 4, "026161 026161 05 03"),
    ("a?", 3, "026161 01 04"),
    ("a**", 3, "026161 05 05"),
    ("a??", 5, "026161 01 04 01 04"),
    ("a++", 10, "02616102616105030261610261610503 05 03"),
    ("a*+?", 8, "02616105 02616105 05 03 01 04"),
    ("a?*+", 10, "026161010405 026161010405 05 03"),
    ("ab*", 4, "026161 026262 05 03"),
    ("(ab)*", 4, "026161 026262 03 05"),
    ("a|b+", 6, "026161 026262 026262 05 03 04"),
    ("(a|b)?c", 7, "026161 026262 04 01 04 026363 03"),
    ("()*", 2, "01 05"),
    ("()+", 4, "01 01 05 03"),
    ("()?", 3, "01 01 04"),
    (".*", 2, "0200ff01 05"),
    (r"\2b+", 4, "022b2b 022b2b 05 03"),
    ("<alnum>", 5, "023039 02415a 04 02617a 04"),
    ("<alpha>", 3, "02415a 02617a 04"),
    ("<blank>", 3, "020909 022020 04"),
    ("<cntrl>", 3, "02001f 027f7f 04"),
    ("<digit>", 1, "023039"),
    ("<graph>", 1, "02217e"),
    ("<lower>", 1, "02617a"),
    ("<print>", 1, "02207e"),
    ("<punct>", 7, "02212f 023a40 04 025b60 04 027b7e 04"),
    ("<space>", 3, "02090d 022020 04"),
    ("<upper>", 1, "02415a"),
    ("<xdigit>", 5, "023039 024146 04 026166 04"),
    ("<blank>?", 5, "020909 022020 04 01 04"),
    ("<digit><blank>", 5, "023039 020909 022020 04 03"),
];

/// Texts with an @ before the first wrong byte, or at the end where they stop too early.
const WRONG: &[&[u8]] = &[
    // Names.
    b"1:<alp@x>\n",
    b"1:<alph@>\n",
    b"1:<@>\n",
    b"1:<@Alpha>\n",
    b"1:<alpha@a>\n",
    b"1:<alpha@ >\n",
    b"1:<alpha@\n",
    b"1:<@<digit>>\n",
    // Kinds.
    b"0@0:a\n",
    b"0@1:a\n",
    b"@:a\n",
    b"@ 1:a\n",
    b"1@ :a\n",
    b"1@\n",
    b"1:a@:b\n",
    // Texts that stop too early.
    b"1@",
    b"1:@",
    b"1:a@",
    b"1:a|@",
    b"1:(@",
    b"1:((a)@",
    b"1:\\@",
    b"1:\\4@",
    b"1:<@",
    b"1:<alpha@",
    b"1:a\n2:b@",
    // Lines.
    b"@\n",
    b"1:a\n@\n2:b\n",
    b"1:a\n@\n",
    b"1:a@\r\n",
    // Empty parts.
    b"1:@\n",
    b"1:a|@\n",
    b"1:@|a\n",
    b"1:a|@|b\n",
    b"1:(a|@)\n",
    b"1:(@|a)\n",
    b"1:@*\n",
    b"1:(@+)\n",
    b"1:@)\n",
    b"1:a@)\n",
    b"1:(a@\n)\n",
    // Escapes.
    b"1:\\@g0\n",
    b"1:\\0@G\n",
    b"1:\\@+1\n",
    b"1:\\4@\n",
    // Bytes that cannot stand for themselves.
    b"1:@-\n",
    b"1:a@_\n",
    b"1:@[a]\n",
    b"1:a@\tb\n",
    b"1:a@\x7F\n",
    b"1:@\x80\n",
    // A line out of range, and a wrong byte in it or later.
    b"16384:a|@\n",
    b"16384:a\n1:@|\n",
    b"99999999999999999999:a\n2:b\n3:(c@\n",
    b"16384:a\n1:b@",
];

/// More of them, which are not stored.
const WRONG_TOO: &[&[u8]] = &[
    b"1:<a@scii>\n",
    b"@-1:a\n",
    b"1@a:a\n",
    b"1:a|@?b\n",
    b"1:a|@\xFF\n",
    b"1:<@word>\n",
    b"1:<p@>\n",
    b"1:<digit>@>\n",
    b"1:<@[:digit:]>\n",
    b"1:<digit@|a>\n",
    b"@a:a\n",
    b"@+1:a\n",
    b"1@\0:a\n",
    b"1:@:\n",
    b"0@",
    b"1:a*@",
    b"1:(a@",
    b"1:()@",
    b"1:\\41@",
    b"1:<alpha>@",
    b"@\n1:a\n",
    b"1:a\n@ \n",
    b"1:a\n2:b\n@:c\n",
    b"1:(a|@|b)\n",
    b"1:a(@|)\n",
    b"1:()|@\n",
    b"1:()@)\n",
    b"1:(@\n)\n",
    b"1:\\@n\n",
    b"1:\\@\\41\n",
    b"1:a@,b\n",
    b"1:(@\"a\")\n",
    b"1:a@{2}\n",
    b"1:@\0\x1F ~\x7F\x80\xFF\n",
    b"1:a@\xC3\xA4\n",
    b"@\xEF\xBB\xBF1:a\n",
];

/// Texts with an @ before the first line that brings something out of range.
const PAST: &[&[u8]] = &[
    b"@16384:a\n",
    b"@100000:a\n",
    b"@65537:a\n",
    b"@4294967297:a\n",
    b"@18446744073709551617:a\n",
    b"@340282366920938463463374607431768211457:a\n",
    b"@9999999999999999999999999999999999999999:a\n",
    b"@1000000000000000000000000000000000000000:a\n",
    b"1:a\n@16384:b\n",
    b"1:a\n2:b\n@16384:c\n4:d\n20000:e\n",
];

/// More of them, which are not stored.
const PAST_TOO: &[&[u8]] = &[
    b"@16390:a\n",
    b"@65536:a\n",
    b"@18446744073709551616:a\n",
    b"@4294967296:a\n",
    b"@340282366920938463463374607431768211456:a\n",
];

/// The text without its @, and the place of that.
fn marked(text: &[u8]) -> (Vec<u8>, usize) {
    let place = text.iter().position(|&byte| byte == b'@').expect("a place is marked");
    ([&text[..place], &text[place + 1..]].concat(), place)
}

/// Refusals of marked texts.
fn refusals(number: usize, texts: &[&[u8]]) -> Vec<Fixed> {
    let refused = |text: &&[u8]| {
        let (text, place) = marked(text);
        let name = format!("text {}", text.escape_ascii());
        fixed(&name, text, format!("refused {number} {place}"))
    };
    texts.iter().map(refused).collect()
}

/// All of them that are stored.
pub fn fixed_texts() -> Vec<Fixed> {
    let mut all = Vec::new();
    for &(expr, nodes, expect) in RIGHT {
        let book = format!("010101{nodes:02x}{}", expect.replace(' ', ""));
        all.push(fixed(&format!("expression {expr}"), format!("1:{expr}\n"), book));
    }
    all.extend(refusals(14, WRONG));
    all.extend(refusals(3, PAST));
    all.extend(whole_texts());
    all.extend(limit_texts());
    all
}

/// Whole texts: none at all, the sample book, kinds.
fn whole_texts() -> Vec<Fixed> {
    let sample = "1:to\n2:<lower>+\n3:<digit>+\n0: \n";
    let longer = "1:to\n2:<lower><lower>*\n3:<digit><digit>*\n0: \n";
    let kind = |kind: usize, expect: &str| {
        let text = format!("{kind}:a\n");
        fixed(&format!("kind {kind}"), text, format!("0101{expect}01026161"))
    };
    vec![
        fixed("no line", "", "refused 3 0"),
        fixed("the sample book", sample, hex(&SAMPLE)),
        fixed("the sample book, typed longer", longer, hex(&SAMPLE)),
        fixed("an @ that stands for itself", "1:@\n", "refused 14 2"),
        fixed("digits after the colon", "12:12\n", "0101 0c03 023131 023232 03".replace(' ', "")),
        kind(0, "00"),
        kind(10, "0a"),
        kind(127, "7f"),
        kind(128, "8001"),
        kind(KIND, "ff7f"),
    ]
}

/// The others: more wrong ones, and texts of thousands of bytes.
pub fn more_texts() -> Vec<Fixed> {
    let mut all = refusals(14, WRONG_TOO);
    all.extend(refusals(3, PAST_TOO));
    all.extend(wrapped(&[14, 15, 17, 30, 31, 33, 62, 63, 65, 127, 128]));
    all.extend(long_texts());
    all
}
