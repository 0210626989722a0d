//! What people are told, for the model's test of itself: the examples and tables of the
//! page for users by hand, and random texts, where it is told in other ways.

use crate::advice::{could_stand, listed, told};
use crate::limits::{OPEN, RULES, RULES_FILE};
use crate::prng::Rng;
use crate::programs;
use crate::refusal::{Fault, Refusal};
use crate::selftest::Checks;
use crate::typed_cases::random_text;
use crate::typed_fixed::{fixed_texts, more_texts};
use crate::typed_grammar::next_by_grammar;
use std::collections::BTreeSet;

const NO_FILE: &str = "words.rules cannot be read, or has more than 32768 bytes.\n";
const NO_RULE: &str = "words.rules has no rule.\n";
const WRONG: &str = "no rule goes on with this byte.";
const PAST: &str = "with this line there are more than 32 rules, or its kind is above 16383, \
                    or the nodes are more than 512 in all.";

/// What could stand where an expression is due, behind an item, and behind one that
/// stands in parentheses.
const DUE: &str = r"space ( . 0-9 < A-Z \ a-z";
const BEHIND: &str = r"newline space ( * + . 0-9 < ? A-Z \ a-z |";
const HELD: &str = r"space ( ) * + . 0-9 < ? A-Z \ a-z |";

pub fn run(checks: &mut Checks) {
    examples(checks);
    files(checks);
    wrong_bytes(checks);
    out_of_range(checks);
    lists(checks);
    for fixed in fixed_texts().into_iter().chain(more_texts()) {
        other_ways(checks, &fixed.text);
        every_place(checks, &fixed.text);
    }
    for seed in 0..3_000 {
        let (_, text) = random_text(&mut Rng::part(73, seed));
        if text.len() <= 4_000 || seed % 20 == 0 {
            other_ways(checks, &text);
        }
    }
}

/// The file gives this line on standard output, and this is told.
fn gives(checks: &mut Checks, file: Option<&[u8]>, line: &str, expect: &str) {
    let name = file.map_or("no file".to_string(), |text| text.escape_ascii().to_string());
    let printed = programs::rules(file).err().map_or(String::new(), |refusal| refusal.line());
    checks.check(&format!("{name}: {printed}"), printed.trim_end() == line);
    let found = told(file);
    checks.check(&format!("told on {name}: {found}"), found == expect);
}

fn examples(checks: &mut Checks) {
    let wrong = "\
words.rules, line 2, column 7: no rule goes on with this byte.
2:<alpx>+
      ^
here could stand: h
";
    let early = "\
words.rules, line 2, column 11: the text ends here, but the rule does not.
2:<lower>+
          ^
here could stand: newline space ( * + . 0-9 < ? A-Z \\ a-z |
";
    let past = "\
words.rules, line 2, column 1: with this line there are more than 32 rules, \
or its kind is above 16383, or the nodes are more than 512 in all.
16384:a
";
    gives(checks, Some(b"1:to\n2:<alpx>+\n"), "refused 14 11", wrong);
    gives(checks, Some(b"1:to\n2:<lower>+"), "refused 14 15", early);
    gives(checks, Some(b"1:to\n16384:a\n"), "refused 3 5", past);
}

/// No file, no rule, files of the greatest length and longer, and right ones.
fn files(checks: &mut Checks) {
    let right = |length: usize| b"1:a\n".repeat(RULES_FILE).into_iter().take(length);
    let over = right(RULES_FILE + 1).collect::<Vec<u8>>();
    let full = right(RULES_FILE).collect::<Vec<u8>>();
    gives(checks, None, "refused 13 0", NO_FILE);
    gives(checks, Some(&over), "refused 13 0", NO_FILE);
    gives(checks, Some(&[b')'; RULES_FILE + 1]), "refused 13 0", NO_FILE);
    gives(checks, Some(b""), "refused 3 0", NO_RULE);
    let past = format!("words.rules, line 33, column 1: {PAST}\n1:a\n");
    gives(checks, Some(&full), "refused 3 128", &past);
    gives(checks, Some(b"1:a\n"), "", "");
    gives(checks, Some(b"1:to\n2:<lower>+\n3:<digit>+\n"), "", "");
}

/// The page's table of wrong texts, and a few more.
fn wrong_bytes(checks: &mut Checks) {
    // The text, the place, its line and column, the line as it is shown, what could stand.
    type Row<'a> = (&'a [u8], usize, usize, usize, &'a str, &'a str);
    let deep = "1:".to_string() + &"(".repeat(OPEN + 1);
    let table: &[Row] = &[
        (b"1:<alph>\n", 7, 1, 8, "1:<alph>", "a"),
        (b"1:<Alpha>\n", 3, 1, 4, "1:<Alpha>", "a-d g l p s u x"),
        (b"00:a\n", 1, 1, 2, "00:a", ":"),
        (b"2 :a\n", 1, 1, 2, "2 :a", "0-9 :"),
        (b"1:a\n\n", 4, 2, 1, "", "0-9"),
        (b"1:\n", 2, 1, 3, "1:", DUE),
        (b"1:(a|)\n", 5, 1, 6, "1:(a|)", DUE),
        (b"1:*\n", 2, 1, 3, "1:*", DUE),
        (b"1:a-b\n", 3, 1, 4, "1:a-b", BEHIND),
        (b"1:a)\n", 3, 1, 4, "1:a)", BEHIND),
        (b"1:(a\n", 4, 1, 5, "1:(a", HELD),
        (b"1:\\4\n", 4, 1, 5, "1:\\4", "0-9 A-F a-f"),
        (deep.as_bytes(), 34, 1, 35, &deep, r"space ) . 0-9 < A-Z \ a-z"),
        (b"1:a\r\n", 3, 1, 4, "1:a?", BEHIND),
        // Not in the table.
        (b"70000:a\n2:)\n", 10, 2, 3, "2:)", DUE),
        (b"\xEF\xBB\xBF1:a\n", 0, 1, 1, "???1:a", "0-9"),
        (b"\n1:a\n", 0, 1, 1, "", "0-9"),
        (b"1:a\x1F ~\x7F\x80\xFF\0\t\n2:b\n", 3, 1, 4, "1:a? ~?????", BEHIND),
        (b"1:a\n\n\n2:b\n", 4, 2, 1, "", "0-9"),
        (b"1:a\n2:<p>\n3:c", 8, 2, 5, "2:<p>", "r u"),
        (b"1:a\n2:<digit", 12, 2, 9, "2:<digit", ">"),
    ];
    for &(text, place, line, column, shown, could) in table {
        let why =
            if place == text.len() { "the text ends here, but the rule does not." } else { WRONG };
        let mark = format!("{:>column$}", "^");
        let expect = format!(
            "words.rules, line {line}, column {column}: {why}\n{shown}\n{mark}\n\
             here could stand: {could}\n"
        );
        gives(checks, Some(text), &format!("refused 14 {place}"), &expect);
    }
}

/// The page's table of texts out of range.
fn out_of_range(checks: &mut Checks) {
    let lines = "1:a\n".repeat(RULES + 1);
    let many = "1:a+++++++\n2:a+++++\n3:a+++\n4:a++\n5:a+\n6:a\n";
    let table = [
        (&lines[..], 128, 33, "1:a"),
        (many, 38, 6, "6:a"),
        ("1:a++++++++\n", 0, 1, "1:a++++++++"),
        // Not in the table: other lines behind it, and a longer kind.
        ("1:a\n16384:b \n3:c\n", 4, 2, "16384:b "),
        ("99999999999999999999:a\n", 0, 1, "99999999999999999999:a"),
    ];
    for (text, place, line, shown) in table {
        let expect = format!("words.rules, line {line}, column 1: {PAST}\n{shown}\n");
        gives(checks, Some(text.as_bytes()), &format!("refused 3 {place}"), &expect);
    }
}

/// Bytes in a list: only letters and digits are joined, and two of them are too.
fn lists(checks: &mut Checks) {
    let table: [(&[u8], &str); 7] = [
        (b"", ""),
        (b"ab", " a-b"),
        (b"acd", " a c-d"),
        (b"()*+", " ( ) * +"),
        (b"/019:", " / 0-1 9 :"),
        (b"@ABYZ[`az{", " @ A-B Y-Z [ ` a z {"),
        (b"\0\t\n\x1F !~\x7F\x80\xFF", " ? ? newline ? space ! ~ ? ? ?"),
    ];
    for (bytes, expect) in table {
        checks.check(&format!("list{expect}"), listed(bytes) == expect);
    }
}

/// Line and column of what comes behind some bytes, counted byte by byte.
fn reached(before: &[u8]) -> (usize, usize) {
    before.iter().fold((1, 1), |(line, column), byte| match byte {
        b'\n' => (line + 1, 1),
        _ => (line, column + 1),
    })
}

/// The bytes that a list names.
fn read_list(list: &str) -> BTreeSet<u8> {
    let word = |word: &str| match word.as_bytes() {
        b"newline" => b'\n'..=b'\n',
        b"space" => b' '..=b' ',
        [first, b'-', last] => *first..=*last,
        [byte] => *byte..=*byte,
        _ => unreachable!("{word} is no word of a list"),
    };
    list.split(' ').flat_map(word).collect()
}

/// What is told, by its parts: the place counted byte by byte, the byte above the mark, and
/// what could stand there by the grammar.
fn other_ways(checks: &mut Checks, text: &[u8]) {
    let name = format!("told on {}", text.escape_ascii());
    let found = told(Some(text));
    let lines: Vec<&str> = found.split_terminator('\n').collect();
    let Err(Refusal { fault, place }) = programs::rules(Some(text)) else {
        return checks.check(&name, found.is_empty());
    };
    if fault == Fault::Input || text.is_empty() {
        return checks.check(&name, lines.len() == 1);
    }
    let (line, column) = reached(&text[..place]);
    let begin = format!("words.rules, line {line}, column {column}: ");
    checks.check(&format!("{name}, place"), lines[0].starts_with(&begin));
    let here = lines[1].bytes().nth(column - 1);
    let byte = text.get(place).filter(|&&byte| byte != b'\n');
    let right = byte.map(|&byte| if matches!(byte, 32..=126) { byte } else { b'?' });
    checks.check(&format!("{name}, byte"), here == right);
    if fault == Fault::Typed {
        let mark = lines[2].bytes().position(|byte| byte == b'^');
        checks.check(&format!("{name}, mark"), mark == Some(column - 1) && lines.len() == 4);
        let list = lines[3].strip_prefix("here could stand: ").map(read_list);
        checks.check(&format!("{name}, list"), list == Some(next_by_grammar(&text[..place])));
    } else {
        checks.check(&format!("{name}, its lines"), column == 1 && lines.len() == 2);
    }
}

/// What could stand at the first hundred places, up to a wrong byte, by the grammar.
fn every_place(checks: &mut Checks, text: &[u8]) {
    for place in 0..=text.len().min(100) {
        let by_grammar = next_by_grammar(&text[..place]);
        if by_grammar.is_empty() {
            return;
        }
        let found: BTreeSet<u8> = could_stand(&text[..place]).into_iter().collect();
        checks
            .check(&format!("bytes behind {}", text[..place].escape_ascii()), found == by_grammar);
    }
}
