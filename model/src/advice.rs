//! What the program `rules` tells people on standard error where it refuses: the line and
//! column of the place, the line itself, and for a wrong byte all that could stand there.

use crate::limits::{KIND, NODES, RULES, RULES_FILE};
use crate::programs;
use crate::refusal::{Fault, Refusal};
use crate::typed_wrong::wrong;

/// What is told on the file words.rules; nothing where all is well.
pub fn told(file: Option<&[u8]>) -> String {
    let Err(Refusal { fault, place }) = programs::rules(file) else {
        return String::new();
    };
    let text = file.unwrap_or_default();
    match fault {
        Fault::Typed => wrongly_typed(text, place),
        Fault::Range if text.is_empty() => "words.rules has no rule.\n".to_string(),
        Fault::Range => out_of_range(text, place),
        Fault::Input => {
            format!("words.rules cannot be read, or has more than {RULES_FILE} bytes.\n")
        }
        _ => unreachable!("typed rules are refused in no other way"),
    }
}

fn wrongly_typed(text: &[u8], place: usize) -> String {
    let why = match place == text.len() {
        true => "the text ends here, but the rule does not",
        false => "no rule goes on with this byte",
    };
    let (_, column) = counted(text, place);
    let mark = " ".repeat(column - 1) + "^";
    let could = listed(&could_stand(&text[..place]));
    format!("{}{mark}\nhere could stand:{could}\n", spot(text, place, why))
}

fn out_of_range(text: &[u8], place: usize) -> String {
    let why = format!(
        "with this line there are more than {RULES} rules, or its kind is above {KIND}, \
         or the nodes are more than {NODES} in all"
    );
    spot(text, place, &why)
}

/// Where a place is and why it is refused, then its line.
fn spot(text: &[u8], place: usize, why: &str) -> String {
    let (line, column) = counted(text, place);
    let whole = lines(text).nth(line - 1).expect("the place is in a line");
    let shown: String = whole.iter().map(|&byte| shown(byte)).collect();
    format!("words.rules, line {line}, column {column}: {why}.\n{shown}\n")
}

/// The lines without their newlines; behind a newline there is always one more.
fn lines(text: &[u8]) -> impl Iterator<Item = &[u8]> {
    text.split(|&byte| byte == b'\n')
}

/// The numbers of a place's line and of its column, both counted from 1.
fn counted(text: &[u8], place: usize) -> (usize, usize) {
    let before: Vec<&[u8]> = lines(&text[..place]).collect();
    (before.len(), before[before.len() - 1].len() + 1)
}

/// A byte that cannot be printed is shown as ?.
fn shown(byte: u8) -> char {
    match byte {
        b' '..=b'~' => char::from(byte),
        _ => '?',
    }
}

/// The bytes, rising, with which some rightly typed text goes on after what stands before;
/// there nothing is wrong yet.
pub fn could_stand(before: &[u8]) -> Vec<u8> {
    let right = |byte: &u8| wrong(&[before, &[*byte]].concat()) != Some(before.len());
    (0..=255).filter(right).collect()
}

/// Rising bytes, a space before each; neighbours that are letters or digits are joined.
pub fn listed(bytes: &[u8]) -> String {
    let bare = u8::is_ascii_alphanumeric;
    let runs = bytes.chunk_by(|a, b| a + 1 == *b && bare(a) && bare(b));
    runs.map(|run| match run {
        b" " => " space".to_string(),
        b"\n" => " newline".to_string(),
        [byte] => format!(" {}", shown(*byte)),
        _ => format!(" {}-{}", shown(run[0]), shown(run[run.len() - 1])),
    })
    .collect()
}
