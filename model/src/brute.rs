//! The textbook meaning of expressions by sets of texts, with no derivatives and no
//! tables: all short texts of an expression, the longest, earliest word by it, and cuts.

use crate::book::{Book, Expr, Rule};
use crate::cut::{End, Word};
use std::collections::BTreeSet;

pub type Texts = BTreeSet<Vec<u8>>;

/// All texts of the expression that have only bytes of the alphabet and at most
/// `most` of them.
pub fn texts(expr: &Expr, alphabet: &[u8], most: usize) -> Texts {
    match expr {
        Expr::Nothing => Texts::new(),
        Expr::Empty => Texts::from([Vec::new()]),
        Expr::Range(lo, hi) => single(alphabet, most, |byte| *lo <= byte && byte <= *hi),
        Expr::Either(x) => single(alphabet, most, |byte| byte == *x || byte == *x - 32),
        Expr::Cat(a, b) => joined(&texts(a, alphabet, most), &texts(b, alphabet, most), most),
        Expr::Alt(a, b) => {
            let mut all = texts(a, alphabet, most);
            all.extend(texts(b, alphabet, most));
            all
        }
        Expr::And(a, b) => &texts(a, alphabet, most) & &texts(b, alphabet, most),
        Expr::Not(a) => {
            let all: Texts = all_texts(alphabet, most).into_iter().collect();
            &all - &texts(a, alphabet, most)
        }
        Expr::Star(a) => {
            // Zero texts joined, then one more, until nothing new is short enough.
            let once = texts(a, alphabet, most);
            let mut all = Texts::from([Vec::new()]);
            loop {
                let mut more = joined(&all, &once, most);
                more.extend(all.iter().cloned());
                if more == all {
                    return all;
                }
                all = more;
            }
        }
    }
}

/// The one-byte texts that pass a test.
fn single(alphabet: &[u8], most: usize, test: impl Fn(u8) -> bool) -> Texts {
    let fitting = alphabet.iter().filter(|&&byte| most > 0 && test(byte));
    fitting.map(|&byte| vec![byte]).collect()
}

/// Every text of the first set followed by every text of the second.
fn joined(first: &Texts, second: &Texts, most: usize) -> Texts {
    let mut all = Texts::new();
    for a in first {
        for b in second.iter().filter(|b| a.len() + b.len() <= most) {
            all.insert([&a[..], &b[..]].concat());
        }
    }
    all
}

/// All texts over the alphabet with at most `most` bytes, shorter ones first and
/// lower ones first among equally long ones (if the alphabet is rising).
pub fn all_texts(alphabet: &[u8], most: usize) -> Vec<Vec<u8>> {
    let mut all = vec![Vec::new()];
    let mut begin = 0;
    for _ in 0..most {
        let end = all.len();
        for i in begin..end {
            for &byte in alphabet {
                all.push([&all[i][..], &[byte]].concat());
            }
        }
        begin = end;
    }
    all
}

/// The short texts of every rule of a book.
pub struct Meaning {
    rules: Vec<Texts>,
}

impl Meaning {
    pub fn of(book: &Book, alphabet: &[u8], most: usize) -> Meaning {
        let exprs = book.rules.iter().map(|rule| &rule.expr);
        Meaning { rules: exprs.map(|expr| texts(expr, alphabet, most)).collect() }
    }

    /// 1 plus the earliest rule that has the text, or 0.
    pub fn label(&self, text: &[u8]) -> usize {
        self.rules.iter().position(|texts| texts.contains(text)).map_or(0, |rule| rule + 1)
    }

    /// The length and rule of the first word of a short text: the longest beginning
    /// that is not empty and belongs to some rule, by the earliest such rule.
    pub fn first_word(&self, text: &[u8]) -> Option<(usize, usize)> {
        let lengths = (1..=text.len()).rev();
        let mut words = lengths.filter_map(|length| match self.label(&text[..length]) {
            0 => None,
            label => Some((length, label - 1)),
        });
        words.next()
    }
}

/// All the words of a text, given how to find the first one, and how the cut ends.
pub fn words(
    text: &[u8],
    first_word: impl Fn(&[u8]) -> Option<(usize, usize)>,
) -> (Vec<Word>, End) {
    let mut words = Vec::new();
    let mut start = 0;
    while start < text.len() {
        let Some((length, rule)) = first_word(&text[start..]) else {
            let count = words.len();
            return (words, End::Stuck { count, place: start });
        };
        words.push(Word { start, length, rule });
        start += length;
    }
    let count = words.len();
    (words, End::Done { count })
}

/// Where a text of the expression that begins at `from` can end: the set of ends,
/// rising. For texts too long to list all the texts of an expression.
pub fn ends(expr: &Expr, text: &[u8], from: usize) -> BTreeSet<usize> {
    let byte = |test: &dyn Fn(u8) -> bool| match text.get(from) {
        Some(&byte) if test(byte) => BTreeSet::from([from + 1]),
        _ => BTreeSet::new(),
    };
    match expr {
        Expr::Nothing => BTreeSet::new(),
        Expr::Empty => BTreeSet::from([from]),
        Expr::Range(lo, hi) => byte(&|c| *lo <= c && c <= *hi),
        Expr::Either(x) => byte(&|c| c == *x || c == *x - 32),
        Expr::Cat(a, b) => ends(a, text, from).iter().flat_map(|&mid| ends(b, text, mid)).collect(),
        Expr::Alt(a, b) => &ends(a, text, from) | &ends(b, text, from),
        Expr::And(a, b) => &ends(a, text, from) & &ends(b, text, from),
        Expr::Not(a) => &(from..=text.len()).collect::<BTreeSet<usize>>() - &ends(a, text, from),
        Expr::Star(a) => {
            let mut reached = BTreeSet::from([from]);
            let mut open = vec![from];
            while let Some(mid) = open.pop() {
                for end in ends(a, text, mid) {
                    if reached.insert(end) {
                        open.push(end);
                    }
                }
            }
            reached
        }
    }
}

/// 1 plus the earliest rule that has a text of any length, or 0, by the sets of ends.
pub fn label(book: &Book, text: &[u8]) -> usize {
    let has = |rule: &Rule| ends(&rule.expr, text, 0).contains(&text.len());
    book.rules.iter().position(has).map_or(0, |rule| rule + 1)
}

/// The first word of a text of any length, by the sets of ends.
pub fn first_word(book: &Book, text: &[u8]) -> Option<(usize, usize)> {
    let mut best: Option<(usize, usize)> = None;
    for (rule, found) in book.rules.iter().enumerate() {
        let longest = ends(&found.expr, text, 0).into_iter().max().unwrap_or(0);
        if longest > best.map_or(0, |(length, _)| length) {
            best = Some((longest, rule));
        }
    }
    best
}
