//! Every fixed limit of the word cutter, gathered in one place.
//! All other files take their bounds from here and write none of their own.

/// Greatest number of seven-bit groups in one number.
pub const GROUPS: usize = 3;
/// The only version of sheets, and the first one of books.
pub const VERSION: usize = 1;
/// The last version of books.
pub const LAST_VERSION: usize = 2;
/// The greatest code of a node in a book of each version.
pub const LAST_CODES: [usize; LAST_VERSION] = [6, 8];
/// Greatest number of rules in a book, and so the greatest label.
pub const RULES: usize = 32;
/// Greatest kind of a rule.
pub const KIND: usize = 16_383;
/// Greatest number of nodes in a book.
pub const NODES: usize = 512;
/// Greatest number of tree nodes in a term.
pub const TERM: usize = 255;
/// Greatest number of states in a table.
pub const STATES: usize = 255;
/// Greatest number of distinct terms in the held vectors and their parts.
pub const POOL: usize = 2_048;
/// Greatest number of pairs that a comparison counts: those that a non-empty text leads to.
pub const PAIRS: usize = 512;
/// Length of the area for a shown text, and so of the longest one.
pub const SHOWN: usize = 512;
/// The three caps on what a walk holds, in one value so that others can be tried.
#[derive(Clone, Copy, Debug)]
pub struct Caps {
    pub states: usize,
    pub pool: usize,
    pub pairs: usize,
}
/// The caps of the specification.
pub const CAPS: Caps = Caps { states: STATES, pool: POOL, pairs: PAIRS };
/// The caps before they were raised. Older readers of sheets have them still, and the
/// cases that stood just below and above them stay, as ordinary ones.
pub const OLDER: Caps = Caps { states: 128, pool: 1_024, pairs: 256 };
/// Number of bytes there are: the targets of one state, the sum of its runs.
pub const BYTES: usize = 256;
/// Greatest length of the file words.book.
pub const BOOK_FILE: usize = 4_096;
/// Greatest length of standard input.
pub const TEXT_FILE: usize = 32_768;
/// Greatest length of the file words.sheet.
pub const SHEET_FILE: usize = 65_536;
/// Greatest length of the file words.rules.
pub const RULES_FILE: usize = 32_768;
/// Least length of the area for the book of a typed text.
pub const TYPED_AREA: usize = 4_096;
/// Greatest number of parentheses that are open at once in a typed expression.
pub const OPEN: usize = 32;
