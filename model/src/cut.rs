//! Cutting a text by a table: the longest word at every place, into a list with
//! room for so many words, and cutting on from where the list was full.

use crate::limits::BYTES;
use crate::sheet::Table;

/// One word record.
#[derive(Clone, Copy, Debug, PartialEq, Eq)]
pub struct Word {
    pub start: usize,
    pub length: usize,
    pub rule: usize,
}

/// How a cut ends.
#[derive(Clone, Copy, Debug, PartialEq, Eq)]
pub enum End {
    Done { count: usize },
    Stuck { count: usize, place: usize },
    Full { count: usize, place: usize },
}

/// The longest word at the beginning of a text: its length and rule. The walk reads
/// the whole text; the last labelled place counts, and never the empty text.
pub fn first_word(table: &Table, text: &[u8]) -> Option<(usize, usize)> {
    first_word_in(table, text, &vec![true; table.count()])
}

/// The same, leaving off at a state from which no label can be reached.
pub fn first_word_in(table: &Table, text: &[u8], hopeful: &[bool]) -> Option<(usize, usize)> {
    let mut word = None;
    let mut state = 0;
    for (i, &byte) in text.iter().enumerate() {
        state = table.step(state, byte);
        if table.labels[state] > 0 {
            word = Some((i + 1, table.labels[state] - 1));
        }
        if !hopeful[state] {
            break;
        }
    }
    word
}

/// For each state, whether it or some state that can be reached from it has a label.
pub fn hopeful(table: &Table) -> Vec<bool> {
    let mut hope: Vec<bool> = table.labels.iter().map(|&label| label > 0).collect();
    loop {
        let before = hope.clone();
        for (state, row) in table.targets.chunks(BYTES).enumerate() {
            hope[state] |= row.iter().any(|&target| before[target]);
        }
        if hope == before {
            return hope;
        }
    }
}

/// Cuts a text into at most `room` words; places count from the text's beginning.
pub fn cut(table: &Table, text: &[u8], room: usize) -> (Vec<Word>, End) {
    cut_in(table, text, room, &hopeful(table))
}

fn cut_in(table: &Table, text: &[u8], room: usize, hope: &[bool]) -> (Vec<Word>, End) {
    let mut words = Vec::new();
    let mut place = 0;
    while place < text.len() {
        let count = words.len();
        let Some((length, rule)) = first_word_in(table, &text[place..], hope) else {
            return (words, End::Stuck { count, place });
        };
        if count == room {
            return (words, End::Full { count, place });
        }
        words.push(Word { start: place, length, rule });
        place += length;
    }
    let count = words.len();
    (words, End::Done { count })
}

/// Cuts a whole text by lists of `room` words (at least 1), starting a new list
/// whenever one is full; counts and places are those of the whole text.
pub fn cut_on(table: &Table, text: &[u8], room: usize) -> (Vec<Word>, End) {
    let hope = hopeful(table);
    let mut words: Vec<Word> = Vec::new();
    let mut base = 0;
    loop {
        let (part, end) = cut_in(table, &text[base..], room, &hope);
        words.extend(part.iter().map(|word| Word { start: base + word.start, ..*word }));
        let total = words.len();
        match end {
            End::Done { .. } => return (words, End::Done { count: total }),
            End::Stuck { place, .. } => {
                return (words, End::Stuck { count: total, place: base + place });
            }
            End::Full { place, .. } => base += place,
        }
    }
}
