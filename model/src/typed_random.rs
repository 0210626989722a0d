//! Random typed texts: rightly typed ones with all that can be typed, ones that have
//! about as many nodes as a book may, and damage to single bytes.

use crate::limits::{KIND, NODES, OPEN, RULES};
use crate::prng::Rng;
use crate::random;
use crate::typed::lines;
use crate::typed_sets::NAMES;

/// Bytes that mean something somewhere in a typed text, and a few that do not.
pub const TELLING: &[u8] = b"0123:::aabfxAZ ()()|||*+?\\\\<>..\n\n\n-_,@[\t\r\0\x7F\x80\xFF";

fn choice(rng: &mut Rng, atoms: usize, open: usize, out: &mut Vec<u8>) {
    let mut left = atoms;
    while left > 0 {
        let part = if rng.chance(30) { rng.within(1, left) } else { left };
        row(rng, part, open, out);
        left -= part;
        if left > 0 {
            out.push(b'|');
        }
    }
}

fn row(rng: &mut Rng, atoms: usize, open: usize, out: &mut Vec<u8>) {
    let mut left = atoms;
    while left > 0 {
        let part = if open < OPEN && rng.chance(20) { rng.within(1, left) } else { 1 };
        if part > 1 {
            out.push(b'(');
            choice(rng, part, open + 1, out);
            out.push(b')');
        } else {
            atom(rng, open, out);
        }
        if rng.chance(25) {
            for _ in 0..*rng.pick(&[1, 1, 1, 1, 2, 2, 3]) {
                out.push(*rng.pick(b"*+?"));
            }
        }
        left -= part;
    }
}

fn atom(rng: &mut Rng, open: usize, out: &mut Vec<u8>) {
    match rng.below(40) {
        0..=13 => out.push(*rng.pick(b"aaabbc")),
        14..=16 => out.push(rng.within(b'a'.into(), b'z'.into()) as u8),
        17 => out.push(rng.within(b'A'.into(), b'Z'.into()) as u8),
        18..=20 => out.push(rng.within(b'0'.into(), b'9'.into()) as u8),
        21 | 22 => out.push(b' '),
        23 => out.push(b'.'),
        24..=27 => {
            out.push(b'\\');
            out.extend([0, 1].map(|_| *rng.pick(b"0123456789abcdefABCDEF6666")));
        }
        28..=33 => {
            let name = rng.pick(&NAMES);
            out.extend(format!("<{name}>").into_bytes());
        }
        34 | 35 if open < OPEN => out.extend(b"()"),
        36 | 37 if open < OPEN => {
            // Parentheses that change nothing, perhaps as many as there may be.
            let most = OPEN - open;
            let more = if rng.chance(30) { most } else { rng.within(1, most.min(4)) };
            out.extend(vec![b'('; more]);
            // With nothing inside, the innermost two are Empty.
            if rng.chance(70) {
                atom(rng, OPEN, out);
            }
            out.extend(vec![b')'; more]);
        }
        _ => out.push(b'a'),
    }
}

fn kind(rng: &mut Rng, out: &mut Vec<u8>) {
    match rng.below(300) {
        0 => out.extend((KIND + 1).to_string().into_bytes()),
        1 => out.extend(rng.within(KIND + 1, 99_999).to_string().into_bytes()),
        2 => {
            let digits = rng.within(6, 60);
            out.push(b'1');
            out.extend((0..digits).map(|_| rng.within(b'0'.into(), b'9'.into()) as u8));
        }
        _ => out.extend(random::kind(rng).to_string().into_bytes()),
    }
}

/// One line with so many atoms.
pub fn line(rng: &mut Rng, atoms: usize) -> Vec<u8> {
    let mut out = Vec::new();
    kind(rng, &mut out);
    out.push(b':');
    choice(rng, atoms, 0, &mut out);
    out.push(b'\n');
    out
}

/// A rightly typed text of a few lines, or of up to two more than there may be.
pub fn right_text(rng: &mut Rng) -> Vec<u8> {
    let count = match rng.below(10) {
        0..=2 => 1,
        3..=7 => rng.within(2, 6),
        8 => rng.within(7, RULES - 2),
        _ => rng.within(RULES - 1, RULES + 2),
    };
    let most = if rng.chance(20) { 60 } else { 12 };
    let mut text = Vec::new();
    for _ in 0..count {
        let atoms = rng.within(1, most.min(120 / count).max(2));
        text.extend(line(rng, atoms));
    }
    text
}

/// A line with exactly so many nodes, at least one.
fn line_of_nodes(rng: &mut Rng, nodes: usize) -> Vec<u8> {
    let mut out = b"7:".to_vec();
    let joint: &[u8] = if rng.chance(50) { b"" } else { b"|" };
    match rng.below(3) {
        0 => {
            out.push(b'a');
            out.extend(vec![b'*'; nodes - 1]);
        }
        1 => {
            // Each ? has two nodes.
            out.push(b'a');
            out.extend(vec![b'?'; (nodes - 1) / 2]);
            out.extend(vec![b'*'; (nodes - 1) % 2]);
        }
        _ => {
            out.extend(vec![&b"a"[..]; nodes.div_ceil(2)].join(joint));
            out.extend(vec![b'*'; (nodes - 1) % 2]);
        }
    }
    out.push(b'\n');
    out
}

/// A rightly typed text, with a line added that brings the node total to about the
/// greatest there may be.
pub fn filled_text(rng: &mut Rng) -> Vec<u8> {
    let mut text = Vec::new();
    for _ in 0..rng.within(0, 6) {
        let atoms = rng.within(1, 12);
        text.extend(line(rng, atoms));
    }
    let lines = lines(&text);
    let total = lines.iter().fold(0, |total: usize, l| total.saturating_add(l.choice.nodes()));
    let wanted = NODES - 1 + rng.below(3);
    if wanted > total {
        let more = line_of_nodes(rng, wanted - total);
        // Where it stands tells which line has the total out of range.
        let starts: Vec<usize> = lines.iter().map(|line| line.start).chain([text.len()]).collect();
        let at = *rng.pick(&starts);
        text.splice(at..at, more);
    }
    text
}

/// The text with one byte changed, put in or taken out.
pub fn damage(rng: &mut Rng, text: &mut Vec<u8>) {
    let byte = if rng.chance(85) { *rng.pick(TELLING) } else { rng.byte() };
    let at = rng.below(text.len() + 1);
    match rng.below(3) {
        0 if at < text.len() => text[at] = byte,
        1 if at < text.len() => {
            text.remove(at);
        }
        _ => text.insert(at, byte),
    }
}

/// Bytes that mean something, without order.
pub fn loose_text(rng: &mut Rng) -> Vec<u8> {
    let count = rng.within(0, 30);
    let begin = *rng.pick(&["", "1:", "1:(", "1:a\n", "1:a\n2:"]);
    begin.bytes().chain((0..count).map(|_| *rng.pick(TELLING))).collect()
}
