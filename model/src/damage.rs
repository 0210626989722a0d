//! Damage to the bytes of a book or a sheet: single bytes, lengths, and whole numbers
//! replaced, doubled, dropped or written in a forbidden form, or in too many groups.

use crate::limits::GROUPS;
use crate::number::{self, Reader};
use crate::prng::Rng;

/// Numbers that lie at the edge of some field.
const EDGES: [usize; 29] = [
    0, 1, 2, 3, 4, 5, 6, 7, 16, 31, 32, 33, 34, 96, 97, 122, 123, 127, 128, 129, 255, 256, 257,
    511, 512, 513, 16_383, 16_384, 2_097_151,
];

/// Forms that no number may have, or that ask for one more group.
const BAD: [&[u8]; 7] = [
    &[0x80],
    &[0x80, 0x00],
    &[0x81, 0x00],
    &[0x80, 0x80],
    &[0x80, 0x80, 0x00],
    &[0x80, 0x80, 0x80],
    &[0xFF, 0xFF, 0xFF, 0x01],
];

/// The first numbers of a file, among which nearly all its fields are.
const FIRST: usize = 7;

/// Where the numbers of a file begin and end, as far as it has the form of numbers.
pub fn places(bytes: &[u8]) -> Vec<(usize, usize)> {
    let mut reader = Reader::new(bytes);
    let mut found = Vec::new();
    let mut at = 0;
    while reader.any().is_ok() {
        found.push((at, reader.at()));
        at = reader.at();
    }
    found
}

/// One damage to the bytes. Most damages change the bytes, not all.
pub fn damage(rng: &mut Rng, bytes: &mut Vec<u8>) {
    if bytes.is_empty() {
        bytes.push(rng.byte());
        return;
    }
    match rng.below(10) {
        0 => {
            let at = rng.below(bytes.len());
            bytes[at] ^= 1 << rng.below(8);
        }
        1 => {
            let at = rng.below(bytes.len());
            bytes[at] = rng.byte();
        }
        2 => {
            let length = rng.below(bytes.len());
            bytes.truncate(length);
        }
        3 => {
            let count = rng.within(1, 3);
            let more = rng.bytes(count);
            bytes.extend(more);
        }
        4 => {
            let at = rng.below(bytes.len() + 1);
            bytes.insert(at, rng.byte());
        }
        _ => damage_number(rng, bytes),
    }
}

/// One damage to a whole number.
fn damage_number(rng: &mut Rng, bytes: &mut Vec<u8>) {
    let found = places(bytes);
    if found.is_empty() {
        return;
    }
    let (from, to) = *rng.pick(&found);
    let old = bytes[from..to].to_vec();
    let new = match rng.below(8) {
        0 => Vec::new(),
        1 => [&old[..], &old[..]].concat(),
        2 | 3 => rng.pick(&BAD).to_vec(),
        4 | 5 => {
            // One more or one less than it was.
            let value = Reader::new(&old).any().expect("it was read before");
            let other = if rng.chance(50) { value + 1 } else { value.saturating_sub(1) };
            written(other.min(2_097_151))
        }
        _ => written(*rng.pick(&EDGES)),
    };
    bytes.splice(from..to, new);
    if rng.chance(10) {
        // Cut right behind the change, so that Short meets other faults.
        let length = bytes.len().min(from + rng.within(0, 4));
        bytes.truncate(length);
    }
}

/// Writes one number in too many groups: padded, or going on where it should end. More
/// often than not it is one of the first and has the value that it had.
pub fn lengthen(rng: &mut Rng, bytes: &mut Vec<u8>) {
    let found = places(bytes);
    if found.is_empty() {
        return;
    }
    // Letters come behind a code 6, and few books have one.
    let behind = |six: &&[(usize, usize)]| bytes[six[0].0] == 6;
    let letters: Vec<_> = found.windows(2).filter(behind).map(|six| six[1]).collect();
    let (from, to) = *match rng.below(10) {
        0..=5 => rng.pick(&found[..found.len().min(FIRST)]),
        6 if !letters.is_empty() => rng.pick(&letters),
        _ => rng.pick(&found),
    };
    let own = Reader::new(&bytes[from..to]).any().expect("it was read before");
    let value = if rng.chance(70) { own } else { *rng.pick(&EDGES) };
    // The last of three groups is spare in numbers of fourteen bits only.
    let value = value % (1 << 14);
    let new = match rng.chance(60) {
        true => in_groups(value, rng.within(written(value).len() + 1, GROUPS)),
        false => going_on(value),
    };
    bytes.splice(from..to, new);
}

/// The value in just so many groups, whether it needs them or not.
pub fn in_groups(value: usize, groups: usize) -> Vec<u8> {
    let group = |i: usize| (value >> (7 * i) & 0x7F) as u8;
    let mut bytes: Vec<u8> = (0..groups).map(|i| 0x80 | group(i)).collect();
    bytes[groups - 1] &= 0x7F;
    bytes
}

/// The value in as many groups as there may be, the last of which asks for one more.
pub fn going_on(value: usize) -> Vec<u8> {
    let mut bytes = in_groups(value, GROUPS);
    bytes[GROUPS - 1] |= 0x80;
    bytes
}

fn written(value: usize) -> Vec<u8> {
    let mut out = Vec::new();
    number::write(value, &mut out);
    out
}
