//! The model's test of itself: what the reader of numbers tells of all bytes that a number
//! can begin with, and that books and sheets are refused by the first number that is wrong.

use crate::book;
use crate::build::build;
use crate::damage::{damage, going_on, in_groups, lengthen, places};
use crate::limits::GROUPS;
use crate::number::{self, Reader};
use crate::prng::Rng;
use crate::random::{scanner_book, small_book};
use crate::refusal::{Fault, Refusal};
use crate::selftest::Checks;
use crate::sheet;

/// What is told of a number: the value or the fault, and the groups that were read.
type Told = (Result<usize, Fault>, usize);

/// By hand: the worked numbers, the ends of one group to three, and each fault.
const WORKED: [(&[u8], Told); 20] = [
    (&[0x80, 0x01], (Ok(128), 2)),
    (&[0xAC, 0x02], (Ok(300), 2)),
    (&[0xFF, 0x7F], (Ok(16_383), 2)),
    (&[0x00], (Ok(0), 1)),
    (&[0x7F], (Ok(127), 1)),
    (&[0x00, 0x00], (Ok(0), 1)),
    (&[0x80, 0x80, 0x01], (Ok(16_384), 3)),
    (&[0xFF, 0xFF, 0x7F], (Ok(2_097_151), 3)),
    (&[], (Err(Fault::Short), 0)),
    (&[0x80], (Err(Fault::Short), 1)),
    (&[0xFF, 0x80], (Err(Fault::Short), 2)),
    (&[0x80, 0x00], (Err(Fault::Padded), 2)),
    (&[0xFF, 0x00], (Err(Fault::Padded), 2)),
    (&[0x80, 0x00, 0x80], (Err(Fault::Padded), 2)),
    (&[0x80, 0x80, 0x00], (Err(Fault::Padded), 3)),
    (&[0xFF, 0xFF, 0x00], (Err(Fault::Padded), 3)),
    (&[0x80, 0x80, 0x80], (Err(Fault::Number), 3)),
    (&[0xFF, 0xFF, 0xFF], (Err(Fault::Number), 3)),
    (&[0x80, 0x80, 0x80, 0x00], (Err(Fault::Number), 3)),
    (&[0x80, 0x80, 0x80, 0x01], (Err(Fault::Number), 3)),
];

pub fn run(checks: &mut Checks) {
    for (bytes, expect) in WORKED {
        checks.check(&format!("number {bytes:02X?}"), told(bytes) == Some(expect));
    }
    all_beginnings(checks);
    for seed in 0..300 {
        let rng = &mut Rng::part(7, seed);
        let book = if seed % 4 == 0 { scanner_book(rng) } else { small_book(rng, 4, 14) };
        in_file(checks, rng, &book.write(), |bytes| book::read(bytes).err());
        if let Ok(table) = build(&book) {
            in_file(checks, rng, &sheet::write(&table), |bytes| sheet::read(bytes).err());
        }
    }
}

/// What the reader tells of bytes behind another number; nothing if it has a wrong place.
fn told(bytes: &[u8]) -> Option<Told> {
    let mut behind = [0x05; 5];
    behind[1..=bytes.len()].copy_from_slice(bytes);
    let mut reader = Reader::new(&behind[..=bytes.len()]);
    reader.any().ok()?;
    let (answer, groups) = reader.grouped();
    let placed = match answer {
        Ok(_) => reader.at() == 1 + groups,
        Err(refusal) => refusal.place == 1,
    };
    placed.then_some((answer.map_err(|refusal| refusal.fault), groups))
}

/// The value or fault as it was told before a padded number had a refusal of its own.
fn before(bytes: &[u8]) -> Result<usize, Fault> {
    let value = |groups: usize| {
        let groups = bytes[..groups].iter().rev();
        groups.fold(0, |value, &byte| value * 128 + usize::from(byte % 128))
    };
    match bytes {
        [0..=0x7F, ..] => Ok(value(1)),
        [_, 0, ..] | [_, 0x80..=0xFF, 0 | 0x80..=0xFF, ..] => Err(Fault::Number),
        [_, 0..=0x7F, ..] => Ok(value(2)),
        [_, _, _, ..] => Ok(value(3)),
        _ => Err(Fault::Short),
    }
}

/// All that a number can begin with, up to three bytes; behind a 1 they are one number.
struct Beginnings {
    seen: Vec<bool>,
    /// How many of each length are told otherwise than before.
    changed: [usize; GROUPS + 1],
}

impl Beginnings {
    /// Whether the reader tells what is expected of all beginnings of so many bytes with
    /// the given ones in front, and only told otherwise before where Number is Padded now.
    fn hold(&mut self, front: &[u8], length: usize, expect: Told) -> bool {
        let key = front.iter().fold(1, |key: usize, &byte| key << 8 | usize::from(byte));
        let more = 8 * (length - front.len());
        let mut right = true;
        for key in key << more..(key + 1) << more {
            let bytes = key.to_be_bytes();
            let bytes = &bytes[bytes.len() - length..];
            let (old, new) = (before(bytes), expect.0);
            if old != new {
                self.changed[length] += 1;
                right &= (old, new) == (Err(Fault::Number), Err(Fault::Padded));
            }
            right &= told(bytes) == Some(expect);
            self.seen[key] = true;
        }
        right
    }
}

/// The forms of a value in one group to three and what has to be told of them: the least
/// one is the number, the others are padded.
fn forms(value: usize) -> impl Iterator<Item = (Vec<u8>, Told)> {
    let least = 1 + usize::from(value >= 1 << 7) + usize::from(value >= 1 << 14);
    let answer = move |groups| if groups == least { Ok(value) } else { Err(Fault::Padded) };
    (least..=GROUPS).map(move |groups| (in_groups(value, groups), (answer(groups), groups)))
}

/// The bytes are not looked at here but made, from all values: their forms with whatever
/// follows, the parts of these, and the same going on.
fn all_beginnings(checks: &mut Checks) {
    let mut all = Beginnings { seen: vec![false; 2 << (8 * GROUPS)], changed: [0; GROUPS + 1] };
    for value in 0..1 << (7 * GROUPS) {
        let mut written = Vec::new();
        number::write(value, &mut written);
        let mut right = forms(value).next().is_some_and(|(least, _)| least == written);
        for (form, expect) in forms(value) {
            for length in 0..form.len() {
                right &= all.hold(&form[..length], length, (Err(Fault::Short), length));
            }
            for length in form.len()..=GROUPS {
                right &= all.hold(&form, length, expect);
            }
        }
        right &= all.hold(&going_on(value), GROUPS, (Err(Fault::Number), GROUPS));
        if value % 4096 == 0 || !right {
            checks.check(&format!("forms of {value}"), right);
        }
    }
    let seen = |length: usize| all.seen[1 << (8 * length)..2 << (8 * length)].iter().all(|&s| s);
    checks.check("no other beginnings", (0..=GROUPS).all(seen));
    // 128 first bytes and a 0, then any byte; or 128 times 128 and a 0.
    checks.check("as many as are padded", all.changed == [0, 0, 128, 128 * 256 + 128 * 128]);
}

/// A right file is refused at any of its numbers that is padded, goes on or is cut short,
/// and when it is spoilt in any way, by the first number that is wrong or before it.
fn in_file(
    checks: &mut Checks,
    rng: &mut Rng,
    file: &[u8],
    refused: impl Fn(&[u8]) -> Option<Refusal>,
) {
    for (place, end) in places(file) {
        let value = Reader::new(&file[place..end]).any().expect("the file is right");
        let (others, on) = (&file[end..], going_on(value));
        let meets = |form: &[u8], rest: &[u8], fault| {
            refused(&[&file[..place], form, rest].concat()) == Some(Refusal { fault, place })
        };
        let padded = |groups| meets(&in_groups(value, groups), others, Fault::Padded);
        checks.check("a padded number in a file", (end - place + 1..=GROUPS).all(padded));
        checks.check("a number that goes on in a file", meets(&on, others, Fault::Number));
        let short = |length| meets(&on[..length], b"", Fault::Short);
        checks.check("a short number in a file", (0..GROUPS).all(short));
    }
    for _ in 0..40 {
        let mut spoilt = file.to_vec();
        for change in [damage, lengthen] {
            change(rng, &mut spoilt);
            checks.check("the first wrong number", passed_on(&spoilt, refused(&spoilt)));
        }
    }
}

/// Whether a file, which is but numbers in a row, is refused by the first one that cannot
/// be read, if by one of these, and otherwise not behind it.
fn passed_on(file: &[u8], refusal: Option<Refusal>) -> bool {
    let mut reader = Reader::new(file);
    let wrong = loop {
        if let Err(wrong) = reader.any() {
            break wrong;
        }
    };
    match refusal {
        None => wrong == Refusal { fault: Fault::Short, place: file.len() },
        Some(Refusal { fault: Fault::Short | Fault::Number | Fault::Padded, .. }) => {
            refusal == Some(wrong)
        }
        Some(Refusal { fault: Fault::Range, place }) => place < wrong.place,
        Some(Refusal { place, .. }) => place <= wrong.place,
    }
}
