//! The model's test of itself, second part: lent tables and sheets, and what a reader
//! with the older limit on states makes of them.

use crate::damage::damage;
use crate::limits::{BYTES, OLDER, RULES, STATES, VERSION};
use crate::number::{self, Reader};
use crate::prng::Rng;
use crate::refusal::{Fault, Refusal};
use crate::selftest::Checks;
use crate::sheet::{self, Table};
use crate::sheets;

/// The refusals that reading a sheet has.
const OF_SHEETS: [Fault; 6] =
    [Fault::Short, Fault::Number, Fault::Padded, Fault::Range, Fault::Runs, Fault::Tail];

pub fn run(checks: &mut Checks) {
    for count in [0, STATES + 1] {
        let lent = sheet::lent(count, &vec![0; count], &vec![0; BYTES * count]);
        checks.check("no table of no states or too many", lent.is_err());
    }
    for seed in 0..400 {
        let mut rng = Rng::part(2, seed);
        let count = *rng.pick(&[1, 2, 3, 8, 30, 127, 128, 129, 200, STATES - 1, STATES]);
        let table = sheets::random(&mut rng, count);
        lent_tables(checks, &mut rng, &table);
        sheets_read(checks, &mut rng, &table);
    }
    older_bytes(checks);
    for seed in 0..1_500 {
        let mut rng = Rng::part(6, seed);
        two_readers(checks, &mut rng);
    }
}

/// A table is well formed in lent memory, whatever comes behind it, and a spoilt one is not.
fn lent_tables(checks: &mut Checks, rng: &mut Rng, table: &Table) {
    let count = table.count();
    let lent = |table: &Table| sheet::lent(count, &table.labels, &table.targets);
    checks.check("a random table is well formed", lent(table).as_ref() == Ok(table));
    let mut cells = table.clone();
    cells.labels.push(99);
    cells.targets.push(999);
    checks.check("cells past the table may be anything", lent(&cells).as_ref() == Ok(table));
    let mut cells = table.clone();
    match rng.below(4) {
        0 => cells.labels[rng.below(count)] = RULES + 1,
        1 => cells.targets[rng.below(BYTES * count)] = count,
        2 => drop(cells.labels.pop()),
        _ => drop(cells.targets.pop()),
    }
    let loaded = Refusal { fault: Fault::Loaded, place: 0 };
    checks.check("a spoilt table is refused", lent(&cells) == Err(loaded));
}

/// A table's sheet is read as that table; an early end is Short; damage is refused or
/// gives another sheet.
fn sheets_read(checks: &mut Checks, rng: &mut Rng, table: &Table) {
    let bytes = sheet::write(table);
    checks.check("a sheet read again", sheet::read(&bytes).as_ref() == Ok(table));
    let early = sheet::read(&bytes[..rng.below(bytes.len())]).expect_err("it is too short");
    checks.check("an early end is Short", early.fault == Fault::Short);
    for _ in 0..40 {
        let mut spoilt = bytes.clone();
        damage(rng, &mut spoilt);
        let right = match sheet::read(&spoilt) {
            Ok(table) => sheet::write(&table) == spoilt,
            Err(refusal) => refusal.place <= spoilt.len() && OF_SHEETS.contains(&refusal.fault),
        };
        checks.check("a damaged sheet is refused or written alike", right);
    }
}

/// The sheet of as many states as there were, byte for byte.
fn older_bytes(checks: &mut Checks) {
    let table = Table { labels: vec![0; OLDER.states], targets: vec![0; BYTES * OLDER.states] };
    let states = [0x00, 0x01, 0x80, 0x02, 0x00].repeat(OLDER.states);
    let bytes = [&[0x01, 0x80, 0x01], &states[..]].concat();
    checks.check("bytes of 128 states", sheet::write(&table) == bytes);
    checks.check("128 states read", sheet::read(&bytes) == Ok(table));
}

/// The version and a state count.
fn head(count: usize) -> Vec<u8> {
    let mut bytes = Vec::new();
    number::write(VERSION, &mut bytes);
    number::write(count, &mut bytes);
    bytes
}

/// A sheet of about as many states as there were, whole, damaged, or with another state
/// count than it has.
fn some_sheet(rng: &mut Rng) -> Vec<u8> {
    let count = *rng.pick(&[1, 2, 5, 20, 126, 127, 128, 128, 129, 130, 200, STATES]);
    let mut bytes = sheet::write(&sheets::random(rng, count));
    if rng.chance(30) {
        bytes.splice(..head(count).len(), head(rng.within(1, 300)));
    }
    for _ in 0..rng.below(3) {
        damage(rng, &mut bytes);
    }
    bytes
}

/// The two readers agree on every file whose state count the older one takes, faulty or
/// not, and on every file with a fault before or at that number. A larger sheet is Range
/// for the older one, at its state count.
fn two_readers(checks: &mut Checks, rng: &mut Rng) {
    let bytes = some_sheet(rng);
    let mut reader = Reader::new(&bytes);
    let (version, count) = (reader.any(), reader.any());
    let (old, new) = (sheet::read_to(OLDER.states, &bytes), sheet::read(&bytes));
    let larger =
        version == Ok(VERSION) && count.is_ok_and(|n| (OLDER.states + 1..=STATES).contains(&n));
    if larger {
        let range = Refusal { fault: Fault::Range, place: 1 };
        checks.check("a larger sheet is Range for the older reader", old == Err(range));
        checks.check("and not for the newer one", new != Err(range));
    } else {
        checks.check("both readers agree", old == new);
    }
}
