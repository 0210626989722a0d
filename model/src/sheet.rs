//! Tables and their sheets: reading a sheet with every refusal at its place,
//! writing one, and the test of a lent table.

use crate::limits::{BYTES, RULES, STATES, VERSION};
use crate::number::{self, Reader};
use crate::refusal::{refuse, Fault, Refusal};

/// A table: one label a state and 256 targets a state, state after state.
#[derive(Clone, Debug, PartialEq, Eq)]
pub struct Table {
    pub labels: Vec<usize>,
    pub targets: Vec<usize>,
}

impl Table {
    /// The number of states.
    pub fn count(&self) -> usize {
        self.labels.len()
    }

    /// The state after one byte.
    pub fn step(&self, state: usize, byte: u8) -> usize {
        self.targets[BYTES * state + usize::from(byte)]
    }

    /// The state that a text leads to.
    pub fn after(&self, text: &[u8]) -> usize {
        text.iter().fold(0, |state, &byte| self.step(state, byte))
    }

    /// The label of the state that a text leads to.
    pub fn label(&self, text: &[u8]) -> usize {
        self.labels[self.after(text)]
    }

    /// The targets of one state.
    pub fn row(&self, state: usize) -> &[usize] {
        &self.targets[BYTES * state..BYTES * (state + 1)]
    }
}

/// The table of `count` states in lent memory; cells past them may be anything.
pub fn lent(count: usize, labels: &[usize], targets: &[usize]) -> Result<Table, Refusal> {
    let formed = (1..=STATES).contains(&count)
        && labels.len() >= count
        && targets.len() >= BYTES * count
        && labels[..count].iter().all(|&label| label <= RULES)
        && targets[..BYTES * count].iter().all(|&target| target < count);
    if !formed {
        return refuse(Fault::Loaded, 0);
    }
    Ok(Table { labels: labels[..count].to_vec(), targets: targets[..BYTES * count].to_vec() })
}

/// Reads a whole sheet.
pub fn read(bytes: &[u8]) -> Result<Table, Refusal> {
    read_to(STATES, bytes)
}

/// Reads a whole sheet of at most so many states.
pub fn read_to(most: usize, bytes: &[u8]) -> Result<Table, Refusal> {
    let mut reader = Reader::new(bytes);
    reader.field(VERSION, VERSION)?;
    let count = reader.field(1, most)?;
    let mut table = Table { labels: Vec::new(), targets: Vec::new() };
    for _ in 0..count {
        table.labels.push(reader.field(0, RULES)?);
        let runs = reader.field(1, BYTES)?;
        table.targets.extend(read_runs(&mut reader, runs, count)?);
    }
    reader.end()?;
    Ok(table)
}

/// Reads the runs of one state into its 256 targets.
fn read_runs(reader: &mut Reader, runs: usize, count: usize) -> Result<Vec<usize>, Refusal> {
    let mut row: Vec<usize> = Vec::new();
    for _ in 0..runs {
        let place = reader.at();
        let length = reader.field(1, BYTES)?;
        if row.len() + length > BYTES {
            return refuse(Fault::Runs, place);
        }
        let place = reader.at();
        let target = reader.field(0, count - 1)?;
        if row.last() == Some(&target) {
            return refuse(Fault::Runs, place);
        }
        row.resize(row.len() + length, target);
    }
    if row.len() < BYTES {
        return refuse(Fault::Runs, reader.at());
    }
    Ok(row)
}

/// One row as runs of length and target, as long as they can be.
pub fn runs(row: &[usize]) -> Vec<(usize, usize)> {
    let mut found: Vec<(usize, usize)> = Vec::new();
    for &target in row {
        match found.last_mut() {
            Some((length, last)) if *last == target => *length += 1,
            _ => found.push((1, target)),
        }
    }
    found
}

/// The sheet's bytes; limits are not looked at.
pub fn write(table: &Table) -> Vec<u8> {
    let mut out = Vec::new();
    number::write(VERSION, &mut out);
    number::write(table.count(), &mut out);
    for state in 0..table.count() {
        let runs = runs(table.row(state));
        number::write(table.labels[state], &mut out);
        number::write(runs.len(), &mut out);
        for (length, target) in runs {
            number::write(length, &mut out);
            number::write(target, &mut out);
        }
    }
    out
}
