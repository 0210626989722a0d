//! Tables made for comparing: other numberings, spare states, merged states, other
//! labels and targets, other starts, counters, random tables, and sheets of a given length.

use crate::limits::{BYTES, OLDER, RULES};
use crate::prng::Rng;
use crate::sheet::Table;

/// The same table with its states renumbered; `order[new]` is the old number.
pub fn renumbered(table: &Table, order: &[usize]) -> Table {
    let mut new = vec![0; order.len()];
    for (i, &old) in order.iter().enumerate() {
        new[old] = i;
    }
    Table {
        labels: order.iter().map(|&old| table.labels[old]).collect(),
        targets: order.iter().flat_map(|&old| table.row(old)).map(|&t| new[t]).collect(),
    }
}

/// A random renumbering that keeps the start.
pub fn shuffled(rng: &mut Rng, table: &Table) -> Table {
    let mut order: Vec<usize> = (0..table.count()).collect();
    rng.shuffle(&mut order[1..]);
    renumbered(table, &order)
}

/// The table with up to `more` states that nothing leads to.
pub fn with_spare(rng: &mut Rng, table: &Table, more: usize) -> Table {
    let mut wider = table.clone();
    let count = table.count() + more;
    for _ in 0..more {
        wider.labels.push(rng.below(RULES + 1));
        let target = rng.below(count);
        let other = rng.below(count);
        let bend = rng.below(BYTES);
        wider.targets.extend((0..BYTES).map(|byte| if byte < bend { target } else { other }));
    }
    wider
}

/// The same table with states told apart by how many bytes lead to them, as far as
/// `most` states allow; past these it goes on as the table itself, its last states.
pub fn unrolled(table: &Table, most: usize) -> Table {
    let copies = most - table.count();
    let mut held = vec![(0, 0)];
    let mut targets = Vec::new();
    let mut copy = 0;
    while copy < held.len() {
        let (length, state) = held[copy];
        for &target in table.row(state) {
            let next = (length + 1, target);
            let known = held.iter().position(|&other| other == next);
            targets.push(known.unwrap_or(match held.len() < copies {
                true => held.len(),
                false => copies + target,
            }));
            if known.is_none() && held.len() < copies {
                held.push(next);
            }
        }
        copy += 1;
    }
    targets.extend(table.targets.iter().map(|&target| copies + target));
    let states = held.iter().map(|&(_, state)| state).chain(0..table.count());
    Table { labels: states.map(|state| table.labels[state]).collect(), targets }
}

/// The table in which every way to state `gone` leads to state `kept` instead; the
/// state itself stays as a spare one, or is taken out.
pub fn merged(table: &Table, gone: usize, kept: usize, take_out: bool) -> Table {
    let mut new = table.clone();
    for target in &mut new.targets {
        if *target == gone {
            *target = kept;
        }
    }
    if !take_out || gone == 0 {
        return new;
    }
    new.labels.remove(gone);
    new.targets.drain(BYTES * gone..BYTES * (gone + 1));
    for target in &mut new.targets {
        if *target > gone {
            *target -= 1;
        }
    }
    new
}

/// The table with another label on the state that a text leads to.
pub fn relabelled(table: &Table, text: &[u8], label: usize) -> Table {
    let mut new = table.clone();
    new.labels[table.after(text)] = label;
    new
}

/// The table with a start of its own, to which nothing leads back; the old start stays
/// as the last state. All that a cut can show is as before, whatever the label.
pub fn apart(table: &Table, label: usize) -> Table {
    let mut wider = table.clone();
    wider.labels.push(table.labels[0]);
    wider.targets.extend(table.row(0));
    relabelled(&merged(&wider, 0, table.count(), false), b"", label)
}

/// A change to one label or to one or a few targets.
pub fn changed(rng: &mut Rng, table: &Table) -> Table {
    let mut new = table.clone();
    let state = rng.below(table.count());
    if rng.chance(50) {
        new.labels[state] = rng.below(RULES + 1);
    } else {
        let target = rng.below(table.count());
        let from = rng.below(BYTES);
        let to = rng.within(from, (from + 3).min(BYTES - 1));
        new.targets[BYTES * state + from..=BYTES * state + to].fill(target);
    }
    new
}

/// A random table; rows have few runs or many, and fewer where there are many states,
/// so that most of their sheets are no longer than a file.
pub fn random(rng: &mut Rng, count: usize) -> Table {
    let many = count > OLDER.states;
    let mut table = Table { labels: Vec::new(), targets: Vec::new() };
    for _ in 0..count {
        table.labels.push(if rng.chance(40) { 0 } else { rng.below(RULES + 1) });
        let bend = *rng.pick(if many { &[1, 1, 10, 60] } else { &[1, 10, 60, 100] });
        let mut target = rng.below(count);
        for _ in 0..BYTES {
            if rng.chance(bend) {
                target = rng.below(count);
            }
            table.targets.push(target);
        }
    }
    table
}

/// A table of one state.
pub fn lone(label: usize) -> Table {
    Table { labels: vec![label], targets: vec![0; BYTES] }
}

/// A table without labels, from the target of each state and byte.
fn unlabelled(count: usize, target: impl Fn(usize, usize) -> usize) -> Table {
    let cells = 0..BYTES * count;
    let targets = cells.map(|cell| target(cell / BYTES, cell % BYTES)).collect();
    Table { labels: vec![0; count], targets }
}

/// A table that counts one byte modulo `round` (label 1 at 0) and sends every other
/// byte to one of `dead` dead states, byte by byte in turn.
pub fn counter(byte: u8, round: usize, dead: usize) -> Table {
    let target = |state: usize, other: usize| match () {
        _ if state >= round => state,
        _ if other == usize::from(byte) => (state + 1) % round,
        _ => round + other % dead,
    };
    relabelled(&unlabelled(round + dead, target), b"", 1)
}

/// A chain of states along any bytes whose last state keeps to itself; the label is
/// 1 at the multiples of `round`, but 0 on the last state.
pub fn chain(count: usize, round: usize) -> Table {
    let label = |state| usize::from(state % round == 0 && state + 1 < count);
    let table = unlabelled(count, |state, _| (state + 1).min(count - 1));
    Table { labels: (0..count).map(label).collect(), ..table }
}

/// States in which neighbouring bytes always have different targets, but that
/// state 0 has only `runs` runs, the first of them of length `first`.
pub fn crowded(count: usize, runs: usize, first: usize) -> Table {
    let mut table = Table { labels: vec![0; count], targets: Vec::new() };
    let left = BYTES - first;
    for byte in 0..BYTES {
        let run =
            if byte < first { 0 } else { 1 + (byte - first).min(left - 1) * (runs - 1) / left };
        table.targets.push(run % count);
    }
    for state in 1..count {
        table.targets.extend((0..BYTES).map(|byte| (byte + state) % count));
    }
    table
}

/// A table without labels that counts bytes modulo `round`, spread at its start.
pub fn clock(round: usize, more: usize) -> Table {
    spread(&unlabelled(round, |state, _| (state + 1) % round), more)
}

/// The table whose start leads by the last `more` bytes to as many states of their own,
/// which have no label and keep to themselves.
pub fn spread(table: &Table, more: usize) -> Table {
    let mut new = table.clone();
    for byte in BYTES - more..BYTES {
        let own = new.count();
        new.labels.push(0);
        new.targets.extend([own; BYTES]);
        new.targets[byte] = own;
    }
    new
}

/// A table without labels whose start leads to all other states, byte by byte in turn.
/// The first `rungs` of them lead down one by one to the lowest, the `more` others at once.
pub fn funnel(rungs: usize, more: usize) -> Table {
    unlabelled(1 + rungs + more, |state, byte| match state {
        0 => 1 + byte % (rungs + more),
        _ if state <= rungs => (state - 1).max(1),
        _ => 1,
    })
}
