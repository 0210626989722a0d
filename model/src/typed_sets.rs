//! The twelve sets that are typed by name: the POSIX classes, with the bytes that they
//! have in the POSIX locale.

pub const NAMES: [&str; 12] = [
    "alnum", "alpha", "blank", "cntrl", "digit", "graph", "lower", "print", "punct", "space",
    "upper", "xdigit",
];

/// Whether a byte is in the named set, larger sets by smaller ones as POSIX tells them.
fn has(name: &str, byte: u8) -> bool {
    match name {
        "upper" => (b'A'..=b'Z').contains(&byte),
        "lower" => (b'a'..=b'z').contains(&byte),
        "digit" => b"0123456789".contains(&byte),
        "xdigit" => b"0123456789ABCDEFabcdef".contains(&byte),
        "blank" => b" \t".contains(&byte),
        "space" => b" \t\n\r\x0B\x0C".contains(&byte),
        "cntrl" => byte < 0x20 || byte == 0x7F,
        "punct" => b"!\"#$%&'()*+,-./:;<=>?@[\\]^_`{|}~".contains(&byte),
        "alpha" => has("upper", byte) || has("lower", byte),
        "alnum" => has("alpha", byte) || has("digit", byte),
        "graph" => has("alnum", byte) || has("punct", byte),
        "print" => has("graph", byte) || byte == b' ',
        _ => unreachable!("{name} is no set"),
    }
}

/// The set's fewest ranges, rising: one for each run of neighbouring bytes.
pub fn ranges(name: &str) -> Vec<(u8, u8)> {
    let bytes: Vec<u8> = (0..=255).filter(|&byte| has(name, byte)).collect();
    let runs = bytes.chunk_by(|a, b| a + 1 == *b);
    runs.map(|run| (run[0], run[run.len() - 1])).collect()
}
