//! Fixed typed texts at the limits and just past them: lines, nodes, parentheses, the
//! output area, and long texts.

use crate::limits::{KIND, NODES, OPEN, RULES, TYPED_AREA};
use crate::typed_fixed::{fixed, Fixed};

/// All of them that are stored.
pub fn limit_texts() -> Vec<Fixed> {
    [line_counts(), node_counts(), depths(), areas()].concat()
}

/// As many lines as there may be, and more.
fn line_counts() -> Vec<Fixed> {
    let lines = |count: usize| "1:a\n".repeat(count);
    let past = format!("refused 3 {}", 4 * RULES);
    let late = |more: &str| lines(RULES) + more;
    vec![
        fixed("32 lines", lines(RULES), "32 rules, 32 nodes"),
        fixed("33 lines", lines(RULES + 1), past.clone()),
        fixed("300 lines", lines(300), past.clone()),
        fixed("33 lines, a kind too large in the last", late("16384:a\n"), past.clone()),
        fixed("34 lines, a kind too large in the last", late("1:a\n16384:a\n"), past),
        fixed("33 lines, a wrong byte in the last", late("1:|\n"), "refused 14 130"),
        fixed("33 lines, the last without its end", late("1:a"), "refused 14 131"),
        fixed("33 lines, then a blank one", late("1:a\n\n"), "refused 14 132"),
    ]
}

/// One line with the marks behind an a.
fn with_marks(marks: &[(char, usize)]) -> String {
    let marks = marks.iter().map(|(mark, count)| mark.to_string().repeat(*count));
    format!("1:a{}\n", marks.collect::<String>())
}

/// As many nodes as there may be, one more, and so many that numbers would wrap.
fn node_counts() -> Vec<Fixed> {
    let a = |count: usize| "a".repeat(count);
    let bars = |count: usize| vec!["a"; count].join("|");
    let most = |rules: usize| format!("{rules} rules, {NODES} nodes");
    let at = |place: usize| format!("refused 3 {place}");
    // 256 nodes are 128 atoms, 127 joints and a star; 32 lines of 16 nodes are as many.
    let half = format!("1:({})*\n", a(128));
    let sixteenths = format!("1:{}*\n", a(8)).repeat(RULES - 1);
    let mut all = vec![
        fixed("512 nodes, a sequence", format!("1:{}*\n", a(256)), most(1)),
        fixed("513 nodes, a sequence", format!("1:{}\n", a(257)), at(0)),
        fixed("512 nodes, a choice", format!("1:({})*\n", bars(256)), most(1)),
        fixed("513 nodes, a choice", format!("1:{}\n", bars(257)), at(0)),
        fixed("512 nodes, sets", format!("1:{}*\n", "<punct>".repeat(64)), most(1)),
        fixed("513 nodes, sets", format!("1:{}?\n", "<punct>".repeat(64)), at(0)),
        fixed("512 nodes, *", with_marks(&[('*', 511)]), most(1)),
        fixed("513 nodes, *", with_marks(&[('*', 512)]), at(0)),
        fixed("512 nodes, ?", with_marks(&[('?', 255), ('*', 1)]), most(1)),
        fixed("513 nodes, ?", with_marks(&[('?', 256)]), at(0)),
        // So many + have 3 * 2^7 - 2 nodes.
        fixed("512 nodes, +", with_marks(&[('+', 7), ('*', 130)]), most(1)),
        fixed("513 nodes, +", with_marks(&[('+', 7), ('*', 131)]), at(0)),
        fixed("766 nodes, +", with_marks(&[('+', 8)]), at(0)),
        fixed("256 and 256 nodes", half.repeat(2), most(2)),
        fixed("256 and 257 nodes", format!("{half}2:{}\n", a(129)), at(half.len())),
        fixed("256, 256 and 1 nodes", half.repeat(2) + "3:a\n", at(2 * half.len())),
        fixed(
            "256, 256 and 1 nodes, then a wrong byte",
            half.repeat(2) + "3:a\n4",
            "refused 14 273",
        ),
        fixed("32 lines of 16 nodes", format!("{sixteenths}1:{}*\n", a(8)), most(32)),
        fixed("the last line of 17 nodes", format!("{sixteenths}1:{}\n", a(9)), at(31 * 12)),
        fixed("too many nodes, then few", format!("{}2:b\n", with_marks(&[('+', 64)])), at(0)),
        fixed("few nodes, then too many", format!("2:b\n{}", with_marks(&[('+', 64)])), at(4)),
        fixed("longest book", longest_book(), "32 rules, 512 nodes"),
    ];
    all.extend(wrapped(&[16, 32, 64, 200]));
    all
}

/// So many + have 3 * 2^k - 2 nodes; where that wraps it is -2, and 2 with ?? behind.
pub fn wrapped(counts: &[usize]) -> Vec<Fixed> {
    let text = |count| with_marks(&[('+', count), ('?', 2)]);
    let named =
        |count: &usize| fixed(&format!("{count} times + and two ?"), text(*count), "refused 3 0");
    counts.iter().map(named).collect()
}

/// The longest book there is, 1,701 bytes: leaves of five bytes, as many as there may be,
/// kinds of two bytes and as many node counts of two bytes as there may be.
fn longest_book() -> String {
    let line = |atoms: usize| format!("{KIND}:{}\n", r"\ff".repeat(atoms));
    [line(65).repeat(3), line(49), line(1).repeat(28)].concat()
}

/// As many parentheses as there may be, and one more.
fn depths() -> Vec<Fixed> {
    let in_parentheses =
        |inner: &str, deep| format!("{}{inner}{}", "(".repeat(deep), ")".repeat(deep));
    let line = |inner: &str, deep| format!("1:{}\n", in_parentheses(inner, deep));
    let deep_right = "01010101026161";
    let past = format!("refused 14 {}", 2 + OPEN);
    let twice = in_parentheses("a", OPEN).repeat(2);
    let choice = in_parentheses("a|()", OPEN - 1);
    vec![
        fixed("a, 32 deep", line("a", OPEN), deep_right),
        fixed("a, 33 deep", line("a", OPEN + 1), past.clone()),
        fixed("(), 32 deep", line("()", OPEN - 1), "0101010101"),
        fixed("(), 33 deep", line("()", OPEN), past.clone()),
        fixed("32 times (", format!("1:{}", "(".repeat(OPEN)), past.clone()),
        fixed("32 times ( and )", format!("1:{})", "(".repeat(OPEN)), "refused 14 35"),
        fixed("32 times ( and a newline", format!("1:{}\n", "(".repeat(OPEN)), past),
        fixed("32 deep twice", format!("1:{twice}\n"), "0101010302616102616103"),
        fixed("() in a choice, 32 deep", format!("1:{choice}\n"), "010101030261610104"),
        fixed(
            "32 times ), one too many",
            format!("1:{})\n", in_parentheses("a", OPEN)),
            "refused 14 67",
        ),
        fixed("33 deep behind a bar", format!("1:{}a|(", "(".repeat(OPEN)), "refused 14 36"),
    ]
}

/// Output areas of other lengths; a short one comes before all that is wrong.
fn areas() -> Vec<Fixed> {
    let mut all = Vec::new();
    for (name, text) in [("right", "1:a\n"), ("wrong", "1:"), ("past", "16384:a\n"), ("no", "")] {
        let short = fixed(&format!("{name} text, area of 4095"), text, "refused 11 0");
        all.push(Fixed { area: TYPED_AREA - 1, ..short });
    }
    all.push(Fixed { area: 0, ..fixed("right text, no area", "1:a\n", "refused 11 0") });
    let longer = fixed("right text, area of 4097", "1:a\n", "01010101026161");
    all.push(Fixed { area: TYPED_AREA + 1, ..longer });
    all
}

/// Texts of thousands of bytes.
pub fn long_texts() -> Vec<Fixed> {
    // The longest text that has a book: each leaf is one range by name in all the
    // parentheses there may be, and bars are typed where sequences are not.
    let leaf = format!("{}<digit>{}", "(".repeat(OPEN), ")".repeat(OPEN));
    let line = |leaves: usize| format!("10000:{}\n", vec![&leaf[..]; leaves].join("|"));
    let longest = [line(65).repeat(3), line(49), line(1).repeat(28)].concat();
    let early = longest[..longest.len() - 1].to_string();
    let late = longest.replacen("10000:", "16384:", 1) + "1";
    let full = |end: &str| format!("1:{}{end}", "a".repeat(32_766 - end.len()));
    vec![
        fixed("10000 times +", with_marks(&[('+', 10_000)]), "refused 3 0"),
        fixed("10000 times + and ?", with_marks(&[('+', 10_000), ('?', 10_000)]), "refused 3 0"),
        fixed("a kind of 10000 digits", format!("{}:a\n", "1".repeat(10_000)), "refused 3 0"),
        fixed("8000 lines", "1:a\n".repeat(8_000), "refused 3 128"),
        fixed("longest text of a book", longest, "32 rules, 512 nodes"),
        fixed("longest text of a book, without its end", early, "refused 14 19775"),
        fixed("longest text of a book, spoilt", late, "refused 14 19777"),
        fixed("32768 bytes", full("\n"), "refused 3 0"),
        fixed("32768 bytes, the last one wrong", full(")"), "refused 14 32767"),
        fixed("32768 bytes, an end in a row", full(""), "refused 14 32768"),
        fixed("32768 bytes, an end behind a bar", full("|"), "refused 14 32768"),
        fixed("32768 bytes, the first one wrong", ":".repeat(32_768), "refused 14 0"),
        fixed("32768 bytes, most of them (", format!("1:{}", "(".repeat(32_766)), "refused 14 34"),
    ]
}
