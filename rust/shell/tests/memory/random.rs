//! Random sessions: lines of all calls that the help tells of, about a few keys near one another.
//! Their answers are those of a shell that is refused nothing.
use crate::sessions::{Exchange, Session};
use crate::told;
use shell::Shell;
use std::ops::RangeInclusive;

/// A generator of numbers: xorshift, of 64 bits.
struct Chance(u64);

impl Chance {
    fn below(&mut self, count: usize) -> usize {
        self.0 ^= self.0 << 13;
        self.0 ^= self.0 >> 7;
        self.0 ^= self.0 << 17;
        (self.0 >> 11) as usize % count
    }
    fn of<'a, T>(&mut self, items: &'a [T]) -> &'a T {
        &items[self.below(items.len())]
    }
}

/// The types of keys, and some of each.
const KEYS: &[(&str, &[&str])] = &[
    (
        "text",
        &[
            "\"\"",
            "a",
            "ab",
            "abc",
            "abd",
            "b",
            "\\=6",
            "\\=616",
            "aaaaaaaaaaaaaaaaaaaaaaaaab",
            "aaaaaaaaaaaaaaaaaaaaaaaaac",
            "\\xc3\\xa9",
            "a\\sb",
            "\\xff",
        ],
    ),
    ("bytes", &["\"\"", "\\x00", "\\x00\\x01", "\\xff", "ab", "abcdefghijklmnopqrstuvwxyz"]),
    ("nibbles", &["\"\"", "0", "01", "1", "12", "123", "12345678901234567890123456789012345"]),
    ("u16", &["0", "1", "256", "257", "4096", "65535", "65536"]),
    ("i64", &["0", "-1", "1", "-256", "9223372036854775807", "-9223372036854775808"]),
    ("ipv4", &["0.0.0.0/0", "10.0.0.0/8", "10.1.0.0/16", "10.1.2.3", "10.1.2.0/23", "11.0.0.0/8"]),
    (
        "parts",
        &["\"\"", "/a", "/a/b", "/a/+", "/#", "/+/b", "/aaaaaaaaaaaaaaa/bbbbbbbbbbbbbbbbbbb"],
    ),
];

/// The forms of the calls that are drawn: neither those of files, nor those that tell of calls.
fn forms() -> Vec<String> {
    let help = told(&mut Shell::new(false, false), b"help all").unwrap();
    let help = String::from_utf8(help).unwrap();
    let mut forms: Vec<String> =
        help.lines().map(|line| line.split(": ").next().unwrap().to_owned()).collect();
    forms.dedup();
    forms.retain(|form| {
        !form.contains("FILE") && !form.contains("help") && !form.starts_with("keys TYPE")
    });
    // Pairs are stored often, and seldom all dropped.
    for _ in 0..8 {
        forms.extend(
            ["insert KEY VALUE", "extend[ KEY VALUE ..]", "open_mut KEY"].map(str::to_owned),
        );
        forms.extend(["with KEY CALL[ ; CALL ..]", "frozen NAME CALL[ ..]"].map(str::to_owned));
    }
    forms
}

/// A line of a random call.
fn line(chance: &mut Chance, forms: &[String], keys: &[&str], depth: usize) -> String {
    let form = chance.of(forms).replace('[', " [").replace(']', " ] ");
    let mut words = Vec::new();
    let mut is_left_out = false;
    for word in form.split(' ').filter(|word| !word.is_empty()) {
        let key = *chance.of(keys);
        let number = chance.below(9).to_string();
        let is_left = is_left_out;
        match word {
            "[" => is_left_out = chance.below(2) == 0,
            "]" => is_left_out = false,
            _ if is_left || word == ".." => {}
            "KEY" | "LAST" | "OTHER" => words.push(key.to_owned()),
            "VALUE" | "DEFAULT" | "NUMBER" | "COUNT" | "PLACE" => words.push(number),
            "LIST" | "BITS" | "DIGIT" => {
                words.push(chance.of(&["6", "61", "616", "01"]).to_string())
            }
            "NAME" => words.push(chance.of(&["f", "g", "part", "other", "trie"]).to_string()),
            "FROM" => words.push(format!("{}{key}", chance.of(&[">", ">="]))),
            "TO" => words.push(format!("{}{key}", chance.of(&["<", "<="]))),
            "TYPE" => words.push(chance.of(KEYS).0.to_owned()),
            "COMMAND" => words.push(commands(chance, keys)),
            "CALL" if depth == 0 => words.push("len".to_owned()),
            "CALL" => words.push(line(chance, forms, keys, depth - 1)),
            _ if word.chars().any(|it| it.is_ascii_uppercase()) => words.push(key.to_owned()),
            _ => words.push(word.to_owned()),
        }
    }
    if form.starts_with("extend") || form.starts_with("from_iter") {
        for _ in 0..chance.below(4) {
            words.push(format!("{} {}", chance.of(keys), chance.below(9)));
        }
    }
    words.join(" ")
}

/// A few commands, some of them in a view.
fn commands(chance: &mut Chance, keys: &[&str]) -> String {
    let mut words = Vec::new();
    for _ in 0..chance.below(4) {
        let (key, other) = (chance.of(keys), chance.of(keys));
        words.push(match chance.below(4) {
            0 => format!("insert {key} {}", chance.below(9)),
            1 => format!("remove_prefix {key}"),
            2 => format!("within {key} insert {other} 1 remove {key} len end"),
            _ => format!("get {key} len"),
        });
    }
    if words.is_empty() { "len".to_owned() } else { words.join(" ") }
}

/// Sessions of so many lines, by these seeds.
pub fn sessions(seeds: RangeInclusive<u64>, count: usize) -> impl Iterator<Item = Session> {
    let forms = forms();
    seeds.map(move |seed| {
        let mut chance = Chance(seed.wrapping_mul(0x9e37_79b9_7f4a_7c15));
        let (kind, keys) = KEYS[seed as usize % KEYS.len()];
        let begun = [format!("begin {kind}")];
        let drawn = (0..count).map(|_| line(&mut chance, &forms, keys, 2));
        answered(format!("seed {seed}"), begun.into_iter().chain(drawn))
    })
}

/// A session of these lines, with the answers of a shell that is refused nothing.
fn answered(name: String, lines: impl Iterator<Item = String>) -> Session {
    let mut session = Session { name, ..Session::default() };
    let mut shell = session.shell();
    for line in lines {
        let answer = told(&mut shell, line.as_bytes()).unwrap();
        session.exchanges.push(Exchange { answer, ..Exchange::new(line.as_bytes()) });
    }
    session
}

/// Changes that tell what they take away, where that is longer than an answer has room for.
pub fn long_session() -> Session {
    let (one, other) = ("k".repeat(700), format!("{}l", "k".repeat(699)));
    let filled = format!("extend {one} 1 {other} 2");
    let calls = [
        "pop_first".to_owned(),
        "pop_last".to_owned(),
        format!("remove_entry {one}"),
        format!("entry_remove {other}"),
        "remove_prefix k".to_owned(),
        "into_pairs".to_owned(),
        format!("entry {one}"),
        "with k remove_prefix k ; iter".to_owned(),
        format!("open {one}\nclose\nopen_mut {one}\nclose"),
        "freeze f\nfrozen f iter\nthaw f".to_owned(),
    ];
    let lines = calls.iter().map(|call| format!("{filled}\n{call}"));
    let lines = lines.collect::<Vec<_>>().join("\n");
    answered("long keys".to_owned(), lines.split('\n').map(str::to_owned))
}
