//! The types of keys.

/// A type of keys.
#[derive(Clone, Copy, PartialEq)]
pub enum Kind {
    Text,
    Bytes,
    Nibbles,
    Bool,
    Char,
    Bits,
    Ipv4,
    Ipv6,
    Parts,
    Unsigned(Width),
    Signed(Width),
}

/// How wide an integer is.
#[derive(Clone, Copy, PartialEq)]
pub enum Width {
    Bits8,
    Bits16,
    Bits32,
    Bits64,
    Bits128,
    Size,
}

/// The types, and the name of each.
const KINDS: &[(&str, Kind)] = &[
    ("text", Kind::Text),
    ("bytes", Kind::Bytes),
    ("nibbles", Kind::Nibbles),
    ("bool", Kind::Bool),
    ("char", Kind::Char),
    ("bits", Kind::Bits),
    ("ipv4", Kind::Ipv4),
    ("ipv6", Kind::Ipv6),
    ("parts", Kind::Parts),
    ("u8", Kind::Unsigned(Width::Bits8)),
    ("u16", Kind::Unsigned(Width::Bits16)),
    ("u32", Kind::Unsigned(Width::Bits32)),
    ("u64", Kind::Unsigned(Width::Bits64)),
    ("u128", Kind::Unsigned(Width::Bits128)),
    ("usize", Kind::Unsigned(Width::Size)),
    ("i8", Kind::Signed(Width::Bits8)),
    ("i16", Kind::Signed(Width::Bits16)),
    ("i32", Kind::Signed(Width::Bits32)),
    ("i64", Kind::Signed(Width::Bits64)),
    ("i128", Kind::Signed(Width::Bits128)),
    ("isize", Kind::Signed(Width::Size)),
];

impl Kind {
    /// The type of this name.
    pub fn of(name: &str) -> Option<Kind> {
        KINDS.iter().find(|(it, _)| *it == name).map(|(_, kind)| *kind)
    }
}
