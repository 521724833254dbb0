//! The table of the exported calls, as the relay's C.

use std::fmt::Write;

/// One exported call: how many numbers, and for each slice whether it is written.
pub struct Export {
    pub name: &'static str,
    pub numbers: usize,
    pub slices: &'static [bool],
}

macro_rules! written {
    (read) => {
        false
    };
    (write) => {
        true
    };
}

macro_rules! exports {
    ($($name:ident($($number:ident),*; $($kind:ident $slice:ident),*);)*) => {
        pub const EXPORTS: &[Export] = &[$(Export {
            name: stringify!($name),
            numbers: <[&str]>::len(&[$(stringify!($number)),*]),
            slices: &[$(written!($kind)),*],
        }),*];
    };
}

include!("../exports.rs");

impl Export {
    fn words(&self) -> usize {
        self.numbers + 2 * self.slices.len()
    }

    /// The call with its words as C's arguments: the compiler holds them to the header's.
    fn call(&self) -> String {
        let mut words = (0..self.words()).map(|word| format!("a[{word}]"));
        let mut arguments: Vec<String> = words.by_ref().take(self.numbers).collect();
        for written in self.slices {
            let start = words.next().unwrap_or_default();
            let way = if *written { "to_write" } else { "to_read" };
            arguments.push(format!("{way}({start})"));
            arguments.extend(words.next());
        }
        format!("{}({})", self.name, arguments.join(", "))
    }
}

/// `exported.h`: the functions over words, in the table's order.
pub fn header() -> String {
    let most = EXPORTS.iter().map(Export::words).max().unwrap_or(0);
    let mut text = format!("enum {{ MOST_WORDS = {most} }};\n");
    for (at, export) in EXPORTS.iter().enumerate() {
        let call = export.call();
        let line = format!("static word exported_{at}(const word *a) {{ return {call}; }}\n");
        text.push_str(&line);
    }
    text.push_str("static word (*const exported[])(const word *) = {");
    for at in 0..EXPORTS.len() {
        let _ = write!(text, "exported_{at}, ");
    }
    text.push_str("};\n");
    text
}
