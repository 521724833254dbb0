//! `--include` and `--exclude`: which files of a folder count.

use std::os::unix::ffi::OsStrExt;
use std::path::Path;

/// Files that are wanted by name: those of one include pattern, if there is any, and of no exclude
/// pattern.
#[derive(Clone, Debug, Default, PartialEq, Eq)]
pub struct Patterns {
    pub include: Vec<Vec<u8>>,
    pub exclude: Vec<Vec<u8>>,
}

impl Patterns {
    /// Whether a file of this name beneath the folder counts.
    pub fn file(&self, name: &Path) -> bool {
        let taken = |pattern: &Vec<u8>| fits(pattern, name);
        (self.include.is_empty() || self.include.iter().any(taken)) && self.folder(name)
    }

    /// Whether what is in a folder of this name may count.
    pub fn folder(&self, name: &Path) -> bool {
        !self.exclude.iter().any(|pattern| fits(pattern, name))
    }
}

/// A pattern with a / is held to the whole name, another to its last part.
fn fits(pattern: &[u8], name: &Path) -> bool {
    let held = if pattern.contains(&b'/') {
        name.as_os_str()
    } else {
        name.file_name().unwrap_or_default()
    };
    matches(pattern, held.as_bytes())
}

/// `?` is one letter but /, `*` any run of them, `**` any run with / too. It is the places in the
/// name that are kept, so that no pattern takes long.
fn matches(pattern: &[u8], name: &[u8]) -> bool {
    let mut reached = vec![false; name.len() + 1];
    reached[0] = true;
    let mut rest = pattern;
    while let Some((first, after)) = rest.split_first() {
        rest = after;
        if *first != b'*' {
            reached = past_one(&reached, name, *first);
        } else if let Some(after) = rest.strip_prefix(b"*") {
            rest = after;
            past_run(&mut reached, name, true);
        } else {
            past_run(&mut reached, name, false);
        }
    }
    reached[name.len()]
}

fn past_one(reached: &[bool], name: &[u8], wanted: u8) -> Vec<bool> {
    let mut places = vec![false; reached.len()];
    for at in (0..name.len()).filter(|at| reached[*at]) {
        let length = if wanted == b'?' {
            letter(&name[at..])
        } else {
            1
        };
        let same = name[at] == wanted || (wanted == b'?' && name[at] != b'/');
        places[at + length] |= same;
    }
    places
}

/// Bytes of the first letter; of what is no UTF-8, one.
fn letter(name: &[u8]) -> usize {
    let more = name.iter().skip(1).take_while(|byte| **byte & 0xc0 == 0x80);
    1 + more.count()
}

/// From each place that is reached, every place that a run leads to.
fn past_run(reached: &mut [bool], name: &[u8], across: bool) {
    for (at, byte) in name.iter().enumerate() {
        reached[at + 1] |= reached[at] && (across || *byte != b'/');
    }
}

#[cfg(test)]
mod tests {
    use super::Patterns;
    use std::path::Path;

    fn patterns(include: &[&str], exclude: &[&str]) -> Patterns {
        let bytes = |words: &[&str]| words.iter().map(|word| word.as_bytes().to_vec()).collect();
        Patterns {
            include: bytes(include),
            exclude: bytes(exclude),
        }
    }

    fn takes(pattern: &str, name: &str) -> bool {
        patterns(&[pattern], &[]).file(Path::new(name))
    }

    #[test]
    fn a_pattern_is_held_to_the_last_part_or_to_all() {
        for (pattern, name) in [
            ("*.hex", "a.hex"),
            ("*.hex", "deep/a.hex"),
            ("?.hex", "ö.hex"),
            ("a*c*e", "abcde"),
            ("deep/*.hex", "deep/a.hex"),
            ("deep/**", "deep/down/a.hex"),
            ("**/down/*", "deep/down/a.hex"),
            ("*", ""),
        ] {
            assert!(takes(pattern, name), "{pattern} {name}");
        }
        for (pattern, name) in [
            ("*.hex", "a.hex.txt"),
            ("?.hex", ".hex"),
            ("deep/*.hex", "deep/down/a.hex"),
            ("deep/*", "a.hex"),
            ("a", "ab"),
            ("A.hex", "a.hex"),
        ] {
            assert!(!takes(pattern, name), "{pattern} {name}");
        }
    }

    #[test]
    fn what_is_excluded_is_not_included() {
        let both = patterns(&["*.hex", "*.bin"], &["test*", "old/**"]);
        let taken = |name: &str| both.file(Path::new(name));
        assert!(taken("a.hex") && taken("deep/b.bin"));
        assert!(!taken("test.hex") && !taken("old/a.hex") && !taken("notes.txt"));
        assert!(!both.folder(Path::new("deep/tests")) && both.folder(Path::new("deep")));
    }

    #[test]
    fn no_pattern_takes_long() {
        let name = "a".repeat(2000);
        assert!(!takes(&"*a".repeat(500).replace("aa", "ab"), &name[..400]));
        assert!(!takes(&format!("{}b", "*a".repeat(400)), &name));
    }
}
