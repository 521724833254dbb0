//! Stored maps, from their files.

use std::fs;
use std::io::{self, Read};
use std::path::Path;

use aznifrem::{Map, Salvaged};

use crate::input::is_text;
use crate::names::shown;

/// A map, and the bytes that hold it.
pub struct Stored {
    pub bytes: Vec<u8>,
    pub map: Map,
}

/// The map of a file, or a sentence that says what is wrong with it, and where.
pub fn read(path: &Path) -> Result<Stored, String> {
    let bytes = if path == Path::new("-") {
        let mut bytes = Vec::new();
        io::stdin().read_to_end(&mut bytes).map(|_| bytes)
    } else {
        fs::read(path)
    };
    let bytes = bytes.map_err(|error| unreadable(path, &error))?;
    match Map::try_from_bytes(&bytes) {
        Ok(Ok(map)) => Ok(Stored { bytes, map }),
        Ok(Err(_)) if !bytes.is_empty() && is_text(&bytes) => Err(format!(
            "{}: is no stored map: {}",
            shown(path),
            printed(&bytes)
        )),
        Ok(Err(_)) if maps_of(&bytes) > 1 => Err(format!(
            "{}: is no stored map: it is an archive of them; unpack takes it apart",
            shown(path)
        )),
        Ok(Err(bad)) => Err(format!("{}: is no stored map: {bad}", shown(path))),
        Err(not_relayed) => Err(format!("{}: {not_relayed}", shown(path))),
    }
}

/// How many maps read whole, one after another from the beginning.
fn maps_of(bytes: &[u8]) -> u64 {
    let salvaged = Salvaged::of(bytes, &mut vec![0; bytes.len()]);
    salvaged.ok().flatten().map_or(0, |salvaged| salvaged.maps)
}

/// What a text is: likely something that was printed and kept.
fn printed(bytes: &[u8]) -> &'static str {
    let line = bytes
        .split(|byte| *byte == b'\n')
        .next()
        .unwrap_or_default();
    let line = line.strip_suffix(b"\r").unwrap_or(line);
    if line.starts_with(b"[") {
        "it is text, as --json prints it; --to stores maps, as files .map"
    } else if line.starts_with(b"== ") || line.iter().all(u8::is_ascii_hexdigit) {
        "it is text, as --lines prints it; --to stores maps, as files .map"
    } else {
        "it is text; --to stores maps, as files .map"
    }
}

pub fn unreadable(path: &Path, error: &io::Error) -> String {
    format!("{}: cannot be read: {error}", shown(path))
}
