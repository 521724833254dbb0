//! `tests/sessions.list`: calls of the entry in lent rooms, and what each must give.
//! "a program runs the rest and the differential set"

use aznifrem::Lent;
use codes::{Random, checksum, from_hex, init};

use crate::lend;

/// The entry, or what stands in for it in a test.
pub type Entry = fn(&[u8], u64, &mut Lent) -> u64;

/// Calls the entry as a line says, `limit w p s t r q out length piece number written checksum`: the code repeats the piece, and the
/// last three are what must come of it. An error is a sentence; a lent byte that is not as document 01 has it is one too.
pub fn check(entry: Entry, line: &str, random: &mut Random) -> Result<(), String> {
    let fields: Vec<&str> = line.split(' ').collect();
    let [limit, w, p, s, t, r, q, out, length, piece, wanted @ ..] = &fields[..] else {
        return Err(format!("'{line}' has too few fields"));
    };
    let lent = model::Lent {
        w: parsed(w)?,
        p: parsed(p)?,
        s: parsed(s)?,
        t: parsed(t)?,
        r: parsed(r)?,
        q: parsed(q)?,
        out: parsed(out)?,
    };
    let code = init::repeated(&from_hex(piece)?, parsed(length)? as usize);
    let given = lend::call(entry, &code, parsed(limit)?, &lent, random)?;
    let count = given.written.len();
    let number = given.number - count as u64;
    let came = format!("{number} {count} {:016x}", checksum(&given.written));
    if came == wanted.join(" ") {
        return Ok(());
    }
    Err(format!("'{came}', and the list has '{}'", wanted.join(" ")))
}

fn parsed(text: &str) -> Result<u64, String> {
    text.parse().map_err(|_| format!("'{text}' is no number"))
}
