//! The call that also writes the text: against the model, and its text against a writer of its own.

use codes::Random;
use model::{HIGHEST_LIMIT, Lent, Map, entries};

use crate::lend::{self, Given};
use crate::mismatch::{Mismatch, different, mismatch};
use crate::nearby::short;
use crate::port::{JsonModePort, JsonPort};

/// The refusal of a text room that is short.
const TEXT_SHORT: u64 = 11;

/// The call at the highest limit, whose text is given; one with the text room or another short, or
/// both; and in one of four a call at a lower limit, against the model's blocks.
pub fn calls(
    port: JsonPort,
    code: &[u8],
    map: &Map,
    text: &str,
    random: &mut Random,
) -> Result<(), Mismatch> {
    exactly(port, code, HIGHEST_LIMIT, (map, text), random)?;
    scantly(port, code, map, text.len() as u64, random)?;
    if random.percent(25) {
        let lower = random.below(map.energy as usize + 1) as u64;
        if let Ok(map) = model::map(&agree::ENOUGH, lower, code) {
            let text = agree::json::of_model(&map.blocks);
            exactly(port, code, lower, (&map, &text), random)?;
        }
    }
    Ok(())
}

/// The call in a mode, at the highest limit in exactly the rooms that it needs.
pub fn in_mode(
    port: JsonModePort,
    mode: u64,
    code: &[u8],
    (map, text): (&Map, &str),
    random: &mut Random,
) -> Result<(), Mismatch> {
    let port = |code: &[u8], limit, rooms: &mut aznifrem::Lent, text: &mut [u8]| {
        port(mode, code, limit, rooms, text)
    };
    exactly(port, code, HIGHEST_LIMIT, (map, text), random)
}

/// In exactly the rooms that it needs: the number, the entries and the text.
pub fn exactly(
    port: impl FnOnce(&[u8], u64, &mut aznifrem::Lent, &mut [u8]) -> u64,
    code: &[u8],
    limit: u64,
    (map, text): (&Map, &str),
    random: &mut Random,
) -> Result<(), Mismatch> {
    let written = entries::write(code.len(), map);
    let lent = (map.needs.lent(code.len()), text.len() as u64);
    let given = call(port, code, limit, lent, random)?;
    expect(&given, written.len() as u64 + (lent.1 << 32), limit)?;
    if given.written != written {
        return Err(mismatch("bytes", different(&given.written, &written)));
    }
    if given.text == text.as_bytes() {
        return Ok(());
    }
    let ours = String::from_utf8_lossy(&given.text);
    let sentence = format!("the text is {ours}, the writer's {text}; limit {limit}");
    Err(mismatch("text", sentence))
}

/// With the text room short, by a byte, by half or by all, and half of the time another room: that
/// one is named then, as the text comes last, and the text's room may be enough.
fn scantly(
    port: JsonPort,
    code: &[u8],
    map: &Map,
    length: u64,
    random: &mut Random,
) -> Result<(), Mismatch> {
    let exact = map.needs.lent(code.len());
    let lent = if random.percent(50) {
        exact
    } else {
        short(&exact, random)
    };
    let (number, least) = match model::map(&lent, HIGHEST_LIMIT, code) {
        Ok(_) => (TEXT_SHORT, 1),
        Err(refusal) => (u64::from(refusal.number()), 0),
    };
    let less = random.pick(&[least, length.div_ceil(2), length]);
    let given = call(port, code, HIGHEST_LIMIT, (lent, length - less), random)?;
    expect(&given, number, HIGHEST_LIMIT)
}

/// A refusal that looks at no room, 1, 2 or 13: it has the same number here, and touches nothing.
pub fn refused(
    port: impl FnOnce(&[u8], u64, &mut aznifrem::Lent, &mut [u8]) -> u64,
    code: &[u8],
    limit: u64,
    (lent, number): (&Lent, u64),
    random: &mut Random,
) -> Result<(), Mismatch> {
    let length = random.below(200) as u64;
    let given = call(port, code, limit, (*lent, length), random)?;
    expect(&given, number, limit)
}

fn call(
    port: impl FnOnce(&[u8], u64, &mut aznifrem::Lent, &mut [u8]) -> u64,
    code: &[u8],
    limit: u64,
    lent: (Lent, u64),
    random: &mut Random,
) -> Result<Given, Mismatch> {
    let given = lend::call_json(port, code, limit, (&lent.0, lent.1), random);
    given.map_err(|fault| {
        let sentence = format!("{fault}; limit {limit}, {lent:?} with the text's room");
        mismatch("lent bytes", sentence)
    })
}

fn expect(given: &Given, number: u64, limit: u64) -> Result<(), Mismatch> {
    if given.number == number {
        return Ok(());
    }
    let given = given.number;
    let sentence = format!("the call with a text gives {given}, not {number}; limit {limit}");
    Err(mismatch("number", sentence))
}
