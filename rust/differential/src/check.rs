//! Everything that is held against each other on one code.

use std::collections::BTreeMap;

use agree::ENOUGH;
use aznifrem::{Block, BlockType, DynamicJump, Map};
use codes::Random;
use model::{Answer, HIGHEST_LIMIT, LONGEST_CODE, Lent, Refusal, rooms};
use oracle::control_flow_graph as rust;

use crate::json;
use crate::lend::{self, Given};
use crate::mismatch::{Mismatch, different, mismatch};
use crate::nearby::{longer, short};
use crate::panics::caught;
use crate::port::{ChoicePort, JsonChoicePort, JsonModePort, JsonPort, ModePort, Port};

/// The fewest bytes that an answer has.
const LEAST_WRITTEN: u64 = 18;

/// What came of one code.
#[derive(Clone, Copy, Debug, PartialEq, Eq)]
pub enum Verdict {
    Same,
    /// It needs more than `agree::ENOUGH`: its refusal was held against the model's.
    TooHeavy,
    /// It has more than 49,152 bytes: its refusals were held against the model's, and are 1.
    TooLong,
}

/// Holds a port against the Rust and the model.
#[derive(Clone, Copy)]
pub struct Checker {
    pub port: Port,
    pub json: JsonPort,
    pub in_mode: ModePort,
    pub json_in: JsonModePort,
    pub by: ChoicePort,
    pub json_by: JsonChoicePort,
}

impl Checker {
    /// The proved library.
    pub const LIBRARY: Checker = Checker {
        port: aznifrem::call,
        json: aznifrem::call_json,
        in_mode: aznifrem::call_in,
        json_in: aznifrem::call_json_in,
        by: aznifrem::call_by,
        json_by: aznifrem::call_json_by,
    };

    /// All calls on one code; the seed chooses rooms and limits beyond the plain call.
    pub fn check(&self, code: &[u8], seed: u64) -> Result<Verdict, Mismatch> {
        // The model, the library and the binding may panic: that is told with the code as well.
        caught("panic", || self.calls(code, &mut Random::new(seed)))?
    }

    fn calls(&self, code: &[u8], random: &mut Random) -> Result<Verdict, Mismatch> {
        if code.len() > LONGEST_CODE {
            return self.too_long(code, random);
        }
        let Ok(map) = model::map(&ENOUGH, HIGHEST_LIMIT, code) else {
            let most = Lent {
                w: rooms::work(code.len()),
                ..ENOUGH
            };
            self.call(code, HIGHEST_LIMIT, &most, random)?;
            return Ok(Verdict::TooHeavy);
        };
        let exact = map.needs.lent(code.len());
        let given = self.call(code, HIGHEST_LIMIT, &exact, random)?;
        let theirs = caught("panic of the Rust", || oracle::blocks(code))?;
        same_blocks(&theirs, &given.written)?;
        let text = agree::json::text(theirs.values());
        json::calls(self.json, code, &map, &text, random)?;
        self.call(code, HIGHEST_LIMIT, &short(&exact, random), random)?;
        let lower = random.below(map.energy as usize + 2) as u64;
        self.call(code, lower, &longer(&exact, random), random)?;
        if random.percent(5) {
            let over = HIGHEST_LIMIT + 1 + random.word() % 9;
            let number = self.call(code, over, &exact, random)?.number;
            json::refused(self.json, code, over, (&exact, number), random)?;
        }
        self.modes(code, random)?;
        self.numbers(code, random)?;
        self.choices(code, random)?;
        Ok(Verdict::Same)
    }

    /// Choice 0 against the model, and its records' numbers against the copy of the Rust that tells
    /// its energy; then a lower limit, which has exactly the records with numbers up to it.
    fn numbers(&self, code: &[u8], random: &mut Random) -> Result<(), Mismatch> {
        let Ok(map) = model::map_by(0, 0, &ENOUGH, HIGHEST_LIMIT, code) else {
            return Ok(());
        };
        let exact = map.needs.lent(code.len());
        let given = self.by((0, 0), code, HIGHEST_LIMIT, &exact, random)?;
        let all = numbers_of(&given.written)?;
        let theirs = caught("panic of the Rust's copy", || counted::told(code))?;
        if all != theirs.records {
            let sentence = format!(
                "the Rust's copy tells {:?}, the answer {all:?}",
                theirs.records
            );
            return Err(mismatch("numbers", sentence));
        }
        self.by((0, 0), code, HIGHEST_LIMIT, &short(&exact, random), random)?;
        let lower = random.below(map.energy as usize + 2) as u64;
        let given = self.by((0, 0), code, lower, &longer(&exact, random), random)?;
        if given.number >= LEAST_WRITTEN {
            let up_to: Vec<Numbered> = all
                .into_iter()
                .filter(|(_, energy)| *energy <= lower)
                .collect();
            let few = numbers_of(&given.written)?;
            if few != up_to {
                let sentence = format!("at limit {lower} they are {few:?}, and up to it {up_to:?}");
                return Err(mismatch("numbers up to a limit", sentence));
            }
        }
        Ok(())
    }

    /// A choice, small or large, and a mode, without a text and with one.
    fn choices(&self, code: &[u8], random: &mut Random) -> Result<(), Mismatch> {
        let choice = random.pick(&[0, 0, 0, 2, 255, 256, 1 << 32, u64::MAX]);
        let mode = random.below(2) as u64;
        let Ok(map) = model::map_by(choice, mode, &ENOUGH, HIGHEST_LIMIT, code) else {
            return Ok(());
        };
        let exact = map.needs.lent(code.len());
        self.by((choice, mode), code, HIGHEST_LIMIT, &exact, random)?;
        let text = agree::json::of_model(&map.blocks);
        let port = |code: &[u8], limit, rooms: &mut aznifrem::Lent, text: &mut [u8]| {
            (self.json_by)(choice, mode, code, limit, rooms, text)
        };
        json::exactly(port, code, HIGHEST_LIMIT, (&map, &text), random)
    }

    fn by(
        &self,
        (choice, mode): (u64, u64),
        code: &[u8],
        limit: u64,
        lent: &Lent,
        random: &mut Random,
    ) -> Result<Given, Mismatch> {
        let port = |code: &[u8], limit, rooms: &mut aznifrem::Lent| {
            (self.by)(choice, mode, code, limit, rooms)
        };
        let expected = model::answer_by(choice, mode, lent, limit, code);
        let circumstances = format!("choice {choice}, mode {mode}, limit {limit}, {lent:?}");
        held(
            lend::call(port, code, limit, lent, random),
            &expected,
            &circumstances,
        )
    }

    /// Mode 1 against the model, with a text too, and against the copy of the Rust that knows PUSH0 to
    /// be 0; at a lower limit; then modes that are none.
    fn modes(&self, code: &[u8], random: &mut Random) -> Result<(), Mismatch> {
        if let Ok(map) = model::map_in(1, &ENOUGH, HIGHEST_LIMIT, code) {
            let exact = map.needs.lent(code.len());
            let given = self.in_mode(1, code, HIGHEST_LIMIT, &exact, random)?;
            let theirs = caught("panic of the Rust's copy", || zero::blocks(code))?;
            same_blocks(&theirs, &given.written)?;
            let text = agree::json::of_model(&map.blocks);
            json::in_mode(self.json_in, 1, code, (&map, &text), random)?;
            self.in_mode(1, code, HIGHEST_LIMIT, &short(&exact, random), random)?;
            let lower = random.below(map.energy as usize + 2) as u64;
            self.in_mode(1, code, lower, &longer(&exact, random), random)?;
        } else {
            let most = Lent {
                w: rooms::work(code.len()),
                ..ENOUGH
            };
            self.in_mode(1, code, HIGHEST_LIMIT, &most, random)?;
        }
        self.no_mode(code, random)
    }

    /// A number that is no mode: refused after 1 and 2 and before a short W is, however large it is.
    fn no_mode(&self, code: &[u8], random: &mut Random) -> Result<(), Mismatch> {
        let none = random.pick(&[2, 3, 255, 256, 257, 1 << 32, (1 << 32) + 1, u64::MAX]);
        let limit = random.pick(&[0, HIGHEST_LIMIT, HIGHEST_LIMIT, HIGHEST_LIMIT + 1, u64::MAX]);
        let lent = Lent::each(random.below(200) as u64);
        let number = self.in_mode(none, code, limit, &lent, random)?.number;
        let port = |code: &[u8], limit, rooms: &mut aznifrem::Lent, text: &mut [u8]| {
            (self.json_in)(none, code, limit, rooms, text)
        };
        json::refused(port, code, limit, (&lent, number), random)
    }

    fn in_mode(
        &self,
        mode: u64,
        code: &[u8],
        limit: u64,
        lent: &Lent,
        random: &mut Random,
    ) -> Result<Given, Mismatch> {
        let port = |code: &[u8], limit, rooms: &mut aznifrem::Lent| {
            (self.in_mode)(mode, code, limit, rooms)
        };
        let expected = model::answer_in(mode, lent, limit, code);
        let circumstances = format!("mode {mode}, limit {limit}, {lent:?}");
        held(
            lend::call(port, code, limit, lent, random),
            &expected,
            &circumstances,
        )
    }

    /// Refusal 1 comes before 2 and 3: at any limit, with W enough, short or not there.
    fn too_long(&self, code: &[u8], random: &mut Random) -> Result<Verdict, Mismatch> {
        let enough = rooms::work(code.len());
        let over = HIGHEST_LIMIT + 1 + random.word() % 9;
        let under = random.below(HIGHEST_LIMIT as usize) as u64;
        for limit in [HIGHEST_LIMIT, under, over, u64::MAX] {
            let lent = Lent {
                w: random.pick(&[0, 256, enough - 1, enough]),
                ..Lent::each(random.below(200) as u64)
            };
            let number = self.call(code, limit, &lent, random)?.number;
            if number != u64::from(Refusal::CodeTooLong.number()) {
                let sentence = format!("{} bytes are answered {number}, not 1", code.len());
                return Err(mismatch("number", sentence));
            }
            json::refused(self.json, code, limit, (&lent, number), random)?;
            self.no_mode(code, random)?;
        }
        Ok(Verdict::TooLong)
    }

    /// One call: number, bytes, and every lent byte, against the model's answer.
    fn call(
        &self,
        code: &[u8],
        limit: u64,
        lent: &Lent,
        random: &mut Random,
    ) -> Result<Given, Mismatch> {
        let expected = model::answer(lent, limit, code);
        let circumstances = format!("limit {limit}, {lent:?}");
        held(
            lend::call(self.port, code, limit, lent, random),
            &expected,
            &circumstances,
        )
    }
}

/// A record's path, and the energy when it was made.
type Numbered = (Vec<usize>, u64);

/// Those of an answer, by the binding.
fn numbers_of(written: &[u8]) -> Result<Vec<Numbered>, Mismatch> {
    let map = Map::from_bytes(written).map_err(|bad| mismatch("binding", bad.to_string()))?;
    let number = |record: aznifrem::Record| {
        let energy = record.energy.map(u64::from);
        energy.map(|energy| (record.jump.path, energy))
    };
    let numbers: Option<Vec<Numbered>> = map.records.into_iter().map(number).collect();
    numbers.ok_or_else(|| mismatch("binding", "a record has no number".into()))
}

/// What a call gave, where it is what the model answers.
fn held(
    given: Result<Given, String>,
    expected: &Answer,
    circumstances: &str,
) -> Result<Given, Mismatch> {
    let given =
        given.map_err(|fault| mismatch("lent bytes", format!("{fault}; {circumstances}")))?;
    let number = match expected {
        Answer::Refused(refusal) => u64::from(refusal.number()),
        Answer::Answered(bytes) => bytes.len() as u64,
    };
    if given.number != number {
        let sentence = format!(
            "the call gives {}, the model {number}; {circumstances}",
            given.number
        );
        return Err(mismatch("number", sentence));
    }
    if given.written != expected.written() {
        let sentence = different(&given.written, expected.written());
        return Err(mismatch("bytes", format!("{sentence}; {circumstances}")));
    }
    Ok(given)
}

/// Every block, type, path and destination in order: the library's entries and the Rust's map.
fn same_blocks(theirs: &BTreeMap<usize, rust::Block>, written: &[u8]) -> Result<(), Mismatch> {
    let map = Map::from_bytes(written)
        .map_err(|fault| mismatch("unreadable", format!("the answer is no map: {fault}")))?;
    let ours: Vec<&Block> = map.blocks.values().collect();
    let theirs: Vec<Block> = theirs.values().map(translated).collect();
    for at in 0..ours.len().max(theirs.len()) {
        let (ours, theirs) = (ours.get(at).copied(), theirs.get(at));
        if ours != theirs {
            let sentence = format!("block {at} is {ours:?}, the Rust's {theirs:?}");
            return Err(mismatch("blocks", sentence));
        }
    }
    Ok(())
}

/// The Rust's block, in the binding's types.
fn translated(block: &rust::Block) -> Block {
    let jumps = |list: &[rust::DynamicJump]| -> Vec<DynamicJump> {
        let jump = |jump: &rust::DynamicJump| DynamicJump {
            path: jump.path.clone(),
            to: jump.to,
        };
        list.iter().map(jump).collect()
    };
    let btype = match &block.btype {
        rust::BlockType::Terminate { success } => BlockType::Terminate { success: *success },
        rust::BlockType::Jump { to } => BlockType::Jump { to: *to },
        rust::BlockType::Jumpi { true_to, false_to } => BlockType::Jumpi {
            true_to: *true_to,
            false_to: *false_to,
        },
        rust::BlockType::DynamicJump { to } => BlockType::DynamicJump { to: jumps(to) },
        rust::BlockType::DynamicJumpi { true_to, false_to } => BlockType::DynamicJumpi {
            true_to: jumps(true_to),
            false_to: *false_to,
        },
    };
    Block {
        start: block.start,
        end: block.end,
        btype,
    }
}

#[cfg(test)]
mod tests {
    use std::collections::BTreeMap;

    use super::same_blocks;
    use model::{HIGHEST_LIMIT, Lent, answer};

    /// The model's map of one code beside the Rust's of another.
    fn beside(ours: &[u8], theirs: &[u8]) -> Result<(), String> {
        let answer = answer(&Lent::ALL, HIGHEST_LIMIT, ours);
        same_blocks(&oracle::blocks(theirs), answer.written()).map_err(|found| found.kind.into())
    }

    #[test]
    fn a_block_that_is_not_the_rusts_is_found() {
        // An unknown byte ends its block, CLZ does not.
        let (unknown, clz) = ([0x0c, 0x00], [0x1e, 0x00]);
        assert_eq!(beside(&unknown, &clz), Err("blocks".into()));
        assert_eq!(beside(&clz, &clz), Ok(()));
    }

    #[test]
    fn bytes_that_are_no_map_are_found() {
        let found = same_blocks(&BTreeMap::new(), &[1, 2, 3]).expect_err("they are no map");
        assert_eq!(found.kind, "unreadable");
    }
}
