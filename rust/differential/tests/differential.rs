//! The library on a small part of the codes, and faults that must be found.

use std::collections::BTreeSet;
use std::time::Duration;

use aznifrem::{HIGHEST_LIMIT, LONGEST_DEPLOYED, Lent, call};
use codes::{Random, exhaustive};
use differential::{
    Checker, ChoicePort, FAMILIES, JsonPort, ModePort, Port, Tally, Verdict, fenced_call,
};

const PORT: Checker = Checker::LIBRARY;

fn same(tally: &Tally) {
    assert_eq!(tally.written_out, Vec::<String>::new());
    let telling = tally.same + tally.long;
    assert!(telling * 10 > tally.codes() * 9, "{tally:?}");
}

#[test]
fn the_library_on_every_code_of_two_telling_bytes() {
    let mut tally = Tally::default();
    for length in 0..=2 {
        exhaustive::each(&exhaustive::TELLING, length, |code| {
            tally.add(&PORT, code, code.len() as u64, "exhaustive");
        });
    }
    assert_eq!(tally.codes(), 381);
    same(&tally);
}

#[test]
fn the_library_on_the_corners() {
    let mut tally = Tally::default();
    for (at, hex) in codes::corners::CORNERS.iter().enumerate() {
        let code = codes::from_hex(hex).expect("the corners are hexadecimal");
        for seed in 0..20 {
            tally.add(&PORT, &code, seed * 100 + at as u64, hex);
        }
    }
    tally.add(&PORT, &codes::corners::recorded_both_ways(), 1, "both ways");
    same(&tally);
}

#[test]
fn the_library_on_some_codes_of_each_family() {
    for (at, family) in FAMILIES.iter().enumerate() {
        let mut tally = Tally::default();
        let mut seeds = Random::new(500 + at as u64);
        for _ in 0..(400 * family.share).div_ceil(1000) {
            let seed = seeds.word();
            let code = (family.next)(&mut Random::new(seed));
            tally.add(&PORT, &code, seed, family.name);
        }
        same(&tally);
    }
}

/// Codes of the family that is refused with 1, each with its seed.
fn too_long_codes(count: u64) -> impl Iterator<Item = (u64, Vec<u8>)> {
    let family = FAMILIES.iter().find(|family| family.name == "too-long");
    let next = family.expect("there is such a family").next;
    (0..count).map(move |seed| (seed, next(&mut Random::new(seed))))
}

#[test]
fn the_library_on_codes_that_are_too_long() {
    for (seed, code) in too_long_codes(40) {
        // The Rust has no such bound and is not asked.
        assert_eq!(PORT.check(&code, seed), Ok(Verdict::TooLong));
    }
}

#[test]
fn the_codes_that_are_too_long_have_every_telling_length() {
    let lengths: BTreeSet<usize> = too_long_codes(200).map(|(_, code)| code.len()).collect();
    let (little, much): (Vec<usize>, Vec<usize>) =
        lengths.into_iter().partition(|length| *length <= 50_000);
    assert!(little[0] == 49_153 && little.len() > 50, "{little:?}");
    assert_eq!(much, [65_535, 65_536, 65_537]);
}

/// The code is too heavy for the families: it needs more than `agree::ENOUGH`.
#[test]
fn the_library_where_the_rusts_energy_ends() {
    let code = codes::worst::diamonds(17);
    let map = model::map(&model::Lent::ALL, HIGHEST_LIMIT, &code).expect("it is answered");
    assert!(map.energy >= HIGHEST_LIMIT);
    assert!(map.records.len() < 1 << 17, "some ways are left");
    assert_eq!(map.blocks, agree::rust_blocks(&code));
    let lent = map.needs.lent(code.len());
    let given = fenced_call(call, &code, HIGHEST_LIMIT, &lent, &mut Random::new(1));
    let given = given.expect("every byte is as it must be");
    let expected = model::answer(&lent, HIGHEST_LIMIT, &code);
    assert!(given.written == expected.written(), "the model's bytes");
}

/// The model behind the library's entry.
fn honest(code: &[u8], limit: u64, rooms: &mut Lent) -> u64 {
    bent(code, limit, rooms, |_| {})
}

/// The model behind the library's entry with a choice and in a mode.
fn honest_by(choice: u64, mode: u64, code: &[u8], limit: u64, rooms: &mut Lent) -> u64 {
    bent_by(choice, mode, code, limit, rooms, |_| {})
}

/// The model behind the library's entry in a mode.
fn honest_in(mode: u64, code: &[u8], limit: u64, rooms: &mut Lent) -> u64 {
    bent_in(mode, code, limit, rooms, |_| {})
}

/// The same with its answer bent before it is written.
fn bent(code: &[u8], limit: u64, rooms: &mut Lent, bend: fn(&mut Vec<u8>)) -> u64 {
    bent_in(0, code, limit, rooms, bend)
}

fn bent_in(mode: u64, code: &[u8], limit: u64, rooms: &mut Lent, bend: fn(&mut Vec<u8>)) -> u64 {
    bent_by(1, mode, code, limit, rooms, bend)
}

fn bent_by(
    choice: u64,
    mode: u64,
    code: &[u8],
    limit: u64,
    rooms: &mut Lent,
    bend: fn(&mut Vec<u8>),
) -> u64 {
    let length = |room: &[u8]| room.len() as u64;
    let lent = model::Lent {
        w: length(rooms.w),
        p: length(rooms.p),
        s: length(rooms.s),
        t: length(rooms.t),
        r: length(rooms.r),
        q: length(rooms.q),
        out: length(rooms.out),
    };
    let answer = model::answer_by(choice, mode, &lent, limit, code);
    let number = u64::from(answer.number());
    if !matches!(number, 1..=3 | 13) {
        for room in [&mut *rooms.w, rooms.p, rooms.s, rooms.t, rooms.r, rooms.q] {
            room.fill(0);
        }
    }
    if number > 0 {
        return number;
    }
    let mut written = answer.written().to_vec();
    bend(&mut written);
    rooms.out[..written.len()].copy_from_slice(&written);
    written.len() as u64
}

/// The places of the entries of a kind.
fn entries(bytes: &[u8], kind: u8) -> Vec<usize> {
    let mut found = Vec::new();
    let mut at = 0;
    while at < bytes.len() {
        if bytes[at + 4] == kind {
            found.push(at);
        }
        at += 6 + usize::from(bytes[at]) + 256 * usize::from(bytes[at + 1]);
    }
    found
}

/// Families whose codes the faults below are planted in: how small a code is made hangs on which one shows the fault first.
const PLANTED: [&str; 7] = [
    "noise",
    "jumpy",
    "jumpy-long",
    "mutants",
    "woven",
    "calls-small",
    "calls-middle",
];

/// The first mismatch among some thousand codes, written out.
fn found(checker: Checker) -> String {
    // Trials alone bound how small the code becomes, not the machine's pace.
    let mut tally = Tally {
        time: Some(Duration::MAX),
        ..Tally::default()
    };
    let mut seeds = Random::new(77);
    let planted = FAMILIES
        .iter()
        .filter(|family| PLANTED.contains(&family.name));
    for family in planted.cycle().take(6_000) {
        let seed = seeds.word();
        let code = (family.next)(&mut Random::new(seed));
        tally.add(&checker, &code, seed, family.name);
        if let Some(text) = tally.written_out.pop() {
            return text;
        }
    }
    String::new()
}

/// Bytes of the smaller code.
fn length_of_smaller(text: &str) -> usize {
    let line = text
        .lines()
        .find_map(|line| line.strip_prefix("  smaller  "));
    let hex = line.and_then(|line| line.split(' ').next());
    hex.expect("a smaller code is there").len() / 2
}

fn finds(port: Port, kind: &str, at_most: usize) {
    let checker = Checker {
        port,
        ..Checker::LIBRARY
    };
    finds_behind(checker, kind, at_most);
}

fn finds_behind(checker: Checker, kind: &str, at_most: usize) {
    let text = found(checker);
    let first = text.lines().next().unwrap_or_default();
    assert!(first.ends_with(kind), "expected '{kind}' in: {text}");
    let length = length_of_smaller(&text);
    assert!(length <= at_most, "{length} bytes: {text}");
}

#[test]
fn the_model_behind_the_entry_has_no_mismatch() {
    let checker = Checker {
        port: honest,
        json: |code, limit, rooms, text| told(code, limit, rooms, text, |said| said),
        in_mode: honest_in,
        by: honest_by,
        ..Checker::LIBRARY
    };
    assert_eq!(found(checker), "");
}

#[test]
fn a_text_of_another_mode_is_found() {
    let checker = Checker {
        json_in: |_, code, limit, rooms, text| aznifrem::call_json(code, limit, rooms, text),
        ..Checker::LIBRARY
    };
    assert_ne!(found(checker), "");
}

#[test]
fn a_mode_that_is_not_looked_at_is_found() {
    let checker = Checker {
        in_mode: |_, code, limit, rooms| honest(code, limit, rooms),
        ..Checker::LIBRARY
    };
    assert_ne!(found(checker), "");
}

#[test]
fn a_mode_that_is_refused_behind_a_short_w_is_found() {
    let in_mode: ModePort = |mode, code, limit, rooms| {
        // W is short for every code.
        if mode > 1 && rooms.w.len() < 256 {
            return 3;
        }
        honest_in(mode, code, limit, rooms)
    };
    let checker = Checker {
        in_mode,
        ..Checker::LIBRARY
    };
    finds_behind(checker, "number", 40);
}

/// Where the first entry of kind 9 stands.
fn first_numbered(bytes: &[u8]) -> Option<usize> {
    let mut at = 0;
    while let Some([a, b, c, d, kind, 0, ..]) = bytes.get(at..) {
        if *kind == 9 {
            return Some(at);
        }
        at += 6 + u32::from_le_bytes([*a, *b, *c, *d]) as usize;
    }
    None
}

#[test]
fn a_number_that_is_one_off_is_found() {
    let by: ChoicePort = |choice, mode, code, limit, rooms| {
        bent_by(choice, mode, code, limit, rooms, |bytes| {
            if let Some(at) = first_numbered(bytes) {
                bytes[at + 10] ^= 1;
            }
        })
    };
    let checker = Checker {
        by,
        ..Checker::LIBRARY
    };
    finds_behind(checker, "bytes", 40);
}

#[test]
fn a_choice_of_which_the_low_byte_alone_counts_is_found() {
    let checker = Checker {
        by: |choice, mode, code, limit, rooms| honest_by(choice % 256, mode, code, limit, rooms),
        ..Checker::LIBRARY
    };
    finds_behind(checker, "number", 40);
    let checker = Checker {
        json_by: |choice, mode, code, limit, rooms, text| {
            aznifrem::call_json_by(choice % 256, mode, code, limit, rooms, text)
        },
        ..Checker::LIBRARY
    };
    finds_behind(checker, "number", 40);
}

#[test]
fn a_wrong_energy_is_found() {
    let port = |code: &[u8], limit, rooms: &mut Lent| {
        bent(code, limit, rooms, |bytes| {
            bytes[14] ^= u8::from(bytes.len() > 80);
        })
    };
    finds(port, "bytes", 30);
}

#[test]
fn a_block_that_is_left_out_is_found() {
    let port = |code: &[u8], limit, rooms: &mut Lent| {
        bent(code, limit, rooms, |bytes| {
            if let Some(at) = entries(bytes, 4).get(1) {
                bytes.drain(*at..at + 14);
                bytes[8] -= 1;
            }
        })
    };
    finds(port, "number", 20);
}

#[test]
fn a_path_in_another_order_is_found() {
    let port = |code: &[u8], limit, rooms: &mut Lent| {
        bent(code, limit, rooms, |bytes| {
            if let Some(at) = entries(bytes, 7).first() {
                bytes[at + 12..at + 16].rotate_left(2);
            }
        })
    };
    finds(port, "bytes", 20);
}

#[test]
fn an_unwiped_room_is_found() {
    let port = |code: &[u8], limit, rooms: &mut Lent| {
        let number = honest(code, limit, rooms);
        if number == 5 && rooms.t.len() > 40 {
            rooms.t[33] = 1;
        }
        number
    };
    finds(port, "lent bytes", 40);
}

#[test]
fn a_touched_output_is_found() {
    let port = |code: &[u8], limit, rooms: &mut Lent| {
        let number = honest(code, limit, rooms);
        let end = (number as usize).min(rooms.out.len().saturating_sub(1));
        if number > 60 && end < rooms.out.len() && end == number as usize {
            rooms.out[end] = 0;
        }
        number
    };
    finds(port, "lent bytes", 20);
}

#[test]
fn a_room_that_is_touched_by_an_early_refusal_is_found() {
    let port = |code: &[u8], limit, rooms: &mut Lent| {
        let number = honest(code, limit, rooms);
        if number == 3 && !rooms.w.is_empty() {
            rooms.w.fill(0);
        }
        number
    };
    finds(port, "lent bytes", 2);
}

#[test]
fn another_refusal_is_found() {
    let port = |code: &[u8], limit, rooms: &mut Lent| match honest(code, limit, rooms) {
        8 => 7,
        number => number,
    };
    finds(port, "number", 12);
}

/// A fault that codes of up to 49,152 bytes do not show.
fn finds_in_too_long(port: Port, kind: &str) {
    let checker = Checker {
        port,
        ..Checker::LIBRARY
    };
    finds_in_too_long_behind(checker, kind);
}

fn finds_in_too_long_behind(checker: Checker, kind: &str) {
    let found = too_long_codes(40).find_map(|(seed, code)| checker.check(&code, seed).err());
    assert_eq!(found.map(|found| found.kind), Some(kind));
}

#[test]
fn a_limit_that_is_looked_at_before_the_length_is_found() {
    let port = |code: &[u8], limit, rooms: &mut Lent| {
        let number = honest(code, limit, rooms);
        if limit > HIGHEST_LIMIT { 2 } else { number }
    };
    finds_in_too_long(port, "number");
}

#[test]
fn a_room_that_is_looked_at_before_the_length_is_found() {
    let port = |code: &[u8], limit, rooms: &mut Lent| match honest(code, limit, rooms) {
        1 if rooms.w.len() < 64 * code.len() + 256 => 3,
        number => number,
    };
    finds_in_too_long(port, "number");
}

#[test]
fn a_length_of_two_bytes_is_found() {
    let port = |code: &[u8], limit, rooms: &mut Lent| {
        let length = code.len() % 65_536;
        honest(&code[..length], limit, rooms)
    };
    finds_in_too_long(port, "number");
}

#[test]
fn a_room_that_is_touched_because_the_code_is_too_long_is_found() {
    let port = |code: &[u8], limit, rooms: &mut Lent| {
        let number = honest(code, limit, rooms);
        if number == 1 {
            rooms.q.fill(0);
        }
        number
    };
    finds_in_too_long(port, "lent bytes");
}

/// A fault that shorter codes do not show.
fn finds_in_init_code(port: Port, kind: &str) {
    let checker = Checker {
        port,
        ..Checker::LIBRARY
    };
    let far = FAMILIES.iter().find(|family| family.name == "far");
    let next = far.expect("there is such a family").next;
    let mut codes = (0..400).map(|seed| (seed, next(&mut Random::new(seed))));
    let found = codes.find_map(|(seed, code)| checker.check(&code, seed).err());
    assert_eq!(found.map(|found| found.kind), Some(kind));
}

/// The entries that hold a path become those of the other family; of marks only those that are asked for.
fn other_family(bytes: &mut [u8], marks: bool, kinds: bool) {
    let found: Vec<(u8, usize)> = (7..=12)
        .flat_map(|kind| entries(bytes, kind).into_iter().map(move |at| (kind, at)))
        .collect();
    for (kind, at) in found {
        let to = at + if matches!(kind, 7 | 10) { 6 } else { 8 };
        let (old, new, moved) = if kind < 10 {
            (0x8000_u16, 0xffff_u16, kind + 3)
        } else {
            (0xffff, 0x8000, kind - 3)
        };
        if marks && bytes[to..to + 2] == old.to_le_bytes() {
            bytes[to..to + 2].copy_from_slice(&new.to_le_bytes());
        }
        if kinds {
            bytes[at + 4] = moved;
        }
    }
}

#[test]
fn a_length_that_is_refused_as_before_is_found() {
    let port = |code: &[u8], limit, rooms: &mut Lent| {
        if code.len() > LONGEST_DEPLOYED {
            return 1;
        }
        honest(code, limit, rooms)
    };
    finds_in_init_code(port, "number");
}

#[test]
fn the_first_family_in_the_map_of_longer_code_is_found() {
    let kinds = |code: &[u8], limit, rooms: &mut Lent| {
        bent(code, limit, rooms, |bytes| {
            if code_length(bytes) > LONGEST_DEPLOYED {
                other_family(bytes, false, true);
            }
        })
    };
    finds_in_init_code(kinds, "bytes");
    let marks = |code: &[u8], limit, rooms: &mut Lent| {
        bent(code, limit, rooms, |bytes| {
            if code_length(bytes) > LONGEST_DEPLOYED {
                other_family(bytes, true, false);
            }
        })
    };
    finds_in_init_code(marks, "bytes");
}

#[test]
fn a_border_that_is_one_off_is_found() {
    let port = |code: &[u8], limit, rooms: &mut Lent| {
        bent(code, limit, rooms, |bytes| {
            if code_length(bytes) == LONGEST_DEPLOYED {
                other_family(bytes, true, true);
            }
        })
    };
    finds_in_init_code(port, "bytes");
    let port = |code: &[u8], limit, rooms: &mut Lent| {
        bent(code, limit, rooms, |bytes| {
            if code_length(bytes) == LONGEST_DEPLOYED + 1 {
                other_family(bytes, true, true);
            }
        })
    };
    finds_in_init_code(port, "bytes");
}

/// What the head says.
fn code_length(bytes: &[u8]) -> usize {
    usize::from(u16::from_le_bytes([bytes[6], bytes[7]]))
}

#[test]
fn a_code_with_1e_is_held_against_the_rust() {
    let checker = Checker {
        port: honest,
        ..Checker::LIBRARY
    };
    let clz = [0x1e, 0x00];
    let verdict = checker.check(&clz, 1).expect("it is held against the Rust");
    assert_eq!(verdict, Verdict::Same);
}

/// The plain writer's text of a code that is answered.
fn said(code: &[u8], limit: u64) -> String {
    let map = model::map(&model::Lent::ALL, limit, code).expect("it is answered in enough");
    agree::json::of_model(&map.blocks)
}

/// The model and the plain writer behind the call with a text, which is bent before it is written.
fn told(
    code: &[u8],
    limit: u64,
    rooms: &mut Lent,
    text: &mut [u8],
    bend: fn(String) -> String,
) -> u64 {
    let out = rooms.out.to_vec();
    let number = honest(code, limit, rooms);
    if number < 18 {
        return number;
    }
    let said = bend(said(code, limit));
    if said.len() > text.len() {
        rooms.out.copy_from_slice(&out);
        return 11;
    }
    text[..said.len()].copy_from_slice(said.as_bytes());
    number + ((said.len() as u64) << 32)
}

fn finds_in_text(json: JsonPort, kind: &str, at_most: usize) {
    let checker = Checker {
        json,
        ..Checker::LIBRARY
    };
    finds_behind(checker, kind, at_most);
}

#[test]
fn another_text_is_found() {
    let json: JsonPort = |code, limit, rooms, text| {
        told(code, limit, rooms, text, |said| {
            said.replace("\"to\":7}", "\"to\":8}")
        })
    };
    finds_in_text(json, "text", 20);
}

#[test]
fn null_as_a_number_is_found() {
    let json: JsonPort = |code, limit, rooms, text| {
        told(code, limit, rooms, text, |said| {
            said.replace("null", "3276")
        })
    };
    finds_in_text(json, "text", 20);
}

#[test]
fn a_text_that_is_touched_by_a_refusal_is_found() {
    let json: JsonPort = |code, limit, rooms, text| {
        let number = told(code, limit, rooms, text, |said| said);
        if number == 9 {
            text.fill(0);
        }
        number
    };
    finds_in_text(json, "lent bytes", 20);
}

#[test]
fn a_text_that_is_touched_by_nine_only_where_its_room_is_enough_is_found() {
    let json: JsonPort = |code, limit, rooms, text| {
        let number = told(code, limit, rooms, text, |said| said);
        if number == 9 && said(code, limit).len() <= text.len() {
            text.fill(0);
        }
        number
    };
    finds_in_text(json, "lent bytes", 20);
}

#[test]
fn a_text_that_is_touched_because_the_limit_is_too_high_is_found() {
    let json: JsonPort = |code, limit, rooms, text| {
        let number = told(code, limit, rooms, text, |said| said);
        if number == 2 {
            text.fill(0);
        }
        number
    };
    finds_in_text(json, "lent bytes", 20);
}

#[test]
fn a_text_that_is_touched_because_the_code_is_too_long_is_found() {
    let json: JsonPort = |code, limit, rooms, text| {
        let number = told(code, limit, rooms, text, |said| said);
        if number == 1 {
            text.fill(0);
        }
        number
    };
    let checker = Checker {
        json,
        ..Checker::LIBRARY
    };
    finds_in_too_long_behind(checker, "lent bytes");
}

#[test]
fn eleven_before_nine_is_found() {
    let json: JsonPort =
        |code, limit, rooms, text| match told(code, limit, rooms, text, |said| said) {
            9 => 11,
            number => number,
        };
    finds_in_text(json, "number", 20);
}
