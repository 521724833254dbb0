//! The verdict, held to the layout that a code was given, to every renaming there is of small maps, and to
//! a form of a map that knows no addresses.

mod common;

use std::collections::{BTreeMap, VecDeque};
use std::fmt::Write;

use aznifrem::{Block, BlockType, DynamicJump, HIGHEST_LIMIT, Map, Record};
use codes::Random;
use codes::contract::{Style, sized};
use codes::solidity::{self, Shape};
use common::moved::{Laid, moved, pieces};
use common::{coded_pair, edited, made, map_of};
use compare::{
    Coded, Judged, OLD, Row, Verdict, judge, judge_coded, judge_matched, judge_matched_coded,
    matching,
};

fn whole(code: &[u8]) -> Map {
    map_of(code, HIGHEST_LIMIT).expect("it has a map")
}

/// A map with every address but ends renamed; the ends are left to the other map.
fn renamed(map: &Map, name: impl Fn(usize) -> usize, like: &Map) -> Map {
    let jump = |jump: &DynamicJump| DynamicJump {
        path: jump.path.iter().map(|at| name(*at)).collect(),
        to: jump.to.map(&name),
    };
    let list = |jumps: &[DynamicJump]| jumps.iter().map(jump).collect::<Vec<_>>();
    let block = |block: &Block| {
        let start = name(block.start);
        let end = like.blocks.get(&start).map_or(0, |block| block.end);
        let btype = match &block.btype {
            BlockType::Terminate { success } => BlockType::Terminate { success: *success },
            BlockType::Jump { to } => BlockType::Jump { to: name(*to) },
            BlockType::Jumpi { true_to, false_to } => BlockType::Jumpi {
                true_to: name(*true_to),
                false_to: name(*false_to),
            },
            BlockType::DynamicJump { to } => BlockType::DynamicJump { to: list(to) },
            BlockType::DynamicJumpi { true_to, false_to } => BlockType::DynamicJumpi {
                true_to: list(true_to),
                false_to: name(*false_to),
            },
        };
        (start, Block { start, end, btype })
    };
    let record = |record: &Record| Record {
        start: name(record.start),
        jump: jump(&record.jump),
        energy: record.energy,
    };
    Map {
        code_length: like.code_length,
        blocks: map.blocks.values().map(block).collect(),
        records: map.records.iter().map(record).collect(),
        energy: like.energy,
    }
}

/// A map without addresses: each is numbered where it is first named, from 0 on.
fn shape(map: &Map) -> String {
    let mut shape = Shaped::default();
    shape.number(0);
    shape.blocks(map);
    for record in &map.records {
        let start = shape.number(record.start);
        let _ = write!(shape.text, "record {start}:");
        shape.jump(&record.jump);
    }
    shape.blocks(map);
    for start in map.blocks.keys() {
        shape.number(*start);
        shape.blocks(map);
    }
    shape.text
}

#[derive(Default)]
struct Shaped {
    text: String,
    numbers: BTreeMap<usize, usize>,
    open: VecDeque<usize>,
}

impl Shaped {
    fn number(&mut self, address: usize) -> usize {
        let next = self.numbers.len();
        *self.numbers.entry(address).or_insert_with(|| {
            self.open.push_back(address);
            next
        })
    }

    fn jump(&mut self, jump: &DynamicJump) {
        let to = jump.to.map(|to| self.number(to));
        let path: Vec<usize> = jump.path.iter().map(|at| self.number(*at)).collect();
        let _ = write!(self.text, " {path:?} to {to:?};");
    }

    fn blocks(&mut self, map: &Map) {
        while let Some(start) = self.open.pop_front() {
            let number = self.numbers[&start];
            let Some(block) = map.blocks.get(&start) else {
                let _ = writeln!(self.text, "{number}: none");
                continue;
            };
            let sides: Vec<usize> = match &block.btype {
                BlockType::Jump { to } => vec![*to],
                BlockType::Jumpi { true_to, false_to } => vec![*true_to, *false_to],
                BlockType::DynamicJumpi { false_to, .. } => vec![*false_to],
                BlockType::Terminate { success } => vec![usize::from(!success)],
                BlockType::DynamicJump { .. } => vec![],
            };
            let ends = matches!(block.btype, BlockType::Terminate { .. });
            let sides: Vec<usize> = match ends {
                true => sides,
                false => sides.iter().map(|side| self.number(*side)).collect(),
            };
            let _ = write!(self.text, "{number}: {} {sides:?}", block.btype.name());
            for jump in block.btype.found() {
                self.jump(jump);
            }
            self.text.push('\n');
        }
    }
}

/// The verdict, which must be what the shapes say.
fn judged(old: &Map, new: &Map) -> Judged {
    let judged = judge(old, new);
    let equal = old.blocks == new.blocks && old.records == new.records;
    let expected = match (equal, shape(old) == shape(new)) {
        (true, _) => Verdict::Equal,
        (false, true) => Verdict::UpToAddresses,
        (false, false) => Verdict::Different,
    };
    assert_eq!(
        judged.verdict, expected,
        "{judged}\nold {old:#?}\nnew {new:#?}"
    );
    judged
}

/// Bytes that control does not enter: none, a few that are no instruction, a block that nothing leads to.
fn padding(random: &mut Random) -> Vec<u8> {
    match random.below(4) {
        0 | 1 => vec![],
        2 => vec![0xfe; random.between(1, 5)],
        _ => vec![0x5b, 0x30, 0x50, 0x00],
    }
}

/// Two bytes that leave the stack as it is.
const BEFORE: [u8; 2] = [0x5f, 0x50];

fn shifted(code: &[u8]) -> Vec<u8> {
    moved(code, &[(BEFORE.to_vec(), 0..code.len())]).code
}

/// The contract of 5,755 bytes.
fn contract() -> Vec<u8> {
    let code = sized(&mut Random::new(115), 6_000, Style::Plain);
    assert_eq!(code.len(), 5_755);
    code
}

#[test]
fn two_bytes_before_a_contract_change_addresses_alone() {
    let code = contract();
    let (old, new) = (whole(&code), whole(&shifted(&code)));
    let judged = judged(&old, &new);
    assert_eq!(judged.verdict, Verdict::UpToAddresses);
    assert!(judged.rows.len() > 500, "{}", judged.rows.len());
    // Block 0 is longer by the two.
    assert_eq!(judged.lengths, [0]);
    let line = judged.to_string();
    assert!(
        line.starts_with("equal up to addresses (1 block of another length): blocks "),
        "{line}"
    );
}

#[test]
fn one_jump_aimed_elsewhere_in_the_shifted_contract_is_a_difference() {
    let code = contract();
    let old = whole(&code);
    let new = shifted(&code);
    // Every tenth pushed label, aimed at the label that is pushed next.
    let walked: Vec<(usize, u8)> = model::ops::walk(&new, 0).collect();
    let pushes: Vec<usize> = walked
        .iter()
        .filter(|(_, byte)| *byte == 0x61)
        .map(|(at, _)| *at)
        .collect();
    let mut different = 0;
    for pair in pushes.windows(2).step_by(10) {
        let mut wrong = new.clone();
        let label = [new[pair[1] + 1], new[pair[1] + 2]];
        wrong[pair[0] + 1..pair[0] + 3].copy_from_slice(&label);
        if wrong == new {
            continue;
        }
        let verdict = judged(&old, &whole(&wrong)).verdict;
        different += usize::from(verdict == Verdict::Different);
    }
    assert!(different > 30, "{different}");
}

/// Whatever the layout: where the map moved with the code the verdict is *equal up to addresses*, and where
/// it is, each block is matched with the one that it was laid as.
#[test]
fn shifted_padded_and_reordered_code() {
    let mut random = Random::new(280);
    let (mut met, mut different) = ([0; 3], [0; 2]);
    for round in 0..1_500 {
        let shape = Shape {
            odd: 0,
            ..Shape::middle(&mut random)
        };
        let code = solidity::code(&mut random, shape);
        let mut order = pieces(&code);
        if round % 3 == 0 {
            for at in 2..order.len() {
                order.swap(at, random.between(1, at));
            }
        }
        let before = |at: usize, random: &mut Random| match at {
            0 if random.percent(50) => BEFORE.to_vec(),
            0 => vec![],
            _ => padding(random),
        };
        let layout = order.into_iter().enumerate();
        let layout: Vec<Laid> = layout
            .map(|(at, piece)| (before(at, &mut random), piece))
            .collect();
        let laid = moved(&code, &layout);
        let (Some(old), Some(new)) = (
            map_of(&code, HIGHEST_LIMIT),
            map_of(&laid.code, HIGHEST_LIMIT),
        ) else {
            continue;
        };
        let name = |at: usize| laid.places.get(&at).copied().unwrap_or(usize::MAX);
        let same = renamed(&old, name, &new) == new;
        let judged = judged(&old, &new);
        assert!(!same || judged.verdict != Verdict::Different, "{judged}");
        // Blocks that pruning took away are names alone, and may be paired otherwise than they were laid.
        let names = matching(&old, &new);
        assert_eq!(names.is_some(), judged.verdict != Verdict::Different);
        let placed = |start: &usize| {
            names
                .as_ref()
                .is_none_or(|names| names.name(*start) == name(*start))
        };
        assert!(old.blocks.keys().all(placed), "{judged}");
        // In code that keeps its order a map changes only where a number that is pushed comes to be a label's.
        different[usize::from(round % 3 == 0)] += usize::from(!same);
        met[judged.verdict as usize] += 1;
    }
    assert!(
        met[1] > 500 && different[0] < 30 && different[1] > 50,
        "{met:?} {different:?}"
    );
}

/// Every renaming of so many addresses that leaves 0.
fn renamings(count: usize) -> Vec<Vec<usize>> {
    let mut all = vec![vec![0]];
    for next in 1..count {
        let grown = all.iter().flat_map(|names| {
            let places = 1..=names.len();
            places.map(move |at| {
                let mut names = names.clone();
                names.insert(at, next);
                names
            })
        });
        all = grown.collect();
    }
    all
}

/// Made maps have seven addresses, so all renamings can be tried.
#[test]
fn of_small_maps_every_renaming_is_tried() {
    let names = renamings(7);
    assert_eq!(names.len(), 720);
    let mut random = Random::new(281);
    let mut met = [0; 2];
    for _ in 0..3_000 {
        let old = made(&mut random);
        let name = &names[random.below(names.len())];
        let mut new = renamed(&old, |at| name[at], &old);
        if random.percent(60) {
            new = edited(&mut random, &new);
        }
        let fits = |name: &&Vec<usize>| {
            let like = renamed(&old, |at| name[at], &new);
            like.blocks == new.blocks && like.records == new.records
        };
        let exists = names.iter().find(fits).is_some();
        let found = matching(&old, &new).is_some();
        // Blocks that nothing leads to are paired by address: there a renaming may be missed, never made up.
        let all_led_to = |map: &Map| shape(&led_to(map)) == shape(map);
        assert!(exists || !found, "old {old:#?}\nnew {new:#?}");
        assert!(
            found || !exists || !all_led_to(&old),
            "old {old:#?}\nnew {new:#?}"
        );
        met[usize::from(found)] += 1;
    }
    assert!(met[0] > 500 && met[1] > 500, "{met:?}");
}

/// The map without the blocks that nothing leads to.
fn led_to(map: &Map) -> Map {
    let mut shaped = Shaped::default();
    shaped.number(0);
    shaped.blocks(map);
    for record in &map.records {
        shaped.number(record.start);
        shaped.jump(&record.jump);
    }
    shaped.blocks(map);
    let mut map = map.clone();
    map.blocks
        .retain(|start, _| shaped.numbers.contains_key(start));
    map
}

#[test]
fn maps_of_codes_are_judged_by_their_shapes() {
    let mut random = Random::new(282);
    let mut met = [0; 3];
    for _ in 0..15_000 {
        if let Some((old, new)) = coded_pair(&mut random) {
            met[judged(&old, &new).verdict as usize] += 1;
        }
    }
    assert!(met.iter().all(|count| *count > 100), "{met:?}");
}

/// Whatever is changed in a map that was moved is seen.
#[test]
fn what_changed_its_shape_is_never_equal() {
    let code = contract();
    let old = whole(&code);
    let new = whole(&shifted(&code));
    type Change = fn(&mut Map) -> bool;
    let changes: [Change; 7] = [
        |map| map.records.pop().is_some(),
        |map| {
            map.records.swap(0, 1);
            map.records[0] != map.records[1]
        },
        |map| map.blocks.pop_last().is_some(),
        |map| {
            let mut blocks = map.blocks.values_mut();
            let turned = blocks.find_map(|block| match &mut block.btype {
                BlockType::Terminate { success } => Some(success),
                _ => None,
            });
            turned.map(|success| *success = !*success).is_some()
        },
        |map| {
            let mut blocks = map.blocks.values_mut();
            let sides = blocks.find_map(|block| match &mut block.btype {
                BlockType::Jumpi { true_to, false_to } if true_to != false_to => {
                    Some((true_to, false_to))
                }
                _ => None,
            });
            sides.map(|(yes, no)| std::mem::swap(yes, no)).is_some()
        },
        |map| {
            let mut blocks = map.blocks.values_mut();
            let list = blocks.find_map(|block| match &mut block.btype {
                BlockType::DynamicJump { to } if to.len() > 1 => Some(to),
                _ => None,
            });
            list.map(|list| list.swap(0, 1)).is_some()
        },
        |map| {
            let record = map
                .records
                .iter_mut()
                .find(|record| record.jump.to.is_some());
            record.map(|record| record.jump.to = None).is_some()
        },
    ];
    for change in changes {
        let mut changed = new.clone();
        assert!(change(&mut changed), "there is something to change");
        assert_eq!(judged(&old, &changed).verdict, Verdict::Different);
    }
}

fn coded_verdict(old: &[u8], new: &[u8]) -> Judged {
    let (before, after) = (whole(old), whole(new));
    let old = Coded::new(&before, old).expect("it is the code");
    let new = Coded::new(&after, new).expect("it is the code");
    judge_coded(&old, &new)
}

#[test]
fn with_the_codes_at_hand_instructions_count() {
    let code = contract();
    let judged = coded_verdict(&code, &shifted(&code));
    // PUSH0 and POP are new in block 0, and nothing else is.
    assert_eq!(judged.verdict, Verdict::Different);
    assert_eq!(judged.instructions, Some(vec![0]));
    let note = "different (the same up to addresses but for instructions of 1 block): ";
    assert!(judged.to_string().starts_with(note), "{judged}");
    // Bytes that nothing enters, before the second piece: pushed addresses move, and nothing else does.
    let parts = pieces(&code);
    let layout = parts.into_iter().enumerate();
    let layout = layout.map(|(at, part)| (if at == 1 { vec![0xfe; 2] } else { vec![] }, part));
    let padded = moved(&code, &layout.collect::<Vec<_>>()).code;
    let judged = coded_verdict(&code, &padded);
    assert_eq!(
        (judged.verdict, judged.lengths.len()),
        (Verdict::UpToAddresses, 0)
    );
    assert_eq!(coded_verdict(&code, &code).verdict, Verdict::Equal);
}

#[test]
fn an_instruction_of_another_kind_is_seen_by_the_codes_alone() {
    // PUSH1 5, JUMP, 2 bytes that nothing enters; 5: JUMPDEST, ADDRESS or CALLER, POP, STOP.
    let (old, new) = (
        [0x60, 5, 0x56, 0xfe, 0xfe, 0x5b, 0x30, 0x50, 0],
        [0x60, 5, 0x56, 0xfe, 0xfe, 0x5b, 0x33, 0x50, 0],
    );
    assert_eq!(judged(&whole(&old), &whole(&new)).verdict, Verdict::Equal);
    let judged = coded_verdict(&old, &new);
    assert_eq!(judged.verdict, Verdict::Different);
    let rows: Vec<String> = judged.rows.iter().map(|row| row.to_string()).collect();
    assert_eq!(rows, ["instructions changed: block 5-8"]);
    // A number that is no address may not change with the addresses.
    let (old, new) = (
        [0x60, 6, 0x60, 9, 0x50, 0x56, 0x5b, 0],
        [0x60, 6, 0x60, 8, 0x50, 0x56, 0x5b, 0],
    );
    assert_eq!(coded_verdict(&old, &new).verdict, Verdict::Different);
}

#[test]
fn a_pushed_address_that_is_another_is_seen() {
    // PUSH1 8 or 10, POP; ADDRESS, PUSH1 8, JUMPI; STOP; 8: JUMPDEST, STOP; 10: JUMPDEST, STOP.
    let old = codes::from_hex("60085030600857005b005b00").expect("it is hexadecimal");
    let new = codes::from_hex("600a5030600857005b005b00").expect("it is hexadecimal");
    assert_eq!(judged(&whole(&old), &whole(&new)).verdict, Verdict::Equal);
    assert_eq!(coded_verdict(&old, &new).verdict, Verdict::Different);
}

/// The rows between matched blocks, with each old address the name of one new address, or of none.
fn matched(old: &Map, new: &Map) -> Vec<Row> {
    let judged = judge_matched(old, new);
    let by_address = judge(old, new).rows;
    assert!(judged.rows.len() <= by_address.len());
    let Some(names) = judged.names else {
        assert_eq!(judged.rows, by_address);
        return judged.rows;
    };
    let addresses = old
        .blocks
        .keys()
        .chain(old.records.iter().flat_map(|r| &r.jump.path));
    for at in addresses {
        let name = names.name(*at);
        assert!(name == OLD + at || names.old_of(name) == Some(*at));
    }
    judged.rows
}

#[test]
fn rows_of_matched_blocks_leave_addresses_out() {
    let code = contract();
    let (old, new) = (whole(&code), whole(&shifted(&code)));
    let rows = matched(&old, &new);
    let texts: Vec<String> = rows.iter().map(Row::to_string).collect();
    assert_eq!(
        texts,
        ["block changed: 0-15 Jumpi to 558, else to 18 -> 0-17 Jumpi to 558, else to 18"]
    );
    // The last block ends in failure: by address hundreds of rows, by matched blocks this one more.
    let mut changed = new.clone();
    let last = changed
        .blocks
        .values_mut()
        .rev()
        .find(|block| matches!(block.btype, BlockType::Terminate { .. }));
    let last = last.expect("it has one");
    let success = last.btype == BlockType::Terminate { success: true };
    last.btype = BlockType::Terminate { success: !success };
    assert_eq!(judged(&old, &changed).verdict, Verdict::Different);
    assert_eq!(matched(&old, &changed).len(), 2);
    assert!(judged(&old, &changed).rows.len() > 500);
}

#[test]
fn an_old_block_that_is_none_of_the_new_ones_is_called_so() {
    // Two callers of a function at 13; then it stands at 15, and the second returns to 5 too.
    let map = |digits: &str| whole(&codes::from_hex(digits).expect("it is hexadecimal"));
    let old = map("6005600d565b600b600d565b005b56");
    let new = map("6005600f565b6005600f565b00fefe5b56");
    let texts: Vec<String> = matched(&old, &new).iter().map(Row::to_string).collect();
    assert_eq!(
        texts,
        [
            "block changed: 15-16 DynamicJump -> 15-16 Jump, merged",
            "jump moved: block 15 by path 15, 5: old 11 -> 5",
            "block went: old 11-12 Terminate, success",
        ]
    );
}

#[test]
fn matched_blocks_are_one_to_one_whatever_the_maps() {
    let mut random = Random::new(283);
    for _ in 0..5_000 {
        let old = made(&mut random);
        matched(&old, &edited(&mut random, &old));
        if let Some((old, new)) = coded_pair(&mut random) {
            matched(&old, &new);
        }
    }
}

#[test]
fn instructions_of_matched_blocks_are_compared() {
    let code = contract();
    let parts = pieces(&code);
    let layout = parts.into_iter().enumerate();
    let layout = layout.map(|(at, part)| (vec![0xfe; 2 * usize::from(at == 1)], part));
    let mut padded = moved(&code, &layout.collect::<Vec<_>>()).code;
    let rows = |new: &[u8]| {
        let (before, after) = (whole(&code), whole(new));
        let old = Coded::new(&before, &code).expect("it is the code");
        let new = Coded::new(&after, new).expect("it is the code");
        judge_matched_coded(&old, &new).rows
    };
    assert_eq!(rows(&padded), []);
    // CALLDATALOAD in block 0 becomes NOT.
    padded[1] = 0x19;
    let [Row::Instructions { start: 0, .. }] = &rows(&padded)[..] else {
        panic!("one block changed: {:?}", rows(&padded));
    };
}

#[test]
fn a_code_of_another_map_is_told() {
    let map = whole(&[0x60, 3, 0x56, 0x5b, 0]);
    let told = |code: &[u8]| {
        Coded::new(&map, code)
            .map(|_| ())
            .expect_err("it is another's")
            .to_string()
    };
    assert!(told(&[0]).starts_with("is not the code of the map: it has 1 bytes"));
    assert!(
        told(&[0x61, 0, 0, 0x5b, 0]).ends_with("its block 0 ends within an instruction here"),
        "{}",
        told(&[0x61, 0, 0, 0x5b, 0])
    );
}

#[test]
fn unresolved_jumps_that_rose_stand_out() {
    let code = codes::from_hex("60056007565b005b56").expect("it is hexadecimal");
    let (old, new) = (whole(&code), map_of(&code, 0).expect("it has a map"));
    assert_eq!(
        judged(&old, &new).to_string(),
        "different, UNRESOLVED JUMPS ROSE BY 1: blocks 3 -> 2, dynamic 0 -> 1, unresolved 0 -> 1, records 1 -> 0, energy 2 -> 0"
    );
    assert!(!judged(&new, &old).to_string().contains("ROSE"));
}
