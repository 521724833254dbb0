//! The rows, held to a statement of what they mean that is made another way: each map is a bag of facts;
//! what the rows take away is what the old bag has more, what they give is what the new bag has more.

mod common;

use std::collections::{BTreeMap, BTreeSet};

use aznifrem::{BlockType, DynamicJump, Map, Record};
use codes::Random;
use common::{coded_pair, edited, made, map_of};
use compare::{Face, Leads, Row, nearest, rows};

#[derive(Clone, Debug, PartialEq, Eq, PartialOrd, Ord)]
enum Fact {
    Block(usize, usize, String),
    Recorded(usize, Vec<usize>, Option<usize>),
}

/// The facts of a map, each as often as it is there.
fn facts(map: &Map) -> Vec<Fact> {
    let block = |(start, block): (&usize, &aznifrem::Block)| {
        Fact::Block(*start, block.end, face(map, *start, &block.btype))
    };
    let record =
        |record: &Record| Fact::Recorded(record.start, record.jump.path.clone(), record.jump.to);
    let blocks = map.blocks.iter().map(block);
    blocks.chain(map.records.iter().map(record)).collect()
}

fn of_block(map: &Map, start: usize) -> Vec<&DynamicJump> {
    let records = map.records.iter().filter(|record| record.start == start);
    records.map(|record| &record.jump).collect()
}

fn face(map: &Map, start: usize, btype: &BlockType) -> String {
    let found = of_block(map, start).into_iter().filter_map(|jump| jump.to);
    let found: BTreeSet<usize> = found.collect();
    match btype {
        BlockType::Terminate { success: true } => "Terminate, success".into(),
        BlockType::Terminate { success: false } => "Terminate, failure".into(),
        BlockType::Jump { to } if found == BTreeSet::from([*to]) => "Jump, merged".into(),
        BlockType::Jump { to } => format!("Jump to {to}"),
        BlockType::Jumpi { true_to, false_to } => format!("Jumpi to {true_to}, else to {false_to}"),
        BlockType::DynamicJump { .. } => "DynamicJump".into(),
        BlockType::DynamicJumpi { false_to, .. } => format!("DynamicJumpi, else to {false_to}"),
    }
}

/// The list of a block, if the record does not give it.
fn odd_list(map: &Map, start: usize) -> Option<Vec<DynamicJump>> {
    let (list, keeps_unknown) = match &map.blocks.get(&start)?.btype {
        BlockType::DynamicJump { to } => (to, false),
        BlockType::DynamicJumpi { true_to, .. } => (true_to, true),
        _ => return None,
    };
    let mut given = of_block(map, start);
    given.retain(|jump| keeps_unknown || jump.to.is_some());
    let same = given.len() == list.len() && given.iter().zip(list).all(|(a, b)| *a == b);
    (!same).then(|| list.clone())
}

/// The first bag without the second, by crossing out.
fn without<T: Clone + PartialEq>(bag: &[T], other: &[T]) -> Vec<T> {
    let mut left = bag.to_vec();
    for fact in other {
        // What is crossed out is the first: a bag of records keeps the later ones.
        if let Some(at) = left.iter().position(|mine| mine == fact) {
            left.remove(at);
        }
    }
    left
}

/// Those of a record that the other has too, in their order; of equal ones the first.
fn kept(record: &[Record], other: &[Record]) -> Vec<Record> {
    let mut left = other.to_vec();
    let stays = |mine: &&Record| match left.iter().position(|its| its == *mine) {
        Some(at) => {
            left.remove(at);
            true
        }
        None => false,
    };
    record.iter().filter(stays).cloned().collect()
}

fn of(record: &[Record], start: usize) -> Vec<&Record> {
    record.iter().filter(|one| one.start == start).collect()
}

fn sorted<T: Ord>(mut list: Vec<T>) -> Vec<T> {
    list.sort();
    list
}

/// What the rows take away, what they give, and the rows that do neither.
#[derive(Default)]
struct Told {
    taken: Vec<Fact>,
    given: Vec<Fact>,
    ordered: Vec<Option<usize>>,
    lists: Vec<usize>,
}

fn words(leads: &Leads) -> String {
    match leads {
        Leads::Jump { to } => format!("Jump to {to}"),
        Leads::Jumpi { true_to, false_to } => format!("Jumpi to {true_to}, else to {false_to}"),
        Leads::DynamicJumpi { false_to } => format!("DynamicJumpi, else to {false_to}"),
        Leads::Terminate { .. } | Leads::Merged | Leads::DynamicJump => leads.to_string(),
    }
}

fn told(rows: &[Row]) -> Told {
    let block = |face: &Face| Fact::Block(face.start, face.end, words(&face.leads));
    let mut told = Told::default();
    for row in rows {
        let (taken, given) = match row {
            Row::BlockCame(after) => (None, Some(block(after))),
            Row::BlockWent(before) => (Some(block(before)), None),
            Row::BlockChanged { before, after } => (Some(block(before)), Some(block(after))),
            Row::JumpCame { block, jump } => {
                let fact = Fact::Recorded(*block, jump.path.clone(), jump.to);
                (None, Some(fact))
            }
            Row::JumpWent { block, jump } => {
                let fact = Fact::Recorded(*block, jump.path.clone(), jump.to);
                (Some(fact), None)
            }
            Row::JumpMoved {
                block,
                path,
                before,
                after,
            } => {
                let fact = |to| Some(Fact::Recorded(*block, path.clone(), to));
                (fact(*before), fact(*after))
            }
            Row::OrderWithin { block } => {
                told.ordered.push(Some(*block));
                (None, None)
            }
            Row::OrderBetween => {
                told.ordered.push(None);
                (None, None)
            }
            Row::List { block, .. } => {
                told.lists.push(*block);
                (None, None)
            }
            Row::Instructions { .. } => panic!("no code is at hand"),
        };
        told.taken.extend(taken);
        told.given.extend(given);
    }
    told
}

/// A block is told once; a path is not told to go and to come.
fn told_once(rows: &[Row]) {
    let mut blocks = BTreeSet::new();
    let mut ways: BTreeMap<(usize, Vec<usize>), [usize; 2]> = BTreeMap::new();
    for row in rows {
        match row {
            Row::BlockCame(face) | Row::BlockWent(face) => assert!(blocks.insert(face.start)),
            Row::BlockChanged { before, after } => {
                assert_eq!(before.start, after.start);
                assert!(blocks.insert(before.start) && before != after);
            }
            Row::JumpCame { block, jump } => {
                ways.entry((*block, jump.path.clone())).or_default()[0] += 1;
            }
            Row::JumpWent { block, jump } => {
                ways.entry((*block, jump.path.clone())).or_default()[1] += 1;
            }
            Row::JumpMoved { before, after, .. } => assert_ne!(before, after),
            _ => {}
        }
    }
    assert!(ways.values().all(|[came, went]| *came == 0 || *went == 0));
}

/// The rows between two maps are what they mean.
fn hold(old: &Map, new: &Map) -> Vec<Row> {
    let rows = rows(old, new);
    let context = || format!("{rows:#?}\nold {old:#?}\nnew {new:#?}");
    let told = told(&rows);
    let (before, after) = (facts(old), facts(new));
    assert_eq!(
        sorted(told.taken),
        sorted(without(&before, &after)),
        "{}",
        context()
    );
    assert_eq!(
        sorted(told.given),
        sorted(without(&after, &before)),
        "{}",
        context()
    );
    let starts = old.blocks.keys().chain(new.blocks.keys()).copied();
    let starts = starts.chain(
        old.records
            .iter()
            .chain(&new.records)
            .map(|record| record.start),
    );
    let starts: BTreeSet<usize> = starts.collect();
    let lists = starts
        .iter()
        .filter(|start| odd_list(old, **start) != odd_list(new, **start));
    assert_eq!(
        told.lists,
        lists.copied().collect::<Vec<_>>(),
        "{}",
        context()
    );
    let (mine, its) = (
        kept(&old.records, &new.records),
        kept(&new.records, &old.records),
    );
    let mut ordered: Vec<Option<usize>> = Vec::new();
    let within = starts
        .iter()
        .filter(|start| of(&mine, **start) != of(&its, **start));
    ordered.extend(within.copied().map(Some));
    let blocks = |record: &[Record]| record.iter().map(|one| one.start).collect::<Vec<_>>();
    ordered.extend((blocks(&mine) != blocks(&its)).then_some(None));
    assert_eq!(told.ordered, ordered, "{}", context());
    let same = old.blocks == new.blocks && old.records == new.records;
    assert_eq!(rows.is_empty(), same, "{}", context());
    told_once(&rows);
    rows
}

/// How often each kind of row was told.
#[derive(Default)]
struct Kinds([usize; 9]);

impl Kinds {
    fn add(&mut self, rows: &[Row]) {
        for row in rows {
            let kind = match row {
                Row::BlockCame(_) => 0,
                Row::BlockWent(_) => 1,
                Row::BlockChanged { .. } => 2,
                Row::JumpCame { .. } => 3,
                Row::JumpWent { .. } => 4,
                Row::JumpMoved { .. } => 5,
                Row::OrderWithin { .. } => 6,
                Row::OrderBetween => 7,
                Row::List { .. } | Row::Instructions { .. } => 8,
            };
            self.0[kind] += 1;
        }
    }
}

#[test]
fn made_maps_differ_by_what_their_rows_say() {
    let mut random = Random::new(28);
    let mut kinds = Kinds::default();
    for _ in 0..30_000 {
        let old = made(&mut random);
        let new = match random.below(3) {
            0 => made(&mut random),
            _ => edited(&mut random, &old),
        };
        kinds.add(&hold(&old, &new));
        assert_eq!(hold(&old, &old), []);
        // Of matched blocks too: the old map is renamed, and the rows are of that.
        hold(&nearest(&old, &new).renamed(&old), &new);
    }
    assert!(kinds.0.iter().all(|count| *count > 500), "{:?}", kinds.0);
}

#[test]
fn maps_of_codes_differ_by_what_their_rows_say() {
    let mut random = Random::new(29);
    let mut kinds = Kinds::default();
    let mut held = 0;
    for _ in 0..15_000 {
        if let Some((old, new)) = coded_pair(&mut random) {
            kinds.add(&hold(&old, &new));
            held += 1;
        }
    }
    assert!(held > 14_500, "{held}");
    // A list of the library's is always what the record gives.
    assert!(
        kinds.0[..6].iter().all(|count| *count > 200),
        "{:?}",
        kinds.0
    );
    assert_eq!(kinds.0[8], 0, "{:?}", kinds.0);
}

fn texts(old: &Map, new: &Map) -> Vec<String> {
    hold(old, new).iter().map(Row::to_string).collect()
}

fn hex(digits: &str, limit: u64) -> Map {
    let code = codes::from_hex(digits).expect("it is hexadecimal");
    map_of(&code, limit).expect("it has a map")
}

/// Two callers: at limit 1 the return of one is found, and 13 merges; its path stands in both records.
#[test]
fn a_jump_that_merges_does_not_seem_to_lose_its_paths() {
    const TWO: &str = "6005600D565B600B600D565B005B56";
    let whole = hex(TWO, 500_000);
    assert_eq!(
        texts(&whole, &hex(TWO, 1)),
        [
            "block went: 11-12 Terminate, success",
            "block changed: 13-14 DynamicJump -> 13-14 Jump, merged",
            "jump went: block 13 by path 13, 5: 11",
        ]
    );
    // The second caller returns to 5 too.
    assert_eq!(
        texts(&whole, &hex("6005600D565B6005600D565B005B56", 500_000)),
        [
            "block went: 11-12 Terminate, success",
            "block changed: 13-14 DynamicJump -> 13-14 Jump, merged",
            "jump moved: block 13 by path 13, 5: 11 -> 5",
        ]
    );
}
