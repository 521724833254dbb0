//! Records that are true, and faults that must be found.

use codes::from_hex;
use model::Record;
use yellow::machine::{Way, fetch};
use yellow::mask::Mask;
use yellow::{
    Seen, Source, Word, Wrong, check, library, library_known_zero, model, trials, trials_in,
};

/// Document 01's Return, and its one record.
const RETURN: &str = "60056007565b005b56";

fn record(path: &[usize], to: usize) -> Record {
    Record {
        start: path[0],
        to: Some(to),
        path: path.to_vec(),
        energy: None,
    }
}

/// Runs a path on a stack of one word only, which the results from elsewhere are too.
fn run(code: &str, path: &[usize], to: usize, word: Word) -> Result<Seen, Wrong> {
    let code = from_hex(code).expect("hexadecimal");
    check(&code, &record(path, to), to, Mask::default(), &mut || word)
}

#[test]
fn return_goes_where_it_is_recorded() {
    let seen = run(RETURN, &[7, 0], 5, Word::MAX).expect("it is true");
    assert_eq!((seen.blocks, seen.masked, seen.broken), (2, 0, 0));
}

#[test]
fn each_thing_that_can_be_wrong_is_told() {
    let popped = Word::from(5);
    let astray = |block, named, way| Err(Wrong::Astray { block, named, way });
    let runs = |path: &[usize], to| run(RETURN, path, to, Word::ONE);
    assert_eq!(
        runs(&[7, 0], 7),
        Err(Wrong::Elsewhere {
            popped,
            recorded: 7
        })
    );
    assert_eq!(runs(&[7, 5], 5), astray(5, 7, Way::Halt));
    assert_eq!(runs(&[0, 7], 7), astray(7, 0, Way::Jump(Word::ONE)));
    assert_eq!(runs(&[5], 5), Err(Wrong::NoJump { way: Way::Halt }));
    // 6006 in the place of 6005: the jump pops it, and no 5B stands there.
    let marked = run("60066007565b005b56", &[7, 0], 6, Word::ONE);
    assert_eq!(marked, Err(Wrong::NoJumpdest { recorded: 6 }));
    let code = from_hex(RETURN).expect("hexadecimal");
    let stray = Record {
        start: 0,
        ..record(&[7, 0], 5)
    };
    assert_eq!(
        check(&code, &stray, 5, Mask::default(), &mut || Word::ONE),
        Err(Wrong::NotOfItsBlock)
    );
}

/// Return with AND 0xffffffff before its jump; and with a masked word beside it that the jump does not take.
#[test]
fn the_mask_is_watched() {
    let masked = "60056007565b005b63ffffffff1656";
    let seen = run(masked, &[7, 0], 5, Word::MAX).expect("it is true");
    assert_eq!((seen.masked, seen.broken), (1, 0));
    let beside = "60056007565b005b9063ffffffff165056";
    let seen = run(beside, &[7, 0], 5, Word::from(1 << 31)).expect("it is true");
    assert_eq!((seen.masked, seen.broken), (1, 0));
    let seen = run(beside, &[7, 0], 5, Word::from(1 << 32)).expect("it is true");
    assert_eq!((seen.masked, seen.broken), (1, 1));
    // Masked by a sum that is known: 0xfffffffe and 1.
    let summed = "60056007565b005b63fffffffe60010116 56".replace(' ', "");
    let seen = run(&summed, &[7, 0], 5, Word::MAX).expect("it is true");
    assert_eq!((seen.masked, seen.broken), (1, 0));
    // By a word that is not known: PUSH5 of 0xffffffff.
    let seen = run("60056007565b005b6400ffffffff1656", &[7, 0], 5, Word::MAX).expect("it is true");
    assert_eq!((seen.masked, seen.broken), (0, 0));
}

/// A code for which no words meet the premise: it masks the number 2^33 - 2, which it has made itself.
#[test]
fn a_premise_that_nothing_meets() {
    let code = "63ffffffff80800116600d5b565b";
    for word in [Word::ZERO, Word::from(0xffff_ffff), Word::MAX] {
        let seen = run(code, &[11, 0], 13, word).expect("it is true");
        assert_eq!((seen.masked, seen.broken), (1, 1));
    }
    let code = from_hex(code).expect("hexadecimal");
    let records = library(&code).expect("it is answered");
    assert_eq!(records, [record(&[11, 0], 13)]);
}

/// A JUMPI whose condition is 0: the block that its path names is one of the two places, and the other is where control goes.
#[test]
fn of_a_jumpi_either_side_counts() {
    let code = "600e6000600c6009565b57005b565b00";
    let records = library(&from_hex(code).expect("hexadecimal")).expect("it is answered");
    assert_eq!(records, [record(&[9, 0], 12), record(&[12, 9, 0], 14)]);
    for found in records {
        run(code, &found.path, found.to.expect("found"), Word::ONE).expect("it is true");
    }
}

/// A record of a block that the map has not: pruning does not follow the true side of a DynamicJumpi.
#[test]
fn a_block_of_a_path_may_be_pruned() {
    let code = from_hex("600e6001600c6009565b57005b565b00").expect("hexadecimal");
    let map = aznifrem::map(&code, 20_000).expect("it is answered");
    assert!(map.records.iter().any(|record| record.start == 12));
    assert!(!map.blocks.contains_key(&12));
}

/// In between too a jump goes on at a 5B only: at 5 stands a JUMP.
#[test]
fn a_jump_on_the_way_needs_its_jumpdest() {
    let way = Way::Jump(Word::from(5));
    let astray = Wrong::Astray {
        block: 0,
        named: 5,
        way,
    };
    let unmarked = run("6005560000565b", &[5, 0], 6, Word::from(6));
    assert_eq!(unmarked, Err(astray));
    run("60055600005b565b", &[5, 0], 7, Word::from(7)).expect("it is true");
}

/// A source that gives no records is given up.
#[test]
fn a_source_without_records_ends() {
    let tally = trials(|_| None, 3, 2);
    assert_eq!((tally.records, tally.refused), (0, tally.codes));
    assert!(tally.codes >= 30, "{tally:?}");
}

#[test]
fn records_of_the_library_are_true() {
    let tally = trials(library, 1_500, 2);
    assert_eq!(tally.written_out, Vec::<String>::new());
    assert_eq!(tally.wrong, 0);
    // The codes are such that the premise is met and not met, and that paths are of more than two blocks.
    assert!(tally.held > 100 && tally.broken > 10, "{tally:?}");
    assert!(tally.longest > 4, "{tally:?}");
}

/// "Holds in both modes of No. 6": of a code whose record has its destination in mode 1 alone, and of generated ones.
#[test]
fn records_of_mode_1_are_true() {
    let sum = from_hex("60065f015b565b").expect("hexadecimal");
    let to = |source: Source| source(&sum).expect("it is answered")[0].to;
    assert_eq!([library, library_known_zero].map(to), [None, Some(6)]);
    let tally = trials_in(true, library_known_zero, 1_500, 3);
    assert_eq!(tally.written_out, Vec::<String>::new());
    assert_eq!(tally.wrong, 0);
    assert!(tally.held > 100 && tally.longest > 4, "{tally:?}");
}

/// Whether a source that is wrong is told from a right one.
fn is_found(source: Source) -> bool {
    trials(source, 1_000, 2).wrong > 0
}

fn each(code: &[u8], change: impl Fn(&mut Record)) -> Option<Vec<Record>> {
    let mut records = model(code)?;
    records.iter_mut().for_each(change);
    Some(records)
}

/// The records of the code in which one instruction stands for another.
fn misread(code: &[u8], from: u8, to: u8) -> Option<Vec<Record>> {
    let mut other = code.to_vec();
    let mut at = 0;
    while at < code.len() {
        if code[at] == from {
            other[at] = to;
        }
        at += fetch(code, at).size;
    }
    model(&other)
}

#[test]
fn a_right_source_is_not_found() {
    assert!(!is_found(model));
    assert!(!is_found(|code| misread(code, 0x90, 0x90)));
}

#[test]
fn wrong_destinations_and_paths_are_found() {
    assert!(is_found(|code| each(code, |record| {
        record.to = record.to.map(|to| to + 1);
    })));
    // That of another record.
    assert!(is_found(|code| {
        let mut records = model(code)?;
        if let [first, .., last] = &mut records[..] {
            std::mem::swap(&mut first.to, &mut last.to);
        }
        Some(records)
    }));
    assert!(is_found(|code| each(code, |record| {
        record.path.pop();
    })));
    assert!(is_found(
        |code| each(code, |record| record.path[1..].reverse())
    ));
}

/// A mapper that takes SWAP1 for SWAP2, DUP1 for DUP2, or POP for ISZERO.
#[test]
fn wrong_instructions_are_found() {
    assert!(is_found(|code| misread(code, 0x90, 0x91)));
    assert!(is_found(|code| misread(code, 0x80, 0x81)));
    assert!(is_found(|code| misread(code, 0x50, 0x15)));
}
