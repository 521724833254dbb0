//! Reports: what a map adds, that joining is adding, and what a refusal leaves.

use std::error::Error;

use aznifrem::{Mapper, NotReported, Report, report_add, report_join};

const RETURN: [u8; 9] = [0x60, 5, 0x60, 7, 0x56, 0x5b, 0x00, 0x5b, 0x56];
const NOWHERE: [u8; 2] = [0x5f, 0x56];

fn map(code: &[u8]) -> Vec<u8> {
    let mut mapper = Mapper::new();
    let entries = mapper.entries(code, 500_000).expect("the code is mapped");
    entries.to_vec()
}

fn report(codes: &[&[u8]]) -> Report {
    let mut report = Report::default();
    for code in codes {
        report.add(&map(code)).expect("a map is added");
    }
    report
}

#[test]
fn a_map_adds_its_numbers() {
    let numbers = report(&[&RETURN, &NOWHERE]).numbers();
    assert_eq!(numbers, [2, 1, 2, 0, 1, 0, 1, 0, 0, 1, 0, 2, 2, 1, 1]);
    assert_eq!(report(&[]), Report::default());
    assert_eq!(Report::from_bytes(&[0; 120]), Report::default());
    assert_eq!(report(&[&RETURN]).share, (0, 1));
}

#[test]
fn joined_reports_are_the_report_of_all() {
    let (one, other) = (
        report(&[&RETURN, &RETURN]),
        report(&[&NOWHERE, &RETURN, &NOWHERE]),
    );
    let all = report(&[&RETURN, &NOWHERE, &RETURN, &RETURN, &NOWHERE]);
    for (mut report, more) in [(one, other), (other, one)] {
        assert_eq!(report.join(&more), Ok(()));
        assert_eq!(report, all);
        assert_eq!(report.join(&Report::default()), Ok(()));
        assert_eq!(report, all);
    }
}

#[test]
fn a_refusal_leaves_the_report() {
    let mut full = report(&[&RETURN]);
    full.energy = u64::MAX - 1;
    let before = full;
    assert_eq!(full.add(&map(&RETURN)), Err(NotReported::TooLarge));
    assert_eq!(full.join(&before), Err(NotReported::TooLarge));
    let cut = &map(&RETURN)[..70];
    match full.add(cut) {
        Err(why) => {
            let sentence = why.to_string();
            assert!(
                sentence.starts_with("the bytes are no stored map: "),
                "{sentence}"
            );
            let bad = why.source().expect("the first bad entry");
            assert!(bad.to_string().contains("byte 53"), "{bad}");
        }
        given => panic!("a cut map gives {given:?}"),
    }
    assert_eq!(full, before);
    assert_eq!(Report::from_bytes(&full.to_bytes()), full);
}

#[test]
fn other_bytes_stay_and_short_reports_are_refused() {
    let (stored, mut long) = (map(&RETURN), [0xaa; 130]);
    long[..120].fill(0);
    assert_eq!(report_add(&mut long, &stored), 0);
    assert_eq!(long[..120], report(&[&RETURN]).to_bytes());
    assert_eq!(long[120..], [0xaa; 10]);
    // 12 comes before 16.
    let mut short = [7; 119];
    assert_eq!(report_add(&mut short, &stored), 16);
    assert_eq!(report_add(&mut short, &stored[..70]), 12 + 256 * 53);
    assert_eq!(report_join(&mut short, &long), 16);
    assert_eq!(report_join(&mut long, &short), 16);
    assert_eq!(short, [7; 119]);
}
