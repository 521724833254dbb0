//! The library's reports against the model's; and that a wrong one is seen.

use differential::{ReportPort, run_reports};

/// The library's calls.
const LIBRARY: ReportPort = ReportPort {
    add: aznifrem::report_add,
    join: aznifrem::report_join,
};

#[test]
fn reports_are_the_models() {
    let seen = run_reports(LIBRARY, 6_000, 11);
    assert_eq!(seen.different, None);
    assert!(
        seen.maps >= 6_000 && seen.refused > 100 && seen.joins > 300 && seen.too_large > 300,
        "{seen:?}"
    );
    assert!(
        seen.longest_by_7 > 10 && seen.several > 10 && seen.one_with_several_7s > 10,
        "{seen:?}"
    );
}

/// A library that leaves out the third bit of the energy.
fn forgets(report: &mut [u8], map: &[u8]) -> u64 {
    let given = aznifrem::report_add(report, map);
    if given == 0 {
        report[96] &= !4;
    }
    given
}

/// A library to which the paths of 7s are none.
fn records_alone(report: &mut [u8], map: &[u8]) -> u64 {
    let before = longest(report);
    let given = aznifrem::report_add(report, map);
    if given == 0 {
        let held = model::read(map).expect("the library took it");
        let paths = held.records.iter().map(|record| record.path.len() as u64);
        let longest = paths.fold(before, u64::max);
        report[88..96].copy_from_slice(&longest.to_le_bytes());
    }
    given
}

fn longest(report: &[u8]) -> u64 {
    let bytes = report.get(88..96).unwrap_or(&[]);
    bytes
        .iter()
        .rev()
        .fold(0, |n, byte| n << 8 | u64::from(*byte))
}

/// A library that touches what it refuses.
fn touches(report: &mut [u8], other: &[u8]) -> u64 {
    let given = aznifrem::report_join(report, other);
    if given != 0 && !report.is_empty() {
        report[0] ^= 1;
    }
    given
}

#[test]
fn a_wrong_library_is_seen() {
    for add in [forgets, records_alone] {
        let wrong = ReportPort { add, ..LIBRARY };
        let seen = run_reports(wrong, 500, 11).different.unwrap_or_default();
        assert!(seen.starts_with("add: "), "{seen}");
    }
    let wrong = ReportPort {
        join: touches,
        ..LIBRARY
    };
    let seen = run_reports(wrong, 500, 11).different.unwrap_or_default();
    assert!(seen.starts_with("join: "), "{seen}");
}
