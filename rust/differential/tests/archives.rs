//! The library's salvage on some thousand archives, and faults that must be found.

use aznifrem::salvage;
use differential::{Archives, check_archive, salvage_archives};

#[test]
fn the_library_on_whole_cut_and_damaged_archives() {
    let archives = salvage_archives(salvage, 5_000, 1);
    assert_eq!(archives.written_out, Vec::<String>::new());
    assert!(archives.whole > 200 && archives.cut > 3_000, "{archives:?}");
    assert!(archives.maps > 3_000, "{archives:?}");
}

/// The numbers that are printed, changed by a fault.
fn printing(report: &mut [u8], fault: fn(&mut [u64; 4])) {
    let (numbers, _) = report.as_chunks_mut::<8>();
    if let Some(numbers) = numbers.first_chunk_mut::<4>() {
        let mut printed = numbers.map(u64::from_le_bytes);
        fault(&mut printed);
        *numbers = printed.map(u64::to_le_bytes);
    }
}

fn found(faulty: differential::Salvager) -> Archives {
    let archives = salvage_archives(faulty, 300, 2);
    assert!(archives.different > 0, "{archives:?}");
    archives
}

#[test]
fn faults_are_found() {
    // The offset counts from the map that is bad, and not from the archive's start.
    found(|archive, out, report| {
        let number = salvage(archive, out, report);
        if number == 0 {
            printing(report, |numbers| numbers[3] -= numbers[1]);
        }
        number
    });
    // A map too many is counted; the last byte of the output's room is another; 18 writes.
    found(|archive, out, report| {
        let number = salvage(archive, out, report);
        if number == 0 {
            printing(report, |numbers| numbers[0] += u64::from(numbers[2] > 0));
        }
        number
    });
    found(|archive, out, report| {
        let number = salvage(archive, out, report);
        if let (0, Some(last)) = (number, out.last_mut()) {
            *last = 0;
        }
        number
    });
    found(|archive, out, report| {
        let number = salvage(archive, out, report);
        if number == 18 {
            report.fill(0);
        }
        number
    });
}

#[test]
fn an_archive_of_one_map_cut_at_every_byte() {
    let map = aznifrem::map(&[0x60, 5, 0x60, 7, 0x56, 0x5b, 0x00, 0x5b, 0x56], 500_000);
    let map = map.expect("it is mapped").to_bytes().expect("it fits");
    for length in 0..map.len() {
        let said = check_archive(salvage, &map[..length]).expect("it is the model's");
        assert_eq!((said.maps, said.dropped), (0, length));
    }
    let said = check_archive(salvage, &map).expect("it is the model's");
    assert_eq!((said.maps, said.dropped), (1, 0));
}
