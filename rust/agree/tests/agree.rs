//! The model gives the unchanged Rust's map. `cargo run --release -p agree` runs millions.

use agree::{Tally, Verdict, compare, families::FAMILIES};
use codes::{Random, exhaustive};

fn same(tally: &Tally, least: u64) {
    assert_eq!(tally.first, None);
    assert!(
        tally.same >= least,
        "too few codes were held against each other: {tally:?}"
    );
}

fn exhausted(alphabet: &[u8], length: usize) -> Tally {
    let mut tally = Tally::default();
    exhaustive::each(alphabet, length, |code| tally.add(code));
    tally
}

#[test]
fn on_every_code_to_four_bytes_over_the_telling_alphabet() {
    for length in 0..=4 {
        same(
            &exhausted(&exhaustive::TELLING, length),
            19_u64.pow(length as u32),
        );
    }
}

#[test]
fn on_every_code_of_six_bytes_over_jumps() {
    same(&exhausted(&exhaustive::JUMPS, 6), 999_000);
}

#[test]
fn on_the_corners() {
    let mut tally = Tally::default();
    for corner in codes::corners::CORNERS {
        tally.add(&codes::from_hex(corner).expect("the corners are hexadecimal"));
    }
    tally.add(&codes::corners::recorded_both_ways());
    same(&tally, 39);
}

/// Both sides of both borders, and 0x8000 as a real destination beside a missing one.
#[test]
fn on_codes_of_init_code_s_lengths() {
    let mut tally = Tally::default();
    tally.add(&codes::init::both_marks());
    let border = model::LONGEST_DEPLOYED;
    for piece in ["00", "5b00", "60056007565b005b56", "6000575b"] {
        let piece = codes::from_hex(piece).expect("the pieces are hexadecimal");
        for length in [border, border + 1, model::LONGEST_CODE] {
            tally.add(&codes::init::repeated(&piece, length));
        }
    }
    same(&tally, 13);
    let longer = vec![0; model::LONGEST_CODE + 1];
    assert_eq!(compare(&longer), Verdict::TooHeavy, "it is refused");
}

#[test]
fn on_seeded_codes() {
    for (at, family) in FAMILIES.iter().enumerate() {
        let mut random = Random::new(1000 + at as u64);
        let mut tally = Tally::default();
        for _ in 0..20_000 * family.share / 1000 {
            tally.add(&(family.next)(&mut random));
        }
        same(&tally, 19_000 * family.share / 1000);
    }
}
