//! The library's inspector on a small part of the maps, and faults that must be found.

use differential::{INSPECTOR, Inspecting, Inspector, check_inspection, inspect_maps};

#[test]
fn the_library_inspects_as_the_model_does() {
    let all = inspect_maps(INSPECTOR, 2_000, 21, 2_000);
    assert_eq!(all.written_out, Vec::<String>::new());
    assert!(
        all.accepted > 500 && all.first > 100 && all.later > 50,
        "{all:?}"
    );
    assert!(all.longest > 30 && all.listed > 500, "{all:?}");
    assert!(
        all.refused[0] > 0 && all.refused[1] > 50 && all.refused[2] > 50 && all.bad > 20,
        "{all:?}"
    );
}

fn found(kind: &str, wrong: Inspector) {
    let all = inspect_maps(wrong, 400, 22, 400);
    let kinds = all.written_out.iter().map(|text| text.starts_with(kind));
    assert!(kinds.clone().any(|is| is), "{kind}: {all:?}");
}

#[test]
fn wrong_inspectors_are_found() {
    let whole = |whole| Inspector { whole, ..INSPECTOR };
    found(
        "number",
        whole(|mode, code, map, w, place| aznifrem::inspect(mode, code, map, w, place) + 256),
    );
    found(
        "place",
        whole(|mode, code, map, w, place| {
            let given = aznifrem::inspect(mode, code, map, w, place);
            if let Some(first) = place.first_mut() {
                *first ^= 1;
            }
            given
        }),
    );
    found(
        "w",
        whole(|mode, code, map, w, place| {
            let given = aznifrem::inspect(mode, code, map, w, place);
            w.fill(0x55);
            given
        }),
    );
    let from = |from| Inspector { from, ..INSPECTOR };
    found(
        "number",
        from(|mode, at, code, map, w, rows| {
            aznifrem::inspect_from(mode, at.saturating_add(1), code, map, w, rows)
        }),
    );
    found(
        "rows",
        from(|mode, at, code, map, w, rows| {
            let room = rows.len().min(16);
            aznifrem::inspect_from(mode, at, code, map, w, &mut rows[..room])
        }),
    );
}

#[test]
fn a_map_that_is_made_to_be_slow_is_judged_as_the_model_does() {
    let (code, map) = codes::hostile::to_and_fro(300, 600);
    let w = 64 * code.len() + 256;
    for rows in [0, 16, 48, 64] {
        let call = Inspecting {
            mode: 0,
            code: code.clone(),
            map: map.clone(),
            w,
            place: 8,
            from: 0,
            rows,
            ours: false,
        };
        // Both 7s with a destination have an empty path; the record's symbol is no Jumpdest.
        let (_, listed) = check_inspection(INSPECTOR, &call).expect("the same");
        assert_eq!(listed, 3);
    }
}
