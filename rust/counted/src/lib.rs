//! A copy of the Rust that tells its energy at each record: what the numbers of No. 5 are held against. The build script makes it
//! of the unchanged files; its edits stand there.

// The files are as published: what they do not use here is no fault of theirs.
#![allow(dead_code, unused_imports, unexpected_cfgs, rustdoc::all, clippy::all)]

include!(concat!(env!("OUT_DIR"), "/copy.rs"));

mod told {
    use std::cell::RefCell;

    thread_local! {
        static TOLD: RefCell<super::Told> = RefCell::default();
    }

    pub fn unit() {
        TOLD.with_borrow_mut(|told| told.energy += 1);
    }

    pub fn record(path: &[usize]) {
        TOLD.with_borrow_mut(|told| told.records.push((path.to_vec(), told.energy)));
    }

    pub fn take() -> super::Told {
        TOLD.take()
    }
}

/// What the search told: each record's path with the energy counted when it was made, in that order, and all of it.
#[derive(Clone, Debug, Default, PartialEq, Eq)]
pub struct Told {
    pub records: Vec<(Vec<usize>, u64)>,
    pub energy: u64,
}

/// What the search of a code tells.
pub fn told(code: &[u8]) -> Told {
    told::take();
    let cut = control_flow_graph::basic_blocks(code);
    control_flow_graph::control_flow_graph(code, cut);
    told::take()
}

#[cfg(test)]
mod tests {
    #[test]
    fn two_callers_are_found_at_the_first_unit_and_at_the_third() {
        let code = [
            0x60, 0x05, 0x60, 0x0d, 0x56, 0x5b, 0x60, 0x0b, 0x60, 0x0d, 0x56, 0x5b, 0x00, 0x5b,
            0x56,
        ];
        let told = super::told(&code);
        assert_eq!(told.records, [(vec![13, 0], 1), (vec![13, 5], 3)]);
        assert_eq!(told.energy, 5);
    }
}
