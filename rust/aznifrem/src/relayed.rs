//! Where the machine is not x86-64: the library's exported calls, through a relay, as safe functions.

use crate::error::NotRelayed;
use crate::memory::Part;
use crate::relay;

macro_rules! slice {
    (read) => {
        &[u8]
    };
    (write) => {
        &mut [u8]
    };
}

macro_rules! part {
    (read $slice:ident) => {
        Part::Read($slice)
    };
    (write $slice:ident) => {
        Part::Write($slice)
    };
}

macro_rules! exports {
    ($($name:ident($($number:ident),*; $($kind:ident $slice:ident),*);)*) => {
        /// The relay knows a call by its place here.
        const NAMES: &[&str] = &[$(stringify!($name)),*];
        $(
            #[allow(clippy::too_many_arguments)]
            pub fn $name($($number: u64,)* $($slice: slice!($kind)),*) -> Result<u64, NotRelayed> {
                let place = NAMES.iter().position(|name| *name == stringify!($name));
                relay::call(place.unwrap_or(NAMES.len()), &[$($number),*], &mut [$(part!($kind $slice)),*])
            }
        )*
    };
}

include!("../exports.rs");
