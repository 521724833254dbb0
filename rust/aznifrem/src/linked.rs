//! On x86-64: the library's exported calls, linked, as safe functions. No other file of the binding has `unsafe`.

use crate::error::NotRelayed;

macro_rules! slice {
    (read) => {
        &[u8]
    };
    (write) => {
        &mut [u8]
    };
}

macro_rules! pointer {
    (read) => { *const u8 };
    (write) => { *mut u8 };
}

macro_rules! start {
    (read $slice:ident) => {
        $slice.as_ptr()
    };
    (write $slice:ident) => {
        $slice.as_mut_ptr()
    };
}

macro_rules! exports {
    ($($name:ident($($number:ident),*; $($kind:ident $slice:ident),*);)*) => {
        #[allow(unsafe_code)] // The library's contracts ask nothing of its caller but valid slices.
        mod library {
            unsafe extern "C" {
                $(pub fn $name($($number: u64,)* $($slice: pointer!($kind), _: usize),*) -> u64;)*
            }
        }
        $(
            #[allow(clippy::too_many_arguments, unsafe_code)]
            pub fn $name($($number: u64,)* $($slice: slice!($kind)),*) -> Result<u64, NotRelayed> {
                // SAFETY: each pointer and length is of one slice, valid for the call; those that
                // are written are borrowed apart from each other and from those that are read.
                Ok(unsafe { library::$name($($number,)* $(start!($kind $slice), $slice.len()),*) })
            }
        )*
    };
}

include!("../exports.rs");
