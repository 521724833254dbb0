//! The codes of document 01's sessions and of its corners, as hexadecimal text.

use crate::assembler::Assembler;

/// Each shows something that a plausible wrong map gets wrong.
pub const CORNERS: [&str; 38] = [
    "",
    "00",
    "60",
    "56",
    "57",
    "5b",
    "6003565b00",
    "0c5b00",
    "6001570c5b00",
    "605b50600156",
    "605b50600160000156",
    "60056007565b005b56",
    "6005600d565b600b600d565b005b56",
    "905b9056",
    "305b30600957905b905b56",
    "8056",
    "60055b57005b56",
    "60005756",
    "1f00",
    "5b30600060000157",
    "605b60016007565b56",
    "6003575b56",
    "60025b8056",
    "60025b56",
    "60056006565b5b56",
    "60045b565b56",
    "60075b57600d565b60126010565b60135b565b5b",
    "60075b57600d565b60126010565b60105b565b5b5b5b5b",
    "600d30600a57506012565b57005b601460125b565b",
    "60055b57005b305b56",
    "60025b808056",
    "5b60005b5756",
    "5b63ffffffff16565b00",
    "600a63ffffffff9016565b00",
    "6005600760000156005b56",
    "5b8057",
    "3057565b56",
    "6300000006565b58600301565b00",
];

/// A chain in which one path is recorded without destination, being too heavy parent by parent,
/// and then with one, by a parent that the search found before.
pub fn recorded_both_ways() -> Vec<u8> {
    let mut asm = Assembler::new(2);
    let (side, end) = (asm.label(), asm.label());
    asm.push_label(end);
    asm.op(0x30);
    asm.push_label(side);
    asm.ops(&[0x5b; 255]);
    asm.op(0x57);
    asm.land(side);
    asm.op(0x56);
    asm.land(end);
    asm.op(0x00);
    asm.finish()
}
