//! Prints evmole's 256 rows: byte, name, size, words taken, words given, known (1 or 0).

fn main() {
    for (byte, row) in oracle::rows().iter().enumerate() {
        println!(
            "{byte:02X} {} {} {} {} {}",
            row.name,
            row.size,
            row.stack_in,
            row.stack_out,
            u8::from(row.known)
        );
    }
}
