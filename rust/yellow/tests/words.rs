//! Arithmetic by known values: those of EIP-145 for the shifts, worked examples for the rest.

use yellow::Word;

fn word(hex: &str) -> Word {
    Word::from_bytes(&codes::from_hex(&format!("{hex:0>64}")).expect("hexadecimal"))
}

fn number(value: u64) -> Word {
    Word::from(value)
}

/// A small negative number.
fn minus(value: u64) -> Word {
    Word::ZERO.sub(number(value))
}

const TOP: &str = "8000000000000000000000000000000000000000000000000000000000000000";
const ALL: &str = "ffffffffffffffffffffffffffffffffffffffffffffffffffffffffffffffff";
const MOST: &str = "7fffffffffffffffffffffffffffffffffffffffffffffffffffffffffffffff";

#[test]
fn bytes_are_read_most_significant_first() {
    assert_eq!(word("0102"), number(258));
    assert_eq!(word("010000000000000000").0, [0, 1, 0, 0]);
    assert_eq!(word(ALL), Word::MAX);
}

#[test]
fn sums_and_products_wrap() {
    assert_eq!(Word::MAX.add(Word::ONE), Word::ZERO);
    assert_eq!(word("ffffffffffffffff").add(Word::ONE).0, [0, 1, 0, 0]);
    assert_eq!(Word::ZERO.sub(Word::ONE), Word::MAX);
    assert_eq!(number(7).sub(number(9)), minus(2));
    assert_eq!(Word::MAX.mul(Word::MAX), Word::ONE);
    let product =
        word("0123456789abcdef0123456789abcdef").mul(word("fedcba9876543210fedcba9876543210"));
    assert_eq!(
        product,
        word("0121fa00ad77d742247acc9140513b74458fab20783af1222236d88fe5618cf0")
    );
    assert_eq!(
        word("ffffffffffffffff").mul(word("ffffffffffffffff")),
        word("fffffffffffffffe0000000000000001")
    );
}

#[test]
fn division_by_zero_is_zero() {
    for of in [Word::div, Word::sdiv, Word::modulo, Word::smod] {
        assert_eq!(of(number(5), Word::ZERO), Word::ZERO);
    }
    for of in [Word::addmod, Word::mulmod] {
        assert_eq!(of(number(5), number(6), Word::ZERO), Word::ZERO);
    }
}

#[test]
fn quotients_and_remainders() {
    assert_eq!(number(17).div(number(5)), number(3));
    assert_eq!(number(17).modulo(number(5)), number(2));
    assert_eq!(Word::MAX.div(number(3)), word(&"55".repeat(32)));
    assert_eq!(
        Word::MAX.div(word("0100000000000000000000000000000000")),
        word(&"ff".repeat(16))
    );
    assert_eq!(minus(17).sdiv(number(5)), minus(3));
    assert_eq!(number(17).sdiv(minus(5)), minus(3));
    assert_eq!(minus(17).sdiv(minus(5)), number(3));
    assert_eq!(minus(17).smod(number(5)), minus(2));
    assert_eq!(number(17).smod(minus(5)), number(2));
    // "-2^255 if it is divided by -1"
    assert_eq!(word(TOP).sdiv(minus(1)), word(TOP));
}

#[test]
fn sums_and_products_by_a_modulus_do_not_wrap() {
    assert_eq!(number(10).addmod(number(10), number(8)), number(4));
    assert_eq!(Word::MAX.addmod(number(2), number(2)), Word::ONE);
    assert_eq!(Word::MAX.addmod(Word::MAX, Word::MAX), Word::ZERO);
    assert_eq!(number(10).mulmod(number(10), number(8)), number(4));
    assert_eq!(Word::MAX.mulmod(Word::MAX, number(12)), number(9));
    assert_eq!(
        Word::MAX.mulmod(Word::MAX, Word::MAX.sub(Word::ONE)),
        Word::ONE
    );
}

#[test]
fn powers_wrap() {
    assert_eq!(number(10).exp(number(2)), number(100));
    assert_eq!(number(2).exp(number(255)), word(TOP));
    assert_eq!(number(2).exp(number(256)), Word::ZERO);
    assert_eq!(Word::ZERO.exp(Word::ZERO), Word::ONE);
    assert_eq!(number(3).exp(number(5)), number(243));
    assert_eq!(Word::MAX.exp(Word::MAX), Word::MAX);
}

#[test]
fn signs_are_extended_from_their_byte() {
    assert_eq!(number(0).signextend(number(0xff)), Word::MAX);
    assert_eq!(number(0).signextend(number(0x7f)), number(0x7f));
    assert_eq!(number(0).signextend(number(0x127f)), number(0x7f));
    assert_eq!(number(1).signextend(number(0x8000)), minus(0x8000));
    // Byte 30, the second from the left: what stands to its left goes.
    assert_eq!(number(30).signextend(word(TOP)), Word::ZERO);
    let sign = format!("80{}", "00".repeat(30));
    assert_eq!(
        number(30).signextend(word(&sign)),
        word(&format!("ff{sign}"))
    );
    assert_eq!(number(31).signextend(word(TOP)), word(TOP));
    assert_eq!(Word::MAX.signextend(number(0xff)), number(0xff));
}

#[test]
fn comparisons() {
    assert_eq!(number(9).lt(number(10)), Word::ONE);
    assert_eq!(number(10).lt(number(10)), Word::ZERO);
    assert_eq!(Word::MAX.gt(number(10)), Word::ONE);
    assert_eq!(minus(1).slt(Word::ZERO), Word::ONE);
    assert_eq!(minus(2).slt(minus(1)), Word::ONE);
    assert_eq!(word(MOST).sgt(word(TOP)), Word::ONE);
    assert_eq!(Word::ZERO.sgt(Word::ZERO), Word::ZERO);
    assert_eq!(
        word("010000000000000000").gt(word("ffffffffffffffff")),
        Word::ONE
    );
    assert_eq!(number(5).equal(number(5)), Word::ONE);
    assert_eq!(number(5).equal(word("010000000000000005")), Word::ZERO);
    assert_eq!(Word::ZERO.iszero(), Word::ONE);
    assert_eq!(word(TOP).iszero(), Word::ZERO);
}

#[test]
fn bits_and_bytes() {
    assert_eq!(number(0xf0).and(number(0x3c)), number(0x30));
    assert_eq!(number(0xf0).or(number(0x3c)), number(0xfc));
    assert_eq!(number(0xf0).xor(number(0x3c)), number(0xcc));
    assert_eq!(Word::ZERO.not(), Word::MAX);
    assert_eq!(number(31).byte(number(0x1234)), number(0x34));
    assert_eq!(number(30).byte(number(0x1234)), number(0x12));
    assert_eq!(number(0).byte(word(TOP)), number(0x80));
    assert_eq!(number(32).byte(Word::MAX), Word::ZERO);
    assert_eq!(Word::MAX.byte(Word::MAX), Word::ZERO);
}

/// Of EIP-145's tables.
#[test]
fn shifts() {
    let by = |bits: u64, of: fn(Word, Word) -> Word, value: &str| of(number(bits), word(value));
    assert_eq!(by(0, Word::shl, "01"), Word::ONE);
    assert_eq!(by(1, Word::shl, "01"), number(2));
    assert_eq!(by(255, Word::shl, "01"), word(TOP));
    assert_eq!(by(256, Word::shl, "01"), Word::ZERO);
    assert_eq!(by(1, Word::shl, ALL), minus(2));
    assert_eq!(by(255, Word::shl, ALL), word(TOP));
    assert_eq!(by(1, Word::shl, MOST), minus(2));
    assert_eq!(by(1, Word::shr, "01"), Word::ZERO);
    assert_eq!(
        by(1, Word::shr, TOP),
        word(&format!("40{}", "00".repeat(31)))
    );
    assert_eq!(by(255, Word::shr, TOP), Word::ONE);
    assert_eq!(by(256, Word::shr, TOP), Word::ZERO);
    assert_eq!(by(1, Word::shr, ALL), word(MOST));
    assert_eq!(by(255, Word::shr, ALL), Word::ONE);
    assert_eq!(by(1, Word::sar, "01"), Word::ZERO);
    assert_eq!(
        by(1, Word::sar, TOP),
        word(&format!("c0{}", "00".repeat(31)))
    );
    assert_eq!(by(255, Word::sar, TOP), Word::MAX);
    assert_eq!(by(256, Word::sar, TOP), Word::MAX);
    assert_eq!(by(256, Word::sar, ALL), Word::MAX);
    assert_eq!(by(254, Word::sar, MOST), Word::ONE);
    assert_eq!(by(248, Word::sar, MOST), number(0x7f));
    assert_eq!(by(256, Word::sar, MOST), Word::ZERO);
    assert_eq!(Word::MAX.shl(Word::ONE), Word::ZERO);
    assert_eq!(word("010000000000000000").shr(Word::MAX), Word::ZERO);
}

/// Of EIP-7939's table.
#[test]
fn leading_zeros() {
    assert_eq!(Word::ZERO.clz(), number(256));
    assert_eq!(word(TOP).clz(), Word::ZERO);
    assert_eq!(word(MOST).clz(), Word::ONE);
    assert_eq!(Word::ONE.clz(), number(255));
}
