//! Words of 256 bits, and the arithmetic of the Yellow Paper's appendix H on them.

use std::cmp::Ordering;

/// A word, least significant limb first.
#[derive(Clone, Copy, Debug, Default, PartialEq, Eq)]
pub struct Word(pub [u64; 4]);

const BITS: usize = 256;

/// Each instruction by its name; the first operand is the top of the stack.
#[expect(
    clippy::should_implement_trait,
    reason = "they wrap and take the operands as the instructions do"
)]
impl Word {
    pub const ZERO: Word = Word([0; 4]);
    pub const ONE: Word = Word([1, 0, 0, 0]);
    pub const MAX: Word = Word([u64::MAX; 4]);

    /// The number that these bytes spell, most significant first; at most 32 of them.
    pub fn from_bytes(bytes: &[u8]) -> Word {
        let mut word = Word::ZERO;
        for (at, byte) in bytes.iter().rev().enumerate() {
            word.0[at / 8] |= u64::from(*byte) << (at % 8 * 8);
        }
        word
    }

    /// The number, if 64 bits hold it.
    pub fn small(self) -> Option<u64> {
        (self.0[1..] == [0; 3]).then_some(self.0[0])
    }

    fn bit(self, at: usize) -> bool {
        self.0[at / 64] >> (at % 64) & 1 == 1
    }

    fn with_bit(mut self, at: usize) -> Word {
        self.0[at / 64] |= 1 << (at % 64);
        self
    }

    fn truth(holds: bool) -> Word {
        Word::from(u64::from(holds))
    }

    /// The sum, and whether it passes 256 bits.
    fn carrying(self, other: Word) -> (Word, bool) {
        let mut sum = Word::ZERO;
        let mut carry = false;
        for at in 0..4 {
            let (low, over) = self.0[at].overflowing_add(other.0[at]);
            let (low, more) = low.overflowing_add(u64::from(carry));
            sum.0[at] = low;
            carry = over | more;
        }
        (sum, carry)
    }

    pub fn add(self, other: Word) -> Word {
        self.carrying(other).0
    }

    fn negative(self) -> Word {
        self.not().add(Word::ONE)
    }

    pub fn sub(self, other: Word) -> Word {
        self.add(other.negative())
    }

    /// The product, in twice as many limbs.
    fn product(self, other: Word) -> [u64; 8] {
        let mut limbs = [0; 8];
        for (low, a) in self.0.iter().enumerate() {
            let mut carry = 0;
            for (high, b) in other.0.iter().enumerate() {
                let here = u128::from(limbs[low + high]);
                let sum = here + u128::from(*a) * u128::from(*b) + carry;
                limbs[low + high] = sum as u64;
                carry = sum >> 64;
            }
            limbs[low + 4] = carry as u64;
        }
        limbs
    }

    pub fn mul(self, other: Word) -> Word {
        let limbs = self.product(other);
        Word([limbs[0], limbs[1], limbs[2], limbs[3]])
    }

    /// Quotient (its low 256 bits) and remainder of a long number, bit by bit; the divisor is not 0.
    fn divided(limbs: &[u64], divisor: Word) -> (Word, Word) {
        let (mut quotient, mut rest) = (Word::ZERO, Word::ZERO);
        for at in (0..limbs.len() * 64).rev() {
            let over = rest.bit(BITS - 1);
            rest = rest.add(rest);
            rest.0[0] |= limbs[at / 64] >> (at % 64) & 1;
            if over || rest >= divisor {
                rest = rest.sub(divisor);
                if at < BITS {
                    quotient = quotient.with_bit(at);
                }
            }
        }
        (quotient, rest)
    }

    pub fn div(self, other: Word) -> Word {
        if other == Word::ZERO {
            return Word::ZERO;
        }
        Word::divided(&self.0, other).0
    }

    pub fn modulo(self, other: Word) -> Word {
        if other == Word::ZERO {
            return Word::ZERO;
        }
        Word::divided(&self.0, other).1
    }

    fn is_negative(self) -> bool {
        self.bit(BITS - 1)
    }

    fn absolute(self) -> Word {
        if self.is_negative() {
            self.negative()
        } else {
            self
        }
    }

    fn signed(self, negative: bool) -> Word {
        if negative { self.negative() } else { self }
    }

    pub fn sdiv(self, other: Word) -> Word {
        let size = self.absolute().div(other.absolute());
        size.signed(self.is_negative() != other.is_negative())
    }

    /// The remainder has the sign of the dividend.
    pub fn smod(self, other: Word) -> Word {
        let size = self.absolute().modulo(other.absolute());
        size.signed(self.is_negative())
    }

    /// The sum is not cut to 256 bits before the remainder is taken.
    pub fn addmod(self, other: Word, modulus: Word) -> Word {
        if modulus == Word::ZERO {
            return Word::ZERO;
        }
        let (sum, over) = self.carrying(other);
        let [a, b, c, d] = sum.0;
        Word::divided(&[a, b, c, d, u64::from(over)], modulus).1
    }

    pub fn mulmod(self, other: Word, modulus: Word) -> Word {
        if modulus == Word::ZERO {
            return Word::ZERO;
        }
        Word::divided(&self.product(other), modulus).1
    }

    pub fn exp(self, exponent: Word) -> Word {
        let mut power = Word::ONE;
        for at in (0..BITS).rev() {
            power = power.mul(power);
            if exponent.bit(at) {
                power = power.mul(self);
            }
        }
        power
    }

    /// `self` is the place of the byte, from the least significant, whose highest bit is the sign of `value`.
    pub fn signextend(self, value: Word) -> Word {
        let Some(place @ 0..=30) = self.small() else {
            return value;
        };
        let sign = place as usize * 8 + 7;
        let above = Word::MAX.shifted_up(sign + 1);
        if value.bit(sign) {
            value.or(above)
        } else {
            value.and(above.not())
        }
    }

    pub fn lt(self, other: Word) -> Word {
        Word::truth(self < other)
    }

    pub fn gt(self, other: Word) -> Word {
        Word::truth(self > other)
    }

    pub fn slt(self, other: Word) -> Word {
        let (a, b) = (self.is_negative(), other.is_negative());
        Word::truth(if a == b { self < other } else { a })
    }

    pub fn sgt(self, other: Word) -> Word {
        other.slt(self)
    }

    pub fn equal(self, other: Word) -> Word {
        Word::truth(self == other)
    }

    pub fn iszero(self) -> Word {
        Word::truth(self == Word::ZERO)
    }

    fn each(self, other: Word, of: fn(u64, u64) -> u64) -> Word {
        Word(std::array::from_fn(|at| of(self.0[at], other.0[at])))
    }

    pub fn and(self, other: Word) -> Word {
        self.each(other, |a, b| a & b)
    }

    pub fn or(self, other: Word) -> Word {
        self.each(other, |a, b| a | b)
    }

    pub fn xor(self, other: Word) -> Word {
        self.each(other, |a, b| a ^ b)
    }

    pub fn not(self) -> Word {
        self.xor(Word::MAX)
    }

    /// `self` is the place of the byte, from the most significant.
    pub fn byte(self, value: Word) -> Word {
        match self.small() {
            Some(place @ 0..=31) => value
                .shifted_down((31 - place as usize) * 8)
                .and(255.into()),
            _ => Word::ZERO,
        }
    }

    fn shifted_up(self, by: usize) -> Word {
        let (limbs, bits) = (by / 64, by % 64);
        Word(std::array::from_fn(|at| {
            let limb = |back: usize| at.checked_sub(back).map_or(0, |from| self.0[from]);
            let low = limb(limbs) << bits;
            let carried = if bits == 0 {
                0
            } else {
                limb(limbs + 1) >> (64 - bits)
            };
            low | carried
        }))
    }

    fn shifted_down(self, by: usize) -> Word {
        let (limbs, bits) = (by / 64, by % 64);
        Word(std::array::from_fn(|at| {
            let limb = |on: usize| self.0.get(at + on).copied().unwrap_or(0);
            let high = limb(limbs) >> bits;
            let carried = if bits == 0 {
                0
            } else {
                limb(limbs + 1) << (64 - bits)
            };
            high | carried
        }))
    }

    /// A number of bits to shift by, if it is below 256.
    fn shift(self) -> Option<usize> {
        self.small()
            .filter(|by| *by < BITS as u64)
            .map(|by| by as usize)
    }

    /// `self` is the number of bits, as the top of the stack is.
    pub fn shl(self, value: Word) -> Word {
        self.shift().map_or(Word::ZERO, |by| value.shifted_up(by))
    }

    pub fn shr(self, value: Word) -> Word {
        self.shift().map_or(Word::ZERO, |by| value.shifted_down(by))
    }

    /// The sign comes in from the left.
    pub fn sar(self, value: Word) -> Word {
        if value.is_negative() {
            self.shr(value.not()).not()
        } else {
            self.shr(value)
        }
    }

    /// EIP-7939: the zero bits above the highest one.
    pub fn clz(self) -> Word {
        let highest = (0..BITS).rev().find(|at| self.bit(*at));
        Word::from(highest.map_or(BITS, |at| BITS - 1 - at) as u64)
    }
}

impl From<u64> for Word {
    fn from(number: u64) -> Word {
        Word([number, 0, 0, 0])
    }
}

impl PartialOrd for Word {
    fn partial_cmp(&self, other: &Word) -> Option<Ordering> {
        Some(self.cmp(other))
    }
}

impl Ord for Word {
    fn cmp(&self, other: &Word) -> Ordering {
        self.0.iter().rev().cmp(other.0.iter().rev())
    }
}
