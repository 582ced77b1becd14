//! Powers modulo an odd number by Montgomery's method, with words of 64 bits and products of 128. R stands for 2 to the power of the modulus's bits,
//! its leading zeros counted; a product and a square here are divided by R, modulo the modulus.

/// The words of a product of two of the longest numbers.
const MOST_PRODUCT: usize = 2 * 48;

/// An odd modulus, whose highest word is not 0.
pub struct Modulus<const WORDS: usize> {
    words: [u64; WORDS],
    /// What makes the lowest word, multiplied by it, to all ones: minus its inverse modulo 2^64.
    inverse: u64,
}

/// Whether a is below b.
pub fn below<const WORDS: usize>(a: &[u64; WORDS], b: &[u64; WORDS]) -> bool {
    a.iter().rev().lt(b.iter().rev())
}

/// The low and the high word of a·b + c + d, which no two words exceed.
#[inline(always)]
fn multiply_add(a: u64, b: u64, c: u64, d: u64) -> (u64, u64) {
    let wide = u128::from(a) * u128::from(b) + u128::from(c) + u128::from(d);
    (wide as u64, (wide >> 64) as u64)
}

impl<const WORDS: usize> Modulus<WORDS> {
    pub fn new(words: [u64; WORDS]) -> Self {
        let lowest = words[0];
        // An odd number is its own inverse modulo 8, and each step doubles the bits in which the inverse is right.
        let inverse = (0..5).fold(lowest, |x, _| x.wrapping_mul(2u64.wrapping_sub(lowest.wrapping_mul(x))));
        Modulus { words, inverse: inverse.wrapping_neg() }
    }

    /// x^65537 of an x that is below the modulus.
    pub fn power_65537(&self, x: &[u64; WORDS]) -> [u64; WORDS] {
        let mut power = self.product(x, &self.r_squared());
        for _ in 0..16 {
            power = self.square(&power);
        }
        // The last factor has not been multiplied by R, and so the division by R takes that out.
        self.product(&power, x)
    }

    /// R² modulo the modulus. R·2^t is reached by doubling a power of 2 that is below the modulus, and its square here is R·2^2t. So with t the
    /// number of words, of which each has 2^6 bits, six squares make R².
    fn r_squared(&self) -> [u64; WORDS] {
        let unused = self.words[WORDS - 1].leading_zeros() as usize;
        let mut x = [0; WORDS];
        x[WORDS - 1] = 1 << (63 - unused);
        for _ in 0..unused + 1 + WORDS {
            self.double(&mut x);
        }
        (0..6).fold(x, |x, _| self.square(&x))
    }

    fn double(&self, x: &mut [u64; WORDS]) {
        let mut carry = 0;
        for word in x.iter_mut() {
            (*word, carry) = (*word << 1 | carry, *word >> 63);
        }
        self.reduce_once(x, carry != 0);
    }

    /// Takes the modulus off a number below twice of it, which has a word of 1 above the others where `carry` is set.
    #[inline(always)]
    fn reduce_once(&self, x: &mut [u64; WORDS], carry: bool) {
        if !carry && below(x, &self.words) {
            return;
        }
        let mut borrow = false;
        for (word, modulus) in x.iter_mut().zip(&self.words) {
            let (difference, under) = word.overflowing_sub(*modulus);
            let (difference, under_by_one) = difference.overflowing_sub(u64::from(borrow));
            (*word, borrow) = (difference, under | under_by_one);
        }
    }

    /// a·b / R. For each word of b the multiple of a is added and, to make the lowest word 0, one of the modulus; then that word is dropped.
    fn product(&self, a: &[u64; WORDS], b: &[u64; WORDS]) -> [u64; WORDS] {
        let mut sum = [0; WORDS];
        let mut top = 0;
        for factor in b {
            let (lowest, mut carry) = multiply_add(a[0], *factor, sum[0], 0);
            let times = lowest.wrapping_mul(self.inverse);
            let (_, mut carry_of_modulus) = multiply_add(self.words[0], times, lowest, 0);
            for i in 1..WORDS {
                let word;
                (word, carry) = multiply_add(a[i], *factor, sum[i], carry);
                (sum[i - 1], carry_of_modulus) = multiply_add(self.words[i], times, word, carry_of_modulus);
            }
            let wide = u128::from(carry) + u128::from(carry_of_modulus) + top;
            sum[WORDS - 1] = wide as u64;
            top = wide >> 64;
        }
        self.reduce_once(&mut sum, top != 0);
        sum
    }

    /// a² / R. The products of two different words are needed once and doubled.
    fn square(&self, a: &[u64; WORDS]) -> [u64; WORDS] {
        let mut product = [0; MOST_PRODUCT];
        let product = &mut product[..2 * WORDS];
        for i in 0..WORDS {
            let mut carry = 0;
            for (word, higher) in product[2 * i + 1..i + WORDS].iter_mut().zip(&a[i + 1..]) {
                (*word, carry) = multiply_add(a[i], *higher, *word, carry);
            }
            product[i + WORDS] = carry;
        }
        double_and_add_squares(product, a);
        self.divide_by_r(product)
    }

    /// The number of twice as many words, divided by R.
    #[inline(always)]
    fn divide_by_r(&self, product: &mut [u64]) -> [u64; WORDS] {
        let mut top = 0;
        for i in 0..WORDS {
            let times = product[i].wrapping_mul(self.inverse);
            let mut carry = 0;
            for (word, modulus) in product[i..i + WORDS].iter_mut().zip(&self.words) {
                (*word, carry) = multiply_add(*modulus, times, *word, carry);
            }
            let wide = u128::from(product[i + WORDS]) + u128::from(carry) + top;
            product[i + WORDS] = wide as u64;
            top = wide >> 64;
        }
        let mut quotient = [0; WORDS];
        quotient.copy_from_slice(&product[WORDS..2 * WORDS]);
        self.reduce_once(&mut quotient, top != 0);
        quotient
    }
}

/// Doubles a number and adds the square of each word of a at its place.
#[inline(always)]
fn double_and_add_squares(product: &mut [u64], a: &[u64]) {
    let (mut shifted, mut carry) = (0, 0);
    for (two, word) in product.chunks_exact_mut(2).zip(a) {
        let (low, high) = multiply_add(*word, *word, two[0] << 1 | shifted, carry);
        let doubled = two[1] << 1 | two[0] >> 63;
        shifted = two[1] >> 63;
        let (sum, over) = high.overflowing_add(doubled);
        (two[0], two[1], carry) = (low, sum, u64::from(over));
    }
}
