//! Products over the field of 2^128 elements as the proved program has them: the digits lie in memory, and none is checked
//! before it finds its multiple. Safe Rust cannot say so.

use crate::*;

fn digits(n: u64) -> [u8; 8] {
    (n & 0x0f0f_0f0f_0f0f_0f0f).to_le_bytes()
}

#[inline(always)]
fn wide(a: u128, b: u128) -> Wide {
    let (x, y) = (b as u64, (b >> 64) as u64);
    let (x_even, x_odd, y_even, y_odd) = (digits(x), digits(x >> 4), digits(y), digits(y >> 4));
    let table = gf_multiples(a);
    // A digit is less than 16.
    let at = |digit: u8| unsafe {
        let i = digit as usize;
        *table.low.get_unchecked(i) as u128 | (*table.high.get_unchecked(i) as u128) << 64
    };
    let (mut above, mut below) = (Wide::ZERO, Wide::ZERO);
    for i in 0..4 {
        let k = 3 - i;
        above = above.digit_on(at(x_odd[k + 4]), at(y_odd[k + 4]));
        below = below.digit_on(at(x_odd[k]), at(y_odd[k]));
        above = above.digit_on(at(x_even[k + 4]), at(y_even[k + 4]));
        below = below.digit_on(at(x_even[k]), at(y_even[k]));
    }
    below.plus(above.half_on())
}

#[inline(never)]
fn product(a: u128, b: u128) -> u128 {
    let sum = wide(a, b);
    gf_reduced(sum.low, sum.high)
}

#[inline(never)]
fn long_product(a: u128, b: u128) -> Wide {
    wide(a, b)
}

fn sum_of_products(left: &[u128], right: &[u128]) -> u128 {
    let mut total = Wide::ZERO;
    for (a, b) in left.iter().zip(right) {
        total = total.plus(long_product(*a, *b));
    }
    gf_reduced(total.low, total.high)
}

pub fn mul(times: u32) -> u128 {
    gf_chain(times, product)
}

pub fn many(times: u32) -> u128 {
    gf_each(times, product)
}

pub fn dot(times: u32) -> u128 {
    gf_sums(times, sum_of_products)
}
