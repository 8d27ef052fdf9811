//! Rows extended by transforms.

use crate::*;

const LAST_ROOT: u64 = 1753635133440165772;

// The powers of the root in the upper half, before them those of its square, and so on.
fn twiddles(bits: u32, root: u64) -> Vec<u64> {
    let mut list = vec![1; 1 << bits];
    let half = list.len() / 2;
    let mut power = 1;
    for entry in &mut list[half..] {
        *entry = power;
        power = mul(power, root);
    }
    for k in (1..half).rev() {
        list[k] = list[2 * k];
    }
    list
}

fn forward_four(values: &mut [u64], root: u64) {
    let (a, b, c, d) = (values[0], values[1], values[2], values[3]);
    let (even, odd) = (add(a, c), add(b, d));
    let (left, right) = (sub(a, c), mul(sub(b, d), root));
    values[0] = add(even, odd);
    values[1] = sub(even, odd);
    values[2] = add(left, right);
    values[3] = sub(left, right);
}

fn backward_four(values: &mut [u64], root: u64) {
    let (a, b, c, d) = (values[0], values[1], values[2], values[3]);
    let (even, odd) = (add(a, b), add(c, d));
    let (left, right) = (sub(a, b), mul(sub(c, d), root));
    values[0] = add(even, odd);
    values[1] = add(left, right);
    values[2] = sub(even, odd);
    values[3] = sub(left, right);
}

fn down(low: &mut [u64], high: &mut [u64], twiddles: &[u64]) {
    for ((a, b), w) in low.iter_mut().zip(high).zip(twiddles) {
        let sum = add(*a, *b);
        *b = mul(sub(*a, *b), *w);
        *a = sum;
    }
}

fn up(low: &mut [u64], high: &mut [u64], twiddles: &[u64]) {
    for ((a, b), w) in low.iter_mut().zip(high).zip(twiddles) {
        let turned = mul(*b, *w);
        *b = sub(*a, turned);
        *a = add(*a, turned);
    }
}

fn forward(values: &mut [u64], twiddles: &[u64]) {
    let half = values.len() / 2;
    let (low, high) = values.split_at_mut(half);
    if half == 4 {
        down(low, high, &twiddles[4..8]);
        forward_four(low, twiddles[3]);
        forward_four(high, twiddles[3]);
        return;
    }
    down(low, high, &twiddles[half..2 * half]);
    forward(low, twiddles);
    forward(high, twiddles);
}

fn backward(values: &mut [u64], twiddles: &[u64]) {
    let half = values.len() / 2;
    let (low, high) = values.split_at_mut(half);
    if half == 4 {
        backward_four(low, twiddles[3]);
        backward_four(high, twiddles[3]);
        up(low, high, &twiddles[4..8]);
        return;
    }
    backward(low, twiddles);
    backward(high, twiddles);
    up(low, high, &twiddles[half..2 * half]);
}

// Rows of n values, extended to 6n - 1 points by cyclic convolutions: the transforms of one or two blocks are multiplied
// by those of their kernels for a piece of the points, added up and transformed backward.
pub fn ntt(times: u32, n: usize) -> u128 {
    let upto = 6 * n - 1;
    let rows = gold_rows(n);
    let blocks = if n <= 512 { 1 } else { 2 };
    let block = n / blocks;
    let bits = (2 * block).next_power_of_two().ilog2();
    let size = 1 << bits;
    let piece = size + 1 - block;
    let root = (bits..32).fold(LAST_ROOT, |root, _| mul(root, root));
    let (down_table, up_table) = (twiddles(bits, root), twiddles(bits, inverse(root)));
    let scale = inverse(size as u64);
    let mut kernels = Vec::new();
    for from in (n..upto).step_by(piece) {
        for v in 0..blocks {
            let first = from + 1 - (v + 1) * block;
            let mut kernel: Vec<u64> = (first..first + size).map(|k| rows.inverses.get(k).map_or(0, |x| mul(scale, *x))).collect();
            forward(&mut kernel, &down_table);
            kernels.push(kernel);
        }
    }
    let mut values: Vec<u64> = (0..n as u64).map(|i| (i + 1) * 0x1_0000_0001).collect();
    let mut out = vec![0; upto - n];
    let mut spectra = vec![vec![0; size]; blocks];
    let mut convolved = vec![0; size];
    for _ in 0..times {
        for ((spectrum, values), weights) in spectra.iter_mut().zip(values.chunks(block)).zip(rows.weights.chunks(block)) {
            spectrum.fill(0);
            for ((entry, value), weight) in spectrum.iter_mut().zip(values).zip(weights) {
                *entry = mul(*value, *weight);
            }
            forward(spectrum, &down_table);
        }
        for ((out, passed), kernels) in out.chunks_mut(piece).zip(rows.passed.chunks(piece)).zip(kernels.chunks(blocks)) {
            for ((entry, a), b) in convolved.iter_mut().zip(&spectra[0]).zip(&kernels[0]) {
                *entry = mul(*a, *b);
            }
            for (spectrum, kernel) in spectra.iter().zip(kernels).skip(1) {
                for ((entry, a), b) in convolved.iter_mut().zip(spectrum).zip(kernel) {
                    *entry = add(*entry, mul(*a, *b));
                }
            }
            backward(&mut convolved, &up_table);
            for ((entry, a), b) in out.iter_mut().zip(&convolved[block - 1..]).zip(passed) {
                *entry = mul(*a, *b);
            }
        }
        values[0] = out[upto - n - 1];
    }
    if times == 0 { 0 } else { values[0] as u128 }
}

// The twiddle factors of all blocks, those of 2^b points from place 2^(depth - b) on.
fn binary_twiddles(depth: u32) -> Vec<u128> {
    let mut images: Vec<u128> = (0..depth).map(|i| 1 << i).collect();
    let mut list = vec![0; 1 << depth];
    for level in 0..depth as usize {
        let here = images[level];
        let inverted = gf_inverse(here);
        let row = 1 << (depth as usize - level - 1);
        for (i, image) in images[level + 1..].iter().enumerate() {
            let image = gf_product(*image, inverted);
            for c in 0..1 << i {
                list[row + (1 << i) + c] = image ^ list[row + c];
            }
        }
        for image in &mut images {
            *image = gf_product(*image, *image ^ here);
        }
    }
    list
}

fn binary_down(low: &mut [u128], high: &mut [u128], twiddle: u128) {
    for (a, b) in low.iter_mut().zip(high) {
        *a ^= gf_product(twiddle, *b);
        *b ^= *a;
    }
}

fn binary_up(low: &mut [u128], high: &mut [u128], twiddle: u128) {
    for (a, b) in low.iter_mut().zip(high) {
        *b ^= *a;
        *a ^= gf_product(twiddle, *b);
    }
}

fn binary_forward(values: &mut [u128], twiddles: &[u128], node: usize) {
    let half = values.len() / 2;
    if half == 0 {
        return;
    }
    let (low, high) = values.split_at_mut(half);
    binary_down(low, high, twiddles[node]);
    binary_forward(low, twiddles, 2 * node);
    binary_forward(high, twiddles, 2 * node + 1);
}

// From the first values and the other coefficients to all coefficients.
fn binary_backward(values: &mut [u128], twiddles: &[u128], node: usize, known: usize) {
    let half = values.len() / 2;
    if half == 0 || known == 0 {
        return;
    }
    let (low, high) = values.split_at_mut(half);
    let twiddle = twiddles[node];
    if known < half {
        for i in known..half {
            low[i] ^= gf_product(twiddle, high[i]);
        }
        binary_backward(low, twiddles, 2 * node, known);
        for (a, b) in low.iter_mut().zip(high) {
            *a ^= gf_product(twiddle, *b);
        }
    } else {
        binary_backward(low, twiddles, 2 * node, half);
        for i in known - half..half {
            high[i] ^= low[i];
        }
        binary_backward(high, twiddles, 2 * node + 1, known - half);
        binary_up(low, high, twiddle);
    }
}

// The values at some of a block's points. The coefficients come back.
fn binary_block(room: &mut [u128], twiddles: &[u128], node: usize, skip: usize, out: &mut [u128]) {
    if out.is_empty() {
        return;
    }
    if out.len() == room.len() {
        out.copy_from_slice(room);
        return binary_forward(out, twiddles, node);
    }
    let half = room.len() / 2;
    let (low, high) = room.split_at_mut(half);
    binary_down(low, high, twiddles[node]);
    let before = out.len().min(half - skip.min(half));
    let (first, rest) = out.split_at_mut(before);
    binary_block(low, twiddles, 2 * node, skip.min(half), first);
    binary_block(high, twiddles, 2 * node + 1, skip.max(half) - half, rest);
    binary_up(low, high, twiddles[node]);
}

// Rows of n values, extended to 6n - 1 points by additive transforms.
pub fn afft(times: u32, n: usize) -> u128 {
    let upto = 6 * n - 1;
    let size = n.next_power_of_two();
    let all = upto.next_power_of_two();
    let twiddles = binary_twiddles(all.ilog2());
    let mut values: Vec<u128> = (0..n as u128).map(|i| (i + 1) * 0x1_0000_0001).collect();
    let mut out = vec![0; upto - n];
    let mut room = vec![0; size];
    for _ in 0..times {
        room[..n].copy_from_slice(&values);
        room[n..].fill(0);
        binary_backward(&mut room, &twiddles, all / size, n);
        let (mut from, mut rest) = (n, &mut out[..]);
        while !rest.is_empty() {
            let skip = from % size;
            let count = rest.len().min(size - skip);
            let (first, behind) = rest.split_at_mut(count);
            binary_block(&mut room, &twiddles, all / size + from / size, skip, first);
            (from, rest) = (from + count, behind);
        }
        values[0] = out[upto - n - 1];
    }
    if times == 0 { 0 } else { values[0] }
}
