//! Multilinear tables, and the script of a circuit's sumchecks.

use crate::*;

pub fn eq_table<T: Copy>(r: &[T], out: &mut [T], one: T, times: impl Fn(T, T) -> T, minus: impl Fn(T, T) -> T) {
    out[0] = one;
    let mut size = 1;
    for x in r.iter().rev() {
        for i in (0..size).rev() {
            let high = times(*x, out[i]);
            let low = minus(out[i], high);
            out[2 * i] = low;
            out[2 * i + 1] = high;
        }
        size *= 2;
    }
}

fn tilde<T: Copy>(values: &[T], r: &[T], room: &mut [T], times: impl Fn(T, T) -> T, plus: impl Fn(T, T) -> T, minus: impl Fn(T, T) -> T) -> T {
    room.copy_from_slice(values);
    let mut size = room.len();
    for x in r {
        size /= 2;
        for i in 0..size {
            let (low, high) = (room[2 * i], room[2 * i + 1]);
            room[i] = plus(low, times(*x, minus(high, low)));
        }
    }
    room[0]
}

pub fn sub(a: u64, b: u64) -> u64 {
    let (difference, borrow) = a.overflowing_sub(b);
    difference.wrapping_sub(if borrow { 0xffff_ffff } else { 0 })
}

pub fn gold_values(n: u64) -> Vec<u64> {
    (0..n).map(|i| (i + 1) * 0x1_0000_0001).collect()
}

fn gf_values(n: u128) -> Vec<u128> {
    (0..n).map(|i| (i + 1) * 0x1_0000_0001).collect()
}

pub fn gold_eq(times: u32) -> u128 {
    let (mut r, mut out) = (gold_values(12), vec![0; 4096]);
    for _ in 0..times {
        eq_table(&r, &mut out, 1, mul, sub);
        r[0] = out[4095];
    }
    r[0] as u128
}

pub fn gf_eq(times: u32) -> u128 {
    let (mut r, mut out) = (gf_values(12), vec![0; 4096]);
    for _ in 0..times {
        eq_table(&r, &mut out, 1, gf_product, |a, b| a ^ b);
        r[0] = out[4095];
    }
    r[0]
}

pub fn gold_tilde(times: u32) -> u128 {
    let (values, mut r, mut room) = (gold_values(4096), gold_values(12), vec![0; 4096]);
    for _ in 0..times {
        r[0] = tilde(&values, &r, &mut room, mul, add, sub);
    }
    r[0] as u128
}

pub fn gf_tilde(times: u32) -> u128 {
    let (values, mut r, mut room) = (gf_values(4096), gf_values(12), vec![0; 4096]);
    for _ in 0..times {
        r[0] = tilde(&values, &r, &mut room, gf_product, |a, b| a ^ b, |a, b| a ^ b);
    }
    r[0]
}

// A tape over Goldilocks: one running hash, and the key of the last seed.
pub struct Tape {
    seed: [u8; 32],
    hash: Option<Sha>,
    cipher: Aes,
    counter: u128,
}

impl Tape {
    pub fn new() -> Tape {
        Tape { seed: [0; 32], hash: None, cipher: Aes::new(&[0; 32]), counter: 0 }
    }

    pub fn elem(&mut self, x: u64) {
        let seed = self.seed;
        let hash = self.hash.get_or_insert_with(|| {
            let mut hash = Sha::new();
            hash.update(&seed);
            hash
        });
        hash.update(&[1]);
        hash.update(&x.to_le_bytes());
    }

    fn draw_block(&mut self) -> u128 {
        if let Some(hash) = self.hash.take() {
            self.seed = hash.finish();
            self.cipher.expand(&self.seed);
            self.counter = 0;
        }
        let block = self.cipher.encrypt(self.counter.to_le_bytes());
        self.counter += 1;
        u128::from_le_bytes(block)
    }

    pub fn draw(&mut self) -> u64 {
        (self.draw_block() % P as u128) as u64
    }
}

pub fn replay(times: u32) -> u128 {
    const BITS: usize = 17;
    let messages = gold_values(8 * (4 * BITS as u64 + 2));
    let mut tape = Tape::new();
    let mut out_point = vec![0; BITS];
    let mut layers = vec![(0, vec![0; BITS], vec![0; BITS]); 8];
    let mut total = 0;
    for _ in 0..times {
        out_point.iter_mut().for_each(|x| *x = tape.draw());
        let mut sent = messages.iter();
        let mut next = || *sent.next().unwrap();
        for (alpha, ra, rb) in &mut layers {
            *alpha = tape.draw();
            for j in 0..BITS {
                for r in [&mut ra[j], &mut rb[j]] {
                    tape.elem(next());
                    tape.elem(next());
                    *r = tape.draw();
                }
            }
            tape.elem(next());
            tape.elem(next());
        }
        total ^= tape.draw();
    }
    std::hint::black_box((total, &layers, &out_point));
    tape.draw_block()
}
