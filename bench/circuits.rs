//! Circuits evaluated, read and written.

use crate::*;

#[derive(Clone, Copy)]
pub struct Term {
    pub g: u32,
    pub a: u32,
    pub b: u32,
    pub coef: u64,
}

pub const WIDTH: usize = 131_072;
pub const INPUTS: usize = 65_535;

pub fn next(seed: u64) -> u64 {
    seed.wrapping_mul(6364136223846793005).wrapping_add(1442695040888963407)
}

pub fn circuit(depth: u64) -> Vec<Vec<Term>> {
    let mut layers = vec![];
    for number in 0..depth {
        let mut seed = number;
        let mut terms = vec![];
        for g in 0..WIDTH as u32 {
            seed = next(seed);
            let a = ((seed >> 33) % 131_071) as u32;
            seed = next(seed);
            let b = ((seed >> 33) % 131_071) as u32;
            seed = next(seed);
            terms.push(Term { g, a: a.min(b), b: a.max(b), coef: (seed >> 56) + 1 });
        }
        layers.push(terms);
    }
    layers
}

pub fn eval(times: u32) -> u128 {
    let layers = circuit(8);
    let mut values: Vec<Vec<u64>> = (0..8).map(|_| vec![0; WIDTH]).collect();
    values.push(vec![0; 1 + 2 * INPUTS]);
    for _ in 0..times {
        let inputs = &mut values[8];
        inputs[0] = 1;
        inputs[1..=INPUTS].fill(3);
        inputs[1 + INPUTS..].fill(5);
        for l in (0..8).rev() {
            let (upper, lower) = values.split_at_mut(l + 1);
            let (out, below) = (&mut upper[l], &lower[0]);
            out.fill(0);
            for t in &layers[l] {
                let product = mul(mul(t.coef, below[t.a as usize]), below[t.b as usize]);
                out[t.g as usize] = add(out[t.g as usize], product);
            }
        }
    }
    values[0].iter().find(|v| **v != 0).copied().unwrap_or(0) as u128
}

pub fn varint(out: &mut Vec<u8>, mut n: u32) {
    if n < 128 {
        return out.push(n as u8);
    }
    if n < 1 << 14 {
        return out.extend_from_slice(&[128 | n as u8, (n >> 7) as u8]);
    }
    if n < 1 << 21 {
        return out.extend_from_slice(&[128 | n as u8, 128 | (n >> 7) as u8, (n >> 14) as u8]);
    }
    while n >= 128 {
        out.push(128 + (n % 128) as u8);
        n /= 128;
    }
    out.push(n as u8);
}

fn spread_out(n: u64) -> u64 {
    n.wrapping_mul(0x9E37_79B9_7F4A_7C15)
}

// The coefficients, each once, ascending. Those that were met a while ago are not put down again.
fn constants_of(layers: &[Vec<Term>]) -> Vec<u64> {
    let (mut met, mut constants) = ([None; 512], vec![]);
    for t in layers.iter().flatten() {
        let slot = &mut met[(spread_out(t.coef) >> 55) as usize];
        if *slot != Some(t.coef) {
            *slot = Some(t.coef);
            constants.push(t.coef);
        }
    }
    constants.sort_unstable();
    constants.dedup();
    constants
}

// The places of constants, each at a slot of its number.
struct Places<'a> {
    constants: &'a [u64],
    slots: Vec<u32>,
}

impl Places<'_> {
    fn of(constants: &[u64]) -> Places<'_> {
        let mut places = Places { constants, slots: vec![0; 2 * constants.len()] };
        for (k, n) in constants.iter().enumerate() {
            let slot = places.slot(*n);
            places.slots[slot] = k as u32;
        }
        places
    }

    fn slot(&self, n: u64) -> usize {
        (spread_out(n) as u128 * self.slots.len() as u128 >> 64) as usize
    }

    fn place(&self, n: u64) -> u32 {
        let place = self.slots[self.slot(n)];
        if self.constants[place as usize] == n { place } else { self.constants.binary_search(&n).unwrap() as u32 }
    }
}

pub fn file(layers: &[Vec<Term>]) -> Vec<u8> {
    let constants = constants_of(layers);
    let mut out = b"LZC1\x01".to_vec();
    for n in [INPUTS as u32, INPUTS as u32, layers.len() as u32, constants.len() as u32] {
        out.extend(n.to_le_bytes());
    }
    for c in &constants {
        out.extend(c.to_le_bytes());
    }
    let places = Places::of(&constants);
    for terms in layers.iter().rev() {
        out.extend((WIDTH as u32).to_le_bytes());
        out.extend((terms.len() as u32).to_le_bytes());
        let mut last = 0;
        for t in terms {
            out.reserve(20);
            varint(&mut out, t.g - last);
            varint(&mut out, t.a);
            varint(&mut out, t.b - t.a);
            varint(&mut out, places.place(t.coef));
            last = t.g;
        }
    }
    out
}

pub struct Reader<'a> {
    pub bytes: &'a [u8],
    pub at: usize,
}

impl Reader<'_> {
    pub fn word(&mut self) -> Option<u32> {
        let bytes = self.bytes.get(self.at..self.at + 4)?;
        self.at += 4;
        Some(u32::from_le_bytes(bytes.try_into().ok()?))
    }

    pub fn varint(&mut self) -> Option<u32> {
        let mut n = 0u64;
        for i in 0..5 {
            let b = *self.bytes.get(self.at)?;
            self.at += 1;
            n |= ((b & 127) as u64) << (7 * i);
            if b < 128 {
                return if (i > 0 && b == 0) || n >> 32 != 0 { None } else { Some(n as u32) };
            }
        }
        None
    }
}

pub fn decode(bytes: &[u8]) -> Option<Vec<Vec<Term>>> {
    if bytes.get(..5)? != b"LZC1\x01" {
        return None;
    }
    let mut r = Reader { bytes, at: 5 };
    let (publics, privates, depth, count) = (r.word()?, r.word()?, r.word()?, r.word()?);
    let mut constants = vec![];
    let mut before = 0;
    for _ in 0..count {
        let c = u64::from_le_bytes(r.bytes.get(r.at..r.at + 8)?.try_into().ok()?);
        r.at += 8;
        if c <= before || c >= P {
            return None;
        }
        before = c;
        constants.push(c);
    }
    let mut used = vec![false; constants.len()];
    let mut below = 1 + publics + privates;
    let mut layers = vec![];
    for _ in 0..depth {
        let (wires, count) = (r.word()?, r.word()?);
        let mut terms: Vec<Term> = vec![];
        for _ in 0..count {
            let last = terms.last().copied();
            let g = last.map_or(0, |t| t.g).checked_add(r.varint()?)?;
            let a = r.varint()?;
            let b = a.checked_add(r.varint()?)?;
            let k = r.varint()? as usize;
            let behind = last.map_or(true, |t| (t.g, t.a, t.b) < (g, a, b));
            if g >= wires || b >= below || !behind || k >= constants.len() {
                return None;
            }
            used[k] = true;
            terms.push(Term { g, a, b, coef: constants[k] });
        }
        layers.push(terms);
        below = wires;
    }
    if !used.iter().all(|u| *u) || r.at != bytes.len() {
        return None;
    }
    layers.reverse();
    Some(layers)
}

pub fn decoded(times: u32) -> u128 {
    let file = file(&circuit(16));
    let mut good = 0;
    for _ in 0..times {
        good ^= decode(std::hint::black_box(&file)).is_some() as u128;
    }
    file.len() as u128 * 2 ^ good
}

pub fn encoded(times: u32) -> u128 {
    let layers = circuit(16);
    let mut total = 0;
    for _ in 0..times {
        total ^= file(std::hint::black_box(&layers)).len() as u128;
    }
    total
}
