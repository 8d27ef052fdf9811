//! AES-256, SHA-256, tapes and trees.

// AES-256 by four tables of columns.
pub fn times_two(x: u8) -> u8 {
    (x << 1) ^ (((x >> 7) & 1) * 0x1b)
}

pub struct Aes {
    pub sbox: [u8; 256],
    pub columns: [[u32; 256]; 4],
    pub words: [u32; 60],
}

impl Aes {
    pub fn new(key: &[u8; 32]) -> Aes {
        let mut sbox = [0u8; 256];
        let (mut p, mut q) = (1u8, 1u8);
        loop {
            p ^= times_two(p);
            q ^= q << 1;
            q ^= q << 2;
            q ^= q << 4;
            if q & 0x80 != 0 {
                q ^= 0x09;
            }
            let x = q ^ q.rotate_left(1) ^ q.rotate_left(2) ^ q.rotate_left(3) ^ q.rotate_left(4);
            sbox[p as usize] = x ^ 0x63;
            if p == 1 {
                break;
            }
        }
        sbox[0] = 0x63;
        let mut columns = [[0u32; 256]; 4];
        for i in 0..256 {
            let s = sbox[i];
            let t = times_two(s);
            let word = u32::from_le_bytes([t, s, s, t ^ s]);
            for (row, column) in columns.iter_mut().enumerate() {
                column[i] = word.rotate_left(8 * row as u32);
            }
        }
        let mut cipher = Aes { sbox, columns, words: [0; 60] };
        cipher.expand(key);
        cipher
    }

    pub fn expand(&mut self, key: &[u8; 32]) {
        let Aes { sbox, words, .. } = self;
        for i in 0..8 {
            words[i] = u32::from_le_bytes(key[4 * i..4 * i + 4].try_into().unwrap());
        }
        for i in 8..60 {
            let t = words[i - 1];
            let sub = |w: u32| u32::from_le_bytes(w.to_le_bytes().map(|b| sbox[b as usize]));
            let mask = match i % 8 {
                0 => sub(t.rotate_right(8)) ^ (1 << (i / 8 - 1)),
                4 => sub(t),
                _ => t,
            };
            words[i] = words[i - 8] ^ mask;
        }
    }

    pub fn encrypt(&self, block: [u8; 16]) -> [u8; 16] {
        let w = &self.words;
        let mut s = [0u32; 4];
        for i in 0..4 {
            s[i] = u32::from_le_bytes(block[4 * i..4 * i + 4].try_into().unwrap()) ^ w[i];
        }
        let byte = |s: &[u32; 4], i: usize, row: usize| (s[(i + row) % 4] >> (8 * row)) as usize & 255;
        for round in 1..14 {
            let mut next = [0u32; 4];
            for i in 0..4 {
                next[i] = self.columns[0][byte(&s, i, 0)]
                    ^ self.columns[1][byte(&s, i, 1)]
                    ^ self.columns[2][byte(&s, i, 2)]
                    ^ self.columns[3][byte(&s, i, 3)]
                    ^ w[4 * round + i];
            }
            s = next;
        }
        let mut out = [0u8; 16];
        for i in 0..4 {
            let word = [0, 1, 2, 3].map(|row| self.sbox[byte(&s, i, row)]);
            out[4 * i..4 * i + 4].copy_from_slice(&(u32::from_le_bytes(word) ^ w[56 + i]).to_le_bytes());
        }
        out
    }
}

pub fn aes(times: u32) -> u128 {
    let cipher = Aes::new(&[7; 32]);
    let mut block = [1u8; 16];
    for _ in 0..times {
        block = cipher.encrypt(block);
    }
    u128::from_le_bytes(block)
}

pub fn draw(times: u32) -> u128 {
    let cipher = Aes::new(&[0; 32]);
    let mut total = 0;
    for counter in 0..times as u128 {
        total ^= u128::from_le_bytes(cipher.encrypt(counter.to_le_bytes()));
    }
    total
}

// SHA-256.
pub const ROUNDS: [u32; 64] = [
    0x428a2f98, 0x71374491, 0xb5c0fbcf, 0xe9b5dba5, 0x3956c25b, 0x59f111f1, 0x923f82a4, 0xab1c5ed5, 0xd807aa98, 0x12835b01,
    0x243185be, 0x550c7dc3, 0x72be5d74, 0x80deb1fe, 0x9bdc06a7, 0xc19bf174, 0xe49b69c1, 0xefbe4786, 0x0fc19dc6, 0x240ca1cc,
    0x2de92c6f, 0x4a7484aa, 0x5cb0a9dc, 0x76f988da, 0x983e5152, 0xa831c66d, 0xb00327c8, 0xbf597fc7, 0xc6e00bf3, 0xd5a79147,
    0x06ca6351, 0x14292967, 0x27b70a85, 0x2e1b2138, 0x4d2c6dfc, 0x53380d13, 0x650a7354, 0x766a0abb, 0x81c2c92e, 0x92722c85,
    0xa2bfe8a1, 0xa81a664b, 0xc24b8b70, 0xc76c51a3, 0xd192e819, 0xd6990624, 0xf40e3585, 0x106aa070, 0x19a4c116, 0x1e376c08,
    0x2748774c, 0x34b0bcb5, 0x391c0cb3, 0x4ed8aa4a, 0x5b9cca4f, 0x682e6ff3, 0x748f82ee, 0x78a5636f, 0x84c87814, 0x8cc70208,
    0x90befffa, 0xa4506ceb, 0xbef9a3f7, 0xc67178f2,
];

pub fn compress(state: &mut [u32; 8], block: &[u8]) {
    let mut w = [0u32; 64];
    for i in 0..16 {
        w[i] = u32::from_be_bytes(block[4 * i..4 * i + 4].try_into().unwrap());
    }
    for i in 16..64 {
        let (x, y) = (w[i - 15], w[i - 2]);
        let s0 = x.rotate_right(7) ^ x.rotate_right(18) ^ (x >> 3);
        let s1 = y.rotate_right(17) ^ y.rotate_right(19) ^ (y >> 10);
        w[i] = w[i - 16].wrapping_add(s0).wrapping_add(w[i - 7]).wrapping_add(s1);
    }
    let [mut a, mut b, mut c, mut d, mut e, mut f, mut g, mut h] = *state;
    for i in 0..64 {
        let s1 = e.rotate_right(6) ^ e.rotate_right(11) ^ e.rotate_right(25);
        let t1 = h
            .wrapping_add(s1)
            .wrapping_add((e & f) ^ (!e & g))
            .wrapping_add(ROUNDS[i])
            .wrapping_add(w[i]);
        let s0 = a.rotate_right(2) ^ a.rotate_right(13) ^ a.rotate_right(22);
        let t2 = s0.wrapping_add((a & b) ^ (a & c) ^ (b & c));
        (h, g, f, e, d, c, b, a) = (g, f, e, d.wrapping_add(t1), c, b, a, t1.wrapping_add(t2));
    }
    for (s, x) in state.iter_mut().zip([a, b, c, d, e, f, g, h]) {
        *s = s.wrapping_add(x);
    }
}

pub struct Sha {
    pub state: [u32; 8],
    pub block: [u8; 64],
    pub have: usize,
    pub length: u64,
}

impl Sha {
    pub fn new() -> Sha {
        let state = [
            0x6a09e667, 0xbb67ae85, 0x3c6ef372, 0xa54ff53a, 0x510e527f, 0x9b05688c, 0x1f83d9ab, 0x5be0cd19,
        ];
        Sha { state, block: [0; 64], have: 0, length: 0 }
    }

    pub fn update(&mut self, mut bytes: &[u8]) {
        self.length += bytes.len() as u64;
        if self.have > 0 {
            let n = bytes.len().min(64 - self.have);
            self.block[self.have..self.have + n].copy_from_slice(&bytes[..n]);
            self.have += n;
            bytes = &bytes[n..];
            if self.have < 64 {
                return;
            }
            compress(&mut self.state, &self.block);
        }
        let mut blocks = bytes.chunks_exact(64);
        for block in &mut blocks {
            compress(&mut self.state, block);
        }
        let rest = blocks.remainder();
        self.block[..rest.len()].copy_from_slice(rest);
        self.have = rest.len();
    }

    pub fn finish(mut self) -> [u8; 32] {
        let bits = self.length * 8;
        self.update(&[0x80]);
        while self.have != 56 {
            self.update(&[0]);
        }
        self.update(&bits.to_be_bytes());
        let mut out = [0; 32];
        for (i, word) in self.state.iter().enumerate() {
            out[4 * i..4 * i + 4].copy_from_slice(&word.to_be_bytes());
        }
        out
    }
}

pub fn absorb(times: u32) -> u128 {
    let bytes = [9u8; 65536];
    let mut sha = Sha::new();
    sha.update(&[0; 32]);
    for _ in 0..times {
        sha.update(&[0]);
        sha.update(&65536u64.to_le_bytes());
        sha.update(&bytes);
    }
    let cipher = Aes::new(&sha.finish());
    u128::from_le_bytes(cipher.encrypt([0; 16]))
}

// Leaves of columns with so many elements, and a tree of 65,536 leaves.
pub fn leaves(times: u32, count: usize) -> u128 {
    let column: Vec<u64> = (0..count as u64).collect();
    let mut nonce = [3u8; 32];
    for _ in 0..times {
        let mut sha = Sha::new();
        sha.update(&nonce);
        for x in &column {
            sha.update(&x.to_le_bytes());
        }
        nonce = sha.finish();
    }
    u128::from_le_bytes(nonce[..16].try_into().unwrap())
}

pub fn trees(times: u32) -> u128 {
    let n = 65536;
    let mut nodes = vec![[5u8; 32]; 2 * n];
    for _ in 0..times {
        for i in (1..n).rev() {
            let mut sha = Sha::new();
            sha.update(&nodes[2 * i]);
            sha.update(&nodes[2 * i + 1]);
            nodes[i] = sha.finish();
        }
        nodes[n] = nodes[1];
    }
    u128::from_le_bytes(nodes[1][..16].try_into().unwrap())
}
