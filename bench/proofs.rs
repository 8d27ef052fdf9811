//! Proof files.

use crate::*;

// A proof over Goldilocks.
pub struct Proof {
    pub id: [u8; 32],
    pub root: [u8; 32],
    pub lists: [Vec<u64>; 5],
    pub nonces: Vec<[u8; 32]>,
    pub columns: Vec<u64>,
    pub path: Vec<[u8; 32]>,
}

pub enum Kind {
    Truncated,
    Magic,
    Element,
    PathLimit,
    Trailing,
}

pub struct Fault {
    pub offset: usize,
    pub kind: Kind,
}

pub fn read_elements(out: &mut [u64], bytes: &[u8], at: &mut usize) -> Result<(), Fault> {
    for x in out {
        let Some(field) = bytes.get(*at..*at + 8) else {
            return Err(Fault { offset: *at, kind: Kind::Truncated });
        };
        let n = u64::from_le_bytes(field.try_into().unwrap());
        if n >= P {
            return Err(Fault { offset: *at, kind: Kind::Element });
        }
        *x = n;
        *at += 8;
    }
    Ok(())
}

pub fn read_block(bytes: &[u8], at: &mut usize) -> Result<[u8; 32], Fault> {
    let Some(field) = bytes.get(*at..*at + 32) else {
        return Err(Fault { offset: *at, kind: Kind::Truncated });
    };
    *at += 32;
    Ok(field.try_into().unwrap())
}

pub fn read_word(bytes: &[u8], at: usize) -> Result<[u8; 4], Fault> {
    match bytes.get(at..at + 4) {
        Some(field) => Ok(field.try_into().unwrap()),
        None => Err(Fault { offset: at, kind: Kind::Truncated }),
    }
}

pub fn read_proof(rows: usize, bytes: &[u8], proof: &mut Proof) -> Result<(), Fault> {
    if &read_word(bytes, 0)? != b"LZP1" {
        return Err(Fault { offset: 0, kind: Kind::Magic });
    }
    let mut at = 4;
    proof.id = read_block(bytes, &mut at)?;
    proof.root = read_block(bytes, &mut at)?;
    for list in &mut proof.lists {
        read_elements(list, bytes, &mut at)?;
    }
    for (nonce, column) in proof.nonces.iter_mut().zip(proof.columns.chunks_mut(rows)) {
        *nonce = read_block(bytes, &mut at)?;
        read_elements(column, bytes, &mut at)?;
    }
    let count = u32::from_le_bytes(read_word(bytes, at)?);
    if count > 1536 {
        return Err(Fault { offset: at, kind: Kind::PathLimit });
    }
    at += 4;
    proof.path.clear();
    for _ in 0..count {
        proof.path.push(read_block(bytes, &mut at)?);
    }
    if at < bytes.len() {
        return Err(Fault { offset: at, kind: Kind::Trailing });
    }
    Ok(())
}

pub fn put(out: &mut [u8], at: &mut usize, bytes: &[u8]) {
    out[*at..*at + bytes.len()].copy_from_slice(bytes);
    *at += bytes.len();
}

pub fn write_proof(rows: usize, proof: &Proof, out: &mut [u8]) {
    let at = &mut 0;
    put(out, at, b"LZP1");
    put(out, at, &proof.id);
    put(out, at, &proof.root);
    for list in &proof.lists {
        for x in list {
            put(out, at, &x.to_le_bytes());
        }
    }
    for (nonce, column) in proof.nonces.iter().zip(proof.columns.chunks(rows)) {
        put(out, at, nonce);
        for x in column {
            put(out, at, &x.to_le_bytes());
        }
    }
    put(out, at, &(proof.path.len() as u32).to_le_bytes());
    for digest in &proof.path {
        put(out, at, digest);
    }
}

// The parameters of a circuit of one wire over 65,536 private inputs.
pub const ROWS: usize = 3 + 129 + 3;

pub fn large_proof() -> (Proof, Vec<u8>) {
    let list = |count: usize, seed: u64| {
        let mut word = seed;
        (0..count)
            .map(|_| {
                word = word.wrapping_mul(6364136223846793005).wrapping_add(1442695040888963407);
                word % P
            })
            .collect::<Vec<u64>>()
    };
    let proof = Proof {
        id: [0; 32],
        root: [0; 32],
        lists: [list(70, 1), list(640, 2), list(1279, 3), list(128, 4), list(639, 5)],
        nonces: vec![[0; 32]; 128],
        columns: list(128 * ROWS, 6),
        path: (0..1000).map(|k| [k as u8; 32]).collect(),
    };
    let mut bytes = vec![0; 72 + 8 * (70 + 640 + 1279 + 128 + 639) + 128 * (32 + 8 * ROWS) + 32 * 1000];
    write_proof(ROWS, &proof, &mut bytes);
    (proof, bytes)
}

pub fn proofs_read(times: u32) -> u128 {
    let (mut proof, mut bytes) = large_proof();
    let mut total = 0;
    for k in 0..times {
        bytes[4] = k as u8;
        match read_proof(ROWS, &bytes, &mut proof) {
            Ok(()) => total += 1 + proof.id[0] as u128,
            Err(fault) => println!("{} at {}", fault.kind as u8, fault.offset),
        }
    }
    total + bytes.len() as u128
}

pub fn proofs_written(times: u32) -> u128 {
    let (mut proof, mut bytes) = large_proof();
    let mut total = 0;
    for k in 0..times {
        proof.id[0] = k as u8;
        write_proof(ROWS, &proof, &mut bytes);
        total += 1 + bytes[bytes.len() - 1] as u128;
    }
    total + bytes.len() as u128
}
