//! What a prover sends in the sumchecks of a circuit over 16,384 bits.

use crate::compile::{compile, parity_source, Layer, BITS};
use crate::*;
use std::hint::black_box;

// A coefficient of a pair of numbers of wires. The next variable is bit 0 of `a`.
#[derive(Clone, Copy)]
struct Pair {
    a: u32,
    b: u32,
    coef: u64,
}

// The sum of two tables' products, that of the even places, and that of the steps from an even place to the next.
struct RoundSums {
    all: u64,
    even: u64,
    lead: u64,
}

impl RoundSums {
    fn new(rows: &[u64], table: &[u64]) -> RoundSums {
        let mut sums = RoundSums { all: dot(rows, table), even: 0, lead: 0 };
        for i in 0..table.len() / 2 {
            let (row, value) = (rows[2 * i], table[2 * i]);
            sums.even = add(sums.even, mul(row, value));
            sums.lead = add(sums.lead, mul(sub(rows[2 * i + 1], row), sub(table[2 * i + 1], value)));
        }
        if let (1, Some(row), Some(value)) = (table.len() % 2, rows.last(), table.last()) {
            let last = mul(*row, *value);
            sums.even = add(sums.even, last);
            sums.lead = add(sums.lead, last);
        }
        sums
    }

    fn at(&self, t: u64) -> u64 {
        let slope = sub(sub(sub(self.all, self.even), self.even), self.lead);
        add(self.even, mul(t, add(slope, mul(t, self.lead))))
    }
}

fn spaced(number: u32) -> u64 {
    let mut x = number as u64;
    for (shift, mask) in [
        (16, 0x0000_ffff_0000_ffff),
        (8, 0x00ff_00ff_00ff_00ff),
        (4, 0x0f0f_0f0f_0f0f_0f0f),
        (2, 0x3333_3333_3333_3333),
        (1, 0x5555_5555_5555_5555),
    ] {
        x = (x | (x << shift)) & mask;
    }
    x
}

fn absorb(pairs: &mut [Pair], kept: usize, pair: Pair) -> usize {
    if kept > 0 && pairs[kept - 1].a == pair.a && pairs[kept - 1].b == pair.b {
        pairs[kept - 1].coef = add(pairs[kept - 1].coef, pair.coef);
        return kept;
    }
    pairs[kept] = pair;
    kept + 1
}

fn bind_pairs(pairs: &mut [Pair], x: u64) -> usize {
    let rest = sub(1, x);
    let mut kept = 0;
    for i in 0..pairs.len() {
        let pair = pairs[i];
        let part = if pair.a % 2 == 0 { rest } else { x };
        kept = absorb(pairs, kept, Pair { a: pair.b, b: pair.a / 2, coef: mul(pair.coef, part) });
    }
    kept
}

fn bind_table(table: &mut [u64], x: u64) -> usize {
    let half = table.len() / 2;
    for i in 0..half {
        let (low, high) = (table[2 * i], table[2 * i + 1]);
        table[i] = add(low, mul(x, sub(high, low)));
    }
    if table.len() % 2 == 1 {
        table[half] = mul(table[2 * half], sub(1, x));
    }
    half + table.len() % 2
}

fn bits_of(width: usize) -> usize {
    width.next_power_of_two().trailing_zeros() as usize
}

// A circuit with its values, the orders of its terms, and room for its rounds.
struct Prover {
    layers: Vec<Layer>,
    orders: Vec<Vec<(u64, usize)>>,
    values: Vec<Vec<u64>>,
    pads: Vec<u64>,
    messages: Vec<u64>,
    pairs: Vec<Pair>,
    linear: Vec<u64>,
    first: Vec<u64>,
    second: Vec<u64>,
    rows: Vec<u64>,
    weights: Vec<u64>,
}

impl Prover {
    fn new() -> Prover {
        let layers = compile(parity_source().as_bytes()).unwrap();
        let mut values = vec![vec![1]];
        values[0].extend(gold_values(1));
        values[0].extend(gold_values(BITS as u64));
        for layer in layers.iter().rev() {
            let below = values.last().unwrap();
            let mut wires = vec![0; layer.wires as usize];
            for t in &layer.terms {
                let product = mul(below[t.a as usize], below[t.b as usize]);
                wires[t.g as usize] = add(wires[t.g as usize], mul(t.coef, product));
            }
            values.push(wires);
        }
        values.reverse();
        let key = |t: &Term| if t.a == 0 { 0 } else { spaced(t.a) | (spaced(t.b) << 1) };
        let orders = layers
            .iter()
            .map(|layer| {
                let mut order: Vec<_> = layer.terms.iter().enumerate().map(|(i, t)| (key(t), i)).collect();
                order.sort_unstable();
                order
            })
            .collect();
        let count = values[1..].iter().map(|list| 4 * bits_of(list.len()) as u64 + 2).sum();
        let size = 1 << values.iter().map(|list| bits_of(list.len())).max().unwrap();
        let terms = layers.iter().map(|layer| layer.terms.len()).max().unwrap();
        Prover {
            layers,
            orders,
            values,
            pads: gold_values(count),
            messages: vec![0; count as usize],
            pairs: vec![Pair { a: 0, b: 0, coef: 0 }; terms],
            linear: vec![0; size],
            first: vec![0; size],
            second: vec![0; size],
            rows: vec![0; size],
            weights: vec![0; size],
        }
    }

    // Sets the weights, the coefficients and the tables of a layer; gives how many pairs there are.
    fn set_layer(&mut self, l: usize, alpha: u64) -> usize {
        for g in 0..self.layers[l].wires as usize {
            self.weights[g] = add(self.first[g], mul(alpha, self.second[g]));
        }
        let values = &self.values[l + 1];
        self.linear[..values.len()].fill(0);
        let mut kept = 0;
        for (_, k) in &self.orders[l] {
            let t = &self.layers[l].terms[*k];
            let coef = mul(self.weights[t.g as usize], t.coef);
            if t.a == 0 {
                self.linear[t.b as usize] = add(self.linear[t.b as usize], coef);
            } else {
                kept = absorb(&mut self.pairs, kept, Pair { a: t.a, b: t.b, coef });
            }
        }
        self.first[..values.len()].copy_from_slice(values);
        self.second[..values.len()].copy_from_slice(values);
        kept
    }

    // The rounds and factors of a layer, whose elements stand from place `at` on.
    fn send_layer(&mut self, tape: &mut Tape, l: usize, mut kept: usize, at: usize) -> (Vec<u64>, Vec<u64>) {
        let mut sizes = (self.values[l + 1].len(), self.values[l + 1].len());
        let (bits, mut left, mut scale) = (bits_of(sizes.0), sizes.0, 1);
        let (mut these, mut others) = (&mut self.first, &mut self.second);
        let mut points = (vec![], vec![]);
        for n in 0..2 * bits {
            let (rows, linear, second) = (&mut self.rows[..sizes.0], &self.linear[..left], &others[..sizes.1]);
            if n % 2 == 0 {
                rows.fill(0);
                rows[0] = mul(scale, dot(linear, second));
            } else {
                let factor = mul(scale, second[0]);
                rows.iter_mut().zip(linear).for_each(|(row, x)| *row = mul(factor, *x));
            }
            for pair in &self.pairs[..kept] {
                let row = &mut rows[pair.a as usize];
                *row = add(*row, mul(pair.coef, second[pair.b as usize]));
            }
            let sums = RoundSums::new(rows, &these[..sizes.0]);
            let k = at + 2 * n;
            self.messages[k] = sub(sums.at(0), self.pads[k]);
            self.messages[k + 1] = sub(sums.at(2), self.pads[k + 1]);
            tape.elem(self.messages[k]);
            tape.elem(self.messages[k + 1]);
            let x = tape.draw();
            if n % 2 == 0 {
                points.0.push(x);
                scale = mul(scale, sub(1, x));
            } else {
                points.1.push(x);
                left = bind_table(&mut self.linear[..left], x);
            }
            sizes = (sizes.1, bind_table(&mut these[..sizes.0], x));
            kept = bind_pairs(&mut self.pairs[..kept], x);
            std::mem::swap(&mut these, &mut others);
        }
        let k = at + 4 * bits;
        self.messages[k] = sub(these[0], self.pads[k]);
        self.messages[k + 1] = sub(others[0], self.pads[k + 1]);
        tape.elem(self.messages[k]);
        tape.elem(self.messages[k + 1]);
        points
    }

    fn send(&mut self, tape: &mut Tape) {
        let point: Vec<u64> = (0..bits_of(self.layers[0].wires as usize)).map(|_| tape.draw()).collect();
        let mut points = (point.clone(), point);
        let mut at = 0;
        for l in 0..self.layers.len() {
            eq_table(&points.0, &mut self.first[..1 << points.0.len()], 1, mul, sub);
            eq_table(&points.1, &mut self.second[..1 << points.1.len()], 1, mul, sub);
            let alpha = tape.draw();
            let kept = self.set_layer(l, alpha);
            points = self.send_layer(tape, l, kept, at);
            at += 4 * points.0.len() + 2;
        }
        black_box(tape.draw());
    }
}

/// Messages, the first pad of each being the first element that was sent before.
pub fn sent(times: u32) -> u128 {
    let (mut tape, mut all) = (Tape::new(), Prover::new());
    for _ in 0..times {
        black_box(&mut all).send(&mut tape);
        all.pads[0] = all.messages[0];
    }
    if times == 0 { 0 } else { *all.messages.last().unwrap() as u128 }
}
