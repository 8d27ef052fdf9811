//! The linear constraints of a circuit over 16,384 bits, and all constraints combined.

use crate::compile::{compile, neg, parity_source, Layer, BITS};
use crate::*;
use std::hint::black_box;

// What a layer draws.
struct LayerScript {
    alpha: u64,
    ra: Vec<u64>,
    rb: Vec<u64>,
}

struct Script {
    out_point: Vec<u64>,
    layers: Vec<LayerScript>,
    gamma: u64,
}

// The entries of a constraint in its own range are in one list for all of them.
#[derive(Clone, Copy)]
struct Form {
    start: usize,
    end: usize,
    above: usize,
    first: u64,
    second: u64,
    right: u64,
}

// What three values count for.
#[derive(Clone, Copy)]
struct ThreePoints {
    first: u64,
    second: u64,
    third: u64,
}

impl ThreePoints {
    fn new() -> ThreePoints {
        let two = inverse(2);
        ThreePoints { first: two, second: neg(1), third: two }
    }

    fn shares(self, t: u64) -> ThreePoints {
        let (d1, d2) = (sub(t, 1), sub(t, 2));
        ThreePoints {
            first: mul(mul(d1, d2), self.first),
            second: mul(mul(t, d2), self.second),
            third: mul(mul(t, d1), self.third),
        }
    }
}

// A claim after rounds, but for what their pads add.
#[derive(Clone, Copy)]
struct Claim {
    constant: u64,
    weight: u64,
}

fn round_back(shares: ThreePoints, p0: u64, p2: u64, own: &mut [u64], k: usize, claim: Claim) -> Claim {
    let first = sub(shares.first, shares.second);
    own[k] = mul(claim.weight, first);
    own[k + 1] = mul(claim.weight, shares.third);
    let sent = add(mul(first, p0), mul(shares.third, p2));
    Claim { constant: add(claim.constant, mul(claim.weight, sent)), weight: mul(claim.weight, shares.second) }
}

fn claim_form(points: ThreePoints, layer: &LayerScript, messages: &[u64], own: &mut [u64]) -> Claim {
    let mut claim = Claim { constant: 0, weight: 1 };
    for j in (0..layer.ra.len()).rev() {
        let k = 4 * j;
        claim = round_back(points.shares(layer.rb[j]), messages[k + 2], messages[k + 3], own, k + 2, claim);
        claim = round_back(points.shares(layer.ra[j]), messages[k], messages[k + 1], own, k, claim);
    }
    claim
}

fn bits_of(width: usize) -> usize {
    width.next_power_of_two().trailing_zeros() as usize
}

// A circuit with what is sent and drawn for it, its constraints, and room for tables.
struct Constraints {
    layers: Vec<Layer>,
    public: Vec<u64>,
    script: Script,
    messages: Vec<u64>,
    forms: Vec<Form>,
    own: Vec<u64>,
    first: Vec<u64>,
    second: Vec<u64>,
    weights: Vec<u64>,
}

fn replay(tape: &mut Tape, outputs: usize, bits: &[usize], messages: &[u64]) -> Script {
    let out_point = (0..outputs).map(|_| tape.draw()).collect();
    let mut layers = vec![];
    let mut sent = messages.iter();
    for count in bits {
        let mut layer = LayerScript { alpha: tape.draw(), ra: vec![], rb: vec![] };
        for _ in 0..*count {
            for r in [&mut layer.ra, &mut layer.rb] {
                tape.elem(*sent.next().unwrap());
                tape.elem(*sent.next().unwrap());
                r.push(tape.draw());
            }
        }
        tape.elem(*sent.next().unwrap());
        tape.elem(*sent.next().unwrap());
        layers.push(layer);
    }
    Script { out_point, layers, gamma: tape.draw() }
}

impl Constraints {
    fn new(tape: &mut Tape) -> Constraints {
        let layers = compile(parity_source().as_bytes()).unwrap();
        let mut widths: Vec<usize> = layers.iter().map(|layer| layer.wires as usize).collect();
        widths.push(2 + BITS as usize);
        let bits: Vec<usize> = widths[1..].iter().map(|width| bits_of(*width)).collect();
        let messages = gold_values(bits.iter().map(|k| 4 * *k as u64 + 2).sum());
        let script = replay(tape, bits_of(widths[0]), &bits, &messages);
        let (mut forms, mut start, mut above) = (vec![], BITS as usize, BITS as usize + 4 * bits[0]);
        for k in &bits {
            let end = start + 4 * k + 3;
            forms.push(Form { start, end, above, first: 0, second: 0, right: 0 });
            (start, above) = (end, end - 3);
        }
        forms.push(Form { start: 0, end: BITS as usize, above, first: 0, second: 0, right: 0 });
        let size = 1 << widths.iter().map(|width| bits_of(*width)).max().unwrap();
        let table = || vec![0; size];
        Constraints {
            layers,
            public: gold_values(1),
            script,
            messages,
            forms,
            own: vec![0; start],
            first: table(),
            second: table(),
            weights: table(),
        }
    }

    fn set_tables(&mut self, l: usize) {
        let (a, b) = match l {
            0 => (&self.script.out_point, &self.script.out_point),
            _ => (&self.script.layers[l - 1].ra, &self.script.layers[l - 1].rb),
        };
        eq_table(a, &mut self.first[..1 << a.len()], 1, mul, sub);
        eq_table(b, &mut self.second[..1 << b.len()], 1, mul, sub);
    }

    // The weighted sum of a layer's coefficients at its challenges, with the tables at the layer's points before and at those
    // of the layer below after it.
    fn layer_bound(&mut self, l: usize) -> u64 {
        let alpha = self.script.layers[l].alpha;
        for g in 0..self.layers[l].wires as usize {
            self.weights[g] = add(self.first[g], mul(alpha, self.second[g]));
        }
        self.set_tables(l + 1);
        let (mut total, mut wire, mut inner) = (0, 0, 0);
        for t in &self.layers[l].terms {
            let pair = mul(self.first[t.a as usize], self.second[t.b as usize]);
            if t.g != wire {
                total = add(total, mul(self.weights[wire as usize], inner));
                (wire, inner) = (t.g, 0);
            }
            inner = add(inner, mul(t.coef, pair));
        }
        add(total, mul(self.weights[wire as usize], inner))
    }

    fn set_forms(&mut self) {
        let points = ThreePoints::new();
        let mut sent = 0;
        let mut above = (0, 0);
        self.set_tables(0);
        for l in 0..self.layers.len() {
            let bound = self.layer_bound(l);
            let layer = &self.script.layers[l];
            let form = &mut self.forms[l];
            let own = &mut self.own[form.start..form.end];
            let claim = claim_form(points, layer, &self.messages[sent..], own);
            let k = 4 * layer.ra.len();
            let factors = (self.messages[sent + k], self.messages[sent + k + 1]);
            own[k] = neg(mul(bound, factors.1));
            own[k + 1] = neg(mul(bound, factors.0));
            own[k + 2] = neg(bound);
            form.first = if l == 0 { 0 } else { claim.weight };
            form.second = mul(form.first, layer.alpha);
            let before = add(above.0, mul(layer.alpha, above.1));
            let rounds = add(claim.constant, mul(claim.weight, before));
            form.right = neg(sub(rounds, mul(bound, mul(factors.0, factors.1))));
            above = factors;
            sent += k + 2;
        }
        self.set_last(above);
    }

    fn set_last(&mut self, above: (u64, u64)) {
        let gamma = self.script.gamma;
        let joined = |first: &[u64], second: &[u64], k: usize| add(first[k], mul(gamma, second[k]));
        let at = self.public.len() + 1;
        for k in 0..BITS as usize {
            self.own[k] = joined(&self.first, &self.second, at + k);
        }
        let mut known = joined(&self.first, &self.second, 0);
        for (i, x) in self.public.iter().enumerate() {
            known = add(known, mul(joined(&self.first, &self.second, i + 1), *x));
        }
        let form = self.forms.last_mut().unwrap();
        form.first = neg(1);
        form.second = neg(gamma);
        form.right = neg(sub(sub(known, above.0), mul(gamma, above.1)));
    }

    fn combine(&self, lambda: &[u64], mu: &[u64], width: usize, rows: usize, a: &mut [u64]) -> u64 {
        let mut wanted = 0;
        a.fill(0);
        for (form, by) in self.forms.iter().zip(lambda) {
            for j in form.start..form.end {
                a[j] = add(a[j], mul(*by, self.own[j]));
            }
            a[form.above] = add(a[form.above], mul(*by, form.first));
            a[form.above + 1] = add(a[form.above + 1], mul(*by, form.second));
            wanted = add(wanted, mul(*by, form.right));
        }
        for (m, x) in mu.iter().enumerate() {
            let layer = m / 3;
            let copy = (rows + 3 * (layer / width) + m % 3) * width + layer % width;
            a[copy] = add(a[copy], *x);
            let entry = self.forms[layer].end - 3 + m % 3;
            a[entry] = sub(a[entry], *x);
        }
        wanted
    }
}

/// Linear constraints, the first right side being the next first element that is sent.
pub fn formed(times: u32) -> u128 {
    let mut all = Constraints::new(&mut Tape::new());
    let mut right = 0;
    for _ in 0..times {
        black_box(&mut all).set_forms();
        right = all.forms[0].right;
        all.messages[0] = right;
    }
    right as u128
}

/// Combinations of all constraints, and the sum of all wanted sums.
pub fn combined(times: u32) -> u128 {
    let mut tape = Tape::new();
    let mut all = Constraints::new(&mut tape);
    all.set_forms();
    let (layers, count) = (all.layers.len(), all.own.len());
    let mut width = 64;
    while width * width < count {
        width *= 2;
    }
    let rows = count.div_ceil(width);
    let size = (rows + 3 * layers.div_ceil(width)) * width;
    let mut draws = |n: usize| (0..n).map(|_| tape.draw()).collect::<Vec<u64>>();
    let (_, lambda, mu) = (draws(size / width), draws(layers + 1), draws(3 * layers));
    let mut a = vec![0; size];
    let mut total = 0;
    for _ in 0..times {
        total = add(total, black_box(&all).combine(&lambda, &mu, width, rows, black_box(&mut a)));
    }
    total as u128
}
