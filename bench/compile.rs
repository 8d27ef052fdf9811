//! Circuits of sources: their nodes, layers in which a node has a wire as long as something uses it, and the reduced form.

use crate::{add, mul, parse_source, Expr, Statement, Term, P};
use std::{collections::HashMap, hint::black_box};

pub const BITS: u32 = 16_384;
const MOST_LAYERS: u32 = 512;
const MOST_WIRES: usize = 131_072;
const MOST_TERMS: u64 = 2_097_152;

#[derive(Clone)]
pub struct Layer {
    pub wires: u32,
    pub terms: Vec<Term>,
}

enum Gate {
    Constant(u64),
    Combine(Vec<(u64, u32)>),
    Mul(u32, u32),
}

// What an expression comes to: a number that no input changes, or a node.
#[derive(Clone, Copy)]
enum Operand {
    Constant(u64),
    AtNode(u32),
}

pub fn neg(x: u64) -> u64 {
    if x == 0 { 0 } else { P - x }
}

fn signed(minus: bool, x: u64) -> u64 {
    if minus { neg(x) } else { x }
}

// Nodes by their numbers: the one, the public and the private inputs, and then one of each gate.
struct Builder {
    publics: u32,
    inputs: u32,
    gates: Vec<Gate>,
    lets: Vec<Operand>,
    outputs: Vec<u32>,
}

impl Builder {
    fn new(statements: &[Statement]) -> Builder {
        let count = |is: fn(&&Statement) -> bool| statements.iter().filter(is).count() as u32;
        let publics = count(|s| matches!(s, Statement::Public(_)));
        let privates = count(|s| matches!(s, Statement::Private(_)));
        Builder { publics, inputs: publics + privates, gates: vec![], lets: vec![], outputs: vec![] }
    }

    fn push(&mut self, gate: Gate) -> u32 {
        self.gates.push(gate);
        self.inputs + self.gates.len() as u32
    }

    // The value of an expression in which no input occurs.
    fn constant(&self, expr: &Expr) -> Option<u64> {
        match expr {
            Expr::Number(n) => Some(*n as u64),
            Expr::Public(_) | Expr::Private(_) => None,
            Expr::Named(i) => match self.lets[*i as usize] {
                Operand::Constant(c) => Some(c),
                Operand::AtNode(_) => None,
            },
            Expr::Neg(inner) => self.constant(inner).map(neg),
            Expr::Sum(parts) => parts
                .iter()
                .try_fold(0, |total, (minus, part)| Some(add(total, signed(*minus, self.constant(part)?)))),
            Expr::Product(factors) => {
                factors.iter().try_fold(1, |total, factor| Some(mul(total, self.constant(factor)?)))
            }
        }
    }

    fn node(&mut self, expr: &Expr) -> u32 {
        match self.operand(expr) {
            Operand::Constant(c) => self.push(Gate::Constant(c)),
            Operand::AtNode(node) => node,
        }
    }

    fn operand(&mut self, expr: &Expr) -> Operand {
        if let Some(c) = self.constant(expr) {
            return Operand::Constant(c);
        }
        Operand::AtNode(match expr {
            Expr::Number(n) => return Operand::Constant(*n as u64),
            Expr::Named(i) => return self.lets[*i as usize],
            Expr::Public(i) => 1 + i,
            Expr::Private(i) => 1 + self.publics + i,
            Expr::Neg(inner) => {
                let node = self.node(inner);
                self.push(Gate::Combine(vec![(neg(1), node)]))
            }
            Expr::Sum(parts) => {
                let parts = parts.iter().map(|(minus, part)| (signed(*minus, 1), self.node(part))).collect();
                self.push(Gate::Combine(parts))
            }
            Expr::Product(factors) => self.product(factors),
        })
    }

    // The product of the factors that are no constants, times the product of the constants.
    fn product(&mut self, factors: &[Expr]) -> u32 {
        let (mut scale, mut product) = (None, None);
        for factor in factors {
            match self.operand(factor) {
                Operand::Constant(c) => scale = Some(mul(scale.unwrap_or(1), c)),
                Operand::AtNode(node) => {
                    product = Some(product.map_or(node, |before| self.push(Gate::Mul(before, node))));
                }
            }
        }
        let product = product.expect("a factor with an input");
        scale.map_or(product, |scale| self.push(Gate::Combine(vec![(scale, product)])))
    }

    fn take(&mut self, statement: &Statement) {
        match statement {
            Statement::Public(_) | Statement::Private(_) => {}
            Statement::Let(_, expr) => {
                let operand = self.operand(expr);
                self.lets.push(operand);
            }
            Statement::Assert(left, right) => {
                let parts = vec![(1, self.node(left)), (neg(1), self.node(right))];
                let output = self.push(Gate::Combine(parts));
                self.outputs.push(output);
            }
        }
    }

    fn depths(&self) -> Vec<u32> {
        let mut depths = vec![0; 1 + self.inputs as usize];
        for gate in &self.gates {
            depths.push(match gate {
                Gate::Constant(_) => 1,
                Gate::Combine(parts) => parts.iter().fold(1, |depth, (_, node)| depth.max(depths[*node as usize])),
                Gate::Mul(x, y) => 1 + depths[*x as usize].max(depths[*y as usize]),
            });
        }
        depths
    }

    // How many terms each node has at most, in the layer of its depth.
    fn weights(&self) -> Vec<u64> {
        let mut weights = vec![1; 1 + self.inputs as usize];
        weights[0] = 0;
        for gate in &self.gates {
            weights.push(match gate {
                Gate::Constant(_) | Gate::Mul(_, _) => 1,
                Gate::Combine(parts) => sum(parts.iter().map(|(_, node)| weights[*node as usize])),
            });
        }
        weights
    }

    // How many layers the outputs need. None where a limit is passed.
    fn layers_needed(&self, depths: &[u32]) -> Option<u32> {
        let weights = self.weights();
        let layers = self.outputs.iter().fold(1, |layers, node| layers.max(depths[*node as usize]));
        let outputs = self.outputs.iter().map(|node| weights[*node as usize]);
        let copies = layers as u64 * depths.len() as u64;
        let terms = sum(weights.iter().copied().chain(outputs)).saturating_add(copies);
        (layers <= MOST_LAYERS && depths.len() <= MOST_WIRES && terms <= MOST_TERMS).then_some(layers)
    }
}

fn sum(weights: impl Iterator<Item = u64>) -> u64 {
    weights.fold(0, u64::saturating_add)
}

fn term(g: u32, coef: u64, a: u32, b: u32) -> Term {
    Term { g, a: a.min(b), b: a.max(b), coef }
}

// Puts a wire's terms in order, each place once and none with the coefficient 0.
fn settle(row: &mut Vec<Term>) {
    row.sort_unstable_by_key(|t| (t.a, t.b));
    row.dedup_by(|later, first| {
        let same = (later.a, later.b) == (first.a, first.b);
        if same {
            first.coef = add(first.coef, later.coef);
        }
        same
    });
    row.retain(|t| t.coef != 0);
}

// The terms of all nodes in a level, where those of node k end at ends[k].
struct Rows {
    terms: Vec<Term>,
    ends: Vec<usize>,
}

impl Rows {
    fn row(&self, node: u32) -> &[Term] {
        let node = node as usize;
        let start = if node == 0 { 0 } else { self.ends[node - 1] };
        &self.terms[start..self.ends[node]]
    }

    fn push_gate(&mut self, g: u32, gate: &Gate, below: &[u32], sum: &mut Vec<Term>) {
        match gate {
            Gate::Constant(0) => {}
            Gate::Constant(c) => self.terms.push(term(g, *c, 0, 0)),
            Gate::Mul(x, y) => self.terms.push(term(g, 1, below[*x as usize], below[*y as usize])),
            Gate::Combine(parts) => {
                sum.clear();
                for (factor, node) in parts {
                    sum.extend(self.row(*node).iter().map(|t| Term { g, coef: mul(*factor, t.coef), ..*t }));
                }
                settle(sum);
                self.terms.extend_from_slice(sum);
            }
        }
    }
}

// Each one's number among the marked ones, and how many those are.
fn numbered(marks: impl Iterator<Item = bool>) -> (Vec<u32>, u32) {
    let mut next = 0;
    let mut numbers = Vec::with_capacity(marks.size_hint().0);
    for mark in marks {
        numbers.push(next);
        next += mark as u32;
    }
    (numbers, next)
}

// Which nodes the outputs use, and up to where: in the levels before `until` a node that is no deeper has a wire.
struct Uses {
    used: Vec<bool>,
    until: Vec<u32>,
}

impl Uses {
    fn of(builder: &Builder, depths: &[u32], count: u32) -> Uses {
        let first_gate = depths.len() - builder.gates.len();
        let mut uses = Uses { used: vec![false; depths.len()], until: vec![0; depths.len()] };
        uses.until[0] = count;
        for node in &builder.outputs {
            uses.need(*node, depths, count);
        }
        for (i, gate) in builder.gates.iter().enumerate().rev() {
            let k = first_gate + i;
            if uses.used[k] {
                match gate {
                    Gate::Constant(_) => {}
                    Gate::Mul(x, y) => [x, y].iter().for_each(|node| uses.need(**node, depths, depths[k])),
                    Gate::Combine(parts) => parts.iter().for_each(|(_, node)| uses.need(*node, depths, depths[k])),
                }
            }
        }
        uses
    }

    // A row of this level names the node, or takes in the node's own row.
    fn need(&mut self, node: u32, depths: &[u32], level: u32) {
        let node = node as usize;
        self.used[node] = true;
        if depths[node] < level {
            self.until[node] = self.until[node].max(level);
        }
    }
}

// The rows of the nodes of a level and of those that a row there takes in, and where each node's is.
fn level_rows(builder: &Builder, depths: &[u32], uses: &Uses, level: u32, below: &[u32]) -> Rows {
    let first_gate = depths.len() - builder.gates.len();
    let mut rows = Rows { terms: vec![], ends: Vec::with_capacity(depths.len()) };
    let mut sum = vec![];
    for (k, depth) in depths.iter().enumerate() {
        if *depth < level && level <= uses.until[k] {
            rows.terms.push(term(0, 1, 0, below[k]));
        } else if *depth == level && uses.used[k] {
            rows.push_gate(0, &builder.gates[k - first_gate], below, &mut sum);
        }
        rows.ends.push(rows.terms.len());
    }
    rows
}

// The layer of these nodes.
fn layer_of(rows: &Rows, nodes: impl Iterator<Item = u32>) -> Layer {
    let (mut terms, mut wires) = (vec![], 0);
    for node in nodes {
        terms.extend(rows.row(node).iter().map(|t| Term { g: wires, ..*t }));
        wires += 1;
    }
    Layer { wires, terms }
}

// The layers of the outputs, from the outputs down.
fn plain_form(builder: &Builder, depths: &[u32], count: u32) -> Vec<Layer> {
    let uses = Uses::of(builder, depths, count);
    let stands = |k: usize, level: u32| depths[k] <= level && (level < uses.until[k] || k == 0 || level == 0);
    let places_in = |level| numbered((0..depths.len()).map(|k| stands(k, level)));
    let mut layers = vec![];
    let (mut below, _) = places_in(0);
    for level in 1..=count {
        let rows = level_rows(builder, depths, &uses, level, &below);
        layers.push(if level < count {
            layer_of(&rows, (0..depths.len() as u32).filter(|k| stands(*k as usize, level)))
        } else {
            layer_of(&rows, builder.outputs.iter().copied())
        });
        (below, _) = places_in(level);
    }
    layers.reverse();
    layers
}

// Which wires below the terms of marked wires name, wire 0 among them.
fn marks_below(terms: &[Term], marks: &[bool], wires: u32) -> Vec<bool> {
    let mut below = vec![false; wires as usize];
    below[0] = true;
    for t in terms.iter().filter(|t| marks[t.g as usize]) {
        below[t.a as usize] = true;
        below[t.b as usize] = true;
    }
    below
}

// Keeps the marked wires of a layer, over the marked ones below.
fn keep(layer: &mut Layer, marks: &[bool], below: &[bool]) {
    let (places, wires) = numbered(marks.iter().copied());
    let (places_below, _) = numbered(below.iter().copied());
    layer.wires = wires;
    layer.terms.retain(|t| marks[t.g as usize]);
    for t in &mut layer.terms {
        t.g = places[t.g as usize];
        t.a = places_below[t.a as usize];
        t.b = places_below[t.b as usize];
    }
}

// Takes out the wires of inner layers, other than wire 0, that nothing above uses.
fn prune(inputs: u32, layers: &mut [Layer]) {
    let mut marks = vec![true; layers[0].wires as usize];
    for l in 0..layers.len() {
        let below = match layers.get(l + 1) {
            Some(next) => marks_below(&layers[l].terms, &marks, next.wires),
            None => vec![true; inputs as usize],
        };
        keep(&mut layers[l], &marks, &below);
        marks = below;
    }
}

// Takes each wire's terms, over other numbers of the wires below.
fn each_row(layer: &Layer, numbers: &[u32], mut take: impl FnMut(&[Term])) {
    let (mut left, mut row) = (layer.terms.as_slice(), vec![]);
    for g in 0..layer.wires {
        let (own, behind) = left.split_at(left.iter().take_while(|t| t.g == g).count());
        row.clear();
        row.extend(own.iter().map(|t| term(g, t.coef, numbers[t.a as usize], numbers[t.b as usize])));
        settle(&mut row);
        take(&row);
        left = behind;
    }
}

// Makes one wire of those with equal terms, and gives each old wire's number. The rows stand in one list, and are keys from there.
fn share_layer(layer: &mut Layer, numbers: &[u32]) -> Vec<u32> {
    let (mut rows, mut ends) = (Vec::with_capacity(layer.terms.len()), Vec::with_capacity(layer.wires as usize));
    each_row(layer, numbers, |row| {
        rows.extend(row.iter().map(|t| (t.a, t.b, t.coef)));
        ends.push(rows.len());
    });
    let mut kept: HashMap<&[(u32, u32, u64)], u32> = HashMap::with_capacity(ends.len());
    let (mut terms, mut wires, mut start) = (Vec::with_capacity(rows.len()), Vec::with_capacity(ends.len()), 0);
    for end in ends {
        let row = &rows[start..end];
        let next = kept.len() as u32;
        let wire = *kept.entry(row).or_insert(next);
        if wire == next {
            terms.extend(row.iter().map(|(a, b, coef)| Term { g: wire, a: *a, b: *b, coef: *coef }));
        }
        wires.push(wire);
        start = end;
    }
    *layer = Layer { wires: kept.len() as u32, terms };
    wires
}

// Makes one wire of those with equal terms in all inner layers, from the inputs up.
fn share(inputs: u32, layers: &mut [Layer]) {
    let mut numbers: Vec<u32> = (0..inputs).collect();
    for layer in layers[1..].iter_mut().rev() {
        numbers = share_layer(layer, &numbers);
    }
    let mut terms = vec![];
    each_row(&layers[0], &numbers, |row| terms.extend_from_slice(row));
    layers[0].terms = terms;
}

// The circuit of a text, from the outputs down. None where the text or its circuit breaks a rule.
pub fn compile(text: &[u8]) -> Option<Vec<Layer>> {
    let statements = parse_source(text)?;
    let mut builder = Builder::new(&statements);
    for statement in &statements {
        builder.take(statement);
    }
    let depths = builder.depths();
    let count = builder.layers_needed(&depths)?;
    let mut layers = plain_form(&builder, &depths, count);
    reduce(1 + builder.inputs, &mut layers);
    Some(layers)
}

fn reduce(inputs: u32, layers: &mut [Layer]) {
    prune(inputs, layers);
    share(inputs, layers);
    prune(inputs, layers);
}

// A source which says that y is 1 where an odd number of its bits are, and 0 where an even number are. It pairs
// the names from the first on, and puts a name for each pair behind the others.
pub fn parity_source() -> String {
    let name = |i: u32| if i <= BITS { format!("x{i}") } else { format!("t{}", i - BITS) };
    let mut text = String::from("field goldilocks\npublic y\n");
    for i in 1..=BITS {
        text += &format!("private x{i}\n");
    }
    for i in 1..BITS {
        let (a, b) = (name(2 * i - 1), name(2 * i));
        text += &format!("let t{i} = {a} + {b} - 2 * {a} * {b}\n");
    }
    text + &format!("assert {} = y\n", name(2 * BITS - 1))
}

/// How many statements a source over 16,384 bits has, read so often.
pub fn parity_parsed(times: u32) -> u128 {
    let text = parity_source();
    (0..times).map(|_| black_box(parse_source(black_box(text.as_bytes()))).map_or(0, |s| s.len() as u128)).sum()
}

/// How many terms and wires the layers of its circuit have, reduced once more so often.
pub fn reduced_again(times: u32) -> u128 {
    let layers = compile(parity_source().as_bytes()).unwrap_or_default();
    let mut total = 0;
    for _ in 0..times {
        let mut again = black_box(&layers).clone();
        reduce(2 + BITS, &mut again);
        for layer in black_box(again) {
            total += layer.terms.len() as u128 + layer.wires as u128;
        }
    }
    total
}

/// How many terms and wires the circuits of a source over 16,384 bits have, compiled so often.
pub fn compiled(times: u32) -> u128 {
    let text = parity_source();
    let mut total = 0;
    for _ in 0..times {
        for layer in black_box(compile(black_box(text.as_bytes()))).unwrap_or_default() {
            total += layer.terms.len() as u128 + layer.wires as u128;
        }
    }
    total
}
