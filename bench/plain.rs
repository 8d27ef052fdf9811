//! The work of the program `lzk_bench`, and rows by transforms, written plainly. Built by `rustc -O`.

mod binary;
mod circuits;
mod compile;
mod constraints;
mod extenders;
mod hashes;
mod messages;
mod prime;
mod proofs;
mod tables;
mod texts;
mod transforms;
mod unchecked;

use binary::*;
use circuits::*;
use extenders::*;
use hashes::*;
use prime::*;
use proofs::*;
use tables::*;
use texts::*;

fn main() {
    let words: Vec<String> = std::env::args().collect();
    let times = words[2].parse().unwrap_or(0);
    let work = words[1].as_str();
    let sum = match work {
        "gold-mul" => gold_mul(times),
        "gold-many" => gold_many(times),
        "gf-many" => gf_many(times),
        "gf-dot" => gf_dot(times),
        "aes" => aes(times),
        "draw" => draw(times),
        "absorb" => absorb(times),
        "gold-extend-192" => gold_extend(times, 192),
        "gold-extend-640" => gold_extend(times, 640),
        "ntt-192" => transforms::ntt(times, 192),
        "ntt-384" => transforms::ntt(times, 384),
        "ntt-640" => transforms::ntt(times, 640),
        "afft-192" => transforms::afft(times, 192),
        "afft-384" => transforms::afft(times, 384),
        "afft-640" => transforms::afft(times, 640),
        "gold-extender" => gold_extenders(times, 640),
        "gf-extender" => gf_extenders(times, 640),
        "gf-extend-192" => gf_extend(times, 192),
        "gf-extend-640" => gf_extend(times, 640),
        "gold-eq" => gold_eq(times),
        "gf-eq" => gf_eq(times),
        "gold-tilde" => gold_tilde(times),
        "gf-tilde" => gf_tilde(times),
        "forms" => constraints::formed(times),
        "combine" => constraints::combined(times),
        "replay" => replay(times),
        "messages" => messages::sent(times),
        "leaf-7" => leaves(times, 7),
        "leaf-80" => leaves(times, 80),
        "tree" => trees(times),
        "gold-inv" => gold_inv(times),
        "gold-dot" => gold_dot(times),
        "gf-mul" => gf_mul(times),
        "gf-mul-unchecked" => unchecked::mul(times),
        "gf-many-unchecked" => unchecked::many(times),
        "gf-dot-unchecked" => unchecked::dot(times),
        "gold-square" => gold_square(times),
        "gf-square" => gf_square(times),
        "gf-inv" => gf_inv(times),
        "eval" => eval(times),
        "decode" => decoded(times),
        "encode" => encoded(times),
        "numbers" => numbers(times),
        "proof-read" => proofs_read(times),
        "proof-write" => proofs_written(times),
        "source" => source(times),
        "source-parity" => compile::parity_parsed(times),
        "compile" => compile::compiled(times),
        "reduce" => compile::reduced_again(times),
        _ => return println!("no such work"),
    };
    println!("{work} {times}: {sum}");
}
