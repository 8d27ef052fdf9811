//! Compiles a statement, proves it and verifies the proof:  prove SOURCE PUBLIC PRIVATE
use std::error::Error;

fn main() -> Result<(), Box<dyn Error>> {
    let words: Vec<String> = std::env::args().collect();
    let [_, source, public, private] = words.as_slice() else {
        return Err("prove SOURCE PUBLIC PRIVATE".into());
    };
    let circuit = lzk::compile(&std::fs::read_to_string(source)?, lzk::Version::One)?;
    let proof = lzk::prove(
        &circuit,
        public.as_bytes(),
        private.as_bytes(),
        b"nonce",
        None,
    )?;
    println!(
        "{}",
        lzk::verify(&circuit, public.as_bytes(), b"nonce", &proof)?
    );
    Ok(())
}
