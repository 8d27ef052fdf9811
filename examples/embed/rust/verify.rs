//! Verifies a proof:  verify CIRCUIT PUBLIC PROOF
//! Ends with the answer's number.
use std::process::ExitCode;
use std::{env, fs};

/// As include/lzk.h has it.
#[repr(C)]
#[derive(Default)]
struct Report {
    answer: u32,
    check: u32,
    kind: u32,
    line: u32,
    offset: u64,
    column: u32,
    found_count: u32,
    needed_count: u32,
    found_digest: [u8; 32],
    found_sum: [u8; 16],
    wanted_sum: [u8; 16],
}

#[link(name = "lzk", kind = "static")]
extern "C" {
    fn lzk_explain(
        circuit: *const u8, circuit_len: usize, public_numbers: *const u8, public_numbers_len: usize, session: *const u8,
        session_len: usize, proof: *const u8, proof_len: usize, report: *mut Report,
    ) -> u32;
}

/// What the library tells of a proof. A slice's pointer is never null, as the library asks.
fn explain(circuit: &[u8], public: &[u8], session: &[u8], proof: &[u8]) -> Report {
    let mut report = Report::default();
    unsafe {
        lzk_explain(
            circuit.as_ptr(), circuit.len(), public.as_ptr(), public.len(), session.as_ptr(), session.len(), proof.as_ptr(),
            proof.len(), &mut report,
        );
    }
    report
}

fn main() -> std::io::Result<ExitCode> {
    let words: Vec<String> = env::args().collect();
    if words.len() != 4 {
        eprintln!("verify CIRCUIT PUBLIC PROOF");
        return Ok(ExitCode::from(64));
    }
    let found = explain(&fs::read(&words[1])?, &fs::read(&words[2])?, b"", &fs::read(&words[3])?);
    match found.answer {
        0 => println!("accepted"),
        1 => println!("rejected by check {}", found.check),
        answer => println!("refused: answer {answer}, rule {}", found.kind),
    }
    Ok(ExitCode::from(found.answer as u8))
}
