//! Longfellow ZK: compile a statement, prove it, verify a proof.
//!
//! ```
//! # fn main() -> Result<(), lzk::Error> {
//! let circuit = lzk::compile("field goldilocks\npublic y\nprivate x\nassert x*x = y\n", lzk::Version::One)?;
//! let proof = lzk::prove(&circuit, &lzk::text(&[9]), &lzk::text(&[3]), b"nonce", None)?;
//! assert!(lzk::verify(&circuit, &lzk::text(&[9]), b"nonce", &proof)?.is_accepted());
//! # Ok(())
//! # }
//! ```
//!
//! The circuit is the statement: take it from your own store, and never from who sends the proof. The code of the
//! calls is proved (docs/EMBEDDING.md); this crate only hands them slices. [`Policy`] has the calls for policies.
#![warn(missing_docs)]

use std::fmt;

mod policies;
mod raw;
mod texts;

pub use policies::{Given, Inputs, Policy, PolicyError, Shown, Told};

/// No proof's file has more bytes.
pub const MOST_PROOF: usize = 2_097_152;

/// A circuit's version.
#[derive(Clone, Copy, Debug, PartialEq, Eq)]
pub enum Version {
    /// Each assert is an output.
    One = 1,
    /// An assert is an assertion term where it stands: smaller where asserts have many depths.
    Two = 2,
}

/// Why there is no answer. Its text says what is wrong, where, and mostly what to do. Numbers of rules are those of
/// include/lzk.h.
#[derive(Clone, Copy, Debug, PartialEq, Eq)]
#[non_exhaustive]
pub enum Error {
    /// A session has more than 64 bytes, or a text more than 4,194,304, or one of a policy more than 65,536.
    TooLong,
    /// The bytes are no circuit's file.
    NoCircuit {
        /// The rule that is broken.
        rule: u32,
        /// The byte where it is broken.
        offset: u64,
    },
    /// The text has not the circuit's public numbers.
    NoPublics {
        /// The rule that is broken.
        rule: u32,
        /// The line, from 1.
        line: u32,
    },
    /// The text has not the circuit's private numbers.
    NoPrivates {
        /// The rule that is broken.
        rule: u32,
        /// The line, from 1.
        line: u32,
    },
    /// The text is no source.
    NoSource {
        /// The rule that is broken.
        rule: u32,
        /// The line, from 1.
        line: u32,
    },
    /// The source's circuit would pass a limit.
    OverLimit {
        /// Which: 1 layers, 2 wires of a layer, 3 terms.
        limit: u32,
        /// The number that passes it.
        count: u64,
    },
    /// The numbers do not satisfy the circuit.
    Unsatisfied {
        /// The first check that is not 0.
        check: u32,
        /// Its value.
        value: u128,
    },
    /// There was no memory.
    NoMemory,
    /// The library is of another version.
    OtherVersion,
    /// The system gave no random numbers for a seed.
    NoRandom,
    /// Of a policy.
    Policy(PolicyError),
}

// The name and the text of a row of a table.
fn row(table: &[(&'static str, &'static str)], number: u32) -> (&'static str, &'static str) {
    let none = (
        "Unknown",
        "there is no text for this number; is the library newer than this crate?",
    );
    *table.get(number as usize).unwrap_or(&none)
}

impl Error {
    /// The name of what is wrong, as `zk` prints it: `Magic`, `TooFew`, `Unknown`, ..
    #[must_use]
    pub fn name(&self) -> &'static str {
        self.meaning().0
    }

    // The name, and what it means.
    fn meaning(&self) -> (&'static str, &'static str) {
        match *self {
            Error::NoCircuit { rule, .. } => row(&texts::CIRCUIT, rule),
            Error::NoPublics { rule, .. } | Error::NoPrivates { rule, .. } => {
                row(&texts::NUMBER, rule)
            }
            Error::NoSource { rule, .. } => row(&texts::SOURCE, rule),
            Error::OverLimit { limit, .. } => row(&texts::LIMIT, limit),
            Error::TooLong => texts::ANSWER[2],
            Error::NoMemory => texts::ANSWER[6],
            Error::Unsatisfied { .. } => texts::ANSWER[8],
            Error::NoRandom => texts::ANSWER[13],
            Error::Policy(ref error) => error.meaning(),
            Error::OtherVersion => (
                "OtherVersion",
                "the library is of another version than this crate",
            ),
        }
    }
}

/// The words of include/lzk_text.h.
impl fmt::Display for Error {
    fn fmt(&self, f: &mut fmt::Formatter<'_>) -> fmt::Result {
        let (name, text) = self.meaning();
        match self {
            Error::NoCircuit { offset, .. } => {
                write!(f, "circuit at byte {offset}: {name}: {text}")
            }
            Error::NoPublics { line, .. } => {
                write!(f, "public numbers at line {line}: {name}: {text}")
            }
            Error::NoPrivates { line, .. } => {
                write!(f, "private numbers at line {line}: {name}: {text}")
            }
            Error::NoSource { line, .. } => write!(f, "source at line {line}: {name}: {text}"),
            Error::OverLimit { count, .. } => write!(
                f,
                "{name}: the source's circuit would need {count}, over the limit of {text}"
            ),
            Error::Unsatisfied { check, value } => {
                write!(f, "check {check} is {value}, and has to be 0: {text}")
            }
            Error::Policy(error) => error.fmt(f),
            _ => write!(f, "{name}: {text}"),
        }
    }
}

impl std::error::Error for Error {}

/// What was found of a proof.
#[must_use]
#[derive(Clone, Copy, Debug, PartialEq, Eq)]
pub enum Verdict {
    /// All checks hold.
    Accepted,
    /// The bytes are no proof's file for this circuit.
    Format {
        /// The rule that is broken.
        rule: u32,
        /// The byte where it is broken.
        offset: u64,
    },
    /// It is for the circuit with this id.
    CircuitId([u8; 32]),
    /// The path has another length, as for another session or other public numbers.
    PathCount {
        /// How many digests it has.
        found: u32,
        /// How many it needs.
        needed: u32,
    },
    /// The opened columns are not those that were committed to.
    Root([u8; 32]),
    /// The low degree answer fails at this column.
    LowDegree(u32),
    /// The linear answer has another sum.
    LinearSum {
        /// The sum that was found.
        found: u128,
        /// The sum that was wanted.
        wanted: u128,
    },
    /// The linear answer fails at this column.
    Linear(u32),
    /// The quadratic answer fails at this column.
    Quadratic(u32),
}

impl Verdict {
    /// Whether all checks hold.
    #[must_use]
    pub fn is_accepted(&self) -> bool {
        *self == Verdict::Accepted
    }

    /// What it mostly means that this check fails; nothing where all hold.
    #[must_use]
    pub fn meaning(&self) -> &'static str {
        let check = match self {
            Verdict::Accepted => 0,
            Verdict::Format { .. } => 1,
            Verdict::CircuitId(_) => 2,
            Verdict::PathCount { .. } => 3,
            Verdict::Root(_) => 4,
            Verdict::LowDegree(_) => 5,
            Verdict::LinearSum { .. } => 6,
            Verdict::Linear(_) => 7,
            Verdict::Quadratic(_) => 8,
        };
        row(&texts::CHECK, check).1
    }
}

fn hex(bytes: &[u8; 32]) -> String {
    bytes.iter().map(|byte| format!("{byte:02x}")).collect()
}

/// The line that `zk verify` prints.
impl fmt::Display for Verdict {
    fn fmt(&self, f: &mut fmt::Formatter<'_>) -> fmt::Result {
        match self {
            Verdict::Accepted => write!(f, "accepted"),
            Verdict::Format { rule, offset } => {
                let name = row(&texts::PROOF, *rule).0;
                write!(f, "rejected: format at byte {offset}: {name}")
            }
            Verdict::CircuitId(id) => write!(f, "rejected: circuit id {}", hex(id)),
            Verdict::PathCount { found, needed } => {
                write!(f, "rejected: path count {found}, needed {needed}")
            }
            Verdict::Root(root) => write!(f, "rejected: root {}", hex(root)),
            Verdict::LowDegree(column) => write!(f, "rejected: low degree at column {column}"),
            Verdict::LinearSum { found, wanted } => {
                write!(f, "rejected: linear sum {found}, wanted {wanted}")
            }
            Verdict::Linear(column) => write!(f, "rejected: linear at column {column}"),
            Verdict::Quadratic(column) => write!(f, "rejected: quadratic at column {column}"),
        }
    }
}

/// The field of a circuit.
#[derive(Clone, Copy, Debug, PartialEq, Eq)]
pub enum Field {
    /// The numbers below 2^64 - 2^32 + 1.
    Goldilocks,
    /// Polynomials modulo x^128 + x^7 + x^2 + x + 1.
    Gf2_128,
    /// The numbers below 2^128 - 2^54 + 1, of the strong profile's library.
    Prime128,
}

/// What a circuit's file holds.
#[derive(Clone, Copy, Debug, PartialEq, Eq)]
pub struct Info {
    /// Its field.
    pub field: Field,
    /// Its version.
    pub version: u32,
    /// How many public numbers.
    pub publics: u32,
    /// How many private numbers.
    pub privates: u32,
    /// How many layers.
    pub layers: u32,
    /// How many checks.
    pub checks: u32,
    /// SHA-256 of the file.
    pub id: [u8; 32],
}

/// One line with all of it.
impl fmt::Display for Info {
    fn fmt(&self, f: &mut fmt::Formatter<'_>) -> fmt::Result {
        let field = match self.field {
            Field::Goldilocks => "goldilocks",
            Field::Gf2_128 => "gf2_128",
            Field::Prime128 => "prime128",
        };
        write!(f, "field {field}, version {}, ", self.version)?;
        write!(f, "public {}, private {}, ", self.publics, self.privates)?;
        write!(f, "layers {}, checks {}, ", self.layers, self.checks)?;
        write!(f, "id {}", hex(&self.id))
    }
}

fn version_fits() -> Result<(), Error> {
    // No pointer is handed over.
    if unsafe { raw::lzk_version() } == 2 {
        Ok(())
    } else {
        Err(Error::OtherVersion)
    }
}

fn done(found: &raw::Outcome) -> Result<usize, Error> {
    let (rule, line) = (found.kind, found.line);
    Err(match found.answer {
        0 => return Ok(found.count as usize),
        2 => Error::TooLong,
        3 => Error::NoCircuit {
            rule,
            offset: found.offset,
        },
        4 => Error::NoPublics { rule, line },
        5 => Error::NoSource { rule, line },
        8 => Error::Unsatisfied {
            check: found.check,
            value: u128::from_le_bytes(found.value),
        },
        9 => Error::NoPrivates { rule, line },
        10 => Error::OverLimit {
            limit: rule,
            count: found.count,
        },
        _ => PolicyError::of(found).map_or(Error::NoMemory, Error::Policy),
    })
}

fn verdict(found: &raw::Report) -> Result<Verdict, Error> {
    let (rule, line) = (found.kind, found.line);
    match found.answer {
        0 => return Ok(Verdict::Accepted),
        1 => (),
        2 => return Err(Error::TooLong),
        3 => {
            return Err(Error::NoCircuit {
                rule,
                offset: found.offset,
            })
        }
        4 => return Err(Error::NoPublics { rule, line }),
        _ => return Err(Error::NoMemory),
    }
    Ok(match found.check {
        1 => Verdict::Format {
            rule,
            offset: found.offset,
        },
        2 => Verdict::CircuitId(found.found_digest),
        3 => Verdict::PathCount {
            found: found.found_count,
            needed: found.needed_count,
        },
        4 => Verdict::Root(found.found_digest),
        5 => Verdict::LowDegree(found.column),
        6 => Verdict::LinearSum {
            found: u128::from_le_bytes(found.found_sum),
            wanted: u128::from_le_bytes(found.wanted_sum),
        },
        7 => Verdict::Linear(found.column),
        _ => Verdict::Quadratic(found.column),
    })
}

/// The text of these numbers, as the calls take them: a line each.
#[must_use]
pub fn text(numbers: &[u128]) -> Vec<u8> {
    numbers
        .iter()
        .flat_map(|number| format!("{number}\n").into_bytes())
        .collect()
}

/// 32 bytes of the system's random numbers: a seed for one proof.
///
/// # Errors
///
/// `NoRandom`: the system gives none.
pub fn fresh_seed() -> Result<[u8; 32], Error> {
    version_fits()?;
    let mut seed = [0; 32];
    // The call writes 32 bytes.
    match unsafe { raw::lzk_random_seed(seed.as_mut_ptr()) } {
        0 => Ok(seed),
        _ => Err(Error::NoRandom),
    }
}

// What a call puts into a room, which is made as large as it asks for.
fn made(call: impl Fn(&mut [u8], &mut raw::Outcome)) -> Result<Vec<u8>, Error> {
    version_fits()?;
    let mut room = vec![0; 65_536];
    loop {
        let mut found = raw::Outcome::default();
        call(&mut room, &mut found);
        if found.answer == 7 {
            room = vec![0; found.count as usize];
            continue;
        }
        room.truncate(done(&found)?);
        return Ok(room);
    }
}

/// The file of a statement's circuit.
///
/// # Errors
///
/// `NoSource`, `OverLimit`, `TooLong`, `NoMemory`.
pub fn compile(source: &str, version: Version) -> Result<Vec<u8>, Error> {
    let (text, len) = (source.as_ptr(), source.len());
    // Here and below each pointer leads to as many bytes as are said, and nothing else has what is written.
    made(|room, found| unsafe {
        raw::lzk_compile(
            version as u32,
            text,
            len,
            room.as_mut_ptr(),
            room.len(),
            found,
        );
    })
}

/// The file of the circuit of SHA-256 for messages of so many bytes, 0 to 55.
///
/// # Errors
///
/// `TooLong`, `NoMemory`.
pub fn sha_circuit(message_len: u32) -> Result<Vec<u8>, Error> {
    made(|room, found| unsafe {
        raw::lzk_sha_circuit(message_len, room.as_mut_ptr(), room.len(), found);
    })
}

/// The file of a circuit in version 2.
///
/// # Errors
///
/// `NoCircuit`, `NoMemory`.
pub fn upgrade(circuit: &[u8]) -> Result<Vec<u8>, Error> {
    let (bytes, len) = (circuit.as_ptr(), circuit.len());
    made(|room, found| unsafe {
        raw::lzk_upgrade(bytes, len, room.as_mut_ptr(), room.len(), found);
    })
}

/// What a circuit's file holds.
///
/// # Errors
///
/// `NoCircuit`, `NoMemory`.
pub fn circuit_info(circuit: &[u8]) -> Result<Info, Error> {
    version_fits()?;
    let mut found = raw::Info::default();
    unsafe { raw::lzk_circuit_info(circuit.as_ptr(), circuit.len(), &mut found) };
    match found.answer {
        0 => Ok(Info {
            field: match found.field {
                1 => Field::Goldilocks,
                3 => Field::Prime128,
                _ => Field::Gf2_128,
            },
            version: found.version,
            publics: found.publics,
            privates: found.privates,
            layers: found.layers,
            checks: found.checks,
            id: found.id,
        }),
        3 => Err(Error::NoCircuit {
            rule: found.kind,
            offset: found.offset,
        }),
        _ => Err(Error::NoMemory),
    }
}

/// Whether the numbers of two texts satisfy a circuit.
///
/// # Errors
///
/// `Unsatisfied` where they do not; `NoCircuit`, `NoPublics`, `NoPrivates`, `TooLong`, `NoMemory`.
pub fn evaluate(circuit: &[u8], public: &[u8], private: &[u8]) -> Result<(), Error> {
    version_fits()?;
    let mut found = raw::Outcome::default();
    unsafe {
        raw::lzk_eval(
            circuit.as_ptr(),
            circuit.len(),
            public.as_ptr(),
            public.len(),
            private.as_ptr(),
            private.len(),
            &mut found,
        )
    };
    done(&found).map(|_| ())
}

/// The proof that the numbers of two texts satisfy a circuit. The seed is 32 bytes that nobody else can guess, new for
/// each proof: who knows it knows the private numbers. `None` takes one of the system; `&seed` is taken as it is, and
/// the same seed gives the same bytes. The caller's thread does all the work. The library clears the memory that it
/// takes, and the stack that it used; clear your own copies of seed and private numbers.
///
/// # Errors
///
/// As `evaluate`; `NoRandom` where there is no seed.
pub fn prove<'a>(
    circuit: &[u8],
    public: &[u8],
    private: &[u8],
    session: &[u8],
    seed: impl Into<Option<&'a [u8; 32]>>,
) -> Result<Vec<u8>, Error> {
    version_fits()?;
    let fresh;
    let seed = match seed.into() {
        Some(seed) => seed,
        None => {
            fresh = fresh_seed()?;
            &fresh
        }
    };
    let (mut room, mut found) = (vec![0; MOST_PROOF], raw::Outcome::default());
    unsafe {
        raw::lzk_prove(
            circuit.as_ptr(),
            circuit.len(),
            public.as_ptr(),
            public.len(),
            private.as_ptr(),
            private.len(),
            session.as_ptr(),
            session.len(),
            seed.as_ptr(),
            room.as_mut_ptr(),
            room.len(),
            &mut found,
        )
    };
    room.truncate(done(&found)?);
    room.shrink_to_fit();
    Ok(room)
}

/// The verdict on a proof.
///
/// # Errors
///
/// `NoCircuit`, `NoPublics`, `TooLong`, `NoMemory`.
pub fn verify(
    circuit: &[u8],
    public: &[u8],
    session: &[u8],
    proof: &[u8],
) -> Result<Verdict, Error> {
    version_fits()?;
    let mut found = raw::Report::default();
    unsafe {
        raw::lzk_explain(
            circuit.as_ptr(),
            circuit.len(),
            public.as_ptr(),
            public.len(),
            session.as_ptr(),
            session.len(),
            proof.as_ptr(),
            proof.len(),
            &mut found,
        )
    };
    verdict(&found)
}

/// A verifier that is fed a proof while it arrives.
///
/// ```
/// # fn main() -> Result<(), lzk::Error> {
/// # let circuit = lzk::compile("field goldilocks\npublic y\nprivate x\nassert x*x = y\n", lzk::Version::One)?;
/// # let proof = lzk::prove(&circuit, b"9", b"3", b"nonce", None)?;
/// let mut desk = lzk::Desk::open(&circuit, b"9", b"nonce")?;
/// for piece in proof.chunks(1000) {
///     desk.feed(piece)?;
/// }
/// assert!(desk.end()?.is_accepted());
/// # Ok(())
/// # }
/// ```
pub struct Desk(*mut raw::Desk);

// A desk is its owner's alone, and keeps nothing of a thread.
unsafe impl Send for Desk {}

impl Desk {
    /// A desk for proofs over this circuit, of these public numbers, for this session. They are looked at by `end`.
    ///
    /// # Errors
    ///
    /// `TooLong`, `NoMemory`.
    pub fn open(circuit: &[u8], public: &[u8], session: &[u8]) -> Result<Desk, Error> {
        version_fits()?;
        let mut desk = std::ptr::null_mut();
        let answer = unsafe {
            raw::lzk_desk_open(
                &mut desk,
                circuit.as_ptr(),
                circuit.len(),
                public.as_ptr(),
                public.len(),
                session.as_ptr(),
                session.len(),
            )
        };
        done(&raw::Outcome {
            answer,
            ..Default::default()
        })
        .map(|_| Desk(desk))
    }

    /// The next bytes of the proof.
    ///
    /// # Errors
    ///
    /// `NoMemory`: feed them again.
    pub fn feed(&mut self, piece: &[u8]) -> Result<(), Error> {
        let answer = unsafe { raw::lzk_desk_feed(self.0, piece.as_ptr(), piece.len()) };
        done(&raw::Outcome {
            answer,
            ..Default::default()
        })
        .map(|_| ())
    }

    /// The verdict on all that was fed. The desk is ready for the next proof.
    ///
    /// # Errors
    ///
    /// `NoCircuit`, `NoPublics`, `NoMemory`.
    pub fn end(&mut self) -> Result<Verdict, Error> {
        let mut found = raw::Report::default();
        unsafe { raw::lzk_desk_end(self.0, &mut found) };
        verdict(&found)
    }
}

impl Drop for Desk {
    fn drop(&mut self) {
        unsafe { raw::lzk_desk_free(self.0) }
    }
}
