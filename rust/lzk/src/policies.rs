//! Policies: what is shown of a record, proved and verified (docs/POLICY.md).

use crate::{done, made, prove, raw, row, texts, verify, version_fits, Error, Verdict};
use std::collections::BTreeMap;
use std::fmt;

/// Why there is no answer of a policy. Numbers of rules are those of include/lzk.h. A place is that of the line of what
/// is shown, from 0, after that of the digest or the root.
#[derive(Clone, Copy, Debug, PartialEq, Eq)]
#[non_exhaustive]
pub enum PolicyError {
    /// The text is no policy.
    NoPolicy {
        /// The rule that is broken.
        rule: u32,
        /// The line, from 1.
        line: u32,
    },
    /// The policy's circuit would pass a limit.
    Limit,
    /// The secret has not as many bytes as the policy wants: 16, or none.
    NoSecret {
        /// How many are wanted.
        wanted: u64,
    },
    /// The text is no path.
    NoPath {
        /// The rule that is broken.
        rule: u32,
        /// The line, from 1; 0 where it has no leaf.
        line: u32,
    },
    /// The record has not as many bytes as the policy says.
    NoRecord {
        /// How many are wanted.
        wanted: u64,
    },
    /// The text does not give the values that the policy wants.
    NoValues {
        /// The rule that is broken.
        rule: u32,
        /// The line, from 1; 0 where something is left out.
        line: u32,
        /// The place of what is left out.
        place: u32,
    },
    /// The path has not as many nodes as the policy has levels.
    NoNodes {
        /// How many are wanted.
        wanted: u64,
    },
    /// The leaf's number is none of its row.
    NoLeaf,
    /// What is shown at this place is not true of the record.
    NotTrue {
        /// The place.
        place: u32,
    },
    /// Record and values do not fit the policy.
    Unfit,
    /// The text does not say what was shown.
    NoShown {
        /// The rule that is broken.
        rule: u32,
        /// The line, from 1; 0 where something is left out.
        line: u32,
        /// The place of what is left out; that after the last is of the digest or the root.
        place: u32,
    },
    /// No text says what is shown.
    Unsaid,
}

impl PolicyError {
    // What an outcome says, if its answer is one of a policy.
    pub(crate) fn of(found: &raw::Outcome) -> Option<PolicyError> {
        let (rule, line, place, wanted) = (found.kind, found.line, found.check, found.count);
        Some(match found.answer {
            14 => PolicyError::NoPolicy { rule, line },
            15 => PolicyError::Limit,
            16 => PolicyError::NoSecret { wanted },
            17 => PolicyError::NoPath { rule, line },
            18 => PolicyError::NoRecord { wanted },
            19 => PolicyError::NoValues { rule, line, place },
            20 => PolicyError::NoNodes { wanted },
            21 => PolicyError::NoLeaf,
            22 => PolicyError::NotTrue { place },
            23 => PolicyError::Unfit,
            24 => PolicyError::NoShown { rule, line, place },
            25 => PolicyError::Unsaid,
            _ => return None,
        })
    }

    // The name, and what it means.
    pub(crate) fn meaning(&self) -> (&'static str, &'static str) {
        match *self {
            PolicyError::NoPolicy { rule, .. } => row(&texts::POLICY, rule),
            PolicyError::NoPath { rule, .. }
            | PolicyError::NoValues { rule, .. }
            | PolicyError::NoShown { rule, .. } => row(&texts::ENTRY, rule),
            PolicyError::Limit => texts::ANSWER[15],
            PolicyError::NoSecret { .. } => texts::ANSWER[16],
            PolicyError::NoRecord { .. } => texts::ANSWER[18],
            PolicyError::NoNodes { .. } => texts::ANSWER[20],
            PolicyError::NoLeaf => texts::ANSWER[21],
            PolicyError::NotTrue { .. } => texts::ANSWER[22],
            PolicyError::Unfit => texts::ANSWER[23],
            PolicyError::Unsaid => texts::ANSWER[25],
        }
    }
}

impl fmt::Display for PolicyError {
    fn fmt(&self, f: &mut fmt::Formatter<'_>) -> fmt::Result {
        let (name, text) = match *self {
            PolicyError::NoPath { line: 0, .. } => (self.meaning().0, "it has no leaf"),
            _ => self.meaning(),
        };
        let entry = |f: &mut fmt::Formatter<'_>, which: &str, line: u32, place: u32| match line {
            0 => write!(f, "{which}: {name}: {text}: place {place} of what is shown"),
            _ => write!(f, "{which} at line {line}: {name}: {text}"),
        };
        match *self {
            PolicyError::NoPolicy { line, .. } => {
                write!(f, "policy at line {line}: {name}: {text}")
            }
            PolicyError::NoPath { line: 0, .. } => write!(f, "path: {name}: {text}"),
            PolicyError::NoPath { line, .. } => entry(f, "path", line, 0),
            PolicyError::NoValues { line, place, .. } => entry(f, "values", line, place),
            PolicyError::NoShown { line, place, .. } => entry(f, "what was shown", line, place),
            PolicyError::NoSecret { wanted }
            | PolicyError::NoRecord { wanted }
            | PolicyError::NoNodes { wanted } => write!(f, "{name}: {text}: {wanted}"),
            PolicyError::NotTrue { place } => {
                write!(f, "{name}: {text}: place {place} of what is shown")
            }
            _ => write!(f, "{name}: {text}"),
        }
    }
}

/// What is shown of a record, and what it takes.
#[derive(Clone, Copy, Default)]
pub struct Given<'a> {
    /// The record.
    pub record: &'a [u8],
    /// The text of values: a line of a name and a word for each.
    pub values: &'a [u8],
    /// The secret that a field of the record seals: 16 bytes; empty where the policy shows nothing of a sealed field.
    pub secret: &'a [u8],
    /// The text of the path from the record's digest to a root; empty where the policy shows the digest.
    pub path: &'a [u8],
}

/// The texts of the public and of the private numbers that show a record.
#[derive(Clone, PartialEq, Eq)]
pub struct Inputs {
    /// The public numbers.
    pub public: Vec<u8>,
    /// The private numbers. They hold the record.
    pub private: Vec<u8>,
}

/// What a holder sends: a proof, and the text of what is shown.
#[derive(Clone, Debug, PartialEq, Eq)]
pub struct Shown {
    /// The proof.
    pub proof: Vec<u8>,
    /// The text of what is shown.
    pub shown: Vec<u8>,
}

/// What a text of what was shown says.
///
/// A word is as it was written, and a value may be written in several ways, as a tag in capitals. Keep lists of what was
/// seen by `head` and `pseudonyms`, which are numbers and no digits.
#[derive(Clone, Debug, PartialEq, Eq)]
pub struct Told {
    /// The digest of the record, or a root above it.
    pub head: [u8; 32],
    /// Whether it is a root.
    pub is_root: bool,
    /// The pseudonyms, in order.
    pub pseudonyms: Vec<[u8; 32]>,
    /// A word for the name of each value.
    pub values: BTreeMap<Vec<u8>, Vec<u8>>,
}

// 32 bytes of 64 hexadecimal digits.
fn bytes_of(digits: &[u8]) -> Option<[u8; 32]> {
    let value = |digit: u8| char::from(digit).to_digit(16).map(|value| value as u8);
    let mut bytes = [0; 32];
    if digits.len() != 64 {
        return None;
    }
    for (byte, pair) in bytes.iter_mut().zip(digits.chunks_exact(2)) {
        *byte = value(pair[0])? << 4 | value(pair[1])?;
    }
    Some(bytes)
}

// The words of a line. Its blanks are these and no others, so that a vertical tab or a form feed is part of a word.
fn words(line: &[u8]) -> Vec<&[u8]> {
    let said = line.split(|&byte| byte == b'#').next().unwrap_or(line);
    said.split(|byte| b" \t\r".contains(byte))
        .filter(|word| !word.is_empty())
        .collect()
}

/// A policy: what a record is, and what is shown of it. Its circuit is made once.
///
/// ```
/// # fn main() -> Result<(), lzk::Error> {
/// let policy = lzk::Policy::new("record 20\nfield birth date at 0\nshow digest\nshow birth at most LATEST\n")?;
/// let mut record = [7; 20];
/// record[..4].copy_from_slice(&19_900_101u32.to_be_bytes());
/// let given = lzk::Given { record: &record, values: b"LATEST 20081129\n", ..Default::default() };
/// let made = policy.prove(&given, b"nonce", None)?;
/// assert!(policy.verify(&made.shown, b"nonce", &made.proof)?.is_accepted());
/// # Ok(())
/// # }
/// ```
#[derive(Clone, Debug)]
pub struct Policy {
    text: Vec<u8>,
    lines: Vec<String>,
    circuit: Vec<u8>,
}

// A pointer and a length, as the calls take them.
fn raw_bytes(bytes: &[u8]) -> raw::Bytes {
    raw::Bytes {
        start: bytes.as_ptr(),
        len: bytes.len(),
    }
}

impl Policy {
    /// The policy of a text.
    ///
    /// # Errors
    ///
    /// `Policy` with `NoPolicy` or `Limit`; `TooLong`, `NoMemory`.
    pub fn new(text: impl AsRef<[u8]>) -> Result<Policy, Error> {
        let text = text.as_ref().to_vec();
        let (start, len) = (text.as_ptr(), text.len());
        // Here and below each pointer leads to as many bytes as are said, and nothing else has what is written.
        let shown = made(|room, found| unsafe {
            raw::lzk_policy_show(start, len, room.as_mut_ptr(), room.len(), found);
        })?;
        let circuit = made(|room, found| unsafe {
            raw::lzk_policy_circuit(start, len, room.as_mut_ptr(), room.len(), found);
        })?;
        let shown = String::from_utf8_lossy(&shown);
        let lines = shown.lines().map(str::to_owned).collect();
        Ok(Policy {
            text,
            lines,
            circuit,
        })
    }

    /// What a verifier learns, line by line: the digest or the root, and then each thing that is shown.
    #[must_use]
    pub fn lines(&self) -> &[String] {
        &self.lines
    }

    /// The file of the policy's circuit.
    #[must_use]
    pub fn circuit(&self) -> &[u8] {
        &self.circuit
    }

    /// The SHA-256 digest of a record of the policy's size.
    ///
    /// # Errors
    ///
    /// `Policy` with `NoRecord`; `NoMemory`.
    pub fn digest(&self, record: &[u8]) -> Result<[u8; 32], Error> {
        let bytes = made(|room, found| unsafe {
            raw::lzk_policy_digest(
                self.text.as_ptr(),
                self.text.len(),
                record.as_ptr(),
                record.len(),
                room.as_mut_ptr(),
                room.len(),
                found,
            );
        })?;
        bytes.try_into().map_err(|_| Error::OtherVersion)
    }

    // What is given, for a call.
    fn given(&self, given: &Given<'_>) -> raw::PolicyGiven {
        raw::PolicyGiven {
            policy: raw_bytes(&self.text),
            record: raw_bytes(given.record),
            values: raw_bytes(given.values),
            secret: raw_bytes(given.secret),
            path: raw_bytes(given.path),
        }
    }

    /// The texts of the numbers that show a record. They satisfy the policy's circuit.
    ///
    /// # Errors
    ///
    /// `Policy` with `NotTrue` where something shown is not true of the record, or with what is wrong with what is
    /// given; `TooLong`, `NoMemory`.
    pub fn inputs(&self, given: &Given<'_>) -> Result<Inputs, Error> {
        version_fits()?;
        let given = self.given(given);
        let mut room = vec![0; 262_144];
        loop {
            let mut found = raw::Outcome::default();
            unsafe { raw::lzk_policy_inputs(&given, room.as_mut_ptr(), room.len(), &mut found) };
            if found.answer == 7 {
                room = vec![0; found.count as usize];
                continue;
            }
            room.truncate(done(&found)?);
            let private = room.split_off(found.offset as usize);
            return Ok(Inputs {
                public: room,
                private,
            });
        }
    }

    /// A proof for a record, and the text of what it shows. Session and seed are those of `prove`.
    ///
    /// # Errors
    ///
    /// As `inputs`; `Policy` with `Unsaid` where no text says what is shown; `NoRandom`.
    pub fn prove<'a>(
        &self,
        given: &Given<'_>,
        session: &[u8],
        seed: impl Into<Option<&'a [u8; 32]>>,
    ) -> Result<Shown, Error> {
        let inputs = self.inputs(given)?;
        let given = self.given(given);
        let shown = made(|room, found| unsafe {
            raw::lzk_policy_shown(&given, room.as_mut_ptr(), room.len(), found);
        })?;
        let proof = prove(
            &self.circuit,
            &inputs.public,
            &inputs.private,
            session,
            seed,
        )?;
        Ok(Shown { proof, shown })
    }

    /// The text of the public numbers of what was shown.
    ///
    /// # Errors
    ///
    /// `Policy` with `NoShown`; `TooLong`, `NoMemory`.
    pub fn public(&self, shown: &[u8]) -> Result<Vec<u8>, Error> {
        made(|room, found| unsafe {
            raw::lzk_policy_public(
                self.text.as_ptr(),
                self.text.len(),
                shown.as_ptr(),
                shown.len(),
                room.as_mut_ptr(),
                room.len(),
                found,
            );
        })
    }

    /// What a text of what was shown says.
    ///
    /// # Errors
    ///
    /// As `public`.
    pub fn told(&self, shown: &[u8]) -> Result<Told, Error> {
        self.public(shown)?;
        let starts = |line: &&String| line.starts_with("a pseudonym of ");
        let mut pseudonyms_left = self.lines.iter().skip(1).filter(starts).count();
        let (mut head, mut pseudonyms, mut values) = (None, Vec::new(), BTreeMap::new());
        for line in shown.split(|&byte| byte == b'\n') {
            let line = words(line);
            let &[name, word] = line.as_slice() else {
                continue;
            };
            if head.is_none() {
                let bytes = bytes_of(word).ok_or(Error::OtherVersion)?;
                head = Some((bytes, name == b"root"));
            } else if pseudonyms_left > 0 {
                pseudonyms.push(bytes_of(word).ok_or(Error::OtherVersion)?);
                pseudonyms_left -= 1;
            } else {
                values.insert(name.to_vec(), word.to_vec());
            }
        }
        let (head, is_root) = head.ok_or(Error::OtherVersion)?;
        Ok(Told {
            head,
            is_root,
            pseudonyms,
            values,
        })
    }

    /// The verdict on a proof of what was shown. An accepted one says that what was shown is true of some record: look
    /// by `told` whether you trust its digest or root, and whether the values are yours.
    ///
    /// # Errors
    ///
    /// As `public`. A proof that fails a check is no error: ask `is_accepted`.
    pub fn verify(&self, shown: &[u8], session: &[u8], proof: &[u8]) -> Result<Verdict, Error> {
        verify(&self.circuit, &self.public(shown)?, session, proof)
    }
}
