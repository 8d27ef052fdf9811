use lzk::{
    circuit_info, compile, evaluate, fresh_seed, prove, sha_circuit, text, upgrade, verify, Desk,
    Error, Verdict, Version,
};

const SEED: [u8; 32] = [7; 32];
const SQUARE: &str = "field goldilocks\npublic y\nprivate x\nassert x*x = y\n";

#[test]
fn proves_and_verifies() -> Result<(), Error> {
    for version in [Version::One, Version::Two] {
        let circuit = compile(SQUARE, version)?;
        assert_eq!(circuit_info(&circuit)?.version, version as u32);
        assert!(circuit_info(&circuit)?.to_string().starts_with(&format!(
            "field goldilocks, version {}, public 1, private 1, layers 1, checks 1, id ",
            version as u32
        )));
        evaluate(&circuit, b"9", b"3")?;
        let proof = prove(&circuit, &text(&[9]), &text(&[3]), b"nonce", &SEED)?;
        assert_eq!(verify(&circuit, b"9", b"nonce", &proof)?, Verdict::Accepted);
        assert!(matches!(
            verify(&circuit, b"9", b"other", &proof)?,
            Verdict::PathCount { .. } | Verdict::Root(_)
        ));
        let mut desk = Desk::open(&circuit, b"9", b"nonce")?;
        proof.chunks(997).try_for_each(|piece| desk.feed(piece))?;
        assert!(desk.end()?.is_accepted());
    }
    Ok(())
}

#[test]
fn refuses() -> Result<(), Error> {
    let circuit = compile(SQUARE, Version::One)?;
    assert_eq!(
        prove(&circuit, b"9", b"4", b"", &SEED),
        Err(Error::Unsatisfied { check: 0, value: 7 })
    );
    assert_eq!(
        prove(&circuit, b"", b"4", b"", &SEED),
        Err(Error::NoPublics { rule: 3, line: 1 })
    );
    assert_eq!(
        prove(&circuit, b"9", b"x", b"", &SEED),
        Err(Error::NoPrivates { rule: 1, line: 1 })
    );
    assert_eq!(
        prove(&circuit, b"9", b"3", &[0; 65], &SEED),
        Err(Error::TooLong)
    );
    assert_eq!(
        prove(b"", b"9", b"3", b"", &SEED),
        Err(Error::NoCircuit { rule: 1, offset: 0 })
    );
    assert_eq!(
        compile("field goldilocks\nassert z = 1\n", Version::One),
        Err(Error::NoSource { rule: 4, line: 2 })
    );
    assert_eq!(
        verify(&circuit, b"9", b"", b"")?,
        Verdict::Format { rule: 1, offset: 0 }
    );
    Ok(())
}

#[test]
fn upgrades_and_hashes() -> Result<(), Error> {
    let upgraded = upgrade(&compile(SQUARE, Version::One)?)?;
    assert_eq!(upgrade(&upgraded)?, upgraded);
    assert!(matches!(upgrade(b"LZC1"), Err(Error::NoCircuit { .. })));
    assert_eq!(circuit_info(&sha_circuit(3)?)?.privates, 8 * 3 + 6376);
    assert!(matches!(sha_circuit(56), Err(Error::TooLong)));
    Ok(())
}

#[test]
fn takes_a_seed_of_the_system() -> Result<(), Error> {
    let circuit = compile(SQUARE, Version::One)?;
    let proofs: Vec<_> = (0..2)
        .map(|_| prove(&circuit, b"9", b"3", b"", None))
        .collect::<Result<_, _>>()?;
    assert_ne!(proofs[0], proofs[1]);
    for proof in &proofs {
        assert!(verify(&circuit, b"9", b"", proof)?.is_accepted());
    }
    assert_ne!(fresh_seed()?, fresh_seed()?);
    Ok(())
}

/// Each mistake has a text that says what is wrong, where, and mostly what to do.
#[test]
fn says_what_is_wrong() -> Result<(), Error> {
    let circuit = compile(SQUARE, Version::One)?;
    let proof = prove(&circuit, b"9", b"3", b"nonce", &SEED)?;
    let source = |text| compile(text, Version::One);
    let proved = |public: &[u8], private: &[u8]| prove(&circuit, public, private, b"", None);
    let deep: String = (0..520)
        .map(|k| format!("let x{} = x{k}*x{k}\n", k + 1))
        .collect();
    let deep = format!("field goldilocks\nprivate x0\n{deep}assert x520 = 0\n");
    let refused = [
        (proved(b"", b"3"), "public numbers at line 1: TooFew: the text ends before as many numbers as the circuit has"),
        (proved(b"9\n9", b"3"), "public numbers at line 2: TooMany: there are more numbers than the circuit has"),
        (proved(b"9", b"\nx"), "private numbers at line 2: Syntax: a word is no number; write decimal digits, or hexadecimal ones after 0x, with no sign"),
        (proved(b"18446744069414584321", b"3"), "public numbers at line 1: TooLarge: a number is not below the field's size"),
        (proved(b"9", b"4"), "check 0 is 7, and has to be 0: the numbers do not satisfy the circuit; look at the assert that the check is of"),
        (prove(&proof, b"9", b"3", b"", None), "circuit at byte 0: Magic: the bytes begin with neither LZC1 nor LZC2 (strong profile: LSC1, LSC2); is this another file, a proof or a source?"),
        (upgrade(&circuit[..9]), "circuit at byte 9: Truncated: the bytes end inside the file; a part is missing"),
        (prove(&circuit, b"9", b"3", &[0; 65], None), "TooLong: a session has more than 64 bytes, a text more than 4,194,304 (of a policy 65,536), or a message for sha_circuit more than 55; shorten it, a session by its SHA-256"),
        (source("assert 1 = 1\n"), "source at line 1: NoField: the first statement is no `field` line; begin with `field goldilocks` (strong profile: `field prime128`) or `field gf2_128`"),
        (source("field goldilocks\nprove x\n"), "source at line 2: Keyword: the first word is no keyword; a line begins with field, public, private, let or assert"),
        (source("field goldilocks\nassert z = 1\n"), "source at line 2: Unknown: a name was not declared on an earlier line"),
        (source("field goldilocks\nassert (1 = 1\n"), "source at line 2: Syntax: the line has not the form of the grammar"),
        (source(&deep), "Layers: the source's circuit would need 520, over the limit of 512 layers"),
    ];
    for (found, wanted) in refused {
        assert_eq!(found.unwrap_err().to_string(), wanted);
    }
    let rejected = [
        (
            verify(&circuit, b"9", b"other", &proof)?,
            "rejected: path count ",
            "mostly the session or the public numbers are not the prover's",
        ),
        (
            verify(&circuit, b"9", b"nonce", &circuit)?,
            "rejected: format at byte 0: Magic",
            "the bytes are no proof's file for this circuit",
        ),
        (
            verify(&compile(SQUARE, Version::Two)?, b"9", b"nonce", &proof)?,
            "rejected: circuit id ",
            "the proof is for another circuit",
        ),
        (verify(&circuit, b"9", b"nonce", &proof)?, "accepted", ""),
    ];
    for (found, begins, meaning) in rejected {
        assert!(found.to_string().starts_with(begins), "{found}");
        assert_eq!(found.meaning(), meaning);
    }
    Ok(())
}
