use lzk::{evaluate, Error, Given, Policy, PolicyError};

const SEED: [u8; 32] = [7; 32];
const POLICY: &str = "record 47\nfield birth date at 4\nfield country text 2 at 12\nfield secret bytes 16 at 15\n\
    show digest\nshow birth at most LATEST\nshow country as COUNTRY\nshow pseudonym of secret for SERVICE\n";
const VALUES: &[u8] = b"LATEST 20081129\nSERVICE 000102030405060708090a0b0c0d0e0f\n";

// A record of the policy.
fn record() -> [u8; 47] {
    let mut record = [9; 47];
    record[4..8].copy_from_slice(&19_900_101u32.to_be_bytes());
    record[12..14].copy_from_slice(b"NL");
    record
}

fn given<'a>(record: &'a [u8], values: &'a [u8]) -> Given<'a> {
    Given {
        record,
        values,
        ..Default::default()
    }
}

#[test]
fn shows_and_verifies() -> Result<(), Error> {
    let policy = Policy::new(POLICY)?;
    assert_eq!(policy.lines()[1], "birth is at most LATEST");
    assert_eq!(policy.lines().len(), 4);
    let (record, values) = (record(), VALUES);
    let inputs = policy.inputs(&given(&record, values))?;
    evaluate(policy.circuit(), &inputs.public, &inputs.private)?;
    let made = policy.prove(&given(&record, values), b"nonce", &SEED)?;
    assert_eq!(policy.public(&made.shown)?, inputs.public);
    assert!(policy
        .verify(&made.shown, b"nonce", &made.proof)?
        .is_accepted());
    assert!(!policy
        .verify(&made.shown, b"other", &made.proof)?
        .is_accepted());
    let text = String::from_utf8_lossy(&made.shown).into_owned();
    let digest: String = policy
        .digest(&record)?
        .iter()
        .map(|byte| format!("{byte:02x}"))
        .collect();
    assert!(text.starts_with(&format!("digest {digest}\npseudonym ")));
    assert!(
        text.ends_with("LATEST 20081129\nCOUNTRY NL\nSERVICE 000102030405060708090a0b0c0d0e0f\n")
    );
    let told = policy.told(&made.shown)?;
    assert_eq!((told.head, told.is_root), (policy.digest(&record)?, false));
    assert_eq!((told.pseudonyms.len(), told.values.len()), (1, 3));
    assert_eq!(told.values[&b"LATEST"[..]], b"20081129");
    assert_eq!(told.values[&b"COUNTRY"[..]], b"NL");
    // What was shown may be written otherwise: capitals, blanks and comments say nothing else.
    let (head, rest) = text.split_once('\n').unwrap();
    let capitals = head.to_uppercase().replacen("DIGEST ", "\tdigest\r ", 1);
    let other = format!("# x\r\n\n{capitals} # y\r\n{rest}");
    assert_eq!(policy.told(other.as_bytes())?, told);
    assert_eq!(policy.public(other.as_bytes())?, inputs.public);
    assert!(policy.told(b"digest 00\n").is_err());
    let other = text.replace("20081129", "20081130");
    assert!(!policy
        .verify(other.as_bytes(), b"nonce", &made.proof)?
        .is_accepted());
    Ok(())
}

// Space, tab and carriage return are blanks, and no other byte is.
#[test]
fn words_of_what_was_shown() -> Result<(), Error> {
    let policy =
        Policy::new("record 23\nfield name text 7 at 0\nshow digest\nshow name as NAME\n")?;
    for name in [
        b"bob\x0c\x0c\x0c\x0c",
        b"a\x0bb\x0bc\x0bd",
        b"bob\0\0\0\0",
        b"bob\xff\xfe\x85\xa0",
    ] {
        let mut record = [0; 23];
        record[..7].copy_from_slice(name);
        let made = policy.prove(&given(&record, b""), b"", &SEED)?;
        let told = policy.told(&made.shown)?;
        assert_eq!(told.values[&b"NAME"[..]], name);
    }
    Ok(())
}

#[test]
fn refuses() -> Result<(), Error> {
    let policy = Policy::new(POLICY)?;
    let record = record();
    let shown = |text: &[u8]| policy.public(text).unwrap_err().to_string();
    let refused = |given: &Given<'_>| policy.prove(given, b"", &SEED).unwrap_err().to_string();
    assert_eq!(
        Policy::new(format!("{POLICY}show x\n")).unwrap_err(),
        Error::Policy(PolicyError::NoPolicy { rule: 1, line: 9 })
    );
    assert_eq!(
        policy.digest(&record[1..]),
        Err(Error::Policy(PolicyError::NoRecord { wanted: 47 }))
    );
    let late = b"LATEST 19800101\nSERVICE 000102030405060708090a0b0c0d0e0f\n";
    assert_eq!(
        refused(&given(&record, late)),
        "NotTrue: something shown is not true of the record; nothing was made: place 0 of what is shown"
    );
    assert_eq!(
        refused(&given(&record, b"LATEST 1\n")),
        "values: Missing: something is left out: place 2 of what is shown"
    );
    assert_eq!(
        refused(&given(&record, b"# none\nLATEST\n")),
        "values at line 2: Syntax: the line is not a name and a word, or that of a path not one word"
    );
    let with = |secret, path| Given {
        secret,
        path,
        ..given(&record, VALUES)
    };
    assert_eq!(
        refused(&with(&[0; 16], b"")),
        "NoSecret: the secret has not as many bytes as the policy wants: 0"
    );
    assert_eq!(
        refused(&with(&[], b"x\n")),
        "path at line 1: Value: the word is no such date, text, tag, digest, leaf or node"
    );
    assert_eq!(
        refused(&with(&[], b"# no leaf\n")),
        "path: Missing: it has no leaf"
    );
    let without = policy.inputs(&with(&[], b"0\n"))?;
    assert_eq!(
        without.public,
        policy.inputs(&given(&record, VALUES))?.public
    );
    let node = format!("0\n{}\n", "00".repeat(32));
    assert_eq!(
        refused(&with(&[], node.as_bytes())),
        "NoNodes: the path has not as many nodes as the policy has levels: 0"
    );
    assert_eq!(
        shown(b""),
        "what was shown: Missing: something is left out: place 3 of what is shown"
    );
    assert_eq!(
        shown(b"root 00\n"),
        "what was shown at line 1: Syntax: the line is not a name and a word, or that of a path not one word"
    );
    assert_eq!(Policy::new(vec![b'#'; 65_537]).unwrap_err(), Error::TooLong);
    Ok(())
}
