"""What each answer, rule and check is called, and means. Made by library/make-texts: edit library/texts.txt."""

# fmt: off
ANSWER = (
    ("Done", "done"),
    ("Rejected", "a check of the proof fails; refuse it"),
    ("TooLong", "a session has more than 64 bytes, a text more than 4,194,304 (of a policy 65,536), or a message for sha_circuit more than 55; shorten it, a session by its SHA-256"),
    ("NoCircuit", "the bytes are no circuit's file; compile the statement again, or look at your store"),
    ("NoNumbers", "the text has not exactly the circuit's public numbers, each below the field's size"),
    ("NoSource", "the text is no source"),
    ("NoMemory", "out of memory; nothing is known, so call again"),
    ("NoRoom", "the room is too small; call again with room for as many bytes as count says"),
    ("Unsatisfied", "the numbers do not satisfy the circuit; look at the assert that the check is of"),
    ("NoPrivates", "the text has not exactly the circuit's private numbers, each below the field's size"),
    ("OverLimit", "the source's circuit would pass a limit"),
    ("NoVersion", "there is no such version of circuits; take 1 or 2"),
    ("Null", "a pointer is NULL that may not be; NULL is empty only beside a length of 0"),
    ("NoRandom", "the system gave no random numbers; nothing was proved"),
    ("NoPolicy", "the text is no policy"),
    ("PolicyLimit", "the policy's circuit would pass a limit, as 8 hashes (strong profile: 32), and a record of 56 bytes or more counts as two; show fewer pseudonyms, a root of fewer levels, or a record of at most 55 bytes"),
    ("NoSecret", "the secret has not as many bytes as the policy wants"),
    ("NoPath", "the text is no path"),
    ("NoRecord", "the record has not as many bytes as the policy says"),
    ("NoValues", "the text does not give the values that the policy wants"),
    ("NoNodes", "the path has not as many nodes as the policy has levels"),
    ("NoLeaf", "the leaf's number is none of its row; it is below 2 to the power of the levels"),
    ("NotTrue", "something shown is not true of the record; nothing was made"),
    ("Unfit", "record and values do not fit the policy"),
    ("NoShown", "the text does not say what was shown"),
    ("Unsaid", "no text says what is shown: a text of the record has a blank, a line feed or `#`, or one name would stand for two values"),
)
CIRCUIT = (
    ("", ""),
    ("Truncated", "the bytes end inside the file; a part is missing"),
    ("Magic", "the bytes begin with neither LZC1 nor LZC2 (strong profile: LSC1, LSC2); is this another file, a proof or a source?"),
    ("FieldId", "the field's byte is none of this profile's"),
    ("Limit", "a count, or a running total, is over its limit"),
    ("Varint", "a number is not in its shortest form, or is 2^32 or more"),
    ("Order", "a term does not come after the one before it"),
    ("Range", "a wire, or the number of a constant, is out of range"),
    ("Constant", "a constant is zero, too large, not above the one before, or used by no term"),
    ("Trailing", "bytes are left after the last term"),
    ("Assertion", "an assertion term is not the only one of its wire"),
)
NUMBER = (
    ("", ""),
    ("Syntax", "a word is no number; write decimal digits, or hexadecimal ones after 0x, with no sign"),
    ("TooLarge", "a number is not below the field's size"),
    ("TooFew", "the text ends before as many numbers as the circuit has"),
    ("TooMany", "there are more numbers than the circuit has"),
)
SOURCE = (
    ("", ""),
    ("Character", "a byte is neither a blank nor of a token"),
    ("Syntax", "the line has not the form of the grammar"),
    ("Keyword", "the first word is no keyword; a line begins with field, public, private, let or assert"),
    ("Unknown", "a name was not declared on an earlier line"),
    ("Twice", "a name is declared again, or there is a second `field` line"),
    ("TooLarge", "a number is not below the field's size"),
    ("NoField", "the first statement is no `field` line; begin with `field goldilocks` (strong profile: `field prime128`) or `field gf2_128`"),
    ("NoAssert", "there is no assert"),
    ("Limit", "a name is too long, too many parentheses are open, or there are too many inputs or asserts"),
)
POLICY = (
    ("", ""),
    ("Syntax", "the line has none of the forms of a policy's lines"),
    ("Order", "the line stands in the wrong place, or a second time; the record comes first, then fields, then digest or root, then all else"),
    ("Repeated", "a field has this name already"),
    ("Size", "a record, a field or a text has too few or too many bytes"),
    ("Place", "the field goes past the record's end"),
    ("Unknown", "no field has the name"),
    ("Claim", "what is shown does not suit the field"),
    ("Limit", "there are too many fields or things shown, or a root has too many levels or none"),
    ("Missing", "the text ends before a record, its digest or a root, and one thing shown are there"),
)
ENTRY = (
    ("", ""),
    ("Syntax", "the line is not a name and a word, or that of a path not one word"),
    ("Unknown", "nothing that is shown has a value of this name"),
    ("Repeated", "the name stands on a later line too"),
    ("Value", "the word is no such date, text, tag, digest, leaf or node"),
    ("Missing", "something is left out"),
)
LIMIT = (
    ("", ""),
    ("Layers", "512 layers"),
    ("LayerWires", "131,072 wires of a layer"),
    ("Terms", "2,097,152 terms"),
)
PROOF = (
    ("", ""),
    ("Truncated", "the bytes end inside the field at this byte; a part is missing"),
    ("Magic", "the bytes do not begin with LZP1 (strong profile: LSP1); is this another file?"),
    ("Element", "a number is not below the field's size"),
    ("PathLimit", "the path has more than 1,536 digests (strong profile: 3,960)"),
    ("Trailing", "bytes are left after the last field"),
)
CHECK = (
    ("", ""),
    ("Format", "the bytes are no proof's file for this circuit"),
    ("CircuitId", "the proof is for another circuit"),
    ("PathCount", "mostly the session or the public numbers are not the prover's"),
    ("Root", "the session or the public numbers are not the prover's, or the bytes were changed"),
    ("LowDegree", "the bytes were changed, or the prover cheats"),
    ("LinearSum", "the bytes were changed, or the prover cheats"),
    ("Linear", "the bytes were changed, or the prover cheats"),
    ("Quadratic", "the bytes were changed, or the prover cheats"),
)
