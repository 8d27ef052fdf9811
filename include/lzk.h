/* Longfellow ZK (profile LZK1) for C and for all that calls C: compile statements, prove them, verify proofs.

   A call is handed bytes, writes what it makes into room of the caller's, and gives an answer. It starts no thread
   and no process, reads no file and prints nothing, and may be made from any number of threads at once. Between
   calls nothing is kept but a desk, from lzk_desk_open to lzk_desk_free. No bytes that it is handed are wrong: for
   any there is an answer, and it is one of those below. Which it is follows from the bytes alone, but for
   LZK_NO_MEMORY, which may come at any time.

   A pointer may be NULL where the number beside it is 0, as an empty std::vector gives it; elsewhere NULL is
   refused, by LZK_NULL. The caller owes three things: each other pointer leads to as many bytes as are said beside
   it; nothing writes to these bytes during the call; and what is written lies apart from them, and is the call's
   alone until it returns. Memory is taken by malloc, and given back by free, and set to zero before that; lzk_eval
   and lzk_prove set to zero what they left of the stack, too. lzk_prove takes 75 KiB of it, and up to 150 over more
   than 150 layers; lzk_eval 20 KiB, and 208 bytes a layer; the other calls less than 20 KiB.

   Link with liblzk.a or liblzk.so, which `./build library` makes. lzk_text.h has a text for each answer.
   docs/EMBEDDING.md has examples, costs, and what is not offered. */

#ifndef LZK_H
#define LZK_H

#include <stddef.h>
#include <stdint.h>

#ifdef __cplusplus
extern "C" {
#endif

#define LZK_VERSION_MAJOR 0
#define LZK_VERSION_MINOR 2
#define LZK_VERSION "0.2"

/* What lzk_version gives in a library of this version. */
#define LZK_VERSION_NUMBER (LZK_VERSION_MAJOR * 65536 + LZK_VERSION_MINOR)

/* What came of a call. */
enum lzk_answer {
  /* All checks hold, for this circuit, these public numbers and this session. */
  LZK_ACCEPTED = 0,
  /* Of the other calls: it is done. */
  LZK_DONE = 0,
  /* A check fails. lzk_explain says which. */
  LZK_REJECTED = 1,
  /* The session has more than 64 bytes, or a text more than 4,194,304, or one of a policy more than 65,536. */
  LZK_TOO_LONG = 2,
  /* The bytes are no circuit's file. */
  LZK_NO_CIRCUIT = 3,
  /* The text has not exactly the circuit's public numbers, each below the field's size. */
  LZK_NO_NUMBERS = 4,
  /* The text is no source: kind (LZK_SOURCE_..), line. */
  LZK_NO_SOURCE = 5,
  /* malloc gave no memory. Nothing is known: call again. */
  LZK_NO_MEMORY = 6,
  /* The room is smaller than what is to be written: count bytes. Nothing was written. */
  LZK_NO_ROOM = 7,
  /* The numbers do not satisfy the circuit: check is the first that is not 0, and value is its value. */
  LZK_UNSATISFIED = 8,
  /* The text has not exactly the circuit's private numbers, each below the field's size: kind (LZK_NUMBER_..),
     line. */
  LZK_NO_PRIVATES = 9,
  /* The source's circuit would pass a limit: kind (LZK_LIMIT_..), count. */
  LZK_OVER_LIMIT = 10,
  /* There is no such version of circuits. */
  LZK_NO_VERSION = 11,
  /* A pointer is NULL that may not be. Nothing was done. */
  LZK_NULL = 12,
  /* Of lzk_random_seed: the system gave no random numbers. */
  LZK_NO_RANDOM = 13,
  /* The text is no policy: kind (LZK_POLICY_..), line. */
  LZK_NO_POLICY = 14,
  /* The policy's circuit would pass a limit: in LZK1 it has more than 8 hashes, in the strong profile more than 32. A
     record of 56 bytes or more counts as two. */
  LZK_POLICY_LIMIT = 15,
  /* The secret has not as many bytes as count says: 16, or none where the policy shows nothing of a sealed field. */
  LZK_NO_SECRET = 16,
  /* The text is no path: kind (LZK_ENTRY_..), line; or line 0 and LZK_ENTRY_MISSING: it has no leaf. */
  LZK_NO_PATH = 17,
  /* The record has not as many bytes as count says. */
  LZK_NO_RECORD = 18,
  /* The text gives no values: kind (LZK_ENTRY_..), line; or check is the place of what is shown and has none. */
  LZK_NO_VALUES = 19,
  /* The path has not as many nodes as count says. */
  LZK_NO_NODES = 20,
  /* The leaf's number is none of its row. */
  LZK_NO_LEAF = 21,
  /* Something shown is not true of the record: check is its place. */
  LZK_NOT_TRUE = 22,
  /* Record and values do not fit the policy. */
  LZK_UNFIT = 23,
  /* The text does not say what was shown: kind (LZK_ENTRY_..), line; or check is the place of what it leaves out. */
  LZK_NO_SHOWN = 24,
  /* No text says what is shown: a text of the record has a blank, a line feed or #, or one name would stand for two
     values. */
  LZK_UNSAID = 25
};

/* The checks of a proof, in their order: docs/PROTOCOL.md, section 9. */
enum lzk_check {
  LZK_FORMAT = 1,     /* the bytes are no proof's file for this circuit: kind (LZK_PROOF_..), offset */
  LZK_CIRCUIT_ID = 2, /* it is for another circuit: found_digest is the circuit's id in the proof */
  LZK_PATH_COUNT = 3, /* the path has another length, as for another session or other public numbers: found_count, needed_count */
  LZK_ROOT = 4,       /* the opened columns are not those that were committed to: found_digest */
  LZK_LOW_DEGREE = 5, /* column is the least at which it fails */
  LZK_LINEAR_SUM = 6, /* found_sum, wanted_sum */
  LZK_LINEAR = 7,     /* column */
  LZK_QUADRATIC = 8   /* column */
};

/* Which rule a proof's file breaks (check 1). */
enum lzk_proof_kind {
  LZK_PROOF_TRUNCATED = 1,  /* the bytes end inside the field at offset */
  LZK_PROOF_MAGIC = 2,      /* they do not begin with LZP1, or LSP1 in the strong profile */
  LZK_PROOF_ELEMENT = 3,    /* a number is not below the field's size */
  LZK_PROOF_PATH_LIMIT = 4, /* the path has more than 1,536 digests, or 3,960 in the strong profile */
  LZK_PROOF_TRAILING = 5    /* bytes are left after the last field */
};

/* Which rule a circuit's file breaks (LZK_NO_CIRCUIT). */
enum lzk_circuit_kind {
  LZK_CIRCUIT_TRUNCATED = 1,
  LZK_CIRCUIT_MAGIC = 2,    /* the file begins with neither LZC1 nor LZC2, or in the strong profile LSC1 nor LSC2 */
  LZK_CIRCUIT_FIELD = 3,    /* the field's byte is none of the profile's */
  LZK_CIRCUIT_LIMIT = 4,    /* a count, or a running total, is over its limit */
  LZK_CIRCUIT_VARINT = 5,   /* a number is not in its shortest form, or is 2^32 or more */
  LZK_CIRCUIT_ORDER = 6,    /* a term does not come after the one before it */
  LZK_CIRCUIT_RANGE = 7,    /* a wire, or the number of a constant, is out of range */
  LZK_CIRCUIT_CONSTANT = 8, /* a constant is zero, too large, not above the one before, or used by no term */
  LZK_CIRCUIT_TRAILING = 9, /* bytes are left after the last term */
  LZK_CIRCUIT_ASSERTION = 10 /* an assertion term is not the only one of its wire */
};

/* Which rule a text of public numbers breaks (LZK_NO_NUMBERS). */
enum lzk_number_kind {
  LZK_NUMBER_SYNTAX = 1,    /* a word is no number */
  LZK_NUMBER_TOO_LARGE = 2, /* a number is not below the field's size */
  LZK_NUMBER_TOO_FEW = 3,   /* the text ends before as many numbers as the circuit has */
  LZK_NUMBER_TOO_MANY = 4   /* a word comes after them */
};

/* Which rule a source breaks (LZK_NO_SOURCE): docs/LANGUAGE.md. */
enum lzk_source_kind {
  LZK_SOURCE_CHARACTER = 1, /* a byte is neither a blank nor of a token */
  LZK_SOURCE_SYNTAX = 2,    /* the line has not the form of the grammar */
  LZK_SOURCE_KEYWORD = 3,   /* the first token is no keyword */
  LZK_SOURCE_UNKNOWN = 4,   /* a name was not declared on an earlier line */
  LZK_SOURCE_TWICE = 5,     /* a name is declared again, or there is a second `field` line */
  LZK_SOURCE_TOO_LARGE = 6, /* a number is not below the field's size */
  LZK_SOURCE_NO_FIELD = 7,  /* the first statement is no `field` line */
  LZK_SOURCE_NO_ASSERT = 8, /* there is no assert */
  LZK_SOURCE_LIMIT = 9      /* a name is too long, too many parentheses are open, or there are too many inputs or asserts */
};

/* Which rule a policy breaks (LZK_NO_POLICY): docs/POLICY.md. */
enum lzk_policy_kind {
  LZK_POLICY_SYNTAX = 1,   /* the line has none of the forms of a policy's lines */
  LZK_POLICY_ORDER = 2,    /* it stands in the wrong place, or a second time */
  LZK_POLICY_REPEATED = 3, /* a field has this name already */
  LZK_POLICY_SIZE = 4,     /* a record, a field or a text has too few or too many bytes */
  LZK_POLICY_PLACE = 5,    /* the field goes past the record's end */
  LZK_POLICY_UNKNOWN = 6,  /* no field has the name */
  LZK_POLICY_CLAIM = 7,    /* what is shown does not suit the field */
  LZK_POLICY_COUNT = 8,    /* there are too many fields or things shown, or a root has too many levels or none */
  LZK_POLICY_MISSING = 9   /* the text ends early */
};

/* Which rule a text of values, a path or a text of what was shown breaks (LZK_NO_VALUES, LZK_NO_PATH, LZK_NO_SHOWN). */
enum lzk_entry_kind {
  LZK_ENTRY_SYNTAX = 1,   /* the line is not a name and a word, or that of a path not one word */
  LZK_ENTRY_UNKNOWN = 2,  /* nothing shown has a value of this name */
  LZK_ENTRY_REPEATED = 3, /* the name stands on a later line too */
  LZK_ENTRY_VALUE = 4,    /* the word is no such date, text, tag, digest, leaf or node */
  LZK_ENTRY_MISSING = 5   /* something is left out; line is 0 */
};

/* Which limit a source's circuit would pass (LZK_OVER_LIMIT). */
enum lzk_limit_kind {
  LZK_LIMIT_LAYERS = 1, /* 512 layers */
  LZK_LIMIT_WIRES = 2,  /* 131,072 wires of a layer */
  LZK_LIMIT_TERMS = 3   /* 2,097,152 terms */
};

/* No proof's file, and no circuit's file, has more bytes. */
#define LZK_MOST_PROOF 2097152
#define LZK_MOST_CIRCUIT 67108864

/* What came of lzk_compile, lzk_sha_circuit, lzk_upgrade, lzk_eval, lzk_prove or a call for policies. A field that the
   answer does not speak of is 0. Where several causes stand together, the first of these is given: LZK_NULL,
   LZK_NO_VERSION, LZK_NO_CIRCUIT, LZK_TOO_LONG, LZK_NO_NUMBERS, LZK_NO_PRIVATES, LZK_NO_SOURCE, LZK_OVER_LIMIT,
   LZK_UNSATISFIED, LZK_NO_ROOM. Of the calls for policies: LZK_NULL, LZK_TOO_LONG, and then in the order of their
   numbers from LZK_NO_POLICY on, and last LZK_NO_ROOM. */
typedef struct lzk_outcome {
  uint32_t answer;   /* enum lzk_answer */
  uint32_t kind;     /* of LZK_NO_CIRCUIT, LZK_NO_NUMBERS, LZK_NO_PRIVATES, LZK_NO_SOURCE, LZK_OVER_LIMIT, LZK_NO_POLICY, .. */
  uint32_t line;     /* of LZK_NO_NUMBERS, LZK_NO_PRIVATES, LZK_NO_SOURCE, LZK_NO_POLICY, ..: the line of the text, from 1 */
  uint32_t check;    /* of LZK_UNSATISFIED; of LZK_NOT_TRUE and LZK_ENTRY_MISSING the place of what is shown: 0 for the
                        line after `show digest` or `show under root`, and that after the last for digest or root */
  uint64_t offset;   /* of LZK_NO_CIRCUIT; of lzk_policy_inputs where LZK_DONE: where the private numbers begin */
  uint64_t count;    /* of LZK_DONE: bytes written; of LZK_NO_ROOM: bytes to be written; of LZK_OVER_LIMIT; of LZK_NO_SECRET,
                        LZK_NO_RECORD and LZK_NO_NODES: how many are wanted */
  uint8_t value[16]; /* of LZK_UNSATISFIED: a number, the lowest byte first */
} lzk_outcome;

/* What a circuit's file holds. Of LZK_NO_CIRCUIT kind and offset are set and all else is 0. */
typedef struct lzk_info {
  uint32_t answer;   /* enum lzk_answer */
  uint32_t kind;     /* enum lzk_circuit_kind */
  uint64_t offset;
  uint32_t field;    /* 1: Goldilocks, 2: GF(2^128), 3: the strong profile's prime field */
  uint32_t version;  /* 1 or 2 */
  uint32_t publics;  /* how many public numbers */
  uint32_t privates; /* how many private numbers */
  uint32_t layers;
  uint32_t checks;   /* outputs, and in version 2 asserted wires */
  uint8_t id[32];    /* SHA-256 of the file */
} lzk_info;

/* What was found. A field that the answer and the check do not speak of is 0. */
typedef struct lzk_report {
  uint32_t answer;         /* enum lzk_answer */
  uint32_t check;          /* enum lzk_check, of LZK_REJECTED: the first that fails */
  uint32_t kind;           /* of LZK_FORMAT, LZK_NO_CIRCUIT and LZK_NO_NUMBERS: which rule is broken */
  uint32_t line;           /* of LZK_NO_NUMBERS: the line of the text, from 1 */
  uint64_t offset;         /* of LZK_FORMAT and LZK_NO_CIRCUIT: the byte where the field that breaks it begins */
  uint32_t column;         /* of LZK_LOW_DEGREE, LZK_LINEAR, LZK_QUADRATIC */
  uint32_t found_count;    /* of LZK_PATH_COUNT */
  uint32_t needed_count;   /* of LZK_PATH_COUNT */
  uint8_t found_digest[32]; /* of LZK_CIRCUIT_ID and LZK_ROOT */
  uint8_t found_sum[16];   /* of LZK_LINEAR_SUM: a number, the lowest byte first */
  uint8_t wanted_sum[16];  /* of LZK_LINEAR_SUM */
} lzk_report;

/* Some bytes. */
typedef struct lzk_bytes {
  const uint8_t *start;
  size_t len;
} lzk_bytes;

/* A proof with what it is verified for. report is written by lzk_explain_each. */
typedef struct lzk_job {
  lzk_bytes public_numbers;
  lzk_bytes session;
  lzk_bytes proof;
  lzk_report report;
} lzk_job;

/* The version of the library: LZK_VERSION_NUMBER, if this header is its header. */
uint32_t lzk_version(void);

/* Verifies a proof.

     circuit         a circuit's file, as `zk compile` writes it
     public_numbers  a text: numbers in decimal digits, or hexadecimal after 0x, separated by blanks or line feeds; `#` begins a comment
     session         bytes that prover and verifier agreed on, 64 at most. They are the bytes themselves, where `zk` takes their hexadecimal
                     digits: what is session=6e6f6e6365 there is "nonce" with 5 here
     proof           a proof's file, as `zk prove` writes it

   Gives an enum lzk_answer: LZK_ACCEPTED exactly where all checks hold, as far as there is memory. Where several causes stand
   together, LZK_NO_CIRCUIT comes before LZK_TOO_LONG, that before LZK_NO_NUMBERS, and that before LZK_REJECTED. */
uint32_t lzk_verify(const uint8_t *circuit, size_t circuit_len,
                    const uint8_t *public_numbers, size_t public_numbers_len,
                    const uint8_t *session, size_t session_len,
                    const uint8_t *proof, size_t proof_len);

/* The same, and writes the whole report. Gives report->answer. */
uint32_t lzk_explain(const uint8_t *circuit, size_t circuit_len,
                     const uint8_t *public_numbers, size_t public_numbers_len,
                     const uint8_t *session, size_t session_len,
                     const uint8_t *proof, size_t proof_len,
                     lzk_report *report);

/* The same for a proof that lies in count pieces, one after another, as they came over a network. They are read where
   they lie. */
uint32_t lzk_explain_pieces(const uint8_t *circuit, size_t circuit_len,
                            const uint8_t *public_numbers, size_t public_numbers_len,
                            const uint8_t *session, size_t session_len,
                            const lzk_bytes *pieces, size_t count,
                            lzk_report *report);

/* Verifies count proofs over one circuit, whose file is read once, one after another, and writes the report of
   each. */
void lzk_explain_each(const uint8_t *circuit, size_t circuit_len, lzk_job *jobs, size_t count);

/* ---- A proof that is fed while it arrives.

   A desk keeps a copy of the circuit, of the numbers, of the session and of at most 2,162,688 bytes of the proof,
   whatever is fed: no more can matter. lzk_desk_end writes the report of lzk_explain on all bytes that were fed,
   and the desk is ready for the next proof. One thread at a time may use a desk. */
typedef struct lzk_desk lzk_desk;

/* Makes a desk, and sets *desk to it; or to NULL, and gives LZK_TOO_LONG, LZK_NO_MEMORY or LZK_NULL. */
uint32_t lzk_desk_open(lzk_desk **desk, const uint8_t *circuit, size_t circuit_len, const uint8_t *public_numbers, size_t public_numbers_len,
                       const uint8_t *session, size_t session_len);

/* The next bytes of the proof. Gives LZK_DONE, LZK_NO_MEMORY (feed these bytes again) or LZK_NULL. */
uint32_t lzk_desk_feed(lzk_desk *desk, const uint8_t *bytes, size_t len);

/* The verdict on all bytes that were fed. They are forgotten, unless it is LZK_NO_MEMORY. */
uint32_t lzk_desk_end(lzk_desk *desk, lzk_report *report);

/* Takes a desk away. It may be NULL. */
void lzk_desk_free(lzk_desk *desk);

/* ---- Statements and proofs */

/* Compiles a source's text (docs/LANGUAGE.md) to a circuit's file of version 1 or 2, which is put at the start of
   room. Gives LZK_DONE, LZK_NO_VERSION, LZK_TOO_LONG, LZK_NO_SOURCE, LZK_OVER_LIMIT, LZK_NO_MEMORY or LZK_NO_ROOM:
   call again with room for outcome->count bytes. */
uint32_t lzk_compile(uint32_t version, const uint8_t *source, size_t source_len, uint8_t *room, size_t room_len, lzk_outcome *outcome);

/* Makes the circuit of SHA-256 for messages of so many bytes, 0 to 55 (docs/FORMATS.md, section 14), and puts its file
   at the start of room. Gives LZK_DONE, LZK_TOO_LONG, LZK_NO_MEMORY or LZK_NO_ROOM. */
uint32_t lzk_sha_circuit(uint32_t message_len, uint8_t *room, size_t room_len, lzk_outcome *outcome);

/* Puts a circuit's file of version 2 at the start of room. Gives LZK_DONE, LZK_NO_CIRCUIT, LZK_NO_MEMORY or
   LZK_NO_ROOM. */
uint32_t lzk_upgrade(const uint8_t *circuit, size_t circuit_len, uint8_t *room, size_t room_len, lzk_outcome *outcome);

/* Writes what a circuit's file holds. Gives LZK_DONE, LZK_NO_CIRCUIT or LZK_NO_MEMORY. */
uint32_t lzk_circuit_info(const uint8_t *circuit, size_t circuit_len, lzk_info *info);

/* Evaluates a circuit on two texts of numbers. Gives LZK_DONE where all checks are 0, LZK_UNSATISFIED, LZK_NO_CIRCUIT,
   LZK_TOO_LONG, LZK_NO_NUMBERS, LZK_NO_PRIVATES or LZK_NO_MEMORY. */
uint32_t lzk_eval(const uint8_t *circuit, size_t circuit_len, const uint8_t *public_numbers, size_t public_numbers_len,
                  const uint8_t *private_numbers, size_t private_numbers_len, lzk_outcome *outcome);

/* Fills a seed with 32 bytes of the system's random numbers, by getrandom. Gives LZK_DONE, LZK_NULL, or LZK_NO_RANDOM:
   the seed is all zero then, and is none. */
uint32_t lzk_random_seed(uint8_t seed[32]);

/* Proves, and puts the proof's file at the start of room; LZK_MOST_PROOF bytes are always enough. The seed is 32
   bytes that nobody else can guess, as lzk_random_seed gives them, new for each proof: who knows it knows the
   private numbers. A seed at NULL is refused. The bytes are those of `zk prove` with this seed: they are the one
   proof that the seed gives, and it is accepted. The caller's thread does all the work. Gives what lzk_eval gives,
   or LZK_NO_ROOM. Clear your own copies of seed and private numbers. */
uint32_t lzk_prove(const uint8_t *circuit, size_t circuit_len, const uint8_t *public_numbers, size_t public_numbers_len,
                   const uint8_t *private_numbers, size_t private_numbers_len, const uint8_t *session, size_t session_len,
                   const uint8_t seed[32], uint8_t *room, size_t room_len, lzk_outcome *outcome);

/* ---- Policies: docs/POLICY.md has the texts, each of 65,536 bytes at most.

   Issuer, wallet and service each make the circuit of a policy themselves:

     issuer   lzk_policy_digest
     wallet   lzk_policy_circuit, lzk_policy_inputs, lzk_prove, lzk_policy_shown: sends the proof and the text of what is shown
     service  lzk_policy_circuit, lzk_policy_public of a text of what was shown, lzk_explain; and looks at what it says

   No call takes a text of what was shown apart. So a service decodes what it was sent, decides on these parts, and
   writes the text itself, in one form: digest or root and pseudonyms in small digits, and its own values. Or it decides
   on numbers: the first eight of lzk_policy_public are the words of the digest or the root, and the last eight of a
   pseudonym's twelve are the pseudonym's. Never compare digits as they were sent: a list of what was seen that is kept
   by them is passed by capitals.

   Each of these calls may give LZK_NULL, LZK_TOO_LONG, LZK_NO_POLICY, LZK_POLICY_LIMIT, LZK_NO_MEMORY or LZK_NO_ROOM. */

/* What is shown of a record, and what it takes. The secret is empty where the policy shows nothing of a sealed field,
   and the path where it shows the digest; one of a leaf and no node is taken there too. */
typedef struct lzk_policy_given {
  lzk_bytes policy, record, values, secret, path;
} lzk_policy_given;

/* Puts the lines of what a verifier learns by a policy at the start of room, as `zk-credential show` prints them: the
   digest or the root, and then each thing that is shown, from place 0 on. */
uint32_t lzk_policy_show(const uint8_t *policy, size_t policy_len, uint8_t *room, size_t room_len, lzk_outcome *outcome);

/* Puts the file of a policy's circuit at the start of room. */
uint32_t lzk_policy_circuit(const uint8_t *policy, size_t policy_len, uint8_t *room, size_t room_len, lzk_outcome *outcome);

/* Puts the SHA-256 digest of a record of the policy's size at the start of room: 32 bytes. May give LZK_NO_RECORD. */
uint32_t lzk_policy_digest(const uint8_t *policy, size_t policy_len, const uint8_t *record, size_t record_len, uint8_t *room, size_t room_len,
                           lzk_outcome *outcome);

/* Puts two texts of numbers at the start of room, which satisfy the policy's circuit: the public ones, outcome->offset
   bytes, and after them the private ones. May give all answers from LZK_NO_SECRET to LZK_UNFIT. */
uint32_t lzk_policy_inputs(const lzk_policy_given *given, uint8_t *room, size_t room_len, lzk_outcome *outcome);

/* Puts the text of what is shown at the start of room: digest or root, pseudonyms and values. Its public numbers are
   those of lzk_policy_inputs, and it says nothing else of the record. May give what that call gives, and LZK_UNSAID. */
uint32_t lzk_policy_shown(const lzk_policy_given *given, uint8_t *room, size_t room_len, lzk_outcome *outcome);

/* Puts the text of the public numbers that a text of what was shown says at the start of room (docs/POLICY.md has their
   order). Texts that say the same have the same numbers. May give LZK_NO_SHOWN. */
uint32_t lzk_policy_public(const uint8_t *policy, size_t policy_len, const uint8_t *shown, size_t shown_len, uint8_t *room, size_t room_len,
                           lzk_outcome *outcome);

#ifdef __cplusplus
}
#endif
#endif
