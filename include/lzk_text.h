/* Texts for what the calls of lzk.h answer: what is wrong, where, and mostly what to do. Made by library/make-texts: edit library/texts.txt.

     char text[LZK_MOST_TEXT];
     if (lzk_prove(.., &found)) fprintf(stderr, "prove: %s\n", lzk_text(&found, text, sizeof text));

   prints  prove: private numbers at line 1: Syntax: a word is no number; write decimal digits, or hexadecimal ones after 0x, with no sign */

#ifndef LZK_TEXT_H
#define LZK_TEXT_H

#include "lzk.h"
#include <stdio.h>

#ifdef __cplusplus
extern "C" {
#endif

/* No text is longer, with the 0 after it. */
#define LZK_MOST_TEXT 320

/* A name as `zk` prints it, and what it means. */
typedef struct lzk_meaning {
  const char *name, *text;
} lzk_meaning;

static const lzk_meaning lzk_answer_texts[] = {
  {"Done", "done"},
  {"Rejected", "a check of the proof fails; refuse it"},
  {"TooLong", "a session has more than 64 bytes, a text more than 4,194,304 (of a policy 65,536), or a message for sha_circuit more than 55; shorten it, a session by its SHA-256"},
  {"NoCircuit", "the bytes are no circuit's file; compile the statement again, or look at your store"},
  {"NoNumbers", "the text has not exactly the circuit's public numbers, each below the field's size"},
  {"NoSource", "the text is no source"},
  {"NoMemory", "out of memory; nothing is known, so call again"},
  {"NoRoom", "the room is too small; call again with room for as many bytes as count says"},
  {"Unsatisfied", "the numbers do not satisfy the circuit; look at the assert that the check is of"},
  {"NoPrivates", "the text has not exactly the circuit's private numbers, each below the field's size"},
  {"OverLimit", "the source's circuit would pass a limit"},
  {"NoVersion", "there is no such version of circuits; take 1 or 2"},
  {"Null", "a pointer is NULL that may not be; NULL is empty only beside a length of 0"},
  {"NoRandom", "the system gave no random numbers; nothing was proved"},
  {"NoPolicy", "the text is no policy"},
  {"PolicyLimit", "the policy's circuit would pass a limit, as 8 hashes (strong profile: 32), and a record of 56 bytes or more counts as two; show fewer pseudonyms, a root of fewer levels, or a record of at most 55 bytes"},
  {"NoSecret", "the secret has not as many bytes as the policy wants"},
  {"NoPath", "the text is no path"},
  {"NoRecord", "the record has not as many bytes as the policy says"},
  {"NoValues", "the text does not give the values that the policy wants"},
  {"NoNodes", "the path has not as many nodes as the policy has levels"},
  {"NoLeaf", "the leaf's number is none of its row; it is below 2 to the power of the levels"},
  {"NotTrue", "something shown is not true of the record; nothing was made"},
  {"Unfit", "record and values do not fit the policy"},
  {"NoShown", "the text does not say what was shown"},
  {"Unsaid", "no text says what is shown: a text of the record has a blank, a line feed or `#`, or one name would stand for two values"},
};

static const lzk_meaning lzk_circuit_texts[] = {
  {"", ""},
  {"Truncated", "the bytes end inside the file; a part is missing"},
  {"Magic", "the bytes begin with neither LZC1 nor LZC2 (strong profile: LSC1, LSC2); is this another file, a proof or a source?"},
  {"FieldId", "the field's byte is none of this profile's"},
  {"Limit", "a count, or a running total, is over its limit"},
  {"Varint", "a number is not in its shortest form, or is 2^32 or more"},
  {"Order", "a term does not come after the one before it"},
  {"Range", "a wire, or the number of a constant, is out of range"},
  {"Constant", "a constant is zero, too large, not above the one before, or used by no term"},
  {"Trailing", "bytes are left after the last term"},
  {"Assertion", "an assertion term is not the only one of its wire"},
};

static const lzk_meaning lzk_number_texts[] = {
  {"", ""},
  {"Syntax", "a word is no number; write decimal digits, or hexadecimal ones after 0x, with no sign"},
  {"TooLarge", "a number is not below the field's size"},
  {"TooFew", "the text ends before as many numbers as the circuit has"},
  {"TooMany", "there are more numbers than the circuit has"},
};

static const lzk_meaning lzk_source_texts[] = {
  {"", ""},
  {"Character", "a byte is neither a blank nor of a token"},
  {"Syntax", "the line has not the form of the grammar"},
  {"Keyword", "the first word is no keyword; a line begins with field, public, private, let or assert"},
  {"Unknown", "a name was not declared on an earlier line"},
  {"Twice", "a name is declared again, or there is a second `field` line"},
  {"TooLarge", "a number is not below the field's size"},
  {"NoField", "the first statement is no `field` line; begin with `field goldilocks` (strong profile: `field prime128`) or `field gf2_128`"},
  {"NoAssert", "there is no assert"},
  {"Limit", "a name is too long, too many parentheses are open, or there are too many inputs or asserts"},
};

static const lzk_meaning lzk_policy_texts[] = {
  {"", ""},
  {"Syntax", "the line has none of the forms of a policy's lines"},
  {"Order", "the line stands in the wrong place, or a second time; the record comes first, then fields, then digest or root, then all else"},
  {"Repeated", "a field has this name already"},
  {"Size", "a record, a field or a text has too few or too many bytes"},
  {"Place", "the field goes past the record's end"},
  {"Unknown", "no field has the name"},
  {"Claim", "what is shown does not suit the field"},
  {"Limit", "there are too many fields or things shown, or a root has too many levels or none"},
  {"Missing", "the text ends before a record, its digest or a root, and one thing shown are there"},
};

static const lzk_meaning lzk_entry_texts[] = {
  {"", ""},
  {"Syntax", "the line is not a name and a word, or that of a path not one word"},
  {"Unknown", "nothing that is shown has a value of this name"},
  {"Repeated", "the name stands on a later line too"},
  {"Value", "the word is no such date, text, tag, digest, leaf or node"},
  {"Missing", "something is left out"},
};

static const lzk_meaning lzk_limit_texts[] = {
  {"", ""},
  {"Layers", "512 layers"},
  {"LayerWires", "131,072 wires of a layer"},
  {"Terms", "2,097,152 terms"},
};

static const lzk_meaning lzk_proof_texts[] = {
  {"", ""},
  {"Truncated", "the bytes end inside the field at this byte; a part is missing"},
  {"Magic", "the bytes do not begin with LZP1 (strong profile: LSP1); is this another file?"},
  {"Element", "a number is not below the field's size"},
  {"PathLimit", "the path has more than 1,536 digests (strong profile: 3,960)"},
  {"Trailing", "bytes are left after the last field"},
};

static const lzk_meaning lzk_check_texts[] = {
  {"", ""},
  {"Format", "the bytes are no proof's file for this circuit"},
  {"CircuitId", "the proof is for another circuit"},
  {"PathCount", "mostly the session or the public numbers are not the prover's"},
  {"Root", "the session or the public numbers are not the prover's, or the bytes were changed"},
  {"LowDegree", "the bytes were changed, or the prover cheats"},
  {"LinearSum", "the bytes were changed, or the prover cheats"},
  {"Linear", "the bytes were changed, or the prover cheats"},
  {"Quadratic", "the bytes were changed, or the prover cheats"},
};

static const lzk_meaning lzk_no_meaning = {"Unknown", "there is no text for this number; is the library newer than this header?"};

/* The name and text of this rule of an answer; of an answer that has no rules, its own. */
static inline const lzk_meaning *lzk_meaning_of(uint32_t answer, uint32_t kind) {
#define LZK_ROW(table, number) ((number) < sizeof(table) / sizeof(table)[0] ? &(table)[number] : &lzk_no_meaning)
  switch (answer) {
  case LZK_NO_CIRCUIT: return LZK_ROW(lzk_circuit_texts, kind);
  case LZK_NO_NUMBERS:
  case LZK_NO_PRIVATES: return LZK_ROW(lzk_number_texts, kind);
  case LZK_NO_SOURCE: return LZK_ROW(lzk_source_texts, kind);
  case LZK_OVER_LIMIT: return LZK_ROW(lzk_limit_texts, kind);
  case LZK_NO_POLICY: return LZK_ROW(lzk_policy_texts, kind);
  case LZK_NO_PATH:
  case LZK_NO_VALUES:
  case LZK_NO_SHOWN: return LZK_ROW(lzk_entry_texts, kind);
  default: return LZK_ROW(lzk_answer_texts, answer);
  }
}

/* What a check of a proof means, from 1. */
static inline const lzk_meaning *lzk_check_meaning(uint32_t check) { return LZK_ROW(lzk_check_texts, check); }

/* Which rule a proof's file breaks, from 1. */
static inline const lzk_meaning *lzk_proof_meaning(uint32_t kind) { return LZK_ROW(lzk_proof_texts, kind); }

/* A number, the lowest byte first, in decimal digits: 40 bytes are always enough. Gives where they begin. */
static inline const char *lzk_digits(const uint8_t *number, char *room) {
  uint8_t left[16];
  char *at = room + 39;
  int some = 1;
  for (int i = 0; i < 16; i++) left[i] = number[i];
  *at = 0;
  while (some) {
    unsigned rest = 0;
    some = 0;
    for (int i = 15; i >= 0; i--) {
      rest = rest << 8 | left[i];
      left[i] = (uint8_t)(rest / 10), rest %= 10;
      some |= left[i];
    }
    *--at = (char)('0' + rest);
  }
  return at;
}

/* Writes what an answer about a line of a text says, or about what it leaves out: of a path the leaf, else something of what is shown. */
static inline void lzk_entry_text(const lzk_outcome *found, const char *which, char *room, size_t len) {
  const lzk_meaning *means = lzk_meaning_of(found->answer, found->kind);
  if (found->kind == LZK_ENTRY_MISSING && found->answer == LZK_NO_PATH) snprintf(room, len, "%s: %s: it has no leaf", which, means->name);
  else if (found->kind == LZK_ENTRY_MISSING) snprintf(room, len, "%s: %s: %s: place %u of what is shown", which, means->name, means->text, found->check);
  else snprintf(room, len, "%s at line %u: %s: %s", which, found->line, means->name, means->text);
}

/* Writes what an outcome says into a room, and gives it: one line, with no line feed. */
static inline char *lzk_text(const lzk_outcome *found, char *room, size_t len) {
  const lzk_meaning *means = lzk_meaning_of(found->answer, found->kind);
  const unsigned long long count = found->count, offset = found->offset;
  char digits[40];
  switch (found->answer) {
  case LZK_NO_CIRCUIT: snprintf(room, len, "circuit at byte %llu: %s: %s", offset, means->name, means->text); break;
  case LZK_NO_NUMBERS: snprintf(room, len, "public numbers at line %u: %s: %s", found->line, means->name, means->text); break;
  case LZK_NO_PRIVATES: snprintf(room, len, "private numbers at line %u: %s: %s", found->line, means->name, means->text); break;
  case LZK_NO_SOURCE: snprintf(room, len, "source at line %u: %s: %s", found->line, means->name, means->text); break;
  case LZK_NO_ROOM: snprintf(room, len, "%s: %llu", means->text, count); break;
  case LZK_OVER_LIMIT: snprintf(room, len, "%s: the source's circuit would need %llu, over the limit of %s", means->name, count, means->text); break;
  case LZK_UNSATISFIED: snprintf(room, len, "check %u is %s, and has to be 0: %s", found->check, lzk_digits(found->value, digits), means->text); break;
  case LZK_NO_POLICY: snprintf(room, len, "policy at line %u: %s: %s", found->line, means->name, means->text); break;
  case LZK_NO_PATH: lzk_entry_text(found, "path", room, len); break;
  case LZK_NO_VALUES: lzk_entry_text(found, "values", room, len); break;
  case LZK_NO_SHOWN: lzk_entry_text(found, "what was shown", room, len); break;
  case LZK_NO_SECRET:
  case LZK_NO_RECORD:
  case LZK_NO_NODES: snprintf(room, len, "%s: %s: %llu", means->name, means->text, count); break;
  case LZK_NOT_TRUE: snprintf(room, len, "%s: %s: place %u of what is shown", means->name, means->text, found->check); break;
  default: snprintf(room, len, "%s: %s", means->name, means->text);
  }
  return room;
}

/* 32 bytes in 64 hexadecimal digits. */
static inline const char *lzk_hex(const uint8_t *bytes, char *room) {
  for (int i = 0; i < 32; i++) snprintf(room + 2 * i, 3, "%02x", bytes[i]);
  return room;
}

/* Writes what a report says into a room, and gives it: of a verdict the line that `zk verify` prints, else that of lzk_text. */
static inline char *lzk_report_text(const lzk_report *found, char *room, size_t len) {
  char one[65], other[40];
  lzk_outcome same = {0, 0, 0, 0, 0, 0, {0}};
  switch (found->answer == LZK_REJECTED ? found->check : 0) {
  case LZK_FORMAT: snprintf(room, len, "rejected: format at byte %llu: %s", (unsigned long long)found->offset, lzk_proof_meaning(found->kind)->name); return room;
  case LZK_CIRCUIT_ID: snprintf(room, len, "rejected: circuit id %s", lzk_hex(found->found_digest, one)); return room;
  case LZK_PATH_COUNT: snprintf(room, len, "rejected: path count %u, needed %u", found->found_count, found->needed_count); return room;
  case LZK_ROOT: snprintf(room, len, "rejected: root %s", lzk_hex(found->found_digest, one)); return room;
  case LZK_LOW_DEGREE: snprintf(room, len, "rejected: low degree at column %u", found->column); return room;
  case LZK_LINEAR_SUM:
    snprintf(room, len, "rejected: linear sum %s, wanted %s", lzk_digits(found->found_sum, one), lzk_digits(found->wanted_sum, other));
    return room;
  case LZK_LINEAR: snprintf(room, len, "rejected: linear at column %u", found->column); return room;
  case LZK_QUADRATIC: snprintf(room, len, "rejected: quadratic at column %u", found->column); return room;
  default: break;
  }
  if (found->answer == LZK_ACCEPTED) {
    snprintf(room, len, "accepted");
    return room;
  }
  same.answer = found->answer, same.kind = found->kind, same.line = found->line, same.offset = found->offset;
  return lzk_text(&same, room, len);
}

/* Writes what an info says into a room, and gives it: one line with all of it, or that of lzk_text. */
static inline char *lzk_info_text(const lzk_info *found, char *room, size_t len) {
  lzk_outcome same = {0, 0, 0, 0, 0, 0, {0}};
  char id[65];
  same.answer = found->answer, same.kind = found->kind, same.offset = found->offset;
  if (found->answer != LZK_DONE) return lzk_text(&same, room, len);
  snprintf(room, len, "field %s, version %u, public %u, private %u, layers %u, checks %u, id %s",
           found->field == 1 ? "goldilocks" : found->field == 2 ? "gf2_128" : "prime128", found->version, found->publics,
           found->privates, found->layers, found->checks, lzk_hex(found->id, id));
  return room;
}

#undef LZK_ROW
#ifdef __cplusplus
}
#endif
#endif
