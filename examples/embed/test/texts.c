/* Mistakes of a program in C, and the text that each gets: what is wrong, where, and mostly what to do. Prints a
   line for each that gets another, and ends with 1 where there is one. */
#include "lzk_text.h"
#include <stdio.h>
#include <string.h>

#define T(text) (const uint8_t *)(text), strlen(text)

static uint8_t circuit[4096], second[4096], proof[LZK_MOST_PROOF], seed[32] = "a seed of thirty-two bytes: 0123";
static size_t len, second_len, proof_len;
static int wrong;

/* The text is this one, or begins with it where it ends with a star. */
static void expect(const char *found, const char *wanted) {
  const size_t size = strlen(wanted);
  if (size && wanted[size - 1] == '*' ? !strncmp(found, wanted, size - 1) : !strcmp(found, wanted)) return;
  printf("WRONG: %s\nWANTED: %s\n", found, wanted);
  wrong++;
}

static void made(lzk_outcome found, const char *wanted) {
  char text[LZK_MOST_TEXT];
  expect(lzk_text(&found, text, sizeof text), wanted);
}

static lzk_outcome compiled(uint32_t version, const char *source) {
  static uint8_t room[1 << 16];
  lzk_outcome found;
  lzk_compile(version, T(source), room, sizeof room, &found);
  return found;
}

static lzk_outcome proved(const char *numbers, const char *privates, size_t session_len) {
  static const uint8_t session[65];
  lzk_outcome found;
  lzk_prove(circuit, len, T(numbers), T(privates), session, session_len, seed, proof, sizeof proof, &found);
  return found;
}

static void explained(const uint8_t *file, size_t size, const char *numbers, const char *session, const uint8_t *bytes, size_t bytes_len, const char *wanted) {
  char text[LZK_MOST_TEXT];
  lzk_report report;
  lzk_explain(file, size, T(numbers), T(session), bytes, bytes_len, &report);
  expect(lzk_report_text(&report, text, sizeof text), wanted);
}

int main(void) {
  static const char source[] = "field goldilocks\npublic y\nprivate x\nassert x*x = y\n";
  lzk_outcome found;
  lzk_info info;
  char text[LZK_MOST_TEXT], little[9];
  made(compiled(3, source), "NoVersion: there is no such version of circuits; take 1 or 2");
  made(compiled(1, "assert 1 = 1\n"), "source at line 1: NoField: the first statement is no `field` line; begin with `field goldilocks` (strong profile: `field prime128`) or `field gf2_128`");
  made(compiled(1, "field goldilocks\nassert z = 1\n"), "source at line 2: Unknown: a name was not declared on an earlier line");
  made(compiled(1, "field goldilocks\nprivate x\nprivate x\n"), "source at line 3: Twice: a name is declared again, or there is a second `field` line");
  made(compiled(1, "field goldilocks\nprivate x;\n"), "source at line 2: Character: a byte is neither a blank nor of a token");
  lzk_compile(1, T(source), circuit, 9, &found);
  made(found, "the room is too small; call again with room for as many bytes as count says: 53");
  lzk_compile(1, T(source), circuit, sizeof circuit, &found);
  len = found.count;
  made(found, "Done: done");
  lzk_compile(2, T(source), second, sizeof second, &found);
  second_len = found.count;
  made(proved("9", "4", 0), "check 0 is 7, and has to be 0: the numbers do not satisfy the circuit; look at the assert that the check is of");
  made(proved("16", "3", 0), "check 0 is 18446744069414584314, and has to be 0: *");
  made(proved("", "3", 0), "public numbers at line 1: TooFew: the text ends before as many numbers as the circuit has");
  made(proved("9 9", "3", 0), "public numbers at line 1: TooMany: there are more numbers than the circuit has");
  made(proved("9", "\n-3", 0), "private numbers at line 2: Syntax: a word is no number; write decimal digits, or hexadecimal ones after 0x, with no sign");
  made(proved("18446744069414584321", "3", 0), "public numbers at line 1: TooLarge: a number is not below the field's size");
  made(proved("9", "3", 65), "TooLong: a session has more than 64 bytes, a text more than 4,194,304 (of a policy 65,536), or a message for sha_circuit more than 55; shorten it, a session by its SHA-256");
  lzk_prove(circuit, len, T("9"), T("3"), T("nonce"), NULL, proof, sizeof proof, &found);
  made(found, "Null: a pointer is NULL that may not be; NULL is empty only beside a length of 0");
  lzk_prove(circuit, len, T("9"), T("3"), T("nonce"), seed, proof, sizeof proof, &found);
  proof_len = found.count;
  lzk_prove(proof, proof_len, T("9"), T("3"), T("nonce"), seed, second, 9, &found);
  made(found, "circuit at byte 0: Magic: the bytes begin with neither LZC1 nor LZC2 (strong profile: LSC1, LSC2); is this another file, a proof or a source?");
  lzk_upgrade(circuit, len - 1, second, 9, &found);
  made(found, "circuit at byte *");

  lzk_circuit_info(circuit, len, &info);
  expect(lzk_info_text(&info, text, sizeof text), "field goldilocks, version 1, public 1, private 1, layers 1, checks 1, id *");
  lzk_circuit_info(proof, proof_len, &info);
  expect(lzk_info_text(&info, text, sizeof text), "circuit at byte 0: Magic: *");

  explained(circuit, len, "9", "nonce", proof, proof_len, "accepted");
  explained(circuit, len, "9", "other", proof, proof_len, "rejected: path count *");
  explained(circuit, len, "9", "nonce", circuit, len, "rejected: format at byte 0: Magic");
  explained(circuit, len, "9", "nonce", proof, proof_len - 1, "rejected: format at byte *");
  explained(second, second_len, "9", "nonce", proof, proof_len, "rejected: circuit id *");
  explained(circuit, len, "x", "nonce", proof, proof_len, "public numbers at line 1: Syntax: *");
  expect(lzk_check_meaning(3)->text, "mostly the session or the public numbers are not the prover's");

  /* Numbers that no answer has, the widest values, and a room that is too small for them. */
  found = (lzk_outcome){77, 77, UINT32_MAX, UINT32_MAX, UINT64_MAX, UINT64_MAX, {0}};
  memset(found.value, 0xff, sizeof found.value);
  made(found, "Unknown: there is no text for this number; is the library newer than this header?");
  found.answer = LZK_UNSATISFIED;
  made(found, "check 4294967295 is 340282366920938463463374607431768211455, and has to be 0: *");
  for (uint32_t answer = 0; answer < 28; answer++)
    for (uint32_t kind = 0; kind < 16; kind++) {
      found.answer = answer, found.kind = kind;
      if (strlen(lzk_text(&found, text, sizeof text)) >= LZK_MOST_TEXT - 1) expect(text, "a text that is not cut off");
    }
  expect(lzk_text(&found, little, sizeof little), "Unknown:");
  if (!wrong) printf("texts: all are right\n");
  return wrong > 0;
}
