/* Compiles a statement, proves it and verifies the proof:  prove SOURCE PUBLIC PRIVATE
   The last two are numbers in words, as "9" and "3". Ends with the answer's number. */
#define _DEFAULT_SOURCE
#include "lzk_text.h"
#include <stdio.h>
#include <stdlib.h>
#include <string.h>

static const uint8_t *at(const char *text) { return (const uint8_t *)text; }

static int fail(const char *what, const lzk_outcome *found) {
  char text[LZK_MOST_TEXT];
  printf("%s: %s\n", what, lzk_text(found, text, sizeof text));
  return (int)found->answer;
}

static size_t read_file(const char *name, uint8_t *room, size_t size) {
  FILE *file = fopen(name, "rb");
  if (!file) {
    perror(name);
    exit(64);
  }
  size = fread(room, 1, size, file);
  fclose(file);
  return size;
}

int main(int count, char **words) {
  static uint8_t source[65536], circuit[65536], proof[LZK_MOST_PROOF];
  uint8_t seed[32];
  lzk_outcome found;
  lzk_info info;
  if (count != 4) return fprintf(stderr, "prove SOURCE PUBLIC PRIVATE\n"), 64;
  size_t source_len = read_file(words[1], source, sizeof source);

  if (lzk_compile(1, source, source_len, circuit, sizeof circuit, &found)) return fail("compile", &found);
  size_t circuit_len = found.count;
  lzk_circuit_info(circuit, circuit_len, &info);
  printf("circuit: %zu bytes, %u public, %u private, %u layers, %u checks\n", circuit_len, info.publics, info.privates,
         info.layers, info.checks);

  if (lzk_random_seed(seed)) return LZK_NO_RANDOM;
  uint32_t answer = lzk_prove(circuit, circuit_len, at(words[2]), strlen(words[2]), at(words[3]), strlen(words[3]), at("nonce"), 5, seed, proof,
                              sizeof proof, &found);
  explicit_bzero(seed, sizeof seed);
  if (answer) return fail("prove", &found);
  size_t proof_len = found.count;

  answer = lzk_verify(circuit, circuit_len, at(words[2]), strlen(words[2]), at("nonce"), 5, proof, proof_len);
  printf("%s\n", answer == LZK_ACCEPTED ? "accepted" : "rejected");
  return (int)answer;
}
