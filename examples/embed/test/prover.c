/* Proves and verifies:  prover CIRCUIT PUBLIC PRIVATE SESSION SEED PROOF SESSION and SEED are hexadecimal digits,
   and a dot is no session. Writes the proof where it is accepted whole and by a desk that is fed pieces, and
   rejected for another session. Ends with the answer's number, or with 65 where a verdict is another. */
#include "lzk_text.h"
#include <stdio.h>
#include <stdlib.h>
#include <string.h>

static lzk_bytes read_file(const char *name) {
  FILE *file = fopen(name, "rb");
  uint8_t *bytes = malloc(LZK_MOST_CIRCUIT);
  if (!file || !bytes) {
    perror(name);
    exit(64);
  }
  const size_t len = fread(bytes, 1, LZK_MOST_CIRCUIT, file);
  fclose(file);
  return (lzk_bytes){bytes, len};
}

static size_t of_hex(const char *digits, uint8_t *room, size_t most) {
  size_t len = 0;
  unsigned byte;
  while (len < most && sscanf(digits + 2 * len, "%2x", &byte) == 1) room[len++] = (uint8_t)byte;
  return len;
}

int main(int count, char **words) {
  static uint8_t proof[LZK_MOST_PROOF];
  uint8_t session[64] = {0}, seed[32];
  char text[LZK_MOST_TEXT];
  lzk_outcome found;
  lzk_report report;
  lzk_desk *desk;
  if (count != 7 || of_hex(words[5], seed, 32) != 32) return fprintf(stderr, "prover CIRCUIT PUBLIC PRIVATE SESSION SEED PROOF\n"), 64;
  const lzk_bytes circuit = read_file(words[1]), numbers = read_file(words[2]), privates = read_file(words[3]);
  const size_t session_len = of_hex(words[4], session, sizeof session);
  if (lzk_prove(circuit.start, circuit.len, numbers.start, numbers.len, privates.start, privates.len, session, session_len, seed, proof, sizeof proof, &found))
    return printf("%s\n", lzk_text(&found, text, sizeof text)), (int)found.answer;
  uint32_t wrong = lzk_verify(circuit.start, circuit.len, numbers.start, numbers.len, session, session_len, proof, found.count);
  wrong |= lzk_desk_open(&desk, circuit.start, circuit.len, numbers.start, numbers.len, session, session_len);
  for (size_t at = 0; at < found.count; at += 4000) wrong |= lzk_desk_feed(desk, proof + at, found.count - at < 4000 ? found.count - at : 4000);
  wrong |= lzk_desk_end(desk, &report);
  lzk_desk_free(desk);
  session[0] ^= 1;
  wrong |= lzk_verify(circuit.start, circuit.len, numbers.start, numbers.len, session, session_len + !session_len, proof, found.count) != LZK_REJECTED;
  if (wrong) return printf("a verdict is another\n"), 65;
  FILE *file = fopen(words[6], "wb");
  return !file || fwrite(proof, 1, found.count, file) != found.count || fclose(file) ? 64 : 0;
}
