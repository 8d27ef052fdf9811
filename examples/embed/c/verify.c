/* Verifies a proof and says which check failed, as `zk verify` does:  verify CIRCUIT PUBLIC PROOF [SESSION]
   SESSION is text here. Ends with the answer's number. */
#include "lzk_text.h"
#include <stdio.h>
#include <stdlib.h>
#include <string.h>

static lzk_bytes read_file(const char *name) {
  FILE *file = fopen(name, "rb");
  uint8_t *bytes = malloc(1);
  size_t len = 0;
  if (!file) {
    perror(name);
    exit(64);
  }
  for (size_t count = 1; count > 0; len += count) {
    bytes = realloc(bytes, len + 65536);
    if (!bytes) exit(LZK_NO_MEMORY);
    count = fread(bytes + len, 1, 65536, file);
  }
  fclose(file);
  return (lzk_bytes){bytes, len};
}

int main(int count, char **words) {
  lzk_report found;
  if (count != 4 && count != 5) {
    fprintf(stderr, "verify CIRCUIT PUBLIC PROOF [SESSION]\n");
    return 64;
  }
  lzk_bytes circuit = read_file(words[1]), numbers = read_file(words[2]), proof = read_file(words[3]);
  const char *session = count == 5 ? words[4] : "";
  lzk_explain(circuit.start, circuit.len, numbers.start, numbers.len, (const uint8_t *)session, strlen(session), proof.start, proof.len, &found);
  char text[LZK_MOST_TEXT];
  printf("%s%s\n", found.answer > LZK_REJECTED ? "refused: " : "", lzk_report_text(&found, text, sizeof text));
  free((void *)circuit.start);
  free((void *)numbers.start);
  free((void *)proof.start);
  return (int)found.answer;
}
