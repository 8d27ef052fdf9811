/* What a call costs:  cost CIRCUIT PUBLIC PROOF TIMES Prints the processor time of one lzk_verify, best of five
   rounds of TIMES, and of one proof of lzk_explain_each over TIMES jobs. Ends with 1 where a proof is not accepted. */
#include "lzk.h"
#include <stdio.h>
#include <stdlib.h>
#include <time.h>

static lzk_bytes read_file(const char *name) {
  FILE *file = fopen(name, "rb");
  uint8_t *bytes = malloc(1 << 22);
  if (!file || !bytes) exit(64);
  size_t len = fread(bytes, 1, 1 << 22, file);
  fclose(file);
  return (lzk_bytes){bytes, len};
}

static double micros(clock_t from, long times) { return (double)(clock() - from) * 1e6 / CLOCKS_PER_SEC / (double)times; }

int main(int count, char **words) {
  if (count != 5 || atol(words[4]) < 1) return 64;
  lzk_bytes circuit = read_file(words[1]), numbers = read_file(words[2]), proof = read_file(words[3]);
  lzk_bytes none = {(const uint8_t *)"", 0};
  long times = atol(words[4]), wrong = 0;
  lzk_job *jobs = calloc((size_t)times, sizeof *jobs);
  double alone = 1e9, listed = 1e9;
  if (!jobs) return 64;
  for (long i = 0; i < times; i++) jobs[i].public_numbers = numbers, jobs[i].session = none, jobs[i].proof = proof;
  for (int round = 0; round < 5; round++) {
    clock_t from = clock();
    for (long i = 0; i < times; i++)
      wrong += lzk_verify(circuit.start, circuit.len, numbers.start, numbers.len, none.start, 0, proof.start, proof.len) != LZK_ACCEPTED;
    double spent = micros(from, times);
    if (spent < alone) alone = spent;
    from = clock();
    lzk_explain_each(circuit.start, circuit.len, jobs, (size_t)times);
    spent = micros(from, times);
    if (spent < listed) listed = spent;
    for (long i = 0; i < times; i++) wrong += jobs[i].report.answer != LZK_ACCEPTED;
  }
  printf("lzk_verify: %.0f microseconds a call\nlzk_explain_each: %.0f microseconds a proof\n", alone, listed);
  free(jobs);
  return wrong > 0;
}
