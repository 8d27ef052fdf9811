/* Tests of the library:  calls CIRCUIT PUBLIC PROOF TIMES All calls agree with each other on a proof, on it damaged
   at many places, cut, with another session and other numbers, and with texts and circuits that are none; 4 threads
   make TIMES calls each and agree; each request for memory is refused in turn. Prints a line for each, and ends
   with 1 where one is wrong. Linked with --wrap for malloc and realloc. */
#include "lzk.h"
#include <pthread.h>
#include <stdio.h>
#include <stdlib.h>
#include <string.h>

static long refused_at, requests; /* the request that is refused, and how many were made: for the part with one thread */

void *__real_malloc(size_t size);
void *__real_realloc(void *old, size_t size);

static int is_refused(void) { return refused_at > 0 && ++requests == refused_at; }
void *__wrap_malloc(size_t size) { return is_refused() ? NULL : __real_malloc(size); }
void *__wrap_realloc(void *old, size_t size) { return is_refused() ? NULL : __real_realloc(old, size); }

static int wrong;
static void told(const char *what, int is_right) {
  printf("%s: %s\n", is_right ? "right" : "WRONG", what);
  wrong += !is_right;
}

static lzk_bytes read_file(const char *name) {
  static uint8_t room[3][1 << 20];
  static int next;
  FILE *file = fopen(name, "rb");
  if (!file) {
    perror(name);
    exit(64);
  }
  uint8_t *bytes = room[next++];
  size_t len = fread(bytes, 1, 1 << 20, file);
  fclose(file);
  return (lzk_bytes){bytes, len};
}

static lzk_bytes text(const char *letters) { return (lzk_bytes){(const uint8_t *)letters, strlen(letters)}; }

static lzk_report explain(lzk_bytes circuit, lzk_bytes numbers, lzk_bytes session, lzk_bytes proof) {
  lzk_report found;
  memset(&found, 0xff, sizeof found);
  uint32_t answer = lzk_explain(circuit.start, circuit.len, numbers.start, numbers.len, session.start, session.len, proof.start, proof.len, &found);
  if (answer != found.answer) wrong++;
  return found;
}

static int is_same(const lzk_report *a, const lzk_report *b) {
  return a->answer == b->answer && a->check == b->check && a->kind == b->kind && a->line == b->line && a->offset == b->offset &&
         a->column == b->column && a->found_count == b->found_count && a->needed_count == b->needed_count &&
         !memcmp(a->found_digest, b->found_digest, 32) && !memcmp(a->found_sum, b->found_sum, 16) && !memcmp(a->wanted_sum, b->wanted_sum, 16);
}

/* The same proof in pieces of this size, with an empty piece behind each. */
static lzk_report in_pieces(lzk_bytes circuit, lzk_bytes numbers, lzk_bytes session, lzk_bytes proof, size_t size) {
  static lzk_bytes pieces[1 << 17];
  size_t count = 0;
  lzk_report found;
  for (size_t at = 0; at < proof.len; at += size) {
    size_t len = proof.len - at < size ? proof.len - at : size;
    pieces[count++] = (lzk_bytes){proof.start + at, len};
    pieces[count++] = (lzk_bytes){proof.start, 0};
  }
  memset(&found, 0xff, sizeof found);
  lzk_explain_pieces(circuit.start, circuit.len, numbers.start, numbers.len, session.start, session.len, pieces, count, &found);
  return found;
}

/* Whether all calls say this of a proof. */
static int agree(lzk_bytes circuit, lzk_bytes numbers, lzk_bytes session, lzk_bytes proof, uint32_t answer, uint32_t check) {
  static const size_t sizes[] = {1, 7, 32, 65536};
  lzk_report whole = explain(circuit, numbers, session, proof);
  int same = whole.answer == answer && whole.check == check;
  same &= lzk_verify(circuit.start, circuit.len, numbers.start, numbers.len, session.start, session.len, proof.start, proof.len) == answer;
  for (int i = 0; i < 4; i++) {
    lzk_report found = in_pieces(circuit, numbers, session, proof, sizes[i]);
    same &= is_same(&whole, &found);
  }
  lzk_job jobs[5];
  memset(jobs, 0xff, sizeof jobs);
  for (int i = 0; i < 5; i++) jobs[i].public_numbers = numbers, jobs[i].session = session, jobs[i].proof = proof;
  jobs[2].proof = (lzk_bytes){proof.start, 0};
  lzk_report none = explain(circuit, numbers, session, jobs[2].proof);
  lzk_explain_each(circuit.start, circuit.len, jobs, 5);
  for (int i = 0; i < 5; i++) {
    same &= is_same(&jobs[i].report, i == 2 ? &none : &whole);
    same &= jobs[i].proof.start == proof.start && jobs[i].session.len == session.len && jobs[i].public_numbers.start == numbers.start;
  }
  lzk_explain_each(circuit.start, circuit.len, jobs, 0);
  return same;
}

static lzk_bytes circuit, numbers, proof;
static uint8_t damaged[1 << 20];
static long times;

static void *call_often(void *wrong_calls) {
  for (long i = 0; i < times; i++) {
    lzk_bytes other = {damaged, proof.len};
    uint32_t answer = lzk_verify(circuit.start, circuit.len, numbers.start, numbers.len, (const uint8_t *)"", 0, i % 2 ? other.start : proof.start, proof.len);
    *(long *)wrong_calls += answer != (i % 2 ? LZK_REJECTED : LZK_ACCEPTED);
  }
  return NULL;
}

/* The reports on the proof by one of the calls that take memory. */
static void report_by(int call, lzk_report found[2]) {
  lzk_job jobs[2] = {{numbers, text(""), proof, {0}}, {numbers, text(""), proof, {0}}};
  lzk_bytes pieces[2] = {{proof.start, 1000}, {proof.start + 1000, proof.len - 1000}};
  found[0] = found[1] = (lzk_report){0};
  if (call == 0) found[0] = found[1] = explain(circuit, numbers, text(""), proof);
  if (call == 1) lzk_explain_pieces(circuit.start, circuit.len, numbers.start, numbers.len, text("").start, 0, pieces, 2, found), found[1] = found[0];
  if (call == 2) lzk_explain_each(circuit.start, circuit.len, jobs, 2), found[0] = jobs[0].report, found[1] = jobs[1].report;
}

/* Refuses each request of a call in turn. A report then says want of memory and nothing else, or is as ever; and
   the next call is as ever. */
static int refuse_each(int call, const char *name) {
  const lzk_report as_ever = {0}, no_memory = {.answer = LZK_NO_MEMORY};
  long without = 0;
  for (long number = 1;; number++) {
    lzk_report found[2], again[2];
    requests = 0, refused_at = number;
    report_by(call, found);
    refused_at = 0;
    report_by(call, again);
    int is_told = is_same(&found[0], &no_memory) || is_same(&found[1], &no_memory);
    for (int i = 0; i < 2; i++) {
      if (!is_same(&found[i], &no_memory) && !is_same(&found[i], &as_ever)) return 0;
      if (!is_same(&again[i], &as_ever)) return 0;
    }
    without += is_told;
    if (requests < number) {
      printf("%s: %ld requests refused in turn, of which want of memory was told at %ld\n", name, number - 1, without);
      return without > 0 && !is_told;
    }
  }
}

int main(int count, char **words) {
  if (count != 5) return 64;
  circuit = read_file(words[1]), numbers = read_file(words[2]), proof = read_file(words[3]);
  times = atol(words[4]);
  lzk_bytes none = text("");
  told("version", lzk_version() == LZK_VERSION_NUMBER);
  told("the proof is accepted", agree(circuit, numbers, none, proof, LZK_ACCEPTED, 0));
  told("another session", agree(circuit, numbers, text("other"), proof, LZK_REJECTED, LZK_PATH_COUNT));
  told("other numbers", agree(circuit, text("2023"), none, proof, LZK_REJECTED, LZK_PATH_COUNT));
  told("no numbers", agree(circuit, none, none, proof, LZK_NO_NUMBERS, 0));
  told("too many numbers", agree(circuit, text("1\n2 3"), none, proof, LZK_NO_NUMBERS, 0) && explain(circuit, text("1\n2 3"), none, proof).line == 2);
  told("a session of 64 bytes", agree(circuit, numbers, (lzk_bytes){proof.start, 64}, proof, LZK_REJECTED, LZK_PATH_COUNT));
  told("a session of 65 bytes", agree(circuit, numbers, (lzk_bytes){proof.start, 65}, proof, LZK_TOO_LONG, 0));
  static uint8_t blanks[4194305];
  memset(blanks, ' ', sizeof blanks);
  told("a text of 4 MiB", explain(circuit, (lzk_bytes){blanks, 4194304}, none, proof).answer == LZK_NO_NUMBERS);
  told("a longer text", explain(circuit, (lzk_bytes){blanks, 4194305}, none, proof).answer == LZK_TOO_LONG);
  told("a proof as a circuit", agree(proof, numbers, (lzk_bytes){proof.start, 65}, proof, LZK_NO_CIRCUIT, 0) &&
                                   explain(proof, numbers, none, proof).kind == LZK_CIRCUIT_MAGIC);
  told("a circuit as a proof", agree(circuit, numbers, none, circuit, LZK_REJECTED, LZK_FORMAT) &&
                                   explain(circuit, numbers, none, circuit).kind == LZK_PROOF_MAGIC);
  told("a proof that is cut", agree(circuit, numbers, none, (lzk_bytes){proof.start, proof.len - 1}, LZK_REJECTED, LZK_FORMAT));
  static const struct { size_t at; uint32_t check; } places[] = {{0, LZK_FORMAT}, {4, LZK_CIRCUIT_ID}, {36, LZK_PATH_COUNT}, {8000, LZK_ROOT}};
  for (int i = 0; i < 4; i++) {
    memcpy(damaged, proof.start, proof.len);
    damaged[places[i].at] ^= 1;
    told("a damaged proof", agree(circuit, numbers, none, (lzk_bytes){damaged, proof.len}, LZK_REJECTED, places[i].check));
  }
  pthread_t threads[4];
  long wrong_calls[4] = {0};
  pthread_attr_t small;
  pthread_attr_init(&small);
  int is_small = !pthread_attr_setstacksize(&small, 65536);
  for (int i = 0; i < 4; i++) is_small &= !pthread_create(&threads[i], &small, call_often, &wrong_calls[i]);
  for (int i = 0; is_small && i < 4; i++) pthread_join(threads[i], NULL);
  told("4 threads with stacks of 64 KiB agree", is_small && wrong_calls[0] + wrong_calls[1] + wrong_calls[2] + wrong_calls[3] == 0);
  static const char *calls[] = {"lzk_explain", "lzk_explain_pieces", "lzk_explain_each"};
  for (int call = 0; call < 3; call++) told("want of memory is told", refuse_each(call, calls[call]));
  return wrong > 0;
}
