/* Tests of the calls that make something, and of the desk:  made [TIMES [WATCHED]] Linked with --wrap for malloc,
   calloc, realloc and free. Each of 4 threads proves TIMES times (20). With WATCHED the stack is not looked at,
   which valgrind forbids. Prints a line for each test, and ends with 1 where one is wrong. */
#define _DEFAULT_SOURCE
#include "lzk.h"
#include <malloc.h>
#include <pthread.h>
#include <stdio.h>
#include <stdlib.h>
#include <string.h>

static long refused_at, requests, frees, unclean, reallocs;
/* What is looked at of a block that is given back: nothing; of one of library/heap.c as many bytes as it says in
   front; the whole block. */
static enum { NOTHING, BEHIND_HEAD, WHOLE } is_watched;

void *__real_malloc(size_t size);
void *__real_calloc(size_t count, size_t size);
void *__real_realloc(void *old, size_t size);
void __real_free(void *block);

static int is_refused(void) { return refused_at > 0 && ++requests == refused_at; }
/* Where whole blocks are looked at, what malloc leaves in them is no fault of the library's. */
void *__wrap_malloc(size_t size) {
  void *block = is_refused() ? NULL : __real_malloc(size);
  if (block && is_watched == WHOLE) memset(block, 0, malloc_usable_size(block));
  return block;
}
void *__wrap_calloc(size_t count, size_t size) { return is_refused() ? NULL : __real_calloc(count, size); }
void *__wrap_realloc(void *old, size_t size) {
  reallocs++;
  return is_refused() ? NULL : __real_realloc(old, size);
}
/* While it watches: nothing but zeros stands in a block that is given back. */
void __wrap_free(void *block) {
  if (block && is_watched) {
    size_t size, from = is_watched == WHOLE ? 0 : 16;
    memcpy(&size, block, sizeof size);
    frees++;
    if (is_watched == WHOLE) size = malloc_usable_size(block);
    if (size > malloc_usable_size(block)) unclean++;
    else
      for (size_t at = 0; at < size; at++)
        if (((uint8_t *)block)[from + at]) {
          unclean++;
          break;
        }
  }
  __real_free(block);
}

static int wrong;
static void told(const char *what, int is_right) {
  printf("%s: %s\n", is_right ? "right" : "WRONG", what);
  wrong += !is_right;
}

static const char *sources[] = {"field goldilocks\npublic y\nprivate x\nassert x*x = y\n", "field gf2_128\npublic y\nprivate x\nassert x*x*x = y\n"};
static const char *publics[] = {"1000000", "0x1"}, *privates[] = {"1000", "1"};
static uint8_t circuit[1 << 16], proof[LZK_MOST_PROOF], other[LZK_MOST_PROOF], seed[32] = "a seed of thirty-two bytes: 0123";

#define T(text) (const uint8_t *)(text), strlen(text)

static uint32_t prove(size_t circuit_len, int which, uint8_t *room, size_t size, lzk_outcome *found) {
  return lzk_prove(circuit, circuit_len, T(publics[which]), T(privates[which]), T("nonce"), seed, room, size, found);
}

static int is_outcome(lzk_outcome found, uint32_t answer, uint32_t kind, uint32_t line, uint64_t count) {
  return found.answer == answer && found.kind == kind && found.line == line && found.count == count;
}

static void *prove_often(void *arg) {
  static uint8_t rooms[4][LZK_MOST_PROOF];
  long *at = arg;
  lzk_outcome found;
  size_t len = (size_t)at[0];
  for (long i = 0; i < at[3]; i++) {
    if (prove(len, 1, rooms[at[1]], LZK_MOST_PROOF, &found) || memcmp(rooms[at[1]], proof, found.count)) at[2]++;
  }
  return NULL;
}

/* A call with each request for memory refused in turn, until none is. How many were refused; or -1 where an answer
   was wrong. */
static long refuse_each(size_t len, const char *which) {
  static uint8_t room[LZK_MOST_PROOF];
  lzk_outcome found;
  lzk_info info;
  memset(room, 0xaa, 64);
  for (long at = 1;; at++) {
    uint32_t answer = LZK_NULL;
    requests = 0, refused_at = at;
    if (!strcmp(which, "eval")) answer = lzk_eval(circuit, len, T(publics[1]), T(privates[1]), &found);
    if (!strcmp(which, "upgrade")) answer = lzk_upgrade(circuit, len, room, sizeof room, &found);
    if (!strcmp(which, "compile")) answer = lzk_compile(1, T(sources[0]), room, sizeof room, &found);
    if (!strcmp(which, "info")) answer = lzk_circuit_info(circuit, len, &info);
    if (!strcmp(which, "prove")) answer = prove(len, 1, room, sizeof room, &found);
    refused_at = 0;
    if (answer == LZK_DONE) return at - 1;
    if (answer != LZK_NO_MEMORY || room[0] != 0xaa) return -1;
  }
}

/* The same of a desk that is fed a proof in two pieces: a call that is refused memory is made again. */
static long refuse_desk(size_t len, size_t proof_len) {
  for (long at = 1, met = 1; met; at++) {
    lzk_desk *desk;
    lzk_report report;
    met = 0, requests = 0, refused_at = at;
    if (lzk_desk_open(&desk, circuit, len, T("1"), T("nonce")) == LZK_NO_MEMORY) met++, refused_at = 0, lzk_desk_open(&desk, circuit, len, T("1"), T("nonce"));
    if (lzk_desk_feed(desk, proof, 9000) == LZK_NO_MEMORY) met++, refused_at = 0, lzk_desk_feed(desk, proof, 9000);
    if (lzk_desk_feed(desk, proof + 9000, proof_len - 9000) == LZK_NO_MEMORY) met++, refused_at = 0, lzk_desk_feed(desk, proof + 9000, proof_len - 9000);
    if (lzk_desk_end(desk, &report) == LZK_NO_MEMORY) met++, refused_at = 0, lzk_desk_end(desk, &report);
    refused_at = 0;
    lzk_desk_free(desk);
    if (met > 1 || report.answer != LZK_ACCEPTED) return -1;
    if (!met) return at - 1;
  }
  return -1;
}

/* The stack below a call is painted before it, and looked at after it: a byte there is as it was painted, or zero. */
enum { PAINTED = 200 << 10, PAINT = 0xa5, NEAR = 512 };

static __attribute__((noinline)) void paint(void) {
  volatile uint8_t below[PAINTED];
  for (size_t at = 0; at < PAINTED; at++) below[at] = PAINT;
  (void)below[0];
}

/* How many bytes below the stack are neither; and in *depth how far down the call went. */
static __attribute__((noinline)) long left_below(long *depth) {
  const volatile uint8_t *here = __builtin_frame_address(0);
  long found = 0;
  *depth = 0;
  for (const volatile uint8_t *at = here - PAINTED + 4096; at < here - NEAR; at++) {
    if (*at != PAINT && !*depth) *depth = here - at;
    found += *at != PAINT && *at != 0;
  }
  return found;
}

/* Whether some bytes stand in the memory below the stack that a call used. */
static __attribute__((noinline)) int stands_below(const uint8_t *what, size_t len) {
  const volatile uint8_t *here = __builtin_frame_address(0);
  int found = 0;
  for (const volatile uint8_t *at = here - PAINTED + 4096; at < here - NEAR - len; at++) {
    size_t k = 0;
    while (k < len && at[k] == what[k]) k++;
    found += k == len;
  }
  return found;
}

/* A private number of 8 bytes, as a text and as it lies in memory. */
static const char number[] = "0x1122334455667788 0";
static const uint8_t number_bytes[8] = {0x88, 0x77, 0x66, 0x55, 0x44, 0x33, 0x22, 0x11};

/* A statement of so many layers over a field, which is true where the second number is 0. */
static size_t deep_circuit(const char *field, int layers) {
  static char source[1 << 16];
  static lzk_outcome made;
  size_t len = (size_t)sprintf(source, "field %s\nprivate x0\nprivate z\n", field);
  for (int k = 1; k < layers; k++) len += (size_t)sprintf(source + len, "let x%d = x%d*x%d\n", k, k - 1, k - 1);
  len += (size_t)sprintf(source + len, "assert x%d*z = 0\n", layers - 1);
  return lzk_compile(1, (const uint8_t *)source, len, other, sizeof other, &made) == LZK_DONE ? made.count : 0;
}

/* A statement of one layer and many inputs, which is true where the last number is 0; and their text. */
enum { WIDE = 5000 };
static char wide_numbers[24 * WIDE];

static size_t wide_circuit(const char *field) {
  static char source[48 * WIDE];
  static lzk_outcome made;
  size_t len = (size_t)sprintf(source, "field %s\nprivate z\n", field), at = (size_t)sprintf(wide_numbers, "0");
  for (int k = 0; k < WIDE; k++) {
    len += (size_t)sprintf(source + len, "private x%d\nassert x%d*z = 0\n", k, k);
    at += (size_t)sprintf(wide_numbers + at, " 0x1122334455667788");
  }
  return lzk_compile(1, (const uint8_t *)source, len, other, sizeof other, &made) == LZK_DONE ? made.count : 0;
}

/* Whether nothing of lzk_eval and lzk_prove is left in the stack: for each field, of one layer and of as many as
   the limits allow, and of many inputs. */
static int are_cleared(void) {
  static const char *fields[] = {"goldilocks", "gf2_128"};
  static const int layers[] = {1, 100, 512, 0};
  static lzk_outcome found;
  int cleared = 1;
  for (int which = 0; which < 8; which++) {
    const int deep = layers[which % 4];
    const size_t len = deep ? deep_circuit(fields[which / 4], deep) : wide_circuit(fields[which / 4]);
    const char *numbers = deep ? number : wide_numbers;
    long evaluated, proved, left;
    cleared &= len > 0;
    paint();
    cleared &= lzk_eval(other, len, T(""), T(numbers), &found) == LZK_DONE;
    left = left_below(&evaluated);
    cleared &= !left && !stands_below(number_bytes, 8);
    paint();
    cleared &= lzk_prove(other, len, T(""), T(numbers), T(""), seed, proof, sizeof proof, &found) == LZK_DONE;
    left += left_below(&proved);
    cleared &= !left && !stands_below(number_bytes, 8) && !stands_below(seed, 32);
    printf("stack of %s, %d layers%s: %ld and %ld KiB down, %ld bytes left\n", fields[which / 4], deep ? deep : 1, deep ? "" : ", wide",
           (evaluated + 1023) >> 10, (proved + 1023) >> 10, left);
  }
  return cleared;
}

/* Whether all that a desk gives back is zero, while it grows too, and whether nothing is moved by realloc, which
   may leave a copy. */
static int is_desk_cleared(size_t len, size_t proof_len) {
  lzk_desk *desk;
  lzk_report report;
  frees = unclean = reallocs = 0, is_watched = WHOLE;
  int right = lzk_desk_open(&desk, circuit, len, T("1"), T("nonce")) == LZK_DONE;
  for (size_t at = 0; at < proof_len; at += 997) right &= lzk_desk_feed(desk, proof + at, proof_len - at < 997 ? proof_len - at : 997) == LZK_DONE;
  is_watched = 0;
  right &= lzk_desk_end(desk, &report) == LZK_ACCEPTED;
  is_watched = WHOLE;
  lzk_desk_free(desk);
  is_watched = 0;
  return right && frees > 3 && !unclean && !reallocs;
}

/* Whether seeds are given, other ones each time, and NULL is none. */
static int are_seeds_given(void) {
  uint8_t one[34] = {0}, two[34] = {0}, none[34] = {0};
  int right = lzk_random_seed(one + 1) == LZK_DONE && lzk_random_seed(two + 1) == LZK_DONE && memcmp(one, two, 34) && memcmp(one, none, 34);
  return right && !one[0] && !one[33] && lzk_random_seed(NULL) == LZK_NULL;
}

int main(int count, char **words) {
  lzk_outcome found;
  lzk_info info;
  lzk_report report, whole;
  lzk_desk *desk = NULL;
  size_t len = 0, proof_len = 0;
  long times = count > 1 ? atol(words[1]) : 20;
  for (int which = 0; which < 2; which++)
    for (uint32_t version = 1; version <= 2; version++) {
      memset(circuit, 0xaa, sizeof circuit);
      int same = lzk_compile(version, T(sources[which]), circuit, 3, &found) == LZK_NO_ROOM && circuit[0] == 0xaa;
      len = found.count;
      same &= lzk_compile(version, T(sources[which]), circuit, len, &found) == LZK_DONE && found.count == len && circuit[len] == 0xaa;
      same &= lzk_circuit_info(circuit, len, &info) == LZK_DONE && info.version == version && info.field == (uint32_t)which + 1 && info.publics == 1 && info.privates == 1;
      told("a source is compiled into the room that it needs", same);
      same = lzk_eval(circuit, len, T(publics[which]), T(privates[which]), &found) == LZK_DONE && found.count == 0;
      same &= lzk_eval(circuit, len, T(publics[which]), T("2"), &found) == LZK_UNSATISFIED && found.check == 0 && found.value[0] + found.value[1] > 0;
      told("numbers are evaluated", same);
      same = prove(len, which, proof, sizeof proof, &found) == LZK_DONE;
      proof_len = found.count;
      memset(other, 0xaa, sizeof other);
      same &= prove(len, which, other, proof_len - 1, &found) == LZK_NO_ROOM && found.count == proof_len && other[0] == 0xaa;
      same &= prove(len, which, other, proof_len, &found) == LZK_DONE && !memcmp(proof, other, proof_len) && other[proof_len] == 0xaa;
      same &= lzk_verify(circuit, len, T(publics[which]), T("nonce"), proof, proof_len) == LZK_ACCEPTED;
      told("a proof is put into the room that it needs, and is accepted", same);
    }
  told("refusals are told", lzk_compile(3, T(sources[0]), other, 9, &found) == LZK_NO_VERSION && lzk_compile(1, T("field x\n"), other, 9, &found) == LZK_NO_SOURCE &&
       is_outcome(found, LZK_NO_SOURCE, LZK_SOURCE_SYNTAX, 1, 0) && lzk_prove(circuit, len, T("1 1"), T("1"), T(""), seed, other, 9, &found) == LZK_NO_NUMBERS &&
       is_outcome(found, LZK_NO_NUMBERS, LZK_NUMBER_TOO_MANY, 1, 0) && lzk_prove(circuit, len, T("1"), T("\nx"), T(""), seed, other, 9, &found) == LZK_NO_PRIVATES &&
       is_outcome(found, LZK_NO_PRIVATES, LZK_NUMBER_SYNTAX, 2, 0) && lzk_prove(proof, proof_len, T("1"), T("1"), T(""), seed, other, 9, &found) == LZK_NO_CIRCUIT &&
       found.kind == LZK_CIRCUIT_MAGIC);
  told("a circuit of version 2 is put, and one of SHA-256 where there is room",
       lzk_upgrade(circuit, len, other, sizeof other, &found) == LZK_DONE && lzk_circuit_info(other, found.count, &info) == LZK_DONE && info.version == 2 &&
       lzk_upgrade(circuit, 3, other, sizeof other, &found) == LZK_NO_CIRCUIT && lzk_sha_circuit(3, other, 9, &found) == LZK_NO_ROOM && found.count > 9 &&
       lzk_sha_circuit(56, other, 9, &found) == LZK_TOO_LONG && lzk_sha_circuit(3, NULL, 9, &found) == LZK_NULL && lzk_upgrade(NULL, 3, other, 9, &found) == LZK_NULL);
  told("NULL is refused, and is empty where it has no bytes",
       lzk_prove(NULL, 1, T("1"), T("1"), T(""), seed, other, 9, &found) == LZK_NULL && found.answer == LZK_NULL && lzk_prove(circuit, len, T("1"), T("1"), T(""), NULL, other, 9, &found) == LZK_NULL &&
       lzk_prove(circuit, len, T("1"), T("1"), T(""), seed, NULL, 9, &found) == LZK_NULL && lzk_prove(circuit, len, T("1"), T("1"), T(""), seed, other, 9, NULL) == LZK_NULL &&
       lzk_prove(circuit, len, T("1"), T("1"), NULL, 0, seed, NULL, 0, &found) == LZK_NO_ROOM && lzk_circuit_info(NULL, 0, &info) == LZK_NO_CIRCUIT &&
       lzk_circuit_info(circuit, len, NULL) == LZK_NULL && lzk_verify(NULL, 0, NULL, 0, NULL, 0, NULL, 0) == LZK_NO_CIRCUIT && lzk_verify(circuit, len, NULL, 4, NULL, 0, NULL, 0) == LZK_NULL &&
       lzk_compile(1, NULL, 0, NULL, 0, &found) == LZK_NO_SOURCE && lzk_desk_feed(NULL, NULL, 0) == LZK_NULL && lzk_desk_end(NULL, &report) == LZK_NULL);
  lzk_desk_free(NULL);

  int same = lzk_desk_open(&desk, circuit, len, T("1"), T("nonce")) == LZK_DONE;
  for (size_t size = 1; size < 100000; size = size * 3 + 1)
    for (int damage = 0; damage < 2; damage++) {
      proof[9000] ^= damage;
      for (size_t at = 0; at < proof_len; at += size) same &= lzk_desk_feed(desk, proof + at, proof_len - at < size ? proof_len - at : size) == LZK_DONE;
      lzk_desk_end(desk, &report);
      lzk_explain(circuit, len, T("1"), T("nonce"), proof, proof_len, &whole);
      same &= !memcmp(&report, &whole, sizeof whole) && (whole.answer == LZK_REJECTED) == damage;
      proof[9000] ^= damage;
    }
  for (int i = 0; i < 3; i++) lzk_desk_feed(desk, i ? other : proof, i ? sizeof other : proof_len);
  same &= lzk_desk_end(desk, &report) == LZK_REJECTED && report.check == LZK_FORMAT && report.kind == LZK_PROOF_TRAILING && report.offset == proof_len;
  same &= lzk_desk_end(desk, &report) == LZK_REJECTED && report.offset == 0;
  lzk_desk_free(desk);
  told("a desk tells what is told of the whole", same);

  long places[4][4] = {{0}};
  pthread_t threads[4];
  pthread_attr_t small;
  pthread_attr_init(&small);
  pthread_attr_setstacksize(&small, 256 << 10);
  for (long i = 0; i < 4; i++) places[i][0] = (long)len, places[i][1] = i, places[i][3] = times, pthread_create(&threads[i], &small, prove_often, places[i]);
  for (long i = 0; i < 4; i++) pthread_join(threads[i], NULL);
  told("4 threads with a stack of 256 KiB prove side by side", places[0][2] + places[1][2] + places[2][2] + places[3][2] == 0);

  told("out of memory is told by lzk_eval", refuse_each(len, "eval") > 5);
  told("out of memory is told by lzk_compile", refuse_each(len, "compile") > 5);
  told("out of memory is told by lzk_upgrade", refuse_each(len, "upgrade") > 1);
  told("out of memory is told by lzk_circuit_info", refuse_each(len, "info") > 1);
  told("out of memory is told by lzk_prove, and the room is as it was", refuse_each(len, "prove") > 20);
  told("out of memory is told by a desk, which goes on", refuse_desk(len, proof_len) > 20);

  is_watched = BEHIND_HEAD;
  lzk_eval(circuit, len, T(publics[1]), T(privates[1]), &found);
  lzk_compile(1, T(sources[1]), other, sizeof other, &found);
  prove(len, 1, other, sizeof other, &found);
  is_watched = 0;
  told("every block that a call gives back is zero", frees > 50 && unclean == 0);
  told("every block that a desk gives back is zero", is_desk_cleared(len, proof_len));
  told("seeds are given by the system", are_seeds_given());
  if (count < 3) told("nothing is left in the stack, at any depth", are_cleared());
  return wrong > 0;
}
