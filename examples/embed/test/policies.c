/* Tests of the calls for policies:  policies [WATCHED] Each call does what it must and refuses what it must, each request
   for memory is refused in turn, and nothing of a record is left in memory or in the stack. With WATCHED the stack is
   not looked at, which valgrind forbids. Prints a line for each test, and ends with 1 where one is wrong. Linked with
   --wrap for malloc, calloc, realloc and free. */
#include "lzk_text.h"
#include <malloc.h>
#include <stdio.h>
#include <stdlib.h>
#include <string.h>

static long refused_at, requests, unclean;
static int is_watched;

void *__real_malloc(size_t size);
void __real_free(void *block);

void *__wrap_malloc(size_t size) { return refused_at > 0 && ++requests == refused_at ? NULL : __real_malloc(size); }
void *__wrap_calloc(size_t count, size_t size) {
  void *block = __wrap_malloc(count * size);
  return block ? memset(block, 0, count * size) : NULL;
}
void *__wrap_realloc(void *old, size_t size) {
  (void)old, (void)size;
  return NULL;
}
/* While it watches: behind its head nothing but zeros stands in a block that is given back. */
void __wrap_free(void *block) {
  if (block && is_watched) {
    size_t size;
    memcpy(&size, block, sizeof size);
    for (size_t at = 0; at < size && at + 16 < malloc_usable_size(block); at++)
      if (((uint8_t *)block)[16 + at]) {
        unclean++;
        break;
      }
  }
  __real_free(block);
}

static int wrong;
static void told(const char *what, int is_right) {
  printf("%s: %s\n", is_right ? "right" : "WRONG", what);
  wrong += !is_right;
}

static const char policy[] = "record 47\nfield birth date at 4\nfield country text 2 at 12\nfield secret bytes 16 at 15\n"
                             "show digest\nshow birth at most LATEST\nshow country as COUNTRY\nshow pseudonym of secret for SERVICE\n";
static const char values[] = "LATEST 20081129\nSERVICE 000102030405060708090a0b0c0d0e0f\n";
/* 19900101 at 4, NL at 12, and 16 bytes that nobody else knows at 15. */
static const uint8_t record[47] = {9,    9,    9,    9,    0x01, 0x2f, 0xa6, 0xc5, 9,    9,    9,    9,    'N',  'L',  9, 0xd1,
                                   0xd2, 0xd3, 0xd4, 0xd5, 0xd6, 0xd7, 0xd8, 0xd9, 0xda, 0xdb, 0xdc, 0xdd, 0xde, 0xdf, 0xe0};
static uint8_t room[1 << 21], circuit[1 << 21], proof[LZK_MOST_PROOF], shown[4096], publics[4096], seed[32] = "a seed of thirty-two bytes: 0123";
static lzk_outcome found;

#define T(text) (const uint8_t *)(text), strlen(text)
#define B(text) {(const uint8_t *)(text), strlen(text)}

static lzk_policy_given given(void) {
  const lzk_policy_given all = {B(policy), {record, sizeof record}, B(values), {NULL, 0}, {NULL, 0}};
  return all;
}

/* What a call of all that is given says, in the words of lzk_text.h. */
static const char *said(lzk_policy_given all) {
  static char text[LZK_MOST_TEXT];
  if (lzk_policy_inputs(&all, room, sizeof room, &found) != found.answer) return "another answer";
  return lzk_text(&found, text, sizeof text);
}

static int says(lzk_policy_given all, const char *wanted) { return !strcmp(said(all), wanted); }

static void whole(void) {
  const lzk_policy_given all = given();
  lzk_report report;
  size_t circuit_len, shown_len, publics_len, proof_len;
  int right = !lzk_policy_show(T(policy), room, sizeof room, &found);
  static const char lines[] = "the SHA-256 digest of the record\nbirth is at most LATEST\ncountry is COUNTRY\na pseudonym of secret for SERVICE\n";
  told("what a policy shows", right && found.count == strlen(lines) && !memcmp(room, lines, found.count));
  right = !lzk_policy_circuit(T(policy), circuit, sizeof circuit, &found);
  circuit_len = found.count;
  right &= !lzk_policy_inputs(&all, room, sizeof room, &found);
  right &= !lzk_prove(circuit, circuit_len, room, found.offset, room + found.offset, found.count - found.offset, T("nonce"), seed, proof, sizeof proof, &found);
  proof_len = found.count;
  right &= !lzk_policy_shown(&all, shown, sizeof shown, &found);
  shown_len = found.count;
  right &= !lzk_policy_public(T(policy), shown, shown_len, publics, sizeof publics, &found);
  publics_len = found.count;
  lzk_explain(circuit, circuit_len, publics, publics_len, T("nonce"), proof, proof_len, &report);
  told("a proof of what is shown", right && report.answer == LZK_ACCEPTED);
  right = !lzk_policy_inputs(&all, room, sizeof room, &found) && found.offset == publics_len && !memcmp(room, publics, publics_len);
  told("its public numbers are those that are shown", right);
  right = !lzk_policy_digest(T(policy), record, sizeof record, room, sizeof room, &found) && found.count == 32;
  for (int i = 0; i < 32; i++) {
    char digits[3];
    snprintf(digits, sizeof digits, "%02x", room[i]);
    right &= !memcmp(shown + 7 + 2 * i, digits, 2);
  }
  told("the digest of a record", right && !memcmp(shown, "digest ", 7));
}

static void refusals(void) {
  lzk_policy_given all = given();
  int right;
  all.values.len -= 41;
  right = says(all, "values: Missing: something is left out: place 2 of what is shown");
  all = given(), all.record.len--;
  right &= says(all, "NoRecord: the record has not as many bytes as the policy says: 47");
  all = given(), all.secret = all.record, all.secret.len = 16;
  right &= says(all, "NoSecret: the secret has not as many bytes as the policy wants: 0");
  all = given(), all.path.start = (const uint8_t *)"x", all.path.len = 1;
  right &= says(all, "path at line 1: Value: the word is no such date, text, tag, digest, leaf or node");
  all = given(), all.path = (lzk_bytes)B("# no leaf\n");
  right &= says(all, "path: Missing: it has no leaf") && found.kind == LZK_ENTRY_MISSING && found.line == 0;
  all = given(), all.path = (lzk_bytes)B("0\n");
  right &= says(all, "Done: done");
  all = given(), all.policy.len--, all.policy.len--;
  right &= says(all, "values at line 2: Unknown: nothing that is shown has a value of this name");
  all = given(), all.policy.len = 9;
  right &= says(all, "policy at line 2: Missing: the text ends before a record, its digest or a root, and one thing shown are there");
  all = given(), all.values = (lzk_bytes)B("LATEST 19800101\nSERVICE 000102030405060708090a0b0c0d0e0f\n");
  right &= says(all, "NotTrue: something shown is not true of the record; nothing was made: place 0 of what is shown");
  all = given(), all.values.start = NULL;
  right &= says(all, "Null: a pointer is NULL that may not be; NULL is empty only beside a length of 0");
  all = given(), all.values.start = room, all.values.len = 65537;
  right &= !strncmp(said(all), "TooLong: ", 9);
  told("refusals of inputs, and a path without nodes", right);
  right = lzk_policy_inputs(NULL, room, sizeof room, &found) == LZK_NULL && lzk_policy_shown(NULL, room, sizeof room, &found) == LZK_NULL;
  right &= lzk_policy_show(NULL, 1, room, sizeof room, &found) == LZK_NULL && lzk_policy_show(T(policy), NULL, 1, &found) == LZK_NULL;
  right &= lzk_policy_circuit(T(policy), room, sizeof room, NULL) == LZK_NULL && lzk_policy_digest(T(policy), NULL, 1, room, 9, &found) == LZK_NULL;
  right &= lzk_policy_public(T(policy), NULL, 1, room, sizeof room, &found) == LZK_NULL;
  told("NULL", right);
  memset(room, 0xaa, 64);
  right = lzk_policy_show(T(policy), room, 9, &found) == LZK_NO_ROOM && found.count == 110;
  right &= lzk_policy_digest(T(policy), record, sizeof record, room, 31, &found) == LZK_NO_ROOM && found.count == 32;
  right &= lzk_policy_show(T(policy), NULL, 0, &found) == LZK_NO_ROOM && room[0] == 0xaa;
  told("no room", right);
  right = lzk_policy_public(T(policy), T(""), room, sizeof room, &found) == LZK_NO_SHOWN && found.kind == LZK_ENTRY_MISSING && found.check == 3;
  right &= lzk_policy_public(T(policy), T("root 00"), room, sizeof room, &found) == LZK_NO_SHOWN && found.kind == LZK_ENTRY_SYNTAX && found.line == 1;
  told("refusals of what was shown", right);
}

static uint32_t call(int which) {
  const lzk_policy_given all = given();
  switch (which) {
  case 0: return lzk_policy_show(T(policy), room, sizeof room, &found);
  case 1: return lzk_policy_digest(T(policy), record, sizeof record, room, sizeof room, &found);
  case 2: return lzk_policy_inputs(&all, room, sizeof room, &found);
  case 3: return lzk_policy_shown(&all, room, sizeof room, &found);
  case 4: return lzk_policy_public(T(policy), shown, strlen((const char *)shown), room, sizeof room, &found);
  default: return lzk_policy_circuit(T(policy), room, sizeof room, &found);
  }
}

/* Each request for memory is refused in turn: there is no memory then, and the room is as it was. */
static void refuse_each(int is_valgrind) {
  /* A circuit takes minutes by valgrind. */
  for (int which = 0; which < (is_valgrind ? 5 : 6); which++) {
    /* A circuit makes many requests: one in some hundred is refused. */
    const long step = which == 5 ? 373 : 1;
    int right = 1;
    long at = 1;
    memset(room, 0xaa, 64);
    for (;; at += step) {
      uint32_t answer;
      requests = 0, refused_at = at;
      answer = call(which);
      refused_at = 0;
      if (answer == LZK_DONE) break;
      right &= answer == LZK_NO_MEMORY && found.answer == answer && room[0] == 0xaa;
      if (!right) break;
    }
    told("each request for memory refused", right && (at > 1 || which == 1));
  }
}

/* The stack below a call is painted before it, and looked at after it. */
enum { PAINTED = 200 << 10, PAINT = 0xa5, NEAR = 512 };

static __attribute__((noinline)) void paint(void) {
  volatile uint8_t below[PAINTED];
  for (size_t at = 0; at < PAINTED; at++) below[at] = PAINT;
  (void)below[0];
}

static __attribute__((noinline)) long left_below(long *depth) {
  const volatile uint8_t *here = __builtin_frame_address(0);
  long left = 0;
  *depth = 0;
  for (const volatile uint8_t *at = here - PAINTED + 4096; at < here - NEAR; at++) {
    if (*at != PAINT && !*depth) *depth = here - at;
    left += *at != PAINT && *at != 0;
  }
  return left;
}

static void cleared(int is_valgrind) {
  int right = 1;
  long deepest = 0;
  is_watched = 1;
  for (int which = 0; which < 6; which++) right &= call(which) == LZK_DONE;
  is_watched = 0;
  told("blocks are zero that are given back", right && !unclean);
  for (int which = 1; which < 4 && !is_valgrind; which++) {
    long depth;
    paint();
    right &= call(which) == LZK_DONE;
    right &= !left_below(&depth);
    deepest = depth > deepest ? depth : deepest;
  }
  if (!is_valgrind) printf("the stack with its clearing: %ld bytes\n", deepest);
  told("the stack is cleared of a record", right);
}

int main(int count, char **words) {
  (void)words;
  whole();
  refusals();
  refuse_each(count > 1);
  cleared(count > 1);
  return wrong > 0;
}
