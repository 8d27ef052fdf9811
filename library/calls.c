/* The library's calls as include/lzk.h declares them: each refuses NULL, and makes the call of crates/lzk_c
   or crates/lzk_c_prove, whose name ./build-library changes from lzk_NAME to lzk_proved_NAME.
   And the desk, which keeps what it is fed and makes one call at its end. Nobody proves this file: it is tested. */
#define _DEFAULT_SOURCE
#include "lzk.h"
#include <stdlib.h>
#include <string.h>
#include <sys/random.h>

/* How many bytes of the stack are set to zero after a call with secrets: evaluating calls itself for each layer.
   Measured over 512 layers, the most that a circuit may have, it goes 41 KiB down over Goldilocks and 82 over
   GF(2^128), and 2 over one layer; proving 52 and 100, and 41 and 59 over one layer. The rest is for other
   compilers. examples/embed/test/made.c looks at all of it. */
enum { OF_A_LAYER = 208, TO_EVAL = 16 << 10, TO_PROVE = 72 << 10, TO_PROVE_DEEP = 40 << 10, TO_SHOW = 24 << 10, MOST_LAYERS = 512 };

/* Some bytes of a caller: a pointer and their number. */
#define IN(name) const uint8_t *name, size_t name##_len
#define IS_NULL(name) (!name && name##_len > 0)

/* Where bytes lie of which there are none. */
static _Alignas(16) const uint8_t nothing[16];

#define GIVEN(name) (name ? name : nothing), name##_len

uint32_t lzk_proved_version(void);
uint32_t lzk_proved_verify(IN(circuit), IN(numbers), IN(session), IN(proof));
uint32_t lzk_proved_explain(IN(circuit), IN(numbers), IN(session), IN(proof), lzk_report *report);
uint32_t lzk_proved_explain_pieces(IN(circuit), IN(numbers), IN(session), const lzk_bytes *pieces, size_t count, lzk_report *report);
void lzk_proved_explain_each(IN(circuit), lzk_job *jobs, size_t count);
uint32_t lzk_proved_compile(uint32_t version, IN(source), uint8_t *room, size_t room_len, lzk_outcome *outcome);
uint32_t lzk_proved_sha_circuit(uint32_t, uint8_t *, size_t, lzk_outcome *);
uint32_t lzk_proved_upgrade(const uint8_t *, size_t, uint8_t *, size_t, lzk_outcome *);
uint32_t lzk_proved_circuit_info(IN(circuit), lzk_info *info);
uint32_t lzk_proved_eval(IN(circuit), IN(numbers), IN(privates), lzk_outcome *outcome);

/* As `Given` of crates/lzk_c_prove. */
typedef struct {
  lzk_bytes circuit, numbers, privates, session;
  const uint8_t *seed;
} given;

uint32_t lzk_proved_prove(const given *given, uint8_t *room, size_t room_len, lzk_outcome *outcome);

uint32_t lzk_proved_policy_show(IN(policy), uint8_t *, size_t, lzk_outcome *);
uint32_t lzk_proved_policy_circuit(IN(policy), uint8_t *, size_t, lzk_outcome *);
uint32_t lzk_proved_policy_digest(IN(policy), IN(record), uint8_t *, size_t, lzk_outcome *);
uint32_t lzk_proved_policy_inputs(const lzk_policy_given *, uint8_t *, size_t, lzk_outcome *);
uint32_t lzk_proved_policy_shown(const lzk_policy_given *, uint8_t *, size_t, lzk_outcome *);
uint32_t lzk_proved_policy_public(IN(policy), IN(shown), uint8_t *, size_t, lzk_outcome *);

uint32_t lzk_version(void) { return lzk_proved_version(); }

static uint32_t null_report(lzk_report *report) {
  if (report) memset(report, 0, sizeof *report), report->answer = LZK_NULL;
  return LZK_NULL;
}

static uint32_t null_outcome(lzk_outcome *outcome) {
  if (outcome) memset(outcome, 0, sizeof *outcome), outcome->answer = LZK_NULL;
  return LZK_NULL;
}

uint32_t lzk_verify(IN(circuit), IN(numbers), IN(session), IN(proof)) {
  if (IS_NULL(circuit) || IS_NULL(numbers) || IS_NULL(session) || IS_NULL(proof)) return LZK_NULL;
  return lzk_proved_verify(GIVEN(circuit), GIVEN(numbers), GIVEN(session), GIVEN(proof));
}

uint32_t lzk_explain(IN(circuit), IN(numbers), IN(session), IN(proof), lzk_report *report) {
  if (IS_NULL(circuit) || IS_NULL(numbers) || IS_NULL(session) || IS_NULL(proof) || !report) return null_report(report);
  return lzk_proved_explain(GIVEN(circuit), GIVEN(numbers), GIVEN(session), GIVEN(proof), report);
}

/* Whether some bytes are at NULL. Empty ones at NULL are set to lie elsewhere, in a copy. */
static int fill(lzk_bytes *bytes) {
  if (bytes->start) return 0;
  bytes->start = nothing;
  return bytes->len > 0;
}

uint32_t lzk_explain_pieces(IN(circuit), IN(numbers), IN(session), const lzk_bytes *pieces, size_t count, lzk_report *report) {
  lzk_bytes *filled = NULL;
  uint32_t answer = LZK_NULL;
  size_t at = 0;
  if (IS_NULL(circuit) || IS_NULL(numbers) || IS_NULL(session) || (!pieces && count > 0) || !report) return null_report(report);
  while (at < count && pieces[at].start) at++;
  if (at == count)
    return lzk_proved_explain_pieces(GIVEN(circuit), GIVEN(numbers), GIVEN(session), pieces ? pieces : (const lzk_bytes *)nothing, count, report);
  if (count > SIZE_MAX / sizeof *filled || !(filled = malloc(count * sizeof *filled))) {
    memset(report, 0, sizeof *report);
    return report->answer = LZK_NO_MEMORY;
  }
  memcpy(filled, pieces, count * sizeof *filled);
  for (at = 0; at < count; at++)
    if (fill(&filled[at])) break;
  if (at == count) answer = lzk_proved_explain_pieces(GIVEN(circuit), GIVEN(numbers), GIVEN(session), filled, count, report);
  else null_report(report);
  free(filled);
  return answer;
}

void lzk_explain_each(IN(circuit), lzk_job *jobs, size_t count) {
  if (!jobs) return;
  for (size_t at = 0; at < count; at++) {
    /* One by one where a pointer is NULL: no other job's report depends on it. */
    lzk_job *job = &jobs[at];
    if (job->public_numbers.start && job->session.start && job->proof.start) continue;
    for (at = 0; at < count; at++)
      job = &jobs[at], lzk_explain(circuit, circuit_len, job->public_numbers.start, job->public_numbers.len, job->session.start, job->session.len,
                                   job->proof.start, job->proof.len, &job->report);
    return;
  }
  if (IS_NULL(circuit)) {
    for (size_t at = 0; at < count; at++) null_report(&jobs[at].report);
    return;
  }
  lzk_proved_explain_each(GIVEN(circuit), jobs, count);
}

uint32_t lzk_compile(uint32_t version, IN(source), uint8_t *room, size_t room_len, lzk_outcome *outcome) {
  uint8_t none[1];
  if (IS_NULL(source) || IS_NULL(room) || !outcome) return null_outcome(outcome);
  return lzk_proved_compile(version, GIVEN(source), room ? room : none, room_len, outcome);
}

uint32_t lzk_sha_circuit(uint32_t message_len, uint8_t *room, size_t room_len, lzk_outcome *outcome) {
  uint8_t none[1];
  if (IS_NULL(room) || !outcome) return null_outcome(outcome);
  return lzk_proved_sha_circuit(message_len, room ? room : none, room_len, outcome);
}

uint32_t lzk_upgrade(IN(circuit), uint8_t *room, size_t room_len, lzk_outcome *outcome) {
  uint8_t none[1];
  if (IS_NULL(circuit) || IS_NULL(room) || !outcome) return null_outcome(outcome);
  return lzk_proved_upgrade(GIVEN(circuit), room ? room : none, room_len, outcome);
}

uint32_t lzk_circuit_info(IN(circuit), lzk_info *info) {
  if (!info) return LZK_NULL;
  if (IS_NULL(circuit)) {
    memset(info, 0, sizeof *info);
    return info->answer = LZK_NULL;
  }
  return lzk_proved_circuit_info(GIVEN(circuit), info);
}

/* How many layers a circuit's file says that it has (docs/FORMATS.md): what has none of them is refused before any
   secret is read. */
static size_t layers_of(IN(circuit)) {
  size_t layers;
  if (circuit_len < 17) return 0;
  layers = circuit[13] | (size_t)circuit[14] << 8 | (size_t)circuit[15] << 16 | (size_t)circuit[16] << 24;
  return layers < MOST_LAYERS ? layers : MOST_LAYERS;
}

/* Sets to zero what a call with secrets left of the stack: it lies where its frames were. */
static __attribute__((noinline)) void clear_stack(size_t size) {
  /* By no call, whose own frame would lie below. */
  volatile uint64_t below[size / 8];
  for (size_t at = 0; at < size / 8; at++) below[at] = 0;
  (void)below[0];
}

uint32_t lzk_eval(IN(circuit), IN(numbers), IN(privates), lzk_outcome *outcome) {
  if (IS_NULL(circuit) || IS_NULL(numbers) || IS_NULL(privates) || !outcome) return null_outcome(outcome);
  lzk_proved_eval(GIVEN(circuit), GIVEN(numbers), GIVEN(privates), outcome);
  clear_stack(TO_EVAL + OF_A_LAYER * layers_of(circuit, circuit_len));
  return outcome->answer;
}

uint32_t lzk_prove(IN(circuit), IN(numbers), IN(privates), IN(session), const uint8_t seed[32], uint8_t *room, size_t room_len, lzk_outcome *outcome) {
  uint8_t none[1];
  size_t deep;
  if (IS_NULL(circuit) || IS_NULL(numbers) || IS_NULL(privates) || IS_NULL(session) || !seed || IS_NULL(room) || !outcome) return null_outcome(outcome);
  /* Pointers alone: no secret is copied here. */
  const given all = {{GIVEN(circuit)}, {GIVEN(numbers)}, {GIVEN(privates)}, {GIVEN(session)}, seed};
  lzk_proved_prove(&all, room ? room : none, room_len, outcome);
  deep = TO_PROVE_DEEP + OF_A_LAYER * layers_of(circuit, circuit_len);
  clear_stack(deep > TO_PROVE ? deep : TO_PROVE);
  return outcome->answer;
}

/* ---- Policies */

uint32_t lzk_policy_show(IN(policy), uint8_t *room, size_t room_len, lzk_outcome *outcome) {
  uint8_t none[1];
  if (IS_NULL(policy) || IS_NULL(room) || !outcome) return null_outcome(outcome);
  return lzk_proved_policy_show(GIVEN(policy), room ? room : none, room_len, outcome);
}

uint32_t lzk_policy_circuit(IN(policy), uint8_t *room, size_t room_len, lzk_outcome *outcome) {
  uint8_t none[1];
  if (IS_NULL(policy) || IS_NULL(room) || !outcome) return null_outcome(outcome);
  return lzk_proved_policy_circuit(GIVEN(policy), room ? room : none, room_len, outcome);
}

uint32_t lzk_policy_digest(IN(policy), IN(record), uint8_t *room, size_t room_len, lzk_outcome *outcome) {
  uint8_t none[1];
  if (IS_NULL(policy) || IS_NULL(record) || IS_NULL(room) || !outcome) return null_outcome(outcome);
  lzk_proved_policy_digest(GIVEN(policy), GIVEN(record), room ? room : none, room_len, outcome);
  clear_stack(TO_SHOW);
  return outcome->answer;
}

/* Whether some of the bytes that are given are at NULL. Empty ones at NULL are set to lie elsewhere, in a copy. */
static int fill_given(lzk_policy_given *given) {
  return fill(&given->policy) | fill(&given->record) | fill(&given->values) | fill(&given->secret) | fill(&given->path);
}

typedef uint32_t (*policy_call)(const lzk_policy_given *, uint8_t *, size_t, lzk_outcome *);

static uint32_t with_given(policy_call call, const lzk_policy_given *given, uint8_t *room, size_t room_len, lzk_outcome *outcome) {
  lzk_policy_given filled; /* pointers alone: no secret is copied here */
  uint8_t none[1];
  if (!given || IS_NULL(room) || !outcome) return null_outcome(outcome);
  filled = *given;
  if (fill_given(&filled)) return null_outcome(outcome);
  call(&filled, room ? room : none, room_len, outcome);
  clear_stack(TO_SHOW);
  return outcome->answer;
}

uint32_t lzk_policy_inputs(const lzk_policy_given *given, uint8_t *room, size_t room_len, lzk_outcome *outcome) {
  return with_given(lzk_proved_policy_inputs, given, room, room_len, outcome);
}

uint32_t lzk_policy_shown(const lzk_policy_given *given, uint8_t *room, size_t room_len, lzk_outcome *outcome) {
  return with_given(lzk_proved_policy_shown, given, room, room_len, outcome);
}

uint32_t lzk_policy_public(IN(policy), IN(shown), uint8_t *room, size_t room_len, lzk_outcome *outcome) {
  uint8_t none[1];
  if (IS_NULL(policy) || IS_NULL(shown) || IS_NULL(room) || !outcome) return null_outcome(outcome);
  return lzk_proved_policy_public(GIVEN(policy), GIVEN(shown), room ? room : none, room_len, outcome);
}

uint32_t lzk_random_seed(uint8_t seed[32]) {
  if (!seed) return LZK_NULL;
  /* Up to 256 bytes come whole, or none: a signal may end the wait for the first ones of a machine that starts. */
  for (int tries = 0; tries < 1000; tries++)
    if (getrandom(seed, 32, 0) == 32) return LZK_DONE;
  explicit_bzero(seed, 32);
  return LZK_NO_RANDOM;
}

/* ---- The desk. What is fed after so many bytes changes no report. A file that breaks no rule of the format is as
   long as the proof that a prover makes for the circuit, but for its path, which has 1,536 digests at most: 49,152
   bytes. What is longer has a byte after its end, or breaks a rule before. */
enum { MOST_FED = LZK_MOST_PROOF + 65536 };

struct lzk_desk {
  uint8_t *given; /* circuit, numbers and session, one after another */
  size_t circuit_len, numbers_len, session_len;
  uint8_t *proof;
  size_t proof_len, room;
};

/* Sets a block to zero, and gives it back. */
static void give(uint8_t *block, size_t len) {
  if (block) explicit_bzero(block, len);
  free(block);
}

uint32_t lzk_desk_open(lzk_desk **desk, IN(circuit), IN(numbers), IN(session)) {
  lzk_desk *made;
  if (!desk) return LZK_NULL;
  *desk = NULL;
  if (IS_NULL(circuit) || IS_NULL(numbers) || IS_NULL(session)) return LZK_NULL;
  if (session_len > 64 || numbers_len > 4194304) return LZK_TOO_LONG;
  if (circuit_len > LZK_MOST_CIRCUIT) circuit_len = LZK_MOST_CIRCUIT + 1; /* no circuit's file either way */
  if (!(made = calloc(1, sizeof *made))) return LZK_NO_MEMORY;
  if (!(made->given = malloc(circuit_len + numbers_len + session_len + 1))) {
    free(made);
    return LZK_NO_MEMORY;
  }
  if (circuit_len) memcpy(made->given, circuit, circuit_len);
  if (numbers_len) memcpy(made->given + circuit_len, numbers, numbers_len);
  if (session_len) memcpy(made->given + circuit_len + numbers_len, session, session_len);
  made->circuit_len = circuit_len, made->numbers_len = numbers_len, made->session_len = session_len;
  *desk = made;
  return LZK_DONE;
}

uint32_t lzk_desk_feed(lzk_desk *desk, IN(bytes)) {
  size_t wanted;
  if (!desk || IS_NULL(bytes)) return LZK_NULL;
  wanted = MOST_FED - desk->proof_len;
  if (bytes_len < wanted) wanted = bytes_len;
  if (!wanted) return LZK_DONE;
  if (desk->room - desk->proof_len < wanted) {
    size_t room = desk->room * 2 > desk->proof_len + wanted ? desk->room * 2 : desk->proof_len + wanted;
    uint8_t *more = malloc(room);
    if (!more) return LZK_NO_MEMORY;
    if (desk->proof_len) memcpy(more, desk->proof, desk->proof_len);
    give(desk->proof, desk->room);
    desk->proof = more, desk->room = room;
  }
  memcpy(desk->proof + desk->proof_len, bytes, wanted);
  desk->proof_len += wanted;
  return LZK_DONE;
}

uint32_t lzk_desk_end(lzk_desk *desk, lzk_report *report) {
  const uint8_t *at;
  if (!desk || !report) return null_report(report);
  at = desk->given;
  lzk_explain(at, desk->circuit_len, at + desk->circuit_len, desk->numbers_len, at + desk->circuit_len + desk->numbers_len, desk->session_len,
              desk->proof, desk->proof_len, report);
  if (report->answer != LZK_NO_MEMORY) desk->proof_len = 0;
  return report->answer;
}

void lzk_desk_free(lzk_desk *desk) {
  if (!desk) return;
  give(desk->proof, desk->room);
  give(desk->given, desk->circuit_len + desk->numbers_len + desk->session_len);
  give((uint8_t *)desk, sizeof *desk);
}
