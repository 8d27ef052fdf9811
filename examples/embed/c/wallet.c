/* Proves that it knows a number whose square is public, and sends the proof to a service:  wallet PORT PUBLIC <
   PRIVATE The service sends a nonce of 32 bytes, which is the session. The private number comes on standard input,
   so that it stands in no list of processes. Prints what the service answers, and ends with 1 unless that is
   "accepted". */
#define _DEFAULT_SOURCE
#include "lzk_text.h"
#include <arpa/inet.h>
#include <stdio.h>
#include <stdlib.h>
#include <string.h>
#include <sys/socket.h>
#include <unistd.h>

static const char statement[] = "field goldilocks\npublic y\nprivate x\nassert x*x = y\n";

static int fail(const char *what) {
  perror(what);
  return 64;
}

/* A connection to a port of this machine; or -1. */
static int connected(int port) {
  struct sockaddr_in to = {.sin_family = AF_INET, .sin_port = htons((uint16_t)port), .sin_addr = {htonl(INADDR_LOOPBACK)}};
  int service = socket(AF_INET, SOCK_STREAM, 0);
  return service >= 0 && !connect(service, (struct sockaddr *)&to, sizeof to) ? service : -1;
}

int main(int count, char **words) {
  static uint8_t circuit[4096], proof[LZK_MOST_PROOF];
  uint8_t secret[256], nonce[32], seed[32];
  char answer[256] = "", text[LZK_MOST_TEXT];
  lzk_outcome made, found;
  if (count != 3) return fprintf(stderr, "wallet PORT PUBLIC < PRIVATE\n"), 64;
  const uint8_t *numbers = (const uint8_t *)words[2];
  if (lzk_compile(1, (const uint8_t *)statement, strlen(statement), circuit, sizeof circuit, &made)) return 64;

  int service = connected(atoi(words[1]));
  if (service < 0 || recv(service, nonce, 32, MSG_WAITALL) != 32) return fail("service");
  if (lzk_random_seed(seed)) return fail("seed");
  size_t secret_len = fread(secret, 1, sizeof secret, stdin);
  lzk_prove(circuit, made.count, numbers, strlen(words[2]), secret, secret_len, nonce, 32, seed, proof, sizeof proof, &found);
  explicit_bzero(secret, sizeof secret);
  explicit_bzero(seed, sizeof seed);
  if (found.answer) return printf("%s\n", lzk_text(&found, text, sizeof text)), 1;

  for (size_t from = 0; from < found.count;) {
    ssize_t sent = send(service, proof + from, found.count - from, MSG_NOSIGNAL);
    if (sent < 0) return fail("send");
    from += (size_t)sent;
  }
  shutdown(service, SHUT_WR);
  if (recv(service, answer, sizeof answer - 1, MSG_WAITALL) < 0) return fail("answer");
  close(service);
  fputs(answer, stdout);
  return strcmp(answer, "accepted\n") != 0;
}
