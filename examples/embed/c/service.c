/* Verifies proofs while they arrive:  service PORT PUBLIC COUNT For each of COUNT connections it sends a fresh
   nonce of 32 bytes, which is the session, feeds a desk what comes, and answers "accepted", or with the number of
   the check that fails. Port 0 is any that is free; the port is printed first. The circuit is compiled here: a
   service takes it from its own store, never from who proves. */
#define _DEFAULT_SOURCE
#include "lzk_text.h"
#include <arpa/inet.h>
#include <stdio.h>
#include <stdlib.h>
#include <string.h>
#include <sys/random.h>
#include <sys/socket.h>
#include <sys/time.h>
#include <unistd.h>

static const char statement[] = "field goldilocks\npublic y\nprivate x\nassert x*x = y\n";

static int fail(const char *what) {
  perror(what);
  return 64;
}

/* What listens at a port of this machine; or -1. Prints the port. */
static int listening(int port) {
  struct sockaddr_in at = {.sin_family = AF_INET, .sin_port = htons((uint16_t)port), .sin_addr = {htonl(INADDR_LOOPBACK)}};
  socklen_t len = sizeof at;
  int server = socket(AF_INET, SOCK_STREAM, 0);
  if (server < 0 || bind(server, (struct sockaddr *)&at, len) || listen(server, 16) || getsockname(server, (struct sockaddr *)&at, &len)) return -1;
  printf("%d\n", ntohs(at.sin_port));
  fflush(stdout);
  return server;
}

/* Feeds a desk what comes, at most one byte more than a proof can have, and writes the report. Whether all went
   well. */
static int judge(lzk_desk *desk, int wallet, lzk_report *report) {
  static uint8_t piece[65536];
  size_t left = LZK_MOST_PROOF + 1;
  ssize_t got = 0;
  while (left > 0 && (got = recv(wallet, piece, left < sizeof piece ? left : sizeof piece, 0)) > 0) {
    if (lzk_desk_feed(desk, piece, (size_t)got)) return 0;
    left -= (size_t)got;
  }
  return got >= 0 && lzk_desk_end(desk, report) <= LZK_REJECTED;
}

int main(int count, char **words) {
  static uint8_t circuit[4096];
  const struct timeval patience = {10, 0};
  uint8_t nonce[32];
  char answer[64];
  lzk_outcome made;
  if (count != 4) return fprintf(stderr, "service PORT PUBLIC COUNT\n"), 64;
  if (lzk_compile(1, (const uint8_t *)statement, strlen(statement), circuit, sizeof circuit, &made)) return 64;
  int server = listening(atoi(words[1]));
  if (server < 0) return fail("port");
  for (int left = atoi(words[3]); left > 0; left--) {
    lzk_report report;
    lzk_desk *desk;
    int wallet = accept(server, NULL, NULL);
    if (wallet < 0 || getrandom(nonce, 32, 0) != 32) return fail("wallet");
    setsockopt(wallet, SOL_SOCKET, SO_RCVTIMEO, &patience, sizeof patience);
    if (lzk_desk_open(&desk, circuit, made.count, (const uint8_t *)words[2], strlen(words[2]), nonce, 32)) return fail("desk");
    if (send(wallet, nonce, 32, MSG_NOSIGNAL) == 32 && judge(desk, wallet, &report)) {
      snprintf(answer, sizeof answer, report.answer == LZK_ACCEPTED ? "accepted\n" : "rejected: check %u\n", report.check);
      fputs(answer, stdout);
      fflush(stdout);
      send(wallet, answer, strlen(answer), MSG_NOSIGNAL);
    }
    lzk_desk_free(desk);
    close(wallet);
  }
  return 0;
}
