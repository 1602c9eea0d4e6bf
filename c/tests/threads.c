/* threads < LIST: reads the payloads of a list, lines of hexadecimal, with one
 * thread and then with four at once.  Each has its own state and reads the same
 * bytes, and all results must be the same.  Under the thread sanitizer it shows
 * that the library shares nothing that it modifies. */
#include <pthread.h>
#include <stdint.h>
#include <stdio.h>
#include <stdlib.h>
#include <string.h>

#include "quic_wire.h"

enum { MOST = 4000, LONGEST = 4096, THREADS = 4, ROUNDS = 10 };
static uint8_t payloads[MOST][LONGEST];
static size_t lens[MOST], count;

static uint64_t frames_of(const uint8_t *payload, size_t len) {
  quic_wire_frame_iter frames;
  quic_wire_frame frame, many[64];
  size_t n = 0;
  uint64_t sum = 0;
  if (quic_wire_frames_init(&frames, payload, len, 0) == QUIC_WIRE_OK)
    while (quic_wire_frames_next(&frames, payload, len, &frame) ==
           QUIC_WIRE_ITEM)
      sum += frame.kind;
  sum += (uint64_t)quic_wire_frames_first(&frames, payload, len, 0, many, 64,
                                          &n);
  return sum + n;
}

static uint64_t others_of(const uint8_t *bytes, size_t len) {
  static const uint32_t versions[] = {1};
  quic_wire_canon canon = {0};
  quic_wire_params params;
  quic_wire_header header;
  uint8_t to[1 << 14];
  size_t written = 0;
  uint64_t sum =
      (uint64_t)quic_wire_canonical(bytes, len, to, sizeof to, &canon);
  sum += canon.len;
  if (quic_wire_params_read(QUIC_WIRE_SIDE_CLIENT, 0, bytes, len, &params,
                            sizeof params, NULL) == QUIC_WIRE_OK)
    sum += (uint64_t)quic_wire_params_write(
        QUIC_WIRE_SIDE_SERVER, &params, sizeof params, to, sizeof to, &written);
  sum += (uint64_t)quic_wire_header_read(bytes, len, 8, versions, 1, 0, &header);
  return sum + written;
}

static void *work(void *at) {
  uint64_t *sum = (uint64_t *)at;
  quic_wire_range runs[64];
  size_t n = 0, i;
  int round;
  for (round = 0; round < ROUNDS; round++)
    for (i = 0; i < count; i++) {
      *sum += frames_of(payloads[i], lens[i]) + others_of(payloads[i], lens[i]);
      *sum += (uint64_t)quic_wire_set_insert(runs, 64, &n, i * 7 % 501,
                                             i * 7 % 501 + 3);
      if (n > 60)
        n = 0;
    }
  return NULL;
}

static void read_payloads(void) {
  static char line[2 * LONGEST + 2];
  while (count < MOST && fgets(line, sizeof line, stdin)) {
    const size_t len = strcspn(line, "\r\n") / 2;
    size_t i;
    unsigned byte = 0;
    for (i = 0; i < len && sscanf(line + 2 * i, "%2x", &byte) == 1; i++)
      payloads[count][i] = (uint8_t)byte;
    lens[count++] = len;
  }
}

int main(void) {
  uint64_t alone = 0, sums[THREADS] = {0};
  pthread_t threads[THREADS];
  int i, same = 1;
  read_payloads();
  work(&alone);
  for (i = 0; i < THREADS; i++)
    if (pthread_create(&threads[i], NULL, work, &sums[i]))
      return 2;
  for (i = 0; i < THREADS; i++)
    if (pthread_join(threads[i], NULL))
      return 2;
  for (i = 0; i < THREADS; i++)
    same &= sums[i] == alone;
  printf("%zu payloads, by one thread and by four: %s\n", count,
         same ? "the same" : "different");
  return same ? 0 : 1;
}
