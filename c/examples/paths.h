/* What receive.c, send.c, recovery.c and balance.c share: checks, hexadecimal,
 * and a cipher that hides nothing, in place of a real one.  It inverts each
 * bit, its tag is the packet number sixteen times, and its mask the front of
 * the sample. */
#ifndef PATHS_H
#define PATHS_H

#include <inttypes.h>
#include <stdint.h>
#include <stdio.h>
#include <stdlib.h>
#include <string.h>

enum { TAG = 16 };

static inline void check(int is_so, const char *what) {
  if (is_so)
    return;
  fprintf(stderr, "%s\n", what);
  exit(1);
}

static inline void make_mask(uint8_t *mask, const uint8_t *sample) {
  check(sample != NULL, "too short for a sample");
  memcpy(mask, sample, 5);
}

static inline void seal(uint64_t number, uint8_t *payload, size_t len) {
  size_t i;
  for (i = 0; i < len; i++)
    payload[i] ^= 0xff;
  memset(payload + len, (int)number, TAG);
}

/* Opens |len| bytes of payload and tag.  Returns whether the tag is right. */
static inline int open_sealed(uint64_t number, uint8_t *payload, size_t len) {
  size_t i;
  for (i = 1; i <= TAG; i++)
    if (len < TAG || payload[len - i] != (uint8_t)number)
      return 0;
  for (i = 0; i < len - TAG; i++)
    payload[i] ^= 0xff;
  return 1;
}

static inline void print_hex(const char *name, const uint8_t *bytes,
                             size_t len) {
  printf("%s", name);
  while (len--)
    printf("%02x", *bytes++);
  putchar('\n');
}

/* Reads a line of digits.  Returns how many bytes they are, or SIZE_MAX at the
 * end of the input. */
static inline size_t read_line(FILE *in, uint8_t *out, size_t room) {
  static char line[8192];
  size_t n = 0;
  unsigned byte;
  if (!fgets(line, sizeof line, in))
    return SIZE_MAX;
  while (n < room && sscanf(line + 2 * n, "%2x", &byte) == 1)
    out[n++] = (uint8_t)byte;
  return n;
}

#endif
