/* Prints the frames of payloads, given as lines of hexadecimal, as
 * `quic-show frames` does.  To build and run it:
 *
 *   cc -o frames frames.c -IPREFIX/include PREFIX/lib/libquic_wire.a
 *   echo 40000a000161 | ./frames
 */
#define _POSIX_C_SOURCE 200809L
#include <inttypes.h>
#include <stdio.h>
#include <stdlib.h>
#include <string.h>

#include "quic_wire.h"

static void print_type(uint64_t type) {
  const char *name = quic_wire_type_name(type);
  if (name)
    printf("%s", name);
  else
    printf("<unknown %" PRIx64 ">", type);
}

static void print_frames(const uint8_t *payload, size_t len) {
  quic_wire_frame_iter frames;
  quic_wire_frame frame;
  int answer = quic_wire_frames_init(&frames, payload, len, 0);
  if (answer < 0) {
    printf("error %s\n", quic_wire_strerror(answer));
    return;
  }
  while ((answer = quic_wire_frames_next(&frames, payload, len, &frame)) ==
         QUIC_WIRE_ITEM) {
    printf("%zu..%zu ", (size_t)frame.begin, (size_t)frame.end);
    print_type(frame.kind);
    putchar('\n');
  }
  if (answer < 0) {
    printf("error %s", quic_wire_strerror(answer));
    if (quic_wire_error_type(&frame) != QUIC_WIRE_NO_TYPE) {
      printf(" in ");
      print_type(quic_wire_error_type(&frame));
    }
    putchar('\n');
  }
}

/* Converts the digits of a line to bytes in place.  Returns whether they are
 * pairs of hexadecimal digits. */
static int unhex(char *line, size_t len) {
  size_t i;
  if (len % 2 || strspn(line, "0123456789abcdefABCDEF") != len)
    return 0;
  for (i = 0; i < len; i += 2) {
    char pair[3] = {line[i], line[i + 1], 0};
    line[i / 2] = (char)strtoul(pair, NULL, 16);
  }
  return 1;
}

int main(void) {
  char *line = NULL;
  size_t room = 0;
  ssize_t len;
  while ((len = getline(&line, &room, stdin)) >= 0) {
    if (len && line[len - 1] == '\n')
      line[--len] = 0;
    if (len && line[len - 1] == '\r')
      line[--len] = 0;
    if (unhex(line, (size_t)len))
      print_frames((const uint8_t *)line, (size_t)len / 2);
    else
      puts("error not hexadecimal");
  }
  free(line);
  return feof(stdin) ? 0 : 3;
}
