#define _POSIX_C_SOURCE 200809L
#include "driver.h"

#include <inttypes.h>
#include <stdlib.h>
#include <string.h>

int is_rfc;

const char *item(const line *in, const char *name) {
  const char *at = in->context;
  size_t len = strlen(name);
  while (at && !(strncmp(at, name, len) == 0 && at[len] == '=')) {
    at = strchr(at, ',');
    at = at ? at + 1 : NULL;
  }
  return !at || at[len + 1] == '-' ? NULL : at + len + 1;
}

uint64_t number(const line *in, const char *name, uint64_t absent) {
  const char *at = item(in, name);
  return at ? strtoull(at, NULL, 10) : absent;
}

size_t unhex(const char *digits, uint8_t *out, size_t room) {
  size_t len = 0;
  unsigned byte;
  while (digits && len < room && sscanf(digits + 2 * len, "%2x", &byte) == 1 &&
         strchr("-,\n", digits[2 * len]) == NULL)
    out[len++] = (uint8_t)byte;
  return len;
}

const char *code_name(int result) {
  switch (quic_wire_close_code(result)) {
  case QUIC_WIRE_CODE_PROTOCOL_VIOLATION: return "PROTOCOL_VIOLATION";
  case QUIC_WIRE_CODE_STREAM_STATE_ERROR: return "STREAM_STATE_ERROR";
  default: return "FRAME_ENCODING_ERROR";
  }
}

void print_hex(FILE *out, const uint8_t *bytes, size_t len) {
  size_t i;
  for (i = 0; i < len; i++)
    fprintf(out, "%02x", bytes[i]);
}

void print_number(FILE *out, const char *name, uint64_t n) {
  fprintf(out, ",\"%s\":\"%" PRIu64 "\"", name, n);
}

void print_bytes(FILE *out, const char *name, const uint8_t *bytes, size_t len) {
  fprintf(out, ",\"%s\":\"", name);
  print_hex(out, bytes, len);
  putc('"', out);
}

static void answer_line(const line *in) {
  char *read = NULL;
  size_t size = 0;
  FILE *items = open_memstream(&read, &size);
  if (!items)
    exit(3);
  if (!strcmp(in->form, "payload"))
    answer_payload(in, items, &read);
  else if (!strcmp(in->form, "datagram"))
    answer_datagram(in, items, &read);
  else
    answer_call(in);
  fclose(items);
  free(read);
  fflush(stdout);
}

int main(int argc, char **argv) {
  char *text = NULL;
  size_t room = 0;
  is_rfc = argc == 2 && !strcmp(argv[1], "--rfc");
  if (argc > 1 && !is_rfc) {
    fputs("usage: calls [--rfc]\n", stderr);
    return 2;
  }
  while (getline(&text, &room, stdin) > 0) {
    line in = {strtok(text, " "), strtok(NULL, " "), strtok(NULL, "\n"), NULL, 0};
    if (!in.form || !in.context || !in.text) {
      puts("no line of test vectors");
      continue;
    }
    in.bytes = malloc(strlen(in.text) / 2 + 1);
    if (!in.bytes)
      return 3;
    in.len = strcmp(in.form, "varint-write") ? unhex(in.text, in.bytes, strlen(in.text) / 2) : 0;
    answer_line(&in);
    free(in.bytes);
  }
  free(text);
  return 0;
}
