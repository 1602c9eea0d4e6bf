/* What the drivers in C share: lines `FORMAT CONTEXT HEX` in, answers out, as in vectors/README.md.  A driver defines
 * `answer`, which reports what it reads with `begin`, fields and `end`, and ends with `accept_read`, `refuse` or
 * `skip`. */
#ifndef DRIVER_H
#define DRIVER_H
#include <inttypes.h>
#include <stdarg.h>
#include <stdint.h>
#include <stdio.h>
#include <stdlib.h>
#include <string.h>

/* A line: the format, the fields of the context, and the bytes in a block of exactly their size, so that a sanitizer
 * notices a read past them. */
static char *form, *words;
static unsigned char *input;
static size_t input_len;

/* A field of the context, or NULL; it is valid until the next call. */
static const char *context(const char *name) {
  static char value[1024];
  const char *at = words;
  size_t len = strlen(name);
  for (; at; at = strchr(at, ','), at = at ? at + 1 : NULL) {
    if (!strncmp(at, name, len) && at[len] == '=') {
      snprintf(value, sizeof value, "%.*s", (int)strcspn(at + len + 1, ","), at + len + 1);
      return value;
    }
  }
  return NULL;
}
static int is_context(const char *name, const char *value) {
  const char *found = context(name);
  return found && !strcmp(found, value);
}

/* What was read so far, as JSON, and where an object begins that isn't closed. */
static char told[1 << 22];
static size_t told_len, open_at;
static int is_open;

static void put(const char *format, ...) {
  va_list values;
  va_start(values, format);
  told_len += (size_t)vsnprintf(told + told_len, sizeof told - told_len, format, values);
  va_end(values);
  if (told_len >= sizeof told) exit(3);
}
static void comma(void) {
  if (told_len && !strchr("{[", told[told_len - 1])) put(", ");
}

static void text(const char *name, const char *value) { comma(), put("\"%s\": \"%s\"", name, value); }
static void number(const char *name, uint64_t value) { comma(), put("\"%s\": \"%" PRIu64 "\"", name, value); }
static void bytes(const char *name, const void *data, size_t len) {
  const unsigned char *from = data;
  comma(), put("\"%s\": \"", name);
  while (len--) put("%02x", *from++);
  put("\"");
}
static void begin(const char *type) {
  comma();
  open_at = told_len;
  is_open = 1;
  put("{\"type\": \"%s\"", type);
}
static void end(void) {
  put("}");
  is_open = 0;
}

/* Frames of the same form: a limit on a stream or on all, or on how many streams there are; an error on a stream; and
 * an ACK. */
static void limit(const char *type, const uint64_t *stream, uint64_t most) {
  begin(type);
  if (stream) number("stream_id", *stream);
  number(stream ? "maximum_stream_data" : "maximum_data", most);
}
static void streams(const char *type, int is_bidi, uint64_t most) {
  begin(type);
  text("direction", is_bidi ? "bidirectional" : "unidirectional");
  number("maximum_streams", most);
}
static void error_on(const char *type, uint64_t stream, uint64_t code) {
  begin(type);
  number("stream_id", stream);
  number("application_protocol_error_code", code);
}
static void ack(uint64_t delay) {
  begin("ACK");
  number("ack_delay", delay);
  comma(), put("\"ranges\": [");
}
static void range(uint64_t least, uint64_t greatest) {
  comma(), put("[\"%" PRIu64 "\", \"%" PRIu64 "\"]", least, greatest);
}
static void ack_end(void) { put("]"); }

/* Answers, each 0, so that it can end a function.  An open object isn't printed. */
static int accept_read(void) {
  int is_list = strcmp(form, "params") != 0;
  printf("valid %s%s%s\n", is_list ? "[" : "{", told, is_list ? "]" : "}");
  return 0;
}
static int refuse(const char *code, size_t at) {
  if (is_open) told_len = open_at > 2 ? open_at - 2 : 0;
  told[told_len] = 0;
  printf("invalid %s {\"at\": %zu, \"before\": [%s]}\n", code, at, told);
  return 0;
}
static int refuse_list(const char *code) {
  printf("invalid %s\n", code);
  return 0;
}
static int skip(void) {
  puts("skip");
  return 0;
}

static const char *code_name(uint64_t code) {
  static const char *const names[] = {
      "NO_ERROR",           "INTERNAL_ERROR",     "CONNECTION_REFUSED",        "FLOW_CONTROL_ERROR",
      "STREAM_LIMIT_ERROR", "STREAM_STATE_ERROR", "FINAL_SIZE_ERROR",          "FRAME_ENCODING_ERROR",
      "TRANSPORT_PARAMETER_ERROR", "CONNECTION_ID_LIMIT_ERROR", "PROTOCOL_VIOLATION"};
  return code < sizeof names / sizeof *names ? names[code] : "?";
}

/* Answers a line. */
static int answer(void);

static void take(const char *digits) {
  size_t i;
  free(input);
  input_len = *digits == '-' ? 0 : strlen(digits) / 2;
  input = malloc(input_len ? input_len : 1);
  for (i = 0; i < input_len; ++i) {
    char pair[3] = {digits[2 * i], digits[2 * i + 1], 0};
    input[i] = (unsigned char)strtoul(pair, NULL, 16);
  }
}

int main(int argc, char **argv) {
  char *line = NULL;
  size_t room = 0;
  (void)argc, (void)argv;
  while (getline(&line, &room, stdin) > 0) {
    const char *digits;
    form = strtok(line, " \n");
    words = strtok(NULL, " \n");
    digits = strtok(NULL, " \n");
    if (!form || !words || !digits) return 2;
    take(digits);
    told_len = is_open = 0;
    told[0] = 0;
    answer();
    fflush(stdout);
  }
  free(line);
  free(input);
  return 0;
}
#endif
