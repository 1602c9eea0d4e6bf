/* A driver of the test vectors with the library for C: reads lines `FORMAT
 * CONTEXT INPUT`, and answers each.  With the argument --rfc it reads and writes
 * by the flags for RFC 9000, and asks what a packet may carry. */
#ifndef DRIVER_H
#define DRIVER_H

#include <stddef.h>
#include <stdint.h>
#include <stdio.h>

#include "quic_wire.h"

/* A line: its fields, and the bytes of the last. */
typedef struct line {
  char *form, *context, *text;
  uint8_t *bytes;
  size_t len;
} line;

/* Whether the argument is there. */
extern int is_rfc;

/* The flags with which payloads are read. */
uint32_t payload_flags(const line *in);

/* What the context has for |name|, up to a comma; NULL for nothing or `-`. */
const char *item(const line *in, const char *name);
uint64_t number(const line *in, const char *name, uint64_t absent);

/* The bytes of hexadecimal digits, at most |room| of them.  Returns how many. */
size_t unhex(const char *digits, uint8_t *out, size_t room);

/* The name of the code to close with after a result. */
const char *code_name(int result);

void print_hex(FILE *out, const uint8_t *bytes, size_t len);

/* A field of a JSON object, with a comma before it. */
void print_number(FILE *out, const char *name, uint64_t n);
void print_bytes(FILE *out, const char *name, const uint8_t *bytes, size_t len);

/* Each of these answers a line.  Those with |items| write what they read there,
 * and find it at |*read| once that is flushed. */
void answer_payload(const line *in, FILE *items, char **read);
void answer_datagram(const line *in, FILE *items, char **read);
void answer_params(const line *in);
void answer_params_write(const line *in);
void answer_call(const line *in);

#endif
