/* Answers of single calls. */
#include <inttypes.h>
#include <stdlib.h>
#include <string.h>

#include "driver.h"

#define ID_LEN 255
#define MASK_LEN 5
#define SAMPLE_LEN 16
#define GAPS 16 /* of an ACK, at most */

static void answer_varint_read(const line *in) {
  uint64_t value;
  size_t len = quic_wire_varint_read(in->bytes, in->len, &value);
  if (len)
    printf("valid \"%" PRIu64 " %zu\"\n", value, len);
  else
    puts("invalid");
}

static void answer_varint_write(const line *in) {
  uint8_t out[8];
  size_t len = quic_wire_varint_write(strtoull(in->text, NULL, 10), 0, out, sizeof out);
  if (!len) {
    puts("invalid");
    return;
  }
  printf("valid \"");
  print_hex(stdout, out, len);
  puts("\"");
}

static uint64_t expected(const line *in) {
  return item(in, "largest") ? number(in, "largest", 0) + 1 : 0;
}

static void answer_number(const line *in) {
  int len;
  if (!strcmp(in->form, "number-expand")) {
    uint32_t numberlen = (uint32_t)number(in, "bits", 8) / 8;
    printf("valid \"%" PRIu64 "\"\n",
           quic_wire_number_expand(number(in, "written", 0), numberlen, expected(in)));
    return;
  }
  len = quic_wire_number_len(number(in, "number", 0), number(in, "acked", 0));
  if (len > 0)
    printf("valid \"%d\"\n", len);
  else
    puts("invalid");
}

static void answer_unprotect(const line *in) {
  size_t place = (size_t)number(in, "place", 0);
  const uint8_t *sample = quic_wire_sample(in->bytes, in->len, place, SAMPLE_LEN);
  uint8_t mask[MASK_LEN], wanted[SAMPLE_LEN], first, reserved;
  uint64_t packet_number;
  int len = 0;
  unhex(item(in, "mask"), mask, sizeof mask);
  if (sample && (unhex(item(in, "sample"), wanted, SAMPLE_LEN) != SAMPLE_LEN ||
                 memcmp(sample, wanted, SAMPLE_LEN))) {
    puts("valid \"another sample\"");
    return;
  }
  if (sample)
    len = quic_wire_unprotect(in->bytes, in->len, place, mask, expected(in), &packet_number);
  first = in->bytes[0];
  reserved = first & QUIC_WIRE_BIT_LONG ? QUIC_WIRE_BITS_RESERVED_LONG : QUIC_WIRE_BITS_RESERVED;
  if (len <= 0)
    puts("invalid DROP");
  else if (first & reserved)
    puts("invalid PROTOCOL_VIOLATION");
  else {
    printf("valid \"%02x ", first);
    print_hex(stdout, in->bytes + place, (size_t)len);
    printf(" %" PRIu64 "\"\n", packet_number);
  }
}

static void answer_protect(const line *in) {
  uint8_t mask[MASK_LEN];
  unhex(item(in, "mask"), mask, sizeof mask);
  if (quic_wire_protect(in->bytes, in->len, (size_t)number(in, "place", 0), mask) <= 0) {
    puts("invalid");
    return;
  }
  printf("valid \"");
  print_hex(stdout, in->bytes, in->len);
  puts("\"");
}

static quic_wire_header_fields header_fields(const line *in) {
  static const char *const names[] = {"initial", "0rtt", "handshake", "retry", "1rtt"};
  const char *version = item(in, "version");
  quic_wire_header_fields fields = {0};
  while (strncmp(item(in, "kind"), names[fields.kind], strlen(names[fields.kind])))
    fields.kind++;
  fields.version = version ? (uint32_t)strtoul(version, NULL, 16) : 0;
  fields.number = number(in, "number", 0);
  fields.numberlen = (uint8_t)number(in, "number_length", 0);
  fields.lengthlen = 2;
  fields.flags = (uint8_t)((item(in, "grease") ? QUIC_WIRE_CLEAR_FIXED_BIT : 0) |
                           (item(in, "spin") ? QUIC_WIRE_BIT_SPIN : 0) |
                           (item(in, "key_phase") ? QUIC_WIRE_BIT_KEY_PHASE : 0));
  return fields;
}

/* Versions in hexadecimal with + between them. */
static size_t versions_in(const char *at, uint32_t *versions, size_t room) {
  size_t count = 0;
  for (; at && count < room; at = *at == '+' ? at + 1 : NULL)
    versions[count++] = (uint32_t)strtoul(at, (char **)&at, 16);
  return count;
}

/* A version negotiation, the whole of it. */
static void answer_negotiation_write(const line *in, const uint8_t *dcid,
                                     size_t dcidlen, const uint8_t *scid,
                                     size_t scidlen) {
  const unsigned long unused = strtoul(item(in, "unused"), NULL, 16);
  uint32_t versions[8];
  uint8_t out[4096];
  size_t count = versions_in(item(in, "supported"), versions, 8), len;
  if (quic_wire_negotiation_write((uint8_t)(unused ^ QUIC_WIRE_BIT_FIXED), dcid, dcidlen, scid, scidlen, versions, count,
                                  out, sizeof out, &len)) {
    puts("invalid");
    return;
  }
  printf("valid \"");
  print_hex(stdout, out, len);
  puts("\"");
}

static void answer_header_write(const line *in) {
  uint8_t dcid[ID_LEN], scid[ID_LEN], token[ID_LEN], out[4096];
  quic_wire_header_fields fields;
  size_t dcidlen = unhex(item(in, "dcid"), dcid, ID_LEN);
  size_t scidlen = unhex(item(in, "scid"), scid, ID_LEN);
  size_t tokenlen = unhex(item(in, "token"), token, ID_LEN);
  int64_t end;
  if (!strncmp(item(in, "kind"), "vn", 2)) {
    answer_negotiation_write(in, dcid, dcidlen, scid, scidlen);
    return;
  }
  fields = header_fields(in);
  end = quic_wire_header_write(&fields, dcid, dcidlen, scid, scidlen, token,
                               tokenlen, out, sizeof out);
  if (end >= 0 && item(in, "length")) {
    size_t place = (size_t)end - fields.numberlen;
    size_t len = place + (size_t)number(in, "length", 0);
    if (len > sizeof out || quic_wire_set_len(out, len, place, 2))
      end = -1;
  }
  if (end < 0) {
    puts("invalid");
    return;
  }
  printf("valid \"");
  print_hex(stdout, out, (size_t)end);
  puts("\"");
}

/* The rules with which frames are written; whether ACK frequency is known, only the test says. */
static uint32_t writer_rules(const line *in) {
  return is_rfc ? payload_flags(in) & QUIC_WIRE_WRITE_RFC : 0;
}

/* Writes a frame that was read in its shortest form; an ACK by its gaps, and PADDING as often as it was there. */
static int write_frame(const line *in, const quic_wire_frame *frame,
                       uint8_t *out, size_t room, size_t *len) {
  quic_wire_frame ack;
  quic_wire_gap gaps[GAPS];
  if (frame->kind == QUIC_WIRE_FRAME_PADDING) {
    *len = quic_wire_padding_count(in->bytes, in->len, frame);
    memset(out, 0, *len);
    return QUIC_WIRE_OK;
  }
  if (frame->kind != QUIC_WIRE_FRAME_ACK)
    return quic_wire_frame_write(frame, in->bytes, in->len,
                                 writer_rules(in) | (frame->end == in->len ? QUIC_WIRE_WRITE_LAST : 0),
                                 out, room, len);
  if (quic_wire_frame_read(in->bytes + frame->begin, in->len - frame->begin, 0,
                           &ack, gaps, GAPS) < 0)
    return QUIC_WIRE_ERR_FRAME_MALFORMED;
  return quic_wire_ack_gaps_write(&ack, gaps, ack.data, out, room, len);
}

/* The frames of a payload, written one after the other.  Returns how many bytes
 * that makes, or 0. */
static size_t write_frames(const line *in, uint8_t *out) {
  quic_wire_frame_iter frames;
  quic_wire_frame frame;
  size_t end = 0, len;
  int answer = quic_wire_frames_init(&frames, in->bytes, in->len, 0);
  while (answer >= 0 && (answer = quic_wire_frames_next(&frames, in->bytes, in->len,
                                                        &frame)) == QUIC_WIRE_ITEM) {
    if (write_frame(in, &frame, out + end, in->len - end, &len))
      return 0;
    end += len;
  }
  return answer == QUIC_WIRE_OK ? end : 0;
}

/* The shortest payload, as a whole; written frame by frame it must be the
 * same. */
static void answer_shortest(const line *in) {
  quic_wire_canon canon;
  uint8_t *out = malloc(2 * in->len + 1);
  size_t len;
  int answer;
  if (!out)
    exit(3);
  len = write_frames(in, out + in->len);
  answer = is_rfc ? quic_wire_canonical_with(in->bytes, in->len, payload_flags(in), out, in->len, &canon)
                  : quic_wire_canonical(in->bytes, in->len, out, in->len, &canon);
  if (answer != QUIC_WIRE_OK && len)
    puts("valid \"frames that have no shortest payload\"");
  else if (answer != QUIC_WIRE_OK)
    printf("invalid %s\n", code_name(answer));
  else if (len != canon.len || memcmp(out, out + in->len, len))
    puts("valid \"another payload frame by frame\"");
  else {
    printf("valid \"");
    print_hex(stdout, out, len);
    puts("\"");
  }
  free(out);
}

/* Prints what was written, or that it can't be. */
static void print_written(const uint8_t *out, size_t len) {
  if (!len) {
    puts("invalid");
    return;
  }
  printf("valid \"");
  print_hex(stdout, out, len);
  puts("\"");
}

static void answer_nonce(const line *in) {
  uint8_t iv[12], out[12];
  unhex(item(in, "iv"), iv, 12);
  print_written(out, quic_wire_nonce(iv, number(in, "number", 0), out) ? 12 : 0);
}

static void answer_retry_pseudo(const line *in) {
  uint8_t odcid[ID_LEN], out[256];
  size_t len = unhex(item(in, "odcid"), odcid, ID_LEN);
  print_written(out, quic_wire_retry_pseudo_write(odcid, len, in->bytes, in->len, out, sizeof out));
}

static void answer_information(const line *in) {
  uint32_t versions[8];
  uint8_t out[64];
  size_t count = versions_in(item(in, "available"), versions, 8);
  uint32_t chosen = (uint32_t)strtoul(item(in, "chosen"), NULL, 16);
  print_written(out, quic_wire_version_information_write(chosen, versions, count, out, sizeof out));
}

static void answer_reset_write(const line *in) {
  uint8_t bytes[64], token[16], out[128];
  size_t len = unhex(item(in, "unpredictable"), bytes, 64);
  unhex(item(in, "token"), token, 16);
  print_written(out, quic_wire_reset_write(bytes, len, token, out, sizeof out));
}

static void answer_reset_read(const line *in) {
  uint8_t token[16];
  unhex(item(in, "token"), token, 16);
  printf("valid \"%d\"\n", quic_wire_is_reset(in->bytes, in->len, token));
}

static void answer_negotiation_answer(const line *in) {
  uint32_t versions[8];
  uint8_t out[1024];
  size_t count = versions_in(item(in, "supported"), versions, 8);
  uint8_t unused = (uint8_t)strtoul(item(in, "unused"), NULL, 16);
  print_written(out, quic_wire_negotiation_answer(unused, in->bytes, in->len, versions, count, out, sizeof out));
}

typedef struct call {
  const char *form;
  void (*answer)(const line *in);
} call;

void answer_call(const line *in) {
  static const call calls[] = {
      {"params", answer_params},           {"params-write", answer_params_write},
      {"shortest", answer_shortest},
      {"varint-read", answer_varint_read}, {"varint-write", answer_varint_write},
      {"number-expand", answer_number},    {"number-length", answer_number},
      {"unprotect", answer_unprotect},     {"protect", answer_protect},
      {"header-write", answer_header_write},
      {"nonce", answer_nonce},             {"retry-pseudo", answer_retry_pseudo},
      {"version-information-write", answer_information},
      {"reset-write", answer_reset_write}, {"reset-read", answer_reset_read},
      {"negotiation-answer", answer_negotiation_answer}};
  size_t i;
  for (i = 0; i < sizeof calls / sizeof *calls; i++)
    if (!strcmp(in->form, calls[i].form)) {
      calls[i].answer(in);
      return;
    }
  puts("skip");
}
