/* Where the fields of frames, packets and entries of parameters are. */
#include "abuse.h"

#define ROOM QUIC_WIRE_PACKET_FIELDS
#define RFC QUIC_WIRE_READ_RFC

static const uint32_t versions[] = {QUIC_WIRE_VERSION_1, QUIC_WIRE_VERSION_2};

void fields_nulls(void) {
  uint8_t bytes[4] = {1, 2, 3, 4};
  quic_wire_span field = {1, 2, 3, 4};
  quic_wire_fields read = {5, 6, 7, 8};
  WANT(quic_wire_frame_fields(NULL, 1, 0, &field, 1, &read) == INVALID);
  WANT(quic_wire_frame_fields(bytes, 4, 0, NULL, 1, &read) == INVALID);
  WANT(quic_wire_frame_fields(bytes, 4, 0, &field, 1, NULL) == INVALID);
  WANT(quic_wire_packet_fields(NULL, 0, 0, NULL, 0, 0, &field, 1, &read) ==
       INVALID);
  WANT(quic_wire_packet_fields(bytes, 4, 0, NULL, 1, 0, &field, 1, &read) ==
       INVALID);
  WANT(quic_wire_packet_fields(bytes, 4, 0, NULL, 0, 0, NULL, 1, &read) ==
       INVALID);
  WANT(quic_wire_packet_fields(bytes, 4, 0, NULL, 0, 0, &field, 1, NULL) ==
       INVALID);
  WANT(quic_wire_param_fields(NULL, 1, &field, 1, &read) == INVALID);
  WANT(quic_wire_param_fields(bytes, 4, NULL, 1, &read) == INVALID);
  WANT(quic_wire_param_fields(bytes, 4, &field, 1, NULL) == INVALID);
  WANT(quic_wire_param_value_fields(1, NULL, 1, 0, &field, 1, &read) ==
       INVALID);
  WANT(quic_wire_param_value_fields(1, bytes, 4, 0, NULL, 1, &read) == INVALID);
  WANT(quic_wire_param_value_fields(1, bytes, 4, 0, &field, 1, NULL) ==
       INVALID);
  WANT(field.field == 1 && field.number == 4 && read.count == 5 &&
       read.numbers == 8);
  WANT(quic_wire_frame_fields(NULL, 0, 0, NULL, 0, &read) ==
       QUIC_WIRE_ERR_PAYLOAD_EMPTY);
  WANT(read.count == 0 && read.end == 0 && read.inside == 0);
  WANT(quic_wire_param_fields(NULL, 0, NULL, 0, &read) ==
       QUIC_WIRE_ERR_PARAMS_MALFORMED);
  WANT(quic_wire_packet_fields(bytes, 0, 0, NULL, 0, 0, NULL, 0, &read) ==
       QUIC_WIRE_ERR_PACKET_END);
  WANT(quic_wire_packet_fields(bytes, 4, 21, NULL, 0, 0, NULL, 0, &read) ==
       QUIC_WIRE_ERR_LENGTH);
  WANT(read.count == 0 && read.end == 0);
}

/* What is returned, and how far the fields were read. */
#define READ(read, a, b, c, d)                                                 \
  ((read).count == (a) && (read).end == (b) && (read).inside == (c) &&         \
   (read).numbers == (d))

/* A field that was read. */
#define FIELD(span, a, b, c, d)                                                \
  ((span).field == (a) && (span).start == (b) && (span).end == (c) &&          \
   (span).number == (d))

#define FRAME(text, flags)                                                     \
  quic_wire_frame_fields((const uint8_t *)text, sizeof text - 1, flags,        \
                         fields, ROOM, &read)

/* Section 19 of RFC 9000 has the fields in this order. */
static void frame_examples(void) {
  quic_wire_span fields[ROOM];
  quic_wire_fields read;
  /* MAX_STREAM_DATA, its stream and its limit. */
  WANT(FRAME("\x11\x40\x05\x80\0\x10\0", RFC) == QUIC_WIRE_ITEM);
  WANT(READ(read, 3, 7, 0, 0) && FIELD(fields[0], 0, 0, 1, 0x11));
  WANT(FIELD(fields[1], 1, 1, 3, 5) && FIELD(fields[2], 2, 3, 7, 4096));
  /* CRYPTO at offset 2 with three bytes, and one byte after it. */
  WANT(FRAME("\6\2\3abc\1", RFC) == QUIC_WIRE_ITEM);
  WANT(READ(read, 3, 6, 0, 0) && FIELD(fields[2], 2, 2, 6, 3));
  /* The last bytes are missing: the length is read. */
  WANT(FRAME("\6\2\x40\3ab", 0) == QUIC_WIRE_ERR_FRAME_END);
  WANT(READ(read, 2, 2, 2, 1));
  /* An ACK of 9 to 8 and of 6, and one whose second gap goes below 0. */
  WANT(FRAME("\2\x9\0\1\1\0\0", 0) == QUIC_WIRE_ITEM);
  WANT(READ(read, 4, 7, 0, 0) && FIELD(fields[3], 3, 3, 7, 1));
  WANT(FRAME("\2\x9\0\2\1\0\0\5\0", 0) == QUIC_WIRE_ERR_FRAME_MALFORMED);
  WANT(READ(read, 3, 3, 4, 4));
}

/* What flags reject, and the field that is at fault (12.4, 19.6 to 19.14). */
static void rule_examples(void) {
  quic_wire_span fields[ROOM];
  quic_wire_fields read;
  WANT(FRAME("\x40\1", 0) == QUIC_WIRE_ITEM);
  WANT(FRAME("\x40\1", RFC) == QUIC_WIRE_ERR_FRAME_LONG_TYPE);
  WANT(READ(read, 0, 0, 0, 0));
  WANT(FRAME("\x1f", 0) == QUIC_WIRE_ITEM);
  WANT(FRAME("\x1f", RFC) == QUIC_WIRE_ERR_FRAME_TYPE);
  WANT(READ(read, 0, 0, 0, 0));
  /* ACK_FREQUENCY without its last field. */
  WANT(FRAME("\x40\xaf\1\1\1", 0) == QUIC_WIRE_ERR_FRAME_END);
  WANT(READ(read, 4, 5, 0, 0));
  WANT(FRAME("\x40\xaf\1\1\1", RFC) == QUIC_WIRE_ERR_FRAME_TYPE);
  WANT(READ(read, 0, 0, 0, 0));
  WANT(FRAME("\7\0", 0) == QUIC_WIRE_ITEM);
  WANT(FRAME("\7\0", RFC) == QUIC_WIRE_ERR_FRAME_MALFORMED);
  WANT(READ(read, 1, 1, 0, 0) && FIELD(fields[0], 0, 0, 1, 7));
  /* MAX_STREAMS: 2^60 and one more. */
  WANT(FRAME("\x12\xd0\0\0\0\0\0\0\0", RFC) == QUIC_WIRE_ITEM);
  WANT(FRAME("\x12\xd0\0\0\0\0\0\0\1", 0) == QUIC_WIRE_ITEM);
  WANT(FRAME("\x12\xd0\0\0\0\0\0\0\1", RFC) == QUIC_WIRE_ERR_FRAME_LIMIT);
  WANT(READ(read, 2, 1, 0, 0) && FIELD(fields[1], 1, 1, 1, 0));
  /* Data from 2^62 - 2 on: CRYPTO, STREAM with a length and without one. */
  WANT(FRAME("\6\xff\xff\xff\xff\xff\xff\xff\xfe\1a", RFC) == QUIC_WIRE_ITEM);
  WANT(FRAME("\6\xff\xff\xff\xff\xff\xff\xff\xfe\2ab", RFC) ==
       QUIC_WIRE_ERR_FRAME_LIMIT);
  WANT(READ(read, 2, 9, 0, 0));
  WANT(FRAME("\x0e\4\xff\xff\xff\xff\xff\xff\xff\xfe\2ab", RFC) ==
       QUIC_WIRE_ERR_FRAME_LIMIT);
  WANT(READ(read, 4, 10, 0, 0) && FIELD(fields[3], 3, 2, 10, (1ull << 62) - 2));
  WANT(FRAME("\x0c\4\xff\xff\xff\xff\xff\xff\xff\xfe"
             "ab",
             RFC) == QUIC_WIRE_ERR_FRAME_LIMIT);
  WANT(READ(read, 3, 2, 0, 0) && FIELD(fields[2], 2, 1, 2, 4));
}

#define PACKET(text, flags)                                                    \
  quic_wire_packet_fields((const uint8_t *)text, sizeof text - 1, 2, versions, \
                          2, flags, fields, ROOM, &read)
#define TAG "0123456789abcdef"

/* Section 17 of RFC 9000 has the fields in this order. */
static void packet_examples(void) {
  quic_wire_span fields[ROOM];
  quic_wire_fields read;
  /* An Initial packet with a token of two bytes and a length of 4. */
  WANT(PACKET("\xc0\0\0\0\1\1d\0\2tk\x40\4sdfg", RFC) == QUIC_WIRE_ITEM);
  WANT(READ(read, 8, 13, 0, 0) && FIELD(fields[0], 0, 0, 1, 0xc0));
  WANT(FIELD(fields[1], 1, 1, 5, 1) && FIELD(fields[2], 2, 5, 7, 1));
  WANT(FIELD(fields[3], 3, 7, 8, 0) && FIELD(fields[4], 4, 8, 8, 0));
  WANT(FIELD(fields[5], 5, 8, 9, 2) && FIELD(fields[6], 6, 9, 11, 2));
  WANT(FIELD(fields[7], 7, 11, 13, 4));
  /* It is cut off: after its Length, and within its token. */
  WANT(PACKET("\xc0\0\0\0\1\1d\0\2tk\x40\4sdf", RFC) ==
       QUIC_WIRE_ERR_PACKET_CUT);
  WANT(READ(read, 7, 11, 0, 0) && FIELD(fields[6], 6, 9, 11, 2));
  WANT(PACKET("\xc0\0\0\0\1\1d\0\2t", RFC) == QUIC_WIRE_ERR_PACKET_TOKEN);
  WANT(READ(read, 6, 9, 0, 0));
  /* Its fixed bit is clear; its version isn't known; an id is too long. */
  WANT(PACKET("\x80\0\0\0\1\1d\0\0\1s", RFC) == QUIC_WIRE_ERR_PACKET_FIXED_BIT);
  WANT(READ(read, 0, 0, 0, 0));
  WANT(PACKET("\xc0\0\0\0\2\1d\0\0\1s", RFC) == QUIC_WIRE_ERR_PACKET_VERSION);
  WANT(READ(read, 4, 8, 0, 0));
  WANT(PACKET("\xc0\0\0\0\1\x15", RFC) == QUIC_WIRE_ERR_PACKET_CID);
  WANT(READ(read, 2, 5, 0, 0));
  WANT(PACKET("\xc0\0\0\0\1\3ab", RFC) == QUIC_WIRE_ERR_PACKET_CID);
  WANT(READ(read, 2, 5, 1, 1));
}

/* Packets without a number (17.2.1, 17.2.5), and short headers (17.3). */
static void other_packets(void) {
  quic_wire_span fields[ROOM];
  quic_wire_fields read;
  WANT(PACKET("\xf0\0\0\0\1\1d\0" TAG, 0) == QUIC_WIRE_ITEM);
  WANT(READ(read, 7, 24, 0, 0) && FIELD(fields[5], 5, 8, 8, 0));
  WANT(FIELD(fields[6], 6, 8, 24, 16));
  WANT(PACKET("\xf0\0\0\0\1\1d\0" TAG, RFC) == QUIC_WIRE_ERR_PACKET_RETRY);
  WANT(READ(read, 5, 8, 0, 0));
  WANT(PACKET("\xf0\0\0\0\1\1d\0t" TAG, RFC) == QUIC_WIRE_ITEM);
  WANT(READ(read, 7, 25, 0, 0) && FIELD(fields[5], 5, 8, 9, 1));
  WANT(PACKET("\xf0\0\0\0\1\1d\0token", 0) == QUIC_WIRE_ITEM);
  WANT(READ(read, 5, 8, 0, 0));
  WANT(PACKET("\xf0\0\0\0\1\1d\0token", RFC) == QUIC_WIRE_ERR_PACKET_RETRY);
  WANT(READ(read, 6, 8, 0, 0) && FIELD(fields[5], 5, 8, 8, 0));
  WANT(PACKET("\xc0\0\0\0\0\1d\0\0\0\0\1\0\0\0\2", RFC) == QUIC_WIRE_ITEM);
  WANT(READ(read, 5, 16, 0, 0) && FIELD(fields[4], 4, 8, 16, 2));
  WANT(PACKET("\x40\x64\x65nnnn", RFC) == QUIC_WIRE_ITEM);
  WANT(READ(read, 2, 3, 0, 0) && FIELD(fields[1], 1, 1, 3, 2));
  WANT(PACKET("\x40\x64", RFC) == QUIC_WIRE_ERR_PACKET_SMALL);
  WANT(READ(read, 1, 1, 0, 0));
}

/* An entry of parameters is an id, and a value with its length (18). */
static void param_examples(void) {
  static const uint8_t entry[] = {0x40, 0x0f, 2, 'a', 'b', 1};
  quic_wire_span fields[2];
  quic_wire_fields read;
  WANT(quic_wire_param_fields(entry, 6, fields, 2, &read) == QUIC_WIRE_ITEM);
  WANT(READ(read, 2, 5, 0, 0) && FIELD(fields[0], 0, 0, 2, 15));
  WANT(FIELD(fields[1], 1, 2, 5, 2));
  WANT(quic_wire_param_fields(entry, 4, fields, 2, &read) ==
       QUIC_WIRE_ERR_PARAMS_MALFORMED);
  WANT(READ(read, 1, 2, 1, 1));
}

#define VALUE(id, text, flags)                                                 \
  quic_wire_param_value_fields(id, (const uint8_t *)text, sizeof text - 1,     \
                               flags, fields, ROOM, &read)

/* Section 18.2 has the values. */
static void value_examples(void) {
  quic_wire_span fields[ROOM];
  quic_wire_fields read;
  /* max_ack_delay: 25 milliseconds, in two widths, and 2^14. */
  WANT(VALUE(0x0b, "\x19", 0) == QUIC_WIRE_ITEM);
  WANT(READ(read, 1, 1, 0, 0) && FIELD(fields[0], 0, 0, 1, 25));
  WANT(VALUE(0x0b, "\x40\x19", RFC) == QUIC_WIRE_ITEM);
  WANT(VALUE(0x0b, "\x40\x19", 0) == QUIC_WIRE_ERR_PARAMS_MALFORMED);
  WANT(VALUE(0x0b, "\x80\0\x40\0", RFC) == QUIC_WIRE_ERR_PARAMS_ILLEGAL);
  WANT(READ(read, 0, 0, 0, 0) && fields[0].number == 0x4000);
  /* disable_active_migration has no value, and any unknown one is read. */
  WANT(VALUE(0x0c, "", 0) == QUIC_WIRE_ITEM && read.count == 0);
  WANT(VALUE(0x0c, "\0", 0) == QUIC_WIRE_ERR_PARAMS_MALFORMED);
  WANT(VALUE(0x1b, "abc", 0) == QUIC_WIRE_ITEM && fields[0].number == 3);
  /* preferred_address: 10.0.0.1:443, no IPv6, an id of a byte, a token. */
  WANT(VALUE(0x0d,
             "\x0a\0\0\1\1\xbb\0\0\0\0\0\0\0\0\0\0\0\0\0\0\0\0\0\0"
             "\1i0123456789abcdef",
             0) == QUIC_WIRE_ITEM);
  WANT(READ(read, 6, 42, 0, 0) && FIELD(fields[1], 1, 4, 6, 443) &&
       FIELD(fields[4], 4, 24, 26, 1) && FIELD(fields[5], 5, 26, 42, 16));
}

void fields_examples(void) {
  frame_examples();
  rule_examples();
  packet_examples();
  other_packets();
  param_examples();
  value_examples();
}

/* Each field begins where the one before it ends, and as many are stored as
 * there is room for: the others are as they were. */
static void are_in_row(const quic_wire_span *fields, size_t room,
                       const quic_wire_fields *read, size_t len) {
  size_t k, end = 0;
  WANT(read->count <= ROOM && read->end <= len);
  for (k = 0; k < room && k < read->count; k++) {
    WANT(fields[k].field == k && fields[k].start == end);
    WANT(fields[k].end >= end);
    end = (size_t)fields[k].end;
  }
  for (; k < room; k++)
    WANT(fields[k].field == 77);
  WANT(end <= read->end && (room < read->count || end == read->end));
  WANT(read->inside <= len - read->end);
}

static quic_wire_span *unset(size_t room) {
  quic_wire_span *fields = (quic_wire_span *)block(room * sizeof *fields);
  size_t k;
  for (k = 0; k < room; k++)
    fields[k].field = 77;
  return fields;
}

/* The results are those of the readers. */
static void frame_any(const uint8_t *bytes, size_t len, uint32_t flags) {
  const size_t room = any() % ROOM;
  quic_wire_span *fields = unset(room);
  quic_wire_fields read;
  quic_wire_frame_iter frames;
  quic_wire_frame frame;
  const int result =
      quic_wire_frame_fields(bytes, len, flags, fields, room, &read);
  int first = quic_wire_frames_init(&frames, bytes, len, flags);
  if (first >= 0)
    first = quic_wire_frames_next(&frames, bytes, len, &frame);
  WANT(result == first);
  are_in_row(fields, room, &read, len);
  /* A frame of PADDING is its type; the iterator's ends with the run. */
  if (result == QUIC_WIRE_ITEM)
    WANT(read.inside == 0 && read.numbers == 0 &&
         read.end == (frame.kind ? frame.end : (size_t)1 << (bytes[0] >> 6)));
  free(fields);
}

static void packet_any(const uint8_t *bytes, size_t len, uint32_t flags) {
  const size_t room = any() % ROOM, count = any() % 3;
  const uint32_t cidlen = (uint32_t)(any() % 24);
  quic_wire_span *fields = unset(room);
  quic_wire_fields read;
  quic_wire_header header;
  const int result = quic_wire_packet_fields(bytes, len, cidlen, versions,
                                             count, flags, fields, room, &read);
  const int64_t end = quic_wire_header_read(bytes, len, cidlen, versions, count,
                                            flags, &header);
  WANT(result == (end > 0 ? QUIC_WIRE_ITEM : end));
  are_in_row(fields, room, &read, len);
  free(fields);
}

static void param_any(const uint8_t *bytes, size_t len) {
  const size_t room = any() % ROOM;
  quic_wire_span *fields = unset(room);
  quic_wire_fields read;
  quic_wire_param param;
  const int result = quic_wire_param_fields(bytes, len, fields, room, &read);
  const int64_t end = quic_wire_param_read(bytes, len, &param);
  WANT((result == QUIC_WIRE_ITEM) == (end > 0));
  WANT(end <= 0 || read.end == (uint64_t)end);
  are_in_row(fields, room, &read, len);
  free(fields);
}

static void value_any(const uint8_t *bytes, size_t len, uint32_t flags) {
  const uint64_t id = any() % 0x22;
  const size_t room = any() % ROOM;
  quic_wire_span *fields = unset(room);
  quic_wire_fields read;
  const int result = quic_wire_param_value_fields(id, bytes, len, flags, fields,
                                                  room, &read);
  WANT(result == QUIC_WIRE_ITEM || result == QUIC_WIRE_ERR_PARAMS_ILLEGAL ||
       result == QUIC_WIRE_ERR_PARAMS_MALFORMED);
  WANT(read.end <= len && (result != QUIC_WIRE_ITEM || read.end == len));
  free(fields);
}

void fields_any(const uint8_t *bytes, size_t len) {
  uint8_t *packet = block(len + 12);
  const uint32_t flags = any() % 4 ? any_flags() : RFC;
  frame_any(bytes, len, flags);
  param_any(bytes, len);
  value_any(bytes, len, flags);
  packet_any(bytes, len, flags);
  /* A long header of a version that may be known, with short ids. */
  memcpy(packet, "\xc0\0\0\0\1\1d\1s", 9);
  packet[0] = (uint8_t)(0x80 | any());
  packet[4] = (uint8_t)(any() % 3);
  memcpy(packet + 9, bytes, len);
  packet_any(packet, len + 9, flags);
  free(packet);
}
