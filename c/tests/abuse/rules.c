/* What readers reject with flags, QUIC_WIRE_READ_...: each rule with frames
 * that just pass it and frames that break it, and any payloads with any
 * flags. */
#include "abuse.h"

uint32_t any_flags(void) {
  return any() % 2 ? (uint32_t)any() & QUIC_WIRE_READ_RFC : (uint32_t)any();
}

int refused_by(uint32_t flags, const quic_wire_frame *frame) {
  const uint64_t most_data = UINT64_MAX >> 2, most_streams = (uint64_t)1 << 60;
  switch (frame->kind) {
  case QUIC_WIRE_FRAME_CRYPTO:
  case QUIC_WIRE_FRAME_STREAM:
    return flags & QUIC_WIRE_READ_DATA_LIMIT &&
                   frame->numbers[1] + frame->datalen > most_data
               ? QUIC_WIRE_ERR_FRAME_LIMIT
               : 0;
  case QUIC_WIRE_FRAME_MAX_STREAMS_BIDI:
  case QUIC_WIRE_FRAME_MAX_STREAMS_UNI:
  case QUIC_WIRE_FRAME_STREAMS_BLOCKED_BIDI:
  case QUIC_WIRE_FRAME_STREAMS_BLOCKED_UNI:
    return flags & QUIC_WIRE_READ_STREAM_LIMIT &&
                   frame->limit.limit > most_streams
               ? QUIC_WIRE_ERR_FRAME_LIMIT
               : 0;
  case QUIC_WIRE_FRAME_NEW_TOKEN:
    return flags & QUIC_WIRE_READ_TOKENS && !frame->datalen
               ? QUIC_WIRE_ERR_FRAME_MALFORMED
               : 0;
  case QUIC_WIRE_FRAME_ACK_FREQUENCY:
  case QUIC_WIRE_FRAME_IMMEDIATE_ACK:
    return flags & QUIC_WIRE_READ_NO_ACK_FREQUENCY ? QUIC_WIRE_ERR_FRAME_TYPE
                                                   : 0;
  default: return 0;
  }
}

static quic_wire_frame_iter begin(uint32_t flags) {
  quic_wire_frame_iter frames = {0, QUIC_WIRE_NO_TYPE, 0, 0};
  frames.flags = flags;
  return frames;
}

/* A frame, the flag that rejects it, and the result then; 0 if no flag does. */
typedef struct rule_row {
  uint32_t flag;
  int result;
  size_t len;
  uint8_t bytes[16];
} rule_row;

#define DATA QUIC_WIRE_READ_DATA_LIMIT
#define STREAMS QUIC_WIRE_READ_STREAM_LIMIT
#define EXTENSION QUIC_WIRE_READ_NO_ACK_FREQUENCY
#define LIMIT QUIC_WIRE_ERR_FRAME_LIMIT
/* 2^62 - 2, 2^62 - 1, 2^60, 2^60 + 1, each in 8 bytes */
#define LAST_BUT_ONE 0xff, 0xff, 0xff, 0xff, 0xff, 0xff, 0xff, 0xfe
#define LAST 0xff, 0xff, 0xff, 0xff, 0xff, 0xff, 0xff, 0xff
#define MOST 0xd0, 0, 0, 0, 0, 0, 0, 0
#define MORE 0xd0, 0, 0, 0, 0, 0, 0, 1

static const rule_row rule_rows[] = {
    {0, 0, 10, {0x06, LAST, 0}},
    {0, 0, 11, {0x06, LAST_BUT_ONE, 1, 'a'}},
    {DATA, LIMIT, 11, {0x06, LAST, 1, 'a'}},
    {DATA, LIMIT, 12, {0x06, LAST_BUT_ONE, 2, 'a', 'b'}},
    {0, 0, 11, {0x0e, 0, LAST, 0}},
    {0, 0, 12, {0x0e, 0, LAST_BUT_ONE, 1, 'a'}},
    {DATA, LIMIT, 12, {0x0e, 0, LAST, 1, 'a'}},
    {DATA, LIMIT, 12, {0x0d, 0, LAST_BUT_ONE, 'a', 'b'}},
    {0, 0, 9, {0x12, MOST}},
    {0, 0, 9, {0x13, MOST}},
    {0, 0, 9, {0x16, MOST}},
    {0, 0, 9, {0x17, MOST}},
    {STREAMS, LIMIT, 9, {0x12, MORE}},
    {STREAMS, LIMIT, 9, {0x13, MORE}},
    {STREAMS, LIMIT, 9, {0x16, MORE}},
    {STREAMS, LIMIT, 9, {0x17, MORE}},
    {0, 0, 9, {0x10, LAST}},
    {0, 0, 3, {0x07, 1, 'a'}},
    {QUIC_WIRE_READ_TOKENS, QUIC_WIRE_ERR_FRAME_MALFORMED, 2, {0x07, 0}},
    {EXTENSION, QUIC_WIRE_ERR_FRAME_TYPE, 1, {0x1f}},
    {EXTENSION, QUIC_WIRE_ERR_FRAME_TYPE, 6, {0x40, 0xaf, 1, 2, 3, 4}},
};
#define RULE_ROWS (sizeof rule_rows / sizeof rule_rows[0])

/* A single frame, at the front. */
static void read_alone(const rule_row *row, uint32_t flags) {
  const int refused = flags & row->flag ? row->result : 0;
  quic_wire_frame_iter frames;
  quic_wire_frame frame;
  size_t count = 0;
  int64_t end =
      quic_wire_frame_read(row->bytes, row->len, flags, &frame, NULL, 0);
  WANT(end == (refused ? refused : (int64_t)row->len));
  WANT(refused_by(flags, &frame) == 0);
  WANT(quic_wire_frames_first(&frames, row->bytes, row->len, flags, &frame, 1,
                              &count) == (refused ? refused : QUIC_WIRE_ITEM));
  WANT(frames.flags == flags && count == (refused ? 0 : 1) &&
       frames.offset == (refused ? 0 : row->len) &&
       frames.ended == (refused ? 1 : 0));
}

/* The frame after a PING, PADDING and a MAX_DATA, 5 bytes. */
static void read_later(const rule_row *row, uint32_t flags) {
  const int refused = flags & row->flag ? row->result : 0;
  const size_t len = 5 + row->len;
  uint8_t payload[5 + sizeof row->bytes] = {0x01, 0x00, 0x00, 0x10, 0x05};
  quic_wire_frame filled[4], frame;
  quic_wire_frame_iter frames = begin(flags), one;
  uint64_t type = QUIC_WIRE_NO_TYPE;
  size_t count = 0;
  memcpy(payload + 5, row->bytes, row->len);
  WANT(quic_wire_varint_read(row->bytes, row->len, &type));
  WANT(quic_wire_frames_fill(&frames, payload, len, filled, 4, &count) == 1);
  WANT(count == (refused ? 3 : 4) && !frames.ended);
  WANT(frames.offset == (refused ? 5 : len) && frames.flags == flags);
  if (!refused)
    return;
  one = frames;
  one.flags &= ~row->flag; /* only that flag rejects it */
  WANT(quic_wire_frames_next(&one, payload, len, &frame) == 1);
  one = frames;
  WANT(quic_wire_frames_next(&one, payload, len, &frame) == refused);
  WANT(frame.begin == 5 && quic_wire_error_type(&frame) == type);
  WANT(one.offset == 5 && one.ended &&
       one.last_type == QUIC_WIRE_FRAME_MAX_DATA);
  WANT(quic_wire_frames_next(&one, payload, len, &frame) == 0);
  WANT(quic_wire_frames_fill(&frames, payload, len, filled, 4, &count) ==
       refused);
  WANT(quic_wire_error_type(&filled[0]) == type);
  WANT(!memcmp(&frames, &one, sizeof one));
}

/* A type that wasn't negotiated is unknown, whether its fields are there or
 * not; one that is too long is rejected for that first. */
static void extension_examples(void) {
  static const struct {
    int result, without; /* with the flag, and without it */
    int with_short;      /* with both flags */
    size_t len;
    uint8_t bytes[6];
  } types[] = {
      {QUIC_WIRE_ERR_FRAME_TYPE, QUIC_WIRE_ERR_FRAME_END,
       QUIC_WIRE_ERR_FRAME_TYPE, 2, {0x40, 0xaf}},
      {QUIC_WIRE_ERR_FRAME_TYPE, QUIC_WIRE_ERR_FRAME_END,
       QUIC_WIRE_ERR_FRAME_TYPE, 5, {0x40, 0xaf, 1, 2, 3}},
      {QUIC_WIRE_ERR_FRAME_TYPE, QUIC_WIRE_ERR_FRAME_END,
       QUIC_WIRE_ERR_FRAME_LONG_TYPE, 4, {0x80, 0, 0, 0xaf}},
      {QUIC_WIRE_ERR_FRAME_TYPE, 2, QUIC_WIRE_ERR_FRAME_LONG_TYPE, 2,
       {0x40, 0x1f}},
      {QUIC_WIRE_ERR_FRAME_END, QUIC_WIRE_ERR_FRAME_END,
       QUIC_WIRE_ERR_FRAME_END, 1, {0x40}},
  };
  size_t k;
  for (k = 0; k < sizeof types / sizeof *types; k++) {
    const uint32_t flags[] = {EXTENSION, 0,
                              EXTENSION | QUIC_WIRE_READ_SHORT_TYPES};
    const int64_t want[] = {types[k].result, types[k].without,
                            types[k].with_short};
    size_t way;
    for (way = 0; way < 3; way++) {
      quic_wire_frame_iter frames = begin(flags[way]);
      quic_wire_frame frame;
      uint64_t type = QUIC_WIRE_NO_TYPE;
      WANT(quic_wire_frame_read(types[k].bytes, types[k].len, flags[way],
                                &frame, NULL, 0) == want[way]);
      if (want[way] > 0)
        continue;
      if (quic_wire_varint_read(types[k].bytes, types[k].len, &type))
        WANT(quic_wire_error_type(&frame) == type);
      WANT(quic_wire_frames_next(&frames, types[k].bytes, types[k].len,
                                 &frame) == want[way]);
      WANT(quic_wire_error_type(&frame) == type && frames.ended);
    }
  }
}

void rules_examples(void) {
  size_t k;
  extension_examples();
  for (k = 0; k < RULE_ROWS; k++) {
    const rule_row *row = &rule_rows[k];
    const uint32_t ways[] = {0, row->flag, QUIC_WIRE_READ_RFC,
                             QUIC_WIRE_READ_RFC & ~row->flag, UINT32_MAX};
    size_t way;
    for (way = 0; way < sizeof ways / sizeof ways[0]; way++) {
      read_alone(row, ways[way]);
      read_later(row, ways[way]);
    }
  }
}

/* The bytes with a row's frame inserted, or one with a longer type, maybe cut
 * off. */
static uint8_t *put_in(const uint8_t *bytes, size_t *len) {
  static const uint8_t longer[] = {0x40, 0x1f};
  const rule_row *row = &rule_rows[any() % RULE_ROWS];
  const int is_longer = any() % 8 == 0;
  size_t count = is_longer ? sizeof longer : row->len - (any() % 8 == 0);
  size_t at = any() % 2 ? 0 : any() % (*len + 1);
  uint8_t *payload = block(*len + count);
  memcpy(payload, bytes, at);
  memcpy(payload + at, is_longer ? longer : row->bytes, count);
  memcpy(payload + at + count, bytes + at, *len - at);
  *len += count;
  return payload;
}

/* Another call of each reading function: they agree.  |*at| is where the next
 * frame begins.  Returns 1 if there was one. */
static int all_agree(quic_wire_frame_iter *one, quic_wire_frame_iter *many,
                     const uint8_t *payload, size_t len, size_t *at) {
  quic_wire_frame filled, next, front;
  size_t count = 0;
  int answer = quic_wire_frames_fill(many, payload, len, &filled, 1, &count);
  int64_t end = quic_wire_frame_read(payload + *at, len - *at, one->flags,
                                     &front, NULL, 0);
  if (answer == QUIC_WIRE_ITEM) {
    next_is(one, payload, len, &filled);
    WANT(count == 1 && filled.begin == *at && filled.kind == front.kind);
    WANT(end > 0 && *at + (size_t)end == filled.end);
    WANT(refused_by(one->flags, &filled) == 0);
    *at = filled.end;
  } else {
    WANT(quic_wire_frames_next(one, payload, len, &next) == answer);
    WANT(answer ? REFUSED(answer) && end == answer
                : end == QUIC_WIRE_ERR_PAYLOAD_EMPTY);
    WANT(!answer || !memcmp(&next, &filled, sizeof next));
    WANT(quic_wire_frames_next(one, payload, len, &next) == 0);
  }
  WANT(!memcmp(one, many, sizeof *one));
  return answer == QUIC_WIRE_ITEM;
}

/* With any flags all calls agree, and return what is read without rules up to
 * the first frame that breaks one.  Returns whether there is one. */
int rules_any(const uint8_t *bytes, size_t len) {
  uint8_t *payload = put_in(bytes, &len);
  uint32_t flags = any_flags();
  quic_wire_frame_iter one = begin(flags), many = one;
  quic_wire_frame_iter known = begin(flags & QUIC_WIRE_READ_SHORT_TYPES);
  quic_wire_frame frame;
  size_t at = 0;
  int answer, refused = 0;
  while (all_agree(&one, &many, payload, len, &at))
    ;
  do {
    answer = quic_wire_frames_next(&known, payload, len, &frame);
    refused = answer == QUIC_WIRE_ITEM ? refused_by(flags, &frame) : 0;
  } while (answer == QUIC_WIRE_ITEM && !refused);
  WANT(one.ended == (refused || known.ended));
  WANT(refused ? frame.begin == at : known.offset == at);
  free(payload);
  return refused != 0;
}
