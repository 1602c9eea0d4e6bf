/* Frames that are read: with an iterator, one with each call or many, from the
 * beginning and from any offset, and with types in their shortest encoding. */
#include "abuse.h"

static void iterator_nulls(void) {
  quic_wire_frame_iter frames = {0, QUIC_WIRE_NO_TYPE, 0, 0};
  quic_wire_frame frame;
  uint8_t byte = 1;
  memset(&frame, 0, sizeof frame);
  WANT(quic_wire_frames_init(NULL, &byte, 1, 0) == INVALID);
  WANT(quic_wire_frames_init(&frames, NULL, 1, 0) == INVALID);
  WANT(quic_wire_frames_init(&frames, NULL, 0, QUIC_WIRE_READ_RFC) ==
       QUIC_WIRE_ERR_PAYLOAD_EMPTY);
  WANT(frames.flags == 0);
  WANT(quic_wire_frames_next(NULL, &byte, 1, &frame) == INVALID);
  WANT(quic_wire_frames_next(&frames, &byte, 1, NULL) == INVALID);
  WANT(quic_wire_frames_next(&frames, NULL, 1, &frame) == INVALID);
  WANT(quic_wire_frames_next(&frames, NULL, 0, &frame) == 0);
}

static void fill_nulls(void) {
  quic_wire_frame_iter frames = {0, QUIC_WIRE_NO_TYPE, 0, 0};
  quic_wire_frame frame;
  uint8_t byte = 1;
  size_t n = 0;
  memset(&frame, 0, sizeof frame);
  WANT(quic_wire_frames_fill(NULL, &byte, 1, &frame, 1, &n) == INVALID);
  WANT(quic_wire_frames_fill(&frames, NULL, 1, &frame, 1, &n) == INVALID);
  WANT(quic_wire_frames_fill(&frames, &byte, 1, NULL, 1, &n) == INVALID);
  WANT(quic_wire_frames_fill(&frames, &byte, 1, &frame, 1, NULL) == INVALID);
  WANT(quic_wire_frames_fill(&frames, &byte, 1, NULL, 0, &n) ==
       QUIC_WIRE_ERR_NOBUF);
  WANT(quic_wire_frames_fill(&frames, NULL, 0, &frame, 1, &n) == 0);
  WANT(n == 0 && frames.offset == 0);
  WANT(quic_wire_frames_first(NULL, &byte, 1, 0, &frame, 1, &n) == INVALID);
  WANT(quic_wire_frames_first(&frames, NULL, 1, 0, &frame, 1, &n) == INVALID);
  WANT(quic_wire_frames_first(&frames, &byte, 1, 0, NULL, 1, &n) == INVALID);
  WANT(quic_wire_frames_first(&frames, &byte, 1, 0, &frame, 1, NULL) ==
       INVALID);
  WANT(quic_wire_frames_first(&frames, &byte, 1, 0, NULL, 0, &n) ==
       QUIC_WIRE_ERR_NOBUF);
  WANT(quic_wire_frames_first(&frames, NULL, 0, 0, &frame, 1, &n) ==
       QUIC_WIRE_ERR_PAYLOAD_EMPTY);
  WANT(quic_wire_frames_first(&frames, NULL, 0, 0, NULL, 0, &n) ==
       QUIC_WIRE_ERR_PAYLOAD_EMPTY);
  WANT(n == 0 && frames.offset == 0);
}

void frames_nulls(void) {
  iterator_nulls();
  fill_nulls();
  WANT(quic_wire_error_type(NULL) == QUIC_WIRE_NO_TYPE);
  WANT(quic_wire_padding_count(NULL, 1, NULL) == 0 &&
       !quic_wire_reset_token(NULL, 1, NULL) &&
       !quic_wire_path_data(NULL, 1, NULL));
  WANT(quic_wire_frame_rules(QUIC_WIRE_FRAME_PADDING) ==
       (QUIC_WIRE_RULE_IN(QUIC_WIRE_PACKET_INITIAL) |
        QUIC_WIRE_RULE_IN(QUIC_WIRE_PACKET_0RTT) |
        QUIC_WIRE_RULE_IN(QUIC_WIRE_PACKET_HANDSHAKE) |
        QUIC_WIRE_RULE_IN(QUIC_WIRE_PACKET_1RTT) |
        QUIC_WIRE_RULE_NOT_ELICITING | QUIC_WIRE_RULE_PROBING));
}

/* The eight bytes of a frame that was read are those of its number. */
static void path_bytes(const uint8_t *payload, size_t len,
                       const quic_wire_frame *frame) {
  const uint8_t *bytes = quic_wire_path_data(payload, len, frame);
  uint64_t number = 0;
  size_t k;
  WANT(!bytes == (frame->kind != QUIC_WIRE_FRAME_PATH_CHALLENGE &&
                  frame->kind != QUIC_WIRE_FRAME_PATH_RESPONSE));
  for (k = 0; bytes && k < 8; k++)
    number = number << 8 | bytes[k];
  WANT(!bytes || number == frame->path.data);
}

/* How many frames of PADDING an entry has, counted by reading them one by one;
 * 0 for another frame. */
static size_t padding_in(const uint8_t *payload, const quic_wire_frame *entry) {
  const uint8_t *run = payload + entry->begin;
  const size_t len = entry->end - entry->begin;
  quic_wire_frame_iter frames;
  quic_wire_frame frame;
  size_t count = 0;
  if (entry->kind != QUIC_WIRE_FRAME_PADDING)
    return 0;
  WANT(quic_wire_frames_init(&frames, run, len, 0) == QUIC_WIRE_OK);
  while (quic_wire_frames_next(&frames, run, len, &frame) == QUIC_WIRE_ITEM) {
    WANT(frame.kind == QUIC_WIRE_FRAME_PADDING);
    count++;
  }
  WANT(frames.offset == len && count);
  return count;
}

/* Runs of PADDING whose first types have 1, 2, 4 and 8 bytes, some with a PING
 * after them: what either call returns has as many frames as are read. */
void padding_any(void) {
  quic_wire_frame_iter frames;
  quic_wire_frame filled[4];
  uint8_t bytes[160], *payload;
  size_t len = 0, count, k, room = 1 + any() % 4;
  memset(bytes, 0, sizeof bytes);
  for (k = 1 + any() % 4; k; k--) {
    const unsigned width = any() % 4;
    bytes[len] = (uint8_t)(width << 6);
    len += ((size_t)1 << width) + any() % 24;
    if (any() % 2)
      bytes[len++] = QUIC_WIRE_FRAME_PING;
  }
  payload = block(len);
  memcpy(payload, bytes, len);
  WANT(quic_wire_frames_init(&frames, payload, len, 0) == QUIC_WIRE_OK);
  while (any() % 4
             ? quic_wire_frames_fill(&frames, payload, len, filled, room,
                                     &count) == QUIC_WIRE_ITEM
             : quic_wire_frames_next(&frames, payload, len, filled) ==
                       QUIC_WIRE_ITEM &&
                   (count = 1))
    for (k = 0; k < count; k++)
      WANT(quic_wire_padding_count(payload, len, &filled[k]) ==
           padding_in(payload, &filled[k]));
  WANT(frames.offset == len);
  free(payload);
}

/* Reads on from any offset, with any last type and any flags, which change
 * between calls; |frame| is left with any field values. */
static void read_on_rubbish(const uint8_t *payload, size_t len,
                            quic_wire_frame *frame) {
  quic_wire_frame_iter frames;
  const uint8_t *token;
  uint64_t type;
  size_t k;
  uint32_t flags = 0;
  int answer = 0;
  frames.offset = place();
  frames.last_type = edge();
  frames.ended = (uint32_t)(any() % 4 ? 0 : edge());
  memset(frame, (int)(any() % 256), sizeof *frame);
  for (k = 0; k < 50; k++) {
    frames.flags = flags = any_flags();
    answer = quic_wire_frames_next(&frames, payload, len, frame);
    if (answer != QUIC_WIRE_ITEM)
      break;
    WANT(frame->begin < frame->end && frame->end <= len);
    WANT(refused_by(flags, frame) == 0);
    if (frame->kind == QUIC_WIRE_FRAME_ACK)
      WANT(frame->ngaps == 0 && frame->first_range <= frame->ack.largest);
    else
      WANT(frame->data <= frame->end &&
           frame->datalen <= frame->end - frame->data);
    WANT(quic_wire_varint_read(payload + frame->begin, len - frame->begin,
                               &type) &&
         frame->type == type && type == frames.last_type);
    WANT(quic_wire_padding_count(payload, len, frame) ==
         (frame->kind == QUIC_WIRE_FRAME_PADDING));
    WANT(quic_wire_padding_count(payload, len, frame) ==
         padding_in(payload, frame));
    token = quic_wire_reset_token(payload, len, frame);
    WANT(frame->kind == QUIC_WIRE_FRAME_NEW_CONNECTION_ID
             ? token + 16 == payload + frame->end
             : !token);
    path_bytes(payload, len, frame);
  }
  WANT(!REFUSED(answer) || (frame->type == 0 && frame->flags == 0));
  WANT(k < 50 &&
       (answer == 0 || answer == QUIC_WIRE_ERR_PLACE || REFUSED(answer)));
  WANT(frames.flags == flags);
}

/* Reads on, and makes the calls that read parts of a frame and of ranges in the
 * payload, with any field values. */
void read_rubbish(const uint8_t *payload, size_t len) {
  quic_wire_frame frame;
  const uint8_t *token;
  read_on_rubbish(payload, len, &frame);
  frame.begin = place();
  frame.end = place();
  frame.data = place();
  frame.datalen = place();
  token = quic_wire_path_data(payload, len, &frame);
  WANT(!token || (payload <= token && token + 8 <= payload + len));
  if (any() % 2)
    frame.kind = QUIC_WIRE_FRAME_PADDING;
  WANT(quic_wire_padding_count(payload, len, &frame) <= len);
  token = quic_wire_reset_token(payload, len, &frame);
  WANT(!token || token + 16 <= payload + len);
  ranges_rubbish(payload, len, &frame);
}

void next_is(quic_wire_frame_iter *one, const uint8_t *payload, size_t len,
             const quic_wire_frame *entry) {
  quic_wire_frame frame, more;
  WANT(quic_wire_frames_next(one, payload, len, &frame) == 1);
  while (frame.kind == QUIC_WIRE_FRAME_PADDING && frame.end < entry->end) {
    WANT(payload[frame.end] == 0);
    WANT(quic_wire_frames_next(one, payload, len, &more) == 1);
    WANT(more.kind == QUIC_WIRE_FRAME_PADDING && more.begin == frame.end);
    frame.end = frame.data = more.end;
  }
  WANT(frame.kind != QUIC_WIRE_FRAME_PADDING || frame.end == len ||
       payload[frame.end]);
  WANT(!memcmp(&frame, entry, sizeof frame));
}

/* The frames from any offset on, many with one call, are those of single calls,
 * with runs of PADDING as one. */
void fill_rubbish(const uint8_t *payload, size_t len) {
  quic_wire_frame_iter one, many;
  quic_wire_frame frame, filled[6], before[6];
  size_t room = 1 + any() % 5, count, k, calls;
  int answer = 0;
  one.offset = place();
  one.last_type = edge();
  one.ended = (uint32_t)(any() % 8 ? 0 : edge());
  one.flags = any_flags();
  many = one;
  memset(before, 0xa5, sizeof before);
  for (calls = 0; calls < 50; calls++) {
    memcpy(filled, before, sizeof filled);
    count = 77;
    one.flags = many.flags = any_flags();
    answer = quic_wire_frames_fill(&many, payload, len, filled, room, &count);
    if (answer != QUIC_WIRE_ITEM)
      break;
    WANT(0 < count && count <= room);
    for (k = 0; k < count; k++) {
      next_is(&one, payload, len, &filled[k]);
      WANT(quic_wire_padding_count(payload, len, &filled[k]) ==
           padding_in(payload, &filled[k]));
    }
    WANT(!memcmp(&one, &many, sizeof one));
    WANT(!memcmp(filled + count, before, (6 - count) * sizeof frame));
  }
  WANT(calls < 50 && count == 77);
  WANT(quic_wire_frames_next(&one, payload, len, &frame) == answer);
  if (REFUSED(answer)) {
    WANT(!memcmp(&frame, &filled[0], sizeof frame));
    WANT(!memcmp(filled + 1, before, 5 * sizeof frame));
  } else {
    WANT(!memcmp(filled, before, sizeof filled));
  }
  WANT(!memcmp(&one, &many, sizeof one));
}

/* The first frames with one call are those of the two calls that begin and
 * continue. */
void first_rubbish(const uint8_t *payload, size_t len) {
  quic_wire_frame_iter one, both;
  quic_wire_frame first[5], filled[5];
  size_t room = any() % 6, count = 77, others = 77;
  const uint32_t flags = any_flags();
  int answer;
  memset(first, 0xa5, sizeof first);
  memset(filled, 0xa5, sizeof filled);
  memset(&one, 0x5a, sizeof one);
  memset(&both, 0x5a, sizeof both);
  answer = quic_wire_frames_init(&both, payload, len, flags);
  if (answer == QUIC_WIRE_OK) {
    answer = quic_wire_frames_fill(&both, payload, len, filled, room, &others);
    if (answer == QUIC_WIRE_ERR_NOBUF)
      memset(&both, 0x5a, sizeof both);
  }
  WANT(answer != 0);
  WANT(quic_wire_frames_first(&one, payload, len, flags, first, room, &count) ==
       answer);
  WANT(!memcmp(&one, &both, sizeof one) && count == others);
  WANT(!memcmp(first, filled, sizeof first));
}

/* Whether the bytes begin with a type that isn't in its shortest encoding. */
static int has_long_type(const uint8_t *bytes, size_t len) {
  size_t width = len ? (size_t)1 << (bytes[0] >> 6) : 1, k;
  uint64_t type = len ? bytes[0] & 0x3f : 0;
  for (k = 1; k < width && k < len; k++)
    type = type << 8 | bytes[k];
  return width <= len && varint_len(type) < width;
}

/* Reading any bytes, with 0x40 inserted somewhere, with types in their shortest
 * encoding returns what other reading returns, up to the first type that is too
 * long.  Returns whether there is one. */
int short_types_any(const uint8_t *bytes, size_t len) {
  size_t at = any() % 2 ? 0 : any() % (len + 1);
  uint8_t *payload = block(len + 1);
  quic_wire_frame_iter checked, frames;
  quic_wire_frame frame, other;
  int answer = QUIC_WIRE_ITEM, is_long = 0;
  memcpy(payload, bytes, at);
  payload[at] = 0x40;
  memcpy(payload + at + 1, bytes + at, len - at);
  len++;
  WANT(quic_wire_frames_init(&frames, payload, len, 0) == 0);
  WANT(quic_wire_frames_init(&checked, payload, len,
                             QUIC_WIRE_READ_SHORT_TYPES) == 0);
  if (any() % 2) /* bits that aren't flags */
    checked.flags |= (uint32_t)any() & ~QUIC_WIRE_READ_RFC;
  while (answer == QUIC_WIRE_ITEM && !is_long) {
    is_long = has_long_type(payload + checked.offset, len - checked.offset);
    answer = quic_wire_frames_next(&checked, payload, len, &frame);
    if (is_long) {
      WANT(answer == QUIC_WIRE_ERR_FRAME_LONG_TYPE);
      WANT(frame.begin == frames.offset);
    } else {
      WANT(quic_wire_frames_next(&frames, payload, len, &other) == answer);
      WANT(answer == 0 || !memcmp(&frame, &other, sizeof frame));
    }
  }
  WANT(quic_wire_frames_next(&checked, payload, len, &frame) == 0);
  free(payload);
  return is_long;
}
