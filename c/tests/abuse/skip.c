/* Frames that the library doesn't know, and that are passed over. */
#include "abuse.h"

void skip_nulls(void) {
  quic_wire_frame_iter frames = {0, QUIC_WIRE_NO_TYPE, 1, 0};
  const uint8_t byte = 0x24;
  WANT(quic_wire_frames_skip(NULL, &byte, 1, 1, 0x24) == INVALID);
  WANT(quic_wire_frames_skip(&frames, NULL, 1, 1, 0x24) == INVALID);
  WANT(quic_wire_frames_skip(&frames, NULL, 0, 0, 0x24) ==
       QUIC_WIRE_ERR_PLACE);
  WANT(frames.offset == 0 && frames.ended == 1);
}

/* Whether a type is of the ACK frequency extension, which the flags leave out.
 * So is, behind such a frame, a type that is cut off. */
static int is_left_out(uint64_t type, uint32_t flags) {
  return (flags & QUIC_WIRE_READ_NO_ACK_FREQUENCY) &&
         (type == QUIC_WIRE_FRAME_IMMEDIATE_ACK ||
          type == QUIC_WIRE_FRAME_ACK_FREQUENCY);
}

/* Passes over any bytes, from an iterator with any field values: the next frame
 * is the one that the bytes behind begin with. */
void skip_rubbish(const uint8_t *payload, size_t len) {
  quic_wire_frame_iter frames, before, others;
  quic_wire_frame frame, other;
  const uint64_t type = any() % 2 ? edge() : 0x24;
  const size_t end = place();
  int answer, behind;
  any_bytes((uint8_t *)&frames, sizeof frames);
  if (any() % 4)
    frames.offset = place();
  memcpy(&before, &frames, sizeof before);
  answer = quic_wire_frames_skip(&frames, payload, len, end, type);
  if (answer != QUIC_WIRE_ITEM) {
    WANT(answer == (end <= before.offset || end > len ? QUIC_WIRE_ERR_PLACE
                                                      : QUIC_WIRE_ERR_NUMBER));
    WANT(answer == QUIC_WIRE_ERR_PLACE || type >> 62);
    WANT(!memcmp(&frames, &before, sizeof frames));
    return;
  }
  WANT(end > before.offset && end <= len && !(type >> 62));
  WANT(frames.offset == end && frames.last_type == type);
  WANT(!frames.ended && frames.flags == before.flags);
  answer = quic_wire_frames_next(&frames, payload, len, &frame);
  if (quic_wire_frames_init(&others, payload + end, len - end, before.flags) <
      0) {
    WANT(answer == 0);
    return;
  }
  behind = quic_wire_frames_next(&others, payload + end, len - end, &other);
  if (is_left_out(type, before.flags) && behind == QUIC_WIRE_ERR_FRAME_END &&
      quic_wire_error_type(&other) == QUIC_WIRE_NO_TYPE)
    behind = QUIC_WIRE_ERR_FRAME_TYPE;
  WANT(behind == answer);
  if (answer == QUIC_WIRE_ITEM) {
    WANT(frame.type == other.type && frame.begin == end + other.begin);
    WANT(frame.end == end + other.end && frame.datalen == other.datalen);
  } else if (quic_wire_error_type(&other) == QUIC_WIRE_NO_TYPE) {
    WANT(quic_wire_error_type(&frame) == type);
  } else {
    WANT(quic_wire_error_type(&frame) == quic_wire_error_type(&other));
  }
}
