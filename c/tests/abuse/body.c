/* The bodies of frames, whose types the caller has read. */
#include "abuse.h"

void body_nulls(void) {
  quic_wire_frame frame;
  const uint8_t byte = 1;
  memset(&frame, 0, sizeof frame);
  WANT(quic_wire_frame_body_read(NULL, 1, 2, 0, &frame, NULL, 0) == INVALID);
  WANT(quic_wire_frame_body_read(&byte, 1, 2, 0, NULL, NULL, 0) == INVALID);
  WANT(quic_wire_frame_body_read(&byte, 1, 2, 0, &frame, NULL, 1) == INVALID);
  /* A PING has none. */
  WANT(quic_wire_frame_body_read(NULL, 0, 1, 0, &frame, NULL, 0) == 0);
  WANT(frame.kind == QUIC_WIRE_FRAME_PING && frame.end == 0);
}

/* What was read is what stands behind the type in |whole|. */
static void same_frame(const quic_wire_frame *frame,
                       const quic_wire_frame *whole, size_t typelen) {
  quic_wire_frame want = *whole;
  want.end -= typelen;
  if (want.kind != QUIC_WIRE_FRAME_ACK)
    want.data -= typelen;
  WANT(!memcmp(frame, &want, sizeof want));
}

/* Any bytes as the body of any type are read as quic_wire_frame_read reads the
 * type and these bytes; of PADDING one byte. */
void body_rubbish(const uint8_t *body, size_t len) {
  const uint64_t type = any() % 8 ? any() % 0x34 : edge();
  const uint32_t flags = any_flags();
  const size_t room = any() % 4;
  quic_wire_gap gaps[3], before[3], others[3];
  quic_wire_frame frame, old, whole;
  const size_t typelen = type >> 62 ? 0 : varint_len(type);
  uint8_t *bytes = block(typelen + len);
  int64_t end, want;
  any_bytes((uint8_t *)gaps, sizeof gaps);
  memcpy(before, gaps, sizeof gaps);
  memcpy(others, gaps, sizeof gaps);
  any_bytes((uint8_t *)&frame, sizeof frame);
  memcpy(&old, &frame, sizeof old);
  end = quic_wire_frame_body_read(body, len, type, flags, &frame, gaps, room);
  WANT(!memcmp(gaps + room, before + room, (3 - room) * sizeof *gaps));
  if (!typelen) {
    WANT(end == QUIC_WIRE_ERR_NUMBER);
    WANT(!memcmp(&frame, &old, sizeof frame));
    free(bytes);
    return;
  }
  WANT(quic_wire_varint_write(type, 0, bytes, typelen) == typelen);
  if (len)
    memcpy(bytes + typelen, body, len);
  want = quic_wire_frame_read(bytes, type ? typelen + len : 1, flags, &whole,
                              others, room);
  if (want < 0) {
    WANT(end == want && quic_wire_error_type(&frame) == type);
    WANT(!memcmp(gaps, before, sizeof gaps));
  } else {
    WANT(end == want - (int64_t)typelen);
    same_frame(&frame, &whole, typelen);
    WANT(!memcmp(gaps, others, sizeof gaps));
  }
  free(bytes);
}
