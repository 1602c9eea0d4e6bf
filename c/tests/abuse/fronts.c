/* Frames that are read at the front of what is left, without an iterator, by
 * quic_wire_frame_read. */
#include "abuse.h"

void fronts_nulls(void) {
  quic_wire_frame frame;
  uint8_t byte = 1;
  memset(&frame, 0, sizeof frame);
  WANT(quic_wire_frame_read(NULL, 1, 0, &frame, NULL, 0) == INVALID);
  WANT(quic_wire_frame_read(&byte, 1, 0, NULL, NULL, 0) == INVALID);
  WANT(quic_wire_frame_read(&byte, 1, 0, &frame, NULL, 1) == INVALID);
  WANT(quic_wire_frame_read(NULL, 0, 0, &frame, NULL, 0) ==
       QUIC_WIRE_ERR_PAYLOAD_EMPTY);
  WANT(quic_wire_frame_header_read(NULL, 1, 0, &frame) == INVALID);
  WANT(quic_wire_frame_header_read(&byte, 1, 0, NULL) == INVALID);
  WANT(quic_wire_frame_header_read(NULL, 0, 0, &frame) ==
       QUIC_WIRE_ERR_PAYLOAD_EMPTY);
  WANT(quic_wire_frame_header_read(&byte, 1, 0, &frame) == QUIC_WIRE_ERR_KIND);
}

/* A frame of |n| bytes that was read at |at| is the next one of an iterator. So
 * are the ranges of an ACK, of which |gaps| has as many as there was room for,
 * and after them what it had |before|. */
static void front_is_next(const uint8_t *payload, size_t len, size_t at,
                          size_t n, const quic_wire_frame *frame,
                          const quic_wire_gap gaps[3],
                          const quic_wire_gap before[3], size_t room,
                          quic_wire_frame_iter *frames) {
  quic_wire_frame entry = *frame, want;
  size_t count;
  WANT(quic_wire_frames_fill(frames, payload, len, &want, 1, &count) == 1);
  WANT(n > 0 && n == frame->end && frames->offset == at + frame->end);
  count = 0;
  if (frame->kind == QUIC_WIRE_FRAME_ACK) {
    front_ranges(payload + at, len - at, frame, gaps, room, &entry);
    count = frame->ngaps;
    gaps_written(payload + at, n, frame, gaps);
  }
  WANT(count <= room &&
       !memcmp(gaps + count, before + count, (3 - count) * sizeof *gaps));
  entry.begin += at;
  entry.end += at;
  if (entry.kind != QUIC_WIRE_FRAME_ACK)
    entry.data += at;
  WANT(!memcmp(&entry, &want, sizeof entry));
}

/* An invalid frame at |at| is invalid for an iterator too, for the same reason.
 */
static void front_refused(const uint8_t *payload, size_t len, size_t at,
                          int64_t reason,
                          const quic_wire_frame *frame,
                          quic_wire_frame_iter *frames) {
  quic_wire_frame want;
  WANT(quic_wire_frames_next(frames, payload, len, &want) == reason);
  WANT(want.begin == at && frame->begin == 0);
  WANT(quic_wire_error_type(frame) == quic_wire_error_type(&want) ||
       quic_wire_error_type(frame) == QUIC_WIRE_NO_TYPE);
}

/* A header is read as the whole frame is, whether its data is there or not, and
 * rejected for the same reason. */
static void front_header(const uint8_t *payload, size_t len, uint32_t flags) {
  quic_wire_frame frame, before, whole;
  int64_t n, end = quic_wire_frame_read(payload, len, flags, &whole, NULL, 0);
  memset(&before, 0xa5, sizeof before);
  frame = before;
  n = quic_wire_frame_header_read(payload, len, flags, &frame);
  if (n > 0 && frame.end <= len)
    WANT(end == (int64_t)frame.end && !memcmp(&frame, &whole, sizeof frame));
  else if (n > 0)
    WANT(end == QUIC_WIRE_ERR_FRAME_END && n == (int64_t)frame.data);
  else
    WANT(!memcmp(&frame, &before, sizeof frame));
  if (n == QUIC_WIRE_ERR_KIND)
    WANT(end < 0 || (whole.kind != QUIC_WIRE_FRAME_CRYPTO &&
                     whole.kind != QUIC_WIRE_FRAME_STREAM &&
                     whole.kind != QUIC_WIRE_FRAME_DATAGRAM));
  else if (n == QUIC_WIRE_ERR_FRAME_LIMIT)
    WANT(end == n || end == QUIC_WIRE_ERR_FRAME_END);
  else
    WANT(n > 0 || n == end);
}

/* The frames of a payload, each read at the front of what is left, are those
 * of an iterator over it. */
void front_rubbish(const uint8_t *payload, size_t len) {
  quic_wire_frame_iter frames;
  quic_wire_frame frame, want;
  quic_wire_gap gaps[3], before[3];
  size_t at = 0, room = any() % 3;
  const uint32_t flags = any_flags();
  int64_t n;
  int answer = quic_wire_frames_init(&frames, payload, len, flags);
  frames.flags = flags;
  memset(before, 0xa5, sizeof before);
  do {
    memcpy(gaps, before, sizeof gaps);
    memset(&frame, 0xa5, sizeof frame);
    front_header(payload + at, len - at, flags);
    n = quic_wire_frame_read(payload + at, len - at, flags, &frame, gaps, room);
    if (n < 0)
      break;
    WANT(refused_by(flags, &frame) == 0);
    front_is_next(payload, len, at, (size_t)n, &frame, gaps, before,
                  room, &frames);
    at += (size_t)n;
  } while (1);
  WANT(!memcmp(gaps, before, sizeof gaps));
  if (n == QUIC_WIRE_ERR_PAYLOAD_EMPTY) {
    WANT(at == len &&
         (!len || !quic_wire_frames_next(&frames, payload, len, &want)));
    return;
  }
  WANT(REFUSED(n) && answer == 0);
  front_refused(payload, len, at, n, &frame, &frames);
}
