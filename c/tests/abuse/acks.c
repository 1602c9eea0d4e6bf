/* The ranges of ACKs: from an iterator, many with one call, and as gap and
 * length. */
#include "abuse.h"

static void ranges_nulls(void) {
  quic_wire_frame frame;
  quic_wire_range_iter ranges;
  quic_wire_range range;
  uint8_t byte = 1;
  size_t n = 0;
  memset(&frame, 0, sizeof frame);
  memset(&ranges, 0, sizeof ranges);
  WANT(quic_wire_ack_ranges_init(NULL, &byte, 1, &frame) == INVALID);
  WANT(quic_wire_ack_ranges_init(&ranges, NULL, 1, &frame) == INVALID);
  WANT(quic_wire_ack_ranges_init(&ranges, &byte, 1, NULL) == INVALID);
  WANT(quic_wire_ack_ranges_next(NULL, &byte, 1, &range) == INVALID);
  WANT(quic_wire_ack_ranges_next(&ranges, NULL, 1, &range) == INVALID);
  WANT(quic_wire_ack_ranges_next(&ranges, &byte, 1, NULL) == INVALID);
  WANT(quic_wire_ack_ranges_fill(NULL, &byte, 1, &range, 1, &n) == INVALID);
  WANT(quic_wire_ack_ranges_fill(&ranges, NULL, 1, &range, 1, &n) == INVALID);
  WANT(quic_wire_ack_ranges_fill(&ranges, &byte, 1, NULL, 1, &n) == INVALID);
  WANT(quic_wire_ack_ranges_fill(&ranges, &byte, 1, &range, 1, NULL) ==
       INVALID);
  WANT(quic_wire_ack_ranges_fill(&ranges, &byte, 1, NULL, 0, &n) ==
       QUIC_WIRE_ERR_NOBUF);
}

void acks_nulls(void) {
  quic_wire_frame frame;
  uint8_t out[8];
  size_t n = 0;
  memset(&frame, 0, sizeof frame);
  frame.kind = QUIC_WIRE_FRAME_CRYPTO;
  ranges_nulls();
  WANT(quic_wire_ack_gaps_write(NULL, NULL, 0, out, 8, &n) == INVALID);
  WANT(quic_wire_ack_gaps_write(&frame, NULL, 1, out, 8, &n) == INVALID);
  WANT(quic_wire_ack_gaps_write(&frame, NULL, 0, NULL, 8, &n) == INVALID);
  WANT(quic_wire_ack_gaps_write(&frame, NULL, 0, out, 8, NULL) == INVALID);
}

/* The ranges of any field values, and those of a frame between any offsets. */
void ranges_rubbish(const uint8_t *payload, size_t len,
                    quic_wire_frame *frame) {
  quic_wire_range_iter ranges;
  quic_wire_range range;
  size_t k;
  ranges.offset = place();
  ranges.left = any() % 2 ? any() % 50 : edge();
  ranges.largest = edge();
  for (k = 0;
       k < 50 && quic_wire_ack_ranges_next(&ranges, payload, len, &range) == 1;
       k++)
    WANT(range.start < range.end);
  WANT(k < 50);
  frame->begin = place();
  frame->end = place();
  if (quic_wire_ack_ranges_init(&ranges, payload, len, frame) == 0)
    WANT(frame->begin < ranges.offset && ranges.offset <= frame->end &&
         frame->end <= len && ranges.left > 0);
}

/* The ranges of any field values, many with one call, are those of single
 * calls. */
void fill_ranges_rubbish(const uint8_t *payload, size_t len) {
  quic_wire_range_iter one, many;
  quic_wire_range range, filled[6], before[6];
  size_t room = 1 + any() % 5, count, k, calls;
  int answer = 0;
  one.offset = place();
  one.left = any() % 2 ? any() % 50 : edge();
  one.largest = edge();
  many = one;
  memset(before, 0xa5, sizeof before);
  for (calls = 0; calls < 50; calls++) {
    memcpy(filled, before, sizeof filled);
    count = 77;
    answer =
        quic_wire_ack_ranges_fill(&many, payload, len, filled, room, &count);
    if (answer != QUIC_WIRE_ITEM)
      break;
    WANT(0 < count && count <= room);
    for (k = 0; k < count; k++) {
      WANT(quic_wire_ack_ranges_next(&one, payload, len, &range) == 1);
      WANT(!memcmp(&range, &filled[k], sizeof range));
    }
    WANT(!memcmp(&one, &many, sizeof one));
    WANT(!memcmp(filled + count, before, (6 - count) * sizeof range));
  }
  WANT(calls < 50 && count == 77 && !memcmp(filled, before, sizeof filled));
  WANT(quic_wire_ack_ranges_next(&one, payload, len, &range) == answer);
  WANT(!memcmp(&one, &many, sizeof one));
}

/* The ranges of an ACK that was read at the front are those of its blocks, as
 * gap and length; |entry| gets the fields that single calls return for it. */
void front_ranges(const uint8_t *payload, size_t len,
                  const quic_wire_frame *frame, const quic_wire_gap *gaps,
                  size_t room, quic_wire_frame *entry) {
  quic_wire_range_iter left;
  quic_wire_range range, above;
  size_t k;
  *entry = *frame;
  entry->flags &= ~(uint32_t)QUIC_WIRE_FLAG_MORE;
  entry->ngaps = 0;
  WANT(quic_wire_ack_ranges_init(&left, payload, len, frame) == 0);
  WANT(quic_wire_ack_ranges_next(&left, payload, len, &above) == 1);
  WANT(above.end - above.start == frame->first_range + 1);
  for (k = 0; k < frame->ngaps; k++) {
    WANT(quic_wire_ack_ranges_next(&left, payload, len, &range) == 1);
    WANT(above.start - range.end == gaps[k].gap + 1);
    WANT(range.end - range.start == gaps[k].len + 1);
    above = range;
  }
  WANT((left.left > 0) == (frame->flags >= QUIC_WIRE_FLAG_MORE));
  WANT(frame->ngaps == room || left.left == 0);
}

/* An ACK that was read, |len| bytes of |payload|, is written from its gaps in
 * its shortest form, if all of them were reported, and not if it goes below
 * 0. */
void gaps_written(const uint8_t *payload, size_t len,
                  const quic_wire_frame *frame, const quic_wire_gap *gaps) {
  uint8_t out[128], shortest[128];
  quic_wire_frame below = *frame;
  quic_wire_canon canon;
  size_t n = 0, room = sizeof out, k;
  int answer;
  memset(out, 0xa5, sizeof out);
  below.first_range = (quic_wire_size)frame->ack.largest + 1;
  WANT(quic_wire_ack_gaps_write(&below, gaps, frame->ngaps, out, room, &n) ==
       INVALID);
  answer = quic_wire_ack_gaps_write(frame, gaps, frame->ngaps, out, room, &n);
  if (frame->flags & QUIC_WIRE_FLAG_MORE) {
    WANT(answer == INVALID && n == 0);
  } else {
    WANT(quic_wire_canonical(payload, len, shortest, sizeof shortest, &canon) ==
         0);
    WANT(answer == 0 && n == canon.len && !memcmp(out, shortest, n));
    memset(out, 0xa5, n);
    room = any() % (canon.len + 1);
    n = 0;
    answer = quic_wire_ack_gaps_write(frame, gaps, frame->ngaps, out, room, &n);
    WANT(n == canon.len &&
         answer == (room < n ? QUIC_WIRE_ERR_NOBUF : QUIC_WIRE_OK));
    if (answer == 0)
      memset(out, 0xa5, n);
  }
  for (k = 0; k < sizeof out; k++)
    WANT(out[k] == 0xa5);
}
