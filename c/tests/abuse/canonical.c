/* The shortest payload with the same meaning as a payload. */
#include "abuse.h"

void canonical_nulls(void) {
  quic_wire_canon canon;
  uint8_t byte = 1, out[8];
  WANT(quic_wire_canonical(NULL, 1, out, 8, &canon) == INVALID);
  WANT(quic_wire_canonical(&byte, 1, NULL, 8, &canon) == INVALID);
  WANT(quic_wire_canonical(&byte, 1, out, 8, NULL) == INVALID);
  WANT(quic_wire_canonical(NULL, 0, NULL, 0, &canon) ==
       QUIC_WIRE_ERR_PAYLOAD_EMPTY);
  WANT(quic_wire_canonical(&byte, 1, NULL, 0, &canon) == QUIC_WIRE_ERR_NOBUF &&
       canon.len == 1);
  WANT(quic_wire_canonical_with(NULL, 1, 0, out, 8, &canon) == INVALID);
  WANT(quic_wire_canonical_with(&byte, 1, 0, NULL, 8, &canon) == INVALID);
  WANT(quic_wire_canonical_with(&byte, 1, 0, out, 8, NULL) == INVALID);
  WANT(quic_wire_canonical_with(NULL, 0, 0, NULL, 0, &canon) ==
       QUIC_WIRE_ERR_PAYLOAD_EMPTY);
  canon.len = 0;
  WANT(quic_wire_canonical_with(&byte, 1, UINT32_MAX, NULL, 0, &canon) ==
           QUIC_WIRE_ERR_NOBUF &&
       canon.len == 1);
}

/* The next frame of both payloads is the same, wherever its data is, and the
 * ranges of an ACK are the same. */
static void same_frame(const uint8_t *a, size_t alen, const quic_wire_frame *x,
                       const uint8_t *b, size_t blen,
                       const quic_wire_frame *y) {
  quic_wire_range_iter some, others;
  quic_wire_range one, other;
  WANT(x->kind == y->kind && x->flags == y->flags && x->datalen == y->datalen);
  WANT(!memcmp(x->numbers, y->numbers, sizeof x->numbers));
  if (x->kind == QUIC_WIRE_FRAME_ACK)
    WANT(x->ngaps == 0 && y->ngaps == 0);
  else
    WANT(!x->datalen || !memcmp(a + x->data, b + y->data, x->datalen));
  if (x->kind == QUIC_WIRE_FRAME_NEW_CONNECTION_ID)
    WANT(!memcmp(a + x->data + x->datalen, b + y->data + y->datalen, 16));
  if (x->kind != QUIC_WIRE_FRAME_ACK)
    return;
  WANT(quic_wire_ack_ranges_init(&some, a, alen, x) == 0);
  WANT(quic_wire_ack_ranges_init(&others, b, blen, y) == 0);
  WANT(some.left == others.left && some.largest == others.largest);
  while (quic_wire_ack_ranges_next(&some, a, alen, &one) == 1) {
    WANT(quic_wire_ack_ranges_next(&others, b, blen, &other) == 1);
    WANT(one.start == other.start && one.end == other.end);
  }
  WANT(quic_wire_ack_ranges_next(&others, b, blen, &other) == 0);
}

/* The bytes of a frame in its shortest form: what quic_wire_frame_write writes
 * for it; for an ACK from a plain model, from its ranges. */
static size_t shortest_len(const uint8_t *payload, size_t len,
                           const quic_wire_frame *f, uint32_t last) {
  uint8_t out[64];
  size_t n = 0, k, count = 0;
  uint64_t before = 0;
  quic_wire_range_iter ranges;
  quic_wire_range range;
  if (f->kind != QUIC_WIRE_FRAME_ACK) {
    WANT(quic_wire_frame_write(f, payload, len, last, out, sizeof out, &n) ==
         0);
    return n;
  }
  n = 1 + varint_len(f->ack.largest) + varint_len(f->ack.delay);
  WANT(quic_wire_ack_ranges_init(&ranges, payload, len, f) == 0);
  while (quic_wire_ack_ranges_next(&ranges, payload, len, &range) == 1) {
    n += varint_len(range.end - range.start - 1);
    if (count++)
      n += varint_len(before - range.end - 1);
    before = range.start;
  }
  n += varint_len(count - 1);
  for (k = 2; f->flags && k < 5; k++)
    n += varint_len(f->numbers[k]);
  return n;
}

/* The shortest form has the frames of the payload, and is its own shortest
 * form. */
static void canonical_read(const uint8_t *payload, size_t len,
                           const uint8_t *dest, size_t n) {
  quic_wire_frame_iter frames, others;
  quic_wire_frame frame, other;
  quic_wire_canon again = {77, 78};
  uint8_t *twice = block(n);
  WANT(quic_wire_frames_init(&frames, payload, len, 0) == 0);
  WANT(quic_wire_frames_init(&others, dest, n, 0) == 0);
  while (quic_wire_frames_next(&frames, payload, len, &frame) == 1) {
    WANT(quic_wire_frames_next(&others, dest, n, &other) == 1);
    same_frame(payload, len, &frame, dest, n, &other);
  }
  WANT(quic_wire_frames_next(&others, dest, n, &other) == 0);
  WANT(quic_wire_canonical(dest, n, twice, n, &again) == 0);
  WANT(again.len == n && !memcmp(dest, twice, again.len));
  free(twice);
}

/* With flags the shortest form is the same, or the payload is rejected as it is
 * when its frames are read with them. */
static void canonical_by_rules(const uint8_t *payload, size_t len,
                               const uint8_t *shortest, size_t room, int answer,
                               const quic_wire_canon *canon) {
  const uint32_t flags = any_flags();
  quic_wire_canon out = {77, 78};
  quic_wire_frame_iter frames;
  quic_wire_frame frame;
  uint8_t *dest = block(room);
  int with, read = quic_wire_frames_init(&frames, payload, len, flags);
  memset(dest, 0xa5, room);
  with = quic_wire_canonical_with(payload, len, flags, dest, room, &out);
  while (read >= 0 &&
         (read = quic_wire_frames_next(&frames, payload, len, &frame)) == 1)
    ;
  if (read == 0) {
    WANT(with == answer && !memcmp(&out, canon, sizeof out));
    WANT(!memcmp(dest, shortest, room));
  } else {
    WANT(with == read && out.len == 77);
    WANT(out.last_type ==
         (REFUSED(with) ? quic_wire_error_type(&frame) : 78));
    WANT(room == 0 || (dest[0] == 0xa5 && !memcmp(dest, dest + 1, room - 1)));
  }
  if (with == 0 &&
      quic_wire_frames_init(&frames, dest, out.len, flags) == 0) {
    while ((read = quic_wire_frames_next(&frames, dest, out.len, &frame)) == 1)
      ;
    WANT(read == 0 && frames.offset == out.len);
  }
  free(dest);
}

/* The shortest form of any bytes has the same frames, each in its shortest
 * length, is its own shortest form, and is rejected when the frames are.
 * Returns whether there is one. */
int canonical_any(const uint8_t *payload, size_t len) {
  quic_wire_frame_iter frames;
  quic_wire_frame frame;
  quic_wire_canon canon = {77, 78};
  size_t room = any() % 3 ? len : any() % (len + 1), k, sum = 0;
  uint8_t *dest = block(room);
  int answer, first;
  memset(dest, 0xa5, room);
  answer = quic_wire_canonical(payload, len, dest, room, &canon);
  first = quic_wire_frames_init(&frames, payload, len, 0);
  while (first >= 0 &&
         (first = quic_wire_frames_next(&frames, payload, len, &frame)) == 1)
    sum += shortest_len(payload, len, &frame, frame.end == len);
  if (answer == 0 || answer == QUIC_WIRE_ERR_NOBUF) {
    WANT(first == 0 && canon.len == sum && sum <= len);
    WANT(canon.last_type == 78);
    WANT((answer == 0) == (sum <= room));
  } else {
    WANT(answer == first && canon.len == 77);
    WANT(canon.last_type ==
         (REFUSED(answer) ? quic_wire_error_type(&frame) : 78));
  }
  for (k = answer ? 0 : canon.len; k < room; k++)
    WANT(dest[k] == 0xa5);
  if (answer == 0)
    canonical_read(payload, len, dest, canon.len);
  canonical_by_rules(payload, len, dest, room, answer, &canon);
  free(dest);
  return answer == 0;
}
