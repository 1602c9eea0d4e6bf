/* Frames that are written, whole or up to their data, and their lengths. */
#include "abuse.h"

void written_nulls(void) {
  quic_wire_frame frame;
  uint8_t out[8];
  size_t n = 0;
  memset(&frame, 0, sizeof frame);
  WANT(quic_wire_frame_write(NULL, NULL, 0, 0, out, 8, &n) == INVALID);
  WANT(quic_wire_frame_write(&frame, NULL, 0, 0, NULL, 8, &n) == INVALID);
  WANT(quic_wire_frame_write(&frame, NULL, 0, 0, NULL, 0, &n) ==
           QUIC_WIRE_ERR_NOBUF &&
       n == 1);
  WANT(quic_wire_frame_write(&frame, NULL, 0, 0, out, 8, NULL) == 0);
  WANT(quic_wire_frame_len(NULL, NULL, 0, 0, &n) == INVALID);
  WANT(quic_wire_frame_len(&frame, NULL, 0, 0, NULL) == INVALID);
  frame.kind = QUIC_WIRE_FRAME_CRYPTO;
  frame.datalen = 1;
  WANT(quic_wire_frame_write(&frame, NULL, 1, 0, out, 8, &n) == INVALID);
  WANT(quic_wire_frame_len(&frame, NULL, 1, 0, &n) == INVALID);
  frame.datalen = 0;
  WANT(quic_wire_frame_header_write(NULL, 0, out, 8, &n) == INVALID);
  WANT(quic_wire_frame_header_write(&frame, 0, NULL, 8, &n) == INVALID);
  WANT(quic_wire_frame_header_write(&frame, 0, NULL, 0, &n) ==
           QUIC_WIRE_ERR_NOBUF &&
       n == 3);
  WANT(quic_wire_frame_header_write(&frame, 0, out, 8, NULL) == 0);
}

/* A frame without data is written as it was read, whatever |data| and its
 * offset there are: a PING after a MAX_DATA of five bytes, and the end of a
 * stream. */
void without_data(void) {
  static const uint8_t payload[] = {0x10, 0x80, 0x01, 0x00, 0x00,
                                    0x01, 0x0d, 0x04, 0x09};
  static const size_t places[] = {6, 0, 3, SIZE_MAX};
  quic_wire_frame_iter frames;
  quic_wire_frame frame;
  uint8_t out[8] = {0};
  size_t n = 0, k;
  WANT(quic_wire_frames_init(&frames, payload, sizeof payload, 0) == 0);
  WANT(quic_wire_frames_next(&frames, payload, sizeof payload, &frame) == 1);
  WANT(quic_wire_frames_next(&frames, payload, sizeof payload, &frame) == 1);
  WANT(frame.kind == QUIC_WIRE_FRAME_PING && frame.begin == 5 &&
       frame.data == 6);
  for (k = 0; k < sizeof places / sizeof *places; k++) {
    frame.data = places[k];
    WANT(quic_wire_frame_write(&frame, NULL, 0, 0, out, 8, &n) == 0);
    WANT(n == 1 && out[0] == 0x01);
    WANT(quic_wire_frame_write(&frame, NULL, 9, 0, out, 8, &n) == 0 && n == 1);
    WANT(quic_wire_frame_write(&frame, payload, 2, 1, out, 8, &n) == 0);
    WANT(n == 1 && out[0] == 0x01 && out[1] == 0);
    WANT(quic_wire_frame_len(&frame, NULL, 0, 0, &n) == 0 && n == 1);
  }
  frame.datalen = 1;
  WANT(quic_wire_frame_write(&frame, payload, 9, 0, out, 8, &n) == INVALID);
  WANT(quic_wire_frame_write(&frame, NULL, 0, 0, out, 8, &n) == INVALID);
  WANT(quic_wire_frames_next(&frames, payload, sizeof payload, &frame) == 1);
  WANT(frame.kind == QUIC_WIRE_FRAME_STREAM &&
       frame.flags == QUIC_WIRE_FLAG_FIN);
  WANT(quic_wire_frame_write(&frame, NULL, 0, 1, out, 8, &n) == 0 && n == 3);
  WANT(!memcmp(out, payload + 6, 3));
  frame.datalen = 1;
  WANT(quic_wire_frame_write(&frame, NULL, 0, 1, out, 8, &n) == INVALID);
}

/* Flags of writers, of which any bits may be set. */
static uint32_t writer_flags(void) {
  return (uint32_t)any() & (any() % 3 ? QUIC_WIRE_WRITE_LAST
                            : any() % 3 ? QUIC_WIRE_WRITE_LAST |
                                              QUIC_WIRE_WRITE_RFC
                                        : UINT32_MAX);
}

/* A frame that breaks a rule of |flags| isn't written, whatever room there is,
 * and has no length.  Returns whether it breaks one. */
static int breaks_rule(const quic_wire_frame *frame, const uint8_t *data,
                       size_t len, uint32_t flags) {
  size_t n = 77, room = any() % 100;
  uint8_t *out = block(room);
  int refused = 0;
  if (quic_wire_frame_len(frame, data, len, flags & 1, &n) == 0)
    refused = refused_by(flags, frame);
  if (refused) {
    n = 78;
    WANT(quic_wire_frame_write(frame, data, len, flags, out, room, &n) ==
             refused &&
         n == 78);
    WANT(quic_wire_frame_len(frame, data, len, flags, &n) == refused &&
         n == 78);
    WANT(quic_wire_frame_write(frame, data, len, flags, NULL, 0, NULL) ==
         refused);
  }
  free(out);
  return refused != 0;
}

/* Each frame that a rule rejects, and one that just passes. */
void written_by_rules(void) {
  static const uint8_t data[2] = {'a', 'b'};
  static const struct {
    uint16_t kind;
    uint64_t number;
    size_t datalen;
    uint32_t flag;
    int result;
  } frames[] = {
      {QUIC_WIRE_FRAME_CRYPTO, (UINT64_MAX >> 2) - 2, 2, 0, 0},
      {QUIC_WIRE_FRAME_CRYPTO, (UINT64_MAX >> 2) - 1, 2, 2, -25},
      {QUIC_WIRE_FRAME_STREAM, (UINT64_MAX >> 2) - 2, 2, 0, 0},
      {QUIC_WIRE_FRAME_STREAM, UINT64_MAX >> 2, 1, 2, -25},
      {QUIC_WIRE_FRAME_STREAM, UINT64_MAX >> 2, 0, 0, 0},
      {QUIC_WIRE_FRAME_MAX_STREAMS_BIDI, (uint64_t)1 << 60, 0, 0, 0},
      {QUIC_WIRE_FRAME_MAX_STREAMS_BIDI, ((uint64_t)1 << 60) + 1, 0, 4, -25},
      {QUIC_WIRE_FRAME_MAX_STREAMS_UNI, UINT64_MAX >> 2, 0, 4, -25},
      {QUIC_WIRE_FRAME_STREAMS_BLOCKED_BIDI, (uint64_t)1 << 61, 0, 4, -25},
      {QUIC_WIRE_FRAME_STREAMS_BLOCKED_UNI, (uint64_t)1 << 61, 0, 4, -25},
      {QUIC_WIRE_FRAME_NEW_TOKEN, 0, 1, 0, 0},
      {QUIC_WIRE_FRAME_NEW_TOKEN, 0, 0, 0x200, -23},
      {QUIC_WIRE_FRAME_IMMEDIATE_ACK, 0, 0, 8, -22},
      {QUIC_WIRE_FRAME_ACK_FREQUENCY, 5, 0, 8, -22},
      {QUIC_WIRE_FRAME_MAX_DATA, UINT64_MAX >> 2, 0, 0, 0},
  };
  quic_wire_frame frame;
  uint8_t out[32];
  size_t k, n;
  for (k = 0; k < sizeof frames / sizeof *frames; k++) {
    const uint32_t ways[] = {0, 1, frames[k].flag, QUIC_WIRE_WRITE_RFC,
                             QUIC_WIRE_WRITE_RFC | QUIC_WIRE_WRITE_LAST,
                             ~frames[k].flag, UINT32_MAX};
    size_t way;
    memset(&frame, 0, sizeof frame);
    frame.kind = frames[k].kind;
    frame.numbers[1] = frames[k].number;
    frame.datalen = frames[k].datalen;
    for (way = 0; way < sizeof ways / sizeof *ways; way++) {
      const int want = ways[way] & frames[k].flag ? frames[k].result : 0;
      n = 77;
      WANT(quic_wire_frame_write(&frame, data, 2, ways[way], out, sizeof out,
                                 &n) == want);
      WANT(want ? n == 77 : n > 0 && n != 77);
      WANT(breaks_rule(&frame, data, 2, ways[way]) == (want != 0));
      if (frame.kind == QUIC_WIRE_FRAME_STREAM ||
          frame.kind == QUIC_WIRE_FRAME_CRYPTO)
        WANT(quic_wire_frame_header_write(&frame, ways[way], out, sizeof out,
                                          &n) == want);
    }
  }
}

/* Writes a frame with any field values, and reads it back if it was written, by
 * the rules with which it was written. */
void write_rubbish(const uint8_t *data, size_t len) {
  size_t room = any() % 32, written = 0, k;
  uint8_t *out = block(room), *before = block(room);
  quic_wire_frame frame, again;
  quic_wire_frame_iter frames;
  const uint32_t flags = writer_flags(), rules = flags & QUIC_WIRE_WRITE_RFC;
  int answer;
  memset(out, 0xa5, room);
  memcpy(before, out, room);
  memset(&frame, 0, sizeof frame);
  frame.kind = (uint16_t)(any() % 5 ? any() % 0x32 : edge());
  frame.type = (uint16_t)any();
  frame.flags = (uint32_t)(any() % 3);
  frame.data = place();
  frame.datalen = place();
  for (k = 0; k < 5; k++)
    frame.numbers[k] = any() % 3 ? 0 : edge();
  frame_fault(&frame, data, len, flags);
  answer = quic_wire_frame_write(&frame, data, len, flags, out, room, &written);
  if (breaks_rule(&frame, data, len, flags)) {
    WANT(REFUSED(answer) && written == 0 && !memcmp(out, before, room));
  } else if (answer == 0) {
    WANT(written <= room);
    WANT(!memcmp(out + written, before + written, room - written));
    WANT(quic_wire_frames_init(&frames, out, written,
                               rules | QUIC_WIRE_READ_SHORT_TYPES) == 0);
    WANT(quic_wire_frames_next(&frames, out, written, &again) == 1);
    WANT(again.kind == frame.kind && again.flags == frame.flags);
    WANT(again.end == written && again.datalen == frame.datalen);
    WANT(!memcmp(again.numbers, frame.numbers, sizeof frame.numbers));
    WANT(!again.datalen ||
         !memcmp(out + again.data, data + frame.data, again.datalen));
  } else {
    WANT(answer == QUIC_WIRE_ERR_NOBUF ? written > room : answer == INVALID);
    WANT(!memcmp(out, before, room));
  }
  free(out);
  free(before);
}

/* A header that was written is read back, whatever follows it. */
static void header_back(const quic_wire_frame *frame, uint32_t flags,
                        const uint8_t *header, size_t n, size_t len) {
  const int counted = frame->kind == QUIC_WIRE_FRAME_CRYPTO ||
                      !(flags & QUIC_WIRE_WRITE_LAST);
  quic_wire_frame read;
  WANT(quic_wire_frame_header_read(header, len, 0, &read) == (int64_t)n);
  WANT(read.kind == frame->kind && read.flags == frame->flags);
  WANT(!memcmp(read.numbers, frame->numbers, sizeof read.numbers));
  WANT(read.begin == 0 && read.data == n && read.end == n + read.datalen);
  WANT(read.datalen == (counted ? frame->datalen : len - n));
}

/* The header of a frame with any field values is the front of what is written
 * for it with data, and what can be written whole has the length that is
 * reported beforehand. */
void header_rubbish(void) {
  static const uint16_t kinds[] = {
      QUIC_WIRE_FRAME_CRYPTO, QUIC_WIRE_FRAME_STREAM, QUIC_WIRE_FRAME_DATAGRAM};
  static uint8_t data[70], whole[128];
  uint8_t header[48];
  size_t room = any() % 48, n = 77, all = 77, counted = 77, k;
  const uint32_t flags = writer_flags();
  int answer, written;
  quic_wire_frame frame;
  memset(&frame, 0, sizeof frame);
  frame.kind = any() % 16 ? kinds[any() % 3] : (uint16_t)(any() % 0x32);
  frame.type = (uint16_t)any();
  frame.flags = (uint32_t)(any() % 3);
  frame.datalen = any() % 70;
  for (k = 0; k < 5; k++)
    frame.numbers[k] = any() % 3 ? 0 : edge();
  memset(header, 0xa5, sizeof header);
  answer = quic_wire_frame_header_write(&frame, flags, header, room, &n);
  written = quic_wire_frame_write(&frame, data, sizeof data, flags, whole,
                                  sizeof whole, &all);
  WANT(quic_wire_frame_len(&frame, data, sizeof data, flags, &counted) ==
       written);
  WANT(counted == all);
  if (frame.kind != kinds[0] && frame.kind != kinds[1] &&
      frame.kind != kinds[2]) {
    WANT(answer == INVALID);
  } else if (written != 0) {
    WANT(written == INVALID || REFUSED(written));
    WANT(answer == written && n == 77);
  } else {
    WANT(answer == (room < n ? QUIC_WIRE_ERR_NOBUF : 0));
    WANT(n == all - frame.datalen);
  }
  for (k = answer == 0 ? n : 0; k < sizeof header; k++)
    WANT(header[k] == 0xa5);
  WANT(answer != 0 || !memcmp(header, whole, n));
  if (answer == 0)
    header_back(&frame, flags, header, n, sizeof header);
  frame.datalen = (size_t)edge();
  answer =
      quic_wire_frame_header_write(&frame, flags, header, sizeof header, &n);
  WANT(answer == INVALID || (answer == 0 && n <= 25) ||
       (answer == QUIC_WIRE_ERR_FRAME_LIMIT &&
        flags & QUIC_WIRE_READ_DATA_LIMIT));
  if (answer == 0)
    header_back(&frame, flags, header, n, n);
}
