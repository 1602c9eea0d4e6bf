/* Frames that the library doesn't know: RESET_STREAM_AT, which has the type
 * 0x24 and four numbers (draft-ietf-quic-reliable-stream-reset, section 4), and
 * PATH_ACK, which has the type 0x3e, a path's id, and then what an ACK has
 * behind its type (draft-ietf-quic-multipath).  Payloads, lines of hexadecimal,
 * are read with them, and one is written.  To build and run it:
 *
 *   cc -o extension extension.c -IPREFIX/include PREFIX/lib/libquic_wire.a
 *   echo 01240401080501 | ./extension
 */
#include "paths.h"
#include "quic_wire.h"

enum { RESET_STREAM_AT = 0x24, PATH_ACK = 0x3e, MOST_GAPS = 64 };

/* A stream ends early, but its first |reliable_size| bytes are delivered. */
typedef struct reset_at {
  uint64_t stream_id, error_code, final_size, reliable_size;
} reset_at;

/* Reads the frame at the front.  Returns where it ends, or QUIC_WIRE_ERR_... */
static int64_t reset_at_read(const uint8_t *bytes, size_t len,
                             reset_at *reset) {
  uint64_t type;
  uint64_t *const fields[] = {&type, &reset->stream_id, &reset->error_code,
                              &reset->final_size, &reset->reliable_size};
  size_t at = 0, i;
  for (i = 0; i < sizeof fields / sizeof *fields; i++) {
    const size_t n = quic_wire_varint_read(bytes + at, len - at, fields[i]);
    if (!n)
      return QUIC_WIRE_ERR_FRAME_END;
    at += n;
    if (i == 0 && n != quic_wire_varint_len(type))
      return QUIC_WIRE_ERR_FRAME_LONG_TYPE;
  }
  if (reset->reliable_size > reset->final_size)
    return QUIC_WIRE_ERR_FRAME_MALFORMED;
  return (int64_t)at;
}

/* Reads the frame where |frames| stopped, and passes over it. */
static int read_reset_at(quic_wire_frame_iter *frames, const uint8_t *payload,
                         size_t len) {
  reset_at reset;
  const size_t begin = frames->offset;
  const int64_t n = reset_at_read(payload + begin, len - begin, &reset);
  if (n < 0)
    return (int)n;
  printf(" RESET_STREAM_AT of %" PRIu64 " at %" PRIu64 ",", reset.stream_id,
         reset.reliable_size);
  return quic_wire_frames_skip(frames, payload, len, begin + (size_t)n,
                               RESET_STREAM_AT);
}

/* Reads a PATH_ACK where |frames| stopped, and passes over it. */
static int read_path_ack(quic_wire_frame_iter *frames, const uint8_t *payload,
                         size_t len) {
  /* The type has one byte: in a longer encoding it isn't accepted by these
   * flags. */
  size_t at = frames->offset + 1, n;
  uint64_t path, least;
  quic_wire_frame ack;
  quic_wire_gap gaps[MOST_GAPS];
  int64_t end;
  if (!(n = quic_wire_varint_read(payload + at, len - at, &path)))
    return QUIC_WIRE_ERR_FRAME_END;
  at += n;
  end = quic_wire_frame_body_read(payload + at, len - at, QUIC_WIRE_FRAME_ACK,
                                  QUIC_WIRE_READ_RFC, &ack, gaps, MOST_GAPS);
  if (end < 0)
    return (int)end;
  least = ack.ack.largest - ack.first_range;
  printf(" PATH_ACK of path %" PRIu64 ": %" PRIu64 " to %" PRIu64, path, least,
         ack.ack.largest);
  for (n = 0; n < ack.ngaps; n++) {
    const uint64_t largest = least - gaps[n].gap - 2;
    least = largest - gaps[n].len;
    printf(", %" PRIu64 " to %" PRIu64, least, largest);
  }
  printf("%s,", ack.flags & QUIC_WIRE_FLAG_MORE ? " and more" : "");
  return quic_wire_frames_skip(frames, payload, len, at + (size_t)end,
                               PATH_ACK);
}

static int read_payload(const uint8_t *payload, size_t len) {
  quic_wire_frame_iter frames;
  quic_wire_frame frame;
  int answer =
      quic_wire_frames_init(&frames, payload, len, QUIC_WIRE_READ_RFC);
  if (answer < 0)
    return answer;
  /* Each turn sets |answer|: what follows such a frame is read as well. */
  while ((answer = quic_wire_frames_next(&frames, payload, len, &frame)) != 0) {
    if (answer == QUIC_WIRE_ITEM)
      printf(" %s,", quic_wire_type_name(frame.type));
    else if (answer == QUIC_WIRE_ERR_FRAME_TYPE &&
             quic_wire_error_type(&frame) == RESET_STREAM_AT)
      answer = read_reset_at(&frames, payload, len);
    else if (answer == QUIC_WIRE_ERR_FRAME_TYPE &&
             quic_wire_error_type(&frame) == PATH_ACK)
      answer = read_path_ack(&frames, payload, len);
    if (answer < 0)
      return answer;
  }
  return 0;
}

/* Writes the frame.  Returns how many bytes it has; 0 if they don't fit. */
static size_t reset_at_write(const reset_at *reset, uint8_t *dest,
                             size_t room) {
  const uint64_t fields[] = {RESET_STREAM_AT, reset->stream_id,
                             reset->error_code, reset->final_size,
                             reset->reliable_size};
  size_t at = 0, i;
  for (i = 0; i < sizeof fields / sizeof *fields; i++) {
    const size_t n =
        quic_wire_varint_write(fields[i], 0, dest + at, room - at);
    if (!n)
      return 0;
    at += n;
  }
  return at;
}

int main(void) {
  static const reset_at reset = {4, 1, 1000, 70};
  static uint8_t bytes[4096];
  size_t len = reset_at_write(&reset, bytes, sizeof bytes);
  check(len != 0, "no room");
  print_hex("written ", bytes, len);
  while ((len = read_line(stdin, bytes, sizeof bytes)) != SIZE_MAX) {
    const int answer = read_payload(bytes, len);
    printf(" %s\n", answer < 0 ? quic_wire_strerror(answer) : "whole");
  }
  return 0;
}
