/* What quic_wire_near.h reads and writes without a call, compared with the
 * calls. */
#include "abuse.h"
#include "quic_wire_near.h"

typedef size_t reader(const uint8_t *, size_t, quic_wire_frame *);

static const struct {
  uint32_t kind;
  reader *read;
} readers[] = {
    {QUIC_WIRE_FRAME_PING, quic_wire_ping_read},
    {QUIC_WIRE_FRAME_RESET_STREAM, quic_wire_reset_stream_read},
    {QUIC_WIRE_FRAME_STOP_SENDING, quic_wire_stop_sending_read},
    {QUIC_WIRE_FRAME_CRYPTO, quic_wire_crypto_read},
    {QUIC_WIRE_FRAME_NEW_TOKEN, quic_wire_new_token_read},
    {QUIC_WIRE_FRAME_STREAM, quic_wire_stream_read},
    {QUIC_WIRE_FRAME_MAX_DATA, quic_wire_max_data_read},
    {QUIC_WIRE_FRAME_MAX_STREAM_DATA, quic_wire_max_stream_data_read},
    {QUIC_WIRE_FRAME_MAX_STREAMS_BIDI, quic_wire_max_streams_bidi_read},
    {QUIC_WIRE_FRAME_MAX_STREAMS_UNI, quic_wire_max_streams_uni_read},
    {QUIC_WIRE_FRAME_DATA_BLOCKED, quic_wire_data_blocked_read},
    {QUIC_WIRE_FRAME_STREAM_DATA_BLOCKED, quic_wire_stream_data_blocked_read},
    {QUIC_WIRE_FRAME_STREAMS_BLOCKED_BIDI, quic_wire_streams_blocked_bidi_read},
    {QUIC_WIRE_FRAME_STREAMS_BLOCKED_UNI, quic_wire_streams_blocked_uni_read},
    {QUIC_WIRE_FRAME_NEW_CONNECTION_ID, quic_wire_new_connection_id_read},
    {QUIC_WIRE_FRAME_RETIRE_CONNECTION_ID, quic_wire_retire_connection_id_read},
    {QUIC_WIRE_FRAME_PATH_CHALLENGE, quic_wire_path_challenge_read},
    {QUIC_WIRE_FRAME_PATH_RESPONSE, quic_wire_path_response_read},
    {QUIC_WIRE_FRAME_CONNECTION_CLOSE, quic_wire_connection_close_read},
    {QUIC_WIRE_FRAME_APPLICATION_CLOSE, quic_wire_application_close_read},
    {QUIC_WIRE_FRAME_HANDSHAKE_DONE, quic_wire_handshake_done_read},
    {QUIC_WIRE_FRAME_DATAGRAM, quic_wire_datagram_read},
};
#define READERS (sizeof readers / sizeof *readers)

void near_nulls(void) {
  uint8_t byte = 1, dest[9];
  uint64_t number = 77;
  quic_wire_frame frame;
  size_t k;
  for (k = 0; k < READERS; k++)
    WANT(readers[k].read(NULL, 1, &frame) == 0 &&
         readers[k].read(NULL, 0, &frame) == 0 &&
         readers[k].read(&byte, 0, &frame) == 0 &&
         readers[k].read(&byte, 1, NULL) == 0);
  WANT(quic_wire_frame_read_near(NULL, 1, 0, &frame, NULL, 0) == INVALID &&
       quic_wire_frame_read_near(&byte, 1, 0, NULL, NULL, 0) == INVALID &&
       quic_wire_frame_read_near(&byte, 1, 0, &frame, NULL, 1) == INVALID &&
       quic_wire_frame_read_near(&byte, 1, 0, &frame, NULL, 0) == 1);
  WANT(quic_wire_varint_read_near(NULL, 1, &number) == 0 &&
       quic_wire_varint_read_near(&byte, 1, NULL) == 0 &&
       quic_wire_varint_write_near(1, 0, NULL, 1) == 0);
  WANT(quic_wire_number_read_near(NULL, 1, 1, &number) == INVALID &&
       quic_wire_number_read_near(&byte, 1, 1, NULL) == INVALID &&
       quic_wire_number_write_near(1, 1, NULL, 1) == INVALID && number == 77);
  WANT(quic_wire_number_read_whole(NULL, 1, 1, 0, &number) == INVALID &&
       quic_wire_number_read_whole(&byte, 1, 1, 0, NULL) == INVALID &&
       quic_wire_number_write_least(1, 1, NULL, 1) == INVALID && number == 77);
  WANT(quic_wire_ping_write(NULL, 9) == 0 && quic_wire_ping_write(dest, 0) == 0);
  WANT(quic_wire_max_data_write(1, NULL, 9) == 0 &&
       quic_wire_path_challenge_write(1, NULL, 9) == 0);
}

/* A reader of one kind gives what the call gives with any flags, and leaves
 * only what the call rejects by RFC 9000, other kinds, and long types. */
static int one_kind(size_t k, const uint8_t *bytes, size_t len,
                    const quic_wire_frame *read, int64_t end) {
  quic_wire_frame frame, before;
  size_t near;
  memset(&frame, 0xa5, sizeof frame);
  before = frame;
  near = readers[k].read(bytes, len, &frame);
  if (end > 0 && read->kind == readers[k].kind && bytes[0] < 64) {
    WANT((int64_t)near == end && !memcmp(&frame, read, sizeof frame));
    return 1;
  }
  WANT(near == 0 && !memcmp(&frame, &before, sizeof frame));
  return 0;
}

int near_frames(const uint8_t *bytes, size_t len) {
  quic_wire_frame called, near;
  quic_wire_gap gaps[4], near_gaps[4];
  const uint32_t flags = any_flags();
  const size_t room = any() % 5;
  int64_t end;
  size_t k;
  int count = 0;
  memset(&called, 0xa5, sizeof called);
  memset(gaps, 0xa5, sizeof gaps);
  memcpy(&near, &called, sizeof near);
  memcpy(near_gaps, gaps, sizeof gaps);
  end = quic_wire_frame_read(bytes, len, flags, &called, gaps, room);
  WANT(quic_wire_frame_read_near(bytes, len, flags, &near, near_gaps, room) ==
       end);
  WANT(!memcmp(&called, &near, sizeof near) &&
       !memcmp(gaps, near_gaps, sizeof gaps));
  memset(&called, 0xa5, sizeof called);
  end = quic_wire_frame_read(bytes, len, QUIC_WIRE_READ_RFC, &called, NULL, 0);
  for (k = 0; k < READERS; k++)
    count += one_kind(k, bytes, len, &called, end);
  return count;
}

/* Writes a frame of |kind| with these numbers, as quic_wire_frame has them. */
static size_t write_near(uint32_t kind, const uint64_t *n, uint8_t *dest,
                         size_t room) {
  switch (kind) {
  case QUIC_WIRE_FRAME_PING:
    return quic_wire_ping_write(dest, room);
  case QUIC_WIRE_FRAME_RESET_STREAM:
    return quic_wire_reset_stream_write(n[0], n[1], n[2], dest, room);
  case QUIC_WIRE_FRAME_STOP_SENDING:
    return quic_wire_stop_sending_write(n[0], n[1], dest, room);
  case QUIC_WIRE_FRAME_MAX_DATA:
    return quic_wire_max_data_write(n[1], dest, room);
  case QUIC_WIRE_FRAME_MAX_STREAM_DATA:
    return quic_wire_max_stream_data_write(n[0], n[1], dest, room);
  case QUIC_WIRE_FRAME_MAX_STREAMS_BIDI:
    return quic_wire_max_streams_bidi_write(n[1], dest, room);
  case QUIC_WIRE_FRAME_MAX_STREAMS_UNI:
    return quic_wire_max_streams_uni_write(n[1], dest, room);
  case QUIC_WIRE_FRAME_DATA_BLOCKED:
    return quic_wire_data_blocked_write(n[1], dest, room);
  case QUIC_WIRE_FRAME_STREAM_DATA_BLOCKED:
    return quic_wire_stream_data_blocked_write(n[0], n[1], dest, room);
  case QUIC_WIRE_FRAME_STREAMS_BLOCKED_BIDI:
    return quic_wire_streams_blocked_bidi_write(n[1], dest, room);
  case QUIC_WIRE_FRAME_STREAMS_BLOCKED_UNI:
    return quic_wire_streams_blocked_uni_write(n[1], dest, room);
  case QUIC_WIRE_FRAME_RETIRE_CONNECTION_ID:
    return quic_wire_retire_connection_id_write(n[0], dest, room);
  case QUIC_WIRE_FRAME_PATH_CHALLENGE:
    return quic_wire_path_challenge_write(n[0], dest, room);
  case QUIC_WIRE_FRAME_PATH_RESPONSE:
    return quic_wire_path_response_write(n[0], dest, room);
  case QUIC_WIRE_FRAME_HANDSHAKE_DONE:
    return quic_wire_handshake_done_write(dest, room);
  case QUIC_WIRE_FRAME_IMMEDIATE_ACK:
    return quic_wire_immediate_ack_write(dest, room);
  default:
    return quic_wire_ack_frequency_write(n[0], n[1], n[2], n[3], dest, room);
  }
}

/* Each kind that has only numbers, and which of the five it has. */
static const struct {
  uint16_t kind;
  uint8_t numbers;
} written[] = {
    {QUIC_WIRE_FRAME_PING, 0},
    {QUIC_WIRE_FRAME_RESET_STREAM, 7},
    {QUIC_WIRE_FRAME_STOP_SENDING, 3},
    {QUIC_WIRE_FRAME_MAX_DATA, 2},
    {QUIC_WIRE_FRAME_MAX_STREAM_DATA, 3},
    {QUIC_WIRE_FRAME_MAX_STREAMS_BIDI, 2},
    {QUIC_WIRE_FRAME_MAX_STREAMS_UNI, 2},
    {QUIC_WIRE_FRAME_DATA_BLOCKED, 2},
    {QUIC_WIRE_FRAME_STREAM_DATA_BLOCKED, 3},
    {QUIC_WIRE_FRAME_STREAMS_BLOCKED_BIDI, 2},
    {QUIC_WIRE_FRAME_STREAMS_BLOCKED_UNI, 2},
    {QUIC_WIRE_FRAME_RETIRE_CONNECTION_ID, 1},
    {QUIC_WIRE_FRAME_PATH_CHALLENGE, 1},
    {QUIC_WIRE_FRAME_PATH_RESPONSE, 1},
    {QUIC_WIRE_FRAME_HANDSHAKE_DONE, 0},
    {QUIC_WIRE_FRAME_IMMEDIATE_ACK, 0},
    {QUIC_WIRE_FRAME_ACK_FREQUENCY, 15},
};

int near_written(void) {
  const size_t k = any() % (sizeof written / sizeof *written);
  const size_t room = any() % 36;
  uint8_t *called = block(room), *near = block(room);
  quic_wire_frame frame;
  size_t len = 0, i;
  memset(&frame, 0, sizeof frame);
  frame.kind = written[k].kind;
  for (i = 0; i < 5; i++)
    if (written[k].numbers >> i & 1)
      frame.numbers[i] = edge() >> (any() % 4 ? 2 : 0);
  memset(called, 0xa5, room);
  memset(near, 0xa5, room);
  if (quic_wire_frame_write(&frame, NULL, 0, QUIC_WIRE_READ_STREAM_LIMIT,
                            called, room, &len) != QUIC_WIRE_OK)
    len = 0;
  WANT(write_near(frame.kind, frame.numbers, near, room) == len);
  WANT(!memcmp(called, near, room));
  free(called);
  free(near);
  return len != 0;
}

static void near_varints(const uint8_t *bytes, size_t len) {
  const uint64_t n = edge() >> (any() % 2 ? 2 : 0);
  const uint32_t width = any() % 2 ? 0 : (uint32_t)(any() % 10);
  const size_t room = any() % 10;
  uint64_t called = 77, near = 77;
  uint8_t *dest = block(room), *other = block(room);
  WANT(quic_wire_varint_read_near(bytes, len, &near) ==
       quic_wire_varint_read(bytes, len, &called));
  WANT(near == called);
  WANT(quic_wire_varint_len_near(n) == quic_wire_varint_len(n));
  memset(dest, 0xa5, room);
  memset(other, 0xa5, room);
  WANT(quic_wire_varint_write_near(n, width, dest, room) ==
       quic_wire_varint_write(n, width, other, room));
  WANT(!memcmp(dest, other, room));
  free(dest);
  free(other);
}

/* Two calls in one step. */
static void near_steps(const uint8_t *bytes, size_t len, uint32_t numberlen) {
  const uint64_t n = edge(), acked = n - any() % (1ull << (any() % 34));
  const uint64_t expected = edge() >> (any() % 9 ? 2 : 0);
  const size_t room = any() % 7;
  uint64_t written = 77, near = 77, number = 77;
  uint8_t *dest = block(room), *other = block(room);
  int answer = quic_wire_number_read(bytes, len, numberlen, &written);
  if (answer > 0 && expected >> 62)
    answer = QUIC_WIRE_ERR_NUMBER;
  else if (answer > 0)
    number = quic_wire_number_expand(written, numberlen, expected);
  WANT(quic_wire_number_read_whole(bytes, len, numberlen, expected, &near) ==
           answer &&
       near == number);
  memset(dest, 0xa5, room);
  memset(other, 0xa5, room);
  answer = quic_wire_number_len(n, acked);
  if (answer > 0)
    answer = quic_wire_number_write(n, (uint32_t)answer, other, room);
  WANT(quic_wire_number_write_least(n, acked, dest, room) == answer);
  WANT(!memcmp(dest, other, room));
  free(dest);
  free(other);
}

void near_numbers(const uint8_t *bytes, size_t len) {
  const uint64_t n = edge(), acked = any() % 2 ? edge() : n - any() % 70000;
  const uint64_t expected = edge() >> (any() % 9 ? 2 : 0);
  const uint32_t numberlen = (uint32_t)(any() % 7);
  const size_t room = any() % 7;
  uint64_t called = 77, near = 77, written = any() % 4 ? n >> 32 : n;
  uint8_t *dest = block(room), *other = block(room);
  near_varints(bytes, len);
  near_steps(bytes, len, numberlen);
  WANT(quic_wire_number_len_near(n, acked) == quic_wire_number_len(n, acked));
  WANT(quic_wire_number_read_near(bytes, len, numberlen, &near) ==
       quic_wire_number_read(bytes, len, numberlen, &called));
  WANT(near == called);
  if (numberlen && numberlen < 5 && any() % 4)
    written &= ((uint64_t)1 << (8 * numberlen)) - 1;
  WANT(quic_wire_number_expand_near(written, numberlen, expected) ==
       quic_wire_number_expand(written, numberlen, expected));
  memset(dest, 0xa5, room);
  memset(other, 0xa5, room);
  WANT(quic_wire_number_write_near(n, numberlen, dest, room) ==
       quic_wire_number_write(n, numberlen, other, room));
  WANT(!memcmp(dest, other, room));
  free(dest);
  free(other);
}
