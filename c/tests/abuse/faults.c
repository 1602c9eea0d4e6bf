/* Which field of a frame, a header or a list of parameters can't be written. */
#include "abuse.h"

#define NONE QUIC_WIRE_NO_FIELD

void faults_nulls(void) {
  quic_wire_frame frame;
  quic_wire_header_fields fields = {QUIC_WIRE_PACKET_RETRY, 0, 0, 0, 0, 0};
  quic_wire_params params;
  const uint8_t data[2] = {1, 2};
  uint64_t id = 77;
  memset(&frame, 0, sizeof frame);
  WANT(quic_wire_frame_write_fault(NULL, data, 2, 0) == NONE);
  WANT(quic_wire_frame_write_fault(&frame, NULL, 0, 0) == NONE);
  frame.kind = QUIC_WIRE_FRAME_NEW_TOKEN;
  frame.datalen = 2;
  WANT(quic_wire_frame_write_fault(&frame, NULL, 2, 0) == 1);
  WANT(quic_wire_frame_write_fault(&frame, data, 1, 0) == 1);
  WANT(quic_wire_frame_write_fault(&frame, data, 2, 0) == NONE);
  WANT(quic_wire_header_write_fault(NULL, 0, 0, 0) == NONE);
  WANT(quic_wire_header_write_fault(&fields, 0, 0, 0) == 1);
  WANT(quic_wire_params_default(&params, sizeof params) == 0);
  WANT(quic_wire_params_write_fault(0, NULL, sizeof params, &id) == INVALID);
  WANT(quic_wire_params_write_fault(0, &params, sizeof params, NULL) ==
       INVALID);
  WANT(quic_wire_params_write_fault(0, &params, 8, &id) ==
       QUIC_WIRE_ERR_LENGTH);
  WANT(quic_wire_params_write_fault(2, &params, sizeof params, &id) ==
       QUIC_WIRE_ERR_KIND);
  WANT(quic_wire_params_write_fault(1, &params, sizeof params, &id) == 0);
  WANT(id == 77);
}

/* Section 19 of RFC 9000 has the fields in this order. */
static void frame_examples(void) {
  static const uint8_t data[40];
  const uint64_t most = UINT64_MAX >> 2, over = most + 1;
  const struct {
    uint16_t kind;
    uint32_t frame_flags, flags;
    uint64_t numbers[5];
    size_t at, len, fault;
  } rows[] = {
      {QUIC_WIRE_FRAME_PADDING, 0, 0, {0}, 0, 0, NONE},
      {QUIC_WIRE_FRAME_ACK, 0, 0, {0}, 0, 0, 0},
      {0x09, 0, 0, {0}, 0, 0, 0},
      {0x20, 0, 0, {over}, 99, 1, 0},
      {QUIC_WIRE_FRAME_PING, 3, 0, {0}, 0, 0, NONE},
      {QUIC_WIRE_FRAME_PING, 0, 0, {over}, 0, 0, NONE},
      {QUIC_WIRE_FRAME_RESET_STREAM, 0, 0, {most, most, most}, 0, 0, NONE},
      {QUIC_WIRE_FRAME_RESET_STREAM, 0, 0, {over, over, over}, 0, 0, 1},
      {QUIC_WIRE_FRAME_RESET_STREAM, 0, 0, {0, over, over}, 0, 0, 2},
      {QUIC_WIRE_FRAME_RESET_STREAM, 0, 0, {0, 0, over}, 0, 0, 3},
      {QUIC_WIRE_FRAME_RESET_STREAM, 0, 0, {0, 0, 0, over}, 0, 0, NONE},
      {QUIC_WIRE_FRAME_STOP_SENDING, 0, 0, {0, over}, 0, 0, 2},
      {QUIC_WIRE_FRAME_CRYPTO, 0, 0, {0, over}, 99, 1, 1},
      {QUIC_WIRE_FRAME_CRYPTO, 0, 0, {0, 1}, 30, 11, 2},
      {QUIC_WIRE_FRAME_CRYPTO, 0, 0, {0, 1}, SIZE_MAX, 1, 2},
      {QUIC_WIRE_FRAME_CRYPTO, 0, 0, {0, 1}, 30, 10, NONE},
      {QUIC_WIRE_FRAME_CRYPTO, 0, 0, {0, 1}, SIZE_MAX, 0, NONE},
      {QUIC_WIRE_FRAME_NEW_TOKEN, 0, 0, {0}, 41, 1, 1},
      /* FIN is field 1 of a STREAM, since its type has it. */
      {QUIC_WIRE_FRAME_STREAM, 2, 0, {over}, 99, 1, 1},
      {QUIC_WIRE_FRAME_STREAM, 1, 0, {over}, 0, 0, 2},
      {QUIC_WIRE_FRAME_STREAM, 0, 1, {0, over}, 0, 0, 3},
      {QUIC_WIRE_FRAME_STREAM, 0, 1, {0, 0}, 40, 1, 4},
      {QUIC_WIRE_FRAME_STREAM, 1, 1, {most, most}, 0, 40, NONE},
      {QUIC_WIRE_FRAME_MAX_DATA, 0, 0, {0, over}, 0, 0, 1},
      {QUIC_WIRE_FRAME_MAX_STREAM_DATA, 0, 0, {0, over}, 0, 0, 2},
      /* The type of these implies field 1, the direction. */
      {QUIC_WIRE_FRAME_MAX_STREAMS_BIDI, 0, 0, {0, over}, 0, 0, 2},
      {QUIC_WIRE_FRAME_MAX_STREAMS_UNI, 0, 0, {0, over}, 0, 0, 2},
      {QUIC_WIRE_FRAME_DATA_BLOCKED, 0, 0, {0, over}, 0, 0, 1},
      {QUIC_WIRE_FRAME_STREAM_DATA_BLOCKED, 0, 0, {over}, 0, 0, 1},
      {QUIC_WIRE_FRAME_STREAMS_BLOCKED_UNI, 0, 0, {0, over}, 0, 0, 2},
      /* Field 3 stands for the order of the first two numbers. */
      {QUIC_WIRE_FRAME_NEW_CONNECTION_ID, 0, 0, {over}, 0, 0, 1},
      {QUIC_WIRE_FRAME_NEW_CONNECTION_ID, 0, 0, {1, over}, 0, 0, 2},
      {QUIC_WIRE_FRAME_NEW_CONNECTION_ID, 0, 0, {1, 2}, 0, 0, 3},
      {QUIC_WIRE_FRAME_NEW_CONNECTION_ID, 0, 0, {2, 2}, 0, 0, 4},
      {QUIC_WIRE_FRAME_NEW_CONNECTION_ID, 0, 0, {2, 2}, 0, 21, 4},
      {QUIC_WIRE_FRAME_NEW_CONNECTION_ID, 0, 0, {2, 2}, 39, 2, 4},
      {QUIC_WIRE_FRAME_NEW_CONNECTION_ID, 0, 0, {2, 2}, 5, 20, 5},
      {QUIC_WIRE_FRAME_NEW_CONNECTION_ID, 0, 0, {2, 2}, 4, 20, NONE},
      {QUIC_WIRE_FRAME_RETIRE_CONNECTION_ID, 0, 0, {over}, 0, 0, 1},
      {QUIC_WIRE_FRAME_PATH_CHALLENGE, 0, 0, {UINT64_MAX}, 0, 0, NONE},
      {QUIC_WIRE_FRAME_CONNECTION_CLOSE, 0, 0, {over, over}, 99, 1, 1},
      {QUIC_WIRE_FRAME_CONNECTION_CLOSE, 0, 0, {0, over}, 99, 1, 2},
      {QUIC_WIRE_FRAME_CONNECTION_CLOSE, 0, 0, {0, 0}, 99, 1, 3},
      {QUIC_WIRE_FRAME_APPLICATION_CLOSE, 0, 0, {0, 0}, 99, 1, 2},
      {QUIC_WIRE_FRAME_DATAGRAM, 0, 0, {0}, 1, 40, 1},
      {QUIC_WIRE_FRAME_DATAGRAM, 0, 1, {0}, 0, 40, NONE},
      {QUIC_WIRE_FRAME_ACK_FREQUENCY, 0, 0, {0, 0, over, 0}, 0, 0, 3},
      {QUIC_WIRE_FRAME_ACK_FREQUENCY, 0, 0, {0, 0, 0, over}, 0, 0, 4},
  };
  quic_wire_frame frame;
  size_t k;
  for (k = 0; k < sizeof rows / sizeof *rows; k++) {
    memset(&frame, 0, sizeof frame);
    frame.kind = rows[k].kind;
    frame.flags = rows[k].frame_flags;
    memcpy(frame.numbers, rows[k].numbers, sizeof frame.numbers);
    frame.data = rows[k].at;
    frame.datalen = rows[k].len;
    WANT(quic_wire_frame_write_fault(&frame, data, sizeof data,
                                     rows[k].flags) == rows[k].fault);
  }
}

/* Section 17 of RFC 9000 has the fields in this order.  Field 4 stands for a
 * version that is known. */
static void header_examples(void) {
  const uint64_t over = (UINT64_MAX >> 2) + 1;
  const struct {
    quic_wire_header_fields fields;
    size_t dcidlen, scidlen, fault;
  } rows[] = {
      {{QUIC_WIRE_PACKET_INITIAL, 0, 1, 2, 1, 0}, 20, 20, NONE},
      {{QUIC_WIRE_PACKET_INITIAL, 0, 0, 0, 0, over}, 21, 21, 1},
      {{QUIC_WIRE_PACKET_INITIAL, 0, 0, 0, 1, over}, 21, 21, 2},
      {{QUIC_WIRE_PACKET_INITIAL, 0, 0, 0, 1, over}, 20, 21, 3},
      {{QUIC_WIRE_PACKET_INITIAL, 0, 0, 3, 1, over}, 20, 20, 7},
      {{QUIC_WIRE_PACKET_INITIAL, 0, 0, 8, 1, 0}, 20, 20, 8},
      {{QUIC_WIRE_PACKET_INITIAL, 0, 5, 8, 1, 0}, 20, 20, 8},
      {{QUIC_WIRE_PACKET_INITIAL, 0, 4, 8, 1, over}, 20, 20, 8},
      {{QUIC_WIRE_PACKET_0RTT, 0, 1, 0, 1, 0}, 0, 0, 5},
      {{QUIC_WIRE_PACKET_HANDSHAKE, 0, 1, 1, 1, over}, 0, 0, 6},
      {{QUIC_WIRE_PACKET_RETRY, 0, 0, 0, 0, over}, 0, 0, 1},
      {{QUIC_WIRE_PACKET_RETRY, 0, 0, 0, 1, over}, 0, 0, NONE},
      {{QUIC_WIRE_PACKET_1RTT, 0, 0, 0, 0, 0}, 21, 21, 1},
      {{QUIC_WIRE_PACKET_1RTT, 0, 0, 0, 0, 0}, 20, 21, 2},
      {{QUIC_WIRE_PACKET_1RTT, 0, 1, 0, 0, over - 1}, 20, 21, NONE},
      {{QUIC_WIRE_PACKET_VERSION_NEGOTIATION, 0, 0, 0, 0, 0}, 20, 21, 3},
      {{QUIC_WIRE_PACKET_VERSION_NEGOTIATION, 0, 0, 0, 9, 0}, 20, 20, NONE},
      {{QUIC_WIRE_PACKET_VERSION_NEGOTIATION + 1, 0, 0, 0, 0, 0}, 0, 0, 0},
  };
  size_t k;
  for (k = 0; k < sizeof rows / sizeof *rows; k++)
    WANT(quic_wire_header_write_fault(&rows[k].fields, rows[k].dcidlen,
                                      rows[k].scidlen, 0) == rows[k].fault);
}

/* What is wrong with parameters that a side sends, and the id. */
static int fault(uint32_t side, const quic_wire_params *params, uint64_t *id) {
  *id = 77;
  return quic_wire_params_write_fault(side, params, sizeof *params, id);
}

/* The bounds of RFC 9000, section 18.2, and of the ACK frequency draft. */
static void params_examples(void) {
  quic_wire_params params, given;
  uint64_t id;
  WANT(quic_wire_params_default(&params, sizeof params) == 0);
#define SENT(side, change, result, number)                                     \
  do {                                                                         \
    given = params;                                                            \
    change;                                                                    \
    WANT(fault(side, &given, &id) == (result) && id == (number));              \
  } while (0)
  SENT(0, given.ack_delay_exponent = 20, 0, 77);
  SENT(0, given.ack_delay_exponent = 21, QUIC_WIRE_FAULT_HIGH, 0x0a);
  SENT(1, given.max_ack_delay = 1 << 14, QUIC_WIRE_FAULT_HIGH, 0x0b);
  SENT(1, given.active_connection_id_limit = 1, QUIC_WIRE_FAULT_LOW, 0x0e);
  SENT(1, given.max_udp_payload_size = 1199, QUIC_WIRE_FAULT_LOW, 0x03);
  SENT(1, given.initial_max_streams_bidi = ((uint64_t)1 << 60) + 1,
       QUIC_WIRE_FAULT_HIGH, 0x08);
  SENT(1, given.initial_max_streams_uni = ((uint64_t)1 << 60) + 1,
       QUIC_WIRE_FAULT_HIGH, 0x09);
  SENT(0, given.max_idle_timeout = (uint64_t)1 << 62, QUIC_WIRE_FAULT_HIGH,
       0x01);
  SENT(0, given.max_idle_timeout = ((uint64_t)1 << 62) - 1, 0, 77);
  SENT(0, given.reserved = 1, QUIC_WIRE_FAULT_ABSENT, 77);
  SENT(0, given.min_ack_delay = 1, QUIC_WIRE_FAULT_ABSENT, 77);
  params.present = QUIC_WIRE_HAS_MIN_ACK_DELAY;
  SENT(0, given.min_ack_delay = 25000, 0, 77);
  SENT(0, given.min_ack_delay = 25001, QUIC_WIRE_FAULT_DELAY, 0xff04de1b);
  SENT(0, (given.min_ack_delay = 25001, given.max_udp_payload_size = 0),
       QUIC_WIRE_FAULT_LOW, 0x03);
  params.present = QUIC_WIRE_HAS_STATELESS_RESET_TOKEN;
  SENT(0, (void)0, QUIC_WIRE_FAULT_SENDER, 0x02);
  SENT(1, (void)0, 0, 77);
  params.present = QUIC_WIRE_HAS_RETRY_SRC_CID;
  SENT(0, (void)0, QUIC_WIRE_FAULT_SENDER, 0x10);
  params.present = QUIC_WIRE_HAS_ORIGINAL_DST_CID;
  SENT(0, (void)0, QUIC_WIRE_FAULT_SENDER, 0x00);
  SENT(1, given.original_dst_cidlen = 21, QUIC_WIRE_FAULT_ABSENT, 77);
  params.present = QUIC_WIRE_HAS_PREFERRED_ADDRESS;
  SENT(1, (void)0, QUIC_WIRE_FAULT_NO_CID, 0x0d);
  SENT(0, (void)0, QUIC_WIRE_FAULT_NO_CID, 0x0d);
  params.preferred_cidlen = 1;
  SENT(0, (void)0, QUIC_WIRE_FAULT_SENDER, 0x0d);
  SENT(1, (void)0, QUIC_WIRE_FAULT_NO_ADDRESS, 0x0d);
  params.present |= QUIC_WIRE_HAS_PREFERRED_V4;
  SENT(1, (void)0, QUIC_WIRE_FAULT_NO_ADDRESS, 0x0d);
  SENT(1, given.preferred_v4_port = 1, 0, 77);
#undef SENT
}

void faults_examples(void) {
  frame_examples();
  header_examples();
  params_examples();
}

/* A frame with a field at fault isn't written, and one without is, if it has
 * nothing that its kind lacks. */
void frame_fault(const quic_wire_frame *frame, const uint8_t *data, size_t len,
                 uint32_t flags) {
  const size_t index = quic_wire_frame_write_fault(frame, data, len, flags);
  size_t n;
  const int answer =
      quic_wire_frame_len(frame, data, len, flags & QUIC_WIRE_WRITE_LAST, &n);
  WANT(index == NONE || index < QUIC_WIRE_FRAME_FIELDS);
  WANT(index == NONE || answer == INVALID);
  if (index == NONE && answer != 0) {
    quic_wire_frame less = *frame;
    size_t k;
    if (frame->kind != QUIC_WIRE_FRAME_STREAM)
      less.flags = 0;
    /* Without what it lacks it is written. */
    for (k = 0; k < 6; k++) {
      if (quic_wire_frame_len(&less, data, len, flags & QUIC_WIRE_WRITE_LAST,
                              &n) == 0)
        break;
      if (k < 5)
        less.numbers[4 - k] = 0;
      else
        less.datalen = 0;
    }
    WANT(quic_wire_frame_len(&less, data, len, flags & QUIC_WIRE_WRITE_LAST,
                             &n) == 0);
  }
}
