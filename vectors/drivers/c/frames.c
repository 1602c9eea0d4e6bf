/* Frames as they are read. */
#include <inttypes.h>
#include <stdlib.h>

#include "driver.h"

typedef struct kind {
  uint16_t kind;
  const char *name;
  const char *numbers[4]; /* the fields in quic_wire_frame.numbers */
  const char *data;       /* the field of its data */
} kind;

static const kind kinds[] = {
    {QUIC_WIRE_FRAME_PADDING, "PADDING", {0}, NULL},
    {QUIC_WIRE_FRAME_PING, "PING", {0}, NULL},
    {QUIC_WIRE_FRAME_ACK, "ACK", {"largest_acknowledged", "ack_delay"}, NULL},
    {QUIC_WIRE_FRAME_RESET_STREAM, "RESET_STREAM",
     {"stream_id", "application_protocol_error_code", "final_size"}, NULL},
    {QUIC_WIRE_FRAME_STOP_SENDING, "STOP_SENDING",
     {"stream_id", "application_protocol_error_code"}, NULL},
    {QUIC_WIRE_FRAME_CRYPTO, "CRYPTO", {NULL, "offset"}, "crypto_data"},
    {QUIC_WIRE_FRAME_NEW_TOKEN, "NEW_TOKEN", {0}, "token"},
    {QUIC_WIRE_FRAME_STREAM, "STREAM", {"stream_id", "offset"}, "stream_data"},
    {QUIC_WIRE_FRAME_MAX_DATA, "MAX_DATA", {NULL, "maximum_data"}, NULL},
    {QUIC_WIRE_FRAME_MAX_STREAM_DATA, "MAX_STREAM_DATA",
     {"stream_id", "maximum_stream_data"}, NULL},
    {QUIC_WIRE_FRAME_MAX_STREAMS_BIDI, "MAX_STREAMS", {NULL, "maximum_streams"}, NULL},
    {QUIC_WIRE_FRAME_MAX_STREAMS_UNI, "MAX_STREAMS", {NULL, "maximum_streams"}, NULL},
    {QUIC_WIRE_FRAME_DATA_BLOCKED, "DATA_BLOCKED", {NULL, "maximum_data"}, NULL},
    {QUIC_WIRE_FRAME_STREAM_DATA_BLOCKED, "STREAM_DATA_BLOCKED",
     {"stream_id", "maximum_stream_data"}, NULL},
    {QUIC_WIRE_FRAME_STREAMS_BLOCKED_BIDI, "STREAMS_BLOCKED",
     {NULL, "maximum_streams"}, NULL},
    {QUIC_WIRE_FRAME_STREAMS_BLOCKED_UNI, "STREAMS_BLOCKED",
     {NULL, "maximum_streams"}, NULL},
    {QUIC_WIRE_FRAME_NEW_CONNECTION_ID, "NEW_CONNECTION_ID",
     {"sequence_number", "retire_prior_to"}, "connection_id"},
    {QUIC_WIRE_FRAME_RETIRE_CONNECTION_ID, "RETIRE_CONNECTION_ID",
     {"sequence_number"}, NULL},
    {QUIC_WIRE_FRAME_PATH_CHALLENGE, "PATH_CHALLENGE", {0}, NULL},
    {QUIC_WIRE_FRAME_PATH_RESPONSE, "PATH_RESPONSE", {0}, NULL},
    {QUIC_WIRE_FRAME_CONNECTION_CLOSE, "CONNECTION_CLOSE",
     {"error_code", "frame_type"}, "reason_phrase"},
    {QUIC_WIRE_FRAME_APPLICATION_CLOSE, "CONNECTION_CLOSE", {"error_code"},
     "reason_phrase"},
    {QUIC_WIRE_FRAME_HANDSHAKE_DONE, "HANDSHAKE_DONE", {0}, NULL},
    {QUIC_WIRE_FRAME_IMMEDIATE_ACK, "IMMEDIATE_ACK", {0}, NULL},
    {QUIC_WIRE_FRAME_DATAGRAM, "DATAGRAM", {0}, "datagram_data"},
    {QUIC_WIRE_FRAME_ACK_FREQUENCY, "ACK_FREQUENCY",
     {"sequence_number", "ack_eliciting_threshold", "requested_max_ack_delay",
      "reordering_threshold"}, NULL},
};

static void print_ranges(FILE *out, const line *in,
                         const quic_wire_frame *frame) {
  quic_wire_range_iter ranges;
  quic_wire_range range;
  const char *before = "";
  fprintf(out, ",\"ranges\":[");
  if (quic_wire_ack_ranges_init(&ranges, in->bytes, in->len, frame))
    abort();
  while (quic_wire_ack_ranges_next(&ranges, in->bytes, in->len, &range) ==
         QUIC_WIRE_ITEM) {
    fprintf(out, "%s[\"%" PRIu64 "\",\"%" PRIu64 "\"]", before, range.start,
            range.end - 1);
    before = ",";
  }
  putc(']', out);
}

/* The fields that only one kind of frame has. */
static void print_more(FILE *out, const line *in, const quic_wire_frame *frame) {
  static const char *const directions[] = {"bidirectional", "unidirectional"};
  switch (frame->kind) {
  case QUIC_WIRE_FRAME_PADDING:
    print_number(out, "count", quic_wire_padding_count(in->bytes, in->len, frame));
    break;
  case QUIC_WIRE_FRAME_ACK:
    if (frame->flags & QUIC_WIRE_FLAG_ECN) {
      print_number(out, "ect0_count", frame->ack.ect0);
      print_number(out, "ect1_count", frame->ack.ect1);
      print_number(out, "ecn_ce_count", frame->ack.ce);
    }
    print_ranges(out, in, frame);
    break;
  case QUIC_WIRE_FRAME_STREAM:
    print_number(out, "fin", frame->flags & QUIC_WIRE_FLAG_FIN);
    break;
  case QUIC_WIRE_FRAME_MAX_STREAMS_BIDI:
  case QUIC_WIRE_FRAME_MAX_STREAMS_UNI:
  case QUIC_WIRE_FRAME_STREAMS_BLOCKED_BIDI:
  case QUIC_WIRE_FRAME_STREAMS_BLOCKED_UNI:
    fprintf(out, ",\"direction\":\"%s\"", directions[frame->kind & 1]);
    break;
  case QUIC_WIRE_FRAME_NEW_CONNECTION_ID:
    print_bytes(out, "stateless_reset_token",
                quic_wire_reset_token(in->bytes, in->len, frame), 16);
    break;
  case QUIC_WIRE_FRAME_PATH_CHALLENGE:
  case QUIC_WIRE_FRAME_PATH_RESPONSE:
    print_bytes(out, "data", quic_wire_path_data(in->bytes, in->len, frame), 8);
    break;
  case QUIC_WIRE_FRAME_CONNECTION_CLOSE:
    fprintf(out, ",\"layer\":\"transport\"");
    break;
  case QUIC_WIRE_FRAME_APPLICATION_CLOSE:
    fprintf(out, ",\"layer\":\"application\"");
    break;
  default: break;
  }
}

static void print_frame(FILE *out, const line *in, const quic_wire_frame *frame) {
  const kind *k = kinds;
  size_t i;
  while (k->kind != frame->kind)
    k++;
  fprintf(out, "%s{\"type\":\"%s\"", frame->begin ? "," : "", k->name);
  for (i = 0; i < 4; i++)
    if (k->numbers[i])
      print_number(out, k->numbers[i], frame->numbers[i]);
  if (k->data)
    print_bytes(out, k->data, in->bytes + frame->data, frame->datalen);
  print_more(out, in, frame);
  putc('}', out);
}

/* Whether types may be longer than necessary, and ACK frequency is known, only the test says. */
uint32_t payload_flags(const line *in) {
  const uint32_t by_test = QUIC_WIRE_READ_SHORT_TYPES | QUIC_WIRE_READ_NO_ACK_FREQUENCY;
  return (is_rfc ? QUIC_WIRE_READ_RFC & ~by_test : 0) |
         (item(in, "strict") ? QUIC_WIRE_READ_SHORT_TYPES : 0) |
         (item(in, "without") ? QUIC_WIRE_READ_NO_ACK_FREQUENCY : 0);
}

static uint32_t packet_of(const line *in) {
  const char *packet = item(in, "packet");
  switch (packet ? *packet : '1') {
  case 'i': return QUIC_WIRE_PACKET_INITIAL;
  case '0': return QUIC_WIRE_PACKET_0RTT;
  case 'h': return QUIC_WIRE_PACKET_HANDSHAKE;
  default: return QUIC_WIRE_PACKET_1RTT;
  }
}

/* Whether the packet may carry a frame that was read, or for NULL one of this type.  Its sender isn't the side that
 * reads; if that may be either side, so may be the sender. */
static int permitted(const line *in, uint64_t type, const quic_wire_frame *frame) {
  const char *reader = item(in, "side");
  uint32_t sender = reader && *reader == 'c' ? QUIC_WIRE_SIDE_SERVER : QUIC_WIRE_SIDE_CLIENT;
  const uint32_t last = reader ? sender : QUIC_WIRE_SIDE_SERVER;
  const uint32_t packet = packet_of(in), flags = payload_flags(in);
  int answer;
  do
    answer = frame ? quic_wire_frame_permitted(frame, packet, sender, flags)
                   : quic_wire_type_permitted(type, packet, sender, flags);
  while (answer < 0 && sender++ < last);
  return answer;
}

/* The next frame, if it may be there: its type is checked before the frame is read, its stream afterwards. */
static int next_frame(const line *in, quic_wire_frame_iter *frames, quic_wire_frame *frame) {
  uint64_t type;
  int answer;
  if (is_rfc && quic_wire_varint_read(in->bytes + frames->offset, in->len - frames->offset, &type) &&
      (answer = permitted(in, type, NULL)) < 0)
    return answer;
  answer = quic_wire_frames_next(frames, in->bytes, in->len, frame);
  return is_rfc && answer == QUIC_WIRE_ITEM && permitted(in, 0, frame) < 0 ? permitted(in, 0, frame) : answer;
}

void answer_payload(const line *in, FILE *items, char **read) {
  quic_wire_frame_iter frames;
  quic_wire_frame frame;
  size_t at = 0;
  int answer = quic_wire_frames_init(&frames, in->bytes, in->len, payload_flags(in));
  if (answer == QUIC_WIRE_ERR_PAYLOAD_EMPTY) {
    puts("invalid PROTOCOL_VIOLATION {\"at\":0,\"before\":[]}");
    return;
  }
  while ((answer = next_frame(in, &frames, &frame)) == QUIC_WIRE_ITEM) {
    print_frame(items, in, &frame);
    at = frames.offset;
  }
  fflush(items);
  if (answer == QUIC_WIRE_OK)
    printf("valid [%s]\n", *read);
  else
    printf("invalid %s {\"at\":%zu,\"before\":[%s]}\n", code_name(answer), at, *read);
}
