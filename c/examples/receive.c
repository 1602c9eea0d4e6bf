/* The receive path of a stack. Datagrams, lines of hexadecimal such as send.c
 * prints, are routed by their id, answered with a version negotiation if their
 * version is unknown, opened, and read with the checks of RFC 9000; the sender
 * is a client.  To build and run it:
 *
 *   cc -o send send.c -IPREFIX/include PREFIX/lib/libquic_wire.a
 *   cc -o receive receive.c -IPREFIX/include PREFIX/lib/libquic_wire.a
 *   ./send | ./receive
 */
#include "paths.h"
#include "quic_wire.h"

/* Of its ids, and the least of datagrams with an Initial packet (RFC 9000,
 * section 14.1). */
enum { CIDLEN = 4, LEAST = 1200 };
static const uint32_t versions[] = {QUIC_WIRE_VERSION_1};
/* The spaces of packet numbers, one of which 0-RTT and 1-RTT packets share, by
 * kind of packet. */
enum { INITIAL, HANDSHAKE, DATA };
static const uint8_t spaces[] = {INITIAL, DATA, HANDSHAKE, INITIAL, DATA};
/* The packet number that is expected next: 60,000 1-RTT packets were
 * received. */
static uint64_t expected[] = {0, 0, 60000};

static void handle(const quic_wire_frame *frame, const uint8_t *payload,
                   size_t len) {
  quic_wire_range_iter ranges;
  quic_wire_range range;
  printf("  %s", quic_wire_type_name(frame->type));
  if (frame->kind == QUIC_WIRE_FRAME_ACK &&
      quic_wire_ack_ranges_init(&ranges, payload, len, frame) == QUIC_WIRE_OK)
    while (quic_wire_ack_ranges_next(&ranges, payload, len, &range) ==
           QUIC_WIRE_ITEM)
      printf(" %" PRIu64 "-%" PRIu64, range.start, range.end - 1);
  if (frame->kind == QUIC_WIRE_FRAME_NEW_CONNECTION_ID)
    printf(" token %02x..", *quic_wire_reset_token(payload, len, frame));
  putchar('\n');
}

static void close_with(uint64_t code, uint64_t type) {
  quic_wire_frame frame = {0};
  uint8_t bytes[32];
  size_t n = 0;
  int answer;
  frame.kind = QUIC_WIRE_FRAME_CONNECTION_CLOSE;
  frame.close.error_code = code;
  frame.close.frame_type = type == QUIC_WIRE_NO_TYPE ? 0 : type;
  answer = quic_wire_frame_write(&frame, NULL, 0, QUIC_WIRE_WRITE_RFC, bytes,
                                 sizeof bytes, &n);
  check(answer == QUIC_WIRE_OK, quic_wire_strerror(answer));
  print_hex("  close ", bytes, n);
}

static void read_payload(uint8_t packet, const uint8_t *payload, size_t len) {
  quic_wire_frame_iter frames;
  quic_wire_frame frame = {0};
  size_t count;
  int is_owed = 0;
  int answer =
      quic_wire_frames_init(&frames, payload, len, QUIC_WIRE_READ_RFC);
  while (answer >= 0 &&
         (answer = quic_wire_frames_fill(&frames, payload, len, &frame, 1,
                                         &count)) == QUIC_WIRE_ITEM) {
    answer = quic_wire_frame_permitted(&frame, packet, QUIC_WIRE_SIDE_CLIENT,
                                       QUIC_WIRE_READ_RFC);
    if (answer < 0) {
      close_with(quic_wire_close_code(answer), frame.type);
      return;
    }
    is_owed |=
        !(quic_wire_frame_rules(frame.kind) & QUIC_WIRE_RULE_NOT_ELICITING);
    handle(&frame, payload, len);
  }
  if (answer < 0)
    close_with(quic_wire_close_code(answer),
               answer == QUIC_WIRE_ERR_PAYLOAD_EMPTY
                   ? QUIC_WIRE_NO_TYPE
                   : quic_wire_error_type(&frame));
  else if (is_owed)
    puts("  an ACK is owed");
}

/* Opens the packet with this |header|, and reads its payload. */
static void read_packet(uint8_t *packet, const quic_wire_header *header) {
  static const char *const names[] = {"initial", "0rtt", "handshake", "retry",
                                      "short"};
  const uint8_t *sample =
      quic_wire_sample(packet, header->end, header->header_end, 16);
  const size_t place = header->header_end;
  const int is_short = header->kind == QUIC_WIRE_PACKET_1RTT;
  uint8_t mask[5], *payload;
  uint64_t *next;
  uint64_t number;
  size_t len;
  int n;
  if (!sample || header->kind == QUIC_WIRE_PACKET_RETRY ||
      header->kind == QUIC_WIRE_PACKET_VERSION_NEGOTIATION)
    return;
  make_mask(mask, sample);
  next = &expected[spaces[header->kind]];
  n = quic_wire_unprotect(packet, header->end, place, mask, *next, &number);
  if (n < 0)
    return;
  payload = packet + place + n;
  len = header->end - place - (size_t)n;
  if (!open_sealed(number, payload, len))
    return;
  if (*next <= number)
    *next = number + 1;
  printf(" %s %" PRIu64 "\n", names[header->kind], number);
  /* Reserved bits are 0 (sections 17.2 and 17.3.1), or PROTOCOL_VIOLATION. */
  if (packet[0] & (is_short ? 0x18 : 0x0c))
    close_with(0x0a, QUIC_WIRE_NO_TYPE);
  else
    read_payload(header->kind, payload, len - TAG);
}

static void read_datagram(uint8_t *bytes, size_t len) {
  const int is_small = len < LEAST;
  quic_wire_header header;
  uint8_t answer[600];
  size_t idlen = 0, written = 0;
  int64_t end = 0;
  const uint8_t *id = quic_wire_dcid_read(bytes, len, CIDLEN, &idlen);
  print_hex("to ", id, idlen);
  for (; len; bytes += end, len -= (size_t)end) {
    end = quic_wire_header_read(bytes, len, CIDLEN, versions, 1,
                                QUIC_WIRE_READ_RFC, &header);
    if (end < 0)
      break;
    if (header.kind == QUIC_WIRE_PACKET_INITIAL && is_small)
      puts(" dropped: an Initial packet in a small datagram");
    else
      read_packet(bytes, &header);
  }
  /* Small ones aren't answered (section 5.2.2). */
  if (end == QUIC_WIRE_ERR_PACKET_VERSION && !is_small) {
    check(quic_wire_negotiation_write(
              0, quic_wire_scid(bytes, &header), header.scidlen,
              quic_wire_dcid(bytes, &header), header.dcidlen, versions, 1,
              answer, sizeof answer, &written) == QUIC_WIRE_OK,
          "no room");
    print_hex(" answer ", answer, written);
  } else if (end < 0) {
    printf(" dropped: %s\n", quic_wire_strerror((int)end));
  }
}

int main(void) {
  static uint8_t bytes[4096];
  size_t len;
  check(quic_wire_check(QUIC_WIRE_LIB) == QUIC_WIRE_OK,
        "the linked library doesn't fit quic_wire.h");
  while ((len = read_line(stdin, bytes, sizeof bytes)) != SIZE_MAX)
    read_datagram(bytes, len);
  return 0;
}
