/* The send path of a stack: an Initial packet with an ACK, a CRYPTO and PADDING
 * and a Handshake packet in one datagram, a 1-RTT packet with a
 * NEW_CONNECTION_ID and a STREAM, and an Initial packet of an unknown version.
 * They are sealed and printed as lines of hexadecimal, which receive.c reads;
 * its head says how to build both. */
#include "paths.h"
#include "quic_wire.h"

static const uint8_t dcid[] = {1, 2, 3, 4}, scid[] = {5, 6};
static uint8_t payload[1200];
static size_t len;

static void add(int answer, size_t n) {
  check(answer == QUIC_WIRE_OK, quic_wire_strerror(answer));
  len += n;
}

static void add_frame(const quic_wire_frame *frame, const void *data,
                      size_t datalen, uint32_t last) {
  size_t n = 0;
  const int answer = quic_wire_frame_write(
      frame, (const uint8_t *)data, datalen, last | QUIC_WIRE_WRITE_RFC,
      payload + len, sizeof payload - len, &n);
  add(answer, n);
}

static void add_padding(size_t n) {
  check(sizeof payload - len >= n, "no room");
  memset(payload + len, 0, n);
  len += n;
}

/* An ACK of the packets 0 to 2, 5, and 7 to 9. */
static void add_ack(void) {
  static const quic_wire_range came[] = {{0, 3}, {5, 6}, {7, 10}};
  size_t n = 0;
  const int answer = quic_wire_ack_write(3, came, 3, NULL, payload + len,
                                         sizeof payload - len, &n);
  add(answer, n);
}

static void add_crypto(uint64_t offset, const char *text) {
  quic_wire_frame frame = {0};
  frame.kind = QUIC_WIRE_FRAME_CRYPTO;
  frame.crypto.offset = offset;
  frame.datalen = strlen(text);
  add_frame(&frame, text, strlen(text), 0);
}

/* An id of eight bytes, followed by its stateless reset token. */
static void add_id(void) {
  static const uint8_t id_and_token[8 + 16] = {9, 0, 0, 0, 0, 0, 0, 0, 0xaa};
  quic_wire_frame frame = {0};
  frame.kind = QUIC_WIRE_FRAME_NEW_CONNECTION_ID;
  frame.new_connection_id.sequence = 2;
  frame.new_connection_id.retire_prior_to = 1;
  frame.datalen = 8;
  add_frame(&frame, id_and_token, sizeof id_and_token, 0);
}

static void add_stream(void) {
  quic_wire_frame frame = {0};
  frame.kind = QUIC_WIRE_FRAME_STREAM;
  frame.flags = QUIC_WIRE_FLAG_FIN;
  frame.stream.stream_id = 4;
  frame.stream.offset = 9;
  frame.datalen = 5;
  add_frame(&frame, "hello", 5, QUIC_WIRE_WRITE_LAST);
}

/* Seals the payload in a packet, and begins the next payload.  Returns where
 * the packet ends. */
static size_t seal_packet(uint8_t kind, uint32_t version, uint64_t number,
                          uint64_t acked, uint8_t *packet, size_t room) {
  quic_wire_header_fields fields = {0};
  uint8_t mask[5];
  int64_t begin;
  size_t end, place;
  fields.kind = kind;
  fields.version = version;
  fields.number = number;
  fields.numberlen = (uint8_t)quic_wire_number_len(number, acked);
  fields.lengthlen =
      (uint8_t)quic_wire_varint_len(fields.numberlen + len + TAG);
  begin = quic_wire_header_write(&fields, dcid, sizeof dcid, scid, sizeof scid,
                                 NULL, 0, packet, room);
  check(begin > 0 && (size_t)begin + len + TAG <= room, "no room");
  end = (size_t)begin + len + TAG;
  place = (size_t)begin - fields.numberlen;
  if (kind != QUIC_WIRE_PACKET_1RTT)
    check(quic_wire_set_len(packet, end, place, fields.lengthlen) ==
              QUIC_WIRE_OK,
          "too long");
  memcpy(packet + begin, payload, len);
  seal(number, packet + begin, len);
  make_mask(mask, quic_wire_sample(packet, end, place, 16));
  check(quic_wire_protect(packet, end, place, mask) > 0, "too short");
  len = 0;
  return end;
}

/* Datagrams with an Initial packet have 1,200 bytes (RFC 9000, section 14.1),
 * also those of a version that the server may not know (section 5.2.2). */
int main(void) {
  uint8_t datagram[1500];
  size_t n;
  add_ack();
  add_crypto(0, "hello");
  add_padding(1111);
  n = seal_packet(QUIC_WIRE_PACKET_INITIAL, QUIC_WIRE_VERSION_1, 0, 0, datagram,
                  sizeof datagram);
  add_crypto(5, "world");
  n += seal_packet(QUIC_WIRE_PACKET_HANDSHAKE, QUIC_WIRE_VERSION_1, 1, 0,
                   datagram + n, sizeof datagram - n);
  print_hex("", datagram, n);
  add_id();
  add_stream();
  n = seal_packet(QUIC_WIRE_PACKET_1RTT, 0, 70000, 60000, datagram,
                  sizeof datagram);
  print_hex("", datagram, n);
  add_padding(1167);
  n = seal_packet(QUIC_WIRE_PACKET_INITIAL, 0x0a0a0a0a, 1, 0, datagram,
                  sizeof datagram);
  print_hex("", datagram, n);
  return 0;
}
