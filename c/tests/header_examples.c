/* The examples at the top of quic_wire.h, which scripts/check/callers cuts out of it
 * as example-1.h to example-3.h: the third seals a packet, the second opens it,
 * and the first reads its frames, and those of a payload with a STREAM.  That of
 * quic_wire_near.h, near-1.h, reads such a frame too.  The cipher hides nothing:
 * it inverts each bit, and its tag is the packet number. */
#include <stdio.h>
#include <stdlib.h>
#include <string.h>

#include "quic_wire.h"
#include "quic_wire_near.h"

static void check(int is_so, const char *what) {
  if (!is_so) {
    fprintf(stderr, "examples: %s\n", what);
    exit(1);
  }
}

static int delivered, opened;

static void deliver(uint64_t id, uint64_t offset, const uint8_t *data,
                    size_t len) {
  check(id == 4 && offset == 9 && len == 5 && !memcmp(data, "hello", 5),
        "other data");
  delivered++;
}

static void read_payload(const uint8_t *payload, size_t len, uint32_t kind,
                         uint32_t sender) {
#include "example-1.h"
  check(answer == 0 && frames.offset == len, "no frames");
}

/* A STREAM isn't delivered from a Handshake packet, nor on a stream that the
 * sender can only read. */
static void read_what_is_forbidden(const uint8_t *payload, size_t len,
                                   uint32_t kind, uint32_t sender, int result) {
#include "example-1.h"
  check(answer == result && delivered == 1, "another answer");
}

/* A STREAM, and bytes that are left to the call. */
static void read_near(const uint8_t *payload, size_t payloadlen,
                      int64_t result) {
  const uint32_t flags = QUIC_WIRE_READ_RFC;
  quic_wire_frame frame;
#include "near-1.h"
  check(answer == result, "another end");
}

static void make_mask(uint8_t *mask, const uint8_t *sample) {
  memcpy(mask, sample, 5);
}

static void turn(uint8_t *bytes, size_t len) {
  size_t i;
  for (i = 0; i < len; i++)
    bytes[i] ^= 0xff;
}

static void seal_payload(uint64_t number, const uint8_t *packet,
                         size_t headerlen, uint8_t *payload, size_t len) {
  check(packet + headerlen == payload, "another place");
  turn(payload, len);
  memset(payload + len, (int)number, 16);
}

static int open_payload(uint64_t number, const uint8_t *packet,
                        size_t headerlen, uint8_t *payload, size_t len) {
  check(packet + headerlen == payload && number == 1, "another packet");
  check(payload[len - 16] == 1 && payload[len - 1] == 1, "another tag");
  turn(payload, len - 16);
  read_payload(payload, len - 16, QUIC_WIRE_PACKET_HANDSHAKE,
               QUIC_WIRE_SIDE_CLIENT);
  opened++;
  return 1;
}

static void close_with(uint64_t code) {
  (void)code;
  check(0, "reserved bits that are set");
}

static void open_packets(uint8_t *packet, size_t len) {
  static const uint32_t versions[] = {1};
  const size_t nversions = 1;
  const uint32_t cidlen = 4;
  const uint64_t expected = 1;
  quic_wire_header header;
  uint64_t number;
  uint8_t mask[5];
  int numberlen;
#include "example-2.h"
  check(len == 0, "no packet");
}

static size_t seal_a_packet(uint8_t *packet, size_t room) {
  static const uint8_t dcid[] = {1, 2, 3, 4}, scid[] = {5, 6}, data[] = "hello";
  const size_t dcidlen = sizeof dcid, scidlen = sizeof scid, datalen = 5;
  const uint64_t number = 1, largest_acked = 0, offset = 9;
  uint8_t mask[5];
  size_t payloadlen = 0;
#include "example-3.h"
  check(sealed == fields.numberlen, "no protection");
  return end;
}

int main(void) {
  static const uint8_t stream[] = {0x0d, 4, 9, 'h', 'e', 'l', 'l', 'o'};
  static const uint8_t clients[] = {0x0a, 2, 1, 'a'};
  uint8_t datagram[1200];
  size_t len = seal_a_packet(datagram, 600);
  len += seal_a_packet(datagram + len, 600);
  open_packets(datagram, len);
  check(opened == 2 && delivered == 0, "two packets of one CRYPTO each");
  read_payload(stream, sizeof stream, QUIC_WIRE_PACKET_1RTT,
               QUIC_WIRE_SIDE_CLIENT);
  check(delivered == 1, "one STREAM");
  read_what_is_forbidden(stream, sizeof stream, QUIC_WIRE_PACKET_HANDSHAKE,
                         QUIC_WIRE_SIDE_CLIENT, QUIC_WIRE_ERR_FRAME_PACKET);
  read_what_is_forbidden(clients, sizeof clients, QUIC_WIRE_PACKET_1RTT,
                         QUIC_WIRE_SIDE_SERVER, QUIC_WIRE_ERR_FRAME_STREAM);
  read_near(stream, sizeof stream, sizeof stream);
  read_near(stream, 2, QUIC_WIRE_ERR_FRAME_END);
  check(delivered == 2, "one more STREAM");
  puts("the headers' examples: two packets sealed, opened and read");
  return 0;
}
