/* seal < payloads > capture: seals each payload, a line of hexadecimal, as the
 * first Initial packet of a new connection, and writes the packets as a capture
 * file, for c/examples/wireshark.c.  The packet of the first line has the
 * source port 20000, the next 20001, and so on: Wireshark takes some packets
 * with lower ports for other protocols. */
#include <stdio.h>
#include <stdlib.h>
#include <string.h>

#include "../examples/initial_keys.h"
#include "quic_wire.h"

enum {
  MOST = 16000,
  ID = 8,
  IP = 20,
  UDP = 8,
  RAW_IP = 101,
  FIRST_PORT = 20000
};

static void check(int is_so, const char *what) {
  if (!is_so) {
    fprintf(stderr, "seal: %s\n", what);
    exit(1);
  }
}

static void two_bytes(uint8_t *to, size_t value) {
  to[0] = (uint8_t)(value >> 8);
  to[1] = (uint8_t)value;
}

/* A capture file has the machine's byte order. */
static void write_words(const uint32_t *words, size_t count) {
  check(fwrite(words, 4, count, stdout) == count, "can't write the capture");
}

/* Seals a payload of a connection.  Returns the length of the packet. */
static size_t seal(unsigned connection, const uint8_t *payload, size_t len,
                   uint8_t *packet, size_t room) {
  uint8_t id[ID] = {0x83, 0x94, 0xc8, 0xf0}, mask[5];
  quic_wire_header_fields all = {0};
  size_t begin, place, end;
  int64_t written;
  keys k;
  all.kind = QUIC_WIRE_PACKET_INITIAL;
  all.version = QUIC_WIRE_VERSION_1;
  all.numberlen = 4;
  all.lengthlen = 2;
  two_bytes(id + ID - 2, connection);
  written =
      quic_wire_header_write(&all, id, ID, NULL, 0, NULL, 0, packet, room);
  check(written > 0, "no header");
  begin = (size_t)written;
  place = begin - all.numberlen;
  end = begin + len + TAG;
  check(end <= room && !quic_wire_set_len(packet, end, place, all.lengthlen),
        "too long");
  memcpy(packet + begin, payload, len);
  k = initial_keys(QUIC_WIRE_VERSION_1, QUIC_WIRE_SIDE_CLIENT, id, ID);
  crypt_payload(&k, 1, all.number, packet, begin, packet + begin, len,
                packet + begin);
  make_mask(&k, quic_wire_sample(packet, end, place, SAMPLE), mask);
  check(quic_wire_protect(packet, end, place, mask) > 0, "not protected");
  return end;
}

/* Writes a packet as a UDP datagram in IPv4, as a record of the capture. */
static void write_record(unsigned connection, uint8_t *datagram, size_t len) {
  const uint32_t head[] = {connection, 0, (uint32_t)(IP + UDP + len),
                           (uint32_t)(IP + UDP + len)};
  static const uint8_t ip[IP] = {0x45, 0, 0,  0, 0, 0, 0,  0, 64, 17,
                                 0,    0, 10, 0, 0, 1, 10, 0, 0,  2};
  memcpy(datagram, ip, IP);
  two_bytes(datagram + 2, IP + UDP + len);
  two_bytes(datagram + IP, FIRST_PORT + connection);
  two_bytes(datagram + IP + 2, 443);
  two_bytes(datagram + IP + 4, UDP + len);
  two_bytes(datagram + IP + 6, 0);
  write_words(head, 4);
  check(fwrite(datagram, 1, IP + UDP + len, stdout) == IP + UDP + len,
        "can't write the capture");
}

int main(void) {
  const uint32_t head[] = {0xa1b2c3d4, 0x00040002, 0, 0, 65535, RAW_IP};
  static char line[2 * MOST + 2];
  static uint8_t payload[MOST], datagram[IP + UDP + MOST + 64];
  unsigned connection = 0, byte;
  check(quic_wire_check(QUIC_WIRE_LIB) == 0,
        "the linked library doesn't fit quic_wire.h");
  write_words(head, 6);
  while (fgets(line, sizeof line, stdin)) {
    size_t len = 0;
    while (len < MOST && sscanf(line + 2 * len, "%2x", &byte) == 1)
      payload[len++] = (uint8_t)byte;
    write_record(connection, datagram,
                 seal(connection, payload, len, datagram + IP + UDP,
                      sizeof datagram - IP - UDP));
    connection++;
  }
  return 0;
}
