/* A load balancer. Datagrams, lines of hexadecimal such as send.c prints, are
 * assigned to one of a few servers by the id at their front, whatever their
 * version is (RFC 8999, section 5).  It keeps no state, allocates nothing, and
 * reads nothing behind the id.  To build and run it:
 *
 *   cc -o send send.c -IPREFIX/include PREFIX/lib/libquic_wire.a
 *   cc -o balance balance.c -IPREFIX/include PREFIX/lib/libquic_wire.a
 *   ./send | ./balance
 */
#include "paths.h"
#include "quic_wire.h"

/* The servers choose ids of four bytes, whose first one is their number. */
enum { SERVERS = 4, CIDLEN = 4 };

/* FNV-1a.  Clients choose what is hashed, and could all choose one server; a
 * keyed hash keeps them from that. */
static uint32_t hash(const uint8_t *bytes, size_t len) {
  uint32_t sum = 2166136261U;
  while (len--)
    sum = (sum ^ *bytes++) * 16777619U;
  return sum;
}

/* The server for a datagram; -1 if it ends before its id does.  An id of
 * another length is a client's own, which has at least eight bytes (RFC 9000,
 * section 7.2).  All packets with it go to the same server. */
static int server_of(const uint8_t *datagram, size_t len) {
  size_t idlen;
  const uint8_t *id = quic_wire_dcid_read(datagram, len, CIDLEN, &idlen);
  if (!id)
    return -1;
  if (idlen == CIDLEN && *id < SERVERS)
    return *id;
  return (int)(hash(id, idlen) % SERVERS);
}

int main(void) {
  static uint8_t bytes[4096];
  size_t len;
  check(quic_wire_check(QUIC_WIRE_LIB) == QUIC_WIRE_OK,
        "the linked library doesn't fit quic_wire.h");
  while ((len = read_line(stdin, bytes, sizeof bytes)) != SIZE_MAX) {
    const int server = server_of(bytes, len);
    if (server < 0)
      puts("no id");
    else
      printf("server %d\n", server);
  }
  return 0;
}
