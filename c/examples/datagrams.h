/* The UDP datagrams of a capture file, pcap or pcapng, read with libpcap, for
 * the example capture.c.  It reads Ethernet with VLAN tags, Linux cooked
 * captures, raw IP and loopback; IPv4, and IPv6 without extension headers.  Of
 * a fragmented datagram only the first fragment is reported.  The program
 * defines check, which exits if a condition doesn't hold. */
#ifndef DATAGRAMS_H
#define DATAGRAMS_H

#include <pcap/pcap.h>
#include <stddef.h>
#include <stdint.h>
#include <string.h>

/* The source or destination of a datagram: an address followed by zeros, and a
 * port, as they are in the datagram. */
typedef struct endpoint {
  uint8_t address[16], port[2];
} endpoint;

typedef struct datagram {
  unsigned long frame; /* its number in the capture */
  endpoint from, to;
  const uint8_t *bytes;
  size_t len, lost; /* how many bytes there are, and how many the capture
                       lacks */
} datagram;

static void check(int is_so, const char *what);

static size_t two_bytes(const uint8_t *at) { return (size_t)(at[0] << 8 | at[1]); }

static uint32_t four_bytes(const uint8_t *at) {
  return (uint32_t)two_bytes(at) << 16 | (uint32_t)two_bytes(at + 2);
}

/* What precedes the IP packet in each kind of capture: |len| bytes, with an
 * EtherType at |type|, or none if that is |len|. */
typedef struct link_header {
  int link;
  size_t type, len;
} link_header;

/* Skips the link header and VLAN tags.  Returns where the IP packet begins, or
 * |len| if there is none. */
static size_t skip_link(const link_header *link, const uint8_t *bytes,
                        size_t len) {
  size_t type = link->type, end = link->len;
  if (type == end)
    return end < len ? end : len;
  while (end < len && (two_bytes(bytes + type) == 0x8100 || two_bytes(bytes + type) == 0x88a8)) {
    type = end + 2;
    end += 4;
  }
  if (end >= len || (two_bytes(bytes + type) != 0x0800 && two_bytes(bytes + type) != 0x86dd))
    return len;
  return end;
}

/* Finds the datagram in an IP packet.  Returns whether it is a UDP datagram, or
 * the first fragment of one. */
static int read_ip(const uint8_t *ip, size_t len, datagram *out) {
  const int is_4 = len >= 20 && ip[0] >> 4 == 4, is_6 = len >= 40 && ip[0] >> 4 == 6;
  const size_t header = is_4 ? (size_t)(ip[0] & 15) * 4 : 40,
               address = is_4 ? 4 : 16;
  const uint8_t *from, *udp;
  size_t udplen;
  if ((!is_4 && !is_6) || header < 20 || len < header + 8 ||
      ip[is_4 ? 9 : 6] != 17 || (is_4 && two_bytes(ip + 6) & 0x1fff))
    return 0;
  from = ip + (is_4 ? 12 : 8);
  udp = ip + header;
  len -= header;
  udplen = two_bytes(udp + 4);
  if (udplen <= 8)
    return 0;
  memset(&out->from, 0, sizeof out->from);
  memset(&out->to, 0, sizeof out->to);
  memcpy(out->from.address, from, address);
  memcpy(out->to.address, from + address, address);
  memcpy(out->from.port, udp, 2);
  memcpy(out->to.port, udp + 2, 2);
  out->bytes = udp + 8;
  out->len = (udplen < len ? udplen : len) - 8;
  out->lost = udplen > len ? udplen - len : 0;
  return 1;
}

/* A capture file that is read. */
typedef struct capture {
  pcap_t *file;
  link_header link;
  unsigned long frame; /* the number of the last packet, from 1 on */
} capture;

static capture open_capture(const char *name) {
  static const link_header headers[] = {
      {DLT_EN10MB, 12, 14}, {DLT_LINUX_SLL, 14, 16}, {DLT_LINUX_SLL2, 0, 20},
      {DLT_NULL, 4, 4},     {DLT_LOOP, 4, 4},        {DLT_RAW, 0, 0},
      {DLT_IPV4, 0, 0},     {DLT_IPV6, 0, 0}};
  const size_t count = sizeof headers / sizeof *headers;
  char why[PCAP_ERRBUF_SIZE];
  capture c = {0};
  size_t i = 0;
  c.file = pcap_open_offline(name, why);
  check(c.file != NULL, why);
  while (i < count && headers[i].link != pcap_datalink(c.file))
    i++;
  check(i < count, "unsupported link type");
  c.link = headers[i];
  return c;
}

/* Finds the next datagram.  Returns whether there is one; at the end the file
 * is closed. */
static int next_datagram(capture *c, datagram *out) {
  struct pcap_pkthdr *header;
  const uint8_t *bytes;
  int answer;
  while ((answer = pcap_next_ex(c->file, &header, &bytes)) == 1) {
    const size_t ip = skip_link(&c->link, bytes, header->caplen);
    out->frame = ++c->frame;
    if (read_ip(bytes + ip, header->caplen - ip, out))
      return 1;
  }
  check(answer == PCAP_ERROR_BREAK, pcap_geterr(c->file));
  pcap_close(c->file);
  return 0;
}

#endif /* DATAGRAMS_H */
