/* capture FILE: prints the QUIC packets of a capture file, a line each, and the
 * frames of Initial packets.  Anyone can open these: their keys come from an id
 * that the client sends (RFC 9001, section 5.2). datagrams.h says which
 * captures are read.  A datagram is taken for QUIC if it begins with a long
 * header of version 1, 2, 0 (a version negotiation) or a reserved version (RFC
 * 9000, section 15), or if an earlier one of its flow did.  What can't be read
 * is reported after a colon.  To build it:
 *
 *   cc -o capture capture.c -IPREFIX/include PREFIX/lib/libquic_wire.a \
 *     $(pkg-config --cflags --libs libcrypto libpcap)
 */
#define _DEFAULT_SOURCE
#include <inttypes.h>
#include <search.h>
#include <stdio.h>
#include <stdlib.h>
#include <string.h>

#include "datagrams.h"
#include "initial_keys.h"
#include "quic_wire.h"

enum { MOST = 65535, ID = 20 }; /* no id of versions 1 and 2 is longer */

static const uint32_t versions[] = {QUIC_WIRE_VERSION_1, QUIC_WIRE_VERSION_2};

/* The state of a side, QUIC_WIRE_SIDE_CLIENT or QUIC_WIRE_SIDE_SERVER. */
typedef struct side {
  endpoint end;
  uint8_t has_id, idlen; /* a long header gave the length of its ids */
  uint64_t expected; /* the next packet number of its Initial packets */
} side;

/* The datagrams between two endpoints. */
typedef struct flow {
  side sides[2];
  uint8_t has_keys, idlen, id[ID]; /* the keys of Initial packets come from this id */
} flow;

/* A payload that was opened, and the first byte of its packet. */
typedef struct opened {
  uint64_t number;
  size_t len;
  uint8_t first, payload[MOST];
} opened;

static void check(int is_so, const char *what) {
  if (!is_so) {
    fflush(stdout);
    fprintf(stderr, "capture: %s\n", what);
    exit(1);
  }
}

/* Whether a datagram begins a flow of QUIC. */
static int is_first(const datagram *d) {
  const uint32_t version = d->len < 7 ? 0 : four_bytes(d->bytes + 1);
  return d->len >= 7 && d->bytes[0] & QUIC_WIRE_BIT_LONG &&
         (version == QUIC_WIRE_VERSION_1 || version == QUIC_WIRE_VERSION_2 || version == 0 ||
          (version & 0x0f0f0f0f) == 0x0a0a0a0a);
}

/* The lesser or the greater of a flow's endpoints, as bytes. */
static const endpoint *end_of(const flow *f, int is_greater) {
  const int order = memcmp(&f->sides[0].end, &f->sides[1].end, sizeof(endpoint));
  return &f->sides[(order > 0) != is_greater].end;
}

/* The order of flows, whichever side is the client. */
static int compare_flows(const void *one, const void *other) {
  const int order = memcmp(end_of(one, 0), end_of(other, 0), sizeof(endpoint));
  return order ? order : memcmp(end_of(one, 1), end_of(other, 1), sizeof(endpoint));
}

/* The flow of a datagram, a new one if it begins one, and which side sent it: the
 * client, if it is the first.  NULL if it isn't QUIC's.  Flows are in a balanced
 * tree, which no choice of addresses makes slow. */
static flow *flow_of(const datagram *d, unsigned *from) {
  static void *flows;
  flow key, *f, **found;
  key.sides[QUIC_WIRE_SIDE_CLIENT].end = d->from;
  key.sides[QUIC_WIRE_SIDE_SERVER].end = d->to;
  found = tfind(&key, &flows, compare_flows);
  if (!found && !is_first(d))
    return NULL;
  if (!found) {
    f = calloc(1, sizeof *f);
    check(f != NULL, "out of memory");
    f->sides[QUIC_WIRE_SIDE_CLIENT].end = d->from;
    f->sides[QUIC_WIRE_SIDE_SERVER].end = d->to;
    found = tsearch(f, &flows, compare_flows);
    check(found != NULL, "out of memory");
  }
  *from = memcmp(&(*found)->sides[QUIC_WIRE_SIDE_CLIENT].end, &d->from, sizeof(endpoint)) != 0;
  return *found;
}

/* Opens an Initial packet of a side with the keys from an id.  Returns NULL, or
 * why it can't be opened. */
static const char *open_by(const uint8_t *id, size_t idlen, unsigned from, uint64_t expected,
                           const uint8_t *packet, const quic_wire_header *header, opened *out) {
  static uint8_t bare[MOST];
  const keys k = initial_keys(header->version, from, id, idlen);
  const uint8_t *sample = quic_wire_sample(packet, header->end, header->header_end, SAMPLE);
  uint8_t mask[5];
  size_t begin;
  int numberlen;
  if (!sample)
    return "too short for a sample";
  make_mask(&k, sample, mask);
  numberlen = quic_wire_unprotect_copy(packet, header->end, header->header_end, mask, expected, bare,
                                       sizeof bare, &out->number);
  if (numberlen < 0)
    return quic_wire_strerror(numberlen);
  begin = header->header_end + (size_t)numberlen;
  if (out->number >> 62 || header->end - begin < TAG ||
      !crypt_payload(&k, 0, out->number, bare, begin, packet + begin, header->end - begin,
                     out->payload))
    return "the tag is wrong";
  out->first = bare[0];
  out->len = header->end - begin - TAG;
  return NULL;
}

/* Makes a packet's id the one from which the keys of its flow come. */
static void take_id(flow *f, const uint8_t *packet, const quic_wire_header *header) {
  f->has_keys = 1;
  f->idlen = header->dcidlen;
  memcpy(f->id, quic_wire_dcid(packet, header), header->dcidlen);
}

/* Opens an Initial packet with the keys of its flow, or else with those from
 * its own id.  In that case it is a client's first one, or its first one after
 * a Retry, and these become the keys of the flow.  Returns NULL, or why it
 * can't be opened. */
static const char *open_initial(flow *f, unsigned *from, const uint8_t *packet,
                                const quic_wire_header *header, opened *out) {
  const char *why = "no first Initial packet of the client";
  if (f->has_keys)
    why = open_by(f->id, f->idlen, *from, f->sides[*from].expected, packet, header, out);
  if (why && !open_by(quic_wire_dcid(packet, header), header->dcidlen, QUIC_WIRE_SIDE_CLIENT, 0, packet,
                      header, out)) {
    const side client = f->sides[*from];
    f->sides[QUIC_WIRE_SIDE_SERVER] = f->sides[!*from];
    f->sides[QUIC_WIRE_SIDE_CLIENT] = client;
    f->sides[QUIC_WIRE_SIDE_CLIENT].expected = f->sides[QUIC_WIRE_SIDE_SERVER].expected = 0;
    *from = QUIC_WIRE_SIDE_CLIENT;
    take_id(f, packet, header);
    why = NULL;
  }
  if (!why && out->number >= f->sides[*from].expected && (out->number + 1) >> 62 == 0)
    f->sides[*from].expected = out->number + 1;
  return why;
}

static void print_id(const char *name, const uint8_t *id, size_t len) {
  printf(" %s %s", name, len ? "" : "-");
  while (len--)
    printf("%02x", *id++);
}

/* A packet's line up to its packet number. */
static void print_header(const datagram *d, unsigned from, const uint8_t *packet,
                         const quic_wire_header *header) {
  static const char *const kinds[] = {"initial", "0rtt", "handshake", "retry", "short",
                                      "version-negotiation", "unknown"};
  printf("%lu %c %s", d->frame, "cs"[from], kinds[header->kind]);
  if (header->kind != QUIC_WIRE_PACKET_1RTT)
    printf(" version %08" PRIx32, header->version);
  print_id("dst", quic_wire_dcid(packet, header), header->dcidlen);
  if (header->kind != QUIC_WIRE_PACKET_1RTT)
    print_id("src", quic_wire_scid(packet, header), header->scidlen);
}

/* The ranges of an ACK, from its greatest number down, and its counts. */
static void print_ack(const uint8_t *payload, size_t len, const quic_wire_frame *frame) {
  const quic_wire_ack *ack = &frame->ack;
  quic_wire_range_iter ranges;
  quic_wire_range range;
  int answer = quic_wire_ack_ranges_init(&ranges, payload, len, frame);
  printf(" largest %" PRIu64 " delay %" PRIu64 " ranges", ack->largest, ack->delay);
  while (answer >= 0 &&
         (answer = quic_wire_ack_ranges_next(&ranges, payload, len, &range)) == QUIC_WIRE_ITEM)
    printf(" %" PRIu64 "..%" PRIu64, range.start, range.end - 1);
  if (frame->flags & QUIC_WIRE_FLAG_ECN)
    printf(" ect0 %" PRIu64 " ect1 %" PRIu64 " ce %" PRIu64, ack->ect0, ack->ect1, ack->ce);
}

/* The line of a frame of an Initial packet (RFC 9000, section 12.4). */
static void print_frame(const uint8_t *payload, size_t len, const quic_wire_frame *frame) {
  printf("  %s", quic_wire_type_name(frame->type));
  switch (frame->kind) {
  case QUIC_WIRE_FRAME_PADDING: printf(" %zu", quic_wire_padding_count(payload, len, frame)); break;
  case QUIC_WIRE_FRAME_PING: break;
  case QUIC_WIRE_FRAME_ACK: print_ack(payload, len, frame); break;
  case QUIC_WIRE_FRAME_CRYPTO:
    printf(" offset %" PRIu64 " length %zu", frame->crypto.offset, (size_t)frame->datalen);
    break;
  case QUIC_WIRE_FRAME_CONNECTION_CLOSE:
    printf(" error %" PRIx64 " frame %" PRIx64 " reason %zu", frame->close.error_code,
           frame->close.frame_type, (size_t)frame->datalen);
    break;
  default: break;
  }
  if (!(quic_wire_frame_rules(frame->kind) & QUIC_WIRE_RULE_IN(QUIC_WIRE_PACKET_INITIAL)))
    printf(": not allowed in an Initial packet");
  putchar('\n');
}

/* The lines of a payload's frames.  A run of PADDING is one line. */
static void print_frames(const uint8_t *payload, size_t len) {
  quic_wire_frame_iter frames;
  quic_wire_frame frame;
  size_t count;
  int answer = quic_wire_frames_init(&frames, payload, len, QUIC_WIRE_READ_RFC);
  while (answer >= 0 && (answer = quic_wire_frames_fill(&frames, payload, len, &frame, 1,
                                                        &count)) == QUIC_WIRE_ITEM)
    print_frame(payload, len, &frame);
  if (answer != QUIC_WIRE_OK)
    printf("  : %s\n", quic_wire_strerror(answer));
}

/* The versions that a version negotiation offers.  Returns whether all are whole. */
static int print_versions(const uint8_t *packet, const quic_wire_header *header) {
  uint32_t i = header->header_end;
  printf(" versions");
  for (; header->end - i >= 4; i += 4)
    printf(" %08" PRIx32, four_bytes(packet + i));
  return i == header->end;
}

/* The lines of a packet; |why| is what is wrong with its header, or NULL. */
static void print_packet(const datagram *d, flow *f, unsigned *from, const uint8_t *packet,
                         const quic_wire_header *header, const char *why) {
  static opened o;
  const int is_tried = !why && header->kind == QUIC_WIRE_PACKET_INITIAL;
  const int is_open = is_tried && !(why = open_initial(f, from, packet, header, &o));
  print_header(d, *from, packet, header);
  if (is_open)
    printf(" number %" PRIu64, o.number);
  printf(" length %" PRIu32, header->end);
  if (header->kind == QUIC_WIRE_PACKET_VERSION_NEGOTIATION && !print_versions(packet, header))
    why = "the last version is cut off";
  if (is_open && o.first & QUIC_WIRE_BITS_RESERVED_LONG)
    why = "reserved bits are set";
  printf("%s%s\n", why ? ": " : "", why ? why : "");
  if (is_open)
    print_frames(o.payload, o.len);
}

/* Reads the header at the front of |len| bytes.  Ids of short headers have
 * |cidlen| bytes, or an unknown number (-1).  Returns whether there is one, and
 * in |why| what is wrong with it, or why there is none. */
static int read_header(const uint8_t *packet, size_t len, int cidlen, quic_wire_header *header,
                       const char **why) {
  int64_t answer = quic_wire_negotiation_read(packet, len, header);
  *why = "the length of its id isn't known";
  if (!(packet[0] & QUIC_WIRE_BIT_LONG) && cidlen < 0)
    return 0;
  if (answer < 0)
    answer = quic_wire_header_read(packet, len, cidlen < 0 ? 0 : (uint32_t)cidlen, versions, 2,
                                   QUIC_WIRE_READ_GREASED_BIT, header);
  *why = answer < 0 ? quic_wire_strerror((int)answer) : NULL;
  if (answer == QUIC_WIRE_ERR_PACKET_VERSION)
    header->end = (uint32_t)len; /* only its version determines where such a
                                    packet ends */
  return answer > 0 || answer == QUIC_WIRE_ERR_PACKET_VERSION || answer == QUIC_WIRE_ERR_PACKET_CUT;
}

/* The packets of a datagram, which have the same id (RFC 9000, section
 * 12.2). */
static void print_datagram(const datagram *d, flow *f, unsigned from) {
  const uint8_t *packet = d->bytes, *const end = d->bytes + d->len, *id = NULL;
  int idlen = f->sides[!from].has_id ? f->sides[!from].idlen : -1;
  quic_wire_header header;
  const char *why;
  for (; packet < end; packet += header.end) {
    int is_one = read_header(packet, (size_t)(end - packet), idlen, &header, &why);
    if (is_one && id &&
        (header.dcidlen != idlen || memcmp(quic_wire_dcid(packet, &header), id, header.dcidlen))) {
      is_one = 0;
      why = "no packet with the id of the first one";
    }
    if (!is_one) {
      printf("%lu %c rest length %td: %s\n", d->frame, "cs"[from], end - packet, why);
      break;
    }
    print_packet(d, f, &from, packet, &header, why);
    id = quic_wire_dcid(packet, &header);
    idlen = header.dcidlen;
    if (header.kind <= QUIC_WIRE_PACKET_RETRY) { /* a long header, which has its
                                                    sender's id */
      f->sides[from].has_id = 1;
      f->sides[from].idlen = header.scidlen;
    }
    if (header.kind == QUIC_WIRE_PACKET_INITIAL && from == QUIC_WIRE_SIDE_CLIENT && !f->has_keys)
      take_id(f, packet, &header); /* a packet that is cut off has it too */
  }
  if (d->lost)
    printf("%lu %c rest: %zu bytes are missing\n", d->frame, "cs"[from], d->lost);
}

int main(int argc, char **argv) {
  unsigned from;
  capture c;
  datagram d;
  flow *f;
  if (argc != 2) {
    fputs("usage: capture FILE\n", stderr);
    return 2;
  }
  check(quic_wire_check(QUIC_WIRE_LIB) == 0, "the linked library doesn't fit quic_wire.h");
  c = open_capture(argv[1]);
  while (next_datagram(&c, &d))
    if ((f = flow_of(&d, &from)) != NULL)
      print_datagram(&d, f, from);
  check(fflush(stdout) == 0, "can't write to standard output");
  return 0;
}
