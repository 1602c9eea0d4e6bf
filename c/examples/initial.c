/* initial < initial.hex: opens the Initial packet of a client, a line of
 * hexadecimal, prints its frames, and seals it again, which must result in the
 * same bytes.  The ciphers are libcrypto's; the keys come from the packet's own
 * id (RFC 9001, section 5.2). initial.hex is the example of that RFC's appendix
 * A.2.  To build it:
 *
 *   cc -o initial initial.c -IPREFIX/include PREFIX/lib/libquic_wire.a \
 *     $(pkg-config --cflags --libs libcrypto)
 */
#define _POSIX_C_SOURCE 200809L
#include <inttypes.h>
#include <stdio.h>
#include <stdlib.h>
#include <string.h>

#include "initial_keys.h"
#include "quic_wire.h"

enum { MOST = 65527 };

static void check(int is_so, const char *what) {
  if (!is_so) {
    fprintf(stderr, "initial: %s\n", what);
    exit(1);
  }
}

/* Opens a packet in place.  Returns where its payload begins, and in |number|
 * its packet number. */
static size_t open_packet(const keys *k, uint8_t *packet,
                          const quic_wire_header *header, uint64_t *number) {
  const uint8_t *sample =
      quic_wire_sample(packet, header->end, header->header_end, SAMPLE);
  uint8_t mask[5];
  size_t begin;
  int numberlen;
  check(sample != NULL, "too short for a sample");
  make_mask(k, sample, mask);
  numberlen = quic_wire_unprotect(packet, header->end, header->header_end, mask,
                                  0, number);
  check(numberlen > 0, quic_wire_strerror(numberlen));
  begin = header->header_end + (size_t)numberlen;
  check(header->end - begin >= TAG &&
            crypt_payload(k, 0, *number, packet, begin, packet + begin,
                          header->end - begin, packet + begin),
        "the tag is wrong");
  return begin;
}

/* Seals a payload after a header with these fields.  Returns the length of the
 * packet. */
static size_t seal_packet(const keys *k, const quic_wire_header_fields *fields,
                          const uint8_t *dcid, size_t dcidlen,
                          const uint8_t *payload, size_t len, uint8_t *packet,
                          size_t room) {
  const int64_t headerlen = quic_wire_header_write(fields, dcid, dcidlen, NULL,
                                                   0, NULL, 0, packet, room);
  const size_t begin = (size_t)headerlen, end = begin + len + TAG;
  const size_t place = begin - fields->numberlen;
  uint8_t mask[5];
  check(headerlen > 0 && end <= room, "no room");
  memcpy(packet + begin, payload, len);
  check(quic_wire_set_len(packet, end, place, fields->lengthlen) == 0,
        "too long");
  crypt_payload(k, 1, fields->number, packet, begin, packet + begin, len,
                packet + begin);
  check(quic_wire_sample(packet, end, place, SAMPLE) != NULL, "too short");
  make_mask(k, quic_wire_sample(packet, end, place, SAMPLE), mask);
  check(quic_wire_protect(packet, end, place, mask) > 0, "not protected");
  return end;
}

/* The frames.  A run of PADDING is one line. */
static void print_frames(const uint8_t *payload, size_t len) {
  quic_wire_frame_iter frames;
  quic_wire_frame frame;
  size_t count;
  int answer = quic_wire_frames_init(&frames, payload, len, QUIC_WIRE_READ_RFC);
  while (answer >= 0 &&
         (answer = quic_wire_frames_fill(&frames, payload, len, &frame, 1,
                                         &count)) == QUIC_WIRE_ITEM)
    printf("%zu..%zu %s\n", (size_t)frame.begin, (size_t)frame.end,
           quic_wire_type_name(frame.type));
  check(answer == QUIC_WIRE_OK, quic_wire_strerror(answer));
}

/* Reads a line of hexadecimal.  Returns how many bytes it has. */
static size_t read_hex(FILE *file, uint8_t *out, size_t room) {
  size_t len = 0;
  unsigned byte;
  while (len < room && fscanf(file, "%2x", &byte) == 1)
    out[len++] = (uint8_t)byte;
  return len;
}

int main(void) {
  static const uint32_t versions[] = {QUIC_WIRE_VERSION_1};
  static uint8_t packet[MOST], given[MOST], again[MOST];
  quic_wire_header_fields fields = {0};
  quic_wire_header header;
  const uint8_t *dcid;
  const size_t len = read_hex(stdin, packet, sizeof packet);
  size_t begin, i;
  keys k;
  const int64_t end =
      quic_wire_header_read(packet, len, 0, versions, 1, QUIC_WIRE_READ_RFC,
                            &header);
  check(quic_wire_check(QUIC_WIRE_LIB) == 0,
        "the linked library doesn't fit quic_wire.h");
  check(end > 0, quic_wire_strerror((int)end));
  check(header.kind == QUIC_WIRE_PACKET_INITIAL &&
            header.scidlen + header.tokenlen == 0,
        "no Initial packet of a client's first datagram");
  memcpy(given, packet, len);
  dcid = quic_wire_dcid(given, &header);
  k = initial_keys(QUIC_WIRE_VERSION_1, QUIC_WIRE_SIDE_CLIENT, dcid,
                   header.dcidlen);

  begin = open_packet(&k, packet, &header, &fields.number);
  fields.kind = QUIC_WIRE_PACKET_INITIAL;
  fields.version = QUIC_WIRE_VERSION_1;
  fields.numberlen = (uint8_t)(begin - header.header_end);
  fields.lengthlen = 2;
  printf("initial, number %" PRIu64 ", id ", fields.number);
  for (i = 0; i < header.dcidlen; i++)
    printf("%02x", dcid[i]);
  putchar('\n');
  print_frames(packet + begin, header.end - begin - TAG);

  check(seal_packet(&k, &fields, dcid, header.dcidlen, packet + begin,
                    header.end - begin - TAG, again,
                    sizeof again) == header.end &&
            !memcmp(again, given, header.end),
        "sealing it again results in another packet");
  printf("sealed again: the same %" PRIu32 " bytes\n", header.end);
  return 0;
}
