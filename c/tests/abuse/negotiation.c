/* Version negotiations. */
#include "abuse.h"

void negotiation_nulls(void) {
  static const uint32_t one[] = {1};
  quic_wire_header header;
  uint8_t id[4] = {1, 2, 3, 4}, out[16] = {0};
  size_t n = 77;
  WANT(quic_wire_negotiation_read(NULL, 0, &header) == INVALID);
  WANT(quic_wire_negotiation_read(out, 7, NULL) == INVALID);
  WANT(quic_wire_negotiation_write(0, NULL, 1, id, 4, one, 1, out, 16, &n) ==
       INVALID);
  WANT(quic_wire_negotiation_write(0, id, 4, NULL, 1, one, 1, out, 16, &n) ==
       INVALID);
  WANT(quic_wire_negotiation_write(0, id, 4, id, 4, NULL, 1, out, 16, &n) ==
       INVALID);
  WANT(quic_wire_negotiation_write(0, id, 4, id, 4, one, 1, NULL, 16, &n) ==
       INVALID);
  WANT(quic_wire_negotiation_write(0, id, 4, id, 4, one, 1, out, 16, NULL) ==
       INVALID);
  WANT(n == 77);
  WANT(quic_wire_negotiation_write(0, id, 4, id, 4, one, 1, NULL, 0, &n) ==
           QUIC_WIRE_ERR_NOBUF &&
       n == 19);
  WANT(quic_wire_negotiation_write(0, NULL, 0, NULL, 0, NULL, 0, out, 16, &n) ==
           0 &&
       n == 7 && !memcmp(out, "\xc0\0\0\0\0\0", 7));
}

/* A version negotiation is read exactly when it is one by a plain model: whole,
 * cut off after some bytes, and with a bit inverted. Its fields are those that
 * quic_wire_header_read returns, if it returns any. */
static void negotiation_read(uint8_t *packet, size_t len, size_t cut) {
  static const uint32_t one[] = {1};
  quic_wire_header header, same;
  size_t i, dcidlen, scidlen;
  int64_t end;
  int is;
  for (i = 0; i < 3; i++) {
    const size_t whole = i == 1 ? cut : len;
    if (i == 2 && len)
      packet[any() % (any() % 2 ? 5 : len)] ^= (uint8_t)(1u << (any() % 8));
    is = whole > 5 && packet[0] >= 0x80 && !memcmp(packet + 1, "\0\0\0", 4);
    dcidlen = is ? packet[5] : 0;
    is = is && whole > 6 + dcidlen;
    scidlen = is ? packet[6 + dcidlen] : 0;
    is = is && whole >= 7 + dcidlen + scidlen;
    memset(&header, 0x5a, sizeof header);
    same = header;
    end = quic_wire_negotiation_read(packet, whole, &header);
    WANT(end == (is ? (int64_t)whole : QUIC_WIRE_ERR_KIND));
    if (!is) {
      WANT(!memcmp(&header, &same, sizeof header));
      continue;
    }
    WANT(header.kind == QUIC_WIRE_PACKET_VERSION_NEGOTIATION &&
         header.first == packet[0]);
    WANT(header.dcidlen == dcidlen && header.scidlen == scidlen);
    WANT(header.version == 0 && header.end == whole);
    WANT(header.header_end == 7 + dcidlen + scidlen);
    WANT(header.token == 0 && header.tokenlen == 0 && header.len == 0);
    end = quic_wire_header_read(packet, whole, 0, one, 1,
                                QUIC_WIRE_READ_GREASED_BIT, &same);
    if (dcidlen <= 20 && scidlen <= 20)
      WANT(end == (int64_t)whole && !memcmp(&header, &same, sizeof header));
    else
      WANT(end == QUIC_WIRE_ERR_PACKET_CID);
  }
}

/* A version negotiation as in RFC 9000, section 17.2.1. Returns its length. */
static size_t model_negotiation(uint8_t flags, uint8_t *const ids[2],
                                const size_t lens[2], const uint32_t *versions,
                                size_t n, uint8_t *model) {
  size_t at = 0, i, k;
  model[at++] = (uint8_t)(0xc0 ^ (flags & 0x7f));
  for (k = 0; k < 4; k++)
    model[at++] = 0;
  for (i = 0; i < 2; i++) {
    model[at++] = (uint8_t)lens[i];
    for (k = 0; k < lens[i]; k++)
      model[at++] = ids[i][k];
  }
  for (k = 0; k < 4 * n; k++)
    model[at++] = (uint8_t)(versions[k / 4] >> (24 - 8 * (k % 4)));
  return at;
}

/* A version negotiation is written as in RFC 9000, section 17.2.1, with ids of
 * any length, and read back. Any bytes are read as one exactly when that
 * section has one, and, with ids of at most 20 bytes, as quic_wire_header_read
 * does. */
void negotiation_any(void) {
  const uint8_t flags = (uint8_t)any();
  const size_t most = any() % 3 ? 24 : 260, n = any() % 5;
  size_t lens[2], room, want, written = 77, i, k;
  uint8_t *ids[2], *dest, model[7 + 2 * 255 + 4 * 4];
  uint32_t versions[4];
  int answer;
  for (i = 0; i < 2; i++) {
    lens[i] = any() % most;
    ids[i] = block(lens[i]);
    any_bytes(ids[i], lens[i]);
  }
  for (k = 0; k < n; k++)
    versions[k] = (uint32_t)any();
  want = 7 + lens[0] + lens[1] + 4 * n;
  room = any() % 3 ? want + any() % 8 : any() % (want + 1);
  dest = block(room);
  memset(dest, 0xa5, room);
  answer = quic_wire_negotiation_write(flags, ids[0], lens[0], ids[1], lens[1],
                                       versions, n, dest, room, &written);
  if (lens[0] > 255 || lens[1] > 255) {
    WANT(answer == QUIC_WIRE_ERR_LENGTH && written == 77);
  } else if (room < want) {
    WANT(answer == QUIC_WIRE_ERR_NOBUF && written == want);
  } else {
    WANT(answer == 0 && written == want);
    WANT(model_negotiation(flags, ids, lens, versions, n, model) == want &&
         !memcmp(dest, model, want));
    negotiation_read(dest, want, any() % (want + 1));
  }
  for (k = answer == 0 ? want : 0; k < room; k++)
    WANT(dest[k] == 0xa5);
  for (i = 0; i < 2; i++)
    free(ids[i]);
  free(dest);
}
