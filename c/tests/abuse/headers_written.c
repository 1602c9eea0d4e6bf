/* Packet headers that are written: compared with a plain model, and then read,
 * protected and opened. */
#include "abuse.h"

void headers_written_nulls(void) {
  quic_wire_header_fields fields = {QUIC_WIRE_PACKET_RETRY, 0, 0, 0, 1, 0};
  uint8_t id[4] = {1, 2, 3, 4}, out[16];
  WANT(quic_wire_header_write(NULL, id, 4, id, 4, NULL, 0, out, 16) == INVALID);
  WANT(quic_wire_header_write(&fields, NULL, 4, id, 4, NULL, 0, out, 16) ==
       INVALID);
  WANT(quic_wire_header_write(&fields, id, 4, NULL, 4, NULL, 0, out, 16) ==
       INVALID);
  WANT(quic_wire_header_write(&fields, id, 4, id, 4, NULL, 1, out, 16) == 15);
  fields.kind = QUIC_WIRE_PACKET_1RTT;
  WANT(quic_wire_header_write(&fields, id, 4, NULL, 4, NULL, 1, out, 16) ==
       QUIC_WIRE_ERR_LENGTH);
  fields.numberlen = 1;
  WANT(quic_wire_header_write(&fields, id, 4, NULL, 4, NULL, 1, out, 16) == 6);
  fields.kind = QUIC_WIRE_PACKET_INITIAL;
  fields.lengthlen = 2;
  WANT(quic_wire_header_write(&fields, id, 2, id, 2, NULL, 1, out, 16) ==
       INVALID);
  WANT(quic_wire_header_write(&fields, id, 2, id, 2, id, 1, out, 16) == 16);
  fields.kind = QUIC_WIRE_PACKET_RETRY;
  WANT(quic_wire_header_write(&fields, id, 4, id, 4, NULL, 0, NULL, 16) ==
       INVALID);
  WANT(quic_wire_header_write(&fields, NULL, 0, NULL, 0, NULL, 0, out, 6) ==
       QUIC_WIRE_ERR_NOBUF);
  WANT(quic_wire_header_write(&fields, id, 4, id, 4, NULL, 0, out, 16) == 15);
  WANT(out[0] == 0xf0 && out[4] == 1 && out[5] == 4 && out[10] == 4);
  fields.version = 0;
  WANT(quic_wire_header_write(&fields, id, 4, id, 4, NULL, 0, out, 16) ==
       QUIC_WIRE_ERR_NUMBER);
  WANT(quic_wire_header_len(NULL, 4, 4, 0) == 0);
}

/* Headers of each kind with tokens of each class of length: each is as long as
 * reported.  If there is no token of such a length, its length field has as
 * many bytes as its encoding. */
void long_tokens(void) {
  static const uint64_t lens[] = {
      0, 1, 63, 64, 16383, 16384, (1u << 30) - 1, 1u << 30, (1ull << 62) - 1};
  static uint8_t token[16384], dest[16500];
  quic_wire_header_fields fields = {0, 0, 3, 4, 1, 99};
  uint8_t id[20], bytes[8];
  size_t k, len;
  memset(id, 7, sizeof id);
  for (k = 0; k < sizeof lens / sizeof *lens; k++) {
    if (lens[k] > SIZE_MAX)
      continue;
    len = quic_wire_varint_write(lens[k], 0, bytes, 8) + 7 + 8 + 20 + 4 + 3;
    fields.kind = QUIC_WIRE_PACKET_INITIAL;
    WANT(quic_wire_header_len(&fields, 8, 20, lens[k]) == len + lens[k]);
    for (; fields.kind <= QUIC_WIRE_PACKET_VERSION_NEGOTIATION; fields.kind++) {
      if (lens[k] > sizeof token && fields.kind == QUIC_WIRE_PACKET_INITIAL)
        continue;
      len = quic_wire_header_len(&fields, 8, 20, lens[k]);
      WANT(quic_wire_header_write(&fields, id, 8, id, 20, token, lens[k], dest,
                                  len) == (int64_t)len);
      WANT(quic_wire_header_write(&fields, id, 8, id, 20, token, lens[k], dest,
                                  len - 1) == QUIC_WIRE_ERR_NOBUF);
    }
  }
}

/* The bytes of a long header up to its number, by the same model. */
static size_t model_long(const quic_wire_header_fields *h,
                         const uint8_t *const parts[3], const size_t lens[3],
                         uint8_t first, uint8_t *out) {
  const int vn = h->kind == QUIC_WIRE_PACKET_VERSION_NEGOTIATION;
  const int is_long = h->kind <= QUIC_WIRE_PACKET_HANDSHAKE;
  size_t n = 0, i, k;
  uint32_t type = (h->kind + (h->version == 0x6b3343cf ? 1u : 0)) % 4;
  out[n++] = (uint8_t)(vn ? 0xc0 ^ (h->flags & 0x7f) : first | 16 * type);
  for (k = 4; k--;)
    out[n++] = (uint8_t)(vn ? 0 : h->version >> (8 * k));
  for (i = 0; i < 2; i++) {
    out[n++] = (uint8_t)lens[i];
    for (k = 0; k < lens[i]; k++)
      out[n++] = parts[i][k];
  }
  if (h->kind == QUIC_WIRE_PACKET_INITIAL) {
    if (lens[2] >= 64)
      out[n++] = (uint8_t)(0x40 + lens[2] / 256);
    out[n++] = (uint8_t)lens[2];
    for (k = 0; k < lens[2]; k++)
      out[n++] = parts[2][k];
  }
  for (k = is_long ? h->lengthlen : 0; k--;)
    out[n++] = 0;
  return n;
}

/* Why there is no such header, or 0. */
static int64_t model_refusal(const quic_wire_header_fields *h,
                             const size_t lens[3]) {
  const int is_long = h->kind <= QUIC_WIRE_PACKET_HANDSHAKE;
  const int numbered = is_long || h->kind == QUIC_WIRE_PACKET_1RTT;
  if (h->kind > 5)
    return QUIC_WIRE_ERR_KIND;
  if ((h->kind <= QUIC_WIRE_PACKET_RETRY && h->version == 0) ||
      (numbered && h->number >> 62))
    return QUIC_WIRE_ERR_NUMBER;
  if (lens[0] > 20 || (h->kind != QUIC_WIRE_PACKET_1RTT && lens[1] > 20) ||
      (numbered && (h->numberlen < 1 || h->numberlen > 4)) ||
      (is_long && h->lengthlen != 1 && h->lengthlen != 2 && h->lengthlen != 4 &&
       h->lengthlen != 8))
    return QUIC_WIRE_ERR_LENGTH;
  return 0;
}

/* A header as in RFC 9000, section 17, and RFC 9369, by a plain model.  Returns
 * its length. */
static size_t model_header(const quic_wire_header_fields *h,
                           const uint8_t *const parts[3], const size_t lens[3],
                           uint8_t *out) {
  const int is_long = h->kind <= QUIC_WIRE_PACKET_HANDSHAKE;
  const int numbered = is_long || h->kind == QUIC_WIRE_PACKET_1RTT;
  const uint8_t fixed = (h->flags & QUIC_WIRE_CLEAR_FIXED_BIT) ^ 0x40;
  size_t n = 0, k;
  if (h->kind == QUIC_WIRE_PACKET_1RTT) {
    out[n++] = (uint8_t)(fixed | (h->flags & 0x24) | (h->numberlen - 1));
    for (k = 0; k < lens[0]; k++)
      out[n++] = parts[0][k];
  } else {
    n = model_long(h, parts, lens,
                   (uint8_t)(0x80 | fixed | (numbered ? h->numberlen - 1 : 0)),
                   out);
  }
  for (k = numbered ? h->numberlen : 0; k--;)
    out[n++] = (uint8_t)(h->number >> (8 * k));
  return n;
}

/* Applies protection to a packet, and checks that it is that of a plain model:
 * on the low bits of the first byte, and on the number.  Returns the result. */
static int header_protected(const quic_wire_header_fields *h, uint8_t *packet,
                            const uint8_t *plain, size_t whole, size_t len,
                            size_t at, const uint8_t mask[5]) {
  const int numbered =
      h->kind <= QUIC_WIRE_PACKET_HANDSHAKE || h->kind == QUIC_WIRE_PACKET_1RTT;
  size_t k;
  int answer = quic_wire_protect(packet, whole, at, mask);
  if (whole - at < 4) {
    WANT(answer == QUIC_WIRE_ERR_PACKET_SMALL && !memcmp(packet, plain, whole));
  } else if (numbered) {
    WANT(answer == h->numberlen);
    for (k = 0; k < whole; k++) {
      uint8_t m = 0;
      if (k == 0)
        m = mask[0] & (h->kind == QUIC_WIRE_PACKET_1RTT ? 0x1f : 0x0f);
      else if (k >= at && k < len)
        m = mask[1 + k - at];
      WANT(packet[k] == (plain[k] ^ m));
    }
  } else {
    memcpy(packet, plain, whole);
  }
  return answer;
}

/* A packet with a header that was written, and a body after it: its length is
 * set, it is read back as its fields, its protection is applied as in a plain
 * model, and removed again. */
static void header_cut(const quic_wire_header_fields *h,
                       const uint8_t *const parts[3], const size_t lens[3],
                       const uint8_t *written, size_t len) {
  const int is_long = h->kind <= QUIC_WIRE_PACKET_HANDSHAKE;
  const int numbered = is_long || h->kind == QUIC_WIRE_PACKET_1RTT;
  const size_t whole = len + any() % 60; /* a length of one byte has room */
  const size_t at = len - (numbered ? h->numberlen : 0);
  uint8_t *packet = block(whole), *plain = block(whole), mask[5];
  quic_wire_header header;
  uint64_t number = 0;
  int answer;
  memcpy(packet, written, len);
  any_bytes(packet + len, whole - len);
  if (is_long)
    WANT(quic_wire_set_len(packet, whole, at, h->lengthlen) == 0);
  memcpy(plain, packet, whole);
  any_bytes(mask, 5);
  answer = header_protected(h, packet, plain, whole, len, at, mask);
  WANT(quic_wire_header_read(packet, whole, (uint32_t)lens[0], &h->version, 1,
                             QUIC_WIRE_READ_GREASED_BIT,
                             &header) == (int64_t)whole);
  WANT(header.kind == h->kind && header.first == packet[0]);
  WANT(header.version == (h->kind <= QUIC_WIRE_PACKET_RETRY ? h->version : 0));
  WANT(header.dcidlen == lens[0] && header.end == whole &&
       header.header_end == at);
  WANT(h->kind == QUIC_WIRE_PACKET_1RTT || header.scidlen == lens[1]);
  WANT(!memcmp(quic_wire_dcid(packet, &header), parts[0], lens[0]));
  WANT(h->kind == QUIC_WIRE_PACKET_1RTT ||
       !memcmp(quic_wire_scid(packet, &header), parts[1], lens[1]));
  if (h->kind == QUIC_WIRE_PACKET_RETRY)
    WANT(header.tokenlen == (whole - len < 16 ? 0 : whole - len - 16));
  else
    WANT(header.tokenlen ==
         (h->kind == QUIC_WIRE_PACKET_INITIAL ? lens[2] : 0));
  WANT(header.len == (is_long ? whole - at : 0));
  if (numbered && answer > 0 && h->number >> 62 == 0) {
    WANT(quic_wire_unprotect(packet, whole, at, mask, h->number, &number) ==
         h->numberlen);
    WANT(number == h->number && !memcmp(packet, plain, whole));
  }
  free(packet);
  free(plain);
}

/* Fields that are mostly a header's, and sometimes have any values. */
static void any_fields(quic_wire_header_fields *h) {
  static const uint32_t versions[] = {1, 0x6b3343cf, 0xff00001d};
  memset(h, 0, sizeof *h);
  h->kind = (uint8_t)(any() % 60 ? any() % 6 : any());
  h->version = any() % 9   ? versions[any() % 3]
               : any() % 2 ? 0
                           : (uint32_t)any();
  h->flags = (uint8_t)(any() % 9 ? any() % 128 : any());
  h->numberlen = (uint8_t)(any() % 20 ? 1 + any() % 4 : any());
  h->lengthlen = (uint8_t)(any() % 9 ? 1u << any() % 4 : any());
  h->number = any() % 20 ? any() >> (2 + any() % 60) : edge();
}

/* Fields and parts that are mostly a header, and sometimes have any values.
 * Returns whether a header was written. */
int header_written(void) {
  quic_wire_header_fields h;
  uint8_t model[512], *parts[3], *dest;
  const uint8_t *given[3];
  size_t lens[3], room, want, index, k, i;
  int64_t answer, refusal;
  any_fields(&h);
  lens[0] = any() % 40 ? any() % 21 : 21;
  lens[1] = any() % 40 ? any() % 21 : 21;
  lens[2] = any() % 4 ? any() % 40 : any() % 300;
  for (i = 0; i < 3; i++) {
    given[i] = parts[i] = block(lens[i]);
    any_bytes(parts[i], lens[i]);
  }
  refusal = model_refusal(&h, lens);
  want = refusal ? 0 : model_header(&h, given, lens, model);
  WANT(!want || quic_wire_header_len(&h, lens[0], lens[1], lens[2]) == want);
  room = any() % 3 ? want + any() % 8 : any() % (want + 1);
  dest = block(room);
  memset(dest, 0xa5, room);
  answer = quic_wire_header_write(&h, parts[0], lens[0], parts[1], lens[1],
                                  parts[2], lens[2], dest, room);
  index = quic_wire_header_write_fault(&h, lens[0], lens[1], lens[2]);
  WANT((index == QUIC_WIRE_NO_FIELD) == (refusal == 0));
  WANT((index == 0) == (refusal == QUIC_WIRE_ERR_KIND));
  if (!want) {
    WANT(answer == refusal);
  } else if (room < want) {
    WANT(answer == QUIC_WIRE_ERR_NOBUF);
  } else {
    WANT((size_t)answer == want && !memcmp(dest, model, want));
    header_cut(&h, given, lens, dest, want);
  }
  for (k = answer > 0 ? want : 0; k < room; k++)
    WANT(dest[k] == 0xa5);
  for (i = 0; i < 3; i++)
    free(parts[i]);
  free(dest);
  return answer > 0;
}
