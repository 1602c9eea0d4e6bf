/* Versions, nonces, Retry and resets. */
#include "abuse.h"

void layer_nulls(void) {
  static const uint8_t token[16] = {0}, iv[12] = {0};
  static const uint32_t one[] = {1};
  uint8_t out[64] = {0}, packet[9] = {0xc0, 0, 0, 0, 5, 1, 7, 1, 9};
  WANT(quic_wire_negotiation_answer(0, NULL, 9, one, 1, out, 64) == 0);
  WANT(quic_wire_negotiation_answer(0, packet, 9, NULL, 1, out, 64) == 0);
  WANT(quic_wire_negotiation_answer(0, packet, 9, one, 1, NULL, 64) == 0);
  WANT(quic_wire_negotiation_answer(0, packet, 9, NULL, 0, out, 64) == 0);
  WANT(quic_wire_negotiation_answer(0, packet, 9, one, 1, out, 64) == 13);
  WANT(quic_wire_version_information_write(1, NULL, 1, out, 64) == 0);
  WANT(quic_wire_version_information_write(1, one, 1, NULL, 8) == 0);
  WANT(quic_wire_version_information_write(1, NULL, 0, out, 64) == 4);
  WANT(quic_wire_version_information_read(NULL, 4) == 0);
  WANT(quic_wire_version_split(NULL, 4) == 0);
  WANT(quic_wire_version_split(NULL, 0) == 0);
  WANT(quic_wire_constant(QUIC_WIRE_VERSION_1, 0, NULL, 20) == 0);
  WANT(quic_wire_nonce(NULL, 0, out) == 0);
  WANT(quic_wire_nonce(iv, 0, NULL) == 0);
  WANT(quic_wire_retry_pseudo_write(NULL, 1, out, 16, out, 64) == 0);
  WANT(quic_wire_retry_pseudo_write(iv, 1, NULL, 16, out, 64) == 0);
  WANT(quic_wire_retry_pseudo_write(iv, 1, token, 16, NULL, 64) == 0);
  WANT(quic_wire_retry_pseudo_write(NULL, 0, token, 16, out, 64) == 1);
  WANT(quic_wire_reset_write(NULL, 5, token, out, 64) == 0);
  WANT(quic_wire_reset_write(iv, 5, NULL, out, 64) == 0);
  WANT(quic_wire_reset_write(iv, 5, token, NULL, 64) == 0);
  WANT(quic_wire_is_reset(NULL, 21, token) == 0);
  WANT(quic_wire_is_reset(out, 21, NULL) == 0);
}

/* The constants of RFC 9001, sections 5.1, 5.2, 5.8 and 6.1, and of RFC 9369,
 * section 3.3, by their lengths and first bytes. */
void layer_examples(void) {
  static const size_t lens[2][8] = {{20, 16, 12, 8, 7, 7, 7, 0},
                                    {20, 16, 12, 10, 9, 9, 9, 0}};
  static const char *const labels[2][4] = {
      {"quic key", "quic iv", "quic hp", "quic ku"},
      {"quicv2 key", "quicv2 iv", "quicv2 hp", "quicv2 ku"}};
  static const uint32_t versions[] = {QUIC_WIRE_VERSION_1, QUIC_WIRE_VERSION_2};
  static const uint8_t firsts[2][3] = {{0x38, 0xbe, 0x46}, {0x0d, 0x8f, 0xd8}};
  uint8_t out[20];
  size_t len;
  uint32_t v, which;
  for (v = 0; v < 2; v++)
    for (which = 0; which < 8; which++) {
      len = lens[v][which];
      memset(out, 0xa5, 20);
      if (len)
        WANT(quic_wire_constant(versions[v], which, out, len - 1) == 0 &&
             out[0] == 0xa5);
      WANT(quic_wire_constant(versions[v], which, out, 20) == len);
      if (which < 3)
        WANT(out[0] == firsts[v][which]);
      else if (len)
        WANT(strlen(labels[v][which - 3]) == len &&
             !memcmp(out, labels[v][which - 3], len));
      WANT(len == 20 || out[len] == 0xa5);
    }
  WANT(quic_wire_constant(2, 0, out, 20) == 0);
}

/* An answer is a negotiation with the ids exchanged. */
static void answer_any(void) {
  const size_t n = any() % 3, room = any() % 3 ? 600 : any() % 40;
  const size_t lens[2] = {any() % 24, any() % 3 ? any() % 24 : any() % 256};
  const uint8_t first = (uint8_t)any();
  uint8_t *packet = block(7 + lens[0] + lens[1]), *dest = block(room);
  size_t len = 0, i, k, answer, want;
  uint32_t versions[2];
  quic_wire_header header;
  int is = 1;
  for (k = 0; k < n; k++)
    versions[k] = any() % 8 ? (uint32_t)any() : 0;
  packet[len++] = any() % 8 ? (uint8_t)(0x80 | any()) : (uint8_t)any();
  for (k = 0; k < 4; k++)
    packet[len++] = any() % 4 ? 0 : (uint8_t)any();
  for (i = 0; i < 2; i++) {
    packet[len++] = (uint8_t)lens[i];
    any_bytes(packet + len, lens[i]);
    len += lens[i];
  }
  if (any() % 8 == 0)
    is = 0, len = any() % len;
  is = is && packet[0] >= 0x80 && memcmp(packet + 1, "\0\0\0", 4) && n;
  for (k = 0; k < n; k++)
    is = is && versions[k];
  want = 7 + lens[0] + lens[1] + 4 * n;
  memset(dest, 0xa5, room);
  answer =
      quic_wire_negotiation_answer(first, packet, len, versions, n, dest, room);
  WANT(answer == (is && want <= room ? want : 0));
  for (k = answer; k < room; k++)
    WANT(dest[k] == 0xa5);
  if (answer) {
    WANT(dest[0] == (0x80 | (first & 0x7f)));
    WANT(quic_wire_negotiation_read(dest, answer, &header) == (int64_t)answer);
    WANT(header.dcidlen == lens[1] && header.scidlen == lens[0]);
    WANT(!memcmp(dest + 6, packet + 7 + lens[0], lens[1]));
    WANT(!memcmp(dest + 7 + lens[1], packet + 6, lens[0]));
    for (k = 0; k < n; k++)
      WANT(quic_wire_version_split(dest + header.header_end + 4 * k,
                                   4 * (n - k)) == versions[k]);
  }
  free(packet);
  free(dest);
}

/* What is written of version_information is read back. */
static void information_any(void) {
  const size_t n = any() % 4, room = any() % 24, want = 4 + 4 * n;
  const uint32_t chosen = any() % 8 ? (uint32_t)any() : 0;
  uint8_t *dest = block(room);
  uint32_t versions[4];
  size_t k, len;
  int is = chosen != 0;
  for (k = 0; k < n; k++) {
    versions[k] = any() % 8 ? (uint32_t)any() : 0;
    is = is && versions[k];
  }
  memset(dest, 0xa5, room);
  len = quic_wire_version_information_write(chosen, versions, n, dest, room);
  WANT(len == (is && want <= room ? want : 0));
  for (k = len; k < room; k++)
    WANT(dest[k] == 0xa5);
  if (len) {
    WANT(quic_wire_version_information_read(dest, len) == chosen);
    for (k = 0; k < n; k++)
      WANT(quic_wire_version_split(dest + 4 + 4 * k, len - 4 - 4 * k) ==
           versions[k]);
    WANT(quic_wire_version_split(dest + len, 0) == 0);
    WANT(quic_wire_version_information_read(dest, len - 1) == 0);
    memset(dest + 4 * (any() % (n + 1)), 0, 4);
    WANT(quic_wire_version_information_read(dest, len) == 0);
  }
  free(dest);
}

/* A reset ends in its token, and no datagram is one that differs in a bit of
 * it. */
static void reset_any(void) {
  const size_t n = any() % 24, room = any() % 48, bit = any() % 128;
  uint8_t *bytes = block(n), *token = block(16), *dest = block(room);
  size_t len, k;
  any_bytes(bytes, n);
  any_bytes(token, 16);
  memset(dest, 0xa5, room);
  len = quic_wire_reset_write(bytes, n, token, dest, room);
  WANT(len == (n >= 5 && n + 16 <= room ? n + 16 : 0));
  for (k = len; k < room; k++)
    WANT(dest[k] == 0xa5);
  if (len) {
    WANT(dest[0] == (0x40 | (bytes[0] & 0x3f)));
    WANT(!memcmp(dest + 1, bytes + 1, n - 1) && !memcmp(dest + n, token, 16));
    WANT(quic_wire_is_reset(dest, len, token) == 1);
    WANT(quic_wire_is_reset(dest + len - 20, 20, token) == 0);
    dest[len - 16 + bit / 8] ^= (uint8_t)(1 << bit % 8);
    WANT(quic_wire_is_reset(dest, len, token) == 0);
  }
  free(bytes);
  free(token);
  free(dest);
}

/* A nonce, and what a Retry's tag protects, by plain models. */
static void tls_any(void) {
  const uint64_t number = edge();
  const size_t odcidlen = any() % 24, retrylen = any() % 40, room = any() % 64;
  const size_t want = 1 + odcidlen + (retrylen < 16 ? 0 : retrylen - 16);
  uint8_t *odcid = block(odcidlen), *retry = block(retrylen);
  uint8_t *dest = block(room), iv[12], nonce[12];
  size_t k, len;
  any_bytes(iv, 12);
  WANT(quic_wire_nonce(iv, number, nonce) == 1);
  for (k = 0; k < 12; k++)
    WANT(nonce[k] == (uint8_t)(iv[k] ^ (k < 4 ? 0 : number >> (8 * (11 - k)))));
  any_bytes(odcid, odcidlen);
  any_bytes(retry, retrylen);
  memset(dest, 0xa5, room);
  len = quic_wire_retry_pseudo_write(odcid, odcidlen, retry, retrylen, dest,
                                     room);
  WANT(len == (odcidlen <= 20 && retrylen >= 16 && want <= room ? want : 0));
  for (k = len; k < room; k++)
    WANT(dest[k] == 0xa5);
  if (len)
    WANT(dest[0] == odcidlen && !memcmp(dest + 1, odcid, odcidlen) &&
         !memcmp(dest + 1 + odcidlen, retry, retrylen - 16));
  free(odcid);
  free(retry);
  free(dest);
}

void layer_any(void) {
  answer_any();
  information_any();
  reset_any();
  tls_any();
}
