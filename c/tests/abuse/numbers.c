/* Varints, and packet numbers. */
#include "abuse.h"

void numbers_nulls(void) {
  uint8_t id[4] = {1, 2, 3, 4};
  uint64_t number = 77;
  WANT(quic_wire_varint_read(NULL, 1, &number) == 0 &&
       quic_wire_varint_read(id, 1, NULL) == 0);
  WANT(quic_wire_varint_write(1, 0, NULL, 1) == 0);
  WANT(quic_wire_number_read(NULL, 1, 1, &number) == INVALID &&
       quic_wire_number_read(id, 1, 1, NULL) == INVALID && number == 77);
  WANT(quic_wire_number_write(1, 1, NULL, 1) == INVALID);
}

/* Varints: each that is written is read back, in its shortest encoding for
 * width 0, and in no shorter one. */
void varint_any(void) {
  const uint64_t n = edge();
  const uint32_t width = (uint32_t)(any() % 9);
  const size_t least = varint_len(n), room = any() % 10;
  uint8_t dest[10];
  uint64_t read = 0;
  size_t len, want = width ? width : least;
  if (n >> 62 || want < least || want > room || (want & (want - 1)))
    want = 0;
  WANT(quic_wire_varint_len(n) == (n >> 62 ? 0 : least));
  len = quic_wire_varint_write(n, width, dest, room);
  WANT(len == want);
  if (len)
    WANT(quic_wire_varint_read(dest, len, &read) == len && read == n &&
         quic_wire_varint_read(dest, len - 1, &read) == 0);
}

/* The length of a packet number by a plain model, and that the number is found
 * again. */
void number_len_any(void) {
  uint64_t acked = any() % 2 ? edge() : any() >> 2;
  uint64_t number = any() % 4 ? acked + any() % (1ull << (any() % 34)) : edge();
  uint64_t twice = 2 * (number - acked);
  int answer = quic_wire_number_len(number, acked);
  if (number < acked || number - acked >= 1ull << 31)
    WANT(answer == QUIC_WIRE_ERR_NUMBER);
  else
    WANT(answer == (twice < 256        ? 1
                    : twice < 65536    ? 2
                    : twice < 16777216 ? 3
                                       : 4));
}

/* The low bytes of a packet number are written, and read back, if there is
 * room. */
void number_bytes_any(void) {
  const uint64_t number = edge();
  const uint32_t len = (uint32_t)(any() % 7);
  const size_t room = any() % 7;
  uint8_t dest[8], k;
  uint64_t written = 77;
  int want = len < 1 || len > 4 ? QUIC_WIRE_ERR_LENGTH
             : room < len       ? QUIC_WIRE_ERR_NOBUF
                                : (int)len;
  memset(dest, 0xa5, sizeof dest);
  WANT(quic_wire_number_write(number, len, dest, room) == want);
  for (k = 0; k < sizeof dest; k++)
    WANT(dest[k] == (want > 0 && k < len
                         ? (uint8_t)(number >> (8 * (len - 1 - k)))
                         : 0xa5));
  want = want == QUIC_WIRE_ERR_NOBUF ? QUIC_WIRE_ERR_PACKET_END : want;
  WANT(quic_wire_number_read(dest, room, len, &written) == want);
  WANT(written == (want > 0 ? number % (1ull << (8 * len)) : 77));
}

/* Any values are expanded as in RFC 9000, appendix A.3, without its last
 * bound. */
void number_expand_any(void) {
  const uint32_t len = (uint32_t)(any() % 6);
  const uint64_t window = 1ull << (8 * len), half = window / 2;
  const uint64_t expected = edge() >> (any() % 9 ? 2 : 0);
  const uint64_t written = any() % 9 ? edge() % window : edge();
  uint64_t number = UINT64_MAX;
  if (len >= 1 && len <= 4 && written < window && expected >> 62 == 0) {
    number = (expected & ~(window - 1)) | written;
    if (number + half <= expected)
      number += window;
    else if (number > expected + half && number >= window)
      number -= window;
  }
  WANT(quic_wire_number_expand(written, len, expected) == number);
}
