/* What quic_wire_near.h does without a call with headers and transport
 * parameters, compared with the calls. */
#include "abuse.h"
#include "quic_wire_near.h"

void near_packets_nulls(void) {
  uint8_t packet[5] = {0}, mask[5] = {0};
  uint64_t number = 77;
  quic_wire_param param;
  WANT(quic_wire_short_read_near(NULL, 5, 0) == 0 &&
       quic_wire_short_read_near(packet, 0, 0) == 0);
  WANT(quic_wire_unprotect_near(NULL, 5, 1, mask, 0, &number) == INVALID &&
       quic_wire_unprotect_near(packet, 5, 1, NULL, 0, &number) == INVALID &&
       quic_wire_unprotect_near(packet, 5, 1, mask, 0, NULL) == INVALID);
  WANT(quic_wire_param_read_near(NULL, 1, &param) == INVALID &&
       quic_wire_param_read_near(packet, 1, NULL) == INVALID &&
       quic_wire_param_read_near(NULL, 0, &param) == 0);
  WANT(quic_wire_param_read_number_near(NULL, 1, &param, &number) == INVALID &&
       quic_wire_param_read_number_near(packet, 1, NULL, &number) == INVALID &&
       quic_wire_param_read_number_near(packet, 1, &param, NULL) == INVALID &&
       quic_wire_param_read_number_near(NULL, 0, &param, &number) == 0);
  WANT(number == 77);
}

/* The packets of RFC 9001, appendices A.2 and A.5. */
void near_packets_examples(void) {
  static const uint8_t mask[] = {0x43, 0x7b, 0x9a, 0xec, 0x36};
  static const uint8_t other[] = {0xae, 0xfe, 0xfe, 0x7d, 0x03};
  uint8_t initial[] = {0xc0, 0,    0, 0, 1, 8,    0x83, 0x94, 0xc8, 0xf0, 0x3e,
                       0x51, 0x57, 8, 0, 0, 0x44, 0x9e, 0x7b, 0x9a, 0xec, 0x34};
  uint8_t packet[] = {0x4c, 0xfe, 0x41, 0x89, 0x65};
  uint64_t number = 77;
  WANT(quic_wire_unprotect_near(initial, 22, 18, mask, 0, &number) == 4 &&
       number == 2 && !memcmp(initial, "\xc3\0\0\0\1\x08", 6) &&
       !memcmp(initial + 18, "\0\0\0\2", 4));
  WANT(quic_wire_short_read_near(packet, 5, 0) == 1);
  WANT(quic_wire_unprotect_near(packet, 5, 1, other, 654360564, &number) == 3 &&
       number == 654360564 && !memcmp(packet, "\x42\0\xbf\xf4\x65", 5));
}

/* The protection of any bytes is removed alike, and numbers are expanded
 * alike, also from 0. */
static void near_protection(const uint8_t *bytes, size_t len, size_t at,
                            uint64_t expected) {
  uint8_t *called = block(len), *near = block(len), *mask = block(5);
  uint64_t number = 77, same = 77;
  any_bytes(mask, 5);
  memcpy(called, bytes, len);
  memcpy(near, bytes, len);
  WANT(quic_wire_unprotect_near(near, len, at, mask, expected, &same) ==
       quic_wire_unprotect(called, len, at, mask, expected, &number));
  WANT(number == same && !memcmp(called, near, len));
  memcpy(near, bytes, len);
  memcpy(called, bytes, len);
  WANT(quic_wire_unprotect_near(near, len, at, mask, 0, &same) ==
       quic_wire_unprotect(called, len, at, mask, 0, &number));
  WANT(number == same && !memcmp(called, near, len));
  free(called);
  free(near);
  free(mask);
}

void near_packets(const uint8_t *bytes, size_t len) {
  const uint32_t cidlen = any() % 9 ? (uint32_t)(any() % 22) : (uint32_t)edge();
  const uint64_t expected = any() % 2 ? edge() >> 2 : edge();
  WANT(quic_wire_short_read_near(bytes, len, cidlen) ==
       quic_wire_short_read(bytes, len, cidlen));
  near_protection(bytes, len, place(), expected);
  if (len > 4)
    near_protection(bytes, len, 1 + any() % (len - 4), expected);
}

/* Any bytes, and those of an entry that is whole: its value is often an
 * integer. */
static size_t any_entry(const uint8_t *bytes, size_t len, uint8_t *list) {
  const size_t valuelen = any() % 10;
  size_t at;
  if (any() % 2) {
    memcpy(list, bytes, len);
    return len;
  }
  at = quic_wire_varint_write(edge() >> 2, 0, list, 8);
  at += quic_wire_varint_write(valuelen, any() % 4 ? 0 : 8, list + at, 8);
  any_bytes(list + at, valuelen + 1);
  if (any() % 4 && valuelen)
    list[at] = (uint8_t)(list[at] % 64 + (valuelen == 1   ? 0
                                          : valuelen == 2 ? 64
                                          : valuelen == 4 ? 128
                                                          : 192));
  return at + valuelen + any() % 2 - any() % 2;
}

int near_params(const uint8_t *bytes, size_t len) {
  uint8_t made[48];
  const size_t listlen = any_entry(bytes, len, made);
  uint8_t *list = block(listlen);
  quic_wire_param called, near;
  uint64_t value = 77, same = 77;
  int64_t end;
  memcpy(list, made, listlen);
  memset(&called, 0xa5, sizeof called);
  near = called;
  end = quic_wire_param_read(list, listlen, &called);
  WANT(quic_wire_param_read_near(list, listlen, &near) == end);
  WANT(!memcmp(&called, &near, sizeof near));
  memset(&called, 0xa5, sizeof called);
  near = called;
  WANT(quic_wire_param_read_number_near(list, listlen, &near, &same) ==
       quic_wire_param_read_number(list, listlen, &called, &value));
  WANT(!memcmp(&called, &near, sizeof near) && value == same);
  free(list);
  return end > 0;
}
