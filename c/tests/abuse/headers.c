/* Packet headers that are read, and their protection. */
#include "abuse.h"

static void protection_nulls(void) {
  uint8_t id[4] = {1, 2, 3, 4}, out[16];
  uint64_t number = 77;
  WANT(quic_wire_unprotect(NULL, 4, 0, id, 0, &number) == INVALID);
  WANT(quic_wire_unprotect(out, 4, 0, NULL, 0, &number) == INVALID);
  WANT(quic_wire_unprotect(out, 4, 0, id, 0, NULL) == INVALID);
  WANT(quic_wire_unprotect_copy(NULL, 4, 0, id, 0, out, 16, &number) ==
       INVALID);
  WANT(quic_wire_unprotect_copy(id, 4, 0, NULL, 0, out, 16, &number) ==
       INVALID);
  WANT(quic_wire_unprotect_copy(id, 4, 0, id, 0, NULL, 16, &number) == INVALID);
  WANT(quic_wire_unprotect_copy(id, 4, 0, id, 0, out, 16, NULL) == INVALID);
  WANT(quic_wire_protect(NULL, 4, 0, id) == INVALID);
  WANT(quic_wire_protect(out, 4, 0, NULL) == INVALID);
  WANT(quic_wire_set_len(NULL, 4, 2, 2) == INVALID && number == 77);
}

void headers_nulls(void) {
  static const uint32_t one[] = {1};
  quic_wire_header header;
  uint8_t id[4] = {1, 2, 3, 4};
  size_t dcidlen = 77;
  WANT(quic_wire_header_read(NULL, 1, 0, one, 1, 0, &header) == INVALID);
  WANT(quic_wire_header_read(id, 4, 0, NULL, 1, 0, &header) == INVALID);
  WANT(quic_wire_header_read(id, 4, 0, one, 1, 0, NULL) == INVALID);
  WANT(quic_wire_header_read(id, 4, 21, one, 1, 0, &header) ==
       QUIC_WIRE_ERR_LENGTH);
  WANT(quic_wire_header_read(id, 0, 0, NULL, 0, 0, &header) ==
       QUIC_WIRE_ERR_PACKET_END);
  WANT(!quic_wire_dcid_read(NULL, 4, 0, &dcidlen) && dcidlen == 77);
  WANT(!quic_wire_dcid_read(id, 4, 0, NULL));
  WANT(!quic_wire_dcid_read(id, 0, 0, &dcidlen) && dcidlen == 77);
  WANT(!quic_wire_dcid(NULL, &header) && !quic_wire_dcid(id, NULL));
  WANT(!quic_wire_scid(NULL, &header) && !quic_wire_scid(id, NULL));
  WANT(!quic_wire_sample(NULL, 40, 0, 16) && !quic_wire_sample(id, 4, 5, 0));
  WANT(quic_wire_short_read(NULL, 5, 4) == 0);
  protection_nulls();
}

/* Lengths of each width, on both sides of 2^6 and of 2^14. */
void long_lengths(void) {
  static uint8_t packet[(1 << 14) + 4];
  WANT(quic_wire_set_len(packet, sizeof packet, 4, 2) == QUIC_WIRE_ERR_LENGTH);
  WANT(quic_wire_set_len(packet, sizeof packet - 1, 4, 2) == 0);
  WANT(!memcmp(packet, "\0\0\x7f\xff", 5));
  WANT(quic_wire_set_len(packet, sizeof packet, 4, 4) == 0);
  WANT(!memcmp(packet, "\x80\0\x40\0", 5));
  WANT(quic_wire_set_len(packet, sizeof packet, 8, 8) == 0);
  WANT(!memcmp(packet, "\xc0\0\0\0\0\0\x3f\xfc", 8));
  WANT(quic_wire_set_len(packet, 68, 4, 1) == QUIC_WIRE_ERR_LENGTH);
  WANT(quic_wire_set_len(packet, 67, 4, 1) == 0 && packet[3] == 63);
}

/* The offsets that were returned for a packet are within it. */
static void header_within(const uint8_t *packet, size_t left,
                          const quic_wire_header *header) {
  const uint8_t *sample;
  WANT(header->header_end && header->header_end <= header->end &&
       header->end <= left);
  WANT(quic_wire_dcid(packet, header) + header->dcidlen <=
       packet + header->header_end);
  WANT(header->kind == QUIC_WIRE_PACKET_1RTT ||
       quic_wire_scid(packet, header) + header->scidlen <=
           packet + header->header_end);
  if (header->kind == QUIC_WIRE_PACKET_RETRY)
    WANT(header->tokenlen == 0 ||
         (header->token == header->header_end &&
          header->token + header->tokenlen + 16 == header->end));
  else
    WANT(header->token + header->tokenlen <= header->header_end);
  sample = quic_wire_sample(packet, header->end, header->header_end, 16);
  WANT(header->end - header->header_end < 20
           ? !sample
           : sample == packet + header->header_end + 4);
}

/* Whether the fixed bit is clear although the flags require it. */
static int lacks_fixed_bit(const uint8_t *packet, size_t len, uint32_t flags) {
  if (packet[0] & QUIC_WIRE_BIT_FIXED || flags & QUIC_WIRE_READ_GREASED_BIT)
    return 0;
  return !(flags & QUIC_WIRE_READ_ANY_VERSION) ||
         !(packet[0] & QUIC_WIRE_BIT_LONG) ||
         (len >= 5 && (!memcmp(packet + 1, "\0\0\0\1", 4) ||
                       !memcmp(packet + 1, "\x6b\x33\x43\xcf", 4)));
}

/* Any flags change the result as the C header says, given the fields and the
 * result without any check; and quic_wire_dcid_read finds the header's receiver
 * id. */
static void flags_any(const uint8_t *packet, size_t len, uint32_t cidlen,
                      const uint32_t *versions, int64_t end,
                      const quic_wire_header *header) {
  const uint32_t flags = (uint32_t)any();
  const int is_read = end > 0 || end == QUIC_WIRE_ERR_PACKET_CUT ||
                      end == QUIC_WIRE_ERR_PACKET_VERSION;
  const uint8_t *dcid;
  quic_wire_header same, before;
  size_t dcidlen = 77;
  memset(&before, 0x5a, sizeof before);
  same = before;
  if (cidlen > 20)
    return;
  if (lacks_fixed_bit(packet, len, flags))
    end = QUIC_WIRE_ERR_PACKET_FIXED_BIT;
  else if (end > 0 && flags & QUIC_WIRE_READ_WHOLE_RETRY &&
           header->kind == QUIC_WIRE_PACKET_RETRY &&
           header->end - header->header_end < 17)
    end = QUIC_WIRE_ERR_PACKET_RETRY;
  WANT(quic_wire_header_read(packet, len, cidlen, versions, 2, flags, &same) ==
       end);
  WANT(!memcmp(&same,
               end > 0 || end == QUIC_WIRE_ERR_PACKET_CUT ||
                       end == QUIC_WIRE_ERR_PACKET_VERSION
                   ? header
                   : &before,
               sizeof same));
  dcid = quic_wire_dcid_read(packet, len, cidlen, &dcidlen);
  WANT(dcid ? dcidlen <= (size_t)(packet + len - dcid) : dcidlen == 77);
  if (is_read)
    WANT(dcid == quic_wire_dcid(packet, header) && dcidlen == header->dcidlen);
}

/* Reads any bytes as packets, and removes the protection of any of them: in
 * place, and in a copy of the header. */
void packet_rubbish(uint8_t *datagram, size_t len) {
  static const uint32_t versions[] = {1, 0x6b3343cf};
  uint8_t mask[5], copy[40];
  quic_wire_header header;
  uint64_t number = 0, expected = edge() >> 2, again = 0;
  size_t begin = 0, at;
  uint32_t cidlen = (uint32_t)(any() % 22);
  int64_t end;
  int answer = 0;
  if (len > 4 && any() % 2) { /* a version that is known */
    memcpy(datagram + 1, any() % 2 ? "\0\0\0\1" : "\x6b\x33\x43\xcf", 4);
    datagram[0] |= 0xc0;
  }
  any_bytes(mask, 5);
  for (; begin < len; begin += header.end) {
    uint8_t *packet = datagram + begin;
    end = quic_wire_header_read(packet, len - begin, cidlen, versions, 2,
                                QUIC_WIRE_READ_GREASED_BIT, &header);
    flags_any(packet, len - begin, cidlen, versions, end, &header);
    if (cidlen > 20)
      WANT(end == QUIC_WIRE_ERR_LENGTH);
    WANT(quic_wire_short_read(packet, len - begin, cidlen) ==
         (end > 0 && header.kind == QUIC_WIRE_PACKET_1RTT ? header.header_end
                                                          : 0));
    if (end <= 0 && end != QUIC_WIRE_ERR_PACKET_CUT)
      break;
    WANT(end < 0 || (size_t)end == header.end);
    header_within(packet, len - begin, &header);
    answer =
        quic_wire_unprotect_copy(packet, header.end, header.header_end, mask,
                                 expected, copy, sizeof copy, &again);
    WANT(answer == quic_wire_unprotect(packet, header.end, header.header_end,
                                       mask, expected, &number));
    WANT(answer >= 1 ? answer <= 4 && number == again
                     : answer == QUIC_WIRE_ERR_NUMBER ||
                           answer == QUIC_WIRE_ERR_PACKET_SMALL);
  }
  at = place();
  answer = quic_wire_unprotect(datagram, len, at, mask, edge(), &number);
  WANT(answer == QUIC_WIRE_ERR_NUMBER ||
       (answer >= 1 ? at + 4 <= len : answer == QUIC_WIRE_ERR_PACKET_SMALL));
}

/* Any offset to apply protection at. */
void protect_rubbish(uint8_t *datagram, size_t len) {
  const size_t at = place();
  uint8_t before[40], mask[5];
  size_t k;
  int answer;
  any_bytes(mask, 5);
  memcpy(before, datagram, len);
  answer = quic_wire_protect(datagram, len, at, mask);
  WANT(answer == QUIC_WIRE_ERR_PACKET_SMALL ||
       (answer >= 1 && answer <= 4 && at + 4 <= len));
  for (k = 0; k < len; k++)
    WANT(datagram[k] == before[k] ||
         (answer > 0 && (k == 0 || (k >= at && k < at + 4))));
}

/* The protection of any bytes is removed in a copy if that has room: the result
 * and the copy are those of removing it in place, and nothing changes after an
 * error. */
static void opened_apart(const uint8_t *packet, size_t len, size_t at) {
  const size_t headerlen = any() % 40;
  const uint64_t expected = any() % 2 ? edge() : any() >> 34;
  uint8_t before[40], header[40], copy[40], mask[5];
  uint64_t number = 77, again = 77;
  size_t begin = 0;
  int answer;
  any_bytes(mask, 5);
  memcpy(before, packet, len);
  memset(header, 0xa5, sizeof header);
  answer = quic_wire_unprotect_copy(packet, len, at, mask, expected, header,
                                    headerlen, &number);
  memcpy(copy, packet, len);
  if (answer == QUIC_WIRE_ERR_NOBUF) {
    WANT(headerlen < at + 4 && at && at + 4 <= len && expected >> 62 == 0);
  } else {
    WANT(quic_wire_unprotect(copy, len, at, mask, expected, &again) == answer);
    begin = answer > 0 ? at + 4 : 0;
    WANT(begin <= headerlen && !memcmp(header, copy, begin));
  }
  for (; begin < sizeof header; begin++)
    WANT(header[begin] == 0xa5);
  WANT(number == again && (answer > 0 || number == 77));
  WANT(!memcmp(packet, before, len));
}

/* Protection is removed in a copy, and a length is set if it fits. */
void place_any(uint8_t *packet, size_t len) {
  const size_t at = place();
  const uint32_t lengthlen = (uint32_t)(any() % 10);
  uint8_t before[40];
  uint64_t number = 77;
  int answer;
  memcpy(before, packet, len);
  opened_apart(packet, len, at);
  answer = quic_wire_set_len(packet, len, at, lengthlen);
  if ((lengthlen == 1 || lengthlen == 2 || lengthlen == 4 || lengthlen == 8) &&
      lengthlen <= at && at <= len) {
    WANT(answer == 0);
    WANT(quic_wire_varint_read(packet + at - lengthlen, lengthlen, &number) ==
             lengthlen &&
         number == len - at);
    memcpy(packet + at - lengthlen, before + at - lengthlen, lengthlen);
  } else {
    WANT(answer == QUIC_WIRE_ERR_LENGTH);
  }
  WANT(!memcmp(packet, before, len));
}
