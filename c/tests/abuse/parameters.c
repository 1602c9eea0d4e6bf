/* Transport parameters: read, written, and with further entries. */
#include "abuse.h"

/* What flags accept, and where a list is rejected. */
static void params_flags(void) {
  static const struct {
    uint8_t list[9];
    size_t len;
    uint32_t flags;
    int answer;
    uint64_t id;
    size_t offset;
  } rows[] = {
      /* max_idle_timeout in two bytes (RFC 9000, section 16) */
      {{4, 1, 9, 1, 2, 0x40, 9}, 7, 0, QUIC_WIRE_ERR_PARAMS_MALFORMED, 1, 3},
      {{4, 1, 9, 1, 2, 0x40, 9}, 7, ~QUIC_WIRE_READ_ANY_WIDTH,
       QUIC_WIRE_ERR_PARAMS_MALFORMED, 1, 3},
      {{4, 1, 9, 1, 2, 0x40, 9}, 7, QUIC_WIRE_READ_ANY_WIDTH, 0, 99, 99},
      /* grease_quic_bit twice (section 7.4) */
      {{0x6a, 0xb2, 0, 0x6a, 0xb2, 0}, 6, ~QUIC_WIRE_READ_NO_REPEATS, 0, 99,
       99},
      {{0x6a, 0xb2, 0, 0x6a, 0xb2, 0}, 6, QUIC_WIRE_READ_NO_REPEATS,
       QUIC_WIRE_ERR_PARAMS_MALFORMED, 0x2ab2, 3},
      /* an ack_delay_exponent of 21, before another entry */
      {{4, 1, 9, 10, 1, 21, 1, 1, 9}, 9, 0, QUIC_WIRE_ERR_PARAMS_ILLEGAL, 10, 3},
      /* the list ends within a number */
      {{4, 1, 9, 0x40}, 4, 0, QUIC_WIRE_ERR_PARAMS_MALFORMED,
       QUIC_WIRE_NO_PARAM, 3}};
  size_t i;
  for (i = 0; i < sizeof rows / sizeof *rows; i++) {
    quic_wire_params params;
    quic_wire_refusal refusal = {99, 99};
    WANT(quic_wire_params_read(QUIC_WIRE_SIDE_CLIENT, rows[i].flags,
                               rows[i].list, rows[i].len, &params,
                               sizeof params, &refusal) == rows[i].answer);
    WANT(refusal.id == rows[i].id && refusal.offset == rows[i].offset);
    WANT(quic_wire_params_read(QUIC_WIRE_SIDE_CLIENT, rows[i].flags,
                               rows[i].list, rows[i].len, &params,
                               sizeof params, NULL) == rows[i].answer);
  }
}

/* Single entries: up to the value, of numbers, of numbers in any encoding. */
static void params_single(void) {
  static const uint8_t wide[] = {0x40, 4, 2, 0x40, 9, 7};
  uint8_t out[16];
  quic_wire_param entry = {0, 0, 0};
  uint64_t number = 0;
  size_t n = 77;
  WANT(quic_wire_param_header_write(0x2ab2, 64, out, 4, &n) == 0 && n == 4 &&
       !memcmp(out, "\x6a\xb2\x40\x40", 4));
  WANT(quic_wire_param_header_write(0x2ab2, 64, out, 3, &n) ==
           QUIC_WIRE_ERR_NOBUF && n == 4);
  WANT(quic_wire_param_header_write(1, 0, NULL, 1, &n) == INVALID);
  WANT(quic_wire_param_header_write(1, 0, out, 2, NULL) == INVALID);
  WANT(quic_wire_param_header_write((uint64_t)1 << 62, 0, out, 2, &n) ==
       QUIC_WIRE_ERR_NUMBER);
  WANT(quic_wire_param_write_number(4, 16383, out, 4, &n) == 0 && n == 4 &&
       !memcmp(out, "\x04\x02\x7f\xff", 4));
  WANT(quic_wire_param_write_number(4, 16383, NULL, 0, &n) ==
           QUIC_WIRE_ERR_NOBUF && n == 4);
  WANT(quic_wire_param_write_number(4, (uint64_t)1 << 62, out, 16, &n) ==
       QUIC_WIRE_ERR_NUMBER);
  WANT(quic_wire_param_write_number((uint64_t)1 << 62, 4, out, 16, &n) ==
       QUIC_WIRE_ERR_NUMBER);
  WANT(quic_wire_param_write_number(4, 4, out, 16, NULL) == INVALID && n == 4);
  WANT(quic_wire_param_read_number(wide, 6, &entry, &number) == 5 &&
       entry.id == 4 && entry.value == 3 && entry.valuelen == 2 && number == 9);
  WANT(quic_wire_param_read_number(wide, 4, &entry, &number) ==
       QUIC_WIRE_ERR_PARAMS_MALFORMED);
  WANT(quic_wire_param_read_number(wide, 0, &entry, &number) == 0);
  WANT(quic_wire_param_read_number((const uint8_t *)"\x04\x02\x09\x09", 4,
                                   &entry, &number) ==
           QUIC_WIRE_ERR_PARAMS_MALFORMED && number == 9 && entry.id == 4);
  WANT(quic_wire_param_read_number(NULL, 1, &entry, &number) == INVALID);
  WANT(quic_wire_param_read_number(wide, 6, NULL, &number) == INVALID);
  WANT(quic_wire_param_read_number(wide, 6, &entry, NULL) == INVALID);
}

/* The value of a preferred address: 127.0.0.1:443, an id of two bytes. */
static void params_address(void) {
  uint8_t value[43] = {127, 0, 0, 1, 1, 0xbb}, out[43];
  quic_wire_params params;
  size_t n = 77, size = sizeof params;
  value[24] = 2;
  value[25] = value[26] = 5;
  memset(value + 27, 9, 16);
  WANT(quic_wire_preferred_address_read(value, 43, &params, size) == 0);
  WANT(params.present == (QUIC_WIRE_HAS_PREFERRED_ADDRESS |
                          QUIC_WIRE_HAS_PREFERRED_V4) &&
       params.preferred_v4_port == 443 && params.preferred_cidlen == 2 &&
       params.max_ack_delay == 25);
  WANT(quic_wire_preferred_address_write(&params, size, out, 43, &n) == 0 &&
       n == 43 && !memcmp(out, value, 43));
  WANT(quic_wire_preferred_address_write(&params, size, out, 42, &n) ==
           QUIC_WIRE_ERR_NOBUF && n == 43);
  WANT(quic_wire_preferred_address_write(&params, size, NULL, 1, &n) ==
       INVALID);
  WANT(quic_wire_preferred_address_write(&params, size, out, 43, NULL) ==
       INVALID);
  WANT(quic_wire_preferred_address_write(NULL, size, out, 43, &n) == INVALID);
  WANT(quic_wire_preferred_address_write(&params, size + 8, out, 43, &n) ==
       QUIC_WIRE_ERR_LENGTH);
  params.preferred_cidlen = 0;
  WANT(quic_wire_preferred_address_write(&params, size, out, 43, &n) ==
       QUIC_WIRE_ERR_PARAM);
  WANT(quic_wire_params_read(QUIC_WIRE_SIDE_CLIENT, 0, NULL, 0, &params, size,
                             NULL) == 0);
  WANT(quic_wire_preferred_address_write(&params, size, out, 43, &n) ==
       QUIC_WIRE_ERR_PARAM);
  WANT(quic_wire_preferred_address_read(value, 42, &params, size) ==
       QUIC_WIRE_ERR_PARAMS_MALFORMED);
  WANT(quic_wire_preferred_address_read(NULL, 1, &params, size) == INVALID);
  WANT(quic_wire_preferred_address_read(value, 43, NULL, size) == INVALID);
  WANT(quic_wire_preferred_address_read(value, 43, &params, 8) ==
       QUIC_WIRE_ERR_LENGTH);
  value[0] = value[3] = value[4] = value[5] = 0;
  WANT(quic_wire_preferred_address_read(value, 43, &params, size) ==
       QUIC_WIRE_ERR_PARAMS_ILLEGAL);
}

void params_nulls(void) {
  quic_wire_params params;
  uint8_t byte = 0, out[8];
  size_t n = 77;
  WANT(quic_wire_params_read(QUIC_WIRE_SIDE_CLIENT, 0, NULL, 1, &params,
                             sizeof params, NULL) == INVALID);
  WANT(quic_wire_params_read(QUIC_WIRE_SIDE_CLIENT, 0, &byte, 1, NULL,
                             sizeof params, NULL) == INVALID);
  WANT(quic_wire_params_read(2, 0, &byte, 1, &params, sizeof params, NULL) ==
       QUIC_WIRE_ERR_KIND);
  WANT(quic_wire_params_read(QUIC_WIRE_SIDE_SERVER, 0, NULL, 0, &params,
                             sizeof params, NULL) == 0);
  WANT(params.max_ack_delay == 25 && params.present == 0);
  memset(&params, 0x55, sizeof params);
  WANT(quic_wire_params_default(NULL, sizeof params) == INVALID);
  WANT(quic_wire_params_default(&params, sizeof params - 1) ==
       QUIC_WIRE_ERR_LENGTH);
  WANT(params.max_ack_delay == 0x5555555555555555);
  WANT(quic_wire_params_default(&params, sizeof params) == 0);
  WANT(params.max_udp_payload_size == 65527 && params.max_ack_delay == 25);
  WANT(params.ack_delay_exponent == 3 && params.present == 0);
  WANT(params.active_connection_id_limit == 2 && params.initial_max_data == 0);
  WANT(quic_wire_params_write(QUIC_WIRE_SIDE_CLIENT, NULL, sizeof params, out,
                              8, &n) == INVALID);
  WANT(quic_wire_params_write(QUIC_WIRE_SIDE_CLIENT, &params, sizeof params,
                              NULL, 8, &n) == INVALID);
  WANT(quic_wire_params_write(QUIC_WIRE_SIDE_CLIENT, &params, sizeof params,
                              out, 8, NULL) == INVALID);
  WANT(quic_wire_params_write(2, &params, sizeof params, out, 8, &n) ==
           QUIC_WIRE_ERR_KIND &&
       n == 77);
  WANT(quic_wire_params_write(QUIC_WIRE_SIDE_CLIENT, &params, sizeof params,
                              NULL, 0, &n) == 0 &&
       n == 0);
  params.max_ack_delay = 26;
  WANT(quic_wire_params_write(QUIC_WIRE_SIDE_CLIENT, &params, sizeof params,
                              NULL, 0, &n) == QUIC_WIRE_ERR_NOBUF &&
       n == 3);
  params_flags();
  params_single();
  params_address();
  WANT(quic_wire_params_read(QUIC_WIRE_SIDE_CLIENT, 0, &byte, 0, &params,
                             sizeof params - 1, NULL) == QUIC_WIRE_ERR_LENGTH);
  n = 77;
  WANT(quic_wire_params_write(QUIC_WIRE_SIDE_CLIENT, &params, sizeof params + 8,
                              out, 8, &n) == QUIC_WIRE_ERR_LENGTH);
  WANT(quic_wire_params_write_with(QUIC_WIRE_SIDE_CLIENT, &params, 0, NULL, 0,
                                   NULL, 0, out, 8,
                                   &n) == QUIC_WIRE_ERR_LENGTH);
  WANT(n == 77);
}

/* max_idle_timeout 5 and initial_max_data 9, the versions of RFC 9368, and the
 * reserved parameter 27 + 7 * 31 = 244, by RFC 9000, section 18. */
static const uint8_t in_order[] = {1, 1, 5, 4, 1,    9,   0x11, 4,
                                   0, 0, 0, 1, 0x40, 244, 0};

/* A client's parameters, and further entries with the order of them all. */
struct further {
  quic_wire_params params;
  uint8_t entries[16], order[QUIC_WIRE_PARAM_ROWS + 2];
  size_t len;
};

/* The first two of the list in the struct, the other two as entries, and an
 * order of all. */
static void further_made(struct further *f) {
  static const uint8_t versions[] = {0, 0, 0, 1};
  size_t n = 0, m = 0;
  uint8_t k;
  WANT(quic_wire_params_read(QUIC_WIRE_SIDE_SERVER, 0, NULL, 0, &f->params,
                             sizeof f->params, NULL) == 0);
  f->params.max_idle_timeout = 5;
  f->params.initial_max_data = 9;
  WANT(quic_wire_param_write(QUIC_WIRE_PARAM_VERSION_INFORMATION, versions, 4,
                             f->entries, sizeof f->entries, &n) == 0 &&
       n == 6);
  WANT(quic_wire_param_write(QUIC_WIRE_PARAM_RESERVED(7), NULL, 0,
                             f->entries + n, 2, &m) == QUIC_WIRE_ERR_NOBUF &&
       m == 3);
  WANT(quic_wire_param_write(QUIC_WIRE_PARAM_RESERVED(7), NULL, 0,
                             f->entries + n, 3, &m) == 0 &&
       m == 3);
  f->len = n + m;
  for (k = 0; k < sizeof f->order; k++)
    f->order[k] = (uint8_t)(sizeof f->order - 1 - k);
  f->order[1] = 2, f->order[20] = 21; /* 22 2 20 .. 3 21 1 0 */
}

/* The entries after and among those of the struct. */
static void further_written(const struct further *f) {
  static const uint8_t turned[] = {0x40, 244, 0, 4, 1, 9, 0x11, 4,
                                   0,    0,   0, 1, 1, 1, 5};
  const uint32_t side = QUIC_WIRE_SIDE_CLIENT;
  quic_wire_params got;
  uint8_t out[32];
  size_t m = 0, w = 77;
  WANT(quic_wire_params_write_with(side, &f->params, sizeof f->params,
                                   f->entries, f->len, NULL, 0, out, sizeof out,
                                   &w) == 0);
  WANT(w == sizeof in_order && !memcmp(out, in_order, w));
  WANT(quic_wire_params_write_with(side, &f->params, sizeof f->params,
                                   f->entries, f->len, f->order,
                                   sizeof f->order, out, sizeof out, &w) == 0);
  WANT(w == sizeof turned && !memcmp(out, turned, w));
  WANT(quic_wire_params_read(QUIC_WIRE_SIDE_SERVER, 0, out, w, &got,
                             sizeof got, NULL) == 0);
  WANT(!memcmp(&got, &f->params, sizeof got));
  WANT(quic_wire_params_write_with(
           side, &f->params, sizeof f->params, f->entries, f->len, f->order,
           sizeof f->order, out, w - 1, &m) == QUIC_WIRE_ERR_NOBUF &&
       m == w);
}

/* Orders and entries that are rejected. */
static void further_refused(struct further *f) {
  const uint32_t side = QUIC_WIRE_SIDE_CLIENT;
  const quic_wire_params *params = &f->params;
  const uint8_t *further = f->entries;
  uint8_t out[32];
  size_t n = f->len, m = 77;
  WANT(quic_wire_params_write_with(side, params, sizeof *params, further, n,
                                   f->order, sizeof f->order - 1, out, 32,
                                   &m) == QUIC_WIRE_ERR_PARAM);
  f->order[0] = 21;
  WANT(quic_wire_params_write_with(side, params, sizeof *params, further, n,
                                   f->order, sizeof f->order, out, 32,
                                   &m) == QUIC_WIRE_ERR_PARAM);
  WANT(quic_wire_params_write_with(side, params, sizeof *params, in_order, 3,
                                   NULL, 0, out, 32, &m) ==
       QUIC_WIRE_ERR_PARAM); /* one that it has */
  memcpy(out, further, 6), memcpy(out + 6, further, 6);
  WANT(quic_wire_params_write_with(side, params, sizeof *params, out, 12, NULL,
                                   0, out + 12, 20,
                                   &m) == QUIC_WIRE_ERR_PARAM); /* one twice */
  WANT(quic_wire_params_write_with(side, params, sizeof *params, further, n - 1,
                                   NULL, 0, out, 32, &m) ==
       QUIC_WIRE_ERR_PARAM); /* one is cut off */
  WANT(quic_wire_params_write_with(side, params, sizeof *params, NULL, 1, NULL,
                                   0, out, 32, &m) == INVALID);
  WANT(quic_wire_params_write_with(side, params, sizeof *params, NULL, 0, NULL,
                                   1, out, 32, &m) == INVALID);
  WANT(quic_wire_params_write_with(side, NULL, sizeof *params, NULL, 0, NULL, 0,
                                   out, 32, &m) == INVALID);
  WANT(quic_wire_params_write_with(2, params, sizeof *params, NULL, 0, NULL, 0,
                                   out, 32, &m) == QUIC_WIRE_ERR_KIND);
  WANT(m == 77);
}

/* Single entries. */
static void entries_nulls(void) {
  quic_wire_param param;
  uint8_t out[32];
  size_t m = 77;
  WANT(quic_wire_param_read(NULL, 1, &param) == INVALID);
  WANT(quic_wire_param_read(in_order, 1, NULL) == INVALID);
  WANT(quic_wire_param_read(NULL, 0, &param) == 0);
  WANT(quic_wire_param_read(in_order, 2, &param) ==
       QUIC_WIRE_ERR_PARAMS_MALFORMED);
  WANT(quic_wire_param_read(in_order + 6, 9, &param) == 6 && param.id == 0x11);
  WANT(param.value == 2 && param.valuelen == 4);
  WANT(quic_wire_param_write((uint64_t)1 << 62, NULL, 0, out, 32, &m) ==
       QUIC_WIRE_ERR_NUMBER);
  WANT(quic_wire_param_write(1, NULL, 1, out, 32, &m) == INVALID);
  WANT(quic_wire_param_write(1, NULL, 0, NULL, 32, &m) == INVALID);
  WANT(quic_wire_param_write(1, NULL, 0, out, 32, NULL) == INVALID && m == 77);
  WANT(quic_wire_param_is_known(0x10) && !quic_wire_param_is_known(0x11));
  WANT(!quic_wire_param_is_known(QUIC_WIRE_PARAM_RESERVED(0)));
}

/* Further entries after and among those of a client's struct. */
void params_with(void) {
  struct further f;
  further_made(&f);
  further_written(&f);
  further_refused(&f);
  entries_nulls();
}

/* Bytes of a field, as an id that may be longer than its length says. */
static uint32_t field(uint8_t *bytes, size_t room, uint32_t most) {
  uint32_t len = (uint32_t)(any() % 50 ? any() % (most + 1) : any());
  size_t k;
  memset(bytes, 0, room);
  for (k = 0; k < room && (k < len || !(any() % 400)); k++)
    bytes[k] = (uint8_t)any();
  return len;
}

static void any_address(quic_wire_params *p) {
  p->preferred_cidlen = field(p->preferred_cid, 20, 20);
  field(p->preferred_token, 16, 16);
  if (p->present & QUIC_WIRE_HAS_PREFERRED_V4) {
    field(p->preferred_v4, 4, 4);
    p->preferred_v4_port = (uint16_t)any();
  }
  if (p->present & QUIC_WIRE_HAS_PREFERRED_V6) {
    field(p->preferred_v6, 16, 16);
    p->preferred_v6_port = (uint16_t)any();
  }
}

/* Parameters that are mostly in range, and sometimes have any values. */
static void params_rubbish(quic_wire_params *p) {
  const uint32_t side_bits =
      QUIC_WIRE_HAS_STATELESS_RESET_TOKEN | QUIC_WIRE_HAS_PREFERRED_ADDRESS |
      QUIC_WIRE_HAS_ORIGINAL_DST_CID | QUIC_WIRE_HAS_RETRY_SRC_CID;
  memset(p, 0, sizeof *p);
  p->present = (uint32_t)(any() & (any() % 30 ? 0x7ff : UINT32_MAX));
  if (any() % 2)
    p->present &= ~side_bits;
  if (!(p->present & QUIC_WIRE_HAS_PREFERRED_ADDRESS) && any() % 50)
    p->present &= ~(uint32_t)0x30;
  p->max_idle_timeout = edge() >> 2;
  p->max_udp_payload_size = any() % 9 ? 1200 + any() % 70000 : edge();
  p->initial_max_data = any() % 9 ? edge() >> 2 : edge();
  p->initial_max_streams_bidi = any() % 9 ? edge() >> 4 : edge();
  p->ack_delay_exponent = any() % 22;
  p->max_ack_delay = any() % 9 ? any() % (1 << 14) : edge();
  p->active_connection_id_limit = any() % 20 + 1;
  if (p->present & QUIC_WIRE_HAS_MAX_DATAGRAM_FRAME_SIZE || !(any() % 99))
    p->max_datagram_frame_size = edge() >> 2;
  if (p->present & QUIC_WIRE_HAS_MIN_ACK_DELAY || !(any() % 99))
    p->min_ack_delay = any() % (p->max_ack_delay % 20000 * 1000 + 2);
  if (p->present & QUIC_WIRE_HAS_STATELESS_RESET_TOKEN)
    field(p->stateless_reset_token, 16, 16);
  if (p->present & QUIC_WIRE_HAS_ORIGINAL_DST_CID)
    p->original_dst_cidlen = field(p->original_dst_cid, 20, 20);
  if (p->present & QUIC_WIRE_HAS_INITIAL_SRC_CID)
    p->initial_src_cidlen = field(p->initial_src_cid, 20, 20);
  if (p->present & QUIC_WIRE_HAS_RETRY_SRC_CID)
    p->retry_src_cidlen = field(p->retry_src_cid, 20, 20);
  if (p->present & QUIC_WIRE_HAS_PREFERRED_ADDRESS)
    any_address(p);
  if (!(any() % 50))
    ((uint8_t *)p)[any() % sizeof *p] ^= (uint8_t)any();
}

/* What is written is read back as the same fields, for the side that it was
 * written for; it doesn't fit in one byte less.  Returns whether it was
 * written. */
int params_written(uint32_t side) {
  quic_wire_params given, got;
  uint8_t room[512], *dest;
  size_t n = 0, less = 0;
  uint64_t id = 77;
  int answer, fault;
  params_rubbish(&given);
  memset(room, 0xaa, sizeof room);
  answer = quic_wire_params_write(side ^ 1, &given, sizeof given, room,
                                  sizeof room, &n);
  fault = quic_wire_params_write_fault(side ^ 1, &given, sizeof given, &id);
  WANT(fault >= 0 && fault <= QUIC_WIRE_FAULT_ABSENT);
  WANT((fault == 0) == (answer == QUIC_WIRE_OK));
  WANT((fault == 0 || fault == QUIC_WIRE_FAULT_ABSENT) == (id == 77));
  if (answer != QUIC_WIRE_OK) {
    WANT(answer == QUIC_WIRE_ERR_PARAM && n == 0 && room[0] == 0xaa);
    return 0;
  }
  WANT(n <= sizeof room && (n == sizeof room || room[n] == 0xaa));
  dest = block(n);
  if (n) {
    answer = quic_wire_params_write(side ^ 1, &given, sizeof given, dest, n - 1,
                                    &less);
    WANT(answer == QUIC_WIRE_ERR_NOBUF && less == n);
  }
  WANT(quic_wire_params_write(side ^ 1, &given, sizeof given, dest, n, &less) ==
       QUIC_WIRE_OK);
  WANT(less == n && (!n || !memcmp(dest, room, n)));
  memset(&got, 0xbb, sizeof got);
  WANT(quic_wire_params_read(side, (uint32_t)any(), dest, n, &got, sizeof got,
                             NULL) == QUIC_WIRE_OK);
  WANT(!memcmp(&got, &given, sizeof got));
  free(dest);
  return 1;
}

/* The entries of any list, one after the other.  Each is written in at most as
 * many bytes, and read back.  Returns how many bytes of |further| were filled
 * with those that the struct has no field for, and in |*count| how many these
 * are. */
static size_t params_entries(const uint8_t *list, size_t len, uint8_t *further,
                             size_t room, size_t *count) {
  quic_wire_param param, again, other;
  uint8_t out[64];
  size_t at = 0, filled = 0, n, k, end;
  int64_t answer;
  *count = 0;
  while ((answer = quic_wire_param_read(list + at, len - at, &param)) > 0) {
    const uint8_t *value = list + at + param.value;
    end = (size_t)answer;
    WANT(param.value >= 2 && end == param.value + param.valuelen);
    WANT(end <= len - at);
    at += end;
    if (param.valuelen > 40)
      continue;
    WANT(quic_wire_param_write(param.id, value, param.valuelen, out, sizeof out,
                               &n) == 0 &&
         n <= end);
    WANT(quic_wire_param_read(out, n, &again) == (int64_t)n &&
         again.id == param.id);
    WANT(again.valuelen == param.valuelen);
    WANT(!memcmp(out + again.value, value, param.valuelen));
    for (k = 0; k < filled; k += other.value + other.valuelen)
      if (quic_wire_param_read(further + k, filled - k, &other) <= 0 ||
          other.id == param.id)
        break;
    if (k == filled && !quic_wire_param_is_known(param.id) &&
        n <= room - filled && *count < 200) {
      memcpy(further + filled, out, n);
      filled += n;
      ++*count;
    }
  }
  WANT(answer == (at == len ? 0 : QUIC_WIRE_ERR_PARAMS_MALFORMED));
  return filled;
}

/* Further entries from any list among those of a struct, in any order. */
static void params_mixed(uint32_t side, const quic_wire_params *params,
                         const uint8_t *list, size_t len) {
  uint8_t further[512], order[QUIC_WIRE_PARAM_ROWS + 200], out[1024];
  quic_wire_params got;
  size_t count, n = 0, less = 0, k, all;
  size_t filled = params_entries(list, len, further, sizeof further, &count);
  int answer;
  all = QUIC_WIRE_PARAM_ROWS + count;
  for (k = 0; k < all; k++) {
    size_t other = any() % (k + 1);
    order[k] = order[other];
    order[other] = (uint8_t)k;
  }
  answer = quic_wire_params_write_with(
      side ^ 1, params, sizeof *params, further, filled, order,
      any() % 4 ? all : 0, out, sizeof out, &n);
  WANT(answer == 0);
  WANT(quic_wire_params_read(side, 0, out, n, &got, sizeof got, NULL) == 0);
  WANT(!memcmp(&got, params, sizeof got));
  if (n) {
    WANT(quic_wire_params_write_with(side ^ 1, params, sizeof *params, further,
                                     filled, order, all, out, n - 1,
                                     &less) == QUIC_WIRE_ERR_NOBUF &&
         less == n);
  }
  order[any() % all] = (uint8_t)any();
  WANT(quic_wire_params_write_with(side ^ 1, params, sizeof *params, list,
                                   any() % (len + 1), order, any() % all, out,
                                   any() % sizeof out, &n) <= QUIC_WIRE_OK);
}

/* Any bytes as a list, and any field values as parameters. */
void params_any(const uint8_t *list, size_t len) {
  quic_wire_params got, same;
  quic_wire_refusal refusal = {0, 77};
  uint32_t side = (uint32_t)(any() % 3);
  uint32_t flags = any() % 2 ? (uint32_t)any() : 0;
  uint8_t dest[512];
  size_t n = 0, k;
  int answer;
  memset(&got, 0xbb, sizeof got);
  memset(&same, 0xbb, sizeof same);
  answer = quic_wire_params_read(side, flags, list, len, &got, sizeof got,
                                 any() % 4 ? &refusal : NULL);
  WANT((side > 1) == (answer == QUIC_WIRE_ERR_KIND));
  WANT(refusal.offset <= len || refusal.offset == 77);
  if (answer == QUIC_WIRE_OK) {
    WANT(quic_wire_params_write(side ^ 1, &got, sizeof got, dest, sizeof dest,
                                &n) == QUIC_WIRE_OK);
    WANT(n <= len && got.reserved == 0);
    params_mixed(side, &got, list, len);
  } else {
    WANT(side > 1 || answer == QUIC_WIRE_ERR_PARAMS_MALFORMED ||
         answer == QUIC_WIRE_ERR_PARAMS_ILLEGAL);
    WANT(!memcmp(&got, &same, sizeof got));
  }
  for (k = 0; k < sizeof got; k++)
    ((uint8_t *)&got)[k] = (uint8_t)(any() % 3 ? 0 : any());
  WANT(quic_wire_params_write(side ^ 1, &got, sizeof got, dest,
                              any() % sizeof dest, &n) <= QUIC_WIRE_OK);
}
