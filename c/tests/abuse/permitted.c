/* Which packets may carry a frame, which side may send it, and on which streams
 * (RFC 9000, section 12.4 and those of the frames); and reset tokens. */
#include "abuse.h"

/* Table 3, and who may send the frame: the kinds of packets as letters, I, H, 0
 * and 1; S if only a server may.  The stream: o if the sender must have opened
 * a unidirectional one, p if its peer must. */
static const struct {
  uint16_t type;
  const char *packets;
  char sender, stream;
} rows[] = {
    {0x00, "IH01", 0, 0},  {0x01, "IH01", 0, 0},  {0x02, "IH1", 0, 0},
    {0x03, "IH1", 0, 0},   {0x04, "01", 0, 'o'},  {0x05, "01", 0, 'p'},
    {0x06, "IH1", 0, 0},   {0x07, "1", 'S', 0},   {0x08, "01", 0, 'o'},
    {0x0f, "01", 0, 'o'},  {0x10, "01", 0, 0},    {0x11, "01", 0, 'p'},
    {0x12, "01", 0, 0},    {0x13, "01", 0, 0},    {0x14, "01", 0, 0},
    {0x15, "01", 0, 'o'},  {0x16, "01", 0, 0},    {0x17, "01", 0, 0},
    {0x18, "01", 0, 0},    {0x19, "01", 0, 0},    {0x1a, "01", 0, 0},
    {0x1b, "1", 0, 0},     {0x1c, "IH01", 0, 0},  {0x1d, "01", 0, 0},
    {0x1e, "1", 'S', 0},   {0x1f, "01", 0, 0},    {0x30, "01", 0, 0},
    {0x31, "01", 0, 0},    {0xaf, "01", 0, 0},
};
#define ROWS (sizeof rows / sizeof *rows)
#define EXTENSION QUIC_WIRE_READ_NO_ACK_FREQUENCY

/* By the row alone. */
static int by_row(size_t row, uint32_t packet, uint32_t sender,
                  uint32_t flags) {
  static const char letters[] = "I0H-1";
  const uint16_t type = rows[row].type;
  if (packet > QUIC_WIRE_PACKET_1RTT || packet == QUIC_WIRE_PACKET_RETRY ||
      sender > QUIC_WIRE_SIDE_SERVER)
    return QUIC_WIRE_ERR_KIND;
  if (flags & EXTENSION && (type == 0x1f || type == 0xaf))
    return QUIC_WIRE_ERR_FRAME_TYPE;
  if (!strchr(rows[row].packets, letters[packet]))
    return QUIC_WIRE_ERR_FRAME_PACKET;
  /* Only clients send 0-RTT packets (17.2.3). */
  if (packet == QUIC_WIRE_PACKET_0RTT && sender == QUIC_WIRE_SIDE_SERVER)
    return QUIC_WIRE_ERR_FRAME_SENDER;
  return rows[row].sender && sender == QUIC_WIRE_SIDE_CLIENT
             ? QUIC_WIRE_ERR_FRAME_SENDER
             : QUIC_WIRE_OK;
}

/* By the row and the stream's id, whose two low bits are its type (2.1). */
static int by_stream(size_t row, uint64_t id, uint32_t packet, uint32_t sender,
                     uint32_t flags) {
  const int answer = by_row(row, packet, sender, flags);
  const int is_own = (id & 1) == sender;
  if (answer != QUIC_WIRE_OK || !rows[row].stream || !(id & 2))
    return answer;
  return is_own == (rows[row].stream == 'o') ? QUIC_WIRE_OK
                                             : QUIC_WIRE_ERR_FRAME_STREAM;
}

static uint16_t kind_of(uint16_t type) {
  return type == 0x03                  ? QUIC_WIRE_FRAME_ACK
         : type >= 0x08 && type < 0x10 ? QUIC_WIRE_FRAME_STREAM
         : type == 0x31                ? QUIC_WIRE_FRAME_DATAGRAM
                                       : type;
}

static void row_any(size_t row, uint32_t packet, uint32_t sender,
                    uint32_t flags) {
  quic_wire_frame frame, before;
  uint64_t id;
  WANT(quic_wire_type_permitted(rows[row].type, packet, sender, flags) ==
       by_row(row, packet, sender, flags));
  memset(&frame, 0xa5, sizeof frame);
  frame.kind = kind_of(rows[row].type);
  for (id = 0; id < 4; id++) {
    frame.numbers[0] = id;
    before = frame;
    WANT(quic_wire_frame_permitted(&frame, packet, sender, flags) ==
         by_stream(row, id, packet, sender, flags));
    WANT(!memcmp(&frame, &before, sizeof frame));
  }
}

/* Unknown types and kinds. */
static void permitted_unknown(void) {
  static const uint64_t types[] = {0x20,  0x2f,       0x32,
                                   0xae,  0xb0,       0x100,
                                   0x406, 0x10000008, ((uint64_t)1 << 32) + 1,
                                   UINT64_MAX};
  quic_wire_frame frame;
  uint32_t kind;
  size_t k;
  for (k = 0; k < sizeof types / sizeof *types; k++) {
    WANT(quic_wire_type_permitted(types[k], 4, 1, 0) ==
         QUIC_WIRE_ERR_FRAME_TYPE);
    WANT(quic_wire_type_permitted(types[k], 3, 1, 0) == QUIC_WIRE_ERR_KIND);
  }
  memset(&frame, 0, sizeof frame);
  for (kind = 0; kind <= UINT16_MAX; kind++) {
    frame.kind = (uint16_t)kind;
    if (quic_wire_frame_rules(kind))
      WANT(quic_wire_frame_permitted(&frame, 4, 1, 0) == 0);
    else if (!quic_wire_type_name(kind))
      WANT(quic_wire_frame_permitted(&frame, 4, 1, 0) ==
           QUIC_WIRE_ERR_FRAME_TYPE);
  }
}

/* Each type in each packet from each side; NULL. */
void permitted_examples(void) {
  static const uint32_t packets[] = {0, 1, 2, 3, 4, 5, 6, UINT32_MAX};
  static const uint32_t sides[] = {0, 1, 2, UINT32_MAX};
  static const uint32_t flags[] = {0, EXTENSION, QUIC_WIRE_READ_RFC,
                                   ~(uint32_t)EXTENSION, UINT32_MAX};
  size_t row, packet, side, k;
  for (row = 0; row < ROWS; row++)
    for (packet = 0; packet < sizeof packets / sizeof *packets; packet++)
      for (side = 0; side < sizeof sides / sizeof *sides; side++)
        for (k = 0; k < sizeof flags / sizeof *flags; k++)
          row_any(row, packets[packet], sides[side], flags[k]);
  permitted_unknown();
  WANT(quic_wire_frame_permitted(NULL, 4, 1, 0) == INVALID);
  WANT(quic_wire_frame_permitted(NULL, 9, 9, 0) == INVALID);
}

/* Any field values, also kinds that are types of another kind. */
void permitted_any(void) {
  const uint32_t packet = (uint32_t)(any() % 16 ? any() % 6 : edge());
  const uint32_t sender = (uint32_t)(any() % 16 ? any() % 2 : edge());
  const uint32_t flags = any_flags();
  const uint64_t type = any() % 2 ? any() % 0x32 : edge();
  quic_wire_frame frame;
  int answer, whole;
  uint8_t *at = (uint8_t *)&frame;
  any_bytes(at, sizeof frame);
  answer = quic_wire_type_permitted(type, packet, sender, flags);
  WANT(answer == QUIC_WIRE_OK || answer == QUIC_WIRE_ERR_KIND ||
       (answer <= QUIC_WIRE_ERR_FRAME_TYPE &&
        answer >= QUIC_WIRE_ERR_FRAME_SENDER));
  WANT((answer == QUIC_WIRE_ERR_FRAME_TYPE) ==
           (!quic_wire_type_name(type) ||
            (flags & EXTENSION && (type == 0x1f || type == 0xaf))) ||
       answer == QUIC_WIRE_ERR_KIND);
  frame.kind = (uint16_t)type;
  whole = quic_wire_frame_permitted(&frame, packet, sender, flags);
  if (type <= UINT16_MAX && quic_wire_frame_rules((uint32_t)type))
    WANT(whole == answer ||
         (answer == QUIC_WIRE_OK && whole == QUIC_WIRE_ERR_FRAME_STREAM));
  else
    WANT(whole < 0 || type > UINT16_MAX || quic_wire_type_name(type));
}

/* ---- Reset tokens */

void tokens_nulls(void) {
  static const uint8_t token[16] = {0};
  WANT(quic_wire_reset_token_equal(NULL, token) == 0);
  WANT(quic_wire_reset_token_equal(token, NULL) == 0);
  WANT(quic_wire_reset_token_equal(NULL, NULL) == 0);
  WANT(quic_wire_reset_token_equal(token, token) == 1);
}

/* Tokens are equal exactly if all bits are, of which one or two differ. */
void tokens_any(void) {
  uint8_t *a = block(16), *b = block(16);
  const size_t bit = any() % 128, other = any() % 128;
  any_bytes(a, 16);
  memcpy(b, a, 16);
  WANT(quic_wire_reset_token_equal(a, b) == 1);
  b[bit / 8] ^= (uint8_t)(1 << bit % 8);
  WANT(quic_wire_reset_token_equal(a, b) == 0);
  b[other / 8] ^= (uint8_t)(1 << other % 8);
  WANT(quic_wire_reset_token_equal(b, a) == (bit == other));
  free(a);
  free(b);
}
