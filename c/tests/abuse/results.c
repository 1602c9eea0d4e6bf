/* Results: the code to close with, by RFC 9000, and texts. */
#include "abuse.h"

static const struct {
  int result;
  uint32_t code;
} closes[] = {
    {QUIC_WIRE_ERR_ARGUMENT, QUIC_WIRE_CODE_INTERNAL_ERROR},
    {QUIC_WIRE_ERR_PLACE, QUIC_WIRE_CODE_INTERNAL_ERROR},
    {QUIC_WIRE_ERR_KIND, QUIC_WIRE_CODE_INTERNAL_ERROR},
    {QUIC_WIRE_ERR_NUMBER, QUIC_WIRE_CODE_INTERNAL_ERROR},
    {QUIC_WIRE_ERR_LENGTH, QUIC_WIRE_CODE_INTERNAL_ERROR},
    {QUIC_WIRE_ERR_RANGES, QUIC_WIRE_CODE_INTERNAL_ERROR},
    {QUIC_WIRE_ERR_PARAM, QUIC_WIRE_CODE_INTERNAL_ERROR},
    {QUIC_WIRE_ERR_NOBUF, QUIC_WIRE_CODE_INTERNAL_ERROR},
    /* Section 12.4 */
    {QUIC_WIRE_ERR_PAYLOAD_EMPTY, QUIC_WIRE_CODE_PROTOCOL_VIOLATION},
    {QUIC_WIRE_ERR_FRAME_TYPE, QUIC_WIRE_CODE_FRAME_ENCODING_ERROR},
    {QUIC_WIRE_ERR_FRAME_LONG_TYPE, QUIC_WIRE_CODE_PROTOCOL_VIOLATION},
    /* Section 20.1; 19.7, 19.15 and others */
    {QUIC_WIRE_ERR_FRAME_END, QUIC_WIRE_CODE_FRAME_ENCODING_ERROR},
    {QUIC_WIRE_ERR_FRAME_MALFORMED, QUIC_WIRE_CODE_FRAME_ENCODING_ERROR},
    /* Sections 19.6, 19.8, 19.11 and 19.14 */
    {QUIC_WIRE_ERR_FRAME_LIMIT, QUIC_WIRE_CODE_FRAME_ENCODING_ERROR},
    /* Section 12.4, table 3; 19.7 and 19.20 */
    {QUIC_WIRE_ERR_FRAME_PACKET, QUIC_WIRE_CODE_PROTOCOL_VIOLATION},
    {QUIC_WIRE_ERR_FRAME_SENDER, QUIC_WIRE_CODE_PROTOCOL_VIOLATION},
    /* Sections 19.4, 19.5, 19.8, 19.10 and 19.13 */
    {QUIC_WIRE_ERR_FRAME_STREAM, QUIC_WIRE_CODE_STREAM_STATE_ERROR},
    /* Section 5.2 */
    {QUIC_WIRE_ERR_PACKET_END, QUIC_WIRE_CODE_NO_ERROR},
    {QUIC_WIRE_ERR_PACKET_FIXED_BIT, QUIC_WIRE_CODE_NO_ERROR},
    {QUIC_WIRE_ERR_PACKET_SMALL, QUIC_WIRE_CODE_NO_ERROR},
    {QUIC_WIRE_ERR_PACKET_CID, QUIC_WIRE_CODE_NO_ERROR},
    {QUIC_WIRE_ERR_PACKET_TOKEN, QUIC_WIRE_CODE_NO_ERROR},
    {QUIC_WIRE_ERR_PACKET_VERSION, QUIC_WIRE_CODE_NO_ERROR},
    {QUIC_WIRE_ERR_PACKET_CUT, QUIC_WIRE_CODE_NO_ERROR},
    {QUIC_WIRE_ERR_PACKET_RETRY, QUIC_WIRE_CODE_NO_ERROR},
    /* Section 7.4 */
    {QUIC_WIRE_ERR_PARAMS_MALFORMED, QUIC_WIRE_CODE_TRANSPORT_PARAMETER_ERROR},
    {QUIC_WIRE_ERR_PARAMS_ILLEGAL, QUIC_WIRE_CODE_TRANSPORT_PARAMETER_ERROR},
};

void results_examples(void) {
  size_t k;
  for (k = 0; k < sizeof closes / sizeof *closes; k++) {
    const char *text = quic_wire_strerror(closes[k].result);
    WANT(quic_wire_close_code(closes[k].result) == closes[k].code);
    WANT(strcmp(text, "ok") != 0 && strcmp(text, "unknown") != 0);
  }
  WANT(quic_wire_check(QUIC_WIRE_LIB) == QUIC_WIRE_OK);
  WANT(quic_wire_check(0) == QUIC_WIRE_ERR_LIBRARY);
  WANT(quic_wire_check(QUIC_WIRE_LIB + 0x100) == QUIC_WIRE_ERR_LIBRARY);
  WANT(quic_wire_check(QUIC_WIRE_LIB + 0x10000) == QUIC_WIRE_ERR_LIBRARY);
  WANT(quic_wire_lib() == QUIC_WIRE_LIB);
  WANT(strcmp(quic_wire_lib_text(), QUIC_WIRE_LIB_TEXT) == 0);
  /* Numbers that are no results. */
  WANT(quic_wire_close_code(-4) == QUIC_WIRE_CODE_NO_ERROR);
  WANT(quic_wire_close_code(-15) == QUIC_WIRE_CODE_NO_ERROR);
}

/* No number is beyond the texts and the codes; only errors close a connection.
 * What has a name is read as a frame. */
void results_any(void) {
  const int result = (int)(uint32_t)any();
  const int small = (int)(any() % 200) - 100;
  const uint64_t type = edge();
  quic_wire_frame frame;
  uint8_t bytes[9] = {0};
  WANT(quic_wire_close_code(result >= 0 ? result : small) <=
       QUIC_WIRE_CODE_PROTOCOL_VIOLATION);
  WANT(result < 0 || quic_wire_close_code(result) == QUIC_WIRE_CODE_NO_ERROR);
  WANT(quic_wire_strerror(result) && quic_wire_strerror(small));
  if (type >> 62 || quic_wire_varint_write(type, 8, bytes, 9) != 8)
    return;
  WANT((quic_wire_type_name(type) == NULL) ==
       (quic_wire_frame_read(bytes, 9, 0, &frame, NULL, 0) ==
        QUIC_WIRE_ERR_FRAME_TYPE));
}
