/* The functions of quic_wire.h that don't call the proved library: the
 * library's version, and the texts of results and frame types. */
#include "quic_wire.h"

uint32_t quic_wire_lib(void) { return QUIC_WIRE_LIB; }

const char *quic_wire_lib_text(void) { return QUIC_WIRE_LIB_TEXT; }

/* The first minor version whose programs this one serves: until 1.0, the first
 * with the number in the name libquic_wire.so.1; then 0. */
#define OLDEST_MINOR 2

int quic_wire_check(uint32_t header) {
  uint32_t minor = header >> 8 & 0xff;
  return header >> 16 == QUIC_WIRE_LIB_MAJOR && minor >= OLDEST_MINOR &&
                 minor <= QUIC_WIRE_LIB_MINOR
             ? QUIC_WIRE_OK
             : QUIC_WIRE_ERR_LIBRARY;
}

const char *quic_wire_strerror(int result) {
  switch (result) {
/* Made by scripts/make/tables: */
  case QUIC_WIRE_ERR_ARGUMENT: return "invalid argument";
  case QUIC_WIRE_ERR_PLACE: return "place outside of the bytes";
  case QUIC_WIRE_ERR_KIND: return "no such kind";
  case QUIC_WIRE_ERR_NUMBER: return "number out of range";
  case QUIC_WIRE_ERR_LENGTH: return "length out of range";
  case QUIC_WIRE_ERR_RANGES: return "ranges not sorted or touching";
  case QUIC_WIRE_ERR_PARAM: return "parameters that the peer would refuse";
  case QUIC_WIRE_ERR_NOBUF: return "buffer too small";
  case QUIC_WIRE_ERR_LIBRARY: return "library and header differ in version";
  case QUIC_WIRE_ERR_PAYLOAD_EMPTY: return "packet payload is empty";
  case QUIC_WIRE_ERR_FRAME_END: return "unexpected end";
  case QUIC_WIRE_ERR_FRAME_TYPE: return "invalid frame ID";
  case QUIC_WIRE_ERR_FRAME_MALFORMED: return "malformed";
  case QUIC_WIRE_ERR_FRAME_LONG_TYPE: return "frame type not in shortest form";
  case QUIC_WIRE_ERR_FRAME_LIMIT: return "limit exceeded";
  case QUIC_WIRE_ERR_FRAME_PACKET: return "not permitted in this packet";
  case QUIC_WIRE_ERR_FRAME_SENDER: return "not permitted from this side";
  case QUIC_WIRE_ERR_FRAME_STREAM: return "not permitted on this stream";
  case QUIC_WIRE_ERR_PACKET_END: return "unexpected end of packet";
  case QUIC_WIRE_ERR_PACKET_FIXED_BIT: return "fixed bit unset";
  case QUIC_WIRE_ERR_PACKET_SMALL: return "packet too small";
  case QUIC_WIRE_ERR_PACKET_CID: return "malformed cid";
  case QUIC_WIRE_ERR_PACKET_TOKEN: return "token out of bounds";
  case QUIC_WIRE_ERR_PACKET_VERSION: return "unsupported version";
  case QUIC_WIRE_ERR_PACKET_CUT:
    return "packet too short to contain payload length";
  case QUIC_WIRE_ERR_PACKET_RETRY: return "Retry without a token or a tag";
  case QUIC_WIRE_ERR_PARAMS_MALFORMED: return "malformed";
  case QUIC_WIRE_ERR_PARAMS_ILLEGAL: return "illegal value";
/* End of what is made. */
  default: return result < 0 ? "unknown" : "ok";
  }
}

const char *quic_wire_type_name(uint64_t type) {
  switch (type) {
/* Made by scripts/make/tables: */
  case 0x00: return "PADDING";
  case 0x01: return "PING";
  case 0x02: return "ACK";
  case 0x03: return "ACK_ECN";
  case 0x04: return "RESET_STREAM";
  case 0x05: return "STOP_SENDING";
  case 0x06: return "CRYPTO";
  case 0x07: return "NEW_TOKEN";
  case 0x08: case 0x09: case 0x0a: case 0x0b:
  case 0x0c: case 0x0d: case 0x0e: case 0x0f: return "STREAM";
  case 0x10: return "MAX_DATA";
  case 0x11: return "MAX_STREAM_DATA";
  case 0x12: return "MAX_STREAMS_BIDI";
  case 0x13: return "MAX_STREAMS_UNI";
  case 0x14: return "DATA_BLOCKED";
  case 0x15: return "STREAM_DATA_BLOCKED";
  case 0x16: return "STREAMS_BLOCKED_BIDI";
  case 0x17: return "STREAMS_BLOCKED_UNI";
  case 0x18: return "NEW_CONNECTION_ID";
  case 0x19: return "RETIRE_CONNECTION_ID";
  case 0x1a: return "PATH_CHALLENGE";
  case 0x1b: return "PATH_RESPONSE";
  case 0x1c: return "CONNECTION_CLOSE";
  case 0x1d: return "APPLICATION_CLOSE";
  case 0x1e: return "HANDSHAKE_DONE";
  case 0x1f: return "IMMEDIATE_ACK";
  case 0x30: case 0x31: return "DATAGRAM";
  case 0xaf: return "ACK_FREQUENCY";
/* End of what is made. */
  default: return NULL;
  }
}
