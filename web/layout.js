// Structs and constants of c/include/quic_wire.h and arguments of calls, as they are in the module for callers of C,
// whose pointers and sizes have 64 bits. The page uses the constants.
// Made by scripts/make/tables from the header and the crates: change nothing here. scripts/check/browsers compares the structs
// with what layout.c prints.

// For each struct its size, and for each field its offset and how many bytes it has; for an array, all of them.
export const LAYOUT = {
  frame_iter: {size: 24, fields: {offset: [0, 8], last_type: [8, 8], ended: [16, 4], flags: [20, 4]}},
  frame: {
    size: 80,
    fields: {
      kind: [0, 2], type: [2, 2], flags: [4, 4], begin: [8, 8], end: [16, 8], data: [24, 8], datalen: [32, 8],
      numbers: [40, 40],
    },
  },
  range: {size: 16, fields: {start: [0, 8], end: [8, 8]}},
  range_iter: {size: 24, fields: {offset: [0, 8], left: [8, 8], largest: [16, 8]}},
  canon: {size: 16, fields: {len: [0, 8], last_type: [8, 8]}},
  header: {
    size: 32,
    fields: {
      kind: [0, 1], first: [1, 1], dcidlen: [2, 1], scidlen: [3, 1], version: [4, 4], header_end: [8, 4], end: [12, 4],
      token: [16, 4], tokenlen: [20, 4], len: [24, 8],
    },
  },
  params: {size: 264, fields: {}},
  refusal: {size: 16, fields: {id: [0, 8], offset: [8, 8]}},
  span: {size: 32, fields: {field: [0, 8], start: [8, 8], end: [16, 8], number: [24, 8]}},
  fields: {size: 32, fields: {count: [0, 8], end: [8, 8], inside: [16, 8], numbers: [24, 8]}},
};

// For each call the bits of its arguments.
export const CALLS = {
  ack_ranges_init: [64, 64, 64, 64],
  frames_fill: [64, 64, 64, 64, 64, 64],
  ack_ranges_fill: [64, 64, 64, 64, 64, 64],
  frames_init: [64, 64, 64, 32],
  frame_read: [64, 64, 32, 64, 64, 64],
  canonical: [64, 64, 64, 64, 64],
  frame_fields: [64, 64, 32, 64, 64, 64],
  param_fields: [64, 64, 64, 64, 64],
  param_value_fields: [64, 64, 64, 32, 64, 64, 64],
  packet_fields: [64, 64, 64, 64, 64, 32, 64, 64, 64],
  header_read: [64, 64, 32, 64, 64, 32, 64],
  unprotect_copy: [64, 64, 64, 64, 64, 64, 64, 64],
  varint_read: [64, 64, 64],
  varint_len: [64],
  params_read: [32, 32, 64, 64, 64, 64],
};

// What calls return.
export const OK = 0;
export const ITEM = 1;
export const REASON_MALFORMED = -23;
export const REASON_LONG_TYPE = -24;
export const REASON_LIMIT = -25;
export const PACKET_FIXED_BIT = -41;
export const PACKET_MALFORMED_CID = -43;
export const PACKET_UNSUPPORTED_VERSION = -45;
export const PACKET_CUT = -46;
export const PACKET_RETRY = -47;
export const PARAMS_MALFORMED = -60;
export const PARAMS_ILLEGAL = -61;

// Kinds of frames.
export const PADDING = 0x00;
export const ACK = 0x02;

// Kinds of packets.
export const INITIAL = 0;
export const HANDSHAKE = 2;
export const RETRY = 3;
export const SHORT = 4;
export const VERSION_NEGOTIATION = 5;

// A bit of a first byte.
export const LONG_FORM = 0x80;
