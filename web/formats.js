// The formats of QUIC as data: the fields of frames and headers, transport parameters, error codes,
// reasons.
// Made by scripts/make/tables from docs/formats.json: change nothing here.
// docs/formats.schema.json explains the members. Keys are Numbers; bounds, defaults and values are BigInts.

// Frames by their types. |kind| is one type for all of STREAM, of ACK and of DATAGRAM.
export const FRAMES = new Map([
  [0x00, {kind: 0x00, type: 0, name: "PADDING", section: "RFC 9000, section 19.1", fields: [
    {index: 0, kind: "number", name: "Type", unit: "frame type"},
  ]}],
  [0x01, {kind: 0x01, type: 1, name: "PING", section: "RFC 9000, section 19.2", fields: [
    {index: 0, kind: "number", name: "Type", unit: "frame type"},
  ]}],
  [0x02, {kind: 0x02, type: 2, name: "ACK", section: "RFC 9000, section 19.3", fields: [
    {index: 0, kind: "number", name: "Type", unit: "frame type"},
    {index: 1, kind: "number", name: "Largest Acknowledged", unit: "packet number"},
    {index: 2, kind: "number", name: "ACK Delay", unit: "2^ack_delay_exponent microseconds"},
    {
      index: 3, kind: "ranges", name: "ACK Ranges", unit: "packet numbers",
      numbers: ["ACK Range Count", "First ACK Range", "Gap", "ACK Range Length"],
    },
  ]}],
  [0x03, {kind: 0x02, type: 3, name: "ACK", quinn_proto: "ACK_ECN", section: "RFC 9000, section 19.3", fields: [
    {index: 0, kind: "number", name: "Type", unit: "frame type"},
    {index: 1, kind: "number", name: "Largest Acknowledged", unit: "packet number"},
    {index: 2, kind: "number", name: "ACK Delay", unit: "2^ack_delay_exponent microseconds"},
    {
      index: 3, kind: "ranges", name: "ACK Ranges", unit: "packet numbers",
      numbers: ["ACK Range Count", "First ACK Range", "Gap", "ACK Range Length"],
    },
    {index: 4, kind: "number", name: "ECT0 Count", unit: "packets"},
    {index: 5, kind: "number", name: "ECT1 Count", unit: "packets"},
    {index: 6, kind: "number", name: "ECN-CE Count", unit: "packets"},
  ]}],
  [0x04, {kind: 0x04, type: 4, name: "RESET_STREAM", section: "RFC 9000, section 19.4", fields: [
    {index: 0, kind: "number", name: "Type", unit: "frame type"},
    {index: 1, kind: "number", name: "Stream ID", unit: "stream id"},
    {
      index: 2, kind: "number", name: "Application Protocol Error Code", unit: "application error code",
    },
    {index: 3, kind: "number", name: "Final Size", unit: "bytes"},
  ]}],
  [0x05, {kind: 0x05, type: 5, name: "STOP_SENDING", section: "RFC 9000, section 19.5", fields: [
    {index: 0, kind: "number", name: "Type", unit: "frame type"},
    {index: 1, kind: "number", name: "Stream ID", unit: "stream id"},
    {
      index: 2, kind: "number", name: "Application Protocol Error Code", unit: "application error code",
    },
  ]}],
  [0x06, {kind: 0x06, type: 6, name: "CRYPTO", section: "RFC 9000, section 19.6", fields: [
    {index: 0, kind: "number", name: "Type", unit: "frame type"},
    {index: 1, kind: "number", name: "Offset", unit: "bytes"},
    {index: 2, kind: "counted", name: "Crypto Data", length: "Length"},
  ]}],
  [0x07, {kind: 0x07, type: 7, name: "NEW_TOKEN", section: "RFC 9000, section 19.7", fields: [
    {index: 0, kind: "number", name: "Type", unit: "frame type"},
    {index: 1, kind: "counted", name: "Token", length: "Token Length"},
  ]}],
  [0x08, {kind: 0x08, type: 8, name: "STREAM", section: "RFC 9000, section 19.8", fields: [
    {index: 0, kind: "number", name: "Type", unit: "frame type"},
    {index: 1, kind: "implied", name: "FIN", unit: "1 at the end of the stream", value: 0n},
    {index: 2, kind: "number", name: "Stream ID", unit: "stream id"},
    {index: 3, kind: "implied", name: "Offset", unit: "bytes", value: 0n},
    {index: 4, kind: "rest", name: "Stream Data"},
  ]}],
  [0x09, {kind: 0x08, type: 9, name: "STREAM", section: "RFC 9000, section 19.8", fields: [
    {index: 0, kind: "number", name: "Type", unit: "frame type"},
    {index: 1, kind: "implied", name: "FIN", unit: "1 at the end of the stream", value: 1n},
    {index: 2, kind: "number", name: "Stream ID", unit: "stream id"},
    {index: 3, kind: "implied", name: "Offset", unit: "bytes", value: 0n},
    {index: 4, kind: "rest", name: "Stream Data"},
  ]}],
  [0x0a, {kind: 0x08, type: 10, name: "STREAM", section: "RFC 9000, section 19.8", fields: [
    {index: 0, kind: "number", name: "Type", unit: "frame type"},
    {index: 1, kind: "implied", name: "FIN", unit: "1 at the end of the stream", value: 0n},
    {index: 2, kind: "number", name: "Stream ID", unit: "stream id"},
    {index: 3, kind: "implied", name: "Offset", unit: "bytes", value: 0n},
    {index: 4, kind: "counted", name: "Stream Data", length: "Length"},
  ]}],
  [0x0b, {kind: 0x08, type: 11, name: "STREAM", section: "RFC 9000, section 19.8", fields: [
    {index: 0, kind: "number", name: "Type", unit: "frame type"},
    {index: 1, kind: "implied", name: "FIN", unit: "1 at the end of the stream", value: 1n},
    {index: 2, kind: "number", name: "Stream ID", unit: "stream id"},
    {index: 3, kind: "implied", name: "Offset", unit: "bytes", value: 0n},
    {index: 4, kind: "counted", name: "Stream Data", length: "Length"},
  ]}],
  [0x0c, {kind: 0x08, type: 12, name: "STREAM", section: "RFC 9000, section 19.8", fields: [
    {index: 0, kind: "number", name: "Type", unit: "frame type"},
    {index: 1, kind: "implied", name: "FIN", unit: "1 at the end of the stream", value: 0n},
    {index: 2, kind: "number", name: "Stream ID", unit: "stream id"},
    {index: 3, kind: "number", name: "Offset", unit: "bytes"},
    {index: 4, kind: "rest", name: "Stream Data"},
  ]}],
  [0x0d, {kind: 0x08, type: 13, name: "STREAM", section: "RFC 9000, section 19.8", fields: [
    {index: 0, kind: "number", name: "Type", unit: "frame type"},
    {index: 1, kind: "implied", name: "FIN", unit: "1 at the end of the stream", value: 1n},
    {index: 2, kind: "number", name: "Stream ID", unit: "stream id"},
    {index: 3, kind: "number", name: "Offset", unit: "bytes"},
    {index: 4, kind: "rest", name: "Stream Data"},
  ]}],
  [0x0e, {kind: 0x08, type: 14, name: "STREAM", section: "RFC 9000, section 19.8", fields: [
    {index: 0, kind: "number", name: "Type", unit: "frame type"},
    {index: 1, kind: "implied", name: "FIN", unit: "1 at the end of the stream", value: 0n},
    {index: 2, kind: "number", name: "Stream ID", unit: "stream id"},
    {index: 3, kind: "number", name: "Offset", unit: "bytes"},
    {index: 4, kind: "counted", name: "Stream Data", length: "Length"},
  ]}],
  [0x0f, {kind: 0x08, type: 15, name: "STREAM", section: "RFC 9000, section 19.8", fields: [
    {index: 0, kind: "number", name: "Type", unit: "frame type"},
    {index: 1, kind: "implied", name: "FIN", unit: "1 at the end of the stream", value: 1n},
    {index: 2, kind: "number", name: "Stream ID", unit: "stream id"},
    {index: 3, kind: "number", name: "Offset", unit: "bytes"},
    {index: 4, kind: "counted", name: "Stream Data", length: "Length"},
  ]}],
  [0x10, {kind: 0x10, type: 16, name: "MAX_DATA", section: "RFC 9000, section 19.9", fields: [
    {index: 0, kind: "number", name: "Type", unit: "frame type"},
    {index: 1, kind: "number", name: "Maximum Data", unit: "bytes"},
  ]}],
  [0x11, {kind: 0x11, type: 17, name: "MAX_STREAM_DATA", section: "RFC 9000, section 19.10", fields: [
    {index: 0, kind: "number", name: "Type", unit: "frame type"},
    {index: 1, kind: "number", name: "Stream ID", unit: "stream id"},
    {index: 2, kind: "number", name: "Maximum Stream Data", unit: "bytes"},
  ]}],
  [0x12, {kind: 0x12, type: 18, name: "MAX_STREAMS", quinn_proto: "MAX_STREAMS_BIDI", section: "RFC 9000, section 19.11", fields: [
    {index: 0, kind: "number", name: "Type", unit: "frame type"},
    {
      index: 1, kind: "implied", name: "Direction", unit: "0 bidirectional, 1 unidirectional", value: 0n,
    },
    {index: 2, kind: "number", name: "Maximum Streams", unit: "streams", max: 1152921504606846976n},
  ]}],
  [0x13, {kind: 0x13, type: 19, name: "MAX_STREAMS", quinn_proto: "MAX_STREAMS_UNI", section: "RFC 9000, section 19.11", fields: [
    {index: 0, kind: "number", name: "Type", unit: "frame type"},
    {
      index: 1, kind: "implied", name: "Direction", unit: "0 bidirectional, 1 unidirectional", value: 1n,
    },
    {index: 2, kind: "number", name: "Maximum Streams", unit: "streams", max: 1152921504606846976n},
  ]}],
  [0x14, {kind: 0x14, type: 20, name: "DATA_BLOCKED", section: "RFC 9000, section 19.12", fields: [
    {index: 0, kind: "number", name: "Type", unit: "frame type"},
    {index: 1, kind: "number", name: "Maximum Data", unit: "bytes"},
  ]}],
  [0x15, {kind: 0x15, type: 21, name: "STREAM_DATA_BLOCKED", section: "RFC 9000, section 19.13", fields: [
    {index: 0, kind: "number", name: "Type", unit: "frame type"},
    {index: 1, kind: "number", name: "Stream ID", unit: "stream id"},
    {index: 2, kind: "number", name: "Maximum Stream Data", unit: "bytes"},
  ]}],
  [0x16, {kind: 0x16, type: 22, name: "STREAMS_BLOCKED", quinn_proto: "STREAMS_BLOCKED_BIDI", section: "RFC 9000, section 19.14", fields: [
    {index: 0, kind: "number", name: "Type", unit: "frame type"},
    {
      index: 1, kind: "implied", name: "Direction", unit: "0 bidirectional, 1 unidirectional", value: 0n,
    },
    {index: 2, kind: "number", name: "Maximum Streams", unit: "streams", max: 1152921504606846976n},
  ]}],
  [0x17, {kind: 0x17, type: 23, name: "STREAMS_BLOCKED", quinn_proto: "STREAMS_BLOCKED_UNI", section: "RFC 9000, section 19.14", fields: [
    {index: 0, kind: "number", name: "Type", unit: "frame type"},
    {
      index: 1, kind: "implied", name: "Direction", unit: "0 bidirectional, 1 unidirectional", value: 1n,
    },
    {index: 2, kind: "number", name: "Maximum Streams", unit: "streams", max: 1152921504606846976n},
  ]}],
  [0x18, {kind: 0x18, type: 24, name: "NEW_CONNECTION_ID", section: "RFC 9000, section 19.15", fields: [
    {index: 0, kind: "number", name: "Type", unit: "frame type"},
    {index: 1, kind: "number", name: "Sequence Number", unit: "sequence number"},
    {index: 2, kind: "number", name: "Retire Prior To", unit: "sequence number"},
    {index: 3, kind: "ordered", at_most: {field: 2, of: 1}},
    {index: 4, kind: "id", name: "Connection ID", length: "Length", bytes: [1, 20]},
    {index: 5, kind: "bytes", name: "Stateless Reset Token", bytes: [16, 16]},
  ]}],
  [0x19, {kind: 0x19, type: 25, name: "RETIRE_CONNECTION_ID", section: "RFC 9000, section 19.16", fields: [
    {index: 0, kind: "number", name: "Type", unit: "frame type"},
    {index: 1, kind: "number", name: "Sequence Number", unit: "sequence number"},
  ]}],
  [0x1a, {kind: 0x1a, type: 26, name: "PATH_CHALLENGE", section: "RFC 9000, section 19.17", fields: [
    {index: 0, kind: "number", name: "Type", unit: "frame type"},
    {index: 1, kind: "uint64", name: "Data", bytes: [8, 8]},
  ]}],
  [0x1b, {kind: 0x1b, type: 27, name: "PATH_RESPONSE", section: "RFC 9000, section 19.18", fields: [
    {index: 0, kind: "number", name: "Type", unit: "frame type"},
    {index: 1, kind: "uint64", name: "Data", bytes: [8, 8]},
  ]}],
  [0x1c, {kind: 0x1c, type: 28, name: "CONNECTION_CLOSE", section: "RFC 9000, section 19.19", fields: [
    {index: 0, kind: "number", name: "Type", unit: "frame type"},
    {index: 1, kind: "number", name: "Error Code", unit: "error code"},
    {index: 2, kind: "number", name: "Frame Type", unit: "frame type, 0 if unknown"},
    {
      index: 3, kind: "counted", name: "Reason Phrase", unit: "UTF-8", length: "Reason Phrase Length",
    },
  ]}],
  [0x1d, {kind: 0x1d, type: 29, name: "CONNECTION_CLOSE", quinn_proto: "APPLICATION_CLOSE", section: "RFC 9000, section 19.19", fields: [
    {index: 0, kind: "number", name: "Type", unit: "frame type"},
    {index: 1, kind: "number", name: "Error Code", unit: "application error code"},
    {
      index: 2, kind: "counted", name: "Reason Phrase", unit: "UTF-8", length: "Reason Phrase Length",
    },
  ]}],
  [0x1e, {kind: 0x1e, type: 30, name: "HANDSHAKE_DONE", section: "RFC 9000, section 19.20", fields: [
    {index: 0, kind: "number", name: "Type", unit: "frame type"},
  ]}],
  [0x1f, {kind: 0x1f, type: 31, name: "IMMEDIATE_ACK", section: "draft-ietf-quic-ack-frequency, section 5", fields: [
    {index: 0, kind: "number", name: "Type", unit: "frame type"},
  ]}],
  [0x30, {kind: 0x30, type: 48, name: "DATAGRAM", section: "RFC 9221, section 4", fields: [
    {index: 0, kind: "number", name: "Type", unit: "frame type"},
    {index: 1, kind: "rest", name: "Datagram Data"},
  ]}],
  [0x31, {kind: 0x30, type: 49, name: "DATAGRAM", section: "RFC 9221, section 4", fields: [
    {index: 0, kind: "number", name: "Type", unit: "frame type"},
    {index: 1, kind: "counted", name: "Datagram Data", length: "Length"},
  ]}],
  [0xaf, {kind: 0xaf, type: 175, name: "ACK_FREQUENCY", section: "draft-ietf-quic-ack-frequency, section 4", fields: [
    {index: 0, kind: "number", name: "Type", unit: "frame type"},
    {index: 1, kind: "number", name: "Sequence Number", unit: "sequence number"},
    {index: 2, kind: "number", name: "Ack-Eliciting Threshold", unit: "packets"},
    {index: 3, kind: "number", name: "Requested Max Ack Delay", unit: "microseconds"},
    {index: 4, kind: "number", name: "Reordering Threshold", unit: "packets"},
  ]}],
]);

// Headers by their versions, then by their kinds of packets; those without a version of their own have version 0.
export const HEADERS = new Map([
  [0x0, new Map([
    [4, {name: "1-RTT", section: "RFC 9000, section 17.3.1", first_byte: [
      {name: "Header Form", bits: 1, value: 0},
      {name: "Fixed Bit", bits: 1, value: 1},
      {name: "Spin Bit", bits: 1},
      {name: "Reserved Bits", bits: 2},
      {name: "Key Phase", bits: 1},
      {name: "Packet Number Length", bits: 2},
    ], fields: [
      {index: 0, kind: "first_byte", bytes: [1, 1]},
      {index: 1, kind: "short_id", name: "Destination Connection ID", bytes: [0, 20]},
    ], after: ["Packet Number", "Packet Payload"]}],
    [5, {name: "Version Negotiation", section: "RFC 9000, section 17.2.1", first_byte: [
      {name: "Header Form", bits: 1, value: 1},
      {name: "Unused", bits: 7},
    ], fields: [
      {index: 0, kind: "first_byte", bytes: [1, 1]},
      {index: 1, kind: "uint32", name: "Version", bytes: [4, 4], value: 0n},
      {
        index: 2, kind: "id", name: "Destination Connection ID", length: "Destination Connection ID Length",
        bytes: [0, 20],
      },
      {
        index: 3, kind: "id", name: "Source Connection ID", length: "Source Connection ID Length", bytes: [0, 20],
      },
    ], after: ["Supported Version"]}],
  ])],
  [0x1, new Map([
    [0, {name: "Initial", section: "RFC 9000, section 17.2.2", first_byte: [
      {name: "Header Form", bits: 1, value: 1},
      {name: "Fixed Bit", bits: 1, value: 1},
      {name: "Long Packet Type", bits: 2, value: 0},
      {name: "Reserved Bits", bits: 2},
      {name: "Packet Number Length", bits: 2},
    ], fields: [
      {index: 0, kind: "first_byte", bytes: [1, 1]},
      {index: 1, kind: "uint32", name: "Version", bytes: [4, 4]},
      {
        index: 2, kind: "id", name: "Destination Connection ID", length: "Destination Connection ID Length",
        bytes: [0, 20],
      },
      {
        index: 3, kind: "id", name: "Source Connection ID", length: "Source Connection ID Length", bytes: [0, 20],
      },
      {index: 4, kind: "supported", name: "Version"},
      {index: 5, kind: "number", name: "Token Length"},
      {index: 6, kind: "token", name: "Token"},
      {index: 7, kind: "number", name: "Length"},
    ], after: ["Packet Number", "Packet Payload"]}],
    [1, {name: "0-RTT", section: "RFC 9000, section 17.2.3", first_byte: [
      {name: "Header Form", bits: 1, value: 1},
      {name: "Fixed Bit", bits: 1, value: 1},
      {name: "Long Packet Type", bits: 2, value: 1},
      {name: "Reserved Bits", bits: 2},
      {name: "Packet Number Length", bits: 2},
    ], fields: [
      {index: 0, kind: "first_byte", bytes: [1, 1]},
      {index: 1, kind: "uint32", name: "Version", bytes: [4, 4]},
      {
        index: 2, kind: "id", name: "Destination Connection ID", length: "Destination Connection ID Length",
        bytes: [0, 20],
      },
      {
        index: 3, kind: "id", name: "Source Connection ID", length: "Source Connection ID Length", bytes: [0, 20],
      },
      {index: 4, kind: "supported", name: "Version"},
      {index: 5, kind: "number", name: "Length"},
    ], after: ["Packet Number", "Packet Payload"]}],
    [2, {name: "Handshake", section: "RFC 9000, section 17.2.4", first_byte: [
      {name: "Header Form", bits: 1, value: 1},
      {name: "Fixed Bit", bits: 1, value: 1},
      {name: "Long Packet Type", bits: 2, value: 2},
      {name: "Reserved Bits", bits: 2},
      {name: "Packet Number Length", bits: 2},
    ], fields: [
      {index: 0, kind: "first_byte", bytes: [1, 1]},
      {index: 1, kind: "uint32", name: "Version", bytes: [4, 4]},
      {
        index: 2, kind: "id", name: "Destination Connection ID", length: "Destination Connection ID Length",
        bytes: [0, 20],
      },
      {
        index: 3, kind: "id", name: "Source Connection ID", length: "Source Connection ID Length", bytes: [0, 20],
      },
      {index: 4, kind: "supported", name: "Version"},
      {index: 5, kind: "number", name: "Length"},
    ], after: ["Packet Number", "Packet Payload"]}],
    [3, {name: "Retry", section: "RFC 9000, section 17.2.5", first_byte: [
      {name: "Header Form", bits: 1, value: 1},
      {name: "Fixed Bit", bits: 1, value: 1},
      {name: "Long Packet Type", bits: 2, value: 3},
      {name: "Unused", bits: 4},
    ], fields: [
      {index: 0, kind: "first_byte", bytes: [1, 1]},
      {index: 1, kind: "uint32", name: "Version", bytes: [4, 4]},
      {
        index: 2, kind: "id", name: "Destination Connection ID", length: "Destination Connection ID Length",
        bytes: [0, 20],
      },
      {
        index: 3, kind: "id", name: "Source Connection ID", length: "Source Connection ID Length", bytes: [0, 20],
      },
      {index: 4, kind: "supported", name: "Version"},
    ], after: ["Retry Token", "Retry Integrity Tag"]}],
  ])],
  [0x6b3343cf, new Map([
    [0, {name: "Initial", section: "RFC 9000, section 17.2.2", first_byte: [
      {name: "Header Form", bits: 1, value: 1},
      {name: "Fixed Bit", bits: 1, value: 1},
      {name: "Long Packet Type", bits: 2, value: 1},
      {name: "Reserved Bits", bits: 2},
      {name: "Packet Number Length", bits: 2},
    ], fields: [
      {index: 0, kind: "first_byte", bytes: [1, 1]},
      {index: 1, kind: "uint32", name: "Version", bytes: [4, 4]},
      {
        index: 2, kind: "id", name: "Destination Connection ID", length: "Destination Connection ID Length",
        bytes: [0, 20],
      },
      {
        index: 3, kind: "id", name: "Source Connection ID", length: "Source Connection ID Length", bytes: [0, 20],
      },
      {index: 4, kind: "supported", name: "Version"},
      {index: 5, kind: "number", name: "Token Length"},
      {index: 6, kind: "token", name: "Token"},
      {index: 7, kind: "number", name: "Length"},
    ], after: ["Packet Number", "Packet Payload"]}],
    [1, {name: "0-RTT", section: "RFC 9000, section 17.2.3", first_byte: [
      {name: "Header Form", bits: 1, value: 1},
      {name: "Fixed Bit", bits: 1, value: 1},
      {name: "Long Packet Type", bits: 2, value: 2},
      {name: "Reserved Bits", bits: 2},
      {name: "Packet Number Length", bits: 2},
    ], fields: [
      {index: 0, kind: "first_byte", bytes: [1, 1]},
      {index: 1, kind: "uint32", name: "Version", bytes: [4, 4]},
      {
        index: 2, kind: "id", name: "Destination Connection ID", length: "Destination Connection ID Length",
        bytes: [0, 20],
      },
      {
        index: 3, kind: "id", name: "Source Connection ID", length: "Source Connection ID Length", bytes: [0, 20],
      },
      {index: 4, kind: "supported", name: "Version"},
      {index: 5, kind: "number", name: "Length"},
    ], after: ["Packet Number", "Packet Payload"]}],
    [2, {name: "Handshake", section: "RFC 9000, section 17.2.4", first_byte: [
      {name: "Header Form", bits: 1, value: 1},
      {name: "Fixed Bit", bits: 1, value: 1},
      {name: "Long Packet Type", bits: 2, value: 3},
      {name: "Reserved Bits", bits: 2},
      {name: "Packet Number Length", bits: 2},
    ], fields: [
      {index: 0, kind: "first_byte", bytes: [1, 1]},
      {index: 1, kind: "uint32", name: "Version", bytes: [4, 4]},
      {
        index: 2, kind: "id", name: "Destination Connection ID", length: "Destination Connection ID Length",
        bytes: [0, 20],
      },
      {
        index: 3, kind: "id", name: "Source Connection ID", length: "Source Connection ID Length", bytes: [0, 20],
      },
      {index: 4, kind: "supported", name: "Version"},
      {index: 5, kind: "number", name: "Length"},
    ], after: ["Packet Number", "Packet Payload"]}],
    [3, {name: "Retry", section: "RFC 9000, section 17.2.5", first_byte: [
      {name: "Header Form", bits: 1, value: 1},
      {name: "Fixed Bit", bits: 1, value: 1},
      {name: "Long Packet Type", bits: 2, value: 0},
      {name: "Unused", bits: 4},
    ], fields: [
      {index: 0, kind: "first_byte", bytes: [1, 1]},
      {index: 1, kind: "uint32", name: "Version", bytes: [4, 4]},
      {
        index: 2, kind: "id", name: "Destination Connection ID", length: "Destination Connection ID Length",
        bytes: [0, 20],
      },
      {
        index: 3, kind: "id", name: "Source Connection ID", length: "Source Connection ID Length", bytes: [0, 20],
      },
      {index: 4, kind: "supported", name: "Version"},
    ], after: ["Retry Token", "Retry Integrity Tag"]}],
  ])],
]);

// Transport parameters by their ids. |wanted| is what the value must be, |bound| of a number its bounds.
export const PARAMETERS = new Map([
  [0x0, {
    id: 0, name: "original_destination_connection_id", quinn_proto: "original_dst_cid",
    section: "RFC 9000, section 18.2", kind: "id", bytes: [0, 20], senders: ["server"],
    repeat: {quinn_proto: false, rfc: false}, order: 16, wanted: "an id of at most 20 bytes",
  }],
  [0x1, {
    id: 1, name: "max_idle_timeout", section: "RFC 9000, section 18.2", kind: "number",
    unit: "milliseconds, 0 for none", default: 0n, any_width: {quinn_proto: false, rfc: true},
    senders: ["client", "server"], repeat: {quinn_proto: false, rfc: false}, order: 0,
    wanted: "one variable-length integer and nothing after it",
  }],
  [0x2, {
    id: 2, name: "stateless_reset_token", section: "RFC 9000, section 18.2", kind: "bytes", bytes: [16, 16],
    senders: ["server"], repeat: {quinn_proto: false, rfc: false}, order: 12, wanted: "16 bytes",
  }],
  [0x3, {
    id: 3, name: "max_udp_payload_size", section: "RFC 9000, section 18.2", kind: "number", unit: "bytes",
    default: 65527n, min: 1200n, any_width: {quinn_proto: false, rfc: true}, senders: ["client", "server"],
    repeat: {quinn_proto: false, rfc: false}, order: 1, wanted: "a number of 1200 or more", bound: "1200 or more",
  }],
  [0x4, {
    id: 4, name: "initial_max_data", section: "RFC 9000, section 18.2", kind: "number", unit: "bytes", default: 0n,
    any_width: {quinn_proto: false, rfc: true}, senders: ["client", "server"],
    repeat: {quinn_proto: false, rfc: false}, order: 2, wanted: "one variable-length integer and nothing after it",
  }],
  [0x5, {
    id: 5, name: "initial_max_stream_data_bidi_local", section: "RFC 9000, section 18.2", kind: "number",
    unit: "bytes", default: 0n, any_width: {quinn_proto: false, rfc: true}, senders: ["client", "server"],
    repeat: {quinn_proto: false, rfc: false}, order: 3, wanted: "one variable-length integer and nothing after it",
  }],
  [0x6, {
    id: 6, name: "initial_max_stream_data_bidi_remote", section: "RFC 9000, section 18.2", kind: "number",
    unit: "bytes", default: 0n, any_width: {quinn_proto: false, rfc: true}, senders: ["client", "server"],
    repeat: {quinn_proto: false, rfc: false}, order: 4, wanted: "one variable-length integer and nothing after it",
  }],
  [0x7, {
    id: 7, name: "initial_max_stream_data_uni", section: "RFC 9000, section 18.2", kind: "number", unit: "bytes",
    default: 0n, any_width: {quinn_proto: false, rfc: true}, senders: ["client", "server"],
    repeat: {quinn_proto: false, rfc: false}, order: 5, wanted: "one variable-length integer and nothing after it",
  }],
  [0x8, {
    id: 8, name: "initial_max_streams_bidi", section: "RFC 9000, section 18.2", kind: "number", unit: "streams",
    default: 0n, max: 1152921504606846976n, any_width: {quinn_proto: false, rfc: true}, senders: ["client", "server"],
    repeat: {quinn_proto: false, rfc: false}, order: 6, wanted: "a number of at most 2^60", bound: "at most 2^60",
  }],
  [0x9, {
    id: 9, name: "initial_max_streams_uni", section: "RFC 9000, section 18.2", kind: "number", unit: "streams",
    default: 0n, max: 1152921504606846976n, any_width: {quinn_proto: false, rfc: true}, senders: ["client", "server"],
    repeat: {quinn_proto: false, rfc: false}, order: 7, wanted: "a number of at most 2^60", bound: "at most 2^60",
  }],
  [0xa, {
    id: 10, name: "ack_delay_exponent", section: "RFC 9000, section 18.2", kind: "number", unit: "power of 2",
    default: 3n, max: 20n, any_width: {quinn_proto: false, rfc: true}, senders: ["client", "server"],
    repeat: {quinn_proto: false, rfc: false}, order: 8, wanted: "a number of at most 20", bound: "at most 20",
  }],
  [0xb, {
    id: 11, name: "max_ack_delay", section: "RFC 9000, section 18.2", kind: "number", unit: "milliseconds",
    default: 25n, max: 16383n, any_width: {quinn_proto: false, rfc: true}, senders: ["client", "server"],
    repeat: {quinn_proto: false, rfc: false}, order: 9, wanted: "a number below 2^14", bound: "below 2^14",
  }],
  [0xc, {
    id: 12, name: "disable_active_migration", section: "RFC 9000, section 18.2", kind: "flag", bytes: [0, 0],
    senders: ["client", "server"], repeat: {quinn_proto: false, rfc: false}, order: 13, wanted: "no bytes",
  }],
  [0xd, {
    id: 13, name: "preferred_address", section: "RFC 9000, section 18.2", kind: "preferred_address",
    senders: ["server"], repeat: {quinn_proto: false, rfc: false}, order: 15,
    wanted: "an address, an id that isn't empty, a token",
  }],
  [0xe, {
    id: 14, name: "active_connection_id_limit", section: "RFC 9000, section 18.2", kind: "number",
    unit: "connection ids", default: 2n, min: 2n, any_width: {quinn_proto: false, rfc: true},
    senders: ["client", "server"], repeat: {quinn_proto: false, rfc: false}, order: 10,
    wanted: "a number of 2 or more", bound: "2 or more",
  }],
  [0xf, {
    id: 15, name: "initial_source_connection_id", quinn_proto: "initial_src_cid", section: "RFC 9000, section 18.2",
    kind: "id", bytes: [0, 20], senders: ["client", "server"], repeat: {quinn_proto: false, rfc: false}, order: 17,
    wanted: "an id of at most 20 bytes",
  }],
  [0x10, {
    id: 16, name: "retry_source_connection_id", quinn_proto: "retry_src_cid", section: "RFC 9000, section 18.2",
    kind: "id", bytes: [0, 20], senders: ["server"], repeat: {quinn_proto: false, rfc: false}, order: 18,
    wanted: "an id of at most 20 bytes",
  }],
  [0x1b, {
    id: 27, name: "reserved", quinn_proto: "grease_transport_parameter", section: "RFC 9000, section 18.1",
    kind: "skipped", senders: ["client", "server"], repeat: {quinn_proto: true, rfc: true}, order: 11,
    wanted: "any bytes",
  }],
  [0x20, {
    id: 32, name: "max_datagram_frame_size", section: "RFC 9221, section 3", kind: "number", unit: "bytes",
    any_width: {quinn_proto: true, rfc: true}, senders: ["client", "server"], repeat: {quinn_proto: false, rfc: false},
    order: 14, wanted: "one variable-length integer and nothing after it",
  }],
  [0x2ab2, {
    id: 10930, name: "grease_quic_bit", section: "RFC 9287, section 3", kind: "flag", bytes: [0, 0],
    senders: ["client", "server"], repeat: {quinn_proto: true, rfc: false}, order: 19, wanted: "no bytes",
  }],
  [0xff04de1b, {
    id: 4278509083, name: "min_ack_delay", section: "draft-ietf-quic-ack-frequency, section 3", kind: "number",
    unit: "microseconds", max_of: {times: 1000n, parameter: "max_ack_delay"},
    any_width: {quinn_proto: true, rfc: true}, senders: ["client", "server"], repeat: {quinn_proto: true, rfc: false},
    order: 20, wanted: "a number of microseconds, at most max_ack_delay", bound: "at most max_ack_delay",
  }],
]);

// Codes to close with.
export const ERROR_CODES = new Map([
  [0x0, {
    code: 0, name: "NO_ERROR", section: "RFC 9000, section 20.1",
    text: "the connection is being closed abruptly in the absence of any error",
  }],
  [0x1, {
    code: 1, name: "INTERNAL_ERROR", section: "RFC 9000, section 20.1",
    text: "the endpoint encountered an internal error and cannot continue with the connection",
  }],
  [0x2, {
    code: 2, name: "CONNECTION_REFUSED", section: "RFC 9000, section 20.1",
    text: "the server refused to accept a new connection",
  }],
  [0x3, {
    code: 3, name: "FLOW_CONTROL_ERROR", section: "RFC 9000, section 20.1",
    text: "received more data than permitted in advertised data limits",
  }],
  [0x4, {
    code: 4, name: "STREAM_LIMIT_ERROR", section: "RFC 9000, section 20.1",
    text: "received a frame for a stream identifier that exceeded advertised the stream limit for the corresponding stream type",
  }],
  [0x5, {
    code: 5, name: "STREAM_STATE_ERROR", section: "RFC 9000, section 20.1",
    text: "received a frame for a stream that was not in a state that permitted that frame",
  }],
  [0x6, {
    code: 6, name: "FINAL_SIZE_ERROR", section: "RFC 9000, section 20.1",
    text: "received a STREAM frame or a RESET_STREAM frame containing a different final size to the one already established",
  }],
  [0x7, {
    code: 7, name: "FRAME_ENCODING_ERROR", section: "RFC 9000, section 20.1",
    text: "received a frame that was badly formatted",
  }],
  [0x8, {
    code: 8, name: "TRANSPORT_PARAMETER_ERROR", section: "RFC 9000, section 20.1",
    text: "received transport parameters that were badly formatted, included an invalid value, was absent even though it is mandatory, was present though it is forbidden, or is otherwise in error",
  }],
  [0x9, {
    code: 9, name: "CONNECTION_ID_LIMIT_ERROR", section: "RFC 9000, section 20.1",
    text: "the number of connection IDs provided by the peer exceeds the advertised active_connection_id_limit",
  }],
  [0xa, {
    code: 10, name: "PROTOCOL_VIOLATION", section: "RFC 9000, section 20.1",
    text: "detected an error with protocol compliance that was not covered by more specific error codes",
  }],
  [0xb, {
    code: 11, name: "INVALID_TOKEN", section: "RFC 9000, section 20.1",
    text: "received an invalid Retry Token in a client Initial",
  }],
  [0xc, {
    code: 12, name: "APPLICATION_ERROR", section: "RFC 9000, section 20.1",
    text: "the application or application protocol caused the connection to be closed during the handshake",
  }],
  [0xd, {
    code: 13, name: "CRYPTO_BUFFER_EXCEEDED", section: "RFC 9000, section 20.1",
    text: "received more data in CRYPTO frames than can be buffered",
  }],
  [0xe, {code: 14, name: "KEY_UPDATE_ERROR", section: "RFC 9000, section 20.1", text: "key update error"}],
  [0xf, {
    code: 15, name: "AEAD_LIMIT_REACHED", section: "RFC 9000, section 20.1",
    text: "the endpoint has reached the confidentiality or integrity limit for the AEAD algorithm",
  }],
  [0x10, {
    code: 16, name: "NO_VIABLE_PATH", section: "RFC 9000, section 20.1", text: "no viable network path exists",
  }],
  [0x100, {code: 256, last: 511, name: "CRYPTO_ERROR", section: "RFC 9001, section 4.8"}],
]);

// Why something is rejected, by what the library returns.
export const REASONS = new Map([
  [-1, {number: -1, about: "call", name: "ARGUMENT", close_code: 1, text: "invalid argument"}],
  [-2, {number: -2, about: "call", name: "PLACE", close_code: 1, text: "place outside of the bytes"}],
  [-3, {number: -3, about: "call", name: "KIND", close_code: 1, text: "no such kind"}],
  [-5, {number: -5, about: "call", name: "NUMBER", close_code: 1, text: "number out of range"}],
  [-6, {number: -6, about: "call", name: "LENGTH", close_code: 1, text: "length out of range"}],
  [-7, {number: -7, about: "call", name: "RANGES", close_code: 1, text: "ranges not sorted or touching"}],
  [-8, {
    number: -8, about: "call", name: "PARAM", close_code: 1, text: "parameters that the peer would refuse",
  }],
  [-9, {number: -9, about: "call", name: "NOBUF", close_code: 1, text: "buffer too small"}],
  [-20, {
    number: -20, about: "frame", name: "PAYLOAD_EMPTY", close_code: 10, section: "RFC 9000, section 12.4",
    text: "packet payload is empty",
  }],
  [-21, {
    number: -21, about: "frame", name: "FRAME_END", close_code: 7, section: "RFC 9000, section 20.1",
    text: "unexpected end",
  }],
  [-22, {
    number: -22, about: "frame", name: "FRAME_TYPE", close_code: 7, section: "RFC 9000, section 12.4",
    text: "invalid frame ID",
  }],
  [-23, {
    number: -23, about: "frame", name: "FRAME_MALFORMED", close_code: 7,
    section: "RFC 9000, sections 19.3.1, 19.7, 19.15", text: "malformed",
  }],
  [-24, {
    number: -24, about: "frame", name: "FRAME_LONG_TYPE", close_code: 10, section: "RFC 9000, section 12.4",
    text: "frame type not in shortest form",
  }],
  [-25, {
    number: -25, about: "frame", name: "FRAME_LIMIT", close_code: 7,
    section: "RFC 9000, sections 19.6, 19.8, 19.11, 19.14", text: "limit exceeded",
  }],
  [-26, {
    number: -26, about: "frame", name: "FRAME_PACKET", close_code: 10, section: "RFC 9000, section 12.4",
    text: "not permitted in this packet",
  }],
  [-27, {
    number: -27, about: "frame", name: "FRAME_SENDER", close_code: 10, section: "RFC 9000, sections 19.7, 19.20",
    text: "not permitted from this side",
  }],
  [-28, {
    number: -28, about: "frame", name: "FRAME_STREAM", close_code: 5,
    section: "RFC 9000, sections 19.4, 19.5, 19.8, 19.10, 19.13", text: "not permitted on this stream",
  }],
  [-40, {
    number: -40, about: "header", name: "PACKET_END", close_code: 0, section: "RFC 9000, section 17",
    text: "unexpected end of packet",
  }],
  [-41, {
    number: -41, about: "header", name: "PACKET_FIXED_BIT", close_code: 0, section: "RFC 9000, sections 17.2, 17.3.1",
    text: "fixed bit unset",
  }],
  [-42, {
    number: -42, about: "header", name: "PACKET_SMALL", close_code: 0, section: "RFC 9001, section 5.4.2",
    text: "packet too small",
  }],
  [-43, {
    number: -43, about: "header", name: "PACKET_CID", close_code: 0, section: "RFC 9000, section 17.2",
    text: "malformed cid",
  }],
  [-44, {
    number: -44, about: "header", name: "PACKET_TOKEN", close_code: 0, section: "RFC 9000, section 17.2.2",
    text: "token out of bounds",
  }],
  [-45, {
    number: -45, about: "header", name: "PACKET_VERSION", close_code: 0, section: "RFC 9000, section 6.1",
    text: "unsupported version",
  }],
  [-46, {
    number: -46, about: "header", name: "PACKET_CUT", close_code: 0, section: "RFC 9000, section 12.2",
    text: "packet too short to contain payload length",
  }],
  [-47, {
    number: -47, about: "header", name: "PACKET_RETRY", close_code: 0, section: "RFC 9000, section 17.2.5",
    text: "Retry without a token or a tag",
  }],
  [-60, {
    number: -60, about: "list", name: "PARAMS_MALFORMED", close_code: 8, section: "RFC 9000, section 7.4",
    text: "malformed",
  }],
  [-61, {
    number: -61, about: "list", name: "PARAMS_ILLEGAL", close_code: 8, section: "RFC 9000, sections 7.4, 18.2",
    text: "illegal value",
  }],
]);

export const PREFERRED_ADDRESS = [
  {name: "IPv4 Address", kind: "bytes", bytes: [4, 4]},
  {name: "IPv4 Port", kind: "bytes", bytes: [2, 2]},
  {name: "IPv6 Address", kind: "bytes", bytes: [16, 16]},
  {name: "IPv6 Port", kind: "bytes", bytes: [2, 2]},
  {name: "Connection ID", kind: "id", length: "Connection ID Length", bytes: [1, 20]},
  {name: "Stateless Reset Token", kind: "bytes", bytes: [16, 16]},
];

// The versions that are read by default: 1, the drafts 29 to 34, 2.
export const VERSIONS = [
  0x00000001, 0xff00001d, 0xff00001e, 0xff00001f, 0xff000020, 0xff000021, 0xff000022, 0x6b3343cf,
];
