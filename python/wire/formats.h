/* SPDX-License-Identifier: MIT OR Apache-2.0 */
/* Made by scripts/make/tables from docs/formats.json: change nothing here.
 * Rows of tables: the fields of every frame and of every packet, the kinds of both with their own fields, the
 * transport parameters in their order, the results and flags of readers. Before a file includes this one, it defines
 * what a row is; rows that it doesn't define are nothing. Each inclusion forgets the definitions.
 *
 * - FIELD(name, what it is, its slot in the union, documentation) */
/* The versions that are read by default. */
#define USUAL_VERSIONS {0x00000001, 0xff00001d, 0xff00001e, 0xff00001f, 0xff000020, 0xff000021, 0xff000022, 0x6b3343cf}
/* How the class of transport parameters is called. */
#define PARAMETERS_SIGNATURE "*, max_idle_timeout=0, max_udp_payload_size=65527, initial_max_data=0, initial_max_stream_data_bidi_local=0, initial_max_stream_data_bidi_remote=0, initial_max_stream_data_uni=0, initial_max_streams_bidi=0, initial_max_streams_uni=0, ack_delay_exponent=3, max_ack_delay=25, active_connection_id_limit=2, stateless_reset_token=None, disable_active_migration=False, max_datagram_frame_size=None, preferred_address=None, original_destination_connection_id=None, initial_source_connection_id=None, retry_source_connection_id=None, grease_quic_bit=False, min_ack_delay=None"
#ifndef FRAME_FIELD
#define FRAME_FIELD(name, how, bit, doc)
#endif
#ifndef PACKET_FIELD
#define PACKET_FIELD(name, how, bit, doc)
#endif
#ifndef FRAME_KIND
#define FRAME_KIND(word, name, doc, fields)
#endif
#ifndef PACKET_KIND
#define PACKET_KIND(name, doc, fields)
#endif
#ifndef PARAMETER
#define PARAMETER(name, kind, id, at, len_at, present, doc)
#endif
#ifndef RESULT
#define RESULT(word)
#endif
#ifndef READ_FLAG
#define READ_FLAG(word)
#endif

FRAME_FIELD("begin", begin, 0,
     "where it begins in its payload; 0 if it wasn't read")
FRAME_FIELD("end", end, 0,
     "where it ends in its payload")
FRAME_FIELD("type", type, 0,
     "the type in the payload; if it wasn't read, one of its kind")
FRAME_FIELD("kind", kind, 0,
     "the type, but one number for every STREAM (0x08), one for every ACK (0x02), one for every DATAGRAM")
FRAME_FIELD("name", name, 0,
     "the type's name")
FRAME_FIELD("is_ack_eliciting", rule_not, QUIC_WIRE_RULE_NOT_ELICITING,
     "whether a packet with it is acknowledged (RFC 9000, section 13.2.1)")
FRAME_FIELD("is_counted_in_flight", rule_not, QUIC_WIRE_RULE_NOT_COUNTED,
     "whether a packet with it counts as bytes in flight")
FRAME_FIELD("is_probing", rule, QUIC_WIRE_RULE_PROBING,
     "whether it probes a path (RFC 9000, section 9.1)")
FRAME_FIELD("is_flow_controlled", rule, QUIC_WIRE_RULE_FLOW_CONTROLLED,
     "whether its data are flow controlled")

PACKET_FIELD("begin", begin, 0,
     "where it begins in its datagram")
PACKET_FIELD("end", end, 0,
     "where it ends in its datagram")
PACKET_FIELD("first", first, 0,
     "the first byte, with its protection")
PACKET_FIELD("kind", kind, 0,
     "the packet's type, as in PacketType")
PACKET_FIELD("number_at", number_at, 0,
     "where the packet number begins in the datagram, or None")
PACKET_FIELD("data", data, 0,
     "all of the packet")
PACKET_FIELD("version", version, 0,
     "the version, or 0 if none is known")
PACKET_FIELD("dcid", dcid, 0,
     "Destination Connection ID")
PACKET_FIELD("scid", scid, 0,
     "Source Connection ID; empty in a short header")

FRAME_KIND(PADDING, "Padding",
     "Padding(count=1)\n--\n\nPADDING (RFC 9000, section 19.1), as many as follow each other.",
     FIELD("count", count, 0, "how many PADDING frames follow each other here"))
FRAME_KIND(PING, "Ping",
     "Ping()\n--\n\nPING (RFC 9000, section 19.2).",)
FRAME_KIND(ACK, "Ack",
     "Ack(largest=0, delay=0, ranges=None, ect0=None, ect1=None, ce=None)\n--\n\nACK (RFC 9000, section 19.3).",
     FIELD("largest", number, 0, "the largest acknowledged packet number")
     FIELD("delay", number, 1, "ACK Delay: microseconds, shifted right by the sender's ack_delay_exponent")
     FIELD("ranges", ranges, 0, "the acknowledged packet numbers, the greatest range first")
     FIELD("ect0", ecn, 2, "ECT0 Count, packets marked ECT(0), or None")
     FIELD("ect1", ecn, 3, "ECT1 Count, packets marked ECT(1), or None")
     FIELD("ce", ecn, 4, "ECN-CE Count, packets marked ECN-CE, or None"))
FRAME_KIND(RESET_STREAM, "ResetStream",
     "ResetStream(stream_id=0, error_code=0, final_size=0)\n--\n\nRESET_STREAM (RFC 9000, section 19.4).",
     FIELD("stream_id", number, 0, "Stream ID")
     FIELD("error_code", number, 1, "Application Protocol Error Code")
     FIELD("final_size", number, 2, "Final Size, bytes"))
FRAME_KIND(STOP_SENDING, "StopSending",
     "StopSending(stream_id=0, error_code=0)\n--\n\nSTOP_SENDING (RFC 9000, section 19.5).",
     FIELD("stream_id", number, 0, "Stream ID")
     FIELD("error_code", number, 1, "Application Protocol Error Code"))
FRAME_KIND(CRYPTO, "Crypto",
     "Crypto(offset=0, data=b'')\n--\n\nCRYPTO (RFC 9000, section 19.6).",
     FIELD("offset", number, 1, "Offset, where the data begin in their stream, bytes")
     FIELD("data", data, 0, "Crypto Data"))
FRAME_KIND(NEW_TOKEN, "NewToken",
     "NewToken(token=b'')\n--\n\nNEW_TOKEN (RFC 9000, section 19.7).",
     FIELD("token", bytes, 0, "Token"))
FRAME_KIND(STREAM, "Stream",
     "Stream(stream_id=0, offset=0, fin=False, data=b'')\n--\n\nSTREAM (RFC 9000, section 19.8).",
     FIELD("stream_id", number, 0, "Stream ID")
     FIELD("offset", number, 1, "Offset, where the data begin in their stream, bytes")
     FIELD("fin", fin, 0, "FIN, whether the data end the stream")
     FIELD("data", data, 0, "Stream Data"))
FRAME_KIND(MAX_DATA, "MaxData",
     "MaxData(limit=0)\n--\n\nMAX_DATA (RFC 9000, section 19.9).",
     FIELD("limit", number, 1, "Maximum Data, bytes"))
FRAME_KIND(MAX_STREAM_DATA, "MaxStreamData",
     "MaxStreamData(stream_id=0, limit=0)\n--\n\nMAX_STREAM_DATA (RFC 9000, section 19.10).",
     FIELD("stream_id", number, 0, "Stream ID")
     FIELD("limit", number, 1, "Maximum Stream Data, bytes"))
FRAME_KIND(MAX_STREAMS_BIDI, "MaxStreamsBidi",
     "MaxStreamsBidi(limit=0)\n--\n\nMAX_STREAMS of bidirectional streams (RFC 9000, section 19.11).",
     FIELD("limit", number, 1, "Maximum Streams"))
FRAME_KIND(MAX_STREAMS_UNI, "MaxStreamsUni",
     "MaxStreamsUni(limit=0)\n--\n\nMAX_STREAMS of unidirectional streams (RFC 9000, section 19.11).",
     FIELD("limit", number, 1, "Maximum Streams"))
FRAME_KIND(DATA_BLOCKED, "DataBlocked",
     "DataBlocked(limit=0)\n--\n\nDATA_BLOCKED (RFC 9000, section 19.12).",
     FIELD("limit", number, 1, "Maximum Data, bytes"))
FRAME_KIND(STREAM_DATA_BLOCKED, "StreamDataBlocked",
     "StreamDataBlocked(stream_id=0, limit=0)\n--\n\nSTREAM_DATA_BLOCKED (RFC 9000, section 19.13).",
     FIELD("stream_id", number, 0, "Stream ID")
     FIELD("limit", number, 1, "Maximum Stream Data, bytes"))
FRAME_KIND(STREAMS_BLOCKED_BIDI, "StreamsBlockedBidi",
     "StreamsBlockedBidi(limit=0)\n--\n\nSTREAMS_BLOCKED of bidirectional streams (RFC 9000, section 19.14).",
     FIELD("limit", number, 1, "Maximum Streams"))
FRAME_KIND(STREAMS_BLOCKED_UNI, "StreamsBlockedUni",
     "StreamsBlockedUni(limit=0)\n--\n\nSTREAMS_BLOCKED of unidirectional streams (RFC 9000, section 19.14).",
     FIELD("limit", number, 1, "Maximum Streams"))
FRAME_KIND(NEW_CONNECTION_ID, "NewConnectionId",
     "NewConnectionId(sequence=0, retire_prior_to=0, connection_id=..., reset_token=...)\n--\n\nNEW_CONNECTION_ID (RFC 9000, section 19.15). connection_id and reset_token must be given.",
     FIELD("sequence", number, 0, "Sequence Number")
     FIELD("retire_prior_to", number, 1, "Retire Prior To, sequence number")
     FIELD("connection_id", bytes, 0, "Connection ID, 1 to 20 bytes")
     FIELD("reset_token", token, 0, "Stateless Reset Token, 16 bytes; compare it by hmac.compare_digest (RFC 9000, section 10.3.1)"))
FRAME_KIND(RETIRE_CONNECTION_ID, "RetireConnectionId",
     "RetireConnectionId(sequence=0)\n--\n\nRETIRE_CONNECTION_ID (RFC 9000, section 19.16).",
     FIELD("sequence", number, 0, "Sequence Number"))
FRAME_KIND(PATH_CHALLENGE, "PathChallenge",
     "PathChallenge(data=b'\\0\\0\\0\\0\\0\\0\\0\\0')\n--\n\nPATH_CHALLENGE (RFC 9000, section 19.17).",
     FIELD("data", path, 0, "Data, 8 bytes"))
FRAME_KIND(PATH_RESPONSE, "PathResponse",
     "PathResponse(data=b'\\0\\0\\0\\0\\0\\0\\0\\0')\n--\n\nPATH_RESPONSE (RFC 9000, section 19.18).",
     FIELD("data", path, 0, "Data, 8 bytes"))
FRAME_KIND(CONNECTION_CLOSE, "ConnectionClose",
     "ConnectionClose(error_code=0, frame_type=0, reason=b'')\n--\n\nCONNECTION_CLOSE of the transport, 0x1c (RFC 9000, section 19.19).",
     FIELD("error_code", number, 0, "Error Code")
     FIELD("frame_type", number, 1, "Frame Type, that of the frame at fault; 0: none is known")
     FIELD("reason", bytes, 0, "Reason Phrase, UTF-8"))
FRAME_KIND(APPLICATION_CLOSE, "ApplicationClose",
     "ApplicationClose(error_code=0, reason=b'')\n--\n\nCONNECTION_CLOSE of the application, 0x1d (RFC 9000, section 19.19).",
     FIELD("error_code", number, 0, "Error Code, application error code")
     FIELD("reason", bytes, 0, "Reason Phrase, UTF-8"))
FRAME_KIND(HANDSHAKE_DONE, "HandshakeDone",
     "HandshakeDone()\n--\n\nHANDSHAKE_DONE (RFC 9000, section 19.20).",)
FRAME_KIND(IMMEDIATE_ACK, "ImmediateAck",
     "ImmediateAck()\n--\n\nIMMEDIATE_ACK (draft-ietf-quic-ack-frequency, section 5).",)
FRAME_KIND(DATAGRAM, "Datagram",
     "Datagram(data=b'')\n--\n\nDATAGRAM (RFC 9221, section 4).",
     FIELD("data", data, 0, "Datagram Data"))
FRAME_KIND(ACK_FREQUENCY, "AckFrequency",
     "AckFrequency(sequence=0, ack_eliciting_threshold=0, max_ack_delay=0, reordering_threshold=0)\n--\n\nACK_FREQUENCY (draft-ietf-quic-ack-frequency, section 4).",
     FIELD("sequence", number, 0, "Sequence Number")
     FIELD("ack_eliciting_threshold", number, 1, "Ack-Eliciting Threshold, packets")
     FIELD("max_ack_delay", number, 2, "Requested Max Ack Delay, microseconds")
     FIELD("reordering_threshold", number, 3, "Reordering Threshold, packets"))

PACKET_KIND("Initial",
     "An Initial packet (RFC 9000, section 17.2.2).",
     FIELD("version", version, 0, "the version")
     FIELD("dcid", dcid, 0, "Destination Connection ID")
     FIELD("scid", scid, 0, "Source Connection ID")
     FIELD("token", token, 0, "Token")
     FIELD("length", length, 0, "Length: bytes of packet number and payload")
     FIELD("token_at", token_at, 0, "where the token begins in the datagram"))
PACKET_KIND("ZeroRtt",
     "A 0-RTT packet (RFC 9000, section 17.2.3).",
     FIELD("version", version, 0, "the version")
     FIELD("dcid", dcid, 0, "Destination Connection ID")
     FIELD("scid", scid, 0, "Source Connection ID")
     FIELD("length", length, 0, "Length: bytes of packet number and payload"))
PACKET_KIND("Handshake",
     "A Handshake packet (RFC 9000, section 17.2.4).",
     FIELD("version", version, 0, "the version")
     FIELD("dcid", dcid, 0, "Destination Connection ID")
     FIELD("scid", scid, 0, "Source Connection ID")
     FIELD("length", length, 0, "Length: bytes of packet number and payload"))
PACKET_KIND("Retry",
     "A Retry packet (RFC 9000, section 17.2.5).",
     FIELD("version", version, 0, "the version")
     FIELD("dcid", dcid, 0, "Destination Connection ID")
     FIELD("scid", scid, 0, "Source Connection ID")
     FIELD("token", retry_token, 0, "Retry Token")
     FIELD("integrity_tag", retry_tag, 0, "Retry Integrity Tag, or None if fewer bytes are there"))
PACKET_KIND("OneRtt",
     "A 1-RTT packet (RFC 9000, section 17.3.1).",
     FIELD("dcid", dcid, 0, "Destination Connection ID")
     FIELD("spin", spin, 0, "Spin Bit"))
PACKET_KIND("VersionNegotiation",
     "A Version Negotiation packet (RFC 9000, section 17.2.1).",
     FIELD("dcid", dcid, 0, "Destination Connection ID")
     FIELD("scid", scid, 0, "Source Connection ID")
     FIELD("versions", versions, 0, "Supported Versions"))
PACKET_KIND("UnknownVersion",
     "A packet of a version that isn't one of those given (RFC 8999, section 5.1): all of the datagram from its first byte on.",
     FIELD("version", version, 0, "the version")
     FIELD("dcid", dcid, 0, "Destination Connection ID")
     FIELD("scid", scid, 0, "Source Connection ID"))

PARAMETER(max_idle_timeout, INTEGER, 0x1, AT(max_idle_timeout), 0,
     0, "milliseconds, 0 for none")
PARAMETER(max_udp_payload_size, INTEGER, 0x3, AT(max_udp_payload_size), 0,
     0, "bytes, 1200 or more")
PARAMETER(initial_max_data, INTEGER, 0x4, AT(initial_max_data), 0,
     0, "bytes")
PARAMETER(initial_max_stream_data_bidi_local, INTEGER, 0x5, AT(initial_max_stream_data_bidi_local), 0,
     0, "bytes, for bidirectional streams that the sender of the list opens")
PARAMETER(initial_max_stream_data_bidi_remote, INTEGER, 0x6, AT(initial_max_stream_data_bidi_remote), 0,
     0, "bytes, for bidirectional streams that its receiver opens")
PARAMETER(initial_max_stream_data_uni, INTEGER, 0x7, AT(initial_max_stream_data_uni), 0,
     0, "bytes, for unidirectional streams that its receiver opens")
PARAMETER(initial_max_streams_bidi, INTEGER, 0x8, AT(initial_max_streams_bidi), 0,
     0, "bidirectional streams, at most 2^60")
PARAMETER(initial_max_streams_uni, INTEGER, 0x9, AT(initial_max_streams_uni), 0,
     0, "unidirectional streams, at most 2^60")
PARAMETER(ack_delay_exponent, INTEGER, 0xa, AT(ack_delay_exponent), 0,
     0, "by how many bits ACK Delay is shifted, at most 20")
PARAMETER(max_ack_delay, INTEGER, 0xb, AT(max_ack_delay), 0,
     0, "milliseconds, below 2^14")
PARAMETER(active_connection_id_limit, INTEGER, 0xe, AT(active_connection_id_limit), 0,
     0, "connection ids, 2 or more")
PARAMETER(stateless_reset_token, TOKEN, 0x2, AT(stateless_reset_token), 0,
     QUIC_WIRE_HAS_STATELESS_RESET_TOKEN, "16 bytes, or None; from servers only")
PARAMETER(disable_active_migration, FLAG, 0xc, 0, 0,
     QUIC_WIRE_HAS_DISABLE_ACTIVE_MIGRATION, "True or False")
PARAMETER(max_datagram_frame_size, OPTIONAL, 0x20, AT(max_datagram_frame_size), 0,
     QUIC_WIRE_HAS_MAX_DATAGRAM_FRAME_SIZE, "bytes, or None (RFC 9221)")
PARAMETER(preferred_address, ADDRESS, 0xd, 0, 0,
     QUIC_WIRE_HAS_PREFERRED_ADDRESS, "a PreferredAddress, or None; from servers only")
PARAMETER(original_destination_connection_id, ID, 0x0, AT(original_dst_cid), AT(original_dst_cidlen),
     QUIC_WIRE_HAS_ORIGINAL_DST_CID, "at most 20 bytes, or None; from servers only")
PARAMETER(initial_source_connection_id, ID, 0xf, AT(initial_src_cid), AT(initial_src_cidlen),
     QUIC_WIRE_HAS_INITIAL_SRC_CID, "at most 20 bytes, or None")
PARAMETER(retry_source_connection_id, ID, 0x10, AT(retry_src_cid), AT(retry_src_cidlen),
     QUIC_WIRE_HAS_RETRY_SRC_CID, "at most 20 bytes, or None; from servers only")
PARAMETER(grease_quic_bit, FLAG, 0x2ab2, 0, 0,
     QUIC_WIRE_HAS_GREASE_QUIC_BIT, "True or False (RFC 9287)")
PARAMETER(min_ack_delay, OPTIONAL, 0xff04de1b, AT(min_ack_delay), 0,
     QUIC_WIRE_HAS_MIN_ACK_DELAY, "microseconds, at most max_ack_delay, or None (draft-ietf-quic-ack-frequency)")

RESULT(PAYLOAD_EMPTY)
RESULT(FRAME_END)
RESULT(FRAME_TYPE)
RESULT(FRAME_MALFORMED)
RESULT(FRAME_LONG_TYPE)
RESULT(FRAME_LIMIT)
RESULT(FRAME_PACKET)
RESULT(FRAME_SENDER)
RESULT(FRAME_STREAM)
RESULT(PACKET_END)
RESULT(PACKET_FIXED_BIT)
RESULT(PACKET_SMALL)
RESULT(PACKET_CID)
RESULT(PACKET_TOKEN)
RESULT(PACKET_VERSION)
RESULT(PACKET_CUT)
RESULT(PACKET_RETRY)
RESULT(PARAMS_MALFORMED)
RESULT(PARAMS_ILLEGAL)

READ_FLAG(SHORT_TYPES)
READ_FLAG(DATA_LIMIT)
READ_FLAG(STREAM_LIMIT)
READ_FLAG(NO_ACK_FREQUENCY)
READ_FLAG(TOKENS)
READ_FLAG(GREASED_BIT)
READ_FLAG(ANY_VERSION)
READ_FLAG(WHOLE_RETRY)
READ_FLAG(ANY_WIDTH)
READ_FLAG(NO_REPEATS)
READ_FLAG(RFC)

#undef FRAME_FIELD
#undef PACKET_FIELD
#undef FRAME_KIND
#undef PACKET_KIND
#undef PARAMETER
#undef RESULT
#undef READ_FLAG
#undef FIELD
