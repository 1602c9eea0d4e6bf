/* SPDX-License-Identifier: MIT OR Apache-2.0 */
/* Made by scripts/make/tables from python/src/quic_wire/_wire.pyi.in: change nothing here.
 * What Python says of each function of the module, DOC_name, and of each method, DOC_class_name: the signature, then
 * the documentation. WIRE_CALLS has a row for each that isn't called with one argument by position, or none: name,
 * Python's name, how many arguments are needed, how many may be passed by position, and their names, empty for those
 * that can't be passed by name. */
#define DOC_Frame_is_permitted_in PyDoc_STR( \
  "is_permitted_in($self, packet_type, /)\n--\n\n" \
  "Whether packets of this type may carry it (RFC 9000, section 12.4, table 3). False for\n" \
  "numbers other than INITIAL, ZERO_RTT, HANDSHAKE and ONE_RTT of PacketType, which\n" \
  "check_permitted rejects.")
#define DOC_Frame_check_permitted PyDoc_STR( \
  "check_permitted($self, /, packet_type, sender, *, checks=0)\n--\n\n" \
  "Raises FrameError if packets of this type may not carry the frame (RFC 9000, section\n" \
  "12.4, table 3), or if that side may not send it (sections 19.7, 19.20) or not on\n" \
  "this stream (sections 19.4, 19.5, 19.8, 19.10, 19.13). Of checks only\n" \
  "NO_ACK_FREQUENCY counts.")
#define DOC_Frame_encode PyDoc_STR( \
  "encode($self, /, last=False, *, checks=0)\n--\n\n" \
  "The frame in its shortest form. As the last one of its payload it needs no length. Raises\n" \
  "FrameError if it breaks a rule of checks.")
#define DOC_Frame_as_dict PyDoc_STR( \
  "as_dict($self, /)\n--\n\n" \
  "The fields by name, data as bytes.")
#define DOC_FrameIterator_skip PyDoc_STR( \
  "skip($self, end, type, /)\n--\n\n" \
  "Passes over a frame of this type, which the library doesn't know and the caller read:\n" \
  "the next frame is the one at end, an offset in the payload. Use it after the\n" \
  "FrameError that the frame raised; the frame begins at offset. The type isn't compared\n" \
  "with the bytes, and may be one that the library knows.")
#define DOC_frames PyDoc_STR( \
  "frames($module, payload, /, *, at=0, checks=0)\n--\n\n" \
  "The frames of a payload from an offset on, each read when it is asked for. Offsets\n" \
  "count from the payload. Consecutive PADDING frames are one. Raises FrameError if the\n" \
  "payload is empty, or if a frame is invalid or breaks a rule of checks.")
#define DOC_read_frames PyDoc_STR( \
  "read_frames($module, payload, /, *, at=0, checks=0)\n--\n\n" \
  "The frames of a payload from an offset on, as a list. Raises FrameError, with the\n" \
  "frames before an invalid one in its attribute frames.")
#define DOC_canonical PyDoc_STR( \
  "canonical($module, payload, /, *, checks=0)\n--\n\n" \
  "The one shortest payload with the same frames in the same order. Raises FrameError, also\n" \
  "if a frame breaks a rule of checks.")
#define DOC_check_type PyDoc_STR( \
  "check_type($module, type, packet_type, sender, *, checks=0)\n--\n\n" \
  "Raises FrameError if a frame of this type is unknown, may not be in packets of\n" \
  "this type, or not come from that side (RFC 9000, section 12.4), before it is read.\n" \
  "With NO_ACK_FREQUENCY in checks that extension's types are unknown.")
#define DOC_type_name PyDoc_STR( \
  "type_name($module, type, /)\n--\n\n" \
  "The name of a frame type, or None.")
#define DOC_Packet_sample PyDoc_STR( \
  "sample($self, length=16, /)\n--\n\n" \
  "The bytes from which the mask of the header is made (RFC 9001, section 5.4.2), or None\n" \
  "if the packet is too short or has no packet number.")
#define DOC_read_packets PyDoc_STR( \
  "read_packets($module, datagram, cid_len, versions=None, *, checks=0)\n--\n\n" \
  "The packets of a datagram as a list. Ids in short headers have cid_len bytes. versions\n" \
  "are as in read_packet. Raises PacketError, with the packets before it in its attribute\n" \
  "packets.")
#define DOC_read_packet PyDoc_STR( \
  "read_packet($module, datagram, cid_len, at=0, versions=None, *, checks=0)\n--\n\n" \
  "The packet that begins at an offset of a datagram. versions are those that are read, by\n" \
  "default 1, its drafts 29 to 34 (0xff00001d to 0xff000022) and 2; a packet of another one\n" \
  "is an UnknownVersion. Raises PacketError.")
#define DOC_unprotect PyDoc_STR( \
  "unprotect($module, packet, number_at, mask, expected=0)\n--\n\n" \
  "The packet number, relative to the one that is expected next, and a copy of the header\n" \
  "without its protection, up to the end of that number (RFC 9001, section 5.4.1).")
#define DOC_protect PyDoc_STR( \
  "protect($module, packet, number_at, mask)\n--\n\n" \
  "Applies header protection to a packet, in place; returns how many bytes the\n" \
  "packet number has.")
#define DOC_set_length PyDoc_STR( \
  "set_length($module, packet, number_at, length_len=2)\n--\n\n" \
  "Sets the length in a long header to what follows it in the packet, in place.")
#define DOC_write_header PyDoc_STR( \
  "write_header($module, packet_type, dcid=b'', scid=b'', token=b'', *, version=1, number=0, number_len=4, length_len=2, spin=False, key_phase=False, fixed_bit=True)\n--\n\n" \
  "A header without protection. The packet number is its end, and begins at\n" \
  "len(header) - number_len. Its length is 0 until set_length. A Retry has no number; its\n" \
  "token and integrity tag follow the header. Raises ValueError for a token of RETRY or\n" \
  "ONE_RTT, and for a scid of ONE_RTT. Other arguments that a packet_type doesn't have are\n" \
  "ignored, also a token of ZERO_RTT and HANDSHAKE: a stack may pass the same ones for all\n" \
  "its long headers.")
#define DOC_write_version_negotiation PyDoc_STR( \
  "write_version_negotiation($module, dcid, scid, versions, unused=0x40)\n--\n\n" \
  "A Version Negotiation packet (RFC 9000, section 17.2.1), with the unused bits of its\n" \
  "first byte.")
#define DOC_nonce PyDoc_STR( \
  "nonce($module, iv, number, /)\n--\n\n" \
  "The nonce of a packet, by the iv of its keys, of 12 bytes, and its whole number\n" \
  "(RFC 9001, section 5.3).")
#define DOC_retry_pseudo_packet PyDoc_STR( \
  "retry_pseudo_packet($module, original, retry, /)\n--\n\n" \
  "What a Retry's tag protects: original is the id to which the client sent its first\n" \
  "Initial packet, retry the whole packet (RFC 9001, section 5.8).")
#define DOC_write_version_information PyDoc_STR( \
  "write_version_information($module, chosen, available, /)\n--\n\n" \
  "The value of the transport parameter version_information, 0x11, with the preferred\n" \
  "versions first (RFC 9368, section 3).")
#define DOC_read_version_information PyDoc_STR( \
  "read_version_information($module, value, /)\n--\n\n" \
  "The chosen version and the available ones of that parameter's value. Raises ValueError\n" \
  "if it isn't one: the connection is closed (RFC 9368, section 4).")
#define DOC_write_stateless_reset PyDoc_STR( \
  "write_stateless_reset($module, unpredictable, token, /)\n--\n\n" \
  "A stateless reset with this token of 16 bytes, behind bytes that the caller makes at\n" \
  "random, 5 or more (RFC 9000, section 10.3).")
#define DOC_is_stateless_reset PyDoc_STR( \
  "is_stateless_reset($module, datagram, token, /)\n--\n\n" \
  "Whether a datagram is a stateless reset with this token, compared in constant time\n" \
  "(RFC 9000, section 10.3.1).")
#define DOC_answer_version PyDoc_STR( \
  "answer_version($module, received, versions, unused=0x40)\n--\n\n" \
  "The Version Negotiation packet that answers a packet of a version that isn't supported:\n" \
  "with its ids exchanged, and the unused bits of the first byte (RFC 8999, section 6).")
#define DOC_read_varint PyDoc_STR( \
  "read_varint($module, data, at=0, /)\n--\n\n" \
  "The variable-length integer at an offset, and where it ends (RFC 9000, section 16).")
#define DOC_write_varint PyDoc_STR( \
  "write_varint($module, value, width=0, /)\n--\n\n" \
  "A variable-length integer in 1, 2, 4 or 8 bytes; with 0 in as few as possible.")
#define DOC_varint_len PyDoc_STR( \
  "varint_len($module, value, /)\n--\n\n" \
  "How many bytes the shortest encoding of an integer has: 1, 2, 4 or 8.")
#define DOC_packet_number_len PyDoc_STR( \
  "packet_number_len($module, number, largest_acknowledged=None, /)\n--\n\n" \
  "How many bytes of a packet number are written (RFC 9000, appendix A.2).")
#define DOC_expand_packet_number PyDoc_STR( \
  "expand_packet_number($module, truncated, length, expected, /)\n--\n\n" \
  "The packet number with these low bytes, relative to the one that is expected next\n" \
  "(RFC 9000, appendix A.3).")
#define DOC_read_packet_number PyDoc_STR( \
  "read_packet_number($module, data, length, /)\n--\n\n" \
  "The truncated packet number in the first bytes of data.")
#define DOC_write_packet_number PyDoc_STR( \
  "write_packet_number($module, number, length, /)\n--\n\n" \
  "The low bytes of a packet number, 1 to 4 of them.")
#define DOC_Parameters_read PyDoc_STR( \
  "read($type, side, data, /, *, checks=0)\n--\n\n" \
  "The parameters in a list. `side` is the side that reads: pass Side.CLIENT for a server's list.\n" \
  "Raises ParameterError.")
#define DOC_Parameters_as_dict PyDoc_STR( \
  "as_dict($self, /, *, present=False)\n--\n\n" \
  "All parameters by name, or only those that were in the list, or given.")
#define DOC_write_parameter PyDoc_STR( \
  "write_parameter($module, id, value, /)\n--\n\n" \
  "An entry of a list of transport parameters.")
#define DOC_find_parameter PyDoc_STR( \
  "find_parameter($module, data, id, /)\n--\n\n" \
  "The value of the first entry of this id in a list of transport parameters, or None.\n" \
  "Raises ParameterError at one before it that is cut off.")
#define DOC_is_known_parameter PyDoc_STR( \
  "is_known_parameter($module, id, /)\n--\n\n" \
  "Whether TransportParameters has the parameter of this id.")
#define DOC_RangeSet_insert PyDoc_STR( \
  "insert($self, start, stop=None, /)\n--\n\n" \
  "Inserts a number, or those from start to below stop; returns whether the set\n" \
  "changed.")
#define DOC_RangeSet_remove PyDoc_STR( \
  "remove($self, start, stop=None, /)\n--\n\n" \
  "Removes a number, or those from start to below stop; returns whether the set\n" \
  "changed.")
#define DOC_RangeSet_clear PyDoc_STR( \
  "clear($self, /)\n--\n\n" \
  "Removes all numbers.")
#define WIRE_CALLS \
  CALL(Frame_check_permitted, "check_permitted", 2, 2, "packet_type", "sender", "checks") \
  CALL(Frame_encode, "encode", 0, 1, "last", "checks") \
  CALL(FrameIterator_skip, "skip", 2, 2, "", "") \
  CALL(frames, "frames", 1, 1, "", "at", "checks") \
  CALL(read_frames, "read_frames", 1, 1, "", "at", "checks") \
  CALL(canonical, "canonical", 1, 1, "", "checks") \
  CALL(check_type, "check_type", 3, 3, "type", "packet_type", "sender", "checks") \
  CALL(Packet_sample, "sample", 0, 1, "") \
  CALL(read_packets, "read_packets", 2, 3, "datagram", "cid_len", "versions", "checks") \
  CALL(read_packet, "read_packet", 2, 4, "datagram", "cid_len", "at", "versions", "checks") \
  CALL(unprotect, "unprotect", 3, 4, "packet", "number_at", "mask", "expected") \
  CALL(protect, "protect", 3, 3, "packet", "number_at", "mask") \
  CALL(set_length, "set_length", 2, 3, "packet", "number_at", "length_len") \
  CALL(write_header, "write_header", 1, 4, "packet_type", "dcid", "scid", "token", "version", "number", "number_len", "length_len", "spin", "key_phase", "fixed_bit") \
  CALL(write_version_negotiation, "write_version_negotiation", 3, 4, "dcid", "scid", "versions", "unused") \
  CALL(nonce, "nonce", 2, 2, "", "") \
  CALL(retry_pseudo_packet, "retry_pseudo_packet", 2, 2, "", "") \
  CALL(write_version_information, "write_version_information", 2, 2, "", "") \
  CALL(write_stateless_reset, "write_stateless_reset", 2, 2, "", "") \
  CALL(is_stateless_reset, "is_stateless_reset", 2, 2, "", "") \
  CALL(answer_version, "answer_version", 2, 3, "received", "versions", "unused") \
  CALL(read_varint, "read_varint", 1, 2, "", "") \
  CALL(write_varint, "write_varint", 1, 2, "", "") \
  CALL(packet_number_len, "packet_number_len", 1, 2, "", "") \
  CALL(expand_packet_number, "expand_packet_number", 3, 3, "", "", "") \
  CALL(read_packet_number, "read_packet_number", 2, 2, "", "") \
  CALL(write_packet_number, "write_packet_number", 2, 2, "", "") \
  CALL(Parameters_read, "read", 2, 2, "", "", "checks") \
  CALL(Parameters_as_dict, "as_dict", 0, 0, "present") \
  CALL(write_parameter, "write_parameter", 2, 2, "", "") \
  CALL(find_parameter, "find_parameter", 2, 2, "", "") \
  CALL(RangeSet_insert, "insert", 1, 2, "", "") \
  CALL(RangeSet_remove, "remove", 1, 2, "", "")
