/* SPDX-License-Identifier: MIT OR Apache-2.0 */
/*
 * quic_wire.h: the wire layer of QUIC versions 1 and 2, for C99 and C++
 *
 * This library reads and writes frames, packet headers, header protection,
 * transport parameters and sets of packet numbers (RFC 9000, RFC 9001, RFC
 * 9369, DATAGRAM of RFC 9221, and the ACK frequency extension).  You bring the
 * ciphers.  A section without an RFC is one of RFC 9000.
 *
 * Memory: nothing allocates, except the library as C on big-endian machines.
 * State lives in structs that you own, and you pass the bytes again with each
 * call.  What is found in them is returned as an offset and a length, both in
 * bytes.
 *
 * Threads: there is no global state, and there are no callbacks.  Calls on
 * different structs may run at the same time.
 *
 * Your part: a pointer that isn't NULL points to as many items as the length
 * beside it says, or to one struct.  What a call writes must not overlap
 * anything else that you pass to it.  Everything else is checked: NULL,
 * lengths, offsets, numbers that can't be encoded, unknown kinds, and any field
 * values.  A pointer may be NULL if its length is 0, but never one to a packet,
 * a header or a packet number, or to a payload of which you read an ACK's
 * ranges.
 *
 * Results: an error is below 0 and fits in an int, and quic_wire_strerror
 * describes it.
 *
 * Read the frames of a payload:
 *
 *   // kind is that of the packet, below header.kind; sender is the other side
 *   quic_wire_frame_iter frames;
 *   quic_wire_frame frame;
 *   int answer =
 *       quic_wire_frames_init(&frames, payload, len, QUIC_WIRE_READ_RFC);
 *   while (answer >= 0 &&
 *          (answer = quic_wire_frames_next(&frames, payload, len, &frame)) ==
 *              QUIC_WIRE_ITEM) {
 *     answer =
 *         quic_wire_frame_permitted(&frame, kind, sender, QUIC_WIRE_READ_RFC);
 *     if (answer == 0 && frame.kind == QUIC_WIRE_FRAME_STREAM)
 *       deliver(frame.stream.stream_id, frame.stream.offset,
 *               payload + frame.data, frame.datalen);
 *   }
 *   // 0: all frames were read, and may be there.  Below 0:
 *   // quic_wire_close_code(answer) is the code to close with.  A frame that is
 *   // invalid begins at frames.offset, where the last one ended, and
 *   // quic_wire_error_type(&frame) is its type.  After
 *   // QUIC_WIRE_ERR_FRAME_PACKET, _SENDER and _STREAM, which
 *   // quic_wire_frame_permitted returns, it is frame itself, at frame.begin,
 *   // of frame.type.  An empty payload sets neither.
 *
 * Open the packets of a datagram.  make_mask and open_payload are your cipher;
 * |expected| is the packet number that you expect next, below 2^62:
 *
 *   while (len != 0 &&
 *          quic_wire_header_read(packet, len, cidlen, versions, nversions,
 *                                QUIC_WIRE_READ_RFC, &header) > 0) {
 *     const uint8_t *sample =
 *         quic_wire_sample(packet, header.end, header.header_end, 16);
 *     if (sample && header.kind != QUIC_WIRE_PACKET_RETRY &&
 *         header.kind != QUIC_WIRE_PACKET_VERSION_NEGOTIATION) {
 *       make_mask(mask, sample);
 *       numberlen = quic_wire_unprotect(packet, header.end, header.header_end,
 *                                       mask, expected, &number);
 *       size_t begin = header.header_end + (size_t)numberlen;
 *       size_t sealedlen = header.end - begin;
 *       if (open_payload(number, packet, begin, packet + begin, sealedlen) &&
 *           packet[0] & (header.kind == QUIC_WIRE_PACKET_1RTT ? 0x18 : 0x0c))
 *         close_with(0x0a); // reserved bits: PROTOCOL_VIOLATION (17.2, 17.3.1)
 *     }
 *     packet += header.end;
 *     len -= header.end;
 *   }
 *
 * Seal a packet, or return 0.  |room| includes the 16 bytes of the cipher's
 * tag:
 *
 *   quic_wire_header_fields fields = {0};
 *   fields.kind = QUIC_WIRE_PACKET_HANDSHAKE;
 *   fields.version = QUIC_WIRE_VERSION_1;
 *   fields.number = number;
 *   fields.numberlen = (uint8_t)quic_wire_number_len(number, largest_acked);
 *   fields.lengthlen = 2;
 *   quic_wire_frame frame = {0};
 *   frame.kind = QUIC_WIRE_FRAME_CRYPTO;
 *   frame.crypto.offset = offset;
 *   frame.datalen = datalen;
 *   int64_t begin = quic_wire_header_write(&fields, dcid, dcidlen, scid,
 *                                          scidlen, NULL, 0, packet, room);
 *   if (begin < 0 || room - (size_t)begin < 16 ||
 *       quic_wire_frame_write(&frame, data, datalen,
 *                             QUIC_WIRE_WRITE_LAST | QUIC_WIRE_WRITE_RFC,
 *                             packet + begin, room - 16 - (size_t)begin,
 *                             &payloadlen) < 0)
 *     return 0;
 *   size_t end = (size_t)begin + payloadlen + 16;
 *   size_t place = (size_t)begin - fields.numberlen; // of the packet number
 *   if (quic_wire_set_len(packet, end, place, fields.lengthlen) < 0)
 *     return 0;
 *   seal_payload(number, packet, (size_t)begin, packet + begin, payloadlen);
 *   make_mask(mask, quic_wire_sample(packet, end, place, 16));
 *   int sealed = quic_wire_protect(packet, end, place, mask); // above 0
 *
 * Packet number and payload together need at least 4 bytes, or there is no
 * sample to make the mask from (RFC 9001, section 5.4.2).  Add PADDING before
 * you seal.
 */
/*
 * Each section of this file begins with four dashes.  Constants and structs
 * come first:
 *
 *   Results
 *   Flags of readers
 *   Flags of writers
 *   Frames (RFC 9000, section 19)
 *   Packets (RFC 9000, section 17)
 *   Transport parameters (RFC 9000, section 18)
 *   Fields of what is read
 *
 * Functions follow:
 *
 *   The linked library
 *   Reading frames
 *   Reading the ranges of an ACK
 *   Writing frames
 *   Shortest payloads
 *   Reading packet headers
 *   Header protection
 *   Packet numbers and varints
 *   Writing packet headers
 *   Reading and writing transport parameters
 *   Versions, nonces, Retry and resets
 *   Sets of packet numbers, and ACKs of them
 *   Sets of packet numbers of which no call checks every run
 *   Where each field is
 *   Texts
 */
#ifndef QUIC_WIRE_H
#define QUIC_WIRE_H

#include <stddef.h>
#include <stdint.h>

/** The version of this header: one byte each for major, minor and patch. */
#define QUIC_WIRE_LIB_MAJOR 0
#define QUIC_WIRE_LIB_MINOR 2
#define QUIC_WIRE_LIB_PATCH 0
#define QUIC_WIRE_LIB                                                          \
  ((uint32_t)(QUIC_WIRE_LIB_MAJOR << 16 | QUIC_WIRE_LIB_MINOR << 8 |           \
              QUIC_WIRE_LIB_PATCH))
#define QUIC_WIRE_LIB_TEXT "0.2.0"

/* Each function is a symbol of the archive and of the shared library.  If you
 * link the archive, you may define QUIC_WIRE_INLINE before you include this
 * header: then the C compiler inlines what the functions do before and after
 * they call the proved library. */
#ifdef QUIC_WIRE_INLINE
#define QUIC_WIRE_API static inline
#else
#define QUIC_WIRE_API extern
#endif

/* Compilers warn if you ignore the result of a call that can fail. */
#if defined(__GNUC__)
#define QUIC_WIRE_CHECKED __attribute__((warn_unused_result))
#else
#define QUIC_WIRE_CHECKED
#endif

/* gcc and clang accept anonymous unions in C99 too. */
#if defined(__GNUC__) && !defined(__cplusplus)
#define QUIC_WIRE_EXTENSION __extension__
#else
#define QUIC_WIRE_EXTENSION
#endif

/* Structs are aligned to 8 bytes, also on 32-bit machines that align uint64_t
 * to 4. */
#if defined(__GNUC__) && (defined(__i386__) || defined(__m68k__))
#define QUIC_WIRE_ALIGNED __attribute__((aligned(8)))
#else
#define QUIC_WIRE_ALIGNED
#endif

/* A length or offset in a struct: 64 bits on each machine. */
#if (defined(__SIZEOF_SIZE_T__) && __SIZEOF_SIZE_T__ < 8) ||                   \
    (defined(SIZE_MAX) && SIZE_MAX <= 0xffffffff)
typedef uint64_t quic_wire_size;
#else
typedef size_t quic_wire_size;
#endif

#ifdef __cplusplus
extern "C" {
#endif

/* ---- Results */

/** What functions return.  Below 0 it is an error, which quic_wire_strerror
 * describes; from 0 on it is a count, a length or one of the first three.  The
 * numbers never change; new ones may be added. */
/* Made by scripts/make/tables: */
typedef enum quic_wire_result {
  QUIC_WIRE_OK = 0,      /* reading is complete, or something was written */
  QUIC_WIRE_ITEM = 1,    /* an item was read */
  QUIC_WIRE_CHANGED = 1, /* the set changed */

  /* The caller's mistakes. */
  QUIC_WIRE_ERR_ARGUMENT = -1, /* a pointer is NULL, or the arguments describe
                                  nothing that can be written */
  QUIC_WIRE_ERR_PLACE = -2, /* an offset is outside the bytes, or the function
                               can't read what is there */
  QUIC_WIRE_ERR_KIND = -3, /* there is no such kind or side, or the function
                              doesn't accept it */
  QUIC_WIRE_ERR_NUMBER = -5, /* a number is out of range, such as above
                                2^62 - 1 */
  QUIC_WIRE_ERR_LENGTH = -6, /* a length or width is impossible for its field */
  QUIC_WIRE_ERR_RANGES = -7, /* there are no ranges, or they aren't sorted, or
                                two of them touch */
  QUIC_WIRE_ERR_PARAM = -8, /* the peer would reject the transport parameters */
  QUIC_WIRE_ERR_NOBUF = -9, /* the buffer is too small */
  QUIC_WIRE_ERR_LIBRARY = -10, /* the linked library doesn't fit this header */

  /* A payload is rejected (RFC 9000, sections 12.4 and 19). */
  QUIC_WIRE_ERR_PAYLOAD_EMPTY = -20, /* packet payload is empty (12.4) */
  QUIC_WIRE_ERR_FRAME_END = -21,     /* the bytes end within a frame (20.1) */
  QUIC_WIRE_ERR_FRAME_TYPE = -22,    /* the type is unknown (12.4) */
  QUIC_WIRE_ERR_FRAME_MALFORMED = -23, /* a field has an invalid value (19.3.1,
                                          19.7, 19.15) */
  QUIC_WIRE_ERR_FRAME_LONG_TYPE = -24, /* the type isn't in its shortest
                                          encoding: QUIC_WIRE_READ_SHORT_TYPES
                                          (12.4) */
  QUIC_WIRE_ERR_FRAME_LIMIT = -25, /* data ends past 2^62 - 1, or there are more
                                      than 2^60 streams:
                                      QUIC_WIRE_READ_DATA_LIMIT,
                                      QUIC_WIRE_READ_STREAM_LIMIT (19.6, 19.8,
                                      19.11, 19.14) */

  /* A frame isn't permitted.  Only quic_wire_type_permitted and
   * quic_wire_frame_permitted return these. */
  QUIC_WIRE_ERR_FRAME_PACKET = -26, /* its packet may not carry it, by table 3
                                       (12.4) */
  QUIC_WIRE_ERR_FRAME_SENDER = -27, /* that side may not send it (19.7,
                                       19.20) */
  QUIC_WIRE_ERR_FRAME_STREAM = -28, /* that side may not send it on this stream
                                       (19.4, 19.5, 19.8, 19.10, 19.13) */

  /* A packet is dropped (section 5.2). */
  QUIC_WIRE_ERR_PACKET_END = -40, /* the bytes end within the header (17) */
  QUIC_WIRE_ERR_PACKET_FIXED_BIT = -41, /* the fixed bit is clear (17.2,
                                           17.3.1) */
  QUIC_WIRE_ERR_PACKET_SMALL = -42, /* too short for the id, or for the packet
                                       number (RFC 9001, section 5.4.2) */
  QUIC_WIRE_ERR_PACKET_CID = -43, /* an id is cut off, or too long (17.2) */
  QUIC_WIRE_ERR_PACKET_TOKEN = -44, /* the bytes end within the token
                                       (17.2.2) */
  QUIC_WIRE_ERR_PACKET_VERSION = -45, /* not one of the given versions (6.1) */
  QUIC_WIRE_ERR_PACKET_CUT = -46, /* the bytes end within the packet, after its
                                     header (12.2) */
  QUIC_WIRE_ERR_PACKET_RETRY = -47, /* a Retry without a token or a tag
                                       (17.2.5) */

  /* A list of transport parameters is rejected (section 7.4). */
  QUIC_WIRE_ERR_PARAMS_MALFORMED = -60, /* a parameter is cut off, has an
                                           invalid value, or occurs twice
                                           (7.4) */
  QUIC_WIRE_ERR_PARAMS_ILLEGAL = -61 /* a value is out of range, or that side
                                        may not send it (7.4, 18.2) */
} quic_wire_result;
/* End of what is made. */

/** The codes of a CONNECTION_CLOSE (RFC 9000, section 20.1). */
/* Made by scripts/make/tables: */
typedef enum quic_wire_code {
  QUIC_WIRE_CODE_NO_ERROR = 0x00,
  QUIC_WIRE_CODE_INTERNAL_ERROR = 0x01,
  QUIC_WIRE_CODE_CONNECTION_REFUSED = 0x02,
  QUIC_WIRE_CODE_FLOW_CONTROL_ERROR = 0x03,
  QUIC_WIRE_CODE_STREAM_LIMIT_ERROR = 0x04,
  QUIC_WIRE_CODE_STREAM_STATE_ERROR = 0x05,
  QUIC_WIRE_CODE_FINAL_SIZE_ERROR = 0x06,
  QUIC_WIRE_CODE_FRAME_ENCODING_ERROR = 0x07,
  QUIC_WIRE_CODE_TRANSPORT_PARAMETER_ERROR = 0x08,
  QUIC_WIRE_CODE_CONNECTION_ID_LIMIT_ERROR = 0x09,
  QUIC_WIRE_CODE_PROTOCOL_VIOLATION = 0x0a,
  QUIC_WIRE_CODE_INVALID_TOKEN = 0x0b,
  QUIC_WIRE_CODE_APPLICATION_ERROR = 0x0c,
  QUIC_WIRE_CODE_CRYPTO_BUFFER_EXCEEDED = 0x0d,
  QUIC_WIRE_CODE_KEY_UPDATE_ERROR = 0x0e,
  QUIC_WIRE_CODE_AEAD_LIMIT_REACHED = 0x0f,
  QUIC_WIRE_CODE_NO_VIABLE_PATH = 0x10,
  QUIC_WIRE_CODE_CRYPTO_ERROR = 0x100 /* plus the TLS alert */
} quic_wire_code;
/* End of what is made. */

/* ---- Flags of readers */

/** What reading functions check.  With 0 they read as quinn-proto does.  Each
 * function ignores the flags of the others, so one value serves all. */

/* Payloads: what else is an error. */
#define QUIC_WIRE_READ_SHORT_TYPES 0x001u /* a frame type that isn't in its
                                             shortest encoding (12.4) */
#define QUIC_WIRE_READ_DATA_LIMIT 0x002u /* CRYPTO or STREAM data that ends past
                                            2^62 - 1 (19.6, 19.8) */
#define QUIC_WIRE_READ_STREAM_LIMIT 0x004u /* more than 2^60 streams in
                                              MAX_STREAMS or STREAMS_BLOCKED
                                              (19.11, 19.14) */
#define QUIC_WIRE_READ_NO_ACK_FREQUENCY 0x008u /* ACK_FREQUENCY, IMMEDIATE_ACK:
                                                  their extension wasn't
                                                  negotiated, so their types
                                                  are unknown, whatever follows
                                                  them (12.4) */
#define QUIC_WIRE_READ_TOKENS 0x200u /* an empty token in NEW_TOKEN (19.7) */

/* Packets: two bits let the fixed bit be clear, and one makes an error. */
#define QUIC_WIRE_READ_GREASED_BIT 0x010u /* it may be clear in every packet
                                             (RFC 9287) */
#define QUIC_WIRE_READ_ANY_VERSION 0x020u /* it may be clear in version
                                             negotiations (17.2.1), and in
                                             packets of versions that aren't
                                             given (RFC 8999) */
#define QUIC_WIRE_READ_WHOLE_RETRY 0x040u /* a Retry without a token or a tag of
                                             16 bytes is an error (17.2.5) */

/* Lists of transport parameters. */
#define QUIC_WIRE_READ_ANY_WIDTH 0x080u /* integers may be in any encoding
                                           (section 16) */
#define QUIC_WIRE_READ_NO_REPEATS 0x100u /* no parameter may occur twice
                                            (7.4) */

/** Each flag except QUIC_WIRE_READ_GREASED_BIT: what RFC 9000 requires of the
 * bytes alone, if no extension was negotiated.  In which packets, from which
 * side and on which streams a frame may come, quic_wire_frame_permitted checks.
 * You check that you offered to receive DATAGRAM, the reserved bits of a packet
 * that was opened (17.2, 17.3.1), that a server sends no token (17.2.2), that a
 * datagram with an Initial packet has 1,200 bytes (14.1), and the ids of the
 * handshake (7.3, 18.2); docs/DIFFERENCES.md of the repository has all. */
#define QUIC_WIRE_READ_RFC 0x3efu

/* ---- Flags of writers */

/** What quic_wire_frame_write, quic_wire_frame_header_write and
 * quic_wire_frame_len are given.  Rules have the flags of readers:
 * QUIC_WIRE_READ_DATA_LIMIT, QUIC_WIRE_READ_STREAM_LIMIT,
 * QUIC_WIRE_READ_NO_ACK_FREQUENCY and QUIC_WIRE_READ_TOKENS.  With one of them
 * a frame that a reader with this flag rejects isn't written, and the result is
 * the reader's.  Other bits are ignored.  QUIC_WIRE_READ_RFC is no such value:
 * it has the bit of QUIC_WIRE_WRITE_LAST. */
#define QUIC_WIRE_WRITE_LAST 0x001u /* the frame is the last one of its payload,
                                       so STREAM and DATAGRAM need no length */

/** All four rules: what is written can be read with QUIC_WIRE_READ_RFC.  Remove
 * QUIC_WIRE_READ_NO_ACK_FREQUENCY from both if the ACK frequency extension was
 * negotiated. */
#define QUIC_WIRE_WRITE_RFC 0x20eu

/* ---- Frames (RFC 9000, section 19) */

/** The kinds of frames: the frame's type, with one kind for all types of
 * STREAM, one for ACK and one for DATAGRAM. */
/* Made by scripts/make/tables: */
typedef enum quic_wire_frame_kind {
  QUIC_WIRE_FRAME_PADDING = 0x00,
  QUIC_WIRE_FRAME_PING = 0x01,
  QUIC_WIRE_FRAME_ACK = 0x02,
  QUIC_WIRE_FRAME_RESET_STREAM = 0x04,
  QUIC_WIRE_FRAME_STOP_SENDING = 0x05,
  QUIC_WIRE_FRAME_CRYPTO = 0x06,
  QUIC_WIRE_FRAME_NEW_TOKEN = 0x07,
  QUIC_WIRE_FRAME_STREAM = 0x08,
  QUIC_WIRE_FRAME_MAX_DATA = 0x10,
  QUIC_WIRE_FRAME_MAX_STREAM_DATA = 0x11,
  QUIC_WIRE_FRAME_MAX_STREAMS_BIDI = 0x12,
  QUIC_WIRE_FRAME_MAX_STREAMS_UNI = 0x13,
  QUIC_WIRE_FRAME_DATA_BLOCKED = 0x14,
  QUIC_WIRE_FRAME_STREAM_DATA_BLOCKED = 0x15,
  QUIC_WIRE_FRAME_STREAMS_BLOCKED_BIDI = 0x16,
  QUIC_WIRE_FRAME_STREAMS_BLOCKED_UNI = 0x17,
  QUIC_WIRE_FRAME_NEW_CONNECTION_ID = 0x18,
  QUIC_WIRE_FRAME_RETIRE_CONNECTION_ID = 0x19,
  QUIC_WIRE_FRAME_PATH_CHALLENGE = 0x1a,
  QUIC_WIRE_FRAME_PATH_RESPONSE = 0x1b,
  QUIC_WIRE_FRAME_CONNECTION_CLOSE = 0x1c,
  QUIC_WIRE_FRAME_APPLICATION_CLOSE = 0x1d,
  QUIC_WIRE_FRAME_HANDSHAKE_DONE = 0x1e,
  QUIC_WIRE_FRAME_IMMEDIATE_ACK = 0x1f,
  QUIC_WIRE_FRAME_DATAGRAM = 0x30,
  QUIC_WIRE_FRAME_ACK_FREQUENCY = 0xaf
} quic_wire_frame_kind;
/* End of what is made. */

/** Flags of a frame. */
#define QUIC_WIRE_FLAG_FIN 1 /* STREAM: the data ends the stream */
#define QUIC_WIRE_FLAG_ECN 2 /* ACK: counts of marked packets are there */
#define QUIC_WIRE_FLAG_MORE 4 /* ACK: of quic_wire_frame_read, which had no
                                 room for all ranges */

/** What RFC 9000, section 12.4, table 3 says about a kind of frame, as the
 * bits of quic_wire_frame_rules: the kinds of packets in which it may be, such
 * as QUIC_WIRE_RULE_IN(QUIC_WIRE_PACKET_1RTT), and the table's column Spec. */
#define QUIC_WIRE_RULE_IN(packet) (1u << (packet))
#define QUIC_WIRE_RULE_NOT_ELICITING 0x100u /* N: not ack-eliciting */
#define QUIC_WIRE_RULE_NOT_COUNTED 0x200u /* C: isn't counted in flight */
#define QUIC_WIRE_RULE_PROBING 0x400u     /* P: probes a path */
#define QUIC_WIRE_RULE_FLOW_CONTROLLED 0x800u /* F: flow controlled */

/** The value for a frame type if there is none. */
#define QUIC_WIRE_NO_TYPE UINT64_MAX

/** How far a payload was read.  Any field values are safe: reading goes on at
 * |offset|. */
typedef struct quic_wire_frame_iter {
  quic_wire_size offset; /* the end of the last whole frame, in bytes */
  uint64_t last_type;    /* its type as in the payload, or QUIC_WIRE_NO_TYPE */
  uint32_t ended;        /* not 0 after an invalid frame */
  uint32_t flags;        /* QUIC_WIRE_READ_..., which may change between
                            calls */
} QUIC_WIRE_ALIGNED quic_wire_frame_iter;

/** The numbers of each kind of frame: the members of a frame's union. */
typedef struct quic_wire_ack {
  uint64_t largest; /* the greatest packet number */
  uint64_t delay;   /* in microseconds, shifted right by the sender's
                       ack_delay_exponent */
  uint64_t ect0, ect1, ce; /* packets; with QUIC_WIRE_FLAG_ECN */
} QUIC_WIRE_ALIGNED quic_wire_ack; /* its ranges: quic_wire_ack_ranges_init */
typedef struct quic_wire_reset_stream {
  uint64_t stream_id, error_code, final_size; /* bytes */
} QUIC_WIRE_ALIGNED quic_wire_reset_stream;
typedef struct quic_wire_stop_sending {
  uint64_t stream_id, error_code;
} QUIC_WIRE_ALIGNED quic_wire_stop_sending;
typedef struct quic_wire_stream {
  uint64_t stream_id, offset; /* bytes */
} QUIC_WIRE_ALIGNED quic_wire_stream;
typedef struct quic_wire_crypto {
  uint64_t reserved; /* 0 */
  uint64_t offset;   /* bytes */
} QUIC_WIRE_ALIGNED quic_wire_crypto;
typedef struct quic_wire_limit { /* MAX_DATA to STREAMS_BLOCKED_UNI */
  uint64_t stream_id; /* MAX_STREAM_DATA, STREAM_DATA_BLOCKED; else 0 */
  uint64_t limit;     /* bytes; for MAX_STREAMS and STREAMS_BLOCKED streams */
} QUIC_WIRE_ALIGNED quic_wire_limit;
typedef struct quic_wire_new_connection_id {
  uint64_t sequence, retire_prior_to;
  /* its token: quic_wire_reset_token */
} QUIC_WIRE_ALIGNED quic_wire_new_connection_id;
typedef struct quic_wire_retire_connection_id {
  uint64_t sequence;
} QUIC_WIRE_ALIGNED quic_wire_retire_connection_id;
typedef struct quic_wire_path { /* PATH_CHALLENGE and PATH_RESPONSE */
  uint64_t data;                /* the eight bytes, the highest first */
} QUIC_WIRE_ALIGNED quic_wire_path;
typedef struct quic_wire_close {
  uint64_t error_code;
  uint64_t frame_type; /* only for CONNECTION_CLOSE; 0, not QUIC_WIRE_NO_TYPE,
                          if none is known, so PADDING (0) can't be named */
} QUIC_WIRE_ALIGNED quic_wire_close;
typedef struct quic_wire_ack_frequency {
  uint64_t sequence;
  uint64_t ack_eliciting_threshold; /* packets */
  uint64_t max_ack_delay;           /* microseconds */
  uint64_t reordering_threshold;    /* packets */
} QUIC_WIRE_ALIGNED quic_wire_ack_frequency;

/** A frame.  Numbers of the union that its kind doesn't have are 0;
 * quic_wire_frame_write requires that too.  Numbers that were read are below
 * 2^62, except |path.data|.  Where data ends, how many streams a limit allows
 * and whether a token is empty is checked only with the flags for that
 * (QUIC_WIRE_READ_..., QUIC_WIRE_WRITE_RFC).  For languages without unions,
 * such as Go with cgo, QUIC_WIRE_PLAIN leaves only |numbers|, in the order of
 * the structs above. */
typedef struct quic_wire_frame {
  uint16_t kind;  /* QUIC_WIRE_FRAME_PADDING and so on */
  uint16_t type;  /* the type as it is in the payload: 0x08 to 0x0f of a
                     STREAM, 0x02 and 0x03 of an ACK, 0x30 and 0x31 of a
                     DATAGRAM, of others |kind|.  Ignored when the frame is
                     written */
  uint32_t flags; /* QUIC_WIRE_FLAG_... */
  quic_wire_size begin;   /* where the frame begins in the payload, in bytes */
  quic_wire_size end;     /* where it ends */
#ifdef QUIC_WIRE_PLAIN
  quic_wire_size data, datalen; /* of an ACK ngaps and first_range */
  uint64_t numbers[5];
#else
  QUIC_WIRE_EXTENSION union {
    quic_wire_size data;  /* where its data begins in the payload: that of
                             CRYPTO, NEW_TOKEN, STREAM and DATAGRAM; the reason
                             phrase of a close; the id of a NEW_CONNECTION_ID,
                             which its token follows.  Of other kinds except ACK
                             |end| */
    quic_wire_size ngaps; /* ACK: how many gaps quic_wire_frame_read or
                             quic_wire_frame_body_read wrote; 0 from other
                             functions */
  };
  QUIC_WIRE_EXTENSION union {
    quic_wire_size datalen;     /* how many bytes the data has, without that
                                   token; of other kinds except ACK 0 */
    quic_wire_size first_range; /* ACK: how many numbers its first range has,
                                   less one: First ACK Range (19.3) */
  };
  QUIC_WIRE_EXTENSION union {
    uint64_t numbers[5];
    quic_wire_ack ack;
    quic_wire_reset_stream reset_stream;
    quic_wire_stop_sending stop_sending;
    quic_wire_stream stream;
    quic_wire_crypto crypto;
    quic_wire_limit limit;
    quic_wire_new_connection_id new_connection_id;
    quic_wire_retire_connection_id retire_connection_id;
    quic_wire_path path;
    quic_wire_close close;
    quic_wire_ack_frequency ack_frequency;
  };
#endif
} QUIC_WIRE_ALIGNED quic_wire_frame;

/** Packet numbers from |start| to below |end|. */
typedef struct quic_wire_range {
  uint64_t start, end;
} QUIC_WIRE_ALIGNED quic_wire_range;

/** Which entries of an array are the runs of a set of packet numbers: |count|
 * of them, from the entry |first| on.  With 0 in both it is empty. */
typedef struct quic_wire_runs {
  quic_wire_size first, count;
} QUIC_WIRE_ALIGNED quic_wire_runs;

/** A range of an ACK below another one, as it is encoded (RFC 9000, section
 * 19.3.1): how many packet numbers are between the two, and how many it has,
 * both minus one. */
typedef struct quic_wire_gap {
  uint64_t gap, len;
} QUIC_WIRE_ALIGNED quic_wire_gap;

/** How far the ranges of an ACK have been read.  Any other field values are
 * harmless. */
typedef struct quic_wire_range_iter {
  quic_wire_size offset; /* where the next range begins in the payload */
  uint64_t left;         /* how many ranges remain */
  uint64_t largest;      /* the greatest number of the next range */
} QUIC_WIRE_ALIGNED quic_wire_range_iter;

/** The length of a payload's shortest form, or the type of an invalid frame. */
typedef struct quic_wire_canon {
  quic_wire_size len; /* how many bytes the shortest form has */
  uint64_t last_type; /* for an invalid frame: the last type that was read,
                         which may be its own, or QUIC_WIRE_NO_TYPE */
} QUIC_WIRE_ALIGNED quic_wire_canon;

/* ---- Packets (RFC 9000, section 17) */

/** The kinds of packets. */
/* Made by scripts/make/tables: */
typedef enum quic_wire_packet_kind {
  QUIC_WIRE_PACKET_INITIAL = 0,
  QUIC_WIRE_PACKET_0RTT = 1,
  QUIC_WIRE_PACKET_HANDSHAKE = 2,
  QUIC_WIRE_PACKET_RETRY = 3,
  QUIC_WIRE_PACKET_1RTT = 4,
  QUIC_WIRE_PACKET_VERSION_NEGOTIATION = 5,
  QUIC_WIRE_PACKET_UNKNOWN_VERSION = 6 /* a long header of a version that isn't
                                          given */
} quic_wire_packet_kind;
/* End of what is made. */

/** Bits of a first byte. */
#define QUIC_WIRE_BIT_LONG 0x80 /* set in all headers except those of 1-RTT */
#define QUIC_WIRE_BIT_FIXED 0x40 /* set, unless it is greased (RFC 9287) */
#define QUIC_WIRE_BIT_SPIN 0x20  /* 1-RTT */
#define QUIC_WIRE_BIT_KEY_PHASE 0x04 /* 1-RTT; protected */
#define QUIC_WIRE_BITS_RESERVED 0x18 /* 1-RTT; must be 0; protected */
#define QUIC_WIRE_BITS_RESERVED_LONG 0x0c /* Initial, 0-RTT and Handshake;
                                             likewise */

/** Versions of QUIC. */
#define QUIC_WIRE_VERSION_1 0x00000001u /* RFC 9000 */
#define QUIC_WIRE_VERSION_2 0x6b3343cfu /* RFC 9369 */

/** A packet header, still protected.  Offsets are in bytes from the front of
 * the packet; fields that the kind doesn't have are 0. */
typedef struct quic_wire_header {
  uint8_t kind;    /* QUIC_WIRE_PACKET_INITIAL and so on */
  uint8_t first;   /* the first byte, still protected */
  uint8_t dcidlen; /* the receiver's id: quic_wire_dcid */
  uint8_t scidlen; /* the sender's id: quic_wire_scid */
  uint32_t version;
  uint32_t header_end; /* where the packet number begins, or where the header
                          ends if there is none */
  uint32_t end;      /* where the packet ends; if it is cut off, where the
                        bytes end */
  uint32_t token, tokenlen; /* the token of an Initial packet, or of a Retry
                               that has at least the 16 bytes of its tag, which
                               follow the token and end the packet */
  uint64_t len; /* how many bytes an Initial, 0-RTT or Handshake packet has from
                   |header_end| on, as its header says */
} QUIC_WIRE_ALIGNED quic_wire_header;

/** A flag of quic_wire_header_fields: the fixed bit is written clear (RFC
 * 9287). */
#define QUIC_WIRE_CLEAR_FIXED_BIT 0x40

/** Fields of a header to be written, other than its ids and its token.  Fields
 * that the kind doesn't have are ignored. */
typedef struct quic_wire_header_fields {
  uint8_t kind;      /* QUIC_WIRE_PACKET_INITIAL and so on */
  uint8_t flags;     /* 0: the first byte is that of RFC 9000.
                        QUIC_WIRE_CLEAR_FIXED_BIT; for 1-RTT also
                        QUIC_WIRE_BIT_SPIN and QUIC_WIRE_BIT_KEY_PHASE; for a
                        version negotiation the bits to invert, except the
                        highest */
  uint8_t numberlen; /* how many bytes of the number are written: 1 to 4 */
  uint8_t lengthlen; /* how many bytes the Length field has: 1, 2, 4 or 8, at
                        least quic_wire_varint_len(length) */
  uint32_t version;
  uint64_t number; /* the packet number */
} QUIC_WIRE_ALIGNED quic_wire_header_fields;

/* ---- Transport parameters (RFC 9000, section 18) */

/** The sides of a connection. */
typedef enum quic_wire_side {
  QUIC_WIRE_SIDE_CLIENT = 0,
  QUIC_WIRE_SIDE_SERVER = 1
} quic_wire_side;

/** Bits of |present|: which optional parameters are there. */
/* Made by scripts/make/tables: */
#define QUIC_WIRE_HAS_STATELESS_RESET_TOKEN 0x001
#define QUIC_WIRE_HAS_DISABLE_ACTIVE_MIGRATION 0x002
#define QUIC_WIRE_HAS_MAX_DATAGRAM_FRAME_SIZE 0x004
#define QUIC_WIRE_HAS_PREFERRED_ADDRESS 0x008
#define QUIC_WIRE_HAS_PREFERRED_V4 0x010
#define QUIC_WIRE_HAS_PREFERRED_V6 0x020
#define QUIC_WIRE_HAS_ORIGINAL_DST_CID 0x040
#define QUIC_WIRE_HAS_INITIAL_SRC_CID 0x080
#define QUIC_WIRE_HAS_RETRY_SRC_CID 0x100
#define QUIC_WIRE_HAS_GREASE_QUIC_BIT 0x200
#define QUIC_WIRE_HAS_MIN_ACK_DELAY 0x400
/* End of what is made. */

/** Transport parameters.  If a parameter is absent, all its fields are 0, or
 * hold its default if it has one.  Ids are at the front of their bytes,
 * followed by zeros.  Compare reset tokens by quic_wire_reset_token_equal. */
/* Made by scripts/make/tables: */
typedef struct quic_wire_params {
  uint32_t present;          /* QUIC_WIRE_HAS_STATELESS_RESET_TOKEN and so on */
  uint32_t reserved;         /* 0 */
  uint64_t max_idle_timeout; /* milliseconds, 0 for none; default 0 */
  uint64_t max_udp_payload_size; /* bytes, 1200 or more; default 65527 */
  uint64_t initial_max_data;     /* bytes; default 0 */
  uint64_t initial_max_stream_data_bidi_local;  /* bytes; default 0 */
  uint64_t initial_max_stream_data_bidi_remote; /* bytes; default 0 */
  uint64_t initial_max_stream_data_uni;         /* bytes; default 0 */
  uint64_t initial_max_streams_bidi; /* streams, at most 2^60; default 0 */
  uint64_t initial_max_streams_uni;  /* streams, at most 2^60; default 0 */
  uint64_t ack_delay_exponent;       /* power of 2, at most 20; default 3 */
  uint64_t max_ack_delay;            /* milliseconds, below 2^14; default 25 */
  uint64_t active_connection_id_limit; /* connection ids, 2 or more;
                                          default 2 */
  uint64_t max_datagram_frame_size; /* bytes (RFC 9221, section 3) */
  uint64_t min_ack_delay; /* microseconds, at most max_ack_delay
                             (draft-ietf-quic-ack-frequency, section 3) */
  uint32_t original_dst_cidlen; /* 0 to 20 bytes */
  uint32_t initial_src_cidlen;  /* 0 to 20 bytes */
  uint32_t retry_src_cidlen;    /* 0 to 20 bytes */
  uint32_t preferred_cidlen;    /* 1 to 20 bytes */
  uint16_t preferred_v4_port;   /* in the machine's byte order */
  uint16_t preferred_v6_port;   /* in the machine's byte order */
  uint8_t original_dst_cid[20]; /* of the client's first packet, its
                                   destination */
  uint8_t initial_src_cid[20]; /* of the sender's first packet, its source */
  uint8_t retry_src_cid[20];   /* of the server's Retry, its source */
  uint8_t preferred_cid[20];   /* the id at the preferred address */
  uint8_t stateless_reset_token[16];
  uint8_t preferred_token[16]; /* that id's stateless reset token */
  uint8_t preferred_v6[16];    /* the highest byte first */
  uint8_t preferred_v4[4];     /* the highest byte first */
} QUIC_WIRE_ALIGNED quic_wire_params;
/* End of what is made. */

/** An entry of a list of transport parameters (RFC 9000, section 18). */
typedef struct quic_wire_param {
  uint64_t id;             /* below 2^62 */
  quic_wire_size value;   /* the offset of its value in the list that was
                             read */
  quic_wire_size valuelen; /* how many bytes the value has; the next entry
                              follows it */
} QUIC_WIRE_ALIGNED quic_wire_param;

/** Which entry of a list of transport parameters is rejected. */
typedef struct quic_wire_refusal {
  uint64_t id;           /* the parameter's id, or QUIC_WIRE_NO_PARAM if the
                            list ends within that */
  quic_wire_size offset; /* the offset of its entry in the list */
} QUIC_WIRE_ALIGNED quic_wire_refusal;

/** The value for a parameter's id if there is none. */
#define QUIC_WIRE_NO_PARAM UINT64_MAX

/** Ids of parameters that quic_wire_params has no field for: the versions of
 * RFC 9368, and the |n|th reserved one, which each peer ignores (RFC 9000,
 * section 18.1). */
#define QUIC_WIRE_PARAM_VERSION_INFORMATION 0x11
#define QUIC_WIRE_PARAM_RESERVED(n) (31 * (uint64_t)(n) + 27)

/** The number of the first further entry in quic_wire_params_write_with: lower
 * ones are those of the parameters of quic_wire_params. */
#define QUIC_WIRE_PARAM_ROWS 21

/** What is wrong with a parameter that the peer would reject (RFC 9000, section
 * 18.2). */
#define QUIC_WIRE_FAULT_LOW 1 /* the number is below the least one */
#define QUIC_WIRE_FAULT_HIGH 2 /* it is above the greatest one, or 2^62 or
                                  more */
#define QUIC_WIRE_FAULT_DELAY 3 /* min_ack_delay is above max_ack_delay */
#define QUIC_WIRE_FAULT_SENDER 4 /* a client must not send it */
#define QUIC_WIRE_FAULT_NO_CID 5 /* preferred_address has an empty id */
#define QUIC_WIRE_FAULT_NO_ADDRESS 6 /* it has no address, or one of zeros with
                                        port 0 */
#define QUIC_WIRE_FAULT_ABSENT 7 /* something else than a value isn't 0, or an
                                    id is longer than 20 bytes */

/* ---- Fields of what is read */

/** A field of a frame, of a packet or of an entry of transport parameters:
 * where it is in the bytes that were read.  Each begins where the one before it
 * ends.  formats.json, which is installed in share/doc, has the names of the
 * fields by their indices. */
typedef struct quic_wire_span {
  quic_wire_size field; /* its index: 0 is the frame's type, the packet's first
                           byte or the parameter's id, 1 what follows it */
  quic_wire_size start, end; /* the offsets at which it begins and ends, in
                                bytes; equal for a field without bytes, which
                                the type implies */
  uint64_t number; /* its value.  Of bytes how many there are: without the
                      length that comes before them in the field, so that they
                      begin at |end| - |number|.  Of an ACK's ranges how many
                      are below the first; of versions how many there are */
} QUIC_WIRE_ALIGNED quic_wire_span;

/** How far fields were read (not quic_wire_header_fields, which is for
 * writing). */
typedef struct quic_wire_fields {
  quic_wire_size count;  /* how many were read; on error the index of the field
                            at fault */
  quic_wire_size end;    /* where the last of them ends; on error where the
                            field at fault begins */
  quic_wire_size inside; /* on error: how many bytes of the field at fault come
                            before what is wrong with it, which begins at
                            |end| + |inside| */
  uint64_t numbers; /* on error: how many numbers these are.  0: the field's
                       first number or its bytes are at fault.  1: the bytes
                       after its length.  In an ACK's ranges 0 is their count,
                       1 the first range, then in turn a gap and a length */
} QUIC_WIRE_ALIGNED quic_wire_fields;

/** How many fields there are at most, as array sizes: of a frame, of a packet,
 * of an entry of transport parameters, and of a parameter's value. */
#define QUIC_WIRE_FRAME_FIELDS 7
#define QUIC_WIRE_PACKET_FIELDS 8
#define QUIC_WIRE_PARAM_FIELDS 2
#define QUIC_WIRE_PARAM_VALUE_FIELDS 6

/** The index of no field. */
#define QUIC_WIRE_NO_FIELD ((size_t)-1)

/* ---- The linked library */

/* The layout of the structs, on which the library relies. */
#if defined(__cplusplus) && __cplusplus >= 201103L
#define QUIC_WIRE_ASSERT(so) static_assert(so, "the library's layout")
#elif defined(__STDC_VERSION__) && __STDC_VERSION__ >= 201112L
#define QUIC_WIRE_ASSERT(so) _Static_assert(so, "the library's layout")
#endif
#ifdef QUIC_WIRE_ASSERT
/* Made by scripts/make/tables: */
QUIC_WIRE_ASSERT(sizeof(quic_wire_canon) == 16);
QUIC_WIRE_ASSERT(offsetof(quic_wire_canon, last_type) == 8);
QUIC_WIRE_ASSERT(sizeof(quic_wire_range) == 16);
QUIC_WIRE_ASSERT(offsetof(quic_wire_range, end) == 8);
QUIC_WIRE_ASSERT(sizeof(quic_wire_header) == 32);
QUIC_WIRE_ASSERT(offsetof(quic_wire_header, version) == 4);
QUIC_WIRE_ASSERT(offsetof(quic_wire_header, len) == 24);
QUIC_WIRE_ASSERT(sizeof(quic_wire_header_fields) == 16);
QUIC_WIRE_ASSERT(offsetof(quic_wire_header_fields, version) == 4);
QUIC_WIRE_ASSERT(offsetof(quic_wire_header_fields, number) == 8);
QUIC_WIRE_ASSERT(sizeof(quic_wire_params) == 264);
QUIC_WIRE_ASSERT(offsetof(quic_wire_params, max_idle_timeout) == 8);
QUIC_WIRE_ASSERT(offsetof(quic_wire_params, original_dst_cidlen) == 112);
QUIC_WIRE_ASSERT(offsetof(quic_wire_params, preferred_v4_port) == 128);
QUIC_WIRE_ASSERT(offsetof(quic_wire_params, original_dst_cid) == 132);
QUIC_WIRE_ASSERT(offsetof(quic_wire_params, preferred_v4) == 260);
QUIC_WIRE_ASSERT(sizeof(quic_wire_param) == 24);
QUIC_WIRE_ASSERT(offsetof(quic_wire_param, valuelen) == 16);
QUIC_WIRE_ASSERT(sizeof(quic_wire_refusal) == 16);
QUIC_WIRE_ASSERT(offsetof(quic_wire_refusal, offset) == 8);
QUIC_WIRE_ASSERT(sizeof(quic_wire_runs) == 16);
QUIC_WIRE_ASSERT(offsetof(quic_wire_runs, count) == 8);
QUIC_WIRE_ASSERT(sizeof(quic_wire_frame_iter) == 24);
QUIC_WIRE_ASSERT(offsetof(quic_wire_frame_iter, ended) == 16);
QUIC_WIRE_ASSERT(offsetof(quic_wire_frame_iter, flags) == 20);
QUIC_WIRE_ASSERT(sizeof(quic_wire_frame) == 80);
QUIC_WIRE_ASSERT(offsetof(quic_wire_frame, flags) == 4);
QUIC_WIRE_ASSERT(offsetof(quic_wire_frame, begin) == 8);
QUIC_WIRE_ASSERT(offsetof(quic_wire_frame, numbers) == 40);
QUIC_WIRE_ASSERT(sizeof(quic_wire_gap) == 16);
QUIC_WIRE_ASSERT(offsetof(quic_wire_gap, len) == 8);
QUIC_WIRE_ASSERT(sizeof(quic_wire_range_iter) == 24);
QUIC_WIRE_ASSERT(offsetof(quic_wire_range_iter, largest) == 16);
QUIC_WIRE_ASSERT(sizeof(quic_wire_span) == 32);
QUIC_WIRE_ASSERT(offsetof(quic_wire_span, number) == 24);
QUIC_WIRE_ASSERT(sizeof(quic_wire_fields) == 32);
QUIC_WIRE_ASSERT(offsetof(quic_wire_fields, numbers) == 24);
/* End of what is made. */
#undef QUIC_WIRE_ASSERT
#endif

/** The QUIC_WIRE_LIB and QUIC_WIRE_LIB_TEXT of the linked library. */
extern uint32_t quic_wire_lib(void);
extern const char *quic_wire_lib_text(void);

/** Checks that the linked library fits this header.  Call it once, at the
 * start of the program, as quic_wire_check(QUIC_WIRE_LIB).  Returns 0 if the
 * library has the same major version and interface, the 1 of libquic_wire.so.1,
 * and no earlier minor version; otherwise QUIC_WIRE_ERR_LIBRARY. */
QUIC_WIRE_CHECKED extern int quic_wire_check(uint32_t header);

/**
 * The code with which an endpoint closes the connection after |result|:
 * FRAME_ENCODING_ERROR, PROTOCOL_VIOLATION, STREAM_STATE_ERROR or
 * TRANSPORT_PARAMETER_ERROR if its peer broke a rule; INTERNAL_ERROR for the
 * caller's mistakes, QUIC_WIRE_ERR_ARGUMENT to QUIC_WIRE_ERR_NOBUF; NO_ERROR,
 * 0, for all others, after which nothing is closed: results from 0 on,
 * QUIC_WIRE_ERR_LIBRARY, and QUIC_WIRE_ERR_PACKET_..., whose packets are
 * dropped.
 */
QUIC_WIRE_API uint32_t quic_wire_close_code(int result);

/* ---- Reading frames */

/** Begins to read a |payload| of |payloadlen| bytes.  |flags| are
 * QUIC_WIRE_READ_...; other bits are ignored.  Returns 0,
 * QUIC_WIRE_ERR_PAYLOAD_EMPTY, or QUIC_WIRE_ERR_ARGUMENT for NULL.  |frames|
 * changes only with 0. */
QUIC_WIRE_CHECKED QUIC_WIRE_API int
quic_wire_frames_init(quic_wire_frame_iter *frames, const uint8_t *payload,
                      size_t payloadlen, uint32_t flags);

/**
 * Reads the next frame, each PADDING by itself.  |payload| is the one that
 * |frames| began with.
 *
 * Returns:
 *  - QUIC_WIRE_ITEM, and the frame
 *  - 0 if no frame is left
 *  - QUIC_WIRE_ERR_FRAME_..., once, if the next frame is invalid or rejected by
 *    |frames->flags|, with its type in |frame| (quic_wire_error_type); later
 *    calls return 0
 *  - QUIC_WIRE_ERR_PLACE if |frames->offset| is above |payloadlen|
 *  - QUIC_WIRE_ERR_ARGUMENT for NULL
 *
 * |frame| changes only with QUIC_WIRE_ITEM and QUIC_WIRE_ERR_FRAME_...
 */
QUIC_WIRE_CHECKED QUIC_WIRE_API int
quic_wire_frames_next(quic_wire_frame_iter *frames, const uint8_t *payload,
                      size_t payloadlen, quic_wire_frame *frame);

/**
 * Reads the next frames with one call, as many as the |room| entries of |out|
 * hold.  |payload| is the one that |frames| began with.  A PADDING frame and
 * all zero bytes after it are one entry (quic_wire_padding_count).
 *
 * Returns:
 *  - QUIC_WIRE_ITEM, and in |*count| how many entries were filled, at least one
 *  - 0 if no frame is left
 *  - QUIC_WIRE_ERR_FRAME_..., once, if the next frame is invalid or rejected by
 *    |frames->flags|, with its type in |out[0]| (quic_wire_error_type); later
 *    calls return 0
 *  - QUIC_WIRE_ERR_NOBUF if |room| is 0, also if no frame is left
 *  - QUIC_WIRE_ERR_PLACE if |frames->offset| is above |payloadlen|
 *  - QUIC_WIRE_ERR_ARGUMENT for NULL
 *
 * Frames before an invalid one are returned first, and the next call reports
 * it.  Entries after those that were filled don't change, and |*count| changes
 * only with QUIC_WIRE_ITEM.  Once |frames->offset| is |payloadlen|, no frame
 * is left, and you need no call to learn that.
 */
QUIC_WIRE_CHECKED QUIC_WIRE_API int
quic_wire_frames_fill(quic_wire_frame_iter *frames, const uint8_t *payload,
                      size_t payloadlen, quic_wire_frame *out, size_t room,
                      size_t *count);

/**
 * Begins to read a |payload| and reads its first frames, as many as the |room|
 * entries of |out| hold.  One call does what quic_wire_frames_init and then
 * quic_wire_frames_fill do.  If |frames->offset| is below |payloadlen|
 * afterwards, go on with quic_wire_frames_fill.  |flags| are
 * QUIC_WIRE_READ_...; other bits are ignored.
 *
 * Returns:
 *  - QUIC_WIRE_ITEM, and in |*count| how many entries were filled, at least one
 *  - QUIC_WIRE_ERR_PAYLOAD_EMPTY
 *  - QUIC_WIRE_ERR_FRAME_... if the first frame is invalid or rejected by
 *    |flags|, with its type in |out[0]|
 *  - QUIC_WIRE_ERR_NOBUF if |room| is 0
 *  - QUIC_WIRE_ERR_ARGUMENT for NULL
 *
 * |*count| changes only with QUIC_WIRE_ITEM.  Nothing else changes, except
 * with QUIC_WIRE_ITEM and QUIC_WIRE_ERR_FRAME_...
 */
QUIC_WIRE_CHECKED QUIC_WIRE_API int
quic_wire_frames_first(quic_wire_frame_iter *frames, const uint8_t *payload,
                       size_t payloadlen, uint32_t flags, quic_wire_frame *out,
                       size_t room, size_t *count);

/**
 * Passes over a frame that you read, of a type that the library doesn't know:
 * quic_wire_frames_next and quic_wire_frames_fill, which returned
 * QUIC_WIRE_ERR_FRAME_TYPE there, go on at |end|, an offset in the payload.
 * The frame begins at |frames->offset|, with its |type|.  If the bytes end
 * within the type behind it, quic_wire_error_type returns |type|, and the error
 * is QUIC_WIRE_ERR_FRAME_TYPE if QUIC_WIRE_READ_NO_ACK_FREQUENCY leaves |type|
 * out, else QUIC_WIRE_ERR_FRAME_END.
 *
 * Returns:
 *  - QUIC_WIRE_ITEM
 *  - QUIC_WIRE_ERR_PLACE if |end| isn't above |frames->offset|, or is above
 *    |payloadlen|
 *  - QUIC_WIRE_ERR_NUMBER if |type| is 2^62 or more
 *  - QUIC_WIRE_ERR_ARGUMENT for NULL
 *
 * |frames| changes only with QUIC_WIRE_ITEM.
 */
QUIC_WIRE_CHECKED QUIC_WIRE_API int
quic_wire_frames_skip(quic_wire_frame_iter *frames, const uint8_t *payload,
                      size_t payloadlen, size_t end, uint64_t type);

/**
 * Reads the frame at the front of |payload|, the rest of a payload, without an
 * iterator.  Go on where it ends, which is returned, until no byte remains.
 * Offsets in |frame| count from |payload|.  A PADDING frame and the zero bytes
 * after it are one frame.  |flags| are QUIC_WIRE_READ_...; other bits are
 * ignored.
 *
 * The ranges of an ACK below the first are written to the |room| entries of
 * |gaps| as they are encoded, and |frame->ngaps| is how many were.  If that
 * isn't all, QUIC_WIRE_FLAG_MORE is set, and quic_wire_ack_ranges_init gives
 * all.  For other frames |gaps| doesn't change.
 *
 * Returns:
 *  - where the frame ends, which is above 0
 *  - QUIC_WIRE_ERR_PAYLOAD_EMPTY if no byte remains
 *  - QUIC_WIRE_ERR_FRAME_... if the frame is invalid or rejected by |flags|,
 *    with its type in |frame| (QUIC_WIRE_NO_TYPE if the bytes end within that)
 *  - QUIC_WIRE_ERR_ARGUMENT for NULL
 */
QUIC_WIRE_CHECKED QUIC_WIRE_API int64_t
quic_wire_frame_read(const uint8_t *payload, size_t payloadlen, uint32_t flags,
                     quic_wire_frame *frame, quic_wire_gap *gaps, size_t room);

/**
 * Reads the body of a frame, the fields behind its type, where you have read
 * the |type|; or the part of an extension's frame that is the body of one that
 * the library knows.  What it reads, and why it rejects something, is what
 * quic_wire_frame_read says of the type and these bytes, except that it reads
 * one byte of PADDING, whose body is empty.  Offsets in |frame| count from
 * |body|.  |type| isn't encoded here: QUIC_WIRE_READ_SHORT_TYPES doesn't matter.
 *
 * |gaps| and QUIC_WIRE_FLAG_MORE are as there, but quic_wire_ack_ranges_init
 * can't read an ACK's body: |bodylen| / 2 entries always suffice.
 *
 * Returns:
 *  - where the body ends, which may be 0
 *  - QUIC_WIRE_ERR_NUMBER if |type| is 2^62 or more; |frame| doesn't change
 *  - QUIC_WIRE_ERR_FRAME_... if the body is invalid or rejected by |flags|, or
 *    the type unknown, with the type in |frame|
 *  - QUIC_WIRE_ERR_ARGUMENT for NULL
 */
QUIC_WIRE_CHECKED QUIC_WIRE_API int64_t
quic_wire_frame_body_read(const uint8_t *body, size_t bodylen, uint64_t type,
                          uint32_t flags, quic_wire_frame *frame,
                          quic_wire_gap *gaps, size_t room);

/**
 * Reads the header of a STREAM, CRYPTO or DATAGRAM at the front of |bytes|: the
 * frame up to its data, as quic_wire_frame_header_write writes it.  The data
 * may be in another buffer, or not there yet.  |frame| has the fields that
 * quic_wire_frame_read gives of the whole frame: |frame->data| is the header's
 * length, |frame->datalen| the length that the header gives, and |frame->end|
 * is their sum, which may be above |len|.  If the header gives no length, all
 * bytes after it are data.  |flags| are QUIC_WIRE_READ_...; other bits are
 * ignored.
 *
 * Returns:
 *  - the header's length, which is above 0
 *  - QUIC_WIRE_ERR_PAYLOAD_EMPTY if |len| is 0
 *  - QUIC_WIRE_ERR_FRAME_END if the bytes end within the header
 *  - QUIC_WIRE_ERR_FRAME_TYPE if the type is unknown
 *  - QUIC_WIRE_ERR_KIND if it is the type of another kind of frame, also of
 *    ACK_FREQUENCY and IMMEDIATE_ACK with QUIC_WIRE_READ_NO_ACK_FREQUENCY
 *  - QUIC_WIRE_ERR_FRAME_LONG_TYPE or QUIC_WIRE_ERR_FRAME_LIMIT if |flags|
 *    reject the header
 *  - QUIC_WIRE_ERR_ARGUMENT for NULL
 *
 * |frame| changes only if a header was read.
 */
QUIC_WIRE_CHECKED QUIC_WIRE_API int64_t quic_wire_frame_header_read(
    const uint8_t *bytes, size_t len, uint32_t flags, quic_wire_frame *frame);

/** How many consecutive PADDING frames |frame| is, which was read from this
 * payload: quic_wire_frames_next returns each by itself, other calls return
 * them as one.  0 for other kinds, and if an offset is outside the payload. */
QUIC_WIRE_API size_t quic_wire_padding_count(const uint8_t *payload,
                                             size_t payloadlen,
                                             const quic_wire_frame *frame);

/** The 16 bytes of the stateless reset token of a NEW_CONNECTION_ID that was
 * read from this payload (RFC 9000, section 19.15).  NULL for other kinds, and
 * if an offset is outside the payload.  Compare it by
 * quic_wire_reset_token_equal, not by memcmp. */
QUIC_WIRE_API const uint8_t *
quic_wire_reset_token(const uint8_t *payload, size_t payloadlen,
                      const quic_wire_frame *frame);

/** Whether two stateless reset tokens, of 16 bytes each, are equal: 1 if they
 * are, 0 if they aren't, and for NULL.  It runs the same instructions for all
 * tokens, so its time doesn't reveal which bytes differ, as RFC 9000, section
 * 10.3.1, requires when the last 16 bytes of a datagram are compared with the
 * tokens of a peer.  This is tested, not proved. */
QUIC_WIRE_API int quic_wire_reset_token_equal(const uint8_t *a,
                                              const uint8_t *b);

/** The eight bytes of a PATH_CHALLENGE or PATH_RESPONSE that was read from this
 * payload (RFC 9000, sections 19.17 and 19.18), which |path.data| holds as a
 * number.  NULL for other kinds, and if an offset is outside the payload. */
QUIC_WIRE_API const uint8_t *quic_wire_path_data(const uint8_t *payload,
                                                 size_t payloadlen,
                                                 const quic_wire_frame *frame);

/** The rules of RFC 9000 for a |kind| of frame, QUIC_WIRE_RULE_...; 0 if there
 * is no such kind.  DATAGRAM, ACK_FREQUENCY and IMMEDIATE_ACK may be in 0-RTT
 * and 1-RTT packets (RFC 9221, section 5; as in quinn-proto). */
QUIC_WIRE_API uint32_t quic_wire_frame_rules(uint32_t kind);

/**
 * Whether a |packet| from |sender| may carry a frame of this |type|, before its
 * fields are read (RFC 9000, section 12.4).  |packet| is
 * QUIC_WIRE_PACKET_INITIAL, QUIC_WIRE_PACKET_0RTT, QUIC_WIRE_PACKET_HANDSHAKE
 * or QUIC_WIRE_PACKET_1RTT, and |sender| is QUIC_WIRE_SIDE_CLIENT or
 * QUIC_WIRE_SIDE_SERVER.  Of |flags| only QUIC_WIRE_READ_NO_ACK_FREQUENCY
 * counts.
 *
 * Returns, of the errors the first that applies:
 *  - 0 if it may
 *  - QUIC_WIRE_ERR_KIND if |packet| or |sender| is none of these
 *  - QUIC_WIRE_ERR_FRAME_TYPE if the type is unknown, as the types of
 *    ACK_FREQUENCY and IMMEDIATE_ACK are with that flag
 *  - QUIC_WIRE_ERR_FRAME_PACKET if such a packet may not carry the frame
 *  - QUIC_WIRE_ERR_FRAME_SENDER if it is a NEW_TOKEN or a HANDSHAKE_DONE from a
 *    client (sections 19.7 and 19.20), or in a 0-RTT packet from a server
 *    (section 17.2.3)
 */
QUIC_WIRE_CHECKED QUIC_WIRE_API int quic_wire_type_permitted(uint64_t type,
                                                             uint32_t packet,
                                                             uint32_t sender,
                                                             uint32_t flags);

/**
 * Whether a |packet| from |sender| may carry this |frame|, of which the kind
 * and the stream's id count.  Of the id only the two low bits count (section
 * 2.1), so one of 2^62 or more, which no stream has, isn't an error by itself.
 * The other arguments are those of quic_wire_type_permitted.
 *
 * Returns what quic_wire_type_permitted does for |frame->kind|, or before that
 * QUIC_WIRE_ERR_ARGUMENT for NULL; and instead of 0
 * QUIC_WIRE_ERR_FRAME_STREAM if the stream is unidirectional and
 *
 *  - |sender| can't send on it, of a RESET_STREAM, STREAM or
 *    STREAM_DATA_BLOCKED (sections 19.4, 19.8 and 19.13)
 *  - |sender| can't receive on it, of a STOP_SENDING or MAX_STREAM_DATA
 *    (sections 19.5 and 19.10)
 *
 * Whether the stream exists, and how many there may be, you check.
 */
QUIC_WIRE_CHECKED QUIC_WIRE_API int
quic_wire_frame_permitted(const quic_wire_frame *frame, uint32_t packet,
                          uint32_t sender, uint32_t flags);

/** After QUIC_WIRE_ERR_FRAME_END to QUIC_WIRE_ERR_FRAME_LIMIT (-21 to -25): the
 * type of the invalid frame, below 2^62.  After those from
 * QUIC_WIRE_ERR_FRAME_PACKET on a frame was read, whose type is |frame->type|.
 * If the bytes end within the type, it is the type of the frame before, as in
 * quinn-proto, or QUIC_WIRE_NO_TYPE if there is none; write that as 0 into a
 * CONNECTION_CLOSE.  |frame->kind| is then no kind, 0xffff, and |frame->type|
 * is 0. */
QUIC_WIRE_API uint64_t quic_wire_error_type(const quic_wire_frame *frame);

/* ---- Reading the ranges of an ACK */

/**
 * Begins at the greatest range of |frame|, an ACK that was read from this
 * payload.  |ranges->left| is then how many ranges it has.  No range is read
 * yet, only what comes before them.  If one of the calls above read the whole
 * ACK, its ranges are valid; otherwise the call that reaches an invalid range
 * reports it.  Returns 0; QUIC_WIRE_ERR_PLACE if no ACK begins at
 * |frame->begin|, or |frame| has another kind, or an end before the ranges or
 * outside of the payload; QUIC_WIRE_ERR_ARGUMENT for NULL.  |ranges| changes
 * only with 0.
 */
QUIC_WIRE_CHECKED QUIC_WIRE_API int
quic_wire_ack_ranges_init(quic_wire_range_iter *ranges, const uint8_t *payload,
                          size_t payloadlen, const quic_wire_frame *frame);

/**
 * Reads the next range, the greatest first.  Returns QUIC_WIRE_ITEM and the
 * range; 0 if |ranges->left| is 0; QUIC_WIRE_ERR_PLACE if the bytes at
 * |ranges->offset| are no range of an ACK; QUIC_WIRE_ERR_ARGUMENT for NULL.
 * Nothing changes except with QUIC_WIRE_ITEM.
 */
QUIC_WIRE_CHECKED QUIC_WIRE_API int
quic_wire_ack_ranges_next(quic_wire_range_iter *ranges, const uint8_t *payload,
                          size_t payloadlen, quic_wire_range *range);

/**
 * Reads the next ranges, the greatest first, as many as the |room| entries of
 * |out| hold, with one call.  Returns QUIC_WIRE_ITEM, and in |*count| how many
 * entries were filled, one at least; QUIC_WIRE_ERR_NOBUF if |room| is 0; else 0
 * if |ranges->left| is 0, and QUIC_WIRE_ERR_PLACE if the bytes at
 * |ranges->offset| are no range of an ACK; QUIC_WIRE_ERR_ARGUMENT for NULL.
 * Ranges before an invalid one are given first.  Entries after those that were
 * filled don't change, and nothing changes except with QUIC_WIRE_ITEM.
 */
QUIC_WIRE_CHECKED QUIC_WIRE_API int
quic_wire_ack_ranges_fill(quic_wire_range_iter *ranges, const uint8_t *payload,
                          size_t payloadlen, quic_wire_range *out, size_t room,
                          size_t *count);

/* ---- Writing frames */

/**
 * Writes |frame|, any kind except ACK, in its shortest form at the front of
 * |dest|.  |flags| are QUIC_WIRE_WRITE_LAST and QUIC_WIRE_WRITE_RFC, or single
 * rules.  The frame's data is |frame->datalen| bytes at |frame->data| of
 * |data|, an array of |datalen| bytes; in a NEW_CONNECTION_ID the token follows
 * them.  If |frame->datalen| is 0, as for each kind without data, |data| and
 * that offset are ignored, so a PING is written as it was read, with any |data|
 * or NULL.  A PADDING is written as one byte.  The frame's type, begin and end
 * are ignored.
 *
 * Returns:
 *  - 0, and in |*written| how many bytes were written
 *  - QUIC_WIRE_ERR_NOBUF if |destlen| is less, and in |*written| how many are
 *    needed
 *  - QUIC_WIRE_ERR_ARGUMENT for NULL, or if |frame| can't be written: it is an
 *    ACK or of no kind, has a flag or number that its kind lacks, a number of
 *    2^62 or more other than |path.data|, data outside |data|, or is a
 *    NEW_CONNECTION_ID that section 19.15 rules out
 *  - QUIC_WIRE_ERR_FRAME_LIMIT, QUIC_WIRE_ERR_FRAME_MALFORMED or
 *    QUIC_WIRE_ERR_FRAME_TYPE if it breaks a rule of |flags|
 *
 * If several errors apply, QUIC_WIRE_ERR_ARGUMENT comes first, then a broken
 * rule, and QUIC_WIRE_ERR_NOBUF last.
 *
 * Without rules, frames that a reader rejects only because of its flags are
 * written.  |written| may be NULL, and changes only with the first two.  Bytes
 * of |dest| after those written don't change, and none after an error.
 */
QUIC_WIRE_CHECKED QUIC_WIRE_API int
quic_wire_frame_write(const quic_wire_frame *frame, const uint8_t *data,
                      size_t datalen, uint32_t flags, uint8_t *dest,
                      size_t destlen, size_t *written);

/**
 * Writes |frame|, a STREAM, CRYPTO or DATAGRAM, up to its data, which has
 * |frame->datalen| bytes: fewer than 2^62, except of a STREAM or DATAGRAM with
 * QUIC_WIRE_WRITE_LAST, which has no length.  It is the front of what
 * quic_wire_frame_write writes; you put the data after it.  The frame's type,
 * data, begin and end are ignored.  |flags|, the results, |dest| and |written|
 * are as for quic_wire_frame_write; QUIC_WIRE_ERR_ARGUMENT also for other kinds
 * and for more bytes.
 */
QUIC_WIRE_CHECKED QUIC_WIRE_API int
quic_wire_frame_header_write(const quic_wire_frame *frame, uint32_t flags,
                             uint8_t *dest, size_t destlen, size_t *written);

/**
 * Writes an ACK in its shortest form at the front of |dest|.  |ack| is as
 * quic_wire_frame_read returns it: |ack->ack| has the greatest number, the
 * delay and, if |ack->flags| is QUIC_WIRE_FLAG_ECN and not 0, the counts;
 * |ack->first_range| is the first range less one; and the |ngaps| entries of
 * |gaps| are the ranges below it.  Of the other fields only |kind| counts.
 *
 * Returns:
 *  - 0, and in |*written| how many bytes were written
 *  - QUIC_WIRE_ERR_NOBUF if |destlen| is less, and in |*written| how many are
 *    needed
 *  - QUIC_WIRE_ERR_ARGUMENT for NULL, or if this is no ACK: a range goes below
 *    0, a number is 2^62 or more, or there are other flags, such as
 *    QUIC_WIRE_FLAG_MORE, with which ranges are missing
 *
 * Bytes of |dest| change only if something was written, and only those.
 */
QUIC_WIRE_CHECKED QUIC_WIRE_API int
quic_wire_ack_gaps_write(const quic_wire_frame *ack, const quic_wire_gap *gaps,
                         size_t ngaps, uint8_t *dest, size_t destlen,
                         size_t *written);

/** How many bytes quic_wire_frame_write writes for these arguments.  Returns 0
 * and |*len|, or QUIC_WIRE_ERR_ARGUMENT, QUIC_WIRE_ERR_FRAME_LIMIT,
 * QUIC_WIRE_ERR_FRAME_MALFORMED or QUIC_WIRE_ERR_FRAME_TYPE if that does. */
QUIC_WIRE_CHECKED QUIC_WIRE_API int
quic_wire_frame_len(const quic_wire_frame *frame, const uint8_t *data,
                    size_t datalen, uint32_t flags, size_t *len);

/**
 * Why quic_wire_frame_write returns QUIC_WIRE_ERR_ARGUMENT for these arguments:
 * the index of the first field that can't have its value, as
 * quic_wire_frame_fields numbers the fields of |frame->kind|.
 *
 * Returns:
 *  - 0, the type's, for an ACK or no kind
 *  - the index of a number of 2^62 or more, of data outside |data| or of 2^62
 *    bytes or more whose length is written, of a FIN that isn't 0 or 1; in a
 *    NEW_CONNECTION_ID 3 if |retire_prior_to| is above |sequence|, 4 if the id
 *    is empty or longer than 20 bytes, 5 if the token isn't whole in |data|
 *  - QUIC_WIRE_NO_FIELD if there is none.  If |frame| can't be written then, it
 *    has a number, data or flags that its kind lacks, or breaks a rule of
 *    |flags|; also for NULL
 */
QUIC_WIRE_API size_t quic_wire_frame_write_fault(const quic_wire_frame *frame,
                                                 const uint8_t *data,
                                                 size_t datalen,
                                                 uint32_t flags);

/* ---- Shortest payloads */

/**
 * Writes the shortest payload with the same meaning as |payload| at the front
 * of |dest|: the same frames in the same order, each in its shortest form (RFC
 * 9000, sections 12.4 and 19).  It doesn't allocate.
 *
 * Returns:
 *  - 0, and in |out->len| how many bytes were written, at most |payloadlen|
 *  - QUIC_WIRE_ERR_NOBUF if |destlen| is less, and in |out->len| how many are
 *    needed
 *  - QUIC_WIRE_ERR_PAYLOAD_EMPTY
 *  - QUIC_WIRE_ERR_FRAME_... if it has an invalid frame, with the type in
 *    |out->last_type|
 *  - QUIC_WIRE_ERR_ARGUMENT for NULL
 *
 * Bytes of |dest| after those written don't change, and none after an error.
 * |out| changes only in the fields that are named here.
 */
QUIC_WIRE_CHECKED QUIC_WIRE_API int
quic_wire_canonical(const uint8_t *payload, size_t payloadlen, uint8_t *dest,
                    size_t destlen, quic_wire_canon *out);

/** The same by rules (RFC 9000, sections 12.4 and 19): |payload| is also
 * rejected if a frame breaks one of |flags|, QUIC_WIRE_READ_..., as
 * quic_wire_frames_next rejects it, and what is written breaks none.  Other
 * bits are ignored.  Returns what quic_wire_canonical does. */
QUIC_WIRE_CHECKED QUIC_WIRE_API int
quic_wire_canonical_with(const uint8_t *payload, size_t payloadlen,
                         uint32_t flags, uint8_t *dest, size_t destlen,
                         quic_wire_canon *out);

/* ---- Reading packet headers */

/**
 * Reads the header of the packet at the front of |bytes|, whether the packet is
 * complete or cut off after its header.  Ids of short headers have |cidlen|
 * bytes.  For versions other than |versions| only the ids are read.  |flags|
 * are QUIC_WIRE_READ_GREASED_BIT, QUIC_WIRE_READ_ANY_VERSION and
 * QUIC_WIRE_READ_WHOLE_RETRY; other bits are ignored.
 *
 * Returns:
 *  - where the packet ends, 1 or more, which is |header->end|; the next packet
 *    of the datagram begins there
 *  - QUIC_WIRE_ERR_PACKET_CUT and the header, if the packet is cut off
 *  - QUIC_WIRE_ERR_PACKET_VERSION, and the header's kind, version and ids,
 *    which may have up to 255 bytes (RFC 8999)
 *  - another QUIC_WIRE_ERR_PACKET_... if there is no header, if |flags| reject
 *    it, or if an id of a version negotiation has more than 20 bytes, which
 *    quic_wire_negotiation_read reads
 *  - QUIC_WIRE_ERR_LENGTH if |cidlen| is above 20, or if there are 2^32 bytes
 *    or more
 *  - QUIC_WIRE_ERR_ARGUMENT for NULL
 *
 * |header| changes only with the first three.
 */
QUIC_WIRE_CHECKED QUIC_WIRE_API int64_t quic_wire_header_read(
    const uint8_t *bytes, size_t len, uint32_t cidlen, const uint32_t *versions,
    size_t nversions, uint32_t flags, quic_wire_header *header);

/** Where the short header at the front of |packet| ends, which is where the
 * packet number begins.  Its id has |cidlen| bytes.  It is the |header_end|
 * that quic_wire_header_read finds, but faster.  0 if no short header is there,
 * if |cidlen| is above 20, and for NULL.  The fixed bit is ignored. */
QUIC_WIRE_API size_t quic_wire_short_read(const uint8_t *packet,
                                          size_t packetlen, uint32_t cidlen);

/**
 * Reads the header of a version negotiation (RFC 9000, section 17.2.1).  Its
 * ids are those of the packet that it responds to, which may have any version,
 * so they have up to 255 bytes (RFC 8999, section 6).  If both have at most
 * 20, the header is that of quic_wire_header_read with
 * QUIC_WIRE_READ_ANY_VERSION, which rejects longer ones.
 * The seven low bits of the first byte are ignored.
 *
 * Returns:
 *  - |packetlen|, where the packet ends, and the header; the versions are from
 *    |header->header_end| on, four bytes each, the highest first, while four
 *    are left before |header->end|; RFC 8999, section 6, has a packet without
 *    any, or with a part of one, ignored
 *  - QUIC_WIRE_ERR_KIND if there is no such header: the highest bit of the
 *    first byte is clear, the version isn't 0, or the bytes end within the ids
 *  - QUIC_WIRE_ERR_LENGTH if there are 2^32 bytes or more
 *  - QUIC_WIRE_ERR_ARGUMENT for NULL
 *
 * |header| changes only with the first.
 */
QUIC_WIRE_CHECKED QUIC_WIRE_API int64_t quic_wire_negotiation_read(
    const uint8_t *packet, size_t packetlen, quic_wire_header *header);

/**
 * Finds the receiver's id in a packet of any version, as you need to forward it
 * (RFC 8999, section 5).  Returns where it begins, and in |*dcidlen| how many
 * bytes it has.  That of a short header has |cidlen|.  NULL if the packet
 * ends before the id does, and for NULL; |*dcidlen| doesn't change then.  The
 * fixed bit is ignored.
 */
QUIC_WIRE_API const uint8_t *quic_wire_dcid_read(const uint8_t *packet,
                                                 size_t packetlen,
                                                 size_t cidlen,
                                                 size_t *dcidlen);

/** Where the receiver's id, or the sender's of a long header, begins in a
 * packet with this header; NULL for NULL. */
QUIC_WIRE_API const uint8_t *quic_wire_dcid(const uint8_t *packet,
                                            const quic_wire_header *header);
QUIC_WIRE_API const uint8_t *quic_wire_scid(const uint8_t *packet,
                                            const quic_wire_header *header);

/* ---- Header protection */

/** The sample of |samplelen| bytes from which you make the mask for header
 * protection (RFC 9001, section 5.4.2), in a packet whose number begins at
 * |number|.  NULL if the packet is too short. */
QUIC_WIRE_API const uint8_t *quic_wire_sample(const uint8_t *packet,
                                              size_t packetlen, size_t number,
                                              size_t samplelen);

/**
 * Removes the header protection of a packet whose number begins at |place|,
 * with a mask of five bytes (RFC 9001, section 5.4.1).  |*number| is the whole
 * packet number, from the one that is |expected| next, as
 * quic_wire_number_expand returns it; if |expected| is 0, it is the truncated
 * number.
 *
 * Returns:
 *  - how many bytes the number has, 1 to 4; the payload begins after them, and
 *    packet[0] has the Key Phase and the reserved bits
 *  - QUIC_WIRE_ERR_NUMBER if |expected| is 2^62 or more
 *  - QUIC_WIRE_ERR_PACKET_SMALL if |place| is 0, or the packet has fewer than
 *    four bytes from there on
 *  - QUIC_WIRE_ERR_ARGUMENT for NULL
 *
 * Nothing changes after an error.
 */
QUIC_WIRE_CHECKED QUIC_WIRE_API int
quic_wire_unprotect(uint8_t *packet, size_t packetlen, size_t place,
                    const uint8_t *mask, uint64_t expected, uint64_t *number);

/**
 * The same in a copy of the header, so that the packet doesn't change.  The
 * bytes before |place| and the four from there on are copied to |dest|, and the
 * protection is removed there.  Returns what quic_wire_unprotect does, or else
 * QUIC_WIRE_ERR_NOBUF if |destlen| is less than |place| + 4.  Nothing changes
 * after an error.
 */
QUIC_WIRE_CHECKED QUIC_WIRE_API int
quic_wire_unprotect_copy(const uint8_t *packet, size_t packetlen, size_t place,
                         const uint8_t *mask, uint64_t expected, uint8_t *dest,
                         size_t destlen, uint64_t *number);

/**
 * Applies header protection to a packet whose payload is sealed and whose
 * number begins at |place|, with a mask of five bytes (RFC 9001, section
 * 5.4.1).  Returns how many bytes the number has; QUIC_WIRE_ERR_PACKET_SMALL
 * if |place| is 0, or the packet has fewer than four bytes from there on;
 * QUIC_WIRE_ERR_ARGUMENT for NULL.  Nothing changes after an error.
 */
QUIC_WIRE_CHECKED QUIC_WIRE_API int quic_wire_protect(uint8_t *packet,
                                                      size_t packetlen,
                                                      size_t place,
                                                      const uint8_t *mask);

/* ---- Packet numbers and varints */

/** How many bytes of |number| to write for a receiver that has acknowledged
 * |largest_acked| (RFC 9000, section 17.1).  If nothing was acknowledged, pass
 * 0: the result is that of appendix A.2.  Returns 1 to 4; QUIC_WIRE_ERR_NUMBER
 * if |largest_acked| is above |number|, or 2^31 or more below it. */
QUIC_WIRE_CHECKED QUIC_WIRE_API int
quic_wire_number_len(uint64_t number, uint64_t largest_acked);

/**
 * The whole packet number whose low |numberlen| bytes are |written|, from the
 * one that is |expected| next (RFC 9000, appendix A.3).  UINT64_MAX if
 * |numberlen| isn't 1 to 4, |written| has more bytes, or |expected| is 2^62 or
 * more.  If 2^62 - |expected| is at most 2^(8 * numberlen - 1), the result may
 * be 2^62 or more, which no packet number is; appendix A.3 then has the number
 * that is less by 2^(8 * numberlen).
 */
QUIC_WIRE_API uint64_t quic_wire_number_expand(uint64_t written,
                                               uint32_t numberlen,
                                               uint64_t expected);

/**
 * Reads a truncated packet number of |numberlen| bytes at the front of |bytes|,
 * the highest first (RFC 9000, section 17.1).  Returns |numberlen|;
 * QUIC_WIRE_ERR_LENGTH if that isn't 1 to 4, else QUIC_WIRE_ERR_PACKET_END if
 * |len| is less; QUIC_WIRE_ERR_ARGUMENT for NULL.  |*written| changes only
 * with the first.
 */
QUIC_WIRE_CHECKED QUIC_WIRE_API int quic_wire_number_read(const uint8_t *bytes,
                                                          size_t len,
                                                          uint32_t numberlen,
                                                          uint64_t *written);

/**
 * Writes the low |numberlen| bytes of a packet number at the front of |dest|,
 * the highest first.  Returns |numberlen|; QUIC_WIRE_ERR_LENGTH if that isn't
 * 1 to 4, else QUIC_WIRE_ERR_NOBUF if |destlen| is less; QUIC_WIRE_ERR_ARGUMENT
 * for NULL.  Bytes of |dest| after those written don't change, and none after
 * an error.
 */
QUIC_WIRE_CHECKED QUIC_WIRE_API int quic_wire_number_write(uint64_t number,
                                                           uint32_t numberlen,
                                                           uint8_t *dest,
                                                           size_t destlen);

/** How many bytes the shortest encoding of a varint has: 1, 2, 4 or 8 (RFC
 * 9000, section 16).  0 if the value is 2^62 or more. */
QUIC_WIRE_API size_t quic_wire_varint_len(uint64_t value);

/** Reads the varint at the front of |bytes|.  Returns how many bytes it has,
 * or 0 if they end within it. */
QUIC_WIRE_API size_t quic_wire_varint_read(const uint8_t *bytes, size_t len,
                                           uint64_t *value);

/** Writes a varint at the front of |dest|, in |width| bytes, 1, 2, 4 or 8, or
 * in as few as possible if |width| is 0.  Returns how many bytes were written.
 * 0 if the value doesn't fit, or |width| is another; |dest| doesn't change
 * then. */
QUIC_WIRE_API size_t quic_wire_varint_write(uint64_t value, uint32_t width,
                                            uint8_t *dest, size_t destlen);

/* ---- Writing packet headers */

/** How many bytes a header has with ids and a token of these lengths; 0 for
 * NULL.  No header has ids above 255 bytes or a token of 2^62 bytes or more;
 * for these the sum may wrap. */
QUIC_WIRE_API size_t quic_wire_header_len(const quic_wire_header_fields *fields,
                                          size_t dcidlen, size_t scidlen,
                                          size_t tokenlen);

/**
 * Writes the header of a packet, unprotected, at the front of |dest|: |fields|
 * with the receiver's id |dcid|, the sender's id |scid| and the |token|.  The
 * length of an Initial, 0-RTT or Handshake packet is 0 until quic_wire_set_len.
 *
 * Returns:
 *  - how many bytes were written; the last of them are the packet number
 *  - QUIC_WIRE_ERR_NOBUF if |destlen| is less than quic_wire_header_len
 *  - QUIC_WIRE_ERR_KIND if there is no such kind
 *  - QUIC_WIRE_ERR_NUMBER if the number is 2^62 or more, or if an Initial,
 *    0-RTT, Handshake or Retry packet has version 0, which would be a version
 *    negotiation (RFC 9000, section 17.2.1)
 *  - QUIC_WIRE_ERR_LENGTH if an id has more than 20 bytes, |numberlen| isn't 1
 *    to 4, or |lengthlen| isn't 1, 2, 4 or 8
 *  - QUIC_WIRE_ERR_ARGUMENT for NULL
 *
 * |dest| is modified only if a header is written.  What a kind doesn't have is
 * ignored, so one |fields| serves all kinds.  They have:
 *
 *  - Initial: |flags|, |version|, both ids, |token|, |number|, |numberlen|,
 *    |lengthlen|
 *  - 0-RTT and Handshake: the same without |token|
 *  - Retry: |flags|, |version|, both ids
 *  - 1-RTT: |flags|, |dcid|, |number|, |numberlen|
 *  - version negotiation: |flags|, both ids
 *
 * With |flags| of 0 the first byte is that of RFC 9000.
 * QUIC_WIRE_CLEAR_FIXED_BIT clears its fixed bit.  For 1-RTT,
 * QUIC_WIRE_BIT_SPIN and QUIC_WIRE_BIT_KEY_PHASE set these bits.  For a
 * version negotiation, whose seven low bits are free (section 17.2.1), |flags|
 * invert these bits of 0xc0.
 */
QUIC_WIRE_CHECKED QUIC_WIRE_API int64_t quic_wire_header_write(
    const quic_wire_header_fields *fields, const uint8_t *dcid, size_t dcidlen,
    const uint8_t *scid, size_t scidlen, const uint8_t *token, size_t tokenlen,
    uint8_t *dest, size_t destlen);

/**
 * Writes a whole version negotiation at the front of |dest|: the first byte,
 * version 0, the ids, which may have 255 bytes (RFC 8999, section 6), and the
 * versions.  |dcid| is the source id of the packet that it responds to, |scid|
 * its destination id (RFC 9000, section 17.2.1).  With |flags| of 0 the first
 * byte is 0xc0; |flags| invert its seven low bits, which are free.  But that
 * section asks for the fixed bit if QUIC may share its port (RFC 7983), and
 * some readers reject a packet without it.
 *
 * Returns:
 *  - 0, and in |*written| how many bytes were written
 *  - QUIC_WIRE_ERR_NOBUF if |destlen| is less, and in |*written| how many are
 *    needed
 *  - QUIC_WIRE_ERR_LENGTH if an id has more than 255 bytes
 *  - QUIC_WIRE_ERR_ARGUMENT for NULL
 *
 * |*written| changes only with the first two.  Bytes of |dest| after those
 * written don't change, and none after an error.
 */
QUIC_WIRE_CHECKED QUIC_WIRE_API int
quic_wire_negotiation_write(uint8_t flags, const uint8_t *dcid, size_t dcidlen,
                            const uint8_t *scid, size_t scidlen,
                            const uint32_t *versions, size_t nversions,
                            uint8_t *dest, size_t destlen, size_t *written);

/**
 * Sets the Length field of a packet of |packetlen| bytes whose number begins at
 * |place| to the count of bytes from there on.  The field has |lengthlen|
 * bytes, as in the header.  Returns 0; QUIC_WIRE_ERR_LENGTH if |lengthlen|
 * isn't 1, 2, 4 or 8, doesn't fit before |place|, or can't hold the length, or
 * if |place| is above |packetlen|; QUIC_WIRE_ERR_ARGUMENT for NULL.  Nothing
 * changes after an error.
 */
QUIC_WIRE_CHECKED QUIC_WIRE_API int quic_wire_set_len(uint8_t *packet,
                                                      size_t packetlen,
                                                      size_t place,
                                                      uint32_t lengthlen);

/**
 * Why quic_wire_header_write returns QUIC_WIRE_ERR_KIND, QUIC_WIRE_ERR_NUMBER
 * or QUIC_WIRE_ERR_LENGTH for ids and a token of these lengths: the index of
 * the first field that can't have its value, as quic_wire_packet_fields numbers
 * the fields of a packet of |fields->kind|.  The packet number comes after
 * these.
 *
 * Returns:
 *  - 0, the first byte's, if there is no such kind
 *  - the index of a version of 0, an id longer than 20 bytes, a token of 2^62
 *    bytes or more, a length that isn't written in 1, 2, 4 or 8 bytes, or a
 *    packet number of 2^62 or more, or that isn't written in 1 to 4 bytes
 *  - QUIC_WIRE_NO_FIELD if such a header can be written; also for NULL
 */
QUIC_WIRE_API size_t
quic_wire_header_write_fault(const quic_wire_header_fields *fields,
                             size_t dcidlen, size_t scidlen, size_t tokenlen);

/* ---- Reading and writing transport parameters.  |side| is the side that
 * calls. */

/**
 * Reads a list of transport parameters to its end (RFC 9000, sections 7.4 and
 * 18).  |side| is QUIC_WIRE_SIDE_CLIENT for a list that a server sent,
 * QUIC_WIRE_SIDE_SERVER for one that a client sent, which must not have what
 * only servers send.  An empty list gives each parameter its default.
 *
 * With 0 in |flags| an integer that has a default must be in its shortest
 * encoding, and grease_quic_bit and min_ack_delay may occur twice, as in
 * quinn-proto.  With QUIC_WIRE_READ_ANY_WIDTH an integer may be in any
 * encoding (section 16), and with QUIC_WIRE_READ_NO_REPEATS no known parameter
 * may occur twice (section 7.4).  Other bits are ignored.
 *
 * Returns:
 *  - 0, and the parameters
 *  - QUIC_WIRE_ERR_PARAMS_MALFORMED or QUIC_WIRE_ERR_PARAMS_ILLEGAL if the list
 *    is a TRANSPORT_PARAMETER_ERROR, and in |refusal|, which may be NULL, the
 *    entry that is rejected: its id, and where it begins.  It is the first one
 *    that is malformed; if none is, one of those that break a rule, not always
 *    the first
 *  - QUIC_WIRE_ERR_KIND if |side| is neither
 *  - QUIC_WIRE_ERR_ARGUMENT for NULL
 *
 * |params| changes only with 0, |refusal| only if the list is rejected.
 *
 * |size| is `sizeof *params`, so that a later version can add fields at the end
 * of the struct without a change for callers of this one.  A size that the
 * library doesn't know is QUIC_WIRE_ERR_LENGTH.
 */
QUIC_WIRE_CHECKED QUIC_WIRE_API int
quic_wire_params_read(uint32_t side, uint32_t flags, const uint8_t *list,
                      size_t listlen, quic_wire_params *params, size_t size,
                      quic_wire_refusal *refusal);

/** Gives each parameter its default, as quic_wire_params_read does for an empty
 * list (RFC 9000, section 18.2).  Returns 0; QUIC_WIRE_ERR_LENGTH for another
 * |size|; QUIC_WIRE_ERR_ARGUMENT for NULL.  Nothing changes after an error. */
QUIC_WIRE_CHECKED QUIC_WIRE_API int
quic_wire_params_default(quic_wire_params *params, size_t size);

/**
 * Writes the shortest list of these parameters, as the |side| sends it: the
 * numbers that differ from their defaults, and what else is present.  It can be
 * read with any flags, also with QUIC_WIRE_READ_RFC.
 *
 * Returns:
 *  - 0, and in |*written| how many bytes were written
 *  - QUIC_WIRE_ERR_NOBUF if |destlen| is less, and in |*written| how many are
 *    needed
 *  - QUIC_WIRE_ERR_PARAM if the peer would reject the parameters, or read
 *    others: a number is out of range, something that is absent isn't 0, or the
 *    preferred address has no address, or one of zeros with port 0
 *  - QUIC_WIRE_ERR_KIND if |side| is neither
 *  - QUIC_WIRE_ERR_LENGTH for another |size| than `sizeof *params`
 *  - QUIC_WIRE_ERR_ARGUMENT for NULL
 *
 * |dest| changes only with 0, and then only in the bytes that were written.
 */
QUIC_WIRE_CHECKED QUIC_WIRE_API int
quic_wire_params_write(uint32_t side, const quic_wire_params *params,
                       size_t size, uint8_t *dest, size_t destlen,
                       size_t *written);

/**
 * The same with further entries, in an order of your choice.  |further| is a
 * list of at most 235 entries, below 2^40 bytes, that quic_wire_params has no
 * fields for, none of them twice.  Their ids and lengths may be in any encoding
 * (section 16).  The parameters of quic_wire_params have the numbers below,
 * whether they are written or not; the further entries have numbers from
 * QUIC_WIRE_PARAM_ROWS on.  |order| has each of these numbers once.  If
 * |orderlen| is 0, the entries are written in the order of their numbers.
 *
 *  - 0 max_idle_timeout
 *  - 1 max_udp_payload_size
 *  - 2 initial_max_data
 *  - 3 initial_max_stream_data_bidi_local
 *  - 4 initial_max_stream_data_bidi_remote
 *  - 5 initial_max_stream_data_uni
 *  - 6 initial_max_streams_bidi
 *  - 7 initial_max_streams_uni
 *  - 8 ack_delay_exponent
 *  - 9 max_ack_delay
 *  - 10 active_connection_id_limit
 *  - 11 (a reserved one, never written)
 *  - 12 stateless_reset_token
 *  - 13 disable_active_migration
 *  - 14 max_datagram_frame_size
 *  - 15 preferred_address
 *  - 16 original_destination_connection_id
 *  - 17 initial_source_connection_id
 *  - 18 retry_source_connection_id
 *  - 19 grease_quic_bit
 *  - 20 min_ack_delay
 *
 * Each entry is written in its shortest encoding, also the id and length of a
 * further one, and the peer reads the same |params|.  Returns what
 * quic_wire_params_write does; QUIC_WIRE_ERR_PARAM also if |further| or |order|
 * isn't as described.
 */
QUIC_WIRE_CHECKED QUIC_WIRE_API int quic_wire_params_write_with(
    uint32_t side, const quic_wire_params *params, size_t size,
    const uint8_t *further, size_t furtherlen, const uint8_t *order,
    size_t orderlen, uint8_t *dest, size_t destlen, size_t *written);

/**
 * Reads the entry at the front of a |list| of transport parameters, whether
 * quic_wire_params has a field for it or not.  It doesn't check the value, nor
 * whether an entry occurs twice.
 *
 * Returns:
 *  - where the entry ends, which is where the next one begins, and the entry
 *  - 0 if the list is empty
 *  - QUIC_WIRE_ERR_PARAMS_MALFORMED if its first entry is cut off
 *  - QUIC_WIRE_ERR_ARGUMENT for NULL
 *
 * |param| changes only with the first.
 */
QUIC_WIRE_CHECKED QUIC_WIRE_API int64_t quic_wire_param_read(
    const uint8_t *list, size_t listlen, quic_wire_param *param);

/**
 * Writes an entry of a list at the front of |dest|, its id and length in their
 * shortest encodings.
 *
 * Returns:
 *  - 0, and in |*written| how many bytes were written
 *  - QUIC_WIRE_ERR_NOBUF if |destlen| is less, and in |*written| how many are
 *    needed
 *  - QUIC_WIRE_ERR_NUMBER if |id| is 2^62 or more
 *  - QUIC_WIRE_ERR_LENGTH if |valuelen| is 2^62 or more
 *  - QUIC_WIRE_ERR_ARGUMENT for NULL
 *
 * |dest| changes only with 0, and then only in the bytes that were written.
 */
QUIC_WIRE_CHECKED QUIC_WIRE_API int
quic_wire_param_write(uint64_t id, const uint8_t *value, size_t valuelen,
                      uint8_t *dest, size_t destlen, size_t *written);

/**
 * Reads the entry at the front of a |list| as quic_wire_param_read does, if its
 * value is one integer, in any encoding, and stores that in |*value|.  Returns
 * what quic_wire_param_read does; QUIC_WIRE_ERR_PARAMS_MALFORMED also if the
 * value isn't an integer.  |param| and |value| change only if an entry was
 * read.
 */
QUIC_WIRE_CHECKED QUIC_WIRE_API int64_t
quic_wire_param_read_number(const uint8_t *list, size_t listlen,
                            quic_wire_param *param, uint64_t *value);

/** Writes an entry up to its value of |valuelen| bytes, which you put after it.
 * Returns what quic_wire_param_write does, with the length of what precedes the
 * value. */
QUIC_WIRE_CHECKED QUIC_WIRE_API int
quic_wire_param_header_write(uint64_t id, size_t valuelen, uint8_t *dest,
                             size_t destlen, size_t *written);

/** Writes an entry whose value is an integer in its shortest encoding.
 * Returns what quic_wire_param_write does; QUIC_WIRE_ERR_NUMBER also if |value|
 * is 2^62 or more. */
QUIC_WIRE_CHECKED QUIC_WIRE_API int
quic_wire_param_write_number(uint64_t id, uint64_t value, uint8_t *dest,
                             size_t destlen, size_t *written);

/**
 * Reads the |value| of a preferred_address, all of its |valuelen| bytes, as a
 * client receives it (RFC 9000, section 18.2).
 *
 * Returns:
 *  - 0, and |params| with this address and defaults
 *  - QUIC_WIRE_ERR_PARAMS_ILLEGAL if it has no address or no connection id
 *  - QUIC_WIRE_ERR_PARAMS_MALFORMED if the bytes aren't such a value
 *  - QUIC_WIRE_ERR_LENGTH for another |size| than `sizeof *params`
 *  - QUIC_WIRE_ERR_ARGUMENT for NULL
 *
 * |params| changes only with 0.
 */
QUIC_WIRE_CHECKED QUIC_WIRE_API int
quic_wire_preferred_address_read(const uint8_t *value, size_t valuelen,
                                 quic_wire_params *params, size_t size);

/** Writes the value of the preferred_address in |params|.  Returns what
 * quic_wire_params_write does for a server; QUIC_WIRE_ERR_PARAM also if there
 * is no such address. */
QUIC_WIRE_CHECKED QUIC_WIRE_API int
quic_wire_preferred_address_write(const quic_wire_params *params, size_t size,
                                  uint8_t *dest, size_t destlen,
                                  size_t *written);

/** Whether quic_wire_params has a field for the parameter with this id: 1 or 0.
 */
QUIC_WIRE_API int quic_wire_param_is_known(uint64_t id);

/**
 * Why quic_wire_params_write returns QUIC_WIRE_ERR_PARAM for these parameters,
 * and in |*id| the id of the first one whose value the peer would reject, in
 * the order in which a reader finds it.
 *
 * Returns:
 *  - QUIC_WIRE_FAULT_... from 1 to 6, and |*id|
 *  - QUIC_WIRE_FAULT_ABSENT if something that is absent isn't 0, or an id is
 *    longer than 20 bytes
 *  - 0 if the peer would accept and read them
 *  - QUIC_WIRE_ERR_KIND if |side| is neither
 *  - QUIC_WIRE_ERR_LENGTH for another |size| than `sizeof *params`
 *  - QUIC_WIRE_ERR_ARGUMENT for NULL
 *
 * |*id| changes only with the first.
 */
QUIC_WIRE_CHECKED QUIC_WIRE_API int
quic_wire_params_write_fault(uint32_t side, const quic_wire_params *params,
                             size_t size, uint64_t *id);

/* ---- Versions, nonces, Retry and resets: bytes that every stack makes beside
 * frames, headers and parameters.  You derive keys and call ciphers.  Each call
 * that writes puts its bytes at the front of |dest|, returns how many they are,
 * and leaves the others; 0 means that nothing was written. */

/**
 * Writes the answer to a packet of a version that you don't support: a Version
 * Negotiation packet with the ids of |received| exchanged (RFC 8999, section 6;
 * RFC 9000, section 6.1).  |received| is the datagram that begins with that
 * packet, whose ids may have up to 255 bytes.  The seven low bits of |first|
 * become those of the first byte: set 0x40, and make the others at random
 * (section 17.2.1).  You check that the datagram is long enough to be answered
 * (section 5.2.2).
 *
 * 0 if |received| doesn't begin with a long header, whole up to its ids, of a
 * version other than 0, so that no Version Negotiation packet is answered; if
 * there are no |versions|, or one is 0; if |destlen| is too small; or for NULL.
 */
QUIC_WIRE_CHECKED QUIC_WIRE_API size_t quic_wire_negotiation_answer(
    uint8_t first, const uint8_t *received, size_t receivedlen,
    const uint32_t *versions, size_t nversions, uint8_t *dest, size_t destlen);

/** Writes the value of the transport parameter version_information, 0x11: the
 * |chosen| version, and those |available|, which you list with the preferred
 * ones first (RFC 9368, section 3).  0 if one is 0, if |destlen| is too small,
 * or for NULL. */
QUIC_WIRE_CHECKED QUIC_WIRE_API size_t quic_wire_version_information_write(
    uint32_t chosen, const uint32_t *available, size_t navailable,
    uint8_t *dest, size_t destlen);

/** The chosen version of such a |value|.  The |valuelen| - 4 bytes after the
 * first four are the available versions, which quic_wire_version_split reads.
 * 0 if it isn't such a value: it has no version, its length isn't a multiple of
 * four, or a version is 0.  The connection is then closed with
 * TRANSPORT_PARAMETER_ERROR (RFC 9368, section 4). */
QUIC_WIRE_API uint32_t quic_wire_version_information_read(const uint8_t *value,
                                                          size_t valuelen);

/** The first of the available |versions|, four bytes each, or 0 if there is
 * none.  The next one is four bytes on. */
QUIC_WIRE_API uint32_t quic_wire_version_split(const uint8_t *versions,
                                               size_t versionslen);

/** What quic_wire_constant copies: the salt of Initial secrets, with 20 bytes;
 * the key and the nonce of a Retry's tag, with 16 and 12; and labels for
 * HKDF-Expand-Label, without "tls13 ": for a packet's key, its iv, the key of
 * header protection, and the next secret. */
#define QUIC_WIRE_CONSTANT_INITIAL_SALT 0u
#define QUIC_WIRE_CONSTANT_RETRY_KEY 1u
#define QUIC_WIRE_CONSTANT_RETRY_NONCE 2u
#define QUIC_WIRE_CONSTANT_KEY_LABEL 3u
#define QUIC_WIRE_CONSTANT_IV_LABEL 4u
#define QUIC_WIRE_CONSTANT_HP_LABEL 5u
#define QUIC_WIRE_CONSTANT_KU_LABEL 6u

/** Copies a constant of QUIC_WIRE_VERSION_1 or QUIC_WIRE_VERSION_2 (RFC 9001,
 * sections 5.1, 5.2, 5.8 and 6.1; RFC 9369, section 3.3).  20 bytes are room
 * for each.  0 for another version or constant, if |destlen| is too small, or
 * for NULL. */
QUIC_WIRE_CHECKED QUIC_WIRE_API size_t quic_wire_constant(uint32_t version,
                                                          uint32_t which,
                                                          uint8_t *dest,
                                                          size_t destlen);

/** Stores in |nonce|, which has 12 bytes as |iv| does, the nonce of the packet
 * with this |number| (RFC 9001, section 5.3).  1; 0 for NULL. */
QUIC_WIRE_API int quic_wire_nonce(const uint8_t *iv, uint64_t number,
                                  uint8_t *nonce);

/** Writes the Retry Pseudo-Packet, which a Retry's tag protects as associated
 * data (RFC 9001, section 5.8).  |odcid| is the id to which the client sent its
 * first Initial packet; |retry| is the whole packet, of which the last 16
 * bytes, its tag, aren't read.  0 if |odcidlen| is above 20, |retrylen| below
 * 16 or |destlen| too small, or for NULL. */
QUIC_WIRE_CHECKED QUIC_WIRE_API size_t quic_wire_retry_pseudo_write(
    const uint8_t *odcid, size_t odcidlen, const uint8_t *retry,
    size_t retrylen, uint8_t *dest, size_t destlen);

/** Writes a stateless reset with this |token| of 16 bytes (RFC 9000, section
 * 10.3): |unpredictable|, which you make at random, with the two highest bits
 * as in a short header; and the token.  Make it shorter than the packet that it
 * answers (section 10.3.3).  0 if it would have less than 21 bytes, if
 * |destlen| is too small, or for NULL. */
QUIC_WIRE_CHECKED QUIC_WIRE_API size_t quic_wire_reset_write(
    const uint8_t *unpredictable, size_t len, const uint8_t *token,
    uint8_t *dest, size_t destlen);

/** Whether a datagram is a stateless reset with this |token| of 16 bytes: 1 if
 * it has 21 bytes or more and ends in it, 0 if not, and for NULL.  The bytes
 * are compared as quic_wire_reset_token_equal compares them. */
QUIC_WIRE_API int quic_wire_is_reset(const uint8_t *datagram,
                                     size_t datagramlen, const uint8_t *token);

/* ---- Sets of packet numbers, and ACKs of them.  A set is the first |count|
 * entries of an array of |room| entries: sorted runs, none empty, none touching
 * the next.  A set of no entries is empty.  Every call checks the entries. */

/**
 * Inserts the numbers from |start| to below |end|; an empty or reversed range
 * inserts nothing.
 *
 * Returns:
 *  - QUIC_WIRE_CHANGED, and in |*count| how many entries the set then has
 *  - 0 if all of the numbers were in it
 *  - QUIC_WIRE_ERR_NOBUF if the set would need one more entry than there are
 *  - QUIC_WIRE_ERR_RANGES if |*count| is above |room|, or the entries aren't
 *    such runs
 *  - QUIC_WIRE_ERR_ARGUMENT for NULL
 *
 * Entries after the set don't change, and nothing changes except with
 * QUIC_WIRE_CHANGED.
 */
QUIC_WIRE_CHECKED QUIC_WIRE_API int
quic_wire_set_insert(quic_wire_range *runs, size_t room, size_t *count,
                     uint64_t start, uint64_t end);

/** Removes the numbers from |start| to below |end|.  Returns what
 * quic_wire_set_insert does: 0 if none of them was in the set, and
 * QUIC_WIRE_ERR_NOBUF if a run would be split in two and no entry is left. */
QUIC_WIRE_CHECKED QUIC_WIRE_API int
quic_wire_set_remove(quic_wire_range *runs, size_t room, size_t *count,
                     uint64_t start, uint64_t end);

/** Whether |number| is in the set of the |count| runs: 1 if it is, 0 if it
 * isn't, QUIC_WIRE_ERR_RANGES if they aren't such runs, and
 * QUIC_WIRE_ERR_ARGUMENT for NULL. */
QUIC_WIRE_CHECKED QUIC_WIRE_API int
quic_wire_set_contains(const quic_wire_range *runs, size_t count,
                       uint64_t number);

/**
 * Stores the numbers that the set of the |count| runs has from |start| to below
 * |end|, as runs, at the front of |dest|: of the packet numbers in flight,
 * those that a range of an ACK acknowledges newly, before they are removed
 * (RFC 9002, appendix A.7).
 *
 * Returns:
 *  - 0, and in |*stored| how many runs were stored; entries after them don't
 *    change
 *  - QUIC_WIRE_ERR_NOBUF if |room| is less, and in |*stored| how many there are
 *  - QUIC_WIRE_ERR_RANGES if the |count| entries aren't a set
 *  - QUIC_WIRE_ERR_ARGUMENT for NULL; |dest| may be NULL if |room| is 0
 *
 * |*dest| changes only with 0, and |*stored| only with 0 and
 * QUIC_WIRE_ERR_NOBUF.
 */
QUIC_WIRE_CHECKED QUIC_WIRE_API int
quic_wire_set_within(const quic_wire_range *runs, size_t count, uint64_t start,
                     uint64_t end, quic_wire_range *dest, size_t room,
                     size_t *stored);

/**
 * Writes an ACK of the set of the |count| runs in its shortest form at the
 * front of |dest| (RFC 9000, section 19.3).  |delay| is the ACK Delay field,
 * already scaled by ack_delay_exponent.  |counts| has the ECT(0), ECT(1) and
 * ECN-CE counts, or is NULL for an ACK without them.
 *
 * Returns:
 *  - 0, and in |*written| how many bytes were written
 *  - QUIC_WIRE_ERR_NOBUF if |destlen| is less, and in |*written| how many are
 *    needed
 *  - QUIC_WIRE_ERR_RANGES if there are no runs, or they aren't such runs
 *  - QUIC_WIRE_ERR_NUMBER if a number in them, the delay or a count is 2^62 or
 *    more
 *  - QUIC_WIRE_ERR_ARGUMENT for NULL
 *
 * |written| may be NULL.  Bytes of |dest| after those written don't change, and
 * none after an error.
 */
QUIC_WIRE_CHECKED QUIC_WIRE_API int
quic_wire_ack_write(uint64_t delay, const quic_wire_range *runs, size_t count,
                    const uint64_t *counts, uint8_t *dest, size_t destlen,
                    size_t *written);

/* ---- Sets of packet numbers of which no call checks every run, so that one of
 * many runs costs a receiver about as much as one of few.  A set is some
 * entries of an array of |room| entries, anywhere in it: sorted runs, none
 * empty, none touching the next.  With other entries a call still changes none
 * but those of the array, but its result means nothing.  quic_wire_ack_write,
 * which does check them, writes an ACK of runs + set.first and set.count. */

/**
 * Inserts the numbers from |start| to below |end|; an empty or reversed range
 * inserts nothing.
 *
 * Returns:
 *  - QUIC_WIRE_CHANGED, and in |*set| which entries the set then has
 *  - 0 if all of the numbers were in it
 *  - QUIC_WIRE_ERR_NOBUF if the set would need one more entry than there are
 *  - QUIC_WIRE_ERR_RANGES if |*set| has entries that aren't in the array
 *  - QUIC_WIRE_ERR_ARGUMENT for NULL
 *
 * Nothing changes except with QUIC_WIRE_CHANGED, and then no entries but those
 * that the set has.
 *
 * From the first number of the last run on, the cost doesn't depend on how many
 * runs there are.  But if no entry is left behind the set, a new run moves all
 * others to the array's front: in an array of twice as many entries as the set
 * has, that is at most one moved for each that is added.  Below, there is a
 * binary search, and the runs above are moved if more or fewer runs are then
 * below them, except at the front of the set if an entry is left before it.
 */
QUIC_WIRE_CHECKED QUIC_WIRE_API int
quic_wire_runs_insert(quic_wire_range *runs, size_t room, quic_wire_runs *set,
                      uint64_t start, uint64_t end);

/** Removes the numbers from |start| to below |end|.  Returns what
 * quic_wire_runs_insert does: 0 if none of them was in the set, and
 * QUIC_WIRE_ERR_NOBUF if a run would be split in two and no entry is left.  It
 * takes two binary searches.  Removed first runs or last runs move no other. */
QUIC_WIRE_CHECKED QUIC_WIRE_API int
quic_wire_runs_remove(quic_wire_range *runs, size_t room, quic_wire_runs *set,
                      uint64_t start, uint64_t end);

/** Whether |number| is in the set: 1 if it is, 0 if it isn't,
 * QUIC_WIRE_ERR_RANGES if |*set| has entries that aren't in the array, and
 * QUIC_WIRE_ERR_ARGUMENT for NULL.  Below the first number of the last run
 * there is a binary search. */
QUIC_WIRE_CHECKED QUIC_WIRE_API int
quic_wire_runs_contains(const quic_wire_range *runs, size_t room,
                        const quic_wire_runs *set, uint64_t number);

/** Stores the numbers that the set has from |start| to below |end|, as runs, at
 * the front of the |ndest| entries |dest|, as quic_wire_set_within does.  It
 * takes two binary searches, and two steps for each run in the range.
 *
 * Returns:
 *  - 0, and in |*stored| how many runs were stored; entries after them don't
 *    change
 *  - QUIC_WIRE_ERR_NOBUF if |ndest| is less, and in |*stored| how many there are
 *  - QUIC_WIRE_ERR_RANGES if |*set| has entries that aren't in the array
 *  - QUIC_WIRE_ERR_ARGUMENT for NULL
 *
 * |*dest| changes only with 0, and |*stored| only with 0 and
 * QUIC_WIRE_ERR_NOBUF. */
QUIC_WIRE_CHECKED QUIC_WIRE_API int
quic_wire_runs_within(const quic_wire_range *runs, size_t room,
                      const quic_wire_runs *set, uint64_t start, uint64_t end,
                      quic_wire_range *dest, size_t ndest, size_t *stored);

/* ---- Where each field is.  These calls store the fields of what is at the
 * front of the bytes, in their order, as many as |fields| has room for:
 * |nfields| of them.  The others of |fields| don't change.  |read| says how
 * many fields there are, which may be more than there is room for.  On error
 * the fields before the one at fault are stored, and |read| says which one it
 * is and where.  They are meant for messages to people, and read the bytes
 * again */

/**
 * Where the fields of the frame at the front of |payload| are.  |flags| are
 * QUIC_WIRE_READ_...; those for packets and parameters are ignored.
 *
 * Returns:
 *  - QUIC_WIRE_ITEM, with all fields, if a frame is there: |read->end| is where
 *    it ends.  In a run of PADDING each byte is a frame
 *  - the error that quic_wire_frames_next returns for it.  If a frame is there
 *    and a flag rejects it, the field at fault is its type
 *    (QUIC_WIRE_READ_SHORT_TYPES, QUIC_WIRE_READ_NO_ACK_FREQUENCY), the length
 *    of its token (QUIC_WIRE_READ_TOKENS), the number of streams
 *    (QUIC_WIRE_READ_STREAM_LIMIT), or the length of its data, or their offset
 *    if they have no length (QUIC_WIRE_READ_DATA_LIMIT)
 *  - QUIC_WIRE_ERR_PAYLOAD_EMPTY for no bytes
 *  - QUIC_WIRE_ERR_ARGUMENT for NULL; nothing changes then
 */
QUIC_WIRE_CHECKED QUIC_WIRE_API int
quic_wire_frame_fields(const uint8_t *payload, size_t payloadlen,
                       uint32_t flags, quic_wire_span *fields, size_t nfields,
                       quic_wire_fields *read);

/**
 * Where the fields of the header at the front of |bytes| are.  Those of a
 * version negotiation go on with its versions, and those of a Retry with its
 * token and its tag, as far as these are whole.  Except in a version
 * negotiation index 4 of a long header has no bytes: it stands for a version
 * that is known, and is at fault if it isn't.  The arguments are those of
 * quic_wire_header_read.
 *
 * Returns:
 *  - QUIC_WIRE_ITEM, with all fields, if that returns where the packet ends:
 *    |read->end| is where the last field ends
 *  - the error that it returns.  The field at fault of a packet that is cut off
 *    is its Length; of a Retry without a token that, of one without a tag the
 *    tag, and a token of no bytes is stored before it; of a packet whose fixed
 *    bit is clear the first byte.  With QUIC_WIRE_ERR_LENGTH |*read| is zeros
 *  - QUIC_WIRE_ERR_ARGUMENT for NULL; nothing changes then
 */
QUIC_WIRE_CHECKED QUIC_WIRE_API int
quic_wire_packet_fields(const uint8_t *bytes, size_t len, size_t cidlen,
                        const uint32_t *versions, size_t nversions,
                        uint32_t flags, quic_wire_span *fields, size_t nfields,
                        quic_wire_fields *read);

/**
 * Where the fields of the entry at the front of a list of transport parameters
 * are: its id, and its value with the value's length (RFC 9000, section 18).
 *
 * Returns:
 *  - QUIC_WIRE_ITEM, with both fields: |read->end| is where the entry ends
 *  - QUIC_WIRE_ERR_PARAMS_MALFORMED if it is cut off
 *  - QUIC_WIRE_ERR_ARGUMENT for NULL; nothing changes then
 */
QUIC_WIRE_CHECKED QUIC_WIRE_API int
quic_wire_param_fields(const uint8_t *list, size_t listlen,
                       quic_wire_span *fields, size_t nfields,
                       quic_wire_fields *read);

/**
 * Where the fields of the |value| of the parameter with this |id| are (RFC
 * 9000, section 18.2): one field if the value is a number, an id, a token, or
 * that of an unknown parameter; none if it is a flag; those of
 * preferred_address in the order of docs/formats.json, the id with its length.
 * Index 0 is the first of them.  A span's |number| is the value of a number or
 * a port, else how many bytes there are.  With QUIC_WIRE_READ_ANY_WIDTH an
 * integer may be in any encoding; other flags are ignored.
 *
 * Returns:
 *  - QUIC_WIRE_ITEM, with all fields: |read->end| is |valuelen|
 *  - QUIC_WIRE_ERR_PARAMS_ILLEGAL if a number is out of the parameter's range,
 *    or preferred_address has no address (index 2) or an empty id (index 4)
 *  - QUIC_WIRE_ERR_PARAMS_MALFORMED if a field is cut off, an id has more than
 *    20 bytes, a number isn't in its shortest encoding, or bytes follow the
 *    last field, which have the index after it
 *  - QUIC_WIRE_ERR_ARGUMENT for NULL; nothing changes then
 *
 * After an error the fields that can be read are stored, also those from the
 * one at fault on.  What depends on other entries isn't checked: repeats, the
 * sender, min_ack_delay above max_ack_delay.
 */
QUIC_WIRE_CHECKED QUIC_WIRE_API int
quic_wire_param_value_fields(uint64_t id, const uint8_t *value, size_t valuelen,
                             uint32_t flags, quic_wire_span *fields,
                             size_t nfields, quic_wire_fields *read);

/* ---- Texts */

/** A description of a result below 0, in English; "ok" for others.  For
 * QUIC_WIRE_ERR_PACKET_VERSION, add the version's number. */
extern const char *quic_wire_strerror(int result);

/** The name of a frame with this |type| or kind; NULL if it is unknown. */
extern const char *quic_wire_type_name(uint64_t type);

#ifdef QUIC_WIRE_INLINE
#include "quic_wire_inline.h"
#endif

#ifdef __cplusplus
}
#endif

#endif /* QUIC_WIRE_H */
