/* SPDX-License-Identifier: MIT OR Apache-2.0 */
/*
 * quic_wire_near.h: frames, numbers, short headers and transport parameters
 * without a call of the library, for C99 and C++
 *
 * A function of quic_wire.h with _near after its name has the same arguments
 * and the same results.  What is frequent it does inline, and for the rest,
 * such as an error, it calls the function of quic_wire.h.
 *
 * A reader of one kind of frame, such as quic_wire_stream_read, returns 0 for
 * what it leaves to quic_wire_frame_read, which reads it or says why it is
 * invalid:
 *
 *   size_t end = quic_wire_stream_read(payload, payloadlen, &frame);
 *   int64_t answer = end ? (int64_t)end
 *                        : quic_wire_frame_read(payload, payloadlen, flags,
 *                                               &frame, NULL, 0);
 *   if (answer > 0 && frame.kind == QUIC_WIRE_FRAME_STREAM)
 *     deliver(frame.stream.stream_id, frame.stream.offset,
 *             payload + frame.data, frame.datalen);
 *
 * It leaves other kinds, types in more bytes than one, and all that RFC 9000
 * forbids, so its result is right with any flags.  ACK and PADDING have no
 * reader of their own, since they need a loop, nor have the frames of the ACK
 * frequency extension.
 *
 * Your part is that of quic_wire.h.
 */
#ifndef QUIC_WIRE_NEAR_H
#define QUIC_WIRE_NEAR_H

#include "quic_wire.h"

/* What is inlined into its callers, and what is rare, so that it isn't. */
#if defined(__GNUC__)
#define QUIC_WIRE_NEAR static inline __attribute__((always_inline))
#define QUIC_WIRE_RARE_ static __attribute__((noinline, unused))
#else
#define QUIC_WIRE_NEAR static inline
#define QUIC_WIRE_RARE_ static inline
#endif

/* The greatest number of a varint, and what stands for none. */
#define QUIC_WIRE_MOST_ (((uint64_t)1 << 62) - 1)
#define QUIC_WIRE_NONE_ (~(uint64_t)0)

/* ---- Helpers */

QUIC_WIRE_NEAR uint32_t quic_wire_get_uint32_(const uint8_t *at) {
  return (uint32_t)at[0] << 24 | (uint32_t)at[1] << 16 | (uint32_t)at[2] << 8 |
         at[3];
}

QUIC_WIRE_NEAR uint64_t quic_wire_get_uint64_(const uint8_t *at) {
  return (uint64_t)at[0] << 56 | (uint64_t)at[1] << 48 | (uint64_t)at[2] << 40 |
         (uint64_t)at[3] << 32 | (uint64_t)at[4] << 24 | (uint64_t)at[5] << 16 |
         (uint64_t)at[6] << 8 | at[7];
}

QUIC_WIRE_NEAR uint8_t *quic_wire_put_uint32_(uint8_t *at, uint32_t number) {
  at[0] = (uint8_t)(number >> 24);
  at[1] = (uint8_t)(number >> 16);
  at[2] = (uint8_t)(number >> 8);
  at[3] = (uint8_t)number;
  return at + 4;
}

QUIC_WIRE_NEAR uint8_t *quic_wire_put_uint64_(uint8_t *at, uint64_t number) {
  at[0] = (uint8_t)(number >> 56);
  at[1] = (uint8_t)(number >> 48);
  at[2] = (uint8_t)(number >> 40);
  at[3] = (uint8_t)(number >> 32);
  at[4] = (uint8_t)(number >> 24);
  at[5] = (uint8_t)(number >> 16);
  at[6] = (uint8_t)(number >> 8);
  at[7] = (uint8_t)number;
  return at + 8;
}

/* The varint at |at| with zeros after it up to eight bytes, if fewer are there;
 * QUIC_WIRE_NONE_ if it is cut off. */
QUIC_WIRE_RARE_ uint64_t quic_wire_last_varint_(const uint8_t *at,
                                                const uint8_t *end) {
  if (end - at >= 1 && at[0] < 64)
    return (uint64_t)at[0] << 56;
  if (end - at >= 2 && at[0] < 128)
    return (uint64_t)at[0] << 56 | (uint64_t)at[1] << 48;
  if (end - at >= 4 && at[0] < 192)
    return (uint64_t)quic_wire_get_uint32_(at) << 32;
  return QUIC_WIRE_NONE_;
}

/* Reads the varint at |at|.  Returns where it ends, or NULL if it is cut
 * off. */
QUIC_WIRE_NEAR const uint8_t *
quic_wire_next_varint_(const uint8_t *at, const uint8_t *end, uint64_t *value) {
  uint64_t bytes;
  unsigned width;
  if (end - at >= 8) {
    bytes = quic_wire_get_uint64_(at);
  } else {
    bytes = quic_wire_last_varint_(at, end);
    if (bytes == QUIC_WIRE_NONE_)
      return NULL;
  }
  width = 1u << (bytes >> 62);
  *value = (bytes & QUIC_WIRE_MOST_) >> (64 - 8 * width);
  return at + width;
}

/* The same, for a varint that mostly has one byte. */
QUIC_WIRE_NEAR const uint8_t *
quic_wire_next_short_(const uint8_t *at, const uint8_t *end, uint64_t *value) {
  if (at == end || at[0] >= 64)
    return quic_wire_next_varint_(at, end, value);
  *value = at[0];
  return at + 1;
}

/* Reads the id of a transport parameter at |at|, and how many bytes its value
 * has.  Returns where that begins, or NULL if the entry is cut off. */
QUIC_WIRE_NEAR const uint8_t *quic_wire_next_param_(const uint8_t *at,
                                                    const uint8_t *end,
                                                    uint64_t *id,
                                                    uint64_t *valuelen) {
  if (!(at = quic_wire_next_short_(at, end, id)))
    return NULL;
  if (!(at = quic_wire_next_short_(at, end, valuelen)) ||
      *valuelen > (size_t)(end - at))
    return NULL;
  return at;
}

/* Reads a varint that has all of |len| bytes.  Returns whether it is one. */
QUIC_WIRE_NEAR int quic_wire_whole_varint_(const uint8_t *at, uint64_t len,
                                           uint64_t *value) {
  if (len == 4 && (at[0] & 0xc0) == 0x80)
    *value = quic_wire_get_uint32_(at) & 0x3fffffff;
  else if (len == 2 && (at[0] & 0xc0) == 0x40)
    *value = (at[0] & 0x3fu) << 8 | at[1];
  else if (len == 1 && at[0] < 64)
    *value = at[0];
  else if (len == 8 && (at[0] & 0xc0) == 0xc0)
    *value = quic_wire_get_uint64_(at) & QUIC_WIRE_MOST_;
  else
    return 0;
  return 1;
}

/* Reads a packet number of |numberlen| bytes, 1 to 4, of the |len| that are
 * there. */
QUIC_WIRE_NEAR uint32_t quic_wire_get_number_(const uint8_t *at, size_t len,
                                              uint32_t numberlen) {
  if (len >= 4)
    return quic_wire_get_uint32_(at) >> (32 - 8 * numberlen);
  if (numberlen == 1)
    return at[0];
  if (numberlen == 2)
    return (uint32_t)at[0] << 8 | at[1];
  return (uint32_t)at[0] << 16 | (uint32_t)at[1] << 8 | at[2];
}

/* The number nearest to |expected|, below 2^62, of those that end in the
 * |numberlen| bytes of |written|. */
QUIC_WIRE_NEAR uint64_t quic_wire_nearest_(uint64_t written, uint32_t numberlen,
                                           uint64_t expected) {
  /* Of the numbers from |least| on it is the first that ends so, or if that is
   * below 0 the next one. */
  const uint64_t window = (uint64_t)1 << (8 * numberlen);
  const uint64_t least = expected - (window / 2 - 1);
  const uint64_t number = least + ((written - least) & (window - 1));
  return number >> 63 ? number + window : number;
}

/* Writes a number below 2^62 in its shortest encoding, and returns where it
 * ends. */
QUIC_WIRE_NEAR uint8_t *quic_wire_put_varint_(uint8_t *at, uint64_t value) {
  if (value < 64) {
    at[0] = (uint8_t)value;
    return at + 1;
  }
  if (value < 16384) {
    at[0] = (uint8_t)(value >> 8 | 0x40);
    at[1] = (uint8_t)value;
    return at + 2;
  }
  if (value < (uint64_t)1 << 30)
    return quic_wire_put_uint32_(at, (uint32_t)value | 0x80000000u);
  return quic_wire_put_uint64_(at, value | (uint64_t)3 << 62);
}

/* Describes a frame at the front of a payload, and returns where it ends. */
QUIC_WIRE_NEAR size_t quic_wire_describe_(quic_wire_frame *frame, uint16_t kind,
                                          uint16_t type, uint32_t flags,
                                          size_t data, size_t datalen,
                                          size_t tail, uint64_t first,
                                          uint64_t second, uint64_t third) {
  frame->kind = kind;
  frame->type = type;
  frame->flags = flags;
  frame->begin = 0;
  frame->end = data + datalen + tail;
  frame->data = data;
  frame->datalen = datalen;
  frame->numbers[0] = first;
  frame->numbers[1] = second;
  frame->numbers[2] = third;
  frame->numbers[3] = 0;
  frame->numbers[4] = 0;
  return data + datalen + tail;
}

/* ---- Varints and packet numbers */

/** How many bytes the shortest encoding of a varint has. */
QUIC_WIRE_NEAR size_t quic_wire_varint_len_near(uint64_t value) {
  return value < 64                  ? 1
         : value < 16384             ? 2
         : value < (uint64_t)1 << 30 ? 4
         : value < (uint64_t)1 << 62 ? 8
                                     : 0;
}

/** Reads the varint at the front of |bytes|. */
QUIC_WIRE_NEAR size_t quic_wire_varint_read_near(const uint8_t *bytes,
                                                 size_t len, uint64_t *value) {
  const uint8_t *at;
  if (!bytes || !value || len < 8)
    return quic_wire_varint_read(bytes, len, value);
  at = quic_wire_next_short_(bytes, bytes + len, value);
  return at ? (size_t)(at - bytes) : 0;
}

/** Writes a varint at the front of |dest|, in |width| bytes or, if that is 0,
 * in as few as possible. */
QUIC_WIRE_NEAR size_t quic_wire_varint_write_near(uint64_t value,
                                                  uint32_t width, uint8_t *dest,
                                                  size_t destlen) {
  const size_t least = quic_wire_varint_len_near(value);
  if (width || !dest || !least || destlen < least)
    return quic_wire_varint_write(value, width, dest, destlen);
  return (size_t)(quic_wire_put_varint_(dest, value) - dest);
}

/** How many bytes of |number| to write for a receiver that has acknowledged
 * |largest_acked|. */
QUIC_WIRE_CHECKED QUIC_WIRE_NEAR int
quic_wire_number_len_near(uint64_t number, uint64_t largest_acked) {
  const uint64_t distance = number - largest_acked;
  if (number < largest_acked || distance >> 31)
    return QUIC_WIRE_ERR_NUMBER;
  return distance < 0x80       ? 1
         : distance < 0x8000   ? 2
         : distance < 0x800000 ? 3
                               : 4;
}

/** Reads a truncated packet number of |numberlen| bytes at the front of
 * |bytes|. */
QUIC_WIRE_CHECKED QUIC_WIRE_NEAR int
quic_wire_number_read_near(const uint8_t *bytes, size_t len, uint32_t numberlen,
                           uint64_t *written) {
  if (!bytes || !written || numberlen - 1 > 3 || len < numberlen)
    return quic_wire_number_read(bytes, len, numberlen, written);
  *written = quic_wire_get_number_(bytes, len, numberlen);
  return (int)numberlen;
}

/** Writes the low |numberlen| bytes of a packet number at the front of
 * |dest|. */
QUIC_WIRE_CHECKED QUIC_WIRE_NEAR int
quic_wire_number_write_near(uint64_t number, uint32_t numberlen, uint8_t *dest,
                            size_t destlen) {
  uint8_t *at = dest;
  if (!dest || numberlen - 1 > 3 || destlen < numberlen)
    return quic_wire_number_write(number, numberlen, dest, destlen);
  if (numberlen > 3)
    *at++ = (uint8_t)(number >> 24);
  if (numberlen > 2)
    *at++ = (uint8_t)(number >> 16);
  if (numberlen > 1)
    *at++ = (uint8_t)(number >> 8);
  *at = (uint8_t)number;
  return (int)numberlen;
}

/** The whole packet number whose low |numberlen| bytes are |written|, from the
 * one that is |expected| next. */
QUIC_WIRE_NEAR uint64_t quic_wire_number_expand_near(uint64_t written,
                                                     uint32_t numberlen,
                                                     uint64_t expected) {
  if (numberlen - 1 > 3 || written >> (8 * numberlen) || expected >> 62)
    return QUIC_WIRE_NONE_;
  return quic_wire_nearest_(written, numberlen, expected);
}

/** Reads a packet number of |numberlen| bytes at the front of |bytes|, and
 * expands it as quic_wire_number_expand does.  Returns what
 * quic_wire_number_read does, or else QUIC_WIRE_ERR_NUMBER if |expected| is
 * 2^62 or more.  |*number| doesn't change after an error. */
QUIC_WIRE_CHECKED QUIC_WIRE_NEAR int
quic_wire_number_read_whole(const uint8_t *bytes, size_t len,
                            uint32_t numberlen, uint64_t expected,
                            uint64_t *number) {
  if (!bytes || !number || numberlen - 1 > 3 || len < numberlen)
    return quic_wire_number_read(bytes, len, numberlen, number);
  if (expected >> 62)
    return QUIC_WIRE_ERR_NUMBER;
  *number = quic_wire_nearest_(quic_wire_get_number_(bytes, len, numberlen),
                               numberlen, expected);
  return (int)numberlen;
}

/** Writes as many low bytes of |number| as quic_wire_number_len says for
 * |largest_acked|.  Returns how many, or its error, or else that of
 * quic_wire_number_write. */
QUIC_WIRE_CHECKED QUIC_WIRE_NEAR int
quic_wire_number_write_least(uint64_t number, uint64_t largest_acked,
                             uint8_t *dest, size_t destlen) {
  const int numberlen = quic_wire_number_len_near(number, largest_acked);
  if (numberlen < 0)
    return numberlen;
  return quic_wire_number_write_near(number, (uint32_t)numberlen, dest,
                                     destlen);
}

/* ---- Headers of packets: long ones have no reader here, since many fields of
 * theirs can be invalid, nor has protection that is applied, since no
 * instructions would be saved */

/** Where the short header at the front of |packet| ends, whose id has |cidlen|
 * bytes. */
QUIC_WIRE_NEAR size_t quic_wire_short_read_near(const uint8_t *packet,
                                                size_t packetlen,
                                                uint32_t cidlen) {
  if (!packet || cidlen > 20 || packetlen <= cidlen || packet[0] >= 0x80)
    return 0;
  return (size_t)cidlen + 1;
}

/** Removes the header protection of a packet whose number begins at |place|.
 * If your |expected| is the constant 0, nothing is compiled that expands a
 * number. */
QUIC_WIRE_CHECKED QUIC_WIRE_NEAR int
quic_wire_unprotect_near(uint8_t *packet, size_t packetlen, size_t place,
                         const uint8_t *mask, uint64_t expected,
                         uint64_t *number) {
  uint32_t first, numberlen, others, bytes;
  if (!packet || !mask || !number || expected >> 62 || !place ||
      packetlen < 4 || place > packetlen - 4)
    return quic_wire_unprotect(packet, packetlen, place, mask, expected,
                               number);
  /* Five bits of a short header are protected, four of a long one. */
  first = packet[0];
  first ^= mask[0] & (0x1fu >> (first >> 7));
  numberlen = (first & 3) + 1;
  others = 32 - 8 * numberlen; /* the bits after the number, which stay */
  bytes = quic_wire_get_uint32_(packet + place) ^
          (quic_wire_get_uint32_(mask + 1) >> others << others);
  packet[0] = (uint8_t)first;
  quic_wire_put_uint32_(packet + place, bytes);
  *number = expected ? quic_wire_nearest_(bytes >> others, numberlen, expected)
                     : bytes >> others;
  return (int)numberlen;
}

/* ---- Transport parameters, one by one: for what a value means, and whether
 * the list is lawful, there is quic_wire_params_read */

/** Reads the entry at the front of a |list| of them. */
QUIC_WIRE_CHECKED QUIC_WIRE_NEAR int64_t quic_wire_param_read_near(
    const uint8_t *list, size_t listlen, quic_wire_param *param) {
  uint64_t id, valuelen;
  const uint8_t *at;
  if (!list || !param ||
      !(at = quic_wire_next_param_(list, list + listlen, &id, &valuelen)))
    return quic_wire_param_read(list, listlen, param);
  param->id = id;
  param->value = (size_t)(at - list);
  param->valuelen = (size_t)valuelen;
  return (int64_t)((size_t)(at - list) + (size_t)valuelen);
}

/** The same for an entry whose value is an integer, in any encoding. */
QUIC_WIRE_CHECKED QUIC_WIRE_NEAR int64_t
quic_wire_param_read_number_near(const uint8_t *list, size_t listlen,
                                 quic_wire_param *param, uint64_t *value) {
  uint64_t id, valuelen;
  const uint8_t *at;
  if (!list || !param || !value ||
      !(at = quic_wire_next_param_(list, list + listlen, &id, &valuelen)) ||
      !quic_wire_whole_varint_(at, valuelen, value))
    return quic_wire_param_read_number(list, listlen, param, value);
  param->id = id;
  param->value = (size_t)(at - list);
  param->valuelen = (size_t)valuelen;
  return (int64_t)((size_t)(at - list) + (size_t)valuelen);
}

/* ---- Reading frames */

/* Whether the type is |kind|, except for these bits. */
QUIC_WIRE_NEAR int quic_wire_begins_(const uint8_t *payload, size_t payloadlen,
                                     const quic_wire_frame *frame,
                                     unsigned kind, unsigned bits) {
  return payload && frame && payloadlen && (payload[0] & ~bits) == kind;
}

/* Each of these reads frames of all kinds that have the same fields, and is
 * named after the first.  The type is |payload[0]|. */
/* Made by scripts/make/tables: */
QUIC_WIRE_NEAR size_t quic_wire_read_ping_(const uint8_t *payload,
                                           const uint8_t *end,
                                           quic_wire_frame *frame) {
  const uint8_t *at = payload + 1;
  (void)end;
  return quic_wire_describe_(frame, payload[0], payload[0], 0,
                             (size_t)(at - payload), 0, 0, 0, 0, 0);
}

QUIC_WIRE_NEAR size_t quic_wire_read_reset_stream_(const uint8_t *payload,
                                                   const uint8_t *end,
                                                   quic_wire_frame *frame) {
  const uint8_t *at = payload + 1;
  uint64_t stream_id, error_code, final_size;
  if (!(at = quic_wire_next_varint_(at, end, &stream_id)))
    return 0;
  if (!(at = quic_wire_next_varint_(at, end, &error_code)))
    return 0;
  if (!(at = quic_wire_next_varint_(at, end, &final_size)))
    return 0;
  return quic_wire_describe_(frame, payload[0], payload[0], 0,
                             (size_t)(at - payload), 0, 0, stream_id,
                             error_code, final_size);
}

QUIC_WIRE_NEAR size_t quic_wire_read_stop_sending_(const uint8_t *payload,
                                                   const uint8_t *end,
                                                   quic_wire_frame *frame) {
  const uint8_t *at = payload + 1;
  uint64_t stream_id, error_code;
  if (!(at = quic_wire_next_varint_(at, end, &stream_id)))
    return 0;
  if (!(at = quic_wire_next_varint_(at, end, &error_code)))
    return 0;
  return quic_wire_describe_(frame, payload[0], payload[0], 0,
                             (size_t)(at - payload), 0, 0, stream_id,
                             error_code, 0);
}

QUIC_WIRE_NEAR size_t quic_wire_read_crypto_(const uint8_t *payload,
                                             const uint8_t *end,
                                             quic_wire_frame *frame) {
  const uint8_t *at = payload + 1;
  uint64_t offset, datalen;
  if (!(at = quic_wire_next_varint_(at, end, &offset)))
    return 0;
  if (!(at = quic_wire_next_varint_(at, end, &datalen)) ||
      datalen > (size_t)(end - at))
    return 0;
  if (offset + datalen > QUIC_WIRE_MOST_)
    return 0;
  return quic_wire_describe_(frame, payload[0], payload[0], 0,
                             (size_t)(at - payload), (size_t)datalen, 0, 0,
                             offset, 0);
}

QUIC_WIRE_NEAR size_t quic_wire_read_new_token_(const uint8_t *payload,
                                                const uint8_t *end,
                                                quic_wire_frame *frame) {
  const uint8_t *at = payload + 1;
  uint64_t datalen;
  if (!(at = quic_wire_next_varint_(at, end, &datalen)) ||
      datalen > (size_t)(end - at))
    return 0;
  if (datalen == 0)
    return 0;
  return quic_wire_describe_(frame, payload[0], payload[0], 0,
                             (size_t)(at - payload), (size_t)datalen, 0, 0, 0,
                             0);
}

QUIC_WIRE_NEAR size_t quic_wire_read_stream_(const uint8_t *payload,
                                             const uint8_t *end,
                                             quic_wire_frame *frame) {
  const uint8_t *at = payload + 1;
  uint64_t stream_id, offset = 0, datalen;
  if (!(at = quic_wire_next_varint_(at, end, &stream_id)))
    return 0;
  if ((payload[0] & 4) && !(at = quic_wire_next_varint_(at, end, &offset)))
    return 0;
  if (payload[0] & 2) {
    if (!(at = quic_wire_next_varint_(at, end, &datalen)) ||
        datalen > (size_t)(end - at))
      return 0;
  } else {
    datalen = (size_t)(end - at);
  }
  if (offset + datalen > QUIC_WIRE_MOST_)
    return 0;
  return quic_wire_describe_(frame, 0x08, payload[0], payload[0] & 1,
                             (size_t)(at - payload), (size_t)datalen, 0,
                             stream_id, offset, 0);
}

QUIC_WIRE_NEAR size_t quic_wire_read_max_data_(const uint8_t *payload,
                                               const uint8_t *end,
                                               quic_wire_frame *frame) {
  const uint8_t *at = payload + 1;
  uint64_t limit;
  if (!(at = quic_wire_next_varint_(at, end, &limit)))
    return 0;
  return quic_wire_describe_(frame, payload[0], payload[0], 0,
                             (size_t)(at - payload), 0, 0, 0, limit, 0);
}

QUIC_WIRE_NEAR size_t quic_wire_read_max_streams_bidi_(const uint8_t *payload,
                                                       const uint8_t *end,
                                                       quic_wire_frame *frame) {
  const uint8_t *at = payload + 1;
  uint64_t limit;
  if (!(at = quic_wire_next_varint_(at, end, &limit)))
    return 0;
  if (limit > (uint64_t)1 << 60)
    return 0;
  return quic_wire_describe_(frame, payload[0], payload[0], 0,
                             (size_t)(at - payload), 0, 0, 0, limit, 0);
}

QUIC_WIRE_NEAR size_t
quic_wire_read_new_connection_id_(const uint8_t *payload, const uint8_t *end,
                                  quic_wire_frame *frame) {
  const uint8_t *at = payload + 1;
  uint64_t sequence, retire_prior_to, datalen;
  if (!(at = quic_wire_next_short_(at, end, &sequence)))
    return 0;
  if (!(at = quic_wire_next_short_(at, end, &retire_prior_to)))
    return 0;
  if (retire_prior_to > sequence)
    return 0;
  if (at == end)
    return 0;
  datalen = *at++;
  if (datalen < 1 || datalen > 20 || (size_t)(end - at) < datalen + 16)
    return 0;
  return quic_wire_describe_(frame, payload[0], payload[0], 0,
                             (size_t)(at - payload), (size_t)datalen, 16,
                             sequence, retire_prior_to, 0);
}

QUIC_WIRE_NEAR size_t
quic_wire_read_retire_connection_id_(const uint8_t *payload, const uint8_t *end,
                                     quic_wire_frame *frame) {
  const uint8_t *at = payload + 1;
  uint64_t sequence;
  if (!(at = quic_wire_next_short_(at, end, &sequence)))
    return 0;
  return quic_wire_describe_(frame, payload[0], payload[0], 0,
                             (size_t)(at - payload), 0, 0, sequence, 0, 0);
}

QUIC_WIRE_NEAR size_t quic_wire_read_path_challenge_(const uint8_t *payload,
                                                     const uint8_t *end,
                                                     quic_wire_frame *frame) {
  const uint8_t *at = payload + 1;
  uint64_t data;
  if (end - at < 8)
    return 0;
  data = quic_wire_get_uint64_(at);
  at += 8;
  return quic_wire_describe_(frame, payload[0], payload[0], 0,
                             (size_t)(at - payload), 0, 0, data, 0, 0);
}

QUIC_WIRE_NEAR size_t quic_wire_read_connection_close_(const uint8_t *payload,
                                                       const uint8_t *end,
                                                       quic_wire_frame *frame) {
  const uint8_t *at = payload + 1;
  uint64_t error_code, frame_type, datalen;
  if (!(at = quic_wire_next_short_(at, end, &error_code)))
    return 0;
  if (!(at = quic_wire_next_short_(at, end, &frame_type)))
    return 0;
  if (!(at = quic_wire_next_short_(at, end, &datalen)) ||
      datalen > (size_t)(end - at))
    return 0;
  return quic_wire_describe_(frame, payload[0], payload[0], 0,
                             (size_t)(at - payload), (size_t)datalen, 0,
                             error_code, frame_type, 0);
}

QUIC_WIRE_NEAR size_t
quic_wire_read_application_close_(const uint8_t *payload, const uint8_t *end,
                                  quic_wire_frame *frame) {
  const uint8_t *at = payload + 1;
  uint64_t error_code, datalen;
  if (!(at = quic_wire_next_short_(at, end, &error_code)))
    return 0;
  if (!(at = quic_wire_next_short_(at, end, &datalen)) ||
      datalen > (size_t)(end - at))
    return 0;
  return quic_wire_describe_(frame, payload[0], payload[0], 0,
                             (size_t)(at - payload), (size_t)datalen, 0,
                             error_code, 0, 0);
}

QUIC_WIRE_NEAR size_t quic_wire_read_datagram_(const uint8_t *payload,
                                               const uint8_t *end,
                                               quic_wire_frame *frame) {
  const uint8_t *at = payload + 1;
  uint64_t datalen;
  if (payload[0] & 1) {
    if (!(at = quic_wire_next_varint_(at, end, &datalen)) ||
        datalen > (size_t)(end - at))
      return 0;
  } else {
    datalen = (size_t)(end - at);
  }
  return quic_wire_describe_(frame, 0x30, payload[0], 0, (size_t)(at - payload),
                             (size_t)datalen, 0, 0, 0, 0);
}
/* End of what is made. */

/** Readers of single kinds, each with its section in RFC 9000 and the fields of
 * |frame| that it gives.  They return where the frame ends, which is above 0,
 * or 0 for what they leave to quic_wire_frame_read; |frame| doesn't change
 * then. */
/* Made by scripts/make/tables: */
/** PING (19.2). */
QUIC_WIRE_NEAR size_t quic_wire_ping_read(const uint8_t *payload,
                                          size_t payloadlen,
                                          quic_wire_frame *frame) {
  if (!quic_wire_begins_(payload, payloadlen, frame, 0x01, 0))
    return 0;
  return quic_wire_read_ping_(payload, payload + payloadlen, frame);
}

/** RESET_STREAM (19.4): |reset_stream.stream_id|, |reset_stream.error_code|,
 * |reset_stream.final_size|. */
QUIC_WIRE_NEAR size_t quic_wire_reset_stream_read(const uint8_t *payload,
                                                  size_t payloadlen,
                                                  quic_wire_frame *frame) {
  if (!quic_wire_begins_(payload, payloadlen, frame, 0x04, 0))
    return 0;
  return quic_wire_read_reset_stream_(payload, payload + payloadlen, frame);
}

/** STOP_SENDING (19.5): |stop_sending.stream_id|, |stop_sending.error_code|. */
QUIC_WIRE_NEAR size_t quic_wire_stop_sending_read(const uint8_t *payload,
                                                  size_t payloadlen,
                                                  quic_wire_frame *frame) {
  if (!quic_wire_begins_(payload, payloadlen, frame, 0x05, 0))
    return 0;
  return quic_wire_read_stop_sending_(payload, payload + payloadlen, frame);
}

/** CRYPTO (19.6): |crypto.offset|, |data|, |datalen|. */
QUIC_WIRE_NEAR size_t quic_wire_crypto_read(const uint8_t *payload,
                                            size_t payloadlen,
                                            quic_wire_frame *frame) {
  if (!quic_wire_begins_(payload, payloadlen, frame, 0x06, 0))
    return 0;
  return quic_wire_read_crypto_(payload, payload + payloadlen, frame);
}

/** NEW_TOKEN (19.7): |data|, |datalen|. */
QUIC_WIRE_NEAR size_t quic_wire_new_token_read(const uint8_t *payload,
                                               size_t payloadlen,
                                               quic_wire_frame *frame) {
  if (!quic_wire_begins_(payload, payloadlen, frame, 0x07, 0))
    return 0;
  return quic_wire_read_new_token_(payload, payload + payloadlen, frame);
}

/** STREAM (19.8): |flags|, |stream.stream_id|, |stream.offset|, |data|,
 * |datalen|. */
QUIC_WIRE_NEAR size_t quic_wire_stream_read(const uint8_t *payload,
                                            size_t payloadlen,
                                            quic_wire_frame *frame) {
  if (!quic_wire_begins_(payload, payloadlen, frame, 0x08, 7))
    return 0;
  return quic_wire_read_stream_(payload, payload + payloadlen, frame);
}

/** MAX_DATA (19.9): |limit.limit|. */
QUIC_WIRE_NEAR size_t quic_wire_max_data_read(const uint8_t *payload,
                                              size_t payloadlen,
                                              quic_wire_frame *frame) {
  if (!quic_wire_begins_(payload, payloadlen, frame, 0x10, 0))
    return 0;
  return quic_wire_read_max_data_(payload, payload + payloadlen, frame);
}

/** MAX_STREAM_DATA (19.10): |limit.stream_id|, |limit.limit|. */
QUIC_WIRE_NEAR size_t quic_wire_max_stream_data_read(const uint8_t *payload,
                                                     size_t payloadlen,
                                                     quic_wire_frame *frame) {
  if (!quic_wire_begins_(payload, payloadlen, frame, 0x11, 0))
    return 0;
  return quic_wire_read_stop_sending_(payload, payload + payloadlen, frame);
}

/** MAX_STREAMS_BIDI (19.11): |limit.limit|. */
QUIC_WIRE_NEAR size_t quic_wire_max_streams_bidi_read(const uint8_t *payload,
                                                      size_t payloadlen,
                                                      quic_wire_frame *frame) {
  if (!quic_wire_begins_(payload, payloadlen, frame, 0x12, 0))
    return 0;
  return quic_wire_read_max_streams_bidi_(payload, payload + payloadlen, frame);
}

/** MAX_STREAMS_UNI (19.11): |limit.limit|. */
QUIC_WIRE_NEAR size_t quic_wire_max_streams_uni_read(const uint8_t *payload,
                                                     size_t payloadlen,
                                                     quic_wire_frame *frame) {
  if (!quic_wire_begins_(payload, payloadlen, frame, 0x13, 0))
    return 0;
  return quic_wire_read_max_streams_bidi_(payload, payload + payloadlen, frame);
}

/** DATA_BLOCKED (19.12): |limit.limit|. */
QUIC_WIRE_NEAR size_t quic_wire_data_blocked_read(const uint8_t *payload,
                                                  size_t payloadlen,
                                                  quic_wire_frame *frame) {
  if (!quic_wire_begins_(payload, payloadlen, frame, 0x14, 0))
    return 0;
  return quic_wire_read_max_data_(payload, payload + payloadlen, frame);
}

/** STREAM_DATA_BLOCKED (19.13): |limit.stream_id|, |limit.limit|. */
QUIC_WIRE_NEAR size_t
quic_wire_stream_data_blocked_read(const uint8_t *payload, size_t payloadlen,
                                   quic_wire_frame *frame) {
  if (!quic_wire_begins_(payload, payloadlen, frame, 0x15, 0))
    return 0;
  return quic_wire_read_stop_sending_(payload, payload + payloadlen, frame);
}

/** STREAMS_BLOCKED_BIDI (19.14): |limit.limit|. */
QUIC_WIRE_NEAR size_t
quic_wire_streams_blocked_bidi_read(const uint8_t *payload, size_t payloadlen,
                                    quic_wire_frame *frame) {
  if (!quic_wire_begins_(payload, payloadlen, frame, 0x16, 0))
    return 0;
  return quic_wire_read_max_streams_bidi_(payload, payload + payloadlen, frame);
}

/** STREAMS_BLOCKED_UNI (19.14): |limit.limit|. */
QUIC_WIRE_NEAR size_t
quic_wire_streams_blocked_uni_read(const uint8_t *payload, size_t payloadlen,
                                   quic_wire_frame *frame) {
  if (!quic_wire_begins_(payload, payloadlen, frame, 0x17, 0))
    return 0;
  return quic_wire_read_max_streams_bidi_(payload, payload + payloadlen, frame);
}

/** NEW_CONNECTION_ID (19.15): |new_connection_id.sequence|,
 * |new_connection_id.retire_prior_to|, |data|, |datalen|. */
QUIC_WIRE_NEAR size_t quic_wire_new_connection_id_read(const uint8_t *payload,
                                                       size_t payloadlen,
                                                       quic_wire_frame *frame) {
  if (!quic_wire_begins_(payload, payloadlen, frame, 0x18, 0))
    return 0;
  return quic_wire_read_new_connection_id_(payload, payload + payloadlen,
                                           frame);
}

/** RETIRE_CONNECTION_ID (19.16): |retire_connection_id.sequence|. */
QUIC_WIRE_NEAR size_t
quic_wire_retire_connection_id_read(const uint8_t *payload, size_t payloadlen,
                                    quic_wire_frame *frame) {
  if (!quic_wire_begins_(payload, payloadlen, frame, 0x19, 0))
    return 0;
  return quic_wire_read_retire_connection_id_(payload, payload + payloadlen,
                                              frame);
}

/** PATH_CHALLENGE (19.17): |path.data|. */
QUIC_WIRE_NEAR size_t quic_wire_path_challenge_read(const uint8_t *payload,
                                                    size_t payloadlen,
                                                    quic_wire_frame *frame) {
  if (!quic_wire_begins_(payload, payloadlen, frame, 0x1a, 0))
    return 0;
  return quic_wire_read_path_challenge_(payload, payload + payloadlen, frame);
}

/** PATH_RESPONSE (19.18): |path.data|. */
QUIC_WIRE_NEAR size_t quic_wire_path_response_read(const uint8_t *payload,
                                                   size_t payloadlen,
                                                   quic_wire_frame *frame) {
  if (!quic_wire_begins_(payload, payloadlen, frame, 0x1b, 0))
    return 0;
  return quic_wire_read_path_challenge_(payload, payload + payloadlen, frame);
}

/** CONNECTION_CLOSE (19.19): |close.error_code|, |close.frame_type|, |data|,
 * |datalen|. */
QUIC_WIRE_NEAR size_t quic_wire_connection_close_read(const uint8_t *payload,
                                                      size_t payloadlen,
                                                      quic_wire_frame *frame) {
  if (!quic_wire_begins_(payload, payloadlen, frame, 0x1c, 0))
    return 0;
  return quic_wire_read_connection_close_(payload, payload + payloadlen, frame);
}

/** APPLICATION_CLOSE (19.19): |close.error_code|, |data|, |datalen|. */
QUIC_WIRE_NEAR size_t quic_wire_application_close_read(const uint8_t *payload,
                                                       size_t payloadlen,
                                                       quic_wire_frame *frame) {
  if (!quic_wire_begins_(payload, payloadlen, frame, 0x1d, 0))
    return 0;
  return quic_wire_read_application_close_(payload, payload + payloadlen,
                                           frame);
}

/** HANDSHAKE_DONE (19.20). */
QUIC_WIRE_NEAR size_t quic_wire_handshake_done_read(const uint8_t *payload,
                                                    size_t payloadlen,
                                                    quic_wire_frame *frame) {
  if (!quic_wire_begins_(payload, payloadlen, frame, 0x1e, 0))
    return 0;
  return quic_wire_read_ping_(payload, payload + payloadlen, frame);
}

/** DATAGRAM (RFC 9221, section 4): |data|, |datalen|. */
QUIC_WIRE_NEAR size_t quic_wire_datagram_read(const uint8_t *payload,
                                              size_t payloadlen,
                                              quic_wire_frame *frame) {
  if (!quic_wire_begins_(payload, payloadlen, frame, 0x30, 1))
    return 0;
  return quic_wire_read_datagram_(payload, payload + payloadlen, frame);
}
/* End of what is made. */

/** Reads the frame at the front of |payload|, of any kind. */
QUIC_WIRE_CHECKED static inline int64_t
quic_wire_frame_read_near(const uint8_t *payload, size_t payloadlen,
                          uint32_t flags, quic_wire_frame *frame,
                          quic_wire_gap *gaps, size_t room) {
  size_t end = 0;
  if (payload && payloadlen && frame && (gaps || !room)) {
    switch (payload[0]) {
/* Made by scripts/make/tables: */
    case 0x01:
    case 0x1e:
      end = quic_wire_read_ping_(payload, payload + payloadlen, frame);
      break;
    case 0x04:
      end = quic_wire_read_reset_stream_(payload, payload + payloadlen, frame);
      break;
    case 0x05:
    case 0x11:
    case 0x15:
      end = quic_wire_read_stop_sending_(payload, payload + payloadlen, frame);
      break;
    case 0x06:
      end = quic_wire_read_crypto_(payload, payload + payloadlen, frame);
      break;
    case 0x07:
      end = quic_wire_read_new_token_(payload, payload + payloadlen, frame);
      break;
    case 0x08:
    case 0x09:
    case 0x0a:
    case 0x0b:
    case 0x0c:
    case 0x0d:
    case 0x0e:
    case 0x0f:
      end = quic_wire_read_stream_(payload, payload + payloadlen, frame);
      break;
    case 0x10:
    case 0x14:
      end = quic_wire_read_max_data_(payload, payload + payloadlen, frame);
      break;
    case 0x12:
    case 0x13:
    case 0x16:
    case 0x17:
      end = quic_wire_read_max_streams_bidi_(payload, payload + payloadlen,
                                             frame);
      break;
    case 0x18:
      end = quic_wire_read_new_connection_id_(payload, payload + payloadlen,
                                              frame);
      break;
    case 0x19:
      end = quic_wire_read_retire_connection_id_(payload, payload + payloadlen,
                                                 frame);
      break;
    case 0x1a:
    case 0x1b:
      end = quic_wire_read_path_challenge_(payload, payload + payloadlen,
                                           frame);
      break;
    case 0x1c:
      end = quic_wire_read_connection_close_(payload, payload + payloadlen,
                                             frame);
      break;
    case 0x1d:
      end = quic_wire_read_application_close_(payload, payload + payloadlen,
                                              frame);
      break;
    case 0x30:
    case 0x31:
      end = quic_wire_read_datagram_(payload, payload + payloadlen, frame);
      break;
/* End of what is made. */
    default:
      break;
    }
  }
  return end ? (int64_t)end
             : quic_wire_frame_read(payload, payloadlen, flags, frame, gaps,
                                    room);
}

/* ---- Writing frames */

/** Writers of the kinds that have only numbers: the frame in its shortest
 * encoding at the front of |dest|.  They return how many bytes that has, or 0
 * if |destlen| is less, |dest| is NULL, or a number is above 2^62 - 1, of
 * streams above 2^60; |dest| doesn't change then, and bytes after the frame
 * never do. */
/* Made by scripts/make/tables: */
/** PING (19.2). */
QUIC_WIRE_NEAR size_t quic_wire_ping_write(uint8_t *dest, size_t destlen) {
  uint8_t *at = dest;
  if (!dest || destlen < 1)
    return 0;
  *at++ = 0x01;
  return (size_t)(at - dest);
}

/** RESET_STREAM (19.4). */
QUIC_WIRE_NEAR size_t quic_wire_reset_stream_write(uint64_t stream_id,
                                                   uint64_t error_code,
                                                   uint64_t final_size,
                                                   uint8_t *dest,
                                                   size_t destlen) {
  uint8_t *at = dest;
  if (!dest || (stream_id | error_code | final_size) > QUIC_WIRE_MOST_)
    return 0;
  if (destlen < 25 && destlen < 1 + quic_wire_varint_len_near(stream_id) +
                                    quic_wire_varint_len_near(error_code) +
                                    quic_wire_varint_len_near(final_size))
    return 0;
  *at++ = 0x04;
  at = quic_wire_put_varint_(at, stream_id);
  at = quic_wire_put_varint_(at, error_code);
  at = quic_wire_put_varint_(at, final_size);
  return (size_t)(at - dest);
}

/** STOP_SENDING (19.5). */
QUIC_WIRE_NEAR size_t quic_wire_stop_sending_write(uint64_t stream_id,
                                                   uint64_t error_code,
                                                   uint8_t *dest,
                                                   size_t destlen) {
  uint8_t *at = dest;
  if (!dest || (stream_id | error_code) > QUIC_WIRE_MOST_)
    return 0;
  if (destlen < 17 && destlen < 1 + quic_wire_varint_len_near(stream_id) +
                                    quic_wire_varint_len_near(error_code))
    return 0;
  *at++ = 0x05;
  at = quic_wire_put_varint_(at, stream_id);
  at = quic_wire_put_varint_(at, error_code);
  return (size_t)(at - dest);
}

/** MAX_DATA (19.9). */
QUIC_WIRE_NEAR size_t quic_wire_max_data_write(uint64_t limit, uint8_t *dest,
                                               size_t destlen) {
  uint8_t *at = dest;
  if (!dest || limit > QUIC_WIRE_MOST_)
    return 0;
  if (destlen < 9 && destlen < 1 + quic_wire_varint_len_near(limit))
    return 0;
  *at++ = 0x10;
  at = quic_wire_put_varint_(at, limit);
  return (size_t)(at - dest);
}

/** MAX_STREAM_DATA (19.10). */
QUIC_WIRE_NEAR size_t quic_wire_max_stream_data_write(uint64_t stream_id,
                                                      uint64_t limit,
                                                      uint8_t *dest,
                                                      size_t destlen) {
  uint8_t *at = dest;
  if (!dest || (stream_id | limit) > QUIC_WIRE_MOST_)
    return 0;
  if (destlen < 17 && destlen < 1 + quic_wire_varint_len_near(stream_id) +
                                    quic_wire_varint_len_near(limit))
    return 0;
  *at++ = 0x11;
  at = quic_wire_put_varint_(at, stream_id);
  at = quic_wire_put_varint_(at, limit);
  return (size_t)(at - dest);
}

/** MAX_STREAMS_BIDI (19.11). */
QUIC_WIRE_NEAR size_t quic_wire_max_streams_bidi_write(uint64_t limit,
                                                       uint8_t *dest,
                                                       size_t destlen) {
  uint8_t *at = dest;
  if (!dest || limit > (uint64_t)1 << 60)
    return 0;
  if (destlen < 9 && destlen < 1 + quic_wire_varint_len_near(limit))
    return 0;
  *at++ = 0x12;
  at = quic_wire_put_varint_(at, limit);
  return (size_t)(at - dest);
}

/** MAX_STREAMS_UNI (19.11). */
QUIC_WIRE_NEAR size_t quic_wire_max_streams_uni_write(uint64_t limit,
                                                      uint8_t *dest,
                                                      size_t destlen) {
  uint8_t *at = dest;
  if (!dest || limit > (uint64_t)1 << 60)
    return 0;
  if (destlen < 9 && destlen < 1 + quic_wire_varint_len_near(limit))
    return 0;
  *at++ = 0x13;
  at = quic_wire_put_varint_(at, limit);
  return (size_t)(at - dest);
}

/** DATA_BLOCKED (19.12). */
QUIC_WIRE_NEAR size_t quic_wire_data_blocked_write(uint64_t limit,
                                                   uint8_t *dest,
                                                   size_t destlen) {
  uint8_t *at = dest;
  if (!dest || limit > QUIC_WIRE_MOST_)
    return 0;
  if (destlen < 9 && destlen < 1 + quic_wire_varint_len_near(limit))
    return 0;
  *at++ = 0x14;
  at = quic_wire_put_varint_(at, limit);
  return (size_t)(at - dest);
}

/** STREAM_DATA_BLOCKED (19.13). */
QUIC_WIRE_NEAR size_t quic_wire_stream_data_blocked_write(uint64_t stream_id,
                                                          uint64_t limit,
                                                          uint8_t *dest,
                                                          size_t destlen) {
  uint8_t *at = dest;
  if (!dest || (stream_id | limit) > QUIC_WIRE_MOST_)
    return 0;
  if (destlen < 17 && destlen < 1 + quic_wire_varint_len_near(stream_id) +
                                    quic_wire_varint_len_near(limit))
    return 0;
  *at++ = 0x15;
  at = quic_wire_put_varint_(at, stream_id);
  at = quic_wire_put_varint_(at, limit);
  return (size_t)(at - dest);
}

/** STREAMS_BLOCKED_BIDI (19.14). */
QUIC_WIRE_NEAR size_t quic_wire_streams_blocked_bidi_write(uint64_t limit,
                                                           uint8_t *dest,
                                                           size_t destlen) {
  uint8_t *at = dest;
  if (!dest || limit > (uint64_t)1 << 60)
    return 0;
  if (destlen < 9 && destlen < 1 + quic_wire_varint_len_near(limit))
    return 0;
  *at++ = 0x16;
  at = quic_wire_put_varint_(at, limit);
  return (size_t)(at - dest);
}

/** STREAMS_BLOCKED_UNI (19.14). */
QUIC_WIRE_NEAR size_t quic_wire_streams_blocked_uni_write(uint64_t limit,
                                                          uint8_t *dest,
                                                          size_t destlen) {
  uint8_t *at = dest;
  if (!dest || limit > (uint64_t)1 << 60)
    return 0;
  if (destlen < 9 && destlen < 1 + quic_wire_varint_len_near(limit))
    return 0;
  *at++ = 0x17;
  at = quic_wire_put_varint_(at, limit);
  return (size_t)(at - dest);
}

/** RETIRE_CONNECTION_ID (19.16). */
QUIC_WIRE_NEAR size_t quic_wire_retire_connection_id_write(uint64_t sequence,
                                                           uint8_t *dest,
                                                           size_t destlen) {
  uint8_t *at = dest;
  if (!dest || sequence > QUIC_WIRE_MOST_)
    return 0;
  if (destlen < 9 && destlen < 1 + quic_wire_varint_len_near(sequence))
    return 0;
  *at++ = 0x19;
  at = quic_wire_put_varint_(at, sequence);
  return (size_t)(at - dest);
}

/** PATH_CHALLENGE (19.17). */
QUIC_WIRE_NEAR size_t quic_wire_path_challenge_write(uint64_t data,
                                                     uint8_t *dest,
                                                     size_t destlen) {
  uint8_t *at = dest;
  if (!dest || destlen < 9)
    return 0;
  *at++ = 0x1a;
  at = quic_wire_put_uint64_(at, data);
  return (size_t)(at - dest);
}

/** PATH_RESPONSE (19.18). */
QUIC_WIRE_NEAR size_t quic_wire_path_response_write(uint64_t data,
                                                    uint8_t *dest,
                                                    size_t destlen) {
  uint8_t *at = dest;
  if (!dest || destlen < 9)
    return 0;
  *at++ = 0x1b;
  at = quic_wire_put_uint64_(at, data);
  return (size_t)(at - dest);
}

/** HANDSHAKE_DONE (19.20). */
QUIC_WIRE_NEAR size_t quic_wire_handshake_done_write(uint8_t *dest,
                                                     size_t destlen) {
  uint8_t *at = dest;
  if (!dest || destlen < 1)
    return 0;
  *at++ = 0x1e;
  return (size_t)(at - dest);
}

/** IMMEDIATE_ACK (draft-ietf-quic-ack-frequency, section 5). */
QUIC_WIRE_NEAR size_t quic_wire_immediate_ack_write(uint8_t *dest,
                                                    size_t destlen) {
  uint8_t *at = dest;
  if (!dest || destlen < 1)
    return 0;
  *at++ = 0x1f;
  return (size_t)(at - dest);
}

/** ACK_FREQUENCY (draft-ietf-quic-ack-frequency, section 4). */
QUIC_WIRE_NEAR size_t
quic_wire_ack_frequency_write(uint64_t sequence,
                              uint64_t ack_eliciting_threshold,
                              uint64_t max_ack_delay,
                              uint64_t reordering_threshold, uint8_t *dest,
                              size_t destlen) {
  uint8_t *at = dest;
  if (!dest || (sequence | ack_eliciting_threshold | max_ack_delay |
                reordering_threshold) > QUIC_WIRE_MOST_)
    return 0;
  if (destlen < 34 &&
      destlen < 2 + quic_wire_varint_len_near(sequence) +
                    quic_wire_varint_len_near(ack_eliciting_threshold) +
                    quic_wire_varint_len_near(max_ack_delay) +
                    quic_wire_varint_len_near(reordering_threshold))
    return 0;
  *at++ = 0x40;
  *at++ = 0xaf;
  at = quic_wire_put_varint_(at, sequence);
  at = quic_wire_put_varint_(at, ack_eliciting_threshold);
  at = quic_wire_put_varint_(at, max_ack_delay);
  at = quic_wire_put_varint_(at, reordering_threshold);
  return (size_t)(at - dest);
}
/* End of what is made. */

#endif /* QUIC_WIRE_NEAR_H */
