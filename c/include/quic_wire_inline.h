/* SPDX-License-Identifier: MIT OR Apache-2.0 */
/*
 * What the functions of quic_wire.h do besides the proved library: they check
 * their pointers, and call it with their arguments.  Some make no call and are
 * one expression each: those that return a part of what was read,
 * quic_wire_padding_count, quic_wire_sample and quic_wire_header_len.
 * quic_wire_varint_read makes none for a number of one byte.
 * quic_wire_frame_len makes the call that writes, without room.
 * quic_wire_header_write chooses one of two proved calls with the same meaning.
 * c/tests/abuse/ compares all of these with the proved calls.  quic_wire.h
 * includes this file if QUIC_WIRE_INLINE is defined; the library's own
 * quic_wire.c includes it to make symbols of the functions.
 */
#ifndef QUIC_WIRE_INLINE_H
#define QUIC_WIRE_INLINE_H

/* The functions of the proved library.  Their pointers must not be NULL.  A
 * slice of its crates is a pointer and a length here. */
/* Made by scripts/make/tables: */
int32_t quic_wire_ack_ranges_init_(quic_wire_range_iter *, const uint8_t *,
                                   size_t, const quic_wire_frame *);
int32_t quic_wire_ack_ranges_next_(quic_wire_range_iter *, const uint8_t *,
                                   size_t, quic_wire_range *);
int64_t quic_wire_frame_body_read_(const uint8_t *, size_t, uint64_t, uint32_t,
                                   quic_wire_frame *, quic_wire_gap *, size_t);
uint32_t quic_wire_close_code_(int32_t);
int32_t quic_wire_frames_fill_(quic_wire_frame_iter *, const uint8_t *, size_t,
                               quic_wire_frame *, size_t, size_t *);
int32_t quic_wire_frames_first_(quic_wire_frame_iter *, const uint8_t *, size_t,
                                uint32_t, quic_wire_frame *, size_t, size_t *);
int32_t quic_wire_ack_ranges_fill_(quic_wire_range_iter *, const uint8_t *,
                                   size_t, quic_wire_range *, size_t, size_t *);
int32_t quic_wire_frames_init_(quic_wire_frame_iter *, const uint8_t *, size_t,
                               uint32_t);
int32_t quic_wire_frames_next_(quic_wire_frame_iter *, const uint8_t *, size_t,
                               quic_wire_frame *);
int64_t quic_wire_frame_read_(const uint8_t *, size_t, uint32_t,
                              quic_wire_frame *, quic_wire_gap *, size_t);
int32_t quic_wire_frames_skip_(quic_wire_frame_iter *, const uint8_t *, size_t,
                               size_t, uint64_t);
int32_t quic_wire_canonical_(const uint8_t *, size_t, uint8_t *, size_t,
                             quic_wire_canon *);
int32_t quic_wire_canonical_with_(const uint8_t *, size_t, uint32_t, uint8_t *,
                                  size_t, quic_wire_canon *);
int32_t quic_wire_frame_fields_(const uint8_t *, size_t, uint32_t,
                                quic_wire_span *, size_t, quic_wire_fields *);
int32_t quic_wire_param_fields_(const uint8_t *, size_t, quic_wire_span *,
                                size_t, quic_wire_fields *);
int32_t quic_wire_param_value_fields_(uint64_t, const uint8_t *, size_t,
                                      uint32_t, quic_wire_span *, size_t,
                                      quic_wire_fields *);
size_t quic_wire_header_write_fault_(const quic_wire_header_fields *, size_t,
                                     size_t, size_t);
int32_t quic_wire_packet_fields_(const uint8_t *, size_t, size_t,
                                 const uint32_t *, size_t, uint32_t,
                                 quic_wire_span *, size_t, quic_wire_fields *);
int64_t quic_wire_header_read_(const uint8_t *, size_t, uint32_t,
                               const uint32_t *, size_t, uint32_t,
                               quic_wire_header *);
size_t quic_wire_short_read_(const uint8_t *, size_t, uint32_t);
size_t quic_wire_dcid_read_(const uint8_t *, size_t, size_t, size_t *);
int64_t quic_wire_negotiation_read_(const uint8_t *, size_t,
                                    quic_wire_header *);
int32_t quic_wire_negotiation_write_(uint8_t, const uint8_t *, size_t,
                                     const uint8_t *, size_t, const uint32_t *,
                                     size_t, uint8_t *, size_t, size_t *);
int32_t quic_wire_unprotect_(uint8_t *, size_t, size_t, const uint8_t *,
                             uint64_t, uint64_t *);
int32_t quic_wire_unprotect_copy_(const uint8_t *, size_t, size_t,
                                  const uint8_t *, uint64_t, uint8_t *, size_t,
                                  uint64_t *);
int32_t quic_wire_protect_(uint8_t *, size_t, size_t, const uint8_t *);
int32_t quic_wire_set_len_(uint8_t *, size_t, size_t, uint32_t);
int64_t quic_wire_short_write_(const quic_wire_header_fields *, const uint8_t *,
                               size_t, uint8_t *, size_t);
int64_t quic_wire_header_write_(const quic_wire_header_fields *,
                                const uint8_t *, size_t, const uint8_t *,
                                size_t, const uint8_t *, size_t, uint8_t *,
                                size_t);
size_t quic_wire_negotiation_answer_(uint8_t, const uint8_t *, size_t,
                                     const uint32_t *, size_t, uint8_t *,
                                     size_t);
size_t quic_wire_reset_write_(const uint8_t *, size_t, const uint8_t *, size_t,
                              uint8_t *, size_t);
uint32_t quic_wire_is_reset_(const uint8_t *, size_t, const uint8_t *, size_t);
uint32_t quic_wire_nonce_(const uint8_t *, size_t, uint64_t, uint8_t *, size_t);
size_t quic_wire_retry_pseudo_write_(const uint8_t *, size_t, const uint8_t *,
                                     size_t, uint8_t *, size_t);
size_t quic_wire_constant_(uint32_t, uint32_t, uint8_t *, size_t);
size_t quic_wire_version_information_write_(uint32_t, const uint32_t *, size_t,
                                            uint8_t *, size_t);
uint32_t quic_wire_version_information_read_(const uint8_t *, size_t);
uint32_t quic_wire_version_split_(const uint8_t *, size_t);
size_t quic_wire_varint_read_(const uint8_t *, size_t, uint64_t *);
size_t quic_wire_varint_len_(uint64_t);
size_t quic_wire_varint_write_(uint64_t, uint32_t, uint8_t *, size_t);
int32_t quic_wire_number_len_(uint64_t, uint64_t);
int32_t quic_wire_number_read_(const uint8_t *, size_t, uint32_t, uint64_t *);
int32_t quic_wire_number_write_(uint64_t, uint32_t, uint8_t *, size_t);
uint64_t quic_wire_number_expand_(uint64_t, uint32_t, uint64_t);
int32_t quic_wire_preferred_address_read_(const uint8_t *, size_t,
                                          quic_wire_params *);
int32_t quic_wire_preferred_address_write_(const quic_wire_params *, uint8_t *,
                                           size_t, size_t *);
uint32_t quic_wire_param_is_known_(uint64_t);
int64_t quic_wire_param_read_(const uint8_t *, size_t, quic_wire_param *);
int32_t quic_wire_param_write_(uint64_t, const uint8_t *, size_t, uint8_t *,
                               size_t, size_t *);
int64_t quic_wire_param_read_number_(const uint8_t *, size_t, quic_wire_param *,
                                     uint64_t *);
int32_t quic_wire_param_header_write_(uint64_t, size_t, uint8_t *, size_t,
                                      size_t *);
int32_t quic_wire_param_write_number_(uint64_t, uint64_t, uint8_t *, size_t,
                                      size_t *);
int32_t quic_wire_params_write_fault_(uint32_t, const quic_wire_params *,
                                      uint64_t *);
int32_t quic_wire_params_write_with_(uint32_t, const quic_wire_params *,
                                     const uint8_t *, size_t, const uint8_t *,
                                     size_t, uint8_t *, size_t, size_t *);
int32_t quic_wire_params_read_(uint32_t, uint32_t, const uint8_t *, size_t,
                               quic_wire_params *, quic_wire_refusal *);
int32_t quic_wire_params_write_(uint32_t, const quic_wire_params *, uint8_t *,
                                size_t, size_t *);
int32_t quic_wire_type_permitted_(uint64_t, uint32_t, uint32_t, uint32_t);
int32_t quic_wire_frame_permitted_(uint64_t, uint64_t, uint32_t, uint32_t,
                                   uint32_t);
uint32_t quic_wire_frame_rules_(uint32_t);
uint32_t quic_wire_reset_token_equal_(const uint8_t *, size_t, const uint8_t *,
                                      size_t);
int32_t quic_wire_runs_insert_(quic_wire_range *, size_t, quic_wire_runs *,
                               uint64_t, uint64_t);
int32_t quic_wire_runs_remove_(quic_wire_range *, size_t, quic_wire_runs *,
                               uint64_t, uint64_t);
int32_t quic_wire_runs_contains_(const quic_wire_range *, size_t,
                                 const quic_wire_runs *, uint64_t);
int32_t quic_wire_runs_within_(const quic_wire_range *, size_t,
                               const quic_wire_runs *, uint64_t, uint64_t,
                               quic_wire_range *, size_t, size_t *);
int32_t quic_wire_ack_write_(uint64_t, const quic_wire_range *, size_t, size_t,
                             const uint64_t *, size_t, uint8_t *, size_t,
                             size_t *);
int32_t quic_wire_set_insert_(quic_wire_range *, size_t, size_t *, uint64_t,
                              uint64_t);
int32_t quic_wire_set_remove_(quic_wire_range *, size_t, size_t *, uint64_t,
                              uint64_t);
int32_t quic_wire_set_contains_(const quic_wire_range *, size_t, size_t,
                                uint64_t);
int32_t quic_wire_set_within_(const quic_wire_range *, size_t, size_t, uint64_t,
                              uint64_t, quic_wire_range *, size_t, size_t *);
int32_t quic_wire_ack_gaps_write_(const quic_wire_frame *,
                                  const quic_wire_gap *, size_t, uint8_t *,
                                  size_t, size_t *);
int32_t quic_wire_frame_header_write_(const quic_wire_frame *, uint32_t,
                                      uint8_t *, size_t, size_t *);
size_t quic_wire_frame_write_fault_(const quic_wire_frame *, const uint8_t *,
                                    size_t, uint32_t);
int64_t quic_wire_frame_header_read_(const uint8_t *, size_t, uint32_t,
                                     quic_wire_frame *);
int32_t quic_wire_frame_write_(const quic_wire_frame *, const uint8_t *, size_t,
                               uint32_t, uint8_t *, size_t, size_t *);
/* End of what is made. */

/* An address for arrays without items, since the proved library accepts no
 * NULL.  It is aligned for each kind of item, and never read or written. */
static inline void *quic_wire_nothing_(void) {
  static uint64_t nothing;
  return &nothing;
}

/* The functions that check their pointers and call the proved one of their
 * name, in the order of quic_wire.h. */
/* Made by scripts/make/tables: */
QUIC_WIRE_API uint32_t quic_wire_close_code(int result) {
  return quic_wire_close_code_(result);
}

QUIC_WIRE_API int quic_wire_frames_init(quic_wire_frame_iter *frames,
                                        const uint8_t *payload,
                                        size_t payloadlen, uint32_t flags) {
  if (!frames)
    return QUIC_WIRE_ERR_ARGUMENT;
  if (!payload) {
    if (payloadlen)
      return QUIC_WIRE_ERR_ARGUMENT;
    payload = (const uint8_t *)quic_wire_nothing_();
  }
  return quic_wire_frames_init_(frames, payload, payloadlen, flags);
}

QUIC_WIRE_API int quic_wire_frames_next(quic_wire_frame_iter *frames,
                                        const uint8_t *payload,
                                        size_t payloadlen,
                                        quic_wire_frame *frame) {
  if (!frames || !frame)
    return QUIC_WIRE_ERR_ARGUMENT;
  if (!payload) {
    if (payloadlen)
      return QUIC_WIRE_ERR_ARGUMENT;
    payload = (const uint8_t *)quic_wire_nothing_();
  }
  return quic_wire_frames_next_(frames, payload, payloadlen, frame);
}

QUIC_WIRE_API int quic_wire_frames_fill(quic_wire_frame_iter *frames,
                                        const uint8_t *payload,
                                        size_t payloadlen, quic_wire_frame *out,
                                        size_t room, size_t *count) {
  if (!frames || !count)
    return QUIC_WIRE_ERR_ARGUMENT;
  if (!payload) {
    if (payloadlen)
      return QUIC_WIRE_ERR_ARGUMENT;
    payload = (const uint8_t *)quic_wire_nothing_();
  }
  if (!out) {
    if (room)
      return QUIC_WIRE_ERR_ARGUMENT;
    out = (quic_wire_frame *)quic_wire_nothing_();
  }
  return quic_wire_frames_fill_(frames, payload, payloadlen, out, room, count);
}

QUIC_WIRE_API int quic_wire_frames_first(quic_wire_frame_iter *frames,
                                         const uint8_t *payload,
                                         size_t payloadlen, uint32_t flags,
                                         quic_wire_frame *out, size_t room,
                                         size_t *count) {
  if (!frames || !count)
    return QUIC_WIRE_ERR_ARGUMENT;
  if (!payload) {
    if (payloadlen)
      return QUIC_WIRE_ERR_ARGUMENT;
    payload = (const uint8_t *)quic_wire_nothing_();
  }
  if (!out) {
    if (room)
      return QUIC_WIRE_ERR_ARGUMENT;
    out = (quic_wire_frame *)quic_wire_nothing_();
  }
  return quic_wire_frames_first_(frames, payload, payloadlen, flags, out, room,
                                 count);
}

QUIC_WIRE_API int quic_wire_frames_skip(quic_wire_frame_iter *frames,
                                        const uint8_t *payload,
                                        size_t payloadlen, size_t end,
                                        uint64_t type) {
  if (!frames)
    return QUIC_WIRE_ERR_ARGUMENT;
  if (!payload) {
    if (payloadlen)
      return QUIC_WIRE_ERR_ARGUMENT;
    payload = (const uint8_t *)quic_wire_nothing_();
  }
  return quic_wire_frames_skip_(frames, payload, payloadlen, end, type);
}

QUIC_WIRE_API int64_t quic_wire_frame_read(const uint8_t *payload,
                                           size_t payloadlen, uint32_t flags,
                                           quic_wire_frame *frame,
                                           quic_wire_gap *gaps, size_t room) {
  if (!frame)
    return QUIC_WIRE_ERR_ARGUMENT;
  if (!payload) {
    if (payloadlen)
      return QUIC_WIRE_ERR_ARGUMENT;
    payload = (const uint8_t *)quic_wire_nothing_();
  }
  if (!gaps) {
    if (room)
      return QUIC_WIRE_ERR_ARGUMENT;
    gaps = (quic_wire_gap *)quic_wire_nothing_();
  }
  return quic_wire_frame_read_(payload, payloadlen, flags, frame, gaps, room);
}

QUIC_WIRE_API int64_t
quic_wire_frame_body_read(const uint8_t *body, size_t bodylen, uint64_t type,
                          uint32_t flags, quic_wire_frame *frame,
                          quic_wire_gap *gaps, size_t room) {
  if (!frame)
    return QUIC_WIRE_ERR_ARGUMENT;
  if (!body) {
    if (bodylen)
      return QUIC_WIRE_ERR_ARGUMENT;
    body = (const uint8_t *)quic_wire_nothing_();
  }
  if (!gaps) {
    if (room)
      return QUIC_WIRE_ERR_ARGUMENT;
    gaps = (quic_wire_gap *)quic_wire_nothing_();
  }
  return quic_wire_frame_body_read_(body, bodylen, type, flags, frame, gaps,
                                    room);
}

QUIC_WIRE_API int64_t quic_wire_frame_header_read(const uint8_t *bytes,
                                                  size_t len, uint32_t flags,
                                                  quic_wire_frame *frame) {
  if (!frame)
    return QUIC_WIRE_ERR_ARGUMENT;
  if (!bytes) {
    if (len)
      return QUIC_WIRE_ERR_ARGUMENT;
    bytes = (const uint8_t *)quic_wire_nothing_();
  }
  return quic_wire_frame_header_read_(bytes, len, flags, frame);
}

QUIC_WIRE_API uint32_t quic_wire_frame_rules(uint32_t kind) {
  return quic_wire_frame_rules_(kind);
}

QUIC_WIRE_API int quic_wire_type_permitted(uint64_t type, uint32_t packet,
                                           uint32_t sender, uint32_t flags) {
  return quic_wire_type_permitted_(type, packet, sender, flags);
}

QUIC_WIRE_API int quic_wire_ack_ranges_init(quic_wire_range_iter *ranges,
                                            const uint8_t *payload,
                                            size_t payloadlen,
                                            const quic_wire_frame *frame) {
  if (!ranges || !payload || !frame)
    return QUIC_WIRE_ERR_ARGUMENT;
  return quic_wire_ack_ranges_init_(ranges, payload, payloadlen, frame);
}

QUIC_WIRE_API int quic_wire_ack_ranges_next(quic_wire_range_iter *ranges,
                                            const uint8_t *payload,
                                            size_t payloadlen,
                                            quic_wire_range *range) {
  if (!ranges || !payload || !range)
    return QUIC_WIRE_ERR_ARGUMENT;
  return quic_wire_ack_ranges_next_(ranges, payload, payloadlen, range);
}

QUIC_WIRE_API int quic_wire_ack_ranges_fill(quic_wire_range_iter *ranges,
                                            const uint8_t *payload,
                                            size_t payloadlen,
                                            quic_wire_range *out, size_t room,
                                            size_t *count) {
  if (!ranges || !payload || !count)
    return QUIC_WIRE_ERR_ARGUMENT;
  if (!out) {
    if (room)
      return QUIC_WIRE_ERR_ARGUMENT;
    out = (quic_wire_range *)quic_wire_nothing_();
  }
  return quic_wire_ack_ranges_fill_(ranges, payload, payloadlen, out, room,
                                    count);
}

QUIC_WIRE_API int quic_wire_frame_header_write(const quic_wire_frame *frame,
                                               uint32_t flags, uint8_t *dest,
                                               size_t destlen,
                                               size_t *written) {
  size_t unused;
  if (!frame)
    return QUIC_WIRE_ERR_ARGUMENT;
  if (!dest) {
    if (destlen)
      return QUIC_WIRE_ERR_ARGUMENT;
    dest = (uint8_t *)quic_wire_nothing_();
  }
  if (!written)
    written = &unused;
  return quic_wire_frame_header_write_(frame, flags, dest, destlen, written);
}

QUIC_WIRE_API int quic_wire_ack_gaps_write(const quic_wire_frame *ack,
                                           const quic_wire_gap *gaps,
                                           size_t ngaps, uint8_t *dest,
                                           size_t destlen, size_t *written) {
  if (!ack || !written)
    return QUIC_WIRE_ERR_ARGUMENT;
  if (!gaps) {
    if (ngaps)
      return QUIC_WIRE_ERR_ARGUMENT;
    gaps = (const quic_wire_gap *)quic_wire_nothing_();
  }
  if (!dest) {
    if (destlen)
      return QUIC_WIRE_ERR_ARGUMENT;
    dest = (uint8_t *)quic_wire_nothing_();
  }
  return quic_wire_ack_gaps_write_(ack, gaps, ngaps, dest, destlen, written);
}

QUIC_WIRE_API int quic_wire_canonical(const uint8_t *payload, size_t payloadlen,
                                      uint8_t *dest, size_t destlen,
                                      quic_wire_canon *out) {
  if (!out)
    return QUIC_WIRE_ERR_ARGUMENT;
  if (!payload) {
    if (payloadlen)
      return QUIC_WIRE_ERR_ARGUMENT;
    payload = (const uint8_t *)quic_wire_nothing_();
  }
  if (!dest) {
    if (destlen)
      return QUIC_WIRE_ERR_ARGUMENT;
    dest = (uint8_t *)quic_wire_nothing_();
  }
  return quic_wire_canonical_(payload, payloadlen, dest, destlen, out);
}

QUIC_WIRE_API int quic_wire_canonical_with(const uint8_t *payload,
                                           size_t payloadlen, uint32_t flags,
                                           uint8_t *dest, size_t destlen,
                                           quic_wire_canon *out) {
  if (!out)
    return QUIC_WIRE_ERR_ARGUMENT;
  if (!payload) {
    if (payloadlen)
      return QUIC_WIRE_ERR_ARGUMENT;
    payload = (const uint8_t *)quic_wire_nothing_();
  }
  if (!dest) {
    if (destlen)
      return QUIC_WIRE_ERR_ARGUMENT;
    dest = (uint8_t *)quic_wire_nothing_();
  }
  return quic_wire_canonical_with_(payload, payloadlen, flags, dest, destlen,
                                   out);
}

QUIC_WIRE_API int64_t quic_wire_header_read(const uint8_t *bytes, size_t len,
                                            uint32_t cidlen,
                                            const uint32_t *versions,
                                            size_t nversions, uint32_t flags,
                                            quic_wire_header *header) {
  if (!bytes || !header)
    return QUIC_WIRE_ERR_ARGUMENT;
  if (!versions) {
    if (nversions)
      return QUIC_WIRE_ERR_ARGUMENT;
    versions = (const uint32_t *)quic_wire_nothing_();
  }
  return quic_wire_header_read_(bytes, len, cidlen, versions, nversions, flags,
                                header);
}

QUIC_WIRE_API size_t quic_wire_short_read(const uint8_t *packet,
                                          size_t packetlen, uint32_t cidlen) {
  if (!packet)
    return 0;
  return quic_wire_short_read_(packet, packetlen, cidlen);
}

QUIC_WIRE_API int64_t quic_wire_negotiation_read(const uint8_t *packet,
                                                 size_t packetlen,
                                                 quic_wire_header *header) {
  if (!packet || !header)
    return QUIC_WIRE_ERR_ARGUMENT;
  return quic_wire_negotiation_read_(packet, packetlen, header);
}

QUIC_WIRE_API int quic_wire_unprotect(uint8_t *packet, size_t packetlen,
                                      size_t place, const uint8_t *mask,
                                      uint64_t expected, uint64_t *number) {
  if (!packet || !mask || !number)
    return QUIC_WIRE_ERR_ARGUMENT;
  return quic_wire_unprotect_(packet, packetlen, place, mask, expected, number);
}

QUIC_WIRE_API int quic_wire_unprotect_copy(const uint8_t *packet,
                                           size_t packetlen, size_t place,
                                           const uint8_t *mask,
                                           uint64_t expected, uint8_t *dest,
                                           size_t destlen, uint64_t *number) {
  if (!packet || !mask || !dest || !number)
    return QUIC_WIRE_ERR_ARGUMENT;
  return quic_wire_unprotect_copy_(packet, packetlen, place, mask, expected,
                                   dest, destlen, number);
}

QUIC_WIRE_API int quic_wire_protect(uint8_t *packet, size_t packetlen,
                                    size_t place, const uint8_t *mask) {
  if (!packet || !mask)
    return QUIC_WIRE_ERR_ARGUMENT;
  return quic_wire_protect_(packet, packetlen, place, mask);
}

QUIC_WIRE_API int quic_wire_number_len(uint64_t number,
                                       uint64_t largest_acked) {
  return quic_wire_number_len_(number, largest_acked);
}

QUIC_WIRE_API uint64_t quic_wire_number_expand(uint64_t written,
                                               uint32_t numberlen,
                                               uint64_t expected) {
  return quic_wire_number_expand_(written, numberlen, expected);
}

QUIC_WIRE_API int quic_wire_number_read(const uint8_t *bytes, size_t len,
                                        uint32_t numberlen, uint64_t *written) {
  if (!bytes || !written)
    return QUIC_WIRE_ERR_ARGUMENT;
  return quic_wire_number_read_(bytes, len, numberlen, written);
}

QUIC_WIRE_API int quic_wire_number_write(uint64_t number, uint32_t numberlen,
                                         uint8_t *dest, size_t destlen) {
  if (!dest)
    return QUIC_WIRE_ERR_ARGUMENT;
  return quic_wire_number_write_(number, numberlen, dest, destlen);
}

QUIC_WIRE_API size_t quic_wire_varint_len(uint64_t value) {
  return quic_wire_varint_len_(value);
}

QUIC_WIRE_API size_t quic_wire_varint_write(uint64_t value, uint32_t width,
                                            uint8_t *dest, size_t destlen) {
  if (!dest)
    return 0;
  return quic_wire_varint_write_(value, width, dest, destlen);
}

QUIC_WIRE_API int
quic_wire_negotiation_write(uint8_t flags, const uint8_t *dcid, size_t dcidlen,
                            const uint8_t *scid, size_t scidlen,
                            const uint32_t *versions, size_t nversions,
                            uint8_t *dest, size_t destlen, size_t *written) {
  if (!written)
    return QUIC_WIRE_ERR_ARGUMENT;
  if (!dcid) {
    if (dcidlen)
      return QUIC_WIRE_ERR_ARGUMENT;
    dcid = (const uint8_t *)quic_wire_nothing_();
  }
  if (!scid) {
    if (scidlen)
      return QUIC_WIRE_ERR_ARGUMENT;
    scid = (const uint8_t *)quic_wire_nothing_();
  }
  if (!versions) {
    if (nversions)
      return QUIC_WIRE_ERR_ARGUMENT;
    versions = (const uint32_t *)quic_wire_nothing_();
  }
  if (!dest) {
    if (destlen)
      return QUIC_WIRE_ERR_ARGUMENT;
    dest = (uint8_t *)quic_wire_nothing_();
  }
  return quic_wire_negotiation_write_(flags, dcid, dcidlen, scid, scidlen,
                                      versions, nversions, dest, destlen,
                                      written);
}

QUIC_WIRE_API int quic_wire_set_len(uint8_t *packet, size_t packetlen,
                                    size_t place, uint32_t lengthlen) {
  if (!packet)
    return QUIC_WIRE_ERR_ARGUMENT;
  return quic_wire_set_len_(packet, packetlen, place, lengthlen);
}

QUIC_WIRE_API int quic_wire_params_read(uint32_t side, uint32_t flags,
                                        const uint8_t *list, size_t listlen,
                                        quic_wire_params *params, size_t size,
                                        quic_wire_refusal *refusal) {
  quic_wire_refusal unused;
  if (!params)
    return QUIC_WIRE_ERR_ARGUMENT;
  if (!list) {
    if (listlen)
      return QUIC_WIRE_ERR_ARGUMENT;
    list = (const uint8_t *)quic_wire_nothing_();
  }
  if (!refusal)
    refusal = &unused;
  if (size != sizeof *params)
    return QUIC_WIRE_ERR_LENGTH;
  return quic_wire_params_read_(side, flags, list, listlen, params, refusal);
}

QUIC_WIRE_API int quic_wire_params_write(uint32_t side,
                                         const quic_wire_params *params,
                                         size_t size, uint8_t *dest,
                                         size_t destlen, size_t *written) {
  if (!params || !written)
    return QUIC_WIRE_ERR_ARGUMENT;
  if (!dest) {
    if (destlen)
      return QUIC_WIRE_ERR_ARGUMENT;
    dest = (uint8_t *)quic_wire_nothing_();
  }
  if (size != sizeof *params)
    return QUIC_WIRE_ERR_LENGTH;
  /* The proved function takes the side that reads. */
  return quic_wire_params_write_(side ^ 1, params, dest, destlen, written);
}

QUIC_WIRE_API int
quic_wire_params_write_with(uint32_t side, const quic_wire_params *params,
                            size_t size, const uint8_t *further,
                            size_t furtherlen, const uint8_t *order,
                            size_t orderlen, uint8_t *dest, size_t destlen,
                            size_t *written) {
  if (!params || !written)
    return QUIC_WIRE_ERR_ARGUMENT;
  if (!further) {
    if (furtherlen)
      return QUIC_WIRE_ERR_ARGUMENT;
    further = (const uint8_t *)quic_wire_nothing_();
  }
  if (!order) {
    if (orderlen)
      return QUIC_WIRE_ERR_ARGUMENT;
    order = (const uint8_t *)quic_wire_nothing_();
  }
  if (!dest) {
    if (destlen)
      return QUIC_WIRE_ERR_ARGUMENT;
    dest = (uint8_t *)quic_wire_nothing_();
  }
  if (size != sizeof *params)
    return QUIC_WIRE_ERR_LENGTH;
  /* The proved function takes the side that reads. */
  return quic_wire_params_write_with_(side ^ 1, params, further, furtherlen,
                                      order, orderlen, dest, destlen, written);
}

QUIC_WIRE_API int64_t quic_wire_param_read(const uint8_t *list, size_t listlen,
                                           quic_wire_param *param) {
  if (!param)
    return QUIC_WIRE_ERR_ARGUMENT;
  if (!list) {
    if (listlen)
      return QUIC_WIRE_ERR_ARGUMENT;
    list = (const uint8_t *)quic_wire_nothing_();
  }
  return quic_wire_param_read_(list, listlen, param);
}

QUIC_WIRE_API int quic_wire_param_write(uint64_t id, const uint8_t *value,
                                        size_t valuelen, uint8_t *dest,
                                        size_t destlen, size_t *written) {
  if (!written)
    return QUIC_WIRE_ERR_ARGUMENT;
  if (!value) {
    if (valuelen)
      return QUIC_WIRE_ERR_ARGUMENT;
    value = (const uint8_t *)quic_wire_nothing_();
  }
  if (!dest) {
    if (destlen)
      return QUIC_WIRE_ERR_ARGUMENT;
    dest = (uint8_t *)quic_wire_nothing_();
  }
  return quic_wire_param_write_(id, value, valuelen, dest, destlen, written);
}

QUIC_WIRE_API int64_t quic_wire_param_read_number(const uint8_t *list,
                                                  size_t listlen,
                                                  quic_wire_param *param,
                                                  uint64_t *value) {
  if (!param || !value)
    return QUIC_WIRE_ERR_ARGUMENT;
  if (!list) {
    if (listlen)
      return QUIC_WIRE_ERR_ARGUMENT;
    list = (const uint8_t *)quic_wire_nothing_();
  }
  return quic_wire_param_read_number_(list, listlen, param, value);
}

QUIC_WIRE_API int quic_wire_param_header_write(uint64_t id, size_t valuelen,
                                               uint8_t *dest, size_t destlen,
                                               size_t *written) {
  if (!written)
    return QUIC_WIRE_ERR_ARGUMENT;
  if (!dest) {
    if (destlen)
      return QUIC_WIRE_ERR_ARGUMENT;
    dest = (uint8_t *)quic_wire_nothing_();
  }
  return quic_wire_param_header_write_(id, valuelen, dest, destlen, written);
}

QUIC_WIRE_API int quic_wire_param_write_number(uint64_t id, uint64_t value,
                                               uint8_t *dest, size_t destlen,
                                               size_t *written) {
  if (!written)
    return QUIC_WIRE_ERR_ARGUMENT;
  if (!dest) {
    if (destlen)
      return QUIC_WIRE_ERR_ARGUMENT;
    dest = (uint8_t *)quic_wire_nothing_();
  }
  return quic_wire_param_write_number_(id, value, dest, destlen, written);
}

QUIC_WIRE_API int quic_wire_preferred_address_read(const uint8_t *value,
                                                   size_t valuelen,
                                                   quic_wire_params *params,
                                                   size_t size) {
  if (!params)
    return QUIC_WIRE_ERR_ARGUMENT;
  if (!value) {
    if (valuelen)
      return QUIC_WIRE_ERR_ARGUMENT;
    value = (const uint8_t *)quic_wire_nothing_();
  }
  if (size != sizeof *params)
    return QUIC_WIRE_ERR_LENGTH;
  return quic_wire_preferred_address_read_(value, valuelen, params);
}

QUIC_WIRE_API int
quic_wire_preferred_address_write(const quic_wire_params *params, size_t size,
                                  uint8_t *dest, size_t destlen,
                                  size_t *written) {
  if (!params || !written)
    return QUIC_WIRE_ERR_ARGUMENT;
  if (!dest) {
    if (destlen)
      return QUIC_WIRE_ERR_ARGUMENT;
    dest = (uint8_t *)quic_wire_nothing_();
  }
  if (size != sizeof *params)
    return QUIC_WIRE_ERR_LENGTH;
  return quic_wire_preferred_address_write_(params, dest, destlen, written);
}

QUIC_WIRE_API int quic_wire_param_is_known(uint64_t id) {
  return (int)quic_wire_param_is_known_(id);
}

QUIC_WIRE_API int quic_wire_params_write_fault(uint32_t side,
                                               const quic_wire_params *params,
                                               size_t size, uint64_t *id) {
  if (!params || !id)
    return QUIC_WIRE_ERR_ARGUMENT;
  if (size != sizeof *params)
    return QUIC_WIRE_ERR_LENGTH;
  /* The proved function takes the side that reads. */
  return quic_wire_params_write_fault_(side ^ 1, params, id);
}

QUIC_WIRE_API size_t
quic_wire_negotiation_answer(uint8_t first, const uint8_t *received,
                             size_t receivedlen, const uint32_t *versions,
                             size_t nversions, uint8_t *dest, size_t destlen) {
  if (!received) {
    if (receivedlen)
      return 0;
    received = (const uint8_t *)quic_wire_nothing_();
  }
  if (!versions) {
    if (nversions)
      return 0;
    versions = (const uint32_t *)quic_wire_nothing_();
  }
  if (!dest) {
    if (destlen)
      return 0;
    dest = (uint8_t *)quic_wire_nothing_();
  }
  return quic_wire_negotiation_answer_(first, received, receivedlen, versions,
                                       nversions, dest, destlen);
}

QUIC_WIRE_API size_t
quic_wire_version_information_write(uint32_t chosen, const uint32_t *available,
                                    size_t navailable, uint8_t *dest,
                                    size_t destlen) {
  if (!available) {
    if (navailable)
      return 0;
    available = (const uint32_t *)quic_wire_nothing_();
  }
  if (!dest) {
    if (destlen)
      return 0;
    dest = (uint8_t *)quic_wire_nothing_();
  }
  return quic_wire_version_information_write_(chosen, available, navailable,
                                              dest, destlen);
}

QUIC_WIRE_API size_t quic_wire_constant(uint32_t version, uint32_t which,
                                        uint8_t *dest, size_t destlen) {
  if (!dest) {
    if (destlen)
      return 0;
    dest = (uint8_t *)quic_wire_nothing_();
  }
  return quic_wire_constant_(version, which, dest, destlen);
}

QUIC_WIRE_API size_t
quic_wire_retry_pseudo_write(const uint8_t *odcid, size_t odcidlen,
                             const uint8_t *retry, size_t retrylen,
                             uint8_t *dest, size_t destlen) {
  if (!odcid) {
    if (odcidlen)
      return 0;
    odcid = (const uint8_t *)quic_wire_nothing_();
  }
  if (!retry) {
    if (retrylen)
      return 0;
    retry = (const uint8_t *)quic_wire_nothing_();
  }
  if (!dest) {
    if (destlen)
      return 0;
    dest = (uint8_t *)quic_wire_nothing_();
  }
  return quic_wire_retry_pseudo_write_(odcid, odcidlen, retry, retrylen, dest,
                                       destlen);
}

QUIC_WIRE_API int quic_wire_set_insert(quic_wire_range *runs, size_t room,
                                       size_t *count, uint64_t start,
                                       uint64_t end) {
  if (!count)
    return QUIC_WIRE_ERR_ARGUMENT;
  if (!runs) {
    if (room)
      return QUIC_WIRE_ERR_ARGUMENT;
    runs = (quic_wire_range *)quic_wire_nothing_();
  }
  return quic_wire_set_insert_(runs, room, count, start, end);
}

QUIC_WIRE_API int quic_wire_set_remove(quic_wire_range *runs, size_t room,
                                       size_t *count, uint64_t start,
                                       uint64_t end) {
  if (!count)
    return QUIC_WIRE_ERR_ARGUMENT;
  if (!runs) {
    if (room)
      return QUIC_WIRE_ERR_ARGUMENT;
    runs = (quic_wire_range *)quic_wire_nothing_();
  }
  return quic_wire_set_remove_(runs, room, count, start, end);
}

QUIC_WIRE_API int quic_wire_runs_insert(quic_wire_range *runs, size_t room,
                                        quic_wire_runs *set, uint64_t start,
                                        uint64_t end) {
  if (!set)
    return QUIC_WIRE_ERR_ARGUMENT;
  if (!runs) {
    if (room)
      return QUIC_WIRE_ERR_ARGUMENT;
    runs = (quic_wire_range *)quic_wire_nothing_();
  }
  return quic_wire_runs_insert_(runs, room, set, start, end);
}

QUIC_WIRE_API int quic_wire_runs_remove(quic_wire_range *runs, size_t room,
                                        quic_wire_runs *set, uint64_t start,
                                        uint64_t end) {
  if (!set)
    return QUIC_WIRE_ERR_ARGUMENT;
  if (!runs) {
    if (room)
      return QUIC_WIRE_ERR_ARGUMENT;
    runs = (quic_wire_range *)quic_wire_nothing_();
  }
  return quic_wire_runs_remove_(runs, room, set, start, end);
}

QUIC_WIRE_API int quic_wire_runs_contains(const quic_wire_range *runs,
                                          size_t room,
                                          const quic_wire_runs *set,
                                          uint64_t number) {
  if (!set)
    return QUIC_WIRE_ERR_ARGUMENT;
  if (!runs) {
    if (room)
      return QUIC_WIRE_ERR_ARGUMENT;
    runs = (const quic_wire_range *)quic_wire_nothing_();
  }
  return quic_wire_runs_contains_(runs, room, set, number);
}

QUIC_WIRE_API int quic_wire_runs_within(const quic_wire_range *runs,
                                        size_t room, const quic_wire_runs *set,
                                        uint64_t start, uint64_t end,
                                        quic_wire_range *dest, size_t ndest,
                                        size_t *stored) {
  if (!set || !stored)
    return QUIC_WIRE_ERR_ARGUMENT;
  if (!runs) {
    if (room)
      return QUIC_WIRE_ERR_ARGUMENT;
    runs = (const quic_wire_range *)quic_wire_nothing_();
  }
  if (!dest) {
    if (ndest)
      return QUIC_WIRE_ERR_ARGUMENT;
    dest = (quic_wire_range *)quic_wire_nothing_();
  }
  return quic_wire_runs_within_(runs, room, set, start, end, dest, ndest,
                                stored);
}

QUIC_WIRE_API int quic_wire_frame_fields(const uint8_t *payload,
                                         size_t payloadlen, uint32_t flags,
                                         quic_wire_span *fields, size_t nfields,
                                         quic_wire_fields *read) {
  if (!read)
    return QUIC_WIRE_ERR_ARGUMENT;
  if (!payload) {
    if (payloadlen)
      return QUIC_WIRE_ERR_ARGUMENT;
    payload = (const uint8_t *)quic_wire_nothing_();
  }
  if (!fields) {
    if (nfields)
      return QUIC_WIRE_ERR_ARGUMENT;
    fields = (quic_wire_span *)quic_wire_nothing_();
  }
  return quic_wire_frame_fields_(payload, payloadlen, flags, fields, nfields,
                                 read);
}

QUIC_WIRE_API int
quic_wire_packet_fields(const uint8_t *bytes, size_t len, size_t cidlen,
                        const uint32_t *versions, size_t nversions,
                        uint32_t flags, quic_wire_span *fields, size_t nfields,
                        quic_wire_fields *read) {
  if (!bytes || !read)
    return QUIC_WIRE_ERR_ARGUMENT;
  if (!versions) {
    if (nversions)
      return QUIC_WIRE_ERR_ARGUMENT;
    versions = (const uint32_t *)quic_wire_nothing_();
  }
  if (!fields) {
    if (nfields)
      return QUIC_WIRE_ERR_ARGUMENT;
    fields = (quic_wire_span *)quic_wire_nothing_();
  }
  return quic_wire_packet_fields_(bytes, len, cidlen, versions, nversions,
                                  flags, fields, nfields, read);
}

QUIC_WIRE_API int quic_wire_param_fields(const uint8_t *list, size_t listlen,
                                         quic_wire_span *fields, size_t nfields,
                                         quic_wire_fields *read) {
  if (!read)
    return QUIC_WIRE_ERR_ARGUMENT;
  if (!list) {
    if (listlen)
      return QUIC_WIRE_ERR_ARGUMENT;
    list = (const uint8_t *)quic_wire_nothing_();
  }
  if (!fields) {
    if (nfields)
      return QUIC_WIRE_ERR_ARGUMENT;
    fields = (quic_wire_span *)quic_wire_nothing_();
  }
  return quic_wire_param_fields_(list, listlen, fields, nfields, read);
}

QUIC_WIRE_API int
quic_wire_param_value_fields(uint64_t id, const uint8_t *value, size_t valuelen,
                             uint32_t flags, quic_wire_span *fields,
                             size_t nfields, quic_wire_fields *read) {
  if (!read)
    return QUIC_WIRE_ERR_ARGUMENT;
  if (!value) {
    if (valuelen)
      return QUIC_WIRE_ERR_ARGUMENT;
    value = (const uint8_t *)quic_wire_nothing_();
  }
  if (!fields) {
    if (nfields)
      return QUIC_WIRE_ERR_ARGUMENT;
    fields = (quic_wire_span *)quic_wire_nothing_();
  }
  return quic_wire_param_value_fields_(id, value, valuelen, flags, fields,
                                       nfields, read);
}
/* End of what is made. */

/* The others, in this order too. */
QUIC_WIRE_API size_t quic_wire_padding_count(const uint8_t *payload,
                                             size_t payloadlen,
                                             const quic_wire_frame *frame) {
  /* The first type may have more than one byte, as its first two bits say. */
  return payload && frame && frame->kind == QUIC_WIRE_FRAME_PADDING &&
                 frame->end <= payloadlen && frame->begin < frame->end &&
                 (frame->end - frame->begin) >> (payload[frame->begin] >> 6)
             ? (size_t)(frame->end + 1 - frame->begin -
                        ((size_t)1 << (payload[frame->begin] >> 6)))
             : 0;
}

QUIC_WIRE_API const uint8_t *
quic_wire_reset_token(const uint8_t *payload, size_t payloadlen,
                      const quic_wire_frame *frame) {
  return payload && frame && frame->kind == QUIC_WIRE_FRAME_NEW_CONNECTION_ID &&
                 frame->data <= payloadlen &&
                 frame->datalen <= payloadlen - frame->data &&
                 payloadlen - frame->data - frame->datalen >= 16
             ? payload + frame->data + frame->datalen
             : NULL;
}

QUIC_WIRE_API int quic_wire_reset_token_equal(const uint8_t *a,
                                              const uint8_t *b) {
  return a && b ? (int)quic_wire_reset_token_equal_(a, 16, b, 16) : 0;
}

QUIC_WIRE_API uint32_t quic_wire_version_information_read(const uint8_t *value,
                                                          size_t valuelen) {
  return value ? quic_wire_version_information_read_(value, valuelen) : 0;
}

QUIC_WIRE_API uint32_t quic_wire_version_split(const uint8_t *versions,
                                               size_t versionslen) {
  return versions ? quic_wire_version_split_(versions, versionslen) : 0;
}

QUIC_WIRE_API int quic_wire_nonce(const uint8_t *iv, uint64_t number,
                                  uint8_t *nonce) {
  return iv && nonce ? (int)quic_wire_nonce_(iv, 12, number, nonce, 12) : 0;
}

QUIC_WIRE_API size_t quic_wire_reset_write(const uint8_t *unpredictable,
                                           size_t len, const uint8_t *token,
                                           uint8_t *dest, size_t destlen) {
  return unpredictable && token && dest
             ? quic_wire_reset_write_(unpredictable, len, token, 16, dest,
                                      destlen)
             : 0;
}

QUIC_WIRE_API int quic_wire_is_reset(const uint8_t *datagram,
                                     size_t datagramlen, const uint8_t *token) {
  return datagram && token
             ? (int)quic_wire_is_reset_(datagram, datagramlen, token, 16)
             : 0;
}

QUIC_WIRE_API const uint8_t *quic_wire_path_data(const uint8_t *payload,
                                                 size_t payloadlen,
                                                 const quic_wire_frame *frame) {
  return payload && frame &&
                 (frame->kind == QUIC_WIRE_FRAME_PATH_CHALLENGE ||
                  frame->kind == QUIC_WIRE_FRAME_PATH_RESPONSE) &&
                 frame->end <= payloadlen && frame->end >= 8
             ? payload + frame->end - 8
             : NULL;
}

QUIC_WIRE_API int quic_wire_frame_permitted(const quic_wire_frame *frame,
                                            uint32_t packet, uint32_t sender,
                                            uint32_t flags) {
  /* The first number of each frame with a stream is the stream's id. */
  return frame ? quic_wire_frame_permitted_(frame->kind, frame->numbers[0],
                                            packet, sender, flags)
               : QUIC_WIRE_ERR_ARGUMENT;
}

QUIC_WIRE_API uint64_t quic_wire_error_type(const quic_wire_frame *frame) {
  return frame ? frame->numbers[0] : QUIC_WIRE_NO_TYPE;
}

QUIC_WIRE_API int quic_wire_frame_write(const quic_wire_frame *frame,
                                        const uint8_t *data, size_t datalen,
                                        uint32_t flags, uint8_t *dest,
                                        size_t destlen, size_t *written) {
  size_t unused;
  if (!frame || (!dest && destlen))
    return QUIC_WIRE_ERR_ARGUMENT;
  if (!data) {
    if (datalen && frame->datalen)
      return QUIC_WIRE_ERR_ARGUMENT;
    data = (const uint8_t *)quic_wire_nothing_();
    datalen = 0;
  }
  if (!dest)
    dest = (uint8_t *)quic_wire_nothing_();
  return quic_wire_frame_write_(frame, data, datalen, flags, dest, destlen,
                                written ? written : &unused);
}

QUIC_WIRE_API int quic_wire_frame_len(const quic_wire_frame *frame,
                                      const uint8_t *data, size_t datalen,
                                      uint32_t flags, size_t *len) {
  /* Every frame has at least one byte, so none fits without room. */
  int answer =
      len ? quic_wire_frame_write(frame, data, datalen, flags, NULL, 0, len)
          : QUIC_WIRE_ERR_ARGUMENT;
  return answer == QUIC_WIRE_ERR_NOBUF ? QUIC_WIRE_OK : answer;
}

QUIC_WIRE_API size_t quic_wire_frame_write_fault(const quic_wire_frame *frame,
                                                 const uint8_t *data,
                                                 size_t datalen,
                                                 uint32_t flags) {
  if (!frame)
    return QUIC_WIRE_NO_FIELD;
  if (!data) {
    data = (const uint8_t *)quic_wire_nothing_();
    datalen = 0;
  }
  return quic_wire_frame_write_fault_(frame, data, datalen, flags);
}

QUIC_WIRE_API const uint8_t *quic_wire_dcid_read(const uint8_t *packet,
                                                 size_t packetlen,
                                                 size_t cidlen,
                                                 size_t *dcidlen) {
  size_t place;
  if (!packet || !dcidlen)
    return NULL;
  place = quic_wire_dcid_read_(packet, packetlen, cidlen, dcidlen);
  return place ? packet + place : NULL;
}

QUIC_WIRE_API const uint8_t *quic_wire_dcid(const uint8_t *packet,
                                            const quic_wire_header *header) {
  return packet && header
             ? packet + (header->first & QUIC_WIRE_BIT_LONG ? 6 : 1)
             : NULL;
}

QUIC_WIRE_API const uint8_t *quic_wire_scid(const uint8_t *packet,
                                            const quic_wire_header *header) {
  return packet && header ? packet + 7 + header->dcidlen
                          : NULL; /* of a long header */
}

QUIC_WIRE_API const uint8_t *quic_wire_sample(const uint8_t *packet,
                                              size_t packetlen, size_t number,
                                              size_t samplelen) {
  return packet && packetlen >= number && packetlen - number >= 4 &&
                 packetlen - number - 4 >= samplelen
             ? packet + number + 4
             : NULL;
}

QUIC_WIRE_API size_t quic_wire_varint_read(const uint8_t *bytes, size_t len,
                                           uint64_t *value) {
  if (!bytes || !value)
    return 0;
  if (len && bytes[0] < 64) { /* one byte, whose two highest bits are 0 */
    *value = bytes[0];
    return 1;
  }
  return quic_wire_varint_read_(bytes, len, value);
}

QUIC_WIRE_API size_t quic_wire_header_len(const quic_wire_header_fields *fields,
                                          size_t dcidlen, size_t scidlen,
                                          size_t tokenlen) {
  return !fields ? 0
         : fields->kind == QUIC_WIRE_PACKET_1RTT
             ? 1 + dcidlen + fields->numberlen
             : 7 + dcidlen + scidlen +
                   (fields->kind <= QUIC_WIRE_PACKET_HANDSHAKE
                        ? (size_t)fields->lengthlen + fields->numberlen
                        : 0) +
                   (fields->kind == QUIC_WIRE_PACKET_INITIAL
                        ? tokenlen + (tokenlen < 64        ? 1
                                      : tokenlen < 16384   ? 2
                                      : tokenlen < 1 << 30 ? 4
                                                           : 8)
                        : 0);
}

QUIC_WIRE_API int64_t quic_wire_header_write(
    const quic_wire_header_fields *fields, const uint8_t *dcid, size_t dcidlen,
    const uint8_t *scid, size_t scidlen, const uint8_t *token, size_t tokenlen,
    uint8_t *dest, size_t destlen) {
  static const uint8_t none = 0;
  if (!fields || (!dcid && dcidlen) || !dest)
    return QUIC_WIRE_ERR_ARGUMENT;
  if (!dcid)
    dcid = &none;
  if (fields->kind == QUIC_WIRE_PACKET_1RTT)
    return quic_wire_short_write_(fields, dcid, dcidlen, dest, destlen);
  if (fields->kind != QUIC_WIRE_PACKET_INITIAL)
    tokenlen = 0;
  if ((!scid && scidlen) || (!token && tokenlen))
    return QUIC_WIRE_ERR_ARGUMENT;
  return quic_wire_header_write_(fields, dcid, dcidlen, scid ? scid : &none,
                                 scidlen, token ? token : &none, tokenlen, dest,
                                 destlen);
}

QUIC_WIRE_API size_t
quic_wire_header_write_fault(const quic_wire_header_fields *fields,
                             size_t dcidlen, size_t scidlen, size_t tokenlen) {
  return fields
             ? quic_wire_header_write_fault_(fields, dcidlen, scidlen, tokenlen)
             : QUIC_WIRE_NO_FIELD;
}

QUIC_WIRE_API int quic_wire_params_default(quic_wire_params *params,
                                           size_t size) {
  return quic_wire_params_read(QUIC_WIRE_SIDE_CLIENT, 0, NULL, 0, params, size,
                               NULL);
}

QUIC_WIRE_API int quic_wire_set_contains(const quic_wire_range *runs,
                                         size_t count, uint64_t number) {
  if (!runs && count)
    return QUIC_WIRE_ERR_ARGUMENT;
  return quic_wire_set_contains_(
      runs ? runs : (const quic_wire_range *)quic_wire_nothing_(), count, count,
      number);
}

QUIC_WIRE_API int quic_wire_set_within(const quic_wire_range *runs,
                                       size_t count, uint64_t start,
                                       uint64_t end, quic_wire_range *dest,
                                       size_t room, size_t *stored) {
  if ((!runs && count) || (!dest && room) || !stored)
    return QUIC_WIRE_ERR_ARGUMENT;
  return quic_wire_set_within_(
      runs ? runs : (const quic_wire_range *)quic_wire_nothing_(), count, count,
      start, end, dest ? dest : (quic_wire_range *)quic_wire_nothing_(), room,
      stored);
}

QUIC_WIRE_API int quic_wire_ack_write(uint64_t delay,
                                      const quic_wire_range *runs, size_t count,
                                      const uint64_t *counts, uint8_t *dest,
                                      size_t destlen, size_t *written) {
  size_t unused;
  if ((!runs && count) || (!dest && destlen))
    return QUIC_WIRE_ERR_ARGUMENT;
  return quic_wire_ack_write_(
      delay, runs ? runs : (const quic_wire_range *)quic_wire_nothing_(), count,
      count, counts ? counts : (const uint64_t *)quic_wire_nothing_(),
      counts ? 3 : 0, dest ? dest : (uint8_t *)quic_wire_nothing_(), destlen,
      written ? written : &unused);
}

#endif /* QUIC_WIRE_INLINE_H */
