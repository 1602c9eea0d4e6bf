/*
 * What differs between releases of ngtcp2, with one name for all: that of 1.11,
 * if it has one.
 */
#ifndef QUIC_WIRE_NG_RELEASES_H
#define QUIC_WIRE_NG_RELEASES_H

#include <ngtcp2/ngtcp2.h>

#define QUIC_WIRE_NG_1 (NGTCP2_VERSION_NUM >= 0x010000)
#define QUIC_WIRE_NG_1_24 (NGTCP2_VERSION_NUM >= 0x011800)

#if QUIC_WIRE_NG_1
#  include "ngtcp2_transport_params.h"
#else
#  include "ngtcp2_crypto.h"
#endif
#include "ngtcp2_conv.h"
#include "ngtcp2_pkt.h"

/* The frame CRYPTO; an ACK to write; the token of an Initial header and of
 * NEW_TOKEN. */
#if QUIC_WIRE_NG_1
typedef ngtcp2_stream quic_wire_ng_crypto;
typedef const ngtcp2_ack quic_wire_ng_ack_written;
#  define NG_TOKEN(OWNER) ((OWNER)->token)
#  define NG_TOKENLEN(OWNER) ((OWNER)->tokenlen)
#else
typedef ngtcp2_crypto quic_wire_ng_crypto;
typedef ngtcp2_ack quic_wire_ng_ack_written;
#  define NG_TOKEN(OWNER) ((OWNER)->token.base)
#  define NG_TOKENLEN(OWNER) ((OWNER)->token.len)
#endif

/* Where the vector of a frame's data is, and an ACK's ranges: in the frame; in
 * 1.24 in an argument beside it, which NG_BESIDE passes. The token of
 * NEW_CONNECTION_ID. */
#if QUIC_WIRE_NG_1_24
#  define NG_BESIDE(ROOM) ROOM,
#  define NG_PLACE(FIELD, ROOM) ((FIELD) = (ROOM))
#  define NG_RESET_TOKEN(OWNER) ((OWNER)->token.data)
#  define ngtcp2_pkt_decode_frame ngtcp2_frame_decoder_decode
#else
#  define NG_BESIDE(ROOM)
#  define NG_PLACE(FIELD, ROOM) (FIELD)
#  define NG_RESET_TOKEN(OWNER) ((OWNER)->stateless_reset_token)
#endif

/* Whether an id is among transport parameters, which 0.12.1 always has. */
#if QUIC_WIRE_NG_1
#  define NG_HAS_CID(PARAMS, CID) ((PARAMS)->CID##_present)
#else
#  define NG_HAS_CID(PARAMS, CID) 1
#endif

#if !QUIC_WIRE_NG_1
#  define ngtcp2_get_uint32be ngtcp2_get_uint32
#  define ngtcp2_get_uint64be ngtcp2_get_uint64
#  define available_versions other_versions
#  define available_versionslen other_versionslen
#  define preferred_addr preferred_address
#  define preferred_addr_present preferred_address_present
#  define NGTCP2_TRANSPORT_PARAM_VERSION_INFORMATION                           \
    NGTCP2_TRANSPORT_PARAM_VERSION_INFORMATION_DRAFT
#endif

#endif
