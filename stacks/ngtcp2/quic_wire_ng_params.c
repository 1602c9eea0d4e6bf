/* ngtcp2's transport parameters, with quic_wire.h and quic_wire_near.h. */
#include <string.h>

#include "ngtcp2_cid.h"
#include "ngtcp2_net.h"
#include "quic_wire_ng.h"

/* ---- Read */

#define HAS(BIT) ((w->present & QUIC_WIRE_HAS_##BIT) != 0)

static void address_of(ngtcp2_preferred_addr *dest, const quic_wire_params *w) {
  if ((dest->ipv4_present = HAS(PREFERRED_V4))) {
    dest->ipv4.sin_family = AF_INET;
    dest->ipv4.sin_port = ngtcp2_htons(w->preferred_v4_port);
    memcpy(&dest->ipv4.sin_addr, w->preferred_v4, 4);
  }
  if ((dest->ipv6_present = HAS(PREFERRED_V6))) {
    dest->ipv6.sin6_family = AF_INET6;
    dest->ipv6.sin6_port = ngtcp2_htons(w->preferred_v6_port);
    memcpy(&dest->ipv6.sin6_addr, w->preferred_v6, 16);
  }
  ngtcp2_cid_init(&dest->cid, w->preferred_cid, w->preferred_cidlen);
  memcpy(dest->stateless_reset_token, w->preferred_token, 16);
}

static uint64_t timeout_of(uint64_t milliseconds) {
#if QUIC_WIRE_NG_1_24 /* a timeout that is too long doesn't wrap */
  if (milliseconds > UINT64_MAX / NGTCP2_MILLISECONDS) {
    milliseconds = UINT64_MAX;
  }
#endif
  return milliseconds * NGTCP2_MILLISECONDS;
}

static void params_of(ngtcp2_transport_params *dest,
                      const quic_wire_params *w) {
  dest->initial_max_stream_data_bidi_local =
      w->initial_max_stream_data_bidi_local;
  dest->initial_max_stream_data_bidi_remote =
      w->initial_max_stream_data_bidi_remote;
  dest->initial_max_stream_data_uni = w->initial_max_stream_data_uni;
  dest->initial_max_data = w->initial_max_data;
  dest->initial_max_streams_bidi = w->initial_max_streams_bidi;
  dest->initial_max_streams_uni = w->initial_max_streams_uni;
  dest->max_idle_timeout = timeout_of(w->max_idle_timeout);
  dest->max_udp_payload_size = w->max_udp_payload_size;
  dest->active_connection_id_limit = w->active_connection_id_limit;
  dest->ack_delay_exponent = w->ack_delay_exponent;
  dest->max_ack_delay = w->max_ack_delay * NGTCP2_MILLISECONDS;
  dest->max_datagram_frame_size = w->max_datagram_frame_size;
  dest->disable_active_migration = HAS(DISABLE_ACTIVE_MIGRATION);
  dest->grease_quic_bit = HAS(GREASE_QUIC_BIT);
  dest->stateless_reset_token_present = HAS(STATELESS_RESET_TOKEN);
  memcpy(dest->stateless_reset_token, w->stateless_reset_token, 16);
  dest->retry_scid_present = HAS(RETRY_SRC_CID);
  ngtcp2_cid_init(&dest->retry_scid, w->retry_src_cid, w->retry_src_cidlen);
  ngtcp2_cid_init(&dest->initial_scid, w->initial_src_cid,
                  w->initial_src_cidlen);
  ngtcp2_cid_init(&dest->original_dcid, w->original_dst_cid,
                  w->original_dst_cidlen);
  dest->preferred_addr_present = HAS(PREFERRED_ADDRESS);
  if (HAS(PREFERRED_ADDRESS)) {
    address_of(&dest->preferred_addr, w);
  }
#if QUIC_WIRE_NG_1
  dest->initial_scid_present = HAS(INITIAL_SRC_CID);
  dest->original_dcid_present = HAS(ORIGINAL_DST_CID);
#endif
}

/* version_information (RFC 9368), for which quic_wire_params has no field. */
static int versions_of(ngtcp2_transport_params *dest, const uint8_t *value,
                       size_t len) {
  uint32_t version;
  size_t i;

  if (len < 4 || len & 3) {
    return NGTCP2_ERR_MALFORMED_TRANSPORT_PARAM;
  }
  for (i = 0; i < len; i += 4) {
    ngtcp2_get_uint32be(&version, value + i);
    if (version == 0) {
      return NGTCP2_ERR_MALFORMED_TRANSPORT_PARAM;
    }
  }
  ngtcp2_get_uint32be(&dest->version_info.chosen_version, value);
  if (len > 4) {
    dest->version_info.available_versions = (uint8_t *)value + 4;
    dest->version_info.available_versionslen = len - 4;
  }
  dest->version_info_present = 1;
  return 0;
}

/* What |side| reads; |w| says what is there. */
static int read_params(ngtcp2_transport_params *params, quic_wire_params *w,
                       uint32_t side, const uint8_t *data, size_t datalen) {
  quic_wire_param entry;
  size_t at = 0;
  int64_t end;
  int rv;

  memset(params, 0, sizeof(*params));
  if (quic_wire_params_read(side, QUIC_WIRE_READ_ANY_WIDTH, data, datalen, w,
                            sizeof(*w), NULL) != 0) {
    return NGTCP2_ERR_MALFORMED_TRANSPORT_PARAM;
  }
  params_of(params, w);
  while ((end = quic_wire_param_read_near(data + at, datalen - at, &entry)) >
         0) {
    if (entry.id == NGTCP2_TRANSPORT_PARAM_VERSION_INFORMATION) {
      rv = versions_of(params, data + at + entry.value, entry.valuelen);
      if (rv != 0) {
        return rv;
      }
    }
    at += (size_t)end;
  }
  return 0;
}

#if QUIC_WIRE_NG_1
/* The caller doesn't say whose parameters they are, and itself rejects what a
 * client may not send. So they are read as a server's, which may send all. */
int ngtcp2_transport_params_decode_versioned(int transport_params_version,
                                             ngtcp2_transport_params *dest,
                                             const uint8_t *data,
                                             size_t datalen) {
  quic_wire_params w;
  (void)transport_params_version; /* there is one */

  return read_params(dest, &w, QUIC_WIRE_SIDE_CLIENT, data, datalen);
}
#else
int ngtcp2_decode_transport_params_versioned(
    int transport_params_version, ngtcp2_transport_params *params,
    ngtcp2_transport_params_type exttype, const uint8_t *data, size_t datalen) {
  quic_wire_params w;
  int client = exttype == NGTCP2_TRANSPORT_PARAMS_TYPE_ENCRYPTED_EXTENSIONS;
  int rv;
  (void)transport_params_version;

  if (datalen == 0) {
    return NGTCP2_ERR_REQUIRED_TRANSPORT_PARAM;
  }
  rv = read_params(params, &w,
                   client ? QUIC_WIRE_SIDE_CLIENT : QUIC_WIRE_SIDE_SERVER, data,
                   datalen);
  if (rv != 0) {
    return rv;
  }
  if (!(w.present & QUIC_WIRE_HAS_INITIAL_SRC_CID) ||
      (client && !(w.present & QUIC_WIRE_HAS_ORIGINAL_DST_CID))) {
    return NGTCP2_ERR_REQUIRED_TRANSPORT_PARAM;
  }
  return 0;
}
#endif

/* ---- Written */

static void cid_to(uint32_t *len, uint8_t *bytes, const ngtcp2_cid *cid) {
  *len = (uint32_t)cid->datalen;
  memcpy(bytes, cid->data, cid->datalen);
}

static void address_to(quic_wire_params *w, const ngtcp2_preferred_addr *a) {
  w->present |= QUIC_WIRE_HAS_PREFERRED_ADDRESS;
  if (a->ipv4_present) {
    w->present |= QUIC_WIRE_HAS_PREFERRED_V4;
    w->preferred_v4_port = ngtcp2_ntohs(a->ipv4.sin_port);
    memcpy(w->preferred_v4, &a->ipv4.sin_addr, 4);
  }
  if (a->ipv6_present) {
    w->present |= QUIC_WIRE_HAS_PREFERRED_V6;
    w->preferred_v6_port = ngtcp2_ntohs(a->ipv6.sin6_port);
    memcpy(w->preferred_v6, &a->ipv6.sin6_addr, 16);
  }
  cid_to(&w->preferred_cidlen, w->preferred_cid, &a->cid);
  memcpy(w->preferred_token, a->stateless_reset_token, 16);
}

/* What only a server sends. */
static void server_to(quic_wire_params *w, const ngtcp2_transport_params *p) {
  if (NG_HAS_CID(p, original_dcid)) {
    w->present |= QUIC_WIRE_HAS_ORIGINAL_DST_CID;
    cid_to(&w->original_dst_cidlen, w->original_dst_cid, &p->original_dcid);
  }
  if (p->stateless_reset_token_present) {
    w->present |= QUIC_WIRE_HAS_STATELESS_RESET_TOKEN;
    memcpy(w->stateless_reset_token, p->stateless_reset_token, 16);
  }
  if (p->retry_scid_present) {
    w->present |= QUIC_WIRE_HAS_RETRY_SRC_CID;
    cid_to(&w->retry_src_cidlen, w->retry_src_cid, &p->retry_scid);
  }
  if (p->preferred_addr_present) {
    address_to(w, &p->preferred_addr);
  }
}

static void params_to(quic_wire_params *w, const ngtcp2_transport_params *p) {
  memset(w, 0, sizeof(*w));
  if (NG_HAS_CID(p, initial_scid)) {
    w->present |= QUIC_WIRE_HAS_INITIAL_SRC_CID;
    cid_to(&w->initial_src_cidlen, w->initial_src_cid, &p->initial_scid);
  }
  w->max_idle_timeout = p->max_idle_timeout / NGTCP2_MILLISECONDS;
  w->max_udp_payload_size = p->max_udp_payload_size;
  w->initial_max_data = p->initial_max_data;
  w->initial_max_stream_data_bidi_local = p->initial_max_stream_data_bidi_local;
  w->initial_max_stream_data_bidi_remote =
      p->initial_max_stream_data_bidi_remote;
  w->initial_max_stream_data_uni = p->initial_max_stream_data_uni;
  w->initial_max_streams_bidi = p->initial_max_streams_bidi;
  w->initial_max_streams_uni = p->initial_max_streams_uni;
  w->ack_delay_exponent = p->ack_delay_exponent;
  w->max_ack_delay = p->max_ack_delay / NGTCP2_MILLISECONDS;
  w->active_connection_id_limit =
      p->active_connection_id_limit ? p->active_connection_id_limit
                                    : NGTCP2_DEFAULT_ACTIVE_CONNECTION_ID_LIMIT;
  if (p->disable_active_migration) {
    w->present |= QUIC_WIRE_HAS_DISABLE_ACTIVE_MIGRATION;
  }
  if (p->grease_quic_bit) {
    w->present |= QUIC_WIRE_HAS_GREASE_QUIC_BIT;
  }
  if (p->max_datagram_frame_size) {
    w->present |= QUIC_WIRE_HAS_MAX_DATAGRAM_FRAME_SIZE;
    w->max_datagram_frame_size = p->max_datagram_frame_size;
  }
}

/* Writes version_information up to its other versions, which are elsewhere, or
 * nothing if there is none; returns how many bytes. */
static size_t put_versions(uint8_t out[64], const ngtcp2_transport_params *p) {
  size_t len = 4 + p->version_info.available_versionslen, at;

  if (!p->version_info_present) {
    return 0;
  }
  at = quic_wire_varint_write(NGTCP2_TRANSPORT_PARAM_VERSION_INFORMATION, 0,
                              out, 64);
  at += quic_wire_varint_write(len, 0, out + at, 64 - at);
  ngtcp2_put_uint32be(out + at, p->version_info.chosen_version);
  return at + 4;
}

/* Writes what |side| sends. */
static ngtcp2_ssize write_params(uint8_t *dest, size_t destlen, uint32_t side,
                                 const ngtcp2_transport_params *params) {
  quic_wire_params w;
  uint8_t front[64]; /* of version_information, except the other versions */
  size_t frontlen = put_versions(front, params);
  size_t otherlen = frontlen ? params->version_info.available_versionslen : 0;
  size_t more = frontlen + otherlen, written = 0;
  int rv;

  params_to(&w, params);
  if (side == QUIC_WIRE_SIDE_SERVER) {
    server_to(&w, params);
  }
  rv = quic_wire_params_write(side, &w, sizeof(w), dest,
                              destlen < more ? 0 : destlen - more, &written);
  if (rv != QUIC_WIRE_OK && rv != QUIC_WIRE_ERR_NOBUF) {
    return NGTCP2_ERR_INVALID_ARGUMENT;
  }
  if (dest == NULL && destlen == 0) {
    return (ngtcp2_ssize)(written + more);
  }
  if (rv != 0 || destlen < more) {
    return NGTCP2_ERR_NOBUF;
  }
  memcpy(dest + written, front, frontlen);
  if (otherlen) {
    memcpy(dest + written + frontlen, params->version_info.available_versions,
           otherlen);
  }
  return (ngtcp2_ssize)(written + more);
}

#if QUIC_WIRE_NG_1
/* The caller doesn't say whose they are: a server may send all. */
ngtcp2_ssize ngtcp2_transport_params_encode_versioned(
    uint8_t *dest, size_t destlen, int transport_params_version,
    const ngtcp2_transport_params *params) {
  (void)transport_params_version; /* there is one */

  return write_params(dest, destlen, QUIC_WIRE_SIDE_SERVER, params);
}
#else
ngtcp2_ssize ngtcp2_encode_transport_params_versioned(
    uint8_t *dest, size_t destlen, ngtcp2_transport_params_type exttype,
    int transport_params_version, const ngtcp2_transport_params *params) {
  (void)transport_params_version;

  switch (exttype) {
  case NGTCP2_TRANSPORT_PARAMS_TYPE_CLIENT_HELLO:
    return write_params(dest, destlen, QUIC_WIRE_SIDE_CLIENT, params);
  case NGTCP2_TRANSPORT_PARAMS_TYPE_ENCRYPTED_EXTENSIONS:
    return write_params(dest, destlen, QUIC_WIRE_SIDE_SERVER, params);
  default:
    return NGTCP2_ERR_INVALID_ARGUMENT;
  }
}
#endif
