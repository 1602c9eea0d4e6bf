/*
 * ngtcp2's readers and writers of packet headers and its packet numbers, with
 * quic_wire.h and quic_wire_near.h.
 */
#include <string.h>

#include "ngtcp2_cid.h"
#include "quic_wire_ng.h"

/* The versions that ngtcp2 accepts: now 1 and 2; 0.12.1 accepts version 1 and
 * its drafts, which have its form, and a draft of version 2. */
#if QUIC_WIRE_NG_1
static const uint32_t versions[] = {NGTCP2_PROTO_VER_V1, NGTCP2_PROTO_VER_V2};
#else
static const uint32_t versions[] = {NGTCP2_PROTO_VER_V1, 0xff00001du,
                                    0xff00001eu, 0xff00001fu, 0xff000020u};
#endif

/* ---- Read */

#if !QUIC_WIRE_NG_1
/*
 * The library doesn't know drafts of version 2: of their headers it returns
 * only the ids.  Reads what follows them; 0, or -1 if they end within it.
 */
static int read_draft(quic_wire_header *h, const uint8_t *pkt, size_t pktlen) {
  static const uint8_t kinds[] = {
      QUIC_WIRE_PACKET_RETRY, QUIC_WIRE_PACKET_INITIAL, QUIC_WIRE_PACKET_0RTT,
      QUIC_WIRE_PACKET_HANDSHAKE};
  uint64_t len = 0;
  size_t at = h->header_end, n;

  if (h->dcidlen > NGTCP2_MAX_CIDLEN || h->scidlen > NGTCP2_MAX_CIDLEN) {
    return -1;
  }
  h->kind = kinds[h->first >> 4 & 3];
  if (h->kind == QUIC_WIRE_PACKET_INITIAL) {
    n = quic_wire_varint_read(pkt + at, pktlen - at, &len);
    if (!n || pktlen - at - n < len) {
      return -1;
    }
    h->token = (uint32_t)(at + n);
    h->tokenlen = (uint32_t)len;
    at += n + (size_t)len;
  }
  if (h->kind != QUIC_WIRE_PACKET_RETRY) {
    n = quic_wire_varint_read(pkt + at, pktlen - at, &h->len);
    if (!n) {
      return -1;
    }
    at += n;
  }
  h->header_end = (uint32_t)at;
  return 0;
}
#endif

ngtcp2_ssize ngtcp2_pkt_decode_hd_long(ngtcp2_pkt_hd *dest, const uint8_t *pkt,
                                       size_t pktlen) {
  static const uint8_t types[] = {
      NGTCP2_PKT_INITIAL, NGTCP2_PKT_0RTT, NGTCP2_PKT_HANDSHAKE,
      NGTCP2_PKT_RETRY,   NGTCP2_PKT_1RTT, NGTCP2_PKT_VERSION_NEGOTIATION};
  quic_wire_header h;
  int64_t answer = quic_wire_header_read(
      pkt, pktlen, 0, versions, sizeof(versions) / sizeof(versions[0]),
      QUIC_WIRE_READ_GREASED_BIT, &h);

#if !QUIC_WIRE_NG_1
  if (answer == QUIC_WIRE_ERR_PACKET_VERSION &&
      h.version == NGTCP2_PROTO_VER_V2_DRAFT) {
    answer = read_draft(&h, pkt, pktlen);
  }
#endif
  /* ngtcp2 checks itself whether a packet is cut off. */
  if ((answer < 0 && answer != QUIC_WIRE_ERR_PACKET_CUT) ||
      h.kind == QUIC_WIRE_PACKET_1RTT) {
    return NGTCP2_ERR_INVALID_ARGUMENT;
  }
  dest->type = types[h.kind];
  dest->flags = NGTCP2_PKT_FLAG_NONE;
  if (h.kind != QUIC_WIRE_PACKET_VERSION_NEGOTIATION) {
    dest->flags |= NGTCP2_PKT_FLAG_LONG_FORM;
    if (!(h.first & QUIC_WIRE_BIT_FIXED)) {
      dest->flags |= NGTCP2_PKT_FLAG_FIXED_BIT_CLEAR;
    }
  }
  ngtcp2_cid_init(&dest->dcid, quic_wire_dcid(pkt, &h), h.dcidlen);
  ngtcp2_cid_init(&dest->scid, quic_wire_scid(pkt, &h), h.scidlen);
  dest->version = h.version;
  dest->pkt_num = 0;
  dest->pkt_numlen = 0;
  NG_TOKEN(dest) = NULL;
  NG_TOKENLEN(dest) = 0;
  if (h.kind == QUIC_WIRE_PACKET_INITIAL && h.tokenlen) {
    NG_TOKEN(dest) = (uint8_t *)pkt + h.token;
    NG_TOKENLEN(dest) = h.tokenlen;
  }
  dest->len = (size_t)h.len;
  return (ngtcp2_ssize)h.header_end;
}

ngtcp2_ssize ngtcp2_pkt_decode_hd_short(ngtcp2_pkt_hd *dest, const uint8_t *pkt,
                                        size_t pktlen, size_t dcidlen) {
  size_t end = quic_wire_short_read_near(pkt, pktlen, (uint32_t)dcidlen);

  if (end == 0) {
    return NGTCP2_ERR_INVALID_ARGUMENT;
  }
  dest->type = NGTCP2_PKT_1RTT;
  dest->flags = pkt[0] & QUIC_WIRE_BIT_FIXED ? NGTCP2_PKT_FLAG_NONE
                                             : NGTCP2_PKT_FLAG_FIXED_BIT_CLEAR;
  ngtcp2_cid_init(&dest->dcid, pkt + 1, dcidlen);
  ngtcp2_cid_zero(&dest->scid);
  dest->version = 0;
  dest->len = 0;
  dest->pkt_num = 0;
  dest->pkt_numlen = 0;
  NG_TOKEN(dest) = NULL;
  NG_TOKENLEN(dest) = 0;
  return (ngtcp2_ssize)end;
}

/* The version and the ids of a packet of any version (RFC 8999): no version is
 * passed, so the library returns only these.  A version negotiation may have
 * longer ids than version 1. */
int ngtcp2_pkt_decode_version_cid(ngtcp2_version_cid *dest, const uint8_t *data,
                                  size_t datalen, size_t short_dcidlen) {
  quic_wire_header h;
  int supported;
  int64_t answer;

  if (quic_wire_short_read_near(data, datalen, (uint32_t)short_dcidlen)) {
    dest->version = 0;
    dest->dcid = data + 1;
    dest->dcidlen = short_dcidlen;
    dest->scid = NULL;
    dest->scidlen = 0;
    return 0;
  }
  answer = quic_wire_header_read(data, datalen, (uint32_t)short_dcidlen, NULL,
                                 0, QUIC_WIRE_READ_GREASED_BIT, &h);
  if (answer == QUIC_WIRE_ERR_PACKET_CID) {
    answer = quic_wire_negotiation_read(data, datalen, &h);
  }
  if (answer < 0 && answer != QUIC_WIRE_ERR_PACKET_VERSION) {
    return NGTCP2_ERR_INVALID_ARGUMENT;
  }
  dest->version = h.version;
  dest->dcid = quic_wire_dcid(data, &h);
  dest->dcidlen = h.dcidlen;
  dest->scid = quic_wire_scid(data, &h);
  dest->scidlen = h.scidlen;
  if (h.version == 0) {
    return 0;
  }
  supported = ngtcp2_is_supported_version(h.version);
  if (supported) {
    return h.dcidlen > NGTCP2_MAX_CIDLEN || h.scidlen > NGTCP2_MAX_CIDLEN
               ? NGTCP2_ERR_INVALID_ARGUMENT
               : 0;
  }
  return datalen < NGTCP2_MAX_UDP_PAYLOAD_SIZE ? NGTCP2_ERR_INVALID_ARGUMENT
                                               : NGTCP2_ERR_VERSION_NEGOTIATION;
}

/* ---- Written */

/* One struct for all kinds: fields that a kind lacks are ignored. */
static quic_wire_header_fields fields_of(const ngtcp2_pkt_hd *hd,
                                         uint8_t kind) {
  quic_wire_header_fields fields = {.kind = kind,
                                    .numberlen = (uint8_t)hd->pkt_numlen,
                                    .lengthlen = NGTCP2_PKT_LENGTHLEN,
                                    .version = hd->version,
                                    .number = (uint64_t)hd->pkt_num};
  if (hd->flags & NGTCP2_PKT_FLAG_FIXED_BIT_CLEAR) {
    fields.flags |= QUIC_WIRE_CLEAR_FIXED_BIT;
  }
  if (hd->flags & NGTCP2_PKT_FLAG_KEY_PHASE) {
    fields.flags |= QUIC_WIRE_BIT_KEY_PHASE;
  }
  return fields;
}

static uint8_t kind_of(uint8_t type) {
  switch (type) {
  case NGTCP2_PKT_INITIAL:
    return QUIC_WIRE_PACKET_INITIAL;
  case NGTCP2_PKT_0RTT:
    return QUIC_WIRE_PACKET_0RTT;
  case NGTCP2_PKT_HANDSHAKE:
    return QUIC_WIRE_PACKET_HANDSHAKE;
  default:
    return QUIC_WIRE_PACKET_RETRY;
  }
}

ngtcp2_ssize ngtcp2_pkt_encode_hd_long(uint8_t *out, size_t outlen,
                                       const ngtcp2_pkt_hd *hd) {
  quic_wire_header_fields fields = fields_of(hd, kind_of(hd->type));
  int64_t n = quic_wire_header_write(
      &fields, hd->dcid.data, hd->dcid.datalen, hd->scid.data, hd->scid.datalen,
      NG_TOKEN(hd), NG_TOKENLEN(hd), out, outlen);
  if (n < 0) {
    return n == QUIC_WIRE_ERR_NOBUF ? NGTCP2_ERR_NOBUF
                                    : NGTCP2_ERR_INVALID_ARGUMENT;
  }
#if !QUIC_WIRE_NG_1
  if (hd->version == NGTCP2_PROTO_VER_V2_DRAFT) {
    /* In the form of version 2, which the library writes only for version 2. */
    out[0] = (uint8_t)((out[0] & ~NGTCP2_LONG_TYPE_MASK) |
                       ngtcp2_pkt_versioned_type(hd->version, hd->type) << 4);
  }
#endif
  if (hd->len) { /* known already; else ngtcp2_ppe_final sets it */
    quic_wire_varint_write(hd->len, NGTCP2_PKT_LENGTHLEN,
                           out + n - hd->pkt_numlen - NGTCP2_PKT_LENGTHLEN,
                           NGTCP2_PKT_LENGTHLEN);
  }
  return (ngtcp2_ssize)n;
}

ngtcp2_ssize ngtcp2_pkt_encode_hd_short(uint8_t *out, size_t outlen,
                                        const ngtcp2_pkt_hd *hd) {
  quic_wire_header_fields fields = fields_of(hd, QUIC_WIRE_PACKET_1RTT);
  int64_t n = quic_wire_header_write(&fields, hd->dcid.data, hd->dcid.datalen,
                                     NULL, 0, NULL, 0, out, outlen);
  if (n < 0) {
    return n == QUIC_WIRE_ERR_NOBUF ? NGTCP2_ERR_NOBUF
                                    : NGTCP2_ERR_INVALID_ARGUMENT;
  }
  return (ngtcp2_ssize)n;
}

ngtcp2_ssize ngtcp2_pkt_write_version_negotiation(
    uint8_t *dest, size_t destlen, uint8_t unused_random, const uint8_t *dcid,
    size_t dcidlen, const uint8_t *scid, size_t scidlen, const uint32_t *sv,
    size_t nsv) {
  uint8_t fixed = QUIC_WIRE_NG_1 ? QUIC_WIRE_BIT_FIXED : 0;
  /* The bits that differ from a first byte with only the fixed bit. */
  uint8_t flags = (uint8_t)((unused_random | fixed) ^ QUIC_WIRE_BIT_FIXED);
  size_t n;
  int answer = quic_wire_negotiation_write(flags, dcid, dcidlen, scid, scidlen,
                                           sv, nsv, dest, destlen, &n);
  if (answer != 0) {
    return answer == QUIC_WIRE_ERR_NOBUF ? NGTCP2_ERR_NOBUF
                                         : NGTCP2_ERR_INVALID_ARGUMENT;
  }
  return (ngtcp2_ssize)n;
}

/* ---- Packet numbers */

/* |n| is the length of what is written: in 0.12.1 bits, later bytes. */
int64_t ngtcp2_pkt_adjust_pkt_num(int64_t max_pkt_num, int64_t pkt_num,
                                  size_t n) {
  uint32_t len = (uint32_t)(QUIC_WIRE_NG_1 ? n : n / 8);
  return (int64_t)quic_wire_number_expand_near(
      (uint64_t)pkt_num, len, quic_wire_ng_expected(max_pkt_num));
}
