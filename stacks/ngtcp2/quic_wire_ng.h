/* What ngtcp2 calls from quic_wire that its own headers don't declare. */
#ifndef QUIC_WIRE_NG_H
#define QUIC_WIRE_NG_H

#include <string.h>

#include "quic_wire_near.h"
#include "quic_wire_ng_releases.h"

/* The packet number that is expected after the greatest received one, or -1:
 * after the last number there is none, and late ones still come. */
static inline uint64_t quic_wire_ng_expected(int64_t largest) {
  return (uint64_t)(largest < NGTCP2_MAX_PKT_NUM ? largest + 1 : largest);
}

/*
 * Removes protection from the header of |pkt|, whose packet number begins at
 * |place|: the header is copied to |header|, which has room for |place| + 4
 * bytes, and its protection removed there with the mask that |hp_mask| makes.
 * |hd| gets the whole number relative to |largest|, the greatest one received
 * (-1: none), its length and the key phase.
 *
 * Returns where the payload begins; NGTCP2_ERR_PROTO if the packet is too short
 * for a sample; NGTCP2_ERR_CALLBACK_FAILURE.
 */
static inline ngtcp2_ssize
quic_wire_ng_unprotect(ngtcp2_pkt_hd *hd, uint8_t *header, const uint8_t *pkt,
                       size_t pktlen, size_t place, int64_t largest,
                       ngtcp2_hp_mask hp_mask, const ngtcp2_crypto_cipher *hp,
                       const ngtcp2_crypto_cipher_ctx *hp_ctx) {
  uint8_t mask[NGTCP2_HP_SAMPLELEN];
  const uint8_t *sample =
      quic_wire_sample(pkt, pktlen, place, NGTCP2_HP_SAMPLELEN);
  uint64_t number;
  int len;

  if (!sample) {
    return NGTCP2_ERR_PROTO;
  }
  if (hp_mask(mask, hp, hp_ctx, sample) != 0) {
    return NGTCP2_ERR_CALLBACK_FAILURE;
  }
  /* The sample is after these bytes.  quic_wire_unprotect_copy does both, and
   * takes longer. */
  memcpy(header, pkt, place + 4);
  len = quic_wire_unprotect_near(header, place + 4, place, mask,
                                 quic_wire_ng_expected(largest), &number);
  if (len < 0) {
    return NGTCP2_ERR_PROTO;
  }
  if (!(header[0] & QUIC_WIRE_BIT_LONG) &&
      (header[0] & QUIC_WIRE_BIT_KEY_PHASE)) {
    hd->flags |= NGTCP2_PKT_FLAG_KEY_PHASE;
  }
  hd->pkt_num = (int64_t)number;
  hd->pkt_numlen = (size_t)len;
  return (ngtcp2_ssize)place + len;
}

#endif
