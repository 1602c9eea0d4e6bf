/*
 * OpenSSL's readers and writers of QUIC packet headers, with quic_wire.h and
 * quic_wire_near.h. ssl/quic/quic_wire_pkt.c includes this file in place of its
 * own, after hdr_generate_mask.
 */
#define QUIC_WIRE_INLINE
#include "quic_wire_near.h"

#if defined(__GNUC__)
#define QUIC_WIRE_NOINLINE __attribute__((__noinline__))
#else
#define QUIC_WIRE_NOINLINE
#endif

/* OpenSSL's types of packets for the library's kinds, and the reverse. */
static const unsigned char pkt_types[] = {
    [QUIC_WIRE_PACKET_INITIAL] = QUIC_PKT_TYPE_INITIAL,
    [QUIC_WIRE_PACKET_0RTT] = QUIC_PKT_TYPE_0RTT,
    [QUIC_WIRE_PACKET_HANDSHAKE] = QUIC_PKT_TYPE_HANDSHAKE,
    [QUIC_WIRE_PACKET_RETRY] = QUIC_PKT_TYPE_RETRY,
    [QUIC_WIRE_PACKET_1RTT] = QUIC_PKT_TYPE_1RTT,
    [QUIC_WIRE_PACKET_VERSION_NEGOTIATION] = QUIC_PKT_TYPE_VERSION_NEG
};
static const unsigned char pkt_kinds[] = {
    [QUIC_PKT_TYPE_INITIAL] = QUIC_WIRE_PACKET_INITIAL,
    [QUIC_PKT_TYPE_0RTT] = QUIC_WIRE_PACKET_0RTT,
    [QUIC_PKT_TYPE_HANDSHAKE] = QUIC_WIRE_PACKET_HANDSHAKE,
    [QUIC_PKT_TYPE_RETRY] = QUIC_WIRE_PACKET_RETRY,
    [QUIC_PKT_TYPE_1RTT] = QUIC_WIRE_PACKET_1RTT,
    [QUIC_PKT_TYPE_VERSION_NEG] = QUIC_WIRE_PACKET_VERSION_NEGOTIATION
};

/* ---- Header protection */

int ossl_quic_hdr_protector_decrypt_fields(QUIC_HDR_PROTECTOR *hpr,
    const unsigned char *sample,
    size_t sample_len,
    unsigned char *first_byte,
    unsigned char *pn_bytes)
{
    unsigned char mask[5];
    size_t pn = pn_bytes - first_byte;
    uint64_t number;

    /* Both are in one packet, which has four bytes from |pn_bytes| on. */
    return hdr_generate_mask(hpr, sample, sample_len, mask)
        && quic_wire_unprotect_near(first_byte, pn + 4, pn, mask, 0, &number) > 0;
}

int ossl_quic_hdr_protector_encrypt_fields(QUIC_HDR_PROTECTOR *hpr,
    const unsigned char *sample,
    size_t sample_len,
    unsigned char *first_byte,
    unsigned char *pn_bytes)
{
    unsigned char mask[5];
    size_t pn = pn_bytes - first_byte;

    return hdr_generate_mask(hpr, sample, sample_len, mask)
        && quic_wire_protect(first_byte, pn + 4, pn, mask) > 0;
}

/* ---- Reading headers */

static void set_conn_id(QUIC_CONN_ID *conn_id, const unsigned char *id,
    size_t id_len)
{
    conn_id->id_len = (unsigned char)id_len;
    memcpy(conn_id->id, id, id_len);
}

/*
 * The packet number, which begins at |pn|, with |first| as the first byte, and
 * its payload.  While its length is protected, it is taken to have four bytes.
 */
static ossl_inline int set_pn(QUIC_PKT_HDR *hdr, const unsigned char *pn,
    unsigned char first, int partial)
{
    size_t pn_len = partial ? sizeof(hdr->pn) : (size_t)(first & 3) + 1;

    memset(hdr->pn, 0, sizeof(hdr->pn));
    hdr->pn_len = partial ? 0 : (unsigned int)pn_len;
    if (hdr->len < pn_len)
        return 0;

    if (!partial) {
        hdr->pn[0] = pn[0];
        if (pn_len > 1)
            hdr->pn[1] = pn[1];
        if (pn_len > 2)
            hdr->pn[2] = pn[2];
        if (pn_len > 3)
            hdr->pn[3] = pn[3];
    }
    hdr->data = pn + pn_len;
    hdr->len -= pn_len;
    return 1;
}

/* Reads a short header; returns where its number begins, or 0. */
static ossl_inline size_t decode_short_hdr(const unsigned char *p, size_t len,
    size_t conn_id_len, int partial, QUIC_PKT_HDR *hdr)
{
    unsigned char first = p[0];
    size_t pn;

    if ((first & QUIC_WIRE_BIT_FIXED) == 0 || conn_id_len > QUIC_MAX_CONN_ID_LEN
        || len < QUIC_MIN_VALID_PKT_LEN_CRYPTO)
        return 0;

    pn = quic_wire_short_read_near(p, len, (uint32_t)conn_id_len);
    if (pn == 0)
        return 0;

    set_conn_id(&hdr->dst_conn_id, p + 1, conn_id_len);
    hdr->type = QUIC_PKT_TYPE_1RTT;
    hdr->fixed = 1;
    hdr->partial = partial;
    hdr->unused = 0;
    hdr->spin_bit = (first & QUIC_WIRE_BIT_SPIN) != 0;
    hdr->key_phase = !partial && (first & QUIC_WIRE_BIT_KEY_PHASE) != 0;
    hdr->reserved = partial ? 0 : (first & QUIC_WIRE_BITS_RESERVED) >> 3;
    hdr->version = 0;
    hdr->src_conn_id.id_len = 0;
    hdr->token = NULL;
    hdr->token_len = 0;
    hdr->len = len - pn;
    return set_pn(hdr, p + pn, first, partial) ? pn : 0;
}

/*
 * The fields of a long header, before those that depend on its type.  A Retry's
 * token is the front of its data, and no field.
 */
static void set_long_hdr(QUIC_PKT_HDR *hdr, const unsigned char *p,
    const quic_wire_header *h)
{
    hdr->type = pkt_types[h->kind];
    hdr->fixed = (h->first & QUIC_WIRE_BIT_FIXED) != 0;
    hdr->partial = 0;
    hdr->unused = 0;
    hdr->spin_bit = 0;
    hdr->key_phase = 0;
    hdr->reserved = 0;
    hdr->pn_len = 0;
    memset(hdr->pn, 0, sizeof(hdr->pn));
    hdr->token = NULL;
    hdr->token_len = 0;
    if (h->kind == QUIC_WIRE_PACKET_INITIAL && h->tokenlen > 0) {
        hdr->token = p + h->token;
        hdr->token_len = h->tokenlen;
    }
    hdr->data = p + h->header_end;
    hdr->len = h->end - h->header_end;
}

/*
 * Reads a long header; of a packet of an unknown version, which also fails, its
 * version and IDs.  With |nodata|, what follows the header may be missing.
 */
static int decode_long_hdr(const unsigned char *p, size_t len, int nodata,
    QUIC_PKT_HDR *hdr, quic_wire_header *h, uint64_t *fail_cause)
{
    static const uint32_t versions[] = { QUIC_WIRE_VERSION_1 };
    int64_t end = quic_wire_header_read(p, len, 0, versions,
        OSSL_NELEM(versions), QUIC_WIRE_READ_GREASED_BIT, h);

    if (end < 0 && end != QUIC_WIRE_ERR_PACKET_VERSION
        && !(nodata && end == QUIC_WIRE_ERR_PACKET_CUT))
        return 0;

    if ((h->kind != QUIC_WIRE_PACKET_VERSION_NEGOTIATION
            && (h->first & QUIC_WIRE_BIT_FIXED) == 0)
        || h->dcidlen > QUIC_MAX_CONN_ID_LEN
        || h->scidlen > QUIC_MAX_CONN_ID_LEN)
        return 0;

    hdr->version = h->version;
    set_conn_id(&hdr->dst_conn_id, quic_wire_dcid(p, h), h->dcidlen);
    set_conn_id(&hdr->src_conn_id, quic_wire_scid(p, h), h->scidlen);
    if (end == QUIC_WIRE_ERR_PACKET_VERSION) {
        if (fail_cause != NULL)
            *fail_cause |= QUIC_PKT_HDR_DECODE_BAD_VERSION;
        return 0;
    }

    set_long_hdr(hdr, p, h);
    if (h->kind == QUIC_WIRE_PACKET_VERSION_NEGOTIATION)
        return hdr->len % sizeof(uint32_t) == 0;

    if (h->kind == QUIC_WIRE_PACKET_RETRY)
        hdr->unused = h->first & 0x0f;
    return len >= QUIC_MIN_VALID_PKT_LEN_CRYPTO;
}

/*
 * Reads the number of a packet with a long header, of which there are |len|
 * bytes; returns how many of them are read, or 0.
 */
static size_t decode_long_pn(const unsigned char *p, size_t len, int partial,
    int nodata, QUIC_PKT_HDR *hdr, const quic_wire_header *h)
{
    size_t pn_len = partial ? sizeof(hdr->pn) : (size_t)(h->first & 3) + 1;

    hdr->partial = partial;
    if (!partial)
        hdr->reserved = (h->first & QUIC_WIRE_BITS_RESERVED_LONG) >> 2;
    hdr->len = (size_t)h->len;
    if (h->len < sizeof(hdr->pn) || len - h->header_end < pn_len
        || !set_pn(hdr, p + h->header_end, h->first, partial))
        return 0;

    if (!nodata)
        return h->end;

    hdr->data = NULL;
    return h->header_end + pn_len;
}

/*
 * Reads a packet with a long header, of which there are |len| bytes; returns
 * how many of them are read, or 0.  |pn| gets where its number begins, or 0.
 * It isn't inlined, since most packets have short headers.
 */
static QUIC_WIRE_NOINLINE size_t decode_long(const unsigned char *p, size_t len,
    int partial, int nodata, QUIC_PKT_HDR *hdr, size_t *pn,
    uint64_t *fail_cause)
{
    quic_wire_header h;

    *pn = 0;
    if (!decode_long_hdr(p, len, nodata, hdr, &h, fail_cause))
        return 0;

    if (!ossl_quic_pkt_type_has_pn(hdr->type))
        return len;

    *pn = h.header_end;
    return decode_long_pn(p, len, partial, nodata, hdr, &h);
}

int ossl_quic_wire_decode_pkt_hdr(PACKET *pkt,
    size_t short_conn_id_len,
    int partial,
    int nodata,
    QUIC_PKT_HDR *hdr,
    QUIC_PKT_HDR_PTRS *ptrs,
    uint64_t *fail_cause)
{
    unsigned char *p = (unsigned char *)PACKET_data(pkt);
    size_t len = PACKET_remaining(pkt), end = len, pn;

    if (fail_cause != NULL)
        *fail_cause = QUIC_PKT_HDR_DECODE_DECODE_ERR;

    if (ptrs != NULL) {
        ptrs->raw_start = p;
        ptrs->raw_sample = NULL;
        ptrs->raw_sample_len = 0;
        ptrs->raw_pn = NULL;
    }

    if (len < QUIC_MIN_VALID_PKT_LEN)
        return 0;

    if ((p[0] & QUIC_WIRE_BIT_LONG) == 0) {
        pn = decode_short_hdr(p, len, short_conn_id_len, partial, hdr);
        if (pn == 0)
            return 0;
    } else {
        end = decode_long(p, len, partial, nodata, hdr, &pn, fail_cause);
        if (end == 0)
            return 0;
    }

    if (!PACKET_forward(pkt, end))
        return 0;

    if (ptrs != NULL && pn > 0) {
        ptrs->raw_pn = p + pn;
        ptrs->raw_sample = ptrs->raw_pn + 4;
        ptrs->raw_sample_len = len - pn - 4;
    }

    if (fail_cause != NULL)
        *fail_cause &= ~QUIC_PKT_HDR_DECODE_DECODE_ERR;

    return 1;
}

/* The receiver's ID of a packet with a long header. */
static QUIC_WIRE_NOINLINE int get_long_dst(const unsigned char *buf,
    size_t buf_len, QUIC_CONN_ID *dst_conn_id)
{
    quic_wire_header h;
    int64_t end;

    /* From a version that isn't among those given, only connection IDs are
     * read. */
    end = quic_wire_header_read(buf, buf_len, 0, NULL, 0,
        QUIC_WIRE_READ_GREASED_BIT, &h);
    if (end < 0 && end != QUIC_WIRE_ERR_PACKET_VERSION
        && quic_wire_negotiation_read(buf, buf_len, &h) < 0)
        return 0;

    if ((h.version != 0 && (h.first & QUIC_WIRE_BIT_FIXED) == 0)
        || h.dcidlen > QUIC_MAX_CONN_ID_LEN)
        return 0;

    set_conn_id(dst_conn_id, quic_wire_dcid(buf, &h), h.dcidlen);
    return 1;
}

int ossl_quic_wire_get_pkt_hdr_dst_conn_id(const unsigned char *buf,
    size_t buf_len,
    size_t short_conn_id_len,
    QUIC_CONN_ID *dst_conn_id)
{
    if (buf_len < QUIC_MIN_VALID_PKT_LEN
        || short_conn_id_len > QUIC_MAX_CONN_ID_LEN)
        return 0;

    if ((buf[0] & QUIC_WIRE_BIT_LONG) == 0) {
        if ((buf[0] & QUIC_WIRE_BIT_FIXED) == 0
            || buf_len < QUIC_MIN_VALID_PKT_LEN_CRYPTO + short_conn_id_len)
            return 0;

        set_conn_id(dst_conn_id, buf + 1, short_conn_id_len);
        return 1;
    }

    return get_long_dst(buf, buf_len, dst_conn_id);
}

/* ---- Writing headers */

/*
 * Whether OpenSSL writes such a header; |fields| gets what its length depends
 * on, with the packet's length in as few bytes as possible.
 */
static ossl_inline int set_fields(size_t short_conn_id_len,
    const QUIC_PKT_HDR *hdr, quic_wire_header_fields *fields)
{
    if (hdr->partial || hdr->dst_conn_id.id_len > QUIC_MAX_CONN_ID_LEN
        || (ossl_quic_pkt_type_has_pn(hdr->type)
            && (hdr->pn_len < 1 || hdr->pn_len > 4)))
        return 0;

    fields->numberlen = (uint8_t)hdr->pn_len;
    fields->lengthlen = 0;
    if (hdr->type == QUIC_PKT_TYPE_1RTT) {
        fields->kind = QUIC_WIRE_PACKET_1RTT;
        return hdr->dst_conn_id.id_len == short_conn_id_len;
    }

    if (hdr->type < QUIC_PKT_TYPE_INITIAL
        || hdr->type > QUIC_PKT_TYPE_VERSION_NEG
        || hdr->src_conn_id.id_len > QUIC_MAX_CONN_ID_LEN)
        return 0;

    fields->kind = pkt_kinds[hdr->type];
    if (ossl_quic_pkt_type_must_be_last(hdr->type))
        return 1;

    fields->lengthlen
        = (uint8_t)quic_wire_varint_len_near(hdr->len + hdr->pn_len);
    return fields->lengthlen > 0;
}

size_t ossl_quic_wire_get_encoded_pkt_hdr_len(size_t short_conn_id_len,
    const QUIC_PKT_HDR *hdr)
{
    quic_wire_header_fields fields;

    if (!set_fields(short_conn_id_len, hdr, &fields))
        return 0;

    return quic_wire_header_len(&fields, hdr->dst_conn_id.id_len,
        hdr->src_conn_id.id_len, hdr->token_len);
}

/* The low bytes of the packet number, which were encoded before. */
static ossl_inline int set_number(const QUIC_PKT_HDR *hdr,
    quic_wire_header_fields *fields)
{
    return quic_wire_number_read_near(hdr->pn, sizeof(hdr->pn), hdr->pn_len,
               &fields->number)
        > 0;
}

/* Writes a short header at |p|.  No call writes its reserved bits. */
static ossl_inline int write_short_hdr(const QUIC_PKT_HDR *hdr,
    quic_wire_header_fields *fields, unsigned char *p, size_t room)
{
    fields->flags = (hdr->spin_bit ? QUIC_WIRE_BIT_SPIN : 0)
        | (hdr->key_phase ? QUIC_WIRE_BIT_KEY_PHASE : 0);
    if (!set_number(hdr, fields)
        || quic_wire_header_write(fields, hdr->dst_conn_id.id,
               hdr->dst_conn_id.id_len, NULL, 0, NULL, 0, p, room)
            < 0)
        return 0;

    p[0] |= hdr->reserved << 3;
    return 1;
}

/*
 * Writes a long header of |len| bytes, up to a Retry's token.  No call writes
 * the low bits of the first byte.
 */
static QUIC_WIRE_NOINLINE int write_long_hdr(const QUIC_PKT_HDR *hdr,
    quic_wire_header_fields *fields, unsigned char *p, size_t len, size_t room)
{
    size_t token_len = hdr->type == QUIC_PKT_TYPE_INITIAL ? hdr->token_len : 0;
    size_t length_len = fields->lengthlen;

    fields->version = hdr->version;
    fields->number = 0;
    fields->flags = hdr->type == QUIC_PKT_TYPE_VERSION_NEG && !hdr->fixed
        ? QUIC_WIRE_CLEAR_FIXED_BIT
        : 0;
    if ((ossl_quic_pkt_type_has_pn(hdr->type) && !set_number(hdr, fields))
        || quic_wire_header_write(fields, hdr->dst_conn_id.id,
               hdr->dst_conn_id.id_len, hdr->src_conn_id.id,
               hdr->src_conn_id.id_len, hdr->token, token_len, p, room)
            < 0)
        return 0;

    if (hdr->type == QUIC_PKT_TYPE_RETRY)
        p[0] |= hdr->unused;
    if (length_len == 0)
        return 1;

    p[0] |= hdr->reserved << 2;
    return quic_wire_varint_write(hdr->len + hdr->pn_len, (uint32_t)length_len,
               p + len - hdr->pn_len - length_len, length_len)
        > 0;
}

int ossl_quic_wire_encode_pkt_hdr(WPACKET *pkt,
    size_t short_conn_id_len,
    const QUIC_PKT_HDR *hdr,
    QUIC_PKT_HDR_PTRS *ptrs)
{
    int is_short = hdr->type == QUIC_PKT_TYPE_1RTT;
    quic_wire_header_fields fields;
    size_t len, room;
    unsigned char *p;

    if (ptrs != NULL) {
        /* ptrs would not be stable on non-static WPACKET */
        if (!ossl_assert(pkt->staticbuf != NULL))
            return 0;
        ptrs->raw_start = NULL;
        ptrs->raw_sample = NULL;
        ptrs->raw_sample_len = 0;
        ptrs->raw_pn = NULL;
    }

    if (!set_fields(short_conn_id_len, hdr, &fields)
        || (hdr->type == QUIC_PKT_TYPE_VERSION_NEG && hdr->version != 0))
        return 0;

    len = quic_wire_header_len(&fields, hdr->dst_conn_id.id_len,
        hdr->src_conn_id.id_len, hdr->token_len);
    room = len; /* for the payload too */
    if (hdr->type != QUIC_PKT_TYPE_RETRY)
        room += hdr->len;

    if (!WPACKET_reserve_bytes(pkt, room, &p)
        || !(is_short ? write_short_hdr(hdr, &fields, p, room)
                      : write_long_hdr(hdr, &fields, p, len, room))
        || !WPACKET_allocate_bytes(pkt, len, &p))
        return 0;

    if (hdr->type == QUIC_PKT_TYPE_RETRY)
        return WPACKET_memcpy(pkt, hdr->token, hdr->token_len);

    if (ptrs != NULL && ossl_quic_pkt_type_has_pn(hdr->type)) {
        ptrs->raw_start = p;
        ptrs->raw_pn = p + len - hdr->pn_len;
        ptrs->raw_sample = ptrs->raw_pn + 4;
        ptrs->raw_sample_len = hdr->len + hdr->pn_len - 4;
    }

    return 1;
}

/* ---- Packet numbers */

int ossl_quic_wire_decode_pkt_hdr_pn(const unsigned char *enc_pn,
    size_t enc_pn_len,
    QUIC_PN largest_pn,
    QUIC_PN *res_pn)
{
    return enc_pn_len <= 4
        && quic_wire_number_read_whole(enc_pn, enc_pn_len, (uint32_t)enc_pn_len,
               largest_pn + 1, res_pn)
        > 0;
}

int ossl_quic_wire_determine_pn_len(QUIC_PN pn,
    QUIC_PN largest_acked)
{
    /* If nothing was acknowledged, numbers are counted from 1. */
    int len = largest_acked == QUIC_PN_INVALID
        ? quic_wire_number_len_near(pn + 1, 0)
        : quic_wire_number_len_near(pn, largest_acked);

    return len < 0 ? 4 : len;
}

int ossl_quic_wire_encode_pkt_hdr_pn(QUIC_PN pn,
    unsigned char *enc_pn,
    size_t enc_pn_len)
{
    return quic_wire_number_write_near(pn, (uint32_t)enc_pn_len, enc_pn,
               enc_pn_len)
        > 0;
}
