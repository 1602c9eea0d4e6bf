/*
 * OpenSSL's readers and writers of transport parameters, with quic_wire.h and
 * quic_wire_near.h. ssl/quic/quic_wire.c includes this file in place of its
 * own, after quic_wire_ossl_encode.c.
 */

/* ---- Writing transport parameters */

unsigned char *ossl_quic_wire_encode_transport_param_bytes(WPACKET *pkt,
    uint64_t id,
    const unsigned char *value,
    size_t value_len)
{
    /* The value may come later, so quic_wire_param_write can't be used. */
    unsigned char bytes[2 * sizeof(uint64_t)];
    size_t len;

    if (quic_wire_param_header_write(id, value_len, bytes, sizeof(bytes), &len)
            != QUIC_WIRE_OK
        || !WPACKET_memcpy(pkt, bytes, len))
        return NULL;

    return encode_data(pkt, value, value_len);
}

int ossl_quic_wire_encode_transport_param_int(WPACKET *pkt,
    uint64_t id,
    uint64_t value)
{
    unsigned char entry[3 * sizeof(uint64_t)];
    size_t len;

    return quic_wire_param_write_number(id, value, entry, sizeof(entry), &len)
        == QUIC_WIRE_OK
        && WPACKET_memcpy(pkt, entry, len);
}

int ossl_quic_wire_encode_transport_param_cid(WPACKET *wpkt,
    uint64_t id,
    const QUIC_CONN_ID *cid)
{
    return cid->id_len <= QUIC_MAX_CONN_ID_LEN
        && ossl_quic_wire_encode_transport_param_bytes(wpkt, id, cid->id,
               cid->id_len)
        != NULL;
}

/* ---- Reading transport parameters */

int ossl_quic_wire_peek_transport_param(PACKET *pkt, uint64_t *id)
{
    return quic_wire_varint_read_near(PACKET_data(pkt), PACKET_remaining(pkt),
               id)
        > 0;
}

const unsigned char *ossl_quic_wire_decode_transport_param_bytes(PACKET *pkt,
    uint64_t *id,
    size_t *len)
{
    const unsigned char *list = PACKET_data(pkt);
    quic_wire_param param;
    int64_t end = quic_wire_param_read_near(list, PACKET_remaining(pkt), &param);

    if (end <= 0 || !PACKET_forward(pkt, (size_t)end))
        return NULL;

    *len = param.valuelen;
    if (id != NULL)
        *id = param.id;
    return list + param.value;
}

int ossl_quic_wire_decode_transport_param_int(PACKET *pkt,
    uint64_t *id,
    uint64_t *value)
{
    quic_wire_param param;
    int64_t end = quic_wire_param_read_number_near(PACKET_data(pkt),
        PACKET_remaining(pkt), &param, value);

    if (end <= 0 || !PACKET_forward(pkt, (size_t)end))
        return 0;

    if (id != NULL)
        *id = param.id;
    return 1;
}

int ossl_quic_wire_decode_transport_param_cid(PACKET *pkt,
    uint64_t *id,
    QUIC_CONN_ID *cid)
{
    size_t len = 0;
    const unsigned char *body = ossl_quic_wire_decode_transport_param_bytes(pkt,
        id, &len);

    if (body == NULL || len > QUIC_MAX_CONN_ID_LEN)
        return 0;

    cid->id_len = (unsigned char)len;
    memcpy(cid->id, body, len);
    return 1;
}

int ossl_quic_wire_decode_transport_param_preferred_addr(PACKET *pkt,
    QUIC_PREFERRED_ADDR *p)
{
    const unsigned char *body;
    quic_wire_params params;
    uint64_t id;
    size_t len = 0;

    body = ossl_quic_wire_decode_transport_param_bytes(pkt, &id, &len);
    if (body == NULL || id != QUIC_TPARAM_PREFERRED_ADDR
        || quic_wire_preferred_address_read(body, len, &params, sizeof(params))
            != QUIC_WIRE_OK)
        return 0;

    memcpy(p->ipv4, params.preferred_v4, sizeof(p->ipv4));
    memcpy(p->ipv6, params.preferred_v6, sizeof(p->ipv6));
    p->ipv4_port = params.preferred_v4_port;
    p->ipv6_port = params.preferred_v6_port;
    p->cid.id_len = (unsigned char)params.preferred_cidlen;
    memcpy(p->cid.id, params.preferred_cid, params.preferred_cidlen);
    memcpy(p->stateless_reset.token, params.preferred_token,
        sizeof(p->stateless_reset.token));
    return 1;
}
