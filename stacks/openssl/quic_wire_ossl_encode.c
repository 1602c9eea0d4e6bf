/*
 * OpenSSL's writers of QUIC frames, with quic_wire.h and quic_wire_near.h.
 * ssl/quic/quic_wire.c includes this file in place of its own, after
 * quic_wire_ossl_frames.c.
 */

/* How many bytes may be written at |*p|, the end, before |pkt| has to grow. */
static size_t room_at_end(WPACKET *pkt, unsigned char **p)
{
    *p = WPACKET_get_curr(pkt);
    return (pkt->buf != NULL ? pkt->buf->length : pkt->maxsize) - pkt->written;
}

/* Appends a frame, except an ACK, with its data. */
static int encode_frame(WPACKET *pkt, const quic_wire_frame *frame,
    const unsigned char *data, size_t data_len)
{
    unsigned char *p;
    size_t room = room_at_end(pkt, &p), len;
    int ret = quic_wire_frame_write(frame, data, data_len, 0, p, room, &len);

    if (ret == QUIC_WIRE_ERR_NOBUF && WPACKET_reserve_bytes(pkt, len, &p))
        ret = quic_wire_frame_write(frame, data, data_len, 0, p, len, &len);

    return ret == QUIC_WIRE_OK && WPACKET_allocate_bytes(pkt, len, &p);
}

/* Appends a frame that has no fields except |a|, |b| and |c|, by a call. */
static QUIC_WIRE_NOINLINE int encode_by_call(WPACKET *pkt,
    quic_wire_frame_kind kind, uint64_t a, uint64_t b, uint64_t c)
{
    quic_wire_frame frame = { .kind = kind, .numbers = { a, b, c } };

    return encode_frame(pkt, &frame, NULL, 0);
}

/*
 * The same, if a writer in quic_wire_near.h has written |len| bytes of it at
 * the end of |pkt|.  It writes none without room, or if a number is too large.
 */
static ossl_inline int encode_numbers(WPACKET *pkt, size_t len,
    quic_wire_frame_kind kind, uint64_t a, uint64_t b, uint64_t c)
{
    unsigned char *p;

    return len > 0 ? WPACKET_allocate_bytes(pkt, len, &p)
                   : encode_by_call(pkt, kind, a, b, c);
}

/* Appends a STREAM or CRYPTO frame up to its data. */
static int encode_up_to_data(WPACKET *pkt, const quic_wire_frame *frame,
    int is_last)
{
    unsigned char *p;
    size_t room = room_at_end(pkt, &p), len;
    int ret = quic_wire_frame_header_write(frame, is_last, p, room, &len);

    if (ret == QUIC_WIRE_ERR_NOBUF && WPACKET_reserve_bytes(pkt, len, &p))
        ret = quic_wire_frame_header_write(frame, is_last, p, len, &len);

    return ret == QUIC_WIRE_OK && WPACKET_allocate_bytes(pkt, len, &p);
}

/* Appends |len| bytes, from |data| unless that is NULL; returns where they are.
 */
static unsigned char *encode_data(WPACKET *pkt, const unsigned char *data,
    uint64_t len)
{
    unsigned char *p = WPACKET_get_curr(pkt);

    if (len > SIZE_MAX /* sizeof(uint64_t) > sizeof(size_t)? */
        || (len > 0 && !WPACKET_allocate_bytes(pkt, (size_t)len, &p)))
        return NULL;

    if (data != NULL)
        memcpy(p, data, (size_t)len);

    return p;
}

int ossl_quic_wire_encode_frame_ping(WPACKET *pkt)
{
    unsigned char *p;
    size_t room = room_at_end(pkt, &p);
    size_t len = quic_wire_ping_write(p, room);

    return encode_numbers(pkt, len, QUIC_WIRE_FRAME_PING,
        0, 0, 0);
}

/* An ACK frame's fields, without the ranges below the first one. */
static quic_wire_frame ack_fields(uint32_t ack_delay_exponent,
    const OSSL_QUIC_FRAME_ACK *ack)
{
    OSSL_TIME delay = ossl_time_divide(ossl_time_divide(ack->delay_time,
                                           OSSL_TIME_US),
        (uint64_t)1 << ack_delay_exponent);
    quic_wire_frame frame = { .kind = QUIC_WIRE_FRAME_ACK };

    frame.ack.largest = ack->ack_ranges[0].end;
    frame.ack.delay = ossl_time2ticks(delay);
    frame.first_range = ack->ack_ranges[0].end - ack->ack_ranges[0].start;
    if (ack->ecn_present) {
        frame.flags = QUIC_WIRE_FLAG_ECN;
        frame.ack.ect0 = ack->ect0;
        frame.ack.ect1 = ack->ect1;
        frame.ack.ce = ack->ecnce;
    }
    return frame;
}

/* Appends an ACK frame, whose ranges below the first one are |gaps|. */
static int encode_ack_gaps(WPACKET *pkt, const quic_wire_frame *frame,
    const quic_wire_gap *gaps, size_t num_gaps)
{
    unsigned char *p;
    size_t room = room_at_end(pkt, &p), len;
    int ret = quic_wire_ack_gaps_write(frame, gaps, num_gaps, p, room, &len);

    if (ret == QUIC_WIRE_ERR_NOBUF && WPACKET_reserve_bytes(pkt, len, &p))
        ret = quic_wire_ack_gaps_write(frame, gaps, num_gaps, p, len, &len);

    return ret == QUIC_WIRE_OK && WPACKET_allocate_bytes(pkt, len, &p);
}

int ossl_quic_wire_encode_frame_ack(WPACKET *pkt,
    uint32_t ack_delay_exponent,
    const OSSL_QUIC_FRAME_ACK *ack)
{
    const OSSL_QUIC_ACK_RANGE *ranges = ack->ack_ranges;
    quic_wire_gap local[32], *gaps = local;
    quic_wire_frame frame;
    size_t i;
    int ok;

    if (ack->num_ack_ranges == 0)
        return 0;

    if (ack->num_ack_ranges > OSSL_NELEM(local)) {
        gaps = OPENSSL_malloc_array(ack->num_ack_ranges, sizeof(*gaps));
        if (gaps == NULL)
            return 0;
    }

    for (i = 1; i < ack->num_ack_ranges; ++i) {
        gaps[i - 1].gap = ranges[i - 1].start - ranges[i].end - 2;
        gaps[i - 1].len = ranges[i].end - ranges[i].start;
    }

    frame = ack_fields(ack_delay_exponent, ack);
    ok = encode_ack_gaps(pkt, &frame, gaps, ack->num_ack_ranges - 1);
    if (gaps != local)
        OPENSSL_free(gaps);
    return ok;
}

int ossl_quic_wire_encode_frame_reset_stream(WPACKET *pkt,
    const OSSL_QUIC_FRAME_RESET_STREAM *f)
{
    unsigned char *p;
    size_t room = room_at_end(pkt, &p);
    size_t len = quic_wire_reset_stream_write(f->stream_id, f->app_error_code,
        f->final_size, p, room);

    return encode_numbers(pkt, len, QUIC_WIRE_FRAME_RESET_STREAM,
        f->stream_id, f->app_error_code, f->final_size);
}

int ossl_quic_wire_encode_frame_stop_sending(WPACKET *pkt,
    const OSSL_QUIC_FRAME_STOP_SENDING *f)
{
    unsigned char *p;
    size_t room = room_at_end(pkt, &p);
    size_t len = quic_wire_stop_sending_write(f->stream_id, f->app_error_code,
        p, room);

    return encode_numbers(pkt, len, QUIC_WIRE_FRAME_STOP_SENDING,
        f->stream_id, f->app_error_code, 0);
}

int ossl_quic_wire_encode_frame_crypto_hdr(WPACKET *pkt,
    const OSSL_QUIC_FRAME_CRYPTO *f)
{
    quic_wire_frame frame = { .kind = QUIC_WIRE_FRAME_CRYPTO };

    frame.crypto.offset = f->offset;
    frame.datalen = f->len;
    return encode_up_to_data(pkt, &frame, 0);
}

size_t ossl_quic_wire_get_encoded_frame_len_crypto_hdr(
    const OSSL_QUIC_FRAME_CRYPTO *f)
{
    size_t offset_len = quic_wire_varint_len_near(f->offset);
    size_t length_len = quic_wire_varint_len_near(f->len);

    if (offset_len == 0 || length_len == 0)
        return 0;

    return 1 + offset_len + length_len;
}

void *ossl_quic_wire_encode_frame_crypto(WPACKET *pkt,
    const OSSL_QUIC_FRAME_CRYPTO *f)
{
    if (!ossl_quic_wire_encode_frame_crypto_hdr(pkt, f))
        return NULL;

    return encode_data(pkt, f->data, f->len);
}

int ossl_quic_wire_encode_frame_new_token(WPACKET *pkt,
    const unsigned char *token,
    size_t token_len)
{
    quic_wire_frame frame = { .kind = QUIC_WIRE_FRAME_NEW_TOKEN,
        .datalen = token_len };

    return encode_frame(pkt, &frame, token, token_len);
}

int ossl_quic_wire_encode_frame_stream_hdr(WPACKET *pkt,
    const OSSL_QUIC_FRAME_STREAM *f)
{
    quic_wire_frame frame = { .kind = QUIC_WIRE_FRAME_STREAM };

    frame.flags = f->is_fin ? QUIC_WIRE_FLAG_FIN : 0;
    frame.stream.stream_id = f->stream_id;
    frame.stream.offset = f->offset;
    frame.datalen = f->len;
    return encode_up_to_data(pkt, &frame, !f->has_explicit_len);
}

size_t ossl_quic_wire_get_encoded_frame_len_stream_hdr(
    const OSSL_QUIC_FRAME_STREAM *f)
{
    size_t len = quic_wire_varint_len_near(f->stream_id), field_len;

    if (len == 0)
        return 0;

    if (f->offset > 0) {
        field_len = quic_wire_varint_len_near(f->offset);
        if (field_len == 0)
            return 0;
        len += field_len;
    }

    if (f->has_explicit_len) {
        field_len = quic_wire_varint_len_near(f->len);
        if (field_len == 0)
            return 0;
        len += field_len;
    }

    return 1 + len;
}

void *ossl_quic_wire_encode_frame_stream(WPACKET *pkt,
    const OSSL_QUIC_FRAME_STREAM *f)
{
    if (!ossl_quic_wire_encode_frame_stream_hdr(pkt, f))
        return NULL;

    return encode_data(pkt, f->data, f->len);
}

int ossl_quic_wire_encode_frame_max_data(WPACKET *pkt,
    uint64_t max_data)
{
    unsigned char *p;
    size_t room = room_at_end(pkt, &p);
    size_t len = quic_wire_max_data_write(max_data, p, room);

    return encode_numbers(pkt, len, QUIC_WIRE_FRAME_MAX_DATA,
        0, max_data, 0);
}

int ossl_quic_wire_encode_frame_max_stream_data(WPACKET *pkt,
    uint64_t stream_id,
    uint64_t max_data)
{
    unsigned char *p;
    size_t room = room_at_end(pkt, &p);
    size_t len = quic_wire_max_stream_data_write(stream_id, max_data, p, room);

    return encode_numbers(pkt, len, QUIC_WIRE_FRAME_MAX_STREAM_DATA,
        stream_id, max_data, 0);
}

int ossl_quic_wire_encode_frame_max_streams(WPACKET *pkt,
    char is_uni,
    uint64_t max_streams)
{
    unsigned char *p;
    size_t room = room_at_end(pkt, &p);
    size_t len = is_uni
        ? quic_wire_max_streams_uni_write(max_streams, p, room)
        : quic_wire_max_streams_bidi_write(max_streams, p, room);

    return encode_numbers(pkt, len,
        is_uni ? QUIC_WIRE_FRAME_MAX_STREAMS_UNI
               : QUIC_WIRE_FRAME_MAX_STREAMS_BIDI,
        0, max_streams, 0);
}

int ossl_quic_wire_encode_frame_data_blocked(WPACKET *pkt,
    uint64_t max_data)
{
    unsigned char *p;
    size_t room = room_at_end(pkt, &p);
    size_t len = quic_wire_data_blocked_write(max_data, p, room);

    return encode_numbers(pkt, len, QUIC_WIRE_FRAME_DATA_BLOCKED,
        0, max_data, 0);
}

int ossl_quic_wire_encode_frame_stream_data_blocked(WPACKET *pkt,
    uint64_t stream_id,
    uint64_t max_stream_data)
{
    unsigned char *p;
    size_t room = room_at_end(pkt, &p);
    size_t len = quic_wire_stream_data_blocked_write(stream_id, max_stream_data,
        p, room);

    return encode_numbers(pkt, len, QUIC_WIRE_FRAME_STREAM_DATA_BLOCKED,
        stream_id, max_stream_data, 0);
}

int ossl_quic_wire_encode_frame_streams_blocked(WPACKET *pkt,
    char is_uni,
    uint64_t max_streams)
{
    unsigned char *p;
    size_t room = room_at_end(pkt, &p);
    size_t len = is_uni
        ? quic_wire_streams_blocked_uni_write(max_streams, p, room)
        : quic_wire_streams_blocked_bidi_write(max_streams, p, room);

    return encode_numbers(pkt, len,
        is_uni ? QUIC_WIRE_FRAME_STREAMS_BLOCKED_UNI
               : QUIC_WIRE_FRAME_STREAMS_BLOCKED_BIDI,
        0, max_streams, 0);
}

int ossl_quic_wire_encode_frame_new_conn_id(WPACKET *pkt,
    const OSSL_QUIC_FRAME_NEW_CONN_ID *f)
{
    quic_wire_frame frame = { .kind = QUIC_WIRE_FRAME_NEW_CONNECTION_ID };
    size_t id_len = f->conn_id.id_len;
    size_t token_len = sizeof(f->stateless_reset.token);
    /* The library has the token after the ID. */
    unsigned char data[QUIC_MAX_CONN_ID_LEN + QUIC_STATELESS_RESET_TOKEN_LEN];

    if (id_len < 1 || id_len > QUIC_MAX_CONN_ID_LEN)
        return 0;

    memcpy(data, f->conn_id.id, id_len);
    memcpy(data + id_len, f->stateless_reset.token, token_len);
    frame.new_connection_id.sequence = f->seq_num;
    frame.new_connection_id.retire_prior_to = f->retire_prior_to;
    frame.datalen = id_len;
    return encode_frame(pkt, &frame, data, id_len + token_len);
}

int ossl_quic_wire_encode_frame_retire_conn_id(WPACKET *pkt,
    uint64_t seq_num)
{
    unsigned char *p;
    size_t room = room_at_end(pkt, &p);
    size_t len = quic_wire_retire_connection_id_write(seq_num, p, room);

    return encode_numbers(pkt, len, QUIC_WIRE_FRAME_RETIRE_CONNECTION_ID,
        seq_num, 0, 0);
}

int ossl_quic_wire_encode_frame_path_challenge(WPACKET *pkt,
    uint64_t data)
{
    unsigned char *p;
    size_t room = room_at_end(pkt, &p);
    size_t len = quic_wire_path_challenge_write(data, p, room);

    return encode_numbers(pkt, len, QUIC_WIRE_FRAME_PATH_CHALLENGE,
        data, 0, 0);
}

int ossl_quic_wire_encode_frame_path_response(WPACKET *pkt,
    uint64_t data)
{
    unsigned char *p;
    size_t room = room_at_end(pkt, &p);
    size_t len = quic_wire_path_response_write(data, p, room);

    return encode_numbers(pkt, len, QUIC_WIRE_FRAME_PATH_RESPONSE,
        data, 0, 0);
}

int ossl_quic_wire_encode_frame_conn_close(WPACKET *pkt,
    const OSSL_QUIC_FRAME_CONN_CLOSE *f)
{
    quic_wire_frame frame = { .kind = f->is_app
            ? QUIC_WIRE_FRAME_APPLICATION_CLOSE
            : QUIC_WIRE_FRAME_CONNECTION_CLOSE };

    frame.close.error_code = f->error_code;
    frame.close.frame_type = f->is_app ? 0 : f->frame_type;
    frame.datalen = f->reason_len;
    return encode_frame(pkt, &frame, (const unsigned char *)f->reason,
        f->reason_len);
}

int ossl_quic_wire_encode_frame_handshake_done(WPACKET *pkt)
{
    unsigned char *p;
    size_t room = room_at_end(pkt, &p);
    size_t len = quic_wire_handshake_done_write(p, room);

    return encode_numbers(pkt, len, QUIC_WIRE_FRAME_HANDSHAKE_DONE,
        0, 0, 0);
}
