/*
 * OpenSSL's readers of QUIC frames, with quic_wire.h and quic_wire_near.h.
 * ssl/quic/quic_wire.c includes this file in place of its own.
 */
#define QUIC_WIRE_INLINE
#include "quic_wire_near.h"

#if defined(__GNUC__)
#define QUIC_WIRE_NOINLINE __attribute__((__noinline__))
#else
#define QUIC_WIRE_NOINLINE
#endif

int ossl_quic_wire_skip_frame_header(PACKET *pkt, uint64_t *type)
{
    size_t len = quic_wire_varint_read(PACKET_data(pkt), PACKET_remaining(pkt),
        type);

    return len > 0 && PACKET_forward(pkt, len);
}

int ossl_quic_wire_peek_frame_header(PACKET *pkt, uint64_t *type,
    int *was_minimal)
{
    size_t len = quic_wire_varint_read(PACKET_data(pkt), PACKET_remaining(pkt),
        type);

    if (len == 0)
        return 0;

    if (was_minimal != NULL)
        *was_minimal = len == quic_wire_varint_len_near(*type);

    return 1;
}

/*
 * Skips the frame that was read at the front of |pkt| with the result |len|. If
 * it isn't of |kind| or |other|, the connection will be closed, and nothing is
 * left to read.
 */
static ossl_inline int skip_frame(PACKET *pkt, int64_t len,
    const quic_wire_frame *frame, quic_wire_frame_kind kind,
    quic_wire_frame_kind other)
{
    int ok = len > 0 && (frame->kind == kind || frame->kind == other);

    return PACKET_forward(pkt, ok ? (size_t)len : PACKET_remaining(pkt)) && ok;
}

/*
 * Reads a frame of |kind| or |other| at the front of |pkt| by a call.  It
 * passes no flags: OpenSSL's callers check what these would.
 */
static QUIC_WIRE_NOINLINE int decode_by_call(PACKET *pkt,
    quic_wire_frame_kind kind, quic_wire_frame_kind other,
    quic_wire_frame *frame)
{
    int64_t len = quic_wire_frame_read(PACKET_data(pkt),
        PACKET_remaining(pkt), 0, frame, NULL, 0);

    return skip_frame(pkt, len, frame, kind, other);
}

/* What the reader of one kind of frame in quic_wire_near.h returns. */
#define NEAR(name, pkt, frame) \
    quic_wire_##name##_read(PACKET_data(pkt), PACKET_remaining(pkt), frame)

/*
 * Skips a frame that such a reader read at the front of |pkt|: |end| is where
 * it ends.  If that is 0, the frame is left to a call, with another struct, so
 * that the fields of |frame| can be in registers.
 */
static ossl_inline int decode_either(PACKET *pkt, size_t end,
    quic_wire_frame_kind kind, quic_wire_frame_kind other,
    quic_wire_frame *frame)
{
    quic_wire_frame from_call;

    if (end > 0)
        return PACKET_forward(pkt, end);
    if (!decode_by_call(pkt, kind, other, &from_call))
        return 0;

    *frame = from_call;
    return 1;
}

static ossl_inline int decode_frame(PACKET *pkt, size_t end,
    quic_wire_frame_kind kind, quic_wire_frame *frame)
{
    return decode_either(pkt, end, kind, kind, frame);
}

/*
 * Reads a STREAM or CRYPTO frame up to its data, which needn't be there, also
 * with another struct.
 */
static ossl_inline int decode_frame_header(PACKET *pkt,
    quic_wire_frame_kind kind, quic_wire_frame *frame)
{
    quic_wire_frame from_call;
    int64_t len = quic_wire_frame_header_read(PACKET_data(pkt),
        PACKET_remaining(pkt), 0, &from_call);

    if (!skip_frame(pkt, len, &from_call, kind, kind))
        return 0;

    *frame = from_call;
    return 1;
}

/* Counts the ranges of the ACK at the front of |pkt|, without reading them. */
static int count_ack_ranges(const PACKET *pkt, uint64_t *count)
{
    quic_wire_range_iter ranges;
    quic_wire_frame ack;

    /* Only these two fields are used.  Where the ACK ends isn't known yet. */
    ack.begin = 0;
    ack.end = PACKET_remaining(pkt);
    if (quic_wire_ack_ranges_init(&ranges, PACKET_data(pkt), ack.end, &ack)
        != QUIC_WIRE_OK)
        return 0;

    /*
     * A range below the first has at least two bytes, so no more room is asked
     * for than the ranges of a packet can need.
     */
    *count = ranges.left;
    return ranges.left - 1 <= (ack.end - ranges.offset) / 2;
}

int ossl_quic_wire_peek_frame_ack_num_ranges(const PACKET *orig_pkt,
    uint64_t *total_ranges)
{
    uint64_t count;

    if (!count_ack_ranges(orig_pkt, &count))
        return 0;

    *total_ranges = count;
    return 1;
}

/*
 * Makes ranges from an ACK's gaps, which were read to where the ranges below
 * the first one belong: both are pairs of 64-bit numbers.
 */
static void set_ack_ranges(OSSL_QUIC_FRAME_ACK *ack,
    const quic_wire_frame *frame)
{
    OSSL_QUIC_ACK_RANGE *ranges = ack->ack_ranges;
    size_t i;

    if (frame->ngaps + 1 < ack->num_ack_ranges)
        ack->num_ack_ranges = frame->ngaps + 1;
    if (ack->num_ack_ranges == 0)
        return;

    ranges[0].end = frame->ack.largest;
    ranges[0].start = frame->ack.largest - frame->first_range;
    for (i = 1; i < ack->num_ack_ranges; ++i) {
        const quic_wire_gap *gap = (const quic_wire_gap *)&ranges[i];
        QUIC_PN end = ranges[i - 1].start - gap->gap - 2;

        ranges[i].start = end - gap->len;
        ranges[i].end = end;
    }
}

/* The fields of an ACK except its ranges. */
static void set_ack_fields(OSSL_QUIC_FRAME_ACK *ack,
    uint32_t ack_delay_exponent, const quic_wire_frame *frame)
{
    int err = 0;

    ack->delay_time = ossl_time_multiply(ossl_ticks2time(OSSL_TIME_US),
        safe_mul_uint64_t(frame->ack.delay, (uint64_t)1 << ack_delay_exponent,
            &err));
    if (err)
        ack->delay_time = ossl_time_infinite();

    ack->ecn_present = (frame->flags & QUIC_WIRE_FLAG_ECN) != 0;
    if (ack->ecn_present) {
        ack->ect0 = frame->ack.ect0;
        ack->ect1 = frame->ack.ect1;
        ack->ecnce = frame->ack.ce;
    }
}

int ossl_quic_wire_decode_frame_ack(PACKET *pkt,
    uint32_t ack_delay_exponent,
    OSSL_QUIC_FRAME_ACK *ack,
    uint64_t *total_ranges)
{
    PACKET start = *pkt;
    quic_wire_gap *gaps = NULL;
    quic_wire_frame frame;
    size_t room = 0;
    int64_t len;

    if (ack != NULL && ack->num_ack_ranges > 1) {
        gaps = (quic_wire_gap *)&ack->ack_ranges[1];
        room = ack->num_ack_ranges - 1;
    }
    len = quic_wire_frame_read(PACKET_data(pkt), PACKET_remaining(pkt), 0,
        &frame, gaps, room);
    if (!skip_frame(pkt, len, &frame, QUIC_WIRE_FRAME_ACK, QUIC_WIRE_FRAME_ACK)
        || (total_ranges != NULL && !count_ack_ranges(&start, total_ranges)))
        return 0;

    if (ack != NULL) {
        set_ack_ranges(ack, &frame);
        set_ack_fields(ack, ack_delay_exponent, &frame);
    }
    return 1;
}

int ossl_quic_wire_decode_frame_reset_stream(PACKET *pkt,
    OSSL_QUIC_FRAME_RESET_STREAM *f)
{
    quic_wire_frame frame;

    if (!decode_frame(pkt, NEAR(reset_stream, pkt, &frame),
            QUIC_WIRE_FRAME_RESET_STREAM, &frame))
        return 0;

    f->stream_id = frame.reset_stream.stream_id;
    f->app_error_code = frame.reset_stream.error_code;
    f->final_size = frame.reset_stream.final_size;
    return 1;
}

int ossl_quic_wire_decode_frame_stop_sending(PACKET *pkt,
    OSSL_QUIC_FRAME_STOP_SENDING *f)
{
    quic_wire_frame frame;

    if (!decode_frame(pkt, NEAR(stop_sending, pkt, &frame),
            QUIC_WIRE_FRAME_STOP_SENDING, &frame))
        return 0;

    f->stream_id = frame.stop_sending.stream_id;
    f->app_error_code = frame.stop_sending.error_code;
    return 1;
}

/* Whether data end at a possible offset (RFC 9000 s. 19.6 and 19.8). */
static int data_fit(uint64_t offset, uint64_t len)
{
    return offset + len <= OSSL_QUIC_VLINT_MAX;
}

int ossl_quic_wire_decode_frame_crypto(PACKET *pkt,
    int nodata,
    OSSL_QUIC_FRAME_CRYPTO *f)
{
    const unsigned char *payload = PACKET_data(pkt);
    quic_wire_frame frame;

    if (!(nodata ? decode_frame_header(pkt, QUIC_WIRE_FRAME_CRYPTO, &frame)
                 : decode_frame(pkt, NEAR(crypto, pkt, &frame),
                       QUIC_WIRE_FRAME_CRYPTO, &frame)))
        return 0;

    f->offset = frame.crypto.offset;
    f->len = frame.datalen;
    f->data = nodata ? NULL : payload + frame.data;
    return data_fit(f->offset, f->len);
}

int ossl_quic_wire_decode_frame_new_token(PACKET *pkt,
    const unsigned char **token,
    size_t *token_len)
{
    const unsigned char *payload = PACKET_data(pkt);
    quic_wire_frame frame;

    if (!decode_frame(pkt, NEAR(new_token, pkt, &frame),
            QUIC_WIRE_FRAME_NEW_TOKEN, &frame))
        return 0;

    *token = payload + frame.data;
    *token_len = frame.datalen;
    return 1;
}

int ossl_quic_wire_decode_frame_stream(PACKET *pkt,
    int nodata,
    OSSL_QUIC_FRAME_STREAM *f)
{
    const unsigned char *payload = PACKET_data(pkt);
    quic_wire_frame frame;

    if (!(nodata ? decode_frame_header(pkt, QUIC_WIRE_FRAME_STREAM, &frame)
                 : decode_frame(pkt, NEAR(stream, pkt, &frame),
                       QUIC_WIRE_FRAME_STREAM, &frame)))
        return 0;

    f->has_explicit_len = (frame.type & OSSL_QUIC_FRAME_FLAG_STREAM_LEN) != 0;
    f->is_fin = (frame.type & OSSL_QUIC_FRAME_FLAG_STREAM_FIN) != 0;
    f->stream_id = frame.stream.stream_id;
    f->offset = frame.stream.offset;
    /* Without its length and its data a frame's length isn't known. */
    f->len = nodata && !f->has_explicit_len ? 0 : frame.datalen;
    f->data = nodata ? NULL : payload + frame.data;
    return data_fit(f->offset, f->len);
}

int ossl_quic_wire_decode_frame_max_data(PACKET *pkt,
    uint64_t *max_data)
{
    quic_wire_frame frame;

    if (!decode_frame(pkt, NEAR(max_data, pkt, &frame),
            QUIC_WIRE_FRAME_MAX_DATA, &frame))
        return 0;

    *max_data = frame.limit.limit;
    return 1;
}

int ossl_quic_wire_decode_frame_max_stream_data(PACKET *pkt,
    uint64_t *stream_id,
    uint64_t *max_stream_data)
{
    quic_wire_frame frame;

    if (!decode_frame(pkt, NEAR(max_stream_data, pkt, &frame),
            QUIC_WIRE_FRAME_MAX_STREAM_DATA, &frame))
        return 0;

    *stream_id = frame.limit.stream_id;
    *max_stream_data = frame.limit.limit;
    return 1;
}

int ossl_quic_wire_decode_frame_max_streams(PACKET *pkt,
    uint64_t *max_streams)
{
    quic_wire_frame frame;
    size_t end = NEAR(max_streams_bidi, pkt, &frame);

    if (end == 0)
        end = NEAR(max_streams_uni, pkt, &frame);
    if (!decode_either(pkt, end, QUIC_WIRE_FRAME_MAX_STREAMS_BIDI,
            QUIC_WIRE_FRAME_MAX_STREAMS_UNI, &frame))
        return 0;

    *max_streams = frame.limit.limit;
    return 1;
}

int ossl_quic_wire_decode_frame_data_blocked(PACKET *pkt,
    uint64_t *max_data)
{
    quic_wire_frame frame;

    if (!decode_frame(pkt, NEAR(data_blocked, pkt, &frame),
            QUIC_WIRE_FRAME_DATA_BLOCKED, &frame))
        return 0;

    *max_data = frame.limit.limit;
    return 1;
}

int ossl_quic_wire_decode_frame_stream_data_blocked(PACKET *pkt,
    uint64_t *stream_id,
    uint64_t *max_stream_data)
{
    quic_wire_frame frame;

    if (!decode_frame(pkt, NEAR(stream_data_blocked, pkt, &frame),
            QUIC_WIRE_FRAME_STREAM_DATA_BLOCKED, &frame))
        return 0;

    *stream_id = frame.limit.stream_id;
    *max_stream_data = frame.limit.limit;
    return 1;
}

int ossl_quic_wire_decode_frame_streams_blocked(PACKET *pkt,
    uint64_t *max_streams)
{
    quic_wire_frame frame;
    size_t end = NEAR(streams_blocked_bidi, pkt, &frame);

    if (end == 0)
        end = NEAR(streams_blocked_uni, pkt, &frame);
    if (!decode_either(pkt, end, QUIC_WIRE_FRAME_STREAMS_BLOCKED_BIDI,
            QUIC_WIRE_FRAME_STREAMS_BLOCKED_UNI, &frame))
        return 0;

    *max_streams = frame.limit.limit;
    return 1;
}

int ossl_quic_wire_decode_frame_new_conn_id(PACKET *pkt,
    OSSL_QUIC_FRAME_NEW_CONN_ID *f)
{
    const unsigned char *id = PACKET_data(pkt);
    quic_wire_frame frame;

    if (!decode_frame(pkt, NEAR(new_connection_id, pkt, &frame),
            QUIC_WIRE_FRAME_NEW_CONNECTION_ID, &frame))
        return 0;

    id += frame.data;
    f->seq_num = frame.new_connection_id.sequence;
    f->retire_prior_to = frame.new_connection_id.retire_prior_to;
    /* Clear unused bytes to allow consistent memcmp. */
    memset(&f->conn_id, 0, sizeof(f->conn_id));
    f->conn_id.id_len = (unsigned char)frame.datalen;
    memcpy(f->conn_id.id, id, frame.datalen);
    memcpy(f->stateless_reset.token, id + frame.datalen,
        sizeof(f->stateless_reset.token));
    return 1;
}

int ossl_quic_wire_decode_frame_retire_conn_id(PACKET *pkt,
    uint64_t *seq_num)
{
    quic_wire_frame frame;

    if (!decode_frame(pkt, NEAR(retire_connection_id, pkt, &frame),
            QUIC_WIRE_FRAME_RETIRE_CONNECTION_ID, &frame))
        return 0;

    *seq_num = frame.retire_connection_id.sequence;
    return 1;
}

int ossl_quic_wire_decode_frame_path_challenge(PACKET *pkt,
    uint64_t *data)
{
    quic_wire_frame frame;

    if (!decode_frame(pkt, NEAR(path_challenge, pkt, &frame),
            QUIC_WIRE_FRAME_PATH_CHALLENGE, &frame))
        return 0;

    *data = frame.path.data;
    return 1;
}

int ossl_quic_wire_decode_frame_path_response(PACKET *pkt,
    uint64_t *data)
{
    quic_wire_frame frame;

    if (!decode_frame(pkt, NEAR(path_response, pkt, &frame),
            QUIC_WIRE_FRAME_PATH_RESPONSE, &frame))
        return 0;

    *data = frame.path.data;
    return 1;
}

int ossl_quic_wire_decode_frame_conn_close(PACKET *pkt,
    OSSL_QUIC_FRAME_CONN_CLOSE *f)
{
    const unsigned char *payload = PACKET_data(pkt);
    quic_wire_frame frame;
    size_t end = NEAR(connection_close, pkt, &frame);

    if (end == 0)
        end = NEAR(application_close, pkt, &frame);
    if (!decode_either(pkt, end, QUIC_WIRE_FRAME_CONNECTION_CLOSE,
            QUIC_WIRE_FRAME_APPLICATION_CLOSE, &frame))
        return 0;

    f->is_app = frame.kind == QUIC_WIRE_FRAME_APPLICATION_CLOSE;
    f->error_code = frame.close.error_code;
    f->frame_type = frame.close.frame_type;
    f->reason = (char *)payload + frame.data;
    f->reason_len = frame.datalen;
    return 1;
}

size_t ossl_quic_wire_decode_padding(PACKET *pkt)
{
    quic_wire_frame frame;

    if (PACKET_remaining(pkt) == 0
        || *PACKET_data(pkt) != OSSL_QUIC_FRAME_TYPE_PADDING
        || !decode_by_call(pkt, QUIC_WIRE_FRAME_PADDING,
            QUIC_WIRE_FRAME_PADDING, &frame))
        return 0;

    return frame.end;
}

int ossl_quic_wire_decode_frame_ping(PACKET *pkt)
{
    quic_wire_frame frame;

    return decode_frame(pkt, NEAR(ping, pkt, &frame),
        QUIC_WIRE_FRAME_PING, &frame);
}

int ossl_quic_wire_decode_frame_handshake_done(PACKET *pkt)
{
    quic_wire_frame frame;

    return decode_frame(pkt, NEAR(handshake_done, pkt, &frame),
        QUIC_WIRE_FRAME_HANDSHAKE_DONE, &frame);
}
