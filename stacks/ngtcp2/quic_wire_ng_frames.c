/* ngtcp2's readers and writers of frames, with quic_wire.h and
 * quic_wire_near.h. */
#include <string.h>

#include "ngtcp2_cid.h"
#include "ngtcp2_str.h"
#include "quic_wire_near.h"
#include "quic_wire_ng.h"

/* ---- Read */

/* The ranges of an ACK are in |dest| already, as ngtcp2 keeps them: each as the
 * gap above it and how many numbers it has after its first, both less one.
 * Those that don't fit were checked, and are left out. */
static int ack_of(ngtcp2_ack *dest, const quic_wire_frame *f) {
  dest->largest_ack = (int64_t)f->ack.largest;
  dest->ack_delay = f->ack.delay;
  dest->ack_delay_unscaled = 0;
  dest->ecn.ect0 = f->ack.ect0;
  dest->ecn.ect1 = f->ack.ect1;
  dest->ecn.ce = f->ack.ce;
  dest->first_ack_range = f->first_range;
  dest->rangecnt = f->ngaps;
  return 0;
}

static void data_of(ngtcp2_vec *data, size_t *cnt, const quic_wire_frame *f,
                    const uint8_t *payload) {
  *cnt = f->datalen != 0;
  data->len = f->datalen;
  data->base = f->datalen ? (uint8_t *)payload + f->data : NULL;
}

static inline int stream_of(NG_BESIDE(ngtcp2_frame_decoder *room)
                                ngtcp2_stream *dest,
                            const quic_wire_frame *f, const uint8_t *payload) {
  dest->type = NGTCP2_FRAME_STREAM;
  dest->flags = f->type & 0x7;
  dest->fin = (uint8_t)f->flags;
  dest->stream_id = (int64_t)f->stream.stream_id;
  dest->offset = f->stream.offset;
  data_of(NG_PLACE(dest->data, &room->buf.data), &dest->datacnt, f, payload);
  return 0;
}

static void crypto_of(NG_BESIDE(ngtcp2_frame_decoder *room)
                          quic_wire_ng_crypto *dest,
                      const quic_wire_frame *f, const uint8_t *payload) {
#if QUIC_WIRE_NG_1 /* a STREAM without its own fields */
  dest->flags = 0;
  dest->fin = 0;
  dest->stream_id = 0;
#endif
  dest->offset = f->crypto.offset;
  data_of(NG_PLACE(dest->data, &room->buf.data), &dest->datacnt, f, payload);
}

static void datagram_of(NG_BESIDE(ngtcp2_frame_decoder *room)
                            ngtcp2_datagram *dest,
                        const quic_wire_frame *f, const uint8_t *payload) {
#if QUIC_WIRE_NG_1_24
  data_of(dest->data = &room->buf.data, &dest->datacnt, f, payload);
#else
  data_of(dest->rdata, &dest->datacnt, f, payload);
  dest->data = f->datalen ? dest->rdata : NULL;
#endif
}

/* ngtcp2's form of |f|, a frame without data that was read from |payload|. */
static int numbers_of(ngtcp2_frame *dest, const quic_wire_frame *f,
                      const uint8_t *payload) {
  switch (f->kind) {
  case QUIC_WIRE_FRAME_PADDING:
    dest->padding.len = f->end - f->begin;
    return 0;
  case QUIC_WIRE_FRAME_PING:
  case QUIC_WIRE_FRAME_HANDSHAKE_DONE:
    return 0;
  case QUIC_WIRE_FRAME_RESET_STREAM:
    dest->reset_stream.stream_id = (int64_t)f->reset_stream.stream_id;
    dest->reset_stream.app_error_code = f->reset_stream.error_code;
    dest->reset_stream.final_size = f->reset_stream.final_size;
    return 0;
  case QUIC_WIRE_FRAME_STOP_SENDING:
    dest->stop_sending.stream_id = (int64_t)f->stop_sending.stream_id;
    dest->stop_sending.app_error_code = f->stop_sending.error_code;
    return 0;
  case QUIC_WIRE_FRAME_MAX_DATA:
    dest->max_data.max_data = f->limit.limit;
    return 0;
  case QUIC_WIRE_FRAME_MAX_STREAM_DATA:
    dest->max_stream_data.stream_id = (int64_t)f->limit.stream_id;
    dest->max_stream_data.max_stream_data = f->limit.limit;
    return 0;
  case QUIC_WIRE_FRAME_MAX_STREAMS_BIDI:
  case QUIC_WIRE_FRAME_MAX_STREAMS_UNI:
    dest->max_streams.max_streams = f->limit.limit;
    return 0;
  case QUIC_WIRE_FRAME_DATA_BLOCKED:
    dest->data_blocked.offset = f->limit.limit;
    return 0;
  case QUIC_WIRE_FRAME_STREAM_DATA_BLOCKED:
    dest->stream_data_blocked.stream_id = (int64_t)f->limit.stream_id;
    dest->stream_data_blocked.offset = f->limit.limit;
    return 0;
  case QUIC_WIRE_FRAME_STREAMS_BLOCKED_BIDI:
  case QUIC_WIRE_FRAME_STREAMS_BLOCKED_UNI:
    dest->streams_blocked.max_streams = f->limit.limit;
    return 0;
  case QUIC_WIRE_FRAME_RETIRE_CONNECTION_ID:
    dest->retire_connection_id.seq = f->retire_connection_id.sequence;
    return 0;
  case QUIC_WIRE_FRAME_PATH_CHALLENGE:
  case QUIC_WIRE_FRAME_PATH_RESPONSE:
    memcpy(&dest->path_challenge.data, payload + f->end - 8, 8);
    return 0;
  default: /* none: IMMEDIATE_ACK and ACK_FREQUENCY are unknown types here */
    return NGTCP2_ERR_FRAME_ENCODING;
  }
}

/* ngtcp2's form of |f|, read from |payload|. */
static int frame_of(NG_BESIDE(ngtcp2_frame_decoder *room) ngtcp2_frame *dest,
                    const quic_wire_frame *f, const uint8_t *payload) {
  dest->ping.type = (uint8_t)f->type; /* where all kinds have it */
  switch (f->kind) {
  case QUIC_WIRE_FRAME_ACK:
    (void)NG_PLACE(dest->ack.ranges, room->buf.ack_ranges);
    return ack_of(&dest->ack, f);
  case QUIC_WIRE_FRAME_STREAM:
    return stream_of(NG_BESIDE(room) & dest->stream, f, payload);
  case QUIC_WIRE_FRAME_CRYPTO:
    crypto_of(NG_BESIDE(room)(quic_wire_ng_crypto *) dest, f, payload);
    return 0;
  case QUIC_WIRE_FRAME_NEW_TOKEN:
    NG_TOKENLEN(&dest->new_token) = f->datalen;
    NG_TOKEN(&dest->new_token) = (uint8_t *)payload + f->data;
    return 0;
  case QUIC_WIRE_FRAME_NEW_CONNECTION_ID:
    dest->new_connection_id.seq = f->new_connection_id.sequence;
    dest->new_connection_id.retire_prior_to =
        f->new_connection_id.retire_prior_to;
    ngtcp2_cid_init(&dest->new_connection_id.cid, payload + f->data,
                    f->datalen);
    memcpy(NG_RESET_TOKEN(&dest->new_connection_id),
           payload + f->data + f->datalen, NGTCP2_STATELESS_RESET_TOKENLEN);
    return 0;
  case QUIC_WIRE_FRAME_CONNECTION_CLOSE:
  case QUIC_WIRE_FRAME_APPLICATION_CLOSE:
    dest->connection_close.error_code = f->close.error_code;
    dest->connection_close.frame_type = f->close.frame_type;
    dest->connection_close.reasonlen = f->datalen;
    dest->connection_close.reason =
        f->datalen ? (uint8_t *)payload + f->data : NULL;
    return 0;
  case QUIC_WIRE_FRAME_DATAGRAM:
    datagram_of(NG_BESIDE(room) & dest->datagram, f, payload);
    return 0;
  default:
    return numbers_of(dest, f, payload);
  }
}

/* Frames other than STREAM are read out of line, so that STREAM, which carries
 * most of the bytes, saves no registers for them. */
#if defined(__GNUC__)
#define OUT_OF_LINE __attribute__((noinline))
#else
#define OUT_OF_LINE
#endif

/* Reads the frame at the front, as ngtcp2 has it: a run of PADDING is one
 * frame, and an ACK's ranges are gaps and lengths, which are written where they
 * belong. */
OUT_OF_LINE static ngtcp2_ssize
decode_any(NG_BESIDE(ngtcp2_frame_decoder *room) ngtcp2_frame *dest,
           const uint8_t *payload, size_t payloadlen) {
#if QUIC_WIRE_NG_1_24
  ngtcp2_ack_range *ranges = room->buf.ack_ranges;
#else
  ngtcp2_ack_range *ranges = dest->ack.ranges;
#endif
  quic_wire_frame f;
  int rv;

  if (quic_wire_frame_read_near(payload, payloadlen, QUIC_WIRE_READ_RFC, &f,
                                (quic_wire_gap *)ranges,
                                NGTCP2_MAX_ACK_RANGES) < 0) {
    return NGTCP2_ERR_FRAME_ENCODING;
  }
  rv = frame_of(NG_BESIDE(room) dest, &f, payload);
  return rv ? rv : (ngtcp2_ssize)f.end;
}

ngtcp2_ssize ngtcp2_pkt_decode_frame(NG_BESIDE(ngtcp2_frame_decoder *room)
                                         ngtcp2_frame *dest,
                                     const uint8_t *payload,
                                     size_t payloadlen) {
  quic_wire_frame f;
  size_t end = quic_wire_stream_read(payload, payloadlen, &f);

  if (!end) {
    return decode_any(NG_BESIDE(room) dest, payload, payloadlen);
  }
  stream_of(NG_BESIDE(room) & dest->stream, &f, payload);
  return (ngtcp2_ssize)end;
}

/* The readers of one kind each, which ngtcp2's tests call. A decoder is a union
 * of what may come with a frame, so both are at the same address. */
#define READER_OF(NAME, TYPE, ROOM)                                            \
  ngtcp2_ssize ngtcp2_pkt_decode_##NAME##_frame(                               \
      TYPE *dest, const uint8_t *payload, size_t payloadlen) {                 \
    return ngtcp2_pkt_decode_frame(                                            \
        NG_BESIDE((ngtcp2_frame_decoder *)(ROOM))(ngtcp2_frame *) dest,        \
        payload, payloadlen);                                                  \
  }
#define READER(NAME)                                                           \
  READER_OF(NAME, ngtcp2_##NAME, &(ngtcp2_frame_decoder){{{0}}})
READER_OF(stream, ngtcp2_stream, dest->data)
READER_OF(ack, ngtcp2_ack, dest->ranges)
READER(padding)
READER(reset_stream)
READER(connection_close)
READER(max_data)
READER(max_stream_data)
READER(max_streams)
READER(ping)
READER(data_blocked)
READER(stream_data_blocked)
READER(streams_blocked)
READER(new_connection_id)
READER(stop_sending)
READER(path_challenge)
READER(path_response)
READER_OF(crypto, quic_wire_ng_crypto, dest->data)
READER(new_token)
READER(retire_connection_id)
READER(handshake_done)
READER_OF(datagram, ngtcp2_datagram, dest->data)

/* ---- Written */

static ngtcp2_ssize written(int answer, size_t n) {
  switch (answer) {
  case QUIC_WIRE_OK:
    return (ngtcp2_ssize)n;
  case QUIC_WIRE_ERR_NOBUF:
    return NGTCP2_ERR_NOBUF;
  default:
    return NGTCP2_ERR_INVALID_ARGUMENT;
  }
}

/* Writes a frame of up to three numbers, followed by |data|. */
static ngtcp2_ssize put(uint8_t *out, size_t outlen, uint16_t kind, uint64_t a,
                        uint64_t b, uint64_t c, const uint8_t *data,
                        size_t datalen, size_t taillen) {
  quic_wire_frame f = {.kind = kind, .datalen = datalen, .numbers = {a, b, c}};
  size_t n = 0;
  int rv =
      quic_wire_frame_write(&f, data, datalen + taillen, 0, out, outlen, &n);
  return written(rv, n);
}

/* A frame of numbers: |NEAR| writes it, which returns 0 if there is no room for
 * it or a number is too large. */
#define WRITER(NAME, NEAR, KIND, A, B, C)                                      \
  ngtcp2_ssize ngtcp2_pkt_encode_##NAME##_frame(uint8_t *out, size_t outlen,   \
                                                const ngtcp2_##NAME *fr) {     \
    size_t n = NEAR;                                                           \
    (void)fr;                                                                  \
    return n ? (ngtcp2_ssize)n                                                 \
             : put(out, outlen, KIND, A, B, C, NULL, 0, 0);                    \
  }
WRITER(ping, quic_wire_ping_write(out, outlen), QUIC_WIRE_FRAME_PING, 0, 0, 0)
WRITER(handshake_done, quic_wire_handshake_done_write(out, outlen),
       QUIC_WIRE_FRAME_HANDSHAKE_DONE, 0, 0, 0)
WRITER(reset_stream,
       quic_wire_reset_stream_write((uint64_t)fr->stream_id, fr->app_error_code,
                                    fr->final_size, out, outlen),
       QUIC_WIRE_FRAME_RESET_STREAM, (uint64_t)fr->stream_id,
       fr->app_error_code, fr->final_size)
WRITER(stop_sending,
       quic_wire_stop_sending_write((uint64_t)fr->stream_id, fr->app_error_code,
                                    out, outlen),
       QUIC_WIRE_FRAME_STOP_SENDING, (uint64_t)fr->stream_id,
       fr->app_error_code, 0)
WRITER(max_data, quic_wire_max_data_write(fr->max_data, out, outlen),
       QUIC_WIRE_FRAME_MAX_DATA, 0, fr->max_data, 0)
WRITER(max_stream_data,
       quic_wire_max_stream_data_write((uint64_t)fr->stream_id,
                                       fr->max_stream_data, out, outlen),
       QUIC_WIRE_FRAME_MAX_STREAM_DATA, (uint64_t)fr->stream_id,
       fr->max_stream_data, 0)
WRITER(max_streams,
       fr->type == NGTCP2_FRAME_MAX_STREAMS_BIDI
           ? quic_wire_max_streams_bidi_write(fr->max_streams, out, outlen)
           : quic_wire_max_streams_uni_write(fr->max_streams, out, outlen),
       (uint16_t)fr->type, 0, fr->max_streams, 0)
WRITER(data_blocked, quic_wire_data_blocked_write(fr->offset, out, outlen),
       QUIC_WIRE_FRAME_DATA_BLOCKED, 0, fr->offset, 0)
WRITER(stream_data_blocked,
       quic_wire_stream_data_blocked_write((uint64_t)fr->stream_id, fr->offset,
                                           out, outlen),
       QUIC_WIRE_FRAME_STREAM_DATA_BLOCKED, (uint64_t)fr->stream_id, fr->offset,
       0)
WRITER(streams_blocked,
       fr->type == NGTCP2_FRAME_STREAMS_BLOCKED_BIDI
           ? quic_wire_streams_blocked_bidi_write(fr->max_streams, out, outlen)
           : quic_wire_streams_blocked_uni_write(fr->max_streams, out, outlen),
       (uint16_t)fr->type, 0, fr->max_streams, 0)
WRITER(retire_connection_id,
       quic_wire_retire_connection_id_write(fr->seq, out, outlen),
       QUIC_WIRE_FRAME_RETIRE_CONNECTION_ID, fr->seq, 0, 0)

static uint64_t path_number(const void *data) {
  uint64_t number;
  ngtcp2_get_uint64be(&number, data);
  return number;
}
WRITER(path_challenge,
       quic_wire_path_challenge_write(path_number(&fr->data), out, outlen),
       QUIC_WIRE_FRAME_PATH_CHALLENGE, path_number(&fr->data), 0, 0)
WRITER(path_response,
       quic_wire_path_response_write(path_number(&fr->data), out, outlen),
       QUIC_WIRE_FRAME_PATH_RESPONSE, path_number(&fr->data), 0, 0)

ngtcp2_ssize
ngtcp2_pkt_encode_connection_close_frame(uint8_t *out, size_t outlen,
                                         const ngtcp2_connection_close *fr) {
  return put(out, outlen, (uint16_t)fr->type, fr->error_code,
             fr->type == NGTCP2_FRAME_CONNECTION_CLOSE ? fr->frame_type : 0, 0,
             fr->reason, fr->reasonlen, 0);
}

ngtcp2_ssize ngtcp2_pkt_encode_new_token_frame(uint8_t *out, size_t outlen,
                                               const ngtcp2_new_token *fr) {
  return put(out, outlen, QUIC_WIRE_FRAME_NEW_TOKEN, 0, 0, 0, NG_TOKEN(fr),
             NG_TOKENLEN(fr), 0);
}

ngtcp2_ssize
ngtcp2_pkt_encode_new_connection_id_frame(uint8_t *out, size_t outlen,
                                          const ngtcp2_new_connection_id *fr) {
  uint8_t data[NGTCP2_MAX_CIDLEN + NGTCP2_STATELESS_RESET_TOKENLEN];
  size_t len = fr->cid.datalen;

  memcpy(data, fr->cid.data, len);
  memcpy(data + len, NG_RESET_TOKEN(fr), NGTCP2_STATELESS_RESET_TOKENLEN);
  return put(out, outlen, QUIC_WIRE_FRAME_NEW_CONNECTION_ID, fr->seq,
             fr->retire_prior_to, 0, data, len,
             NGTCP2_STATELESS_RESET_TOKENLEN);
}

/* Writes |f| followed by the |cnt| pieces of |data|, the last bytes of a
 * payload if |last| isn't 0. */
static inline ngtcp2_ssize put_pieces(uint8_t *out, size_t outlen,
                                      quic_wire_frame *f, int last,
                                      const ngtcp2_vec *data, size_t cnt) {
  const ngtcp2_vec *end = data + cnt, *piece;
  size_t len = 0, n = 0;
  uint8_t *p;
  int rv;

  for (piece = data; piece != end; ++piece) {
    len += piece->len;
  }
  f->datalen = len;
  rv = quic_wire_frame_header_write(f, last, out, outlen, &n);
  if (rv != QUIC_WIRE_OK) {
    return written(rv, n);
  }
  if (outlen - n < len) {
    return NGTCP2_ERR_NOBUF;
  }
  p = out + n;
  for (piece = data; piece != end; ++piece) {
    p = piece->len ? ngtcp2_cpymem(p, piece->base, piece->len) : p;
  }
  return p - out;
}

/* What is used from a frame of which only the header is written. */
static inline void header_of(quic_wire_frame *f, uint16_t kind, uint32_t flags,
                             uint64_t id, uint64_t offset) {
  f->kind = kind;
  f->flags = flags;
  f->numbers[0] = id;
  f->numbers[1] = offset;
  f->numbers[2] = f->numbers[3] = f->numbers[4] = 0;
}

ngtcp2_ssize ngtcp2_pkt_encode_stream_frame(uint8_t *out, size_t outlen,
                                            ngtcp2_stream *fr) {
  quic_wire_frame f;
  ngtcp2_ssize n;

  header_of(&f, QUIC_WIRE_FRAME_STREAM, fr->fin ? QUIC_WIRE_FLAG_FIN : 0,
            (uint64_t)fr->stream_id, fr->offset);
  n = put_pieces(out, outlen, &f, 0, fr->data, fr->datacnt);
  if (n > 0) {
    fr->flags = out[0] & 0x7;
  }
  return n;
}

ngtcp2_ssize ngtcp2_pkt_encode_crypto_frame(uint8_t *out, size_t outlen,
                                            const quic_wire_ng_crypto *fr) {
  quic_wire_frame f;

  header_of(&f, QUIC_WIRE_FRAME_CRYPTO, 0, 0, fr->offset);
  return put_pieces(out, outlen, &f, 0, fr->data, fr->datacnt);
}

ngtcp2_ssize ngtcp2_pkt_encode_datagram_frame(uint8_t *out, size_t outlen,
                                              const ngtcp2_datagram *fr) {
  quic_wire_frame f;

  header_of(&f, QUIC_WIRE_FRAME_DATAGRAM, 0, 0, 0);
  return put_pieces(out, outlen, &f, fr->type == NGTCP2_FRAME_DATAGRAM,
                    fr->data, fr->datacnt);
}

ngtcp2_ssize ngtcp2_pkt_encode_ack_frame(uint8_t *out, size_t outlen,
                                         quic_wire_ng_ack_written *fr) {
  quic_wire_frame f;
  size_t n = 0;
  int rv;

  f.kind = QUIC_WIRE_FRAME_ACK;
  f.flags = fr->type == NGTCP2_FRAME_ACK_ECN ? QUIC_WIRE_FLAG_ECN : 0;
  f.first_range = fr->first_ack_range;
  f.ack.largest = (uint64_t)fr->largest_ack;
  f.ack.delay = fr->ack_delay;
  f.ack.ect0 = fr->ecn.ect0;
  f.ack.ect1 = fr->ecn.ect1;
  f.ack.ce = fr->ecn.ce;
  rv = quic_wire_ack_gaps_write(&f, (const quic_wire_gap *)fr->ranges,
                                fr->rangecnt, out, outlen, &n);
  return written(rv, n);
}
