/* A driver for the wire layer of OpenSSL 4.0, with whose built tree it is linked. ssl/quic/quic_channel.c, which has
 * the reader of transport parameters, is included, since that is static.  What OpenSSL checks when it uses a frame
 * (quic_rx_depack.c) is done here: types that aren't shortest, counts of streams, empty tokens. */
#include "ssl/quic/quic_channel.c"
#include <openssl/ssl.h>
#include "internal/quic_ssl.h"
#include "../driver.h"

static const char *const FRAME_ERROR = "FRAME_ENCODING_ERROR";

/* Frames.  Each reader returns the code with which the connection is closed, or NULL. */

static const char *show_ack(PACKET *pkt) {
  OSSL_QUIC_FRAME_ACK f = {0};
  uint64_t count;
  size_t i;
  int ok;
  if (!ossl_quic_wire_peek_frame_ack_num_ranges(pkt, &count)) return FRAME_ERROR;
  f.ack_ranges = calloc(count, sizeof *f.ack_ranges);
  f.num_ack_ranges = count;
  ok = ossl_quic_wire_decode_frame_ack(pkt, 0, &f, NULL);
  if (ok) {
    ack(ossl_time2us(f.delay_time));
    for (i = 0; i < f.num_ack_ranges; ++i) range(f.ack_ranges[i].start, f.ack_ranges[i].end);
    ack_end();
    if (f.ecn_present) {
      number("ect0_count", f.ect0);
      number("ect1_count", f.ect1);
      number("ecn_ce_count", f.ecnce);
    }
  }
  free(f.ack_ranges);
  return ok ? NULL : FRAME_ERROR;
}

static const char *show_reset(PACKET *pkt) {
  OSSL_QUIC_FRAME_RESET_STREAM f;
  if (!ossl_quic_wire_decode_frame_reset_stream(pkt, &f)) return FRAME_ERROR;
  error_on("RESET_STREAM", f.stream_id, f.app_error_code);
  number("final_size", f.final_size);
  return NULL;
}

static const char *show_stop(PACKET *pkt) {
  OSSL_QUIC_FRAME_STOP_SENDING f;
  if (!ossl_quic_wire_decode_frame_stop_sending(pkt, &f)) return FRAME_ERROR;
  error_on("STOP_SENDING", f.stream_id, f.app_error_code);
  return NULL;
}

static const char *show_crypto(PACKET *pkt) {
  OSSL_QUIC_FRAME_CRYPTO f;
  if (!ossl_quic_wire_decode_frame_crypto(pkt, 0, &f)) return FRAME_ERROR;
  begin("CRYPTO");
  number("offset", f.offset);
  bytes("crypto_data", f.data, f.len);
  return NULL;
}

static const char *show_stream(PACKET *pkt) {
  OSSL_QUIC_FRAME_STREAM f;
  if (!ossl_quic_wire_decode_frame_stream(pkt, 0, &f)) return FRAME_ERROR;
  begin("STREAM");
  number("stream_id", f.stream_id);
  number("fin", f.is_fin);
  number("offset", f.offset);
  bytes("stream_data", f.data, f.len);
  return NULL;
}

static const char *show_token(PACKET *pkt) {
  const unsigned char *token;
  size_t len;
  if (!ossl_quic_wire_decode_frame_new_token(pkt, &token, &len) || len == 0) return FRAME_ERROR;
  begin("NEW_TOKEN");
  bytes("token", token, len);
  return NULL;
}

/* A count of streams above 2^60 is rejected: of blocked ones with another code than of granted ones. */
static const char *show_streams(PACKET *pkt, uint64_t type) {
  int is_grant = type <= OSSL_QUIC_FRAME_TYPE_MAX_STREAMS_UNI;
  uint64_t most;
  if (!(is_grant ? ossl_quic_wire_decode_frame_max_streams(pkt, &most)
                 : ossl_quic_wire_decode_frame_streams_blocked(pkt, &most)))
    return FRAME_ERROR;
  if (most > (uint64_t)1 << 60) return is_grant ? FRAME_ERROR : "STREAM_LIMIT_ERROR";
  streams(is_grant ? "MAX_STREAMS" : "STREAMS_BLOCKED", (type & 1) == 0, most);
  return NULL;
}

static const char *show_limit(PACKET *pkt, uint64_t type) {
  uint64_t stream, most;
  switch (type) {
  case OSSL_QUIC_FRAME_TYPE_MAX_DATA:
    if (!ossl_quic_wire_decode_frame_max_data(pkt, &most)) return FRAME_ERROR;
    limit("MAX_DATA", NULL, most);
    return NULL;
  case OSSL_QUIC_FRAME_TYPE_DATA_BLOCKED:
    if (!ossl_quic_wire_decode_frame_data_blocked(pkt, &most)) return FRAME_ERROR;
    limit("DATA_BLOCKED", NULL, most);
    return NULL;
  case OSSL_QUIC_FRAME_TYPE_MAX_STREAM_DATA:
    if (!ossl_quic_wire_decode_frame_max_stream_data(pkt, &stream, &most)) return FRAME_ERROR;
    limit("MAX_STREAM_DATA", &stream, most);
    return NULL;
  case OSSL_QUIC_FRAME_TYPE_STREAM_DATA_BLOCKED:
    if (!ossl_quic_wire_decode_frame_stream_data_blocked(pkt, &stream, &most)) return FRAME_ERROR;
    limit("STREAM_DATA_BLOCKED", &stream, most);
    return NULL;
  default: return show_streams(pkt, type);
  }
}

static const char *show_new_id(PACKET *pkt) {
  OSSL_QUIC_FRAME_NEW_CONN_ID f;
  if (!ossl_quic_wire_decode_frame_new_conn_id(pkt, &f)) return FRAME_ERROR;
  begin("NEW_CONNECTION_ID");
  number("sequence_number", f.seq_num);
  number("retire_prior_to", f.retire_prior_to);
  bytes("connection_id", f.conn_id.id, f.conn_id.id_len);
  bytes("stateless_reset_token", f.stateless_reset.token, sizeof f.stateless_reset.token);
  return NULL;
}

static const char *show_path(PACKET *pkt, int is_challenge) {
  uint64_t data;
  unsigned char eight[8];
  int i;
  if (!(is_challenge ? ossl_quic_wire_decode_frame_path_challenge(pkt, &data)
                     : ossl_quic_wire_decode_frame_path_response(pkt, &data)))
    return FRAME_ERROR;
  for (i = 0; i < 8; ++i) eight[i] = (unsigned char)(data >> (56 - 8 * i));
  begin(is_challenge ? "PATH_CHALLENGE" : "PATH_RESPONSE");
  bytes("data", eight, sizeof eight);
  return NULL;
}

static const char *show_close(PACKET *pkt) {
  OSSL_QUIC_FRAME_CONN_CLOSE f;
  if (!ossl_quic_wire_decode_frame_conn_close(pkt, &f)) return FRAME_ERROR;
  begin("CONNECTION_CLOSE");
  text("layer", f.is_app ? "application" : "transport");
  number("error_code", f.error_code);
  if (!f.is_app) number("frame_type", f.frame_type);
  bytes("reason_phrase", f.reason, f.reason_len);
  return NULL;
}

static const char *show_retired(PACKET *pkt) {
  uint64_t sequence;
  if (!ossl_quic_wire_decode_frame_retire_conn_id(pkt, &sequence)) return FRAME_ERROR;
  begin("RETIRE_CONNECTION_ID");
  number("sequence_number", sequence);
  return NULL;
}

static const char *show(PACKET *pkt, uint64_t type) {
  switch (type) {
  case OSSL_QUIC_FRAME_TYPE_PADDING:
    begin("PADDING"), number("count", ossl_quic_wire_decode_padding(pkt));
    return NULL;
  case OSSL_QUIC_FRAME_TYPE_PING: return begin("PING"), ossl_quic_wire_decode_frame_ping(pkt) ? NULL : FRAME_ERROR;
  case OSSL_QUIC_FRAME_TYPE_HANDSHAKE_DONE:
    return begin("HANDSHAKE_DONE"), ossl_quic_wire_decode_frame_handshake_done(pkt) ? NULL : FRAME_ERROR;
  case OSSL_QUIC_FRAME_TYPE_ACK_WITHOUT_ECN:
  case OSSL_QUIC_FRAME_TYPE_ACK_WITH_ECN: return show_ack(pkt);
  case OSSL_QUIC_FRAME_TYPE_RESET_STREAM: return show_reset(pkt);
  case OSSL_QUIC_FRAME_TYPE_STOP_SENDING: return show_stop(pkt);
  case OSSL_QUIC_FRAME_TYPE_CRYPTO: return show_crypto(pkt);
  case OSSL_QUIC_FRAME_TYPE_NEW_TOKEN: return show_token(pkt);
  case OSSL_QUIC_FRAME_TYPE_NEW_CONN_ID: return show_new_id(pkt);
  case OSSL_QUIC_FRAME_TYPE_RETIRE_CONN_ID: return show_retired(pkt);
  case OSSL_QUIC_FRAME_TYPE_PATH_CHALLENGE: return show_path(pkt, 1);
  case OSSL_QUIC_FRAME_TYPE_PATH_RESPONSE: return show_path(pkt, 0);
  case OSSL_QUIC_FRAME_TYPE_CONN_CLOSE_TRANSPORT:
  case OSSL_QUIC_FRAME_TYPE_CONN_CLOSE_APP: return show_close(pkt);
  default:
    if (type >= OSSL_QUIC_FRAME_TYPE_STREAM && type <= OSSL_QUIC_FRAME_TYPE_STREAM_OFF_LEN_FIN) return show_stream(pkt);
    if (type >= OSSL_QUIC_FRAME_TYPE_MAX_DATA && type <= OSSL_QUIC_FRAME_TYPE_STREAMS_BLOCKED_UNI)
      return show_limit(pkt, type);
    return FRAME_ERROR;
  }
}

static int payload(void) {
  PACKET pkt;
  if (!PACKET_buf_init(&pkt, input, input_len) || input_len == 0) return refuse("PROTOCOL_VIOLATION", 0);
  while (PACKET_remaining(&pkt) > 0) {
    size_t at = input_len - PACKET_remaining(&pkt);
    uint64_t type;
    int is_shortest;
    const char *code;
    if (!ossl_quic_wire_peek_frame_header(&pkt, &type, &is_shortest) || !is_shortest)
      return refuse("PROTOCOL_VIOLATION", at);
    code = show(&pkt, type);
    if (code) return refuse(code, at);
    end();
  }
  return accept_read();
}

/* Transport parameters, with a new channel for each list. */

static SSL_CTX *ctx;

/* The ids of the handshake, as in the list, so that it is accepted. */
static void take_ids(QUIC_CHANNEL *ch) {
  PACKET pkt;
  uint64_t id;
  size_t len;
  const unsigned char *value;
  ch->init_dcid.id_len = ch->init_scid.id_len = ch->cur_remote_dcid.id_len = 0;
  if (!PACKET_buf_init(&pkt, input, input_len)) return;
  while ((value = ossl_quic_wire_decode_transport_param_bytes(&pkt, &id, &len)) != NULL) {
    QUIC_CONN_ID *to = id == QUIC_TPARAM_ORIG_DCID      ? &ch->init_dcid
                       : id == QUIC_TPARAM_INITIAL_SCID ? &ch->init_scid
                       : id == QUIC_TPARAM_RETRY_SCID   ? &ch->retry_scid
                                                        : NULL;
    if (id == QUIC_TPARAM_RETRY_SCID) ch->doing_retry = 1;
    if (to == NULL || len > QUIC_MAX_CONN_ID_LEN) continue;
    to->id_len = (unsigned char)len;
    memcpy(to->id, value, len);
    if (id == QUIC_TPARAM_INITIAL_SCID) ch->cur_remote_dcid = *to;
  }
}

static void show_params(const QUIC_CHANNEL *ch) {
  number("max_idle_timeout", ch->max_idle_timeout_remote_req);
  number("initial_max_data", ossl_quic_txfc_get_cwm((QUIC_TXFC *)&ch->conn_txfc));
  number("initial_max_stream_data_bidi_local", ch->rx_init_max_stream_data_bidi_remote);
  number("initial_max_stream_data_bidi_remote", ch->rx_init_max_stream_data_bidi_local);
  number("initial_max_stream_data_uni", ch->rx_init_max_stream_data_uni);
  number("initial_max_streams_bidi", ch->max_local_streams_bidi);
  number("initial_max_streams_uni", ch->max_local_streams_uni);
  number("ack_delay_exponent", ch->rx_ack_delay_exp);
  number("max_ack_delay", ch->rx_max_ack_delay);
  number("active_connection_id_limit", ch->rx_active_conn_id_limit);
  /* An absent one is 1200 here. */
  if (ch->rx_max_udp_payload_size != QUIC_MIN_INITIAL_DGRAM_LEN)
    number("max_udp_payload_size", ch->rx_max_udp_payload_size);
  text("?", "");
}

static int params(int is_server) {
  SSL *ssl;
  QUIC_CHANNEL *ch;
  uint64_t code;
  int is_read;
  if (!ctx) ctx = SSL_CTX_new(OSSL_QUIC_client_method());
  ssl = SSL_new(ctx);
  ch = ossl_quic_conn_get_channel(ssl);
  take_ids(ch);
  ch->is_server = is_server;
  ch->state = QUIC_CHANNEL_STATE_ACTIVE;
  is_read = ch_on_transport_params(input, input_len, ch);
  code = ch->terminate_cause.error_code;
  if (is_read) show_params(ch);
  ch->is_server = 0;
  ERR_clear_error();
  SSL_free(ssl);
  return is_read ? accept_read() : refuse_list(code_name(code));
}

/* Packets. */

static void show_ids(const QUIC_PKT_HDR *hdr) {
  bytes("dcid", hdr->dst_conn_id.id, hdr->dst_conn_id.id_len);
  if (hdr->type != QUIC_PKT_TYPE_1RTT) bytes("scid", hdr->src_conn_id.id, hdr->src_conn_id.id_len);
}

static void show_packet(const QUIC_PKT_HDR *hdr, const QUIC_PKT_HDR_PTRS *ptrs, const unsigned char *packet_end) {
  static const char *const kinds[] = {"", "Initial", "0-RTT", "Handshake", "Retry", "1-RTT", "Version Negotiation"};
  char version[9];
  begin(kinds[hdr->type]);
  show_ids(hdr);
  if (hdr->type != QUIC_PKT_TYPE_1RTT) {
    snprintf(version, sizeof version, "%08x", (unsigned)hdr->version);
    text("version", version);
  }
  if (hdr->type == QUIC_PKT_TYPE_INITIAL) bytes("token", hdr->token, hdr->token_len);
  if (ptrs->raw_pn) {
    number("packet_number_at", (uint64_t)(ptrs->raw_pn - input));
    number("end", (uint64_t)(packet_end - input));
  }
  end();
}

static int datagram(size_t cidlen) {
  PACKET pkt;
  if (!PACKET_buf_init(&pkt, input, input_len)) return skip();
  while (PACKET_remaining(&pkt) > 0) {
    size_t at = input_len - PACKET_remaining(&pkt);
    QUIC_PKT_HDR hdr = {0};
    QUIC_PKT_HDR_PTRS ptrs;
    uint64_t cause = 0;
    if (!ossl_quic_wire_decode_pkt_hdr(&pkt, cidlen, 1, 0, &hdr, &ptrs, &cause)) {
      if (!(cause & QUIC_PKT_HDR_DECODE_BAD_VERSION)) return refuse("DROP", at);
      begin("unknown version");
      if (!at) show_ids(&hdr); /* behind another packet it isn't answered */
      end();
      break;
    }
    show_packet(&hdr, &ptrs, PACKET_data(&pkt));
    if (ossl_quic_pkt_type_must_be_last(hdr.type)) break;
  }
  return accept_read();
}

/* Numbers. */

static uint64_t number_of(const char *name, uint64_t absent) {
  const char *value = context(name);
  return value && *value != '-' ? strtoull(value, NULL, 10) : absent;
}

static int expand(void) {
  size_t len = (size_t)number_of("bits", 0) / 8;
  unsigned char written[4];
  QUIC_PN pn;
  if (!ossl_quic_wire_encode_pkt_hdr_pn(number_of("written", 0), written, len) ||
      !ossl_quic_wire_decode_pkt_hdr_pn(written, len, number_of("largest", QUIC_PN_INVALID), &pn))
    return puts("invalid"), 0;
  return printf("valid \"%" PRIu64 "\"\n", pn), 0;
}

static int number_length(void) {
  int len = ossl_quic_wire_determine_pn_len(number_of("number", 0), number_of("acked", QUIC_PN_INVALID));
  return printf("valid \"%d\"\n", len), 0;
}

static int answer(void) {
  const char *cidlen = context("cid_len");
  if (context("packet") || context("grease") || context("extension") || context("complete")) return skip();
  if (!strcmp(form, "payload")) return payload();
  if (!strcmp(form, "params")) return params(is_context("from", "client"));
  if (!strcmp(form, "number-expand")) return expand();
  if (!strcmp(form, "number-length")) return number_length();
  return strcmp(form, "datagram") ? skip() : datagram(cidlen ? (size_t)number_of("cid_len", 0) : 8);
}
