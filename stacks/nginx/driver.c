/* A driver for the wire layer of nginx, which is a server: src/event/quic/ngx_event_quic_transport.c of its source,
 * compiled with this file. An ACK's ranges, and parameters that were read, are checked as ngx_quic_handle_ack_frame and
 * ngx_quic_apply_transport_params do. */
#include <ngx_config.h>
#include <ngx_core.h>
#include <ngx_event.h>
#include <ngx_event_quic_connection.h>
#include <ngx_event_quic_transport.h>
#include "../driver.h"

/* What these parsers call only for logs and memory. */
volatile ngx_msec_t ngx_current_msec;
volatile ngx_cycle_t *ngx_cycle;
void ngx_log_error_core(ngx_uint_t level, ngx_log_t *log, ngx_err_t err, const char *format, ...) {}
void *ngx_alloc(size_t n, ngx_log_t *log) { return malloc(n); }
void *ngx_pnalloc(ngx_pool_t *pool, size_t n) { return malloc(n); }

static ngx_log_t no_log;

/* NULL, or the code with which it is rejected. */
static const char *show_ack(const ngx_quic_ack_frame_t *f, u_char *pos, u_char *last) {
  uint64_t least = f->largest - f->first_range, greatest, gap, count;
  ngx_uint_t i;
  ack(f->delay);
  if (f->first_range > f->largest) return "FRAME_ENCODING_ERROR";
  range(least, f->largest);
  for (i = 0; i < f->range_count; i++) {
    ssize_t n = ngx_quic_parse_ack_range(&no_log, pos, last, &gap, &count);
    if (n < 0) return "?";
    pos += n;
    if (gap + 2 > least) return "FRAME_ENCODING_ERROR";
    greatest = least - gap - 2;
    if (count > greatest) return "FRAME_ENCODING_ERROR";
    least = greatest - count;
    range(least, greatest);
  }
  ack_end();
  return NULL;
}

static void show_stream(const ngx_quic_stream_frame_t *f, const u_char *data) {
  begin("STREAM");
  number("stream_id", f->stream_id);
  number("offset", f->offset);
  number("fin", f->fin);
  bytes("stream_data", data, f->length);
}

static void show_new_id(const ngx_quic_new_conn_id_frame_t *f) {
  begin("NEW_CONNECTION_ID");
  number("sequence_number", f->seqnum);
  number("retire_prior_to", f->retire);
  bytes("connection_id", f->cid, f->len);
  bytes("stateless_reset_token", f->srt, sizeof f->srt);
}

static void show_close(const ngx_quic_close_frame_t *f, int is_transport) {
  begin("CONNECTION_CLOSE");
  text("layer", is_transport ? "transport" : "application");
  number("error_code", f->error_code);
  if (is_transport) number("frame_type", f->frame_type);
  bytes("reason_phrase", f->reason.data, f->reason.len);
}

static void show_crypto(const ngx_quic_crypto_frame_t *f, const u_char *data) {
  begin("CRYPTO");
  number("offset", f->offset);
  bytes("crypto_data", data, f->length);
}

/* Frames of a few numbers. */
static void show_simple(const ngx_quic_frame_t *f, size_t n) {
  switch (f->type) {
  case NGX_QUIC_FT_PADDING: begin("PADDING"), number("count", n); break;
  case NGX_QUIC_FT_PING: begin("PING"); break;
  case NGX_QUIC_FT_STOP_SENDING: error_on("STOP_SENDING", f->u.stop_sending.id, f->u.stop_sending.error_code); break;
  case NGX_QUIC_FT_RESET_STREAM:
    error_on("RESET_STREAM", f->u.reset_stream.id, f->u.reset_stream.error_code);
    number("final_size", f->u.reset_stream.final_size);
    break;
  case NGX_QUIC_FT_MAX_DATA: limit("MAX_DATA", NULL, f->u.max_data.max_data); break;
  case NGX_QUIC_FT_DATA_BLOCKED: limit("DATA_BLOCKED", NULL, f->u.data_blocked.limit); break;
  case NGX_QUIC_FT_MAX_STREAM_DATA:
    limit("MAX_STREAM_DATA", &f->u.max_stream_data.id, f->u.max_stream_data.limit);
    break;
  case NGX_QUIC_FT_STREAM_DATA_BLOCKED:
    limit("STREAM_DATA_BLOCKED", &f->u.stream_data_blocked.id, f->u.stream_data_blocked.limit);
    break;
  case NGX_QUIC_FT_MAX_STREAMS:
  case NGX_QUIC_FT_MAX_STREAMS2: streams("MAX_STREAMS", f->u.max_streams.bidi, f->u.max_streams.limit); break;
  case NGX_QUIC_FT_STREAMS_BLOCKED:
  case NGX_QUIC_FT_STREAMS_BLOCKED2:
    streams("STREAMS_BLOCKED", f->u.streams_blocked.bidi, f->u.streams_blocked.limit);
    break;
  case NGX_QUIC_FT_RETIRE_CONNECTION_ID:
    begin("RETIRE_CONNECTION_ID"), number("sequence_number", f->u.retire_cid.sequence_number);
    break;
  case NGX_QUIC_FT_PATH_CHALLENGE: begin("PATH_CHALLENGE"), bytes("data", f->u.path_challenge.data, 8); break;
  case NGX_QUIC_FT_PATH_RESPONSE: begin("PATH_RESPONSE"), bytes("data", f->u.path_response.data, 8); break;
  default: begin("?");
  }
}

/* Reports a frame of `n` bytes whose data are in a buffer: NULL, or the code with which it is rejected. */
static const char *show(const ngx_quic_frame_t *f, const ngx_buf_t *data, size_t n) {
  const char *code = NULL;
  switch (f->type) {
  case NGX_QUIC_FT_ACK: code = show_ack(&f->u.ack, data->pos, data->last); break;
  case NGX_QUIC_FT_ACK_ECN: return "INTERNAL_ERROR"; /* ngx_quic_handle_frames has no case for it. */
  case NGX_QUIC_FT_STREAM: show_stream(&f->u.stream, data->pos); break;
  case NGX_QUIC_FT_CRYPTO: show_crypto(&f->u.crypto, data->pos); break;
  case NGX_QUIC_FT_NEW_CONNECTION_ID: show_new_id(&f->u.ncid); break;
  case NGX_QUIC_FT_CONNECTION_CLOSE: show_close(&f->u.close, 1); break;
  case NGX_QUIC_FT_CONNECTION_CLOSE_APP: show_close(&f->u.close, 0); break;
  default: show_simple(f, n);
  }
  if (!code) end();
  return code;
}

static int payload(void) {
  u_char *p = input, *last = input + input_len;
  if (!input_len) return refuse("PROTOCOL_VIOLATION", 0); /* ngx_quic_decrypt */
  while (p < last) {
    ngx_quic_header_t pkt = {.log = &no_log, .level = ssl_encryption_application, .flags = 0x40, .error = 0xffff};
    ngx_buf_t data = {0};
    ngx_chain_t chain = {.buf = &data};
    ngx_quic_frame_t f = {.data = &chain};
    ssize_t n = ngx_quic_parse_frame(&pkt, p, last, &f);
    const char *code = n < 0 ? code_name(pkt.error) : show(&f, &data, (size_t)n);
    if (code) return refuse(code, (size_t)(p - input));
    p += n;
  }
  return accept_read();
}

static int params(void) {
  /* What isn't sent: ngx_quic_new_connection. */
  ngx_quic_tp_t p = {.max_udp_payload_size = NGX_QUIC_MAX_UDP_PAYLOAD_SIZE,
                     .ack_delay_exponent = NGX_QUIC_DEFAULT_ACK_DELAY_EXPONENT,
                     .max_ack_delay = NGX_QUIC_DEFAULT_MAX_ACK_DELAY,
                     .active_connection_id_limit = 2};
  if (ngx_quic_parse_transport_params(input, input + input_len, &p, &no_log) != NGX_OK ||
      p.max_udp_payload_size < NGX_QUIC_MIN_INITIAL_SIZE || p.max_udp_payload_size > NGX_QUIC_MAX_UDP_PAYLOAD_SIZE ||
      p.active_connection_id_limit < 2 || p.ack_delay_exponent > 20 || p.max_ack_delay >= 16384 ||
      p.initial_scid.len > NGX_QUIC_CID_LEN_MAX) /* which is no handshake's */
    return refuse_list("TRANSPORT_PARAMETER_ERROR");
  number("max_idle_timeout", (uint64_t)p.max_idle_timeout);
  number("max_udp_payload_size", p.max_udp_payload_size);
  number("initial_max_data", p.initial_max_data);
  number("initial_max_stream_data_bidi_local", p.initial_max_stream_data_bidi_local);
  number("initial_max_stream_data_bidi_remote", p.initial_max_stream_data_bidi_remote);
  number("initial_max_stream_data_uni", p.initial_max_stream_data_uni);
  number("initial_max_streams_bidi", p.initial_max_streams_bidi);
  number("initial_max_streams_uni", p.initial_max_streams_uni);
  number("ack_delay_exponent", p.ack_delay_exponent);
  number("max_ack_delay", (uint64_t)p.max_ack_delay);
  number("active_connection_id_limit", p.active_connection_id_limit);
  if (p.disable_active_migration) text("disable_active_migration", "1");
  if (p.initial_scid.data) bytes("initial_source_connection_id", p.initial_scid.data, p.initial_scid.len);
  text("?", "");
  return accept_read();
}

/* A packet of a datagram; 0 if it is the last one, or isn't read. */
static int packet(ngx_quic_header_t *pkt) {
  const char *kind = ngx_quic_pkt_in(pkt->flags)   ? "Initial"
                     : ngx_quic_pkt_hs(pkt->flags) ? "Handshake"
                     : ngx_quic_pkt_zrtt(pkt->flags) ? "0-RTT" : "Retry";
  int is_long = ngx_quic_long_pkt(pkt->flags) != 0;
  char version[9];
  begin(is_long ? kind : "1-RTT");
  bytes("dcid", pkt->dcid.data, pkt->dcid.len);
  if (is_long) {
    snprintf(version, sizeof version, "%08x", (unsigned)pkt->version);
    text("version", version);
    bytes("scid", pkt->scid.data, pkt->scid.len);
    if (ngx_quic_pkt_in(pkt->flags)) bytes("token", pkt->token.data, pkt->token.len);
  }
  if (!is_long || *kind != 'R') {
    number("packet_number_at", (uint64_t)(pkt->raw->pos - input));
    number("end", (uint64_t)(pkt->data + pkt->len - input));
  }
  end();
  return is_long && *kind != 'R';
}

static int datagram(void) {
  u_char *p = input;
  while (p < input + input_len) {
    ngx_buf_t raw = {.pos = p + 1, .last = input + input_len, .start = input, .end = input + input_len};
    ngx_quic_header_t pkt = {.raw = &raw, .data = p, .len = (size_t)(raw.last - p), .log = &no_log, .flags = *p};
    ngx_int_t rc = ngx_quic_parse_packet(&pkt);
    if (rc == NGX_ABORT) {
      begin("unknown version");
      bytes("dcid", pkt.dcid.data, pkt.dcid.len);
      bytes("scid", pkt.scid.data, pkt.scid.len);
      end();
      return accept_read();
    }
    if (rc != NGX_OK) return refuse("DROP", (size_t)(p - input));
    if (!packet(&pkt)) break;
    p = pkt.data + pkt.len;
  }
  return accept_read();
}

/* nginx knows only version 1, no extension, and ids of 20 bytes; it reads what clients send, here in 1-RTT packets. */
static int answer(void) {
  int is_other = context("packet") || context("strict") || context("extension") || is_context("side", "client");
  if (is_other || context("grease")) return skip();
  if (!strcmp(form, "payload")) return payload();
  if (!strcmp(form, "params") && is_context("from", "client")) return params();
  if (!strcmp(form, "datagram") && (is_context("cid_len", "20") || (input_len && *input & 0x80))) return datagram();
  return skip();
}
