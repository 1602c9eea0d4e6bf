/* A driver for the wire layer of HAProxy, which is a server: src/quic_frame.c of its source, compiled with this file,
 * and src/quic_tp.c, included here, since its reader is static there.  An ACK's ranges are read as qc_parse_ack_frm of
 * src/quic_rx.c reads them. */
#include "src/quic_tp.c"
#include <haproxy/quic_frame.h>
#include <haproxy/quic_rx-t.h>
#include <haproxy/trace.h>
#include "stacks/driver.h"

struct trace_source trace_quic;
THREAD_LOCAL struct buffer trace_buf;
struct pool_head *pool_head_quic_tx_packet;

/* The code that a parser closes the connection with. */
static uint64_t closed;
void quic_set_connection_close(struct quic_conn *qc, const struct quic_err err) { closed = err.code; }
void quic_set_tls_alert(struct quic_conn *qc, int alert) { closed = 0x100 + (uint64_t)alert; }
void qc_kill_conn(struct quic_conn *qc) {}

/* 0 if it is rejected, for which HAProxy has no code. */
static int show_ack(const struct qf_ack *f, const unsigned char **pos, const unsigned char *last) {
  uint64_t greatest = f->largest_ack, least, gap, count, left = f->ack_range_num;
  ack(f->ack_delay);
  if (f->first_ack_range > greatest) return 0;
  least = greatest - f->first_ack_range;
  range(least, greatest);
  for (; left; --left) {
    if (!quic_dec_int(&gap, pos, last) || least < gap + 2) return 0;
    greatest = least - gap - 2;
    if (!quic_dec_int(&count, pos, last) || greatest < count) return 0;
    least = greatest - count;
    range(least, greatest);
  }
  ack_end();
  return 1;
}

static void show_stream(const struct quic_frame *f) {
  begin("STREAM");
  number("stream_id", f->stream.id);
  number("offset", f->stream.offset.key);
  text("fin", f->type & 1 ? "1" : "0");
  bytes("stream_data", f->stream.data, f->stream.len);
}

static void show_new_id(const struct qf_new_connection_id *f) {
  begin("NEW_CONNECTION_ID");
  number("sequence_number", f->seq_num);
  number("retire_prior_to", f->retire_prior_to);
  bytes("connection_id", f->cid.data, f->cid.len);
  bytes("stateless_reset_token", f->stateless_reset_token, 16);
}

static void show_close(const struct quic_frame *f) {
  begin("CONNECTION_CLOSE");
  if (f->type == QUIC_FT_CONNECTION_CLOSE) {
    text("layer", "transport");
    number("error_code", f->connection_close.error_code);
    number("frame_type", f->connection_close.frame_type);
    bytes("reason_phrase", f->connection_close.reason_phrase, f->connection_close.reason_phrase_len);
  } else {
    text("layer", "application");
    number("error_code", f->connection_close_app.error_code);
    bytes("reason_phrase", f->connection_close_app.reason_phrase, f->connection_close_app.reason_phrase_len);
  }
}

static void show_limit(const struct quic_frame *f) {
  const struct qf_max_stream_data *most = &f->max_stream_data;
  const struct qf_stream_data_blocked *blocked = &f->stream_data_blocked;
  switch (f->type) {
  case QUIC_FT_MAX_DATA: limit("MAX_DATA", NULL, f->max_data.max_data); break;
  case QUIC_FT_DATA_BLOCKED: limit("DATA_BLOCKED", NULL, f->data_blocked.limit); break;
  case QUIC_FT_MAX_STREAM_DATA: limit("MAX_STREAM_DATA", &most->id, most->max_stream_data); break;
  case QUIC_FT_STREAM_DATA_BLOCKED: limit("STREAM_DATA_BLOCKED", &blocked->id, blocked->limit); break;
  case QUIC_FT_MAX_STREAMS_BIDI: streams("MAX_STREAMS", 1, f->max_streams_bidi.max_streams); break;
  case QUIC_FT_MAX_STREAMS_UNI: streams("MAX_STREAMS", 0, f->max_streams_uni.max_streams); break;
  case QUIC_FT_STREAMS_BLOCKED_BIDI: streams("STREAMS_BLOCKED", 1, f->streams_blocked_bidi.limit); break;
  case QUIC_FT_STREAMS_BLOCKED_UNI: streams("STREAMS_BLOCKED", 0, f->streams_blocked_uni.limit); break;
  default: begin("?");
  }
}

/* A frame of `n` bytes that isn't an ACK. */
static void show(const struct quic_frame *f, const unsigned char *last, size_t n) {
  switch (f->type) {
  case QUIC_FT_PADDING: begin("PADDING"), number("count", n); break;
  case QUIC_FT_PING: begin("PING"); break;
  case QUIC_FT_HANDSHAKE_DONE: begin("HANDSHAKE_DONE"); break;
  case QUIC_FT_STOP_SENDING: error_on("STOP_SENDING", f->stop_sending.id, f->stop_sending.app_error_code); break;
  case QUIC_FT_RESET_STREAM:
    error_on("RESET_STREAM", f->reset_stream.id, f->reset_stream.app_error_code);
    number("final_size", f->reset_stream.final_size);
    break;
  case QUIC_FT_CRYPTO:
    begin("CRYPTO");
    number("offset", f->crypto.offset);
    bytes("crypto_data", f->crypto.data, f->crypto.len);
    break;
  case QUIC_FT_NEW_TOKEN: begin("NEW_TOKEN"), bytes("token", last - f->new_token.len, f->new_token.len); break;
  case QUIC_FT_STREAM_8 ... QUIC_FT_STREAM_F: show_stream(f); break;
  case QUIC_FT_NEW_CONNECTION_ID: show_new_id(&f->new_connection_id); break;
  case QUIC_FT_RETIRE_CONNECTION_ID:
    begin("RETIRE_CONNECTION_ID"), number("sequence_number", f->retire_connection_id.seq_num);
    break;
  case QUIC_FT_PATH_CHALLENGE: begin("PATH_CHALLENGE"), bytes("data", f->path_challenge.data, 8); break;
  case QUIC_FT_PATH_RESPONSE: begin("PATH_RESPONSE"), bytes("data", f->path_challenge_response.data, 8); break;
  case QUIC_FT_CONNECTION_CLOSE:
  case QUIC_FT_CONNECTION_CLOSE_APP: show_close(f); break;
  default: show_limit(f);
  }
}

static int payload(void) {
  const unsigned char *pos = input, *last = input + input_len;
  if (!input_len) return refuse("PROTOCOL_VIOLATION", 0); /* qc_parse_pkt_frms */
  while (pos < last) {
    const unsigned char *from = pos;
    struct quic_frame f = {0};
    struct quic_rx_packet pkt = {.type = QUIC_PACKET_TYPE_SHORT};
    closed = ~0ull;
    if (!qc_parse_frm(&f, &pkt, &pos, last, NULL)) return refuse(code_name(closed), (size_t)(from - input));
    if (f.type != QUIC_FT_ACK && f.type != QUIC_FT_ACK_ECN) {
      show(&f, pos, (size_t)(pos - from));
    } else if (!show_ack(&f.ack, &pos, last)) {
      return refuse("?", (size_t)(from - input));
    }
    end();
  }
  return accept_read();
}

static void show_id(const char *name, int is_there, const struct tp_cid *id) {
  if (is_there) bytes(name, id->data, id->len);
}

static int params(void) {
  struct quic_transport_params p = {0};
  quic_dflt_transport_params_cpy(&p);
  if (quic_transport_params_decode(&p, 0, input, input + input_len) != QUIC_TP_DEC_ERR_NONE)
    return refuse_list("TRANSPORT_PARAMETER_ERROR");
  number("max_idle_timeout", p.max_idle_timeout);
  number("max_udp_payload_size", p.max_udp_payload_size);
  number("initial_max_data", p.initial_max_data);
  number("initial_max_stream_data_bidi_local", p.initial_max_stream_data_bidi_local);
  number("initial_max_stream_data_bidi_remote", p.initial_max_stream_data_bidi_remote);
  number("initial_max_stream_data_uni", p.initial_max_stream_data_uni);
  number("initial_max_streams_bidi", p.initial_max_streams_bidi);
  number("initial_max_streams_uni", p.initial_max_streams_uni);
  number("ack_delay_exponent", p.ack_delay_exponent);
  number("max_ack_delay", p.max_ack_delay);
  number("active_connection_id_limit", p.active_connection_id_limit);
  if (p.disable_active_migration) text("disable_active_migration", "1");
  show_id("original_destination_connection_id", p.original_destination_connection_id_present,
          &p.original_destination_connection_id);
  show_id("initial_source_connection_id", p.initial_source_connection_id_present, &p.initial_source_connection_id);
  if (p.with_stateless_reset_token) bytes("stateless_reset_token", p.stateless_reset_token, 16);
  text("?", "");
  return accept_read();
}

/* HAProxy knows version 1, and of extensions only version_information.  It reads what clients send: no released program
 * runs its reader for what servers send. */
static int answer(void) {
  const char *extension = context("extension");
  int is_list = !strcmp(form, "params");
  int is_known = !extension || (is_list && !strcmp(extension, "version-information"));
  if (context("packet") || !is_known || is_context("side", "client")) return skip();
  if (!strcmp(form, "payload")) return payload();
  return is_list && is_context("from", "client") ? params() : skip();
}
