/* A driver for the wire layer of ngtcp2 1.11, whose unmodified library is compiled with this file. What ngtcp2 checks
 * when it uses a frame or sets parameters is done here: an ACK's ranges, Retire Prior To, who sent parameters. */
#include <ngtcp2/ngtcp2.h>
#include "ngtcp2_pkt.h"
#include "ngtcp2_transport_params.h"
#include "../driver.h"

/* The code with which ngtcp2 closes. */
static const char *code_of(int error) { return code_name(ngtcp2_err_infer_quic_transport_error_code(error)); }

static void show_ack(const ngtcp2_ack *f) {
  uint64_t greatest = (uint64_t)f->largest_ack, least = greatest - f->first_ack_range;
  size_t i;
  ack(f->ack_delay);
  range(least, greatest);
  for (i = 0; i < f->rangecnt; ++i) {
    greatest = least - f->ranges[i].gap - 2;
    least = greatest - f->ranges[i].len;
    range(least, greatest);
  }
  ack_end();
  if (f->type != NGTCP2_FRAME_ACK_ECN) return;
  number("ect0_count", f->ecn.ect0);
  number("ect1_count", f->ecn.ect1);
  number("ecn_ce_count", f->ecn.ce);
}

static void show_data(const char *name, const ngtcp2_vec *data, size_t count) {
  bytes(name, count ? data->base : NULL, count ? data->len : 0);
}

static void show_stream(const ngtcp2_stream *f, int is_crypto) {
  begin(is_crypto ? "CRYPTO" : "STREAM");
  if (!is_crypto) {
    number("stream_id", (uint64_t)f->stream_id);
    number("fin", f->fin);
  }
  number("offset", f->offset);
  show_data(is_crypto ? "crypto_data" : "stream_data", f->data, f->datacnt);
}

static void show_close(const ngtcp2_connection_close *f) {
  int is_transport = f->type == NGTCP2_FRAME_CONNECTION_CLOSE;
  begin("CONNECTION_CLOSE");
  text("layer", is_transport ? "transport" : "application");
  number("error_code", f->error_code);
  if (is_transport) number("frame_type", f->frame_type);
  bytes("reason_phrase", f->reason, f->reasonlen);
}

static void show_new_id(const ngtcp2_new_connection_id *f) {
  begin("NEW_CONNECTION_ID");
  number("sequence_number", f->seq);
  number("retire_prior_to", f->retire_prior_to);
  bytes("connection_id", f->cid.data, f->cid.datalen);
  bytes("stateless_reset_token", f->stateless_reset_token, 16);
}

static void show_limit(const ngtcp2_frame *f) {
  const ngtcp2_max_stream_data *most = &f->max_stream_data;
  uint64_t stream = (uint64_t)most->stream_id;
  switch (f->ping.type) {
  case NGTCP2_FRAME_MAX_DATA: limit("MAX_DATA", NULL, f->max_data.max_data); break;
  case NGTCP2_FRAME_DATA_BLOCKED: limit("DATA_BLOCKED", NULL, f->data_blocked.offset); break;
  case NGTCP2_FRAME_MAX_STREAM_DATA: limit("MAX_STREAM_DATA", &stream, most->max_stream_data); break;
  case NGTCP2_FRAME_STREAM_DATA_BLOCKED:
    limit("STREAM_DATA_BLOCKED", &stream, f->stream_data_blocked.offset);
    break;
  case NGTCP2_FRAME_MAX_STREAMS_BIDI: streams("MAX_STREAMS", 1, f->max_streams.max_streams); break;
  case NGTCP2_FRAME_MAX_STREAMS_UNI: streams("MAX_STREAMS", 0, f->max_streams.max_streams); break;
  case NGTCP2_FRAME_STREAMS_BLOCKED_BIDI: streams("STREAMS_BLOCKED", 1, f->streams_blocked.max_streams); break;
  case NGTCP2_FRAME_STREAMS_BLOCKED_UNI: streams("STREAMS_BLOCKED", 0, f->streams_blocked.max_streams); break;
  default: begin("?");
  }
}

static void show(const ngtcp2_frame *f) {
  switch (f->ping.type) {
  case NGTCP2_FRAME_PADDING: begin("PADDING"), number("count", f->padding.len); break;
  case NGTCP2_FRAME_PING: begin("PING"); break;
  case NGTCP2_FRAME_HANDSHAKE_DONE: begin("HANDSHAKE_DONE"); break;
  case NGTCP2_FRAME_ACK:
  case NGTCP2_FRAME_ACK_ECN: show_ack(&f->ack); break;
  case NGTCP2_FRAME_STREAM: show_stream(&f->stream, 0); break;
  case NGTCP2_FRAME_CRYPTO: show_stream(&f->stream, 1); break;
  case NGTCP2_FRAME_NEW_TOKEN: begin("NEW_TOKEN"), bytes("token", f->new_token.token, f->new_token.tokenlen); break;
  case NGTCP2_FRAME_NEW_CONNECTION_ID: show_new_id(&f->new_connection_id); break;
  case NGTCP2_FRAME_CONNECTION_CLOSE:
  case NGTCP2_FRAME_CONNECTION_CLOSE_APP: show_close(&f->connection_close); break;
  case NGTCP2_FRAME_DATAGRAM:
  case NGTCP2_FRAME_DATAGRAM_LEN:
    begin("DATAGRAM"), show_data("datagram_data", f->datagram.data, f->datagram.datacnt);
    break;
  case NGTCP2_FRAME_RESET_STREAM:
    error_on("RESET_STREAM", (uint64_t)f->reset_stream.stream_id, f->reset_stream.app_error_code);
    number("final_size", f->reset_stream.final_size);
    break;
  case NGTCP2_FRAME_STOP_SENDING:
    error_on("STOP_SENDING", (uint64_t)f->stop_sending.stream_id, f->stop_sending.app_error_code);
    break;
  case NGTCP2_FRAME_RETIRE_CONNECTION_ID:
    begin("RETIRE_CONNECTION_ID"), number("sequence_number", f->retire_connection_id.seq);
    break;
  case NGTCP2_FRAME_PATH_CHALLENGE: begin("PATH_CHALLENGE"), bytes("data", f->path_challenge.data, 8); break;
  case NGTCP2_FRAME_PATH_RESPONSE: begin("PATH_RESPONSE"), bytes("data", f->path_response.data, 8); break;
  default: show_limit(f);
  }
}

/* What the connection checks in a frame that was read: 0, or the error. */
static int look_at(const ngtcp2_frame *f) {
  const ngtcp2_new_connection_id *id = &f->new_connection_id;
  if ((f->ping.type & 0xfe) == NGTCP2_FRAME_ACK) return ngtcp2_pkt_validate_ack(&f->ack, 0);
  if (f->ping.type != NGTCP2_FRAME_NEW_CONNECTION_ID || id->retire_prior_to <= id->seq) return 0;
  return NGTCP2_ERR_FRAME_ENCODING;
}

static int payload(void) {
  union {
    ngtcp2_frame frame;
    uint8_t room[sizeof(ngtcp2_frame) + NGTCP2_MAX_ACK_RANGES * sizeof(ngtcp2_ack_range)];
  } u;
  size_t at = 0;
  if (!input_len) return refuse("PROTOCOL_VIOLATION", 0); /* conn_recv_pkt */
  while (at < input_len) {
    memset(&u, 0, sizeof u);
    ngtcp2_ssize n = ngtcp2_pkt_decode_frame(&u.frame, input + at, input_len - at);
    int error = n < 0 ? (int)n : look_at(&u.frame);
    if (error) return refuse(code_of(error), at);
    show(&u.frame);
    end();
    at += (size_t)n;
  }
  return accept_read();
}

static void show_id(const char *name, int is_there, const ngtcp2_cid *id) {
  if (is_there) bytes(name, id->data, id->datalen);
}

/* Reads parameters, and checks them as ngtcp2_conn_set_remote_transport_params
 * does, except the handshake's connection IDs. */
static int are_read(ngtcp2_transport_params *p, int is_server) {
  memset(p, 0, sizeof *p);
  if (ngtcp2_transport_params_decode(p, input, input_len) || p->active_connection_id_limit < 2 ||
      p->max_udp_payload_size < NGTCP2_MAX_UDP_PAYLOAD_SIZE)
    return 0;
  return !is_server || !(p->original_dcid_present || p->retry_scid_present || p->stateless_reset_token_present ||
                         p->preferred_addr_present);
}

static int params(int is_server) {
  static ngtcp2_transport_params p;
  if (!are_read(&p, is_server)) return refuse_list("TRANSPORT_PARAMETER_ERROR");
  number("max_idle_timeout", p.max_idle_timeout / NGTCP2_MILLISECONDS);
  number("max_udp_payload_size", p.max_udp_payload_size);
  number("initial_max_data", p.initial_max_data);
  number("initial_max_stream_data_bidi_local", p.initial_max_stream_data_bidi_local);
  number("initial_max_stream_data_bidi_remote", p.initial_max_stream_data_bidi_remote);
  number("initial_max_stream_data_uni", p.initial_max_stream_data_uni);
  number("initial_max_streams_bidi", p.initial_max_streams_bidi);
  number("initial_max_streams_uni", p.initial_max_streams_uni);
  number("ack_delay_exponent", p.ack_delay_exponent);
  number("max_ack_delay", p.max_ack_delay / NGTCP2_MILLISECONDS);
  number("active_connection_id_limit", p.active_connection_id_limit);
  if (p.max_datagram_frame_size) number("max_datagram_frame_size", p.max_datagram_frame_size);
  if (p.disable_active_migration) text("disable_active_migration", "1");
  if (p.grease_quic_bit) text("grease_quic_bit", "1");
  show_id("original_destination_connection_id", p.original_dcid_present, &p.original_dcid);
  show_id("initial_source_connection_id", p.initial_scid_present, &p.initial_scid);
  show_id("retry_source_connection_id", p.retry_scid_present, &p.retry_scid);
  if (p.stateless_reset_token_present) bytes("stateless_reset_token", p.stateless_reset_token, 16);
  text("?", "");
  return accept_read();
}

static const char *kind_of(uint8_t type) {
  switch (type) {
  case NGTCP2_PKT_INITIAL: return "Initial";
  case NGTCP2_PKT_0RTT: return "0-RTT";
  case NGTCP2_PKT_HANDSHAKE: return "Handshake";
  case NGTCP2_PKT_RETRY: return "Retry";
  case NGTCP2_PKT_VERSION_NEGOTIATION: return "Version Negotiation";
  default: return "1-RTT";
  }
}

/* A packet whose header has n bytes; 0 if it is the last. */
static int packet(const ngtcp2_pkt_hd *hd, size_t at, size_t n) {
  const char *kind = kind_of(hd->type);
  int has_number = hd->type != NGTCP2_PKT_RETRY && hd->type != NGTCP2_PKT_VERSION_NEGOTIATION;
  char version[9];
  begin(kind);
  bytes("dcid", hd->dcid.data, hd->dcid.datalen);
  if (*kind != '1') {
    snprintf(version, sizeof version, "%08x", (unsigned)hd->version);
    text("version", version);
    bytes("scid", hd->scid.data, hd->scid.datalen);
  }
  if (hd->type == NGTCP2_PKT_INITIAL) bytes("token", hd->token, hd->tokenlen);
  if (has_number) number("packet_number_at", at + n);
  if (has_number) number("end", *kind == '1' ? input_len : at + n + hd->len);
  end();
  return has_number && *kind != '1';
}

static int datagram(size_t cidlen) {
  size_t at = 0;
  while (at < input_len) {
    ngtcp2_version_cid vc;
    ngtcp2_pkt_hd hd = {0};
    ngtcp2_ssize n;
    int error = ngtcp2_pkt_decode_version_cid(&vc, input + at, input_len - at, cidlen);
    if (at && error == NGTCP2_ERR_INVALID_ARGUMENT && input[at] & 0x80) {
      /* It must be large enough to be answered; after another packet it is discarded. */
      begin("unknown version");
      end();
      break;
    }
    if (error == NGTCP2_ERR_VERSION_NEGOTIATION) {
      begin("unknown version");
      bytes("dcid", vc.dcid, vc.dcidlen);
      bytes("scid", vc.scid, vc.scidlen);
      end();
      break;
    }
    n = error ? error
        : input[at] & 0x80 ? ngtcp2_pkt_decode_hd_long(&hd, input + at, input_len - at)
                           : ngtcp2_pkt_decode_hd_short(&hd, input + at, input_len - at, cidlen);
    /* The connection rejects a clear fixed bit, ngtcp2_conn_read_pkt a length. */
    if (n < 0 || hd.flags & NGTCP2_PKT_FLAG_FIXED_BIT_CLEAR || input_len - at - (size_t)n < hd.len)
      return refuse("DROP", at);
    if (!packet(&hd, at, (size_t)n)) break;
    at += (size_t)n + hd.len;
  }
  return accept_read();
}

/* ngtcp2 knows DATAGRAM and both versions, and can be set to clear the fixed bit, which isn't done here. */
static int answer(void) {
  const char *extension = context("extension"), *cidlen = context("cid_len");
  int is_known = !extension || !strcmp(extension, "datagram") || !strcmp(extension, "version-2") ||
                 (!strcmp(extension, "grease") && !strcmp(form, "params"));
  if (context("packet") || context("grease") || context("versions") || !is_known) return skip();
  if (!strcmp(form, "payload")) return payload();
  if (!strcmp(form, "params")) return params(is_context("from", "client"));
  return strcmp(form, "datagram") ? skip() : datagram(cidlen ? (size_t)atoi(cidlen) : 8);
}
