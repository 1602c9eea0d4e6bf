/*
 * readers frames | datagrams LEN | params client|server: what ngtcp2's own
 * functions read from lines of hexadecimal, a line for each. It is compiled
 * with the unmodified ngtcp2 and with the changed one; both must print the
 * same.
 */
#include <stdio.h>
#include <stdlib.h>
#include <string.h>

#include "quic_wire_ng_releases.h"

static char line[1 << 20];
static uint8_t bytes[1 << 19];

static void hex(const char *name, const uint8_t *data, size_t len) {
  size_t i;
  printf(" %s ", name);
  for (i = 0; i < len; ++i) {
    printf("%02x", data[i]);
  }
}

static void id(const char *name, const ngtcp2_cid *cid) {
  hex(name, cid->data, cid->datalen);
}

static void data(const ngtcp2_vec *vec, size_t count) {
  if (count) {
    printf(" data %zu+%zu", (size_t)(vec->base - bytes), vec->len);
  }
}

static void show_ack(const ngtcp2_ack *ack) {
  size_t i;
  printf(" %ld %lu %lu", (long)ack->largest_ack, ack->ack_delay,
         ack->first_ack_range);
  for (i = 0; i < ack->rangecnt; ++i) {
    printf(" %lu-%lu", ack->ranges[i].gap, ack->ranges[i].len);
  }
  if (ack->type == NGTCP2_FRAME_ACK_ECN) {
    printf(" ecn %lu %lu %lu", ack->ecn.ect0, ack->ecn.ect1, ack->ecn.ce);
  }
}

static void show_crypto(const quic_wire_ng_crypto *f) {
  printf(" %lu", f->offset);
  data(f->data, f->datacnt);
}

static void show_close(const ngtcp2_connection_close *close) {
  printf(" %lu %lu reason %zu", close->error_code, close->frame_type,
         close->reasonlen);
  if (close->reasonlen) {
    printf(" at %zu", (size_t)(close->reason - bytes));
  }
}

static void show_stream(const ngtcp2_stream *f) {
  printf(" %ld %lu flags %d fin %d", (long)f->stream_id, f->offset, f->flags,
         f->fin);
  data(f->data, f->datacnt);
}

static void show_new_token(const ngtcp2_new_token *f) {
  printf(" data %zu+%zu", (size_t)(NG_TOKEN(f) - bytes),
         (size_t)NG_TOKENLEN(f));
}

static void show_new_id(const ngtcp2_new_connection_id *f) {
  printf(" %lu %lu", f->seq, f->retire_prior_to);
  id("id", &f->cid);
  hex("token", NG_RESET_TOKEN(f), 16);
}

/* Shows a frame that has only numbers, and nothing for another. */
static void show_numbers(const ngtcp2_frame *f) {
  switch (f->ping.type) {
  case NGTCP2_FRAME_PADDING:
    printf(" %zu", f->padding.len);
    return;
  case NGTCP2_FRAME_RESET_STREAM:
    printf(" %ld %lu %lu", (long)f->reset_stream.stream_id,
           f->reset_stream.app_error_code, f->reset_stream.final_size);
    return;
  case NGTCP2_FRAME_STOP_SENDING:
    printf(" %ld %lu", (long)f->stop_sending.stream_id,
           f->stop_sending.app_error_code);
    return;
  case NGTCP2_FRAME_MAX_STREAM_DATA:
  case NGTCP2_FRAME_STREAM_DATA_BLOCKED:
    printf(" %ld %lu", (long)f->max_stream_data.stream_id,
           f->max_stream_data.max_stream_data);
    return;
  case NGTCP2_FRAME_MAX_DATA:
  case NGTCP2_FRAME_MAX_STREAMS_BIDI:
  case NGTCP2_FRAME_MAX_STREAMS_UNI:
  case NGTCP2_FRAME_DATA_BLOCKED:
  case NGTCP2_FRAME_STREAMS_BLOCKED_BIDI:
  case NGTCP2_FRAME_STREAMS_BLOCKED_UNI:
  case NGTCP2_FRAME_RETIRE_CONNECTION_ID:
    printf(" %lu", f->max_data.max_data);
    return;
  default:
    return;
  }
}

static void show_frame(const ngtcp2_frame *f) {
  switch (f->ping.type) {
  case NGTCP2_FRAME_ACK:
  case NGTCP2_FRAME_ACK_ECN:
    show_ack(&f->ack);
    return;
  case NGTCP2_FRAME_STREAM:
    show_stream(&f->stream);
    return;
  case NGTCP2_FRAME_CRYPTO:
    show_crypto((const quic_wire_ng_crypto *)f);
    return;
  case NGTCP2_FRAME_NEW_TOKEN:
    show_new_token(&f->new_token);
    return;
  case NGTCP2_FRAME_NEW_CONNECTION_ID:
    show_new_id(&f->new_connection_id);
    return;
  case NGTCP2_FRAME_PATH_CHALLENGE:
  case NGTCP2_FRAME_PATH_RESPONSE:
    hex("data", (const uint8_t *)&f->path_challenge.data, 8);
    return;
  case NGTCP2_FRAME_CONNECTION_CLOSE:
  case NGTCP2_FRAME_CONNECTION_CLOSE_APP:
    show_close(&f->connection_close);
    return;
  case NGTCP2_FRAME_DATAGRAM:
  case NGTCP2_FRAME_DATAGRAM_LEN:
    data(f->datagram.data, f->datagram.datacnt);
    return;
  default:
    show_numbers(f);
  }
}

static int is_valid(const ngtcp2_ack *ack) {
#if QUIC_WIRE_NG_1
  return ngtcp2_pkt_validate_ack(ack, 0) == 0;
#else
  return ngtcp2_pkt_validate_ack((ngtcp2_ack *)ack) == 0;
#endif
}

/* An ACK counts as read once it is found valid: ngtcp2 checks that when it uses
 * the frame. */
static void show_frames(size_t len) {
  union {
    ngtcp2_frame frame;
    uint8_t room[sizeof(ngtcp2_frame) +
                 NGTCP2_MAX_ACK_RANGES * sizeof(ngtcp2_ack_range)];
  } u;
#if QUIC_WIRE_NG_1_24
  ngtcp2_frame_decoder beside;
#endif
  ngtcp2_ssize n;
  size_t at = 0;

  while (at < len) {
    memset(&u, 0, sizeof(u));
    n = ngtcp2_pkt_decode_frame(NG_BESIDE(&beside) & u.frame, bytes + at,
                                len - at);
    if (n < 0 || ((u.frame.ping.type & 0xfe) == NGTCP2_FRAME_ACK &&
                  !is_valid(&u.frame.ack))) {
      printf("refused");
      return;
    }
    printf("%zu..%zu %02x", at, at + (size_t)n, (unsigned)u.frame.ping.type);
    show_frame(&u.frame);
    printf("; ");
    at += (size_t)n;
  }
}

static void show_datagram(size_t len, size_t cidlen) {
  ngtcp2_version_cid vc;
  ngtcp2_pkt_hd hd;
  ngtcp2_ssize n;
  size_t at = 0;
  int rv;

  while (at < len) {
    memset(&vc, 0, sizeof(vc));
    memset(&hd, 0, sizeof(hd));
    rv = ngtcp2_pkt_decode_version_cid(&vc, bytes + at, len - at, cidlen);
    printf("version %d", rv);
    if (rv == 0 || rv == NGTCP2_ERR_VERSION_NEGOTIATION) {
      printf(" %08x", vc.version);
      hex("dst", vc.dcid, vc.dcidlen);
      hex("src", vc.scid, vc.scidlen);
    }
    n = bytes[at] & 0x80
            ? ngtcp2_pkt_decode_hd_long(&hd, bytes + at, len - at)
            : ngtcp2_pkt_decode_hd_short(&hd, bytes + at, len - at, cidlen);
    if (n < 0) {
      printf("; refused");
      return;
    }
    printf("; %zd type %02x flags %02x %08x len %zu token %zu", n, hd.type,
           hd.flags, hd.version, hd.len, NG_TOKENLEN(&hd));
    id("dst", &hd.dcid);
    id("src", &hd.scid);
    printf("; ");
    if (hd.len == 0 || len - at - (size_t)n < hd.len) {
      return;
    }
    at += (size_t)n + hd.len;
  }
}

/* Reads parameters as a client or as a server does: in 1.x, the call that sets
 * the peer's parameters checks what a client must not send. */
static int read_params(ngtcp2_transport_params *p, size_t len, int is_client) {
#if QUIC_WIRE_NG_1
  int rv = ngtcp2_transport_params_decode(p, bytes, len);
  return rv == 0 && !is_client &&
                 (p->original_dcid_present || p->retry_scid_present ||
                  p->stateless_reset_token_present || p->preferred_addr_present)
             ? NGTCP2_ERR_TRANSPORT_PARAM
             : rv;
#else
  return ngtcp2_decode_transport_params(
      p,
      is_client ? NGTCP2_TRANSPORT_PARAMS_TYPE_ENCRYPTED_EXTENSIONS
                : NGTCP2_TRANSPORT_PARAMS_TYPE_CLIENT_HELLO,
      bytes, len);
#endif
}

static void show_params(size_t len, int is_client) {
  static ngtcp2_transport_params p;

  memset(&p, 0, sizeof(p));
  if (read_params(&p, len, is_client) != 0) {
    printf("refused");
    return;
  }
  printf("%lu %lu %lu %lu %lu %lu %lu %lu %lu %lu %lu %lu %d %d",
         p.max_idle_timeout, p.max_udp_payload_size, p.initial_max_data,
         p.initial_max_stream_data_bidi_local,
         p.initial_max_stream_data_bidi_remote, p.initial_max_stream_data_uni,
         p.initial_max_streams_bidi, p.initial_max_streams_uni,
         p.ack_delay_exponent, p.max_ack_delay, p.active_connection_id_limit,
         p.max_datagram_frame_size, p.disable_active_migration,
         p.grease_quic_bit);
  id("original", &p.original_dcid);
  id("initial", &p.initial_scid);
  id("retry", &p.retry_scid);
  if (p.stateless_reset_token_present) {
    hex("token", p.stateless_reset_token, 16);
  }
  if (p.preferred_addr_present) {
    id("preferred", &p.preferred_addr.cid);
    hex("token", p.preferred_addr.stateless_reset_token, 16);
  }
}

static size_t read_line(void) {
  size_t len = strcspn(line, "\r\n") / 2, i;
  unsigned byte;
  for (i = 0; i < len; ++i) {
    sscanf(line + 2 * i, "%2x", &byte);
    bytes[i] = (uint8_t)byte;
  }
  return len;
}

int main(int argc, char **argv) {
  const char *mode = argc > 1 ? argv[1] : "", *how = argc > 2 ? argv[2] : "";

  while (fgets(line, sizeof(line), stdin)) {
    size_t len = read_line();
    if (!strcmp(mode, "frames")) {
      show_frames(len);
    } else if (!strcmp(mode, "datagrams")) {
      show_datagram(len, (size_t)atoi(how));
    } else {
      show_params(len, !strcmp(how, "client"));
    }
    puts("");
  }
  return 0;
}
