/* Packets and transport parameters as they are read. */
#include <inttypes.h>

#include "driver.h"

static void print_ids(FILE *out, const uint8_t *packet,
                      const quic_wire_header *header) {
  print_bytes(out, "dcid", quic_wire_dcid(packet, header), header->dcidlen);
  if (header->kind == QUIC_WIRE_PACKET_1RTT)
    return;
  print_bytes(out, "scid", quic_wire_scid(packet, header), header->scidlen);
  fprintf(out, ",\"version\":\"%08" PRIx32 "\"", header->version);
}

/* What follows the ids of a version negotiation or a Retry. */
static void print_rest(FILE *out, const uint8_t *packet,
                       const quic_wire_header *header) {
  size_t at = header->header_end, end = header->end;
  const char *before = "";
  if (header->kind == QUIC_WIRE_PACKET_RETRY && end >= at + 16) {
    print_bytes(out, "retry_token", packet + at, end - at - 16);
    print_bytes(out, "retry_integrity_tag", packet + end - 16, 16);
  }
  if (header->kind != QUIC_WIRE_PACKET_VERSION_NEGOTIATION)
    return;
  fprintf(out, ",\"supported_versions\":[");
  for (; at + 4 <= end; at += 4, before = ",") {
    fprintf(out, "%s\"", before);
    print_hex(out, packet + at, 4);
    putc('"', out);
  }
  putc(']', out);
}

static void print_packet(FILE *out, const uint8_t *packet, size_t begin,
                         const quic_wire_header *header) {
  static const char *const names[] = {
      "Initial", "0-RTT", "Handshake",           "Retry",
      "1-RTT",   "Version Negotiation", "unknown version"};
  int has_number = header->kind <= QUIC_WIRE_PACKET_HANDSHAKE || header->kind == QUIC_WIRE_PACKET_1RTT;
  fprintf(out, "%s{\"type\":\"%s\"", begin ? "," : "", names[header->kind]);
  print_ids(out, packet, header);
  if (header->kind == QUIC_WIRE_PACKET_INITIAL)
    print_bytes(out, "token", packet + header->token, header->tokenlen);
  if (header->kind <= QUIC_WIRE_PACKET_HANDSHAKE)
    print_number(out, "length", header->len);
  if (header->kind == QUIC_WIRE_PACKET_1RTT)
    print_number(out, "spin", header->first >> 5 & 1);
  if (has_number)
    print_number(out, "packet_number_at", begin + header->header_end);
  print_rest(out, packet, header);
  if (header->kind != QUIC_WIRE_PACKET_UNKNOWN_VERSION)
    print_number(out, "end", begin + header->end);
  putc('}', out);
}

/* Whether a packet is there, with its header. Only in packets of versions 1 and 2 does the fixed bit have a meaning. */
static int read_packet(const line *in, size_t begin, quic_wire_header *header) {
  static const uint32_t versions[] = {QUIC_WIRE_VERSION_1, QUIC_WIRE_VERSION_2};
  const uint32_t flags = (is_rfc ? QUIC_WIRE_READ_RFC : QUIC_WIRE_READ_ANY_VERSION) |
                         (item(in, "grease") ? QUIC_WIRE_READ_GREASED_BIT : 0);
  const int64_t end = quic_wire_header_read(in->bytes + begin, in->len - begin,
                                            (uint32_t)number(in, "cid_len", 8), versions,
                                            item(in, "versions") ? 1 : 2, flags, header);
  return end > 0 || end == QUIC_WIRE_ERR_PACKET_VERSION;
}

void answer_datagram(const line *in, FILE *items, char **read) {
  quic_wire_header header;
  size_t begin = 0;
  int is_packet;
  do {
    is_packet = read_packet(in, begin, &header);
    if (is_packet) {
      print_packet(items, in->bytes + begin, begin, &header);
      begin = header.kind == QUIC_WIRE_PACKET_UNKNOWN_VERSION ? in->len : begin + header.end;
    }
  } while (is_packet && begin < in->len);
  fflush(items);
  if (is_packet)
    printf("valid [%s]\n", *read);
  else
    printf("invalid DROP {\"at\":%zu,\"before\":[%s]}\n", begin, *read);
}

/* ---- Transport parameters */

static void print_integers(FILE *out, const quic_wire_params *p) {
  fprintf(out, "\"max_idle_timeout\":\"%" PRIu64 "\"", p->max_idle_timeout);
  print_number(out, "max_udp_payload_size", p->max_udp_payload_size);
  print_number(out, "initial_max_data", p->initial_max_data);
  print_number(out, "initial_max_stream_data_bidi_local", p->initial_max_stream_data_bidi_local);
  print_number(out, "initial_max_stream_data_bidi_remote", p->initial_max_stream_data_bidi_remote);
  print_number(out, "initial_max_stream_data_uni", p->initial_max_stream_data_uni);
  print_number(out, "initial_max_streams_bidi", p->initial_max_streams_bidi);
  print_number(out, "initial_max_streams_uni", p->initial_max_streams_uni);
  print_number(out, "ack_delay_exponent", p->ack_delay_exponent);
  print_number(out, "max_ack_delay", p->max_ack_delay);
  print_number(out, "active_connection_id_limit", p->active_connection_id_limit);
}

static void print_address(FILE *out, const quic_wire_params *p) {
  print_bytes(out, "preferred_ipv4_address", p->preferred_v4, 4);
  print_number(out, "preferred_ipv4_port", p->preferred_v4_port);
  print_bytes(out, "preferred_ipv6_address", p->preferred_v6, 16);
  print_number(out, "preferred_ipv6_port", p->preferred_v6_port);
  print_bytes(out, "preferred_connection_id", p->preferred_cid, p->preferred_cidlen);
  print_bytes(out, "preferred_stateless_reset_token", p->preferred_token, 16);
}

static void print_params(FILE *out, const quic_wire_params *p) {
  print_integers(out, p);
  if (p->present & QUIC_WIRE_HAS_STATELESS_RESET_TOKEN)
    print_bytes(out, "stateless_reset_token", p->stateless_reset_token, 16);
  if (p->present & QUIC_WIRE_HAS_DISABLE_ACTIVE_MIGRATION)
    print_number(out, "disable_active_migration", 1);
  if (p->present & QUIC_WIRE_HAS_MAX_DATAGRAM_FRAME_SIZE)
    print_number(out, "max_datagram_frame_size", p->max_datagram_frame_size);
  if (p->present & QUIC_WIRE_HAS_PREFERRED_ADDRESS)
    print_address(out, p);
  if (p->present & QUIC_WIRE_HAS_ORIGINAL_DST_CID)
    print_bytes(out, "original_destination_connection_id", p->original_dst_cid,
                p->original_dst_cidlen);
  if (p->present & QUIC_WIRE_HAS_INITIAL_SRC_CID)
    print_bytes(out, "initial_source_connection_id", p->initial_src_cid,
                p->initial_src_cidlen);
  if (p->present & QUIC_WIRE_HAS_RETRY_SRC_CID)
    print_bytes(out, "retry_source_connection_id", p->retry_src_cid,
                p->retry_src_cidlen);
  if (p->present & QUIC_WIRE_HAS_GREASE_QUIC_BIT)
    print_number(out, "grease_quic_bit", 1);
  if (p->present & QUIC_WIRE_HAS_MIN_ACK_DELAY)
    print_number(out, "min_ack_delay", p->min_ack_delay);
}

static int read_params(const line *in, quic_wire_params *params) {
  const uint32_t reader = item(in, "from") ? QUIC_WIRE_SIDE_SERVER : QUIC_WIRE_SIDE_CLIENT;
  return quic_wire_params_read(reader, is_rfc ? QUIC_WIRE_READ_RFC : 0, in->bytes, in->len, params, sizeof *params,
                               NULL);
}

/* The list that was read, written by the side that sent it. */
void answer_params_write(const line *in) {
  uint32_t sender = item(in, "from") ? QUIC_WIRE_SIDE_CLIENT : QUIC_WIRE_SIDE_SERVER;
  quic_wire_params params;
  uint8_t out[1024];
  size_t len;
  if (read_params(in, &params) != QUIC_WIRE_OK ||
      quic_wire_params_write(sender, &params, sizeof params, out, sizeof out, &len) != QUIC_WIRE_OK) {
    puts("invalid");
    return;
  }
  printf("valid \"");
  print_hex(stdout, out, len);
  puts("\"");
}

void answer_params(const line *in) {
  quic_wire_params params;
  if (read_params(in, &params) != QUIC_WIRE_OK) {
    puts("invalid TRANSPORT_PARAMETER_ERROR");
    return;
  }
  printf("valid {");
  print_params(stdout, &params);
  puts("}");
}
