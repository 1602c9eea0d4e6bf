/* show MODE: all modes of `quic-show` with the calls for C, with the same text,
 * messages and status for all arguments and bytes.  But it prints each line
 * before it reads the next: if a read fails, the lines before it are printed.
 * Each line's bytes are in a block of exactly their length, so that a sanitizer
 * or valgrind sees each byte that is read past it. */
/* For SIGPIPE. */
#define _POSIX_C_SOURCE 200809L
#include <inttypes.h>
#include <signal.h>
#include <stdio.h>
#include <stdlib.h>
#include <string.h>

#include "quic_wire.h"

/* Ends with status 3 and a line on standard error. */
static void fail(const char *why) {
  fprintf(stderr, "quic-show: %s\n", why);
  exit(3);
}

static int digit(int c) {
  if (c >= '0' && c <= '9')
    return c - '0';
  c |= 0x20;
  return c >= 'a' && c <= 'f' ? c - 'a' + 10 : -1;
}

/* Converts the digits of a line to bytes in place.  Returns how many, or -1. */
static ptrdiff_t unhex(char *line, size_t len) {
  uint8_t *bytes = (uint8_t *)line;
  size_t i;
  if (len % 2)
    return -1;
  for (i = 0; i < len / 2; i++) {
    int high = digit((unsigned char)line[2 * i]);
    int low = digit((unsigned char)line[2 * i + 1]);
    if (high < 0 || low < 0)
      return -1;
    bytes[i] = (uint8_t)(high * 16 + low);
  }
  return (ptrdiff_t)(len / 2);
}

static void print_type(uint64_t type) {
  const char *name = quic_wire_type_name(type);
  if (name)
    printf("%s", name);
  else
    printf("<unknown %" PRIx64 ">", type);
}

static void print_invalid(uint64_t type, int result) {
  printf("error %s", quic_wire_strerror(result));
  if (type != QUIC_WIRE_NO_TYPE) {
    printf(" in ");
    print_type(type);
  }
  putchar('\n');
}

/* Each of these returns whether no error was printed. */
static int print_frames(const uint8_t *payload, size_t len, int strict) {
  quic_wire_frame_iter frames;
  quic_wire_frame frame;
  const uint32_t flags = strict ? QUIC_WIRE_READ_SHORT_TYPES : 0;
  int answer = quic_wire_frames_init(&frames, payload, len, flags);
  if (answer < 0) {
    print_invalid(QUIC_WIRE_NO_TYPE, answer);
    return 0;
  }
  while ((answer = quic_wire_frames_next(&frames, payload, len, &frame)) ==
         QUIC_WIRE_ITEM) {
    printf("%zu..%zu ", (size_t)frame.begin, (size_t)frame.end);
    print_type(frame.kind);
    putchar('\n');
  }
  if (answer == QUIC_WIRE_OK)
    return 1;
  print_invalid(quic_wire_error_type(&frame), answer);
  return 0;
}

/* The shortest form, in a block of exactly its length. */
static int print_canonical(const uint8_t *payload, size_t len) {
  quic_wire_canon canon = {0, QUIC_WIRE_NO_TYPE};
  int answer = quic_wire_canonical(payload, len, NULL, 0, &canon);
  uint8_t *block;
  size_t i;
  if (answer != QUIC_WIRE_ERR_NOBUF) {
    print_invalid(canon.last_type, answer);
    return 0;
  }
  block = malloc(canon.len);
  if (!block || quic_wire_canonical(payload, len, block, canon.len, &canon))
    fail("out of memory");
  for (i = 0; i < canon.len; i++)
    printf("%02x", block[i]);
  putchar('\n');
  free(block);
  return 1;
}

static void print_id(const uint8_t *datagram, size_t place, size_t len) {
  size_t i;
  if (!len)
    putchar('-');
  for (i = 0; i < len; i++)
    printf("%02x", datagram[place + i]);
}

/* A packet that begins at |begin| in its datagram. */
static void print_packet(const uint8_t *packet, size_t begin,
                         const quic_wire_header *header) {
  static const char *const kinds[] = {
      "initial", "0rtt", "handshake", "retry", "short", "version-negotiation"};
  printf("%zu..%zu %s dst ", begin, begin + header->end, kinds[header->kind]);
  print_id(quic_wire_dcid(packet, header), 0, header->dcidlen);
  if (header->kind != QUIC_WIRE_PACKET_1RTT) {
    printf(" src ");
    print_id(quic_wire_scid(packet, header), 0, header->scidlen);
    printf(" version %08" PRIx32, header->version);
  }
  if (header->kind == QUIC_WIRE_PACKET_INITIAL)
    printf(" token %" PRIu32 "..%" PRIu32, header->token,
           header->token + header->tokenlen);
  putchar('\n');
}

/* Where the packet ends that begins here, with its header, or why there is
 * none. */
static int64_t read_header(const uint8_t *bytes, size_t len, uint32_t cidlen,
                           quic_wire_header *header) {
  static const uint32_t versions[] = {0x00000001, 0xff00001d, 0xff00001e,
                                      0xff00001f, 0xff000020, 0xff000021,
                                      0xff000022, 0x6b3343cf};
  const int64_t end =
      quic_wire_header_read(bytes, len, cidlen, versions, 8, 0, header);
  if (end == QUIC_WIRE_ERR_PACKET_VERSION &&
      (header->dcidlen > 20 || header->scidlen > 20))
    return QUIC_WIRE_ERR_PACKET_CID;
  return end;
}

static int print_packets(const uint8_t *datagram, size_t len, uint32_t cidlen) {
  static const uint8_t none = 0;
  quic_wire_header header;
  size_t begin = 0;
  int64_t end;
  do {
    const uint8_t *packet = datagram ? datagram + begin : &none;
    end = read_header(packet, len - begin, cidlen, &header);
    if (end > 0) {
      print_packet(packet, begin, &header);
      begin += (size_t)end;
    }
  } while (end > 0 && begin < len);
  if (end > 0)
    return 1;
  printf("error %s", quic_wire_strerror((int)end));
  if (end == QUIC_WIRE_ERR_PACKET_VERSION)
    printf(" %" PRIx32, header.version);
  putchar('\n');
  return 0;
}

static void print_number(const char *name, uint64_t n, uint64_t normal) {
  if (n != normal)
    printf("%s %" PRIu64 "\n", name, n);
}

static void print_bytes(const char *name, const uint8_t *bytes, size_t len) {
  printf("%s ", name);
  print_id(bytes, 0, len);
  putchar('\n');
}

/* A preferred address as it is in a list. */
static void print_address(const quic_wire_params *p) {
  printf("preferred_address ");
  print_id(p->preferred_v4, 0, 4);
  printf("%04x", p->preferred_v4_port);
  print_id(p->preferred_v6, 0, 16);
  printf("%04x%02" PRIx32, p->preferred_v6_port, p->preferred_cidlen);
  print_id(p->preferred_cid, 0, p->preferred_cidlen);
  print_id(p->preferred_token, 0, 16);
  putchar('\n');
}

static void print_numbers(const quic_wire_params *p) {
  print_number("max_idle_timeout", p->max_idle_timeout, 0);
  print_number("max_udp_payload_size", p->max_udp_payload_size, 65527);
  print_number("initial_max_data", p->initial_max_data, 0);
  print_number("initial_max_stream_data_bidi_local",
               p->initial_max_stream_data_bidi_local, 0);
  print_number("initial_max_stream_data_bidi_remote",
               p->initial_max_stream_data_bidi_remote, 0);
  print_number("initial_max_stream_data_uni", p->initial_max_stream_data_uni,
               0);
  print_number("initial_max_streams_bidi", p->initial_max_streams_bidi, 0);
  print_number("initial_max_streams_uni", p->initial_max_streams_uni, 0);
  print_number("ack_delay_exponent", p->ack_delay_exponent, 3);
  print_number("max_ack_delay", p->max_ack_delay, 25);
  print_number("active_connection_id_limit", p->active_connection_id_limit, 2);
}

static int print_params(const uint8_t *list, size_t len, uint32_t side) {
  quic_wire_params p;
  int answer = quic_wire_params_read(side, 0, list, len, &p, sizeof p, NULL);
  if (answer != QUIC_WIRE_OK) {
    printf("error %s\n", quic_wire_strerror(answer));
    return 0;
  }
  print_numbers(&p);
  if (p.present & QUIC_WIRE_HAS_STATELESS_RESET_TOKEN)
    print_bytes("stateless_reset_token", p.stateless_reset_token, 16);
  if (p.present & QUIC_WIRE_HAS_DISABLE_ACTIVE_MIGRATION)
    puts("disable_active_migration true");
  if (p.present & QUIC_WIRE_HAS_MAX_DATAGRAM_FRAME_SIZE)
    printf("max_datagram_frame_size %" PRIu64 "\n", p.max_datagram_frame_size);
  if (p.present & QUIC_WIRE_HAS_PREFERRED_ADDRESS)
    print_address(&p);
  if (p.present & QUIC_WIRE_HAS_ORIGINAL_DST_CID)
    print_bytes("original_dst_cid", p.original_dst_cid, p.original_dst_cidlen);
  if (p.present & QUIC_WIRE_HAS_INITIAL_SRC_CID)
    print_bytes("initial_src_cid", p.initial_src_cid, p.initial_src_cidlen);
  if (p.present & QUIC_WIRE_HAS_RETRY_SRC_CID)
    print_bytes("retry_src_cid", p.retry_src_cid, p.retry_src_cidlen);
  if (p.present & QUIC_WIRE_HAS_GREASE_QUIC_BIT)
    puts("grease_quic_bit true");
  if (p.present & QUIC_WIRE_HAS_MIN_ACK_DELAY)
    printf("min_ack_delay %" PRIu64 "\n", p.min_ack_delay);
  puts("ok");
  return 1;
}

/* The mode that the arguments select: a printer, and its number. */
typedef struct mode {
  enum { FRAMES, STRICT, CANON, DATAGRAM, PARAMS } what;
  uint32_t number; /* the length of ids, or the side */
} mode;

/* One or two decimal digits, at most 20.  Returns -1 for any other word. */
static int id_len(const char *word) {
  size_t len = strlen(word);
  if (len < 1 || len > 2 || strspn(word, "0123456789") != len)
    return -1;
  return atoi(word) <= 20 ? atoi(word) : -1;
}

/* Returns whether the arguments select a mode. */
static int read_mode(int argc, char **argv, mode *out) {
  static const char *const plain[] = {"frames", "strict", "canon"};
  int i;
  for (i = 0; i < 3; i++)
    if (argc == 2 && !strcmp(argv[1], plain[i])) {
      out->what = i == 0 ? FRAMES : i == 1 ? STRICT : CANON;
      return 1;
    }
  if (argc == 3 && !strcmp(argv[1], "datagram") && id_len(argv[2]) >= 0) {
    out->what = DATAGRAM;
    out->number = (uint32_t)id_len(argv[2]);
    return 1;
  }
  if (argc == 3 && !strcmp(argv[1], "params") &&
      (!strcmp(argv[2], "client") || !strcmp(argv[2], "server"))) {
    out->what = PARAMS;
    out->number = strcmp(argv[2], "client") ? QUIC_WIRE_SIDE_SERVER
                                            : QUIC_WIRE_SIDE_CLIENT;
    return 1;
  }
  return 0;
}

static int print_bytes_of_line(mode m, const uint8_t *bytes, size_t len) {
  switch (m.what) {
  case CANON:
    return print_canonical(bytes, len);
  case DATAGRAM:
    return print_packets(bytes, len, m.number);
  case PARAMS:
    return print_params(bytes, len, m.number);
  default:
    return print_frames(bytes, len, m.what == STRICT);
  }
}

/* Prints what a line encodes.  Returns whether no error was printed. */
static int print_line(mode m, char *line, size_t len) {
  ptrdiff_t bytes;
  uint8_t *block = NULL;
  int clean;
  if (len && line[len - 1] == '\n')
    len--;
  if (len && line[len - 1] == '\r')
    len--;
  bytes = unhex(line, len);
  if (bytes < 0) {
    puts("error not hexadecimal");
    return 0;
  }
  if (bytes) { /* Without bytes any pointer is valid, also NULL. */
    block = malloc((size_t)bytes);
    if (!block)
      fail("out of memory");
    memcpy(block, line, (size_t)bytes);
  }
  clean = print_bytes_of_line(m, block, (size_t)bytes);
  free(block);
  return clean;
}

/* Reads the next line, with its end, into |*line|, which has |*room| bytes and
 * grows.  Returns its length, 0 at the end of the input. */
static size_t read_line(char **line, size_t *room) {
  size_t len = 0;
  int c = 0;
  while (c != '\n' && (c = getchar()) != EOF) {
    if (len == *room) {
      *room = 2 * *room + 256;
      *line = (char *)realloc(*line, *room);
      if (!*line)
        fail("out of memory");
    }
    (*line)[len++] = (char)c;
  }
  return len;
}

int main(int argc, char **argv) {
  mode m = {FRAMES, 0};
  char *line = NULL;
  size_t room = 0, len;
  int clean = 1;
#ifdef SIGPIPE
  signal(SIGPIPE, SIG_IGN);
#endif
  if (!read_mode(argc, argv, &m)) {
    fputs("usage: quic-show frames|strict|canon|datagram LEN|params "
          "client|server\n",
          stderr);
    return 2;
  }
  while (!ferror(stdout) && (len = read_line(&line, &room)) != 0)
    clean &= print_line(m, line, len);
  if (!ferror(stdout) && ferror(stdin))
    fail("read failed");
  free(line);
  if (fflush(stdout) == EOF || ferror(stdout))
    fail("write failed");
  return clean ? 0 : 1;
}
