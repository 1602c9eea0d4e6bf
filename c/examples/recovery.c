/* Loss recovery.  A set holds the packet numbers that were received, and an ACK
 * acknowledges them.  The peer reads the ACK, removes what it acknowledges from
 * what is in flight, and finds what is lost (RFC 9002, section 6.1.1).  To build
 * it:
 *
 *   cc -o recovery recovery.c -IPREFIX/include PREFIX/lib/libquic_wire.a
 */
#include "paths.h"
#include "quic_wire.h"

enum { ROOM = 32, THRESHOLD = 3 };
typedef struct set {
  quic_wire_range runs[ROOM];
  quic_wire_runs at; /* which of them are the set */
} set;

static void print_set(const char *name, const set *s) {
  size_t i;
  printf("%s", name);
  for (i = s->at.first; i < s->at.first + s->at.count; i++)
    printf(" %" PRIu64 "-%" PRIu64, s->runs[i].start, s->runs[i].end - 1);
  putchar('\n');
}

/* Adds a number.  If there is no room, the least ones are dropped, of which it
 * may be one (RFC 9000, section 13.2.3). */
static void add(set *s, uint64_t number) {
  if (quic_wire_runs_insert(s->runs, ROOM, &s->at, number, number + 1) !=
          QUIC_WIRE_ERR_NOBUF ||
      number < s->runs[s->at.first].start)
    return;
  s->at.first++;
  s->at.count--;
  add(s, number);
}

static size_t write_ack(const set *came, uint8_t *dest, size_t room) {
  static const uint64_t counts[3] = {20, 0, 1};
  size_t n = 0;
  const int answer = quic_wire_ack_write(8, came->runs + came->at.first,
                                         came->at.count, counts, dest, room, &n);
  check(answer == QUIC_WIRE_OK, quic_wire_strerror(answer));
  return n;
}

/* Numbers that are acknowledged are no longer in flight, so those in flight are
 * newly acknowledged. */
static void acknowledge(set *in_flight, const quic_wire_range *range) {
  set newly = {{{0, 0}}, {0, 0}};
  size_t count = 0;
  check(quic_wire_runs_within(in_flight->runs, ROOM, &in_flight->at,
                              range->start, range->end, newly.runs, ROOM,
                              &count) == QUIC_WIRE_OK,
        "no room");
  newly.at.count = count;
  print_set("acknowledged", &newly);
  check(quic_wire_runs_remove(in_flight->runs, ROOM, &in_flight->at,
                              range->start, range->end) >= 0,
        "no room");
}

/* What is in flight and three or more below a number that is acknowledged. */
static void print_lost(const set *in_flight, uint64_t largest) {
  size_t i;
  uint64_t number;
  for (i = in_flight->at.first;
       i < in_flight->at.first + in_flight->at.count; i++)
    for (number = in_flight->runs[i].start;
         number < in_flight->runs[i].end && number + THRESHOLD <= largest;
         number++)
      printf("lost %" PRIu64 "\n", number);
}

/* |next| is the number of the next packet that is sent. */
static void read_ack(set *in_flight, uint64_t next, const uint8_t *bytes,
                     size_t len) {
  quic_wire_frame frame;
  quic_wire_range_iter ranges;
  quic_wire_range range;
  const int64_t end =
      quic_wire_frame_read(bytes, len, QUIC_WIRE_READ_RFC, &frame, NULL, 0);
  check(end > 0 && frame.kind == QUIC_WIRE_FRAME_ACK, "no ACK");
  /* PROTOCOL_VIOLATION (section 13.1). */
  check(frame.ack.largest < next, "an ACK of a packet that wasn't sent");
  check(quic_wire_ack_ranges_init(&ranges, bytes, len, &frame) == QUIC_WIRE_OK,
        "no ACK");
  printf("delay %" PRIu64 ", ce %" PRIu64 "\n", frame.ack.delay, frame.ack.ce);
  while (quic_wire_ack_ranges_next(&ranges, bytes, len, &range) ==
         QUIC_WIRE_ITEM)
    acknowledge(in_flight, &range);
  print_set("in flight", in_flight);
  print_lost(in_flight, frame.ack.largest);
}

int main(void) {
  static const uint64_t numbers[] = {0, 1, 2, 5, 4, 9, 7, 12, 13, 12, 20};
  enum { SENT = 23 };
  set came = {{{0, 0}}, {0, 0}}, in_flight = {{{0, SENT}}, {0, 1}};
  uint8_t bytes[200];
  size_t i;
  for (i = 0; i < sizeof numbers / sizeof *numbers; i++)
    add(&came, numbers[i]);
  print_set("came", &came);
  i = write_ack(&came, bytes, sizeof bytes);
  print_hex("ack ", bytes, i);
  read_ack(&in_flight, SENT, bytes, i);
  return 0;
}
