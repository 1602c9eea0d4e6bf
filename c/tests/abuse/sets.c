/* Sets of packet numbers, compared with 64 bits for the numbers from |base| on,
 * and ACKs of them; sets whose runs begin anywhere in an array, compared with
 * those. */
#include "abuse.h"

void sets_nulls(void) {
  quic_wire_range range;
  quic_wire_runs set = {0, 0};
  uint8_t out[8];
  size_t n = 0;
  WANT(quic_wire_set_insert(NULL, 1, &n, 0, 1) == INVALID);
  WANT(quic_wire_set_insert(&range, 1, NULL, 0, 1) == INVALID);
  WANT(quic_wire_set_insert(NULL, 0, &n, 0, 1) == QUIC_WIRE_ERR_NOBUF);
  WANT(quic_wire_set_insert(NULL, 0, &n, 1, 1) == 0);
  WANT(quic_wire_set_remove(NULL, 1, &n, 0, 1) == INVALID);
  WANT(quic_wire_set_remove(&range, 1, NULL, 0, 1) == INVALID);
  WANT(quic_wire_set_remove(NULL, 0, &n, 0, 1) == 0 && n == 0);
  WANT(quic_wire_set_contains(NULL, 1, 0) == INVALID);
  WANT(quic_wire_set_contains(NULL, 0, 0) == 0);
  WANT(quic_wire_set_within(NULL, 1, 0, 9, &range, 1, &n) == INVALID);
  WANT(quic_wire_set_within(&range, 1, 0, 9, NULL, 1, &n) == INVALID);
  WANT(quic_wire_set_within(&range, 1, 0, 9, &range, 1, NULL) == INVALID);
  n = 5;
  WANT(quic_wire_set_within(NULL, 0, 0, 9, NULL, 0, &n) == 0 && n == 0);
  WANT(quic_wire_runs_insert(NULL, 1, &set, 0, 1) == INVALID);
  WANT(quic_wire_runs_insert(&range, 1, NULL, 0, 1) == INVALID);
  WANT(quic_wire_runs_insert(NULL, 0, &set, 0, 1) == QUIC_WIRE_ERR_NOBUF);
  WANT(quic_wire_runs_insert(NULL, 0, &set, 1, 1) == 0);
  WANT(quic_wire_runs_remove(NULL, 1, &set, 0, 1) == INVALID);
  WANT(quic_wire_runs_remove(&range, 1, NULL, 0, 1) == INVALID);
  WANT(quic_wire_runs_remove(NULL, 0, &set, 0, 1) == 0);
  WANT(quic_wire_runs_contains(NULL, 1, &set, 0) == INVALID);
  WANT(quic_wire_runs_contains(&range, 1, NULL, 0) == INVALID);
  WANT(quic_wire_runs_contains(NULL, 0, &set, 0) == 0);
  WANT(quic_wire_runs_within(NULL, 1, &set, 0, 9, &range, 1, &n) == INVALID);
  WANT(quic_wire_runs_within(&range, 1, NULL, 0, 9, &range, 1, &n) == INVALID);
  WANT(quic_wire_runs_within(&range, 1, &set, 0, 9, NULL, 1, &n) == INVALID);
  WANT(quic_wire_runs_within(&range, 1, &set, 0, 9, &range, 1, NULL) ==
       INVALID);
  WANT(quic_wire_runs_within(NULL, 0, &set, 0, 9, NULL, 0, &n) == 0);
  WANT(set.first == 0 && set.count == 0);
  range.start = 7;
  range.end = 9;
  WANT(quic_wire_set_within(&range, 1, 0, 9, NULL, 0, &n) ==
           QUIC_WIRE_ERR_NOBUF &&
       n == 1);
  WANT(quic_wire_ack_write(0, NULL, 1, NULL, out, 8, &n) == INVALID);
  WANT(quic_wire_ack_write(0, NULL, 0, NULL, out, 8, &n) ==
       QUIC_WIRE_ERR_RANGES);
  WANT(quic_wire_ack_write(0, &range, 1, NULL, NULL, 8, &n) == INVALID);
  WANT(quic_wire_ack_write(0, &range, 1, NULL, NULL, 0, &n) ==
           QUIC_WIRE_ERR_NOBUF &&
       n == 5);
  WANT(quic_wire_ack_write(0, &range, 1, NULL, out, 8, NULL) == 0 &&
       !memcmp(out, "\x02\x08\x00\x00\x01", 5));
}

static unsigned runs_of_bits(uint64_t bits, uint64_t base,
                             quic_wire_range *runs) {
  unsigned n = 0, k = 0;
  while (k < 64) {
    if (bits >> k & 1) {
      runs[n].start = base + k;
      while (k < 64 && bits >> k & 1)
        k++;
      runs[n++].end = base + k;
    } else
      k++;
  }
  return n;
}

static size_t put(uint8_t *dest, uint64_t n) {
  size_t len = varint_len(n), k;
  for (k = 0; k < len; k++)
    dest[k] = (uint8_t)(n >> (8 * (len - 1 - k)));
  dest[0] |= (uint8_t)((len == 1 ? 0 : len == 2 ? 1 : len == 4 ? 2 : 3) << 6);
  return len;
}

/* An ACK of runs, as the RFC defines it, or nothing if there can't be one. */
static size_t plain_ack(uint64_t delay, const quic_wire_range *runs, size_t n,
                        const uint64_t *counts, uint8_t *dest) {
  uint64_t most = (1ull << 62) - 1;
  size_t at = 0, k;
  if (!n || delay > most || runs[n - 1].end - 1 > most)
    return 0;
  for (k = 0; counts && k < 3; k++)
    if (counts[k] > most)
      return 0;
  at += put(dest + at, counts ? 3 : 2);
  at += put(dest + at, runs[n - 1].end - 1);
  at += put(dest + at, delay);
  at += put(dest + at, n - 1);
  at += put(dest + at, runs[n - 1].end - runs[n - 1].start - 1);
  for (k = n - 1; k-- > 0;) {
    at += put(dest + at, runs[k + 1].start - runs[k].end - 1);
    at += put(dest + at, runs[k].end - runs[k].start - 1);
  }
  for (k = 0; counts && k < 3; k++)
    at += put(dest + at, counts[k]);
  return at;
}

static void read_ack(const uint8_t *bytes, size_t len,
                     const quic_wire_range *runs, size_t n) {
  quic_wire_frame_iter frames;
  quic_wire_frame frame;
  quic_wire_range_iter ranges;
  quic_wire_range range;
  WANT(quic_wire_frames_init(&frames, bytes, len, 0) == 0);
  WANT(quic_wire_frames_next(&frames, bytes, len, &frame) == QUIC_WIRE_ITEM);
  WANT(frame.kind == QUIC_WIRE_FRAME_ACK && frame.end == len);
  WANT(quic_wire_ack_ranges_init(&ranges, bytes, len, &frame) == 0);
  while (n-- > 0) {
    WANT(quic_wire_ack_ranges_next(&ranges, bytes, len, &range) == 1);
    WANT(range.start == runs[n].start && range.end == runs[n].end);
  }
  WANT(quic_wire_ack_ranges_next(&ranges, bytes, len, &range) == 0);
}

static void ack_of_set(const quic_wire_range *runs, size_t n) {
  uint64_t delay = edge(), three[3];
  uint64_t *counts = any() % 2 ? three : NULL;
  uint8_t wanted[600], *dest;
  size_t len, room, written = 99, k;
  int answer;
  three[0] = any() % 4 ? any() >> 3 : edge();
  three[1] = any() >> (any() % 64 | 2);
  three[2] = any() % 100;
  len = plain_ack(delay, runs, n, counts, wanted);
  room = any() % 2 ? len + any() % 9 : any() % (len + 1);
  dest = block(room);
  memset(dest, 0xee, room);
  answer = quic_wire_ack_write(delay, runs, n, counts, dest, room, &written);
  if (!len)
    WANT(answer == (n ? QUIC_WIRE_ERR_NUMBER : QUIC_WIRE_ERR_RANGES) &&
         written == 99);
  else if (room < len)
    WANT(answer == QUIC_WIRE_ERR_NOBUF && written == len);
  else
    WANT(answer == 0 && written == len && !memcmp(dest, wanted, len));
  for (k = answer == 0 ? len : 0; k < room; k++)
    WANT(dest[k] == 0xee);
  if (answer == 0)
    read_ack(dest, len, runs, n);
  free(dest);
}

/* The part of a set in a range, beside the bits that are in both. */
static void part_of_set(const quic_wire_range *runs, size_t count,
                        uint64_t bits, uint64_t base) {
  const unsigned a = (unsigned)(any() % 65), b = (unsigned)(any() % 65);
  const uint64_t below_b = b == 64 ? UINT64_MAX : (1ull << b) - 1;
  const uint64_t below_a = a == 64 ? UINT64_MAX : (1ull << a) - 1;
  quic_wire_range wanted[32], part[40], before[40];
  const unsigned needed = runs_of_bits(bits & below_b & ~below_a, base, wanted);
  size_t room = any() % 40, stored = 99;
  int answer;
  memset(part, 0xee, sizeof part);
  memcpy(before, part, sizeof part);
  answer = quic_wire_set_within(runs, count, base + a, base + b, part, room,
                                &stored);
  WANT(stored == needed);
  if (room < needed)
    WANT(answer == QUIC_WIRE_ERR_NOBUF && !memcmp(part, before, sizeof part));
  else {
    WANT(answer == 0 && !memcmp(part, wanted, needed * sizeof *part));
    WANT(!memcmp(part + needed, before + needed,
                 sizeof part - needed * sizeof *part));
  }
}

void sets(void) {
  static const uint64_t bases[] = {
      0, 0, 1000, (1ull << 62) - 64, (1ull << 62) - 40, UINT64_MAX - 64};
  uint64_t base = bases[any() % 6], bits = 0;
  size_t room = any() % 12, count = 0, k, size = room * sizeof(quic_wire_range);
  quic_wire_range *runs = (quic_wire_range *)block(size), wanted[32];
  quic_wire_range *old = (quic_wire_range *)block(size);
  int turn;
  for (k = 0; k < room; k++)
    runs[k].start = runs[k].end = any();
  for (turn = 0; turn < 40; turn++) {
    unsigned a = (unsigned)(any() % 65), b = (unsigned)(any() % 65);
    uint64_t below_b = b == 64 ? UINT64_MAX : (1ull << b) - 1;
    uint64_t below_a = a == 64 ? UINT64_MAX : (1ull << a) - 1;
    uint64_t mask = below_b & ~below_a, bit = any() % 64;
    int insert = any() % 3 != 0, answer;
    uint64_t after = insert ? bits | mask : bits & ~mask;
    unsigned needed = runs_of_bits(after, base, wanted);
    memcpy(old, runs, size);
    answer = (insert ? quic_wire_set_insert : quic_wire_set_remove)(
        runs, room, &count, base + a, base + b);
    if (after == bits)
      WANT(answer == 0);
    else if (needed > room)
      WANT(answer == QUIC_WIRE_ERR_NOBUF);
    else {
      WANT(answer == QUIC_WIRE_CHANGED && count == needed);
      WANT(!memcmp(runs, wanted, needed * sizeof *runs));
      bits = after;
    }
    WANT(!memcmp(runs + count, old + count, (room - count) * sizeof *runs));
    if (answer != QUIC_WIRE_CHANGED)
      WANT(!memcmp(runs, old, size));
    WANT(quic_wire_set_contains(runs, count, base + bit) ==
         (int)(bits >> bit & 1));
    part_of_set(runs, count, bits, base);
    ack_of_set(runs, count);
  }
  free(runs);
  free(old);
}

/* Runs with any field values, and invalid counts. */
void set_rubbish(void) {
  size_t room = any() % 6, count = any() % 9 ? any() % (room + 1) : place(), k;
  size_t size = room * sizeof(quic_wire_range), same, written = 99;
  quic_wire_range *runs = (quic_wire_range *)block(size);
  quic_wire_range *old = (quic_wire_range *)block(size);
  uint64_t start = edge(), end = edge(), at = 0;
  uint8_t dest[8];
  int valid = count <= room, answer;
  for (k = 0; k < room; k++) {
    runs[k].start = any() % 20 ? at + any() % 3 + (k ? 1 : 0) : edge();
    runs[k].end = any() % 20 ? runs[k].start + 1 + any() % 3 : edge();
    at = runs[k].end;
  }
  for (k = 0; valid && k < count; k++)
    if (runs[k].start >= runs[k].end || (k && runs[k].start <= runs[k - 1].end))
      valid = 0;
  memcpy(old, runs, size);
  same = count;
  if (count <= room) {
    answer = quic_wire_set_contains(runs, count, start);
    WANT((answer == QUIC_WIRE_ERR_RANGES) == !valid);
    answer = quic_wire_set_within(runs, count, start, end, NULL, 0, &written);
    WANT((answer == QUIC_WIRE_ERR_RANGES) == !valid);
    if (!valid)
      WANT(quic_wire_ack_write(0, runs, count, NULL, dest, 8, &written) ==
               QUIC_WIRE_ERR_RANGES &&
           written == 99);
  }
  answer = (any() % 2 ? quic_wire_set_insert
                      : quic_wire_set_remove)(runs, room, &count, start, end);
  WANT((answer == QUIC_WIRE_ERR_RANGES) == !valid);
  if (answer != QUIC_WIRE_CHANGED)
    WANT(count == same && !memcmp(runs, old, size));
  free(runs);
  free(old);
}

/* What a set names is in the array, and no other entries changed; none did
 * unless |answer| says so. */
static void changes_only(const quic_wire_range *runs,
                         const quic_wire_range *old, size_t room,
                         const quic_wire_runs *set, const quic_wire_runs *was,
                         int answer) {
  size_t first = (size_t)set->first, end = first + (size_t)set->count;
  if (answer == QUIC_WIRE_CHANGED) {
    WANT(set->first <= room && set->count <= room - set->first);
    WANT(!memcmp(runs, old, first * sizeof *runs));
    WANT(!memcmp(runs + end, old + end, (room - end) * sizeof *runs));
  } else {
    WANT(set->first == was->first && set->count == was->count);
    WANT(!memcmp(runs, old, room * sizeof *runs));
  }
}

/* Changes as a receiver makes them: numbers above all others are inserted, and
 * the least are removed.  Others are anywhere. */
static int next_change(const quic_wire_range *runs, size_t count,
                       uint64_t *start, uint64_t *end) {
  unsigned which = (unsigned)(any() % 6);
  if (which < 2 && count) {
    *start = runs[count - 1].end + any() % 3;
    *end = *start + any() % 3;
    return 1;
  }
  if (which == 2 && count) {
    *start = any() % (runs[0].start + 1);
    *end = runs[0].start + any() % 6;
    return 0;
  }
  *start += any() % 64;
  *end += any() % 64;
  return which != 3;
}

/* The numbers of the set in a range are those that the other call finds. */
static void runs_within(const quic_wire_range *runs, size_t room,
                        const quic_wire_runs *set,
                        const quic_wire_range *checked, uint64_t base) {
  uint64_t start = base + any() % 99, end = base + any() % 99;
  size_t ndest = any() % 6, len = ndest * sizeof(quic_wire_range);
  size_t wanted = 99, stored = 99;
  quic_wire_range *dest = (quic_wire_range *)block(len);
  quic_wire_range *other = (quic_wire_range *)block(len);
  int answer;
  memset(dest, 0xee, len);
  memset(other, 0xee, len);
  answer = quic_wire_set_within(checked, (size_t)set->count, start, end, other,
                                ndest, &wanted);
  WANT(quic_wire_runs_within(runs, room, set, start, end, dest, ndest,
                             &stored) == answer);
  WANT(stored == wanted && !memcmp(dest, other, len));
  free(dest);
  free(other);
}

/* Calls that don't check every run do what those that do would. */
void runs_any(void) {
  static const uint64_t bases[] = {0, 1000, UINT64_MAX - 1000};
  uint64_t base = bases[any() % 3];
  size_t room = any() % 12, size = room * sizeof(quic_wire_range), count = 0, k;
  quic_wire_range *runs = (quic_wire_range *)block(size);
  quic_wire_range *old = (quic_wire_range *)block(size);
  quic_wire_range *checked = (quic_wire_range *)block(size);
  quic_wire_runs set = {0, 0}, was;
  int turn;
  set.first = any() % (room + 1);
  for (k = 0; k < room; k++)
    runs[k].start = runs[k].end = any();
  for (turn = 0; turn < 40; turn++) {
    uint64_t start = base, end = base, number = base + any() % 64;
    int insert = next_change(checked, count, &start, &end), wanted, answer;
    memcpy(old, runs, size);
    was = set;
    wanted = (insert ? quic_wire_set_insert
                     : quic_wire_set_remove)(checked, room, &count, start, end);
    answer = (insert ? quic_wire_runs_insert
                     : quic_wire_runs_remove)(runs, room, &set, start, end);
    WANT(answer == wanted && set.count == count);
    changes_only(runs, old, room, &set, &was, answer);
    WANT(!memcmp(runs + set.first, checked, count * sizeof *runs));
    WANT(quic_wire_runs_contains(runs, room, &set, number) ==
         quic_wire_set_contains(checked, count, number));
    runs_within(runs, room, &set, checked, base);
  }
  free(runs);
  free(old);
  free(checked);
}

/* Entries with any field values, and a set that names any of them, or others.
 */
void runs_rubbish(void) {
  size_t room = any() % 6, size = room * sizeof(quic_wire_range), k;
  quic_wire_range *runs = (quic_wire_range *)block(size);
  quic_wire_range *old = (quic_wire_range *)block(size);
  quic_wire_range dest[2] = {{7, 7}, {7, 7}};
  size_t stored = 0;
  quic_wire_runs set, was;
  uint64_t start = edge(), end = edge();
  int within, answer;
  set.first = any() % 5 ? any() % (room + 1) : place();
  set.count = any() % 5 ? any() % (room + 1) : place();
  within = set.first <= room && set.count <= room - set.first;
  for (k = 0; k < room; k++) {
    runs[k].start = any() % 2 ? any() % 9 : edge();
    runs[k].end = any() % 2 ? any() % 9 : edge();
  }
  memcpy(old, runs, size);
  was = set;
  answer = quic_wire_runs_contains(runs, room, &set, start);
  WANT(within ? answer == 0 || answer == 1 : answer == QUIC_WIRE_ERR_RANGES);
  answer =
      quic_wire_runs_within(runs, room, &set, start, end, dest, 2, &stored);
  WANT((answer == QUIC_WIRE_ERR_RANGES) == !within);
  WANT(answer == 0 ? stored <= 2 : (stored > 2 || !within) && dest[0].end == 7);
  answer = (any() % 2 ? quic_wire_runs_insert
                      : quic_wire_runs_remove)(runs, room, &set, start, end);
  WANT((answer == QUIC_WIRE_ERR_RANGES) == !within);
  changes_only(runs, old, room, &set, &was, answer);
  free(runs);
  free(old);
}
