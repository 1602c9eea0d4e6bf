// The kinds of work that count.c counts and times.c times, with the calls of calls.txt and, if ngtcp2 is available, its
// frame reader. The lines of a file are loaded into `items`; only those of one kind if one is named.
#include <stdint.h>
#include <stdio.h>
#include <stdlib.h>
#include <string.h>
#ifdef NGTCP2
#include <ngtcp2_pkt.h>
#endif

typedef uint64_t u64;
typedef uint32_t u32;
u64 count_frames(const uint8_t *, size_t);
u64 count_whole(const uint8_t *, size_t);
u64 count_canonical(const uint8_t *, size_t);
u64 canonical_into(const uint8_t *, size_t, uint8_t *, size_t);
u64 count_copy(const uint8_t *, size_t);
u64 count_decode(const uint8_t *, size_t);
u64 count_cut(const uint8_t *, size_t);
u64 count_params_read(const uint8_t *, size_t);
u64 count_params_write(const uint8_t *, size_t, u32);
u64 count_number(u64, u64, u32);
u64 count_expand(u32, u32, u64, u32);
u64 count_head(u32, u32);
u64 count_ranges(const uint8_t *, size_t, u32);
u64 count_encode(const uint8_t *, size_t, u32, u32);
u64 count_set(u32, const u64 *, size_t);
u64 count_two(const u64 *, size_t, const u64 *, size_t, u32, u32);
u64 count_ack(const u64 *, size_t, u32);

#define MOST 100000
static uint8_t *items[MOST];
static size_t sizes[MOST], items_len, frames_len;

// Reads the frames of a payload with ngtcp2. Returns the sum of their types and lengths, or 0 if ngtcp2 rejects one.
static u64 ngtcp2_sum(const uint8_t *payload, size_t len) {
#ifdef NGTCP2
    static union { ngtcp2_frame frame; uint8_t room[1 << 16]; } place;
    u64 sum = 0;
    for (size_t at = 0; at < len;) {
        place.frame.type = 0;
        ngtcp2_ssize bytes = ngtcp2_pkt_decode_frame(&place.frame, payload + at, len - at);
        if (bytes <= 0) return 0;
        sum += place.frame.type + (u64)bytes;
        at += (size_t)bytes;
    }
    return sum;
#else
    (void)payload;
    return len;
#endif
}

static int digit(int c) { return c <= '9' ? c - '0' : (c | 32) - 'a' + 10; }

static int is_of_kind(char kind, const uint8_t *bytes, size_t len) {
    if (len == 0) return 0;
    if (kind == 's') return bytes[0] < 0x80;
    if (kind == 'i') return bytes[0] >= 0x80 && (bytes[0] >> 4 & 3) == 0;
    if (kind == 'h') return bytes[0] >= 0x80 && (bytes[0] >> 4 & 3) == 2;
    return 1;
}

static void load(const char *path, char kind) {
    static char line[1 << 20];
    FILE *file = fopen(path, "r");
    if (!file) { perror(path); exit(2); }
    while (items_len < MOST && fgets(line, sizeof line, file)) {
        size_t len = strcspn(line, "\r\n") / 2;
        uint8_t *bytes = malloc(len + 1);
        for (size_t i = 0; i < len; i++) bytes[i] = digit(line[2 * i]) * 16 + digit(line[2 * i + 1]);
        if (!is_of_kind(kind, bytes, len)) continue;
        if (kind == 'w') {
            size_t frames = count_whole(bytes, len);
            if (frames == 0 || ngtcp2_sum(bytes, len) == 0) continue;
            frames_len += frames;
        }
        if (kind == 'c') {
            uint8_t *other = malloc(len + 1);
            len = canonical_into(bytes, len, other, len);
            bytes = other;
            if (len == 0) continue;
        }
        items[items_len] = bytes;
        sizes[items_len++] = len;
    }
    fclose(file);
}

static u64 state = 88172645463325252ull;
static u64 next(void) { state ^= state << 13; state ^= state >> 7; state ^= state << 17; return state; }

// Operations on a set, each in one word: the start, how many numbers, and 0 to insert, 1 to remove, 2 to look for one.
static u64 *operations;
static size_t operations_len;

static void operation(u64 kind, u64 start, u64 len) { operations[operations_len++] = start << 22 | len << 2 | kind; }

static void shuffle(u64 *numbers, size_t n) {
    for (size_t i = n - 1; i > 0; i--) {
        size_t j = next() % (i + 1);
        u64 other = numbers[i];
        numbers[i] = numbers[j];
        numbers[j] = other;
    }
}

// Packet numbers in order, one in 50 lost, and one in 20 late by up to 8 positions. With `leave`, after each 32nd
// insertion, the 400 numbers that end 200 below it are removed.
static void packets(u64 *numbers, size_t n, int leave) {
    size_t len = 0;
    for (u64 number = 0; len < n; number++)
        if (next() % 50) numbers[len++] = number;
    for (size_t i = 0; i + 8 < len; i++)
        if (next() % 20 == 0) {
            size_t j = 1 + next() % 8;
            u64 late = numbers[i];
            memmove(numbers + i, numbers + i + 1, j * 8);
            numbers[i + j] = late;
        }
    for (size_t i = 0; i < n; i++) {
        operation(0, numbers[i], 1);
        if (leave && i % 32 == 31 && numbers[i] > 300) {
            u64 top = numbers[i] - 200;
            operation(1, top > 400 ? top - 400 : 0, 400);
        }
    }
}

// Single numbers of which no two are adjacent: up, down or any (in random order). Then each is removed (-r) or looked
// for (-c) in random order.
static void singles(const char *name, u64 *numbers, size_t n) {
    for (size_t i = 0; i < n; i++) numbers[i] = 4 + (!strncmp(name, "down", 4) ? n - 1 - i : i) * 4;
    if (!strncmp(name, "any", 3)) shuffle(numbers, n);
    for (size_t i = 0; i < n; i++) operation(0, numbers[i], 1);
    const char *then = strchr(name, '-');
    if (!then) return;
    shuffle(numbers, n);
    for (size_t i = 0; i < n; i++) operation(then[1] == 'c' ? 2 : 1, numbers[i], 1);
}

// NAME: order; packets, packets-r; up, up-r, down, any, any-r, any-c; hole (single numbers are removed from one range
// in random order); runs4, runs5, runs7 (single numbers, every fourth, from 4, 5 or 7 on); inner, wide (runs of 4 and
// of 6 numbers, every eighth).
static void generate(const char *name, size_t n) {
    u64 *numbers = malloc(2 * n * sizeof *numbers);
    operations = malloc((4 * n + 16) * sizeof *operations);
    operations_len = 0;
    state = 88172645463325252ull;
    if (!strcmp(name, "order")) for (size_t i = 0; i < n; i++) operation(0, i, 1);
    else if (!strncmp(name, "packets", 7)) packets(numbers, n, name[7] == '-');
    else if (!strcmp(name, "hole")) {
        operation(0, 0, 4 * n);
        for (size_t i = 0; i < n; i++) numbers[i] = 1 + i * 4;
        shuffle(numbers, n);
        for (size_t i = 0; i < n; i++) operation(1, numbers[i], 1);
    }
    else if (!strncmp(name, "runs", 4)) for (size_t i = 0; i < n; i++) operation(0, name[4] - '0' + i * 4, 1);
    else if (!strcmp(name, "inner")) for (size_t i = 0; i < n; i++) operation(0, 8 + i * 8, 4);
    else if (!strcmp(name, "wide")) for (size_t i = 0; i < n; i++) operation(0, 8 + i * 8, 6);
    else singles(name, numbers, n);
    free(numbers);
}

static inline u64 numbers(u64 (*call)(u64, u64, u32), u32 rounds, u32 work) {
    u64 sum = 0;
    for (u32 i = 0; i < 1000 * rounds; i++) {
        u64 acked = next() >> (3 + next() % 40), n = acked + (next() >> (34 + next() % 30)) % (1u << 31);
        sum += call(n, acked, work);
    }
    return sum;
}

static inline u64 expansions(u64 (*call)(u32, u32, u64, u32), u32 rounds, u32 work) {
    u64 sum = 0;
    for (u32 i = 0; i < 1000 * rounds; i++) {
        u32 len = 1 + next() % 4, x = (u32)next() >> (32 - 8 * len);
        sum += call(len, x, next() >> (2 + next() % 50), work);
    }
    return sum;
}

static inline u64 over(u64 (*call)(const uint8_t *, size_t), u32 rounds) {
    u64 sum = 0;
    for (u32 r = 0; r < rounds; r++)
        for (size_t i = 0; i < items_len; i++) sum += call(items[i], sizes[i]);
    return sum;
}
