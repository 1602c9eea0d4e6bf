// each_call FOLDER ROUNDS: the time of the calls for C on the lists NAME.hex in a folder, lines of hexadecimal: the
// best of ROUNDS, in nanoseconds per line. datagrams.hex has datagrams, params.hex transport parameters, all other
// files payloads. Last comes a number that depends on all results; it is the same for two libraries with the same
// results.
#define _POSIX_C_SOURCE 200809L
#include <dirent.h>
#include <inttypes.h>
#include <stdio.h>
#include <stdlib.h>
#include <string.h>
#include <time.h>

#include "quic_wire.h"

enum { MOST = 40000, LONGEST = 1 << 16, SETS = 20000 };
static uint8_t *lines[MOST];
static size_t lens[MOST], count;
static uint64_t sum;
static quic_wire_frame frames[64];
static uint8_t room[LONGEST];
static quic_wire_range runs[128];

static double now(void) {
    struct timespec at;
    clock_gettime(CLOCK_MONOTONIC, &at);
    return (double)at.tv_sec * 1e9 + (double)at.tv_nsec;
}

static void first(size_t i) {
    quic_wire_frame_iter at;
    size_t n = 0;
    sum += (uint64_t)quic_wire_frames_first(&at, lines[i], lens[i], 0, frames, 64, &n) + n;
}

static void next(size_t i) {
    quic_wire_frame_iter at;
    if (quic_wire_frames_init(&at, lines[i], lens[i], 0) == QUIC_WIRE_OK)
        while (quic_wire_frames_next(&at, lines[i], lens[i], frames) == QUIC_WIRE_ITEM) sum += frames->kind;
}

static void canonical(size_t i) {
    quic_wire_canon canon = {0};
    sum += (uint64_t)quic_wire_canonical(lines[i], lens[i], room, sizeof room, &canon) + canon.len;
}

static void header(size_t i) {
    static const uint32_t versions[] = {QUIC_WIRE_VERSION_1, QUIC_WIRE_VERSION_2};
    quic_wire_header to = {0};
    sum += (uint64_t)quic_wire_header_read(lines[i], lens[i], 8, versions, 2, 0, &to) + to.end;
}

static void params_read(size_t i) {
    quic_wire_params params;
    sum += (uint64_t)quic_wire_params_read(QUIC_WIRE_SIDE_CLIENT, 0, lines[i], lens[i], &params, sizeof params, NULL);
}

// Writes the first list of transport parameters that a client can receive.
static void params_write(size_t i) {
    static quic_wire_params params;
    static int has_params;
    size_t written = 0;
    if (!has_params)
        has_params =
            quic_wire_params_read(QUIC_WIRE_SIDE_CLIENT, 0, lines[i], lens[i], &params, sizeof params, NULL) == QUIC_WIRE_OK;
    sum += (uint64_t)quic_wire_params_write(QUIC_WIRE_SIDE_SERVER, &params, sizeof params, room, sizeof room, &written) +
           written;
}

static void set(size_t i) {
    static size_t used;
    static uint64_t random;
    random = random * 6364136223846793005u + i;
    if (!(i & 255)) used = 0;
    const uint64_t start = random >> 40 & 1023;
    sum += (uint64_t)quic_wire_set_insert(runs, 128, &used, start, start + 2);
    sum += (uint64_t)quic_wire_set_contains(runs, used, start ^ 5);
    if (i & 1) sum += (uint64_t)quic_wire_set_remove(runs, 128, &used, start ^ 9, (start ^ 9) + 1);
}

static void number(size_t i) {
    sum += (uint64_t)quic_wire_number_len(i * 77, i * 3) + quic_wire_number_expand(i & 255, 1, i * 7);
}

static void timed(const char *call, const char *list, void (*work)(size_t), long rounds) {
    double best = 1e18;
    for (long round = 0; round < rounds; round++) {
        const double begun = now();
        for (size_t i = 0; i < count; i++) work(i);
        const double each = (now() - begun) / (double)count;
        if (each < best) best = each;
    }
    printf("%s, %s: %.1f\n", call, list, best);
}

static void load(const char *path) {
    static char line[2 * LONGEST + 2];
    FILE *in = fopen(path, "r");
    if (!in) exit(2);
    for (count = 0; count < MOST && fgets(line, sizeof line, in);) {
        const size_t len = strcspn(line, "\r\n") / 2;
        if (!len || !(lines[count] = malloc(len))) continue;
        for (size_t i = 0; i < len; i++) {
            const char digits[3] = {line[2 * i], line[2 * i + 1], 0};
            lines[count][i] = (uint8_t)strtoul(digits, NULL, 16);
        }
        lens[count++] = len;
    }
    fclose(in);
}

static void work_on(const char *folder, const char *name, long rounds) {
    char path[4096];
    snprintf(path, sizeof path, "%s/%s", folder, name);
    load(path);
    if (!strcmp(name, "datagrams.hex")) {
        timed("a header read", name, header, rounds);
    } else if (!strcmp(name, "params.hex")) {
        timed("parameters read", name, params_read, rounds);
        timed("parameters written", name, params_write, rounds);
    } else {
        timed("frames, many by a call", name, first, rounds);
        timed("frames, one by a call", name, next, rounds);
        timed("the shortest form", name, canonical, rounds);
    }
    while (count) free(lines[--count]);
}

int main(int argc, char **argv) {
    struct dirent **entries;
    const long rounds = argc == 3 ? strtol(argv[2], NULL, 10) : 0;
    const int n = rounds > 0 ? scandir(argv[1], &entries, NULL, alphasort) : -1;
    if (n < 0) {
        fputs("usage: each_call FOLDER ROUNDS\n", stderr);
        return 2;
    }
    for (int i = 0; i < n; i++)
        if (strstr(entries[i]->d_name, ".hex")) work_on(argv[1], entries[i]->d_name, rounds);
    count = SETS;
    timed("changes of a set", "at random", set, rounds);
    timed("packet numbers", "in turn", number, rounds);
    printf("sum: %" PRIu64 "\n", sum);
    return 0;
}
