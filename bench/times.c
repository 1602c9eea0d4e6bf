// times ROUNDS FOLDER: the time that the same work takes with this library and, if they are linked, with quinn-proto
// (QUINN) and ngtcp2 (NGTCP2). They run in turn in one process, and the best of ROUNDS counts. The lists of FOLDER are
// datagrams.hex, params.hex, and payloads in all other files. Prints a line for each kind of work: nanoseconds per
// item, and the ratios to the other libraries. The times depend on the machine and the hour; only ratios within one run
// mean anything.
#include <dirent.h>
#include <time.h>

#include "crossing.h"
#include "work.h"

#ifdef QUINN
#include "crate.h"
#define PEER(call) call
#else
#define PEER(call) NULL
#endif
#ifdef NGTCP2
#define PEER_NGTCP2(call) call
#else
#define PEER_NGTCP2(call) NULL
#endif

// How often the frames of a payload, a list of parameters, a header and an ACK are written in a round, once they are
// read.
#define WRITES 20

static u32 rounds;
static size_t base;
static volatile u64 sink;

static double now(void) {
    struct timespec t;
    clock_gettime(CLOCK_MONOTONIC, &t);
    return (double)t.tv_sec * 1e9 + (double)t.tv_nsec;
}

// One library in a comparison: its name, its work, and what is subtracted from the time of its work, or NULL.
struct side {
    const char *name;
    u64 (*work)(void);
    u64 (*less)(void);
    double best, best_less;
};

static double timed(u64 (*work)(void), double best) {
    double start = now();
    sink += work();
    double took = now() - start;
    return took < best ? took : best;
}

// Prints the time per item of each library, and the ratio of this library's time to each other's.
static void compare(const char *file, const char *name, double items_of_round, struct side *sides, size_t count) {
    double first = 0;
    for (size_t k = 0; k < count; k++) sides[k].best = sides[k].best_less = 1e18;
    for (u32 r = 0; r < rounds; r++)
        for (size_t k = 0; k < count; k++) {
            if (!sides[k].work) continue;
            sides[k].best = timed(sides[k].work, sides[k].best);
            if (sides[k].less) sides[k].best_less = timed(sides[k].less, sides[k].best_less);
        }
    printf("%s%s%s:", file, *file ? ", " : "", name);
    for (size_t k = 0; k < count; k++) {
        if (!sides[k].work) continue;
        double took = (sides[k].best - (sides[k].less ? sides[k].best_less : 0)) / items_of_round;
        if (k == 0) first = took;
        printf("%s %s %.2f ns", k ? "," : "", sides[k].name, took);
        if (k) printf(" (%.2f)", first / took);
    }
    printf("\n");
}

#define LENGTH(array) (sizeof(array) / sizeof *(array))
#define COMPARE(file, name, items_of_round, ...)                                                                       \
    do {                                                                                                               \
        struct side sides[] = {__VA_ARGS__};                                                                           \
        compare(file, name, items_of_round, sides, LENGTH(sides));                                                     \
    } while (0)

// The work over all items of a file: by their bytes, and by their indices.
#define OVER(name, call)                                                                                               \
    static u64 name(void) {                                                                                            \
        u64 sum = 0;                                                                                                   \
        for (size_t i = 0; i < items_len; i++) sum += call;                                                            \
        return sum;                                                                                                    \
    }
OVER(frames, count_frames(items[i], sizes[i]))
OVER(canonical, count_canonical(items[i], sizes[i]))
OVER(ranges, count_ranges(items[i], sizes[i], 0))
OVER(written, count_encode(items[i], sizes[i], WRITES, 1))
OVER(looked_at, count_encode(items[i], sizes[i], WRITES, 0))
#ifdef NGTCP2
OVER(by_ngtcp2, ngtcp2_sum(items[i], sizes[i]))
#endif
OVER(crossed, frames_of(items[i], sizes[i]))
OVER(many_crossed, many_frames_of(items[i], sizes[i]))
OVER(ranges_crossed, ranges_of(items[i], sizes[i]))
OVER(many_ranges_crossed, many_acks_of(items[i], sizes[i]))
OVER(copied, count_copy(items[i], sizes[i]))
OVER(decoded, count_decode(items[i], sizes[i]))
OVER(cut, count_cut(items[i], sizes[i]))
OVER(params_read, count_params_read(items[i], sizes[i]))
OVER(params_written, count_params_write(items[i], sizes[i], WRITES))
#ifdef QUINN
OVER(quinn_frames, quinn_sum(base + i))
OVER(quinn_ranges, quinn_acks(base + i))
OVER(quinn_written, quinn_encode(base + i, WRITES))
OVER(quinn_copied, quinn_count_copy(items[i], sizes[i]))
OVER(quinn_decoded, quinn_count_decode(items[i], sizes[i]))
OVER(quinn_cut, quinn_count_cut(items[i], sizes[i]))
OVER(quinn_params_read, quinn_count_params_read(items[i], sizes[i]))
OVER(quinn_params_written, quinn_count_params_write(items[i], sizes[i], WRITES))
#endif

static void payloads(const char *file) {
    double all = 0, of_acks = 0, one = (double)items_len;
    for (size_t i = 0; i < items_len; i++) {
        all += (double)count_encode(items[i], sizes[i], 1, 0);
        of_acks += (double)count_ranges(items[i], sizes[i], 1);
    }
#ifdef QUINN
    for (size_t i = 0; i < items_len; i++) quinn_load(items[i], sizes[i]);
#endif
    COMPARE(file, "frames of a payload", one, {"ours", frames}, {"crate", PEER(quinn_frames)});
    COMPARE(file, "canonical_of a payload", one, {"ours", canonical}, {"crate's frames", PEER(quinn_frames)},
            {"ours, frames", frames});
    COMPARE(file, "a frame that is written", all * WRITES, {"ours", written, looked_at},
            {"crate", PEER(quinn_written)});
    COMPARE(file, "frames of a payload that cross to C", one, {"ours", crossed}, {"crate", PEER(quinn_frames)});
    COMPARE(file, "the same, many at once", one, {"ours", many_crossed}, {"crate", PEER(quinn_frames)});
    if (of_acks > 0) {
        COMPARE(file, "a range of an ACK", of_acks, {"ours", ranges}, {"crate", PEER(quinn_ranges)});
        COMPARE(file, "a range that crosses to C", of_acks, {"ours", ranges_crossed}, {"crate", PEER(quinn_ranges)});
        COMPARE(file, "the same, many at once", of_acks, {"ours", many_ranges_crossed},
                {"crate", PEER(quinn_ranges)});
    }
    base += items_len;
}

// The payloads that ngtcp2 reads to their ends, without PADDING, since ngtcp2 reads a run of it as one frame.
static void whole_payloads(const char *file) {
    if (items_len)
        COMPARE(file, "frames of a payload without PADDING", (double)items_len, {"ours", frames},
                {"ngtcp2", PEER_NGTCP2(by_ngtcp2)});
}

static void datagrams(const char *kind) {
    double one = (double)items_len;
    COMPARE(kind, "a datagram copied into a buffer", one, {"ours", copied}, {"crate", PEER(quinn_copied)});
    COMPARE(kind, "decode less that", one, {"ours", decoded, copied}, {"crate", PEER(quinn_decoded), PEER(quinn_copied)});
    COMPARE(kind, "cut less that", one, {"ours", cut, copied}, {"crate", PEER(quinn_cut), PEER(quinn_copied)});
    COMPARE(kind, "cut with that", one, {"ours", cut}, {"crate", PEER(quinn_cut)});
}

static void parameters(void) {
    double one = (double)items_len;
    COMPARE("params.hex", "a list read", one, {"ours", params_read}, {"crate", PEER(quinn_params_read)});
    COMPARE("params.hex", "a list written", one * WRITES, {"ours", params_written, params_read},
            {"crate", PEER(quinn_params_written), PEER(quinn_params_read)});
}

static u32 kind_of_header;
static u64 head(void) { return count_head(kind_of_header, 10000); }
static u64 ack_written(void) { return count_ack(operations, operations_len, 1000); }
static u64 ack_set(void) { return count_ack(operations, operations_len, 0); }
static u64 array(void) { return count_set(0, operations, operations_len); }
static u64 vec(void) { return count_set(1, operations, operations_len); }
#ifdef QUINN
static u64 quinn_header(void) { return quinn_count_head(kind_of_header, 10000); }
static u64 quinn_ack_written(void) { return quinn_ack_encode(operations, operations_len, 1000, 1000); }
static u64 quinn_ack_set(void) { return quinn_ack_encode(operations, operations_len, 1000, 0); }
static u64 quinn_array_set(void) { return quinn_array(operations, operations_len); }
static u64 quinn_tree_set(void) { return quinn_tree(operations, operations_len); }
#endif

static void headers_and_sets(void) {
    static const char *const headers[] = {"Initial", "Handshake", "short"};
    static const struct { const char *name; size_t len; } acks[] = {{"runs4", 2}, {"packets", 100}};
    static const char *const orders[] = {"order", "packets", "packets-r", "down", "up-r", "hole", "any"};
    for (kind_of_header = 0; kind_of_header < 3; kind_of_header++)
        COMPARE("a header that is written", headers[kind_of_header], 10000.0, {"ours", head}, {"crate", PEER(quinn_header)});
    for (size_t k = 0; k < LENGTH(acks); k++) {
        generate(acks[k].name, acks[k].len);
        COMPARE("an ACK of a set", acks[k].name, 1000.0, {"ours", ack_written, ack_set},
                {"crate", PEER(quinn_ack_written), PEER(quinn_ack_set)});
    }
    for (size_t k = 0; k < LENGTH(orders); k++) {
        generate(orders[k], 1000);
        double all = (double)operations_len;
        COMPARE("ArrayRangeSet of 1,000", orders[k], all, {"ours", array}, {"crate", PEER(quinn_array_set)});
        COMPARE("RangeSet of 1,000", orders[k], all, {"ours", vec}, {"crate", PEER(quinn_tree_set)});
    }
    // What a peer can do to a set without a limit: each insertion goes before all existing runs.
    rounds = 1;
    generate("down", 100000);
    COMPARE("RangeSet of 100,000", "down", 100000.0, {"ours", vec}, {"crate", PEER(quinn_tree_set)});
}

static void reload(const char *folder, const char *file, char kind) {
    char path[4096];
    snprintf(path, sizeof path, "%s/%s", folder, file);
    items_len = frames_len = 0;
    load(path, kind);
}

static int ends_in_hex(const struct dirent *entry) {
    const char *dot = strrchr(entry->d_name, '.');
    return dot && !strcmp(dot, ".hex");
}

int main(int argc, char **argv) {
    static const struct { char kind; const char *name; } kinds[] = {
        {'a', "all datagrams"}, {'s', "short headers"}, {'i', "Initial headers"}, {'h', "Handshake headers"}};
    struct dirent **files;
    if (argc != 3) return 2;
    rounds = (u32)atoi(argv[1]);
    int count = scandir(argv[2], &files, ends_in_hex, alphasort);
    if (count < 0) { perror(argv[2]); return 2; }
    for (int i = 0; i < count; i++) {
        const char *file = files[i]->d_name;
        if (!strcmp(file, "datagrams.hex"))
            for (size_t k = 0; k < LENGTH(kinds); k++) {
                reload(argv[2], file, kinds[k].kind);
                if (items_len) datagrams(kinds[k].name);
            }
        else {
            reload(argv[2], file, 'a');
            if (!strcmp(file, "params.hex")) parameters();
            else {
                payloads(file);
                reload(argv[2], file, 'w');
                whole_payloads(file);
            }
        }
    }
    headers_and_sets();
    return 0;
}
