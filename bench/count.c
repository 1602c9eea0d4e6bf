// count WORK ROUNDS [FILE [KIND]]: does one kind of work ROUNDS times over a file of lines in hexadecimal. Prints the
// number of items in a round, and a sum. WORK is one of
//   frames, canonical: payloads; with KIND c their canonical forms
//   ngtcp2: payloads; with KIND w only those that can be read to their end, by ngtcp2 too if it is linked, and have
//     no PADDING, and the items are frames
//   copy, decode, cut: datagrams; KIND s, i or h: those that begin with a short, Initial or Handshake header
//   read, write: lists of transport parameters
//   number, number0, expand, expand0 (0: without the work); initial, handshake, short
//   ranges: the ACKs of payloads; encode, in_range: their frames
//   set KIND NAME N; two WORK NAME NAME N; ack NAME N: sets, see `generate` in work.h
#include "work.h"

// Work on sets; its arguments follow WORK ROUNDS. Returns a sum, and counts the items.
static u64 sets(int argc, char **argv, u32 rounds) {
    u64 sum = 0;
    items_len = strtoull(argv[argc - 1], NULL, 10);
    if (!strcmp(argv[1], "two") && argc == 7) {
        generate(argv[4], items_len);
        u64 *ours = operations;
        size_t ours_len = operations_len;
        generate(argv[5], items_len);
        return count_two(ours, ours_len, operations, operations_len, rounds, atoi(argv[3]));
    }
    generate(argv[argc - 2], items_len);
    if (!strcmp(argv[1], "ack")) {
        items_len = 1;
        return count_ack(operations, operations_len, rounds);
    }
    for (u32 r = 0; r < rounds; r++) sum += count_set(!strcmp(argv[3], "vec"), operations, operations_len);
    return sum;
}

// The ranges of the ACKs, or the frames: written if `written` isn't 0, else only checked.
static u64 of_frames(const char *work, u32 rounds) {
    u64 sum = 0;
    size_t all = 0;
    for (size_t i = 0; i < items_len; i++) {
        all += *work == 'r' ? count_ranges(items[i], sizes[i], 1) : count_encode(items[i], sizes[i], 1, 0);
        if (*work != 'r') sum += count_encode(items[i], sizes[i], rounds, *work == 'e');
        else for (u32 r = 0; r < rounds; r++) sum += count_ranges(items[i], sizes[i], 0);
    }
    frames_len = all;
    return sum;
}

int main(int argc, char **argv) {
    if (argc < 3) return 2;
    const char *work = argv[1];
    u32 rounds = atoi(argv[2]);
    u64 sum = 0;
    items_len = 0;
    int is_of_sets = !strcmp(work, "set") || !strcmp(work, "two") || !strcmp(work, "ack");
    if (argc > 3 && !is_of_sets) load(argv[3], argc > 4 ? argv[4][0] : 'a');
    if (is_of_sets) sum = sets(argc, argv, rounds);
    else if (!strcmp(work, "frames")) sum = over(count_frames, rounds);
    else if (!strcmp(work, "ranges") || !strcmp(work, "encode") || !strcmp(work, "in_range"))
        sum = of_frames(work, rounds);
    else if (!strcmp(work, "ngtcp2")) sum = over(ngtcp2_sum, rounds);
    else if (!strcmp(work, "canonical")) sum = over(count_canonical, rounds);
    else if (!strcmp(work, "copy")) sum = over(count_copy, rounds);
    else if (!strcmp(work, "decode")) sum = over(count_decode, rounds);
    else if (!strcmp(work, "cut")) sum = over(count_cut, rounds);
    else if (!strcmp(work, "read")) sum = over(count_params_read, rounds);
    else if (!strcmp(work, "write"))
        for (size_t i = 0; i < items_len; i++) sum += count_params_write(items[i], sizes[i], rounds);
    else {
        items_len = 1000;
        if (!strncmp(work, "number", 6)) sum = numbers(count_number, rounds, work[6] != '0');
        else if (!strncmp(work, "expand", 6)) sum = expansions(count_expand, rounds, work[6] != '0');
        else sum = count_head(*work == 'i' ? 0 : *work == 'h' ? 1 : 2, 1000 * rounds);
    }
    printf("%zu %llu\n", frames_len ? frames_len : items_len, (unsigned long long)sum);
    return 0;
}
