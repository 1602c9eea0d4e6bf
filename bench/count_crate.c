// count_crate WORK ROUNDS [FILE [KIND]]: count's work, done by quinn-proto: frames, ranges, encode, copy, decode,
// cut, read, write, numbers, headers and sets. Prints a sum.
#include "crate.h"
#include "work.h"

static u64 over_places(u64 (*call)(size_t), u32 rounds) {
    u64 sum = 0;
    for (u32 r = 0; r < rounds; r++)
        for (size_t i = 0; i < items_len; i++) sum += call(i);
    return sum;
}

static u64 sets(int argc, char **argv, u32 rounds) {
    u64 sum = 0;
    size_t n = strtoull(argv[argc - 1], NULL, 10);
    if (!strcmp(argv[1], "two") && argc == 7) {
        generate(argv[4], n);
        u64 *first = operations;
        size_t first_len = operations_len;
        generate(argv[5], n);
        return quinn_tree_two(first, first_len, operations, operations_len, rounds, (u32)atoi(argv[3]));
    }
    generate(argv[argc - 2], n);
    if (!strcmp(argv[1], "ack")) return quinn_ack_encode(operations, operations_len, 1000, rounds);
    int is_tree = !strcmp(argv[3], "vec");
    for (u32 r = 0; r < rounds; r++) sum += (is_tree ? quinn_tree : quinn_array)(operations, operations_len);
    return sum;
}

static u64 of_a_file(const char *work, u32 rounds) {
    u64 sum = 0;
    if (!strcmp(work, "copy")) return over(quinn_count_copy, rounds);
    if (!strcmp(work, "decode")) return over(quinn_count_decode, rounds);
    if (!strcmp(work, "cut")) return over(quinn_count_cut, rounds);
    if (!strcmp(work, "read")) return over(quinn_count_params_read, rounds);
    if (!strcmp(work, "write"))
        for (size_t i = 0; i < items_len; i++) sum += quinn_count_params_write(items[i], sizes[i], rounds);
    else {
        for (size_t i = 0; i < items_len; i++) quinn_load(items[i], sizes[i]);
        if (!strcmp(work, "frames")) return over_places(quinn_sum, rounds);
        if (!strcmp(work, "ranges")) return over_places(quinn_acks, rounds);
        for (size_t i = 0; i < items_len; i++) sum += quinn_encode(i, rounds);
    }
    return sum;
}

int main(int argc, char **argv) {
    if (argc < 3) return 2;
    const char *work = argv[1];
    u32 rounds = (u32)atoi(argv[2]);
    u64 sum;
    if (!strcmp(work, "set") || !strcmp(work, "two") || !strcmp(work, "ack")) sum = sets(argc, argv, rounds);
    else if (argc > 3) {
        load(argv[3], argc > 4 ? argv[4][0] : 'a');
        sum = of_a_file(work, rounds);
    } else if (!strncmp(work, "number", 6)) sum = numbers(quinn_count_number, rounds, work[6] != '0');
    else if (!strncmp(work, "expand", 6)) sum = expansions(quinn_count_expand, rounds, work[6] != '0');
    else sum = quinn_count_head(*work == 'i' ? 0 : *work == 'h' ? 1 : 2, 1000 * rounds);
    printf("%llu\n", (unsigned long long)sum);
    return 0;
}
