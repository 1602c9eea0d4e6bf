// The calls of calls.txt with the Rust crate quinn-proto, from a static library that isn't in this repository. Payloads
// are loaded first, each as one buffer, and named by their indices.
#include <stddef.h>
#include <stdint.h>

void quinn_load(const uint8_t *, size_t);
uint64_t quinn_sum(size_t);
uint64_t quinn_acks(size_t);
uint64_t quinn_encode(size_t, uint32_t);
uint64_t quinn_ack_encode(const uint64_t *, size_t, uint64_t, uint32_t);
uint64_t quinn_array(const uint64_t *, size_t);
uint64_t quinn_tree(const uint64_t *, size_t);
uint64_t quinn_tree_two(const uint64_t *, size_t, const uint64_t *, size_t, uint32_t, uint32_t);
uint64_t quinn_count_copy(const uint8_t *, size_t);
uint64_t quinn_count_decode(const uint8_t *, size_t);
uint64_t quinn_count_cut(const uint8_t *, size_t);
uint64_t quinn_count_params_read(const uint8_t *, size_t);
uint64_t quinn_count_params_write(const uint8_t *, size_t, uint32_t);
uint64_t quinn_count_number(uint64_t, uint64_t, uint32_t);
uint64_t quinn_count_expand(uint32_t, uint32_t, uint64_t, uint32_t);
uint64_t quinn_count_head(uint32_t, uint32_t);
