/* abuse [ROUNDS]: mistakes of callers, and structs with any field values on
 * blocks of exactly their length; what is written is read back; protection that
 * a plain model applies is removed; sets agree with bits, and ACKs of them with
 * the RFC.  Its status is 0 if everything is as expected.  Build it here with
 *
 *   cc -O2 -I../../include -o abuse *.c libquic_wire.a */
#include "abuse.h"

static uint64_t seed = 88172645463325252ull;

uint64_t any(void) {
  seed ^= seed << 13;
  seed ^= seed >> 7;
  seed ^= seed << 17;
  return seed;
}

uint64_t edge(void) {
  static const uint64_t edges[] = {0,          1,
                                   63,         64,
                                   16383,      1u << 30,
                                   1ull << 62, (1ull << 62) - 1,
                                   1ull << 63, UINT64_MAX - 1,
                                   UINT64_MAX};
  return any() % 3 ? edges[any() % 11] : any() >> (any() % 64);
}

size_t place(void) { return any() % 3 ? any() % 45 : (size_t)edge(); }

void any_bytes(uint8_t *bytes, size_t len) {
  size_t k;
  for (k = 0; k < len; k++)
    bytes[k] = (uint8_t)any();
}

uint8_t *block(size_t len) { return malloc(len ? len : 1); }

size_t varint_len(uint64_t n) {
  return n < 64 ? 1 : n < 16384 ? 2 : n < 1u << 30 ? 4 : 8;
}

/* What is rejected for NULL, and single examples. */
static void nulls(void) {
  results_examples();
  frames_nulls();
  skip_nulls();
  body_nulls();
  fronts_nulls();
  rules_examples();
  permitted_examples();
  tokens_nulls();
  acks_nulls();
  written_nulls();
  without_data();
  written_by_rules();
  canonical_nulls();
  headers_nulls();
  long_lengths();
  headers_written_nulls();
  long_tokens();
  negotiation_nulls();
  layer_nulls();
  layer_examples();
  numbers_nulls();
  near_nulls();
  near_packets_nulls();
  near_packets_examples();
  params_nulls();
  params_with();
  sets_nulls();
  fields_nulls();
  fields_examples();
  faults_nulls();
  faults_examples();
}

static void rubbish(int rounds) {
  int i, fields = 0, headers = 0, forms = 0, longs = 0, refused = 0;
  int near = 0, near_ones = 0, entries = 0;
  for (i = 0; i < rounds; i++) {
    size_t len = any() % 40, k;
    uint8_t *bytes = block(len);
    for (k = 0; k < len; k++)
      bytes[k] = any() % 4 ? (uint8_t)(any() % 64) : (uint8_t)any();
    read_rubbish(bytes, len);
    fill_rubbish(bytes, len);
    padding_any();
    first_rubbish(bytes, len);
    skip_rubbish(bytes, len);
    body_rubbish(bytes, len);
    front_rubbish(bytes, len);
    fill_ranges_rubbish(bytes, len);
    write_rubbish(bytes, len);
    header_rubbish();
    packet_rubbish(bytes, len);
    protect_rubbish(bytes, len);
    headers += header_written();
    forms += canonical_any(bytes, len);
    longs += short_types_any(bytes, len);
    refused += rules_any(bytes, len);
    permitted_any();
    tokens_any();
    number_len_any();
    number_expand_any();
    number_bytes_any();
    negotiation_any();
    layer_any();
    varint_any();
    near += near_frames(bytes, len);
    near_ones += near_written();
    near_numbers(bytes, len);
    near_packets(bytes, len);
    entries += near_params(bytes, len);
    results_any();
    place_any(bytes, len);
    params_any(bytes, len);
    set_rubbish();
    runs_rubbish();
    fields_any(bytes, len);
    if (i % 8 == 0) {
      sets();
      runs_any();
    }
    for (k = 0; k < 2; k++)
      fields += params_written((uint32_t)k);
    free(bytes);
  }
  WANT(fields > rounds / 20 && headers > rounds / 3 && forms > rounds / 50);
  WANT(longs > rounds / 5 && refused > rounds / 20);
  WANT(near > rounds / 10 && near_ones > rounds / 5 && entries > rounds / 4);
}

int main(int argc, char **argv) {
  nulls();
  rubbish(argc == 2 ? atoi(argv[1]) : 300000);
  puts("abuse: all as it should be");
  return 0;
}
