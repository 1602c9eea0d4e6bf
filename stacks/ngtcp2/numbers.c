/*
 * numbers: puts packet numbers into ngtcp2's gaps and into the set that
 * replaces them, in order, with gaps, descending and at random, and asks both
 * for duplicates and for missing numbers.  Prints how many answers were
 * compared, and ends with status 1 at the first that differs.
 */
#include <stdio.h>

#include "ngtcp2_gaptr.h"
#include "ngtcp2_mem.h"
#include "quic_wire_ng_numbers.h"

enum { ROUNDS = 3000, NUMBERS = 1200, ORDERS = 5 };

static ngtcp2_gaptr gaps;
static quic_wire_ng_numbers numbers;
static long compared;

/* Any number below |end|. */
static int64_t any(int64_t end) {
  static uint64_t state = 88172645463325252;
  state ^= state << 13;
  state ^= state >> 7;
  state ^= state << 17;
  return (int64_t)(state % (uint64_t)end);
}

/* The next number of a round; -1 if one is left out. */
static int64_t next(int order, int turn, int64_t *end) {
  switch (order) {
  case 0:
    *end += 1;
    return any(8) == 0 ? -1 : *end - 1;
  case 1:
    *end += 2;
    return *end - 2;
  case 2:
    return any(3000);
  case 3:
    return turn < NUMBERS / 2 ? 2 * (NUMBERS - turn) : any(4000);
  default:
    *end += any(2);
    return any(*end + 3);
  }
}

/* Whether both say the same of a number, and of those from it up to a few
 * above. */
static int agree(int64_t number) {
  int64_t end = number + 1 + any(20);
  ngtcp2_range gap = ngtcp2_gaptr_get_first_gap_after(&gaps, (uint64_t)number);
  ++compared;
  return ngtcp2_gaptr_is_pushed(&gaps, (uint64_t)number, 1) ==
             quic_wire_ng_numbers_has(&numbers, number) &&
         (gap.begin < (uint64_t)end) ==
             quic_wire_ng_numbers_lacks(&numbers, number, end);
}

/* Adds a number as ngtcp2 does, and to the set. */
static int add(int64_t number) {
  if (ngtcp2_gaptr_push(&gaps, (uint64_t)number, 1) != 0) {
    return 0;
  }
  if (ngtcp2_ksl_len(&gaps.gap) > QUIC_WIRE_NG_MAX_GAPS) {
    ngtcp2_gaptr_drop_first_gap(&gaps);
  }
  return quic_wire_ng_numbers_add(&numbers, number) == 0;
}

int main(void) {
  int round, turn;
  for (round = 0; round < ROUNDS; ++round) {
    int64_t end = 0;
    ngtcp2_gaptr_init(&gaps, ngtcp2_mem_default());
    quic_wire_ng_numbers_init(&numbers, ngtcp2_mem_default());
    for (turn = 0; turn < NUMBERS; ++turn) {
      int64_t number = next(round % ORDERS, turn, &end);
      if (number >= 0 && (!add(number) || !agree(number) || !agree(any(5000)))) {
        printf("round %d differs at number %ld\n", round, (long)number);
        return 1;
      }
    }
    ngtcp2_gaptr_free(&gaps);
    quic_wire_ng_numbers_free(&numbers);
  }
  printf("%ld answers are the same\n", compared);
  return 0;
}
