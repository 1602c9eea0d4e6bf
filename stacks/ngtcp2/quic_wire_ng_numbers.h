/* The packet numbers that were received in a space, as runs, in place of
 * ngtcp2's gaps: to reject duplicates (RFC 9000, section 12.3), and to see
 * whether numbers are missing (section 13.2.1). */
#ifndef QUIC_WIRE_NG_NUMBERS_H
#define QUIC_WIRE_NG_NUMBERS_H

#include <assert.h>

#include <ngtcp2/ngtcp2.h>

#include "ngtcp2_mem.h"
#include "quic_wire.h"

/* The first of more gaps is forgotten, as ngtcp2 does. */
#define QUIC_WIRE_NG_MAX_GAPS 256

typedef struct quic_wire_ng_numbers {
  quic_wire_range *runs;
  size_t room;
  quic_wire_runs at;
  const ngtcp2_mem *mem;
} quic_wire_ng_numbers;

static inline void quic_wire_ng_numbers_init(quic_wire_ng_numbers *set,
                                             const ngtcp2_mem *mem) {
  const quic_wire_ng_numbers none = {NULL, 0, {0, 0}, mem};
  *set = none;
}

static inline void quic_wire_ng_numbers_free(quic_wire_ng_numbers *set) {
  ngtcp2_mem_free(set->mem, set->runs);
}

static inline int quic_wire_ng_numbers_grow(quic_wire_ng_numbers *set) {
  size_t room = set->room ? 2 * set->room : 8;
  quic_wire_range *runs =
      ngtcp2_mem_realloc(set->mem, set->runs, room * sizeof(*runs));
  if (!runs) {
    return NGTCP2_ERR_NOMEM;
  }
  set->runs = runs;
  set->room = room;
  return 0;
}

/* Whether |number| was received, or is in a gap that was forgotten. */
static inline int quic_wire_ng_numbers_has(const quic_wire_ng_numbers *set,
                                           int64_t number) {
  return quic_wire_runs_contains(set->runs, set->room, &set->at,
                                 (uint64_t)number) == 1;
}

/* Whether a number from |from| to below |to| wasn't received. */
static inline int quic_wire_ng_numbers_lacks(const quic_wire_ng_numbers *set,
                                             int64_t from, int64_t to) {
  quic_wire_range run;
  size_t stored;
  return quic_wire_runs_within(set->runs, set->room, &set->at, (uint64_t)from,
                               (uint64_t)to, &run, 1, &stored) !=
             QUIC_WIRE_OK ||
         stored == 0 || run.start != (uint64_t)from || run.end != (uint64_t)to;
}

/* Fills the first gap, if there are too many with the one above all runs. */
static inline void quic_wire_ng_numbers_forget(quic_wire_ng_numbers *set) {
  const quic_wire_range *runs = set->runs + set->at.first;
  int answer;
  if (runs[0].start != 0) {
    if (set->at.count < QUIC_WIRE_NG_MAX_GAPS) {
      return;
    }
    answer = quic_wire_runs_insert(set->runs, set->room, &set->at, 0,
                                   runs[0].start);
  } else {
    if (set->at.count <= QUIC_WIRE_NG_MAX_GAPS) {
      return;
    }
    answer = quic_wire_runs_insert(set->runs, set->room, &set->at, runs[0].end,
                                   runs[1].start);
  }
  /* Runs that become one need no room. */
  assert(answer == QUIC_WIRE_CHANGED);
  (void)answer;
}

/* Adds |number|.  Returns 0, or NGTCP2_ERR_NOMEM. */
static inline int quic_wire_ng_numbers_add(quic_wire_ng_numbers *set,
                                           int64_t number) {
  int rv = set->runs ? 0 : quic_wire_ng_numbers_grow(set);
  while (rv == 0 && quic_wire_runs_insert(set->runs, set->room, &set->at,
                                          (uint64_t)number,
                                          (uint64_t)number + 1) ==
                        QUIC_WIRE_ERR_NOBUF) {
    rv = quic_wire_ng_numbers_grow(set);
  }
  if (rv == 0) {
    quic_wire_ng_numbers_forget(set);
  }
  return rv;
}

#endif
