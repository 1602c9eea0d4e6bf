/* What the files of abuse share: the check, random numbers, blocks, and the
 * parts that main.c calls.  A part without arguments runs once. */
#ifndef ABUSE_H
#define ABUSE_H

#include <stddef.h>
#include <stdint.h>
#include <stdio.h>
#include <stdlib.h>
#include <string.h>

#include "quic_wire.h"

#define WANT(x)                                                                \
  do {                                                                         \
    if (!(x)) {                                                                \
      fprintf(stderr, "%s:%d: not so: %s\n", __FILE__, __LINE__, #x);          \
      exit(1);                                                                 \
    }                                                                          \
  } while (0)
#define INVALID QUIC_WIRE_ERR_ARGUMENT

/* Whether a result says that a frame is invalid. */
#define REFUSED(result)                                                        \
  ((result) <= QUIC_WIRE_ERR_FRAME_END &&                                      \
   (result) >= QUIC_WIRE_ERR_FRAME_LIMIT)

/* A random number. */
extern uint64_t any(void);

/* A number near some bound. */
extern uint64_t edge(void);

/* A small offset, or a number at a bound. */
extern size_t place(void);

/* Random bytes. */
extern void any_bytes(uint8_t *bytes, size_t len);

/* A block of exactly that many bytes, so that a sanitizer or valgrind sees each
 * byte that is read or written past it. */
extern uint8_t *block(size_t len);

/* The length of the shortest encoding of a varint. */
extern size_t varint_len(uint64_t n);

/* results.c: what results mean. */
extern void results_examples(void);
extern void results_any(void);

/* frames.c: frames that are read. */
extern void frames_nulls(void);
extern void padding_any(void);
extern void read_rubbish(const uint8_t *payload, size_t len);
extern void fill_rubbish(const uint8_t *payload, size_t len);
extern void first_rubbish(const uint8_t *payload, size_t len);
extern int short_types_any(const uint8_t *bytes, size_t len);

/* skip.c: frames that the library doesn't know. */
extern void skip_nulls(void);
extern void skip_rubbish(const uint8_t *payload, size_t len);

/* body.c: frames behind types that the caller has read. */
extern void body_nulls(void);
extern void body_rubbish(const uint8_t *body, size_t len);

/* The next frame from single calls, with a run of PADDING as one, is
 * |entry|. */
extern void next_is(quic_wire_frame_iter *one, const uint8_t *payload,
                    size_t len, const quic_wire_frame *entry);

/* rules.c: what flags reject. */
extern void rules_examples(void);
extern int rules_any(const uint8_t *bytes, size_t len);

/* Flags, of which any bits may be set. */
extern uint32_t any_flags(void);

/* The result for a validly encoded frame that flags reject; otherwise 0. */
extern int refused_by(uint32_t flags, const quic_wire_frame *frame);

/* permitted.c: what may be in which packet; and reset tokens. */
extern void permitted_examples(void);
extern void permitted_any(void);
extern void tokens_nulls(void);
extern void tokens_any(void);

/* fronts.c: frames at the front of what is left. */
extern void fronts_nulls(void);
extern void front_rubbish(const uint8_t *payload, size_t len);

/* acks.c: the ranges of ACKs. */
extern void acks_nulls(void);
extern void ranges_rubbish(const uint8_t *payload, size_t len,
                           quic_wire_frame *frame);
extern void fill_ranges_rubbish(const uint8_t *payload, size_t len);
extern void front_ranges(const uint8_t *payload, size_t len,
                         const quic_wire_frame *frame,
                         const quic_wire_gap *gaps, size_t room,
                         quic_wire_frame *entry);
extern void gaps_written(const uint8_t *payload, size_t len,
                         const quic_wire_frame *frame,
                         const quic_wire_gap *gaps);

/* written.c: frames that are written. */
extern void written_nulls(void);
extern void without_data(void);
extern void written_by_rules(void);
extern void write_rubbish(const uint8_t *data, size_t len);
extern void header_rubbish(void);

/* canonical.c: the shortest form of payloads. */
extern void canonical_nulls(void);
extern int canonical_any(const uint8_t *payload, size_t len);

/* headers.c: packet headers, and their protection. */
extern void headers_nulls(void);
extern void long_lengths(void);
extern void packet_rubbish(uint8_t *datagram, size_t len);
extern void protect_rubbish(uint8_t *datagram, size_t len);
extern void place_any(uint8_t *packet, size_t len);

/* headers_written.c: packet headers that are written. */
extern void headers_written_nulls(void);
extern void long_tokens(void);
extern int header_written(void);

/* negotiation.c: version negotiations. */
extern void negotiation_nulls(void);
extern void negotiation_any(void);

/* layer.c: versions, nonces, Retry and resets. */
extern void layer_nulls(void);
extern void layer_examples(void);
extern void layer_any(void);

/* numbers.c: varints and packet numbers. */
extern void numbers_nulls(void);
extern void varint_any(void);
extern void number_len_any(void);
extern void number_expand_any(void);
extern void number_bytes_any(void);

/* near.c: what is read and written without a call.  Returns whether a frame
 * was. */
extern void near_nulls(void);
extern int near_frames(const uint8_t *bytes, size_t len);
extern int near_written(void);
extern void near_numbers(const uint8_t *bytes, size_t len);

/* near_packets.c: the same for headers and transport parameters.  The last
 * returns whether a list had an entry. */
extern void near_packets_nulls(void);
extern void near_packets_examples(void);
extern void near_packets(const uint8_t *bytes, size_t len);
extern int near_params(const uint8_t *bytes, size_t len);

/* parameters.c: transport parameters. */
extern void params_nulls(void);
extern void params_with(void);
extern int params_written(uint32_t side);
extern void params_any(const uint8_t *list, size_t len);

/* sets.c: sets of packet numbers, and ACKs of them. */
extern void sets_nulls(void);
extern void sets(void);
extern void set_rubbish(void);
extern void runs_any(void);
extern void runs_rubbish(void);

/* fields.c: where fields are. */
extern void fields_nulls(void);
extern void fields_examples(void);
extern void fields_any(const uint8_t *bytes, size_t len);

/* faults.c: which field can't be written. */
extern void faults_nulls(void);
extern void faults_examples(void);
extern void frame_fault(const quic_wire_frame *frame, const uint8_t *data,
                        size_t len, uint32_t flags);

#endif /* ABUSE_H */
