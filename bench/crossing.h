// What crossing.c counts and times.c times: payloads, packets, sets and single calls, with the calls for C. Items are
// counted.
#include <stdint.h>
#include <stdio.h>
#include <stdlib.h>
#include <string.h>

#include "quic_wire.h"

typedef uint64_t u64;

static u64 counted;

// What is read from a frame: its kind, some of its numbers depending on the kind, and the length of its data, the same
// as in count_frames; but of an ACK where it ends, not the length of its ranges.
static inline __attribute__((always_inline)) u64 sum_of(const quic_wire_frame *frame) {
    switch (frame->kind) {
    case QUIC_WIRE_FRAME_ACK:
        return frame->ack.largest + frame->ack.delay + frame->end;
    case QUIC_WIRE_FRAME_RESET_STREAM:
        return frame->reset_stream.final_size;
    case QUIC_WIRE_FRAME_STOP_SENDING:
        return frame->stop_sending.error_code;
    case QUIC_WIRE_FRAME_CRYPTO:
        return frame->crypto.offset + frame->datalen;
    case QUIC_WIRE_FRAME_NEW_TOKEN:
    case QUIC_WIRE_FRAME_DATAGRAM:
        return frame->datalen;
    case QUIC_WIRE_FRAME_STREAM:
        return frame->stream.stream_id + frame->stream.offset + frame->datalen;
    case QUIC_WIRE_FRAME_MAX_DATA:
    case QUIC_WIRE_FRAME_MAX_STREAM_DATA:
    case QUIC_WIRE_FRAME_MAX_STREAMS_BIDI:
    case QUIC_WIRE_FRAME_MAX_STREAMS_UNI:
    case QUIC_WIRE_FRAME_DATA_BLOCKED:
    case QUIC_WIRE_FRAME_STREAM_DATA_BLOCKED:
    case QUIC_WIRE_FRAME_STREAMS_BLOCKED_BIDI:
    case QUIC_WIRE_FRAME_STREAMS_BLOCKED_UNI:
        return frame->limit.limit;
    case QUIC_WIRE_FRAME_NEW_CONNECTION_ID:
        return frame->new_connection_id.sequence + frame->datalen;
    case QUIC_WIRE_FRAME_RETIRE_CONNECTION_ID:
        return frame->retire_connection_id.sequence;
    case QUIC_WIRE_FRAME_PATH_CHALLENGE:
    case QUIC_WIRE_FRAME_PATH_RESPONSE:
        return frame->path.data;
    case QUIC_WIRE_FRAME_ACK_FREQUENCY:
        return frame->ack_frequency.max_ack_delay;
    default:
        return 1;
    }
}

// The flags by which frames are read.
static uint32_t flags;

static u64 frames_of(const uint8_t *payload, size_t len) {
    quic_wire_frame_iter frames;
    quic_wire_frame frame;
    u64 sum = 0;
    if (quic_wire_frames_init(&frames, payload, len, flags))
        return 0;
    while (quic_wire_frames_next(&frames, payload, len, &frame) == QUIC_WIRE_ITEM) {
        sum += sum_of(&frame);
        counted++;
    }
    return sum;
}

static u64 ranges_of(const uint8_t *payload, size_t len) {
    quic_wire_frame_iter frames;
    quic_wire_frame frame;
    u64 sum = 0;
    if (quic_wire_frames_init(&frames, payload, len, flags))
        return 0;
    while (quic_wire_frames_next(&frames, payload, len, &frame) == QUIC_WIRE_ITEM) {
        quic_wire_range_iter at;
        quic_wire_range range;
        if (frame.kind != QUIC_WIRE_FRAME_ACK || quic_wire_ack_ranges_init(&at, payload, len, &frame))
            continue;
        while (quic_wire_ack_ranges_next(&at, payload, len, &range) == QUIC_WIRE_ITEM) {
            sum += range.start ^ range.end;
            counted++;
        }
    }
    return sum;
}

#define MANY 16

// Each frame at the front of what is left, as stacks read them.
static inline u64 fronts_of(const uint8_t *payload, size_t len) {
    quic_wire_frame frame;
    quic_wire_gap gaps[MANY];
    u64 sum = 0;
    while (len != 0) {
        int64_t end = quic_wire_frame_read(payload, len, flags, &frame, gaps, MANY);
        if (end <= 0)
            break;
        sum += sum_of(&frame);
        payload += end;
        len -= (size_t)end;
        counted++;
    }
    return sum;
}

// The ranges of the ACKs among them, as gaps.
static inline u64 gaps_of(const uint8_t *payload, size_t len) {
    quic_wire_frame frame;
    quic_wire_gap gaps[64];
    u64 sum = 0;
    while (len != 0) {
        int64_t end = quic_wire_frame_read(payload, len, flags, &frame, gaps, 64);
        if (end <= 0 || frame.kind != QUIC_WIRE_FRAME_ACK)
            break;
        sum += frame.ack.largest - frame.first_range;
        for (size_t k = 0; k < frame.ngaps; k++)
            sum += gaps[k].gap ^ gaps[k].len;
        counted += frame.ngaps + 1;
        payload += end;
        len -= (size_t)end;
    }
    return sum;
}

static u64 many_ranges_of(const uint8_t *payload, size_t len, const quic_wire_frame *ack) {
    quic_wire_range_iter ranges;
    quic_wire_range filled[MANY];
    size_t count;
    u64 sum = 0;
    if (quic_wire_ack_ranges_init(&ranges, payload, len, ack))
        return 0;
    while (ranges.left != 0 &&
           quic_wire_ack_ranges_fill(&ranges, payload, len, filled, MANY, &count) == QUIC_WIRE_ITEM) {
        for (size_t k = 0; k < count; k++)
            sum += filled[k].start ^ filled[k].end;
        counted += count;
    }
    return sum;
}

static u64 many_frames_of(const uint8_t *payload, size_t len) {
    quic_wire_frame_iter frames;
    quic_wire_frame filled[MANY];
    size_t count;
    u64 sum = 0;
    int answer = quic_wire_frames_first(&frames, payload, len, flags, filled, MANY, &count);
    while (answer == QUIC_WIRE_ITEM) {
        for (size_t k = 0; k < count; k++)
            sum += sum_of(&filled[k]);
        counted += count;
        if (frames.offset == len)
            break;
        answer = quic_wire_frames_fill(&frames, payload, len, filled, MANY, &count);
    }
    return sum;
}

static u64 many_acks_of(const uint8_t *payload, size_t len) {
    quic_wire_frame_iter frames;
    quic_wire_frame filled[MANY];
    size_t count;
    u64 sum = 0;
    if (quic_wire_frames_init(&frames, payload, len, flags))
        return 0;
    while (frames.offset < len &&
           quic_wire_frames_fill(&frames, payload, len, filled, MANY, &count) == QUIC_WIRE_ITEM)
        for (size_t k = 0; k < count; k++)
            sum += filled[k].kind == QUIC_WIRE_FRAME_ACK ? many_ranges_of(payload, len, &filled[k]) : 0;
    return sum;
}
