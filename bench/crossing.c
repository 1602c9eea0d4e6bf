// crossing WORK ROUNDS FILE: reads the payloads in a file of lines in hexadecimal ROUNDS times with the calls for C.
// Prints the number of items in a round, and a number that depends on all of them. WORK is one of
//   frames: the numbers and the length of each
//   many-frames: the same with calls that fill 16 entries, where a run of PADDING is one
//   fronts: the same, each frame at the front of what is left
//   ranges: also the ranges of each ACK
//   acks: the same, with calls that fill 16 frames and 16 ranges
//   gaps: the ranges of the ACKs at the front, as gaps
//   packets: each line as a datagram, with connection IDs of 8 bytes in short headers
// All but `packets` with `-rfc` read by QUIC_WIRE_READ_RFC, and so do `call-stream-read` and `call-ack-read` below.
// With a number N in place of FILE, a thousand calls each:
//   set-push (a run after N others), set-grow (the last of N runs), set-contains (in N runs), set-ack (of N runs);
//     without a check of all runs set-runs (a run after N others), set-front (the first of N runs); each minus what
//     set-0 takes
//   call-NAME, a single call, one of `calls` below, with connection IDs of N bytes or an ACK of N ranges, minus what
//     call-none takes
//   read-NAME, write-NAME: a frame, one of `written` below, read or written; if N is 1, by the rules of RFC 9000
#include "crossing.h"
#include "quic_wire_near.h"

static u64 packets_of(const uint8_t *datagram, size_t len) {
    static const uint32_t versions[] = {QUIC_WIRE_VERSION_1, QUIC_WIRE_VERSION_2};
    quic_wire_header head;
    u64 sum = 0;
    while (len != 0 && quic_wire_header_read(datagram, len, 8, versions, 2, 0, &head) > 0 &&
           head.first & QUIC_WIRE_BIT_FIXED) {
        sum += head.kind + head.version + head.header_end + head.dcidlen + head.scidlen + head.token + head.tokenlen +
               head.len + head.end + *quic_wire_dcid(datagram, &head);
        datagram += head.end;
        len -= head.end;
        counted++;
    }
    return sum;
}

// A thousand calls on a set of runs_len runs of one number each.
static u64 on_a_set(char work, size_t runs_len) {
    static quic_wire_range runs[1025];
    static uint8_t dest[1 << 15];
    u64 sum = 0;
    for (size_t k = 0; k < runs_len; k++)
        runs[k] = (quic_wire_range){4 * k, 4 * k + 1};
    for (u64 turn = 0; turn < 1000; turn++) {
        size_t count = runs_len, written = 0;
        quic_wire_runs at = {0, runs_len};
        if (work == 'p')
            sum += quic_wire_set_insert(runs, 1025, &count, 4 * runs_len, 4 * runs_len + 1);
        else if (work == 'g')
            sum += quic_wire_set_insert(runs, 1025, &count, runs[count - 1].end, runs[count - 1].end + 1);
        else if (work == 'c')
            sum += quic_wire_set_contains(runs, count, 4 * (turn % runs_len));
        else if (work == 'a')
            sum += quic_wire_ack_write(turn, runs, count, NULL, dest, sizeof dest, &written);
        else if (work == 'r')
            sum += quic_wire_runs_insert(runs, 1025, &at, 4 * runs_len, 4 * runs_len + 1);
        else if (work == 'f')
            sum += quic_wire_runs_insert(runs, 1025, &at, runs[0].end, runs[0].end + 1);
        runs[0].end = 1;
        sum += count + written;
        counted++;
    }
    return sum;
}

// What the single calls work on: connection IDs of id_len bytes, an ACK of gaps_len + 1 ranges, and what is read.
static uint8_t id[20], token[16], source[2048], dest[2048];
static size_t id_len, gaps_len, source_len;
static quic_wire_gap gaps[MANY];
static const quic_wire_frame stream = {.kind = QUIC_WIRE_FRAME_STREAM, .datalen = 1000, .stream = {4, 70000}};
static const quic_wire_frame ack = {.kind = QUIC_WIRE_FRAME_ACK, .first_range = 9, .ack = {1000, 25, 0, 0, 0}};

static u64 none(u64 turn) { return turn; }

static u64 short_read(u64 turn) { return turn + quic_wire_short_read(source, source_len, (uint32_t)id_len); }
static u64 short_read_near(u64 turn) { return turn + quic_wire_short_read_near(source, source_len, (uint32_t)id_len); }

// The protection of a short header is removed, with its number truncated or expanded.
static const uint8_t mask[5] = {0, 1, 2, 3, 4};
static u64 unprotect(u64 turn) {
    u64 number = 0;
    return turn + (u64)quic_wire_unprotect(source, source_len, 1 + id_len, mask, 0, &number) + number;
}
static u64 unprotect_near(u64 turn) {
    u64 number = 0;
    return turn + (u64)quic_wire_unprotect_near(source, source_len, 1 + id_len, mask, 0, &number) + number;
}
static u64 unprotect_whole(u64 turn) {
    u64 number = 0;
    return turn + (u64)quic_wire_unprotect(source, source_len, 1 + id_len, mask, 70000, &number) + number;
}
static u64 unprotect_whole_near(u64 turn) {
    u64 number = 0;
    return turn + (u64)quic_wire_unprotect_near(source, source_len, 1 + id_len, mask, 70000, &number) + number;
}

// A transport parameter of four bytes.
static u64 param_sum(const quic_wire_param *param) { return param->id + param->value + param->valuelen; }
static u64 param_read(u64 turn) {
    quic_wire_param param;
    return turn + (u64)quic_wire_param_read(source, source_len, &param) + param_sum(&param);
}
static u64 param_read_near(u64 turn) {
    quic_wire_param param;
    return turn + (u64)quic_wire_param_read_near(source, source_len, &param) + param_sum(&param);
}
static u64 param_number(u64 turn) {
    quic_wire_param param;
    u64 value = 0;
    return turn + (u64)quic_wire_param_read_number(source, source_len, &param, &value) + param_sum(&param) + value;
}
static u64 param_number_near(u64 turn) {
    quic_wire_param param;
    u64 value = 0;
    return turn + (u64)quic_wire_param_read_number_near(source, source_len, &param, &value) + param_sum(&param) + value;
}

static u64 front_read(u64 turn) {
    quic_wire_frame frame;
    int64_t end = quic_wire_frame_read(source, source_len, flags, &frame, gaps, MANY);
    return turn + (u64)end + frame.kind + frame.datalen + frame.data;
}

static u64 stream_header(u64 turn) {
    size_t written = 0;
    return turn + (u64)quic_wire_frame_header_write(&stream, 0, dest, sizeof dest, &written) + written;
}

static u64 ack_write(u64 turn) {
    size_t written = 0;
    return turn + (u64)quic_wire_ack_gaps_write(&ack, gaps, gaps_len, dest, sizeof dest, &written) + written;
}

static inline __attribute__((always_inline)) u64 header_of(uint8_t kind, u64 turn) {
    quic_wire_header_fields said = {
        .kind = kind, .numberlen = 2, .lengthlen = 2, .version = QUIC_WIRE_VERSION_1, .number = turn};
    size_t token_len = kind == QUIC_WIRE_PACKET_INITIAL ? sizeof token : 0;
    return (u64)quic_wire_header_write(&said, id, id_len, id, id_len, token, token_len, dest, sizeof dest);
}

static u64 initial(u64 turn) { return header_of(QUIC_WIRE_PACKET_INITIAL, turn); }
static u64 zero_rtt(u64 turn) { return header_of(QUIC_WIRE_PACKET_0RTT, turn); }
static u64 handshake(u64 turn) { return header_of(QUIC_WIRE_PACKET_HANDSHAKE, turn); }
static u64 retry(u64 turn) { return header_of(QUIC_WIRE_PACKET_RETRY, turn); }
static u64 one_rtt(u64 turn) { return header_of(QUIC_WIRE_PACKET_1RTT, turn); }
static u64 negotiation(u64 turn) { return header_of(QUIC_WIRE_PACKET_VERSION_NEGOTIATION, turn); }

static u64 header_read(u64 turn) {
    static const uint32_t versions[] = {QUIC_WIRE_VERSION_1, QUIC_WIRE_VERSION_2};
    quic_wire_header head;
    int64_t end = quic_wire_header_read(source, sizeof source, (uint32_t)id_len, versions, 2, 0, &head);
    return turn + (u64)end + head.kind + head.header_end + head.tokenlen + head.len;
}

// A packet of 1,200 bytes that is read, with this header.
static int packet_with(u64 (*header)(u64)) {
    u64 begin = header(0);
    memcpy(source, dest, sizeof source);
    return quic_wire_set_len(source, 1200, (size_t)begin - 2, 2);
}

static const struct {
    const char *name;
    u64 (*call)(u64);
} calls[] = {
    {"none", none},
    {"short-read", short_read},
    {"short-read-near", short_read_near},
    {"unprotect", unprotect},
    {"unprotect-near", unprotect_near},
    {"unprotect-whole", unprotect_whole},
    {"unprotect-whole-near", unprotect_whole_near},
    {"param-read", param_read},
    {"param-read-near", param_read_near},
    {"param-number", param_number},
    {"param-number-near", param_number_near},
    {"stream-read", front_read},
    {"ack-read", front_read},
    {"stream-head", stream_header},
    {"ack-write", ack_write},
    {"initial", initial},
    {"0rtt", zero_rtt},
    {"handshake", handshake},
    {"retry", retry},
    {"1rtt", one_rtt},
    {"negotiation", negotiation},
    {"initial-read", header_read},
    {"handshake-read", header_read},
};

// A thousand single calls of this name, with connection IDs of len bytes or an ACK of len ranges.
static u64 on_calls(const char *name, size_t len) {
    u64 (*call)(u64) = NULL;
    u64 sum = 0;
    for (size_t k = 0; k < sizeof calls / sizeof *calls; k++)
        call = strcmp(name, calls[k].name) ? call : calls[k].call;
    if (!call || len > 20 || len > MANY)
        exit(2);
    id_len = len;
    gaps_len = len ? len - 1 : 0;
    for (size_t k = 0; k < gaps_len; k++)
        gaps[k] = (quic_wire_gap){1, 3};
    source[0] = QUIC_WIRE_BIT_FIXED | 1;
    source_len = 1200;
    int result = QUIC_WIRE_OK;
    if (!strncmp(name, "param-", 6))
        memcpy(source, "\4\4\x80\x10", 4);
    if (!strcmp(name, "ack-read"))
        result = quic_wire_ack_gaps_write(&ack, gaps, gaps_len, source, sizeof source, &source_len);
    if (!strcmp(name, "stream-read"))
        result = quic_wire_frame_write(&stream, dest, stream.datalen, 0, source, sizeof source, &source_len);
    if (!strcmp(name, "initial-read"))
        result = packet_with(initial);
    if (!strcmp(name, "handshake-read"))
        result = packet_with(handshake);
    if (result < 0)
        exit(2);
    for (u64 turn = 0; turn < 1000; turn++) {
        sum += call(turn);
        counted++;
    }
    return sum;
}

// Frames that are read and written one by one: of each struct of numbers one, with data of ten bytes.
static const quic_wire_frame written[] = {
    {.kind = QUIC_WIRE_FRAME_PING},
    {.kind = QUIC_WIRE_FRAME_RESET_STREAM, .reset_stream = {4, 10, 70000}},
    {.kind = QUIC_WIRE_FRAME_STOP_SENDING, .stop_sending = {4, 10}},
    {.kind = QUIC_WIRE_FRAME_CRYPTO, .datalen = 10, .crypto = {.offset = 1200}},
    {.kind = QUIC_WIRE_FRAME_NEW_TOKEN, .datalen = 10},
    {.kind = QUIC_WIRE_FRAME_STREAM, .datalen = 10, .stream = {4, 70000}},
    {.kind = QUIC_WIRE_FRAME_MAX_DATA, .limit = {.limit = 70000}},
    {.kind = QUIC_WIRE_FRAME_MAX_STREAM_DATA, .limit = {4, 70000}},
    {.kind = QUIC_WIRE_FRAME_NEW_CONNECTION_ID, .datalen = 8, .new_connection_id = {3, 2}},
    {.kind = QUIC_WIRE_FRAME_RETIRE_CONNECTION_ID, .retire_connection_id = {3}},
    {.kind = QUIC_WIRE_FRAME_PATH_CHALLENGE, .path = {1234567890}},
    {.kind = QUIC_WIRE_FRAME_CONNECTION_CLOSE, .datalen = 10, .close = {.error_code = 10, .frame_type = 6}},
    {.kind = QUIC_WIRE_FRAME_HANDSHAKE_DONE},
    {.kind = QUIC_WIRE_FRAME_DATAGRAM, .datalen = 10},
};

// A thousand calls that read or write the frame of this name.
static u64 on_frames(const char *name, int reads) {
    quic_wire_frame frame;
    size_t len = 0;
    u64 sum = 0;
    const quic_wire_frame *wanted = NULL;
    for (size_t k = 0; k < sizeof written / sizeof *written; k++)
        wanted = strcmp(name, quic_wire_type_name(written[k].kind)) ? wanted : &written[k];
    if (!wanted || quic_wire_frame_write(wanted, dest, sizeof dest, 0, source, sizeof source, &len))
        exit(2);
    for (u64 turn = 0; turn < 1000; turn++) {
        if (reads) {
            int64_t end = quic_wire_frame_read(source, sizeof source, flags, &frame, gaps, MANY);
            sum += turn + (u64)end + frame.kind + frame.datalen;
        } else {
            quic_wire_frame filled = *wanted;
            filled.begin = turn;
            sum += (u64)quic_wire_frame_write(&filled, dest, sizeof dest, flags, source, sizeof source, &len) + len;
        }
        counted++;
    }
    return sum;
}

static const struct {
    const char *name;
    u64 (*work)(const uint8_t *, size_t);
} works[] = {
    {"frames", frames_of}, {"many-frames", many_frames_of}, {"fronts", fronts_of},   {"ranges", ranges_of},
    {"acks", many_acks_of}, {"gaps", gaps_of},              {"packets", packets_of},
};

// The work on each payload.
static u64 (*work_of(const char *name))(const uint8_t *, size_t) {
    for (size_t k = 0; k < sizeof works / sizeof *works; k++)
        if (!strcmp(name, works[k].name))
            return works[k].work;
    exit(2);
}

// What is done with a number in place of a file.
static u64 on_number(const char *work, size_t number) {
    if (!strncmp(work, "set-", 4))
        return on_a_set(work[4], number);
    if (!strncmp(work, "call-", 5))
        return on_calls(work + 5, number);
    int reads = !strncmp(work, "read-", 5);
    flags = number ? (reads ? QUIC_WIRE_READ_RFC : QUIC_WIRE_WRITE_RFC) : 0;
    return on_frames(strchr(work, '-') + 1, reads);
}

int main(int argc, char **argv) {
    static char line[1 << 20];
    static uint8_t *bytes[1 << 16];
    static size_t lens[1 << 16];
    size_t count = 0;
    u64 sum = 0;
    if (argc != 4)
        return 2;
    char *rules = strstr(argv[1], "-rfc");
    if (rules) {
        *rules = 0;
        flags = QUIC_WIRE_READ_RFC;
    }
    if (strspn(argv[3], "0123456789") == strlen(argv[3])) {
        size_t number = strtoul(argv[3], NULL, 10);
        if (number > 1024 || !strchr(argv[1], '-'))
            return 2;
        for (int r = 0; r < atoi(argv[2]); r++) {
            counted = 0;
            sum += on_number(argv[1], number);
        }
        printf("%lu items, %lu\n", (unsigned long)counted, (unsigned long)sum);
        return 0;
    }
    FILE *file = fopen(argv[3], "r");
    if (!file)
        return 1;
    while (fgets(line, sizeof line, file) && count < 1 << 16) {
        size_t len = strcspn(line, "\r\n") / 2;
        uint8_t *at = malloc(len + 1);
        for (size_t i = 0; i < len; i++) {
            unsigned byte = 0;
            sscanf(line + 2 * i, "%2x", &byte);
            at[i] = (uint8_t)byte;
        }
        bytes[count] = at;
        lens[count++] = len;
    }
    fclose(file);
    u64 (*work)(const uint8_t *, size_t) = work_of(argv[1]);
    int rounds = atoi(argv[2]);
    for (int r = 0; r < rounds; r++) {
        counted = 0;
        for (size_t i = 0; i < count; i++)
            sum += work(bytes[i], lens[i]);
    }
    printf("%lu items, %lu\n", (unsigned long)counted, (unsigned long)sum);
    return 0;
}
