/* What HAProxy's parsers call only for traces and memory. */
#include <haproxy/chunk.h>
#include <haproxy/global.h>
#include <haproxy/pool.h>
#include <haproxy/quic_conn-t.h>
#include <haproxy/trace.h>

struct global global;
const struct quic_version *preferred_version;
const struct quic_version quic_versions[1] = {{.num = 1}};
const size_t quic_versions_nb = 1;

typedef void traced(enum trace_level, uint64_t, const struct trace_source *, const struct ist, const struct ist,
                    const void *, const void *, const void *, const void *);

void __pool_free(struct pool_head *pool, void *it) {}
void __trace(enum trace_level level, uint64_t mask, struct trace_source *source, const struct ist where,
             const char *func, const void *a1, const void *a2, const void *a3, const void *a4, traced *by,
             const struct ist what) {}
int chunk_appendf(struct buffer *chunk, const char *format, ...) { return 0; }
void complain(int *counter, const char *message, int taint) {}
void create_pool_callback(struct pool_head **pool, char *name, unsigned int size) {}
void ha_backtrace_to_stderr(void) {}
