/* Prints the structs of quic_wire.h that the page reads: a line for each with
 * its size, and one for each field with its offset and its bytes.  If pointers
 * and sizes have 64 bits, they are those of the WebAssembly module. */
#include <stdio.h>

#include "quic_wire.h"

#define STRUCT(s) printf(#s " %zu\n", sizeof(quic_wire_##s))
#define FIELD(s, f)                                                            \
  printf(#s "." #f " %zu %zu\n", offsetof(quic_wire_##s, f),                   \
         sizeof(((quic_wire_##s *)0)->f))

static void frames(void) {
  STRUCT(frame_iter);
  FIELD(frame_iter, offset);
  FIELD(frame_iter, last_type);
  FIELD(frame_iter, ended);
  FIELD(frame_iter, flags);
  STRUCT(frame);
  FIELD(frame, kind);
  FIELD(frame, type);
  FIELD(frame, flags);
  FIELD(frame, begin);
  FIELD(frame, end);
  FIELD(frame, data);
  FIELD(frame, datalen);
  FIELD(frame, numbers);
  STRUCT(range);
  FIELD(range, start);
  FIELD(range, end);
  STRUCT(range_iter);
  FIELD(range_iter, offset);
  FIELD(range_iter, left);
  FIELD(range_iter, largest);
  STRUCT(canon);
  FIELD(canon, len);
  FIELD(canon, last_type);
}

static void headers(void) {
  STRUCT(header);
  FIELD(header, kind);
  FIELD(header, first);
  FIELD(header, dcidlen);
  FIELD(header, scidlen);
  FIELD(header, version);
  FIELD(header, header_end);
  FIELD(header, end);
  FIELD(header, token);
  FIELD(header, tokenlen);
  FIELD(header, len);
}

static void params(void) {
  STRUCT(params);
  STRUCT(refusal);
  FIELD(refusal, id);
  FIELD(refusal, offset);
}

static void fields(void) {
  STRUCT(span);
  FIELD(span, field);
  FIELD(span, start);
  FIELD(span, end);
  FIELD(span, number);
  STRUCT(fields);
  FIELD(fields, count);
  FIELD(fields, end);
  FIELD(fields, inside);
  FIELD(fields, numbers);
}

int main(void) {
  _Static_assert(sizeof(void *) == 8 && sizeof(size_t) == 8, "64-bit words");
  frames();
  headers();
  params();
  fields();
  return 0;
}
