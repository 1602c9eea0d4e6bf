/* Whether reset tokens are compared by the same instructions for all tokens,
 * also at the end of datagrams (RFC 9000, section 10.3.1).  Run it under
 * valgrind --error-exitcode: for that all bytes of the tokens are undefined,
 * and it reports each jump and each address that depends on one.  With the
 * argument `memcmp` it compares them as memcmp might, byte by byte, which must
 * be reported.
 *
 *   cc -O2 -I../include -o tokens tokens.c libquic_wire.a
 *   valgrind --quiet --error-exitcode=9 ./tokens */
#include <stdio.h>
#include <stdlib.h>
#include <string.h>

#include "quic_wire.h"

enum { TOKEN = 16, TIMES = 100 };

/* What depends on a token goes nowhere else. */
static volatile int equal, is_reset;

static int byte_by_byte(const uint8_t *a, const uint8_t *b) {
  size_t i;
  for (i = 0; i < TOKEN; i++)
    if (a[i] != b[i])
      return 0;
  return 1;
}

int main(int argc, char **argv) {
  const int is_known = argc == 2 && !strcmp(argv[1], "memcmp");
  int i;
  for (i = 0; i < TIMES; i++) {
    /* valgrind counts fresh memory as undefined. */
    uint8_t *a = malloc(TOKEN), *b = malloc(TOKEN), *whole = malloc(2 * TOKEN);
    if (!a || !b || !whole)
      return 1;
    equal = is_known ? byte_by_byte(a, b) : quic_wire_reset_token_equal(a, b);
    is_reset = quic_wire_is_reset(whole, 2 * TOKEN, a);
    free(a);
    free(b);
    free(whole);
  }
  puts("tokens: compared");
  return 0;
}
