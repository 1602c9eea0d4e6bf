/* Each function of quic_wire.h as a symbol, for callers that inline nothing. */
#include "quic_wire.h"

#include "quic_wire_inline.h"
