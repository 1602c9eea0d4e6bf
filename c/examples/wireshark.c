/* A Wireshark plugin that reads each QUIC payload that Wireshark has decrypted,
 * and adds the library's result: quic_wire.verdict, which is "ok" or "refused";
 * how many frames there are, with a run of PADDING as one; and how many bytes
 * the shortest form has.  For a rejected payload it adds the reason, the type
 * of the frame, where it begins, and the code that closes the connection, also
 * as an expert error.  A type must be in its shortest encoding (RFC 9000,
 * section 12.4).  To build it for Wireshark 4.0:
 *
 *   cc -shared -fPIC -o quic_wire.so wireshark.c \
 *     $(pkg-config --cflags wireshark) \
 *     -IPREFIX/include -LPREFIX/lib -lquic_wire -Wl,-rpath,PREFIX/lib
 *
 * Move quic_wire.so to ~/.local/lib/wireshark/plugins/4.0/epan. */
#define WS_BUILD_DLL
#include <epan/expert.h>
#include <epan/packet.h>
#include <epan/proto.h>
#include <stdint.h>
#include <string.h>
#include <ws_version.h>

#include "quic_wire.h"

enum { AT_ONCE = 64 };

WS_DLL_PUBLIC const char plugin_version[];
WS_DLL_PUBLIC const int plugin_want_major, plugin_want_minor;
WS_DLL_PUBLIC void plugin_register(void);

const char plugin_version[] = QUIC_WIRE_LIB_TEXT;
const int plugin_want_major = WIRESHARK_VERSION_MAJOR;
const int plugin_want_minor = WIRESHARK_VERSION_MINOR;

static int protocol = -1, verdict = -1, frames_count = -1, shortest = -1;
static int reason = -1, place = -1, type = -1, code = -1, subtree = -1;
static expert_field refused = EI_INIT;

/* What is added for a payload, and to which tree. */
typedef struct shown {
  tvbuff_t *bytes;
  packet_info *info;
  proto_item *item;
  proto_tree *tree;
  int len;
} shown;

/* Why a payload is rejected, from which byte on, and with which error code. */
typedef struct refusal {
  const char *why, *name;
  uint64_t type;
  int place, code;
} refusal;

static refusal refusal_of(int answer, const quic_wire_frame_iter *frames,
                          const quic_wire_frame *frame) {
  refusal r = {NULL, NULL, QUIC_WIRE_NO_TYPE, 0, 0};
  r.why = quic_wire_strerror(answer);
  r.code = (int)quic_wire_close_code(answer);
  if (answer != QUIC_WIRE_ERR_PAYLOAD_EMPTY) {
    r.type = quic_wire_error_type(frame);
    r.name = r.type == QUIC_WIRE_NO_TYPE ? NULL : quic_wire_type_name(r.type);
    r.place = (int)frames->offset;
  }
  return r;
}

static void show_refusal(const shown *s, const refusal *r) {
  const char *in = r->name ? " in " : "", *name = r->name ? r->name : "";
  const int rest = s->len - r->place;
  proto_item *item = proto_tree_add_string(s->tree, verdict, s->bytes, r->place,
                                           rest, "refused");
  proto_tree_add_string(s->tree, reason, s->bytes, r->place, rest, r->why);
  proto_tree_add_uint(s->tree, place, s->bytes, r->place, rest,
                      (uint32_t)r->place);
  proto_tree_add_uint(s->tree, code, s->bytes, r->place, rest,
                      (uint32_t)r->code);
  if (r->type != QUIC_WIRE_NO_TYPE)
    proto_tree_add_uint64(s->tree, type, s->bytes, r->place, rest, r->type);
  proto_item_append_text(s->item, ", refused from byte %d on: %s%s%s", r->place,
                         r->why, in, name);
  expert_add_info_format(s->info, item, &refused,
                         "quic_wire: %s%s%s, from byte %d on", r->why, in, name,
                         r->place);
}

/* All that RFC 9000 has a receiver check.  ACK_FREQUENCY and IMMEDIATE_ACK may
 * have been negotiated. */
#define CHECKS (QUIC_WIRE_READ_RFC & ~QUIC_WIRE_READ_NO_ACK_FREQUENCY)

/* Reads all frames, and counts them, with a run of PADDING as one.  Returns the
 * last result; an invalid frame is then the first of |some|. */
static int read_frames(const uint8_t *payload, size_t len,
                       quic_wire_frame_iter *frames, quic_wire_frame *some,
                       uint32_t *count) {
  size_t filled = 0;
  int answer = quic_wire_frames_init(frames, payload, len, CHECKS);
  while (answer >= 0 &&
         (answer = quic_wire_frames_fill(frames, payload, len, some, AT_ONCE,
                                         &filled)) == QUIC_WIRE_ITEM)
    *count += (uint32_t)filled;
  return answer;
}

static void show_payload(tvbuff_t *bytes, packet_info *info, proto_tree *tree) {
  const int len = (int)tvb_captured_length(bytes);
  const uint8_t *payload = tvb_get_ptr(bytes, 0, len);
  shown s = {bytes, info, NULL, NULL, len};
  quic_wire_frame_iter frames;
  quic_wire_frame some[AT_ONCE] = {{0}};
  quic_wire_canon canon;
  uint32_t count = 0;
  const int answer = read_frames(payload, (size_t)len, &frames, some, &count);
  s.item = proto_tree_add_item(tree, protocol, bytes, 0, len, ENC_NA);
  s.tree = proto_item_add_subtree(s.item, subtree);
  proto_item_append_text(s.item, ": %u frame%s", count, count == 1 ? "" : "s");
  proto_tree_add_uint(s.tree, frames_count, bytes, 0, len, count);
  if (answer != QUIC_WIRE_OK) {
    const refusal r = refusal_of(answer, &frames, some);
    show_refusal(&s, &r);
    return;
  }
  proto_tree_add_string(s.tree, verdict, bytes, 0, len, "ok");
  /* Without room it returns how much it needs. */
  if (quic_wire_canonical(payload, (size_t)len, NULL, 0, &canon) ==
      QUIC_WIRE_ERR_NOBUF)
    proto_tree_add_uint(s.tree, shortest, bytes, 0, len, (uint32_t)canon.len);
}

/* Wireshark's name for what it decrypts, in the order of the packets. */
static int dissect(tvbuff_t *datagram, packet_info *info, proto_tree *tree,
                   void *data) {
  GSList *next;
  (void)data;
  for (next = tree ? info->data_src : NULL; next; next = next->next) {
    const struct data_source *source = (const struct data_source *)next->data;
    char *name = get_data_source_name(source);
    if (name && !strncmp(name, "Decrypted QUIC", 14))
      show_payload(get_data_source_tvb(source), info, tree);
    wmem_free(NULL, name);
  }
  return (int)tvb_captured_length(datagram);
}

#define FIELD(id, words, filter, kind, base)                                   \
  {                                                                            \
    &id, { words, "quic_wire." filter, kind, base, NULL, 0, NULL, HFILL }      \
  }

static void register_protocol(void) {
  static hf_register_info fields[] = {
      FIELD(verdict, "Verdict", "verdict", FT_STRING, BASE_NONE),
      FIELD(frames_count, "Frames", "frames", FT_UINT32, BASE_DEC),
      FIELD(shortest, "Bytes of the shortest form", "shortest", FT_UINT32,
            BASE_DEC),
      FIELD(reason, "Reason", "reason", FT_STRING, BASE_NONE),
      FIELD(place, "From byte", "place", FT_UINT32, BASE_DEC),
      FIELD(type, "Frame type", "type", FT_UINT64, BASE_HEX),
      FIELD(code, "Error code", "code", FT_UINT32, BASE_HEX)};
  static int *trees[] = {&subtree};
  static ei_register_info experts[] = {
      {&refused,
       {"quic_wire.refused", PI_PROTOCOL, PI_ERROR,
        "The library quic_wire refuses the payload", EXPFILL}}};
  protocol = proto_register_protocol("QUIC as quic_wire reads it", "quic_wire",
                                     "quic_wire");
  proto_register_field_array(protocol, fields, array_length(fields));
  proto_register_subtree_array(trees, array_length(trees));
  expert_register_field_array(expert_register_protocol(protocol), experts,
                              array_length(experts));
  register_postdissector(create_dissector_handle(dissect, protocol));
}

/* Does nothing if the loaded library doesn't fit the header. */
void plugin_register(void) {
  static proto_plugin plugin;
  plugin.register_protoinfo = register_protocol;
  if (quic_wire_check(QUIC_WIRE_LIB) == 0)
    proto_register_plugin(&plugin);
}
