"""python/wire/formats.h."""
import json

from lib.tables import classes, proved, stub
from lib.tables.formats import MADE

PATH = "python/wire/formats.h"
MACROS = {
    "FRAME_FIELD": "name, how, bit, doc", "PACKET_FIELD": "name, how, bit, doc",
    "FRAME_KIND": "word, name, doc, fields", "PACKET_KIND": "name, doc, fields",
    "PARAMETER": "name, kind, id, at, len_at, present, doc", "RESULT": "word", "READ_FLAG": "word",
}
BEGIN = f"""/* SPDX-License-Identifier: MIT OR Apache-2.0 */
/* {MADE}
 * Rows of tables: the fields of every frame and of every packet, the kinds of both with their own fields, the
 * transport parameters in their order, the results and flags of readers. Before a file includes this one, it defines
 * what a row is; rows that it doesn't define are nothing. Each inclusion forgets the definitions.
 *
 * - FIELD(name, what it is, its slot in the union, documentation) */
/* The versions that are read by default. */
#define USUAL_VERSIONS {{{', '.join(proved.versions())}}}
"""
KINDS = {"bytes": "TOKEN", "id": "ID", "flag": "FLAG", "preferred_address": "ADDRESS"}


def fields(some):
    rows = (f"\n     FIELD({json.dumps(it.name)}, {it.how}, {it.slot}, {json.dumps(it.doc)})" for it in some)
    return "".join(rows)


def common(macro, some):
    return (f"{macro}({json.dumps(it.name)}, {it.how}, {it.slot},\n     {json.dumps(it.doc)})\n" for it in some)


def kind(one):
    how = stub.signature((it.name, stub.given(it)) for it in one.fields)
    doc = json.dumps(f"{one.name}({how})\n--\n\n{one.doc}")
    return f"FRAME_KIND({one.word}, {json.dumps(one.name)},\n     {doc},{fields(one.fields)})\n"


def packet(one):
    return f"PACKET_KIND({json.dumps(one.name)},\n     {json.dumps(one.doc)},{fields(one.fields)})\n"


def parameter(one):
    word = one.get("quinn_proto", one["name"])
    what = KINDS.get(one["kind"], "INTEGER" if "default" in one else "OPTIONAL")
    at = 0 if what in ("FLAG", "ADDRESS") else f"AT({word})"
    length = f"AT({word}len)" if what == "ID" else 0
    present = 0 if what == "INTEGER" else f"QUIC_WIRE_HAS_{word.upper()}"
    doc = json.dumps(classes.parameter_doc(one))
    return f"PARAMETER({one['name']}, {what}, {one['id']:#x}, {at}, {length},\n     {present}, {doc})\n"


def made(formats):
    rows = {
        "FRAME_FIELD": common("FRAME_FIELD", classes.OF_FRAMES),
        "PACKET_FIELD": common("PACKET_FIELD", classes.OF_PACKETS),
        "FRAME_KIND": map(kind, classes.frames(formats)), "PACKET_KIND": map(packet, classes.packets(formats)),
        "PARAMETER": map(parameter, classes.parameters(formats)),
        "RESULT": (f"RESULT({word})\n" for word in classes.results(formats)),
        "READ_FLAG": (f"READ_FLAG({word})\n" for word in classes.flags()),
    }
    defined = (f"#ifndef {name}\n#define {name}({words})\n#endif\n" for name, words in MACROS.items())
    parts = (f"\n{''.join(some)}" for some in rows.values())
    undefined = (f"#undef {name}\n" for name in [*MACROS, "FIELD"])
    how = json.dumps(f"*, {stub.signature(stub.given_parameters(formats))}")
    called = f"/* How the class of transport parameters is called. */\n#define PARAMETERS_SIGNATURE {how}\n"
    return BEGIN + "".join([called, *defined, *parts, "\n", *undefined])
