#!/usr/bin/env python3
"""Shows that scripts/lib/near.py refuses wrong headers: each has one fault in one function. The last two are right but
leave more to the library than they have to, which near.py says.

near_faults.py   needs gcc, python3-z3 and python3-pycparser
"""
import pathlib
import sys
import tempfile

import near
from near_machine import HEADER, read_tree

# What is wrong, the function with the text that is changed, the text that it gets, and the part that finds it.
FAULTS = [
    ("a varint in the wrong order", "get_uint64_", "at[6] << 8", "at[5] << 8", "varints_read"),
    ("a byte after the payload is read", "next_varint_", "end - at >= 8", "end - at >= 7", "varints_read"),
    ("data end after the payload", "read_new_token_", "datalen > (size_t)(end - at)", "datalen > QUIC_WIRE_MOST_",
     "new_token_read"),
    ("two numbers are exchanged", "read_stop_sending_", "stream_id,\n                             error_code",
     "error_code,\n                             stream_id", "stop_sending_read"),
    ("too many streams", "read_max_streams_bidi_", "(uint64_t)1 << 60", "(uint64_t)1 << 61", "max_streams_uni_read"),
    ("the stream's end is lost", "read_stream_", "payload[0] & 1", "payload[0] & 2", "stream_read"),
    ("a varint that isn't the shortest", "put_varint_", "value < 16384", "value < 16383", "numbers_written"),
    ("a byte after dest is written", "max_data_write", "destlen < 9", "destlen < 8", "max_data_write"),
    ("an expanded number is too low", "nearest_", "window / 2 - 1", "window / 2", "whole_numbers"),
    ("an expected number above 2^62", "number_read_whole", "expected >> 62", "expected >> 63", "whole_numbers"),
    ("a number in three bytes of four", "number_write_least", "(uint32_t)numberlen", "3", "whole_numbers"),
    ("a short header that ends in its id", "short_read_near", "packetlen <= cidlen", "packetlen < cidlen",
     "short_headers"),
    ("a long header taken for a short one", "short_read_near", ">= 0x80", "> 0x80", "short_headers"),
    ("a fifth bit of a long header changes", "unprotect_near", "0x1fu >> (first >> 7)", "0x1fu", "unprotected"),
    ("bytes after a number change", "unprotect_near", " >> others << others", "", "unprotected"),
    ("the first byte's mask is used again", "unprotect_near", "mask + 1", "mask", "unprotected"),
    ("a number's length under its mask", "unprotect_near", "numberlen = (first & 3)", "numberlen = (packet[0] & 3u)",
     "unprotected"),
    ("a number that ends after the packet", "unprotect_near", "place > packetlen - 4", "place > packetlen - 3",
     "unprotected"),
    ("a value after the list", "next_param_", "(size_t)(end - at)", "QUIC_WIRE_MOST_", "params_read"),
    ("a number in a part of its value", "whole_varint_", "len == 2", "len >= 2", "params_read"),
    ("the length is a part of a number", "whole_varint_", "0x3fu", "0x7fu", "params_read"),
    ("a number is stored for no entry", "param_read_number_near", "!quic_wire_whole_varint_(at, valuelen, value)",
     "!quic_wire_next_varint_(list, list + listlen, value) || !quic_wire_whole_varint_(at, valuelen, value)",
     "params_read"),
    ("reads less", "read_new_connection_id_", "datalen > 20", "datalen > 19", "new_connection_id_read"),
    ("reads less", "param_read_near", "!list ||", "!list || listlen > 999 ||", "params_read"),
]


def planted(name, old, new):
    """The header with another text in one of its functions."""
    front, found, rest = HEADER.read_text().partition(f"quic_wire_{name}(")
    body, end, others = rest.partition("\n}\n")
    assert found and body.count(old) == 1, f"{name} has no such text once: {old}"
    return front + found + body.replace(old, new) + end + others


def answer(text, part):
    """What near.py says of a header, by one of its parts."""
    with tempfile.TemporaryDirectory() as folder:
        header = pathlib.Path(folder, HEADER.name)
        header.write_text(text)
        tree = read_tree(header, 64)
    try:
        for name, shows in near.parts():
            for _ in shows(tree, 64) if name == part else ():
                pass
    except near.Leaves:
        return "reads less"
    except near.Wrong:
        return "refused"
    return "passed"


def main():
    for what, name, old, new, part in FAULTS:
        found = answer(planted(name, old, new), part)
        print(f"{what}: {found}", flush=True)
        if found != ("reads less" if what == "reads less" else "refused"):
            return 1
    return 0


if __name__ == "__main__":
    sys.exit(main())
