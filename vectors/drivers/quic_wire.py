#!/usr/bin/env python3
"""A driver for the Rust crate: its program `quic-wire`, which prints every field as JSON, and for single calls a
program that answers lines as a driver does.

quic_wire.py [--rfc] QUIC_WIRE CALLS

With --rfc the program reads as RFC 9000 requires, as it does by default, and answers tests of shortest payloads too. It
has no option for what these tests need, which are skipped: the packet that a payload is from, a longer type that is
accepted, the ACK frequency extension."""
import ipaddress
import json
import subprocess
import sys
from collections import defaultdict

IS_RFC = "--rfc" in sys.argv[1:]

# The RFC's names of a frame's fields, and the program's.
FRAMES = {
    "PADDING": {"count": "count"},
    "ACK": {
        "largest_acknowledged": "largest", "ack_delay": "delay", "ect0_count": "ect0", "ect1_count": "ect1",
        "ecn_ce_count": "ce",
    },
    "RESET_STREAM": {
        "stream_id": "id", "application_protocol_error_code": "error_code", "final_size": "final_offset",
    },
    "STOP_SENDING": {"stream_id": "id", "application_protocol_error_code": "error_code"},
    "CRYPTO": {"offset": "offset", "crypto_data": "data"},
    "NEW_TOKEN": {"token": "token"},
    "STREAM": {"stream_id": "id", "offset": "offset", "fin": "fin", "stream_data": "data"},
    "MAX_DATA": {"maximum_data": "limit"},
    "DATA_BLOCKED": {"maximum_data": "offset"},
    "MAX_STREAM_DATA": {"stream_id": "id", "maximum_stream_data": "offset"},
    "STREAM_DATA_BLOCKED": {"stream_id": "id", "maximum_stream_data": "offset"},
    "MAX_STREAMS": {"maximum_streams": "count"},
    "STREAMS_BLOCKED": {"maximum_streams": "limit"},
    "NEW_CONNECTION_ID": {
        "sequence_number": "sequence", "retire_prior_to": "retire_prior_to", "connection_id": "id",
        "stateless_reset_token": "reset_token",
    },
    "RETIRE_CONNECTION_ID": {"sequence_number": "sequence"},
    "PATH_CHALLENGE": {"data": "data"},
    "PATH_RESPONSE": {"data": "data"},
    "CONNECTION_CLOSE": {"error_code": "error_code", "frame_type": "frame_type", "reason_phrase": "reason_bytes"},
    "APPLICATION_CLOSE": {"error_code": "error_code", "reason_phrase": "reason_bytes"},
    "DATAGRAM": {"datagram_data": "data"},
    "ACK_FREQUENCY": {
        "sequence_number": "sequence", "ack_eliciting_threshold": "ack_eliciting_threshold",
        "requested_max_ack_delay": "request_max_ack_delay", "reordering_threshold": "reordering_threshold",
    },
}  # fmt: skip
DIRECTIONS = {"bi": "bidirectional", "uni": "unidirectional"}
PACKETS = {
    "initial": "Initial",
    "0rtt": "0-RTT",
    "handshake": "Handshake",
    "retry": "Retry",
    "short": "1-RTT",
    "version-negotiation": "Version Negotiation",
}
PACKET_FIELDS = {
    "dcid": "dst", "scid": "src", "version": "version", "end": "end", "token": "token", "length": "len",
    "packet_number_at": "number_at", "spin": "spin", "supported_versions": "versions",
}  # fmt: skip
PARAMETERS = {
    "original_dst_cid": "original_destination_connection_id",
    "initial_src_cid": "initial_source_connection_id",
    "retry_src_cid": "retry_source_connection_id",
    "preferred_address_cid": "preferred_connection_id",
    "preferred_address_token": "preferred_stateless_reset_token",
}
NO_ADDRESS = {
    "preferred_ipv4_address": "00" * 4, "preferred_ipv4_port": "0", "preferred_ipv6_address": "00" * 16,
    "preferred_ipv6_port": "0",
}  # fmt: skip


def text(value):
    """A value as the tests have it."""
    return str(int(value)) if isinstance(value, (bool, int)) else value


def renamed(fields, item):
    return {name: text(item[other]) for name, other in fields.items() if other in item}


def frame(item):
    kind = item["type"].removesuffix("_BIDI").removesuffix("_UNI")
    out = {"type": "CONNECTION_CLOSE" if "CLOSE" in kind else kind} | renamed(FRAMES.get(kind, {}), item)
    if kind == "ACK":
        out["ranges"] = [[str(low), str(high)] for low, high in item["ranges"]]
    elif "dir" in item:
        out["direction"] = DIRECTIONS.get(item["dir"], item["dir"])
    elif "CLOSE" in kind:
        out["layer"] = "application" if kind == "APPLICATION_CLOSE" else "transport"
        if kind == "CONNECTION_CLOSE":
            out.setdefault("frame_type", "0")
    return out


def needs_option(error, context):
    """Whether a test accepts what the program rejects, as it has no option for that."""
    is_long, is_of_extension = "shortest" in error["error"], "negotiated" in error.get("why", "")
    return IS_RFC and (is_long and "strict" not in context or is_of_extension and "without" not in context)


def frames(items, context):
    read = [frame(item) for item in items if "error" not in item]
    error = next((item for item in items if "error" in item), None)
    if not error:
        return "skip" if IS_RFC and {"packet", "side"} & context.keys() else "valid " + json.dumps(read)
    if needs_option(error, context):
        return "skip"
    if "offset" not in error:
        return "skip"  # what looks like a packet with IP headers, which the program rejects as a payload
    is_violation = "empty" in error["error"] or "shortest" in error["error"]
    code = "PROTOCOL_VIOLATION" if is_violation else "FRAME_ENCODING_ERROR"
    return f"invalid {code} " + json.dumps({"at": error["offset"], "before": read})


def shortest(items, context):
    (item,) = items
    if "error" in item:
        return "skip" if needs_option(item, context) else f"invalid {item['close_name']}"
    return "valid " + json.dumps(item["data"])


def packet(item):
    out = {"type": PACKETS[item["packet"]]} | renamed(PACKET_FIELDS, item)
    if item["packet"] != "initial":
        out.pop("token", None)
    if item["packet"] == "retry" and "tag" in item:
        out |= {"retry_token": item["token"], "retry_integrity_tag": item["tag"]}
    return out


def datagram(items, _):
    read, error = [], None
    for item in items:
        # The program uses this field for what `Packets` of the crate rejects.
        if item.get("fixed_bit") is False:
            error = {"offset": item.get("offset", item.get("start"))}
        elif "unsupported version" in item.get("error", "") and "dst" in item:
            read.append({"type": "unknown version", "dcid": item["dst"], "scid": item["src"]})
        elif "error" in item:
            error = item
        else:
            read.append(packet(item))
    if not error:
        return "valid " + json.dumps(read)
    return "invalid DROP " + json.dumps({"at": error["offset"], "before": read})


def parameters(items, _):
    (item,) = items
    if "error" in item:
        return "invalid TRANSPORT_PARAMETER_ERROR"
    out = {}
    for name, value in item.items():
        if name in ("preferred_address_v4", "preferred_address_v6"):
            host, port = value.rsplit(":", 1)
            prefix = f"preferred_ipv{name[-1]}_"
            out |= {prefix + "address": ipaddress.ip_address(host.strip("[]")).packed.hex(), prefix + "port": port}
        elif name not in ("line", "order", "unknown"):
            out[PARAMETERS.get(name, name)] = text(value)
    return "valid " + json.dumps((NO_ADDRESS if "preferred_connection_id" in out else {}) | out)


def context_of(text):
    return dict(word.split("=") for word in text.split(",")) if text != "-" else {}


def words_of(form, context):
    """The arguments with which quic-wire reads a line, and what makes an answer from its JSON; None for the other
    program."""
    more = [] if IS_RFC else ["--quinn"]
    if form == "payload" and (IS_RFC or "without" not in context):
        more += ["--strict"] * ("strict" in context)
        return ("frames", *more), frames
    if form == "shortest" and IS_RFC:
        return ("canon",), shortest
    if form == "datagram":
        versions = context.get("versions", "1,6b3343cf")
        more += ["--grease"] * ("grease" in context)
        return ("datagram", "--cid-len", context.get("cid_len", "8"), "--versions", versions, *more), datagram
    if form == "params":
        return ("params", "--side", "server" if context.get("from") == "client" else "client", *more), parameters
    return None, None


def lines_of(command, inputs):
    return subprocess.run(command, input="".join(inputs), capture_output=True, text=True).stdout.splitlines()


def main():
    programs = [word for word in sys.argv[1:] if word != "--rfc"]
    if len(programs) != 2:
        sys.exit("usage: quic_wire.py [--rfc] QUIC_WIRE CALLS")
    quic_wire, calls = programs
    lines = [line.rstrip("\n") for line in sys.stdin]
    contexts = [context_of(line.split(" ")[1]) for line in lines]
    kinds, answers = defaultdict(list), ["skip"] * len(lines)
    for index, line in enumerate(lines):
        kinds[words_of(line.split(" ")[0], contexts[index])].append(index)
    for (words, answer_of), indices in kinds.items():
        if not words:
            for index, answer in zip(indices, lines_of([calls], [lines[index] + "\n" for index in indices])):
                answers[index] = answer
            continue
        items = defaultdict(list)
        inputs = [lines[index].split(" ")[2].replace("-", "") + "\n" for index in indices]
        for line in lines_of([quic_wire, "--json", *words], inputs):
            item = json.loads(line)
            items[item["line"]].append(item)
        for number, index in enumerate(indices, 1):
            answers[index] = answer_of(items[number], contexts[index])
    print("\n".join(answers))


main()
