"""How programs show the fields of frames, headers and parameters: under quinn-proto's names, and as what."""
# The names of frames' fields, by the RFC's; where two frames differ, by the frame's name too.
NAMES = {
    "largest_acknowledged": "largest", "ack_delay": "delay", "ack_ranges": "ranges", "ect0_count": "ect0",
    "ect1_count": "ect1", "ecn_ce_count": "ce", "stream_id": "id", "application_protocol_error_code": "error_code",
    "final_size": "final_offset", "crypto_data": "data", "stream_data": "data", "datagram_data": "data",
    "direction": "dir", "maximum_data": "limit", "maximum_stream_data": "offset", "maximum_streams": "limit",
    "sequence_number": "sequence", "connection_id": "id", "stateless_reset_token": "reset_token",
    "reason_phrase": "reason", "requested_max_ack_delay": "request_max_ack_delay",
    ("MAX_STREAMS", "maximum_streams"): "count", ("DATA_BLOCKED", "maximum_data"): "offset",
}
# What fields are, by their kind in docs/formats.json; others by their unit or name.
KINDS = {
    "number": "Number", "implied": "Number", "uint64": "Eight", "bytes": "Bytes", "id": "Bytes", "counted": "Bytes",
    "rest": "Bytes", "ranges": "Ranges", "flag": "Flag", "preferred_address": "Address",
}
OTHERS = {
    "error code": "Code", "frame type, 0 if unknown": "Type", "UTF-8": "Text", "FIN": "Flag", "Direction": "Direction",
    "Crypto Data": "Data", "Stream Data": "Data", "Datagram Data": "Data",
}
# The names of headers' fields, and of what comes after them. Of a number that is protected its place is shown, of a
# token both.
OF_HEADERS = {
    "destination_connection_id": ["dst"], "source_connection_id": ["src"], "supported": ["version"],
    "token": ["token_at", "token"], "length": ["len"], "spin_bit": ["spin"], "packet_number": ["number_at"],
    "retry_token": ["token"], "retry_integrity_tag": ["tag"], "supported_version": ["versions"],
}


def kind(field):
    return OTHERS.get(field.get("unit")) or OTHERS.get(field["name"]) or KINDS[field["kind"]]


def fields(frame):
    """The fields that are shown, each with its name, what it is and its index. FIN comes just before the data."""
    for one in sorted(frame["fields"][1:], key=lambda it: it.get("name") in ("FIN", "Stream Data")):
        if "name" in one:
            key = one["key"]
            yield NAMES.get((frame["name"], key)) or NAMES.get(key, key), kind(one), one["index"]


def of_header(header):
    """What is shown of a header, in this order. The version follows the ids, where it is known to be supported."""
    for one in [*header["fields"], *header["first_byte"], *header["after"]]:
        yield from OF_HEADERS.get(one.get("kind"), OF_HEADERS.get(one.get("key"), []))
