"""A driver for aioquic's wire layer.

driver.py SOURCE, the folder `src` of aioquic's source, with its module _buffer built (build)

Frames are read by the handlers of connection.py, for a client whose flow control, streams, TLS and recovery let all of
them pass, so that only the reading rejects anything; packets and parameters by packet.py.
"""

import json
import sys
import types
from unittest.mock import MagicMock

# What the modules import and reading doesn't need.
for name in ("aioquic._crypto", "certifi", "OpenSSL", "OpenSSL.crypto", "pylsqpack", "service_identity"):
    sys.modules[name] = MagicMock()
sys.modules["service_identity.cryptography"] = MagicMock()
import cryptography.hazmat.primitives.asymmetric.types as key_types  # noqa: E402

for name in ("CertificateIssuerPublicKeyTypes", "CertificatePublicKeyTypes", "PrivateKeyTypes", "PublicKeyTypes"):
    vars(key_types).setdefault(name, object)
sys.path.insert(0, sys.argv[1])
from aioquic import tls  # noqa: E402
from aioquic.buffer import Buffer, BufferReadError  # noqa: E402
from aioquic.quic import connection, packet, stream  # noqa: E402
from aioquic.quic.configuration import QuicConfiguration  # noqa: E402
from aioquic.quic.logger import QuicLogger  # noqa: E402

Kind = packet.QuicPacketType
PACKETS = {
    Kind.INITIAL: "Initial",
    Kind.ZERO_RTT: "0-RTT",
    Kind.HANDSHAKE: "Handshake",
    Kind.RETRY: "Retry",
    Kind.VERSION_NEGOTIATION: "Version Negotiation",
    Kind.ONE_RTT: "1-RTT",
}
LAST_PACKETS = (Kind.RETRY, Kind.VERSION_NEGOTIATION, Kind.ONE_RTT)
VERSIONS = (None, 0, 1, 0x6B3343CF)
CODES = {3: "FLOW_CONTROL_ERROR", 7: "FRAME_ENCODING_ERROR", 10: "PROTOCOL_VIOLATION"}
# Reasons for errors that come from a connection's state, not from the bytes.
OF_STATE = ("Cannot", "Response does not match", "Over ", "Stream is", "Wrong stream", "Too ", "too much")
KNOWN = {"datagram", "version-2", "version-information"}
# The RFC's names of fields, for those of aioquic's log.
FIELDS = {
    "reset_stream": {
        "stream_id": "stream_id", "application_protocol_error_code": "error_code", "final_size": "final_size",
    },
    "stop_sending": {"stream_id": "stream_id", "application_protocol_error_code": "error_code"},
    "crypto": {"offset": "offset"},
    "stream": {"stream_id": "stream_id", "offset": "offset", "fin": "fin"},
    "max_data": {"maximum_data": "maximum"},
    "max_stream_data": {"stream_id": "stream_id", "maximum_stream_data": "maximum"},
    "max_streams": {"direction": "stream_type", "maximum_streams": "maximum"},
    "data_blocked": {"maximum_data": "limit"},
    "stream_data_blocked": {"stream_id": "stream_id", "maximum_stream_data": "limit"},
    "streams_blocked": {"direction": "stream_type", "maximum_streams": "limit"},
    "new_connection_id": {
        "sequence_number": "sequence_number", "retire_prior_to": "retire_prior_to", "connection_id": "connection_id",
        "stateless_reset_token": "reset_token",
    },
    "retire_connection_id": {"sequence_number": "sequence_number"},
    "path_challenge": {"data": "data"},
    "path_response": {"data": "data"},
}  # fmt: skip
# The data after a frame's fields.
DATA = {"crypto": "crypto_data", "stream": "stream_data", "new_token": "token", "datagram": "datagram_data"}


def open_connection():
    """A client in 1-RTT that may do everything."""
    config = QuicConfiguration(is_client=True, max_datagram_frame_size=1 << 20, alpn_protocols=["x"])
    it = connection.QuicConnection(configuration=config)
    it.connect(("192.0.2.1", 1), now=0.0)
    it._loss = MagicMock()
    it._remote_ack_delay_exponent = 0
    it._local_max_data.value = 1 << 63
    it._handshake_confirmed = True
    for name in ("_assert_stream_can_receive", "_assert_stream_can_send", "_discard_epoch", "_retire_peer_cid"):
        setattr(it, name, lambda *_: None)
    it._consume_peer_cid = lambda: None
    it._peer_cid.sequence_number = 0
    it._get_or_create_stream = it._get_or_create_stream_for_send = lambda _, id: open_stream(id)
    it._crypto_streams[tls.Epoch.ONE_RTT] = open_stream(None)
    it._quic_logger = MagicMock(wraps=QuicLogger().start_trace(is_client=True, odcid=b"x"))
    return it


def open_stream(stream_id):
    it = stream.QuicStream(stream_id=stream_id, max_stream_data_local=1 << 63, max_stream_data_remote=1 << 63)
    it.receiver.handle_frame = lambda _: None
    it.receiver.handle_reset = lambda **_: None
    return it


def text(value):
    return str(int(value)) if isinstance(value, (bool, int)) else value


def numbers_of(payload, at, count):
    """This many integers from an offset on, for what the log lacks."""
    buf = Buffer(data=payload)
    buf.seek(at)
    return [buf.pull_uint_var() for _ in range(count)]


def shown(logged, payload, begin, end):
    """The frame that was logged, which is in a payload from `begin` to `end`."""
    kind = logged["frame_type"]
    out = {"type": {"connection_close": "CONNECTION_CLOSE"}.get(kind, kind.upper())}
    out |= {name: text(logged[other]) for name, other in FIELDS.get(kind, {}).items()}
    (frame_type,) = numbers_of(payload, begin, 1)
    if kind in DATA:
        out[DATA[kind]] = payload[end - logged["length"] : end].hex()
    elif kind == "padding":
        out["count"] = str(end - begin)
    elif kind == "ack":
        _, largest, delay = numbers_of(payload, begin, 3)
        out |= {"largest_acknowledged": str(largest), "ack_delay": str(delay)}
        out["ranges"] = [[str(least), str(most)] for least, most in reversed(logged["acked_ranges"])]
    elif kind == "connection_close":
        is_transport = frame_type == 0x1C
        out |= {"layer": "transport" if is_transport else "application", "error_code": str(logged["error_code"])}
        if is_transport:
            out["frame_type"] = str(logged["trigger_frame_type"])
        *_, size = numbers_of(payload, begin, 4 if is_transport else 3)
        out["reason_phrase"] = payload[end - size : end].hex()
    return out


def frame(it, context, payload, buf):
    """The next frame, or the code with which it is rejected."""
    begin = buf.tell()
    logged = context.quic_logger_frames
    try:
        frame_type = buf.pull_uint_var()
        handler, _ = it._QuicConnection__frame_handlers[frame_type]
        handler(context, frame_type, buf)
    except (BufferReadError, KeyError):
        return "FRAME_ENCODING_ERROR"
    except connection.QuicConnectionError as error:
        if not error.reason_phrase.startswith(OF_STATE):
            return CODES.get(error.error_code, "?")
    return shown(logged[-1], payload, begin, buf.tell())


def read_payload(payload):
    it, buf, read = open_connection(), Buffer(data=payload), []
    context = types.SimpleNamespace(epoch=tls.Epoch.ONE_RTT, host_cid=b"", quic_logger_frames=[], time=1.0, version=1)
    context.network_path = it._network_paths[0]
    if not payload:
        return "invalid PROTOCOL_VIOLATION"
    while not buf.eof():
        begin = buf.tell()
        item = frame(it, context, payload, buf)
        if isinstance(item, str):
            return f"invalid {item} " + json.dumps({"at": begin, "before": read})
        read.append(item)
    return "valid " + json.dumps(read)


def is_refused(params, by_server):
    """What _parse_transport_parameters of connection.py rejects; of ids other than the handshake's, those that no
    handshake has."""
    of_server = ("original_destination_connection_id", "preferred_address", "retry_source_connection_id")
    if by_server and any(getattr(params, name) is not None for name in (*of_server, "stateless_reset_token")):
        return True
    ids = ("initial_source_connection_id", "original_destination_connection_id", "retry_source_connection_id")
    if any(len(getattr(params, name) or b"") > packet.CONNECTION_ID_MAX_SIZE for name in ids):
        return True
    limits = {"active_connection_id_limit": (2, 1 << 62), "max_udp_payload_size": (1200, 1 << 62)}
    limits |= {"ack_delay_exponent": (0, 20), "max_ack_delay": (0, (1 << 14) - 1)}
    values = ((getattr(params, name), least, most) for name, (least, most) in limits.items())
    return any(value is not None and not least <= value <= most for value, least, most in values)


def read_parameters(data, by_server):
    try:
        params = packet.pull_quic_transport_parameters(Buffer(data=data))
    except ValueError:
        return "invalid TRANSPORT_PARAMETER_ERROR"
    if is_refused(params, by_server):
        return "invalid TRANSPORT_PARAMETER_ERROR"
    out = {"?": ""}
    for name, value in vars(params).items():
        if name in ("preferred_address", "quantum_readiness", "version_information") or value is None or value is False:
            continue
        out[name] = value.hex() if isinstance(value, bytes) else text(value)
    return "valid " + json.dumps(out)


def read_datagram(data, cid_len):
    buf, read = Buffer(data=data), []
    while not buf.eof():
        begin = buf.tell()
        try:
            header = packet.pull_quic_header(buf, cid_len)
        except (ValueError, BufferReadError):
            return "invalid DROP " + json.dumps({"at": begin, "before": read})
        if header.version not in VERSIONS:
            ids = {"dcid": header.destination_cid.hex(), "scid": header.source_cid.hex()}
            return "valid " + json.dumps([*read, {"type": "unknown version"} | ids])
        read.append(shown_packet(header, begin))
        if header.packet_type in LAST_PACKETS:
            break
        buf.seek(begin + header.packet_length)
    return "valid " + json.dumps(read)


def shown_packet(header, begin):
    kind = header.packet_type
    out = {"type": PACKETS[kind], "dcid": header.destination_cid.hex()}
    if header.version is not None:
        out |= {"version": f"{header.version:08x}", "scid": header.source_cid.hex()}
    if kind == Kind.INITIAL:
        out["token"] = header.token.hex()
    elif kind == Kind.RETRY:
        out |= {"retry_token": header.token.hex(), "retry_integrity_tag": header.integrity_tag.hex()}
    elif kind == Kind.VERSION_NEGOTIATION:
        out["supported_versions"] = [f"{version:08x}" for version in header.supported_versions]
    if kind not in (Kind.RETRY, Kind.VERSION_NEGOTIATION):
        out["end"] = str(begin + header.packet_length)
    return out


def read_varint(data):
    buf = Buffer(data=data)
    try:
        return f'valid "{buf.pull_uint_var()} {buf.tell()}"'
    except BufferReadError:
        return "invalid"


def write_varint(digits):
    buf = Buffer(capacity=8)
    try:
        buf.push_uint_var(int(digits))
    except (OverflowError, ValueError):
        return "invalid"
    return f'valid "{buf.data.hex()}"'


def expanded(words):
    expected = 0 if words["largest"] == "-" else int(words["largest"]) + 1
    return f'valid "{packet.decode_packet_number(int(words["written"]), int(words["bits"]), expected)}"'


def answer(form, context, digits):
    words = dict(word.split("=") for word in context.split(",")) if context != "-" else {}
    if words.get("extension", "datagram") not in KNOWN or words.get("without") in KNOWN:
        return "skip"
    if any(name in words for name in ("packet", "strict", "grease", "versions")):
        return "skip"
    if form == "varint-write":
        return write_varint(digits)
    data = bytes.fromhex(digits.replace("-", ""))
    calls = {
        "payload": lambda: read_payload(data),
        "params": lambda: read_parameters(data, words.get("from") == "client"),
        "datagram": lambda: read_datagram(data, int(words.get("cid_len", 8))),
        "varint-read": lambda: read_varint(data),
        "number-expand": lambda: expanded(words),
    }
    # A client reads these frames; a datagram's line says who reads it, which packet.py doesn't know.
    if form not in calls or form == "payload" and words.get("side") == "server":
        return "skip"
    return calls[form]()


for line in sys.stdin:
    print(answer(*line.split()), flush=True)
