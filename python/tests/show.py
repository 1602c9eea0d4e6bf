#!/usr/bin/env python3
"""Prints what quic-show prints for each line of standard input, which is hexadecimal, with the package.

show.py frames|strict|canon; show.py datagram LEN; show.py params client|server

Exit status: 0 every line is accepted, 1 a line is rejected, 2 usage error.
"""

import binascii
import sys

import quic_wire as q

KINDS = ("initial", "0rtt", "handshake", "retry", "short", "version-negotiation")
SHORT_NAMES = {
    "original_destination_connection_id": "original_dst_cid",
    "initial_source_connection_id": "initial_src_cid",
    "retry_source_connection_id": "retry_src_cid",
}
BY_DEFAULT = q.TransportParameters()


def invalid(error):
    kind = error._last_type
    if kind is None:
        return f"error {error.reason}"
    return f"error {error.reason} in {q.type_name(kind) or f'<unknown {kind:x}>'}"


def frame_lines(payload, strict):
    error = None
    try:
        found = q.read_frames(payload, checks=q.Checks.SHORT_TYPES if strict else q.Checks.QUINN)
    except q.FrameError as rejected:
        found, error = rejected.frames, rejected
    for frame in found:
        if isinstance(frame, q.Padding):
            end = frame.end - frame.count + 1
            yield f"{frame.begin}..{end} PADDING"
            yield from (f"{at}..{at + 1} PADDING" for at in range(end, frame.end))
        else:
            yield f"{frame.begin}..{frame.end} {q.type_name(frame.kind)}"
    if error:
        yield invalid(error)


def canon_lines(payload):
    try:
        yield q.canonical(payload).hex()
    except q.FrameError as error:
        yield invalid(error)


def packet_line(packet):
    line = f"{packet.begin}..{packet.end} {KINDS[packet.kind]} dst {packet.dcid.hex() or '-'}"
    if isinstance(packet, q.OneRtt):
        return line
    line += f" src {packet.scid.hex() or '-'}"
    if isinstance(packet, q.VersionNegotiation):
        return f"{line} version 00000000"
    line += f" version {packet.version:08x}"
    if isinstance(packet, q.Initial):
        begin = packet.token_at - packet.begin
        line += f" token {begin}..{begin + len(packet.token)}"
    return line


def is_rejected_by_quinn(packet):
    """What quic-show rejects, as quinn-proto does, and the package reads (RFC 8999, section 6)."""
    if not isinstance(packet, (q.UnknownVersion, q.VersionNegotiation)):
        return None
    if max(len(packet.dcid), len(packet.scid)) > 20:
        return "malformed cid"
    return f"unsupported version {packet.version:x}" if isinstance(packet, q.UnknownVersion) else None


def datagram_lines(datagram, cid_len):
    try:
        for packet in q.packets(datagram, cid_len):
            rejection = is_rejected_by_quinn(packet)
            yield f"error {rejection}" if rejection else packet_line(packet)
            if rejection:
                return
    except q.PacketError as error:
        yield f"error {error.reason}"


def address_text(address):
    v4, v6 = address.v4, address.v6
    parts = [
        v4[0].packed.hex() if v4 else "00" * 4, f"{v4[1] if v4 else 0:04x}", v6[0].packed.hex() if v6 else "00" * 16,
        f"{v6[1] if v6 else 0:04x}", f"{len(address.connection_id):02x}", address.connection_id.hex(),
        address.reset_token.hex(),
    ]  # fmt: skip
    return "".join(parts)


def parameter_lines(data, side):
    try:
        read = q.TransportParameters.read(side, data)
    except q.ParameterError as error:
        yield f"error {error.reason}"
        return
    for name, value in read.as_dict().items():
        if value == getattr(BY_DEFAULT, name):
            continue
        if isinstance(value, q.PreferredAddress):
            shown = address_text(value)
        elif isinstance(value, bytes):
            shown = value.hex() or "-"
        else:
            shown = "true" if value is True else str(value)
        yield f"{SHORT_NAMES.get(name, name)} {shown}"
    yield "ok"


def lines_of(words, data):
    if words[0] == "canon":
        return canon_lines(data)
    if words[0] == "datagram":
        return datagram_lines(data, int(words[1]))
    if words[0] == "params":
        return parameter_lines(data, q.Side[words[1].upper()])
    return frame_lines(data, words[0] == "strict")


def main():
    words = sys.argv[1:]
    if words not in (["frames"], ["strict"], ["canon"], ["params", "client"], ["params", "server"]) and not (
        len(words) == 2 and words[0] == "datagram" and words[1].isdigit() and int(words[1]) <= 20
    ):
        print(__doc__.strip(), file=sys.stderr)
        return 2
    status = 0
    for line in sys.stdin.buffer:
        try:
            data = binascii.unhexlify(line.removesuffix(b"\n").removesuffix(b"\r"))
        except binascii.Error:
            found = ["error not hexadecimal"]
        else:
            found = lines_of(words, data)
        for text in found:
            print(text)
            status |= text.startswith("error ")
    return status


if __name__ == "__main__":
    sys.exit(main())
