"""Types from a caller's point of view, for mypy --strict; no test runs it."""

from __future__ import annotations

from typing import Optional

import quic_wire as q
from quic_wire import capture
from quic_wire.protection import Keys, Opened, open_packet


def stream_bytes(payload: bytes) -> int:
    total = 0
    for frame in q.frames(payload, checks=q.Checks.RFC & ~q.Checks.NO_ACK_FREQUENCY):
        match frame:
            case q.Stream(stream_id=_, data=data):
                total += len(data)
            case q.Ack(largest=largest, ranges=ranges):
                total += largest + sum(len(one) for one in ranges)
    return total


def forbidden(payload: bytes, sender: q.Side) -> Optional[q.Code]:
    try:
        for frame in q.read_frames(payload, checks=q.Checks.RFC):
            q.check_type(frame.type, q.PacketType.ONE_RTT, sender)
            frame.check_permitted(q.PacketType.ONE_RTT, sender, checks=q.Checks.RFC)
    except q.FrameError as error:
        return error.code
    return None


def data_of(payload: bytes) -> list[bytes]:
    fields: list[q.Field] = q.frame_fields(payload, checks=q.Checks.RFC)
    return [payload[field.end - field.number : field.end] for field in fields if field.name.endswith("Data")]


def shorter(payload: bytes) -> bytes:
    frames = q.read_frames(q.canonical(payload, checks=q.Checks.RFC))
    return frames[0].encode(checks=q.Checks.RFC) + q.write_frames(frames[1:], checks=q.Checks.RFC)


def opened(datagram: bytearray, keys: Keys) -> list[Opened]:
    packets = q.packets(datagram, 8, checks=q.Checks.GREASED_BIT | q.Checks.WHOLE_RETRY)
    return [open_packet(packet, keys) for packet in packets if packet.number_at is not None]


def limit(data: memoryview) -> Optional[int]:
    try:
        read = q.TransportParameters.read(q.Side.SERVER, data, checks=q.Checks.RFC)
    except q.ParameterError as error:
        field: Optional[str] = error.field
        code: Optional[q.Code] = error.code
        assert field is None and code is not None
        return None
    return read.max_datagram_frame_size


def broken(file: str) -> list[Optional[str]]:
    read = capture.packets(file, checks=q.Checks.RFC)
    return [one.error.why for one in read if one.error is not None]


def entries(data: bytes) -> dict[int, bytes]:
    return {entry.id: bytes(entry.value) for entry in q.parameters(data)}


def acknowledged(numbers: q.RangeSet) -> bytes:
    numbers.insert(1, 5)
    return q.write_frames([q.Ack(ranges=numbers, delay=3), q.Padding(3)])


def kinds(payload: bytes, at: int) -> Optional[q.ErrorKind]:
    try:
        closes = [frame.reason for frame in q.frames(payload, at=at) if isinstance(frame, q.ConnectionClose)]
    except q.FrameError as error:
        unknown: bool = error.kind == q.ErrorKind.FRAME_TYPE
        return error.kind if unknown else None
    text: bytes = b"".join(closes)
    return None if text else q.ErrorKind.PAYLOAD_EMPTY


def ids(packet: q.Packet) -> bytes:
    return packet.dcid + packet.scid + (packet.token if isinstance(packet, q.Initial) else b"")


def present(read: q.TransportParameters) -> frozenset[str]:
    return read.present & set(read.as_dict(present=True))


def written(cid: bytes, token: bytes) -> bytes:
    ids = [q.NewConnectionId(1, 0, cid, token), q.NewConnectionId(2, connection_id=cid, reset_token=token)]
    return q.write_frames([*ids, q.PathChallenge(), q.PathResponse(b"12345678")])


def rejected(cid: bytes) -> list[q.Frame]:
    return [
        q.NewConnectionId(),  # type: ignore[call-overload]
        q.NewConnectionId(1, 0),  # type: ignore[call-overload]
        q.NewConnectionId(connection_id=cid),  # type: ignore[call-overload]
    ]


def acknowledged_by(ack: q.Ack) -> q.RangeSet:
    return q.RangeSet(ack)
