"""aioquic's wire layer by the package quic_wire: what packet.py, connection.py and packet_builder.py call of it."""

import ipaddress

from quic_wire import (
    Checks,
    ErrorKind,
    PreferredAddress,
    Side,
    TransportParameters,
    find_parameter,
    read_version_information,
    write_version_information,
)

RFC = Checks.RFC
VERSION_INFORMATION, QUANTUM_READINESS = 0x11, 0x0C37
# aioquic's own texts, which its users may know.
PACKET_TEXTS = {
    ErrorKind.PACKET_FIXED_BIT: "Packet fixed bit is zero",
    ErrorKind.PACKET_CUT: "Packet payload is truncated",
}
OF_STREAMS = (0x12, 0x13, 0x16, 0x17)  # MAX_STREAMS and STREAMS_BLOCKED
FRAME_TEXTS = {
    ErrorKind.PAYLOAD_EMPTY: "Packet contains no frames",
    ErrorKind.FRAME_END: "Failed to parse frame",
    ErrorKind.FRAME_TYPE: "Unknown frame type",
}


def packet_text(error):
    """Why a packet is dropped."""
    return PACKET_TEXTS.get(error.kind) or str(error)


def frame_text(error):
    """Why a frame is rejected."""
    if error.kind == ErrorKind.FRAME_END and error.frame_type is None:
        return "Malformed frame type"
    if error.kind == ErrorKind.FRAME_LIMIT and error.frame_type in OF_STREAMS:
        return "Maximum Streams cannot exceed 2^60"
    if error.kind == ErrorKind.FRAME_LIMIT:
        return "offset + length cannot exceed 2^62 - 1"
    return FRAME_TEXTS.get(error.kind) or error.why or error.reason


def read_parameters(data):
    """Transport parameters by the names of aioquic's class, those that are there."""
    read = TransportParameters.read(Side.CLIENT, data, checks=RFC)
    values = read.as_dict(present=True)
    for name in ("grease_quic_bit", "min_ack_delay"):
        values.pop(name, None)
    versions = find_parameter(data, VERSION_INFORMATION)
    if versions is not None:
        values["version_information"] = read_version_information(versions)
    quantum_readiness = find_parameter(data, QUANTUM_READINESS)
    if quantum_readiness is not None:
        values["quantum_readiness"] = quantum_readiness
    return values


def address_of(preferred):
    """A preferred address of the package, from one with pairs of a text and a port."""
    v4, v6 = preferred.ipv4_address, preferred.ipv6_address
    return PreferredAddress(
        preferred.connection_id,
        preferred.stateless_reset_token,
        v4 and (ipaddress.IPv4Address(v4[0]), v4[1]),
        v6 and (ipaddress.IPv6Address(v6[0]), v6[1]),
    )


def write_parameters(params):
    """A list of transport parameters, of those of aioquic's class that aren't None."""
    given = {name: value for name, value in vars(params).items() if value is not None}
    further = []
    if (versions := given.pop("version_information", None)) is not None:
        listed = write_version_information(versions.chosen_version, versions.available_versions)
        further.append((VERSION_INFORMATION, listed))
    if (quantum_readiness := given.pop("quantum_readiness", None)) is not None:
        further.append((QUANTUM_READINESS, quantum_readiness))
    if "preferred_address" in given:
        given["preferred_address"] = address_of(given["preferred_address"])
    return TransportParameters(**given).write(Side.SERVER, further)
