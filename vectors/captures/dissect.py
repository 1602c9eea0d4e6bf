"""What tshark reads in a capture: the QUIC packets of each datagram, with their numbers and frames."""

import subprocess
from collections import Counter
from xml.etree import ElementTree

TYPES = ("Initial", "0-RTT", "Handshake", "Retry")


def run(*command):
    """What a command prints."""
    return subprocess.run(command, check=True, stdout=subprocess.PIPE, stderr=subprocess.DEVNULL).stdout


def ports_of(capture):
    """The options by which tshark takes the ports of a capture for QUIC's, the ones with most datagrams first."""
    fields = ("-T", "fields", "-e", "udp.srcport", "-e", "udp.dstport")
    count = Counter(run("tshark", "-r", capture, *fields).decode().replace("\t", "\n").split())
    ports = [port for port, _ in count.most_common(10) if port.isdecimal()]
    return [part for port in ports for part in ("-d", f"udp.port=={port},quic")]


def command_of(capture, keys=None):
    """How tshark is called for a capture and its key log, if it isn't in the file. What streams carry isn't read."""
    log = ["-o", f"tls.keylog_file:{keys}"] if keys else []
    return ["tshark", "-r", str(capture), *ports_of(capture), "--disable-protocol", "http3", *log, "-T", "pdml"]


def shown(field):
    return field.get("show") or "0"


def fields_of(proto):
    """The first field of each name in a packet."""
    fields = {}
    for field in proto.iter("field"):
        fields.setdefault(field.get("name"), field)
    return fields


def type_of(fields):
    """A packet's type by its header; none if the bytes are no packet."""
    if "quic.header_form" not in fields:
        return None
    if "quic.stateless_reset_token" in fields:
        return "Stateless Reset"
    if shown(fields["quic.header_form"]) == "0":
        return "1-RTT"
    if "quic.vn.unused" in fields or int(shown(fields["quic.version"]), 0) == 0:
        return "Version Negotiation"
    if "quic.long.packet_type" in fields:
        return TYPES[int(shown(fields["quic.long.packet_type"]), 0)]
    # RFC 9369, section 3.2.
    if "quic.long.packet_type_v2" in fields:
        return TYPES[(int(shown(fields["quic.long.packet_type_v2"]), 0) - 1) % 4]
    return "unknown version"


def frames_of(proto):
    """The types and lengths of a packet's frames; PADDING that follows PADDING is one frame."""
    frames = []
    for field in proto.iter("field"):
        if field.get("name") == "quic.frame":
            kind = next(one for one in field.iter("field") if one.get("name") == "quic.frame_type")
            kind, length = int(shown(kind), 0), int(field.get("size"))
            if kind == 0 and frames and frames[-1]["type"] == 0:
                frames[-1]["length"] += length
            else:
                frames.append({"type": kind, "length": length})
    return frames


def packet_of(proto):
    """A packet as tshark shows it; none if it is padding behind the packets."""
    fields = fields_of(proto)
    kind = type_of(fields)
    if kind is None:
        return None
    packet = {"type": kind}
    if kind not in ("1-RTT", "Stateless Reset", "Version Negotiation"):
        packet["version"] = int(shown(fields["quic.version"]), 0)
    if "quic.packet_number" in fields and "quic.decryption_failed" not in fields:
        packet["number"] = int(shown(fields["quic.packet_number"]), 0)
        packet["frames"] = frames_of(proto)
    return packet


def datagrams(capture, keys=None):
    """Yields the number of each record with a QUIC datagram, and the datagram's packets."""
    program = subprocess.Popen(command_of(capture, keys), stdout=subprocess.PIPE, stderr=subprocess.DEVNULL)
    for _, element in ElementTree.iterparse(program.stdout):
        if element.tag == "packet":
            protos = element.findall("proto")
            record = next(int(shown(field)) for field in element.iter("field") if field.get("name") == "frame.number")
            packets = [packet_of(proto) for proto in protos if proto.get("name") == "quic"]
            if packets:
                yield record, [packet for packet in packets if packet]
            element.clear()
    if program.wait() != 0:
        raise RuntimeError(f"{capture}: tshark ended with status {program.returncode}")
