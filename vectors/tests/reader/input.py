"""Bytes that are read, integers of variable length (RFC 9000, section 16), and what rejects them."""

FEE, PV, TPE = "FRAME_ENCODING_ERROR", "PROTOCOL_VIOLATION", "TRANSPORT_PARAMETER_ERROR"
DROP = "DROP"


class Rejected(Exception):
    """What was read breaks a rule: the code to close with, or DROP."""


class Input:
    """Bytes that are read from the front."""

    def __init__(self, data, code):
        self.data, self.code, self.at = data, code, 0

    def left(self):
        return len(self.data) - self.at

    def take(self, count):
        if count > self.left():
            raise Rejected(self.code)
        self.at += count
        return self.data[self.at - count : self.at]

    def rest(self):
        return self.take(self.left())

    def byte(self):
        return self.take(1)[0]

    def integer(self):
        first = self.byte()
        return int.from_bytes(bytes([first & 0x3F]) + self.take((1 << (first >> 6)) - 1), "big")

    def counted(self):
        return self.take(self.integer())


MOST = (1 << 62) - 1
MOST_STREAMS = 1 << 60


def varint(number):
    for power, bits in enumerate((6, 14, 30, 62)):
        if number < 1 << bits:
            return (number | power << (8 << power) - 2).to_bytes(1 << power, "big")
    raise Rejected(DROP)
