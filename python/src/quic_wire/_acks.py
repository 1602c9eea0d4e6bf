"""What an ACK says of packets in flight."""

from __future__ import annotations

from ._wire import Ack, RangeSet


def acknowledged(in_flight: RangeSet, ack: Ack) -> RangeSet:
    """The numbers of a set that an ACK acknowledges (RFC 9000, section 19.3).

    If the set has the packets in flight, they are newly acknowledged (RFC 9002, appendix A.7): remove them from it. It
    takes one pass over both.
    """
    own, theirs = list(RangeSet(in_flight)), list(RangeSet(ack))
    both, i, j = [], 0, 0
    while i < len(own) and j < len(theirs):
        start, stop = max(own[i].start, theirs[j].start), min(own[i].stop, theirs[j].stop)
        if start < stop:
            both.append(range(start, stop))
        if own[i].stop < theirs[j].stop:
            i += 1
        else:
            j += 1
    return RangeSet(both)
