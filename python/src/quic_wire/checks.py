"""What readers and writers check besides the encoding."""

from __future__ import annotations

import enum

from . import _wire

__all__ = ["Checks"]


class Checks(enum.IntFlag):
    """What is checked of frames, packets and transport parameters; the argument `checks` of what reads and writes them.

    QUINN, the default, has no flag: it reads as quinn-proto does. RFC has each flag except GREASED_BIT: it reads as RFC
    9000 asks of a receiver that has negotiated no extension, except that DATAGRAM frames are read. Which packets may
    carry a frame, who may send it and on which streams `Frame.check_permitted` checks. Frames that are written with RFC
    are read with it. Each call ignores the flags that aren't for it, so one value serves all. Sections are those of RFC
    9000 if no other is named.

    These flags reject more; writers check DATA_LIMIT, STREAM_LIMIT, NO_ACK_FREQUENCY and TOKENS:

    - SHORT_TYPES: a frame's type must be in its shortest encoding (section 12.4).
    - DATA_LIMIT: data of CRYPTO and STREAM must not end past 2^62 - 1 (sections 19.6 and 19.8).
    - STREAM_LIMIT: MAX_STREAMS and STREAMS_BLOCKED must not allow more than 2^60 streams (sections 19.11 and 19.14).
    - NO_ACK_FREQUENCY: the types of the ACK frequency extension are unknown, whatever follows them, as it wasn't
      negotiated (section 12.4).
    - TOKENS: the token of NEW_TOKEN must not be empty (section 19.7).
    - WHOLE_RETRY: a Retry must have a token and an integrity tag (section 17.2.5.2).
    - NO_REPEATS: no known transport parameter may be there twice (section 7.4). Without it grease_quic_bit and
      min_ack_delay may.

    These accept more:

    - ANY_VERSION: the fixed bit may be clear in version negotiations (section 17.2.1), and in versions that aren't read
      (RFC 8999, section 5.1).
    - ANY_WIDTH: integers of transport parameters may have any width (section 16). Without it those that have a default
      must be in their shortest encoding.
    - GREASED_BIT: the fixed bit may always be clear, as was negotiated (RFC 9287).

    >>> from quic_wire import Checks, FrameError, Side, TransportParameters, read_frames
    >>> checks = Checks.RFC & ~Checks.NO_ACK_FREQUENCY  # that extension was negotiated
    >>> read_frames(bytes.fromhex("1f"), checks=checks)
    [ImmediateAck()]
    >>> read_frames(bytes.fromhex("4001"), checks=checks)
    Traceback (most recent call last):
    ...
    quic_wire.errors.FrameError: frame type not in shortest form in PING at 0, Type at 0 (RFC 9000, section 12.4)
    >>> TransportParameters.read(Side.CLIENT, bytes.fromhex("04024005"), checks=checks)
    TransportParameters(initial_max_data=5)
    """

    QUINN = 0
    RFC = _wire.READ_RFC

    # Made by scripts/make/tables:
    SHORT_TYPES = _wire.READ_SHORT_TYPES
    DATA_LIMIT = _wire.READ_DATA_LIMIT
    STREAM_LIMIT = _wire.READ_STREAM_LIMIT
    NO_ACK_FREQUENCY = _wire.READ_NO_ACK_FREQUENCY
    TOKENS = _wire.READ_TOKENS
    GREASED_BIT = _wire.READ_GREASED_BIT
    ANY_VERSION = _wire.READ_ANY_VERSION
    WHOLE_RETRY = _wire.READ_WHOLE_RETRY
    ANY_WIDTH = _wire.READ_ANY_WIDTH
    NO_REPEATS = _wire.READ_NO_REPEATS
    # End of what is made.
