"""Whatever is written is read back, and any bytes are read or rejected: with hypothesis, if it is installed."""

import unittest

import quic_wire as q

try:
    from hypothesis import HealthCheck, given, settings
    from hypothesis import strategies as st
except ImportError:
    raise unittest.SkipTest("the package hypothesis isn't there") from None

# A machine that also does other work isn't at fault.
PATIENT = {"deadline": None, "suppress_health_check": [HealthCheck.too_slow]}
MOST = (1 << 62) - 1
EDGES = [63, 64, 16383, 16384, (1 << 30) - 1, 1 << 30, MOST]
number = st.one_of(st.integers(0, 70), st.integers(0, MOST), st.sampled_from(EDGES))
data = st.binary(max_size=80)
ranges = st.lists(st.tuples(st.integers(0, 2000), st.integers(1, 50)), min_size=1, max_size=12).map(
    lambda pairs: [range(start, start + count) for start, count in pairs]
)
counts = st.one_of(st.just({}), st.fixed_dictionaries({"ect0": number, "ect1": number, "ce": number}))
new_id = st.tuples(number, number, st.binary(min_size=1, max_size=20), st.binary(min_size=16, max_size=16)).map(
    lambda parts: q.NewConnectionId(max(parts[:2]), min(parts[:2]), *parts[2:])
)
eight = st.binary(min_size=8, max_size=8)
frame = st.one_of(
    st.builds(q.Padding, st.integers(1, 40)),
    st.builds(lambda delay, found, more: q.Ack(delay=delay, ranges=found, **more), number, ranges, counts),
    st.builds(q.NewToken, st.binary(min_size=1, max_size=60)),
    st.builds(
        lambda sid, at, fin, part: q.Stream(sid, min(at, MOST - len(part)), fin, part),
        number,
        number,
        st.booleans(),
        data,
    ),
    st.builds(lambda at, part: q.Crypto(min(at, MOST - len(part)), part), number, data),
    st.builds(q.Datagram, data),
    new_id,
    *(st.builds(kind) for kind in (q.Ping, q.HandshakeDone, q.ImmediateAck)),
    *(
        st.builds(kind, number)
        for kind in (
            q.MaxData,
            q.MaxStreamsBidi,
            q.MaxStreamsUni,
            q.DataBlocked,
            q.StreamsBlockedBidi,
            q.StreamsBlockedUni,
            q.RetireConnectionId,
        )
    ),
    *(st.builds(kind, number, number) for kind in (q.StopSending, q.MaxStreamData, q.StreamDataBlocked)),
    *(st.builds(kind, eight) for kind in (q.PathChallenge, q.PathResponse)),
    st.builds(q.ResetStream, number, number, number),
    st.builds(q.ConnectionClose, number, number, data),
    st.builds(q.ApplicationClose, number, data),
    st.builds(q.AckFrequency, number, number, number, number),
)
checks = st.one_of(st.just(q.Checks.QUINN), st.just(q.Checks.RFC), st.integers(0, 0x3FF).map(q.Checks))
value = st.one_of(st.builds(q.write_varint, number, st.sampled_from([0, 8])), st.binary(max_size=20))
parameter = st.builds(q.write_parameter, st.sampled_from([*range(0x12), 0x1B, 0x20, 0x2AB2, 0xFF04DE1B]), value)
parameter_list = st.one_of(st.binary(max_size=120), st.lists(parameter, max_size=4).map(b"".join))


def merged(frames):
    """As they are read: consecutive PADDING frames are one."""
    out = []
    for one in frames:
        if out and isinstance(one, q.Padding) and isinstance(out[-1], q.Padding):
            out[-1] = q.Padding(out[-1].count + one.count)
        else:
            out.append(one)
    return out


class Written(unittest.TestCase):
    @settings(max_examples=400, **PATIENT)
    @given(st.lists(frame, min_size=1, max_size=6))
    def test_frames_are_read_as_they_were_written(self, frames):
        payload = q.write_frames(frames)
        self.assertEqual(q.read_frames(payload), merged(frames))
        self.assertEqual(list(q.frames(payload, checks=q.Checks.SHORT_TYPES)), merged(frames))
        self.assertEqual(q.canonical(payload), payload)

    @settings(max_examples=400, **PATIENT)
    @given(st.lists(frame, min_size=1, max_size=6), checks)
    def test_frames_are_read_by_the_rules_with_which_they_were_written(self, frames, checks):
        try:
            payload = q.write_frames(frames, checks=checks)
        except q.FrameError as error:
            with self.assertRaises(q.FrameError) as caught:
                q.read_frames(q.write_frames(frames), checks=checks)
            read = caught.exception
            self.assertEqual((read.reason, read.code, read.section), (error.reason, error.code, error.section))
        else:
            self.assertEqual(payload, q.write_frames(frames))
            self.assertEqual(q.read_frames(payload, checks=checks), merged(frames))
            self.assertEqual(q.canonical(payload, checks=checks), payload)

    @settings(max_examples=800, **PATIENT)
    @given(st.binary(max_size=200), checks)
    def test_any_payload_is_read_or_rejected(self, payload, checks):
        try:
            found = q.read_frames(payload, checks=checks)
        except q.FrameError as error:
            self.assertEqual(error.frames[-1].end if error.frames else 0, error.offset)
            self.assertTrue(error.section and error.code)
            if payload:
                self.assertTrue(error.offset <= error.field_offset <= len(payload))
            with self.assertRaises(q.FrameError) as caught:
                q.canonical(payload, checks=checks)
            self.assertEqual((caught.exception.offset, caught.exception.reason), (error.offset, error.reason))
        else:
            self.assertEqual((found[0].begin, found[-1].end), (0, len(payload)))
            short = q.canonical(payload, checks=checks)
            self.assertLessEqual(len(short), len(payload))
            self.assertEqual(q.read_frames(short, checks=checks), merged(found))
            self.assertEqual(q.write_frames(found, checks=checks), short)

    @settings(max_examples=800, **PATIENT)
    @given(st.binary(max_size=120), st.integers(0, 20), checks)
    def test_any_datagram_is_read_or_rejected(self, datagram, cid_len, checks):
        try:
            found = q.read_packets(datagram, cid_len, checks=checks)
        except q.PacketError as error:
            found = error.packets
            self.assertTrue(error.section and error.offset == (found[-1].end if found else 0))
            if datagram[error.offset :]:
                self.assertTrue(error.offset <= error.field_offset <= len(datagram))
        end = 0
        for packet in found:
            self.assertEqual((packet.begin, len(packet.data)), (end, packet.end - packet.begin))
            end = packet.end

    @settings(max_examples=800, **PATIENT)
    @given(parameter_list, st.sampled_from(list(q.Side)), checks)
    def test_any_parameters_are_read_or_rejected(self, data, side, checks):
        try:
            read = q.TransportParameters.read(side, data, checks=checks)
        except q.ParameterError as error:
            self.assertTrue(error.why and 0 <= error.offset < len(data))
            self.assertEqual(error.code, q.Code.TRANSPORT_PARAMETER_ERROR)
            if error.value is not None:
                entry = next(one for one in q.parameters(data) if one.begin == error.offset)
                self.assertEqual((entry.id, entry.name, entry.value), (error.id, error.name, error.value))
        else:
            self.assertEqual(q.TransportParameters.read(side, read.write(q.Side(1 - side))), read)

    @settings(max_examples=300, **PATIENT)
    @given(number)
    def test_numbers_are_read_as_they_were_written(self, value):
        written = q.write_varint(value)
        self.assertEqual(q.read_varint(b"\0" + written, 1), (value, 1 + len(written)))
        self.assertEqual(q.varint_len(value), len(written))

    @settings(max_examples=300, **PATIENT)
    @given(st.integers(1, MOST - (1 << 32)), st.integers(0, 1 << 30))
    def test_packet_numbers_are_expanded_to_what_they_were(self, value, back):
        acked = max(0, value - back - 1)
        length = q.packet_number_len(value, acked)
        written = q.read_packet_number(q.write_packet_number(value, length), length)
        self.assertEqual(q.expand_packet_number(written, length, acked + 1), value)


if __name__ == "__main__":
    unittest.main()
