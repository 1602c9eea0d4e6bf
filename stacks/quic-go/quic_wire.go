package wire

// What quic-go reads by quic-wire: the frames, whose types FrameParser has
// read. RESET_STREAM_AT, which the library doesn't know, stays quic-go's.

// #include <quic_wire.h>
// #cgo noescape quic_wire_frame_body_read
// #cgo nocallback quic_wire_frame_body_read
import "C"

import (
	"encoding/binary"
	"errors"
	"io"
	"math"
	"time"

	"github.com/quic-go/quic-go/internal/protocol"
	"github.com/quic-go/quic-go/internal/qerr"
)

// What is read by RFC 9000, in any encoding of a type, as quic-go does. Whether
// frames of extensions may come FrameParser has decided.
const wireRules = C.QUIC_WIRE_READ_RFC &^ C.QUIC_WIRE_READ_NO_ACK_FREQUENCY &^ C.QUIC_WIRE_READ_SHORT_TYPES

// How many ranges of an ACK, beside its first, are read at most.
const wireMaxGaps = 64

var errManyRanges = errors.New("ACK frame has more ranges than are read")

// A wireReader reads frames. It has what the library reads into, so that
// nothing is allocated.
type wireReader struct {
	body  []byte
	frame C.quic_wire_frame
	gaps  [wireMaxGaps]C.quic_wire_gap
}

// read reads the body of a frame of a type, and returns how many bytes it has.
func (r *wireReader) read(body []byte, typ FrameType) (int, error) {
	r.body = body
	var start *C.uint8_t
	if len(body) != 0 {
		start = (*C.uint8_t)(&body[0])
	}
	n := C.quic_wire_frame_body_read(start, C.size_t(len(body)), C.uint64_t(typ), wireRules, &r.frame, &r.gaps[0], wireMaxGaps)
	if n == C.QUIC_WIRE_ERR_FRAME_END {
		return 0, io.EOF
	}
	if n < 0 {
		return 0, errors.New(C.GoString(C.quic_wire_strerror(C.int(n))))
	}
	return int(n), nil
}

func (r *wireReader) data() []byte { return r.body[r.frame.data : r.frame.data+r.frame.datalen] }

func (r *wireReader) copied() []byte { return append([]byte(nil), r.data()...) }

func (r *wireReader) number(i int) uint64 { return uint64(r.frame.numbers[i]) }

func (r *wireReader) count(i int) protocol.ByteCount { return protocol.ByteCount(r.frame.numbers[i]) }

func (r *wireReader) id() protocol.StreamID { return protocol.StreamID(r.frame.numbers[0]) }

func (r *wireReader) limit() protocol.StreamNum { return protocol.StreamNum(r.frame.numbers[1]) }

func (r *wireReader) stream(body []byte, typ FrameType) (*StreamFrame, int, error) {
	n, err := r.read(body, typ)
	if err != nil {
		return nil, 0, err
	}
	data, frame := r.data(), &StreamFrame{}
	if len(data) < protocol.MinStreamFrameBufferSize {
		frame.Data = r.copied()
	} else {
		frame = GetStreamFrame()
		if len(data) > cap(frame.Data) {
			return nil, 0, io.EOF
		}
		frame.Data = append(frame.Data[:0], data...)
	}
	frame.StreamID, frame.Offset = r.id(), r.count(1)
	frame.Fin, frame.DataLenPresent = r.frame.flags&C.QUIC_WIRE_FLAG_FIN != 0, typ&2 != 0
	return frame, n, nil
}

func (r *wireReader) ack(frame *AckFrame, body []byte, typ FrameType, exponent uint8) (int, error) {
	n, err := r.read(body, typ)
	if err != nil {
		return 0, err
	}
	if r.frame.flags&C.QUIC_WIRE_FLAG_MORE != 0 {
		return 0, errManyRanges
	}
	frame.DelayTime = time.Duration(r.number(1)<<exponent) * time.Microsecond
	if frame.DelayTime < 0 {
		frame.DelayTime = time.Duration(math.MaxInt64)
	}
	largest := protocol.PacketNumber(r.number(0))
	smallest := largest - protocol.PacketNumber(r.frame.datalen)
	frame.AckRanges = append(frame.AckRanges, AckRange{Smallest: smallest, Largest: largest})
	for _, gap := range r.gaps[:r.frame.data] {
		largest = smallest - protocol.PacketNumber(gap.gap) - 2
		smallest = largest - protocol.PacketNumber(gap.len)
		frame.AckRanges = append(frame.AckRanges, AckRange{Smallest: smallest, Largest: largest})
	}
	frame.ECT0, frame.ECT1, frame.ECNCE = r.number(2), r.number(3), r.number(4)
	return n, nil
}

func (r *wireReader) datagram(body []byte, typ FrameType) (*DatagramFrame, int, error) {
	n, err := r.read(body, typ)
	if err != nil {
		return nil, 0, err
	}
	return &DatagramFrame{DataLenPresent: typ&1 != 0, Data: r.copied()}, n, nil
}

func (r *wireReader) other(body []byte, typ FrameType, v protocol.Version) (Frame, int, error) {
	if typ == FrameTypeResetStreamAt {
		return parseResetStreamFrame(body, true, v)
	}
	n, err := r.read(body, typ)
	if err != nil {
		return nil, 0, err
	}
	frame := r.shown(typ)
	if frame == nil {
		return nil, 0, errUnknownFrameType
	}
	return frame, n, nil
}

// shown is the frame that was read, unless it is a STREAM, an ACK or a DATAGRAM.
func (r *wireReader) shown(typ FrameType) Frame {
	//nolint:exhaustive // The others are read elsewhere.
	switch typ {
	case FrameTypePing:
		return &PingFrame{}
	case FrameTypeResetStream:
		return &ResetStreamFrame{StreamID: r.id(), ErrorCode: qerr.StreamErrorCode(r.number(1)), FinalSize: r.count(2)}
	case FrameTypeStopSending:
		return &StopSendingFrame{StreamID: r.id(), ErrorCode: qerr.StreamErrorCode(r.number(1))}
	case FrameTypeCrypto:
		return &CryptoFrame{Offset: r.count(1), Data: r.copied()}
	case FrameTypeNewToken:
		return &NewTokenFrame{Token: r.copied()}
	case FrameTypeMaxData:
		return &MaxDataFrame{MaximumData: r.count(1)}
	case FrameTypeMaxStreamData:
		return &MaxStreamDataFrame{StreamID: r.id(), MaximumStreamData: r.count(1)}
	case FrameTypeBidiMaxStreams:
		return &MaxStreamsFrame{Type: protocol.StreamTypeBidi, MaxStreamNum: r.limit()}
	case FrameTypeUniMaxStreams:
		return &MaxStreamsFrame{Type: protocol.StreamTypeUni, MaxStreamNum: r.limit()}
	case FrameTypeDataBlocked:
		return &DataBlockedFrame{MaximumData: r.count(1)}
	case FrameTypeStreamDataBlocked:
		return &StreamDataBlockedFrame{StreamID: r.id(), MaximumStreamData: r.count(1)}
	case FrameTypeBidiStreamBlocked:
		return &StreamsBlockedFrame{Type: protocol.StreamTypeBidi, StreamLimit: r.limit()}
	case FrameTypeUniStreamBlocked:
		return &StreamsBlockedFrame{Type: protocol.StreamTypeUni, StreamLimit: r.limit()}
	case FrameTypeHandshakeDone:
		return &HandshakeDoneFrame{}
	case FrameTypeImmediateAck:
		return &ImmediateAckFrame{}
	}
	return r.rare(typ)
}

func (r *wireReader) rare(typ FrameType) Frame {
	//nolint:exhaustive // The others are read elsewhere.
	switch typ {
	case FrameTypeNewConnectionID:
		frame := &NewConnectionIDFrame{SequenceNumber: r.number(0), RetirePriorTo: r.number(1)}
		frame.ConnectionID = protocol.ParseConnectionID(r.data())
		copy(frame.StatelessResetToken[:], r.body[r.frame.data+r.frame.datalen:])
		return frame
	case FrameTypeRetireConnectionID:
		return &RetireConnectionIDFrame{SequenceNumber: r.number(0)}
	case FrameTypePathChallenge:
		frame := &PathChallengeFrame{}
		binary.BigEndian.PutUint64(frame.Data[:], r.number(0))
		return frame
	case FrameTypePathResponse:
		frame := &PathResponseFrame{}
		binary.BigEndian.PutUint64(frame.Data[:], r.number(0))
		return frame
	case FrameTypeConnectionClose, FrameTypeApplicationClose:
		return &ConnectionCloseFrame{
			IsApplicationError: typ == FrameTypeApplicationClose,
			ErrorCode:          r.number(0),
			FrameType:          r.number(1),
			ReasonPhrase:       string(r.data()),
		}
	case FrameTypeAckFrequency:
		return &AckFrequencyFrame{
			SequenceNumber:        r.number(0),
			AckElicitingThreshold: r.number(1),
			RequestMaxAckDelay:    time.Duration(r.number(2)) * time.Microsecond,
			ReorderingThreshold:   protocol.PacketNumber(r.number(3)),
		}
	}
	return nil
}
