// A driver for the wire layer of quic-go: internal/wire and internal/protocol, called as in the loop of connection.go,
// in a 1-RTT packet, with DATAGRAM and ACK frequency. It must be in a folder of quic-go's module (build), whose
// internal packages it imports.
package main

import (
	"bufio"
	"encoding/hex"
	"encoding/json"
	"errors"
	"fmt"
	"io"
	"math"
	"os"
	"strconv"
	"strings"
	"time"

	"github.com/quic-go/quic-go/internal/protocol"
	"github.com/quic-go/quic-go/internal/qerr"
	"github.com/quic-go/quic-go/internal/wire"
	"github.com/quic-go/quic-go/quicvarint"
)

// What was read: an object's fields by the RFC's names.
type item map[string]any

var codes = map[qerr.TransportErrorCode]string{
	qerr.FrameEncodingError:      "FRAME_ENCODING_ERROR",
	qerr.ProtocolViolation:       "PROTOCOL_VIOLATION",
	qerr.TransportParameterError: "TRANSPORT_PARAMETER_ERROR",
}

func code(err error) string {
	var transport *qerr.TransportError
	if name := ""; errors.As(err, &transport) {
		if name = codes[transport.ErrorCode]; name != "" {
			return name
		}
	}
	return "?"
}

func number[T ~int | ~int64 | ~uint | ~uint64 | ~uint8](value T) string {
	return fmt.Sprint(uint64(value))
}

func flag(is bool) string {
	if is {
		return "1"
	}
	return "0"
}

func direction(isUni bool) string {
	if isUni {
		return "unidirectional"
	}
	return "bidirectional"
}

func valid(read any) string {
	text, err := json.Marshal(read)
	if err != nil {
		panic(err)
	}
	return "valid " + string(text)
}

func refused(code string, at int, before []item) string {
	text, err := json.Marshal(item{"at": at, "before": before})
	if err != nil {
		panic(err)
	}
	return "invalid " + code + " " + string(text)
}

// The greatest delay that a Duration holds stands for all above it.
func ack(f *wire.AckFrame, hasCounts bool) item {
	ranges := [][2]string{}
	for _, r := range f.AckRanges {
		ranges = append(ranges, [2]string{number(r.Smallest), number(r.Largest)})
	}
	read := item{"type": "ACK", "ranges": ranges}
	if f.DelayTime != math.MaxInt64 {
		read["ack_delay"] = number(f.DelayTime / time.Microsecond)
	}
	if hasCounts {
		read["ect0_count"], read["ect1_count"] = number(f.ECT0), number(f.ECT1)
		read["ecn_ce_count"] = number(f.ECNCE)
	}
	return read
}

func closing(f *wire.ConnectionCloseFrame) item {
	reason := hex.EncodeToString([]byte(f.ReasonPhrase))
	read := item{"type": "CONNECTION_CLOSE", "layer": "application", "error_code": number(f.ErrorCode),
		"reason_phrase": reason}
	if !f.IsApplicationError {
		read["layer"], read["frame_type"] = "transport", number(f.FrameType)
	}
	return read
}

// Frames that have data.
func withData(frame any) item {
	switch f := frame.(type) {
	case *wire.CryptoFrame:
		return item{"type": "CRYPTO", "offset": number(f.Offset), "crypto_data": hex.EncodeToString(f.Data)}
	case *wire.NewTokenFrame:
		return item{"type": "NEW_TOKEN", "token": hex.EncodeToString(f.Token)}
	case *wire.StreamFrame:
		return item{"type": "STREAM", "stream_id": number(f.StreamID), "offset": number(f.Offset), "fin": flag(f.Fin),
			"stream_data": hex.EncodeToString(f.Data)}
	case *wire.NewConnectionIDFrame:
		return item{"type": "NEW_CONNECTION_ID", "sequence_number": number(f.SequenceNumber),
			"retire_prior_to": number(f.RetirePriorTo), "connection_id": hex.EncodeToString(f.ConnectionID.Bytes()),
			"stateless_reset_token": hex.EncodeToString(f.StatelessResetToken[:])}
	case *wire.PathChallengeFrame:
		return item{"type": "PATH_CHALLENGE", "data": hex.EncodeToString(f.Data[:])}
	case *wire.PathResponseFrame:
		return item{"type": "PATH_RESPONSE", "data": hex.EncodeToString(f.Data[:])}
	case *wire.DatagramFrame:
		return item{"type": "DATAGRAM", "datagram_data": hex.EncodeToString(f.Data)}
	case *wire.ConnectionCloseFrame:
		return closing(f)
	}
	return item{"type": fmt.Sprintf("%T", frame)}
}

// Frames that are a limit; nil for others.
func limits(frame any, kind wire.FrameType) item {
	switch f := frame.(type) {
	case *wire.MaxDataFrame:
		return item{"type": "MAX_DATA", "maximum_data": number(f.MaximumData)}
	case *wire.MaxStreamDataFrame:
		return item{"type": "MAX_STREAM_DATA", "stream_id": number(f.StreamID),
			"maximum_stream_data": number(f.MaximumStreamData)}
	case *wire.MaxStreamsFrame:
		return item{"type": "MAX_STREAMS", "direction": direction(kind == wire.FrameTypeUniMaxStreams),
			"maximum_streams": number(f.MaxStreamNum)}
	case *wire.DataBlockedFrame:
		return item{"type": "DATA_BLOCKED", "maximum_data": number(f.MaximumData)}
	case *wire.StreamDataBlockedFrame:
		return item{"type": "STREAM_DATA_BLOCKED", "stream_id": number(f.StreamID),
			"maximum_stream_data": number(f.MaximumStreamData)}
	case *wire.StreamsBlockedFrame:
		return item{"type": "STREAMS_BLOCKED", "direction": direction(kind == wire.FrameTypeUniStreamBlocked),
			"maximum_streams": number(f.StreamLimit)}
	}
	return nil
}

func shown(frame any, kind wire.FrameType) item {
	switch f := frame.(type) {
	case *wire.PingFrame:
		return item{"type": "PING"}
	case *wire.HandshakeDoneFrame:
		return item{"type": "HANDSHAKE_DONE"}
	case *wire.ImmediateAckFrame:
		return item{"type": "IMMEDIATE_ACK"}
	case *wire.AckFrame:
		return ack(f, kind == wire.FrameTypeAckECN)
	case *wire.ResetStreamFrame:
		return item{"type": "RESET_STREAM", "stream_id": number(f.StreamID),
			"application_protocol_error_code": number(f.ErrorCode), "final_size": number(f.FinalSize)}
	case *wire.StopSendingFrame:
		return item{"type": "STOP_SENDING", "stream_id": number(f.StreamID),
			"application_protocol_error_code": number(f.ErrorCode)}
	case *wire.RetireConnectionIDFrame:
		return item{"type": "RETIRE_CONNECTION_ID", "sequence_number": number(f.SequenceNumber)}
	case *wire.AckFrequencyFrame:
		return item{"type": "ACK_FREQUENCY", "sequence_number": number(f.SequenceNumber),
			"ack_eliciting_threshold": number(f.AckElicitingThreshold), "reordering_threshold": number(f.ReorderingThreshold),
			"requested_max_ack_delay": number(f.RequestMaxAckDelay / time.Microsecond)}
	}
	if read := limits(frame, kind); read != nil {
		return read
	}
	return withData(frame)
}

// How many bytes of PADDING a payload begins with, which ParseType skips.
func padding(data []byte) int {
	count := 0
	for {
		kind, n, err := quicvarint.Parse(data[count:])
		if err != nil || kind != 0 {
			return count
		}
		count += n
	}
}

func next(p *wire.FrameParser, kind wire.FrameType, data []byte) (any, int, error) {
	level, version := protocol.Encryption1RTT, protocol.Version1
	switch {
	case kind.IsStreamFrameType():
		return wrapped(p.ParseStreamFrame(kind, data, version))
	case kind.IsAckFrameType():
		return wrapped(p.ParseAckFrame(kind, data, level, version))
	case kind.IsDatagramFrameType():
		return wrapped(p.ParseDatagramFrame(kind, data, version))
	}
	return wrapped(p.ParseLessCommonFrame(kind, data, version))
}

func wrapped[F any](frame F, n int, err error) (any, int, error) { return frame, n, err }

func readPayload(payload []byte) string {
	read := []item{}
	if len(payload) == 0 {
		return refused("PROTOCOL_VIOLATION", 0, read) // handleUnpackedShortHeaderPacket: empty packet
	}
	parser := wire.NewFrameParser(true, false, true)
	parser.SetAckDelayExponent(0)
	for at := 0; at < len(payload); {
		if count := padding(payload[at:]); count > 0 {
			read = append(read, item{"type": "PADDING", "count": number(count)})
			at += count
		}
		kind, n, err := parser.ParseType(payload[at:], protocol.Encryption1RTT)
		if err == io.EOF {
			break
		}
		var frame any
		m := 0
		if err == nil {
			frame, m, err = next(parser, kind, payload[at+n:])
		}
		if err != nil {
			return refused(code(err), at, read)
		}
		read = append(read, shown(frame, kind))
		at += n + m
	}
	return valid(read)
}

func readParameters(list []byte, fromClient bool) string {
	sender := protocol.PerspectiveServer
	if fromClient {
		sender = protocol.PerspectiveClient
	}
	var p wire.TransportParameters
	if err := p.Unmarshal(list, sender); err != nil {
		return "invalid " + code(err)
	}
	read := item{"?": "", "initial_max_data": number(p.InitialMaxData),
		"initial_max_stream_data_bidi_local":  number(p.InitialMaxStreamDataBidiLocal),
		"initial_max_stream_data_bidi_remote": number(p.InitialMaxStreamDataBidiRemote),
		"initial_max_stream_data_uni":         number(p.InitialMaxStreamDataUni),
		"initial_max_streams_bidi":            number(p.MaxBidiStreamNum),
		"initial_max_streams_uni":             number(p.MaxUniStreamNum),
		"ack_delay_exponent":                  number(p.AckDelayExponent),
		"max_ack_delay":                       number(p.MaxAckDelay / time.Millisecond),
		"active_connection_id_limit":          number(p.ActiveConnectionIDLimit),
		"initial_source_connection_id":        hex.EncodeToString(p.InitialSourceConnectionID.Bytes())}
	if p.MaxUDPPayloadSize != protocol.MaxByteCount { // that stands for none
		read["max_udp_payload_size"] = number(p.MaxUDPPayloadSize)
	}
	if p.MaxDatagramFrameSize != protocol.InvalidByteCount {
		read["max_datagram_frame_size"] = number(p.MaxDatagramFrameSize)
	}
	if p.DisableActiveMigration {
		read["disable_active_migration"] = "1"
	}
	if p.RetrySourceConnectionID != nil {
		read["retry_source_connection_id"] = hex.EncodeToString(p.RetrySourceConnectionID.Bytes())
	}
	if p.StatelessResetToken != nil {
		read["stateless_reset_token"] = hex.EncodeToString(p.StatelessResetToken[:])
	}
	if p.PreferredAddress != nil {
		read["preferred_connection_id"] = hex.EncodeToString(p.PreferredAddress.ConnectionID.Bytes())
		read["preferred_stateless_reset_token"] = hex.EncodeToString(p.PreferredAddress.StatelessResetToken[:])
	}
	return valid(read)
}

var packets = map[protocol.PacketType]string{
	protocol.PacketTypeInitial: "Initial", protocol.PacketType0RTT: "0-RTT",
	protocol.PacketTypeHandshake: "Handshake", protocol.PacketTypeRetry: "Retry",
}

// A packet with a long header, and what follows it; none if it is rejected.
func longPacket(data []byte, begin int) (item, []byte, bool) {
	if wire.IsVersionNegotiationPacket(data) {
		dst, src, versions, err := wire.ParseVersionNegotiationPacket(data)
		supported := []string{}
		for _, version := range versions {
			supported = append(supported, fmt.Sprintf("%08x", uint32(version)))
		}
		return item{"type": "Version Negotiation", "dcid": hex.EncodeToString(dst), "scid": hex.EncodeToString(src),
			"supported_versions": supported}, nil, err == nil
	}
	header, _, rest, err := wire.ParsePacket(data)
	if errors.Is(err, wire.ErrUnsupportedVersion) {
		_, dst, src, err := wire.ParseArbitraryLenConnectionIDs(data)
		ids := item{"type": "unknown version", "dcid": hex.EncodeToString(dst), "scid": hex.EncodeToString(src)}
		return ids, nil, err == nil
	}
	if err != nil {
		return nil, nil, false
	}
	read := item{"type": packets[header.Type], "version": fmt.Sprintf("%08x", uint32(header.Version)),
		"dcid": hex.EncodeToString(header.DestConnectionID.Bytes()),
		"scid": hex.EncodeToString(header.SrcConnectionID.Bytes())}
	switch header.Type {
	case protocol.PacketTypeRetry:
		read["retry_token"] = hex.EncodeToString(header.Token)
		return read, nil, true
	case protocol.PacketTypeInitial:
		read["token"] = hex.EncodeToString(header.Token)
	}
	at := begin + int(header.ParsedLen())
	read["packet_number_at"], read["end"] = number(at), number(at+int(header.Length))
	return read, rest, true
}

func readDatagram(datagram []byte, idLen int) string {
	read := []item{}
	for data := datagram; len(data) > 0; {
		begin := len(datagram) - len(data)
		if !wire.IsLongHeaderPacket(data[0]) {
			id, err := wire.ParseConnectionID(data, idLen)
			if err != nil || data[0]&0x40 == 0 {
				return refused("DROP", begin, read)
			}
			end := number(len(datagram))
			read = append(read, item{"type": "1-RTT", "dcid": hex.EncodeToString(id.Bytes()), "end": end})
			break
		}
		packet, rest, isRead := longPacket(data, begin)
		if !isRead {
			return refused("DROP", begin, read)
		}
		read, data = append(read, packet), rest
	}
	return valid(read)
}

func expanded(words map[string]string) string {
	largest := protocol.InvalidPacketNumber
	if words["largest"] != "-" {
		largest = protocol.PacketNumber(integer(words["largest"]))
	}
	bits, written := integer(words["bits"]), integer(words["written"])
	size, truncated := protocol.PacketNumberLen(bits/8), protocol.PacketNumber(written)
	return valid(number(protocol.DecodePacketNumber(size, largest, truncated)))
}

func integer(digits string) uint64 {
	value, err := strconv.ParseUint(digits, 10, 64)
	if err != nil {
		panic(err)
	}
	return value
}

func readVarint(data []byte) string {
	value, n, err := quicvarint.Parse(data)
	if err != nil {
		return "invalid"
	}
	return valid(fmt.Sprintf("%d %d", value, n))
}

func writeVarint(digits string) string {
	if value := integer(digits); value <= quicvarint.Max {
		return valid(hex.EncodeToString(quicvarint.Append(nil, value)))
	}
	return "invalid"
}

func answer(form string, words map[string]string, digits string) string {
	known := map[string]bool{"": true, "datagram": true, "ack-frequency": true, "version-2": true}
	_, isOfPacket := words["packet"]
	if isOfPacket || words["strict"] != "" || words["grease"] != "" || words["versions"] != "" {
		return "skip"
	}
	if !known[words["extension"]] || words["without"] != "" {
		return "skip"
	}
	if form == "varint-write" {
		return writeVarint(digits)
	}
	data, err := hex.DecodeString(strings.ReplaceAll(digits, "-", ""))
	if err != nil {
		panic(err)
	}
	idLen := 8
	if words["cid_len"] != "" {
		idLen = int(integer(words["cid_len"]))
	}
	switch form {
	case "payload":
		return readPayload(data)
	case "params":
		return readParameters(data, words["from"] == "client")
	case "datagram":
		return readDatagram(data, idLen)
	case "number-expand":
		return expanded(words)
	case "varint-read":
		return readVarint(data)
	}
	return "skip"
}

func main() {
	in := bufio.NewReader(os.Stdin)
	for {
		line, err := in.ReadString('\n')
		fields := strings.Fields(line)
		if err != nil || len(fields) != 3 {
			return
		}
		words := map[string]string{}
		for _, word := range strings.Split(fields[1], ",") {
			name, value, _ := strings.Cut(word, "=")
			words[name] = value
		}
		fmt.Println(answer(fields[0], words, fields[2]))
	}
}
