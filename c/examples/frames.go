// Prints the frames of payloads, given as lines of hexadecimal, as frames.c
// does, from Go. To build and run it:
//
//	export CGO_CFLAGS=-IPREFIX/include CGO_LDFLAGS=PREFIX/lib/libquic_wire.a
//	go build -o frames frames.go
//	echo 40000a000161 | ./frames
//
// From Go 1.24 on, lines such as `#cgo noescape quic_wire_frames_next` and
// `#cgo nocallback quic_wire_frames_next` keep what a call is given on the
// stack. A call from Go takes some 60 ns more than one from C, so a stack reads
// many frames with one call of quic_wire_frames_fill.
package main

// #cgo CFLAGS: -O2 -DQUIC_WIRE_PLAIN
// #include <quic_wire.h>
import "C"

import (
	"bufio"
	"encoding/hex"
	"fmt"
	"os"
)

// Reader reads the frames of a payload. Its structs have no pointers, so Go may
// keep them, and nothing is allocated.
type Reader struct {
	payload []byte
	frames  C.quic_wire_frame_iter
	Frame   C.quic_wire_frame // the frame that Next read
}

// Init begins at the front of a payload, which has room for another byte.
func (r *Reader) Init(payload []byte, flags uint32) C.int {
	r.payload = payload
	return C.quic_wire_frames_init(&r.frames, r.start(), C.size_t(len(payload)), C.uint32_t(flags))
}

// Next reads the next frame. It returns QUIC_WIRE_ITEM; QUIC_WIRE_OK after the
// last frame; or why the frame is invalid.
func (r *Reader) Next() C.int {
	return C.quic_wire_frames_next(&r.frames, r.start(), C.size_t(len(r.payload)), &r.Frame)
}

// Data is what the frame carries: a token, the data of a stream, an id, a reason.
func (r *Reader) Data() []byte {
	return r.payload[r.Frame.data : r.Frame.data+r.Frame.datalen]
}

// Go has no address of the first byte of none; the library doesn't read it then.
func (r *Reader) start() *C.uint8_t { return (*C.uint8_t)(&r.payload[:1][0]) }

func name(frameType C.uint64_t) string {
	if name := C.quic_wire_type_name(frameType); name != nil {
		return C.GoString(name)
	}
	return fmt.Sprintf("<unknown %x>", uint64(frameType))
}

func printFrames(payload []byte) {
	var r Reader
	answer := r.Init(payload, 0)
	if answer < 0 {
		fmt.Println("error", C.GoString(C.quic_wire_strerror(answer)))
		return
	}
	for answer = r.Next(); answer == C.QUIC_WIRE_ITEM; answer = r.Next() {
		fmt.Printf("%d..%d %s\n", r.Frame.begin, r.Frame.end, name(C.uint64_t(r.Frame.kind)))
	}
	if answer < 0 {
		fmt.Print("error ", C.GoString(C.quic_wire_strerror(answer)))
		if t := C.quic_wire_error_type(&r.Frame); t != C.QUIC_WIRE_NO_TYPE {
			fmt.Print(" in ", name(t))
		}
		fmt.Println()
	}
}

func main() {
	lines := bufio.NewScanner(os.Stdin)
	lines.Buffer(nil, 1<<20)
	for lines.Scan() {
		payload := make([]byte, len(lines.Text())/2+1)
		n, err := hex.Decode(payload, lines.Bytes())
		if err != nil {
			fmt.Println("error not hexadecimal")
			continue
		}
		printFrames(payload[:n])
	}
	if err := lines.Err(); err != nil {
		fmt.Fprintln(os.Stderr, err)
		os.Exit(3)
	}
}
