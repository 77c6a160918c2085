// Package avrogate rewrites Avro messages from their writer's schema into a reader's, by libavrogate.
//
// cgo finds the library by pkg-config, as PKG_CONFIG_PATH=FOLDER/lib/pkgconfig tells it.
package avrogate

/*
#cgo pkg-config: avrogate
#include <avrogate.h>
*/
import "C"

import (
	"fmt"
	"runtime"
	"sync"
	"unsafe"
)

// Status is what a call comes to.
type Status uint32

// The statuses.
const (
	OK              Status = C.AVROGATE_OK
	RoomTooSmall    Status = C.AVROGATE_ROOM_TOO_SMALL
	Mismatched      Status = C.AVROGATE_MISMATCH
	Malformed       Status = C.AVROGATE_MALFORMED
	OutputTooLarge  Status = C.AVROGATE_OUTPUT_TOO_LARGE
	PayloadTooLarge Status = C.AVROGATE_PAYLOAD_TOO_LARGE
	NoMemory        Status = C.AVROGATE_NO_MEMORY
	Closed          Status = C.AVROGATE_CLOSED
	BadWriter       Status = C.AVROGATE_BAD_WRITER
	BadReader       Status = C.AVROGATE_BAD_READER
	ProgramTooLarge Status = C.AVROGATE_PROGRAM_TOO_LARGE
	CannotRead      Status = C.AVROGATE_CANNOT_READ
	BadEnvelope     Status = C.AVROGATE_BAD_ENVELOPE
	OtherWriter     Status = C.AVROGATE_OTHER_WRITER
	OutOfRange      Status = C.AVROGATE_OUT_OF_RANGE
)

// String returns the library's words for a status.
func (s Status) String() string {
	var room [64]C.char
	length := C.avrogate_status_text(C.uint32_t(s), &room[0], C.size_t(len(room)))
	return C.GoStringN(&room[0], C.int(length))
}

var mismatches = map[uint32]string{
	C.AVROGATE_NO_MATCH: "NoMatch", C.AVROGATE_NO_BRANCH: "NoBranch", C.AVROGATE_NO_SYMBOL: "NoSymbol",
	C.AVROGATE_NO_DEFAULT: "NoDefault", C.AVROGATE_BYTES_NOT_TEXT: "BytesNotText",
}

var malformed = map[uint32]string{
	C.AVROGATE_BAD_NUMBER: "BadNumber", C.AVROGATE_BAD_BOOLEAN: "BadBoolean", C.AVROGATE_BAD_LENGTH: "BadLength",
	C.AVROGATE_BAD_TEXT: "BadText", C.AVROGATE_BAD_ENUM: "BadEnum", C.AVROGATE_BAD_BRANCH: "BadBranch",
	C.AVROGATE_BAD_BLOCK: "BadBlock", C.AVROGATE_TOO_DEEP: "TooDeep", C.AVROGATE_TOO_MANY: "TooMany",
	C.AVROGATE_TRUNCATED: "Truncated", C.AVROGATE_TRAILING: "Trailing",
}

var faults = map[uint32]string{
	C.AVROGATE_SCHEMA_TOO_LARGE: "TooLarge", C.AVROGATE_SCHEMA_NOT_JSON: "NotJson",
	C.AVROGATE_SCHEMA_BAD_NUMBER: "BadNumber", C.AVROGATE_SCHEMA_UNKNOWN: "Unknown",
	C.AVROGATE_SCHEMA_OUT_OF_PROFILE: "OutOfProfile", C.AVROGATE_SCHEMA_BAD_NAME: "BadName",
	C.AVROGATE_SCHEMA_REDEFINED: "Redefined", C.AVROGATE_SCHEMA_BAD_UNION: "BadUnion",
	C.AVROGATE_SCHEMA_BAD_SYMBOLS: "BadSymbols", C.AVROGATE_SCHEMA_BAD_DEFAULT: "BadDefault",
	C.AVROGATE_SCHEMA_NOT_UTF8: "NotUtf8",
}

// Error is why a call has no answer. Which of its parts count says its Status.
type Error struct {
	Status Status
	// Kind names the kind of a mismatch or of what is malformed, or the fault of a schema's text.
	Kind string
	// Offset is where in the payload its first fault is.
	Offset int
	// WriterNode and ReaderNode are numbers of types, in the order in which they appear in the schemas.
	WriterNode, ReaderNode int
	// WriterID is the id of another writer.
	WriterID uint32
}

func (e *Error) Error() string {
	words := "avrogate: " + e.Status.String()
	switch e.Status {
	case Malformed:
		return fmt.Sprintf("%s: %s at %d", words, e.Kind, e.Offset)
	case Mismatched:
		return fmt.Sprintf("%s: %s, types %d and %d", words, e.Kind, e.WriterNode, e.ReaderNode)
	case OtherWriter:
		return fmt.Sprintf("%s: %d", words, e.WriterID)
	case BadWriter, BadReader:
		return words + ": " + e.Kind
	}
	return words
}

func errorOf(report *C.avrogate_report) error {
	e := &Error{
		Status: Status(report.status), Offset: int(report.offset), WriterNode: int(report.writer_node),
		ReaderNode: int(report.reader_node), WriterID: uint32(report.writer_id),
	}
	switch e.Status {
	case Malformed:
		e.Kind = malformed[uint32(report.kind)]
	case Mismatched:
		e.Kind = mismatches[uint32(report.kind)]
	}
	return e
}

// Transcoder is the program of one pair of schemas. Goroutines may share one: its calls take turns.
type Transcoder struct {
	lock sync.Mutex
	held C.avrogate_transcoder
	room []byte
}

// textOf returns the bytes of a text as C has them; they stand as long as the text does.
func textOf(text []byte) (*C.char, C.size_t) {
	bytes, length := bytesOf(text)
	return (*C.char)(unsafe.Pointer(bytes)), length
}

func bytesOf(b []byte) (*C.uint8_t, C.size_t) {
	if len(b) == 0 {
		return nil, 0
	}
	return (*C.uint8_t)(unsafe.Pointer(&b[0])), C.size_t(len(b))
}

// Open returns the transcoder of a pair of schemas, by their texts. It is to be closed.
func Open(writer, reader string) (*Transcoder, error) {
	t := &Transcoder{room: make([]byte, 4096)}
	w, wLength := textOf([]byte(writer))
	r, rLength := textOf([]byte(reader))
	var fault C.uint32_t
	status := Status(C.avrogate_open(&t.held, w, wLength, r, rLength, &fault))
	if status != OK {
		return nil, &Error{Status: status, Kind: faults[uint32(fault)]}
	}
	runtime.SetFinalizer(t, (*Transcoder).Close)
	return t, nil
}

// Close gives its memory back. A later call tells Closed.
func (t *Transcoder) Close() {
	t.lock.Lock()
	defer t.lock.Unlock()
	C.avrogate_close(&t.held)
	runtime.SetFinalizer(t, nil)
}

// Transcode appends the reader's encoding of a payload to dst, and returns that.
func (t *Transcoder) Transcode(dst, payload []byte) ([]byte, error) {
	bytes, length := bytesOf(payload)
	return t.append(dst, func(room *C.uint8_t, roomLength C.size_t, report *C.avrogate_report) {
		C.avrogate_transcode(&t.held, bytes, length, room, roomLength, report)
	})
}

// TranscodeMessage appends the reader's message of a writer's to dst, in the wire format of Confluent's registry.
func (t *Transcoder) TranscodeMessage(dst []byte, writerID, readerID uint32, message []byte) ([]byte, error) {
	bytes, length := bytesOf(message)
	return t.append(dst, func(room *C.uint8_t, roomLength C.size_t, report *C.avrogate_report) {
		w, r := C.uint32_t(writerID), C.uint32_t(readerID)
		C.avrogate_transcode_message(&t.held, w, r, bytes, length, room, roomLength, report)
	})
}

// append has a call write into the transcoder's room, which grows where it is too small.
func (t *Transcoder) append(dst []byte, call func(*C.uint8_t, C.size_t, *C.avrogate_report)) ([]byte, error) {
	t.lock.Lock()
	defer t.lock.Unlock()
	var report C.avrogate_report
	for {
		room, length := bytesOf(t.room)
		call(room, length, &report)
		switch Status(report.status) {
		case OK:
			return append(dst, t.room[:report.length]...), nil
		case RoomTooSmall:
			t.room = make([]byte, report.length)
		default:
			return dst, errorOf(&report)
		}
	}
}

// Result is what became of one payload of a batch: its output, or why there is none.
type Result struct {
	Output []byte
	Err    error
}

// TranscodeBatch returns what becomes of each payload, by as few calls of the library as the room for outputs allows.
func (t *Transcoder) TranscodeBatch(payloads [][]byte) ([]Result, error) {
	t.lock.Lock()
	defer t.lock.Unlock()
	results := make([]Result, len(payloads))
	waiting, need := make([]int, len(payloads)), 64
	for index, payload := range payloads {
		waiting[index] = index
		need += 2 * len(payload)
	}
	for len(waiting) > 0 {
		var err error
		if waiting, need, err = t.batch(payloads, waiting, need, results); err != nil {
			return nil, err
		}
	}
	return results, nil
}

// batch finds what it can by one call. It returns which payloads still wait, and how much room they need.
func (t *Transcoder) batch(payloads [][]byte, waiting []int, need int, results []Result) ([]int, int, error) {
	var buffer []byte
	items := make([]C.avrogate_item, len(waiting))
	for at, index := range waiting {
		items[at].payload_offset, items[at].payload_length = C.size_t(len(buffer)), C.size_t(len(payloads[index]))
		buffer = append(buffer, payloads[index]...)
	}
	if len(t.room) < need {
		t.room = make([]byte, need)
	}
	bytes, length := bytesOf(buffer)
	room, roomLength := bytesOf(t.room)
	count := C.size_t(len(items))
	status := Status(C.avrogate_transcode_batch(&t.held, bytes, length, room, roomLength, &items[0], count))
	if status != OK {
		return nil, 0, &Error{Status: status}
	}
	still, more := waiting[:0:0], 0
	for at, index := range waiting {
		item := &items[at]
		switch Status(item.report.status) {
		case OK:
			output := t.room[item.output_offset : item.output_offset+item.report.length]
			results[index].Output = append([]byte(nil), output...)
		case RoomTooSmall:
			still, more = append(still, index), more+int(item.report.length)
		default:
			results[index].Err = errorOf(&item.report)
		}
	}
	return still, more, nil
}

// CanRead tells whether the reader can read all data of the writer, but for bytes that are no UTF-8.
func CanRead(writer, reader string) (bool, error) {
	w, wLength := textOf([]byte(writer))
	r, rLength := textOf([]byte(reader))
	var fault C.uint32_t
	switch status := Status(C.avrogate_can_read(w, wLength, r, rLength, &fault)); status {
	case OK, CannotRead:
		return status == OK, nil
	default:
		return false, &Error{Status: status, Kind: faults[uint32(fault)]}
	}
}

// Version returns the version of the library.
func Version() string {
	number := uint32(C.avrogate_version())
	return fmt.Sprintf("%d.%d.%d", number/10000, number/100%100, number%100)
}
