package avrogate

import (
	"bufio"
	"encoding/hex"
	"errors"
	"fmt"
	"os"
	"strconv"
	"strings"
	"sync"
	"testing"
)

const (
	writer = `{"type":"record","name":"T","fields":[{"name":"a","type":"long"},{"name":"b","type":"string"}]}`
	reader = `{"type":"record","name":"T","fields":[{"name":"b","type":["null","string"]},` +
		`{"name":"c","type":"int","default":7}]}`
	payload = "\x36\x06foo"
	output  = "\x02\x06foo\x0e"
)

// line returns the answer that a call's result stands for.
func line(output []byte, err error) string {
	var e *Error
	if !errors.As(err, &e) {
		return done(output)
	}
	switch e.Status {
	case BadWriter:
		return "bad schema 1 " + e.Kind
	case BadReader:
		return "bad schema 2 " + e.Kind
	case Malformed:
		return fmt.Sprintf("malformed %s at %d", e.Kind, e.Offset)
	case Mismatched:
		return fmt.Sprintf("mismatch %s %d %d", e.Kind, e.WriterNode, e.ReaderNode)
	}
	return e.Error()
}

func done(output []byte) string {
	if len(output) == 0 {
		return "done -"
	}
	return "done " + hex.EncodeToString(output)
}

// pair is a pair of schemas with payloads and answers, as the file of cases has it.
type pair struct {
	writer, reader string
	payloads       [][]byte
	answers        []string
}

func cases(t *testing.T) []pair {
	file, err := os.Open(os.Getenv("CASES"))
	if err != nil {
		t.Fatal(err)
	}
	defer file.Close()
	lines, pairs := bufio.NewReader(file), []pair{}
	next := func() (string, bool) {
		text, err := lines.ReadString('\n')
		return strings.TrimSuffix(text, "\n"), err == nil
	}
	for {
		count, more := next()
		if !more {
			return pairs
		}
		var it pair
		it.writer, _ = next()
		it.reader, _ = next()
		rows, err := strconv.Atoi(count)
		if err != nil {
			t.Fatal(err)
		}
		for ; rows > 0; rows-- {
			row, _ := next()
			given, wanted, _ := strings.Cut(row, " ")
			bytes, err := hex.DecodeString(strings.TrimPrefix(given, "-"))
			if err != nil {
				t.Fatal(err)
			}
			it.payloads, it.answers = append(it.payloads, bytes), append(it.answers, wanted)
		}
		pairs = append(pairs, it)
	}
}

func TestCases(t *testing.T) {
	count := 0
	for _, it := range cases(t) {
		count += len(it.payloads)
		transcoder, err := Open(it.writer, it.reader)
		if err != nil {
			for _, wanted := range it.answers {
				if told := line(nil, err); told != wanted {
					t.Fatalf("%s, wanted %s", told, wanted)
				}
			}
			continue
		}
		batch, err := transcoder.TranscodeBatch(it.payloads)
		if err != nil {
			t.Fatal(err)
		}
		for at, wanted := range it.answers {
			if told := line(transcoder.Transcode(nil, it.payloads[at])); told != wanted {
				t.Fatalf("%s, wanted %s", told, wanted)
			}
			if told := line(batch[at].Output, batch[at].Err); told != wanted {
				t.Fatalf("in a batch: %s, wanted %s", told, wanted)
			}
			if strings.HasPrefix(wanted, "done ") {
				wanted = "done 0000000009" + strings.TrimPrefix(wanted[5:], "-")
			}
			message := append([]byte{0, 0, 0, 0, 7}, it.payloads[at]...)
			if told := line(transcoder.TranscodeMessage(nil, 7, 9, message)); told != wanted {
				t.Fatalf("as a message: %s, wanted %s", told, wanted)
			}
		}
		transcoder.Close()
	}
	if count == 0 {
		t.Fatal("no cases")
	}
	fmt.Println(count, "payloads alone, as messages and in batches")
}

func TestMessages(t *testing.T) {
	transcoder, err := Open(writer, reader)
	if err != nil {
		t.Fatal(err)
	}
	out, err := transcoder.TranscodeMessage([]byte("x"), 258, 3, []byte("\x00\x00\x00\x01\x02"+payload))
	if err != nil || string(out) != "x\x00\x00\x00\x00\x03"+output {
		t.Fatal(out, err)
	}
	var e *Error
	_, err = transcoder.TranscodeMessage(nil, 258, 3, []byte("\x00\x00\x00\x01\x03"+payload))
	if !errors.As(err, &e) || e.Status != OtherWriter || e.WriterID != 259 {
		t.Fatal(err)
	}
	for _, bad := range []string{"", "\x00\x00\x00\x01", "\x01\x00\x00\x01\x02" + payload} {
		if _, err = transcoder.TranscodeMessage(nil, 258, 3, []byte(bad)); !errors.As(err, &e) || e.Status != BadEnvelope {
			t.Fatal(err)
		}
	}
	transcoder.Close()
	if _, err = transcoder.Transcode(nil, []byte(payload)); !errors.As(err, &e) || e.Status != Closed {
		t.Fatal(err)
	}
}

func TestSafetyAndVersion(t *testing.T) {
	forth, err := CanRead(writer, reader)
	back, other := CanRead(reader, writer)
	if !forth || back || err != nil || other != nil {
		t.Fatal(forth, back, err, other)
	}
	if _, err = CanRead("{", reader); err == nil {
		t.Fatal("no error")
	}
	if Version() != "0.1.0" {
		t.Fatal(Version())
	}
}

func TestGoroutinesShareOne(t *testing.T) {
	transcoder, err := Open(writer, reader)
	if err != nil {
		t.Fatal(err)
	}
	defer transcoder.Close()
	var all sync.WaitGroup
	for worker := 0; worker < 4; worker++ {
		all.Add(1)
		go func() {
			defer all.Done()
			for turn := 0; turn < 1000; turn++ {
				if out, err := transcoder.Transcode(nil, []byte(payload)); err != nil || string(out) != output {
					t.Error(out, err)
				}
			}
		}()
	}
	all.Wait()
}
