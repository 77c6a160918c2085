// The Go part of tests/clients.sh: each call of Debian's Go client of a schema registry (lensesio/schema-registry), what it
// lacks (levels, compatibility, messages) by Go's own HTTP client, and messages that goavro writes and reads, with
// /transcode between them. Usage: main URL
package main

import (
	"bytes"
	"encoding/binary"
	"encoding/json"
	"fmt"
	"io"
	"net/http"
	"os"
	"reflect"

	schemaregistry "github.com/lensesio/schema-registry"
	"github.com/linkedin/goavro"
)

const (
	first  = `{"fields":[{"name":"a","type":"long"},{"name":"b","type":"string"}],"name":"T","type":"record"}`
	worse  = `{"fields":[{"name":"a","type":"long"},{"name":"b","type":"string"},{"name":"c","type":"int"}],"name":"T","type":"record"}`
	better = `{"fields":[{"name":"a","type":"long"},{"name":"b","type":"string"},{"default":0,"name":"c","type":"int"}],"name":"T","type":"record"}`
)

var url string

// measured sends each body whole, with its length: the client sends it in chunks, which the profile leaves out.
type measured struct{}

func (measured) RoundTrip(request *http.Request) (*http.Response, error) {
	if request.Body != nil {
		body, err := io.ReadAll(request.Body)
		if err != nil {
			return nil, err
		}
		request = request.Clone(request.Context())
		request.Body, request.ContentLength = io.NopCloser(bytes.NewReader(body)), int64(len(body))
	}
	return http.DefaultTransport.RoundTrip(request)
}

// told is what a call answers, or the text of its fault.
func told(answer interface{}, err error) interface{} {
	if err != nil {
		return err.Error()
	}
	return answer
}

func check(name string, want, got interface{}) {
	if reflect.DeepEqual(got, want) {
		fmt.Println("works Go: " + name)
	} else {
		fmt.Printf("FAILED Go: %s: %.300v, wanted %.300v\n", name, got, want)
	}
}

// asked is what the server answers to a request of Go's own client.
func asked(method, path string, body []byte) interface{} {
	request, err := http.NewRequest(method, url+path, bytes.NewReader(body))
	if err != nil {
		return err.Error()
	}
	answer, err := http.DefaultClient.Do(request)
	if err != nil {
		return err.Error()
	}
	defer answer.Body.Close()
	content, err := io.ReadAll(answer.Body)
	return told(fmt.Sprintf("%d %s", answer.StatusCode, content), err)
}

func schemaBody(schema string) []byte {
	body, _ := json.Marshal(map[string]string{"schema": schema})
	return body
}

func registry(client schemaregistry.Client) {
	s := "go.registry"
	one, err := client.RegisterNewSchema(s, first)
	check("RegisterNewSchema", nil, err)
	check("RegisterNewSchema again", one, told(client.RegisterNewSchema(s, first)))
	check("RegisterNewSchema, incompatible", "incompatible schema (409)", told(client.RegisterNewSchema(s, worse)))
	check("RegisterNewSchema, no schema", "invalid schema: Unknown (42201)", told(client.RegisterNewSchema(s, `"flaot"`)))
	two, err := client.RegisterNewSchema(s, better)
	check("RegisterNewSchema, a next version", nil, err)
	found := schemaregistry.Schema{Schema: first, Subject: s, Version: 1, Id: one}
	latest := schemaregistry.Schema{Schema: better, Subject: s, Version: 2, Id: two}
	is, which, err := client.IsRegistered(s, first)
	check("IsRegistered", []interface{}{true, found, nil}, []interface{}{is, which, err})
	is, _, err = client.IsRegistered(s, worse)
	check("IsRegistered of none", []interface{}{false, nil}, []interface{}{is, err})
	_, _, err = client.IsRegistered("go.none", first)
	check("IsRegistered, no subject", "subject not found (40401)", told(nil, err))
	check("GetSchemaById", first, told(client.GetSchemaById(one)))
	check("GetSchemaById of no id", "schema not found (40403)", told(client.GetSchemaById(99999)))
	check("GetSchemaBySubject", found, told(client.GetSchemaBySubject(s, 1)))
	check("GetSchemaBySubject of no version", "version not found (40402)", told(client.GetSchemaBySubject(s, 3)))
	check("GetLatestSchema", latest, told(client.GetLatestSchema(s)))
	check("Versions", []int{1, 2}, told(client.Versions(s)))
	check("Versions, no subject", "subject not found (40401)", told(client.Versions("go.none")))
	subjects, err := client.Subjects()
	check("Subjects", true, err == nil && contains(subjects, s))
	check("compatibility", `200 {"is_compatible":false}`, asked("POST", "/compatibility/subjects/"+s+"/versions/1", schemaBody(worse)))
	check("compatibility with the latest", `200 {"is_compatible":true}`, asked("POST", "/compatibility/subjects/"+s+"/versions/latest", schemaBody(better)))
	check("set the level of a subject", `200 {"compatibility":"FULL"}`, asked("PUT", "/config/"+s, []byte(`{"compatibility":"FULL"}`)))
	check("the level of a subject", `200 {"compatibilityLevel":"FULL"}`, asked("GET", "/config/"+s, nil))
	check("the level of all subjects", `200 {"compatibilityLevel":"BACKWARD"}`, asked("GET", "/config", nil))
}

func contains(names []string, name string) bool {
	for _, each := range names {
		if each == name {
			return true
		}
	}
	return false
}

type object = map[string]interface{}
type list = []interface{}

var pairs = []struct {
	name, writer, reader string
	written, read        interface{}
}{
	{"fields dropped, added, reordered and promoted",
		`{"type":"record","name":"T","fields":[{"name":"a","type":"int"},{"name":"b","type":"string"},{"name":"c","type":"boolean"}]}`,
		`{"type":"record","name":"T","fields":[{"name":"b","type":"string"},{"name":"d","type":"int","default":7},{"name":"a","type":"long"}]}`,
		object{"a": int32(27), "b": "größer", "c": true}, object{"a": int64(27), "b": "größer", "d": int32(7)}},
	{"unions",
		`{"type":"record","name":"U","fields":[{"name":"a","type":["null","string"]},{"name":"b","type":["null","string"]},{"name":"c","type":"int"}]}`,
		`{"type":"record","name":"U","fields":[{"name":"a","type":["string","null"]},{"name":"b","type":["null","string"]},{"name":"c","type":["null","long","string"]}]}`,
		object{"a": goavro.Union("string", "x"), "b": nil, "c": int32(5)}, object{"a": goavro.Union("string", "x"), "b": nil, "c": goavro.Union("long", int64(5))}},
	{"an enum with a default, a fixed",
		`{"type":"record","name":"S","fields":[{"name":"e","type":{"type":"enum","name":"E","symbols":["A","B","C"]}},{"name":"f","type":{"type":"fixed","name":"F","size":3}}]}`,
		`{"type":"record","name":"S","fields":[{"name":"f","type":{"type":"fixed","name":"F","size":3}},{"name":"e","type":{"type":"enum","name":"E","symbols":["C","A"],"default":"A"}}]}`,
		object{"e": "B", "f": []byte{0, 255, 1}}, object{"e": "A", "f": []byte{0, 255, 1}}},
	{"arrays and maps",
		`{"type":"record","name":"M","fields":[{"name":"a","type":{"type":"array","items":"int"}},{"name":"m","type":{"type":"map","values":"int"}},{"name":"n","type":{"type":"array","items":"int"}}]}`,
		`{"type":"record","name":"M","fields":[{"name":"m","type":{"type":"map","values":"long"}},{"name":"a","type":{"type":"array","items":"long"}},{"name":"n","type":{"type":"array","items":"int"}}]}`,
		object{"a": list{int32(1), int32(-2)}, "m": object{"x": int32(3), "y": int32(4)}, "n": list{}},
		object{"a": list{int64(1), int64(-2)}, "m": object{"x": int64(3), "y": int64(4)}, "n": list{}}},
	{"aliases",
		`{"type":"record","name":"Old","fields":[{"name":"was","type":"int"}]}`,
		`{"type":"record","name":"New","aliases":["Old"],"fields":[{"name":"is","type":"long","aliases":["was"]}]}`,
		object{"was": int32(3)}, object{"is": int64(3)}},
	{"a list of records",
		`{"type":"record","name":"L","fields":[{"name":"value","type":"long"},{"name":"next","type":["null","L"]}]}`,
		`{"type":"record","name":"L","fields":[{"name":"next","type":["null","L"]},{"name":"value","type":"long"}]}`,
		object{"value": int64(1), "next": goavro.Union("L", object{"value": int64(2), "next": nil})},
		object{"value": int64(1), "next": goavro.Union("L", object{"value": int64(2), "next": nil})}},
}

// codec is the one of a schema that the registry gives.
func codec(client schemaregistry.Client, id int) (*goavro.Codec, error) {
	text, err := client.GetSchemaById(id)
	if err != nil {
		return nil, err
	}
	return goavro.NewCodec(text)
}

// transcoded writes a datum under the writer's schema, has it rewritten, and reads it under the schema that the answer names.
func transcoded(client schemaregistry.Client, subject, writer, reader string, datum interface{}) (interface{}, error) {
	from, err := client.RegisterNewSchema(subject, writer)
	if err != nil {
		return nil, err
	}
	to, err := client.RegisterNewSchema(subject, reader)
	if err != nil {
		return nil, err
	}
	writing, err := codec(client, from)
	if err != nil {
		return nil, err
	}
	message := make([]byte, 5)
	binary.BigEndian.PutUint32(message[1:], uint32(from))
	if message, err = writing.BinaryFromNative(message, datum); err != nil {
		return nil, err
	}
	answer, err := http.Post(fmt.Sprintf("%s/transcode/%d", url, to), "application/octet-stream", bytes.NewReader(message))
	if err != nil {
		return nil, err
	}
	defer answer.Body.Close()
	content, err := io.ReadAll(answer.Body)
	if err != nil {
		return nil, err
	}
	if answer.StatusCode != 200 || len(content) < 5 || content[0] != 0 || int(binary.BigEndian.Uint32(content[1:])) != to {
		return nil, fmt.Errorf("%d %q", answer.StatusCode, content)
	}
	reading, err := codec(client, to)
	if err != nil {
		return nil, err
	}
	read, rest, err := reading.NativeFromBinary(content[5:])
	if err == nil && len(rest) > 0 {
		err = fmt.Errorf("%d bytes too many", len(rest))
	}
	return read, err
}

func main() {
	url = os.Args[1]
	client, err := schemaregistry.NewClient(url)
	if err != nil {
		panic(err)
	}
	_, err = client.RegisterNewSchema("go.chunks", first)
	if want := "bad request (400)"; err == nil || err.Error() != want {
		fmt.Printf("FAILED to refuse what is left out: Go: bodies in chunks: %v, wanted %s\n", err, want)
	} else {
		fmt.Printf("left out bodies in chunks, as the Go client sends them unless its transport measures them: %s\n", want)
	}
	http.DefaultClient.Transport = measured{}
	registry(client)
	for i, pair := range pairs {
		got, err := transcoded(client, fmt.Sprintf("go.pair-%d", i), pair.writer, pair.reader, pair.written)
		check("goavro, transcode, goavro: "+pair.name, pair.read, told(got, err))
	}
}
