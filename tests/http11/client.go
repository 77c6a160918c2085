// Asks for messages to be rewritten by Go's client as it is, 8 at once. Usage: client PORT
package main

import (
	"bytes"
	"encoding/binary"
	"fmt"
	"io"
	"net/http"
	"net/http/httptrace"
	"os"
	"sync"
	"sync/atomic"
)

const clients, rounds = 8, 100

func message(id uint32, number int) []byte {
	out := append([]byte{0}, binary.BigEndian.AppendUint32(nil, id)...)
	return binary.AppendVarint(out, int64(number))
}

func ask(url string, number int, body io.Reader, reused *atomic.Int64) error {
	request, err := http.NewRequest("POST", url, body)
	if err != nil {
		return err
	}
	trace := &httptrace.ClientTrace{GotConn: func(info httptrace.GotConnInfo) {
		if info.Reused {
			reused.Add(1)
		}
	}}
	answer, err := http.DefaultClient.Do(request.WithContext(httptrace.WithClientTrace(request.Context(), trace)))
	if err != nil {
		return err
	}
	defer answer.Body.Close()
	got, err := io.ReadAll(answer.Body)
	if err != nil {
		return err
	}
	if answer.StatusCode != 200 || !bytes.Equal(got, message(2, number)) {
		return fmt.Errorf("%d: %d %q", number, answer.StatusCode, got)
	}
	return nil
}

func main() {
	url := "http://127.0.0.1:" + os.Args[1] + "/transcode/2"
	var reused atomic.Int64
	var group sync.WaitGroup
	problems := make(chan error, clients*rounds)
	for client := 0; client < clients; client++ {
		group.Add(1)
		go func() {
			defer group.Done()
			for round := 0; round < rounds; round++ {
				number := client*rounds + round
				var body io.Reader = bytes.NewReader(message(1, number))
				if round%2 == 1 {
					body = io.MultiReader(body) // of a length that is not known: in chunks
				}
				if err := ask(url, number, body, &reused); err != nil {
					problems <- err
				}
			}
		}()
	}
	group.Wait()
	close(problems)
	for problem := range problems {
		fmt.Println("problem", problem)
	}
	fmt.Println("reused", reused.Load())
}
