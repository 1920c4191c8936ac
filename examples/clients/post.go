// Sends batches of none by Go's net/http, and prints the status of each reply.
//
//	go run post.go URL KEY WAY COUNT      WAY: turn, once, stream
package main

import (
	"bytes"
	"fmt"
	"io"
	"net/http"
	"os"
	"strconv"
	"sync"
)

// Of a bytes.Reader, a bytes.Buffer or a strings.Reader the length is stated; any other reader is
// sent in chunks.
func body(way string) io.Reader {
	none := bytes.NewReader([]byte("[]"))
	if way == "stream" {
		return io.MultiReader(none)
	}
	return none
}

func send(url, key, way string) string {
	request, err := http.NewRequest("POST", url, body(way))
	if err != nil {
		return err.Error()
	}
	request.Header.Set("x-ledger-key", key)
	reply, err := http.DefaultClient.Do(request)
	if err != nil {
		return err.Error()
	}
	defer reply.Body.Close()
	io.Copy(io.Discard, reply.Body)
	return strconv.Itoa(reply.StatusCode)
}

func main() {
	url, key, way := os.Args[1], os.Args[2], os.Args[3]
	count, _ := strconv.Atoi(os.Args[4])
	var all sync.WaitGroup
	for place := 0; place < count; place++ {
		all.Add(1)
		one := func() {
			defer all.Done()
			fmt.Println(send(url, key, way))
		}
		if way == "once" {
			go one()
		} else {
			one()
		}
	}
	all.Wait()
}
