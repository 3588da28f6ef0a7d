// Writes trace contexts as headers with clients in Go, and reads them. Standard input is a JSON list of tasks: a client with a
// context gives the headers that it writes, and one with headers the context that it reads, or null.
//
// It needs Debian's golang-go, and is run with the files of those clients whose library is there:
//
//	GO111MODULE=off GOPATH=/usr/share/gocode go run bench/comparisons/headers_go/main.go bench/comparisons/headers_go/zipkin.go ..
package main

import (
	"encoding/json"
	"log"
	"net/http"
	"os"
	"sort"
)

// What is told of a trace: identifiers as digits, a sampling in a word, and a tracestate.
type told struct {
	Trace    string `json:"trace"`
	Span     string `json:"span"`
	Parent   string `json:"parent"`
	Sampling string `json:"sampling"`
	State    string `json:"state"`
}

type task struct {
	Client  string
	Context *told
	Headers [][2]string
}

type client struct {
	write func(told) (http.Header, error)
	read  func(http.Header) (*told, error)
}

// The files of the clients fill it.
var clients = map[string]client{}

func must(err error) {
	if err != nil {
		log.Fatal(err)
	}
}

// The headers in the order of their names.
func pairs(headers http.Header) [][2]string {
	out := [][2]string{}
	for name, values := range headers {
		for _, value := range values {
			out = append(out, [2]string{name, value})
		}
	}
	sort.Slice(out, func(i, j int) bool { return out[i][0] < out[j][0] })
	return out
}

func answer(t task) interface{} {
	if t.Context != nil {
		headers, err := clients[t.Client].write(*t.Context)
		must(err)
		return pairs(headers)
	}
	headers := http.Header{}
	for _, pair := range t.Headers {
		headers.Add(pair[0], pair[1])
	}
	read, err := clients[t.Client].read(headers)
	if err != nil {
		return nil
	}
	return read
}

func main() {
	var tasks []task
	must(json.NewDecoder(os.Stdin).Decode(&tasks))
	answers := []interface{}{}
	for _, t := range tasks {
		answers = append(answers, answer(t))
	}
	must(json.NewEncoder(os.Stdout).Encode(answers))
}
