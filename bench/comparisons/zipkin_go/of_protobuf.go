// Prints the spans of a protobuf list (ListOfSpans) on standard input as zipkin-go tells them in JSON. It is run as main.go is.
package main

import (
	"encoding/json"
	"io/ioutil"
	"log"
	"os"

	zipkin_proto3 "github.com/openzipkin/zipkin-go/proto/v2"
)

func main() {
	text, err := ioutil.ReadAll(os.Stdin)
	if err != nil {
		log.Fatal(err)
	}
	spans, err := zipkin_proto3.ParseSpans(text, false)
	if err != nil {
		log.Fatal(err)
	}
	if err := json.NewEncoder(os.Stdout).Encode(spans); err != nil {
		log.Fatal(err)
	}
}
