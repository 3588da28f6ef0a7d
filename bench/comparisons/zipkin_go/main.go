// Prints a document of Zipkin spans with zipkin-go: what its tracer reports of a trace, and spans of its model with each
// member that it can write, in each form of it. With the word "model" only the latter are printed, which are the same in each run.
//
// It needs Debian's golang-go and golang-github-openzipkin-zipkin-go-dev, and is run as
//
//	GO111MODULE=off GOPATH=/usr/share/gocode go run bench/comparisons/zipkin_go/main.go
package main

import (
	"encoding/json"
	"errors"
	"log"
	"net"
	"os"
	"time"

	zipkin "github.com/openzipkin/zipkin-go"
	"github.com/openzipkin/zipkin-go/model"
	"github.com/openzipkin/zipkin-go/reporter/recorder"
)

var begin = time.Unix(1700000000, 123456000)

func must(err error) {
	if err != nil {
		log.Fatal(err)
	}
}

// What the tracer reports of a call and the server's side of it, which share an identifier.
func traced() []model.SpanModel {
	reporter := recorder.NewReporter()
	defer reporter.Close()
	endpoint, err := zipkin.NewEndpoint("bücher", "10.0.0.7:8080")
	must(err)
	redis, err := zipkin.NewEndpoint("redis", "[2001:db8::c001]:6379")
	must(err)
	tracer, err := zipkin.NewTracer(reporter, zipkin.WithLocalEndpoint(endpoint), zipkin.WithTraceID128Bit(true),
		zipkin.WithSharedSpans(true), zipkin.WithTags(map[string]string{"region": "eu"}))
	must(err)
	root := tracer.StartSpan("GET /ü?a=<b>&c", zipkin.Kind(model.Server), zipkin.StartTime(begin))
	root.Tag("http.path", "/ü?a=<b>&c=\"d\"\u2028")
	call := tracer.StartSpan("call", zipkin.Kind(model.Client), zipkin.Parent(root.Context()), zipkin.RemoteEndpoint(redis))
	call.Annotate(begin.Add(250*time.Microsecond), "wire <sent>")
	call.Annotate(begin, `"retry":{"attempt":1}`)
	joined := tracer.StartSpan("joined", zipkin.Kind(model.Server), zipkin.Parent(call.Context()))
	zipkin.TagError.Set(joined, errors.New("boom & bust").Error())
	joined.Finish()
	call.Finish()
	root.Finish()
	return reporter.Flush()
}

// Spans of the model, with each of its members in each form.
func modelled() []model.SpanModel {
	parent, high := model.ID(0xb7ad6b7169203331), model.TraceID{High: 0x0af7651916cd43dd, Low: 0x8448eb211c80319c}
	both := &model.Endpoint{ServiceName: "shop", IPv4: net.IPv4(10, 0, 0, 7), IPv6: net.ParseIP("2001:db8::c001"), Port: 65535}
	mapped := &model.Endpoint{IPv4: net.ParseIP("::ffff:192.0.2.1"), IPv6: net.ParseIP("::1")}
	controls := map[string]string{"": "", "error": "", "nul\x00": "tab\t", "bad\xff": "\xed\xa0\x80", "line\u2028": "\x7f", "😀": "\"\\/<>&"}
	spans := []model.SpanModel{
		{SpanContext: model.SpanContext{TraceID: model.TraceID{Low: 1}, ID: 2}},
		{SpanContext: model.SpanContext{TraceID: high, ID: 1<<64 - 1, ParentID: &parent, Debug: true}, Shared: true, Name: "all",
			Timestamp: begin.Add(500 * time.Nanosecond), Duration: 1500 * time.Nanosecond, LocalEndpoint: both, RemoteEndpoint: mapped,
			Annotations: []model.Annotation{{Timestamp: begin, Value: ""}, {Timestamp: time.Unix(0, 0), Value: "zero"}}, Tags: controls},
		{SpanContext: model.SpanContext{TraceID: high, ID: 3}, Duration: time.Nanosecond, LocalEndpoint: &model.Endpoint{},
			RemoteEndpoint: &model.Endpoint{ServiceName: "db"}, Annotations: []model.Annotation{}, Tags: map[string]string{}},
		{SpanContext: model.SpanContext{TraceID: high, ID: 4}, Timestamp: time.Unix(1, 0), Duration: 1<<63 - 1 - 500},
	}
	for i, kind := range []model.Kind{model.Undetermined, model.Client, model.Server, model.Producer, model.Consumer} {
		id := model.SpanContext{TraceID: high, ID: model.ID(16 + i)}
		spans = append(spans, model.SpanModel{SpanContext: id, Kind: kind, RemoteEndpoint: &model.Endpoint{Port: uint16(i)}})
	}
	return spans
}

func main() {
	spans := modelled()
	if len(os.Args) < 2 || os.Args[1] != "model" {
		spans = append(traced(), spans...)
	}
	must(json.NewEncoder(os.Stdout).Encode(spans))
}
