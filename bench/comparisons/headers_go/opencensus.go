// OpenCensus: traceparent and tracestate, and headers with names in X-B3-.
package main

import (
	"errors"
	"fmt"
	"net/http"
	"strings"

	"go.opencensus.io/plugin/ochttp/propagation/b3"
	"go.opencensus.io/plugin/ochttp/propagation/tracecontext"
	"go.opencensus.io/trace"
	"go.opencensus.io/trace/propagation"
	"go.opencensus.io/trace/tracestate"
)

func writeOpenCensus(format propagation.HTTPFormat, c told) (http.Header, error) {
	var sc trace.SpanContext
	sc.TraceID, _ = b3.ParseTraceID(c.Trace)
	sc.SpanID, _ = b3.ParseSpanID(c.Span)
	if c.Sampling == "yes" || c.Sampling == "debug" {
		sc.TraceOptions = 1
	}
	if c.State != "" {
		var entries []tracestate.Entry
		for _, member := range strings.Split(c.State, ",") {
			parts := strings.SplitN(member, "=", 2)
			entries = append(entries, tracestate.Entry{Key: parts[0], Value: parts[1]})
		}
		// What it doesn't take is left out.
		sc.Tracestate, _ = tracestate.New(nil, entries...)
	}
	request := &http.Request{Header: http.Header{}}
	format.SpanContextToRequest(sc, request)
	return request.Header, nil
}

func readOpenCensus(format propagation.HTTPFormat, headers http.Header) (*told, error) {
	sc, ok := format.SpanContextFromRequest(&http.Request{Header: headers})
	if !ok {
		return nil, errors.New("no context")
	}
	members := []string{}
	if sc.Tracestate != nil {
		for _, entry := range sc.Tracestate.Entries() {
			members = append(members, fmt.Sprintf("%s=%s", entry.Key, entry.Value))
		}
	}
	sampling := map[bool]string{false: "no", true: "yes"}[sc.IsSampled()]
	return &told{Trace: sc.TraceID.String(), Span: sc.SpanID.String(), Sampling: sampling, State: strings.Join(members, ",")}, nil
}

func openCensus(format propagation.HTTPFormat) client {
	write := func(c told) (http.Header, error) { return writeOpenCensus(format, c) }
	read := func(headers http.Header) (*told, error) { return readOpenCensus(format, headers) }
	return client{write, read}
}

func init() {
	clients["opencensus w3c"] = openCensus(&tracecontext.HTTPFormat{})
	clients["opencensus b3-multi"] = openCensus(&b3.HTTPFormat{})
}
