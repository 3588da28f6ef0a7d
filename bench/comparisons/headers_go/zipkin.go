// zipkin-go: headers with names in X-B3-.
package main

import (
	"net/http"
	"strconv"

	"github.com/openzipkin/zipkin-go/model"
	"github.com/openzipkin/zipkin-go/propagation/b3"
)

func zipkinID(digits string) model.ID {
	id, err := strconv.ParseUint(digits, 16, 64)
	must(err)
	return model.ID(id)
}

func writeZipkin(c told) (http.Header, error) {
	sampled := c.Sampling == "yes"
	context := model.SpanContext{Debug: c.Sampling == "debug"}
	if sampled || c.Sampling == "no" {
		context.Sampled = &sampled
	}
	if c.Trace != "" {
		trace, err := model.TraceIDFromHex(c.Trace)
		must(err)
		context.TraceID, context.ID = trace, zipkinID(c.Span)
	}
	if c.Parent != "" {
		parent := zipkinID(c.Parent)
		context.ParentID = &parent
	}
	request := &http.Request{Header: http.Header{}}
	return request.Header, b3.InjectHTTP(request)(context)
}

func readZipkin(headers http.Header) (*told, error) {
	context, err := b3.ExtractHTTP(&http.Request{Header: headers})()
	if err != nil {
		return nil, err
	}
	out := &told{Sampling: "absent"}
	if context.Debug {
		out.Sampling = "debug"
	} else if context.Sampled != nil {
		out.Sampling = map[bool]string{false: "no", true: "yes"}[*context.Sampled]
	}
	if !context.TraceID.Empty() {
		out.Trace, out.Span = context.TraceID.String(), context.ID.String()
	}
	if context.ParentID != nil {
		out.Parent = context.ParentID.String()
	}
	return out, nil
}

func init() {
	clients["zipkin-go"] = client{writeZipkin, readZipkin}
}
