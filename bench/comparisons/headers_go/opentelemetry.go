// OpenTelemetry's library: traceparent and tracestate.
package main

import (
	"context"
	"errors"
	"net/http"

	"go.opentelemetry.io/otel/propagation"
	"go.opentelemetry.io/otel/trace"
)

func writeOpenTelemetry(c told) (http.Header, error) {
	var config trace.SpanContextConfig
	var err error
	config.TraceID, err = trace.TraceIDFromHex(c.Trace)
	must(err)
	config.SpanID, err = trace.SpanIDFromHex(c.Span)
	must(err)
	config.TraceState, err = trace.ParseTraceState(c.State)
	must(err)
	if c.Sampling == "yes" || c.Sampling == "debug" {
		config.TraceFlags = trace.FlagsSampled
	}
	headers := http.Header{}
	within := trace.ContextWithSpanContext(context.Background(), trace.NewSpanContext(config))
	propagation.TraceContext{}.Inject(within, propagation.HeaderCarrier(headers))
	return headers, nil
}

func readOpenTelemetry(headers http.Header) (*told, error) {
	within := propagation.TraceContext{}.Extract(context.Background(), propagation.HeaderCarrier(headers))
	read := trace.SpanContextFromContext(within)
	if !read.IsValid() {
		return nil, errors.New("no context")
	}
	sampling := map[bool]string{false: "no", true: "yes"}[read.IsSampled()]
	return &told{Trace: read.TraceID().String(), Span: read.SpanID().String(), Sampling: sampling, State: read.TraceState().String()}, nil
}

func init() {
	clients["opentelemetry"] = client{writeOpenTelemetry, readOpenTelemetry}
}
