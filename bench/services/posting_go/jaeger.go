// Posts two spans with OpenTelemetry's exporter for Jaeger's collector to the URL that is given.
//
// It needs Debian's golang-go and golang-opentelemetry-otel-dev, and is run as
//
//	GO111MODULE=off GOPATH=/usr/share/gocode go run bench/services/posting_go/jaeger.go URL
package main

import (
	"context"
	"log"
	"os"

	"go.opentelemetry.io/otel/attribute"
	"go.opentelemetry.io/otel/codes"
	"go.opentelemetry.io/otel/exporters/jaeger"
	"go.opentelemetry.io/otel/sdk/trace"
)

func main() {
	exporter, err := jaeger.New(jaeger.WithCollectorEndpoint(jaeger.WithEndpoint(os.Args[1])))
	if err != nil {
		log.Fatal(err)
	}
	provider := trace.NewTracerProvider(trace.WithBatcher(exporter))
	tracer := provider.Tracer("shop")
	ctx, root := tracer.Start(context.Background(), "GET /cart")
	_, child := tracer.Start(ctx, "SELECT")
	child.SetAttributes(attribute.Int("rows", 3), attribute.String("db.system", "redis"))
	child.SetStatus(codes.Error, "timeout")
	child.AddEvent("retry")
	child.End()
	root.End()
	if err := provider.Shutdown(context.Background()); err != nil {
		log.Fatal(err)
	}
}
