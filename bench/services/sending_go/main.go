// Sends spans with OpenTelemetry's exporter for Jaeger's agent to the port of this machine that is given: two in one datagram,
// and then so many that they take several.
//
// It needs Debian's golang-go and golang-opentelemetry-otel-dev, and is run as
//
//	GO111MODULE=off GOPATH=/usr/share/gocode go run bench/services/sending_go/main.go PORT
package main

import (
	"context"
	"fmt"
	"log"
	"os"

	"go.opentelemetry.io/otel/attribute"
	"go.opentelemetry.io/otel/codes"
	"go.opentelemetry.io/otel/exporters/jaeger"
	"go.opentelemetry.io/otel/sdk/resource"
	"go.opentelemetry.io/otel/sdk/trace"
	api "go.opentelemetry.io/otel/trace"
)

func must(err error) {
	if err != nil {
		log.Fatal(err)
	}
}

// A tracer over an exporter of its own, and what ends it.
func tracerOf(port string) (api.Tracer, func()) {
	exporter, err := jaeger.New(jaeger.WithAgentEndpoint(jaeger.WithAgentHost("127.0.0.1"), jaeger.WithAgentPort(port)))
	must(err)
	shop := resource.NewSchemaless(attribute.String("service.name", "bücher"), attribute.String("region", "eu"))
	provider := trace.NewTracerProvider(trace.WithBatcher(exporter), trace.WithResource(shop))
	return provider.Tracer("shop"), func() { must(provider.Shutdown(context.Background())) }
}

func main() {
	tracer, end := tracerOf(os.Args[1])
	ctx, root := tracer.Start(context.Background(), "GET /cart")
	_, child := tracer.Start(ctx, "SELECT")
	child.SetAttributes(attribute.Int("rows", 3), attribute.String("db.system", "redis"), attribute.Float64("share", 0.25),
		attribute.Bool("cached", false), attribute.StringSlice("tables", []string{"cart", "cart_line"}))
	child.SetStatus(codes.Error, "timeout")
	child.AddEvent("retry")
	child.End()
	root.End()
	end()
	tracer, end = tracerOf(os.Args[1])
	for number := 0; number < 800; number++ {
		_, span := tracer.Start(ctx, fmt.Sprintf("render %d", number))
		span.SetAttributes(attribute.Int("number", number), attribute.String("template", "cart/line.html"))
		span.End()
	}
	end()
}
