// Posts three spans with zipkin-go's reporter over HTTP to the URL that is given.
//
// It needs Debian's golang-go and golang-github-openzipkin-zipkin-go-dev, and is run as
//
//	GO111MODULE=off GOPATH=/usr/share/gocode go run bench/services/posting_go/zipkin.go URL
package main

import (
	"log"
	"os"

	zipkin "github.com/openzipkin/zipkin-go"
	"github.com/openzipkin/zipkin-go/model"
	"github.com/openzipkin/zipkin-go/reporter/http"
)

func main() {
	reporter := http.NewReporter(os.Args[1])
	endpoint, err := zipkin.NewEndpoint("shop", "10.0.0.7:8080")
	if err != nil {
		log.Fatal(err)
	}
	tracer, err := zipkin.NewTracer(reporter, zipkin.WithLocalEndpoint(endpoint))
	if err != nil {
		log.Fatal(err)
	}
	root := tracer.StartSpan("GET /cart", zipkin.Kind(model.Server))
	for _, name := range []string{"SELECT", "render"} {
		child := tracer.StartSpan(name, zipkin.Kind(model.Client), zipkin.Parent(root.Context()))
		child.Tag("db.system", "redis")
		child.Finish()
	}
	root.Finish()
	if err := reporter.Close(); err != nil {
		log.Fatal(err)
	}
}
