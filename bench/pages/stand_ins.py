"""Servers of Python's that stand in for a Collector, Jaeger and Zipkin: they take, by the paths and types of the projects' documents,
what these take, keep it while they run, and answer what was kept.

They show that what spanx writes goes through HTTP whole and is of the form that it is sent as. They don't show what the projects'
own programs do with it.
"""
import contextlib
import http.server
import json
import os
import sys
import threading
import urllib.parse

sys.path.insert(1, os.path.dirname(os.path.dirname(os.path.realpath(__file__))))
import rooms  # first: it finds the others
import forms
from json_text import Refusal

# What was taken, as groups of a trace, by the port.
KEPT = {}


class Handler(http.server.BaseHTTPRequestHandler):
    def answer(self, status, kind="text/plain", text=b""):
        self.send_response(status)
        self.send_header("Content-Type", kind)
        self.send_header("Content-Length", str(len(text)))
        self.end_headers()
        self.wfile.write(text)

    def log_message(self, *words):
        pass

    def do_POST(self):
        url = urllib.parse.urlparse(self.path)
        body = self.rfile.read(int(self.headers.get("Content-Length", 0)))
        taken = TAKEN.get((self.server.server_port, url.path, self.headers.get("Content-Type")))
        if not taken:
            return self.answer(404, text=b"no such place, or not with this Content-Type\n")
        form, status, most = taken
        try:
            groups = list(forms.groups(body, form))
        except Refusal as why:
            return self.answer(400, text=f"{why}\n".encode())
        if len(groups) > most:
            return self.answer(400, text=b"more than one batch\n")
        KEPT.setdefault(self.server.server_port, []).extend(groups)
        self.answer(status)

    def do_GET(self):
        url = urllib.parse.urlparse(self.path)
        if self.server.server_port != 9411 or not url.path.startswith("/api/v2/trace"):
            return self.answer(404)
        traces = {}
        for span in json.loads(forms.write(KEPT.get(9411, []), forms.ZIPKIN)):
            traces.setdefault(span["traceId"], []).append(span)
        if url.path == "/api/v2/traces":
            return self.answer(200, "application/json", json.dumps(list(traces.values())).encode())
        return self.answer(200, "application/json", json.dumps(traces.get(url.path.rpartition("/")[2], [])).encode())


# By port, path and type of what is posted: its form, the status of a good answer, and how many units it may have.
TAKEN = {
    (4318, "/v1/traces", "application/x-protobuf"): ("otlp-proto", 200, 1000),
    (4318, "/v1/traces", "application/json"): ("otlp-json", 200, 1000),
    (14268, "/api/traces", "application/x-thrift"): ("jaeger-binary", 202, 1),
    (14268, "/api/traces", "application/vnd.apache.thrift.binary"): ("jaeger-binary", 202, 1),
    (9411, "/api/v2/spans", "application/json"): ("zipkin-json", 202, 1000),
}


@contextlib.contextmanager
def running():
    """The servers on their usual ports, while the block runs."""
    KEPT.clear()
    try:
        servers = [http.server.ThreadingHTTPServer(("127.0.0.1", port), Handler) for port in sorted({port for port, _, _ in TAKEN})]
    except OSError as why:
        sys.exit(f"a port of those that stand-ins take isn't free: {why}")
    for server in servers:
        threading.Thread(target=server.serve_forever, daemon=True).start()
    try:
        yield
    finally:
        for server in servers:
            server.shutdown()
            server.server_close()
