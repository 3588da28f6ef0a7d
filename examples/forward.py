#!/usr/bin/env python3
"""Passes posts of spans on to a backend in another form: a client posts to it, `spanx serve` converts, the backend takes, and
its status goes back to the client. It stands in for a forwarder: it is one process with a thread for each client, and nothing
is proved of it.

It is run beside a running `spanx serve` as
  examples/forward.py 127.0.0.1:4330 http://127.0.0.1:4320 http://127.0.0.1:9411/api/v2/spans
with the address where it listens, that of `spanx serve`, and where the backend takes the form that `--to` of `spanx serve`
says. It takes what `spanx serve` takes. What `spanx serve` refuses is answered as it answers it, and the backend sees nothing
of it. A converter or backend that can't be reached is answered 502, one that is silent for 30 seconds 504, each with a line.

**Nothing is kept**: a post that isn't answered by a status of success is lost unless the client sends it again, and one whose
answer is lost may be there twice. There is no queue, no second try, no TLS for clients. Each post that wasn't passed on has a
line on standard error. It goes on until it is stopped; words that are no addresses, and an address where it can't listen, end
it with status 1 and a line.
"""
import http.client
import http.server
import sys
import urllib.parse

LIMIT = 67_108_864
SECONDS = 30
KEPT = ["Content-Type", "Content-Encoding"]


def ask(url, path, body, heads):
    """The status, the head and the content of the answer to a post over a connection of its own."""
    kind = http.client.HTTPSConnection if url.scheme == "https" else http.client.HTTPConnection
    connection = kind(url.hostname, url.port, timeout=SECONDS)
    try:
        connection.request("POST", path, body, {**heads, "Connection": "close"})
        answer = connection.getresponse()
        return answer.status, answer.headers, answer.read()
    finally:
        connection.close()


class Handler(http.server.BaseHTTPRequestHandler):
    protocol_version = "HTTP/1.1"
    # How long a client may be silent.
    timeout = SECONDS

    def log_message(self, *words):
        pass

    def answer(self, status, heads=None, content=b"", said=None):
        if said:
            content, heads = said.encode() + b"\n", {"Content-Type": "text/plain"}
        if not 200 <= status < 300:
            line = content[:200].decode(errors="replace").partition("\n")[0]
            print(f"{self.path[:80]!a}: {status} {line!a}", file=sys.stderr, flush=True)
        self.send_response(status)
        for name in [*KEPT, "Retry-After"]:
            if heads and heads.get(name):
                self.send_header(name, heads[name])
        if status not in (204, 304):
            self.send_header("Content-Length", str(len(content)))
        if self.close_connection:
            self.send_header("Connection", "close")
        self.end_headers()
        if status not in (204, 304):
            self.wfile.write(content)

    def refused(self, status, said):
        """An answer behind which the connection ends, since the body wasn't read."""
        self.close_connection = True
        self.answer(status, said=said)

    def asked(self, who, *words):
        """An answer of the converter or the backend, or nothing where the client was answered instead."""
        try:
            return ask(*words)
        except TimeoutError:
            self.answer(504, said=f"the {who} was silent for {SECONDS} seconds")
        except (OSError, http.client.HTTPException) as why:
            self.answer(502, said=f"the {who} can't be reached: {str(why) or type(why).__name__}")

    def do_POST(self):
        length = self.headers.get("Content-Length")
        if "Transfer-Encoding" in self.headers:
            return self.refused(501, "chunks aren't taken")
        if length is None:
            return self.refused(411, "there is no Content-Length")
        if not (length.isascii() and length.isdigit()):
            return self.refused(400, "the Content-Length is no number")
        if len(length) > 9 or int(length) > LIMIT:
            return self.refused(413, f"the body has more than {LIMIT} bytes")
        body = self.rfile.read(int(length))
        if len(body) < int(length):
            self.close_connection = True
            return
        heads = {name: self.headers[name] for name in KEPT if name in self.headers}
        converted = self.asked("converter", self.server.converter, self.path, body, heads)
        if not converted:
            return
        if converted[0] != 200:
            return self.answer(*converted)
        backend = self.server.backend
        path = (backend.path or "/") + (f"?{backend.query}" if backend.query else "")
        taken = self.asked("backend", backend, path, converted[2], {"Content-Type": converted[1]["Content-Type"]})
        if taken:
            self.answer(*taken)


class Server(http.server.ThreadingHTTPServer):
    def handle_error(self, request, client):
        """A client that went away, or was silent: the next goes on."""
        print(f"a connection broke: {sys.exc_info()[1]!a}", file=sys.stderr, flush=True)


def main(words):
    try:
        listen, converter, backend = map(urllib.parse.urlsplit, [f"//{words[0]}", *words[1:]])
        for url in [converter, backend]:
            if url.scheme not in ["http", "https"] or not url.hostname:
                raise ValueError(f"{url.geturl()!a} is no address of http")
            url.port
        if not listen.hostname or listen.port is None:
            raise ValueError(f"{words[0]!a} is no address with a port")
        server = Server((listen.hostname, listen.port), Handler)
    except (ValueError, OSError) as why:
        sys.exit(f"{why}")
    server.converter, server.backend = converter, backend
    try:
        server.serve_forever()
    except KeyboardInterrupt:
        pass


if __name__ == "__main__":
    if len(sys.argv) != 4:
        sys.exit(__doc__)
    main(sys.argv[1:])
