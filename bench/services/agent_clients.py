#!/usr/bin/python3
"""Drives the built agent with real clients of Jaeger's agent, and compares each text with what `spanx convert` makes of the batch
inside.

A client sends to a socket of this script, which keeps each datagram; the agent is then sent these, to each form, and what is told
of each must be what the reader of bench/services/agent.py says. Then the client sends to the agent itself, which must receive as
many spans of the same names. The clients are Jaeger's own in Ruby, with its calls in both protocols; OpenTelemetry's exporter for
Jaeger's agent, in Go; and what Apache Thrift's compiler makes for Python of the agent's service, over drawn batches in both
protocols.

It needs the built programs, ./spanx and ./spanx_agent; a client that isn't there is left out, and named. It is run at the top as
bench/services/agent_clients.py, and ends with 1 on a difference.
"""
import collections
import importlib
import json
import os
import socket
import subprocess
import sys
import tempfile
import threading
import time

sys.path.insert(1, os.path.dirname(os.path.dirname(os.path.realpath(__file__))))
import rooms  # first: it finds the others
import drawn
import jaeger
from agent import AGENT, FORMS, PATIENCE, Agent, differences, reading
from program import BUILD, PROGRAM, convert

HERE = os.path.dirname(os.path.abspath(__file__))
SERVICE = """
service Agent {
  oneway void emitBatch(1: Batch batch)
}

service Caller {
  void emitBatch(1: Batch batch)
}
"""


class LeftOut(Exception):
    """A client isn't there; its text names what is missing."""


def run(*words, **more):
    environment = {**os.environ, "GO111MODULE": "off", "GOPATH": "/usr/share/gocode"}
    try:
        return subprocess.run(words, check=True, capture_output=True, text=True, env=environment, timeout=300, **more)
    except FileNotFoundError:
        raise LeftOut(f"{words[0]} isn't there") from None
    except subprocess.CalledProcessError as why:
        raise LeftOut(why.stderr.strip().partition("\n")[0]) from None


def ruby(folder):
    try:
        run("ruby", "-e", "require 'jaeger/client'")
    except LeftOut as why:
        raise LeftOut(f"Debian's ruby-jaeger-client is missing: {why}") from None
    return lambda port: run("ruby", os.path.join(HERE, "sending_ruby", "main.rb"), str(port))


def go(folder):
    made = os.path.join(folder, "sending_go")
    try:
        run("go", "build", "-o", made, os.path.join(HERE, "sending_go", "main.go"))
    except LeftOut as why:
        raise LeftOut(f"Debian's golang-go or golang-opentelemetry-otel-dev is missing: {why}") from None
    return lambda port: run(made, str(port))


def python(folder):
    try:
        from thrift.protocol import TBinaryProtocol, TCompactProtocol
        from thrift.transport import TTransport
    except ImportError:
        raise LeftOut("Debian's python3-thrift is missing") from None
    path = os.path.join(folder, "jaeger_agent.thrift")
    with open(os.path.join(rooms.BENCH, "comparisons", "jaeger.thrift")) as schema, open(path, "w") as file:
        file.write(schema.read().replace("jaeger_batches", "jaeger_agent") + SERVICE)
    try:
        run("thrift", "--gen", "py", "-out", folder, path)
    except LeftOut as why:
        raise LeftOut(f"Debian's thrift-compiler is missing: {why}") from None
    sys.path.insert(0, folder)
    services = [importlib.import_module(f"jaeger_agent.{name}") for name in ["Agent", "Caller"]]
    types = importlib.import_module("jaeger_agent.ttypes")
    factories = [TBinaryProtocol.TBinaryProtocolFactory(), TCompactProtocol.TCompactProtocolFactory()]

    class Datagrams(TTransport.TMemoryBuffer):
        """Sends what was written as one datagram where it is flushed."""

        def __init__(self, sender, address):
            super().__init__()
            self.sender, self.address = sender, address

        def flush(self):
            self.sender.sendto(self.getvalue(), self.address)
            self.cstringio_buf.seek(0)
            self.cstringio_buf.truncate()

    def send(port):
        batches = drawn.Batches(1)
        with socket.socket(socket.AF_INET, socket.SOCK_DGRAM) as sender:
            for number in range(40):
                batch = types.Batch()
                text = jaeger.write_batch(batches.batch(), "jaeger-binary")
                batch.read(factories[0].getProtocol(TTransport.TMemoryBuffer(text)))
                for service, factory in zip(services, factories[:: (1, -1)[number % 2]]):
                    service.Client(factory.getProtocol(Datagrams(sender, ("127.0.0.1", port)))).send_emitBatch(batch)

    return send


CLIENTS = {
    "Jaeger's client in Ruby": ruby,
    "OpenTelemetry's exporter for Jaeger's agent, in Go": go,
    "Apache Thrift's client in Python": python,
}


def kept(send):
    """The datagrams that a client sends."""
    out, ended = [], threading.Event()
    with socket.socket(socket.AF_INET, socket.SOCK_DGRAM) as receiver:
        receiver.setsockopt(socket.SOL_SOCKET, socket.SO_RCVBUF, 2**22)
        receiver.bind(("127.0.0.1", 0))
        receiver.settimeout(0.5)

        def receive():
            while True:
                try:
                    out.append(receiver.recv(2**16))
                except TimeoutError:
                    if ended.is_set():
                        return

        thread = threading.Thread(target=receive)
        thread.start()
        try:
            send(receiver.getsockname()[1])
        finally:
            ended.set()
            thread.join()
    return out


def names(pieces):
    """How often each name stands among the spans of Zipkin."""
    return collections.Counter(span.get("name", "") for line in pieces.splitlines() for span in json.loads(line))


def of_batches(sent):
    """How often each name stands among the spans of datagrams that are good to Zipkin, and how many of them are."""
    found, good = collections.Counter(), 0
    for text in sent:
        read = reading(text)
        if not isinstance(read, int):
            status, output, _ = convert(read[1], read[0], "zipkin-json")
            good += status == 0
            found += names(output)
    return found, good


def straight(send, sent):
    """What differs where the client sends to the agent itself, whose outputs are files, so that it waits for nobody."""
    wanted, good = of_batches(sent)
    with tempfile.TemporaryFile() as output, tempfile.TemporaryFile() as notes:
        with Agent("zipkin-json", 2**32 - 1, stdout=output, stderr=notes) as agent:
            send(agent.port)
            agent.send(b"x")
            told, end = b"", time.monotonic() + PATIENCE
            while b" cause 40 " not in told and time.monotonic() < end:
                time.sleep(0.1)
                notes.seek(0)
                told = notes.read()
        output.seek(0)
        pieces = output.read()
    bad = len(told.splitlines()) - 1
    if names(pieces) != wanted or bad != len(sent) - good:
        yield f"straight to the agent: {len(pieces.splitlines())} pieces, {bad} bad ones, {told[:300]}"


def main():
    if not os.path.exists(PROGRAM) or not os.path.exists(AGENT):
        sys.exit(BUILD)
    found = 0
    with tempfile.TemporaryDirectory() as folder:
        for name, client in CLIENTS.items():
            try:
                send = client(folder)
            except LeftOut as why:
                print(f"left out: {name}: {why}")
                continue
            sent = kept(send)
            print(f"{name}: {len(sent)} datagrams of {min(map(len, sent))} to {max(map(len, sent))} bytes")
            found += sum([differences(to, sent) for to in FORMS])
            bad = list(straight(send, sent))
            print(f"straight to the agent: {len(bad)} differences", *bad, sep="\n  ")
            found += len(bad)
    sys.exit(bool(found))


if __name__ == "__main__":
    main()
