#!/usr/bin/python3
"""Counts the instructions that the built agent takes for a datagram, by valgrind's callgrind: they hang neither on the machine
nor on its load.

Of the same batch in both protocols, of one span and of four, to each form: the agent runs for 20 datagrams and for 220, and what
the 200 more took is parted among them. What the system does for a datagram isn't counted. It needs the built program,
./spanx_agent, and is run at the top as bench/speed/agent_counts.py [AGENT], where AGENT is another program of the kind. It takes
a minute.
"""
import os
import re
import socket
import subprocess
import sys
import time

sys.path.insert(1, os.path.dirname(os.path.dirname(os.path.realpath(__file__))))
import rooms  # first: it finds the others
import agent
import agent_speed
import jaeger
import program

FEW, MANY = 20, 220
WRITERS = {"compact": ("jaeger-compact", agent.compact_message), "binary": ("jaeger-binary", agent.binary_message)}


def datagrams():
    """Each datagram, by its name."""
    _, unit, _ = jaeger.next_unit(agent.example("checkout_batch.bin"), 0)
    batches = {"1 span": agent_speed.batch_of_one(), "4 spans": jaeger.read_batch(unit)}
    for name, batch in batches.items():
        for protocol, (form, message) in WRITERS.items():
            yield f"{name}, {protocol}", message(jaeger.write_batch(batch, form))


def counted(to, text, count):
    """The instructions of a run that ends with so many datagrams."""
    with socket.socket(socket.AF_INET, socket.SOCK_DGRAM) as sender:
        sender.bind(("127.0.0.1", 0))
        address = "127.0.0.1", sender.getsockname()[1] ^ 1
        given = ["valgrind", "--tool=callgrind", "--callgrind-out-file=/dev/null"]
        given += agent.words(f"127.0.0.1:{address[1]}", to, count)
        run = subprocess.Popen(given, stdout=subprocess.DEVNULL, stderr=subprocess.PIPE, text=True)
        while run.poll() is None:
            for _ in range(10):
                sender.sendto(text, address)
            time.sleep(0.02)
        told = run.stderr.read()
    if run.returncode:
        sys.exit(told)
    return int(re.search(r"Collected : (\d+)", told)[1])


def main():
    agent.AGENT = os.path.abspath(sys.argv[1]) if len(sys.argv) > 1 else agent.AGENT
    if not os.path.exists(agent.AGENT):
        sys.exit(program.BUILD)
    print(f"instructions for a datagram to {', '.join(agent.FORMS)}")
    for name, text in datagrams():
        each = [(counted(to, text, MANY) - counted(to, text, FEW)) / (MANY - FEW) for to in agent.FORMS]
        print(f"{name}, {len(text):,} bytes: {', '.join(f'{one:,.0f}' for one in each)}", flush=True)


main()
