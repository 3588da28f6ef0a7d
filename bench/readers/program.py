"""Runs the built program as ./spanx does. It needs Debian's `time` for the peak of memory."""
import os
import re
import resource
import signal
import subprocess
import sys
import tempfile
import time

sys.path.insert(1, os.path.dirname(os.path.dirname(os.path.realpath(__file__))))
import rooms

TOP = rooms.TOP
PROGRAM = os.path.join(TOP, "crates", "spanx", "out", "spanx")
BUILD = "build the program first: ./spanx convert --from otlp-proto --to otlp-proto < examples/checkout.bin"


def set_as_the_launcher_does():
    """Gives what is run the settings that ./spanx gives the program, unless there are some."""
    with open(os.path.join(TOP, "spanx")) as launcher:
        name, settings = re.search(r"^(\w+)=\$\{\1-(.+)\}$", launcher.read(), re.MULTILINE).groups()
    os.environ.setdefault(name, settings)


set_as_the_launcher_does()


def command(source, target):
    """The words that convert one form into another."""
    return [PROGRAM, "convert", "--from", source, "--to", target]


def report_command(mode, source):
    """The words that report of a form, by the mode `show` or `check`."""
    return [PROGRAM, mode, "--from", source]


def losses_command(source, target):
    """The words that tell what one form loses in another."""
    return [PROGRAM, "losses", "--from", source, "--to", target]


CONVERT = command("otlp-proto", "otlp-proto")


def answer(words, text):
    """The status, the output and the note of a command for an input."""
    done = subprocess.run(words, input=text, capture_output=True)
    return done.returncode, done.stdout, done.stderr.decode(errors="replace")


def convert(text, source="otlp-proto", target="otlp-proto"):
    return answer(command(source, target), text)


def report(text, source, mode):
    return answer(report_command(mode, source), text)


def losses(text, source, target):
    return answer(losses_command(source, target), text)


def headers(block, form):
    return answer([PROGRAM, "headers", "--to", form], block)


def seconds_of(command, path):
    """How long a command takes over a file, with the output thrown away, and how much of it is user time."""
    with open(path, "rb") as source, open(os.devnull, "wb") as sink:
        used = resource.getrusage(resource.RUSAGE_CHILDREN).ru_utime
        start = time.perf_counter()
        subprocess.run(command, stdin=source, stdout=sink, stderr=subprocess.DEVNULL)
        seconds = time.perf_counter() - start
        return seconds, resource.getrusage(resource.RUSAGE_CHILDREN).ru_utime - used


class Measured:
    """One run over a file: seconds, status, note, output and the peak of memory in bytes."""

    def __init__(self, command, path, limit):
        with tempfile.TemporaryFile() as out, tempfile.NamedTemporaryFile() as peak, open(path, "rb") as source:
            timed = ["/usr/bin/time", "--quiet", "-f", "%M", "-o", peak.name] + command
            start = time.perf_counter()
            process = subprocess.Popen(timed, stdin=source, stdout=out, stderr=subprocess.PIPE, start_new_session=True)
            try:
                note = process.communicate(timeout=limit)[1]
                self.status, self.note = process.returncode, note.decode(errors="replace").strip()
            except subprocess.TimeoutExpired:
                os.killpg(process.pid, signal.SIGKILL)
                process.communicate()
                self.status, self.note = None, f"ended after {limit} seconds"
            self.seconds = time.perf_counter() - start
            out.seek(0)
            self.output = out.read()
            self.memory = int((peak.read().split() or [b"0"])[-1]) * 1024
