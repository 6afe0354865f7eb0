"""Builds the client in C (client/client.c), and lets it send requests to a system that is measured."""
import contextlib
import dataclasses
import functools
import itertools
import json
import os
import struct
import subprocess
import tempfile

FOLDER = os.path.join(os.path.dirname(os.path.dirname(os.path.abspath(__file__))), "client")
# the numbers in the ids of new documents go on from client to client
NUMBERS = itertools.count(step=10**7)


@functools.cache
def scratch():
    """Returns a folder that is removed at the end."""
    return tempfile.TemporaryDirectory(prefix="bench-")


@functools.cache
def compiled(source, *options):
    """Compiles a file of client/, and returns the path of the program, or of a shared object."""
    made = os.path.join(scratch().name, source.replace(".c", ".out"))
    subprocess.run(["cc", "-O2", "-o", made, os.path.join(FOLDER, source), *options], check=True)
    return made


def written(records):
    """Writes requests for the client into a file. Returns its name, which the caller removes."""
    descriptor, name = tempfile.mkstemp(dir=scratch().name)
    with open(descriptor, "wb") as file:
        for code, mark, text in records:
            file.write(struct.pack("<III", code, len(mark), len(text)) + mark + text)
    return name


@dataclasses.dataclass(frozen=True)
class Load:
    """How requests are sent: by how many clients, with which pause in microseconds, how many at once, and when the client ends."""

    clients: int = 1
    pause: int = 0
    depth: int = 1
    each: int = 2**40
    count: int = 2**40
    least: int = 0
    warm: float = 0
    seconds: float = 1

    def options(self):
        return [word for name, value in dataclasses.asdict(self).items() for word in (f"--{name}", str(value))]


@contextlib.contextmanager
def sending(system, records, load, *more):
    """Starts a client that sends requests, and yields its process."""
    name, sockets = written(records), system.sockets(load.clients)
    place = ["--fds", ",".join(str(one.fileno()) for one in sockets)] if sockets else ["--port", str(system.port)]
    args = [compiled("client.c"), *place, "--pid", ",".join(map(str, system.pids())), "--framing", system.framing, "--file", name]
    args += [*load.options(), "--first", str(next(NUMBERS)), *more]
    process = subprocess.Popen(args, stdin=subprocess.PIPE, stdout=subprocess.PIPE, text=True,
                               pass_fds=[one.fileno() for one in sockets or []])
    try:
        yield process
    finally:
        process.stdin.close()
        process.wait()
        process.stdout.close()
        os.unlink(name)
        for one in sockets or []:
            one.close()


def send(system, records, load, *more, may_close=False):
    """Sends requests, and returns the report of the client. A wrong reply, or a connection that was closed, ends the run."""
    with sending(system, records, load, *more) as process:
        text = process.stdout.readline()
    report = json.loads(text) if text else {"wrong": 1}
    if report["wrong"] or (report["closed"] and not may_close):
        raise SystemExit(f"{system.name}: the client has failed: {text}")
    return report


@contextlib.contextmanager
def held(system, records, clients):
    """Opens connections that each send the first bytes of a request, or requests, and read nothing."""
    with sending(system, records, Load(clients=clients), "--hold", "ready") as process:
        if process.stdout.readline() != "ready\n":
            raise SystemExit("the connections that read nothing are not open")
        yield
