"""Starts programs that listen on a free port of 127.0.0.1."""
import contextlib
import dataclasses
import random
import resource
import socket
import subprocess
import sys


@dataclasses.dataclass(frozen=True)
class Launch:
    """The program to start, and its numbers of shards and workers."""
    program: str
    shards: int
    workers: int


def free_port():
    """Returns a port at which a program can listen. The system gives none of these to a client by itself, so none is taken meanwhile."""
    for port in random.sample(range(10_240, 32_768), 100):
        with contextlib.suppress(OSError), socket.create_server(("127.0.0.1", port)):
            return port
    sys.exit("no port is free")


def descriptor_limit(descriptors):
    """Returns a function that limits the descriptors of a new program before it runs; None if no number is given."""
    if descriptors is None:
        return None
    return lambda: resource.setrlimit(resource.RLIMIT_NOFILE, (descriptors, descriptors))


def start(launch, sessions, environment=None, host="127.0.0.1", descriptors=None):
    """Starts a program that listens. Returns it and its port. Tries another port if another program took the first one."""
    for _ in range(3):
        port = free_port()
        command = [launch.program, "db", str(launch.shards), str(launch.workers), str(sessions), f"{host}:{port}"]
        program = subprocess.Popen(command, stdin=subprocess.DEVNULL, stdout=subprocess.PIPE, stderr=subprocess.PIPE, env=environment,
                                   preexec_fn=descriptor_limit(descriptors))
        line = program.stderr.readline()
        if line == b"mangod: listening\n":
            return program, port
        program.kill()
        program.communicate()
        if line != b"mangod: cannot listen\n":
            break
    sys.exit("the program does not listen")


@contextlib.contextmanager
def running(program, port):
    """Yields the port of a program that listens, and ends the program afterwards."""
    try:
        yield port
        if program.poll() is not None:
            sys.exit(f"the program ended with status {program.returncode}")
    finally:
        program.kill()
        program.communicate()


def listening(launch, sessions, environment=None, **more):
    """Starts a program that listens, yields its port, and ends the program afterwards."""
    return running(*start(launch, sessions, environment, **more))


@contextlib.contextmanager
def keeping(program, file, *more):
    """Starts the program that keeps its data on a file, yields its port, and ends the program afterwards."""
    port = free_port()
    command = [program, str(file), "--listen", f"127.0.0.1:{port}", "--shards", "3", "--workers", "2", *more]
    server = subprocess.Popen(command, stdin=subprocess.DEVNULL, stdout=subprocess.DEVNULL, stderr=subprocess.PIPE, text=True)
    with running(server, port):
        if not any(": listening at " in line for line in server.stderr):
            sys.exit("the program does not listen")
        yield port
