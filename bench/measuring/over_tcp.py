"""Counts what a `GET` takes over TCP: the system calls that the program makes, by a preloaded shim, and instructions, by callgrind. A head is
long, or comes in two pieces, so that a head that is parsed more often is seen."""
import contextlib
import tempfile
import time

from .calls import MEMORY, calls
from .cells import load
from .counted import TOOL, Counter
from .documents import BULK, Corpus
from .program import Program, message

REQUESTS = 100
# one session, so that no two threads meet by chance
SESSIONS = 1
# A pause in seconds, after which no thread waits for the client any more, so that each piece is an event of its own; the same under valgrind,
# where a visit takes longer; and how long a program may take to become still.
PAUSE, LONG_PAUSE, STILL = 0.003, 0.02, 0.1
FILLER = b"".join(b"X-Filler-%d: %s\r\n" % (number, b"a" * 80) for number in range(40))


def heads(text):
    """Returns the pieces in which a message is sent, by the name of the row."""
    long = text.replace(b"\r\n", b"\r\n" + FILLER, 1)
    # within the value of a field in the middle
    half = long.index(b"X-Filler-20: ") + 50
    return {"GET": [text], "GET with a long head": [long], "GET with a long head in two pieces": [long[:half], long[half:]]}


def ask(connection, pieces, pause):
    """Sends a message in pieces, with a pause before each; the reply must be one of success."""
    for piece in pieces[:-1]:
        time.sleep(pause)
        connection.socket.sendall(piece)
    time.sleep(pause)
    status, reply = connection.exchange(pieces[-1])
    if status != b"200":
        raise SystemExit(f"{pieces[0][:100]!r} was answered by {status} {reply[:300]}")


def pipelined(connection, text, number):
    """Sends requests at once, and reads their replies."""
    connection.socket.sendall(text * number)
    data = b""
    while data.count(b"\r\n\r\n{") < number:
        data += connection.socket.recv(1 << 18)


@contextlib.contextmanager
def loaded(path, **more):
    """Yields the program with a thousand documents, and a connection to it."""
    with contextlib.closing(Program(path, Corpus(BULK), (1, 1), SESSIONS, tunables="", **more)) as system:
        load(system)
        system.rest()
        connection = system.client()
        yield system, connection, message("GET", system.corpus.name(1))
        connection.socket.close()


def system_calls(path):
    """Returns the system calls for each request of a client that pauses, and of requests that are sent at once: reads, writes, waits, others."""
    with calls() as (environment, counts), loaded(path, environment=environment) as (_, connection, text):
        def counted(work):
            time.sleep(STILL)
            before = counts()
            work()
            return {name: round((after - before[name]) / REQUESTS, 3) for name, after in counts().items() if name not in MEMORY}

        def again():
            for _ in range(REQUESTS):
                ask(connection, [text], PAUSE)

        again()
        return {"GET": counted(again), "GETs at once": counted(lambda: pipelined(connection, text, REQUESTS))}


def instructions(path):
    """Returns the instructions of a request of a client that pauses, for each form of its head."""
    with tempfile.TemporaryDirectory() as folder:
        counter = Counter(folder)
        with loaded(path, tool=[*TOOL, *counter.options()]) as (system, connection, text):
            found = {}
            for row, pieces in heads(text).items():
                def again():
                    for _ in range(REQUESTS):
                        ask(connection, pieces, LONG_PAUSE)
                found[row] = round(counter.count(system.process.pid, again, again)["Ir"] / REQUESTS)
            return found


def over_tcp(path):
    """Returns all counts."""
    return {"system calls": system_calls(path), "instructions": instructions(path)}
