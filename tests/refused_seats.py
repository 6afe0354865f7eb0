#!/usr/bin/env python3
"""Refuses memory and threads to a program that serves two seats over TCP, and checks the effect from the other seat.

usage: refused_seats.py --program PATH [--full]

One client sends a command while the shim refuse/refuse.c refuses its nth request for memory, or that and all later ones, for each n until
a command meets no refusal (without --full, not for each n). The reply is that of the model (the folder model/), or `out_of_memory`, the
latter only if a request was refused. Then the other client, for whom nothing is refused, sees all indexes and documents as the model has
them: nothing of a command that was answered `out_of_memory`, and everything of one that was accepted. A connection may end after
`out_of_memory`; then the next one is served. The first write after a start is tested in the same way, while all requests from the nth on
are refused until it is answered: it must not wait for memory. Then two clients make bulks, indexes, reshards and queries concurrently,
while requests are refused at random (seeded), and afterwards exactly what was accepted is found. The start is refused memory, too: it
ends with `mangod: out of memory`, or clients are served. Last, one of two sessions is refused its thread, and the other one serves. The
shim needs a C compiler, `cc`. The last line is 'N passed, M failed'.
"""
import random
import subprocess
import sys
import threading
import time

from common.arguments import arguments
from common.messages import bulk, get, post, post_json
from common.refusal import ONWARD, refusals
from common.server import Launch, free_port, listening
from common.tally import Tally
from common.wire import Wire
from model.database import OUT_OF_MEMORY, Database
from model.documents import text_of

WRITES = 60
# the seconds within which a write must be answered
ANSWERED = 10
NUMBERS = [3, 64, 1, 16]


def find(**query):
    return post_json("_find", query)


def index(column, name):
    return post_json("_index", {"index": {"fields": [column]}, "ddoc": "x", "name": name})


def reshard(turn):
    return post("_placement", b'{"shards":%d}' % NUMBERS[turn % len(NUMBERS)])


LIST = get("_index")
CLOSING_LIST = b"GET /db/_index HTTP/1.1\r\nConnection: close\r\n\r\n"
ALL = find(selector={}, limit=100_000, conflicts=True)
BY_INDEX = find(selector={"n": {"$gt": None}}, fields=["_id", "n"], limit=100_000)
BY_NUMBER = find(selector={"n": {"$gte": 30}}, fields=["_id", "n"], limit=100_000)


def three_edits(database, turn):
    """Returns a bulk of an edit of one document, an edit of another that conflicts, and a document without an id."""
    leaf = database.documents["e"].leaves()[0]
    return bulk([{"_id": "e", "_rev": text_of(leaf), "n": turn}, {"_id": "f", "n": 0}, {"n": turn}])


# the name of each command, and its message, from the current database and the turn
COMMANDS = {
    "a new document": lambda database, turn: bulk([{"_id": f"k{turn}", "n": turn, "x": ["y" * 50] * 3}]),
    "an edit, a conflict and a document without an id": three_edits,
    "three replicas": lambda database, turn: bulk(
        [{"_id": name, "_rev": f"2-{turn}", "_revisions": {"start": 2, "ids": [f"{turn}", f"p{turn}"]}, "n": turn} for name in "gh"]
        + [{"_id": "f", "_rev": "2-z", "_deleted": True}], new_edits=False),
    "an index": lambda database, turn: index(["m", "n"][turn % 2], "other"),
    "an index that is dropped": lambda database, turn: b"DELETE /db/_index/x/json/other HTTP/1.1\r\n\r\n",
    "a page": lambda database, turn: BY_INDEX,
    "an explanation": lambda database, turn: post("_explain", b'{"selector":{"n":{"$gte":3,"$lt":9}},"sort":["n"]}'),
    "the indexes": lambda database, turn: LIST,
    "a document": lambda database, turn: get("e?conflicts=true"),
    "a reshard": lambda database, turn: reshard(turn),
}


def both_seats(port):
    """Two clients, each of which got a reply: so each has a seat."""
    clients = [Wire(port), Wire(port)]
    for client in clients:
        client.ask(LIST)
    return clients


class Seats:
    """Two clients of a program, and the model of its database."""

    def __init__(self, port, refusal):
        self.port, self.refusal, self.database = port, refusal, Database()
        self.one, self.other = both_seats(port)
        for message in (index("n", "by"), bulk([{"_id": "e", "n": 1}, {"_id": "f", "n": 2}])):
            if fault := self.ask_other(message):
                raise ValueError(fault)

    def fault(self, message, found):
        """Returns the fault in a reply, which must be that of the model; None if it is right."""
        expected = self.database.answer(message)
        return None if found == expected else f"{message[:80]!r}: {found[-300:]!r}\n    expected {expected[-300:]!r}"

    def ask_other(self, message):
        """Sends a message of the other client. Returns the fault in its reply."""
        return self.fault(message, self.other.ask(message))

    def ask_refused(self, message, first, onward):
        """Sends a message of the first client while memory is refused. Returns whether it was answered `out_of_memory`, the fault in its
        reply, and whether a request was refused."""
        self.refusal.reset()
        self.refusal.refuse("memory", first, ONWARD if onward else first)
        found = self.one.ask(message)
        was_refused = self.refusal.refused("memory") > 0
        self.refusal.stop_refusing("memory")
        if found == OUT_OF_MEMORY and was_refused:
            if self.one.ask(LIST) == b"":
                self.one.close()
                self.one = Wire(self.port)
            return True, None, was_refused
        return False, self.fault(message, found), was_refused

    def refuse_each(self, make, onward, step):
        """Refuses each request in turn. Returns how many commands were answered `out_of_memory`, and the faults."""
        count, faults, first, was_refused = 0, [], 1, True
        while was_refused:
            message = make(self.database, first)
            is_out_of_memory, fault, was_refused = self.ask_refused(message, first, onward)
            count += is_out_of_memory
            faults += [f"request {first}: {found}" for found in (fault, *map(self.ask_other, (ALL, LIST, BY_INDEX))) if found]
            first += step
        return count, faults


def check_two_seats(port, refusal, full, label, tally):
    seats = Seats(port, refusal)
    for name, make in COMMANDS.items():
        for onward in (False, True):
            seats.ask_other(index("m", "other"))
            count, faults = seats.refuse_each(make, onward, 1 if full else 5 if onward else 2)
            tally.expect(f"{label}: {name}{', from one on' if onward else ''}", faults[:3], [])
            tally.expect(f"{label}: {name} was refused memory", count > 0, True)


def check_first_writes(refusal, launch, tally):
    """The first write of a program, which makes room that later writes reuse. While all requests for memory from one on stay refused, it is
    answered or its session ends, and the other client sees it exactly if it was accepted."""
    message, first, count, was_refused = bulk([{"_id": "a", "n": 1}]), 0, 0, True
    while was_refused:
        first += 1
        database = Database()
        with listening(launch, 2, refusal.environment) as port:
            one, other = both_seats(port)
            refusal.reset()
            refusal.refuse("memory", first, ONWARD)
            one.socket.settimeout(ANSWERED)
            try:
                found = one.ask(message)
            except TimeoutError:
                found = b"no reply"
            was_refused = refusal.refused("memory") > 0
            refusal.stop_refusing("memory")
            is_out_of_memory = was_refused and found in (b"", OUT_OF_MEMORY)
            count += is_out_of_memory
            if not is_out_of_memory:
                tally.expect(f"the first write, all requests from {first} on refused", found, database.answer(message))
            if found != b"no reply":
                tally.expect(f"what is seen after it, from {first} on", other.ask(ALL), database.answer(ALL))
            one.close()
            other.close()
    tally.expect("some first writes were refused", count > 20, True)


def check_connections(port, refusal, label, tally):
    """Memory is refused from the moment a client connects. It gets its reply, `out_of_memory`, or nothing; and the next client is served."""
    faults, count = [], 0
    expected = Database().answer(LIST)
    for client in both_seats(port):
        client.close()
    for first in range(1, 60):
        refusal.reset()
        refusal.refuse("memory", first, ONWARD)
        client = Wire(port)
        found = client.ask(CLOSING_LIST)
        client.close()
        count += refusal.refused("memory") > 0
        allowed = (b"", OUT_OF_MEMORY, expected) if refusal.refused("memory") else (expected,)
        refusal.stop_refusing("memory")
        if found not in allowed:
            faults.append(found)
        client = Wire(port)
        if (found := client.ask(LIST)) != expected:
            faults.append(found)
        client.close()
    tally.expect(f"{label}: clients that come while memory is refused", faults, [])
    tally.expect(f"{label}: a client's session was refused memory", count > 0, True)


class Writer:
    """A client that makes bulks, indexes, reshards and queries, and the model of what was accepted from it: documents and indexes that no
    other client touches. A connection may end without a reply at its beginning (its session got no memory, which counts as a reply
    `out_of_memory`), and after a reply `out_of_memory`."""

    def __init__(self, port, number):
        self.port, self.number = port, number
        self.database, self.refused, self.wrong = Database(), 0, []

    def messages(self):
        for turn in range(WRITES):
            yield bulk([{"_id": f"w{self.number}-{turn}", "n": turn, "v": ["z" * 30], "w": self.number}])
            if turn % 6 == 1:
                yield index(["n", "v"][turn % 4 // 2], f"i{self.number}-{turn}")
            if turn % 6 == 3:
                yield reshard(turn)
            if turn % 6 == 5:
                yield find(selector={"w": self.number}, fields=["_id", "n"], limit=1000)

    def run(self):
        client, before = Wire(self.port), None
        for message in self.messages():
            found = client.ask(message)
            if found == OUT_OF_MEMORY or (found == b"" and before is None):
                self.refused += 1
            elif not (found == b"" and before == OUT_OF_MEMORY) and (expected := self.database.answer(message)) != found:
                self.wrong.append((found[-300:], expected[-300:]))
            before = found
            if found == b"":
                client.close()
                client, before = Wire(self.port), None
        client.close()


def run_while_refused(writers, refusal, chance):
    """Runs writers at the same time, while requests for memory are refused at random."""
    threads = [threading.Thread(target=writer.run) for writer in writers]
    refusal.reset()
    for thread in threads:
        thread.start()
    while any(thread.is_alive() for thread in threads):
        first = refusal.calls("memory") + chance.randint(1, 240)
        refusal.refuse("memory", first, first + chance.choice([0, 0, 1, 5]))
        for thread in threads:
            thread.join(0.001)
    refusal.stop_refusing("memory")


def check_two_writers(port, refusal, label, seed, tally):
    """Two writers run while requests are refused at random. Afterwards exactly what was accepted is found."""
    for client in both_seats(port):
        client.close()
    writers = [Writer(port, number) for number in range(2)]
    run_while_refused(writers, refusal, random.Random(seed))
    tally.expect(f"{label}: replies to two writers", [writer.wrong[:3] for writer in writers], [[], []])
    count, refused = sum(writer.refused for writer in writers), refusal.refused("memory")
    tally.expect(f"{label}: {count} commands out of memory, {refused} requests refused", 0 < count <= refused, True)
    accepted = Database()
    for writer in writers:
        accepted.documents.update(writer.database.documents)
        accepted.indexes.update(writer.database.indexes)
    client = Wire(port)
    found = {message: client.ask(message) for message in (ALL, LIST, BY_NUMBER)}
    client.close()
    tally.expect(f"{label}: exactly what was accepted is found", found, {message: accepted.answer(message) for message in found})
    tally.expect(f"{label}: some documents were accepted", 0 < len(accepted.documents) <= 2 * WRITES, True)


def check_starts(refusal, program, tally):
    """Each request for memory of the start is refused, alone or with all later ones: the program reports that and ends, or it serves."""
    expected, ended, served = Database().answer(LIST), 0, 0
    for first in range(1, 80):
        for last in (first, ONWARD):
            refusal.reset()
            refusal.refuse("memory", first, last)
            port = free_port()
            command = [program, "db", "7", "2", "2", f"127.0.0.1:{port}"]
            process = subprocess.Popen(command, stdin=subprocess.DEVNULL, stderr=subprocess.PIPE, env=refusal.environment)
            if found := first_reply(process, port, refusal):
                tally.expect(f"served, request {first} of the start refused", found, expected)
                served += 1
                process.kill()
                process.wait()
            else:
                line, was_refused = process.stderr.read().removeprefix(b"mangod: listening\n"), refusal.refused("memory") > 0
                tally.expect(f"request {first} of the start refused", (process.wait(), line, was_refused), (1, b"mangod: out of memory\n", True))
                ended += 1
            process.stderr.close()
    tally.expect("some starts ended and some served", ended > 20 and served > 20, True)


def first_reply(process, port, refusal):
    """Returns the first reply of a starting program that is not `out_of_memory`; empty if it ended first. The first client to
    connect ends the refusals; it may have been refused memory itself."""
    while process.poll() is None:
        try:
            client = Wire(port)
        except ConnectionError:
            time.sleep(0.002)
            continue
        refusal.stop_refusing("memory")
        found = client.ask(LIST)
        client.close()
        if found not in (b"", OUT_OF_MEMORY):
            return found
    return b""


def check_one_seat(refusal, launch, tally):
    """One of two sessions gets no thread: the other one serves one client after another."""
    refusal.reset()
    refusal.refuse("threads", 1, ONWARD)
    database = Database()
    with listening(launch, 2, refusal.environment) as port:
        for turn in range(3):
            client = Wire(port)
            message = bulk([{"_id": f"s{turn}"}])
            tally.expect(f"one seat, client {turn}", client.ask(message), database.answer(message))
            client.close()
        tally.expect("a thread was asked for", refusal.calls("threads") > 0, True)


def check_all(refusal, program, full, tally):
    small = Launch(program, 1, 1)
    for launch in (Launch(program, 7, 2), small):
        label = f"{launch.shards} shards, {launch.workers} workers"
        with listening(launch, 2, refusal.environment) as port:
            check_two_seats(port, refusal, full, label, tally)
        with listening(launch, 2, refusal.environment) as port:
            check_connections(port, refusal, label, tally)
        for seed in range(12 if full else 3):
            with listening(launch, 2, refusal.environment) as port:
                check_two_writers(port, refusal, f"{label}, seed {seed}", seed, tally)
    check_first_writes(refusal, small, tally)
    check_starts(refusal, program, tally)
    check_one_seat(refusal, small, tally)


def main():
    args, tally = arguments(__doc__), Tally()
    if tally.needs("cc"):
        with refusals() as refusal:
            check_all(refusal, args.program, args.full, tally)
    return tally.end()


if __name__ == "__main__":
    sys.exit(main())
