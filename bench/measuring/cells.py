"""Databases and their cells: what a load, the indexes, and requests of each kind by some clients take.

A cell is sent for a second, after a warm-up. It has the rate, the waits and the processor time of the server.
"""
import contextlib
import time
from dataclasses import dataclass

from . import client
from .documents import BULK, INDEXES
from .machine import counting_cycles

# each kind of request, and how many different ones are sent, again and again
KINDS = {
    "get": ("`GET` of a document", 20000),
    "equality": ("20 documents by an index", 5000),
    "falling": ("25 below a price, descending", 5000),
    "two": ("25 of a kind from a price on, two columns", 2000),
    "deep": ("page 1,000 of 25, by its bookmark", 2000),
    "scan": ("one document without an index", 200),
    "first": ("the first 1,000 documents by `_find`", 50),
    "listing": ("the first 1,000 documents by `_all_docs`", 50),
    "head": ("`HEAD` of a document", 20000),
    "root": ("`GET /`", 50),
    "commit": ("a commit of a new document", 5000),
    "ascending": ("the same, with ascending ids", 5000),
    "update": ("the first edit of a document", 5000),
    "mix": ("80 % queries by an index, 15 % `GET`, 5 % commits", 5000),
}
WARM = 0.2
SECONDS = 1.0
# a figure rests on at least so many replies
LEAST = 10
# edits are made of the documents of the first bulks, each once
EDITED_BULKS = 20


@dataclass(frozen=True)
class Cell:
    """Requests of a kind by some clients, each with a pause in milliseconds between its requests, and so many requests at once."""

    kind: str
    clients: int = 1
    pause: int = 0
    depth: int = 1

    def __str__(self):
        pause = f", {self.pause} ms apart" * bool(self.pause)
        return f"{self.kind} by {self.clients:,}{pause}" + f", {self.depth:,} at once" * (self.depth > 1)

    def load(self, share):
        # clients that pause are counted for longer, since few of their requests fit into a second
        seconds = SECONDS * share * (2 if self.pause else 1)
        return client.Load(clients=self.clients, pause=self.pause * 1000, depth=self.depth, warm=WARM * share, seconds=seconds, least=LEAST)


def cells(kinds, *clients):
    """Returns the cells of some kinds by each of some numbers of clients."""
    return [Cell(kind, number) for number in clients for kind in kinds]


def per_request(report):
    """Returns the figures of a report of the client: processor time in microseconds, requests a second, and waits in microseconds."""
    found = {name: report[name] for name in ("median", "p90", "p99", "max", "closed") if report.get(name)}
    if report["requests"] and report["processor"]:
        found["processor"] = report["processor"] / report["requests"] * 1e6
    return {**found, "rate": report["requests"] / report["seconds"]}


def load(system, keeps_revisions=False):
    """Loads the documents; returns the microseconds of processor time for each, and how many a second. Making the bulks is not counted."""
    corpus, numbers, used, clock = system.corpus, system.corpus.numbers(), 0, 0
    for at in range(0, corpus.count, BULK):
        part = numbers[at : at + BULK]
        bulk, before, begun = system.prepare_bulk(part), system.processor(), time.monotonic()
        reply = system.send_bulk(bulk, len(part))
        clock += time.monotonic() - begun
        used += system.processor() - before
        if keeps_revisions and at < EDITED_BULKS * BULK:
            system.keep_revisions(reply)
    return {"processor": used / corpus.count * 1e6, "rate": corpus.count / clock}


def build(system, which):
    """Builds an index; returns its processor time and its time by the clock in milliseconds."""
    before, clock = system.processor(), time.monotonic()
    system.index(which)
    return {"processor": (system.processor() - before) * 1e3, "clock": (time.monotonic() - clock) * 1e3}


def filled(system, wanted=()):
    """Loads the documents and builds the indexes; yields the rows of a database, each with its figures: processor time and memory."""
    count, empty = system.corpus.count, system.size()
    loaded = load(system, any(one.kind == "update" for one in wanted))
    yield "load", {**loaded, "bytes": (system.size() - empty) / count}
    if "equality" in system.kinds:
        for which in INDEXES:
            yield f"index {which}", build(system, which)
        yield "indexed", {"bytes": (system.size() - empty) / count}
    system.settle()


def records_of(system, kind, share):
    """Returns the requests of a kind for the client in C."""
    number = max(50, int(KINDS[kind][1] * min(1, share)))
    return system.updates(number) if kind == "update" else system.records(system.corpus.requests(kind, number))


def measured(system, cell, share):
    """Returns the figures of a cell. Each edit is sent once."""
    records = records_of(system, cell.kind, share)
    if hasattr(system, "run"):
        return per_request(system.run(records, cell.load(share)))
    if cell.kind == "update":
        return per_request(client.send(system, records, client.Load(clients=cell.clients, count=len(records), seconds=10)))
    with counting_cycles(system.pids()) as cycles:
        report = client.send(system, records, cell.load(share), may_close=bool(cell.pause))
    return {**per_request(report), **{name: value / max(1, report["all"]) for name, value in cycles.items()}}


def measure(make, corpus, wanted, share, add):
    """Starts a system, fills it, and measures its cells. `add` takes each row: the database, the name of the row, and its figures."""
    with contextlib.closing(make(corpus)) as system:
        where = f"{system.name}, {corpus.title}"
        wanted = [cell for cell in wanted if cell.kind in system.kinds]
        for row, figures in filled(system, wanted):
            add(where, row, figures)
        system.check({cell.kind for cell in wanted})
        for cell in wanted:
            add(where, str(cell), measured(system, cell, share))
