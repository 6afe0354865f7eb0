"""Clients as people have them: many that pause, half requests, replies that nobody reads, readers beside writers; on few sessions."""
import contextlib
import json
import time

from . import client
from .cells import Cell, filled, measured, per_request, records_of
from .documents import BULK, Corpus
from .program import Program, message

SESSIONS = 4
PAIR = (4, 4)
# each is measured with these pairs of shards and workers
PAIRS = [(1, 1), (4, 4), (16, 4), (64, 32)]
MANY = 1000
USUAL = [Cell("mix", 16), Cell("get", 64, pause=30), Cell("get", MANY, pause=30)]
AT_ONCE = 5000
# a good client beside many that do harm waits at most so long, in seconds, and so do all that send at once
PATIENCE = 3
LONGEST = 20
HARMFUL = ("half a head", "half a body", "an unread reply")


def usual(args, add):
    """The mix, and clients that pause, with each pair; the rest with one."""
    corpus = Corpus(args.usual)
    for pair in PAIRS:
        with database(args, corpus, pair, SESSIONS) as (where, system):
            for cell in USUAL + [Cell("get", 16), Cell("get", depth=MANY)] * (pair == PAIR):
                add(where, str(cell), measured(system, cell, args.share))
    with database(args, corpus, PAIR, 16) as (where, system):
        add(where, str(Cell("get", MANY, pause=30)), measured(system, Cell("get", MANY, pause=30), args.share))
        for kind in ("get", "equality"):
            add(where, f"{kind} by 1 beside commits by 4", beside_commits(args, system, kind))


@contextlib.contextmanager
def database(args, corpus, pair, sessions):
    """Yields the name of a filled database, and its program."""
    with contextlib.closing(Program(args.program, corpus, pair, sessions)) as system:
        for _ in filled(system):
            pass
        yield f"{system.name}, {corpus.title}", system


def beside_commits(args, system, kind):
    """Returns the figures of a client that reads while four others make commits without a pause."""
    cell = Cell(kind)
    load = cell.load(args.share)
    writers = client.Load(clients=4, seconds=load.warm + load.seconds + 1)
    with client.sending(system, records_of(system, "commit", args.share), writers) as writing:
        figures = per_request(client.send(system, records_of(system, kind, args.share), load))
        if json.loads(writing.stdout.readline() or '{"wrong":1}')["wrong"]:
            raise SystemExit("commits beside a reader have failed")
    return figures


def small(args):
    """Returns a program with a thousand documents on few sessions."""
    return database(args, Corpus(BULK), PAIR, SESSIONS)


def harmful(system):
    """Returns what connections send that do harm, in the order of `HARMFUL`."""
    query = message("POST", "_find", {"selector": {system.corpus.path("price"): {"$gte": 0}}, "limit": BULK})
    return [b"GET /db/d00", query[:-10], query * 2]


def stuck(args, add):
    """A good client beside many that do harm. It waits at most `PATIENCE`; a `p99` of that length is a wait that was cut off."""
    many = int(MANY * args.scale)
    for place, what in enumerate(HARMFUL):
        with small(args) as (where, system):
            with client.held(system, [(0, b"", harmful(system)[place])], many):
                load = client.Load(seconds=max(0.3, PATIENCE * args.scale))
                report = client.send(system, records_of(system, "get", args.share), load, may_close=True)
            figures = per_request(report)
            # a wait that was cut off counts for those that it stands for
            for figure, least in (("median", 1), ("p99", 100)):
                if report["requests"] < least:
                    figures[figure] = max(figures.get(figure, 0), report["unanswered_for"])
            add(where, f"get by 1 beside {MANY:,} with {what}", figures)


def at_once(args, add):
    """Connections that are opened and each send a `GET` at once: the time until all are answered, at most `LONGEST`."""
    with small(args) as (where, system):
        load = client.Load(clients=int(AT_ONCE * args.scale), each=1, seconds=max(1, LONGEST * args.scale))
        report = client.send(system, records_of(system, "get", args.share), load, "--rush", "yes", may_close=True)
        add(where, f"{AT_ONCE:,} at once", {"ms": report["seconds"] * 1e3, "answered": report["requests"] / load.clients})


def idle(args, add):
    """The memory of connections that are silent after a reply; those that were not answered within two seconds are so as well."""
    many = int(AT_ONCE * args.scale)
    with small(args) as (where, system):
        system.rest()
        before = system.size()
        with client.held(system, [(0, b"", message("GET", system.corpus.name(1)))], many):
            time.sleep(max(0.1, 2 * args.scale))
            add(where, f"{AT_ONCE:,} idle", {"bytes": (system.size() - before) / many})


def people(args, add):
    for part in (usual, stuck, at_once, idle):
        part(args, add)
