"""The parts of the measurement. Each takes the arguments of bench/run and a function that keeps a row of figures."""
import os

from . import mariadb, postgres, redis, rust, tarantool
from .cells import Cell, cells, measure
from .counted import instructions
from .documents import Corpus
from .kept import kept
from .lines import lines
from .people import people
from .program import TUNABLES, Program
from .room import room
from .sqlite import SQLite

READS = ("get", "equality", "falling", "scan")
EACH = [*cells(READS, 1), *cells(("get", "equality"), 4, 16), *cells(("commit",), 1, 4, 16)]
PAIRS = [(4, 4), (16, 4), (16, 1), (64, 32)]
FEW, MANY = 10_000, 1_000_000
# each setting of the C library, by its name in tables
SETTINGS = {"without settings": "", "with `tcache_count=10000` too": f"{TUNABLES}:glibc.malloc.tcache_count=10000"}
# each other system: how it is started, and a function that says whether it is installed
OTHERS = {
    "plain Rust": (rust.PlainRust, rust.built),
    "SQLite": (SQLite, lambda: os.path.exists("/usr/include/sqlite3.h")),
    "PostgreSQL": (postgres.PostgreSQL, postgres.programs),
    "MariaDB": (mariadb.MariaDB, mariadb.program),
    "Tarantool": (tarantool.Tarantool, tarantool.program),
    "Redis": (redis.Redis, redis.program),
}


def program(args, pair=(1, 1), **more):
    """Returns a function that starts the program."""
    return lambda corpus: Program(args.program, corpus, pair, **more)


def requests(args, add):
    """Requests of each kind by 1, 4 and 16 clients, flat and nested; then on pairs of shards and workers."""
    further = cells(("update", "ascending"), 1)
    measure(program(args), Corpus(args.usual), [*EACH, *further, Cell("update", 4)], args.share, add)
    measure(program(args), Corpus(args.usual, "nested"), [*cells(READS, 1), *cells(("commit",), 1, 4, 16), Cell("update")], args.share, add)
    for pair in PAIRS:
        measure(program(args, pair), Corpus(args.usual), EACH + further, args.share, add)


def sizes(args, add):
    """Few and many documents: queries on pairs of shards and workers, and what a commit takes."""
    queries, commit = cells(("equality", "falling"), 1), Cell("commit")
    for pair in [(1, 1), (16, 1), (64, 32)]:
        measure(program(args, pair), Corpus(min(args.usual, FEW)), queries + [commit] * (pair == (1, 1)), args.share, add)
    if args.most > args.usual:
        measure(program(args), Corpus(args.most), [commit], args.share, add)


def settings(args, add):
    """The settings of the C library: without them, and with more freed blocks kept for reuse."""
    for title, tunables in SETTINGS.items():
        def make(corpus):
            system = Program(args.program, corpus, tunables=tunables)
            system.name = f"{system.name} {title}"
            return system
        measure(make, Corpus(args.usual), cells(("get", "equality", "commit"), 1), args.share, add)


def other(name):
    """Returns the part that measures another system with the same documents and requests, if it is installed."""
    make, is_here = OTHERS[name]

    def part(args, add):
        if is_here():
            measure(make, Corpus(args.usual), EACH, args.share, add)
        else:
            args.say(f"{name} is not installed: it is left out")

    return part


OURS = {"requests": requests, "people": people, "room": room, "sizes": sizes, "kept": kept, "settings": settings, "instructions": instructions,
        "lines": lines}
PARTS = {**OURS, **{name: other(name) for name in OTHERS}}
