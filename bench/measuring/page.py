"""The text of docs/PERFORMANCE.md: that of bench/performance.md, with the tables of a measurement."""
import json
import re
import sys
import textwrap
from pathlib import Path

from .cells import KINDS, Cell
from .figures import is_less, middle, number, spread

TEMPLATE = Path(__file__).resolve().parent.parent / "performance.md"
PLACE = re.compile(r"<!-- bench/page: ([a-z ]+) -->")
MOST_LINES, WIDTH = 132, 148
ALL_PAIRS = [(1, 1), (4, 4), (16, 4), (16, 1), (64, 32)]
SYSTEMS = ["plain Rust", "SQLite", "PostgreSQL", "MariaDB", "Tarantool", "Redis"]
READS = ("get", "equality")
HARMFUL = ("half a head", "half a body", "an unread reply")


def read(name):
    with open(name, encoding="utf-8") as file:
        return json.load(file)


def where_of(pair, documents, sessions=16):
    return "mangod {}/{}".format(*pair) + f", {sessions} sessions" * (sessions != 16) + (f", {documents}" if documents else "")


class Measurement:
    """A measurement, with the figures of all parts by database, row and name."""

    def __init__(self, found):
        self.found, self.rows = found, {}
        for part in found["figures"].values():
            for where, rows in part.items():
                for row, figures in rows.items():
                    self.rows.setdefault(where, {}).setdefault(row, {}).update(figures)
        self.usual = f"{found['usual']:,} flat"
        self.nested = f"{found['usual']:,} nested"
        self.few = f"{min(found['usual'], 10_000):,} flat"

    def values(self, where, row, figure="processor"):
        """Returns the values of a figure; an empty list if it was not measured."""
        return self.rows.get(where, {}).get(str(row), {}).get(figure, [])

    def each(self):
        """Yields all figures: the database, the row, the name and the values."""
        for where, rows in self.rows.items():
            for row, figures in rows.items():
                yield from ((where, row, name, values) for name, values in figures.items())


def table(first, columns, rows):
    """Returns the lines of a table; none if nothing of it was measured. A row is a title and its cells: texts, or values that are shown with their
    spread."""
    lines = [f"| {title} | {' | '.join(one if isinstance(one, str) else spread(one) for one in cells)} |" for title, cells in rows if any(cells)]
    return [f"| {first} | {' | '.join(columns)} |", "|---" * (len(columns) + 1) + "|", *lines] if lines else []


def several(*figures):
    """Returns the text of figures in one cell; empty if none was measured."""
    return "; ".join(spread(values) or "not measured" for values in figures) if any(figures) else ""


def paragraph(words):
    """Returns the lines of a text."""
    return textwrap.wrap(words, WIDTH, break_long_words=False, break_on_hyphens=False)


def source(measurement):
    """Returns the lines on the source of the tables."""
    found = measurement.found
    if not found["figures"]:
        return ["No measurement of a quiet machine stands in bench/results."]
    there = {name: number for name, number in found["versions"].items() if number != "none"}
    absent = [name for name in found["versions"] if name not in there]
    versions = ", ".join(f"{name} {number}" for name, number in there.items()) + (f" (not installed: {', '.join(absent)})" if absent else "")
    loops = [look["loop_ms"] for look in found["looks"]]
    others, stolen = (max(look[name] for look in found["looks"]) for name in ("others", "stolen"))
    minutes = sum(part["took"] for part in found["parts"].values()) / 60
    again = sum(part.get("again", 0) for part in found["parts"].values())
    words = (f"Measured on {found['date']} at commit `{found['commit']}` in {minutes:.0f} minutes, on {found['machine']}, beside {versions}. "
             f"Meanwhile other processes took at most {others:.2f} processors, other machines of the host {stolen:.2f}, and a fixed loop took "
             f"{min(loops):.1f} to {max(loops):.1f} ms. A figure is the median of {found['turns']} turns of {found['seconds']:g} s, with the least "
             f"and the greatest in brackets.")
    if again:
        words += f" {again} times a part of a turn was measured again, since the machine was busy."
    if found["shared"]:
        words += " The host gives the processors of this virtual machine to others too: compare figures by their intervals alone."
    if not found["cycles"]:
        words += " This machine does not count cycles, so processor time stands for them."
    return paragraph(words)


def requests(measurement):
    """Returns a table of requests by some clients."""
    one, nested = (where_of((1, 1), documents) for documents in (measurement.usual, measurement.nested))
    rows = [(KINDS[kind][0], one, kind) for kind in ("get", "equality", "falling", "scan", "commit", "update")]
    rows.insert(5, ("the same, of a nested document", nested, "commit"))
    figures = [(1, "processor"), (4, "processor"), (1, "rate"), (4, "rate"), (16, "rate"), (16, "p99")]
    columns = ["processor time, µs: 1 client", "4 clients", "requests a second: 1 client", "4 clients", "16 clients", "99 % wait at most, 16 clients, µs"]
    return table(f"{measurement.found['usual']:,} flat documents, three indexes, one shard, one worker", columns,
                 [(title, [measurement.values(where, Cell(kind, clients), figure) for clients, figure in figures]) for title, where, kind in rows])


def people(measurement):
    """Yields a table with the rate and the waits of clients on few sessions."""
    usual, many, small = where_of((4, 4), measurement.usual, 4), where_of((4, 4), measurement.usual), where_of((4, 4), "1,000 flat", 4)
    rows = [(f"{KINDS['mix'][0]}; 16 clients", usual, [Cell("mix", 16)]), ("`GET`, 16 clients", usual, [Cell("get", 16)]),
            ("`GET`, 64 clients that pause 30 ms", usual, [Cell("get", 64, 30)]),
            ("`GET`, 1,000 clients that pause 30 ms; 16 sessions", many, [Cell("get", 1000, 30)]),
            *((f"{KINDS[kind][0]}, 1 client beside 4 that commit; 16 sessions", many, [f"{kind} by 1 beside commits by 4"]) for kind in READS),
            (f"`GET`, 1 client for 3 s beside 1,000 connections with {'; '.join(HARMFUL)}", small,
             [f"get by 1 beside 1,000 with {what}" for what in HARMFUL])]
    made = [(title, [several(*(measurement.values(where, row, figure) for row in cells)) for figure in ("rate", "median", "p99")])
            for title, where, cells in rows]
    yield from table("4 shards, 4 workers, 4 sessions where nothing else is said", ["requests a second", "median wait, µs", "99 % wait at most, µs"], made)
    answered = measurement.values(small, "5,000 at once", "answered")
    share = "" if answered and min(answered) == 1 else f"A share of {spread(answered)} of "
    said = [f"{before} {spread(values)} {after}." for before, values, after in [
        ("One client that sends 1,000 `GET`s at once has", measurement.values(usual, Cell("get", depth=1000), "rate"), "replies a second"),
        (f"{share}5,000 connections that each send a `GET` at once are answered within", measurement.values(small, "5,000 at once", "ms"), "ms"),
        ("Each of 5,000 silent connections takes", measurement.values(small, "5,000 idle", "bytes"), "bytes of memory")] if values]
    if said:
        yield from ("", *paragraph(" ".join(said)))


def less(some, others):
    """Returns the differences, turn by turn."""
    return [one - other for one, other in zip(some, others)]


def divided(values, by):
    return [value / by for value in values]


def room(measurement):
    """Returns a table of memory, of bulks, of many indexes, and of a commit among many documents."""
    one, nested = (where_of((1, 1), documents) for documents in (measurement.usual, measurement.nested))
    flat = lambda row, figure="bytes": measurement.values(one, row, figure)
    alone = lambda row, figure="bytes": measurement.values(where_of((1, 1), None), row, figure)
    many = lambda row, figure="bytes": measurement.values(where_of((64, 32), None), row, figure)
    most = sorted({min(10_000, measurement.found["usual"]), measurement.found["usual"], measurement.found["most"]})
    rows = [
        ("bytes of a flat document: no index; three indexes; no index and ascending ids; made and deleted",
         [*map(flat, ("load", "indexed", "ascending keys")), alone("a document that was made and deleted")]),
        ("bytes of a nested document: no index; three indexes", [measurement.values(nested, row, "bytes") for row in ("load", "indexed")]),
        ("bytes of an index: a row with random keys; with ascending keys; 10 rows, on each of 64 shards",
         [*(less(flat(f"{order} keys, with an index"), flat(f"{order} keys")) for order in ("random", "ascending")),
          many("an index of 10 rows, a shard")]),
        ("a flat document without indexes: blocks of memory; bytes in them for each further byte of its text",
         [alone("a flat document", figure) for figure in ("blocks", "bytes for a byte of text")]),
        ("bulks of 1,000 without indexes, µs of processor time a document: flat; nested; the first edit of a flat one",
         [flat("load", "processor"), measurement.values(nested, "load"), flat("random keys, edited", "processor")]),
        ("64 shards, 32 workers, 1,000 documents, ms by the clock: 250 indexes; 1,000 indexes; an index among 250; among 1,000",
         [many(f"{count} indexes", figure) for figure in ("ms", "ms each") for count in ("250", "1,000")]),
        (f"a commit, µs of processor time: among {'; '.join(f'{count:,}' for count in most)} documents",
         [measurement.values(where_of((1, 1), f"{count:,} flat"), Cell("commit")) for count in most]),
    ]
    return table(f"{measurement.found['usual']:,} documents", ["median (least to greatest), in this order"], [(title, [several(*figures)]) for title, figures in rows])


def pairs(measurement):
    """Returns a table of the pairs of shards and workers."""
    def cells(documents, row, figure="processor", sessions=16):
        return [measurement.values(where_of(pair, documents, sessions), row, figure) for pair in ALL_PAIRS]

    rows = []
    for documents in dict.fromkeys((measurement.usual, measurement.few)):
        for kind in ("equality", "falling"):
            counted = cells(documents, f"{kind}, counted", "instructions")
            both = [spread(used) + (f"; {number(middle(exact))}" if exact else "") for used, exact in zip(cells(documents, Cell(kind)), counted)]
            rows.append((f"{KINDS[kind][0]}, {documents}: µs of processor time; instructions", both))
    rows.append((f"{KINDS['scan'][0]}: ms by the clock", [divided(one, 1e3) for one in cells(measurement.usual, Cell("scan"), "median")]))
    rows.append((f"{KINDS['mix'][0]}; 16 clients, 4 sessions: requests a second", cells(measurement.usual, Cell("mix", 16), "rate", 4)))
    return table("shards/workers", ["{}/{}".format(*pair) for pair in ALL_PAIRS], rows)


# what is compared with other systems: a title, a row, a figure, whether more is better
COMPARED = [
    *((f"{KINDS[kind][0]}, µs", Cell(kind), "processor", False) for kind in ("get", "equality", "scan", "commit")),
    *((f"{KINDS[kind][0]}, a second by 16 clients", Cell(kind, 16), "rate", True) for kind in ("get", "equality", "commit")),
    ("load, µs a document", "load", "processor", False),
    ("an index on one field, ms", "index price", "processor", False),
    ("memory a document, bytes", "load", "bytes", False),
]


def others(measurement):
    """Returns a table of mangod beside the other systems: which are better, and which cannot be told apart. A system is better where the intervals
    of both do not touch."""
    rows = []
    for title, row, figure, more in COMPARED:
        ours = measurement.values(where_of((1, 1), measurement.usual), row, figure)
        theirs = {name: values for name in SYSTEMS if (values := measurement.values(f"{name}, {measurement.usual}", row, figure))}
        lower = {name for name, values in theirs.items() if is_less(values, ours)}
        higher = {name for name, values in theirs.items() if is_less(ours, values)}

        def cell(names):
            order = sorted(names, key=lambda name: middle(theirs[name]), reverse=more)
            return ", ".join(f"{name} {spread(theirs[name])}" for name in order)

        better, worse = (higher, lower) if more else (lower, higher)
        if ours and theirs:
            rows.append((title, [ours, cell(better), cell(set(theirs) - lower - higher), cell(worse)]))
    return table(f"{measurement.found['usual']:,} flat documents", ["mangod", "better", "not told apart", "worse"], rows)


def settings(measurement):
    columns = {"load, µs a document": ("load", "processor"), "`GET`, µs": (Cell("get"), "processor"),
               "20 documents by an index, µs": (Cell("equality"), "processor"), "a commit, µs": (Cell("commit"), "processor"), "bytes a document": ("load", "bytes"), "with three indexes": ("indexed", "bytes")}
    names = {"without the settings": "mangod 1/1 without settings", "with them": "mangod 1/1",
             "with `tcache_count=10000` too": "mangod 1/1 with `tcache_count=10000` too"}
    rows = [(title, [measurement.values(f"{name}, {measurement.usual}", *place) for place in columns.values()]) for title, name in names.items()]
    return table("processor time and memory, one client", columns, rows)


def kept(measurement):
    """Yields a table of what is kept on a disk, and what only the program that keeps it answers."""
    columns = {"commits a second: 1 client": (Cell("commit"), "rate"), "4 clients": (Cell("commit", 4), "rate"), "16 clients": (Cell("commit", 16), "rate"),
               "documents a second: loaded": ("load", "rate"), "read at a start": ("start", "rate"), "`GET`, µs": (Cell("get"), "processor"),
               "20 documents by an index, µs": (Cell("equality"), "processor")}
    names = ["mango_server 1/4", "mangod 1/4", "SQLite on the disk", "Python's sqlite3", "PostgreSQL on the disk"]
    rows = [(name, [measurement.values(f"{name}, {measurement.usual}", *place) for place in columns.values()]) for name in names]
    yield from table(f"{measurement.found['usual']:,} documents", columns, rows)
    asked = [(kind, names[0]) for kind in ("head", "root", "listing", "first")] + [("first", names[1])]
    said = [f"{KINDS[kind][0]} {spread(values)}" + " (mangod)" * (name == names[1]) for kind, name in asked
            if (values := measurement.values(f"{name}, {measurement.usual}", Cell(kind)))]
    if said:
        yield from ("", *paragraph(f"`mango_server`, µs of processor time: {'; '.join(said)}."))


TABLES = {"source": source, "requests": requests, "people": people, "room": room, "pairs": pairs, "kept": kept, "others": others, "settings": settings}


def text(found):
    """Returns the page of a measurement. Ends the run if bench/performance.md and this module have different tables, or if the page is too long."""
    kept, measurement = TEMPLATE.read_text(encoding="utf-8"), Measurement(found)
    unknown = set(PLACE.findall(kept)) ^ set(TABLES)
    if unknown:
        sys.exit(f"bench/performance.md and bench/measuring/page.py differ in the tables {', '.join(sorted(unknown))}")
    made = PLACE.sub(lambda match: "\n".join(TABLES[match[1]](measurement)), kept)
    if made.count("\n") > MOST_LINES:
        sys.exit(f"the page has {made.count(chr(10))} lines, more than {MOST_LINES}")
    return made
