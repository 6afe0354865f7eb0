"""The figures that the open issues name, with what each issue wants. `before` is the measurement before the work of the issue: `bench/page --beside`
compares with it."""
from .cells import Cell
from .page import divided, less, where_of

# the crates that an issue makes smaller, and by how many lines
FEWER = {
    "A value is its text": (("mg_value", "mg_packed"), {"code": 500, "proofs": 700}),
    "A document in two blocks": (("mg_revtree", "mg_doc", "mg_shard"), {"code": 900, "proofs": 2000}),
    "One tree": (("mg_pages", "mg_rows"), {"code": 500, "proofs": 1000}),
    "One cursor, one merge": (("mg_scan", "mg_merge", "mg_query", "mg_range", "mg_shard"), {"code": 900, "definitions": 250, "proofs": 1500}),
}


def beside(some, others):
    """Returns the ratios, turn by turn."""
    return [one / other for one, other in zip(some, others) if other]


class Goals:
    """The rows of each issue: what the figure is, its values, and what is wanted of it."""

    def __init__(self, measurement):
        self.value, self.sizes = measurement.values, (measurement.few, measurement.usual)
        self.flat, self.nested, self.few = (where_of((1, 1), one) for one in (measurement.usual, measurement.nested, measurement.few))
        self.most = where_of((1, 1), f"{measurement.found['most']:,} flat")
        self.busy, self.many = where_of((4, 4), measurement.usual), where_of((64, 32), None)
        self.served, self.kept, self.sqlite = (f"{name}, {measurement.usual}" for name in ("mangod 1/4", "mango_server 1/4", "SQLite on the disk"))

    def cell(self, where, kind, clients=1, figure="processor"):
        return self.value(where, Cell(kind, clients), figure)

    def bytes(self, where, row):
        return self.value(where, row, "bytes")

    def writers(self):
        for where, shape in ((self.flat, "flat"), (self.nested, "nested")):
            rate, used = ({many: self.cell(where, "commit", many, figure) for many in (1, 4, 16)} for figure in ("rate", "processor"))
            yield f"commits a second by 4 clients beside 1, {shape}", beside(rate[4], rate[1]), "at least 2"
            yield f"commits a second by 16 clients beside 4, {shape}", beside(rate[16], rate[4]), "at least 1"
            yield f"processor time of a commit by 4 clients beside 1, {shape}", beside(used[4], used[1]), "at most 1.25"
        for kind in ("get", "equality"):
            yield f"{kind} beside 4 clients that commit, 99 % at most, µs", self.value(self.busy, f"{kind} by 1 beside commits by 4", "p99"), "as before"

    def keeps(self):
        rate = {many: self.cell(self.kept, "commit", many, "rate") for many in (1, 16)}
        yield "a commit of one client beside SQLite's, by the clock", beside(self.cell(self.sqlite, "commit", 1, "rate"), rate[1]), "at most 1.5"
        yield "commits a second by 16 clients beside 1", beside(rate[16], rate[1]), "at least 4 if groups stand"
        yield "load rate beside mangod's", beside(self.value(self.kept, "load", "rate"), self.value(self.served, "load", "rate")), "at least 0.6"
        yield "documents a second at a start", self.value(self.kept, "start", "rate"), "at least 100,000"
        yield from self.reads("at most 1.02")

    def reads(self, wanted):
        for kind in ("get", "equality"):
            yield f"{kind} beside mangod's, processor time", beside(self.cell(self.kept, kind), self.cell(self.served, kind)), wanted

    def asked(self):
        yield from self.reads("at most 1.15")
        for where, whose in ((self.kept, "its"), (self.served, "mangod's")):
            yield f"1,000 documents by _all_docs beside {whose} _find", beside(self.cell(self.kept, "listing"), self.cell(where, "first")), "at most 1"
        for kind in ("head", "root"):
            yield f"{kind} beside get", beside(self.cell(self.kept, kind), self.cell(self.kept, "get")), "at most 1"

    def text(self):
        yield "bytes of memory for a byte of text", self.value("mangod 1/1", "a flat document", "bytes for a byte of text"), "at most 1.5"
        yield "bytes of a flat document, no index", self.bytes(self.flat, "load"), "at most 720"
        yield "a query without an index, µs", self.cell(self.flat, "scan"), "at most 0.8 of before"
        yield "20 documents by an index, µs", self.cell(self.flat, "equality"), "as before"
        yield "load, µs a document", self.value(self.flat, "load"), "as before"
        for name in ("group", "price", "kind"):
            yield f"the index {name} is built, ms", self.value(self.flat, f"index {name}"), "as before"

    def blocks(self):
        yield "bytes of a flat document, no index", self.bytes(self.flat, "load"), "480"
        yield "bytes of a nested document, three indexes", self.bytes(self.nested, "indexed"), "850"
        yield "bytes of a document that was made and deleted", self.bytes("mangod 1/1", "a document that was made and deleted"), "180"
        yield "load, µs a flat document", self.value(self.flat, "load"), "6.5"
        yield "load, µs a nested document", self.value(self.nested, "load"), "7.5"
        yield "a commit, µs", self.cell(self.flat, "commit"), "36"
        yield "a first edit beside its making, three indexes", beside(self.cell(self.flat, "update"), self.cell(self.flat, "commit")), "at most 1.1"
        yield ("a first edit beside its making, in bulks, no index",
               beside(self.value(self.flat, "random keys, edited"), self.value(self.flat, "random keys")), "at most 1.1")
        yield "20 documents by an index, µs", self.cell(self.flat, "equality"), "31"
        yield "blocks of a document", self.value("mangod 1/1", "a flat document", "blocks"), "2"

    def tree(self):
        for order, most in (("random", 50), ("ascending", 42)):
            row = less(self.bytes(self.flat, f"{order} keys, with an index"), self.bytes(self.flat, f"{order} keys"))
            yield f"bytes of a row of an index, {order} keys", row, f"at most {most}"
        yield "bytes of an index of 10 rows, on each of 64 shards", self.bytes(self.many, "an index of 10 rows, a shard"), "at most 1,500"
        yield "bytes of a document, ascending ids", self.bytes(self.flat, "ascending keys"), "at most 0.85 of the pages before"
        yield "a commit, µs", self.cell(self.flat, "commit"), "at least 4 less than before"
        yield "a commit at the most documents beside few", beside(self.cell(self.most, "commit"), self.cell(self.few, "commit")), "at most 1.2"
        for kind in ("get", "scan"):
            yield f"{kind}, µs", self.cell(self.flat, kind), "as before"
        yield "load, µs a document", self.value(self.flat, "load"), "as before"
        yield "1,000 indexes on 64 shards, s", divided(self.value(self.many, "1,000 indexes", "ms"), 1e3), "at most 2.5"
        each = [self.value(self.many, f"{count} indexes", "ms each") for count in ("1,000", "250")]
        yield "an index among 1,000 beside one among 250", beside(*each), "at most 1.1"
        for kind in ("equality", "falling"):
            taken = self.value(where_of((64, 32), self.sizes[1]), f"{kind}, counted", "instructions of a further shard")
            yield f"{kind}: instructions that a shard costs", taken, "at most 600"

    def cursor(self):
        for documents in dict.fromkeys(self.sizes):
            for kind in ("equality", "falling"):
                for pair, row, figure, wanted in (((64, 32), Cell(kind), "processor", "1.5"), ((16, 1), Cell(kind), "processor", "1.25"),
                                                  ((64, 32), f"{kind}, counted", "instructions", "2.2")):
                    few, many = (self.value(where_of(one, documents), row, figure) for one in ((1, 1), pair))
                    yield f"{kind}, {documents}, {'{}/{}'.format(*pair)} beside 1/1: {figure}", beside(many, few), f"at most {wanted}"
                yield f"{kind}, {documents}, 1/1: µs", self.cell(where_of((1, 1), documents), kind), "as before"

    def lines(self, title):
        crates, fewer = FEWER.get(title, ((), {}))
        for what, number in fewer.items():
            found = [self.value("lines", crate, what) for crate in crates]
            yield f"lines of {what} of {', '.join(crates)}", [sum(map(sum, found))] if any(found) else [], f"{number:,} fewer than before"


ISSUES = {
    "Writers side by side": Goals.writers, "A program that keeps its data": Goals.keeps, "What clients ask first": Goals.asked,
    "A value is its text": Goals.text, "A document in two blocks": Goals.blocks, "One tree": Goals.tree, "One cursor, one merge": Goals.cursor,
}


def goals(measurement):
    """Yields the figures: the title of the issue, what the figure is, its values, and what is wanted."""
    of = Goals(measurement)
    for title, rows in ISSUES.items():
        for row in (*rows(of), *of.lines(title)):
            yield title, *row
