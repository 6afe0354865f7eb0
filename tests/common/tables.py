"""Reads the tables of docs/REFERENCE.md and docs/MANGO_SERVER.md that list requests and refusals."""
import re
from dataclasses import dataclass, field

METHOD = re.compile(r"`[A-Z]+`(?:, `[A-Z]+`)*")
STATUS = re.compile(r"[0-9]{3}")
NAMED = re.compile(r"`([^`]+)`")


@dataclass
class Route:
    """What the rows of a method and a path name: statuses, parameters of the query, fields of the request and of the reply."""

    statuses: set = field(default_factory=set)
    query: set = field(default_factory=set)
    asked: set = field(default_factory=set)
    replied: set = field(default_factory=set)

    def add(self, path, reply, statuses):
        self.statuses |= set(STATUS.findall(statuses))
        self.query |= set(re.findall(r"(\w+)=", path))
        self.asked |= set(re.findall(r"`(If-[\w-]+)`", path + reply))
        self.replied |= set(re.findall(r"`(ETag|Location|Cache-Control)\b", reply))


def rows_in(text):
    """Yields the cells of each row of a table."""
    for line in text.splitlines():
        if line.startswith("| "):
            yield [cell.strip() for cell in line.split("|")[1:-1]]


def routes_in(text):
    """Returns the routes that a text lists, by method and path. In the column of replies `the same` is the reply of the row above."""
    routes, above = {}, ""
    for cells in rows_in(text):
        if len(cells) == 5 and METHOD.fullmatch(cells[0]):
            above = above if cells[3].startswith("the same") else cells[3]
            for method in NAMED.findall(cells[0]):
                route = routes.setdefault((method, re.match(r"`(/[^`?]*)", cells[1])[1]), Route())
                route.add(cells[1], above, cells[4])
    return routes


def reasons_in(cell):
    """Yields the reasons that a cell names. In `skip: ..` the dots stand for what the reason before it says after its colon."""
    after = ""
    for reason in NAMED.findall(cell):
        name, colon, rest = reason.partition(": ")
        after = after if rest == ".." else rest
        yield name + colon + after


def refusals_in(text):
    """Returns the refusals of requests that a text lists: status, error and reason. An entry of a bulk has a status below 400."""
    refusals = set()
    for cells in rows_in(text):
        if len(cells) == 4 and STATUS.fullmatch(cells[0]) and cells[0] >= "400":
            refusals |= {(cells[0], cells[1].strip("`"), reason) for reason in reasons_in(cells[2])}
    return refusals
