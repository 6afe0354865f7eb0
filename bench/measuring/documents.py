"""The documents of the measurements, the requests for them, and the right answers.

All prices differ, so the price alone decides each order by price. New documents have other groups, texts and greater prices than those that
were loaded, so they change no right answer.
"""
import base64
import json
import random
from dataclasses import dataclass

BULK = 1000
PAGE = 25
LONG_PAGE = 1000
DEPTH = 1000
IN_GROUP = 20
KINDS = 7
PRIME = 1000003
INDEXES = {"group": ["group"], "price": ["price"], "kind": ["kind", "price"]}
# in the id of a new document: ten digits, which the client makes
MARKER = "@" * 10
# what stands in each right reply without documents: that to a `HEAD` has the first revision of a document as its tag
MARKS = {"commit": b'"ok":true', "root": b'"couchdb":"Welcome"', "head": b'"1-'}


class Flat:
    """Documents of some 200 bytes: five members, in ASCII and without escapes."""

    paths = {"group": "group", "kind": "kind", "price": "price", "text": "text"}

    @staticmethod
    def body(i, group, kind, price):
        text = f"a document of the measurement, number {i:07d}, with some words that nobody asks for"
        return {"group": group, "kind": kind, "price": price, "tags": ["red", "blue", i % 3], "text": text}


class Nested:
    """Documents of some 250 bytes: two objects, an array of objects, and texts with escapes and beyond ASCII."""

    paths = {"group": "customer.group", "kind": "customer.kind", "price": "order.price", "text": "order.note"}

    @staticmethod
    def body(i, group, kind, price):
        return {
            "customer": {"group": group, "kind": kind, "name": f'Zo\u00eb "Z{i % 10}" \u00c5ngstr\u00f6m'},
            "lines": [{"count": i % 3, "item": "cr\u00e8me br\u00fbl\u00e9e"}, {"count": 2, "item": "tea"}],
            "order": {"note": f"number {i:07d}:\nto the\tback \\ door, \u5317\u4eac", "price": price},
        }


SHAPES = {"flat": Flat, "nested": Nested}
# eight bytes, which suits look-ups best, and sixteen with a common front
IDS = {"short": "d{:07d}", "fronted": "customer:{:07d}"}


@dataclass(frozen=True)
class Answer:
    """The number of documents of a reply, and the ids of the first and the last."""

    count: int
    first: str
    last: str

    def fits(self, ids):
        """Whether these are the ids of a right reply."""
        return len(ids) == self.count and ids[0] == self.first and ids[-1] == self.last


@dataclass(frozen=True)
class Request:
    """A request: its kind, its arguments, and the right answer; None: there are no documents in it."""

    kind: str
    about: tuple
    answer: Answer | None

    @property
    def status(self):
        return 201 if self.kind == "commit" else 200

    @property
    def mark(self):
        """Returns what stands in each right reply."""
        if self.answer:
            return f'"_id":"{self.answer.last}"'.encode()
        return MARKS[self.kind]


def compact(value):
    return json.dumps(value, separators=(",", ":"), ensure_ascii=False)


class Corpus:
    """`count` documents of a shape, with ids of a kind, and their order by price."""

    def __init__(self, count, shape="flat", ids="short", ascending=False):
        self.count, self.shape, self.name, self.ascending = count, SHAPES[shape], IDS[ids].format, ascending
        self.title = f"{count:,} {shape}"
        self.groups = max(1, count // IN_GROUP)
        self.prices = sorted(self.price(i) for i in range(count))
        self.unprice = pow(7919, -1, PRIME)

    def price(self, i):
        return i * 7919 % PRIME

    def body(self, i):
        return self.shape.body(i, i % self.groups, f"kind{i % KINDS}", self.price(i))

    def new_body(self, i):
        """Returns the content of a new document."""
        return self.shape.body(self.count + i, self.groups + i % self.groups, f"kind{i % KINDS}", PRIME + self.price(i))

    def edited_body(self, i):
        """Returns the content of an edited document: its text is another one."""
        return self.shape.body(self.count + i, i % self.groups, f"kind{i % KINDS}", self.price(i))

    def path(self, member):
        """Returns the path of a member that requests use."""
        return self.shape.paths[member]

    def columns(self, which):
        """Returns the paths of an index."""
        return [self.path(member) for member in INDEXES[which]]

    def text(self, i):
        """Returns the text of a document that no other document has."""
        value = self.body(i)
        for step in self.path("text").split("."):
            value = value[step]
        return value

    def numbers(self):
        """Returns the numbers of the documents in the order in which they are loaded: a random one, or ascending."""
        order = list(range(self.count))
        if not self.ascending:
            random.Random(1).shuffle(order)
        return order

    def at(self, rank):
        """Returns the number of the document for which `rank` documents are cheaper."""
        return self.prices[rank] * self.unprice % PRIME

    def depth(self):
        """Returns the number of pages by price before the deep one: 1,000, or all but the last if there are not so many."""
        return min(DEPTH, self.count // PAGE - 1)

    def requests(self, kind, number, seed=1):
        """Returns requests of a kind, drawn with a seed."""
        dice = random.Random(seed)
        return [getattr(self, f"ask_{kind}")(dice) for _ in range(number)]

    def ask_get(self, dice):
        i = dice.randrange(self.count)
        return Request("get", (self.name(i),), Answer(1, self.name(i), self.name(i)))

    def ask_equality(self, dice):
        group = dice.randrange(self.groups)
        return Request("equality", (group,), Answer(IN_GROUP, self.name(group), self.name(group + (IN_GROUP - 1) * self.groups)))

    def ask_falling(self, dice):
        """Returns the request for a page below a price, most expensive first."""
        rank = dice.randrange(PAGE, self.count)
        return Request("falling", (self.prices[rank],), Answer(PAGE, self.name(self.at(rank - 1)), self.name(self.at(rank - PAGE))))

    def ask_two(self, dice):
        """Returns the request for a page of one kind from a price on."""
        start = dice.randrange(max(1, self.count - 2 * PAGE * KINDS))
        kind = dice.randrange(KINDS)
        found = [one for rank in range(start, min(self.count, start + 2 * PAGE * KINDS)) if (one := self.at(rank)) % KINDS == kind][:PAGE]
        return Request("two", (f"kind{kind}", self.prices[start]), Answer(len(found), self.name(found[0]), self.name(found[-1])))

    def ask_deep(self, dice):
        """Returns the request for the page after the first `depth()` pages by price."""
        rank = self.depth() * PAGE
        before = self.at(rank - 1)
        return Request("deep", (self.price(before), self.name(before)), Answer(PAGE, self.name(self.at(rank)), self.name(self.at(rank + PAGE - 1))))

    def ask_scan(self, dice):
        i = dice.randrange(self.count)
        return Request("scan", (self.text(i),), Answer(1, self.name(i), self.name(i)))

    def ask_first(self, dice):
        """Returns the request for the first documents of all, by a query."""
        last = min(LONG_PAGE, self.count) - 1
        return Request("first", (), Answer(last + 1, self.name(0), self.name(last)))

    def ask_listing(self, dice):
        """Returns the request for the same documents, by `_all_docs`."""
        return Request("listing", (), self.ask_first(dice).answer)

    def ask_root(self, dice):
        """Returns the request for the name of the server."""
        return Request("root", (), None)

    def ask_head(self, dice):
        """Returns the request for the head of the reply with a document."""
        return Request("head", self.ask_get(dice).about, None)

    def ask_commit(self, dice):
        """Returns the request to make a document whose id follows a random one."""
        i = dice.randrange(self.count)
        return Request("commit", (f"{self.name(i)}-{MARKER}", i), None)

    def ask_ascending(self, dice):
        """Returns the request to make a document whose id is the last one."""
        return Request("commit", (f"e{MARKER}", dice.randrange(self.count)), None)

    def ask_mix(self, dice):
        """Returns a query by an index (80 %), a `GET` (15 %), or a commit of one document (5 %)."""
        return getattr(self, f"ask_{dice.choices(['equality', 'get', 'commit'], [80, 15, 5])[0]}")(dice)

    def bookmark(self, price, last):
        """Returns the bookmark after the document with this price, for pages by price."""
        place = compact(["_design/m", "price", "asc", [price], last])
        return base64.urlsafe_b64encode(place.encode()).decode().rstrip("=")
