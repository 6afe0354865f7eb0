"""Reads the examples of docs/REFERENCE.md, docs/MANGO_SERVER.md and tests/requests.md.

An example is a block ```http-request (a line with the method and the target, then fields, each on a line, if there are any, then the body),
followed at once by a block ```http-reply (a line with the status, then fields, then the body). A reply without a body is one of which the
example shows none. The examples under one heading `##` are one conversation with an empty database.
"""
import re
import sys
from dataclasses import dataclass, field

from common.messages import Reply, message
from common.modules import TOP

REFERENCE = TOP / "docs" / "REFERENCE.md"
BLOCK = re.compile(r"^```(http-request|http-reply)\n(.*?)^```$", re.MULTILINE | re.DOTALL)
HEADING = re.compile(r"^## (.*)$", re.MULTILINE)
FIELD = re.compile(r"([A-Z][A-Za-z-]+): (.*)\n")


@dataclass
class Example:
    """A request, and the expected reply, with the fields of it that are shown."""

    request: str
    message: bytes
    reply: Reply
    fields: dict = field(default_factory=dict)


def parts_of(block):
    """Returns the first line of a block, its fields, and the rest."""
    line, _, rest = block.partition("\n")
    fields = {}
    while found := FIELD.match(rest):
        fields[found[1]] = found[2]
        rest = rest[found.end() :]
    return line, fields, rest.removesuffix("\n").encode()


def example_of(request, reply):
    line, given, body = parts_of(request)
    method, _, target = line.partition(" ")
    status, fields, expected = parts_of(reply)
    return Example(line, message(method, target, body, given), Reply(int(status), expected and expected + b"\n"), fields)


def examples_in(section, heading):
    blocks = BLOCK.findall(section)
    kinds = [kind for kind, _ in blocks]
    if kinds != ["http-request", "http-reply"] * (len(kinds) // 2):
        sys.exit(f"in '{heading}' requests and replies do not alternate")
    texts = [text for _, text in blocks]
    return [example_of(request, reply) for request, reply in zip(texts[::2], texts[1::2])]


def sections_of(document):
    """Yields each heading of a document that has examples, with its examples."""
    pieces = HEADING.split(document)
    for heading, section in zip(pieces[1::2], pieces[2::2]):
        examples = examples_in(section, heading)
        if examples:
            yield heading, examples
