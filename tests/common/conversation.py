"""Reads the conversations of tests/conversations/*.txt, and runs them through the program. In a file:

  ## NAME: what it shows        begins a conversation
  + DOCUMENT DOCUMENT ..        a bulk with `new_edits` false; a document with neither `_rev` nor `_revisions` gets "_rev":"1-a"; the
                                reply is 201 [] unless a line after it gives another
  ? SELECTOR ID ID ..           a query, and the ids of its page in order; `-` for an empty page
  > METHOD TARGET BODY          a message; the target is below /db/ unless it begins with /
  > "BYTES"                     a message, given as its bytes in a JSON text
  < STATUS BODY                 the reply to each of the messages right before it, byte for byte, without the line feed
                                at its end
  < none                        no reply: the message is incomplete
  ~ STATUS OBJECT               the status of the reply, and the members of its body that are compared
  <7,64 STATUS BODY             the reply at these numbers of shards only (also with ~); several such lines may follow
  ! LINE                        the program ends with status 1 and the line `mangod: LINE`, instead of status 0 and no line

A line that begins with a blank continues the line before it; `#` and a blank begin a comment.
"""
import itertools
import json
import re
import subprocess
import sys
from dataclasses import dataclass, field
from pathlib import Path

from common.messages import PHRASES, post, replies_in
from common.schema import is_same
from common.session import run_session
from model.database import Database

FOLDER = Path(__file__).resolve().parent.parent / "conversations"
SECONDS = 60
ID = re.compile(r'"(?:[^"\\]|\\.)*"|\S+')
JSON = json.JSONDecoder()


class Malformed(Exception):
    """A line that is not one of those above."""


@dataclass
class Expected:
    """An expected reply: all bytes of its body, or only some members."""

    text: str
    status: int
    body: bytes = b""
    members: dict = None
    shard_counts: frozenset = frozenset()

    def applies_at(self, shards):
        return not self.shard_counts or shards in self.shard_counts

    def is_met_by(self, reply):
        if reply.status != self.status or not reply.body.endswith(b"\n"):
            return False
        if self.members is None:
            return reply.body == self.body + b"\n"
        try:
            value = json.loads(reply.body)
        except ValueError:
            return False
        return all(name in value and is_same(value[name], self.members[name]) for name in self.members)


@dataclass
class Exchange:
    """A message with its expected replies, and its line in the file."""

    line: int
    text: str
    message: bytes
    default: Expected = None
    expected: list = field(default_factory=list)
    is_complete: bool = True

    def has_reply(self):
        return bool(self.default or self.expected) or not self.is_complete

    def expected_at(self, shards):
        return [expected for expected in self.expected or [self.default] if expected.applies_at(shards)]


@dataclass
class Conversation:
    """The exchanges of a conversation, and how the program ends. `group` has the last exchanges, which share the replies that are read next."""

    name: str
    file: Path
    exchanges: list = field(default_factory=list)
    group: list = field(default_factory=list)
    ending: tuple = (0, b"")

    def add(self, exchange):
        waits = bool(self.group) and not self.group[-1].has_reply()
        if waits and exchange.default:
            raise Malformed(f"a message without its reply: {self.group[-1].text}")
        self.group = [*self.group, exchange] if waits else [exchange]
        self.exchanges.append(exchange)

    def messages(self):
        return [exchange.message for exchange in self.exchanges]


def values_in(text):
    """Returns the texts of the JSON objects at the beginning of a text, and the rest of it."""
    values = []
    text = text.lstrip()
    while text.startswith("{"):
        _, end = JSON.raw_decode(text)
        values.append(text[:end])
        text = text[end:].lstrip()
    return values, text


def with_revision(document):
    members = json.loads(document)
    if "_rev" in members or "_revisions" in members:
        return document
    return '{"_rev":"1-a"%s%s' % ("," if members else "", document[1:])


def bulk_of(line, text):
    documents, rest = values_in(text)
    if rest or not documents:
        raise Malformed(f"not a list of documents: {text}")
    body = '{"docs":[%s],"new_edits":false}' % ",".join(map(with_revision, documents))
    return Exchange(line, f"+ {text}", post("_bulk_docs", body.encode()), Expected("201 []", 201, b"[]"))


def query_of(line, text):
    selectors, rest = values_in(text)
    ids = [json.loads(name) if name.startswith('"') else name for name in ID.findall(rest)]
    if len(selectors) != 1 or not ids or ("-" in ids and len(ids) > 1):
        raise Malformed(f"not a selector and the ids of its page: {text}")
    docs = [] if ids == ["-"] else [{"_id": name} for name in ids]
    body = '{"selector":%s,"fields":["_id"]}' % selectors[0]
    expected = Expected(f"200 with the docs {json.dumps(docs)}", 200, members={"docs": docs})
    return Exchange(line, f"? {selectors[0]}", post("_find", body.encode()), expected)


def message_of(line, text, more):
    if text.startswith('"'):
        return Exchange(line, f"> {text}", json.loads(text + more).encode())
    parts = re.fullmatch(r"([A-Z]+) (\S+)(?: (.*))?", text)
    if not parts:
        raise Malformed(f"not a method and a target: {text}")
    method, target, body = parts[1], parts[2], (parts[3] or "") + more
    target = target if target.startswith("/") else f"/db/{target}"
    length = f"Content-Length: {len(body.encode())}\r\n" if body or method == "POST" else ""
    head = f"{method} {target} HTTP/1.1\r\n{length}\r\n"
    return Exchange(line, f"> {text}{more}", head.encode() + body.encode())


def expected_of(kind, text, more):
    parts = re.fullmatch(r"([0-9,]*) ([0-9]{3})(?: (.*))?", text)
    if not parts or int(parts[2]) not in PHRASES:
        raise Malformed(f"not a status and a body: {text}")
    body = (parts[3] or "") + more
    expected = Expected(f"{parts[2]} {body}", int(parts[2]), body.encode())
    if kind == "~":
        expected.members = json.loads(body)
    if parts[1]:
        expected.shard_counts = frozenset(numbers_in(parts[1]))
    return expected


def entries_in(text):
    """Returns the entries of a file, without empty lines and comments: the line number, the first character, the rest of the line, and the stripped
    lines that continue it."""
    entries = []
    for number, line in enumerate(text.splitlines(), start=1):
        if not line.strip() or line.startswith("# "):
            continue
        if line.startswith((" ", "\t")):
            if not entries:
                raise Malformed("no line to continue")
            entries[-1][3].append(line.strip())
        else:
            entries.append((number, line[0], line[1:], []))
    return entries


def add_entry(conversation, line, kind, text, more):
    if kind == "+":
        conversation.add(bulk_of(line, " ".join([text.lstrip(), *more])))
    elif kind == "?":
        conversation.add(query_of(line, " ".join([text.lstrip(), *more])))
    elif kind == ">":
        conversation.add(message_of(line, text.lstrip(), "".join(more)))
    elif kind == "!":
        conversation.ending = (1, f"mangod: {text.strip()}\n".encode())
    elif kind in "<~" and conversation.group:
        for exchange in conversation.group:
            if text == " none":
                exchange.is_complete = False
            else:
                exchange.expected.append(expected_of(kind, text, "".join(more)))
    else:
        raise Malformed(f"not a line of a conversation: {kind}{text}")


def conversations_in(file):
    """Returns the conversations of a file. Exits with a message if a line is malformed."""
    conversations = []
    line = 0
    try:
        for line, kind, text, more in entries_in(file.read_text(encoding="utf-8")):
            if kind == "#":
                name = re.fullmatch(r"# ([a-z0-9-]+): .+", text)
                if not name:
                    raise Malformed(f"not a name and a description: {text}")
                conversations.append(Conversation(name[1], file))
            elif not conversations:
                raise Malformed("a line before the first conversation")
            else:
                add_entry(conversations[-1], line, kind, text, more)
        for conversation in conversations:
            for exchange in conversation.exchanges:
                line = exchange.line
                if not exchange.has_reply():
                    raise Malformed(f"a message without its reply: {exchange.text}")
            if not conversation.exchanges:
                raise Malformed(f"no message in {conversation.name}")
    except (Malformed, ValueError) as fault:
        sys.exit(f"{file}, line {line}: {fault}")
    return conversations


def all_conversations(folder=FOLDER):
    """Returns the conversations of a folder, by their names."""
    conversations = [found for file in sorted(folder.glob("*.txt")) for found in conversations_in(file)]
    names = [conversation.name for conversation in conversations]
    repeated = {name for name in names if names.count(name) > 1}
    if repeated:
        sys.exit(f"several conversations have the name {min(repeated)}")
    return {conversation.name: conversation for conversation in conversations}


def select(only, folder=FOLDER):
    """Returns the conversations of a folder with these names, or in files with these names; all if there are no names."""
    conversations = all_conversations(folder)
    for name in only:
        if name not in conversations and not (folder / f"{name}.txt").exists():
            sys.exit(f"no conversation and no file has the name {name}")
    return [found for found in conversations.values() if not only or found.name in only or found.file.stem in only]


def numbers_in(text):
    return [int(number) for number in text.split(",")]


def with_reshards(exchanges, counts):
    """Returns the exchanges, with a reshard between every two that are answered."""
    numbers = itertools.cycle(counts)
    done = Expected('200 {"ok":true}', 200, b'{"ok":true}')
    resharded = []
    for before, after in itertools.pairwise(exchanges):
        resharded.append(before)
        if before.is_complete and after.is_complete:
            body = '{"shards":%d}' % next(numbers)
            resharded.append(Exchange(after.line, f"> POST _placement {body}", post("_placement", body.encode()), done))
    return [*resharded, exchanges[-1]]


def model_faults(conversation):
    """Yields the expected replies that the model does not give. Each message of the conversation must be complete."""
    database = Database()
    for exchange in conversation.exchanges:
        (found,), _ = replies_in(database.answer(exchange.message))
        yield from (expected.text for expected in exchange.expected_at(1) if not expected.is_met_by(found))


def reply_faults(exchanges, replies, shards):
    """Yields the faults of the replies to these exchanges, whose messages are complete: the line of the file, and what is wrong."""
    for place, exchange in enumerate(exchanges):
        if place >= len(replies):
            yield exchange.line, f"{exchange.text}\n    no reply"
            continue
        for expected in exchange.expected_at(shards):
            if not expected.is_met_by(replies[place]):
                yield exchange.line, f"{exchange.text}\n    replied  {replies[place]}\n    expected {expected.text}"


def faults_of_run(program, conversation, shards, workers, reshards=(), environment=None):
    """Runs a conversation. Returns its faults: the line of the file, and what is wrong."""
    exchanges = with_reshards(conversation.exchanges, reshards) if reshards else conversation.exchanges
    messages = b"".join(exchange.message for exchange in exchanges)
    try:
        output, ending = run_session(program, messages, shards, workers, SECONDS, env=environment)
    except subprocess.TimeoutExpired:
        return [(conversation.exchanges[0].line, f"the program did not end in {SECONDS} seconds")]
    replies, left = replies_in(output)
    complete = [exchange for exchange in exchanges if exchange.is_complete]
    last = exchanges[-1].line
    faults = list(reply_faults(complete, replies, shards))
    if left or len(replies) > len(complete):
        faults.append((last, f"more was written: {len(replies) - len(complete)} replies, and {left[:200]!r}"))
    if ending != conversation.ending:
        faults.append((last, f"ended with {ending}, expected {conversation.ending}"))
    return faults
