#!/usr/bin/env python3
"""Sends bytes to the program that keeps its data: requests that are cut, that disagree with themselves or are too long, that pause, and
replies that nobody reads.

usage: edge.py --program PATH [--full]

PATH is mango_server, with two sessions. Each request and each reply is written out here, after RFC 9112 and RFC 9110; fields of a reply
that its reader may ignore are left out. Each is sent whole, and in two parts that are cut at random places. The time limits are those of
docs/OPERATE.md, "Connections"; only --full tests those of 60 seconds. The last line is 'N passed, M failed'.
"""
import contextlib
import http.client
import random
import re
import sys
import tempfile
import threading
import time
from pathlib import Path

from common.arguments import arguments
from common.server import keeping
from common.tally import Tally
from common.wire import Client, Wire

UP = b"GET /_up HTTP/1.1\r\nHost: h\r\n\r\n"
FIND = b'POST /db/_find HTTP/1.1\r\nHost: h\r\nContent-Length: 15\r\n\r\n{"selector":{}}'
PAGE = '{"bookmark":"nil","docs":[]}'
OK = '{"status":"ok"}'
SECONDS = 60
NINE_MEGABYTES = 9_000_000
CONTINUE = b"HTTP/1.1 100 Continue\r\n\r\n"
HEAD = re.compile(rb"HTTP/1\.[01] ([0-9]{3}) [A-Za-z ]+\r\n((?:[a-z-]+: [^\r\n]*\r\n)*)\r\n")
DATE = re.compile(rb"\r\ndate: [A-Z][a-z]{2}, [0-9]{2} [A-Z][a-z]{2} [0-9]{4} [0-9]{2}:[0-9]{2}:[0-9]{2} GMT\r\n")


def refusal(status, error, reason):
    return (status, f'{{"error":"{error}","reason":"{reason}"}}', True)


INVALID = refusal(400, "bad_request", "the request is invalid")
CUT = refusal(400, "bad_request", "the request was cut")
TARGET = refusal(400, "bad_request", "the target is invalid")
TOO_LARGE = refusal(413, "too_large", "the request entity is too large")
LONG_LINE = refusal(414, "uri_too_long", "the request line is too long")
LONG_HEAD = refusal(431, "fields_too_large", "the request head is too large")
CODING = refusal(501, "not_implemented", "unknown transfer coding")
TUNNEL = refusal(501, "not_implemented", "CONNECT is not answered")

# what is sent, after which the client ends its side, and what comes back: statuses, bodies, and whether the connection says that it closes
CONVERSATIONS = {
    "two requests at once": (UP + FIND, [(200, OK, False), (200, PAGE, False)]),
    "a body in chunks": (b"POST /db/_find HTTP/1.1\r\nHost: h\r\nTransfer-Encoding: chunked\r\n\r\n9\r\n{\"selecto\r\n6\r\nr\":{}}\r\n0\r\n\r\n", [(200, PAGE, False)]),
    "a chunk with an extension, and trailers": (
        b"POST /db/_find HTTP/1.1\r\nHost: h\r\nTransfer-Encoding: chunked\r\n\r\nF;a=b\r\n{\"selector\":{}}\r\n0\r\nX: y\r\n\r\n" + UP,
        [(200, PAGE, False), (200, OK, False)]),
    "a body of GET": (b"GET /_up HTTP/1.1\r\nHost: h\r\nContent-Length: 5\r\n\r\nGET /" + UP, [(200, OK, False), (200, OK, False)]),
    "empty lines before a request": (b"\r\n\r\n" + UP, [(200, OK, False)]),
    "64 fields": (UP.replace(b"\r\n\r\n", b"\r\nX: y" * 63 + b"\r\n\r\n"), [(200, OK, False)]),
    "a body as long as may be": (b"POST /db/_find HTTP/1.1\r\nHost: h\r\nContent-Length: 8388608\r\n\r\n" + b'{"selector":{}}'.ljust(8_388_608), [(200, PAGE, False)]),
    "a request of HTTP/1.0 that expects an interim reply": (
        b"POST /db/_find HTTP/1.0\r\nExpect: 100-continue\r\nContent-Length: 15\r\n\r\n{\"selector\":{}}", [(200, PAGE, True)]),
    "a request to close": (UP.replace(b"\r\n\r\n", b"\r\nConnection: close\r\n\r\n") + UP, [(200, OK, True)]),
    "a request of HTTP/1.0": (b"GET /_up HTTP/1.0\r\n\r\n" + UP, [(200, OK, True)]),
    "HEAD": (b"HEAD /_up HTTP/1.1\r\nHost: h\r\n\r\n" + UP, [(200, "", False), (200, OK, False)]),
    "a cut head": (UP + b"GET /_up HT", [(200, OK, False), CUT]),
    "a cut body": (FIND[:-1], [CUT]),
    "a cut chunk": (b"POST /db/_find HTTP/1.1\r\nHost: h\r\nTransfer-Encoding: chunked\r\n\r\n9\r\n{\"sel", [CUT]),
    "no host": (b"GET /_up HTTP/1.1\r\n\r\n" + UP, [INVALID]),
    "two hosts": (b"GET /_up HTTP/1.1\r\nHost: h\r\nHost: h\r\n\r\n" + UP, [INVALID]),
    "no request": (b"hello\r\n\r\n" + UP, [INVALID]),
    "a blank before the colon": (b"GET /_up HTTP/1.1\r\nHost : h\r\n\r\n", [INVALID]),
    "two lengths": (b"POST /db/_find HTTP/1.1\r\nHost: h\r\nContent-Length: 15\r\nContent-Length: 16\r\n\r\n" + UP, [INVALID]),
    "a length and chunks": (b"POST /db/_find HTTP/1.1\r\nHost: h\r\nContent-Length: 4\r\nTransfer-Encoding: chunked\r\n\r\n0\r\n\r\n" + UP, [INVALID]),
    "a list of lengths": (b"POST /db/_find HTTP/1.1\r\nHost: h\r\nContent-Length: 15, 15\r\n\r\n{\"selector\":{}}" + UP, [INVALID]),
    "a negative length": (b"POST /db/_find HTTP/1.1\r\nHost: h\r\nContent-Length: -15\r\n\r\n" + UP, [INVALID]),
    "chunks of HTTP/1.0": (b"POST /db/_find HTTP/1.0\r\nTransfer-Encoding: chunked\r\n\r\n0\r\n\r\n" + UP, [INVALID]),
    "chunks twice": (b"POST /db/_find HTTP/1.1\r\nHost: h\r\nTransfer-Encoding: chunked, chunked\r\n\r\n0\r\n\r\n" + UP, [INVALID]),
    "a coding that is not in chunks": (b"POST /db/_find HTTP/1.1\r\nHost: h\r\nTransfer-Encoding: gzip\r\n\r\n0\r\n\r\n" + UP, [INVALID]),
    "a coding behind a control byte": (b"POST /db/_find HTTP/1.1\r\nHost: h\r\nTransfer-Encoding: \x0bchunked\r\n\r\n0\r\n\r\n" + UP, [INVALID]),
    "a blank before the colon of a coding": (b"POST /db/_find HTTP/1.1\r\nHost: h\r\nTransfer-Encoding : chunked\r\n\r\n0\r\n\r\n" + UP, [INVALID]),
    "a chunk that goes on": (b"POST /db/_find HTTP/1.1\r\nHost: h\r\nTransfer-Encoding: chunked\r\n\r\n3\r\n{\"sX\r\n0\r\n\r\n" + UP, [INVALID]),
    "a chunk longer than numbers are": (
        b"POST /db/_find HTTP/1.1\r\nHost: h\r\nTransfer-Encoding: chunked\r\n\r\nFFFFFFFFFFFFFFFFF\r\n" + UP, [INVALID]),
    "a field in two lines": (b"GET /_up HTTP/1.1\r\nHost: h\r\nX: a\r\n b\r\n\r\n" + UP, [INVALID]),
    "a blank before the first field": (b"GET /_up HTTP/1.1\r\n Host: h\r\n\r\n" + UP, [INVALID]),
    "a carriage return in a field": (b"GET /_up HTTP/1.1\r\nHost: h\r\nX: a\rb\r\n\r\n" + UP, [INVALID]),
    "a zero byte in a field": (b"GET /_up HTTP/1.1\r\nHost: h\r\nX: a\0b\r\n\r\n" + UP, [INVALID]),
    "lines that end in a line feed": (b"GET /_up HTTP/1.1\nHost: h\n\n" + UP, [INVALID]),
    "65 fields": (UP.replace(b"\r\n\r\n", b"\r\nX: y" * 64 + b"\r\n\r\n") + UP, [LONG_HEAD]),
    "65 trailers": (b"POST /db/_find HTTP/1.1\r\nHost: h\r\nTransfer-Encoding: chunked\r\n\r\n0\r\n" + b"X: y\r\n" * 65 + b"\r\n" + UP, [LONG_HEAD]),
    "a length with a sign": (b"POST /db/_find HTTP/1.1\r\nHost: h\r\nContent-Length: +15\r\n\r\n" + UP, [INVALID]),
    "a chunk of no length": (b"POST /db/_find HTTP/1.1\r\nHost: h\r\nTransfer-Encoding: chunked\r\n\r\nx\r\n" + UP, [INVALID]),
    "an unknown coding": (b"POST /db/_find HTTP/1.1\r\nHost: h\r\nTransfer-Encoding: gzip, chunked\r\n\r\n0\r\n\r\n" + UP, [CODING]),
    "a tunnel": (b"CONNECT h:80 HTTP/1.1\r\nHost: h\r\n\r\n" + UP, [TUNNEL]),
    "a target in absolute form": (b"GET http://h:5984/_up HTTP/1.1\r\nHost: h\r\n\r\n" + UP, [(200, OK, False), (200, OK, False)]),
    "a target of no form": (b"GET db HTTP/1.1\r\nHost: h\r\n\r\n" + UP, [TARGET]),
    "a refusal of HEAD": (b"HEAD db HTTP/1.1\r\nHost: h\r\n\r\n" + UP, [(400, "", True)]),
    "a long line": (b"GET /" + b"a" * 20_000 + b" HTTP/1.1\r\nHost: h\r\n\r\n", [LONG_LINE]),
    "a long head": (b"GET /_up HTTP/1.1\r\nHost: h\r\n" + b"X: " + b"a" * 20_000 + b"\r\n\r\n", [LONG_HEAD]),
    "a long body": (b"POST /db/_find HTTP/1.1\r\nHost: h\r\nContent-Length: 8388609\r\n\r\n", [TOO_LARGE]),
}


def replies_in(data, silent):
    """Returns the replies in these bytes: their statuses, bodies, and whether they say that the connection closes; then what is left. `silent`:
    the first has no body."""
    found = []
    while head := HEAD.match(data):
        fields = dict(line.split(": ", 1) for line in head[2].decode().splitlines())
        length = 0 if silent and not found else int(fields["content-length"])
        body = data[head.end() : head.end() + length]
        found.append((int(head[1]), body.decode().removesuffix("\n"), fields.get("connection") == "close"))
        data = data[head.end() + length :]
    return found, data


def came_for(port, *parts):
    """Sends the parts of a conversation, with a pause between them, and ends this side. Returns all that comes back."""
    with Wire(port) as wire:
        for place, part in enumerate(parts):
            time.sleep(0.02 if place else 0)
            wire.send(part)
        wire.finish()
        return wire.rest()


def each_conversation(port, tally):
    for name, (sent, expected) in CONVERSATIONS.items():
        came = came_for(port, sent)
        tally.expect(name, replies_in(came, sent.startswith(b"HEAD")), (expected, b""))
        tally.expect(f"the dates of {name}", len(DATE.findall(came)), len(expected))


def cut_conversations(port, tally):
    """Where a conversation is cut changes no reply."""
    draw = random.Random(7)
    for name, (sent, expected) in CONVERSATIONS.items():
        for place in (draw.randrange(1, min(len(sent), 200)) for _ in range(3)):
            found = replies_in(came_for(port, sent[:place], sent[place:]), sent.startswith(b"HEAD"))
            tally.expect(f"{name}, cut at {place}", found, (expected, b""))


def refusals_arrive(port, tally):
    """A client sends a body of 9 MB, with its length or in chunks. It reads the whole refusal, and then the end."""
    head = f"POST /db/_bulk_docs HTTP/1.1\r\nHost: h\r\nContent-Length: {NINE_MEGABYTES}\r\n\r\n".encode()
    for _ in range(4):
        with Wire(port) as wire:
            wire.send(head + bytes(NINE_MEGABYTES))
            found = replies_in(wire.rest(), False)
            tally.expect("a long body that is sent", (found, wire.was_reset), (([TOO_LARGE], b""), False))
        connection = http.client.HTTPConnection("127.0.0.1", port, timeout=SECONDS)
        connection.request("POST", "/db/_bulk_docs", iter([bytes(1 << 16)] * 140), encode_chunked=True)
        tally.expect("a long body in chunks", connection.getresponse().status, 413)
        connection.close()
    tally.expect("after the refusals", replies_in(came_for(port, UP), False), ([(200, OK, False)], b""))


def after_a_refusal(port, tally):
    """A client that was refused, stays and sends on is cut off after some 5 seconds, and keeps nobody waiting."""
    with Wire(port) as wire:
        wire.send(b"hello\r\n\r\n")
        tally.expect("the refusal of one that stays", replies_in(wire.rest(), False), ([INVALID], b""))
        began = time.monotonic()
        while time.monotonic() - began < SECONDS / 2 and wire.send(b"x"):
            time.sleep(0.2)
        tally.expect("the end of one that stays", time.monotonic() - began < SECONDS / 2, True)
    in_time(port, "after a refused client", tally)


def silent_clients(port, tally):
    """A client that sends nothing, or nothing after its first request, is cut off after some 5 seconds, without a word."""
    with Wire(port) as silent, Wire(port) as paused:
        paused.send(UP)
        tally.expect("before the silence", paused.reply()[-len(OK) - 1 :], OK.encode() + b"\n")
        tally.expect("after the silence", (silent.is_closed(SECONDS / 2), paused.is_closed(SECONDS / 2)), (True, True))


def cut_off_after_a_minute(port, tally):
    """A request that comes byte by byte for more than 60 seconds is cut off, and is not executed."""
    request = b'PUT /db/slow HTTP/1.1\r\nHost: h\r\nContent-Length: 900\r\n\r\n{"text":"'
    with Wire(port) as wire:
        wire.send(request)
        began = time.monotonic()
        while time.monotonic() - began < 2 * SECONDS and wire.send(b"x"):
            time.sleep(0.5)
        tally.expect("a slow request", SECONDS / 2 < time.monotonic() - began < 2 * SECONDS, True)
    with contextlib.closing(Client(port)) as client:
        tally.expect("the document of a slow request", client.ask("GET", "/db/slow")[0], 404)


def an_interim_reply(port, tally):
    """`100 Continue` comes where it is asked for, before the body is sent, and nowhere else."""
    head, body = FIND.split(b"\r\n\r\n")
    with Wire(port) as wire:
        wire.send(head + b"\r\nExpect: 100-continue\r\n\r\n")
        tally.expect("the interim reply", wire.read(len(CONTINUE)), CONTINUE)
        wire.send(body)
        wire.finish()
        tally.expect("the reply after it", replies_in(wire.rest(), False), ([(200, PAGE, False)], b""))


def byte_by_byte(port, tally):
    with Wire(port) as wire:
        for byte in FIND:
            wire.send(bytes([byte]))
            time.sleep(0.002)
        wire.finish()
        tally.expect("a request byte by byte", replies_in(wire.rest(), False), ([(200, PAGE, False)], b""))


def in_time(port, name, tally):
    """A client that asks ten times is answered within the time limit of a message, whatever the others do."""
    began = time.monotonic()
    with contextlib.closing(Client(port)) as client:
        statuses = [client.ask("GET", "/_up")[0] for _ in range(10)]
    tally.expect(name, (statuses, time.monotonic() - began < SECONDS), ([200] * 10, True))


def half_requests(port, tally):
    """More half requests than sessions keep nobody waiting."""
    with contextlib.ExitStack() as stack:
        for _ in range(8):
            stack.enter_context(Wire(port)).send(FIND[:-3])
        in_time(port, "beside half requests", tally)


def unread_replies(port, tally):
    """Clients that send on and never read keep nobody waiting."""
    def ask_on(wire):
        with contextlib.suppress(OSError):
            wire.socket.sendall(UP * 40_000)

    with contextlib.ExitStack() as stack:
        wires = [stack.enter_context(Wire(port)) for _ in range(4)]
        threads = [threading.Thread(target=ask_on, args=(wire,), daemon=True) for wire in wires]
        for thread in threads:
            thread.start()
        time.sleep(0.5)
        in_time(port, "beside unread replies", tally)
        for wire in wires:
            wire.reset()
        for thread in threads:
            thread.join()


def main():
    args, tally = arguments(__doc__), Tally()
    with tempfile.TemporaryDirectory() as folder, keeping(args.program, Path(folder) / "db", "--sessions", "2") as port:
        for check in (each_conversation, cut_conversations, an_interim_reply, byte_by_byte, refusals_arrive, after_a_refusal, silent_clients,
                      half_requests, unread_replies):
            check(port, tally)
        if args.full:
            cut_off_after_a_minute(port, tally)
    return tally.end()


if __name__ == "__main__":
    sys.exit(main())
