#!/usr/bin/env python3
"""Holds sessions with the program over TCP, with bytes, Python's http.client and curl.

usage: tcp.py --program PATH [--shards N] [--workers N] [--full]

The program listens on a free port of 127.0.0.1. Each message and each expected reply is written out here. Where a reply has to come in
time, one of five attempts has to keep the limit: a machine that is busy with other things adds to the time, and a client that waits for
another one would miss the limit at each attempt. Prints each fault; the last line is 'N passed, M failed'. Needs `curl`. Only --full tests
that a message and a reply are cut off after 60 seconds, and that unread replies take a bounded memory.
"""
import concurrent.futures
import http.client
import signal
import socket
import subprocess
import sys
import threading
import time

from common.arguments import arguments
from common.messages import post, reply
from common.server import Launch, listening, start
from common.tally import Tally
from common.wire import Client, Wire, replies_to

SECONDS = 30
ATTEMPTS = 5

BODY = '{"docs":[{"_id":"d1","_rev":"1-a","v":1}],"new_edits":false}'
BULK = post("_bulk_docs", BODY.encode())
FIND = post("_find", b'{"selector":{"v":1}}')
DONE = reply(201, "[]")
DOCUMENT = reply(200, '{"_id":"d1","_rev":"1-a","v":1}')
PAGE = reply(200, '{"bookmark":"W251bGwsIl9hbGxfZG9jcyIsImFzYyIsWyJkMSJdLCJkMSJd","docs":[{"_id":"d1","_rev":"1-a","v":1}]}')
EMPTY = reply(200, '{"bookmark":"nil","docs":[]}')
NOT_A_HEAD = b"X\r\n\r\n"
BAD_HEAD = reply(400, '{"error":"bad_head","reason":"Bad request head."}')

NINE_MEGABYTES = 9_000_000
TOO_LARGE = reply(413, '{"error":"too_large","reason":"Request too large."}')
NO_LENGTH = b"HTTP/1.1 411 Length Required"


def in_time(limit, work):
    """Whether one of some attempts takes less than this many seconds; each has to give a true value."""
    for _ in range(ATTEMPTS):
        begin = time.monotonic()
        if not work():
            return False
        if time.monotonic() - begin < limit:
            return True
    return False


def asked_within(port, seconds, want):
    """Whether a new client gets this reply within some seconds."""
    return in_time(seconds, lambda: replies_to(port, FIND) == want)


def one_after_another(port, tally):
    tally.expect("the first client", replies_to(port, BULK), DONE)
    tally.expect("the second client", replies_to(port, FIND), PAGE)
    tally.expect("messages at once", replies_to(port, FIND + BULK + FIND), PAGE + DONE + PAGE)
    with Wire(port) as wire:
        for turn in range(3):
            tally.expect(f"turn {turn} of one connection", wire.ask(FIND), PAGE)
        wire.finish()
        tally.expect("the end of a connection", (wire.rest(), wire.was_reset), (b"", False))


def cut_messages(port, tally):
    """A message is sent in two parts, cut at each of its bytes."""
    wrong = []
    for place in range(1, len(FIND)):
        with Wire(port) as wire:
            wire.send(FIND[:place])
            time.sleep(0.002)
            if wire.ask(FIND[place:]) != PAGE:
                wrong.append(place)
    tally.expect("cut at each byte", wrong, [])


def clients_that_leave(port, tally):
    """Clients end or reset their connection in the middle of a head or a body: nothing is done, and the next client is served."""
    for name, part in [("no byte", b""), ("half a head", BULK[:30]), ("half a body", BULK[:-20])]:
        for way, leave in [("close", Wire.close), ("reset", Wire.reset)]:
            wire = Wire(port)
            wire.send(part)
            time.sleep(0.01)
            leave(wire)
            tally.expect(f"{way} after {name}", replies_to(port, FIND), EMPTY)
    tally.expect("no reply to an unfinished message", replies_to(port, BULK[:-20]), b"")
    with Wire(port) as wire:
        wire.send(NOT_A_HEAD)
        tally.expect("bytes that are not a head", (wire.rest(), wire.was_reset), (BAD_HEAD, False))
    wire = Wire(port)
    wire.send(FIND * 2000)
    time.sleep(0.05)
    wire.reset()
    tally.expect("reset while replies are written", replies_to(port, FIND), EMPTY)


def a_client_that_pauses(port, tally):
    """A client that pauses between messages, or has sent none, does not keep the only session from another client."""
    with Wire(port) as silent, Wire(port) as first, Wire(port) as second:
        tally.expect("the first of two", first.ask(FIND), PAGE)
        tally.expect("the second of two", second.ask(FIND), PAGE)
        tally.expect("the first again", first.ask(FIND + FIND[:30]), PAGE)
        time.sleep(0.2)
        tally.expect("a message of which half came with the one before", first.ask(FIND[30:]), PAGE)
        tally.expect("the silent one", silent.ask(FIND), PAGE)


def a_quick_client_that_pauses(port, tally):
    """A client sends messages without a pause, so that a session stays with it. After a pause it is served as before, several times."""
    with Wire(port) as wire:
        for turn in range(5):
            tally.expect(f"quick messages, turn {turn}", {wire.ask(FIND) for _ in range(100)}, {PAGE})
            time.sleep(0.1)


def pauses_within_a_message(port, tally):
    """A message is sent in parts. After each part is a pause that, between messages, would give the session to others."""
    with Wire(port) as wire:
        for place in range(0, len(FIND), 10):
            wire.send(FIND[place : place + 10])
            time.sleep(0.05)
        tally.expect("pauses within a message", wire.reply(), PAGE)


def a_hundred_idle(port, tally):
    """With 100 idle connections, half of which got a reply, a new client is served within 2 seconds. Those that got a reply are served
    again, and after 5 seconds of silence all are closed."""
    replies_to(port, BULK)
    wires = [Wire(port) for _ in range(100)]
    try:
        for wire in wires[:50]:
            tally.expect("one of fifty", wire.ask(FIND), PAGE)
        tally.expect("behind 100, within 2 seconds", asked_within(port, 2, PAGE), True)
        for wire in wires[:50]:
            wire.send(FIND)
        tally.expect("fifty at once", [wire.reply() for wire in wires[:50]], [PAGE] * 50)
        silent = time.monotonic()
        tally.expect("none is closed early", [wire.is_closed(0) for wire in wires[:50]], [False] * 50)
        closed = [wire.is_closed(silent + 8 - time.monotonic()) for wire in wires]
        tally.expect("closed after silence", closed, [True] * 100)
        tally.expect("not before 5 seconds", time.monotonic() - silent > 4.5, True)
    finally:
        for wire in wires:
            wire.close()


# how many replies six busy clients may get while another one waits for its own, which is some turns of each client
MEANWHILE = 2000


def busy_clients(port, tally):
    """Clients that keep all sessions busy without a pause do not keep each other, or another client, from being served."""
    served, replies = threading.Event(), [[] for _ in range(6)]

    def ask_again_and_again(found):
        with Wire(port) as wire:
            while not (found and served.is_set()):
                found.append(wire.ask(FIND))

    def ask_once_more():
        try:
            time.sleep(0.3)
            for _ in range(ATTEMPTS):
                before = sum(map(len, replies))
                found = replies_to(port, FIND), sum(map(len, replies)) - before <= MEANWHILE
                if found == (PAGE, True):
                    break
            return found
        finally:
            served.set()

    *_, other = side_by_side([*[lambda found=found: ask_again_and_again(found) for found in replies], ask_once_more])
    tally.expect("one more client", other, (PAGE, True))
    tally.expect("all of them", [set(found) for found in replies], [{PAGE}] * 6)


def refusals_arrive(port, tally):
    """A client sends a body of 9 MB, which is refused. It reads the whole refusal, and then the end."""
    head = f"POST /db/_bulk_docs HTTP/1.1\r\nContent-Length: {NINE_MEGABYTES}\r\n\r\n".encode()
    for _ in range(4):
        for message in (head, b"POST /db/_bulk_docs HTTP/1.1\r\n\r\n"):
            with Wire(port) as wire:
                wire.send(message + bytes(NINE_MEGABYTES))
                found = wire.rest()
            tally.expect("the end of a refusal", wire.was_reset, False)
            if message is head:
                tally.expect("too large", found, TOO_LARGE)
            else:
                tally.expect("no length", found.split(b"\r\n")[0], NO_LENGTH)
    for status, more in [(413, {}), (411, {"encode_chunked": True})] * 4:
        connection = http.client.HTTPConnection("127.0.0.1", port, timeout=SECONDS)
        body = iter([bytes(1 << 16)] * 140) if more else bytes(NINE_MEGABYTES)
        connection.request("POST", "/db/_bulk_docs", body, **more)
        tally.expect("http.client", connection.getresponse().status, status)
        connection.close()
    tally.expect("after the refusals", replies_to(port, FIND), EMPTY)


def python_client(port, tally):
    client = Client(port)
    many = {"docs": [{"_id": f"p{n:05}", "n": n % 7} for n in range(5000)]}
    status, rows = client.ask("POST", "/db/_bulk_docs", many)
    tally.expect("a bulk of 5,000", (status, len(rows), all(row["ok"] for row in rows)), (201, 5000, True))
    index = {"index": {"fields": ["n"]}, "ddoc": "x", "name": "n"}
    tally.expect("an index", client.ask("POST", "/db/_index", index), (200, {"result": "created", "id": "_design/x", "name": "n"}))
    status, page = client.ask("POST", "/db/_find", {"selector": {"n": 3}, "fields": ["_id"], "limit": 10000})
    tally.expect("a page of 714", [row["_id"] for row in page["docs"]], [f"p{n:05}" for n in range(3, 5000, 7)])
    tally.expect("a missing document", client.ask("GET", "/db/none"), (404, {"error": "not_found", "reason": "missing"}))
    client.close()


def curl(port, tally):
    if not tally.needs("curl"):
        return
    url = f"http://127.0.0.1:{port}/db"
    large = ["curl", "-s", "-m", str(SECONDS), "-o", "/dev/null", "-w", "%{http_code}", f"{url}/_bulk_docs", "--data-binary", "@-"]
    for _ in range(4):
        done = subprocess.run(large, input=bytes(NINE_MEGABYTES), capture_output=True, timeout=SECONDS)
        tally.expect("curl with 9 MB", (done.returncode, done.stdout), (0, b"413"))
    command = ["curl", "-s", "-m", str(SECONDS), f"{url}/_bulk_docs", "-d", BODY, "--next", "-s", "-i", f"{url}/d1"]
    done = subprocess.run(command, capture_output=True, timeout=SECONDS)
    tally.expect("curl", (done.returncode, done.stdout), (0, b"[]\n" + DOCUMENT))


def side_by_side(functions):
    """Runs functions without arguments, each in a thread of its own, and returns their results."""
    with concurrent.futures.ThreadPoolExecutor(len(functions)) as threads:
        return [running.result() for running in [threads.submit(function) for function in functions]]


def sixteen_writers(port, tally):
    """Sixteen clients make 25 bulks each: each bulk gets its reply, and afterwards each document is found."""

    def write(writer):
        client = Client(port)
        replies = [client.ask("POST", "/db/_bulk_docs", {"docs": [{"_id": f"w{writer:02}-{turn:02}", "n": turn}]}) for turn in range(25)]
        client.close()
        return [(status, [row.get("ok") for row in rows]) for status, rows in replies]

    replies = side_by_side([lambda writer=writer: write(writer) for writer in range(16)])
    tally.expect("bulks of sixteen writers", replies, [[(201, [True])] * 25] * 16)
    client = Client(port)
    _, page = client.ask("POST", "/db/_find", {"selector": {}, "fields": ["_id"], "limit": 1000})
    tally.expect("their documents", [row["_id"] for row in page["docs"]], [f"w{writer:02}-{turn:02}" for writer in range(16) for turn in range(25)])
    client.close()


def pages_until(port, written):
    """Reads the values of all documents again and again, the last time after everything was written."""
    client = Client(port)
    pages, is_last = [], False
    while not is_last:
        is_last = written.is_set()
        _, page = client.ask("POST", "/db/_find", {"selector": {}, "fields": ["n"]})
        pages.append([row["n"] for row in page["docs"]])
    client.close()
    return pages


def whole_bulks(port, tally):
    """One client writes the same new value to ten documents in each bulk, and another one reshards. On each page three others see ten equal
    values, or none before the first bulk; after the last bulk was answered, the last value."""
    ids = [f"d{number}" for number in range(10)]
    replies, written = [], threading.Event()

    def write():
        client, revs = Client(port), {}
        try:
            for turn in range(60):
                docs = [{"_id": name, "n": turn, **revs.get(name, {})} for name in ids]
                status, rows = client.ask("POST", "/db/_bulk_docs", {"docs": docs})
                revs = {row["id"]: {"_rev": row["rev"]} for row in rows}
        finally:
            written.set()
            client.close()
        return status

    def reshard():
        client = Client(port)
        for turn in range(8):
            replies.append(client.ask("POST", "/db/_placement", {"shards": [3, 64, 1, 16][turn % 4]}))
            time.sleep(0.1)
        client.close()

    status, _, *seen = side_by_side([write, reshard, *[lambda: pages_until(port, written)] * 3])
    tally.expect("the last bulk", status, 201)
    tally.expect("reshards", replies, [(200, {"ok": True})] * 8)
    halves = [page for pages in seen for page in pages if len(page) not in (0, 10) or len(set(page)) > 1]
    tally.expect("pages with half of a bulk", halves, [])
    orders = [[page[0] for page in pages if page] for pages in seen]
    tally.expect("values only grow", [order == sorted(order) for order in orders], [True] * 3)
    tally.expect("the last pages", [pages[-1] for pages in seen], [[59] * 10] * 3)
    tally.expect("pages during the bulks", all(len(set(order)) > 2 for order in orders), True)


def more_clients_than_seats(port, tally):
    """Twelve clients share two seats: each is served in its turn."""

    def write_and_read(number):
        client = Client(port)
        first = client.ask("POST", "/db/_bulk_docs", {"docs": [{"_id": f"m{number:02}"}]})[0]
        second = client.ask("GET", f"/db/m{number:02}")[0]
        client.close()
        return first, second

    tally.expect("twelve clients", side_by_side([lambda number=number: write_and_read(number) for number in range(12)]), [(201, 200)] * 12)


LARGE = 400_000
LARGE_PAGE = b'POST /db/_find HTTP/1.1\r\nContent-Length: 31\r\n\r\n{"selector":{},"limit":1000000}'


def large_documents(port):
    """Writes 24 documents of 400,000 bytes, which one page returns."""
    client = Client(port)
    for part in range(4):
        client.ask("POST", "/db/_bulk_docs", {"docs": [{"_id": f"{part}-{number}", "text": "x" * LARGE} for number in range(6)]})
    client.close()


def slow_wire(port):
    """A connection with a small buffer for what it receives."""
    wire = Wire.__new__(Wire)
    wire.socket = socket.socket()
    wire.socket.settimeout(90)
    wire.socket.setsockopt(socket.SOL_SOCKET, socket.SO_RCVBUF, 8192)
    wire.socket.connect(("127.0.0.1", port))
    wire.unread, wire.was_reset = b"", False
    return wire


def unfinished_messages(port, tally):
    """More clients than there are sessions send a part of a message each. Another client is answered at once, and they are when the rest comes."""
    tally.expect("a document", replies_to(port, BULK), DONE)
    parts = [place for place in (1, 30, len(FIND) - 10) for _ in range(20)]
    wires = [Wire(port) for _ in parts]
    for wire, place in zip(wires, parts):
        wire.send(FIND[:place])
    time.sleep(0.1)
    tally.expect("behind unfinished messages", [asked_within(port, 1, PAGE) for _ in range(5)], [True] * 5)
    for wire, place in zip(wires, parts):
        wire.send(FIND[place:])
    tally.expect("finished messages", [wire.reply() for wire in wires], [PAGE] * len(parts))
    for wire in wires:
        wire.close()


def unread_replies(port, tally):
    """More clients than there are sessions do not read a large reply. Another client is answered at once, and they get their replies when
    they read."""
    large_documents(port)
    wires = [slow_wire(port) for _ in range(6)]
    for wire in wires:
        wire.send(LARGE_PAGE)
    time.sleep(1)
    tally.expect("behind unread replies", [asked_within(port, 1, EMPTY) for _ in range(5)], [True] * 5)
    pages = side_by_side([wire.reply for wire in wires])
    tally.expect("replies that are read later", [len(page) > 24 * LARGE and page == pages[0] for page in pages], [True] * len(wires))
    for wire in wires:
        wire.close()


def pausing_clients(port, tally):
    """24 clients of one session pause 30 milliseconds before each of their messages. Half of the replies come within 200 milliseconds."""

    def pause_and_ask(last):
        times = []
        with Wire(port) as wire:
            while time.monotonic() < last:
                time.sleep(0.03)
                begin = time.monotonic()
                if wire.ask(FIND) != EMPTY:
                    return [SECONDS]
                times.append(time.monotonic() - begin)
        return times

    def median():
        last = time.monotonic() + 2
        times = sorted(sum(side_by_side([lambda: pause_and_ask(last)] * 24), []))
        return times[len(times) // 2]

    tally.expect("clients that pause", any(median() < 0.2 for _ in range(ATTEMPTS)), True)


def many_at_once(port, tally):
    """500 clients connect, and then all send at once: each is answered, the last one within 5 seconds."""

    def all_answered(wires):
        for wire in wires:
            wire.send(FIND)
        return [wire.reply() for wire in wires] == [EMPTY] * 500

    wires = [Wire(port) for _ in range(500)]
    tally.expect("five hundred at once, within 5 seconds", in_time(5, lambda: all_answered(wires)), True)
    for wire in wires:
        wire.close()


def own_writes(port, tally):
    """On each of eight connections, which go from session to session, each read sees the write that was answered before it, and no older
    value than a read before it."""

    def write_and_read(number):
        client, rev, seen = Client(port), {}, []
        for turn in range(40):
            status, rows = client.ask("POST", "/db/_bulk_docs", {"docs": [{"_id": f"own{number}", "n": turn, **rev}]})
            rev = {"_rev": rows[0]["rev"]}
            seen.append(client.ask("GET", f"/db/own{number}")[1]["n"])
        client.close()
        return seen

    found = side_by_side([lambda number=number: write_and_read(number) for number in range(8)])
    tally.expect("own writes", found, [list(range(40))] * 8)


def bad_addresses(launch, tally):
    """The program reports an address at which it cannot listen, and ends."""
    with socket.create_server(("127.0.0.1", 0)) as taken:
        for address in [f"127.0.0.1:{taken.getsockname()[1]}", "127.0.0.1", "127.0.0.1:x", "256.0.0.1:1", ""]:
            command = [launch.program, "db", "1", "1", "1", address]
            done = subprocess.run(command, stdin=subprocess.DEVNULL, capture_output=True, timeout=SECONDS)
            tally.expect(f"at {address!r}", (done.returncode, done.stdout, done.stderr), (1, b"", b"mangod: cannot listen\n"))


def few_descriptors(launch, tally):
    """With 16 descriptors and 40 connections a new client is served, since the connections that were idle longest are closed. A client is
    also served after all of them are gone."""
    with listening(launch, 2, descriptors=16) as port:
        wires = [Wire(port) for _ in range(40)]
        tally.expect("behind 40", replies_to(port, BULK), DONE)
        for wire in wires:
            wire.close()
        tally.expect("after 40", replies_to(port, FIND), PAGE)


def host_names(launch, tally):
    """The program listens at host names and at IPv6 addresses, and SIGTERM ends it at once."""
    for host in ["localhost", "[::1]"]:
        program, port = start(launch, 1, host=host)
        with Wire(port, host.strip("[]")) as wire:
            tally.expect(f"at {host}", wire.ask(BULK), DONE)
            program.terminate()
            tally.expect(f"SIGTERM at {host}", program.wait(SECONDS), -signal.SIGTERM)
        program.communicate()


def deadlines(launch, tally):
    """A client that sends its message byte by byte, or does not read its reply, is cut off after 60 seconds. Others do not wait for it."""

    def slow_message(wire):
        begin = time.monotonic()
        for turn in range(75):
            if not wire.send(FIND[turn:turn + 1]) or wire.more_within(1) is False:
                break
        return 55 < time.monotonic() - begin < 70

    def slow_reader(wire):
        wire.send(LARGE_PAGE)
        time.sleep(70)
        return 0 < len(wire.rest()) < 24 * LARGE

    with listening(launch, 1) as port:
        large_documents(port)
        others = lambda: [asked_within(port, 1, EMPTY) and time.sleep(1) is None for _ in range(55)]
        with Wire(port) as message, slow_wire(port) as reader:
            found = side_by_side([lambda: slow_message(message), lambda: slow_reader(reader), others])
    tally.expect("slow clients", found, [True, True, [True] * 55])


def bounded_memory(launch, tally):
    """130 clients do not read replies of 9.6 MB. The connections that have been still longest are closed, and the last ones get their replies."""
    with listening(launch, 2) as port:
        large_documents(port)
        wires = []
        for _ in range(130):
            wires.append(slow_wire(port))
            wires[-1].send(LARGE_PAGE)
            time.sleep(0.1)
        tally.expect("behind unread replies", asked_within(port, 60, EMPTY), True)
        tally.expect("the last reply", len(wires[-1].reply()) > 24 * LARGE, True)
        tally.expect("the first reply", len(wires[0].reply()) < 24 * LARGE, True)
        for wire in wires:
            wire.close()


# the number of sessions of the program, and the checks made with it
CHECKS = [(1, [one_after_another, cut_messages, a_client_that_pauses, pauses_within_a_message]), (1, [clients_that_leave, refusals_arrive]),
          (1, [python_client]), (1, [curl]), (2, [one_after_another, a_quick_client_that_pauses, busy_clients]), (4, [a_hundred_idle]), (16, [sixteen_writers]),
          (5, [whole_bulks]), (2, [more_clients_than_seats, clients_that_leave]), (1, [unfinished_messages]), (4, [unfinished_messages]),
          (1, [pausing_clients, unread_replies]), (4, [many_at_once]), (4, [unread_replies]), (8, [own_writes])]


def main():
    args, tally = arguments(__doc__, shards=7, workers=2), Tally()
    launch = Launch(args.program, args.shards, args.workers)
    for sessions, checks in CHECKS:
        with listening(launch, sessions) as port:
            for check in checks:
                check(port, tally)
    bad_addresses(launch, tally)
    few_descriptors(launch, tally)
    host_names(launch, tally)
    if args.full:
        deadlines(launch, tally)
        bounded_memory(launch, tally)
    return tally.end()


if __name__ == "__main__":
    sys.exit(main())
