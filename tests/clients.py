#!/usr/bin/env python3
"""Holds sessions with the program through ordinary clients: Python's http.client and curl.

usage: clients.py --program PATH [--shards N]

The program reads and writes its standard input and output. A socket of 127.0.0.1 accepts connections, and for each a process
`PATH db SHARDS 1 1 -` is started whose standard input and output are that connection. How each process ends is compared, too. The
expected replies are written out here. Needs `curl`. Prints each fault; the last line is 'N passed, M failed'.
"""
import http.client
import json
import socket
import subprocess
import sys
import threading
import time

from common.arguments import arguments
from common.messages import get, post, reply
from common.session import ENDS, session_command
from common.tally import Tally
from common.wire import Wire

SECONDS = 30
NO_DOCUMENT = reply(404, '{"error":"not_found","reason":"missing"}')
EMPTY = reply(200, '{"bookmark":"nil","docs":[]}')


class Bridge:
    """Accepts connections, and starts a process for each."""

    def __init__(self, program, shards):
        self.command = session_command(program, shards)
        self.listener = socket.create_server(("127.0.0.1", 0))
        self.port = self.listener.getsockname()[1]
        self.served = []
        threading.Thread(target=self.accept, daemon=True).start()

    def accept(self):
        while True:
            connection, _ = self.listener.accept()
            with connection:
                self.served.append(subprocess.Popen(self.command, stdin=connection, stdout=connection, stderr=subprocess.PIPE))

    def ends(self, count=1):
        """Waits until `count` processes were started since the last call. Returns how all of them ended."""
        limit = time.monotonic() + SECONDS
        while len(self.served) < count and time.monotonic() < limit:
            time.sleep(0.01)
        served, self.served = self.served, []
        lines = [process.communicate(timeout=SECONDS)[1] for process in served]
        return [(process.returncode, line) for process, line in zip(served, lines)]


def check_http_client(bridge, tally):
    connection = http.client.HTTPConnection("127.0.0.1", bridge.port, timeout=SECONDS)

    def ask(method, target, body=None, headers=None):
        connection.request(method, target, body, headers or {})
        found = connection.getresponse()
        return found.status, found.read(), found.getheader("Content-Length")

    bulk = json.dumps({"docs": [{"_id": "a b", "_rev": "1-a", "v": 1}], "new_edits": False})
    tally.expect("a bulk", ask("POST", "/db/_bulk_docs", bulk), (201, b"[]\n", "3"))
    first = connection.sock
    served = b'{"_id":"a b","_rev":"1-a","v":1}\n'
    tally.expect("a percent-encoded id", ask("GET", "/db/a%20b"), (200, served, str(len(served))))
    missing = b'{"error":"not_found","reason":"missing"}\n'
    tally.expect("no such document", ask("GET", "/db/none"), (404, missing, str(len(missing))))
    tally.expect("HEAD", ask("HEAD", "/db/a%20b"), (405, b"", "62"))
    other = b'{"error":"not_found","reason":"Database does not exist."}\n'
    tally.expect("another database, with a body", ask("PUT", "/other/x", b"a body"), (404, other, str(len(other))))
    page = b'{"bookmark":"nil","docs":[]}\n'
    tally.expect("a query", ask("POST", "/db/_find", b'{"selector":{"v":2}}'), (200, page, str(len(page))))
    created = b'{"id":"_design/x y","name":"i","result":"created"}\n'
    index = b'{"index":{"fields":["v"]},"ddoc":"x y","name":"i"}'
    tally.expect("an index", ask("POST", "/db/_index", index), (200, created, str(len(created))))
    status, listed, _ = ask("GET", "/db/_index")
    tally.expect("the list of the indexes", (status, [row["ddoc"] for row in json.loads(listed)["indexes"]]), (200, [None, "_design/x y"]))
    status, explained, _ = ask("POST", "/db/_explain", b'{"selector":{"v":2}}')
    tally.expect("an explanation", (status, json.loads(explained)["index"]["name"]), (200, "i"))
    dropped = b'{"ok":true}\n'
    tally.expect("an index that is dropped", ask("DELETE", "/db/_index/_design/x%20y/json/i"), (200, dropped, str(len(dropped))))
    tally.expect("one connection for all", connection.sock is first, True)
    status, _, _ = ask("GET", "/db/none", headers={"Connection": "close"})
    tally.expect("a last message that closes", status, 404)
    connection.close()
    tally.expect("the end", bridge.ends(), [ENDS["Eof"]])


def check_replies_come_at_once(bridge, tally):
    with Wire(bridge.port) as wire:
        for _ in range(3):
            tally.expect("a reply before more is sent", wire.ask(get("x")), NO_DOCUMENT)
        wire.finish()
        rest = wire.rest()
    tally.expect("its end", (rest, wire.was_reset, bridge.ends()), (b"", False, [ENDS["Eof"]]))


def check_byte_by_byte(bridge, tally):
    message = post("_find", b'{"selector":{}}')
    with Wire(bridge.port) as wire:
        for at in range(len(message)):
            wire.send(message[at : at + 1])
        wire.finish()
        transcript = wire.rest()
    tally.expect("a message byte by byte", (transcript, wire.was_reset, bridge.ends()), (EMPTY, False, [ENDS["Eof"]]))


def check_curl(bridge, tally):
    """curl holds five sessions. The last one is refused, since curl sends its body in chunks."""
    url = f"http://127.0.0.1:{bridge.port}/db"

    def curl(*args):
        done = subprocess.run(["curl", "-sS", "--max-time", str(SECONDS), *args], capture_output=True)
        return done.returncode, done.stdout

    written = ["-w", "%{http_code} %{num_connects}\n"]
    code, out = curl("-d", '{"docs":[{"_id":"x","_rev":"1-a"}],"new_edits":false}', url + "/_bulk_docs", *written,
                     "--next", "-sS", url + "/x", *written, "--next", "-sS", url + "/none", *written)
    tally.expect("curl: one connection", (code, out), (
        0, b'[]\n201 1\n{"_id":"x","_rev":"1-a"}\n200 0\n{"error":"not_found","reason":"missing"}\n404 0\n'))
    code, out = curl("-d", '{"index":{"fields":["v"]},"ddoc":"x","name":"i"}', url + "/_index",
                     "--next", "-sS", "-X", "DELETE", url + "/_index/x/json/i", "--next", "-sS", url + "/_index/x/json/i")
    tally.expect("curl: an index", (code, out), (0, b'{"id":"_design/x","name":"i","result":"created"}\n{"ok":true}\n'
                                                 b'{"error":"method_not_allowed","reason":"Method not allowed."}\n'))
    code, out = curl("-I", url + "/x")
    tally.expect("curl: HEAD", (code, out.split(b"\r\n")[0], out[-4:]), (0, b"HTTP/1.1 405 Method Not Allowed", b"\r\n\r\n"))
    code, out = curl("--http1.0", url + "/none")
    tally.expect("curl: version 1.0", (code, out), (0, b'{"error":"not_found","reason":"missing"}\n'))
    code, out = curl("-H", "Transfer-Encoding: chunked", "-d", "{}", url + "/_find", "-o", "/dev/null", "-w", "%{http_code}")
    tally.expect("curl: a chunked body", (code, out), (0, b"411"))
    tally.expect("curl: the ends", bridge.ends(5), [ENDS["Eof"]] * 4 + [ENDS["Refused"]])


def main():
    args, tally = arguments(__doc__, shards="2"), Tally()
    bridge = Bridge(args.program, args.shards)
    check_http_client(bridge, tally)
    check_replies_come_at_once(bridge, tally)
    check_byte_by_byte(bridge, tally)
    if tally.needs("curl"):
        check_curl(bridge, tally)
    return tally.end()


if __name__ == "__main__":
    sys.exit(main())
