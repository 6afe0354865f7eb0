#!/usr/bin/env python3
"""Runs unchanged clients of CouchDB on the program that keeps its data: LightCouch and log4j's appender (Java), Monolog's handler (PHP), Moneta
(Ruby), Node's fetch, Python's http.client and curl with bodies in chunks; and HAProxy's health checks and nginx with pooled connections in
front of it.

usage: strangers.py --program PATH

PATH is mango_server. What each client prints, and what the database has afterwards, is written out here. Needs `java`, `php`, `ruby`, `node`,
`curl`, `haproxy`, `nginx` and the clients' Debian packages, which tests/setup installs. The last line is 'N passed, M failed'.
"""
import concurrent.futures
import contextlib
import http.client
import json
import os
import socket
import subprocess
import sys
import tempfile
import time
from pathlib import Path

from common.arguments import arguments
from common.server import free_port, keeping
from common.tally import Tally
from common.wait import wait_until
from common.wire import Client

FOLDER = Path(__file__).resolve().parent / "strangers"
LIBRARIES = ("lightcouch", "gson", "httpclient", "httpcore", "commons-codec", "commons-logging", "log4j-api", "log4j-core", "log4j-couchdb")
JARS = ":".join(f"/usr/share/java/{name}.jar" for name in LIBRARIES)
SECONDS = 60
TURNS = 10

# each client: its command, to which the port is added, and what it prints
CLIENTS = {
    "LightCouch": (["java", "-cp", JARS, str(FOLDER / "LightCouch.java")], """\
version 3.3.3
databases [db]
save a true
contains true false
update true
conflict Conflict
find 2.0
remove true
removed Not Found
bulk 2
findDocs 1
end
"""),
    "log4j": (["java", "-cp", JARS, str(FOLDER / "Log4j.java"), str(FOLDER / "log4j.xml")], ""),
    "Monolog": (["php", str(FOLDER / "monolog.php")], ""),
    "Moneta": (["ruby", str(FOLDER / "moneta.rb")], """\
store one
load one
key true false
again two two
delete two false
"""),
    "fetch": (["node", str(FOLDER / "fetch.mjs")], """\
bulk 201 2
head 200 true
absent 404 missing
"""),
    "http.client": (["python3", str(FOLDER / "requests.py")], """\
put 201
replicas 201 []
bodies c b a
merged [True, True, True]
resolved 200 cba False
"""),
}


def each_client(port, tally):
    """Each client does what it does with CouchDB."""
    for name, (command, printed) in CLIENTS.items():
        done = subprocess.run([*command, str(port)], stdin=subprocess.DEVNULL, capture_output=True, text=True, timeout=SECONDS)
        tally.expect(f"what {name} prints", done.stdout, printed)
        tally.expect(f"the status of {name}", done.returncode, 0)


def what_is_there(port, tally):
    """The documents that the clients left: two of a bulk, two of the fetch, two of http.client, and two records of each logger."""
    with contextlib.closing(Client(port)) as client:
        _, page = client.ask("POST", "/db/_find", {"selector": {}, "limit": 100})
        named = sorted(doc["_id"] for doc in page["docs"] if "message" not in doc)
        tally.expect("the documents", named, ["c", "d", "n1", "n2", "p1", "p2"])
        records = [doc for doc in page["docs"] if "message" in doc]
        tally.expect("the records", sorted(doc["message"] for doc in records), ["a pear", "an apple", "first", "second"])
        tally.expect("the length of their ids", [len(doc["_id"]) for doc in records], [32] * 4)


def by_curl(port, tally):
    """curl puts, reads, asks for the head of, and deletes a document, with a body that it announces by `Expect`, and with one in chunks."""
    def curl(*words, given=None):
        done = subprocess.run(["curl", "-s", "-o", "-", "-w", " %{http_code}", *words], input=given, capture_output=True, text=True, timeout=SECONDS)
        return done.stdout

    url = f"http://127.0.0.1:{port}/db/curl"
    made = curl("-X", "PUT", url, "-d", json.dumps({"text": "x" * 100_000}), "-H", "Expect: 100-continue")
    revision = json.loads(made.rpartition("\n")[0])["rev"]
    tally.expect("a put", made.endswith(" 201"), True)
    tally.expect("a head", curl("-I", url).count(f'etag: "{revision}"'), 1)
    tally.expect("a read that knows the revision", curl(url, "-H", f'If-None-Match: "{revision}"'), " 304")
    tally.expect("a deletion", curl("-X", "DELETE", f"{url}?rev={revision}").endswith(" 200"), True)
    tally.expect("a read of what is deleted", curl(url), '{"error":"not_found","reason":"deleted"}\n 404')
    # a body from standard input has no length, so that curl sends it in chunks
    piped = curl("-T", "-", url, given=json.dumps({"text": "y" * 100_000}))
    tally.expect("a put in chunks", (json.loads(piped.rpartition("\n")[0])["id"], piped.rpartition(" ")[2]), ("curl", "201"))
    tally.expect("what came in chunks", json.loads(curl(url).rpartition("\n")[0])["text"], "y" * 100_000)


# how HAProxy asks whether a server is up: as CouchDB's own configuration (rel/haproxy.cfg) has it, and in other forms
CHECKS = (
    "option httpchk GET /_up",
    "option httpchk HEAD /_up HTTP/1.1\\r\\nHost:\\ localhost",
    "option httpchk\n  http-check send meth GET uri /_up ver HTTP/1.1 hdr Host localhost\n  http-check expect status 200",
    "option httpchk\n  http-check send meth GET uri /db\n  http-check expect string doc_count",
)


def started(port, command):
    """Starts a proxy, and waits until it listens at a port."""
    proxy = subprocess.Popen(command, stdin=subprocess.DEVNULL, stdout=subprocess.DEVNULL, stderr=subprocess.DEVNULL)
    wait_until(lambda: is_open(port))
    return proxy


def is_open(port):
    with contextlib.suppress(OSError), socket.create_connection(("127.0.0.1", port), timeout=1):
        return True
    return False


def behind_haproxy(port, folder, tally):
    """Each of HAProxy's health checks finds the program up, and requests pass."""
    fronts, file = [free_port() for _ in CHECKS], Path(folder) / "haproxy.cfg"
    text = "defaults\n  mode http\n  timeout connect 5s\n  timeout client 20s\n  timeout server 20s\n  timeout check 5s\n"
    for place, (front, check) in enumerate(zip(fronts, CHECKS)):
        text += f"frontend front{place}\n  bind 127.0.0.1:{front}\n  default_backend back{place}\n"
        text += f"backend back{place}\n  {check}\n  server one 127.0.0.1:{port} check inter 200ms rise 1 fall 1\n"
    file.write_text(text)
    proxy = started(fronts[-1], ["haproxy", "-f", str(file)])
    try:
        # a server counts as up until its first check has failed
        time.sleep(2)
        for front, check in zip(fronts, CHECKS):
            statuses = []
            for _ in range(10):
                with contextlib.closing(Client(front)) as client:
                    statuses.append(client.ask("GET", "/_up")[0])
            tally.expect(f"behind HAProxy with {check}", statuses, [200] * 10)
    finally:
        proxy.kill()
        proxy.wait()


def long_head(front):
    """A request whose head is longer than 16 kB, of fields that nginx passes on. Returns the status of the reply."""
    with contextlib.closing(http.client.HTTPConnection("127.0.0.1", front, timeout=SECONDS)) as connection:
        connection.request("GET", "/_up", headers={f"X-{place}": "x" * 6000 for place in range(3)})
        return connection.getresponse().status


def long_body(front):
    with contextlib.closing(Client(front)) as client:
        return client.exchange("POST", "/db/_find", "{" + " " * 8_388_608 + "}")[0]


def no_body(front):
    with contextlib.closing(Client(front)) as client:
        return client.exchange("POST", "/db/_find", "{")[0]


def innocent(front):
    """A read and a query of one client. Returns their statuses."""
    with contextlib.closing(Client(front)) as client:
        return client.ask("GET", "/_up")[0], client.ask("POST", "/db/_find", {"selector": {"_id": "c"}})[0]


# what clients ask for at the same time, and what each gets
BESIDE = ((long_head, 431), (long_body, 413), (no_body, 400), (innocent, (200, 200)), (innocent, (200, 200)))


def behind_nginx(port, folder, tally):
    """Through nginx with pooled connections, no innocent request fails beside those that are refused."""
    front, file = free_port(), Path(folder) / "nginx.conf"
    file.write_text(f"""\
daemon off;
pid {folder}/nginx.pid;
error_log {folder}/nginx.log;
events {{}}
http {{
  access_log off;
  client_max_body_size 100m;
  client_body_temp_path {folder}/body;
  upstream servers {{ server 127.0.0.1:{port}; keepalive 4; }}
  server {{
    listen 127.0.0.1:{front};
    location / {{ proxy_pass http://servers; proxy_http_version 1.1; proxy_set_header Connection ""; }}
  }}
}}
""")
    proxy = started(front, ["nginx", "-c", str(file), "-p", folder])
    try:
        with concurrent.futures.ThreadPoolExecutor(len(BESIDE)) as threads:
            asked = [threads.submit(lambda ask=ask: [ask(front) for _ in range(TURNS)]) for ask, _ in BESIDE]
            for (ask, answer), found in zip(BESIDE, asked):
                tally.expect(f"through nginx, {ask.__name__}", found.result(), [answer] * TURNS)
    finally:
        proxy.terminate()
        proxy.wait()


def main():
    args, tally = arguments(__doc__), Tally()
    if all([tally.needs(name) for name in ("java", "php", "ruby", "node", "curl", "haproxy", "nginx")]):
        with tempfile.TemporaryDirectory() as folder, keeping(args.program, Path(folder) / "db") as port:
            # nginx keeps bodies there as a user of its own
            os.chmod(folder, 0o711)
            each_client(port, tally)
            what_is_there(port, tally)
            by_curl(port, tally)
            behind_haproxy(port, folder, tally)
            behind_nginx(port, folder, tally)
    return tally.end()


if __name__ == "__main__":
    sys.exit(main())
