"""Counts what requests of each kind take, with callgrind of valgrind: instructions, and reads that miss a simulated cache. The program runs
over its standard input, so counts hardly depend on the machine."""
import contextlib
import glob
import os
import shutil
import subprocess
import tempfile
from concurrent import futures

from .cells import load
from .documents import INDEXES, MARKER, Corpus, Request
from .program import Connection, Program

# what the gate counts, in half a minute
GATE = {
    "documents": 2000, "shape": "nested", "ids": "fronted", "pairs": [(1, 1), (16, 1)], "cache": 1 << 18, "requests": 40,
    "kinds": ["get", "equality", "falling", "two", "deep", "scan", "commit"],
}
# what bench/run counts, at each of two numbers of documents
MANY = {"shape": "flat", "ids": "short", "pairs": [(1, 1), (16, 1), (64, 32)], "cache": 1 << 20, "requests": 60, "kinds": ["equality", "falling"]}
TOOL = ["valgrind", "--quiet", "--tool=callgrind", "--instr-atstart=no"]


class Pipes:
    """The two pipes of a process, with the methods of a socket."""

    def __init__(self, process):
        self.given, self.taken = process.stdin, process.stdout.fileno()

    def sendall(self, text):
        self.given.write(text)
        self.given.flush()

    def recv(self, size):
        return os.read(self.taken, size)


class Session(Connection):
    """The only session of a process. Each message is sent after the reply to the one before was read."""

    def __init__(self, process, corpus):
        self.socket, self.corpus = Pipes(process), corpus


class Counter:
    """Callgrind on a process, which counts only while it is switched on."""

    def __init__(self, folder):
        self.folder = folder

    def options(self):
        return [f"--callgrind-out-file={self.folder}/counts", f"--log-file={self.folder}/log"]

    def control(self, pid, *args):
        subprocess.run(["callgrind_control", *args, str(pid)], check=True, capture_output=True)

    def count(self, pid, warm_up, work):
        """Does some work after a warm-up, which fills the simulated cache uncounted. Returns the sums of what the work took, by their names."""
        self.control(pid, "--instr=on")
        warm_up()
        self.control(pid, "--zero")
        work()
        self.control(pid, "--dump")
        self.control(pid, "--instr=off")
        name = max(glob.glob(f"{self.folder}/counts.*"), key=lambda one: int(one.rpartition(".")[2].partition("-")[0]))
        with open(name) as counts:
            lines = dict(line.rstrip("\n").split(": ", 1) for line in counts if line.startswith(("events: ", "totals: ")))
        return dict(zip(lines["events"].split(), map(int, lines["totals"].split())))


class Counted(Program):
    """The program under callgrind, over pipes, without settings of the C library."""

    def __init__(self, path, corpus, pair, cache, folder):
        self.name, self.corpus, self.counter, self.revisions = "counted", corpus, Counter(folder), {}
        tool = [*TOOL, "--cache-sim=yes", f"--LL={cache},16,64", *self.counter.options()]
        args = [*tool, path, "db", *map(str, pair), "1", "-"]
        self.process = subprocess.Popen(args, stdin=subprocess.PIPE, stdout=subprocess.PIPE)
        self.loaded = Session(self.process, corpus)

    def ask_all(self, requests):
        for one in requests:
            self.loaded.ask(self.loaded.prepare(one), one.answer)

    def count(self, requests, warm):
        """Returns the instructions and the reads from memory of one request; the first `warm` ones are a warm-up."""
        found = self.counter.count(self.process.pid, lambda: self.ask_all(requests[:warm]), lambda: self.ask_all(requests[warm:]))
        return [round(found[event] / (len(requests) - warm)) for event in ("Ir", "DLmr")]


def numbered(requests):
    """Returns requests in which each new document has another id: its number in place of the marker."""
    return [one if one.answer else Request(one.kind, (one.about[0].replace(MARKER, f"{at:010}"), one.about[1]), None)
            for at, one in enumerate(requests)]


def counted(path, corpus, pair, sizes):
    """Returns for each kind the instructions and the reads from memory of a request, all with one database."""
    with tempfile.TemporaryDirectory() as folder, contextlib.closing(Counted(path, corpus, pair, sizes["cache"], folder)) as program:
        load(program)
        for which in INDEXES:
            program.index(which)
        found = {}
        for kind in sizes["kinds"]:
            # each scan reads all documents, so a few scans suffice
            number = max(2, sizes["requests"] // 20) if kind == "scan" else sizes["requests"]
            found[kind] = program.count(numbered(corpus.requests(kind, number + number // 2)), number // 2)
        return found


def of_sizes(path, sizes):
    """Returns for each pair of shards and workers, such as `16/4`, and each kind: the instructions and the reads. The pairs are counted side by
    side, since counts do not depend on what else the machine does."""
    corpus = Corpus(sizes["documents"], sizes["shape"], sizes["ids"])
    with futures.ThreadPoolExecutor(os.cpu_count()) as pool:
        made = list(pool.map(lambda pair: counted(path, corpus, pair, sizes), sizes["pairs"]))
    return {"{}/{}".format(*pair): kinds for pair, kinds in zip(sizes["pairs"], made)}


def instructions(args, add):
    """The instructions of requests on pairs of shards and workers. They are exact, so only the first turn counts them, if
    valgrind is installed."""
    if args.turn or not shutil.which("valgrind"):
        return
    for count in sorted({min(10_000, args.usual), args.usual}):
        found = of_sizes(args.program, {**MANY, "documents": count, **({"requests": 4} if args.smallest else {})})
        for pair, kinds in found.items():
            further = int(pair.partition("/")[0]) - 1
            for kind, (taken, reads) in kinds.items():
                each = {"instructions of a further shard": (taken - found["1/1"][kind][0]) / further} if further else {}
                add(f"mangod {pair}, {count:,} {MANY['shape']}", f"{kind}, counted", {"instructions": taken, "reads": reads, **each})
