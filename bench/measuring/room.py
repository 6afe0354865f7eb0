"""What takes room: documents with ascending ids, rows of indexes, deleted documents, small and many indexes; and first edits of documents."""
import contextlib
import json
import time

from .calls import MEMORY, calls
from .cells import EDITED_BULKS, load
from .documents import BULK, Corpus, compact
from .program import Program

SMALL_INDEXES = 50
ROWS = 10
MANY_SHARDS = (64, 32)
INDEXES = (250, 1000)
# so many indexes are measured by themselves, before each of these numbers is reached
LAST = 50
# until a program has given back what a reply took, in seconds
STILL = 0.2


def kept(args, add):
    """The memory of a document, in random and in ascending order of ids; and with an index by the id's number that is there before the load. Without
    indexes also the time of first edits, which is to be compared with that of the load."""
    for order in (False, True):
        for indexed in (False, True):
            corpus = Numbered(args.usual, ascending=order)
            with contextlib.closing(Program(args.program, corpus)) as system:
                empty = system.size()
                if indexed:
                    system.index("price")
                used = load(system, keeps_revisions=True)["processor"]
                where, row = f"{system.name}, {corpus.title}", f"{'ascending' if order else 'random'} keys{', with an index' * indexed}"
                add(where, row, {"bytes": (system.size() - empty) / corpus.count, "processor": used})
                if not indexed:
                    add(where, f"{row}, edited", {"processor": edited(system)})


class Numbered(Corpus):
    """Documents whose prices are their numbers: keys that ascend where the ids do."""

    def price(self, i):
        return i


def edited(system):
    """Edits documents in bulks, each for the first time. Returns the microseconds of processor time for each."""
    numbers, used = system.corpus.numbers()[: EDITED_BULKS * BULK], 0
    for at in range(0, len(numbers), BULK):
        part = numbers[at : at + BULK]
        bulk, before = system.prepare_edits(part), system.processor()
        system.send_bulk(bulk, len(part))
        used += system.processor() - before
    return used / len(numbers) * 1e6


def deleted(args, add):
    """The memory of a document that was made and deleted."""
    count = args.usual
    with contextlib.closing(Program(args.program, Corpus(BULK))) as system:
        empty = system.size()
        for at in range(0, count, BULK):
            made = written(system, [{"_id": f"deleted{number:07}", "n": number} for number in range(at, at + BULK)])
            written(system, [{"_id": one["id"], "_rev": one["rev"], "_deleted": True} for one in made])
        add(system.name, "a document that was made and deleted", {"bytes": (system.size() - empty) / count})


def written(system, documents):
    """Writes a bulk, and returns the value of its reply. A document that is not accepted ends the run."""
    rows = json.loads(system.exchange("POST", "_bulk_docs", {"docs": documents}))
    if not all(row.get("rev") for row in rows):
        raise SystemExit(f"a bulk was answered by {rows[:3]}")
    return rows


def small_indexes(args, add):
    """The memory of an index of ten rows on each of many shards, for each shard."""
    shards = MANY_SHARDS[0]
    with contextlib.closing(Program(args.program, Corpus(ROWS * shards), MANY_SHARDS)) as system:
        load(system)
        system.index("price")
        before = system.size()
        for number in range(SMALL_INDEXES):
            system.index("price", f"small{number}")
        add(system.name, f"an index of {ROWS} rows, a shard", {"bytes": (system.size() - before) / SMALL_INDEXES / shards})


def many_indexes(args, add):
    """The time that it takes to define many indexes, in milliseconds: of all from the first one on, and of each of the last ones."""
    last = max(1, int(LAST * args.scale))
    with contextlib.closing(Program(args.program, Corpus(BULK), MANY_SHARDS)) as system:
        load(system)
        made, clock = 0, time.monotonic()
        for wanted in INDEXES:
            while made < int(wanted * args.scale):
                if made == int(wanted * args.scale) - last:
                    late = time.monotonic()
                system.index("price", f"index{made}")
                made += 1
            now = time.monotonic()
            add(system.name, f"{wanted:,} indexes", {"ms": (now - clock) * 1e3, "ms each": (now - late) * 1e3 / last})


class Doubled(Corpus):
    """Documents that have each member twice."""

    def body(self, i):
        body = super().body(i)
        return {**body, **{f"{name}2": value for name, value in body.items()}}


def blocks(args, add):
    """The blocks of memory of a document without indexes, the bytes in them, and how many more there are for each further byte of its text. They are
    counted, so the first turn suffices."""
    if args.turn:
        return
    count = max(2 * BULK, int(10 * BULK * args.scale))
    flat, doubled = (taken(args, corpus) for corpus in (Corpus(count), Doubled(count)))
    times = (doubled["bytes"] - flat["bytes"]) / (doubled["text"] - flat["text"])
    add("mangod 1/1", "a flat document", {"blocks": flat["blocks"], "bytes": flat["bytes"], "bytes for a byte of text": times})


def taken(args, corpus):
    """Returns what a document takes, and the bytes of its text without its id. The first bulk is not counted: the session keeps room for it."""
    numbers = corpus.numbers()
    with calls() as (environment, counts), contextlib.closing(Program(args.program, corpus, environment=environment)) as system:
        for at in range(0, corpus.count, BULK):
            system.send_bulk(system.prepare_bulk(numbers[at : at + BULK]), BULK)
            if at == 0:
                time.sleep(STILL)
                before = counts()
        time.sleep(STILL)
        after, counted = counts(), numbers[BULK:]
    texts = sum(len(compact(corpus.body(i)).encode()) for i in counted)
    return {"text": texts / len(counted), **{name: (after[name] - before[name]) / len(counted) for name in MEMORY}}


def room(args, add):
    for part in (kept, deleted, small_indexes, many_indexes, blocks):
        part(args, add)
