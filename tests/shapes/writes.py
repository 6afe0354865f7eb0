"""Bulks of many documents, and documents of many revisions."""
from common.messages import post
from shapes import ADDED, Shape, document, replicas, revision

LETTERS = bytes.maketrans(b"0123456789abcdef", b"ghijklmnopqrstuv")
CONFLICT = b'{"error":"conflict","id":"d","reason":"Document update conflict."}'


def path(ids, start):
    return b'"_revisions":{"start":%d,"ids":[%s]}' % (start, b",".join(b'"%s"' % i for i in ids))


def of_path(ids):
    n = len(ids)
    return b'{"_id":"d","_rev":"%d-%s",%s}' % (n, ids[0], path(ids, n))


def forked_paths(n):
    """Two paths of n revisions that part at their middle."""
    one = [b"%x" % i for i in range(n, 0, -1)]
    other = [i.translate(LETTERS) for i in one[: n - n // 2]] + one[n - n // 2 :]
    return replicas([of_path(one)]) + replicas([of_path(other)]), ADDED


def known_path(n):
    """A path of n revisions, sent twice."""
    return replicas([of_path([b"%x" % i for i in range(n, 0, -1)])]) * 2, ADDED


def combed_paths(n):
    """A path of n revisions, and then thirty paths of the same length, each of which branches off it at another revision."""
    one = [b"%x" % i for i in range(n, 0, -1)]
    others = [[b"%d-%x" % (turn, i) for i in range(n, n - turn, -1)] + one[turn:] for turn in range(1, 31)]
    return b"".join(replicas([of_path(ids)]) for ids in [one, *others]), ADDED


def leaves(n):
    """n leaves of one document, in one bulk."""
    return replicas([b'{"_id":"d","_rev":"1-%06x"}' % i for i in range(n)]), ADDED


def falling_leaves(n):
    """n leaves of one document, in one bulk, the best one first: each new revision moves the newer ones above it, which are
    at most four times as many as the square root of the number of the older ones."""
    return replicas([b'{"_id":"d","_rev":"1-%06x"}' % (n - i) for i in range(n)]), ADDED


def low_leaves(n):
    """A path of n revisions, and in one bulk n / 10 leaves of position 1, below all of these."""
    low = [b'{"_id":"d","_rev":"1-z%x"}' % i for i in range(n // 10)]
    return replicas([of_path([b"%x" % i for i in range(n, 0, -1)])]) + replicas(low), ADDED


def leaves_one_by_one(n):
    """n leaves of one document, in a bulk each: the cost is a product of bulks and leaves."""
    return b"".join(replicas([b'{"_id":"d","_rev":"1-%06x"}' % i]) for i in range(n)), ADDED


def conflicts(n):
    """n leaves of one document, and a look-up of it with its conflicts."""
    ids = [b"1-%06x" % i for i in range(n)]
    served = b'{"_conflicts":[%s],"_id":"d","_rev":"%s"}\n' % (b",".join(b'"%s"' % rev for rev in ids[-2::-1]), ids[-1])
    bulk = replicas([b'{"_id":"d","_rev":"%s"}' % rev for rev in ids])
    return bulk + b"GET /db/d?conflicts=true HTTP/1.1\r\n\r\n", served


def chain(n):
    """n edits, each over the one before, and their entries in the reply."""
    parent, edits, entries = None, [], []
    for turn in range(1, n + 1):
        edits.append(b'{"_id":"d"%s}' % (b"" if parent is None else b',"_rev":"%s"' % parent))
        parent = b"%d-%s" % (turn, revision(parent))
        entries.append(b'{"id":"d","ok":true,"rev":"%s"}' % parent)
    return edits, entries


def line_in_a_bulk(n):
    """n edits of one document, each over the one before, in one bulk."""
    edits, entries = chain(n)
    return post("_bulk_docs", b'{"docs":[%s]}' % b",".join(edits)), b"[%s]\n" % b",".join(entries)


def line_one_by_one(n):
    """n edits of one document, each over the one before, in a bulk each."""
    edits, entries = chain(n)
    return b"".join(post("_bulk_docs", b'{"docs":[%s]}' % edit) for edit in edits), b"[%s]\n" % entries[-1]


def refused_edits(n):
    """n refused edits, in one bulk, of a document with 2,000 revisions."""
    first = replicas([of_path([b"%x" % i for i in range(2000, 0, -1)])])
    bulk = post("_bulk_docs", b'{"docs":[%s]}' % b",".join([b'{"_id":"d","_rev":"7-x"}'] * n))
    return first + bulk, b"[%s]\n" % b",".join([CONFLICT] * n)


def tiny_documents(n):
    """n documents without members, in bulks of up to 100,000."""
    every = [document(b"%06x" % i) for i in range(n)]
    return b"".join(replicas(every[at : at + 100_000]) for at in range(0, n, 100_000)), ADDED


def documents_without_an_id(n):
    """n empty documents, which get an id and a revision each."""
    last = b'{"id":"%032x","ok":true,"rev":"1-%s"}]\n' % (n, revision(None))
    return post("_bulk_docs", b'{"docs":[%s]}' % b",".join([b"{}"] * n)), last


def refused_at_the_end(n):
    """n documents and a bad one after them, so that none is written."""
    every = [document(b"%06x" % i) for i in range(n)] + [b'{"_id":"_x"}']
    return replicas(every) * 4, b'{"error":"doc_validation","reason":"Bad document id."}\n'


SHAPES = [Shape(forked_paths, 300_000, 1_000_000), Shape(known_path, 300_000, 1_000_000), Shape(combed_paths, 12_000, 100_000),
          Shape(leaves, 16_000, 20_000), Shape(falling_leaves, 8_000, 20_000), Shape(low_leaves, 20_000, 40_000),
          Shape(leaves_one_by_one, 3_000, 10_000, 2),
          Shape(conflicts, 16_000, 20_000), Shape(line_in_a_bulk, 40_000, 100_000), Shape(line_one_by_one, 8_000, 20_000),
          Shape(refused_edits, 40_000, 200_000), Shape(tiny_documents, 60_000, 1_000_000), Shape(documents_without_an_id, 40_000, 200_000),
          Shape(refused_at_the_end, 40_000, 200_000)]
