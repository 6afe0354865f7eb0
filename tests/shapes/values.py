"""Bodies of many bytes: nesting, texts, names, members, bookmarks, and heads."""
import itertools

from common.messages import post
from shapes import MOST, NO_JSON, NOTHING, Shape, document, find, page, replicas

LETTERS = bytes(letter for letter in range(0x20, 0x7F) if letter not in b'"\\_')
DEEP = b"[" * 120 + b"]" * 120
NO_BOOKMARK = b'{"error":"invalid_bookmark","reason":"Invalid bookmark."}\n'


def open_arrays(n):
    """Twenty bodies of n arrays that are opened."""
    return post("_find", b"[" * n) * 20, NO_JSON


def open_objects(n):
    """Twenty bodies of n bytes of objects that are opened, one in the other."""
    return post("_bulk_docs", (b'{"docs":' * (n // 8))) * 20, NO_JSON


def deep_arrays(n):
    """Two documents of n arrays that are 120 deep, compared with each other and dropped."""
    value = b'"v":[%s]' % b",".join([DEEP] * n)
    both = replicas([document(b"a", value)]) + replicas([document(b"b", value)])
    return both + find(b'{%s}' % value, b'"fields":["_id"]'), page(["a", "b"])


def long_string(n):
    """A document with a text of n bytes, and a query for that text."""
    value = b'"v":"%s"' % (b"x" * n)
    return replicas([document(b"a", value)]) + find(b"{%s}" % value, b'"fields":["_id"]'), page(["a"])


def escapes(n):
    """A document with a text of n line feeds, which are escaped, and a query for that text."""
    value = b'"v":"%s"' % (b"\\n" * n)
    return replicas([document(b"a", value)]) + find(b"{%s}" % value, b'"fields":["_id"]'), page(["a"])


def long_name(n):
    """A member whose name has n bytes, as a path of one step."""
    name = b"x" * n
    return replicas([document(b"a", b'"%s":1' % name)]) + find(b'{"%s":1}' % name, b'"fields":["_id"]'), page(["a"])


def long_id(n):
    """An id of n bytes, and the page that names it in its bookmark."""
    name = "x" * n
    return replicas([document(name.encode())]) + find(b"{}", b'"fields":["_id"]'), page([name])


def repeated_name(n):
    """A document that gives one member n times; the last one counts."""
    repeated = b",".join([b'"a":0'] * (n - 1) + [b'"a":7'])
    return replicas([document(b"a", repeated)]) + find(b'{"a":7}', b'"fields":["_id"]'), page(["a"])


def members(n):
    """A document of n members, and a look-up of it."""
    lengths = (itertools.product(LETTERS, repeat=length) for length in itertools.count(1))
    names = itertools.islice(itertools.chain.from_iterable(lengths), n)
    inside = [(bytes(name), b"1") for name in names]
    served, sent = (b",".join(b'"%s":%s' % member for member in each)
                    for each in (sorted([*inside, (b"_id", b'"a"'), (b"_rev", b'"1-a"')]), inside))
    return replicas([document(b"a", sent)]) + b"GET /db/a HTTP/1.1\r\n\r\n", b"{%s}\n" % served


def no_bookmark(n):
    """A text of n bytes that is not a bookmark."""
    return find(b"{}", b'"bookmark":"%s"' % (b"A" * n)) * 4, NO_BOOKMARK


def long_bookmark(n):
    """A bookmark whose key has n bytes: the page after it is empty, and gives it back."""
    given = page(["x" * n]).split(b'"')[3]
    return find(b"{}", b'"bookmark":"%s"' % given), b'{"bookmark":"%s","docs":[]}\n' % given


def greatest_numbers(n):
    """n documents, and the greatest limit and skip."""
    both = b'"limit":%d,"skip":%d' % (MOST, MOST)
    documents = replicas([document(b"%06x" % i) for i in range(n)])
    return documents + find(b"{}", both) * 10 + find(b'{"a":1}', b'"limit":%d' % MOST) * 10, NOTHING


def messages(n):
    """n messages without a body."""
    return b"GET /db/x HTTP/1.1\r\n\r\n" * n, b'{"error":"not_found","reason":"missing"}\n'


def fields_of_heads(n):
    """n messages with 64 fields each."""
    head = b"GET /db/x HTTP/1.1\r\n" + b"".join(b"a%d: %s\r\n" % (i, b"b" * 200) for i in range(64)) + b"\r\n"
    return head * n, b'{"error":"not_found","reason":"missing"}\n'


def encoded_ids(n):
    """n messages whose id is percent-encoded, of 5,000 bytes."""
    return b"GET /db/%s HTTP/1.1\r\n\r\n" % (b"%41" * 5000) * n, b'{"error":"not_found","reason":"missing"}\n'


SHAPES = [Shape(open_arrays, 2_000_000, 8_000_000), Shape(open_objects, 2_000_000, 8_000_000), Shape(deep_arrays, 4_000, 34_000),
          Shape(long_string, 8_000_000, 8_000_000), Shape(escapes, 4_000_000, 4_000_000), Shape(long_name, 4_000_000, 8_000_000),
          Shape(long_id, 2_000_000, 5_000_000), Shape(repeated_name, 400_000, 1_300_000), Shape(members, 60_000, 1_000_000),
          Shape(no_bookmark, 8_000_000, 8_000_000), Shape(long_bookmark, 1_500_000, 3_000_000),
          Shape(greatest_numbers, 40_000, 200_000), Shape(messages, 100_000, 800_000), Shape(fields_of_heads, 8_000, 40_000),
          Shape(encoded_ids, 4_000, 40_000)]
