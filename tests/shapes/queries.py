"""Selectors with many arguments, arms and steps, and many indexes."""
from common.messages import post
from shapes import ADDED, NOTHING, Shape, document, find, page, replicas

NO_INDEX = b'{"error":"no_usable_index","reason":"No index exists for this sort, try indexing by the sort fields."}\n'


def arguments(n, first=1000):
    return b",".join(b"%d" % i for i in range(first, first + n))


def array(n):
    """A document with an array of n numbers."""
    return replicas([document(b"a", b'"v":[%s]' % arguments(n, 0))])


def in_arguments(n):
    """`$in` with n arguments, none of which an array of 100 elements has."""
    return array(100) + find(b'{"v":{"$in":[%s]}}' % arguments(n)), NOTHING


def nin_arguments(n):
    """`$nin` with n arguments, none of which an array of 100 elements has."""
    return array(100) + find(b'{"v":{"$nin":[%s]}}' % arguments(n), b'"fields":["_id"]'), page(["a"])


def all_arguments(n):
    """`$all` with n arguments, each equal to the last of 100 elements."""
    return array(100) + find(b'{"v":{"$all":[%s]}}' % b",".join([b"99"] * n), b'"fields":["_id"]'), page(["a"])


def or_arms(n):
    """n arms of `$or` that each look at 100 elements."""
    arms = b",".join(b'{"v":{"$elemMatch":{"$eq":%d}}}' % (1000 + i) for i in range(n))
    return array(100) + find(b'{"$or":[%s]}' % arms), NOTHING


def nor_arms(n):
    """n arms of `$nor` below two negations."""
    arms = b",".join(b'{"v":{"$elemMatch":{"$eq":%d}}}' % (1000 + i) for i in range(n))
    return array(100) + find(b'{"$not":{"$not":{"$nor":[%s]}}}' % arms, b'"fields":["_id"]'), page(["a"])


def arguments_by_elements(n):
    """`$in` with n arguments on n elements: the cost is their product."""
    given = replicas([document(b"a", b'"v":[%s]' % arguments(n, 10**6))])
    return given + find(b'{"v":{"$in":[%s]}}' % arguments(n)), NOTHING


def choices(n):
    """An `$and` of n `$or`s of two arms: they are not multiplied out."""
    arms = b",".join(b'{"$or":[{"a%d":1},{"b%d":1}]}' % (i, i) for i in range(n))
    return find(b'{"$and":[%s]}' % arms) * 2, NOTHING


def negated_choices(n):
    """The negation of an `$or` of n `$and`s of two arms: they are not multiplied out."""
    arms = b",".join(b'{"$and":[{"a%d":1},{"b%d":1}]}' % (i, i) for i in range(n))
    return find(b'{"$not":{"$or":[%s]}}' % arms) * 2, NOTHING


def deep_negations(n):
    """n arms, each of 25 negations and 25 `$elemMatch`es, one inside the other."""
    arm = b'{"$not":{"$elemMatch":' * 25 + b'{"a":1}' + b"}}" * 25
    return array(10) + find(b'{"$and":[{"a":5},%s]}' % b",".join([arm] * n)), NOTHING


def steps_of_a_selector(n):
    """A path of n steps in a selector, and a document that has the first 101 of them."""
    deep = b'"s":' + b'{"s":' * 100 + b"1" + b"}" * 100
    return replicas([document(b"a", deep)]) + find(b'{"%s":1}' % b".".join([b"s"] * n)) * 4, NOTHING


def steps_of_fields(n):
    """A path of n steps in the fields of a page."""
    deep = b'"s":' + b'{"s":' * 100 + b"1" + b"}" * 100
    fields = b'"fields":["_id","%s"]' % b".".join([b"s"] * n)
    return replicas([document(b"a", deep)]) + find(b"{}", fields) * 4, page(["a"])


def steps_of_a_sort(n):
    """A path of n steps in a sort, for which there is no index."""
    return find(b"{}", b'"sort":["%s"]' % b".".join([b"s"] * n)) * 4, NO_INDEX


def steps_of_an_index(n):
    """An index on a path of n steps, and a query that it serves."""
    path = b".".join([b"s"] * n)
    index = post("_index", b'{"index":{"fields":["%s"]},"ddoc":"x","name":"i"}' % path)
    return replicas([document(b"a")]) + index + find(b'{"%s":{"$gt":1}}' % path), NOTHING


def arms_under_a_path(n):
    """n arms of `$or` below a path of n steps."""
    steps = b".".join([b"s"] * n)
    arms = b",".join(b'{"x":%d}' % i for i in range(n))
    return find(b'{"%s":{"$or":[%s]}}' % (steps, arms)), NOTHING


def atoms_under_a_path(n):
    """n operators below a path of n steps, all of them required: they share the path's steps."""
    steps = b".".join([b"s"] * n)
    arms = b",".join(b'{"$gt":%d}' % i for i in range(n))
    return find(b'{"%s":{"$and":[%s]}}' % (steps, arms)), NOTHING


def atoms_at_every_depth(n):
    """A hundred paths of n / 100 steps, each below the one before, and n / 100 required operators below each: they share the steps of
    all paths above them."""
    steps = b".".join([b"s"] * (n // 100))
    arms = b'"$and":[%s]' % b",".join(b'{"$gt":%d}' % i for i in range(n // 100))
    return find(b'{%s"%s":{%s}%s}' % (b'"%s":{%s,' % (steps, arms) * 99, steps, arms, b"}" * 99)), NOTHING


def many_fields(n):
    """n paths in the fields of a page."""
    fields = b'"fields":["_id",%s]' % b",".join(b'"f%d.g"' % i for i in range(n))
    return replicas([document(b"a")]) + find(b"{}", fields), page(["a"])


def columns(n):
    """An index of n columns, a document that has all of them, and a query that bounds all of them: the cost is a product of
    columns and atoms."""
    names = [b"c%d" % i for i in range(n)]
    index = post("_index", b'{"index":{"fields":[%s]},"ddoc":"x","name":"i"}' % b",".join(b'"%s"' % name for name in names))
    edit = replicas([document(b"a", *(b'"%s":1' % name for name in names))])
    return index + edit + find(b"{%s}" % b",".join(b'"%s":2' % name for name in names)), NOTHING


def created(n):
    return b"".join(post("_index", b'{"index":{"fields":["f%d"]},"ddoc":"x","name":"i%04d"}' % (i, i)) for i in range(n))


def indexes(n):
    """n indexes, one after another: each commit copies the list of all definitions, so the cost is a product."""
    return created(n), b'{"id":"_design/x","name":"i%04d","result":"created"}\n' % (n - 1)


def indexes_on_64_shards(n):
    """n indexes, one after another, each of them on 64 shards."""
    return indexes(n)


def queries_by_indexes(n):
    """A thousand indexes, and n queries that choose among them."""
    return created(1000) + find(b'{"f7":1,"f9":{"$gt":3}}') * n, NOTHING


def edits_under_indexes(n):
    """A thousand indexes, and a bulk of n documents with a row in one of them."""
    return created(1000) + replicas([document(b"%06x" % i, b'"f7":%d' % i) for i in range(n)]), ADDED


def empty_shards(n):
    """64 shards with no document, 32 workers, and n queries."""
    return find(b'{"a":1}') * n, NOTHING


SHAPES = [Shape(in_arguments, 400_000, 900_000), Shape(nin_arguments, 400_000, 900_000), Shape(all_arguments, 1_000_000, 2_500_000),
          Shape(or_arms, 40_000, 100_000), Shape(nor_arms, 40_000, 100_000), Shape(arguments_by_elements, 8_000, 40_000, 2),
          Shape(choices, 20_000, 100_000), Shape(negated_choices, 20_000, 100_000), Shape(deep_negations, 2_000, 12_000),
          Shape(steps_of_a_selector, 400_000, 1_000_000), Shape(steps_of_fields, 400_000, 1_000_000),
          Shape(steps_of_a_sort, 400_000, 1_000_000), Shape(steps_of_an_index, 400_000, 1_000_000), Shape(arms_under_a_path, 64_000, 500_000),
          Shape(atoms_under_a_path, 64_000, 450_000), Shape(atoms_at_every_depth, 64_000, 450_000),
          Shape(many_fields, 400_000, 600_000), Shape(columns, 2_000, 8_000, 2), Shape(indexes, 800, 2_000, 2),
          Shape(indexes_on_64_shards, 240, 1_000, 1, "64", "32"),
          Shape(queries_by_indexes, 8_000, 40_000), Shape(edits_under_indexes, 16_000, 100_000),
          Shape(empty_shards, 500, 5_000, 1, "64", "32")]
