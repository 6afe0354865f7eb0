"""Reads the bodies of bulks, indexes and queries, and finds their first faults."""
import base64
import hashlib
import json
import re

from model import selectors
from model.selectors import Fault, is_whole
from model.values import compact, steps_of

BAD_SHAPE = (400, "bad_request", "Wrong shape.")
BAD_JSON = (400, "bad_request", "Invalid JSON.")
MIXED_SORT = (400, "unsupported_mixed_sort", "Sorts currently only support a single direction for all fields.")
BAD_BOOKMARK = (400, "invalid_bookmark", "Invalid bookmark.")
BAD_REVISION = (400, "doc_validation", "Invalid rev format.")
BAD_MEMBER = (400, "doc_validation", "Bad special document member.")
BAD_ID = (400, "doc_validation", "Bad document id.")
DESIGN = "_design/"
MEMBERS = {"_id", "_rev", "_revisions", "_deleted", "_conflicts", "_deleted_conflicts", "_revs_info", "_local_seq"}
ID = re.compile(r"[\x21-\x7e]+")
MOST = 2**31 - 1
LAST = 2**32 - 1
DEEPEST = 127


def is_text(value):
    return isinstance(value, str)


def require(condition, fault=BAD_SHAPE):
    if not condition:
        raise Fault(*fault)


def refuse_constant(text):
    raise ValueError(text)


def whole_number(text):
    """Returns a whole number, as an int if it fits 64 bits, else as a float; `-0` as a float, too."""
    number = int(text)
    return number if -(2**63) <= number < 2**63 and text != "-0" else float(number)


def is_readable(value, depth=0):
    """Whether the program reads a value: it has only whole numbers of 64 bits, and is not too deep."""
    if isinstance(value, (list, dict)):
        inner = value.values() if isinstance(value, dict) else value
        return depth < DEEPEST and all(is_readable(item, depth + 1) for item in inner)
    return not isinstance(value, float)


def parse(data):
    return json.loads(data.decode(), parse_int=whole_number, parse_constant=refuse_constant)


def value_of(body):
    """Returns the value of a body. Raises the refusal of one that is not JSON, or that the program does not read."""
    try:
        value = parse(body)
        compact(value).encode()
    except (ValueError, RecursionError):
        raise Fault(*BAD_JSON) from None
    require(is_readable(value), BAD_JSON)
    return value


def path_of(document, new_edits):
    """Returns the revisions that a document of a bulk gives, newest first; None if it gives none."""
    path = None
    if "_rev" in document:
        found = is_text(document["_rev"]) and re.fullmatch(r"([1-9][0-9]{0,9})-(.*)", document["_rev"], re.DOTALL)
        require(found and int(found[1]) <= LAST and ID.fullmatch(found[2]), BAD_REVISION)
        path = [(int(found[1]), found[2])]
    if "_revisions" in document:
        run = document["_revisions"]
        require(isinstance(run, dict) and is_whole(run.get("start")) and 1 <= run["start"] <= LAST, BAD_REVISION)
        ids = run.get("ids")
        require(isinstance(ids, list) and 1 <= len(ids) <= run["start"], BAD_REVISION)
        require(all(is_text(name) and ID.fullmatch(name) for name in ids), BAD_REVISION)
        path = [(run["start"] - place, name) for place, name in enumerate(ids)]
    require(new_edits or path, BAD_REVISION)
    return path


def edit_of(document, new_edits):
    """Returns the edit of a document of a bulk: its id, its path, whether it deletes, and its body."""
    special = {name for name in document if name.startswith("_")}
    deleted = document.get("_deleted", False)
    require(special <= MEMBERS and isinstance(deleted, bool), BAD_MEMBER)
    name = document.get("_id", "x")
    require(is_text(name) and name and not name.startswith("_"), BAD_ID)
    path = path_of(document, new_edits)
    return document.get("_id"), path, deleted, {member: value for member, value in document.items() if member not in special}


def bulk_of(body):
    """Returns the edits of a bulk, and its `new_edits`."""
    require(isinstance(body, dict) and isinstance(body.get("docs"), list) and all(isinstance(document, dict) for document in body["docs"]))
    new_edits = body.get("new_edits", True)
    require(isinstance(new_edits, bool))
    return [edit_of(document, new_edits) for document in body["docs"]], new_edits


def columns_of(fields):
    """Returns the paths of an array of columns, and their directions."""
    paths, directions = [], set()
    require(isinstance(fields, list))
    for field in fields:
        path, direction = field, "asc"
        if isinstance(field, dict):
            require(len(field) == 1)
            (path, direction), = field.items()
        require(is_text(path) and steps_of(path) and direction in ("asc", "desc"))
        paths.append(path)
        directions.add(direction)
    return paths, directions


def design_id(ddoc):
    return ddoc if ddoc.startswith(DESIGN) else DESIGN + ddoc


def definition_of(body):
    """Returns the ddoc and the name of an index, its columns and their direction."""
    require(isinstance(body, dict) and isinstance(body.get("index"), dict))
    for name in ("ddoc", "name"):
        require(is_text(body.get(name, "x")) and body.get(name, "x"))
    require(body.get("type", "json") == "json" and body.get("partitioned", False) is False)
    require(body.get("partial_filter_selector", {}) == {} and body["index"].get("partial_filter_selector", {}) == {})
    columns, directions = columns_of(body["index"].get("fields"))
    require(columns)
    require(len(directions) == 1, MIXED_SORT)
    direction = directions.pop()
    made = hashlib.md5(compact({"fields": [{column: direction} for column in columns]}).encode()).hexdigest()
    return (design_id(body.get("ddoc", made)), body.get("name", made)), (columns, direction)


def hint_of(hint):
    hint = [hint] if is_text(hint) else hint
    require(isinstance(hint, list) and len(hint) <= 2 and all(map(is_text, hint)))
    return [design_id(name) for name in hint[:1]] + hint[1:]


def bookmark_text(parts):
    return base64.urlsafe_b64encode(compact(parts).encode()).decode().rstrip("=")


def bookmark_of(text):
    """Returns the parts of a bookmark: ddoc, name and direction of its index, and key and id of its row; None for `nil`."""
    if text in (None, "nil"):
        return None
    try:
        parts = parse(base64.urlsafe_b64decode(text.encode() + b"=" * (-len(text) % 4)))
    except ValueError:
        parts = None
    is_list = isinstance(parts, list) and len(parts) == 5 and (parts[0] is None or is_text(parts[0])) and is_text(parts[1])
    require(is_list and parts[2] in ("asc", "desc") and isinstance(parts[3], list) and is_text(parts[4]), BAD_BOOKMARK)
    require(is_readable(parts) and bookmark_text(parts) == text, BAD_BOOKMARK)
    return parts


def query_of(body):
    """Returns the parts of a query. Raises its first fault."""
    require(isinstance(body, dict) and isinstance(body.get("selector"), dict))
    limit, skip = body.get("limit", 25), body.get("skip", 0)
    require(all(is_whole(number) and 0 <= number <= MOST for number in (limit, skip)))
    sort, directions = columns_of(body.get("sort", []))
    fields = body.get("fields", [])
    require(isinstance(fields, list) and all(is_text(path) and steps_of(path) for path in fields))
    hint = hint_of(body.get("use_index", []))
    require(isinstance(body.get("bookmark", "nil"), (str, type(None))) and isinstance(body.get("conflicts", False), bool))
    selector = selectors.read(body["selector"])
    after = bookmark_of(body.get("bookmark"))
    require(len(directions) < 2, MIXED_SORT)
    return {
        "selector": selector, "atoms": selectors.atoms(selector), "limit": limit, "skip": skip, "sort": sort,
        "direction": directions.pop() if directions else "asc", "fields": fields, "hint": hint, "after": after,
        "bookmark": body.get("bookmark") or "nil", "conflicts": body.get("conflicts", False), "given": body,
    }
