"""Selectors: how they are read, which values they match, and the atoms that every match fulfils."""
from model.values import MISSING, order, part_at, steps_of

COMPARISONS = {"$lt": lambda a, b: a < b, "$lte": lambda a, b: a <= b, "$eq": lambda a, b: a == b,
               "$ne": lambda a, b: a != b, "$gte": lambda a, b: a >= b, "$gt": lambda a, b: a > b}
OPPOSITES = {"$lt": "$gte", "$gte": "$lt", "$lte": "$gt", "$gt": "$lte", "$eq": "$ne", "$ne": "$eq"}
TYPES = ["null", "boolean", "boolean", "number", "string", "array", "object"]
ARMS = {"$and", "$or", "$nor"}
MATCHES = {"$elemMatch", "$allMatch"}


class Fault(Exception):
    """A refusal: its status, error and reason."""


BAD_ARGUMENT = (400, "bad_arg", "Bad argument for an operator.")
UNKNOWN = (400, "invalid_operator", "Unknown operator.")


def is_whole(value):
    return isinstance(value, int) and not isinstance(value, bool)


def is_argument(name, argument):
    """Whether an operator that is not a combinator allows this argument."""
    if name in COMPARISONS:
        return True
    if name == "$exists":
        return isinstance(argument, bool)
    if name == "$type":
        return isinstance(argument, str) and argument in TYPES
    if name == "$size":
        return is_whole(argument) and argument >= 0
    if name == "$mod":
        return isinstance(argument, list) and len(argument) == 2 and all(map(is_whole, argument)) and argument[0] != 0
    return isinstance(argument, list)


def read(value):
    """Reads the selector of an object. Returns a tuple of its kind and its parts."""
    return ("members", [read_member(name, value[name]) for name in sorted(value)])


def read_object(value):
    if not isinstance(value, dict):
        raise Fault(*BAD_ARGUMENT)
    return read(value)


def read_member(name, argument):
    if not name.startswith("$"):
        steps = steps_of(name)
        if steps is None:
            raise Fault(*BAD_ARGUMENT)
        return ("at", steps, read(argument) if isinstance(argument, dict) and argument else ("test", "$eq", argument))
    if name == "$not":
        return ("not", read_object(argument))
    if name in MATCHES:
        return ("test", name, read_object(argument))
    if name not in {*COMPARISONS, *ARMS, "$exists", "$type", "$in", "$nin", "$size", "$mod", "$all"}:
        raise Fault(*UNKNOWN)
    if not is_argument(name, argument):
        raise Fault(*BAD_ARGUMENT)
    return (name, [read_object(arm) for arm in argument]) if name in ARMS else ("test", name, argument)


def matches(name, argument, value):
    """Whether an operator matches a part that is not missing."""
    if name in COMPARISONS:
        return COMPARISONS[name](order(value), order(argument))
    if name == "$exists":
        return argument
    if name == "$type":
        return TYPES[order(value)[0]] == argument
    if name in ("$in", "$nin"):
        choices = [order(item) for item in argument]
        is_there = any(order(item) in choices for item in (value if isinstance(value, list) else [value]))
        return is_there == (name == "$in")
    if name == "$mod":
        return is_whole(value) and (abs(value) % abs(argument[0])) * (-1 if value < 0 else 1) == argument[1]
    if not isinstance(value, list):
        return False
    if name == "$size":
        return len(value) == argument
    if name == "$all":
        items = [order(item) for item in value]
        is_whole_array = len(argument) == 1 and order(argument[0]) == order(value)
        return bool(argument) and (is_whole_array or all(order(item) in items for item in argument))
    found = [holds(argument, item) for item in value]
    return any(found) if name == "$elemMatch" else bool(found) and all(found)


def holds(selector, value, negated=False):
    """Whether a value (MISSING: no value) matches a selector, or its negation."""
    kind, *parts = selector
    if kind == "test":
        name, argument = parts
        if value is MISSING:
            return name == "$exists" and argument == negated
        return matches(name, argument, value) != negated
    if kind == "at":
        return holds(parts[1], MISSING if value is MISSING else part_at(value, parts[0]), negated)
    if kind == "not":
        return holds(parts[0], value, not negated)
    if kind == "$nor":
        negated = not negated
    arms = [holds(arm, value, negated) for arm in parts[0]]
    needs_all = (kind in ("members", "$and")) != negated
    return not arms or (all(arms) if needs_all else any(arms))


def atoms(selector, negated=False, steps=()):
    """Returns the operators that every match fulfils: the steps, the name, the argument, and whether the operator is negated."""
    kind, *parts = selector
    if kind == "test":
        return [(list(steps), *parts, negated)]
    if kind == "at":
        return atoms(parts[1], negated, (*steps, *parts[0]))
    if kind == "not":
        return atoms(parts[0], not negated, steps)
    arms = parts[0]
    through = {"members": not negated or len(arms) == 1, "$and": not negated, "$or": negated, "$nor": not negated}[kind]
    inner = not negated if kind == "$nor" else negated
    return [atom for arm in arms for atom in atoms(arm, inner, steps)] if through else []


def needs_part(atom):
    """Whether an atom fails on a missing part."""
    _, name, argument, negated = atom
    return not (name == "$exists" and argument == negated)


def bounds(atoms_found, steps):
    """Yields the operators that bound the part at these steps, with their arguments."""
    for path, name, argument, negated in atoms_found:
        if path == steps and name in OPPOSITES:
            name = OPPOSITES[name] if negated else name
            if name != "$ne":
                yield name, argument
