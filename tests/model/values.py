"""JSON values: their compact text, their order, the parts that paths name, and projections."""
import copy
import json

MISSING = object()


def compact(value):
    return json.dumps(value, ensure_ascii=False, separators=(",", ":"), sort_keys=True)


def order(value):
    """Returns a sort key that orders values by type: null, false and true, numbers, strings, arrays, objects."""
    if value is None:
        return (0,)
    if isinstance(value, bool):
        return (2,) if value else (1,)
    if isinstance(value, int):
        return (3, value)
    if isinstance(value, str):
        return (4, value)
    if isinstance(value, list):
        return (5, [order(item) for item in value])
    return (6, [(name, order(value[name])) for name in sorted(value)])


def steps_of(path):
    """Returns the steps of a path; None if one of them is empty."""
    steps = path.replace("\\.", "\0").split(".")
    return None if "" in steps else [step.replace("\0", ".") for step in steps]


def part_at(value, steps):
    """Returns the part of a value to which the steps lead, or MISSING."""
    for step in steps:
        if isinstance(value, dict) and step in value:
            value = value[step]
        elif isinstance(value, list) and step.isdecimal() and str(int(step)) == step and int(step) < len(value):
            value = value[int(step)]
        else:
            return MISSING
    return value


def projection(value, paths):
    """Returns an object with the parts of a value that the paths name."""
    found = {}
    for steps in map(steps_of, paths):
        part, place = part_at(value, steps), found
        for step in steps[:-1] if part is not MISSING else []:
            place = place.setdefault(step, {}) if isinstance(place, dict) else None
        if part is not MISSING and isinstance(place, dict):
            place[steps[-1]] = copy.deepcopy(part)
    return found
