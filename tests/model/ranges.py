"""Chooses the index for a query, and the range of its keys."""
from model.selectors import COMPARISONS, bounds, needs_part
from model.values import order, steps_of


def count_bounded(columns, atoms):
    """Returns how many columns of an index a query bounds: those fixed by `$eq`, and the first one after them if it is bounded."""
    count = 0
    for column in columns:
        names = [name for name, _ in bounds(atoms, steps_of(column))]
        count += bool(names)
        if "$eq" not in names:
            break
    return count


def choose_index(indexes, atoms, sort, hint):
    """Returns the ddoc and name of the index that serves a query; None for `_all_docs`, False if no index can serve it."""
    needed = [*([name] for name in ("_id", "_rev")), *map(steps_of, sort), *(atom[0] for atom in atoms if needs_part(atom))]
    paths = [steps_of(path) for path in sort]
    usable = []
    for index, (columns, _) in indexes.items():
        steps = [steps_of(column) for column in columns]
        if all(step in needed for step in steps) and steps[: len(paths)] == paths:
            usable.append(index)

    def rank(index):
        columns = indexes[index][0]
        return -count_bounded(columns, atoms), len(columns), index[1], index[0]

    hinted = [index for index in usable if hint and index[: len(hint)] == tuple(hint)]
    if usable:
        return min(hinted or usable, key=rank)
    return None if paths in ([], [["_id"]]) else False


def tightest(limits, upper):
    """Returns the tightest of the bounds of one side: its value, and whether it is inclusive. None if there is no bound."""
    if not limits:
        return None
    side = min if upper else max
    end = side(order(value) for _, value in limits)
    ends = [(name in ("$eq", "$lte", "$gte"), value) for name, value in limits if order(value) == end]
    return {"inclusive": all(inclusive for inclusive, _ in ends), "value": ends[0][1]}


def range_of(columns, atoms):
    """Returns the range of a query: empty, or the fixed values and the two ends of the column after them."""
    equal = []
    for column in columns:
        limits = list(bounds(atoms, steps_of(column)))
        fixed = [value for name, value in limits if name == "$eq"]
        if not fixed:
            return range_with(equal, limits)
        if not all(COMPARISONS[name](order(fixed[0]), order(value)) for name, value in limits):
            return {"empty": True}
        equal.append(fixed[0])
    return {"equal": equal, "lower": None, "upper": None}


def range_with(equal, limits):
    """Returns the range with these fixed values, and with these bounds of the column after them."""
    lower = tightest([limit for limit in limits if limit[0] in ("$gt", "$gte")], False)
    upper = tightest([limit for limit in limits if limit[0] in ("$lt", "$lte")], True)
    if lower and upper:
        low, high = order(lower["value"]), order(upper["value"])
        if low > high or (low == high and not (lower["inclusive"] and upper["inclusive"])):
            return {"empty": True}
    return {"equal": equal, "lower": lower, "upper": upper}
