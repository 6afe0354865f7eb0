#!/usr/bin/env python3
"""Compares the public surface of the crates with the planned one, which tests/surface.txt has.

usage: surface.py --program PATH [--top FOLDER]

- Each planned item (a type, a call, a trait, an impl of a trait, a test) is exported by its crate under its name, and has the planned form:
  the same parameters in the same order, the same result, the same fields or variants. Where the plan names a parameter, the code does.
- An item that has another form has the one that tests/surface.txt gives (`here`), does not have the planned one too, and each row of the table
  of docs/DECISIONS.md, "Forms that differ from the plan", that it names (`differs`) is there and names the item.
- Each other row of that table is listed in tests/surface.txt as one that is not about a form (`row`), and each row has its class.
The sources are read, not compiled (common/items.py), so what a type or a bound means is not looked at. The program is not run. The last line
is 'N passed, M failed'.
"""
import re
import sys
from collections import Counter
from dataclasses import dataclass, field, replace
from pathlib import Path

from common.arguments import arguments
from common.forms import Form, form_of
from common.items import Sources
from common.modules import TOP
from common.tally import Tally

HEADING = "\n## Forms that differ from the plan\n"
CLASSES = ("toolchain", "representation", "decided")


@dataclass
class Item:
    """A planned item: its crate and its form. If the code has another form, also that one, and key words of the rows that say why."""

    crate: str
    form: Form
    here: list = field(default_factory=list)
    differs: list = field(default_factory=list)


def read_plan(text):
    """Returns the planned items, and the key words of the rows that are not about a form."""
    crate, items, rows = "", [], []
    for line in text.splitlines():
        word, _, rest = line.strip().partition(" ")
        if word == "crate":
            crate = rest
        elif word == "row:":
            rows.append(rest)
        elif word == "here:":
            items[-1].here.append(form_of(rest))
        elif word == "differs:":
            items[-1].differs.append(rest)
        elif word and word != "#":
            items.append(Item(crate, form_of(line)))
    return items, rows


def table_of(document):
    """Returns the rows of the table of forms that differ: the cells of each, without backquotes."""
    section = document.partition(HEADING)[2].partition("\n## ")[0]
    lines = [line for line in section.splitlines() if line.startswith("| ")]
    return [[" ".join(cell.replace("`", "").split()) for cell in line.split("|")[1:-1]] for line in lines[1:]]


def rows_with(table, words):
    return [row for row in table if words in row[0]]


def can_lack_memory(items):
    """The names of the types that say that memory was refused."""
    return {"NoMemory"} | {item.form.name for item in items if item.form.kind == "enum" and "NoMemory" in (item.form.output or ())}


def with_alloc(form, refusals):
    """The planned form by the rule of docs/DECISIONS.md: a call that allocates takes `alloc` first, after the runtime. Those calls are the
    functions without `self` that can say that memory was refused, and `new` without parameters. A method takes no `alloc` in the plan, since a
    value keeps the one with which it was made. Where a result does not say that a function allocates, tests/surface.txt writes `alloc`."""
    if form.kind != "fn" or ("", "alloc") in form.inputs or any(kind.endswith("self") for _, kind in form.inputs):
        return form
    if not refusals & set(re.findall(r"\w+", form.output)) and (form.inputs or not form.name.endswith("::new")):
        return form
    place = 1 if form.inputs[:1] == (("", "rt"),) else 0
    return replace(form, inputs=(*form.inputs[:place], ("", "alloc"), *form.inputs[place:]))


def words_of(text):
    return set(re.findall(r"\w+", text.lower()))


def said(forms):
    return " and ".join(map(str, forms)) or "nothing"


def form_faults(sources, crate, form):
    """Returns what the crate has in the place of a form, as a list of one fault; empty if it has the form."""
    found = sources.found(crate, form.kind, form.name)
    return [] if any(form.fits(other) for other in found) else [f"{form} is expected, and {said(found)} is public"]


def row_faults(table, item, words):
    """Yields what is wrong with the row that an item names by key words."""
    rows = rows_with(table, words)
    if len(rows) != 1:
        yield f"{len(rows)} rows of the table begin with a form that has the words '{words}'"
    elif not words_of(item.form.name) & words_of(" ".join(rows[0][:2])):
        yield f"the row with the words '{words}' does not name it"


def item_faults(sources, table, item, planned):
    """Yields the faults of an item, whose planned form is given with its `alloc`."""
    faults = form_faults(sources, item.crate, planned)
    if not item.here and not item.differs:
        yield from faults
        return
    if not faults:
        yield "it has the planned form, so it does not differ"
    if not item.here or not item.differs:
        yield "it needs both the form that is here and the row that says why"
    yield from (fault for form in item.here for fault in form_faults(sources, item.crate, form))
    yield from (fault for words in item.differs for fault in row_faults(table, item, words))


def check_items(tally, sources, table, items):
    refusals = can_lack_memory(items)
    for item in items:
        name = f"{item.crate}: {item.form.kind} {item.form.name}"
        if item.crate in sources.crates:
            tally.count(name, list(item_faults(sources, table, item, with_alloc(item.form, refusals))))
        else:
            tally.count(name, ["there is no such crate"])
    twice = [name for name, count in Counter((item.crate, item.form.kind, item.form.name) for item in items).items() if count > 1]
    tally.expect("items that are planned twice", twice, [])


def check_rows(tally, table, items, others):
    """Checks that each row of the table is needed: by an item, or because it is listed as one that is not about a form."""
    needed = [words for item in items for words in item.differs]
    for row in table:
        by_items, by_list = any(words in row[0] for words in needed), sum(words in row[0] for words in others)
        faults = [] if row[2:3] and row[2] in CLASSES else [f"its class is not one of {', '.join(CLASSES)}"]
        if by_items and by_list:
            faults.append("items differ by it, but it is listed as not about a form")
        if not by_items and by_list != 1:
            faults.append(f"no item differs by it, and it is listed {by_list} times as not about a form")
        tally.count(f"row '{row[0]}'", faults)
    tally.expect("listed rows that the table does not have once", [words for words in others if len(rows_with(table, words)) != 1], [])


def summary(table, items, others):
    """A sentence with the counts."""
    differing = [item for item in items if item.differs]
    classes = Counter("/".join(sorted({row[2] for words in item.differs for row in rows_with(table, words)})) for item in differing)
    listed = ", ".join(f"{count} {name}" for name, count in sorted(classes.items()))
    return (f"{len(items)} items: {len(items) - len(differing)} as planned, {len(differing)} differ ({listed}); "
            f"{len(table)} rows, {len(others)} of them not about a form")


def main():
    args, tally = arguments(__doc__, top=TOP), Tally()
    top = Path(args.top)
    items, others = read_plan((top / "tests" / "surface.txt").read_text(encoding="utf-8"))
    table = table_of((top / "docs" / "DECISIONS.md").read_text(encoding="utf-8"))
    check_items(tally, Sources(top), table, items)
    check_rows(tally, table, items, others)
    print(summary(table, items, others))
    return tally.end()


if __name__ == "__main__":
    sys.exit(main())
