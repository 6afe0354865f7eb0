"""Reads the items of the crates: functions, methods, types, traits, impls of traits, and tests.

The sources have the layout of `rt fmt`: an item begins at the start of a line, a function of an impl or a trait four spaces behind it. An item
of a library counts if lib.rt exports it, by `pub mod` or `pub use`, and its functions if they are `pub`. A program exports nothing, so all its
items count.
"""
import re
from collections import defaultdict
from functools import partial

from common.forms import Form, function_form, generics_of, impl_form, tight, type_form

# comments, attributes, and what is ghost in one line
NO_CODE = re.compile(r"^\s*(?://.*|#\[.*|ghost .*[;,])\n", re.MULTILINE)
ITEM = re.compile(r"^(pub(?:\([^)]*\))? )?(?:unsafe |const )*(fn|struct|enum|trait|type|impl)\b ?", re.MULTILINE)
FUNCTION = re.compile(r"^    (pub )?(?:unsafe |const )*fn (\w+)", re.MULTILINE)
TEST = re.compile(r"^#\[test\]\n(?:#.*\n|//.*\n)*fn (\w+)", re.MULTILINE)
DERIVED = re.compile(r"^#\[derive\((.*)\)\]\n(?:#.*\n|//.*\n)*(?:pub(?:\(.*\))? )?(?:struct|enum) (\w+)", re.MULTILINE)
USE = re.compile(r"^pub use ([\w:]+?(?: as \w+)?)(?:::\{([^}]*)\})?;", re.MULTILINE)
NAME = re.compile(r"\w+")


class Crate:
    """The items of a crate: `items` by module, kind and name, and `methods`, `impls` and `tests` of all modules. Each has a function that reads
    its form, since few forms are asked for."""

    def __init__(self, folder):
        self.source = folder / "src"
        self.is_program = not (self.source / "lib.rt").exists()
        self.items, self.uses, self.modules = defaultdict(list), {}, {}
        self.methods, self.impls, self.tests = defaultdict(list), defaultdict(list), set()
        for file in sorted(self.source.rglob("*.rt")):
            self.read(file)

    def read(self, file):
        """Reads the items of a file, each up to where the next one begins."""
        module = file.relative_to(self.source).with_suffix("").parts
        module = () if module in (("lib",), ("main",)) else module
        text = file.read_text(encoding="utf-8")
        self.tests.update(TEST.findall(text))
        self.add_derived(text)
        text = NO_CODE.sub("", text)
        self.modules[module] = re.findall(r"^pub mod (\w+);", text, re.MULTILINE)
        self.uses[module] = dict(used_names(text))
        starts = list(ITEM.finditer(text))
        for found, end in zip(starts, [*(one.start() for one in starts[1:]), len(text)]):
            is_public = found[1] == "pub " or self.is_program
            self.add(module, is_public, found[2], text[found.end():end])

    def add(self, module, is_public, kind, text):
        if kind == "impl":
            self.add_impl(text)
        elif is_public:
            name = NAME.match(text)[0]
            rest = text[len(name):]
            public = r"pub(?:\(crate\))? " if self.is_program else r"pub (?!\()"
            form = partial(function_form, name, rest) if kind == "fn" else partial(type_form, kind, name, rest, public)
            self.items[module, kind, name].append(form)
            if kind == "trait":
                self.add_functions(name, "Self", rest, True)

    def add_derived(self, text):
        for traits, name in DERIVED.findall(text):
            self.impls.update({f"{trait} for {name}": [partial(Form, "impl", f"{trait} for {name}")] for trait in traits.split(", ")})

    def add_impl(self, text):
        form = impl_form(text)
        if form:
            self.impls[form.name].append(lambda: form)
            return
        owner = tight(re.split(r"\bwhere\b|\{", generics_of(text)[1])[0])
        self.add_functions(owner.partition("<")[0], owner, text, self.is_program)

    def add_functions(self, name, owner, text, are_public):
        for found in FUNCTION.finditer(text):
            if are_public or found[1]:
                method = f"{name}::{found[2]}"
                self.methods[method].append(partial(function_form, method, text[found.end():], owner))


def used_paths(text):
    """Yields the paths that a file exports by `pub use`."""
    for path, listed in USE.findall(text):
        yield from (f"{path}::{one.strip()}" for one in listed.split(",") if one.strip()) if listed else (path,)


def used_names(text):
    """Yields each name that a file exports by `pub use`, with the path that it leads to."""
    for used, _, name in (path.partition(" as ") for path in used_paths(text)):
        yield name or used.rpartition("::")[2], used.split("::")


class Sources:
    """The crates of a repository."""

    def __init__(self, top):
        self.crates = {folder.name: Crate(folder) for folder in sorted((top / "crates").iterdir()) if (folder / "src").is_dir()}

    def place_of(self, crate, module, path, is_inside=False):
        """Returns the crate and the module of an item, which may be reached from a module by this path; None if there is none. `is_inside` is
        for the path of a `pub use`, which may lead through modules that are not public."""
        here, (head, *rest) = self.crates[crate], path
        if not rest and any((module, kind, head) in here.items for kind in ("fn", "struct", "enum", "trait", "type")):
            return crate, module
        inner = (*module, head)
        if rest and inner in here.modules and (is_inside or head in here.modules[module]):
            return self.place_of(crate, inner, rest, is_inside)
        if head not in here.uses[module]:
            return None
        first, *others = used = here.uses[module][head]
        if first in self.crates:
            return self.place_of(first, (), [*others, *rest])
        if first == "crate":
            return self.place_of(crate, (), [*others, *rest], True)
        return self.place_of(crate, module, [*used, *rest], True)

    def found(self, crate, kind, name):
        """Returns the forms of the public items of a crate that have this kind and this name, whatever their parameters."""
        here = self.crates[crate]
        if kind == "test":
            return [Form(kind, name)] if name in here.tests else []
        return [form() for form in (here.impls[name] if kind == "impl" else self.exported(crate, kind, name.split("::")))]

    def exported(self, crate, kind, path):
        is_method = len(path) > 1 and path[-2][0].isupper()
        place = self.place_in(crate, path[:-1] if is_method else path)
        if place is None:
            return []
        there, module = self.crates[place[0]], place[1]
        return there.methods["::".join(path[-2:])] if is_method else there.items[module, kind, path[-1]]

    def place_in(self, crate, path):
        """Returns the crate and the module of an item by its path from outside; of a program, the module that has the name."""
        here = self.crates[crate]
        if not here.is_program:
            return self.place_of(crate, (), path)
        return next(((crate, module) for module, _, name in here.items if name == path[-1]), None)
