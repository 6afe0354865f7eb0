"""Counts the definitions that the meaning of `Engine::run` rests on: those of `IsExecution`, and all that they name, over all crates.

An item of a file of specs/ is a definition with its lines; comments and empty lines are not counted. An item is reached if a reached item
of the same file names it, or one of another file that imports it. Types that Rust declares, and the kit's definitions, are not counted.
"""
import re

HEADER = re.compile(r"(?:abbrev|record|data|mutual|unfoldable|pub (?:record|data))\b")
NAMED = re.compile(r"^(?:abbrev |unfoldable |pub |record |data )+([^\s:(]+)", re.MULTILINE)
CASE = re.compile(r"^ {2,}(?:pub )?(?:record |data )?([^\s:(]+)(?: \(.*\))? :", re.MULTILINE)
USE = re.compile(r"^use Rattle\.(mg_\w+)\.specs\.([\w.]+?)(?:\.\{([^}]*)\}| as (\S+))?$", re.MULTILINE)
WORD = re.compile(r"[^\s(){}\[\],;.]+")


def items_of(text):
    """Yields the lines of each item."""
    item = []
    for line in text.splitlines():
        is_code = line.strip() and not line.lstrip().startswith("--") and not line.startswith(("use ", "pub mod "))
        if item and (HEADER.match(line) or line.startswith(("use ", "pub mod "))):
            yield item
            item = []
        if is_code and (item or HEADER.match(line)):
            item.append(line)
    if item:
        yield item


def names_of(item):
    """Returns the names that an item defines: its own, and those of its cases and fields."""
    text = "\n".join(item)
    return set(NAMED.findall(text)) | set(CASE.findall(text))


class Definitions:
    """The items of all crates, by file and name, and what each file imports."""

    def __init__(self, top):
        self.items, self.imports = {}, {}
        for file in sorted(top.glob("crates/mg_*/specs/**/*.antt")):
            text = file.read_text(encoding="utf-8")
            crate, module = file.relative_to(top / "crates").parts[0], ".".join(file.with_suffix("").parts[len(top.parts) + 3:])
            here = (crate, module)
            self.items[here] = {name: item for item in map(tuple, items_of(text)) for name in names_of(item)}
            self.imports[here] = {}
            for crate, module, names, alias in USE.findall(text):
                for name in names.split(","):
                    original, _, renamed = name.strip().partition(" as ")
                    self.imports[here][renamed or original or alias] = (crate, module)

    def reached(self, start, name):
        """Returns the items that a name rests on: the module of each, and its lines."""
        found, waiting = set(), [(start, name)]
        while waiting:
            module, name = waiting.pop()
            item = self.items.get(module, {}).get(name)
            if item is None or (module, item) in found:
                continue
            found.add((module, item))
            for word in {word for line in item for word in WORD.findall(line)}:
                waiting.append((self.imports[module].get(word, module), word))
        return found


def headline(top):
    """Returns the number of files and of lines that the headline rests on."""
    found = Definitions(top).reached(("mg_engine", "Execution"), "IsExecution")
    return len({module for module, _ in found}), sum(len(item) for _, item in found)
