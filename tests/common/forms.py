"""Reads declarations of Rust as forms that can be compared: without layout, attributes and bodies.

In a form the runtime is `rt` and an allocator is `alloc`, whatever their types. A generic parameter of a function is replaced by its bounds, as
in `impl Gate`, but without those of SILENT, and the parameters of an impl keep their letters.
"""
import re
from dataclasses import dataclass

BRACKETS = re.compile(r"->|=>|[(\[<{)\]>}]")
# a parameter with one of these bounds is the runtime
RUNTIME = {"Wait", "Threads", "Net", "Clock"}
SILENT = {"Sync", "Send", "Drop", "Copy", "Sized"}
RESULT = re.compile(r"\s*->\s*(.*?)(?=\s+(?:where|requires|ensures)\b|\s*[{;]|\s*$)", re.DOTALL)
# a bound, without what it says of its associated types
NAMED = re.compile(r"(?<![\w<:'])[\w:]+(?:<[^=]*>)?")
PARAMETER = re.compile(r"(?:mut )?_?(\w+): (.*)")


@dataclass(frozen=True)
class Form:
    """A declaration. `inputs` are the parameters of a function, each a name (empty if it has none) and a type, or those of a type. `output` is
    the result of a function, or the fields, variants or associated types of a type; None if they are not given."""

    kind: str
    name: str
    inputs: tuple = ()
    output: object = None

    def fits(self, other):
        """Whether another form of the same kind and name is this one, as far as this one names parameters and gives members."""
        same = len(self.inputs) == len(other.inputs) and self.output in (None, other.output)
        return same and all(a[1] == b[1] and a[0] in ("", b[0]) for a, b in zip(self.inputs, other.inputs))

    def __str__(self):
        inputs = ", ".join(f"{name}: {kind}" if name else kind for name, kind in self.inputs)
        if self.kind == "fn":
            return f"fn {self.name}({inputs})" + (f" -> {self.output}" if self.output else "")
        return f"{self.kind} {self.name}" + (f"<{inputs}>" if inputs else "") + (f" {{ {', '.join(sorted(self.output))} }}" if self.output else "")


def tight(text):
    """A text with the spaces and commas that the layout of one line has."""
    text = re.sub(r",\s*(?=[)\]>}])", "", " ".join(text.split()))
    text = re.sub(r"([(\[<]) | ([)\]>,])", r"\1\2", text)
    return re.sub(r" ?([{}]) ?", r" \1 ", text).strip()


def end_of(text, start=0):
    """Returns the place behind the bracket that closes the one at `start`. An arrow is not a bracket."""
    depth = 0
    for found in BRACKETS.finditer(text, start):
        depth += (found[0] in "([<{") - (found[0] in ")]>}")
        if depth == 0:
            return found.end()
    raise ValueError(f"a bracket is not closed: {text[start:start + 60]}")


def split(text):
    """Splits a list at the commas outside of brackets."""
    parts, depth = [""], 0
    for piece in re.findall(r"->|=>|.", text, re.DOTALL):
        depth += (piece in "([<{") - (piece in ")]>}")
        if piece == "," and depth == 0:
            parts.append("")
        else:
            parts[-1] += piece
    return [tight(part) for part in parts if part.strip()]


def generics_of(text):
    """Returns the generic parameters with which a text begins, each with its bounds, and the text behind them."""
    if not text.startswith("<"):
        return {}, text
    end, generics = end_of(text), {}
    for one in split(text[1:end - 1]):
        name, _, bounds = one.partition("=")[0].partition(":")
        generics[name.strip()] = [] if name.startswith("'") else NAMED.findall(bounds)
    return generics, text[end:]


def without_generics(text, generics):
    """A type of a signature, with the bounds of a generic parameter in its place."""
    for name, bounds in generics.items():
        said = [bound for bound in bounds if bound not in SILENT]
        if RUNTIME & set(said):
            text = re.sub(rf"^&{name}$|\b{name}\b", "rt", text)
        elif said:
            text = re.sub(rf"\b{name}\b", f"impl {' + '.join(said)}", text)
    return text


def parameter_of(text, generics):
    """Returns the name and the type of a parameter. The receiver, the runtime and the allocator have no name."""
    found = PARAMETER.fullmatch(text)
    name, kind = found.groups() if found else ("", re.sub(r"^mut self$", "self", text))
    kind = "alloc" if kind == "Global" else without_generics(kind, generics)
    return ("", kind) if kind in ("rt", "alloc") else (name, kind)


def function_form(name, text, owner="Self"):
    """Returns the form of a function, from the text behind its name. `owner` is what `Self` stands for: the type of its impl."""
    generics, text = generics_of(text)
    end = end_of(text)
    inputs = tuple(parameter_of(re.sub(r"\bSelf\b", owner, one), generics) for one in split(text[1:end - 1]))
    result = RESULT.match(text, end)
    output = without_generics(re.sub(r"\bSelf\b", owner, tight(result[1])), generics) if result else ""
    return Form("fn", name, inputs, output)


def members_of(kind, rest, public):
    """Returns the fields or variants behind the name of a type. A struct with private fields has the member `..`; a field is public if it begins
    as the pattern says."""
    if rest.startswith("="):
        return frozenset([tight(rest[1:].rstrip().rstrip(";"))])
    if rest.startswith(";"):
        return frozenset()
    start = 0 if rest.startswith("(") else rest.find("{")
    if start < 0:
        return None
    listed = [one for one in split(rest[start + 1:end_of(rest, start) - 1]) if not one.startswith("ghost ")]
    if kind == "enum":
        return frozenset(listed)
    return frozenset(re.sub(public, "", one) if re.match(public, one) else ".." for one in listed)


def type_form(kind, name, text, public=""):
    """Returns the form of a type, from the text behind its name. A trait has no members here: its functions are items of their own."""
    generics, rest = generics_of(text)
    members = None if kind == "trait" else members_of(kind, rest.strip(), public)
    return Form(kind, name, tuple(("", one) for one in generics), members)


def impl_form(text):
    """Returns the form of an impl of a trait, from the text behind `impl`, with its associated types. None if it is of no trait."""
    head, _, body = generics_of(text.lstrip())[1].partition("{")
    trait, is_for, owner = tight(re.split(r"\bwhere\b", head)[0]).partition(" for ")
    if not is_for:
        return None
    given = re.findall(r"\btype (\w+ = [^;]+);", body)
    return Form("impl", f"{trait.partition('<')[0]} for {owner.partition('<')[0]}", (), frozenset(map(tight, given)) or None)


def form_of(line):
    """Returns the form of a declaration in one line, as tests/surface.txt has it: all fields are public."""
    if line.startswith("impl "):
        return impl_form(line.removeprefix("impl "))
    found = re.fullmatch(r"(fn|struct|enum|trait|type|test) ((?:\w+::)*\w+)(.*)", line)
    if found is None:
        raise ValueError(f"not a declaration: {line}")
    kind, name, rest = found.groups()
    if kind == "fn":
        return function_form(name, rest)
    return Form(kind, name) if kind == "test" else type_form(kind, name, rest)
