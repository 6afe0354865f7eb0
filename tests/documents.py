#!/usr/bin/env python3
"""Checks what README.md, CONTRIBUTING.md, CHANGELOG.md and docs/*.md name, link, quote and count.

usage: documents.py --program PATH [--top FOLDER]

- A path that begins with a file or folder at the top of the repository (docs/MODEL.md, tests/*.py) exists. Paths in out/, which a check
  makes, are ignored. A path that begins with a folder of crates (src/leaf.rt, specs/Lib.antt) exists in some crate, and a file name
  alone (tally.py) somewhere.
- A link [text](target) leads to an existing file, and to an existing heading or anchor of it if it names one, or to another host. A
  section (docs/MODEL.md, "How to read the definitions") is a heading of that document.
- A word mg_NAME is a crate of crates.txt. README.md names each document.
- A name in backquotes with an underscore or with `::` stands somewhere in the code, the definitions or the tests, in documents about these.
- Each definition that docs/MODEL.md quotes, and its contract of `Engine::run`, stand line by line in the crates, in one file a quotation.
- The table of crates in docs/ARCHITECTURE.md has the crates of crates.txt in the same order, and files that exist; so has the table of
  definitions in docs/MODEL.md.
- The files and lines of definitions under the headline, as docs/PROOF.md gives them, are those of common/headline.py.
The program is not run. Prints each fault; a document passes or fails as one. The last line is 'N passed, M failed'.
"""
import re
import sys
from pathlib import Path

from common.arguments import arguments
from common.headline import headline
from common.tally import Tally

TOP = Path(__file__).resolve().parent.parent
PATH = re.compile(r"(?<![\w./*{}-])\.?[A-Za-z][\w.*-]*(?:/[\w.*-]+)*/?")
LINK = re.compile(r"\[[^\]]*\]\(([^)\s]+)\)")
SECTION = re.compile(r'((?:docs/)?[A-Z]+\.md), "([^"]+)"')
CRATE = re.compile(r"\bmg_[a-z0-9_]+\b")
CODE = re.compile(r"^```http-.*?^```$", re.S | re.M)
NAME = re.compile(r"`([A-Za-z]\w*(?:::\w+)*)`")
QUOTATION = re.compile(r"^```(antt|rust)\n(.*?)^```$", re.S | re.M)
COUNTS = re.compile(r"([0-9,]+) files and ([0-9,]+) lines of definitions under the headline")
CRATE_FOLDERS = ("src", "specs", "proofs", "must-fail")
ENDINGS = (".md", ".txt", ".py", ".rt", ".antt", ".json", ".sh", ".edit", ".c")
ABOUT_CODE = ("ARCHITECTURE.md", "CONTRIBUTING.md", "DECISIONS.md", "GLOSSARY.md", "MODEL.md", "PROOF.md")


def crates_of(text):
    """Returns the crates of crates.txt."""
    lines = [line for line in text.splitlines() if line.strip() and not line.startswith("#")]
    return [line.split()[0].rstrip(":") for line in lines]


def pattern_of(top, path, first, slash):
    """Returns the pattern that some file must match if a text names this path. None if the path is not checked: it is not of the
    repository, it is in out/, or it ends in a single capital letter, which stands for any folder."""
    if "/out/" in f"{path}/" or re.search(r"/[A-Z]/?$", path) or "/CRATE" in path:
        return None
    if slash and (top / first).exists():
        return path.rstrip("/")
    if slash and first in CRATE_FOLDERS:
        return f"crates/*/{path.rstrip('/')}"
    return f"**/{path}" if not slash and path.endswith(ENDINGS) else None


def missing_paths(top, text):
    """Yields the paths that do not exist."""
    for path in sorted(set(PATH.findall(text))):
        first, slash, _ = path.rstrip(".").partition("/")
        pattern = pattern_of(top, path.rstrip("."), first, slash)
        if pattern and not list(top.glob(pattern)):
            yield f"{path} does not exist"


def anchors_of(text):
    """Returns the anchors of a document: those of its headings, and its own."""
    headings = re.findall(r"^#+ (.*)$", text, re.M)
    return {re.sub(r"[^\w -]", "", heading.lower()).replace(" ", "-") for heading in headings} | set(re.findall(r'<a id="([^"]+)">', text))


def broken_links(top, file, text):
    for link in LINK.findall(text):
        target, _, anchor = link.partition("#")
        if re.match(r"[a-z]+:", link):
            continue
        linked = file.parent / target if target else file
        if not linked.exists():
            yield f"the link to {link} leads nowhere"
        elif anchor and anchor not in anchors_of(linked.read_text(encoding="utf-8")):
            yield f"the link to {link} names no heading"
    for name, section in SECTION.findall(" ".join(text.split())):
        named = top / name
        headings = re.findall(r"^#+ (.*)$", named.read_text(encoding="utf-8"), re.M) if named.exists() else []
        if section not in headings:
            yield f"{name} has no section {section}"


def unknown_names(text, words):
    """Yields the names in backquotes, with an underscore or with `::`, of which some part does not stand in the code."""
    for name in sorted(set(NAME.findall(text))):
        if ("_" in name or "::" in name) and not set(name.split("::")) <= words:
            yield f"nothing is named {name}"


def faults_of(top, file, crates, words):
    """Yields the faults of a document. Its examples of requests and replies are ignored: they name no files."""
    text = CODE.sub("", file.read_text(encoding="utf-8"))
    yield from missing_paths(top, text)
    yield from broken_links(top, file, text)
    yield from (f"{name} is not a crate" for name in sorted(set(CRATE.findall(text)) - set(crates)))
    if file.name in ABOUT_CODE:
        yield from unknown_names(text, words)


def plain(text):
    """A text without comments and with single spaces."""
    return " ".join(" ".join(line for line in text.splitlines() if not line.lstrip().startswith(("--", "//"))).split())


def lost_quotations(text, sources):
    """Yields the quoted definitions that no source has: those between empty lines, whose lines all stand in one source."""
    for kind, block in QUOTATION.findall(text):
        for quotation in block.split("\n\n"):
            parts = [plain(quotation)] if kind == "rust" else [" ".join(line.split()) for line in quotation.strip().splitlines()]
            if not any(all(part in source for part in parts) for source in sources[kind]):
                yield f"no file has {quotation.strip().splitlines()[0]}"


def table_of(text, heading):
    """Returns the rows of the table in a section: each cell as the words in it, without backquotes."""
    section = text.partition(f"\n## {heading}\n")[2].partition("\n## ")[0]
    return [[re.findall(r"[\w./]+", cell) for cell in row.split("|")[1:-1]] for row in section.splitlines() if row.startswith("| ")][1:]


def table_faults(top, crates, architecture, model):
    rows = table_of(architecture, "The crates")
    if [row[0][0] for row in rows] != crates:
        yield f"the table has the crates {[row[0][0] for row in rows]}, crates.txt {crates}"
    for (crate,), _, files, definitions in rows:
        wanted = [*files, *(f"specs/{name}.antt" for name in definitions)]
        yield from (f"{crate} has no {file}" for file in wanted if not (top / "crates" / crate / file).exists())
    for _, folders, definitions in table_of(model, "10. Where each definition is"):
        for name in definitions:
            if not any((top / folder / f"{name}.antt").exists() for folder in folders):
                yield f"{folders} has no {name}.antt"


def main():
    args, tally = arguments(__doc__, top=TOP), Tally()
    top = args.top
    crates = crates_of((top / "crates.txt").read_text(encoding="utf-8"))
    documents = [top / "README.md", top / "CONTRIBUTING.md", top / "CHANGELOG.md", *sorted((top / "docs").glob("*.md"))]
    texts = {file.name: file.read_text(encoding="utf-8") for file in documents}
    code = {kind: [file.read_text(encoding="utf-8") for file in sorted(top.glob(pattern))]
            for kind, pattern in (("antt", "crates/*/specs/**/*.antt"), ("rust", "crates/*/src/**/*.rt"), ("more", "tests/**/*.py"))}
    words = set(re.findall(r"\w+", "\n".join(text for kind in code.values() for text in kind))) | set(crates)
    words |= set(re.findall(r"\w+", (top / "crates.txt").read_text(encoding="utf-8")))
    for file in documents:
        tally.count(str(file.relative_to(top)), list(faults_of(top, file, crates, words)))
    names = [str(file.relative_to(top)) for file in documents if file.name != "README.md"]
    tally.expect("what README.md does not name", [name for name in names if not re.search(rf"\b{re.escape(name)}\b", texts["README.md"])], [])
    sources = {kind: [plain(text) for text in code[kind]] for kind in ("antt", "rust")}
    tally.count("quotations of docs/MODEL.md", list(lost_quotations(texts["MODEL.md"], sources)))
    tally.count("tables of crates and definitions", list(table_faults(top, crates, texts["ARCHITECTURE.md"], texts["MODEL.md"])))
    found = COUNTS.search(texts["PROOF.md"])
    tally.expect("files and lines under the headline", found and tuple(int(one.replace(",", "")) for one in found.groups()), headline(top))
    return tally.end()


if __name__ == "__main__":
    sys.exit(main())
