"""Tries wrong bodies of different functions in one check of their crate.

A function is proved from its own body and the contracts of what it calls. So where several bodies are edited at once, a complaint of the
prover that lies in an edited function, or in the folder of its proof, is about its own edit alone. A function that calls an edited one is not
judged in that check, and is tried in a later one.
"""
import re

# comments, texts and what gives a file its form
TOKEN = re.compile(r"//[^\n]*|/\*.*?\*/|r(#*)\".*?\"\1|\"(?:[^\"\\]|\\.)*\"|'(?:[^'\\\n]|\\[^\n]{1,8})'|\bfn\s+(\w+)|\b(?:impl|trait)\b|[{};]", re.DOTALL)
OPENS_CLAUSE = re.compile(r"\b(?:requires|ensures)\*?\s*\w*\s*$|\bghost\s+[\w ]+:\s*$")
PLACE = re.compile(r"(?:note: )?(?:\./)?(\S+?):(\d+):\d+: ")
# a proof that names what an edit took away says nothing of the contract
NAMES = re.compile(r"(?:note: )?(?:\./)?proofs/.*(?:has no field|is not in scope|has no `|was not admitted)")
GOAL = re.compile(r"`([\w-]+)`")
OPEN = re.compile(r"^not proved|did not prove `")
JUDGED = re.compile(r"^fn \w+::(\S+): (.*)$", re.MULTILINE)


class Function:
    """A function of a file: the texts' ends by position, the lines, and the words of its path below the crate."""

    def __init__(self, file, name, owner, text, head, begin, end):
        self.file, self.name, self.owner, self.begin, self.end = file, name, owner, begin, end
        # the names of the functions of the file, by which the goals of a cycle of calls begin
        self.beside = []
        self.lines = range(text.count("\n", 0, head) + 2, text.count("\n", 0, end) + 2)
        self.module = [] if file in ("src/lib.rt", "src/main.rt") else file.removeprefix("src/").removesuffix(".rt").split("/")

    def path(self):
        """Returns a path below the crate that a check takes for the function: its own, or that of the module which has it and other methods."""
        return "::".join(self.module if self.owner else [*self.module, self.name])

    def fits(self, words):
        """Whether this is the path of the function as a check writes it: a method's has its type, and its trait behind that."""
        here, last = words[:len(self.module)], words[-1]
        between = words[len(self.module):-1]
        owned = [self.owner] if self.owner else []
        return here == self.module and last == self.name and len(between) == len(owned) and all(map(str.startswith, between, owned))

    def owns(self, complaint):
        """Whether a complaint is about the function: it lies there or in the folder of its proof, or names its goal in that of a cycle of calls."""
        file, line = PLACE.match(complaint).groups()
        if file == self.file:
            return int(line) in self.lines
        top, *words = file.split("/")[:-1]
        if top != "proofs" or not words or words[:len(self.module)] != self.module or not words[-1].startswith("+"):
            return top == "proofs" and bool(words) and self.fits(words)
        goal = GOAL.search(complaint)
        of = goal and next((it for it in self.beside if goal[1].startswith(f"{it}-")), words[-1][1:])
        return of == self.name


def owner_of(head):
    """Returns the name of the type that the head of an `impl` block is for, or of a trait, without parameters; of a reference as a check spells it."""
    plain = re.sub(r"<[^<>]*>", "", head)
    while plain != (head := re.sub(r"<[^<>]*>", "", plain)):
        plain = head
    plain = plain.split(" where")[0].split(": ")[0].split(" for ")[-1].strip().removeprefix("impl").strip()
    return re.sub(r"\W+", "", plain.replace("&", "Ref").split("::")[-1])


def functions_of(file, text):
    """Returns the functions of a file whose bodies stand in it."""
    found, owners, depth = [], [], 0
    head = clause_from = None
    impl_from = None
    opened = None
    # the end of what stands before a function's comment and attributes
    behind = 0
    for token in TOKEN.finditer(text):
        word = token[0]
        if token[2]:
            if head is None:
                head, clause_from = (behind, token[2]), token.end()
        elif word in ("impl", "trait") and head is None:
            impl_from = token.end()
        elif word == "{":
            if impl_from is not None and head is None:
                owners.append((depth, owner_of(text[impl_from:token.start()])))
                impl_from = None
            elif head is not None and not opened and not is_clause(text[clause_from:token.start()]):
                opened = (*head, token.start(), depth)
            depth += 1
        elif word == "}":
            depth -= 1
            if opened and opened[3] == depth:
                start, name, begin, _ = opened
                found.append(Function(file, name, owners[-1][1] if owners else None, text, start, begin, token.end()))
                head = opened = None
            elif head is not None and not opened:
                clause_from = token.end()
            if owners and owners[-1][0] == depth:
                owners.pop()
        elif word == ";" and head is not None and not opened and not is_in_brackets(text[clause_from:token.start()]):
            head = None
        if word in ("{", "}", ";"):
            behind = token.end()
    names = sorted({it.name for it in found}, key=len, reverse=True)
    for it in found:
        it.beside = names
    return found


def is_clause(text):
    """Whether a brace behind this text, which begins at the function's name or behind its last clause, opens a clause."""
    return bool(OPENS_CLAUSE.search(re.sub(r"//[^\n]*", "", text)))


def is_in_brackets(text):
    """Whether a place behind this text is within square brackets, as in the type of an array."""
    return text.count("[") > text.count("]")


def pairs_of(edit):
    """Returns the changes of an edit: file, old text, new text."""
    found, file, old = [], None, None
    for line in edit.read_text(encoding="utf-8").splitlines():
        key, _, text = line.partition(": ")
        if key == "file":
            file = text.strip()
        elif key == "old":
            old = text
        elif key == "new" or line.startswith("new:"):
            found.append((file, old, text))
    return found


class Body:
    """A wrong body, and the functions that it edits; none where it changes more than the bodies of functions."""

    def __init__(self, edit, texts, functions):
        self.edit, self.pairs, self.functions = edit, pairs_of(edit), []
        for file, old, _ in self.pairs:
            if old.startswith("use ") and file in texts:
                continue
            at = texts.get(file, "").find(old)
            holds = [it for it in functions.get(file, []) if at >= 0 and it.begin < at and at + len(old) <= it.end]
            if len(holds) != 1:
                self.functions = []
                return
            self.functions.append(holds[0])

    def applied(self, texts):
        """Returns the files with the edit in them; `None` if an old text does not stand in its file exactly once."""
        made = dict(texts)
        for file, old, new in self.pairs:
            if made[file].count(old) != 1:
                return None
            made[file] = made[file].replace(old, new)
        return made


def batch_of(bodies, texts):
    """Returns bodies no two of which edit one function or one text, and the files that they change, with all their edits."""
    chosen, changed, functions = [], {}, set()
    for body in bodies:
        made = body.applied({file: changed.get(file, texts[file]) for file, _, _ in body.pairs})
        if made is not None and not functions & set(body.functions):
            chosen.append(body)
            changed |= made
            functions |= set(body.functions)
    return chosen, changed


def judged(body, said):
    """Returns what a check says of a body: the verdict `refused`, `proved`, or `unjudged` where it calls what another body edits, and a message."""
    paths = [(path.split("::"), word) for path, word in JUDGED.findall(said)]
    verdicts = [word for it in body.functions for path, word in paths if it.fits(path)]
    if not verdicts:
        return "unjudged", "no verdict"
    told = [line for line in said.splitlines() if PLACE.match(line) and (": error" in line or line.startswith("note: "))
            and any(it.owns(line) for it in body.functions)]
    telling = [line for line in told if not NAMES.match(line)]
    if telling and any(OPEN.search(word) and "it calls" not in word for word in verdicts):
        return "refused", telling[0][:160]
    if all(word == "proved" for word in verdicts):
        return "proved", "the function is proved"
    return "unjudged", (told or verdicts)[0][:160]
