#!/usr/bin/env python3
"""Compares the OpenAPI documents of mangod and of mango_server with what describes the programs, and with the requests and replies of the
other tests.

usage: openapi.py --program PATH [--folder FOLDER]

FOLDER has openapi.json and mango_server.openapi.json; it is docs/ if it is not given. `PROGRAMS` says what each of them is compared with.
- Its routes and its refusals are exactly those of the tables that describe the program; its version is the newest of CHANGELOG.md.
- Each operation has a description, a tag of the document, the replies that any request may get, the statuses and parameters that the tables
  name, and in its replies exactly the fields that they name. `HEAD` has the statuses and fields of `GET`.
- Each operation has examples of its request and its reply, which are allowed by their schemas and are examples of those that are compared
  with. Each schema has a description.
- For each example: its path, method, status and the parameters of its query are in the document. The document allows its reply, but not a
  reply with a member left out, added or of another type.
- The document allows the body of each accepted request, but no body that was refused for its JSON, numbers, shape, operators, sort or documents.
Other scripts compare these replies with those of the programs, so no program is started here. The validator is tests/common/schema.py. The
last line is 'N passed, M failed'.
"""
import json
import re
import sys
import urllib.parse
from dataclasses import dataclass

from common.arguments import arguments
from common.messages import body_of
from common.reference import TOP, sections_of
from common.schema import Schemas, with_whole_references
from common.surface import Surface
from common.tables import Route, refusals_in, routes_in
from common.tally import Tally

REFERENCE, REQUESTS = "docs/REFERENCE.md", "docs/MANGO_SERVER.md"
# refusals of bodies that the documents must not allow
BY_BODY = {
    "InvalidJson", "WrongShape", "UnknownOperator", "BadArgument", "MixedSort", "BadSpecialMember", "BadDocumentId", "BadRevision",
    "NotWhole", "WrongBulk", "WrongQuery", "WrongOption", "NoOptions", "Attachments",
}
# such a body, if it is refused for a limit that the schemas do not express: a position above 4,294,967,295, more ids than positions
BEYOND = re.compile(r'"_rev":"[0-9]{10,}-|"start":1,"ids":\[[^\]]*,')
# members of replies that have members of a fixed shape themselves
INNER = ("rows", "value", "vendor", "indexes")


def reference_examples(file):
    """Yields the examples of a document whose replies have a body: method, target, body, and the status and text of the reply."""
    for _, examples in sections_of((TOP / file).read_text(encoding="utf-8")):
        for example in (one for one in examples if one.reply.body):
            method, _, target = example.request.partition(" ")
            yield method, target, body_of(example.message).decode(), example.reply.status, example.reply.body.decode()


def session_examples(folder):
    """Yields the messages of sessions whose heads have a method and a target, and whose replies have a body, each with its reply."""
    for file in sorted((TOP / folder).glob("*.json")):
        for session in json.loads(file.read_text(encoding="utf-8")):
            for part in session["parts"]:
                line, _, rest = part["in"].partition("\r\n") if isinstance(part["in"], str) else ("", "", "")
                found = re.fullmatch(r"([A-Z]+) (/\S*) HTTP/1\.[01]", line)
                if found and "reply" in part and part["reply"] and part["reply"][1]:
                    yield found[1], found[2], rest.partition("\r\n\r\n")[2], *part["reply"][:2]


def conversation_examples(folder):
    """Yields the messages of conversations that are followed by a reply with all bytes, each with its reply."""
    texts = [re.sub(r"\n +", " ", file.read_text(encoding="utf-8")) for file in sorted((TOP / folder).glob("*.txt"))]
    for sent, status, reply in re.findall(r"^((?:> .*\n)+)< ([0-9]+) (.*)$", "\n".join(texts), re.MULTILINE):
        for method, target, body in re.findall(r"^> ([A-Z]+) (\S+) ?(.*)$", sent, re.MULTILINE):
            yield method, target if target.startswith("/") else f"/db/{target}", body, int(status), reply


@dataclass(frozen=True)
class Program:
    """What a document is compared with."""

    # the document
    file: str
    # the documents whose tables list the routes and the refusals, and the errors of these tables that the program does not answer
    described: tuple
    without: tuple
    # where there are examples, and the function that yields them
    examples: tuple
    # the fields of each reply, and those of a refused method
    fields: tuple
    refused_fields: tuple
    # parameters of a query that are not in the document are ignored; a number whose value is whole is whole
    ignores: bool
    by_value: bool


PROGRAMS = (
    Program(
        file="openapi.json", described=(REFERENCE,), without=(),
        examples=((reference_examples, REFERENCE), (session_examples, "tests/sessions"), (conversation_examples, "tests/conversations")),
        fields=(), refused_fields=(), ignores=True, by_value=False,
    ),
    Program(
        file="mango_server.openapi.json", described=(REFERENCE, REQUESTS), without=("bad_head", "length_required", "head_too_large"),
        examples=((reference_examples, REQUESTS), (reference_examples, REFERENCE), (conversation_examples, "tests/conversations/mango_server")),
        fields=("Date",), refused_fields=("Date", "Allow"), ignores=False, by_value=True,
    ),
)


def whole_or_float(text):
    """Returns the whole number that the value of a number is, where each whole number is a float; else the float."""
    value = float(text)
    return int(value) if value.is_integer() and abs(value) <= 2**53 else value


def whole_or_minus_zero(text):
    return -0.0 if text == "-0" else int(text)


def parse(program, text):
    """Returns the value of a text. None, which no schema of a body allows, if the text is not JSON or nests more than 127 deep; a schema cannot
    express the latter."""
    numbers = {"parse_float": whole_or_float} if program.by_value else {"parse_int": whole_or_minus_zero}
    try:
        value = json.loads(text, **numbers)
    except ValueError:
        return None
    return value if depth(value) <= 127 else None


def depth(value):
    inner = value.values() if isinstance(value, dict) else value if isinstance(value, list) else None
    return 0 if inner is None else 1 + max(map(depth, inner), default=0)


def may_lack(value, name):
    """Whether an object of this kind may be without a member: a document without all but its id and its revision, a row without its document or
    its mark of a deletion, an entry of a document with a number that is not whole without its id."""
    is_document = "_rev" in value and name not in ("_id", "_rev")
    return is_document or name in ("doc", "deleted") or (value.get("error") == "not_whole" and name == "id")


def altered(value):
    """Yields values of another shape: in an object, or in one of the first three items of an array, a member is left out, added, or of another
    type. The body of a document may have any members."""
    if isinstance(value, list):
        for place, item in enumerate(value[:3]):
            yield from ([*value[:place], other, *value[place + 1:]] for other in altered(item))
    if isinstance(value, dict):
        yield {**value, "_other": 1}
        for name in value:
            if not may_lack(value, name):
                yield {other: value[other] for other in value if other != name}
            if "_rev" not in value or name.startswith("_"):
                yield {**value, name: {"other": []} if isinstance(value[name], (str, int, list)) else 1.5}
            if name in INNER:
                yield from ({**value, name: other} for other in altered(value[name]))


def check_query(tally, surface, name, example):
    """Checks that a request's parameters are in the document, unless the reply refuses one by its name, or it changes nothing."""
    method, target, _, _, reply = example
    operation, path = surface.operation(method, target), surface.path_of(target)
    if operation is None:
        return
    given = surface.parameters("/" + "/".join(path), operation, "query")
    for asked, value in urllib.parse.parse_qsl(target.partition("?")[2], keep_blank_values=True):
        if (asked, value) != ("new_edits", "true"):
            tally.expect(f"{name}: {asked} is in the document", asked in given, f'"{asked}: this server does not' not in reply)


def is_of_body(surface, refusal):
    """Whether a refusal is one of the body."""
    named = [f"{file}#/components/schemas/{name}" for file, document in surface.schemas.documents.items()
             for name in BY_BODY & document["components"]["schemas"].keys()]
    return any(surface.schemas.allows({"$ref": reference}, refusal) for reference in named)


def check_body(tally, program, surface, name, example):
    """Checks the body of a request that was done, or refused for it. A refusal of a request with a query may be one of its parameters."""
    method, target, body, status, reply = example
    schema = surface.body_schema(method, target)
    if schema and status < 300:
        tally.expect(f"{name}: the body of a request that was done", surface.schemas.allows(schema, parse(program, body)), True)
    elif schema and "?" not in target and not BEYOND.search(body) and is_of_body(surface, parse(program, reply)):
        tally.expect(f"{name}: the body of a request that was refused", surface.schemas.allows(schema, parse(program, body)), False)


def check_example(tally, program, surface, name, example):
    method, target, _, status, reply = example
    schema = surface.reply_schema(method, target, status)
    if schema is None:
        tally.expect(f"{name}: status {status} of the document", schema, "a schema")
        return
    value = parse(program, reply)
    tally.expect(f"{name}: the reply", surface.schemas.allows(schema, value), True)
    tally.expect(f"{name}: altered replies", [other for other in altered(value) if surface.schemas.allows(schema, other)], [])
    check_body(tally, program, surface, name, example)
    if not program.ignores:
        check_query(tally, surface, name, example)


def references_in(value):
    if isinstance(value, dict):
        yield from ([value["$ref"]] if isinstance(value.get("$ref"), str) else [])
    for inner in value.values() if isinstance(value, dict) else value if isinstance(value, list) else []:
        yield from references_in(inner)


def reasons_of(schema, reasons):
    """Returns the reasons that a schema lists; for a pattern those of the given ones that it matches, or else the pattern."""
    if "pattern" in schema:
        return [reason for reason in reasons if re.search(schema["pattern"], reason)] or [schema["pattern"]]
    return schema.get("enum") or [schema["const"]]


def refusals_of(surface, known):
    """Yields each status from 400 on, with each error and reason of its replies. `known`: refusals whose reasons a pattern may match."""
    responses = [*(operation["responses"] for _, _, operation in surface.operations()), surface.document["x-otherwise"]]
    found = [(status, surface.content(response)) for each in responses for status, response in each.items() if status >= "400"]
    for status, content in found:
        for one in content["schema"].get("oneOf", [content["schema"]]) if content else []:
            members = surface.resolve(one)["properties"]
            error = members["error"]["const"]
            reasons = [known_reason for code, known_error, known_reason in known if (code, known_error) == (status, error)]
            yield from ((status, error, reason) for reason in reasons_of(members["reason"], reasons))


def tables_of(program):
    """Returns the routes and the refusals that the documents of a program list."""
    text = "\n".join((TOP / file).read_text(encoding="utf-8") for file in program.described)
    return routes_in(text), {refusal for refusal in refusals_in(text) if refusal[1] not in program.without}


def check_document(tally, program, surface, tables):
    """Checks the document itself, and its routes and refusals against the tables."""
    document, (routes, refusals) = surface.document, tables
    tally.expect(f"{program.file}: the version", document["openapi"], "3.1.0")
    newest = re.search(r"^## ([0-9.]+)", (TOP / "CHANGELOG.md").read_text(encoding="utf-8"), re.MULTILINE)
    tally.expect(f"{program.file}: the version of the surface", document["info"]["version"], newest and newest[1])
    defined = {f"{program.file}#/components/{kind}/{name}" for kind, entries in document["components"].items() for name in entries}
    tally.expect(f"{program.file}: components that nothing refers to", defined - set(references_in(document)), set())
    named = [name for name, one in document["components"]["schemas"].items() if not one.get("description")]
    tally.expect(f"{program.file}: schemas without a description", named, [])
    found = {(method.upper(), path) for path, method, _ in surface.operations()}
    tally.expect(f"{program.file}: routes of the document or of the tables alone", found ^ routes.keys(), set())
    tally.expect(f"{program.file}: refusals of the document or of the tables alone", set(refusals_of(surface, refusals)) ^ refusals, set())
    names = [operation["operationId"] for _, _, operation in surface.operations()]
    tally.expect(f"{program.file}: names of operations", len(set(names)), len(names))


def check_route(tally, program, surface, where, path, operation, route):
    """Checks the statuses, the parameters and the fields of an operation against the rows of its route."""
    statuses = set(operation["responses"])
    tally.expect(f"{where}: statuses of the tables", route.statuses - statuses, set())
    done = {status for status in statuses if status < "400"}
    tally.expect(f"{where}: statuses of requests that are done", done, {status for status in route.statuses if status < "400"})
    tally.expect(f"{where}: statuses of any request", surface.document["x-otherwise"].keys() - statuses - {"404"}, set())
    tally.expect(f"{where}: parameters of the path", surface.parameters(path, operation, "path"), set(re.findall(r"{(\w+)}", path)))
    tally.expect(f"{where}: parameters of the query that the tables name", route.query - surface.parameters(path, operation, "query"), set())
    tally.expect(f"{where}: fields of the request", surface.parameters(path, operation, "header"), route.asked)
    fields = [surface.headers(operation, status) for status in done]
    tally.expect(f"{where}: fields of the replies", set().union(*fields), route.replied | (set(program.fields) if fields else set()))
    refused = [status for status in statuses if status < "411" and not set(program.fields) <= surface.headers(operation, status)]
    tally.expect(f"{where}: replies without the fields of each reply", refused, [])
    tally.expect(f"{where}: fields of a refused method", surface.headers(operation, "405"), set(program.refused_fields))


def check_head(tally, surface, path, operation):
    """Checks that `HEAD` has the statuses, parameters and fields of `GET`, and no bodies of replies that are done."""
    get = surface.document["paths"][path]["get"]
    shapes = [({status: surface.headers(one, status) for status in one["responses"]}, one.get("parameters")) for one in (operation, get)]
    tally.expect(f"head {path}: as get", shapes[0], shapes[1])
    bodies = [status for status, one in operation["responses"].items() if status < "411" and surface.content(one)]
    tally.expect(f"head {path}: bodies", bodies, [])


def check_operations(tally, program, surface, routes, examples):
    """Checks what each operation says for its readers."""
    texts = {text for _, _, body, _, reply in examples for text in (body, reply)}
    known = {json.dumps(parse(program, text), sort_keys=True) for text in texts}
    shown = {(surface.path_of(target), method.lower(), str(status)) for method, target, _, status, _ in examples}
    tags = {tag["name"] for tag in surface.document["tags"]}
    for path, method, operation in surface.operations():
        where = f"{program.file}: {method} {path}"
        found = bool(operation["summary"] and operation["description"]), set(operation["tags"]) <= tags
        tally.expect(f"{where}: what it says", found, (True, True))
        check_route(tally, program, surface, where, path, operation, routes.get((method.upper(), path), Route()))
        if method == "head":
            check_head(tally, surface, path, operation)
        statuses = {status for status in operation["responses"] if (tuple(path.split("/")[1:]), method, status) in shown}
        check_shown(tally, surface, where, operation, statuses, known)


def check_shown(tally, surface, where, operation, statuses, known):
    """Checks the examples of an operation: there is one of its body, and of each status below 300 that the compared examples have."""
    body = operation.get("requestBody")
    contents = [("body", body["content"]["application/json"])] if body else []
    contents += [(status, surface.content(response)) for status, response in operation["responses"].items() if surface.content(response)]
    for part, content in contents:
        if "example" in content:
            example = content["example"]
            is_known = json.dumps(example, sort_keys=True) in known
            tally.expect(f"{where}: the example of {part}", (surface.schemas.allows(content["schema"], example), is_known), (True, True))
        else:
            tally.expect(f"{where}: no example of {part}", part == "body" or (part < "300" and part in statuses), False)


def check_program(tally, program, surface):
    lost = sorted(one for one in references_in(surface.document) if surface.schemas.at(one) is None)
    tally.expect(f"{program.file}: references that lead nowhere", lost, [])
    if lost:
        return
    tables = tables_of(program)
    found = {place: list(read(place)) for read, place in program.examples}
    check_document(tally, program, surface, tables)
    check_operations(tally, program, surface, tables[0], [example for place in found for example in found[place]])
    for place, examples in found.items():
        before = tally.passed + tally.failed
        for example in examples:
            check_example(tally, program, surface, f"{program.file}: {place}: {' '.join(example[:3])[:160]}", example)
        tally.expect(f"{program.file}: checks of {place}", tally.passed + tally.failed - before > 50, True)


def main():
    args = arguments(__doc__, folder=TOP / "docs")
    sys.setrecursionlimit(20_000)  # texts nest 127 deep, and a schema takes several calls a level
    tally = Tally()
    documents = {one.file: with_whole_references(json.loads((args.folder / one.file).read_text(encoding="utf-8")), one.file) for one in PROGRAMS}
    for program in PROGRAMS:
        check_program(tally, program, Surface(documents[program.file], Schemas(documents)))
    return tally.end()


if __name__ == "__main__":
    sys.exit(main())
