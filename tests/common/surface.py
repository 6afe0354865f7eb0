"""Reads an OpenAPI document: which operation a request asks for, and what is said there of its parameters, its body and its replies."""

METHODS = ("get", "head", "post", "put", "delete")


class Surface:
    """The routes of a document, whose references are whole. `schemas`: those of this document and of the others that it refers to."""

    def __init__(self, document, schemas):
        self.document, self.schemas = document, schemas
        self.paths = {tuple(path.split("/")[1:]): item for path, item in document["paths"].items()}

    def resolve(self, value):
        return self.schemas.at(value["$ref"]) if "$ref" in value else value

    def operations(self):
        """Yields each operation, with its path and its method."""
        for path, item in self.document["paths"].items():
            yield from ((path, method, item[method]) for method in METHODS if method in item)

    def is_taken(self, path, place, segment):
        """Whether the parameter at a place of a path takes a segment, which is only compared with its schema if nothing of it is encoded."""
        given = map(self.resolve, self.paths[path]["parameters"])
        schema = next((one["schema"] for one in given if "{%s}" % one["name"] == path[place]), None)
        return schema is not None and bool(segment) and ("%" in segment or self.schemas.allows(schema, segment))

    def path_of(self, target):
        """Returns the path of the document that a target matches, segment by segment: a literal goes before a parameter, without backtracking. None
        if there is no such path."""
        segments, left = target.partition("?")[0].split("/")[1:], list(self.paths)
        for place, segment in enumerate(segments):
            left = [path for path in left if len(path) > place]
            literal = [path for path in left if path[place] == segment]
            left = literal or [path for path in left if self.is_taken(path, place, segment)]
        return next((path for path in left if len(path) == len(segments)), None)

    def operation(self, method, target):
        """Returns the operation of a request; None if the document has none."""
        path = self.path_of(target)
        return self.paths[path].get(method.lower()) if path else None

    def parameters(self, path, operation, place):
        """Returns the names of the parameters that a request has at a place: those of its path, and those of its operation."""
        given = [*self.document["paths"][path].get("parameters", []), *operation.get("parameters", [])]
        return {one["name"] for one in map(self.resolve, given) if one["in"] == place}

    def headers(self, operation, status):
        """Returns the names of the fields that the replies with a status have."""
        return set(self.resolve(operation["responses"][status]).get("headers", {}))

    def content(self, response):
        """Returns what is said of the body of a reply; None if there is none."""
        return self.resolve(response).get("content", {}).get("application/json")

    def reply_schema(self, method, target, status):
        """Returns the schema of a reply; None if the document does not have this status there."""
        operation, path = self.operation(method, target), self.path_of(target)
        responses = operation["responses"] if operation else self.document["x-otherwise"]
        if operation is None and status == 405 and path is None:
            return None
        response = responses.get(str(status))
        content = response and self.content(response)
        return content and content["schema"]

    def body_schema(self, method, target):
        body = (self.operation(method, target) or {}).get("requestBody")
        return body and body["content"]["application/json"]["schema"]
