"""A validator for the part of JSON Schema 2020-12 that docs/*openapi.json use. A float is not an integer."""
import json
import re

IGNORED = {"description", "default", "title"}
TYPES = {"null": type(None), "boolean": bool, "integer": int, "string": str, "array": list, "object": dict}


def is_same(left, right):
    """Whether two values are equal as JSON: true is not 1, and 1 is not 1.0."""
    return json.dumps(left, sort_keys=True) == json.dumps(right, sort_keys=True)


def with_whole_references(value, file):
    """Returns a value of a file whose references all begin with the name of a file."""
    if isinstance(value, list):
        return [with_whole_references(item, file) for item in value]
    if not isinstance(value, dict):
        return value
    found = {name: with_whole_references(inner, file) for name, inner in value.items()}
    reference = found.get("$ref")
    return {**found, "$ref": file + reference} if isinstance(reference, str) and reference.startswith("#") else found


class Schemas:
    """The schemas of documents, which resolve references. `documents`: each by the name of its file, with whole references."""

    def __init__(self, documents):
        self.documents = documents

    def at(self, reference):
        """Returns what a reference leads to; None if it leads nowhere."""
        file, _, path = reference.partition("#/")
        found = self.documents.get(file)
        for step in path.split("/"):
            found = found.get(step) if isinstance(found, dict) else None
        return found

    def allows(self, schema, value):
        """Whether a schema allows a value. An unknown keyword is an error."""
        return all(self.keyword(schema, keyword, value) for keyword in schema if keyword not in IGNORED)

    def keyword(self, schema, keyword, value):
        check = getattr(self, "on_" + keyword.lstrip("$"), None)
        if check is None:
            raise ValueError(f"the keyword {keyword} is unknown to the validator")
        return check(schema, schema[keyword], value)

    def on_ref(self, _, reference, value):
        return self.allows(self.at(reference), value)

    def on_type(self, _, types, value):
        return any(type(value) is TYPES[name] for name in ([types] if isinstance(types, str) else types))

    def on_const(self, _, const, value):
        return is_same(const, value)

    def on_enum(self, _, values, value):
        return any(is_same(const, value) for const in values)

    def on_allOf(self, _, schemas, value):
        return all(self.allows(schema, value) for schema in schemas)

    def on_anyOf(self, _, schemas, value):
        return any(self.allows(schema, value) for schema in schemas)

    def on_oneOf(self, _, schemas, value):
        return sum(self.allows(schema, value) for schema in schemas) == 1

    def on_not(self, _, schema, value):
        return not self.allows(schema, value)

    def on_pattern(self, _, pattern, value):
        return not isinstance(value, str) or re.search(pattern.removesuffix("$") + r"\Z" if pattern.endswith("$") else pattern, value) is not None

    def on_minLength(self, _, least, value):
        return not isinstance(value, str) or len(value) >= least

    def on_minimum(self, _, least, value):
        return type(value) is not int or value >= least

    def on_maximum(self, _, most, value):
        return type(value) is not int or value <= most

    def on_minItems(self, _, least, value):
        return not isinstance(value, list) or len(value) >= least

    def on_maxItems(self, _, most, value):
        return not isinstance(value, list) or len(value) <= most

    def on_prefixItems(self, _, schemas, value):
        return not isinstance(value, list) or all(map(self.allows, schemas, value))

    def on_items(self, schema, items, value):
        front = len(schema.get("prefixItems", []))
        return not isinstance(value, list) or all(self.allows(items, item) for item in value[front:])

    def on_minProperties(self, _, least, value):
        return not isinstance(value, dict) or len(value) >= least

    def on_maxProperties(self, _, most, value):
        return not isinstance(value, dict) or len(value) <= most

    def on_required(self, _, names, value):
        return not isinstance(value, dict) or all(name in value for name in names)

    def on_properties(self, _, properties, value):
        return not isinstance(value, dict) or all(self.allows(schema, value[name]) for name, schema in properties.items() if name in value)

    def on_propertyNames(self, _, schema, value):
        return not isinstance(value, dict) or all(self.allows(schema, name) for name in value)

    def on_additionalProperties(self, schema, others, value):
        names = [name for name in value if name not in schema.get("properties", {})] if isinstance(value, dict) else []
        return not names if others is False else all(self.allows(others, value[name]) for name in names)
