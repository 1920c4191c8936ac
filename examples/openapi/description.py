"""docs/openapi.yaml with its references resolved, for checking requests and replies against it.

It needs python3-yaml and python3-jsonschema."""

import functools
import json
import pathlib
import re

import jsonschema
import yaml

TOP = pathlib.Path(__file__).resolve().parents[2]
FILE = TOP / "docs/openapi.yaml"


def resolved(value, whole):
    """The value with each reference replaced by what it names."""
    if isinstance(value, list):
        return [resolved(each, whole) for each in value]
    if not isinstance(value, dict):
        return value
    if "$ref" in value:
        return resolved(named(value["$ref"], whole), whole)
    return {key: resolved(each, whole) for key, each in value.items()}


def named(reference, whole):
    """What a reference within the file names."""
    found = whole
    for step in reference.removeprefix("#/").split("/"):
        found = found[step]
    return found


@functools.cache
def validator(text):
    return jsonschema.Draft4Validator(json.loads(text))


def validate(value, schema):
    """Raises `jsonschema.ValidationError` if the value does not fit the schema."""
    validator(json.dumps(schema, sort_keys=True)).validate(value)


class Description:
    """The operations of the file. `checked` counts the bodies that fitted."""

    def __init__(self):
        self.raw = yaml.safe_load(FILE.read_text())
        self.whole, self.checked = resolved(self.raw, self.raw), 0

    def operations(self):
        """Each method, path and operation."""
        for path, item in self.whole["paths"].items():
            for method, operation in item.items():
                yield method.upper(), path, operation

    def operation(self, method, path):
        """The operation of a request."""
        template = re.sub(r"^/statement/\w+$", "/statement/{account}", path)
        return self.whole["paths"][template][method.lower()]

    def check(self, value, schema):
        validate(value, schema)
        self.checked += 1

    def check_request(self, method, path, body):
        """A request that the service takes: its path and method exist, and its body fits."""
        operation = self.operation(method, path)
        if body:
            content = operation["requestBody"]["content"]["application/json"]
            self.check(json.loads(body), content["schema"])

    def check_reply(self, method, path, status, body):
        """A reply fits the schema of its status."""
        answers = self.operation(method, path)["responses"]
        content = answers.get(str(status), answers["default"])["content"]
        if "application/json" in content:
            self.check(json.loads(body), content["application/json"]["schema"])
        else:
            self.checked += 1

    def words(self, operation):
        """The status and word of each refusal of an operation, and those of `default`."""
        for status, answer in operation["responses"].items():
            if status != "200":
                schema = answer["content"]["application/json"]["schema"]
                for word in schema["properties"]["error"]["enum"]:
                    yield status, word
