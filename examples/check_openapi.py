"""Checks docs/openapi.yaml: against OpenAPI's own schema, the pages in docs/, its own examples, the
worked session and docs/RECIPES.md. With the program it also sends the recipes, and provokes each refusal.

    python3 examples/check_openapi.py [LEDGERD]

It needs Debian's python3-yaml and python3-jsonschema, and openapi-specification for OpenAPI's own schema.
Without the first two it says so, and checks nothing."""

import importlib.util
import json
import os
import pathlib
import re
import sys

HERE = pathlib.Path(__file__).resolve().parent
SESSION = HERE / "session/expected.txt"
OPENAPI = pathlib.Path("/usr/share/openapi-specification/schemas/v3.0/schema.json")
NEEDS = ("jsonschema", "yaml")

sys.path[:0] = [str(HERE / "openapi"), str(HERE.parent / "faults")]


def own_schema(description):
    """The file is an OpenAPI description."""
    from description import validate
    if OPENAPI.exists():
        validate(description.raw, json.loads(OPENAPI.read_text()))
    else:
        print(f"docs/openapi.yaml is not compared with {OPENAPI}: openapi-specification has it")


def examples(value):
    """Each example in the description, with its schema."""
    if isinstance(value, list):
        for each in value:
            yield from examples(each)
    if isinstance(value, dict):
        if "schema" in value and "example" in value:
            yield value["example"], value["schema"]
        for each in value.values():
            yield from examples(each)


def exchanges(text):
    """The requests of a session: method, path, body, status and the reply's body."""
    request = re.compile(r"^> \S+ (GET|POST) (/\S*)\n((?:> .*\n)*)< (\d+)\n((?:< .*\n?)*)", re.M)
    for method, path, body, status, reply in request.findall(text):
        body, reply = (re.sub(r"C\d+(-\d+|\+1s?)?", "1", re.sub("^[<>] ", "", text, flags=re.M))
                       for text in (body, reply))
        yield method, path, body, status, reply


def recorded(description):
    """Checks the examples, the bodies of examples/, the session and the requests of the recipes."""
    import recipes
    for example, schema in examples(description.whole):
        description.check(example, schema)
    for body in sorted(HERE.glob("*/*.json")):
        description.check_request("POST", f"/{body.stem}", body.read_text())
    for method, path, body, status, reply in exchanges(SESSION.read_text()):
        description.check_request(method, path, body)
        description.check_reply(method, path, status, reply)
    for step in (step for steps in recipes.recipes() for step in steps):
        if not isinstance(step, int):
            description.check_request("POST", step[0], step[1])


def main():
    lacking = [it for it in NEEDS if importlib.util.find_spec(it) is None]
    if lacking:
        return print(f"check_openapi is skipped: python3 has no {' and no '.join(lacking)}")
    import against_pages
    import described_service
    from description import Description
    description = Description()
    own_schema(description)
    against_pages.compare(description)
    recorded(description)
    print(f"docs/openapi.yaml agrees with the pages, and {description.checked} recorded bodies fit it")
    if sys.argv[1:]:
        described_service.check(description, os.path.abspath(sys.argv[1]))


main()
