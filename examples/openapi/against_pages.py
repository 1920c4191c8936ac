"""Compares docs/openapi.yaml with the pages: routes, fields, refusals, results, flags and the version."""

import re
import sys

from description import TOP

sys.path.insert(0, str(TOP / "clients/python"))

from tests import pages  # noqa: E402

# The objects of MESSAGES.md, 'Bodies', and the schemas that have their fields.
OBJECTS = {"account": ("AccountEvent", "Account"), "transfer": ("TransferEvent", "Transfer"),
           "filter": ("AccountFilter",), "query": ("QueryFilter",), "page": ("PageFilter",)}
FLAGS = {"AccountFlag": "Account", "TransferFlag": "Transfer"}
# The two words of the requests that no operation is for: MESSAGES.md has their statuses.
ROUTE = {("404", "no_route"), ("405", "bad_method")}


def must(holds, text):
    if not holds:
        sys.exit(f"docs/openapi.yaml: {text}")


def routes(description):
    listed = {(method, path) for method, path, _ in description.operations()}
    expected = set(re.findall(r"^\| (POST|GET) \| `(/\S*)` \|", pages.MESSAGES, re.M))
    must(listed == expected, f"MESSAGES.md has other routes: {listed ^ expected}")


def fields(description):
    """Each object has the fields of the page, and a number is a string where the page says so."""
    schemas, listed = description.whole["components"]["schemas"], pages.objects()
    must(set(listed) == set(OBJECTS), "MESSAGES.md has other objects")
    for kind, (strings, whole) in listed.items():
        for name in OBJECTS[kind]:
            types = {field: it["type"] for field, it in schemas[name]["properties"].items()}
            expected = {**dict.fromkeys(strings, "string"), **dict.fromkeys(whole, "integer")}
            must(types == expected, f"{name} has {types}, and MESSAGES.md {expected}")


def refusals(description):
    """All operations together have the refusals of the page, each with its status."""
    listed = {(status, word) for _, _, it in description.operations()
              for status, word in description.words(it) if status != "default"}
    others = {word for _, _, it in description.operations()
              for status, word in description.words(it) if status == "default"}
    expected = {(str(status), word) for status, word in pages.refusals()}
    must(listed | ROUTE == expected, f"MESSAGES.md has other refusals: {(listed | ROUTE) ^ expected}")
    must(others == {word for _, word in ROUTE}, "default has other refusals")


def results(description):
    schemas = description.whole["components"]["schemas"]
    for kind, expected in zip(("Account", "Transfer"), pages.result_names()):
        words = schemas[f"{kind}ResultName"]["enum"]
        must(words == list(expected.values()), f"RESULTS.md has other results of {kind}")
        number = schemas[f"{kind}Result"]["properties"]["number"]
        must((number["minimum"], number["maximum"]) == (0, max(expected)), f"numbers of {kind}")


def flags(description):
    """The named bits are those of MODEL.md, and stored flags have no others."""
    schemas = description.whole["components"]["schemas"]
    for name, kind in FLAGS.items():
        bits = dict(zip(schemas[name]["enum"], schemas[name]["x-enum-varnames"]))
        expected = {1 << bit: word.upper() for bit, word in pages.flags(kind).items()}
        must(bits == expected, f"MODEL.md has other flags of {kind}: {expected}")
    for name in ("Account", "Transfer", "AccountFilter", "Query"):
        most = schemas[f"{name}Flags"]["maximum"]
        must(most == sum(schemas[f"{name}Flag"]["enum"]), f"{name}Flags allows {most}")


def names(description):
    """What generators make names of: each operation has a tag and its own id, and each body a schema
    with a name."""
    tags = {it["name"] for it in description.whole["tags"]}
    used, ids = set(), []
    for _, path, operation in description.operations():
        ids.append(operation["operationId"])
        must(len(operation["tags"]) == 1, f"{path} has not one tag")
        used.update(operation["tags"])
    must(used == tags and len(ids) == len(set(ids)), "tags or operationIds")
    for holder in bodies_of(description.raw):
        schema = holder.get("application/json", {}).get("schema", {})
        must(not schema or "$ref" in schema, f"a body without a named schema: {schema}")


def bodies_of(value):
    """Each `content` in the file."""
    children = value if isinstance(value, list) else value.values() if isinstance(value, dict) else ()
    for each in children:
        yield from bodies_of(each)
    if isinstance(value, dict) and isinstance(value.get("content"), dict):
        yield value["content"]


def compare(description):
    """Ends with what differs."""
    version = description.whole["info"]["version"]
    must(version == (TOP / "VERSION").read_text().strip(), f"version {version}")
    for each in (routes, fields, refusals, results, flags, names):
        each(description)
