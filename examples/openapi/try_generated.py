"""Generates a client from docs/openapi.yaml, lets it play the worked session, and compares the replies.

    python3 examples/openapi/try_generated.py LEDGERD

The generator is OpenAPI::Client, Debian's libopenapi-client-perl. It makes a class from the description
when the program starts, with a method for each operationId, which validates what it sends. Where it is
missing this says so, and tries nothing. In Debian 12 `apt-cache search` found no other generator of clients
for OpenAPI 3: no openapi-generator, swagger-codegen, oapi-codegen, go-swagger, openapi-python-client, kiota,
quicktype, datamodel-code-generator or openapi-typescript. There are the libraries that autorest's output
uses, and kube-openapi, which writes descriptions from Go types."""

import os
import pathlib
import subprocess
import sys
import tempfile

HERE = pathlib.Path(__file__).resolve().parent
TOP = HERE.parents[1]
SESSION = HERE.parent / "session"
OPENAPI = TOP / "docs/openapi.yaml"
PATIENCE = 300

sys.path.insert(0, str(HERE.parent / "clients"))

from served import KEY, served  # noqa: E402

SOUTH_KEY = "5" * 64


def lacks():
    """What the machine lacks, or nothing."""
    try:
        done = subprocess.run(["perl", "-MOpenAPI::Client", "-MYAML::XS", "-e", "1"], text=True,
                              stdout=subprocess.PIPE, stderr=subprocess.STDOUT)
    except FileNotFoundError:
        return "perl"
    return "libopenapi-client-perl and libyaml-libyaml-perl" if done.returncode else None


def add_tenant(ledgerd, db):
    """The session's second tenant; the first one has the key of `served`."""
    subprocess.run([ledgerd, "tenant-add", "--db", db, "--name", "south-hall", "--key", "-"],
                   input=SOUTH_KEY, text=True, check=True, stdout=subprocess.DEVNULL)


def main():
    if lacking := lacks():
        return print(f"try_generated is skipped: there is no {lacking}")
    ledgerd = os.path.abspath(sys.argv[1])
    with tempfile.TemporaryDirectory() as folder:
        played = os.path.join(folder, "played.txt")
        with served(ledgerd, folder) as port, open(played, "w") as out:
            add_tenant(ledgerd, os.path.join(folder, "ledger.db"))
            words = ["perl", HERE / "session.pl", OPENAPI, SESSION / "expected.txt",
                     f"http://127.0.0.1:{port}", KEY, SOUTH_KEY]
            subprocess.run(words, stdout=out, check=True, timeout=PATIENCE)
        subprocess.run([sys.executable, SESSION / "compare.py", "--requests", played], check=True)


if __name__ == "__main__":
    main()
