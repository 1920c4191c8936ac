"""Makes the page the constant of the crate `console`, or sees that it is.

    python3 console/constant.py [--check]

It writes the page, its length and the digests of its script and style into `src/page.rt`, and as
definitions into `specs/Page.antt`; and its length into the example of `docs/MESSAGES.md`."""

import re
import sys

from served import PAGE, hash_of, headers_of

CRATE = PAGE.parent.parent / "crates/console"
MESSAGES = PAGE.parent.parent / "docs/MESSAGES.md"
LENGTH = re.compile(r"(?<=content-length: )\d+(?=\n +content-type: text/html)")
MADE = "Made of console/page.html by console/constant.py."

CODE = '''//! The reply with the console's page. {made}

/// All of it, from its status line on.
pub(crate) const REPLY: &str = concat!(
    "HTTP/1.1 200 OK",
    {head},
    "\\r\\n\\r\\n",
    "{spelled}"
);
'''

SPEC = '''-- The page, and what changes with it. {made}
use Rattle.std.specs.Prelude.{{ℕ, List, codes}}

-- how many bytes the page has
abbrev pub page_length : ℕ
page_length = {length}

-- what its policy allows its script and its style by
abbrev pub script_digest : List ℕ
script_digest = codes "{script}"

abbrev pub style_digest : List ℕ
style_digest = codes "{style}"

-- the page
unfoldable pub page_text : List ℕ
page_text = codes "{spelled}"
'''


def head_of(page):
    """The lines of the reply's head behind the first, as literals; of a policy a part each."""
    headers = {"content-length": str(len(page)), **headers_of(page)}
    text = "".join(f"\\r\\n{name}: {value}" for name, value in headers.items())
    return ",\n    ".join(f'"{part}"' for part in re.split(r"(?=\\r)|(?=; \w+-)", text) if part)


def spelled(page):
    """The page as it stands in a string of Rattle, in one line."""
    return page.replace("\\", "\\\\").replace('"', '\\"').replace("\n", "\\n")


def made_of(page):
    """The files that are made of the page, by their places."""
    if not page.isascii() or "\r" in page:
        sys.exit("the page must be ASCII, with line feeds alone")
    parts = {"made": MADE, "head": head_of(page), "length": len(page),
             "script": hash_of(page, "script"), "style": hash_of(page, "style"),
             "spelled": spelled(page)}
    return {CRATE / "src/page.rt": CODE.format(**parts),
            CRATE / "specs/Page.antt": SPEC.format(**parts),
            MESSAGES: LENGTH.sub(str(len(page)), MESSAGES.read_text(encoding="utf-8"))}


def main():
    is_check = sys.argv[1:] == ["--check"]
    for path, text in made_of(PAGE.read_text(encoding="utf-8")).items():
        if not is_check:
            path.write_text(text, encoding="utf-8")
        elif not path.exists() or path.read_text(encoding="utf-8") != text:
            sys.exit(f"{path.relative_to(CRATE.parent.parent)} is not of this page: "
                     "python3 console/constant.py makes it anew")


if __name__ == "__main__":
    main()
