"""Finds phrases that no native engineer writes and overlong sentences, in pages and comments.

    python3 build/english.py [--base REV] [FILE..]
    python3 build/english.py --self-test

It looks at the lines that changed since the commit REV: by default `origin/main`, or `HEAD~1` where
that does not exist. With files it looks at all of their lines. It prints a line for each finding,
and ends with 1 if there is any. Code, header rows of tables, addresses and quotations are skipped,
and so is a page that a program has printed.
"""

import argparse
import ast
import io
import os
import pathlib
import re
import subprocess
import sys
import tokenize

MOST_WORDS = 30
# What happens at some time, so that "behind" stands for "after" before it.
TIMES = ("stops?|starts?|restarts?|openings?|reopenings?|takeovers?|kills?|crash|repl(?:y|ies)|"
         "answers?|requests?|faults?|failures?|batch(?:es)?|turns?|rounds?|commits?|syncs?|"
         "cop(?:y|ies)|refusals?|writes?|deliver(?:y|ies)|transfers?|calls?|messages?|seconds?|"
         "minutes?|hours?")
# What something may stand behind in space.
PROXIES = "proxy|proxies|nginx|haproxy|balancer|firewall|router|switch|interface"
# The end of a sentence, which is not that of `e.g.`, `i.e.` or `..`.
END = r"(?<!e\.g)(?<!i\.e)(?<!\.)[.!?][)*]*(?=\s+[A-Z(*\d]|\s*$)"
SENTENCE = re.compile(rf".+?(?:{END}|\Z)", re.S)
# Each phrase, and what to write in its place. `^` is the beginning of a sentence.
PHRASES = [(re.compile(pattern), advice) for pattern, advice in (
    (r"^Who\b(?!.*\?)", "name who acts: 'A client that ..'"),
    (r"^[Oo]f who\b|\bOf who\b", "name who acts"),
    (r"^Of (?!course\b|these\b|those\b|the (?:two|three|four|five|six|\d+)\b|[^:.]{1,40}:)",
     "subject first"),
    (r"\bnobody more\b", "no further .."),
    (r"\b(?:is|are|was|were|be|been) told\b(?! from\b| apart\b)",
     "prints, reports, replies, is notified"),
    (r"\b(?:is|was) waited\b", "waits"),
    (rf"\bbehind (?:(?!{PROXIES})\w+ ){{0,2}}(?:{TIMES})\b", "after"),
    (rf"^Behind (?!(?:\w+ ){{0,2}}(?:{PROXIES}))", "after"),
    (r"\bso many\b(?!.*\bthat\b)", "N"),
    (r"\b[Ww]anting\b(?! to\b)", "lacking"),
    (r"\b[Ll]ikewise\b", "also"),
    (r"(?<![-\w])(?:guests?|halls?|bells?|stewards?|seats?|desks?)(?![-\w])",
     "connections, server, shared counters, supervisor, client slots, admin socket"),
    (r"(?<![-\w])(?:the|its|a|this) home(?! (?:page|directory|folder))(?![-\w])", "opener"),
)]
NAMED = re.compile(r"\b(?:fn|def)\s+(asked|told|begun|held)\b")
MARKS = {".rt": "//", ".antt": "--", ".c": "//", ".in": "//", ".js": "//", ".mjs": "//",
         ".java": "//", ".go": "//", ".lua": "--"}
OTHERS = {".sh", ".cfg", ".service", ".conf", ".toml", ".yaml", ".yml", ""}
# What programs print, in their words.
PRINTED = {"faults/LAST_RUN.md"}


def git(*words):
    return subprocess.run(["git", *words], capture_output=True, text=True, check=False)


def base_of(revision):
    """The commit to compare with: where this branch left the revision. None where there is none."""
    for name in [revision] if revision else ["origin/main", "HEAD~1"]:
        if git("rev-parse", "--verify", "--quiet", f"{name}^{{commit}}").returncode == 0:
            return git("merge-base", name, "HEAD").stdout.strip() or name
    if revision:
        sys.exit(f"no such commit: {revision}")
    return None


def changed_lines(base):
    """The numbers of the lines that were added or changed, file by file."""
    diff = git("diff", "-U0", "--no-color", "--no-ext-diff", "--diff-filter=d", "--src-prefix=a/",
               "--dst-prefix=b/", base, "--")
    if diff.returncode:
        sys.exit(diff.stderr.strip())
    lines, name = {}, None
    for line in diff.stdout.splitlines():
        if line.startswith("+++ "):
            name = line[6:] if line.startswith("+++ b/") else None
        elif name and (found := re.match(r"@@ \S+ \+(\d+)(?:,(\d+))? @@", line)):
            first, count = int(found[1]), int(found[2] or 1)
            lines.setdefault(name, set()).update(range(first, first + count))
    return lines


# A block is what belongs together: (number, text) for each of its lines.


def blocks_of(name, text):
    """The prose of a file."""
    if name in PRINTED:
        return []
    kind = pathlib.Path(name).suffix
    if kind == ".md":
        return page_blocks(list(enumerate(text.splitlines(), 1)))
    if kind == ".html":
        return html_blocks(text)
    if kind == ".py":
        return script_blocks(text)
    if kind in MARKS:
        return comment_blocks(text, MARKS[kind])
    return comment_blocks(text, "#") if kind in OTHERS else []


def page_blocks(lines):
    """Paragraphs, elements of lists, lines of columns, and cells of tables."""
    block, is_fenced, is_after_blank, table = [], False, True, []
    for number, line in [*lines, (0, "")]:
        text = line.strip()
        is_code = line.startswith("    ") and is_after_blank
        if text.startswith("```"):
            is_fenced = not is_fenced
        is_row = text.startswith("|") and not is_fenced
        is_prose = text and not (is_row or is_fenced or is_code or text.startswith(("```", "#")))
        if not is_prose or re.match(r"(?:[-*]|\d+\.) |[^.?!]*\S {2,}\S", text):
            yield from [block] * bool(block)
            block = []
        if is_row:
            table.append((number, re.split(r"(?<!\\)\|", text.strip("|"))))
        elif table:
            yield from cells_of(table)
            table = []
        if is_prose:
            block.append((number, re.sub(r"^(?:[-*]|\d+\.) ", "", text)))
        is_after_blank = not text or is_code


def cells_of(table):
    """The cells of a table, without its header row and the columns that say what not to write."""
    (_, header), *rows = table
    for number, row in rows:
        for place, cell in enumerate(row):
            if not re.search(r"\bnot\b", "".join(header[place:place + 1]), re.I):
                yield [(number, cell)]


def html_blocks(text):
    """What stands between tags, and the comments of scripts."""
    def blank(found):
        return re.sub(r"[^\n]", " ", found.group())

    scripts = re.findall(r"<script.*?</script>", text, re.S)
    for script in scripts:
        first = text[:text.index(script)].count("\n")
        for block in comment_blocks(script, "//"):
            yield [(number + first, line) for number, line in block]
    prose = re.sub(r"<(script|style).*?</\1>", blank, text, flags=re.S)
    prose = re.sub(r"<!--|-->|&\w+;", blank, prose)
    prose = re.sub(r"<[^>]*>", lambda found: "\n" * found.group().count("\n") or "\0", prose,
                   flags=re.S)
    for number, line in enumerate(prose.splitlines(), 1):
        yield from ([(number, part)] for part in line.split("\0") if part.strip())


def script_blocks(text):
    """The comments and docstrings of a script in Python."""
    try:
        tree, tokens = ast.parse(text), list(tokenize.generate_tokens(io.StringIO(text).readline))
    except (SyntaxError, tokenize.TokenError):
        return
    comments = [(each.start[0], each.string.lstrip("#! ")) for each in tokens
                if each.type == tokenize.COMMENT and not each.string.startswith("#!")]
    yield from joined(comments)
    for node in ast.walk(tree):
        body = getattr(node, "body", None)
        if isinstance(body, list) and body and isinstance(body[0], ast.Expr) and \
                isinstance(body[0].value, ast.Constant) and isinstance(body[0].value.value, str):
            lines = text.splitlines()[body[0].lineno - 1:body[0].end_lineno]
            indent = len(lines[0]) - len(lines[0].lstrip())
            cleaned = [line[indent:].removeprefix('"""').removesuffix('"""') for line in lines]
            yield from page_blocks(list(enumerate(cleaned, body[0].lineno)))


def comment_blocks(text, mark):
    """The comments of other code, which begin with a mark."""
    lines = []
    for number, line in enumerate(text.splitlines(), 1):
        found = re.match(rf"\s*{mark}(?!!/)[/!{mark[0]}]*(.*)", line)
        if found and not line.startswith("#!"):
            lines.append((number, found[1]))
    return joined(lines)


def joined(lines):
    """Comments on lines that follow one another are one block, up to an empty one."""
    run = []
    for number, text in [*lines, (0, "")]:
        if run and number != run[-1][0] + 1:
            yield from page_blocks(run)
            run = []
        run.append((number, text[1:] if text.startswith(" ") else text))
    yield from page_blocks(run)


def plain(text):
    """A text in which code, addresses and quotations are one word each, and lists of them too."""
    text = re.sub(r"`[^`]*`|https?://\S+", "CODE", text)
    text = re.sub(r"!?\[([^]]*)\]\([^)]*\)", r"\1", text)
    text = re.sub(r"(?<!\w)'[^'\n]{1,90}'(?!\w)|\"[^\"\n]*\"", "CODE", text)
    text = re.sub(r"CODE(?:(?:,| and| or|, and|, or) CODE)+", "CODE", text)
    return re.sub(r" ?\(CODE\)|\*\*", "", text)


def sentences(block):
    """The sentences of a block, each with its first and its last line."""
    text = plain("\n".join(text.strip() for _, text in block))
    numbers = [number for number, _ in block]

    def line_at(place):
        return numbers[min(text[:place].count("\n"), len(numbers) - 1)]

    for found in SENTENCE.finditer(text):
        if sentence := " ".join(found.group().split()):
            begin = found.end() - len(found.group().lstrip())
            yield sentence, line_at(begin), line_at(found.end())


def findings(name, text):
    """What is wrong with a file: the first and last line, and a text."""
    for block in blocks_of(name, text):
        for sentence, first, last in sentences(block):
            for pattern, advice in PHRASES:
                if found := pattern.search(sentence):
                    phrase = sentence[found.start():max(found.end(), found.start() + 24)]
                    yield first, last, f"'{phrase}': {advice}"
            words = len(re.findall(r"\S*\w\S*", sentence))
            if words > MOST_WORDS and not sentence.startswith("Read on:"):
                yield first, last, f"{words} words in one sentence: '{sentence[:48]}..'"
    if pathlib.Path(name).suffix in {".py", ".rt"}:
        for number, line in enumerate(text.splitlines(), 1):
            if found := NAMED.search(line):
                yield number, number, f"'{found[1]}' names a function: a verb, or a noun"


def look(files):
    """Prints what is wrong on some lines of each file, or on all where they are None."""
    many = 0
    for name, lines in sorted(files.items()):
        try:
            text = pathlib.Path(name).read_text()
        except (UnicodeDecodeError, OSError):
            continue
        for first, last, what in findings(name, text):
            if lines is None or lines & set(range(first, last + 1)):
                print(f"{name}:{first}: {what}")
                many += 1
    return many


LONG = " ".join(["word"] * 31) + "."
# Texts, each with the number of its findings.
MUST = (
    ("a.md", "Who got no reply sends the same again.", 1),
    ("a.md", "A stop accepts nobody more.", 1),
    ("a.md", "Then it is waited for a second.", 1),
    ("a.md", "Each client is told `unavailable`.", 1),
    ("a.md", "It is opened again behind each fault of the disk.", 1),
    ("a.md", "It is served. Behind that it is audited.", 1),
    ("a.md", "For so many seconds it is quiet.", 1),
    ("a.md", "Memory is wanting.", 1),
    ("a.md", "Credits likewise.", 1),
    ("a.md", "Of a tenant that sends none the service releases it.", 1),
    ("a.md", "The guests of the hall wait.", 1),
    ("a.md", "| Word | Meaning |\n|---|---|\n| a | The hall of guests |", 1),
    ("a.md", "Its lock falls. Of who is cut off nothing stays.", 2),
    ("a.md", LONG, 1),
    ("a.md", "- " + LONG + "\n- good", 1),
    ("a.md", "| Head |\n|---|\n| The client is told so |", 1),
    ("a.md", "A line\nand another, where memory\nis wanting.", 1),
    ("a.py", '"""A client is told so."""\n', 1),
    ("a.py", "x = 1  # nobody more\n", 1),
    ("a.py", "def " + "told(x):\n    pass\n", 1),
    ("a.rt", "/// Each is told so,\n/// behind a reply.\nfn a() {}\n", 2),
    ("a.rt", "    // " + LONG.replace("word ", "word\n    // ", 1) + "\n", 1),
    ("a.antt", "-- What a client is told.\n", 1),
    ("a.sh", "# A client is told so.\n", 1),
    ("a.html", "<p>A client <b>waits</b></p>\n<p title='x'>Nobody is told.</p>", 1),
    ("a.html", "<script>\n// Nobody is told.\n</script>", 1),
    ("Makefile", "#  try    looks\n#  play   is told so\n", 1),
    ("faults/README.md", "A client is told so.", 1),
)
# Texts in which there is nothing to find.
MUST_NOT = (
    ("a.md", "A client that received no reply should resend the same request."),
    ("a.md", "Who may read this file? Its owner."),
    ("a.md", "The service runs behind a proxy, and nginx stands behind another one."),
    ("a.md", "Behind a proxy it speaks plain HTTP. Of course it is slower."),
    ("a.md", "The service behind the proxy answers, and one can be told from another."),
    ("a.md", "Read on: " + ", ".join(f"`a{n}` (what it has)" for n in range(20)) + "."),
    ("a.md", "## Who it is for\n\nOf data: it is on the disk."),
    ("a.md", "| Word | Not |\n|---|---|\n| server | hall, guests |"),
    ("a.md", "Its clock is two hours behind."),
    ("a.md", "There were so many clients that it was slow."),
    ("a.md", "The tenants `north-desk`, south-hall and 'the desk' are names."),
    ("a.md", "A reply `is told so` and 'Who got no reply' are quotations."),
    ("a.md", "The program's `Home` and its `HostDesk` are types, and so is each `Guest`."),
    ("faults/LAST_RUN.md", "many: 20 clients, and each is told so (3 s)"),
    ("Makefile", "# What it has:\n#\n" + "#  word   does a thing or two\n" * 9),
    ("a.md", "```\nWho got no reply is told so.\n```"),
    ("a.md", "Like this:\n\n    Who got no reply is told so.\n\nGood."),
    ("a.md", "| Who is told |\n|---|\n| it prints `x` |"),
    ("a.md", "See https://example.org/who-is-told/likewise for more."),
    ("a.md", " ".join(["word"] * 20) + ". " + " ".join(["Word"] * 20) + "."),
    ("a.md", "It takes " + ", ".join(f"`a{n}`" for n in range(40)) + "."),
    ("a.md", "# A heading\n" + " ".join(["word"] * 29) + "."),
    ("a.md", "- " + " ".join(["word"] * 20) + "\n- " + " ".join(["word"] * 20)),
    ("a.py", "told = 'a client is told so'\n"),
    ("a.py", "def retold():\n    '''Prints it.'''\n"),
    ("a.py", '"""Prints.\n\n    python3 a.py Who is told likewise\n"""\n'),
    ("a.rt", 'let a = "nobody is told"; // see `is told`\n'),
    ("a.html", "<style>is told</style><p title='is told'>Prints</p>"),
)


def self_test():
    """Each text has the findings that it must have."""
    failed = 0
    for name, text, *many in (*MUST, *MUST_NOT):
        found = list(findings(name, text))
        if len(found) != (many or [0])[0]:
            failed += 1
            print(f"{name}: {text[:60]!r}: {found}, not {(many or [0])[0]}")
    print(f"{len(MUST) + len(MUST_NOT)} texts, {failed} judged wrongly")
    return failed


def main():
    parser = argparse.ArgumentParser(description=__doc__.splitlines()[0])
    parser.add_argument("--base")
    parser.add_argument("--self-test", action="store_true")
    parser.add_argument("files", nargs="*")
    options = parser.parse_args()
    if options.self_test:
        sys.exit(1 if self_test() else 0)
    base = None if options.files else base_of(options.base)
    if base:
        os.chdir(git("rev-parse", "--show-toplevel").stdout.strip())
    files = dict.fromkeys(options.files) if base is None else changed_lines(base)
    if not options.files and base is None:
        print("no commit to compare with: nothing is looked at")
    many = look(files)
    print(f"{len(files)} files, {many} findings")
    sys.exit(1 if many else 0)


main()
