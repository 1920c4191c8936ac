"""Compares a played session with the expected one, and ends with 1 where they differ.

    python3 examples/session/compare.py [--requests] PLAYED
    python3 examples/session/compare.py --blocks PAGE

PLAYED is what `play.sh` has printed, or a Markdown page with it in a block ```session; with
`--requests` it is what `try.sh` has, the requests alone. The expected session is `expected.txt`.
Since clocks are those of the day, the clock that the k-th batch was told becomes `Ck`, a timestamp
n nanoseconds before it `Ck-n`, and what is a nanosecond or a second behind it `Ck+1` or `Ck+1s`.
The k-th key that was drawn becomes `Kk`, and its digest `Dk`. Of `status` the lengths of both files
become `F` and `L`, those of a copy `P`, and what moves by itself `N`; all else stays as it is.
With `--blocks` each paragraph of the session in PAGE has to stand in the session of README.md
beside this file."""

import bisect
import difflib
import hashlib
import pathlib
import re
import sys

HERE = pathlib.Path(__file__).resolve().parent
MOST_EVENTS = 1000
PAGE = 4096
# The next page is asked for with the one, and a hold for a second is due at the other.
BEHIND = {1: "1", 10**9: "1s"}
# The numbers of `status` that are the machine's, and their marks.
COUNTS = {"clients": "N", "most_clients": "N", "seconds": "N", "turn_microseconds": "N",
          "longest_turn_microseconds": "N", "syncs": "N", "sync_microseconds": "N",
          "longest_sync_microseconds": "N", "file_bytes": "F", "log_bytes": "L"}


def session_of(path):
    """The lines of a session, without what stands behind its last reply."""
    text = pathlib.Path(path).read_text()
    if str(path).endswith(".md"):
        found = re.search(r"^```session\n(.*?)^```$", text, re.M | re.S)
        if not found:
            sys.exit(f"{path}: no block ```session")
        text = "\n" + found.group(1)
    return text.partition("\nThe file stays: ")[0].splitlines()


def paragraphs_of(lines):
    """What stands between empty lines."""
    return [it for it in "\n".join(lines).strip("\n").split("\n\n") if it]


def requests_of(lines):
    """The lines from the first request over a connection to the last."""
    paragraphs = paragraphs_of(lines)
    served = [it for it in paragraphs if not re.search(r"^> ledgerd ", it, re.M)]
    return ["", *renumbered("\n\n".join(served)).splitlines()]


def renumbered(text):
    """The text with its clocks counted from 1, where some batches are left out."""
    left = sorted({int(number) for number in re.findall(r"\bC(\d+)", text)})
    return re.sub(r"\bC(\d+)", lambda found: f"C{left.index(int(found.group(1))) + 1}", text)


def clocks_of(lines):
    """The clock that each batch was told, in turn."""
    clocks, is_batch = [], False
    for line in lines:
        if line.startswith("> "):
            is_batch = is_batch and not re.match(r"> \S+ (GET|POST) ", line)
            is_batch = is_batch or bool(re.match(r"> \S+ POST /(accounts|transfers)$", line))
        found = re.match(r'< \{"clock":"(\d+)"', line)
        if is_batch and found:
            clocks.append(int(found.group(1)))
            is_batch = False
    if clocks != sorted(set(clocks)):
        sys.exit(f"the clocks do not rise: {clocks}")
    return clocks


def words_of(lines):
    """The mark of each key that was drawn, and of its digest."""
    words, keys = {}, [line[6:] for line in lines if re.fullmatch(r"< key [0-9a-f]{64}", line)]
    for place, key in enumerate(keys):
        words[key] = f"K{place + 1}"
        words[hashlib.sha256(bytes.fromhex(key)).hexdigest()] = f"D{place + 1}"
    return words


def counts_marked(lines):
    """The lines with marks for the numbers of `status` that are the machine's, and for the bytes of
    a copy, which are whole pages."""
    for line in lines:
        found = re.fullmatch(r"< ([a-z_]+) (\d+)", line)
        name, number = found.groups() if found else ("", "")
        if name in COUNTS:
            line = f"< {name} {COUNTS[name]}"
        elif name == "copied" and int(number) > 0 and int(number) % PAGE == 0:
            line = "< copied P"
        yield line


def marked(line, clocks, words):
    """The line with each moment told by the batch that it belongs to."""
    def mark(found):
        moment = int(found.group())
        place = bisect.bisect_left(clocks, moment)
        if place < len(clocks) and clocks[place] - moment < MOST_EVENTS:
            before = clocks[place] - moment
            return f"C{place + 1}-{before}" if before else f"C{place + 1}"
        for behind, word in BEHIND.items():
            if moment - behind in clocks:
                return f"C{clocks.index(moment - behind) + 1}+{word}"
        return found.group()
    line = re.sub(r"\b[0-9a-f]{64}\b", lambda found: words.get(found.group(), found.group()), line)
    return re.sub(r"\b\d{19}\b", mark, line)


def compare_blocks(page):
    """Each paragraph of the page's session stands in the whole session."""
    whole = paragraphs_of(session_of(HERE / "README.md"))
    blocks = paragraphs_of(session_of(page))
    for block in blocks:
        if block not in whole:
            sys.exit(f"{page}: examples/session/README.md has no\n\n{block}")
    print(f"{page}: {len(blocks)} parts of the session are as the whole has them")


def compare(path, expected):
    """A played session is the expected one."""
    played = session_of(path)
    clocks, words = clocks_of(played), words_of(played)
    told = [marked(line, clocks, words) for line in counts_marked(played)]
    if told == expected:
        print(f"{path}: {len(clocks)} batches and their replies are the expected ones")
        return
    for line in difflib.unified_diff(expected, told, "expected.txt", path, lineterm=""):
        print(line)
    sys.exit(1)


def main():
    *flags, path = sys.argv[1:]
    expected = (HERE / "expected.txt").read_text().splitlines()
    if flags == ["--blocks"]:
        compare_blocks(path)
    else:
        compare(path, requests_of(expected) if flags == ["--requests"] else expected)


main()
