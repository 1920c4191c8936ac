"""Wrong bodies (`must-fail/*.edit`): in which functions they stand, which of them one check can try, and
which lines of a check say that one is refused."""

import pathlib
import re

FN = re.compile(r"(\s*)(?:pub(?:\([^)]*\))? )?(?:const )?(?:unsafe )?fn (\w+)")
# What begins methods whose names are plain: those of a type whose parameters are letters, and of a trait
# that is over one name at most.
LETTERS = r"(?:<(?:, |'\w+|[A-Z]\b(?:: [^<>]*)?)*>)?"
OWNER = re.compile(rf"impl{LETTERS} (?:(\w+)(?:<(\w+)>)? for )?(\w+){LETTERS}(?: where .*)?(?: \{{)?$")
SAYS = re.compile(r"fn (\S+): (.*)")
# What is said of a function that lacks nothing but others.
LACKS = re.compile(r"(?:no proof:|not proved;)(?: [^;]*, which (?:is|are) not proved(?:;|$))+")


def function_at(lines, at, is_body=False):
    """The name of the function in whose body a line stands, and its first line; or None. If the line
    is given a body it may also stand before the function's own."""
    for begin in range(at, -1, -1):
        found = FN.match(lines[begin])
        if found:
            break
    else:
        return None
    indent = found[1]
    for head in range(begin, at + 1):
        line = lines[head]
        if line == f"{indent}}}":
            return None
        opens = line == f"{indent}{{" or line.endswith("{") and (
            head == begin or line.startswith(f"{indent})"))
        if opens:
            return (found[2], begin) if head < at or is_body else None
    return (found[2], begin) if is_body else None


def owner(lines, begin):
    """The type whose method begins at a line, as a check names it, or None where it is no method, or the
    name is not plain. Of a trait's method it is the type's name, the trait's and that which it is over."""
    if not FN.match(lines[begin])[1]:
        return None
    found = OWNER.match(next((it for it in lines[begin::-1] if it.startswith(("impl", "unsafe"))), ""))
    trait, over, kind = found.groups() if found else (None, None, None)
    return kind and kind + ("" if trait in (None, "Drop") else trait + (over or ""))


class WrongBody:
    """An edit: what it replaces, as files, texts and new texts, and where that stands: functions'
    names, each with its file, its lines, what a check is asked for to prove it and whether another crate
    may call it; or None among these."""

    def __init__(self, crate, path):
        self.path, self.pairs = path, []
        file = old = None
        for line in pathlib.Path(path).read_text().split("\n"):
            key, _, rest = line.partition(": ") if ": " in line else line.partition(":")
            if key == "file":
                file = rest.strip()
            elif key == "old":
                old = rest
            elif key == "new":
                self.pairs.append((file, old, rest))
        texts = {}
        self.places = [self.place(crate, texts, *pair) for pair in self.pairs]

    @staticmethod
    def place(crate, texts, file, old, new):
        """The name, the file and the lines of the function whose body has a text, or None. The texts
        of files are as earlier pairs have left them, and this one changes its own."""
        path = pathlib.Path(crate.folder) / str(file)
        text = texts.get(file) or (path.read_text() if path.is_file() else "")
        if not str(file).startswith("src/") or text.count(old) != 1:
            return None
        texts[file] = text.replace(old, new)
        lines = text.split("\n")
        at = text[: text.index(old)].count("\n")
        # A body may be given behind a clause, or begin behind the brace that opens it.
        is_body = new.startswith(f"{old} {{") or old.endswith("{") and new.startswith(old)
        found = function_at(lines, at, is_body)
        if not found:
            return None
        name, begin = found
        indent = FN.match(lines[begin])[1]
        end = next((it for it in range(at, len(lines)) if lines[it] == f"{indent}}}"), at)
        is_method = FN.match(lines[begin])[1]
        kind = owner(lines, begin)
        asked = [kind, name] if kind else module(file) + ([] if is_method else [name])
        return name, file, range(begin + 1, end + 2), "::".join(asked), is_open(lines, begin)

    def stands_alone(self):
        """Whether it changes something else than functions' bodies."""
        return not self.places or None in self.places

    def names(self):
        """The names of the functions, each with its file."""
        return {(name, file) for name, file, *_ in self.places}

    def asked(self):
        """What a check is asked for to prove the functions."""
        return {it for *_, it, _ in self.places}

    def files(self):
        """The files that the functions are in."""
        return {file for _, file, *_ in self.places}

    def is_open(self):
        """Whether another crate may call one of them."""
        return any(it for *_, it in self.places)

    def joins(self, group, texts, crate):
        """Whether it can be tried with others. Then the texts have its words too."""
        if self.names() & {it for other in group for it in other.names()}:
            return False
        changed = {}
        for file, old, new in self.pairs:
            text = changed.get(file) or texts.get(file)
            text = text or (pathlib.Path(crate.folder) / file).read_text()
            if text.count(old) != 1:
                return False
            changed[file] = text.replace(old, new)
        texts.update(changed)
        return True

    def refusal(self, lines, names):
        """The line that says that a function of it is not proved, and not for what it calls, in a check
        that turns the functions with these names; or None."""
        for line in lines:
            for name, file, within, *_ in self.places:
                is_one = sum(other == name for other, _ in names) == 1
                if is_of(line, name, None if is_one else file):
                    return line
                if is_in(line, name, None if is_one else file) or is_at(line, file, within):
                    return line
        return None


def is_open(lines, begin):
    """Whether another crate may call the function that begins at a line, as far as its own words tell: it
    is `pub`, or a trait has it."""
    if not FN.match(lines[begin])[1]:
        return lines[begin].startswith("pub ")
    head = next((it for it in lines[begin::-1] if re.match(r"(pub )?(unsafe )?(impl|trait)\b", it)), "")
    return lines[begin].lstrip().startswith("pub ") or " for " in head or "trait " in head


def module(file):
    """The names of the modules that a file is, below its crate."""
    names = file[len("src/") : -len(".rt")].split("/")
    return [] if names in (["lib"], ["main"]) else names


def speaks_of(line, name, file=None):
    """What a line says of a function, if it says something of it. If a file is given, of the one in its
    modules: but a method in another file than its type's is named by the modules of the type."""
    said = SAYS.fullmatch(line)
    if not said:
        return None
    _, *path = (re.sub(r"\+.*", "", it) for it in said[1].split("::"))
    within = module(file) if file else []
    return said[2] if path[: len(within)] == within and name in path[len(within) :] else None


def is_of(line, name, file):
    """Whether a line says of a function that it is not proved, for itself."""
    said = speaks_of(line, name, file) or ""
    return said == "not proved" or said.startswith("no proof") and "did not prove" in said


def is_in(line, name, file):
    """Whether a line tells of what is refused in what is written of a function's proof."""
    folder = "/".join([*module(file), ""]) if file else ""
    return bool(re.match(rf"(\./)?proofs/{folder}(.*/)?{name}/\w+\.antt:\d+:\d+: error", line))


def is_at(line, file, within):
    """Whether a line tells of what is not proved at these lines of a file."""
    at = re.match(r"(?:note: )?(?:\./)?(src/\S+?):(\d+):\d+: (?:error: )?it is not proved", line)
    return bool(at) and at[1] == file and int(at[2]) in within


def lacks_more(line, names):
    """Whether a line says of a function with none of these names that it is not proved, and not for what
    it stands on alone."""
    said = SAYS.fullmatch(line)
    settled = "proved", "no holes", "depends on a hole", "assumed"
    if not said or said[2].startswith(settled) or LACKS.fullmatch(said[2]):
        return False
    return not any(speaks_of(line, name) for name, _ in names)


def groups(crate, edits):
    """The edits, in as few groups as turn different functions, each with the texts that it leaves."""
    found = []
    for path in edits:
        it = WrongBody(crate, path)
        if it.stands_alone():
            continue
        for group, texts in found:
            if it.joins(group, texts, crate):
                group.append(it)
                break
        else:
            texts = {}
            if it.joins([], texts, crate):
                found.append(([it], texts))
    return found


def of_the_gate(crate, paths):
    """Chooses of these edits the first by name of each function that another crate may call, and the first
    of each file that has no such function. Those that change more than functions' bodies are all chosen."""
    grouped = groups(crate, paths)
    group = grouped[0][0] if grouped else []
    found = [it for it in group if it.is_open()]
    for it in group:
        if not any(it.files() & other.files() for other in found):
            found.append(it)
    alone = [path for path in paths if WrongBody(crate, path).stands_alone()]
    return [it.path for it in found] + alone


def one_of_each_file(crate, paths):
    """Chooses of these edits one of each file: the first by name of a function that another crate may
    call, or else the first."""
    bodies = [WrongBody(crate, path) for path in paths]
    bodies.sort(key=lambda it: (it.stands_alone(), it.stands_alone() or not it.is_open()))
    found, covered = [], set()
    for it in bodies:
        files = {file for file, *_ in it.pairs}
        if not files <= covered:
            found.append(it.path)
            covered |= files
    return found
