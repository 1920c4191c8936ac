"""Looks at what a check of proofs does not see, or only after hours. It needs no program.

    python3 build/looks.py layout | wrong-bodies | scripts

`layout`: each crate is laid out as `rt fmt` does it. `wrong-bodies`: each text in `must-fail` can be
applied to its crate as it stands. `scripts`: each script of the repository has the names that it uses.
What fails is printed, and then `N passed, M failed`; with a failure the status is 1."""

import ast
import builtins
import os
import pathlib
import re
import subprocess
import symtable
import sys
import types

import toolchain

TOP = pathlib.Path(__file__).resolve().parent.parent
FOLDERS = ("bench", "build", "clients", "console", "examples", "faults")
# A path in the text of a shell script. What is built is there only once it is.
PATH = re.compile(r"(?<![\w./-])(?:bench|build|clients|console|crates|docs|examples|faults)/[\w./-]*\w")


def crates():
    return sorted(it.parent for it in TOP.glob("crates/*/src"))


def layout():
    """What is wrong with the layout of each crate."""
    rt = toolchain.rt()
    for it in crates():
        with open(os.devnull, "w") as nowhere:
            status = rt.rtlib.fmt(str(it), "--check", sys.stdout, diff=nowhere)
        yield it, f"rt fmt --check ends with {status}" if status else None


def wrong_bodies():
    """Why a text of a wrong body cannot be applied, of each."""
    rt = toolchain.rt()
    for crate in crates():
        good, bad = rt.edits_of(types.SimpleNamespace(folder=str(crate)))
        for it in good:
            yield it, rt.read_edit(it, str(crate))[1]
        for it in bad:
            yield it, "this file is no wrong body"


def is_work(statement):
    """Whether a statement is what a script does, once it has what it needs."""
    calls = isinstance(statement, ast.Expr) and any(
        isinstance(it, ast.Name) and it.id == "main" for it in ast.walk(statement))
    return calls or isinstance(statement, (ast.For, ast.While, ast.With))


def names_in(table):
    """The symbols of the module, where it gives or uses them itself, or a function does."""
    for it in table.get_symbols():
        if table.get_type() == "module" or it.is_global():
            yield it
    for child in table.get_children():
        yield from names_in(child)


def lacking(tree, text, space):
    """The names that a script uses, and that nothing has: its own, and those of modules."""
    names = list(names_in(symtable.symtable(text, "script", "exec")))
    given = {it.get_name() for it in names if it.is_assigned() or it.is_imported()}
    yield from {it.get_name() for it in names} - given - {*vars(builtins), *space}
    for it in ast.walk(tree):
        if isinstance(it, ast.Attribute) and isinstance(it.value, ast.Name):
            module = space.get(it.value.id)
            if isinstance(module, types.ModuleType) and not hasattr(module, it.attr):
                yield f"{it.value.id}.{it.attr}"


def look_at_python(file):
    """Imports what the script imports, as it is done when it is started, and returns what it lacks."""
    text, root, package = file.read_text(), file.parent, []
    while (root / "__init__.py").exists():
        root, package = root.parent, [root.name, *package]
    tree = ast.parse(text)
    # An example of the client is started with its package on the path, as its README says.
    sys.path[0], sys.argv = str(root), [str(file)]
    sys.path.append(str(TOP / "clients/python"))
    left = [it for it in tree.body if not is_work(it)]
    made = types.ModuleType("script")
    made.__file__, made.__package__ = str(file), ".".join(package)
    sys.modules[made.__name__] = made
    exec(compile(ast.Module(left, []), str(file), "exec"), vars(made))
    return ", ".join(sorted(set(lacking(tree, text, vars(made)))))


def look_at_shell(file):
    """What a shell script lacks: it can be read, and each place that it names is there."""
    read = subprocess.run(["sh", "-n", file], capture_output=True, text=True)
    names = {it for it in PATH.findall(file.read_text()) if "/out/" not in it}
    return read.stderr or ", ".join(sorted(it for it in names if not TOP.joinpath(it).exists()))


def scripts():
    """What each script lacks. Those of Python are imported each by a process of its own, since some
    modules of different folders have one name."""
    for file in sorted(it for folder in FOLDERS for it in TOP.glob(f"{folder}/**/*")):
        first = file.read_bytes()[:40].split(b"\n")[0] if file.is_file() else b""
        if file.suffix == ".py" or first.startswith(b"#!") and b"python" in first:
            ran = subprocess.run([sys.executable, __file__, "python", file], text=True,
                                 stdout=subprocess.PIPE, stderr=subprocess.STDOUT)
            yield file, ran.stdout.strip() or ran.returncode or None
        elif file.suffix == ".sh" or first == b"#!/bin/sh":
            yield file, look_at_shell(file) or None


LOOKS = {"layout": layout, "wrong-bodies": wrong_bodies, "scripts": scripts}


def main():
    if sys.argv[1] == "python":
        return print(look_at_python(pathlib.Path(sys.argv[2])))
    passed = failed = 0
    for it, why in LOOKS[sys.argv[1]]():
        passed, failed = passed + (not why), failed + bool(why)
        if why:
            print(f"{pathlib.Path(it).relative_to(TOP)}: {why}")
    print(f"{passed} passed, {failed} failed")
    sys.exit(1 if failed else 0)


if __name__ == "__main__":
    main()
